"""The catalog, the vertices and edges, and loading, as docs/language.md has them."""
import re
import reading  # finds the tools
from records import records_of
from values import Fault, LEAST, MOST, WIDEST, moment_of

DEFAULT = {"INT": ("I", 0), "UINT": ("U", 0), "BOOL": ("B", False), "STRING": ("S", ""), "DATETIME": ("D", 0)}


class Unreadable(Exception):
    """A field isn't of its type."""


class Graph:
    """All that statements leave: types, graphs, vertices and edges, jobs and queries."""

    def __init__(self):
        self.types, self.graphs, self.used = {}, {}, None
        self.vertices, self.known, self.edges, self.pairs, self.of_type = [], {}, [], {}, {}
        self.jobs, self.queries, self.installed = {}, {}, set()

    def names_of(self, graph):
        """The names of the types that a graph has, in the order of the catalog; with each edge type its reverse."""
        wanted = self.graphs.get(graph, ())
        return [it for it, type_ in self.types.items() if it in wanted or type_.get("of") in wanted]

    def vertex(self, type_name, id_):
        """The number of a vertex, which is made with defaults where it isn't there."""
        if (type_name, id_) not in self.known:
            self.known[type_name, id_] = len(self.vertices)
            self.vertices.append({"type": type_name, "id": id_, "values": defaults(self.types[type_name], id_)})
        return self.known[type_name, id_]

    def put(self, type_name, values):
        """Upserts a vertex or an edge of values in the order of VALUES."""
        type_ = self.types[type_name]
        if type_["k"] == "vertex":
            at = self.vertex(type_name, id_text(values[0]))
            for attr, value in zip(type_["attrs"], values[1:]):
                self.vertices[at]["values"][attr["name"]] = value
            return
        ends = [self.vertex(type_[end], id_text(value)) for end, value in zip(("from", "to"), values)]
        attrs = type_["discs"] + type_["attrs"]
        told = tuple(it[1] for it in values[2:2 + len(type_["discs"])])
        name = (type_name, *(ends if type_["directed"] or type_["from"] != type_["to"] else sorted(ends)), told)
        if name not in self.pairs:
            self.pairs[name] = len(self.edges)
            self.of_type.setdefault(type_name, []).append(len(self.edges))
            self.edges.append({"type": type_name, "from": ends[0], "to": ends[1]})
        self.edges[self.pairs[name]]["values"] = {attr["name"]: value for attr, value in zip(attrs, values[2:])}

    def walks(self, number, type_name, ways=None):
        """The edges of a type, each with its other end, that can be walked from a vertex in these ways, in their order.

        Ways are ">", "<" and, for an undirected type, "". Without them the type is walked its own way."""
        type_, found = self.types[type_name], []
        ways = ways or {">" if type_["directed"] else ""}
        for at in self.of_type.get(type_.get("of", type_name), ()):
            edge = self.edges[at]
            near, far = (edge["to"], edge["from"]) if type_["k"] == "reverse" else (edge["from"], edge["to"])
            for way in (it for it in (">", "<", "") if it in ways):
                if way != "<" and near == number:
                    found.append((at, far))
                elif way != ">" and far == number:
                    found.append((at, near))
        return found


def id_text(value):
    return value[1] if value[0] == "S" else str(value[1])


def defaults(type_, id_):
    values = {}
    if type_["as_attribute"]:
        values[type_["id"]] = ("S", id_) if type_["id_type"] == "STRING" else ("I" if type_["id_type"] == "INT" else "U", int(id_))
    for attr in type_["attrs"]:
        values[attr["name"]] = default_of(attr)
    return values


def default_of(attr):
    return attr["default"] if attr.get("default") else DEFAULT[attr["type"]]


def unread_literal(value, base):
    """Whether a literal is no value of a type."""
    if base in ("INT", "UINT"):
        low, high = (LEAST, MOST) if base == "INT" else (0, WIDEST)
        return value[0] not in ("I", "U") or not low <= value[1] <= high
    if base == "DATETIME":
        return value[0] not in ("S", "D") or moment_of(value[1]) is None
    return value[0] != base[0]


def literal_value(value, base):
    """The value of a literal that is one of the type."""
    if base == "DATETIME":
        return ("D", moment_of(value[1]))
    return (base[0], value[1])


def fields_of_values(type_):
    """What VALUES has: the type of each value, and its attribute, or None for an id or a discriminator."""
    if type_["k"] == "vertex":
        return [(type_["id_type"], None)] + [(it["type"], it) for it in type_["attrs"]]
    ends = [(type_["id_types"][it], None) for it in ("from", "to")]
    return ends + [(it["type"], None) for it in type_["discs"]] + [(it["type"], it) for it in type_["attrs"]]


def field_value(data, type_name, attr):
    """The value of a field."""
    if type_name != "STRING":
        data = data.strip(b" \t")
    if not data and attr is None:
        raise Unreadable()
    if not data and type_name != "STRING":
        return default_of(attr)
    try:
        text = data.decode()
    except UnicodeDecodeError:
        raise Unreadable() from None
    if type_name == "STRING":
        return ("S", text)
    if type_name == "BOOL":
        if text.lower() not in ("true", "false", "1", "0"):
            raise Unreadable()
        return ("B", text.lower() in ("true", "1"))
    if type_name == "DATETIME":
        seconds = moment_of(text)
        if seconds is None:
            raise Unreadable()
        return ("D", seconds)
    if not re.fullmatch(r"[+-]?[0-9]+" if type_name == "INT" else r"\+?[0-9]+", text):
        raise Unreadable()
    low, high = (LEAST, MOST) if type_name == "INT" else (0, WIDEST)
    if not low <= int(text) <= high:
        raise Unreadable()
    return ("I" if type_name == "INT" else "U", int(text))


def load(graph, load_, path, data):
    """Loads a file by a LOAD; its report."""
    options = {it[0]: it[1] for it in load_["options"]}
    quote = {"double": b'"', "single": b"'"}.get(options.get("QUOTE"))
    records = [[field for _, field in fields] for _, _, fields in records_of(data, options.get("SEPARATOR", ",").encode(), quote)]
    header = {}
    if options.get("HEADER", "").lower() == "true":
        for at, name in reversed(list(enumerate(records[0] if records else []))):
            header[name] = at
        records = records[1:]
    routes = []
    for dest in load_["dests"]:
        places = []
        for col in dest["cols"]:
            if isinstance(col, str) and col != "_" and col.encode() not in header:
                raise Fault(f"no column {col}")
            places.append(None if col == "_" else header[col.encode()] if isinstance(col, str) else col)
        routes.append((dest["type"], places))
    loaded = short = unreadable = 0
    for record in records:
        if any(place is not None and place >= len(record) for _, places in routes for place in places):
            short += 1
            continue
        try:
            for type_name, values in [(name, route_values(graph, name, places, record)) for name, places in routes]:
                graph.put(type_name, values)
            loaded += 1
        except Unreadable:
            unreadable += 1
    return {"file": path, "lines": len(records), "loaded": loaded, "short": short, "unreadable": unreadable}


def route_values(graph, type_name, places, record):
    wanted = fields_of_values(graph.types[type_name])
    return [default_of(attr) if place is None else field_value(record[place], base, attr) for place, (base, attr) in zip(places, wanted)]
