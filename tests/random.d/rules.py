"""Why statements of the script are refused: the rules of docs/language.md, each statement's in the order in which that page has them."""
from graph import fields_of_values, unread_literal
from values import Fault, LEAST, MOST, WIDEST

MOST_TYPES = 256


def taken(graph, name):
    if name in graph.types:
        raise Fault(f"name taken {name}")


def no_type_twice(names):
    for at, name in enumerate(names):
        if name in names[:at]:
            raise Fault(f"attribute twice {name}")


def good_defaults(attrs):
    """Each DEFAULT is a value of its attribute's type."""
    for attr in attrs:
        it = attr.get("default")
        low, high = (LEAST, MOST) if attr["type"] == "INT" else (0, WIDEST)
        is_number = attr["type"] in ("INT", "UINT") and it and it[0] in ("I", "U") and low <= it[1] <= high
        if it and not is_number and it[0] != {"BOOL": "B", "STRING": "S"}.get(attr["type"]):
            raise Fault(f"bad default {attr['name']}")


def not_too_many(graph, more):
    if len(graph.types) + more > MOST_TYPES:
        raise Fault("too many")


def vertex(graph, it):
    taken(graph, it["name"])
    no_type_twice([it["id"]] * it["as_attribute"] + [attr["name"] for attr in it["attrs"]])
    good_defaults(it["attrs"])
    not_too_many(graph, 1)


def edge(graph, it):
    taken(graph, it["name"])
    if it["reverse"]:
        taken(graph, it["reverse"])
        if it["reverse"] == it["name"]:
            raise Fault(f"name taken {it['name']}")
    for end in (it["from"], it["to"]):
        if graph.types.get(end, {}).get("k") != "vertex":
            raise Fault(f"no such type {end}")
    no_type_twice([attr["name"] for attr in it["discs"] + it["attrs"]])
    good_defaults(it["attrs"])
    not_too_many(graph, 2 if it["reverse"] else 1)


def graph_of_types(graph, it):
    if it["name"] in graph.graphs:
        raise Fault(f"graph exists {it['name']}")
    for name in it["types"] if it["types"] != ["*"] else ():
        type_ = graph.types.get(name)
        type_ = graph.types[type_["of"]] if type_ and type_["k"] == "reverse" else type_
        if not type_ or type_["k"] == "edge" and not {type_["from"], type_["to"]} <= set(it["types"]):
            raise Fault(f"no such type {name}")


def known_graph(graph, name):
    if name not in graph.graphs:
        raise Fault(f"unknown name {name}")


def good_options(options):
    """The last of each option counts."""
    said = {it[0]: it[1] for it in options}
    quote = {"double": '"', "single": "'"}.get(said.get("QUOTE"))
    separator = said.get("SEPARATOR", ",")
    if said.get("QUOTE") not in (None, "double", "single") or len(separator) != 1 or ord(separator) > 127 or separator in (quote, "\n", "\r"):
        raise Fault("bad option")


def job(graph, it):
    if it["name"] in graph.jobs:
        raise Fault(f"name taken {it['name']}")
    known_graph(graph, it["graph"])
    names, files = graph.names_of(it["graph"]), [name for name, _ in it["files"]]
    for load in it["loads"]:
        good_options(load["options"])
        if load["named"] and load["file"] not in files:
            raise Fault(f"unknown name {load['file']}")
        for dest in load["dests"]:
            type_ = graph.types.get(dest["type"]) if dest["type"] in names else None
            if not type_ or type_["k"] != dest["word"].lower():
                raise Fault(f"no such type {dest['type']}")
            wanted = fields_of_values(type_)
            if len(wanted) != len(dest["cols"]):
                raise Fault(f"wrong number of values {dest['type']}")
            if any(col == "_" and attr is None for col, (_, attr) in zip(dest["cols"], wanted)):
                raise Fault("not allowed here")


def insert(graph, it):
    type_ = graph.types.get(it["type"])
    if not type_ or type_["k"] == "reverse":
        raise Fault(f"no such type {it['type']}")
    wanted = fields_of_values(type_)
    ids = 1 if type_["k"] == "vertex" else 2
    if len(wanted) != len(it["values"]):
        raise Fault(f"wrong number of values {it['type']}")
    for at, (value, (_, attr)) in enumerate(zip(it["values"], wanted)):
        if attr is None and (value is None or at < ids and value == ("S", "")):
            raise Fault("not allowed here")
    for value, (base, _) in zip(it["values"], wanted):
        if value is not None and unread_literal(value, base):
            raise Fault("type mismatch")


def query(graph, it):
    """What is refused before the query's own text is judged."""
    modes = it["modes"].upper().replace("(", " ").replace(")", " ").split()
    versions = [(name, value) for name, value in zip(modes, modes[1:]) if name in ("API", "SYNTAX")]
    good = all(value in ('"V2"',) if name == "API" else value in ("V1", "V2") for name, value in versions)
    if not good or len({name for name, _ in versions}) < len(versions):
        raise Fault("bad option")
    if it["k"] == "query" and it["name"] in graph.queries and not it["replace"]:
        raise Fault(f"name taken {it['name']}")
    if it["graph"]:
        known_graph(graph, it["graph"])
