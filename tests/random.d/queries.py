"""Makes queries: definitions, statements and expressions of the right types, over what is in view."""
from spell import item_name

NUMBERS = (0, 1, 2, 3, 5, 7, 10, 100)
WIDE = (9223372036854775807, 9223372036854775808, 18446744073709551615, 4611686018427387904)
NUM = ("INT", "UINT")
HOPS = ("", "", "", ' API ("v2")', " SYNTAX v1", ' SYNTAX V1 API ("v2")')
PATHS = (" SYNTAX v2", " SYNTAX V2", ' API ("v2") SYNTAX v2', ' SYNTAX v2 API ("v2")')
READS = {"Sum": None, "Min": None, "Max": None, "BitOr": "INT", "BitAnd": "INT", "Or": "BOOL", "And": "BOOL", "Avg": "AVG"}


def mentions(node, alias):
    """Whether an alias is named anywhere in a tree."""
    if isinstance(node, dict):
        return node.get("alias") == alias or any(mentions(it, alias) for it in node.values())
    if isinstance(node, (list, tuple)):
        return len(node) > 1 and node[0] in ("name", "att", "prev") and node[1] == alias or any(mentions(it, alias) for it in node)
    return False


class View:
    """What an expression may name: values by their type, collections by their kind, vertices and sets."""

    def __init__(self, of=None):
        self.values = list(of.values) if of else []
        self.collections = list(of.collections) if of else []
        self.sets = dict(of.sets) if of else {}
        self.locals = list(of.locals) if of else []
        self.in_block = of.in_block if of else False

    def of_type(self, *types):
        """Values of these types; a vertex of one type is a VERTEX too."""
        return [(type_, e) for type_, e in self.values if type_ in types or type_.startswith("VERTEX<") and "VERTEX" in types]


class Expressions:
    """Expressions of a type."""

    def __init__(self, maker):
        self.maker, self.rng, self.some = maker, maker.rng, maker.some
        self.count = 0

    def fresh(self, stem):
        self.count += 1
        return f"{stem}{self.count}"

    def expr(self, type_, view, depth=2):
        if type_ == "UINT" and self.some(0.93):
            return self.unsigned(view, depth)
        if type_ in NUM:
            return self.num(view, depth)
        if type_.startswith("VERTEX"):
            return self.rng.choice(view.of_type(type_))[1]
        if type_ in self.tuples:
            there = view.of_type(type_)
            return self.rng.choice(there)[1] if there and self.some(0.5) else ("make", type_, [self.expr(it[0], view, depth - 1) for it in self.tuples[type_]])
        return {"BOOL": self.truth, "STRING": self.text, "DATETIME": self.moment}[type_](view, depth)

    def can(self, type_, view):
        """Whether an expression of the type can be made."""
        if type_ in self.tuples:
            return all(self.can(it[0], view) for it in self.tuples[type_])
        return not type_.startswith("VERTEX") or bool(view.of_type(type_))

    def number(self):
        return ("num", self.rng.choice(WIDE) if self.some(0.03) else self.rng.choice(NUMBERS))

    def unsigned(self, view, depth):
        """A number that is mostly not below 0."""
        leaves = view.of_type("UINT")
        if depth <= 0 or self.some(0.4):
            return self.tamed(self.rng.choice(leaves)[1]) if leaves and self.some(0.6) else self.number()
        if self.some(0.5):
            return ("call", "abs", [self.num(view, depth - 1)])
        return ("op", self.rng.choice("+*"), self.number(), self.unsigned(view, depth - 1))

    def num(self, view, depth):
        rng, leaves = self.rng, view.of_type("INT", "UINT")
        if depth <= 0 or self.some(0.3):
            return self.tamed(rng.choice(leaves)[1]) if leaves and self.some(0.75) else self.number()
        pick = rng.randint(0, 9)
        if pick < 4:
            sign = rng.choice("++--*/%")
            left, right = self.num(view, depth - 1), self.num(view, depth - 1)
            if sign in "/%" and self.some(0.7):
                right = ("num", rng.choice((1, 2, 3, 7)))
            return ("op", sign, left, right)
        if pick == 4:
            return ("neg", self.num(view, depth - 1)) if self.some(0.5) else ("call", "abs", [self.num(view, depth - 1)])
        if pick == 5:
            return self.part_of_moment(view, depth)
        return self.measure(view, depth) or self.num(view, depth - 1)

    def tamed(self, e):
        """A value that is the greatest or the least number where nothing was fed, mostly made smaller."""
        return ("op", "%", e, ("num", 7)) if e[-1] in self.wide and self.some(0.9) else e

    def part_of_moment(self, view, depth):
        name = self.rng.choice(("year", "month", "day", "hour", "minute", "second", "datetime_to_epoch", "datetime_diff"))
        return ("call", name, [self.moment(view, depth - 1) for _ in range(2 if name == "datetime_diff" else 1)])

    def measure(self, view, depth):
        """A size, a degree or what a map has."""
        rng = self.rng
        found = [("method", e, "size", []) for _, e in view.collections + self.inner(view, depth)]
        vertices = [e for _, e in view.of_type("VERTEX")]
        found += [("method", e, "outdegree", []) for e in vertices]
        found += [("method", e, "outdegree", [("text", it)]) for e in vertices for it in self.edge_names]
        found += [("method", ("name", it), "size", []) for it in view.sets] * (not view.in_block)
        for kind, e in view.collections:
            found += [it for type_, it in self.gets(kind, e, view, depth) if type_ in NUM]
        found += [("dot", self.expr(name, view, 0), field) for name, fields in self.tuples.items() if self.can(name, view) for type_, field in fields if type_ in NUM]
        return rng.choice(found) if found else None

    def gets(self, kind, e, view, depth):
        """What `get` of a map or a group gives, with its type."""
        keys = [kind[1]] if kind[0] == "Map" else [it[0] for it in kind[1]] if kind[0] == "Group" else []
        if not keys or not all(self.can(it, view) for it in keys):
            return []
        it = ("method", e, "get", [self.expr(type_, view, depth - 1) for type_ in keys])
        parts = [(kind[2], it)] if kind[0] == "Map" else [(part, ("dot", it, name)) for part, name in kind[2]]
        return [(READS[part[0]] or part[1], it) for part, it in parts if part[0] in READS]

    def inner(self, view, depth):
        """The collections that maps and groups have, by `get`."""
        return [it for kind, e in view.collections for it in self.within(kind, e, view, min(depth, 1), 3)]

    def within(self, kind, e, view, depth, levels):
        """Those of one map or group, and those that these have."""
        keys = [kind[1]] if kind[0] == "Map" else [it[0] for it in kind[1]] if kind[0] == "Group" else []
        if not levels or not keys or not all(self.can(it, view) for it in keys):
            return []
        it = ("method", e, "get", [self.expr(type_, view, depth - 1) for type_ in keys])
        parts = [(kind[2], it)] if kind[0] == "Map" else [(part, ("dot", it, name)) for part, name in kind[2]]
        found = [(part, it) for part, it in parts if part[0] not in READS]
        return found + [more for part, it in found for more in self.within(part, it, view, depth, levels - 1)]

    def truth(self, view, depth):
        rng, leaves = self.rng, view.of_type("BOOL")
        if depth <= 0 or self.some(0.15):
            return rng.choice(leaves)[1] if leaves and self.some(0.7) else ("truth", self.some(0.7))
        pick = rng.randint(0, 9)
        sign = rng.choice(("==", "!=", "<>", "<", "<=", ">", ">="))
        if pick < 4:
            averages = view.of_type("AVG")
            left = rng.choice(averages)[1] if averages and self.some(0.3) else self.num(view, depth - 1)
            return ("op", sign, left, self.num(view, depth - 1))
        if pick == 4:
            return ("op", sign, self.text(view, depth - 1), self.text(view, depth - 1))
        if pick == 5:
            return ("op", sign, self.moment(view, depth - 1), self.moment(view, depth - 1))
        if pick == 6:
            vertices, sign = view.of_type("VERTEX"), rng.choice(("==", "!="))
            if vertices and self.some(0.6):
                return ("op", sign, rng.choice(vertices)[1], rng.choice(vertices)[1])
            return ("op", sign, self.truth(view, depth - 1), self.truth(view, depth - 1))
        if pick == 7:
            return self.held(view, depth) or ("not", self.truth(view, depth - 1))
        if pick == 8:
            return ("not", self.truth(view, depth - 1))
        return (rng.choice(("and", "or")), self.truth(view, depth - 1), self.truth(view, depth - 1))

    def held(self, view, depth):
        found = []
        for kind, e in view.collections:
            if kind[0] in ("Set", "Bag", "List") and self.can(kind[1], view):
                found.append(("method", e, "contains", [self.expr(kind[1], view, depth - 1)]))
            keys = [kind[1]] if kind[0] == "Map" else [it[0] for it in kind[1]] if kind[0] == "Group" else []
            if keys and all(self.can(it, view) for it in keys):
                found.append(("method", e, "containsKey", [self.expr(it, view, depth - 1) for it in keys]))
            found += [it for type_, it in self.gets(kind, e, view, depth) if type_ == "BOOL"]
        return self.rng.choice(found) if found else None

    def text(self, view, depth):
        rng, leaves = self.rng, view.of_type("STRING")
        if depth <= 0 or self.some(0.4):
            return rng.choice(leaves)[1] if leaves and self.some(0.7) else ("text", rng.choice(("", "a", "x", "é", "q\"\\", "tab\tline\n")))
        pick = rng.randint(0, 2)
        if pick == 0:
            return ("op", "+", self.text(view, depth - 1), self.text(view, depth - 1))
        if pick == 1:
            return ("call", "to_string", [self.expr(rng.choice(("INT", "BOOL", "STRING")), view, depth - 1)])
        vertices = view.of_type("VERTEX")
        return ("dot", rng.choice(vertices)[1], "type") if vertices else ("text", "b")

    def moment(self, view, depth):
        rng, leaves = self.rng, view.of_type("DATETIME")
        if leaves and self.some(0.5):
            return rng.choice(leaves)[1]
        pick = rng.randint(0, 2)
        if depth <= 0 or pick == 0:
            texts = ("2024-02-29", "2023-12-31 23:59:59", "1970-01-01T00:00:00Z", "1900/03/01", "0003-01-31", "86400")
            return ("call", "to_datetime", [("text", rng.choice(texts) if not self.some(0.02) else "2023-02-30")])
        if pick == 1:
            return ("call", "epoch_to_datetime", [("op", "%", self.num(view, depth - 1), ("num", 100000))])
        unit = rng.choice(("YEAR", "MONTH", "DAY", "HOUR", "MINUTE", "SECOND", "month", "Day"))
        return ("call", "datetime_add", [self.moment(view, depth - 1), ("op", "%", self.num(view, depth - 1), ("num", 50)), ("text", unit)])


class QueryMaker(Expressions):
    """A query."""

    def query(self, k, name):
        self.tuples, self.accs, self.wide, rng = {}, [], set(), self.rng
        self.edge_names = [it for type_ in self.maker.edge_types for it in (type_["name"], type_["reverse"]) if it]
        self.paths = self.some(0.35)
        params = [self.param() for _ in range(rng.choice((0, 1, 2, 3)))] if k == "query" else []
        view = View()
        view.values = [(it["type"], ("name", it["name"])) for it in params]
        for it in params:
            if it["type"].startswith("VERTEX<"):
                view.values += self.attributes(it["name"], [it["type"][7:-1]])
        tuples = [self.tuple_type() for _ in range(rng.choice((0, 0, 1)))]
        self.levels = 7 if self.some(0.05) else 2
        accs = [self.group_of_accs(view) for _ in range(rng.choice((0, 1, 2, 3, 5)))]
        for kind, name_ in self.accs:
            if name_.startswith("@@"):
                self.see(view, kind, ("global", name_))
        body = self.block(view, rng.choice((2, 4, 6, 9)), 2)
        body = body + [self.last_print(view)] if not self.some(0.01) else []
        graph = self.maker.graph if self.some(0.7) or self.maker.graph != self.maker.used else None
        return {"k": k, "name": name, "params": params, "graph": graph, "tuples": tuples, "accs": accs, "body": body,
                "modes": rng.choice(PATHS if self.paths else HOPS), "replace": self.some(0.2)}

    def param(self):
        rng = self.rng
        base = rng.choice(("INT", "UINT", "BOOL", "STRING", "VERTEX", f"VERTEX<{rng.choice(self.maker.vertex_types)['name']}>"))
        default = None if base.startswith("VERTEX") or self.some(0.6) else self.maker.literal(base, "param")
        return {"name": self.fresh("p"), "type": base, "default": default}

    def tuple_type(self):
        name = self.fresh("T")
        fields = [[self.rng.choice(("INT", "UINT", "BOOL", "STRING", self.vertex())), f"f{at}"] for at in range(self.rng.randint(1, 3))]
        self.tuples[name] = fields
        return {"name": name, "fields": fields}

    def see(self, view, kind, e):
        """Puts an accumulator into view."""
        if kind[0] in ("Min", "Max"):
            self.wide.add(e[-1])
        if kind[0] in READS:
            view.values.append((READS[kind[0]] or kind[1], e))
        else:
            view.collections.append((kind, e))

    def base(self):
        return self.rng.choice(("INT", "INT", "UINT", "BOOL", "STRING", self.vertex()))

    def vertex(self):
        """A type of vertices."""
        return f"VERTEX<{self.rng.choice(self.all_types())}>" if self.some(0.3) else "VERTEX"

    def kind(self, depth=None, within=False):
        rng, depth = self.rng, self.levels if depth is None else depth
        name = rng.choice(("Sum", "Sum", "Min", "Max", "Avg", "Or", "And", "BitOr", "BitAnd", "Set", "Bag", "List", "Map", "Map", "Group", "Heap"))
        if name == "List" and within or name == "Heap" and not self.tuples or depth == 0 and name in ("Map", "Group"):
            return self.kind(depth, within)
        if name in ("Sum", "Min", "Max"):
            return [name, rng.choice(NUM)]
        if name in ("Set", "Bag", "List"):
            return [name, rng.choice(list(self.tuples)) if self.tuples and not within and self.some(0.3) else self.base()]
        if name == "Map":
            return [name, self.base(), ["Sum", rng.choice(NUM), "plain"] if self.some(0.3) else self.kind(depth - 1, True)]
        if name == "Group":
            keys = [[self.base(), f"k{at}"] for at in range(rng.randint(1, 2))]
            return [name, keys, [[self.kind(0, True), f"a{at}"] for at in range(rng.randint(1, 3))]]
        if name == "Heap":
            of = rng.choice(list(self.tuples))
            fields = [it[1] for it in self.tuples[of] if it[0] not in ("BOOL", "VERTEX")]
            if not fields:
                return self.kind(depth, within)
            return [name, of, rng.randint(1, 4), [[it, self.some(0.5)] for it in rng.sample(fields, rng.randint(1, len(fields)))]]
        return [name] + [{"Or": "BOOL", "And": "BOOL"}.get(name, "INT")] * (name != "Avg" and self.some(0.3))

    def group_of_accs(self, view):
        kind, names = self.kind(), []
        for _ in range(self.rng.choice((1, 1, 2))):
            name = ("@@" if self.some(0.55) else "@") + self.fresh("x")
            opens = self.expr(self.wanted(kind), view, 1) if kind[0] in READS and kind[0] != "Avg" and self.some(0.25) else None
            names.append({"name": name, "open": opens})
            self.accs.append((kind, name))
        return {"kind": kind, "vars": names}

    def wanted(self, kind):
        return {"Avg": "INT", "Or": "BOOL", "And": "BOOL", "BitOr": "INT", "BitAnd": "INT"}.get(kind[0]) or kind[1]

    def input(self, kind, view, depth=1):
        """An input of a kind, or None where none can be made."""
        if kind[0] in ("Map", "Group"):
            keys = [kind[1]] if kind[0] == "Map" else [it[0] for it in kind[1]]
            parts = [kind[2]] if kind[0] == "Map" else [it[0] for it in kind[2]]
            inputs = [self.input(it, view, depth) for it in parts]
            if None in inputs or not all(self.can(it, view) for it in keys):
                return None
            return ("->", [self.expr(it, view, depth) for it in keys], inputs)
        wanted = self.wanted(kind)
        return ("in", self.expr(wanted, view, depth)) if self.can(wanted, view) else None

    # Statements

    def block(self, view, most, depth):
        found = []
        for _ in range(most):
            it = self.statement(view, depth)
            if it:
                found.append(it)
        return found

    def statement(self, view, depth):
        pick = self.rng.randint(0, 19)
        if pick < 3:
            return self.local(view)
        if pick == 3:
            return self.assign(view)
        if pick < 6:
            return self.feed(view)
        if pick < 8:
            return self.seeds(view)
        if pick < 13:
            return self.select(view)
        if pick < 15:
            return self.print_(view)
        return self.compound(view, depth) if depth else self.feed(view)

    def local(self, view):
        type_ = self.rng.choice(("INT", "UINT", "BOOL", "STRING", self.vertex()))
        if not self.can(type_, view):
            return None
        found = []
        for _ in range(self.rng.choice((1, 1, 2))):
            name = self.fresh("v")
            found.append((name, self.expr(type_, view, 2) if type_.startswith("VERTEX") or self.some(0.7) else None))
            self.see_variable(view, type_, name)
            view.locals.append((type_, name))
        return {"k": "local", "type": type_, "vars": found}

    def see_variable(self, view, type_, name):
        """Puts a variable into view, with the attributes of a vertex of one type."""
        view.values.append((type_, ("name", name)))
        if type_.startswith("VERTEX<"):
            view.values += self.attributes(name, [type_[7:-1]])

    def assign(self, view):
        if not view.locals:
            return None
        type_, name = self.rng.choice(view.locals)
        return {"k": "assign", "name": name, "expr": self.expr(type_, view, 2)}

    def globals_(self):
        return [it for it in self.accs if it[1].startswith("@@")]

    def attached(self):
        return [it for it in self.accs if not it[1].startswith("@@")]

    def feed(self, view):
        if not self.globals_():
            return None
        kind, name = self.rng.choice(self.globals_())
        if kind[0] in READS and kind[0] != "Avg" and self.some(0.25):
            return {"k": "put", "name": name, "expr": self.expr(self.wanted(kind), view, 2)}
        it = self.input(kind, view, 2)
        return {"k": "feed", "name": name, "input": it} if it else None

    def all_types(self):
        return [it["name"] for it in self.maker.vertex_types]

    def start(self, view):
        """A start of a set and its types."""
        rng = self.rng
        pick = rng.randint(0, 9)
        vertices = [(type_, e[1]) for type_, e in view.of_type("VERTEX") if e[0] == "name"]
        founds = [(kind[1], e[1]) for kind, e in view.collections if kind[0] == "Set" and kind[1].startswith("VERTEX") and e[0] == "global"]
        if pick == 0:
            return rng.choice((("any",), ("any", ".*"))), self.all_types()
        if pick == 1 and vertices:
            type_, name = rng.choice(vertices)
            return ("name", name), self.types_of(type_)
        if pick == 2 and founds:
            type_, name = rng.choice(founds)
            return ("global", name), self.types_of(type_)
        name = rng.choice(self.all_types())
        return ("all", name), [name]

    def types_of(self, type_):
        """The vertex types that a value of VERTEX or VERTEX<T> may have."""
        return [type_[7:-1]] if type_ != "VERTEX" else self.all_types()

    def part(self, view):
        if view.sets and self.some(0.5):
            name = self.rng.choice(list(view.sets))
            return ("set", name), list(view.sets[name])
        starts = [self.start(view) for _ in range(self.rng.choice((1, 1, 1, 2, 3)))]
        return ("seeds", [it for it, _ in starts]), [name for _, types in starts for name in types]

    def target(self, view, types):
        """The name of a set that takes vertices of the types, and what it is declared for."""
        wide = [name for name, held in view.sets.items() if set(types) <= set(held)]
        if wide and self.some(0.2):
            return self.rng.choice(wide), None
        name = self.fresh("S")
        declared = self.rng.choice(("ANY", types[0])) if len(set(types)) == 1 and self.some(0.15) else "ANY" if self.some(0.1) else None
        view.sets[name] = self.all_types() if declared == "ANY" else types
        return name, declared

    def seeds(self, view):
        if self.some(0.03):
            return self.assigned(view, {"k": "seeds", "parts": [("seeds", [])], "signs": []}, sorted(self.all_types()))
        parts = [self.part(view) for _ in range(self.rng.choice((1, 1, 2, 3)))]
        if len(parts) == 1 and parts[0][0][0] == "set" and self.some(0.7):
            parts.append(self.part(view))
        types, signs = set(parts[0][1]), []
        for _, held in parts[1:]:
            signs.append(self.rng.choice(("UNION", "INTERSECT", "MINUS") if types & set(held) else ("UNION", "MINUS")))
            types = types | set(held) if signs[-1] == "UNION" else types
        types = sorted(types)
        it = {"k": "seeds", "parts": [it for it, _ in parts], "signs": signs}
        return self.assigned(view, it, types)

    def assigned(self, view, it, types):
        """An assignment of a set of these types; a few have a name whose types are fewer. What is wrong in the set itself is refused before."""
        narrow = [name for name, held in view.sets.items() if not set(types) <= set(held)]
        if narrow and self.some(0.01):
            name = self.rng.choice(narrow)
            return dict(it, name=name, declared=None, refused=it.get("refused") or f"wider set {name}")
        if len(types) > 1 and self.some(0.01):
            name = self.fresh("S")
            return dict(it, name=name, declared=self.rng.choice(types), refused=it.get("refused") or f"wider set {name}")
        it["name"], it["declared"] = self.target(view, types)
        return it

    def compound(self, view, depth):
        rng = self.rng
        inner = View(view)
        pick = rng.randint(0, 3)
        if pick == 0:
            branches = [(self.truth(view, 2), self.block(View(view), 2, depth - 1)) for _ in range(rng.choice((1, 1, 2)))]
            other = self.block(inner, 2, depth - 1) if self.some(0.5) else [] if self.some(0.1) else None
            return {"k": "if", "branches": branches, "else": other if other is None or not other or other[0]["k"] != "if" else None}
        if pick == 1:
            endless = self.maker.case["turns"] and self.some(0.3)
            cond, limit = self.truth(view, 2), None if endless else self.number_small(view)
            return {"k": "while", "cond": cond, "limit": limit, "body": self.block(inner, 2, depth - 1)}
        name = self.fresh("i")
        founds = [(kind, e) for kind, e in view.collections + self.inner(view, 1) if kind[0] in ("Set", "Bag", "List", "Heap")]
        if pick == 2 and founds:
            kind, e = rng.choice(founds)
            if kind[1] in self.tuples:
                inner.values.append((kind[1], ("name", name)))
                inner.values += [(it[0], ("dot", ("name", name), it[1])) for it in self.tuples[kind[1]]]
            else:
                self.see_variable(inner, kind[1], name)
            return {"k": "each", "name": name, "over": e, "body": self.block(inner, 2, depth - 1)}
        inner.values.append(("INT", ("name", name)))
        low, high = ("num", rng.randint(0, 2)), self.number_small(view)
        return {"k": "range", "name": name, "low": low, "high": high, "body": self.block(inner, 2, depth - 1)}

    def number_small(self, view):
        return ("num", self.rng.randint(0, 4)) if self.some(0.8) else ("op", "%", self.num(view, 1), ("num", 5))

    # SELECT

    def attributes(self, alias, types):
        """The attributes that all of the types have."""
        made = [self.maker.type_named(it) for it in types]
        ids = [{("id", it["id_type"])} if it["as_attribute"] else set() for it in made]
        attrs = set.intersection(*({(a["name"], a["type"]) for a in it["attrs"] if a["name"] != "type"} | id_ for it, id_ in zip(made, ids)))
        return [(type_, ("dot", ("name", alias), name)) for name, type_ in sorted(attrs)]

    def bound(self, view, alias, types):
        """Puts an alias of vertices of the types into view."""
        view.values.append((f"VERTEX<{types[0]}>" if len(set(types)) == 1 else "VERTEX", ("name", alias)))
        view.values += self.attributes(alias, types)
        for kind, name in self.attached():
            self.see(view, kind, ("att", alias, name))

    def hop(self, view):
        rng = self.rng
        if not self.edge_names or self.some(0.3):
            return None
        if self.paths:
            return self.path()
        types = rng.choice(("ANY", "_", "")) if self.some(0.2) else rng.sample(self.edge_names, rng.randint(1, min(2, len(self.edge_names))))
        to = rng.choice(("ANY", "_", "")) if self.some(0.3) else rng.sample(self.all_types(), rng.randint(1, min(2, len(self.all_types()))))
        return {"types": types, "edge": self.fresh("e"), "to": to, "target": self.fresh("t")}

    def path(self):
        """A path of one to three steps; its last step is that of the aliases."""
        steps = [self.step() for _ in range(self.rng.choice((1, 1, 2, 2, 2, 3)))]
        types = list(dict.fromkeys(name for _, name in steps[-1]["ways"]))
        return {"steps": steps, "types": types, "edge": self.fresh("e"), "to": steps[-1]["to"], "target": self.fresh("t")}

    def step(self):
        rng, ways = self.rng, []
        for name in rng.choices(self.edge_names, k=rng.choice((1, 1, 2, 3))):
            ways.append((rng.choice("><") if self.directed(name) else "", name))
        return {"ways": ways, "to": rng.choice(("ANY", "_")) if self.some(0.5) else rng.sample(self.all_types(), rng.randint(1, min(2, len(self.all_types()))))}

    def directed(self, name):
        return all(it["directed"] for it in self.maker.edge_types if name in (it["name"], it["reverse"]))

    def step_pairs(self, step, sources):
        """The types of both ends of what a step can walk."""
        found = []
        for it in self.maker.edge_types:
            forwards, backwards = (it["from"], it["to"]), (it["to"], it["from"])
            for way, name in step["ways"]:
                if name in (it["name"], it["reverse"]):
                    turned = (way == "<") != (name == it["reverse"])
                    found += [forwards, backwards] if way == "" else [backwards if turned else forwards]
        return [(s, t) for s, t in found if s in sources and (not isinstance(step["to"], list) or t in step["to"])]

    def path_pairs(self, path, sources):
        """Those of the last step, from where the steps before it lead."""
        for step in path["steps"][:-1]:
            sources = {t for _, t in self.step_pairs(step, sources)}
        return self.step_pairs(path["steps"][-1], sources)

    def pairs(self, hop, sources):
        """The types of both ends of what a hop can walk."""
        if "steps" in hop:
            return self.path_pairs(hop, sources)
        names, found = hop["types"] if isinstance(hop["types"], list) else self.edge_names, []
        for it in self.maker.edge_types:
            forwards, backwards = (it["from"], it["to"]), (it["to"], it["from"])
            found += ([forwards] + ([] if it["directed"] else [backwards])) * (it["name"] in names) + [backwards] * (it["reverse"] in names)
        return [(s, t) for s, t in found if s in sources and (not isinstance(hop["to"], list) or t in hop["to"])]

    def last_pairs(self, hop):
        """Those of the hop, or of the last step, from wherever it begins."""
        return self.step_pairs(hop["steps"][-1], self.all_types()) if "steps" in hop else self.pairs(hop, self.all_types())

    def edge_bound(self, view, hop):
        names = hop["types"] if isinstance(hop["types"], list) else self.edge_names
        made = [it for it in self.maker.edge_types if it["name"] in names or it["reverse"] in names]
        attrs = set.intersection(*({(a["name"], a["type"]) for a in it["attrs"] + it["discs"] if a["name"] != "type"} for it in made))
        view.values += [(type_, ("dot", ("name", hop["edge"]), name)) for name, type_ in sorted(attrs)]
        view.values.append(("STRING", ("dot", ("name", hop["edge"]), "type")))

    def select(self, view):
        rng = self.rng
        source = rng.choice(list(view.sets)) if view.sets and self.some(0.8) else rng.choice(self.all_types())
        alias, hop = self.fresh("s"), self.hop(view)
        inside, types = View(view), {alias: view.sets.get(source, [source])}
        inside.in_block = True
        pairs = self.pairs(hop, types[alias]) if hop else []
        hop = hop if pairs else None
        if hop:
            types[hop["target"]] = hop["to"] if isinstance(hop["to"], list) else sorted({it for _, it in self.last_pairs(hop)})
        self.bound(inside, alias, types[alias])
        if hop:
            self.bound(inside, hop["target"], types[hop["target"]])
            self.edge_bound(inside, hop)
        chosen = rng.choice(list(types))
        after = View(view)
        after.in_block = True
        self.bound(after, chosen, types[chosen])
        it = {"k": "select", "from": source, "source": alias, "hop": hop, "alias": chosen}
        it["where"] = self.truth(inside, 2) if self.some(0.5) else None
        it["accum"] = self.acts(inside, list(types), 1, False) if self.some(0.7) else None
        it["post"] = self.post(view, types) if self.some(0.5) else None
        it["having"] = self.truth(after, 2) if self.some(0.25) else None
        keys = [(self.order_key(after), self.some(0.5)) for _ in range(rng.choice((1, 1, 2)))]
        it["order"] = keys if self.some(0.4) else None
        it["limit"] = (("neg", ("num", 1)) if self.some(0.1) else self.number_small(view)) if self.some(0.3) else None
        odd = self.odd_attributes(types) if self.some(0.02) else []
        if odd:
            alias, name = rng.choice(odd)
            it["where"], it["refused"] = ("op", "==", ("dot", ("name", alias), name), ("num", 1)), f"no attribute {name}"
        it["up"], it["post_word"] = rng.choice(("", " ASC")), rng.choice(("POST-ACCUM", "POST-ACCUM", "POST_ACCUM"))
        clauses = [it[name] for name in ("where", "accum", "post", "having", "order")]
        aliases = [it["source"]] + ([hop["edge"], hop["target"]] if hop else [])
        it["bare"] = [name for name in aliases if name != chosen and not mentions(clauses, name) and self.some(0.5)]
        return self.assigned(view, it, sorted(set(types[chosen])))

    def odd_attributes(self, types):
        """Attributes that only some of an alias's types have."""
        found = []
        for alias, of in types.items():
            made = [{(a["name"], a["type"]) for a in self.maker.type_named(it)["attrs"]} for it in of]
            shared = {name for name, _ in set.intersection(*made)} | {"id", "type"}
            found += [(alias, name) for it in made for name, _ in sorted(it) if name not in shared]
        return found

    def order_key(self, view):
        averages = view.of_type("AVG")
        if averages and self.some(0.3):
            return self.rng.choice(averages)[1]
        return self.text(view, 1) if self.some(0.4) else self.num(view, 1)

    def acts(self, view, aliases, depth, post):
        return [it for it in (self.act(view, aliases, depth, post) for _ in range(self.rng.choice((1, 2, 3)))) if it]

    def act(self, view, aliases, depth, post):
        if depth and self.some(0.2):
            branches = [(self.truth(view, 2), self.acts(view, aliases, 0, post)) for _ in range(self.rng.choice((1, 1, 2)))]
            other = self.acts(view, aliases, 0, post) if self.some(0.5) else None
            return {"k": "if", "branches": branches, "else": other or None} if all(it for _, it in branches) else None
        pool = [it for it in self.accs if (post or it[0][0] != "List") and (aliases or it[1].startswith("@@"))]
        if not pool:
            return None
        kind, name = self.rng.choice(pool)
        attached = not name.startswith("@@")
        head = {"alias": self.rng.choice(aliases), "name": name} if attached else {"name": name}
        if attached and post and kind[0] in READS and kind[0] != "Avg" and self.some(0.4):
            return {"k": "attput", **head, "expr": self.expr(self.wanted(kind), view, 2)}
        given = self.input(kind, view, 1)
        return {"k": "attfeed" if attached else "feed", **head, "input": given} if given else None

    def post(self, view, types):
        found = []
        for _ in range(self.rng.choice((1, 2, 3))):
            alias = self.rng.choice(list(types) + [None])
            inside = View(view)
            inside.in_block = True
            if alias:
                self.bound(inside, alias, types[alias])
                for kind, name in self.attached():
                    self.see(inside, kind, ("prev", alias, name))
            it = self.act(inside, [alias] if alias else [], 1, True)
            if it:
                found.append(it)
        return found

    # PRINT

    def items(self, view, most):
        """Items of a PRINT, each under another name."""
        found, names = [], set()
        for _ in range(most):
            item = {"e": self.printed(view), "as": None}
            if self.some(0.5) or item_name(item) in names:
                item["as"] = self.fresh("n")
            names.add(item_name(item))
            found.append(item)
        return found

    def printed(self, view):
        rng = self.rng
        shown = [e for _, e in view.collections + self.inner(view, 1)] + [e for _, e in view.of_type("AVG", "VERTEX", *self.tuples)]
        if shown and self.some(0.5):
            return rng.choice(shown)
        return self.expr(rng.choice(("INT", "INT", "BOOL", "STRING", "DATETIME")), view, 3)

    def print_(self, view):
        items, names = self.items(view, self.rng.choice((1, 1, 2, 3))), set()
        for name in self.rng.sample(list(view.sets), min(len(view.sets), self.rng.choice((0, 1, 1, 2)))):
            items.append(self.set_item(view, name))
        return {"k": "print", "items": items}

    def set_item(self, view, name):
        if self.some(0.5):
            return {"e": ("name", name), "as": self.fresh("n") if self.some(0.3) else None}
        inside = View(view)
        inside.sets = {}
        self.bound(inside, name, view.sets[name])
        inside.values = [it for it in inside.values if it[1] != ("name", name)]
        return {"set": name, "items": self.items(inside, self.rng.choice((1, 2, 3))), "as": self.fresh("n") if self.some(0.3) else None}

    def last_print(self, view):
        """All globals and all sets."""
        items = [{"e": e, "as": None} for e in [("global", name) for _, name in self.globals_()] + [("name", it) for it in view.sets]]
        return {"k": "print", "items": items or [{"e": ("num", 1), "as": None}]}
