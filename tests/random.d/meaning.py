"""What expressions and the statements of a query's body mean, by docs/language.md: a plain interpreter over the tree that the generator built."""
from contents import content_of, fed, got, holds_key, judged, opening, shown, taken, value_of
from values import (FIRST, LAST, Fault, converted, days_of, key, listed, moment_of, number, objected, parts_of, seconds_of)
from spell import item_name


class World:
    """What a run of a query sees of the graph."""

    def __init__(self, graph, graph_name):
        self.graph, self.vertices = graph, graph.vertices
        self.types = graph.names_of(graph_name)
        self.fields = {}

    def edge_types(self):
        return [it for it in self.types if self.graph.types[it]["k"] != "vertex"]

    def all_of(self, types):
        return [at for at, it in enumerate(self.vertices) if it["type"] in types and it["type"] in self.types]


class Run:
    """A run of a query."""

    def __init__(self, world, query, arguments, turns):
        self.world, self.turns, self.bound = world, turns, turns
        self.scopes, self.sets, self.bound_names, self.printed = [dict(arguments)], {}, {}, []
        self.kinds, self.globals, self.attached, self.openings = {}, {}, {}, {}
        self.before = None
        for it in query["tuples"]:
            world.fields[it["name"]] = [field[1] for field in it["fields"]]
        self.tuples = {it["name"]: it["fields"] for it in query["tuples"]}
        for group in query["accs"]:
            kind = self.with_fields(group["kind"])
            for it in group["vars"]:
                self.declare(kind, it)

    def with_fields(self, kind):
        """A kind whose heaps know the fields of their tuples."""
        if kind[0] == "Heap":
            return [*kind[:4], self.world.fields[kind[1]]]
        if kind[0] == "Map":
            return ["Map", kind[1], self.with_fields(kind[2])]
        return ["Group", kind[1], [[self.with_fields(it), name] for it, name in kind[2]]] if kind[0] == "Group" else kind

    def declare(self, kind, it):
        name = it["name"]
        self.kinds[name] = kind
        # (that of a vertex is evaluated where there are vertices)
        is_evaluated = it["open"] and (name.startswith("@@") or self.world.vertices)
        self.openings[name] = content_of(kind, self.value(it["open"])) if is_evaluated else opening(kind)
        if name.startswith("@@"):
            self.globals[name] = self.openings[name]
        else:
            self.attached[name] = {}

    # Names

    def look_up(self, name):
        if name in self.bound_names:
            return self.bound_names[name]
        for scope in reversed(self.scopes):
            if name in scope:
                return scope[name][1]
        if name in self.sets:
            return ("set", self.sets[name])
        raise KeyError(name)

    def content(self, name, vertex=None):
        return self.globals[name] if vertex is None else self.attached[name].get(vertex, self.openings[name])

    # Expressions

    def value(self, e):
        return getattr(self, "of_" + e[0])(*e[1:])

    def of_num(self, n):
        return ("I" if n < 1 << 63 else "U", n)

    def of_text(self, text):
        return ("S", text)

    def of_truth(self, it):
        return ("B", it)

    def of_name(self, name):
        return self.look_up(name)

    def of_global(self, name):
        return value_of(self.kinds[name], self.content(name))

    def of_att(self, alias, name):
        return value_of(self.kinds[name], self.content(name, self.look_up(alias)[1]))

    def of_prev(self, alias, name):
        return value_of(self.kinds[name], self.before[name].get(self.look_up(alias)[1], self.openings[name]))

    def of_dot(self, of, name):
        it = self.value(of)
        if it[0] == "R":
            return it[1][name]
        if it[0] == "T":
            return it[2][[field[1] for field in self.tuples[it[1]]].index(name)]
        if name == "type":
            return ("S", it[2] if it[0] == "E" else self.world.vertices[it[1]]["type"])
        return (self.world.graph.edges if it[0] == "E" else self.world.vertices)[it[1]]["values"][name]

    def of_and(self, left, right):
        return ("B", self.value(left)[1] and self.value(right)[1])

    def of_or(self, left, right):
        return ("B", self.value(left)[1] or self.value(right)[1])

    def of_not(self, it):
        return ("B", not self.value(it)[1])

    def of_neg(self, it):
        return number("I", -self.value(it)[1])

    def of_op(self, sign, left, right):
        left, right = self.value(left), self.value(right)
        if sign in ("==", "!=", "<>", "<", "<=", ">", ">="):
            return ("B", compared(sign, key(left), key(right)))
        if left[0] == "S":
            return ("S", left[1] + right[1])
        letter, x, y = "U" if left[0] == right[0] == "U" else "I", left[1], right[1]
        if sign in ("/", "%"):
            if y == 0:
                raise Fault("division by zero")
            cut = abs(x) // abs(y) * (1 if (x < 0) == (y < 0) else -1)
            return number(letter, cut if sign == "/" else x - cut * y)
        return number(letter, x + y if sign == "+" else x - y if sign == "-" else x * y)

    def of_make(self, name, args):
        return ("T", name, tuple(converted(self.value(it), field[0]) for it, field in zip(args, self.tuples[name])))

    def of_call(self, name, args):
        it = [self.value(arg) for arg in args]
        if name == "to_string":
            return ("S", it[0][1] if it[0][0] == "S" else ("true" if it[0][1] else "false") if it[0][0] == "B" else str(it[0][1]))
        if name == "abs":
            return number(it[0][0], abs(it[0][1]))
        return called(name, it)

    def of_method(self, of, name, args):
        it = self.value(of)
        args = [self.value(arg) for arg in args]
        if name == "size":
            return ("I", len(it[1] if it[0] == "set" else it[2]))
        if name == "contains":
            return ("B", converted(args[0], it[1][1]) in it[2])
        if name == "containsKey":
            return ("B", holds_key(it[1], it[2], args))
        if name == "get":
            return got(it[1], it[2], args)
        types = [args[0][1]] if args else self.world.edge_types()
        return ("I", sum(len(self.world.graph.walks(it[1], type_)) for type_ in types))

    def given(self, it):
        """The value of an input, before the types of its kind count."""
        if it[0] == "in":
            return self.value(it[1])
        return ("->", [self.value(e) for e in it[1]], [self.given(e) for e in it[2]])


def compared(sign, x, y):
    return {"==": x == y, "!=": x != y, "<>": x != y}[sign] if sign in ("==", "!=", "<>") else \
        {"<": x < y, "<=": x <= y, ">": x > y, ">=": x >= y}[sign]


def moment(seconds):
    if seconds is None or not FIRST <= seconds <= LAST:
        raise Fault("number out of range")
    return ("D", seconds)


def called(name, it):
    """The functions of moments."""
    if name == "to_datetime":
        return moment(moment_of(it[0][1]))
    if name == "epoch_to_datetime":
        return moment(it[0][1])
    if name == "datetime_to_epoch":
        return ("I", it[0][1])
    if name == "datetime_diff":
        return ("I", it[0][1] - it[1][1])
    if name == "datetime_add":
        return later(it[0][1], converted(it[1], "INT")[1], it[2][1].upper())
    return ("I", parts_of(it[0][1])[("year", "month", "day", "hour", "minute", "second").index(name)])


def later(seconds, n, unit):
    """A moment n units later; a day that the month hasn't is its last."""
    if unit not in ("YEAR", "MONTH"):
        return moment(seconds + n * {"DAY": 86400, "HOUR": 3600, "MINUTE": 60, "SECOND": 1}[unit])
    year, month, day, *clock = parts_of(seconds)
    months = year * 12 + month - 1 + n * (12 if unit == "YEAR" else 1)
    year, month = months // 12, months % 12 + 1
    if not 0 <= year <= 9999:
        raise Fault("number out of range")
    return moment(seconds_of(year, month, min(day, days_of(year, month)), *clock))


class Body(Run):
    """The statements of a body."""

    def run(self, statements):
        self.scopes.append({})
        for it in statements:
            getattr(self, "do_" + it["k"])(it)
        self.scopes.pop()

    def do_raw(self, it):
        """A part of a query that is taken, and leaves nothing that is printed."""

    def do_local(self, it):
        for name, e in it["vars"]:
            nothing = {"INT": ("I", 0), "UINT": ("U", 0), "BOOL": ("B", False), "STRING": ("S", "")}.get(it["type"])
            value = self.stored(it["type"], self.value(e)) if e else nothing
            self.scopes[-1][name] = (it["type"], value)

    def stored(self, type_name, value):
        if value[0] == "D":
            value = ("I", value[1])
        return converted(value, type_name)

    def do_assign(self, it):
        scope = next(scope for scope in reversed(self.scopes) if it["name"] in scope)
        type_name = scope[it["name"]][0]
        scope[it["name"]] = (type_name, self.stored(type_name, self.value(it["expr"])))

    def seeds(self, parts):
        found = set()
        for part in parts:
            if part[0] == "any":
                found |= set(self.world.all_of(self.world.types))
            elif part[0] == "all":
                found |= set(self.world.all_of([part[1]]))
            elif part[0] == "global":
                found |= {it[1] for it in self.globals[part[1]]}
            else:
                it = self.look_up(part[1])
                found |= set(it[1]) if it[0] == "set" else {it[1]}
        return sorted(found)

    def do_seeds(self, it):
        sets = [self.seeds(part[1]) if part[0] == "seeds" else self.sets[part[1]] for part in it["parts"]]
        if not it["signs"]:
            self.sets[it["name"]] = list(sets[0])
            return
        found = set(sets[0])
        for sign, other in zip(it["signs"], sets[1:]):
            found = found | set(other) if sign == "UNION" else found & set(other) if sign == "INTERSECT" else found - set(other)
        self.sets[it["name"]] = sorted(found)

    def judge(self, names):
        for name in self.kinds:
            if name in names:
                contents = [self.globals[name]] if name.startswith("@@") else self.attached[name].values()
                if not all(judged(self.kinds[name], content) for content in contents):
                    raise Fault(f"sum out of range in {name}")

    def feed(self, name, vertex, given):
        content = fed(self.kinds[name], self.content(name, vertex), given)
        if vertex is None:
            self.globals[name] = content
        else:
            self.attached[name][vertex] = content

    def do_feed(self, it):
        self.feed(it["name"], None, taken(self.kinds[it["name"]], self.given(it["input"])))
        self.judge([it["name"]])

    def do_put(self, it):
        self.globals[it["name"]] = content_of(self.kinds[it["name"]], self.value(it["expr"]))

    def do_if(self, it):
        for cond, body in it["branches"]:
            if self.value(cond)[1]:
                return self.run(body)
        return self.run(it["else"] or [])

    def enter(self, body):
        if self.turns == 0:
            raise Fault(f"loop bound {self.bound} reached")
        self.turns -= 1
        self.run(body)

    def do_while(self, it):
        most = self.value(it["limit"])[1] if it["limit"] else None
        while (most is None or most > 0) and self.value(it["cond"])[1]:
            self.enter(it["body"])
            most = None if most is None else most - 1

    def each(self, name, values, body):
        for value in values:
            self.scopes.append({name: ({"I": "INT", "U": "UINT"}.get(value[0]), value)})
            self.enter(body)
            self.scopes.pop()

    def do_each(self, it):
        self.each(it["name"], self.value(it["over"])[2], it["body"])

    def do_range(self, it):
        low, high = converted(self.value(it["low"]), "INT")[1], converted(self.value(it["high"]), "INT")[1]
        self.each(it["name"], (("I", n) for n in range(low, high + 1)), it["body"])

    def do_print(self, it):
        members = []
        for item in it["items"]:
            if "set" in item:
                text = self.set_shown(item["set"], item["items"])
            else:
                value = self.value(item["e"])
                text = self.set_shown(item["e"][1], None) if value[0] == "set" else shown(value, self.world)
            members.append((item_name(item), text))
        self.printed.append(objected(members))

    def set_shown(self, name, items):
        rows = []
        for vertex in self.sets[name]:
            it = self.world.vertices[vertex]
            if items is None:
                members = [(attr, shown(value, self.world)) for attr, value in it["values"].items()]
                members += [(acc, shown(value_of(self.kinds[acc], self.content(acc, vertex)), self.world)) for acc in self.attached]
            else:
                self.bound_names = {name: ("V", vertex)}
                members = [(item_name(item), shown(self.value(item["e"]), self.world)) for item in items]
                self.bound_names = {}
            head = [("v_id", shown(("V", vertex), self.world)), ("v_type", shown(("S", it["type"]), self.world))]
            rows.append(objected(head + [("attributes", objected(members))]))
        return listed(rows)

    # SELECT

    def candidates(self, it):
        """The candidates as bindings of the aliases, in order."""
        sources = self.sets[it["from"]] if it["from"] in self.sets else self.world.all_of([it["from"]])
        hop = it["hop"]
        if hop is None:
            return [{it["source"]: ("V", s)} for s in sources]
        walk = self.along if "steps" in hop else self.over
        return [{it["source"]: ("V", s), hop["edge"]: ("E", edge, type_), hop["target"]: ("V", t)}
                for s in sources for edge, type_, t in walk(s, hop.get("steps", hop))]

    def over(self, s, hop):
        """What one hop leads to from a vertex: the edge, its type and the other end."""
        types = hop["types"] if isinstance(hop["types"], list) else self.world.edge_types()
        return [(edge, type_, t) for type_ in self.world.edge_types() if type_ in types
                for edge, t in self.world.graph.walks(s, type_) if self.may_be(t, hop["to"])]

    def along(self, s, steps):
        """What a path leads to from a vertex: its last edge, the type of that and the vertex."""
        found = []
        for type_ in self.world.edge_types():
            ways = {way for way, name in steps[0]["ways"] if name == type_}
            for edge, t in self.world.graph.walks(s, type_, ways) if ways else ():
                if self.may_be(t, steps[0]["to"]):
                    found += self.along(t, steps[1:]) if steps[1:] else [(edge, type_, t)]
        return found

    def may_be(self, t, types):
        return self.world.vertices[t]["type"] in (types if isinstance(types, list) else self.world.types)

    def do_select(self, it):
        matched, inputs = [], []
        self.before = {name: dict(held) for name, held in self.attached.items()}
        for names in self.candidates(it):
            self.bound_names = names
            if not it["where"] or self.value(it["where"])[1]:
                matched.append(names)
                self.gather(it["accum"], inputs)
        self.bound_names = {}
        for name, vertex, given in inputs:
            self.feed(name, vertex, given)
        self.judge({name for name, _, _ in inputs})
        reached = {alias: sorted({names[alias][1] for names in matched}) for alias in aliases(it)}
        self.after(it, reached)
        self.sets[it["name"]] = self.chosen(it, reached[it["alias"]])
        self.bound_names = {}

    def gather(self, acts, inputs):
        """The inputs of one candidate, each of which sees the contents from before the block."""
        for act in acts or []:
            if act["k"] == "if":
                self.gather(next((body for cond, body in act["branches"] if self.value(cond)[1]), act["else"]), inputs)
            else:
                vertex = self.look_up(act["alias"])[1] if act["k"] == "attfeed" else None
                inputs.append((act["name"], vertex, taken(self.kinds[act["name"]], self.given(act["input"]))))

    def after(self, it, reached):
        """POST-ACCUM, phase by phase."""
        phases = []
        for act in it["post"] or []:
            alias = next((name for name in reached if names_alias(act, name)), None) or it["alias"]
            if phases and phases[-1][0] == alias:
                phases[-1][1].append(act)
            else:
                phases.append((alias, [act]))
        for alias, acts in phases:
            inputs = []
            for vertex in reached[alias]:
                self.bound_names = {alias: ("V", vertex)}
                self.write(acts, inputs)
            for name, given in inputs:
                self.feed(name, None, given)
            self.judge({name for name, _ in inputs})

    def write(self, acts, inputs):
        for act in acts or []:
            if act["k"] == "if":
                self.write(next((body for cond, body in act["branches"] if self.value(cond)[1]), act["else"]), inputs)
            elif act["k"] == "feed":
                inputs.append((act["name"], taken(self.kinds[act["name"]], self.given(act["input"]))))
            else:
                self.write_attached(act)

    def write_attached(self, act):
        vertex, name = self.look_up(act["alias"])[1], act["name"]
        if act["k"] == "attput":
            self.attached[name][vertex] = content_of(self.kinds[name], self.value(act["expr"]))
        else:
            self.feed(name, vertex, taken(self.kinds[name], self.given(act["input"])))
            self.judge([name])

    def chosen(self, it, vertices):
        """HAVING, ORDER BY and LIMIT."""
        kept, places = [], {}
        for vertex in vertices:
            self.bound_names = {it["alias"]: ("V", vertex)}
            if not it["having"] or self.value(it["having"])[1]:
                kept.append(vertex)
        for vertex in kept:
            self.bound_names = {it["alias"]: ("V", vertex)}
            places[vertex] = [key(self.value(e)) for e, _ in it["order"] or []]
        for at, (_, down) in reversed(list(enumerate(it["order"] or []))):
            kept.sort(key=lambda vertex: places[vertex][at], reverse=down)
            # A stable sort that is turned keeps ties in their order.
        self.bound_names = {}
        return kept[:max(0, self.value(it["limit"])[1])] if it["limit"] else kept


def aliases(it):
    return [it["source"]] + ([it["hop"]["target"]] if it["hop"] else [])


def names_alias(node, alias):
    """Whether an act names an alias anywhere."""
    if isinstance(node, dict):
        return node.get("alias") == alias or any(names_alias(it, alias) for it in node.values())
    if isinstance(node, (list, tuple)):
        if node and node[0] in ("name", "att", "prev"):
            return node[1] == alias
        return any(names_alias(it, alias) for it in node)
    return False
