"""What a script of statements prints, and its status: by docs/language.md, over a plain graph.

A statement that the generator made wrong carries its refusal.
"""
from graph import Graph, default_of, fields_of_values, literal_value, load
from meaning import Body, World
from values import LEAST, MOST, WIDEST, Fault, quoted
import reading
import rules
import sample
import spell


class Reference:
    """A run of a case: a dict of `script` (statements), `files` (name to bytes) and `args` (None, or what the file of --args has)."""

    def __init__(self, case):
        self.case, self.graph, self.lines = case, Graph(), []

    def run(self):
        """The bytes and the status; None where these pages don't tell more than that the script can be read."""
        if "words" in self.case:
            return b"", 2
        if "sample" in self.case:
            return Reference(sample.case(self.case["sample"])).run()
        if "bytes" in self.case:
            refused = reading.refusal(self.case["bytes"])
            return (refused_line(refused), 1) if refused else None
        text, at = script_text(self.case)
        refused = self.whole(text, at)
        if refused:
            return refused_line(refused), 1
        for it, line in zip(self.case["script"], at):
            try:
                if it["k"] == "raw" and it.get("refused"):
                    raise Fault(it["refused"])
                results = getattr(self, "do_" + it["k"])(it)
                if results is not None:
                    self.lines.append('{"error":false,"message":"","results":[' + ",".join(results) + "]}\n")
            except Fault as fault:
                return "".join(self.lines).encode() + refused_line(f"line {line}: {fault}"), 1
        return "".join(self.lines).encode(), 0

    def whole(self, text, at):
        """Why nothing of the script runs, or None: the files, what can't be read, and then the arguments."""
        last, args = self.case["script"][-1:], self.case["args"]
        if self.case.get("lacks") == "script":
            return "missing file script.gsql"
        if self.case.get("lacks") == "args" and args is not None:
            return "missing file args.json"
        if last and last[0].get("unread"):
            return unread(text, at, last[0])
        return "arguments unreadable" if isinstance(args, bytes) else None

    def do_vertex(self, it):
        rules.vertex(self.graph, it)
        self.graph.types[it["name"]] = it

    def do_edge(self, it):
        rules.edge(self.graph, it)
        ends = {end: self.graph.types[it[end]]["id_type"] for end in ("from", "to")}
        self.graph.types[it["name"]] = dict(it, id_types=ends)
        if it["reverse"]:
            self.graph.types[it["reverse"]] = {"k": "reverse", "of": it["name"], "directed": True}

    def do_graph(self, it):
        rules.graph_of_types(self.graph, it)
        self.graph.graphs[it["name"]] = list(self.graph.types) if it["types"] == ["*"] else it["types"]
        self.graph.used = it["name"]

    def do_use(self, it):
        rules.known_graph(self.graph, it["name"])
        self.graph.used = it["name"]

    def do_job(self, it):
        rules.job(self.graph, it)
        self.graph.jobs[it["name"]] = it

    def do_runjob(self, it):
        if it["name"] not in self.graph.jobs:
            raise Fault(f"unknown name {it['name']}")
        job, reports = self.graph.jobs[it["name"]], []
        paths = dict(job["files"])
        for name, path in it["using"]:
            if name not in paths:
                raise Fault(f"unknown name {name}")
            paths[name] = path
        for one in job["loads"]:
            path = paths[one["file"]] if one["named"] else one["file"]
            if path is None:
                raise Fault(f"no path for {one['file']}")
            if path not in self.case["files"]:
                raise Fault(f"missing file {path}")
            report = load(self.graph, one, path, self.case["files"][path])
            counts = ",".join(f'"{name}":{report[name]}' for name in ("lines", "loaded", "short", "unreadable"))
            reports.append('{"file":' + quoted(path) + "," + counts + "}")
        return reports

    def do_insert(self, it):
        rules.insert(self.graph, it)
        wanted = fields_of_values(self.graph.types[it["type"]])
        self.graph.put(it["type"], [default_of(attr) if value is None else literal_value(value, base) for value, (base, attr) in zip(it["values"], wanted)])

    def do_query(self, it):
        self.checked(it)
        self.graph.queries[it["name"]] = (it, it["graph"] or self.graph.used)
        self.graph.installed.discard(it["name"])

    def checked(self, query):
        """A query by its rules: those of the statement, and then the first of its parts that is refused, in order of text."""
        rules.query(self.graph, query)
        refused = query.get("params_refused") or first_refused(query.get("more", [])) or first_refused(query["body"])
        if refused:
            raise Fault(refused)

    def do_install(self, it):
        for name in it["names"] or list(self.graph.queries):
            if name not in self.graph.queries:
                raise Fault(f"unknown name {name}")
            self.graph.installed.add(name)

    def do_interpret(self, it):
        self.checked(it)
        return self.body(it, it["graph"] or self.graph.used, {})

    def body(self, query, graph_name, arguments):
        run = Body(World(self.graph, graph_name), query, arguments, self.case["turns"] or 1000000)
        run.run(query["body"])
        return run.printed

    def do_run(self, it):
        name = it["name"]
        if name not in self.graph.queries:
            raise Fault(f"unknown name {name}")
        if name not in self.graph.installed:
            raise Fault(f"not installed {name}")
        query, graph_name = self.graph.queries[name]
        given = self.from_file(query, name) if it["args"] is None else self.from_script(query, it["args"])
        types = self.graph.names_of(graph_name)
        arguments = {}
        for param, value in zip(query["params"], given):
            value = self.argument(param, value, types) if value != ("default",) else self.argument(param, param["default"], types)
            if value is None:
                raise Fault(f"bad argument {param['name']}")
            arguments[param["name"]] = (param["type"], value)
        return self.body(query, graph_name, arguments)

    def from_script(self, query, args):
        params = query["params"]
        if len(args) > len(params) or any(not it["default"] for it in params[len(args):]):
            raise Fault("wrong number of arguments")
        return list(args) + [("default",)] * (len(params) - len(args))

    def from_file(self, query, name):
        members = (self.case["args"] or {}).get(name)
        found = []
        for param in query["params"]:
            if not isinstance(members, dict) or param["name"] not in members:
                found.append(("default",) if param["default"] else ("none",))
                continue
            it = members[param["name"]]
            plain = ("B", it) if isinstance(it, bool) else ("I", it) if isinstance(it, int) else ("S", it) if isinstance(it, str) else ("none",)
            if isinstance(it, dict) and isinstance(it.get("id"), str) and isinstance(it.get("type"), str):
                plain = ("V2", it["id"], it["type"])
            if param["type"].startswith("VERTEX<") and plain[0] != "S":
                plain = ("none",)
            found.append(plain)
        return found

    def argument(self, param, value, types):
        """The value of an argument, or None."""
        base = param["type"]
        if base.startswith("VERTEX"):
            name = (base[7:-1], str(value[1])) if base != "VERTEX" and value[0] in ("I", "U", "S") else \
                (value[2], value[1]) if base == "VERTEX" and value[0] == "V2" else None
            return ("V", self.graph.known[name]) if name in self.graph.known and name[0] in types else None
        if base in ("INT", "UINT"):
            low, high = (LEAST, MOST) if base == "INT" else (0, WIDEST)
            return (base[0], value[1]) if value[0] in ("I", "U") and low <= value[1] <= high else None
        return value if value[0] == base[0] else None

    def do_raw(self, it):
        return it.get("prints")

    do_word = do_raw


def first_refused(node):
    """The refusal of the first part of a body, in order of text, that is refused."""
    if isinstance(node, dict):
        return node.get("refused") or first_refused(list(node.values()))
    return next(filter(None, map(first_refused, node)), None) if isinstance(node, (list, tuple)) else None


def refused_line(message):
    return ('{"error":true,"message":' + quoted(message) + "}\n").encode()


def unread(text, lines, it):
    """The refusal of a script whose last statement can't be read."""
    before = len(text[:text.rindex(it["text"])].encode())
    words = it["unread"].replace(" N", f" {len(lines)}").split(" byte ")
    told = f"{words[0]} byte {before + int(words[1])}" if len(words) > 1 else words[0]
    return f"line {lines[-1]}: {told}"


def script_text(case):
    """The text of the script, and the line on which each statement begins."""
    text, lines = "", []
    for it in case["script"]:
        text += it.get("gap", "")
        lines.append(text.count("\n") + 1)
        plain = spell.statement(it)
        text += (spell.varied(plain, it["spelled"]) if it.get("spelled") else plain) + "\n"
    return text, lines
