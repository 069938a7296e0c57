"""Makes cases: a schema, files, jobs and queries, by a seed."""
import functools
import random

from queries import QueryMaker
from reading import mutated, script_at_random
from script import Reference, script_text
from wrongs import spoil

ATTRS = {"age": "INT", "size": "UINT", "ok": "BOOL", "label": "STRING", "born": "DATETIME", "rank": "INT", "type": "STRING"}
EDGE_ATTRS = {"w": "INT", "u": "UINT", "note": "STRING", "stamp": "DATETIME", "yes": "BOOL", "type": "INT"}
# Names that are words of the language too, or differ in case alone, where a case hasn't the usual ones.
NAMES = (["person", "city", "item"], ["knows", "owns", "likes"])
OTHER_NAMES = ((["person", "Person", "PERSON"], ["knows", "Knows", "kNows"]), (["vertex_", "query", "edge"], ["run", "loading", "to"]),
               (["v", "x1", "_v"], ["graph", "values", "default"]))
DISCS = {"day": "INT", "no": "UINT", "tag": "STRING", "flag": "BOOL"}
IDS = {"STRING": ["a", "b", "c", "d", "x y", "é", "A", '"q"'],
       "INT": ["-3", "0", "1", "2", "7", "12"], "UINT": ["0", "1", "2", "7", "12", "18446744073709551615"]}
TEXTS = ["", "x", "yy", "Zed", " a ", "é€", 'q"r', "b\\c", "10"]
MOMENTS = ["2024-03-01", "2024-02-29 08:30:00", "1969-12-31T23:59:59", "0000-01-01", "9999/12/31 23:59:59", "2000-01-31T10:00:00.5Z", "1999/07/15"]


# Fields that aren't values of their type, or are at its edge.
ODD_FIELDS = {
    "INT": ["-0", "+7", "--7", "+-7", "-", "+", "0x10", "1_0", "７", "-9223372036854775808", "9223372036854775808", "7 7", "\t7 "],
    "UINT": ["-0", "+0", "18446744073709551615", "18446744073709551616", "000000000000000000000000000001", "+", "7."],
    "BOOL": ["tRuE", "yes", "t", "01", "10", " 0 ", "+1", "FALSE "],
    "DATETIME": ["2024-03-01T08:30:00.123456789Z", "2024-03-01T08:30:00.1234567890", "2024-03-01 08:30:00Z", "2024-03-01T08:30:00.", "2024/03-01", "2024-3-1",
                 "1900-02-29", "0000-02-29", "10000-01-01", "2024-03-01T24:00:00", "2024-03-01 23:59:60", "2024-13-01", "2024-00-10", "2024-04-31", "253402300799",
                 "253402300800", "-62167219200", "-62167219201", "-", "+5", "0000000000007", "000000000007", " 2024-03-01\t", "2024-03-01  08:30:00", "2024-03-01T08:30"],
    "STRING": [" ", "\t", "\u0000", "\u001f", "\u007f", "\U0001f600", "\u2028", "a" * 70, "0", "null"]}


class Maker:
    """The maker of a case."""

    def __init__(self, seed):
        self.rng = random.Random(seed)
        self.case = {"seed": seed, "script": [], "files": {}, "args": None, "turns": None}
        self.vertex_types, self.edge_types, self.graph = [], [], "g"
        self.big, self.part, self.used = self.some(0.1), None, "g"
        self.is_spoiled = self.some(0.3)

    def some(self, share):
        return self.rng.random() < share

    def whole(self):
        rng = self.rng
        vertices, edges = rng.choice(OTHER_NAMES) if self.some(0.1) else NAMES
        for name in vertices[:rng.choice((1, 1, 2, 2, 3))]:
            self.vertex_type(name)
        for name in edges[:rng.choice((0, 1, 2, 2, 3))]:
            self.edge_type(name)
        if self.some(0.02):
            for it in rng.choice(NO_GRAPH):
                self.add(dict(it))
        names = [it["name"] for it in self.vertex_types + self.edge_types]
        self.add({"k": "graph", "name": "g", "types": ["*"] if self.some(0.5) else names})
        if self.some(0.2):
            self.second_graph()
        if self.some(0.02):
            self.add({"k": "graph", "name": "none", "types": []})
            self.add({"k": "use", "name": "g"})
        self.loads()
        for _ in range(rng.choice((0, 0, 1, 2, 4))):
            self.insert()
        self.loading = list(self.case["script"])
        self.case["turns"] = rng.choice((5, 40, 300)) if self.some(0.15) else None
        for at in range(rng.choice((1, 1, 2, 3))):
            self.query(at)
            if self.some(0.05):
                self.add({"k": "word", "text": rng.choice(("BEGIN", "END", "begin", "End"))})
        for it in self.case["script"]:
            it["gap"] = rng.choice(("", "", "", "\n", "  ", "# a note\n", "// a \"note\n", "/* two\nlines */ ", "; "))
            it["spelled"] = rng.randint(1, 1 << 30) if self.some(0.3) else None
        if self.is_spoiled:
            spoil(self)
        if self.some(0.04):
            self.case["bytes"] = mutated(script_text(self.case)[0].encode(), self.rng)
            self.case["turns"], self.case["args"] = self.case["turns"] or 300, None
            self.case.pop("lacks", None)
        return self.case

    @functools.cached_property
    def known(self):
        """The vertices that are there once all is loaded."""
        loaded = Reference(dict(self.case, script=self.loading))
        loaded.run()
        return list(loaded.graph.known)

    def second_graph(self):
        """A graph h of some of the types, behind which g is in use again."""
        vertices = self.rng.sample(self.vertex_types, self.rng.randint(1, len(self.vertex_types)))
        ends = [it["name"] for it in vertices]
        self.part = vertices, [it for it in self.edge_types if it["from"] in ends and it["to"] in ends]
        self.add({"k": "graph", "name": "h", "types": [it["name"] for it in self.part[0] + self.part[1]]})
        self.add({"k": "use", "name": "g"})

    def add(self, it):
        self.case["script"].append(it)
        return it

    def attrs(self, pool, most, defaults=True):
        names = self.rng.sample(sorted(pool), self.rng.randint(0, most))
        return [{"name": it, "type": pool[it], "default": self.default(pool[it]) if defaults and self.some(0.4) else None} for it in names]

    def default(self, type_):
        rng = self.rng
        if type_ == "DATETIME":
            return None
        if type_ in ("INT", "UINT"):
            return (type_[0], rng.choice((1, 3, 9223372036854775807, -9 if type_ == "INT" else 9)))
        return ("B", self.some(0.5)) if type_ == "BOOL" else ("S", rng.choice(TEXTS))

    def vertex_type(self, name):
        id_type = self.rng.choice(("STRING", "STRING", "INT", "UINT"))
        type_ = {"k": "vertex", "name": name, "id": "id", "id_type": id_type, "attrs": self.attrs(ATTRS, 4), "as_attribute": self.some(0.3),
                 "stats": self.rng.choice((["none"], ["outdegree_by_edgetype"], ["a", "b"])) if self.some(0.1) else [], "stats_at": self.rng.randint(0, 1)}
        self.vertex_types.append(self.add(type_))

    def edge_type(self, name):
        ends = [self.rng.choice(self.vertex_types)["name"] for _ in range(2)]
        directed = self.some(0.6)
        discs = self.attrs(DISCS, 2, False) if self.some(0.4) else []
        type_ = {"k": "edge", "name": name, "directed": directed, "from": ends[0], "to": ends[1], "discs": discs,
                 "attrs": self.attrs(EDGE_ATTRS, 3), "reverse": name + "_by" if directed and self.some(0.5) else None}
        self.edge_types.append(self.add(type_))

    def type_named(self, name):
        return next(it for it in self.vertex_types if it["name"] == name)

    def wanted(self, type_):
        """The types of what VALUES has, and whether each has a default."""
        if type_["k"] == "vertex":
            return [(type_["id_type"], "id")] + [(it["type"], "attr") for it in type_["attrs"]]
        ends = [(self.type_named(type_[it])["id_type"], "id") for it in ("from", "to")]
        return ends + [(it["type"], "disc") for it in type_["discs"]] + [(it["type"], "attr") for it in type_["attrs"]]

    # Files

    def field(self, type_, role):
        rng = self.rng
        if self.some(0.04):
            return rng.choice(["", " ", "zz", "1.5", "99999999999999999999", "-1", "2023-02-29", "TRUE ", "1e3"])
        if self.some(0.04):
            return rng.choice(ODD_FIELDS[type_])
        if role == "id":
            text = rng.choice(IDS[type_]) if not self.big else str(rng.randint(0, 60))
            return "00" + text if type_ == "UINT" and self.some(0.1) else "+" + text if type_ == "UINT" and self.some(0.1) else text
        if type_ in ("INT", "UINT"):
            number = rng.choice((0, 1, 2, 3, 5, 10, 100, 7))
            if self.some(0.03):
                number = 9223372036854775807 if type_ == "INT" else 18446744073709551615
            return rng.choice(("", "", "", "-" if type_ == "INT" else "+", "0", " ")) + str(number)
        if type_ == "BOOL":
            return rng.choice(("true", "FALSE", "1", "0", "True ", "false"))
        return rng.choice(MOMENTS + ["0", "86399", "-1"]) if type_ == "DATETIME" else rng.choice(TEXTS)

    def loads(self):
        job = {"k": "job", "name": "fill", "graph": "g", "files": [], "loads": []}
        for type_ in self.vertex_types + self.edge_types:
            if self.some(0.9):
                job["loads"].append(self.load(type_, job))
        if job["loads"]:
            self.add(job)
            using = [[name, path] for name, path, _ in job.pop("using", [])]
            for _ in range(runs_of(self)):
                self.add({"k": "runjob", "name": "fill", "using": using})
        if self.some(0.02):
            self.add({"k": "job", "name": "empty", "graph": "g", "files": [["f", None]] * self.some(0.5), "loads": []})
            self.add({"k": "runjob", "name": "empty", "using": []})

    def load(self, type_, job):
        rng = self.rng
        wanted, path = self.wanted(type_), type_["name"] + ".csv"
        options, separator, quote = [], ",", ""
        header = self.some(0.4)
        if header:
            options.append(["HEADER", rng.choice(("true", "TRUE"))])
        if self.some(0.3):
            separator = rng.choice(";|\t")
            options.append(["SEPARATOR", separator])
        if self.some(0.4):
            style = rng.choice(("double", "single"))
            quote = '"' if style == "double" else "'"
            options.append(["QUOTE", style])
        if self.some(0.1):
            options.append(["EOL", "\n"])
        if options and self.some(0.1):
            name = rng.choice(options)[0]
            options.insert(0, [name, rng.choice(OVERRIDDEN[name])])
        columns = list(range(len(wanted)))
        rng.shuffle(columns)
        cols = ["_" if role == "attr" and self.some(0.1) else (f"c{at}" if header and self.some(0.6) else at)
                for at, (_, role) in zip(columns, wanted)]
        dests = [{"word": "VERTEX" if type_["k"] == "vertex" else "EDGE", "type": type_["name"], "cols": cols}]
        if self.some(0.2):
            dests.insert(rng.randint(0, 1), self.second(len(wanted)))
        rows = [self.row(wanted, columns, separator, quote) for _ in range(90 if self.big else rng.choice((2, 4, 6, 9, 14)))]
        if header:
            rows.insert(0, separator.join(f"c{at}" for at in range(len(wanted))).encode())
        ends = (b"\n", b"\n", b"\r\n", b"\r")
        end, mixed = rng.choice(ends), self.some(0.05)
        data = b"".join(row + (rng.choice(ends) if mixed else end) for row in rows[:-1]) + rows[-1] + (end if self.some(0.7) else b"")
        data = (b"\xef\xbb\xbf" if self.some(0.05) else b"") + data
        self.case["files"][path] = data
        if self.some(0.2):
            name = "f_" + type_["name"]
            job["files"].append([name, path if self.some(0.7) else None])
            if not job["files"][-1][1]:
                job.setdefault("using", []).append((name, path, None))
            return {"file": name, "named": True, "dests": dests, "options": options}
        return {"file": path, "named": False, "dests": dests, "options": options}

    def second(self, count):
        """A further destination of a LOAD, which takes what stands in the fields."""
        type_ = self.rng.choice(self.vertex_types + self.edge_types)
        cols = ["_" if role == "attr" and self.some(0.6) else self.rng.randint(0, count - 1) for _, role in self.wanted(type_)]
        return {"word": "VERTEX" if type_["k"] == "vertex" else "EDGE", "type": type_["name"], "cols": cols}

    def row(self, wanted, columns, separator, quote):
        if self.some(0.03):
            return b""
        fields = [""] * len(wanted)
        for at, (type_, role) in zip(columns, wanted):
            text = self.field(type_, role)
            if quote and self.some(0.4):
                text += self.rng.choice((separator, "\n", "\r\n", "\r", quote, separator + "\n" + quote)) if self.some(0.15) else ""
                closing = quote + ("t" if self.some(0.03) else "") if not self.some(0.01) else ""
                text = quote + text.replace(quote, quote * 2) + closing
            fields[at] = text
        if self.some(0.04):
            fields.pop()
        if self.some(0.04):
            fields.append("more")
        if self.some(0.01):
            return blank_row(self.rng)
        data = separator.join(fields).encode()
        return data + b"\xff" if self.some(0.01) else data

    def insert(self):
        type_ = self.rng.choice(self.vertex_types + self.edge_types)
        values = [self.literal(base, role) for base, role in self.wanted(type_)]
        self.add({"k": "insert", "type": type_["name"], "values": values})

    def literal(self, base, role):
        rng = self.rng
        if role == "attr" and self.some(0.3):
            return None
        if role == "id":
            text = rng.choice(IDS[base])
            return ("S", text) if base == "STRING" else (base[0], int(text))
        if base in ("INT", "UINT"):
            return (base[0], rng.choice((0, 1, 7, 40, -5 if base == "INT" else 5)))
        if base == "BOOL":
            return ("B", self.some(0.5))
        return ("D", rng.choice(MOMENTS)) if base == "DATETIME" else ("S", rng.choice(TEXTS[1:]))

    # Queries

    def query(self, at):
        whole = self.vertex_types, self.edge_types
        if self.part and self.some(0.4):
            (self.vertex_types, self.edge_types), self.graph = self.part, "h"
            if not self.is_spoiled and self.some(0.4):
                self.used = "h"
                self.add({"k": "use", "name": "h"})
        self.query_of_graph(at)
        if self.used == "h":
            self.add({"k": "use", "name": "g"})
        (self.vertex_types, self.edge_types), self.graph, self.used = whole, "g", "g"

    def query_of_graph(self, at):
        maker = QueryMaker(self)
        if self.some(0.5):
            return self.add(maker.query("interpret", None))
        name = f"q{at}"
        query = self.add(maker.query("query", name))
        if self.some(0.95):
            created = [it["name"] for it in self.case["script"] if it["k"] == "query"]
            names = [name] if self.some(0.7) else [] if self.some(0.7) else self.rng.sample(created, len(created))
            self.add({"k": "install", "names": names, "all": self.rng.choice(("ALL", "*"))})
        for _ in range(self.rng.choice((1, 1, 2))):
            if self.some(0.3):
                self.case["args"] = self.case["args"] or {}
                self.case["args"][name] = {it["name"]: self.json_argument(it) for it in query["params"] if not (it["default"] and self.some(0.5))}
                self.add({"k": "run", "name": name, "args": None})
            else:
                args = [self.argument(it) for it in query["params"]]
                self.add({"k": "run", "name": name, "args": args})
        if self.some(0.3):
            self.run_again()

    def run_again(self):
        """One of the runs so far once more, which may be over other rows and behind further declarations."""
        if self.some(0.5):
            self.insert()
        self.add(dict(self.rng.choice([it for it in self.case["script"] if it["k"] == "run"])))

    def argument(self, param):
        base = param["type"]
        if base.startswith("VERTEX"):
            type_ = self.type_named(base[7:-1]) if base != "VERTEX" else self.rng.choice(self.vertex_types)
            there = [id_ for name, id_ in self.known if name == type_["name"]]
            text = self.rng.choice(there) if there and self.some(0.95) else self.rng.choice(IDS[type_["id_type"]])
            if type_["id_type"] != "STRING" and self.some(0.02):
                # ids of numbers count without leading zeros and signs
                return ("V2", "0" + text, type_["name"]) if base == "VERTEX" else ("S", self.rng.choice("0+ ") + text)
            if base == "VERTEX":
                return ("V2", text, type_["name"])
            return ("I", int(text)) if type_["id_type"] != "STRING" and self.some(0.5) else ("S", text)
        return self.literal(base, "param") if not self.some(0.03) else ("B", True)

    def json_argument(self, param):
        it = self.argument(param)
        if it[0] == "V2":
            return {"id": it[1], "type": it[2]}
        return str(it[1]) if param["type"].startswith("VERTEX") and it[0] != "B" else it[1]


def blank_row(rng):
    """A line that isn't empty, and has nothing but blanks."""
    return rng.choice((b" ", b"\t", b"  "))


def runs_of(maker):
    """How often the job runs."""
    return 2 if maker.some(0.1) else 1


# An option that a later one of the same name overrides.
OVERRIDDEN = {"HEADER": ("false", "yes", "true"), "SEPARATOR": ("x", ",", "ab", ""), "QUOTE": ("single", "double", "none"), "EOL": ("", "x")}
# Queries before any graph, which see no types.
NO_GRAPH = ([{"k": "raw", "text": "INTERPRET QUERY () { S = {ANY}; PRINT S.size() AS n; }", "prints": ['{"n":0}']}],
            [{"k": "raw", "text": "INTERPRET QUERY () { S = {person.*}; PRINT S; }", "refused": "unknown name person"}],
            [{"k": "raw", "text": "CREATE QUERY early () { S = {ANY, ANY.*}; PRINT S; }"}, {"k": "raw", "text": "INSTALL QUERY early"},
             {"k": "raw", "text": "RUN QUERY early", "prints": ['{"S":[]}']}],
            [{"k": "raw", "text": "USE GRAPH g", "refused": "unknown name g"}])
BAD_WORDS = ("", "script.gsql script.gsql", "--nosuch script.gsql", "--workers 0 script.gsql", "--workers 65 script.gsql", "--chunk 0 script.gsql",
             "--chunk 1048577 script.gsql", "--stripes 0 script.gsql", "--stripes 257 script.gsql", "--turns 0 script.gsql", "--turns 1000000001 script.gsql",
             "--sample 0", "--sample 1000001", "--sample 3 script.gsql", "--args args.json", "--args args.json --sample 3", "--workers script.gsql",
             "--workers x script.gsql", "--workers -1 script.gsql", "--workers 1 --workers 2 script.gsql", "--chunk 4x script.gsql", "script.gsql --turns",
             "--workers 99999999999999999999 script.gsql", "--sample x", "--help", "-h", "--stripes +4 script.gsql")


def made(seed):
    """The case of a number. Some are a text of statements that the grammar derives, a sample, or words that are no use of the command."""
    rng, plain = random.Random(-seed), {"seed": seed, "script": [], "files": {}, "args": None, "turns": None}
    pick = rng.random()
    if pick < 0.06:
        data = script_at_random(seed)
        return dict(plain, bytes=mutated(data, rng) if rng.random() < 0.6 else data, turns=300)
    if pick < 0.07:
        return dict(plain, sample=rng.choice((1, 2, 3, 4, 7, rng.randint(5, 120))))
    if pick < 0.08:
        return dict(plain, words=rng.choice(BAD_WORDS).split())
    return Maker(seed).whole()
