"""The names of a script, and those that are near a name."""
import difflib

FUNCTIONS = ("abs", "to_string", "to_datetime", "epoch_to_datetime", "datetime_to_epoch", "datetime_diff", "datetime_add", "year", "month", "day", "hour",
             "minute", "second")
METHODS = ("size", "contains", "containsKey", "get", "outdegree", "type")
# What TigerGraph has and this language doesn't, with what is written here.
NO_POINT = "There are no numbers with a point: keep cents, per mille or millionths as an INT."
BEFORE = "There is no such function: bring the file into shape before it is loaded."
ELSEWHERE = {
    "FLOAT": NO_POINT, "DOUBLE": NO_POINT, "float": NO_POINT, "double": NO_POINT,
    "DATETIME": "An accumulator of moments keeps datetime_to_epoch(..) as an INT, and epoch_to_datetime(..) prints it.",
    "EDGE": "Accumulators hold no edges: keep their discriminators or ends.",
    "count": "count(S) is S.size() here.", "getvid": "There is no getvid: take an id that is a number, of a type WITH PRIMARY_ID_AS_ATTRIBUTE.",
    "now": "There is no now(): take a parameter STRING today, and to_datetime(today), so that each run gives the same bytes.",
    "to_vertex": "There is no to_vertex: take a parameter VERTEX<T>.", "vertex_id": "Compare and print the vertex itself.",
    "to_int": BEFORE, "str_to_int": BEFORE, "lower": BEFORE, "upper": BEFORE, "substr": BEFORE, "trim": BEFORE, "split": BEFORE, "replace": BEFORE,
    "length": "Texts have no length here.", "concat": "Texts are joined by +.",
    "max": "There is no max(..): take a MaxAccum, or IF.", "min": "There is no min(..): take a MinAccum, or IF.",
    "avg": "There is no avg(..): take an AvgAccum.", "sum": "There is no sum(..): take a SumAccum.", "pow": "There is no pow(..): write the product.",
    "sqrt": "There are no roots: compare squares.", "log": "There are no logarithms.", "round": "There are whole numbers only, and / cuts.",
    "coalesce": "There is no NULL: what isn't given is 0, FALSE or the empty text.",
    "clear": "Nothing is emptied: take a second accumulator, or set one that keeps one value by =.",
    "neighbors": "Neighbours come by a SELECT with a hop.", "edgeAttribute": "Attributes of edges are read by the alias of a hop, e.w.",
    "outdegree": "It is a method of an alias: s.outdegree().",
}
UNITS = ("YEAR", "MONTH", "DAY", "HOUR", "MINUTE", "SECOND")


def near(name, known):
    """The names among these that are most like one, the nearest first."""
    known = list(dict.fromkeys(it for it in known if it != name and (it.startswith("@") or not name.startswith("@"))))
    same = [it for it in known if it.lower().lstrip("@") == name.lower().lstrip("@")]
    return list(dict.fromkeys(same + difflib.get_close_matches(name, known, 3, 0.6 if len(name) > 3 else 0.5)))[:3]


class Names:
    """What a script declares: types with their attributes, graphs, jobs, queries, and what one query declares."""

    def __init__(self, text, tokens, trees):
        self.tokens, self.types, self.graphs, self.jobs, self.queries = tokens, {}, [], {}, {}
        for it in trees:
            tree = it.parts[0]
            add = {"Vertex": self.add_vertex, "Edge": self.add_edge, "Graph": self.add_graph, "Job": self.add_job, "Query": self.add_query}.get(
                getattr(tree, "name", None))
            if add:
                add(tree)

    def word(self, at):
        return self.tokens[at][1].decode()

    def words(self, tree):
        """The tokens that stand directly in a tree."""
        return [self.word(it) for it in tree.parts if isinstance(it, int)]

    def attributes(self, tree):
        return [(self.word(it.start), self.word(it.start + 1)) for it in tree.all("Attr")]

    def add_vertex(self, tree):
        words = self.words(tree)
        shown = any(self.word(it.start).upper() == "PRIMARY_ID_AS_ATTRIBUTE" and self.word(it.end - 1).lower() == '"true"' for it in tree.trees("VOpt"))
        self.types[words[2]] = {"kind": "vertex", "id": (words[5], words[6]), "shown": shown, "attributes": self.attributes(tree)}

    def add_edge(self, tree):
        ends = tree.trees("Ends")[0]
        words = self.words(ends)
        told = [(self.word(it.start - 1), self.word(it.start)) for it in ends.trees("AttrType")]
        kind = "undirected edge" if self.words(tree)[1].upper() == "UNDIRECTED" else "edge"
        self.types[words[0]] = {"kind": kind, "ends": (words[3], words[6]), "told": told, "attributes": self.attributes(tree)}
        if "REVERSE_EDGE" in [it.upper() for it in self.words(tree)]:
            self.types[self.words(tree)[-1].strip('"')] = {"kind": "reverse edge", "ends": (words[6], words[3]), "told": told,
                                                           "attributes": self.attributes(tree)}

    def add_graph(self, tree):
        self.graphs.append(self.words(tree)[2])

    def add_job(self, tree):
        self.jobs[self.words(tree)[3]] = tree

    def add_query(self, tree):
        words = self.words(tree)
        self.queries[words[[it.upper() for it in words].index("QUERY") + 1]] = tree

    def of_query(self, tree):
        """All that a query declares: parameters, variables, sets, aliases, accumulators, tuples and their fields."""
        found = []
        for it in tree.all("Param", "Acc", "Def", "Plain", "Select", "Hop", "Step", "Kind"):
            words = [(self.tokens[at][0], self.word(at)) for at in range(it.start, it.end)]
            names = [word for kind, word in words[:2] if kind in ("word", "global", "attached")]
            if it.name in ("Param", "Acc", "Plain"):
                found += names
            else:
                found += [word for kind, word in words if kind == "word"]
        return list(dict.fromkeys(found))

    def described(self, name):
        """A type with what it has."""
        it = self.types[name]
        if it["kind"] == "vertex":
            has = [f"{it['id'][0]} {it['id'][1]} (its id{'' if it['shown'] else ', not shown as an attribute'})"]
        else:
            has = [f"from {it['ends'][0]}", f"to {it['ends'][1]}"] + [f"{name} {type_} (discriminator)" for name, type_ in it["told"]]
        return f"{it['kind']} {name}: " + ", ".join(has + [f"{one} {type_}" for one, type_ in it["attributes"]])
