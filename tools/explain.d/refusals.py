"""What is said of a statement that is refused: where, what is near it, and what to write."""
import json
import os
import re

import loads
from names import ELSEWHERE, FUNCTIONS, METHODS, UNITS, near
from probe import COLLECTION, Query
from records import is_readable

# The refusals of queries, by their first words, and what helps.
OF_QUERIES = {
    "order dependent": "ACCUM takes its matches in no order, and a list would depend on it: a BagAccum or SetAccum, or POST-ACCUM.",
    "wider set": "The first value of a set fixes its types: write its name as `S (ANY) = ..`, or take a second set.",
    "two aliases": "A statement of POST-ACCUM is for one alias: what needs both ends belongs into ACCUM.",
    "name twice": "Parameters, variables, sets, aliases, tuples and accumulators of a query share their names, and so do the members of a PRINT: use AS.",
    "too many": "A query has at most 256 accumulators, 16 fields of a tuple, 8 keys and 8 parts of a group, and 1000 entries of one ACCUM.",
}
# What an accumulator may be, by its kind.
OF_KINDS = {
    "SumAccum": "A SumAccum is of INT or UINT.", "MinAccum": "A MinAccum is of INT or UINT.", "MaxAccum": "A MaxAccum is of INT or UINT.",
    "MapAccum": "The key of a map is no tuple; its value is INT, UINT or an accumulator other than a list: of truths OrAccum, of texts SetAccum<STRING>.",
    "HeapAccum": "A heap holds tuples, from 1 to 1000000 of them, and is ordered by fields of its tuple.",
    "GroupByAccum": "A part of a group is an accumulator other than a list.", "ListAccum": "A list can't be in a map or a group.",
}
OPENING = "Only kinds of one value have an opening."
OVER = "FOREACH goes through a SetAccum, BagAccum, ListAccum or HeapAccum: feed the vertices, or the keys of the map, to a SetAccum first."
NOT_ALLOWED = (
    (r"^count\(", "count(S) is S.size() here."), (r"^(getvid|to_vertex)\(", "There is no such function: a vertex is compared and printed as it is."),
    (r"@\w+'", "The value from before ACCUM, v.@a', is for POST-ACCUM."),
)


class Refused:
    """A refused statement of a script that can be read."""

    def __init__(self, program, text, tokens, trees, names, number, said, arguments=None):
        self.program, self.text, self.tokens, self.trees, self.names, self.said = program, text, tokens, trees, names, said
        self.number, self.arguments = number, arguments
        self.statement = trees[number]
        self.tree = self.statement.parts[0]
        self.kind = getattr(self.tree, "name", self.names.word(self.statement.start).upper())
        self.what = said.rsplit(" ", 1)[-1]

    def at(self, start, end):
        """The head of what is said, with the place of some tokens."""
        last = self.tokens[end - 1]
        begin, stop = self.tokens[start][2], last[2] + len(last[1])
        return [f"{self.text.place(begin)}: {self.said}", "", *self.text.shown(begin, stop)]

    def place_of(self, name, start, end):
        """The token that spells a name, between two tokens."""
        for at in range(start, end):
            if self.names.word(at) == name or self.names.word(at) == f'"{name}"':
                return at
        return None

    def named(self, start=None, end=None):
        """The place of the name of the message; of the whole statement where it doesn't stand there."""
        start, end = self.statement.start if start is None else start, self.statement.end if end is None else end
        at = self.place_of(self.what, start, end)
        return self.at(start, start + 1) if at is None else self.at(at, at + 1)

    def lines(self):
        if self.kind in ("Query", "Interpret") and not self.of_run():
            return self.of_query()
        return {"Job": self.of_job, "RunJob": self.of_run_job, "Run": self.of_call}.get(self.kind, self.of_schema)()

    def of_run(self):
        """Whether a query was taken, and ended while it ran."""
        return self.said in ("number out of range", "division by zero") or self.said.startswith(("sum out of range", "loop bound", "more than"))

    # ---- schemas, INSERT

    def of_schema(self):
        if self.kind == "Interpret":
            return self.of_fault(self.tree)
        said = self.named()
        if self.said.startswith("name taken") or self.said.startswith("graph exists"):
            return said + [f"A {self.what} is there already; names of types are shared by vertices, edges and reverse edges."]
        if self.said.startswith("bad default"):
            return said + ["A default is a value of the attribute's type: a text in quotes, a number, TRUE or FALSE."]
        if self.said.startswith(("no such type", "unknown name")):
            known = list(self.names.types) + self.names.graphs + list(self.names.queries) + list(self.names.jobs)
            like = self.near(known) or (self.there_are(self.names.graphs) if self.kind == "USE" else [])
            return said + like + self.declared_later()
        if self.said.startswith("wrong number of values") and self.what in self.names.types:
            return said + [self.names.described(self.what)]
        return self.of_value() if self.said == "type mismatch" and self.kind == "Insert" else said

    def of_value(self):
        """The value of an INSERT that its attribute doesn't take."""
        type_, wanted = loads.values_of(self.names, self.tree)
        name = self.names.words(self.tree)[2]
        if type_ is None:
            return self.named()
        values = [it for it in self.tree.parts if not isinstance(it, int) or self.names.word(it) == "_"]
        for value, (attribute, of, _) in zip(values, wanted):
            if not isinstance(value, int) and not self.takes(of, value):
                form = ' A moment is "2025-03-01 08:30:00", or the seconds since 1970 in quotes.' if of == "DATETIME" else ""
                return self.at(value.start, value.end) + [f"{attribute} is {of}.{form}", self.names.described(name)]
        return self.named() + [self.names.described(name)]

    def takes(self, of, value):
        """Whether an attribute of a type takes a literal."""
        kind = self.tokens[value.end - 1][0]
        text = "".join(self.names.word(at) for at in range(value.start, value.end))
        if kind == "text":
            return of == "STRING" or of == "DATETIME" and is_readable(loads.plain(text).encode(), of, False)
        return of in ("INT", "UINT") and is_readable(text.encode(), of, False) if kind == "number" else of == "BOOL"

    def near(self, known):
        like = near(self.what, known)
        hint = ELSEWHERE.get(self.what)
        return [hint] if hint else [f"Near it: {', '.join(like)}."] if like else []

    def there_are(self, known):
        """The names that are near, or else those that there are."""
        return self.near(known) or ([f"There are: {', '.join(known[:9])}."] if known else [])

    def declared_later(self):
        """Where what is missing comes further down."""
        for later in self.trees[self.number + 1:]:
            tree = later.parts[0]
            if getattr(tree, "name", "") in ("Vertex", "Edge", "Graph", "Query", "Job") and self.place_of(self.what, later.start, min(later.start + 4, later.end)):
                return [f"It is declared on line {self.text.line(self.tokens[later.start][2])}, after this: vertex types come first, then edges, then graphs."]
        return []

    # ---- loading

    def of_job(self):
        if self.said == "not allowed here":
            cols = [it for it in self.tree.all("Col") if self.names.word(it.start) == "_"]
            return (self.at(cols[0].start, cols[0].end) if cols else self.named()) + ["An id or a discriminator has no default: it needs a column."]
        if self.said == "bad option":
            opts = [it for it in self.tree.all("Opt") if not self.is_option(it)]
            return (self.at(opts[0].start, opts[0].end) if opts else self.named()) + [
                'SEPARATOR is one ASCII character, as ";" or "\\t", QUOTE is "double" or "single".']
        said = self.named()
        if self.said.startswith("wrong number of values") and self.what in self.names.types:
            return said + [self.names.described(self.what), "VALUES has a value for each, in this order; _ gives an attribute its default."]
        if self.said.startswith("unknown name"):
            defined = [self.names.words(it)[2] for it in self.tree.trees("Line") if self.names.words(it)[0].upper() == "DEFINE"]
            return said + self.there_are(self.names.graphs + defined) + ['A path is written in quotes: LOAD "city.csv" ..; a name needs DEFINE FILENAME.']
        if self.names.types.get(self.what, {}).get("kind") == "reverse edge":
            return said + [f"{self.what} is a reverse type, which isn't loaded: load its edge type, and its edges are there backwards too."]
        return said + self.near(list(self.names.types)) + self.declared_later()

    def is_option(self, tree):
        """Whether an option of a LOAD may have its value."""
        name, value = self.names.word(tree.start).upper(), loads.plain(self.names.word(tree.end - 1))
        if name == "QUOTE":
            return value.lower() in ("double", "single")
        return name != "SEPARATOR" or len(value) == 1 and value.isascii() and value not in '\r\n"'

    def of_run_job(self):
        words = self.names.words(self.tree)
        job = self.names.jobs.get(words[3])
        if job is None:
            return self.named() + self.there_are(list(self.names.jobs))
        using = dict(zip(words[5::4], (loads.plain(it) for it in words[7::4])))
        place = self.place_of(self.what, job.start, job.end)
        said = self.at(place, place + 1) if place is not None else self.named()
        if self.said.startswith("no column"):
            return said + loads.no_column(self.said[len("no column "):], None, self.names, job, using)
        if self.said.startswith("missing file"):
            return said + near_files(self.said[len("missing file "):])
        if self.said.startswith("no path"):
            return said + [f'RUN LOADING JOB {words[3]} USING {self.what}="..", or DEFINE FILENAME {self.what} = ".." in the job.']
        return said

    # ---- queries

    def of_call(self):
        words = self.names.words(self.tree)
        query = self.names.queries.get(words[2])
        if self.said.startswith("unknown name") or query is None:
            return self.named() + self.there_are(list(self.names.queries))
        params = [self.source(it) for it in query.trees("Param")]
        signature = f"{words[2]} ({', '.join(params)})"
        if self.said.startswith("not installed"):
            return self.named() + [f"INSTALL QUERY {words[2]} before it runs, and again after each CREATE OR REPLACE QUERY."]
        if self.said.startswith("wrong number"):
            return self.at(self.statement.start, self.statement.end) + [f"It is declared as {signature}."]
        if self.said.startswith("bad argument"):
            return self.at(self.statement.start, self.statement.end) + [f"It is declared as {signature}.", *self.of_argument(words, query)]
        return self.of_fault(query)

    def of_argument(self, words, query):
        """What helps with an argument."""
        is_vertex = any(self.source(it).startswith("VERTEX") and self.place_of(self.what, it.start, it.end) for it in query.trees("Param"))
        said = ["A vertex is given by its id, and has to be in the graph.", *self.left_out()] if is_vertex else []
        return said if "(" in words else self.of_file(words[2]) + said

    def of_file(self, query):
        """What the file of arguments has for a parameter."""
        if self.arguments is None:
            return ["Without parentheses arguments come from the file that --args names, and none is given."]
        with open(self.arguments, encoding="utf-8") as it:
            members = json.load(it).get(query)
        if not isinstance(members, dict):
            return [f"{self.arguments}, the file of --args, has no object `{query}`."]
        if self.what not in members:
            return [f"In {self.arguments}, the file of --args, `{query}` has no member {self.what}.", *self.there_are(list(members))]
        return [f"In {self.arguments}, the file of --args, {self.what} is {json.dumps(members[self.what], ensure_ascii=False)}."]

    def left_out(self):
        """The records that the loads before this statement left out."""
        found = loads.of_script(self.names, self.text, self.tokens, self.trees[:self.number])
        return ["Of the loads before:", *found] if found else []

    def of_fault(self, query):
        """Where a run may have met its fault."""
        signs = {"division by zero": ("/", "%"), "number out of range": ("+", "-", "*", "/")}.get(self.said, ())
        if self.said.startswith("sum out of range"):
            places = [at for at in range(query.start, query.end) if self.names.word(at) == self.what and self.names.word(at + 1) == "+="]
        elif self.said.startswith("loop bound"):
            places = [at for at in range(query.start, query.end) if self.names.word(at).upper() in ("WHILE", "FOREACH")]
        elif self.said.startswith("more than"):
            places = [it.start for it in query.all("Path")]
        else:
            places = [at for at in range(query.start, query.end) if self.names.word(at) in signs and self.tokens[at][0] == "symbol"
                      and self.is_operator(query, at)]
        said = [f"{self.text.place(self.tokens[self.statement.start][2])}: {self.said}", ""]
        for at in places[:5]:
            said += self.text.shown(self.tokens[at][2], self.tokens[at][2] + len(self.tokens[at][1]))
        more = "It came while the query ran" + (", at one of these." if len(places) > 1 else ".")
        return said + ([f"{len(places) - 5} more places"] if len(places) > 5 else []) + [more]

    def is_operator(self, query, at):
        return any(at in it.parts for it in query.all("Sum", "Mul", "Neg"))

    def source(self, tree):
        return " ".join(self.names.word(at) for at in range(tree.start, tree.end)).replace(" < ", "<").replace(" >", ">").replace(" ,", ",")

    def of_query(self):
        if self.said.startswith(("name taken", "bad option")) or self.said.startswith("unknown name") and self.what == self.graph_name():
            hints = {"name taken": ["CREATE OR REPLACE QUERY takes its place."], "bad option": ['SYNTAX is v1 or v2, API is "v2", each once at most.']}
            modes = self.tree.trees("Mode") if self.said.startswith("bad option") else []
            said = self.at(modes[0].start, modes[-1].end) if modes else self.named(end=self.tree.trees("Body")[0].start)
            return said + hints.get(" ".join(self.said.split()[:2]), self.there_are(self.names.graphs))
        query = Query(self.program, self.text, self.tokens, self.trees[:self.number], self.statement)
        unit = query.culprit(self.said)
        if unit is None:
            return self.named(end=self.tree.trees("Body")[0].start) + self.names_near()
        if self.said.startswith("bad accumulator"):
            return self.named(*self.around(unit)) + self.of_accumulator(unit.tree)
        if self.said.startswith("wider set"):
            made = query.statement_of(unit.tree)
            return self.at(made.start, made.start + 1) + [OF_QUERIES["wider set"]]
        for name, hint in OF_QUERIES.items():
            if self.said.startswith(name):
                return self.named(*self.around(unit)) + [hint]
        if self.said.startswith(("unknown name", "no attribute")):
            return self.of_name(query, unit)
        return self.of_expression(query, unit)

    def of_accumulator(self, tree):
        """What accumulators of the kinds of a declaration may be."""
        kinds = dict.fromkeys(self.names.word(it.start) for it in tree.all("Kind"))
        said = [hint for kind, hint in OF_KINDS.items() if kind.upper() in {it.upper() for it in kinds}]
        return said + ([OPENING] if any(self.names.word(at) == "=" for at in range(tree.start, tree.end)) else [])

    def graph_name(self):
        words = self.names.words(self.tree)
        upper = [it.upper() for it in words]
        return words[upper.index("FOR") + 2] if "FOR" in upper else None

    def names_near(self):
        known = list(self.names.types) + self.names.of_query(self.tree) + list(FUNCTIONS) + list(METHODS)
        return self.near(known)

    def around(self, unit):
        """The tokens of a part, or of the statement or the entry that it belongs to, where the name stands there alone."""
        if self.place_of(self.what, unit.tree.start, unit.tree.end) is None and hasattr(unit.place, "start"):
            return unit.place.start, unit.place.end
        return unit.tree.start, unit.tree.end

    def of_name(self, query, unit):
        said = self.named(*self.around(unit))
        if self.said.startswith("unknown name"):
            return said + (self.of_use(unit) or self.names_near() or self.declared_nowhere(unit))
        all_attributes = [name for it in self.names.types.values() for name, _ in it["attributes"]]
        ids = [name for name, it in self.names.types.items() if it["kind"] == "vertex" and it["id"][0] == self.what and not it["shown"]]
        if self.what in METHODS:
            return said + [f"{self.what} is a method: write {self.what}()."]
        if self.what in FUNCTIONS:
            return said + [f"{self.what} is a function: write {self.what}(..) of the value."]
        owner = self.owner(query, unit)
        if owner:
            return said + [f"{owner} is a set: PRINT {owner}[{owner}.{self.what}] shows an attribute of each of its vertices, and a SELECT reads it."]
        if ids:
            return said + [f'{self.what} is the id of {ids[0]}, and no attribute: CREATE VERTEX {ids[0]} (..) WITH PRIMARY_ID_AS_ATTRIBUTE="true".']
        having = [name for name, it in self.names.types.items() if self.what in dict(it["attributes"])]
        said += self.near(all_attributes)
        if having:
            said.append(f"It is an attribute of {', '.join(having)}: all types that the alias may have need it, with one type.")
        return said + [self.names.described(name) for name in self.types_of(unit)]

    def types_of(self, unit):
        """The types that the pattern of a SELECT names, or else the first ones."""
        select = next((it for it in self.tree.all("Select") if it.start <= unit.tree.start and unit.tree.end <= it.end), None)
        found = [name for name in self.names.types if select and self.place_of(name, select.start, select.end)]
        return (found or list(self.names.types))[:6]

    def owner(self, query, unit):
        """The set in front of the name of the message, outside of a SELECT, or None."""
        at = self.place_of(self.what, unit.tree.start, unit.tree.end)
        sets = [self.names.word(it.start) for it in self.tree.all("Plain") if it.all("Select", "SetRhs")]
        return self.names.word(at - 2) if at is not None and self.names.word(at - 1) == "." and self.names.word(at - 2) in sets else None

    def of_use(self, unit):
        """What helps with an unknown name because of where it stands."""
        at = self.place_of(self.what, *self.around(unit))
        word = self.names.word(at) if at is not None else self.what
        if self.what.upper() in UNITS and self.names.word(at + 1) == ")" or word.startswith('"') and "datetime_add" in self.source(unit.tree):
            return ["A unit is one of these texts: " + ", ".join(f'"{it}"' for it in UNITS) + "."]
        item = next((it for it in self.tree.all("Item") if at is not None and it.start + 1 < at < it.end and self.names.word(it.start + 1) == "["), None)
        if item:
            owner = self.names.word(item.start)
            return [f"Within {owner}[..] the vertices are called by the set: {owner}.age, {owner}.@n."]
        if at is not None and self.names.word(at - 1).upper() == "SELECT":
            return ["A SELECT gives vertices: it names the alias of its source or of its target, and no edge's."]
        other = next((it for it in self.tree.all("Def") if self.names.word(it.end - 1) == self.what), None)
        return [f"{self.what} is a type of tuples here, so no set and no variable has that name."] if other else []

    def declared_nowhere(self, unit):
        """What helps with a variable that isn't there."""
        if getattr(unit.place, "name", "") != "Plain" or self.names.word(unit.place.start) != self.what:
            return []
        return ["A variable is declared by its type, as INT n = 1; in front of this, or within the same body."]

    def of_expression(self, query, unit):
        """`type mismatch` and `not allowed here`."""
        least = query.narrowed(unit, self.said)
        if least is not None:
            return self.at(least.start, least.end) + self.operands(query, unit, least) + self.hints(query.source(least.start, least.end), unit)
        whole = unit.place if self.said != "type mismatch" and getattr(unit.place, "name", "") in ("Act", "Plain") else unit.tree
        start = next(at for at in range(whole.start, whole.end) if self.names.word(at).upper() == "FROM") + 1 if whole.name == "From" else whole.start
        said = self.at(start, whole.end) + self.wanted(query, unit)
        return said + (self.hints(query.source(whole.start, whole.end), unit) if unit.tree.name != "From" else [])

    def operands(self, query, unit, tree):
        """What the parts of an expression are."""
        said, types = [], []
        for it in tree.trees():
            of = query.type_of(unit, it)
            if of:
                types.append(of)
                said.append(self.is_what(query, it, of))
        return said + self.of_types(tree, types, query.source(tree.start, tree.end))

    def is_what(self, query, tree, of):
        """What an expression is; of a collection which one, by its declaration."""
        text = query.source(tree.start, tree.end)
        name = re.search(r"@@?\w+$", text)
        if of == COLLECTION:
            declared = next((it for it in self.tree.all("Def") if name and self.place_of(name.group(), it.start, it.end)), None)
            kind = next((self.names.word(it.start) for it in declared.all("Kind")), None) if declared else None
            of = f"{'an' if kind[0] in 'AO' else 'a'} {kind}" if kind else "a set of vertices"
        return f"`{text}` is {of}."

    def of_types(self, tree, types, text):
        """What helps with these types in an expression."""
        if tree.name == "Sum" and "a moment" in types:
            return ['datetime_add(t, n, "HOUR") moves a moment, and datetime_diff(t, u) has the seconds between two.']
        if tree.name == "Sum" and "a text" in types and len(set(types)) > 1:
            return ["Texts are joined by +, and to_string(..) makes a text of a number or a truth."]
        if tree.name == "Cmp" and {"a moment", "a text"} == set(types):
            return ['A moment is written to_datetime("2025-03-01 08:30:00").']
        if tree.name == "Cmp" and {"a vertex", "a text"} == set(types):
            return ["A vertex is no text: compare its id, where the type says WITH PRIMARY_ID_AS_ATTRIBUTE, or a parameter VERTEX<T>."]
        if re.search(r"\.(contains|containsKey|get|size)\s*\(", text):
            return ["contains is for a set, a bag, a list; containsKey and get for a map or a group, with all its keys; size for each."]
        return self.of_tuple(text)

    def of_tuple(self, text):
        """The declaration of the tuple that a text makes."""
        name = re.match(r"(\w+)\s*\(", text)
        made = next((it for it in self.tree.all("Def") if name and self.names.word(it.end - 1) == name.group(1)), None)
        return [f"{name.group(1)} is declared by `{self.source(made)}`."] if made else []

    def wanted(self, query, unit):
        """What is wanted in a place, and what stands there."""
        tree = unit.tree
        said = []
        if tree.name == "From":
            return self.of_pattern(query, tree)
        if hasattr(unit.place, "start") and self.names.word(unit.place.start).upper() == "FOREACH":
            return [OVER]
        for it in [tree] if tree.name == "Expr" else tree.all("Expr"):
            of = query.type_of(unit, it) if unit.ask else None
            if of:
                said.append(self.is_what(query, it, of))
        fed = re.search(r"@@?\w+", query.source(tree.start, tree.end)) or (
            re.search(r"@@?\w+", query.source(unit.place.start, unit.place.end)) if hasattr(unit.place, "start") else None)
        declared = next((it for it in self.tree.all("Def") if fed and self.place_of(fed.group(), it.start, it.end)), None)
        if declared:
            said.append(f"{fed.group()} is declared by `{query.source(declared.start, declared.end)}`.")
            if "a moment" in " ".join(said[:-1]) and "INT>" in said[-1]:
                said.append("datetime_to_epoch(..) makes an INT of a moment.")
        said += self.of_tuple(query.source(tree.start, tree.end))
        if unit.place in ("WHERE", "HAVING"):
            said.append(f"{unit.place} wants a truth.")
        if unit.place == "LIMIT":
            said.append("LIMIT wants a number.")
        if unit.place == "ORDER":
            said.append("ORDER BY takes numbers, averages and texts; of a moment datetime_to_epoch(..).")
        return said

    def of_pattern(self, query, tree):
        text = query.source(tree.start, tree.end)
        modes = " ".join(query.source(it.start, it.end) for it in self.tree.trees("Mode")).upper()
        select = next((it for it in self.tree.all("Select") if it.start == tree.start), None)
        steps = select.all("Step") if select else []
        if "V2" in modes and any(":" in self.names.words(it) for it in steps[:-1]):
            return ["Only the source and the last step of a path have aliases: leave the others out, or go step by step with a SELECT for each."]
        if "V2" in modes and self.said == "type mismatch":
            return ["A step of a directed type has its direction, pays> or <pays; one of an undirected type has none."]
        if "V2" in modes and "->" in text:
            return ["In SYNTAX v2 a step is -(road>:e)- city:t; without SYNTAX v2 a hop is -(road:e)-> city:t."]
        if "->" not in text and ")-" in text:
            return ["A hop is -(road:e)-> city:t, for undirected edges too; steps such as -(road>:e)- city:t are paths, in a query of SYNTAX v2."]
        return ["FROM names a set or a vertex type, then edge types that lead from it, and vertex types that they lead to."]

    def hints(self, text, unit):
        if self.said == "type mismatch":
            return []
        found = [hint for form, hint in NOT_ALLOWED if re.search(form, text)]
        clause = self.clause_of(unit)
        owner = re.match(r"(\w+)\s*\.\s*(@\w+)", text)
        if hasattr(unit.place, "start") and self.names.word(unit.place.start).upper() == "FOREACH":
            return []
        if owner and owner.group(1) in [self.names.word(it.start) for it in self.tree.all("Plain") if it.all("Select", "SetRhs")]:
            found.append(f"PRINT {owner.group(1)}[{owner.group(1)}.{owner.group(2)}] shows it at each vertex.")
        elif owner and clause and owner.group(1) not in self.aliases(unit):
            found.append(f"{owner.group(2)} is read by an alias of this SELECT, and {owner.group(1)} is a variable: keep it in a MapAccum by vertex.")
        if clause == "ACCUM" and re.search(r"@\w+\s*=[^=]", text):
            found.append("All inputs of ACCUM come at once, so there is += and no =; POST-ACCUM has both, for accumulators of vertices.")
        elif clause == "POST-ACCUM" and re.search(r"@@\w+\s*=[^=]", text):
            found.append("In POST-ACCUM = is for accumulators of vertices alone; a global one takes +=.")
        elif clause in ("HAVING", "ORDER"):
            found.append("HAVING and ORDER BY see the selected alias alone.")
        if not found:
            found.append("Others that are met: an edge's alias on its own, a set within a calculation, an accumulator @a outside of a SELECT, "
                         "a VERTEX variable without a value, an opening that reads anything but parameters.")
        return found

    def aliases(self, unit):
        """The aliases of the SELECT that a part stands in."""
        select = next((it for it in self.tree.all("Select") if it.start <= unit.tree.start and unit.tree.end <= it.end), None)
        words = [self.names.word(at) for at in range(select.start, select.end)] if select else []
        return [word for before, word in zip(words, words[1:]) if before == ":"]

    def clause_of(self, unit):
        if isinstance(unit.place, str):
            return unit.place
        return unit.ask[1].split(" ")[0] if unit.ask else ""


def near_files(path):
    """The files of a folder that have names like one that isn't there."""
    folder = os.path.dirname(path) or "."
    if not os.path.isdir(folder):
        return [f"There is no folder {folder} here, in {os.getcwd()}."]
    like = near(os.path.basename(path), os.listdir(folder))
    said = [f"Paths go from the folder where gsql is called, {os.getcwd()}."]
    return said + ([f"Near it: {', '.join(os.path.join(os.path.dirname(path), it) for it in like)}."] if like else [])
