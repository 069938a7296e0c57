"""What cases have, by the grammar of docs/language.md: each alternative, each optional part and each repeated part of its rules, with the functions,
methods, operators, kinds and refusals. It tells what none of them has."""
import collections
import re

from compare import REFUSALS
from language import Grammar, PAGE, Reader, Unread, tokens_of
from script import script_text

FUNCTIONS = ("abs to_string to_datetime epoch_to_datetime datetime_to_epoch datetime_diff datetime_add year month day hour minute second "
             "size contains containsKey get outdegree").split()
UNITS = "YEAR MONTH DAY HOUR MINUTE SECOND".split()


def spelled(tree):
    """The text of a part of the grammar."""
    what, of = tree
    if what in ("name", "symbol"):
        return of if what == "name" else f'"{of.decode()}"'
    if what == "row":
        return " ".join(spelled(it) for it in of)
    if what == "choice":
        return "( " + " | ".join(spelled(it) for it in of) + " )"
    return ("[ %s ]" if what == "maybe" else "{ %s }") % spelled(of)


def places(grammar):
    """The names of all places of a grammar, and whether each may be left out: each alternative of a choice, each option and each repetition."""
    found, optional = {}, {}

    def walk(rule, tree):
        what, of = tree
        if what == "choice":
            for it in of:
                found[id(it)], optional[id(it)] = f"{rule}: {spelled(it)}", False
        elif what in ("maybe", "many"):
            found[id(tree)], optional[id(tree)] = f"{rule}: {spelled(tree)}", True
        for it in of if what in ("choice", "row") else [of] if what in ("maybe", "many") else ():
            walk(rule, it)

    for rule, tree in grammar.rules.items():
        if rule == "Script":
            continue
        walk(rule, tree)
    return found, optional


STATEMENTS = {"CREATE VERTEX": "vertex", "CREATE EDGE": "edge", "CREATE GRAPH": "graph", "USE GRAPH": "use", "CREATE LOADING JOB": "job",
              "RUN LOADING JOB": "runjob", "INSERT INTO": "insert", "CREATE QUERY": "query", "INTERPRET QUERY": "interpret", "INSTALL QUERY": "install",
              "RUN QUERY": "run"}
FAULTS = "the fault of a run"


def refusals_by_statement():
    """The refusals that docs/language.md has for each statement, as far as docs/errors.md has a heading for them."""
    with open(PAGE, encoding="utf-8") as it:
        page = it.read()
    page = page[page.index("## Refusals, in this order"):page.index("## Grammar")]
    items = [" ".join(it.split()) for it in re.split(r"\n- ", page)[1:]]
    found = set()
    for item in items:
        heads, _, told = item.partition(": ")
        # (headings end in the letter that stands for a name or a number)
        refused = [it for it in re.findall(r"`([a-z][^`]*)`", told.split(" Of the five")[0]) if it in REFUSALS]
        kinds = [STATEMENTS[it] for it in heads.split(", ") if it in STATEMENTS] + ["interpret", "run"] * (heads == FAULTS)
        if kinds and not heads.startswith("INTERPRET QUERY, after"):
            found |= {f"{kind}: {it}" for kind in kinds for it in refused}
    # what is said of types alone, and of edges alone, and of a query's name, and what scripts and options say
    return sorted(found - {"vertex: no such type X", "interpret: name taken X"})


class Recorder(Reader):
    """A reader that keeps which places a statement has."""

    def __init__(self, grammar, tokens, seen):
        super().__init__(grammar, tokens)
        self.seen = seen

    def parts(self, tree, at, end, level):
        what, of = tree
        if what == "choice":
            taken = next(it for it in of if end in self.ends(it, at, level))
            self.seen.add((id(taken), ""))
            return self.parts(taken, at, end, level)
        if what in ("maybe", "many"):
            self.seen.add((id(tree), "" if end > at else " left out"))
        return super().parts(tree, at, end, level)


class Coverage:
    """Counts over cases."""

    def __init__(self):
        self.grammar = Grammar()
        self.names, self.optional = places(self.grammar)
        self.places, self.words, self.refused = collections.Counter(), collections.Counter(), collections.Counter()

    def count(self, case, wanted):
        """Counts a case whose meaning the reference knows, and which has this outcome."""
        if wanted is None or wanted is False or any(it in case for it in ("bytes", "words", "sample")):
            return
        output, status = wanted
        if status == 0:
            self.count_script(script_text(case)[0].encode())
        said = re.search(rb'"error":true,"message":"(?:line (\d+): )?(.*)"', output)
        if said:
            text = said.group(2)
            name = next((head for head, form in REFUSALS.items() if form.fullmatch(text)), text.decode())
            self.refused[f"{self.statement(case, int(said.group(1) or 0))}: {name}"] += 1

    def statement(self, case, line):
        """The kind of the statement on this line."""
        at = script_text(case)[1]
        kinds = ["script" if it.get("unread") else "interpret" if it["k"] == "raw" else it["k"] for it, start in zip(case["script"], at) if start == line]
        return kinds[-1] if kinds else "script"

    def count_script(self, data):
        try:
            tokens = tokens_of(data)
        except Unread:
            return
        seen, reader, at = set(), None, 0
        reader = Recorder(self.grammar, tokens, seen)
        while at < len(tokens):
            if tokens[at][1] == b";" and tokens[at][0] == "symbol":
                at += 1
                continue
            ends = reader.named("Statement", at, 0)
            if not ends:
                return
            reader.tree("Statement", at, max(ends))
            at = max(ends)
            reader.known.clear()
        for it in seen:
            self.places[self.names[it[0]] + it[1]] += 1
        calls = {it[1].decode() for it, after in zip(tokens, tokens[1:]) if it[0] == "word" and after[1] == b"("}
        units = {it[1][1:-1].decode().upper() for it in tokens if it[0] == "text"}
        for word in calls.intersection(FUNCTIONS) | units.intersection(UNITS):
            self.words[word] += 1

    def all(self):
        """How many cases have each of these."""
        return self.places + self.words + self.refused

    def never(self):
        """What no case has."""
        wanted = [self.names[it] + more for it, optional in self.optional.items() for more in (("", " left out") if optional else ("",))]
        return [it for it in wanted if not self.places[it]] + [it for it in FUNCTIONS + UNITS if not self.words[it]] + \
            [it for it in refusals_by_statement() if not self.refused[it]]
