"""Where in a query a rule fails: found by asking the program itself about parts of the query, so that no rule is told here again.

A query is refused by the first of its rules that fails in order of text. So the shortest beginning of it that is refused in the same way ends
with what is at fault. Parts of an expression are asked about in the place where they stand.
"""
import json
import subprocess

SECONDS = 60
EXTRA = "explain_n"
LEVELS = ("Expr", "And", "Not", "Cmp", "Sum", "Mul", "Neg", "Prim", "Call")
COLLECTION = "a set of vertices or a collection"
# What an expression is, by what it may stand in.
TYPES = (("a number", "{} + 0 == 0"), ("a text", '{} == "x"'), ("a truth", "{} == TRUE"), ("a moment", "datetime_to_epoch({}) == 0"),
         ("an average", "{} < 1"), (COLLECTION, "{}.size() == 0"), ("a vertex", '{}.type == "x"'))


class Unit:
    """A part of a query up to which it can be cut: its tokens, what closes all that is open behind it, and how an expression is asked about there."""

    def __init__(self, tree, closers, ask=None, place=None):
        self.tree, self.closers, self.ask, self.place = tree, closers, ask, place


class Query:
    """A query of the script, over the statements that make the schema before it."""

    def __init__(self, program, text, tokens, before, statement):
        self.program, self.text, self.tokens = program, text, tokens
        self.tree = statement.parts[0]
        schema = [it for it in before if it.parts and getattr(it.parts[0], "name", None) in ("Vertex", "Edge", "Graph")
                  or tokens[it.start][1].upper() == b"USE"]
        self.schema = "\n".join(self.source(it.start, it.end) for it in schema)
        self.body = self.tree.trees("Body")[0]
        self.asked = {}

    def source(self, start, end):
        """The text of tokens, with the gaps between them."""
        if start >= end:
            return ""
        last = self.tokens[end - 1]
        return self.text.data[self.tokens[start][2]:last[2] + len(last[1])].decode()

    def bytes_of(self, tree):
        last = self.tokens[tree.end - 1]
        return self.tokens[tree.start][2], last[2] + len(last[1])

    def head(self):
        """The query's text to before its body, as one that is only checked."""
        text = self.source(self.tree.start, self.body.start)
        if self.tree.name == "Interpret":
            at = next(at for at in range(self.tree.start, self.tree.end) if self.tokens[at][1] == b"(")
            text = "CREATE QUERY explained " + self.source(at, self.body.start)
        return text

    def message(self, end, more):
        """What the program says of the query up to before a token of its body, with more text behind that; None where it takes it."""
        inside = self.source(self.body.start + 1, end)
        script = f"{self.schema}\n{self.head()} {{ SumAccum<INT> @@{EXTRA};\n{inside} {more}\n"
        if script not in self.asked:
            ran = subprocess.run([self.program, "/dev/stdin"], input=script.encode(), stdout=subprocess.PIPE, stderr=subprocess.DEVNULL, timeout=SECONDS)
            last = ran.stdout.decode().splitlines()[-1:]
            said = json.loads(last[0]) if last else {"error": False}
            self.asked[script] = said["message"].split(": ", 1)[-1] if said["error"] else None
        return self.asked[script]

    # ---- the parts, in order of text

    def units(self):
        found = []
        for it in self.body.trees():
            found += [Unit(it, "; }")] if it.name == "Def" else self.of_statement(it, "; }")
        return found

    def of_statement(self, tree, closers):
        """The parts of Stmt or Plain. Expressions are asked about in an IF in front of it."""
        ask = (tree.start, "IF {} THEN END" + closers)
        word = self.tokens[tree.start][1].upper()
        if tree.name == "Stmt" and word != b"IF":
            return self.of_statement(tree.parts[0], closers)
        if word in (b"IF", b"WHILE", b"FOREACH"):
            return self.of_block(tree, word, closers, ask)
        found = []
        for it in tree.trees():
            if it.name == "Select":
                found += self.of_select(it, closers, tree)
            elif it.name == "Item":
                found += self.of_item(it, closers, ask)
            elif it.name in ("Expr", "In"):
                found.append(Unit(it, closers, ask, tree))
        return found + [Unit(tree, closers, None, tree)]

    def of_block(self, tree, word, closers, ask):
        found = []
        open_list = {b"IF": " THEN END", b"WHILE": " DO END", b"FOREACH": " DO END"}[word]
        ranged = any(self.tokens[it][1].upper() == b"RANGE" for it in tree.parts if isinstance(it, int))
        for it in tree.trees():
            if it.name == "Expr" and not ranged:
                found.append(Unit(it, open_list + closers, ask, tree))
            elif it.name == "Plain":
                found += self.of_statement(it, "; END" + closers)
            elif it.name == "Stmts":
                for one in it.trees("Stmt"):
                    found += self.of_statement(one, "; END" + closers)
        return found + [Unit(tree, closers, None, tree)]

    def of_item(self, tree, closers, ask):
        found = []
        listed = len(tree.parts) > 1 and isinstance(tree.parts[0], int) and self.tokens[tree.parts[0] + 1][1] == b"["
        for it in tree.trees("Expr"):
            if listed:
                begun = (tree.start, f"PRINT {self.source(tree.start, tree.start + 2)} {{}} AS explained_k ]" + closers)
                found.append(Unit(it, "]" + closers, (self.statement_of(tree).start, begun[1]), tree))
            else:
                found.append(Unit(it, closers, ask, tree))
        return found + [Unit(tree, closers, ask, tree)]

    def statement_of(self, tree):
        """The innermost statement of the body that has a tree."""
        return [it for it in self.body.all("Stmt", "Plain") if it.start <= tree.start and tree.end <= it.end][-1]

    def of_select(self, tree, closers, statement):
        """The clauses of a SELECT. Expressions are asked about in a WHERE or ACCUM of the same FROM."""
        first = next((it for it in tree.parts if isinstance(it, int) and self.tokens[it][1].upper() in
                      (b"WHERE", b"ACCUM", b"HAVING", b"ORDER", b"LIMIT")), None)
        posts = tree.trees("Post")
        heads = [it for it in (first, posts[0].start if posts else None) if it is not None]
        pattern_end = min(heads) if heads else tree.end
        pattern = type(tree)("From", tree.start, pattern_end, [])
        found = [Unit(pattern, closers, None, tree)]
        clause = ""
        for it in tree.parts:
            if isinstance(it, int):
                clause = {b"WHERE": "WHERE", b"ACCUM": "ACCUM", b"HAVING": "HAVING", b"ORDER": "ORDER", b"LIMIT": "LIMIT"}.get(
                    self.tokens[it][1].upper(), clause)
            elif it.name == "Post":
                clause = "POST-ACCUM"
            elif it.name == "Acts":
                ask = (pattern_end, f"{clause} IF {{}} THEN @@{EXTRA} += 1 END" + closers)
                for act in it.trees("Act"):
                    found += self.of_act(act, closers, ask)
            elif it.name == "Expr":
                ask = {"WHERE": (pattern_end, "WHERE {}" + closers), "LIMIT": (statement.start, "IF {} THEN END" + closers)}.get(
                    clause, (pattern_end, "HAVING {}" + closers))
                found.append(Unit(it, closers, ask, clause))
        return found

    def of_act(self, tree, closers, ask):
        inner = tree.trees()
        if len(inner) == 1 and inner[0].name == "Change":
            found = [Unit(it, closers, ask, tree) for it in inner[0].trees("Expr", "In")]
            return found + [Unit(tree, closers, ask, tree)]
        found = []
        for it in inner:
            if it.name == "Acts":
                for act in it.trees("Act"):
                    found += self.of_act(act, " END" + closers, ask)
            elif it.name in ("Change", "Act"):
                found += self.of_act(it if it.name == "Act" else type(it)("Act", it.start, it.end, [it]), " END" + closers, ask)
        conditions = [Unit(it, None, ask, tree) for it in tree.trees("Expr")]
        return conditions + found + [Unit(tree, closers, ask, tree)]

    # ---- the part at fault

    def fails(self, unit, said):
        return unit.closers is not None and self.message(unit.tree.end, unit.closers) == said

    def culprit(self, said):
        """The first part with which the query is refused so, or None where its head is."""
        units = [it for it in self.units()]
        cut = [it for it in units if it.closers is not None]
        if self.message(self.body.start + 1, "}") == said:
            return None
        low, high = 0, len(cut) - 1
        if high < 0 or not self.fails(cut[high], said):
            return None
        while low < high:
            middle = (low + high) // 2
            low, high = (low, middle) if self.fails(cut[middle], said) else (middle + 1, high)
        return self.condition_before(units, cut[low], said) or cut[low]

    def condition_before(self, units, unit, said):
        """A condition of an IF in ACCUM, which can't be cut alone, where that is at fault."""
        at = units.index(unit)
        while at > 0 and units[at - 1].closers is None:
            at -= 1
            if self.is_at_fault(units[at], units[at].tree, said):
                return units[at]
        return None

    # ---- expressions

    def plain(self, tree):
        """A tree without the levels that have nothing but one part."""
        while tree.name in LEVELS and len(tree.parts) == 1 and not isinstance(tree.parts[0], int):
            tree = tree.parts[0]
        return tree

    def answer(self, unit, text):
        """What is said where an expression, as a truth, stands in the place of a part."""
        at, form = unit.ask
        return self.message(at, form.replace("{}", text, 1))

    def is_at_fault(self, unit, tree, said):
        """Whether an expression by itself is refused so."""
        text = self.source(tree.start, tree.end)
        return self.answer(unit, f"({text}) == ({text})") == said

    def narrowed(self, unit, said):
        """The least expression within a part that is refused so by itself, or None."""
        if unit.ask is None:
            return None
        tops = [unit.tree] if unit.tree.name in LEVELS else [it for it in unit.tree.all("Expr") if it.end <= unit.tree.end]
        for top in tops:
            tree = self.plain(top)
            if self.is_composite(tree) and self.is_at_fault(unit, tree, said):
                return self.least(unit, tree, said)
        return None

    def is_composite(self, tree):
        return len(tree.parts) > 1

    def least(self, unit, tree, said):
        for it in tree.trees():
            inner = self.plain(it)
            if self.is_composite(inner) and not self.is_collection(unit, inner) and self.is_at_fault(unit, inner, said):
                return self.least(unit, inner, said)
        return self.shortest(unit, tree, said)

    def is_collection(self, unit, tree):
        return self.type_of(unit, tree) == COLLECTION

    def shortest(self, unit, tree, said):
        """Of a chain such as a + b + c the shortest beginning that is refused so."""
        if tree.name not in ("Sum", "Mul", "And", "Expr"):
            return tree
        parts = tree.trees()
        for count in range(2, len(parts)):
            some = type(tree)(tree.name, tree.start, parts[count - 1].end, tree.parts[:2 * count - 1])
            if self.is_at_fault(unit, some, said):
                return some
        return tree

    def type_of(self, unit, tree):
        """What an expression is, in words, or None."""
        text = f"({self.source(tree.start, tree.end)})"
        bare = self.source(tree.start, tree.end)
        for name, form in TYPES:
            if self.answer(unit, form.replace("{}", bare if ".size" in form or ".type" in form else text)) is None:
                return name
        return None
