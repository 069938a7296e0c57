"""How a script is read, by docs/language.md: its tokens, its nesting, and the tree of each statement. The grammar is read from that page itself.

A rule of the grammar gives all places where what it names may end, so nothing is decided early; a statement is the longest of them.
"""
import os
import re

PAGE = os.path.join(os.path.dirname(os.path.dirname(os.path.realpath(__file__))), "docs", "language.md")
MOST_DEPTH, MOST_LEVELS, WIDEST = 64, 8, (1 << 64) - 1
GAP = re.compile(rb"[ \t\r\n]+|(?:#|//)[^\n]*|/\*.*?\*/", re.DOTALL)
TOKEN = re.compile(rb"(?P<word>[A-Za-z_][A-Za-z0-9_]*)|(?P<global>@@[A-Za-z_][A-Za-z0-9_]*)|(?P<attached>@[A-Za-z_][A-Za-z0-9_]*)|(?P<number>[0-9]+)"
                   rb"|(?P<symbol>->|==|!=|<>|<=|>=|\+=|[=<>+\-*/%(){}\[\],;:.|'$])")
TEXT = re.compile(rb'"(?:[^"\\]|\\.)*"', re.DOTALL)
ESCAPE = re.compile(rb"\\(.)", re.DOTALL)
# The names of the grammar that are tokens of a kind.
KINDS = ("Name", "Number", "Text", "Global", "Attached")


class Unread(Exception):
    """A script that can't be read; what is said of it, and the byte that it names."""

    def __init__(self, said, at):
        super().__init__(said)
        self.at = at


def at_byte(data, at, what):
    return Unread(f"line {data.count(bytes([10]), 0, at) + 1}: {what} at byte {at}", at)


def tokens_of(data):
    """The tokens: of each its kind, its text and its place."""
    try:
        data.decode()
    except UnicodeDecodeError as bad:
        raise at_byte(data, bad.start, "not UTF-8") from None
    at, found = 0, []
    while at < len(data):
        gap = GAP.match(data, at)
        if gap:
            at = gap.end()
        elif data.startswith(b"/*", at):
            raise at_byte(data, at, "open comment")
        else:
            token = text_token(data, at) if data.startswith(b'"', at) else plain_token(data, at)
            found.append(token)
            at += len(token[1])
    return found


def text_token(data, at):
    text = TEXT.match(data, at)
    if not text:
        raise at_byte(data, at, "open text")
    for escape in ESCAPE.finditer(text.group()):
        if escape.group(1) not in b'"\\ntr':
            raise at_byte(data, at + escape.start(), "bad token")
    return "text", text.group(), at


def plain_token(data, at):
    token = TOKEN.match(data, at)
    if not token:
        raise at_byte(data, at, "bad token")
    if token.lastgroup == "number" and int(token.group()) > WIDEST:
        raise at_byte(data, at, "number too big")
    return token.lastgroup, token.group(), at


def judge_depth(data, tokens):
    depth, before = 0, b""
    for kind, text, at in tokens:
        upper = text.upper() if kind == "word" else text if kind == "symbol" else b""
        if upper in (b"(", b"[", b"{", b"WHILE", b"FOREACH") or upper == b"IF" and before != b"ELSE":
            depth += 1
            if depth > MOST_DEPTH:
                raise at_byte(data, at, "nested too deep")
        elif upper in (b")", b"]", b"}", b"END"):
            depth = max(0, depth - 1)
        before = upper


class Grammar:
    """The grammar of the page: a tree for each name."""

    def __init__(self):
        # by the loader, so that it is found too where this file and the page are in an archive (tools/packed.py)
        text = __loader__.get_data(PAGE).decode()
        said = re.search(r"These words are reserved, in letters of any case: (.*?), and `_`", text, re.DOTALL).group(1)
        self.reserved = {it.upper().encode() for it in said.split()} | {b"_"}
        lines = re.findall(r"^    (.*)$", text[text.index("\n## Grammar\n"):], re.MULTILINE)
        pieces = re.split(r"(?:^|\n)([A-Z]\w*)\s+= ", "\n".join(lines))
        self.rules = {}
        for name, body in zip(pieces[1::2], pieces[2::2]):
            parts = re.findall(r'"[^"]*"|\w+|[|()\[\]{}]', body)
            self.rules[name], rest = self.choice(parts)
            assert not rest, (name, rest)

    def reserved_words(self):
        """The reserved words in capitals."""
        return {it.decode() for it in self.reserved}

    def choice(self, parts):
        """`x | y`, and what is left behind it."""
        found = []
        while True:
            row = []
            while parts and parts[0] not in ("|", ")", "]", "}"):
                item, parts = self.item(parts)
                row.append(item)
            found.append(("row", row))
            if not parts or parts[0] != "|":
                return (found[0] if len(found) == 1 else ("choice", found)), parts
            parts = parts[1:]

    def item(self, parts):
        first, rest = parts[0], parts[1:]
        if first in "([{":
            inner, rest = self.choice(rest)
            return {"(": inner, "[": ("maybe", inner), "{": ("many", inner)}[first], rest[1:]
        return (("symbol", first[1:-1].encode()) if first[0] == '"' else ("name", first)), rest


class Tree:
    """What stands for a name of the grammar: the tokens from `start` to before `end`, as further trees and numbers of tokens."""

    def __init__(self, name, start, end, parts):
        self.name, self.start, self.end, self.parts = name, start, end, parts

    def trees(self, *names):
        """The parts that stand for these names, or for any."""
        return [it for it in self.parts if isinstance(it, Tree) and (not names or it.name in names)]

    def all(self, *names):
        """All trees of these names within this one, itself counted, in order of text."""
        found = [self] if self.name in names else []
        for it in self.trees():
            found += it.all(*names)
        return found


class Reader:
    """Where what a rule names may end, over some tokens; and how far tokens were looked at, with what could have stood there."""

    def __init__(self, grammar, tokens):
        self.grammar, self.tokens, self.known = grammar, tokens, {}
        self.furthest, self.wanted = -1, set()

    def looks(self, at, wanted, good):
        if not good and at >= self.furthest:
            if at > self.furthest:
                self.furthest, self.wanted = at, set()
            self.wanted.add(wanted)
        return frozenset((at + 1,)) if good else frozenset()

    def token_ends(self, at, wanted):
        """The end of a token that is meant by a name of the grammar which has no rule."""
        if at >= len(self.tokens):
            return self.looks(at, wanted, False)
        kind, text, _ = self.tokens[at]
        if wanted == "Name":
            good = kind == "word" and text.upper() not in self.grammar.reserved
        elif wanted in KINDS:
            good = kind == wanted.lower()
        else:
            good = kind == "word" and text.upper() == wanted.upper().encode()
        return self.looks(at, wanted, good)

    def symbol_ends(self, at, wanted):
        good = at < len(self.tokens) and self.tokens[at][1] == wanted and self.tokens[at][0] in ("symbol", "word")
        return self.looks(at, wanted.decode(), good)

    def ends(self, tree, at, level):
        what, of = tree
        if what == "name":
            return self.named(of, at, level) if of in self.grammar.rules else self.token_ends(at, of)
        if what == "symbol":
            return self.symbol_ends(at, of)
        if what == "row":
            found = {at}
            for it in of:
                found = {end for start in found for end in self.ends(it, start, level)}
                if not found:
                    break
            return found
        if what == "choice":
            return {end for it in of for end in self.ends(it, at, level)}
        return set(self.repeated(of, at, level, once=what == "maybe"))

    def repeated(self, of, at, level, once=False):
        """The ends of any number of what `of` stands for, or of at most one, each with where the last of them began."""
        found, new = {at: None}, [at]
        while new:
            more = []
            for start in new:
                for end in self.ends(of, start, level):
                    if end not in found:
                        found[end] = start
                        more.append(end)
            new = [] if once else more
        return found

    def named(self, name, at, level):
        level += name == "Kind"
        if (name, at, level) not in self.known:
            self.known[name, at, level] = frozenset(self.ends(self.grammar.rules[name], at, level)) if level <= MOST_LEVELS else frozenset()
        return self.known[name, at, level]

    def tree(self, name, at, end, level=0):
        """The tree of what stands for a name between two places."""
        return Tree(name, at, end, self.parts(self.grammar.rules[name], at, end, level + (name == "Kind")))

    def parts(self, tree, at, end, level):
        what, of = tree
        if what == "name" and of in self.grammar.rules:
            return [self.tree(of, at, end, level)]
        if what in ("name", "symbol"):
            return [at]
        if what == "choice":
            return self.parts(next(it for it in of if end in self.ends(it, at, level)), at, end, level)
        return self.parts_of_row(of, at, end, level) if what == "row" else self.parts_of_many(of, at, end, level, what == "maybe")

    def parts_of_row(self, items, at, end, level):
        starts = [{at: None}]
        for it in items:
            now = {}
            for start in starts[-1]:
                for to in self.ends(it, start, level):
                    now.setdefault(to, start)
            starts.append(now)
        found = []
        for it, before in zip(reversed(items), reversed(starts[1:])):
            start = before[end]
            found = self.parts(it, start, end, level) + found
            end = start
        return found

    def parts_of_many(self, of, at, end, level, once):
        starts, found = self.repeated(of, at, level, once), []
        while end != at:
            start = starts[end]
            found = self.parts(of, start, end, level) + found
            end = start
        return found


def statements_of(reader):
    """The trees of the statements in order; then, where one can't be read, the place of its first token, else None."""
    at, found = 0, []
    while at < len(reader.tokens):
        if reader.tokens[at][1] == b";" and reader.tokens[at][0] == "symbol":
            at += 1
            continue
        ends = reader.named("Statement", at, 0)
        if not ends:
            return found, at
        found.append(reader.tree("Statement", at, max(ends)))
        at = max(ends)
        reader.known.clear()
    return found, None
