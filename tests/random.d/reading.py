"""How a script is read, by docs/language.md and its grammar (tools/language.py), and scripts at random that this grammar derives."""
import os
import random
import re
import sys

sys.path.insert(1, os.path.join(os.path.dirname(os.path.dirname(os.path.dirname(os.path.realpath(__file__)))), "tools"))
from language import Grammar, Reader, TOKEN, Unread, judge_depth, tokens_of


def refusal(data, grammar=[]):
    """What is said of a script that can't be read, or None."""
    if not grammar:
        grammar.append(Grammar())
    sys.setrecursionlimit(100000)
    try:
        tokens = tokens_of(data)
        judge_depth(data, tokens)
    except Unread as bad:
        return str(bad)
    reader, at, count = Reader(grammar[0], tokens), 0, 1
    while at < len(tokens):
        if tokens[at][1] == b";" and tokens[at][0] == "symbol":
            at += 1
            continue
        ends = reader.named("Statement", at, 0)
        if not ends:
            return f"line {data.count(bytes([10]), 0, tokens[at][2]) + 1}: syntax error in statement {count}"
        at, count = max(ends), count + 1
    return None


# ---- scripts at random

NAMES = "person knows g s t e x id age S T q p".split()
OF_TOKENS = {"Number": lambda rng: rng.choice(("0", "1", "7", "18446744073709551615")), "Text": lambda rng: rng.choice(('"a"', '"true"', '"v2"', '""', '"\\n"')),
             "Global": lambda rng: "@@" + rng.choice("xy"), "Attached": lambda rng: "@" + rng.choice("xy"), "Name": lambda rng: rng.choice(NAMES)}
ODD = (b"(", b")", b"[", b"]", b"{", b"}", b";", b",", b".", b"->", b"-", b"'", b"$", b"@", b"@@x", b"@x", b'"', b'"\\q"', b"/*", b"*/", b"//", b"#", b"&", b"!",
       b"18446744073709551616", b"007", b"7AS", b"\xff", b"\xed\xa0\x80", b"\xc3", b"\xc3\xa9", b"\xef\xbb\xbf", b"\x00", b"\x0c", b"\r", b"\n", b"_", b"ELSE", b"END",
       b"IF", b"else if", b"WHILE", b"SELECT", b"select", b"Order", b"ANY", b"AS", b"=", b"==", b"<>", b"((((((((((((((((", b"FOREACH", b"POST-ACCUM", b"POST_ACCUM",
       b"SumAccum<", b">", b"MapAccum<INT,", b"STRING", b"1.5", b"<", b"|", b":", b"%", b"+=", b"NOT", b"TRUE", b"*")


def derived(grammar, rng, name, budget):
    """The tokens of something that a name of the grammar means, at random."""
    def walk(tree, left):
        what, of = tree
        if what == "name":
            if of in grammar.rules:
                return walk(grammar.rules[of], left - 1)
            return [OF_TOKENS[of](rng) if of in OF_TOKENS else rng.choice((of, of.lower(), of.title()))]
        if what == "symbol":
            return [of.decode()]
        if what == "row":
            return [it for part in of for it in walk(part, left)]
        if what == "choice":
            return walk(rng.choice(of) if left > 0 else min(of, key=lambda it: size(grammar, it, 9)), left)
        times = 0 if left <= 0 else rng.choice((0, 1)) if what == "maybe" else rng.choice((0, 0, 1, 1, 2))
        return [it for _ in range(times) for it in walk(of, left - 2)]
    return walk(grammar.rules[name], budget)


def size(grammar, tree, most, known={}):
    """How few tokens a tree may have; no more than `most` steps are looked at."""
    what, of = tree
    if what in ("symbol", "maybe", "many"):
        return what == "symbol"
    if what == "name":
        if of not in grammar.rules:
            return 1
        if (of, most) not in known:
            known[of, most] = size(grammar, grammar.rules[of], most - 1) if most else 1000
        return known[of, most]
    sizes = [size(grammar, it, most) for it in of]
    return sum(sizes) if what == "row" else min(sizes)


def script_at_random(seed, grammar=[]):
    """A script of some statements that the grammar derives."""
    if not grammar:
        grammar.append(Grammar())
    rng, texts = random.Random(seed), []
    for _ in range(rng.choice((1, 1, 2, 3))):
        words = derived(grammar[0], rng, "Statement", rng.choice((6, 9, 14, 20)))
        texts.append("".join(it + rng.choice((" ", " ", " ", "\n", " /* */ ", "\t")) for it in words) + rng.choice(("\n", ";", " ")))
    return "".join(texts).encode()


def mutated(data, rng):
    """The script with a few things other: bytes, tokens, or whole runs of them."""
    for _ in range(rng.choice((1, 1, 1, 2, 3))):
        pick, at = rng.randint(0, 6), rng.randint(0, len(data))
        words = [it for it in TOKEN.finditer(data)] or [re.match(b"", data)]
        word, other = rng.choice(words), rng.choice(words)
        if pick == 0:
            data = data[:at] + data[at + rng.choice((1, 1, 2, 9)):]
        elif pick == 1:
            data = data[:at] + rng.choice(ODD) + data[at:]
        elif pick == 2:
            data = data[:word.start()] + data[word.end():]
        elif pick == 3:
            data = data[:word.start()] + other.group() + data[word.end():]
        elif pick == 4:
            data = data[:word.end()] + b" " + rng.choice((other.group(), rng.choice(ODD))) + b" " + data[word.end():]
        elif pick == 5:
            data = data[:word.start()] + rng.choice(ODD) + data[word.end():]
        else:
            data = data[:at] if rng.random() < 0.3 else data[:at] + data[min(at, other.start()):max(at, other.end())] + data[at:]
    return data
