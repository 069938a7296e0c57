"""The text of a tree: statements, queries and expressions as docs/language.md has their grammar.

An expression is a tuple whose first part says what it is: ("num", n), ("text", s), ("truth", b), ("name", x), ("global", "@@x"), ("att", alias,
"@x"), ("prev", alias, "@x") for `alias.@x'`, ("dot", e, name), ("method", e, name, arguments), ("call", name, arguments), ("make", tuple type,
arguments), ("neg", e), ("not", e), ("and", e, e), ("or", e, e) and ("op", sign, e, e). An input is ("in", e) or ("->", keys, inputs). Statements,
of a script, of a body and of ACCUM, are dicts whose "k" says what they are.
"""

import random
import re

LOOSE = {"or": 1, "and": 2, "not": 3, "op": 4, "neg": 7}
KIND_WORDS = {"Sum": "SumAccum", "Min": "MinAccum", "Max": "MaxAccum", "Avg": "AvgAccum", "Or": "OrAccum", "And": "AndAccum",
              "BitOr": "BitwiseOrAccum", "BitAnd": "BitwiseAndAccum", "Set": "SetAccum", "Bag": "BagAccum", "List": "ListAccum",
              "Map": "MapAccum", "Group": "GroupByAccum", "Heap": "HeapAccum"}
ANY_CASE = ("create vertex primary_id int uint bool string datetime default with directed undirected edge from to discriminator graph use "
            "loading job for define filename load values using run insert into query replace install interpret api syntax typedef tuple "
            "sumaccum minaccum maxaccum avgaccum orraccum andaccum bitwiseoraccum bitwiseandaccum setaccum bagaccum listaccum mapaccum "
            "groupbyaccum heapaccum if then else end while limit do foreach in range print as any union intersect minus select where accum "
            "post having order by desc asc").split()
GAPS = ("\n", "  ", " /* a gap */ ", " # a gap\n", " // \"gap\n", "\t", "\r\n")


class Unspelled(Exception):
    """A tree that no text has."""


def text_token(text):
    for plain, escape in (("\\", "\\\\"), ('"', '\\"'), ("\n", "\\n"), ("\t", "\\t"), ("\r", "\\r")):
        text = text.replace(plain, escape)
    return f'"{text}"'


def level(e):
    if e[0] == "op":
        return {"+": 5, "-": 5, "*": 6, "/": 6, "%": 6}.get(e[1], 4)
    return LOOSE.get(e[0], 8)


def at_least(e, wanted):
    return tokens(e) if level(e) >= wanted else ["(", *tokens(e), ")"]


def called(name, args):
    found = [name, "("]
    for at, it in enumerate(args):
        found += ([","] if at else []) + tokens(it)
    return found + [")"]


def tokens(e):
    """The tokens of an expression."""
    name = e[0]
    if name in ("or", "and"):
        return at_least(e[1], LOOSE[name]) + [name.upper()] + at_least(e[2], LOOSE[name] + 1)
    if name == "not":
        return ["NOT"] + at_least(e[1], 3)
    if name == "neg":
        return ["-"] + at_least(e[1], 7)
    if name == "op":
        here = level(e)
        return at_least(e[2], 5 if here == 4 else here) + [e[1]] + at_least(e[3], here + 1)
    if name in ("call", "make"):
        return called(e[1], e[2])
    if name in ("dot", "method"):
        return at_least(e[1], 8) + ["."] + ([e[2]] if name == "dot" else called(e[2], e[3]))
    if name in ("att", "prev"):
        return [e[1], ".", e[2]] + (["'"] if name == "prev" else [])
    return [{"num": str, "text": text_token, "truth": lambda it: "TRUE" if it else "FALSE"}.get(name, str)(e[1])]


def expr(e):
    text = ""
    for it in tokens(e):
        calls = it == "(" and text[-1:].isalnum() and text.split()[-1] not in ("AND", "OR", "NOT")
        text += it if not text or it in (".", ")", ",", "'") or text[-1] in ".(" or calls else " " + it
    return text


def item_name(item):
    """The name under which an item is printed."""
    if item.get("as"):
        return item["as"]
    if "set" in item:
        return item["set"]
    return "".join(tokens(item["e"]))


def literal(value):
    if value[0] in ("S", "D"):
        return text_token(value[1])
    return ("TRUE" if value[1] else "FALSE") if value[0] == "B" else str(value[1])


def attr_text(attr):
    return f"{attr['name']} {attr['type']}" + (f" DEFAULT {literal(attr['default'])}" if attr.get("default") else "")


def kind_text(kind):
    word = KIND_WORDS[kind[0]]
    if kind[0] == "Map":
        inner = kind[2][1] if kind[2][0] == "Sum" and len(kind[2]) == 3 else kind_text(kind[2])
        return f"{word}<{kind[1]}, {inner}>"
    if kind[0] == "Group":
        return f"{word}<{', '.join([f'{a} {b}' for a, b in kind[1]] + [f'{kind_text(a)} {b}' for a, b in kind[2]])}>"
    if kind[0] == "Heap":
        # (ASC is left out or not, by the room of the heap)
        up = " ASC" if kind[2] % 2 else ""
        return f"{word}<{kind[1]}>({kind[2]}, {', '.join(name + (' DESC' if down else up) for name, down in kind[3])})"
    return f"{word}<{kind[1]}>" if len(kind) > 1 else word


def input_text(it):
    if it[0] == "in":
        return expr(it[1])
    return f"({', '.join(expr(e) for e in it[1])} -> {', '.join(input_text(e) for e in it[2])})"


def item_text(item):
    tail = f" AS {item['as']}" if item.get("as") else ""
    if "set" in item:
        return f"{item['set']}[{', '.join(item_text(it) for it in item['items'])}]{tail}"
    return expr(item["e"]) + tail


def part_text(part):
    if part[0] == "set":
        return part[1]
    starts = {"any": lambda it: "ANY" + "".join(it[1:]), "all": lambda it: f"{it[1]}.*", "name": lambda it: it[1], "global": lambda it: it[1]}
    return "{" + ", ".join(starts[it[0]](it) for it in part[1]) + "}"


def needed(items):
    if not items:
        raise Unspelled()
    return items


def branches(node, body, may_be_empty=False):
    """IF with its branches; an ELSE of a body may have no statements."""
    text = " ELSE ".join(f"IF {expr(cond)} THEN {body(it)}" for cond, it in needed(node["branches"]))
    if node["else"] is not None:
        if not node["else"] and not may_be_empty or node["else"] and node["else"][0]["k"] == "if":
            raise Unspelled()
        text += f" ELSE {body(node['else'])}"
    return text + " END"


def acts_text(acts):
    return ", ".join(act_text(it) for it in needed(acts))


def act_text(act):
    if act["k"] == "if":
        return branches(act, acts_text)
    target = f"{act['alias']}.{act['name']}" if act["k"].startswith("att") else act["name"]
    return f"{target} += {input_text(act['input'])}" if act["k"].endswith("feed") else f"{target} = {expr(act['expr'])}"


def types_text(types):
    return types if isinstance(types, str) else "|".join(types) if len(types) < 2 else "(" + "|".join(types) + ")"


def alias_text(it, bare):
    """An alias, where it isn't left out."""
    return "" if it in bare else f":{it}"


def hop_text(hop, bare):
    return f" -({types_text(hop['types'])}{alias_text(hop['edge'], bare)})-> {types_text(hop['to'])}{alias_text(hop['target'], bare)}"


def path_text(path, bare):
    text = ""
    for at, step in enumerate(needed(path["steps"])):
        edge, target = (alias_text(path[it], bare) if at + 1 == len(path["steps"]) else "" for it in ("edge", "target"))
        text += f" -({'|'.join(way_text(it) for it in needed(step['ways']))}{edge})- {types_text(step['to'])}{target}"
    return text


def way_text(it):
    return it[0] + it[1] if it[0] == "<" else it[1] + it[0]


def select_text(it):
    bare = it.get("bare", ())
    text = f"SELECT {it['alias']} FROM {it['from']}{alias_text(it['source'], bare)}"
    if it["hop"]:
        text += path_text(it["hop"], bare) if "steps" in it["hop"] else hop_text(it["hop"], bare)
    for name, word in (("where", "WHERE"), ("accum", "ACCUM"), ("post", it.get("post_word", "POST-ACCUM")), ("having", "HAVING")):
        if it[name]:
            text += f"\n    {word} " + (acts_text if name in ("accum", "post") else expr)(it[name])
    if it["order"]:
        text += "\n    ORDER BY " + ", ".join(expr(e) + (" DESC" if down else it.get("up", "")) for e, down in it["order"])
    return text + (f"\n    LIMIT {expr(it['limit'])}" if it["limit"] else "")


def body_text(body):
    return "".join(f"\n  {stmt_text(it)};" for it in body) + "\n  "


def stmt_text(it):
    k = it["k"]
    if k == "local":
        return f"{it['type']} " + ", ".join(name + (f" = {expr(e)}" if e else "") for name, e in needed(it["vars"]))
    if k in ("seeds", "select"):
        head = it["name"] + (f" ({it['declared']})" if it["declared"] else "") + " = "
        if k == "select":
            return head + select_text(it)
        return head + part_text(it["parts"][0]) + "".join(f" {sign} {part_text(part)}" for sign, part in zip(it["signs"], it["parts"][1:]))
    if k == "if":
        return branches(it, body_text, True)
    if k == "while":
        return f"WHILE {expr(it['cond'])}" + (f" LIMIT {expr(it['limit'])}" if it["limit"] else "") + f" DO {body_text(it['body'])}END"
    if k in ("each", "range"):
        over = expr(it["over"]) if k == "each" else f"RANGE [{expr(it['low'])}, {expr(it['high'])}]"
        return f"FOREACH {it['name']} IN {over} DO {body_text(it['body'])}END"
    if k == "print":
        return "PRINT " + ", ".join(item_text(item) for item in needed(it["items"]))
    if k == "raw":
        return it["text"]
    return f"{it['name']} += {input_text(it['input'])}" if k == "feed" else f"{it['name']} = {expr(it['expr'])}"


def param_text(it):
    return f"{it['type']} {it['name']}" + (f" = {literal(it['default'])}" if it["default"] else "")


def query_text(it):
    head = f"INTERPRET QUERY ()" if it["k"] == "interpret" else \
        f"CREATE {'OR REPLACE ' if it.get('replace') else ''}QUERY {it['name']} ({', '.join(param_text(p) for p in it['params'])})"
    head += f" FOR GRAPH {it['graph']}" if it["graph"] else ""
    head += it["modes"]
    lines = [f"TYPEDEF TUPLE<{', '.join(f'{a} {b}' for a, b in t['fields'])}> {t['name']};" for t in it["tuples"]]
    for group in it["accs"]:
        if group["vars"]:
            names = ", ".join(x["name"] + (f" = {expr(x['open'])}" if x["open"] else "") for x in group["vars"])
            lines.append(f"{kind_text(group['kind'])} {names};")
    lines += [part["text"] for part in it.get("more", []) if part["text"]]
    return head + " {" + "".join(f"\n  {line}" for line in lines) + body_text(it["body"]).rstrip() + "\n}"


def ends_text(it):
    text = f"{it['name']} (FROM {it['from']}, TO {it['to']}"
    if it["discs"]:
        text += ", DISCRIMINATOR(" + ", ".join(attr_text(a) for a in it["discs"]) + ")"
    return text + "".join(", " + attr_text(a) for a in it["attrs"]) + ")"


def job_text(it):
    lines = []
    for name, path in it["files"]:
        lines.append(f"DEFINE FILENAME {name}" + (f" = {text_token(path)};" if path else ";"))
    for load in it["loads"]:
        dests = []
        for d in load["dests"]:
            cols = ["_" if c == "_" else f"${text_token(c)}" if isinstance(c, str) else f"${c}" for c in d["cols"]]
            dests.append(f"TO {d['word']} {d['type']} VALUES ({', '.join(cols)})")
        text = f"LOAD {load['file'] if load['named'] else text_token(load['file'])} {', '.join(needed(dests))}"
        if load["options"]:
            text += " USING " + ", ".join(f"{a}={text_token(b)}" for a, b in load["options"])
        lines.append(text + ";")
    return f"CREATE LOADING JOB {it['name']} FOR GRAPH {it['graph']} {{" + "".join(f"\n  {line}" for line in lines) + "\n}"


def argument(it):
    return f"({text_token(it[1])}, {text_token(it[2])})" if it[0] == "V2" else literal(it)


def statement(it):
    """The text of a statement of the script."""
    k = it["k"]
    if k == "vertex":
        text = f"CREATE VERTEX {it['name']} (PRIMARY_ID {it['id']} {it['id_type']}" + "".join(", " + attr_text(a) for a in it["attrs"]) + ")"
        options = ['PRIMARY_ID_AS_ATTRIBUTE="true"'] * it["as_attribute"]
        options[it.get("stats_at", 0):it.get("stats_at", 0)] = [f"STATS={text_token(said)}" for said in it.get("stats", ())]
        return text + (f" WITH {', '.join(options)}" if options else "")
    if k == "edge":
        text = f"CREATE {'DIRECTED' if it['directed'] else 'UNDIRECTED'} EDGE {ends_text(it)}"
        return text + (f' WITH REVERSE_EDGE="{it["reverse"]}"' if it["reverse"] else "")
    if k == "graph":
        return f"CREATE GRAPH {it['name']} ({', '.join(it['types']) if it['types'] != ['*'] else '*'})"
    if k == "use":
        return f"USE GRAPH {it['name']}"
    if k == "job":
        return job_text(it)
    if k == "runjob":
        return f"RUN LOADING JOB {it['name']}" + (" USING " + ", ".join(f"{a}={text_token(b)}" for a, b in it["using"]) if it["using"] else "")
    if k == "insert":
        return f"INSERT INTO {it['type']} VALUES ({', '.join('_' if v is None else literal(v) for v in it['values'])})"
    if k in ("query", "interpret"):
        return query_text(it)
    if k == "install":
        return "INSTALL QUERY " + (", ".join(it["names"]) if it["names"] else it.get("all", "ALL"))
    if k == "run":
        return f"RUN QUERY {it['name']}" + ("" if it["args"] is None else f"({', '.join(argument(a) for a in it['args'])})")
    return it["text"]


def varied(text, number):
    """The text with words in another case and other gaps, by a number. Words that may be part of an item's name stay."""
    rng, pieces = random.Random(number), re.split(r'("(?:[^"\\]|\\.)*")', text)

    def word(found):
        it = found.group()
        spoken = it.lower() in ANY_CASE and it.isupper() or it.endswith("Accum") and rng.random() < 0.2
        return rng.choice((it, it, it.lower(), it.title())) if spoken else it

    for at in range(0, len(pieces), 2):
        pieces[at] = re.sub(r"(?<![@$\w])[A-Za-z_]+\b", word, pieces[at])
        pieces[at] = re.sub(" ", lambda it: rng.choice(GAPS) if rng.random() < 0.05 else " ", pieces[at])
    return "".join(pieces)
