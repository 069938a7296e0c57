"""The sample that `--sample N` runs: its script and its files, as docs/language.md has them."""

AGE, WEIGHT = [[{"name": name, "type": "INT", "default": None}] for name in ("age", "w")]


def names(at):
    return ("name", at)


QUERY = {
    "k": "interpret", "name": None, "params": [], "graph": "sample", "tuples": [], "modes": "", "replace": False,
    "accs": [{"kind": ["Sum", "INT"], "vars": [{"name": "@got", "open": None}, {"name": "@@total", "open": None}]},
             {"kind": ["Max", "INT"], "vars": [{"name": "@@top", "open": None}]}],
    "body": [
        {"k": "seeds", "name": "S", "declared": None, "parts": [("seeds", [("all", "person")])], "signs": []},
        {"k": "select", "name": "T", "declared": None, "alias": "t", "from": "S", "source": "s", "where": None, "having": None, "order": None, "limit": None,
         "hop": {"types": ["knows"], "edge": "e", "to": ["person"], "target": "t"},
         "accum": [{"k": "attfeed", "alias": "t", "name": "@got", "input": ("in", ("dot", names("e"), "w"))},
                   {"k": "feed", "name": "@@total", "input": ("in", ("dot", names("e"), "w"))}],
         "post": [{"k": "feed", "name": "@@top", "input": ("in", ("att", "t", "@got"))}]},
        {"k": "print", "items": [{"e": ("method", names("S"), "size", []), "as": "people"}, {"e": ("method", names("T"), "size", []), "as": "reached"},
                                 {"e": ("global", "@@total"), "as": "total"}, {"e": ("global", "@@top"), "as": "top"}]}]}


def load(path, word, type_, cols):
    return {"file": path, "named": False, "options": [["HEADER", "true"]], "dests": [{"word": word, "type": type_, "cols": cols}]}


SCRIPT = [
    {"k": "vertex", "name": "person", "id": "id", "id_type": "STRING", "attrs": AGE, "as_attribute": False},
    {"k": "edge", "name": "knows", "directed": True, "from": "person", "to": "person", "discs": [], "attrs": WEIGHT, "reverse": None},
    {"k": "graph", "name": "sample", "types": ["person", "knows"]},
    {"k": "job", "name": "fill", "graph": "sample", "files": [],
     "loads": [load("people.csv", "VERTEX", "person", ["id", "age"]), load("knows.csv", "EDGE", "knows", ["from", "to", "w"])]},
    {"k": "runjob", "name": "fill", "using": []}, QUERY]


def case(count):
    """The sample of so many people as a case."""
    people = ["id,age"] + [f"p{i},{i % 90}" for i in range(count)]
    knows = ["from,to,w"]
    for i in range(count):
        knows += [f"p{i},p{(i + 1) % count},{i % 100}", f"p{i},p{(7 * i + 3) % count},{(i + 1) % 100}"]
    files = {"people.csv": "\n".join(people + [""]).encode(), "knows.csv": "\n".join(knows + [""]).encode()}
    return {"seed": 0, "script": SCRIPT, "files": files, "args": None, "turns": None}
