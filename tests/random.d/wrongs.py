"""Makes things of a case wrong: one, or two at once. What is refused first is the reference's to say."""
from fragments import chosen

BAD_FILES = (b"", b" ", b"[]", b'"a"', b"7", b"null", b"{", b"{}x", b"{}{}", b'{"a":1,}', b'{"a" 1}', b"{a:1}", b"{'a':1}", b'{"a":01}', b'{"a":1e999}',
             b'{"a":NaN}', b'{"a":tru}', b'{"a":.5}', b'{"a":5.}', b'{"a":+5}', b'{"a":"\x01"}', b'{"a":"\\x"}', b'{"a":"\\ud800"}', b'{"a":"\xff"}', b"\xff",
             b"\xef\xbb\xbf{}", b'{"a":[1,]}', b'{"a":{}', b'{,}', b'// none\n{}')


def spoil(maker):
    """Makes one thing wrong, or two."""
    for _ in range(2 if maker.some(0.3) else 1):
        queries = [it for it in maker.case["script"] if it["k"] in ("query", "interpret")]
        pick = maker.rng.choice((in_query, in_query, parts_alone, parts_alone, in_script, in_script, in_script, files, call, call, unread, bad_args))
        pick(maker, maker.rng, maker.case["script"], queries)


def put(maker, *statements):
    """Puts statements somewhere behind the first graph."""
    script = maker.case["script"]
    start = 1 + next(at for at, one in enumerate(script) if one["k"] == "graph")
    end = len(script) - bool(script[-1].get("unread"))
    at = maker.rng.randint(start, end)
    script[at:at] = [dict(it, gap=maker.rng.choice(("", "\n", "; "))) for it in statements]


def bodies(node):
    """All bodies of a query's statements: lists of statements."""
    found = [node["body"]] if "body" in node else [it for _, it in node["branches"]] + [node["else"]] * bool(node["else"]) if node["k"] == "if" else []
    return found + [inner for body in found for it in body for inner in bodies(it)]


def in_query(maker, rng, script, queries):
    """Parts that no check takes, somewhere in a body."""
    query = rng.choice(queries)
    types, edges = maker.part if query["graph"] == "h" else (maker.vertex_types, maker.edge_types)
    has = {it["text"] for body in (query.get("more", []), *bodies(query)) for it in body if it["k"] == "raw"}
    for definitions, text, message in chosen(maker, types, edges, "syntax v2" in query["modes"].lower(), rng.choice((1, 1, 2)), 0.02):
        # (a part that stands there already would say its names twice)
        if has & {definitions, text} - {""}:
            continue
        body = rng.choice(bodies(query))
        # (a query that is full has all the accumulators that it may have, or more: what is wrong in a kind is refused before that, the rest isn't)
        of_kind = message and not text and " = " not in definitions and not message.startswith("name twice @")
        is_too_many = query.get("full") and "Accum" in definitions and not of_kind
        first = "too many" if is_too_many else None if text else message
        query.setdefault("more", []).append({"k": "raw", "text": definitions, "refused": first})
        if text:
            body.insert(rng.randint(bool(body), len(body)), {"k": "raw", "text": text, "refused": message})


def parts_alone(maker, rng, script, queries):
    """A query of parts alone."""
    with_paths = maker.some(0.3)
    parts = chosen(maker, maker.vertex_types, maker.edge_types, with_paths, rng.choice((1, 1, 2, 3)))
    body = [{"k": "raw", "text": text, "refused": message} for _, text, message in parts if text]
    more = [{"k": "raw", "text": definitions, "refused": None if text else message} for definitions, text, message in parts if definitions]
    full = rng.random() < 0.03
    if full:
        count = rng.choice((256, 257))
        names = ", ".join(f"@@o{at}" for at in range(1000, 1000 + count))
        more = [{"k": "raw", "text": f"SumAccum<INT> {names};", "refused": "too many" if count > 256 else None}]
        body = []
    body.append({"k": "print", "items": [{"e": ("num", 1), "as": "end_of_parts"}]})
    modes = rng.choice((' API ("v3")', " SYNTAX v3", ' API ("v2") API ("v2")', " SYNTAX v1 SYNTAX v1", ' API ("")')) if maker.some(0.05) else " SYNTAX v2" if with_paths else ""
    put(maker, {"k": "interpret", "name": None, "params": [], "graph": "g", "tuples": [], "accs": [], "more": more, "body": body,
                "modes": modes, "replace": False, "full": full})


def in_script(maker, rng, script, queries):
    """A statement of the script that may be refused, for one reason or for several."""
    made = rng.choice((vertex, edge, graph, job, job, job, insert, insert, query, query, small, small, types_to_the_bound, types_to_the_bound, run_of_job))(maker, rng)
    put(maker, *(made if isinstance(made, list) else [made]))


def a_type_name(maker, rng):
    names = [it["name"] for it in maker.vertex_types + maker.edge_types] + [it["reverse"] for it in maker.edge_types if it["reverse"]]
    return rng.choice(names + ["nosuch", "fresh"])


def odd_attrs(maker, rng):
    """Attributes, some of one name, some with a default of another type."""
    found, names = [], ["a", "b", "c", "id"]
    for _ in range(rng.randint(0, 3)):
        type_ = rng.choice(("INT", "UINT", "BOOL", "STRING"))
        default = rng.choice((None, None, ("I", 0), ("I", -1), ("I", 1 << 63), ("U", (1 << 64) - 1), ("I", -(1 << 63)), ("S", "1"), ("B", True)))
        found.append({"name": rng.choice(names), "type": type_, "default": default})
    return found


def vertex(maker, rng):
    name = a_type_name(maker, rng) if maker.some(0.3) else "fresh"
    return {"k": "vertex", "name": name, "id": "id", "id_type": "STRING", "attrs": odd_attrs(maker, rng), "as_attribute": maker.some(0.5)}


def edge(maker, rng):
    ends = [a_type_name(maker, rng) if maker.some(0.3) else rng.choice(maker.vertex_types)["name"] for _ in range(2)]
    name = a_type_name(maker, rng) if maker.some(0.3) else "fresh"
    discs = [{"name": rng.choice("abc"), "type": "INT", "default": None} for _ in range(rng.choice((0, 0, 1, 2)))]
    reverse = rng.choice((None, a_type_name(maker, rng), "fresh_by"))
    return {"k": "edge", "name": name, "directed": True, "from": ends[0], "to": ends[1], "discs": discs, "attrs": odd_attrs(maker, rng), "reverse": reverse}


def graph(maker, rng):
    types = [a_type_name(maker, rng) for _ in range(rng.randint(0, 3))]
    return [{"k": "graph", "name": rng.choice(("g", "i", "j")), "types": types if maker.some(0.8) else ["*"]}, {"k": "use", "name": "g"}]


def job(maker, rng):
    """A loading job of one or two LOADs, each of which may be refused for several reasons."""
    name = "fill" if maker.some(0.15) else "other"
    loads = []
    for _ in range(rng.choice((1, 1, 2))):
        options = [[rng.choice(("SEPARATOR", "QUOTE", "EOL", "HEADER")), rng.choice((",", ";", "ab", "", '"', "'", "\n", "é", "double", "single", "true"))]
                   for _ in range(rng.choice((0, 0, 0, 1, 2)))]
        named = maker.some(0.3)
        dests = [odd_dest(maker, rng) for _ in range(rng.choice((1, 1, 2)))]
        loads.append({"file": rng.choice(("f1", "f2")) if named else "nosuch.csv", "named": named, "dests": dests, "options": options})
    graph_name = "nosuch" if maker.some(0.1) else "h" if maker.part and maker.some(0.4) else "g"
    made = {"k": "job", "name": name, "graph": graph_name, "files": [["f1", None]] * maker.some(0.6), "loads": loads}
    run = {"k": "runjob", "name": "other", "using": [["f1", rng.choice(("nosuch.csv", "person.csv", ""))]] if maker.some(0.5) else []}
    return [made, run] if name == "other" and maker.some(0.7) else made


def odd_dest(maker, rng):
    type_ = rng.choice(maker.vertex_types + maker.edge_types)
    roles = [role for _, role in maker.wanted(type_)]
    cols = ["_" if maker.some(0.4 if role == "attr" else 0.1) else rng.randint(0, 3) for role in roles]
    if maker.some(0.15):
        cols = cols + [0] if maker.some(0.5) or len(cols) < 2 else cols[:-1]
    name = a_type_name(maker, rng) if maker.some(0.2) else type_["name"]
    word = "VERTEX" if type_["k"] == "vertex" else "EDGE"
    return {"word": {"VERTEX": "EDGE", "EDGE": "VERTEX"}[word] if maker.some(0.1) else word, "type": name, "cols": cols}


def insert(maker, rng):
    """An INSERT, some of whose values may be of another type, or missing."""
    type_ = rng.choice(maker.vertex_types + maker.edge_types)
    values = [maker.literal(base, role) for base, role in maker.wanted(type_)]
    odd = [None, ("S", ""), ("S", "x"), ("I", -1), ("I", -(1 << 63) - 1), ("U", 1 << 63), ("B", True), ("S", "2024-13-01"), ("S", "-5"), ("U", (1 << 64) - 1)]
    values = [rng.choice(odd) if maker.some(0.25) else it for it in values]
    if maker.some(0.1):
        values = values + [("I", 1)] if maker.some(0.5) or len(values) < 2 else values[:-1]
    return {"k": "insert", "type": a_type_name(maker, rng) if maker.some(0.3) else type_["name"], "values": values}


def query(maker, rng):
    """A query that is refused before its text is judged, or for its parameters, or not."""
    parts = chosen(maker, maker.vertex_types, maker.edge_types, False, rng.choice((0, 1, 1)), 0.3)
    names = [it["name"] for it in maker.case["script"] if it["k"] == "query"]
    modes = rng.choice(("", ' API ("v2")', " SYNTAX v1", ' API ("v3")', " SYNTAX v3", " SYNTAX v1 SYNTAX v1", ' API ("v2") API ("v2")', ' API ("")'))
    params, refused = rng.choice((
        ([], None), ([], None), ([("INT", "p", None), ("BOOL", "p", None)], "name twice p"), ([("UINT", "p", ("I", -1))], "type mismatch"),
        ([("INT", "p", ("S", "a"))], "type mismatch"), ([("VERTEX<nosuch>", "p", None)], "unknown name nosuch"), ([("VERTEX", "p", ("S", "a"))], "type mismatch")))
    more = [{"k": "raw", "text": definitions, "refused": None if text else message} for definitions, text, message in parts if definitions]
    body = [{"k": "raw", "text": text, "refused": message} for _, text, message in parts if text] + [{"k": "print", "items": [{"e": ("num", 1), "as": None}]}]
    return {"k": "query", "name": rng.choice(names) if names and maker.some(0.3) else "other", "graph": rng.choice(("g", "g", "nosuch", None)), "tuples": [],
            "params": [{"type": a, "name": b, "default": c} for a, b, c in params], "params_refused": refused, "accs": [], "more": more, "body": body,
            "modes": modes, "replace": maker.some(0.3)}


def small(maker, rng):
    names = [it["name"] for it in maker.case["script"] if it["k"] == "query"] + ["nosuch"]
    return rng.choice(({"k": "use", "name": rng.choice(("nosuch", "g"))}, {"k": "install", "names": rng.sample(names, rng.randint(1, len(names)))},
                       {"k": "install", "names": []}, {"k": "run", "name": "nosuch", "args": []}, {"k": "run", "name": "nosuch", "args": None},
                       {"k": "runjob", "name": "nosuch", "using": []}))


def types_to_the_bound(maker, rng):
    """So many vertex types that 256 types are there, or one more."""
    there = len(maker.vertex_types) + sum(2 if it["reverse"] else 1 for it in maker.edge_types)
    if not maker.some(0.6):
        return vertex(maker, rng)
    end = rng.choice(maker.vertex_types)["name"]
    good = ({"k": "vertex", "name": "last", "id": "id", "id_type": "INT", "attrs": [], "as_attribute": False},
            {"k": "edge", "name": "last", "directed": True, "from": end, "to": end, "discs": [], "attrs": [], "reverse": rng.choice((None, "last_by"))})
    last = rng.choice((edge(maker, rng), vertex(maker, rng), None, *good))
    return [{"k": "vertex", "name": f"more{at}", "id": "id", "id_type": "INT", "attrs": [], "as_attribute": False}
            for at in range(256 - there - rng.choice((0, 1, 2)))] + [last] * bool(last)


def run_of_job(maker, rng):
    runs = [it for it in maker.case["script"] if it["k"] == "runjob" and it["name"] == "fill"]
    using = [list(it) for it in runs[0]["using"]] if runs else []
    if maker.some(0.5):
        using.insert(rng.randint(0, len(using)), [rng.choice(("nosuch", "f_person")), rng.choice(("nosuch.csv", "person.csv", "city.csv"))])
    return {"k": "runjob", "name": "fill" if maker.some(0.9) else "nosuch", "using": unique(using)}


def unique(pairs):
    return [[name, path] for name, path in dict(map(tuple, pairs)).items()]


def call(maker, rng, script, queries):
    """An installed query that is called with arguments that are too many, too few, or of another type; or one that isn't installed."""
    kept = [it for it in queries if it["k"] == "query" and not it.get("params_refused")]
    if not kept:
        return in_query(maker, rng, script, queries)
    it = rng.choice(kept)
    args = [maker.argument(param) for param in it["params"]]
    odd = (("B", True), ("S", "nosuch"), ("S", ""), ("I", -1), ("I", 1 << 63), ("U", (1 << 64) - 1), ("I", -(1 << 63)), ("V2", "a", "person"), ("V2", "a", "nosuch"))
    args = [rng.choice(odd) if maker.some(0.4) else arg for arg in args]
    if maker.some(0.25):
        args = args + [("I", 1)] if maker.some(0.5) or not args else args[:-1]
    if maker.some(0.3):
        members = {param["name"]: odd_json(maker, rng, param) for param in it["params"] if maker.some(0.85)}
        members.update({"extra": [1, {"deep": None}]} if maker.some(0.3) else {})
        if maker.case["args"] is None or isinstance(maker.case["args"], dict):
            maker.case["args"] = dict(maker.case["args"] or {}, **{it["name"]: members if maker.some(0.9) else rng.choice(([], 7, None, "x"))})
        args = None
    at = script.index(it) + rng.randint(1, 2)
    script.insert(at, {"k": "run", "name": it["name"], "args": args, "gap": ""})


def odd_json(maker, rng, param):
    odd = (True, None, "nosuch", "", -1, 1.5, 1 << 63, 1 << 64, -(1 << 63), [], {}, {"id": "a"}, {"id": "a", "type": "person"}, {"id": 1, "type": "person"},
           {"id": "a", "type": "nosuch"}, {"type": "person", "id": "a", "more": 1})
    return rng.choice(odd) if maker.some(0.5) else maker.json_argument(param)


def files(maker, rng, script, queries):
    """A file that isn't there or has another column, a bound on loops that is reached, or a walk that the version has not."""
    names, jobs, pick = sorted(maker.case["files"]), [it for it in script if it["k"] == "runjob"], rng.randint(0, 6)
    if pick == 0 and names:
        del maker.case["files"][rng.choice(names)]
    elif pick == 1 and names:
        name = rng.choice(names)
        maker.case["files"][name] = maker.case["files"][name].replace(b"c1", b"d1", 1)
    elif pick == 2 and jobs:
        jobs[0]["using"] = jobs[0]["using"] + [["nosuch", "x"]]
    elif pick == 3 and jobs:
        jobs[-1]["using"] = []
    elif pick == 4 and maker.edge_types:
        put(maker, {"k": "raw", "text": wrong_walk(rng, rng.choice(maker.edge_types)), "refused": "not allowed here"})
    elif pick == 5:
        maker.case["lacks"] = rng.choice(("script", "args"))
    else:
        maker.case["turns"] = rng.randint(1, 3)


def wrong_walk(rng, edge):
    """A query with a path of SYNTAX v1, a hop of SYNTAX v2, or an alias within a path."""
    step = f"-({edge['name'] + ('>' if edge['directed'] else '')})- {edge['to']}"
    modes, walk = rng.choice((("", f"{step}:t"), (" SYNTAX v2", f"-({edge['name']})-> {edge['to']}:t"), (" SYNTAX v2", f"{step}:m {step}:t")))
    return f"INTERPRET QUERY () FOR GRAPH g{modes} {{ T = SELECT t FROM {edge['from']}:s {walk}; }}"


def bad_args(maker, rng, script, queries):
    """A file of arguments that isn't a JSON object."""
    maker.case["args"] = rng.choice(BAD_FILES)


def unread(maker, rng, script, queries):
    """What can't be read as a script, behind its last statement."""
    text, message = rng.choice((
        ("CREATE", "syntax error in statement N"), ("INTERPRET QUERY () { PRINT 1 }", "syntax error in statement N"),
        ("PRINT 1;", "syntax error in statement N"),
        ("INTERPRET QUERY () { IF TRUE THEN PRINT 1; }", "syntax error in statement N"),
        ("INTERPRET QUERY () { PRINT 1 & 2; }", "bad token at byte 29"),
        ("INTERPRET QUERY () { PRINT \"\\q\"; }", "bad token at byte 28"), ("INTERPRET QUERY () { PRINT \"a; }", "open text at byte 27"),
        ("INTERPRET QUERY () { PRINT 18446744073709551616; }", "number too big at byte 27"), ("/* open", "open comment at byte 0"),
        ("INTERPRET QUERY () { PRINT " + "(" * 64 + "1" + ")" * 64 + "; }", "nested too deep at byte 90")))
    if not script[-1].get("unread"):
        script.append({"k": "raw", "text": text, "unread": message, "gap": ""})
