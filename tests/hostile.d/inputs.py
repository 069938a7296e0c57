"""Hostile inputs, by the size in bytes that is wanted, and ordinary ones beside them."""


def script(text):
    return {"script": text if isinstance(text, bytes) else text.encode()}


def query(body):
    return script("INTERPRET QUERY () { " + body + " }\n")


def fill(size, piece, join=""):
    """So many pieces that they have the size; where a piece has `%d` it is numbered."""
    if "%d" not in piece:
        return join.join([piece] * max(1, size // len(piece + join)))
    found, length, at = [], 0, 0
    while length < size:
        found.append(piece.replace("%d", str(at)))
        length, at = length + len(found[-1]) + len(join), at + 1
    return join.join(found)


# ---- ordinary inputs

def small_queries(size):
    return script(fill(size, "INTERPRET QUERY () { INT n = %d; IF n > 7 THEN n = n * 2; END; PRINT n + 1 AS more, \"a\" AS t; }\n"))


LOAD = """CREATE VERTEX v (PRIMARY_ID id STRING, a STRING, n INT)
CREATE GRAPH g (v)
CREATE LOADING JOB j FOR GRAPH g { LOAD "v.csv" TO VERTEX v VALUES (%s) USING %s; }
RUN LOADING JOB j
"""


def short_rows(size):
    rows = []
    for at in range(max(1, size // 66)):
        rows.append(f"id{at:08},{'some words that a row may have':44},{at % 1000:6}\n")
    return dict(script(LOAD % ("$0, $1, $2", 'HEADER="false"')), **{"v.csv": "".join(rows).encode()})


def members(size):
    text = '{"q": {' + fill(size, '"m%d": "some text that a member has"', ", ") + "}}"
    return dict(ARGUMENTS, **{"a.json": text.encode()})


ARGUMENTS = script("CREATE QUERY q (INT n = 1) { PRINT n; }\nINSTALL QUERY q\nRUN QUERY q\n")
ORDINARY = {"small queries": small_queries, "short rows": short_rows, "members": members}


def rows_of(data, values="$0, $1, $2", options='HEADER="false"'):
    return dict(script(LOAD % (values, options)), **{"v.csv": data})


GRAPH = "CREATE VERTEX v (PRIMARY_ID id STRING)\nCREATE DIRECTED EDGE e (FROM v, TO v)\nCREATE GRAPH g (v, e)\nINSERT INTO e VALUES (\"a\", \"b\")\n"


def over_graph(body, modes=""):
    return script(GRAPH + f"INTERPRET QUERY () FOR GRAPH g{modes} {{ {body} }}\n")


def named_files(size):
    count = size // 120
    defines = "".join(f"DEFINE FILENAME f{at};\n" for at in range(count))
    loads = "".join(f"LOAD f{count - 1 - at % 9} TO VERTEX v VALUES ($0);\n" for at in range(count))
    using = ", ".join(f'f{at}="x"' for at in range(count))
    return script(GRAPH + f"CREATE LOADING JOB j FOR GRAPH g {{ {defines}{loads} }}\nRUN LOADING JOB j USING {using}\n")


def columns(size):
    """A header of many columns of one long beginning, of which many are asked for by name."""
    count = size // 30
    header = ",".join(f"a_name_of_a_column_{at:07}" for at in range(count))
    wanted = [f"a_name_of_a_column_{count - 1 - at:07}" for at in range(min(200, count))]
    schema = "CREATE VERTEX v (PRIMARY_ID id STRING" + "".join(f", a{at} INT" for at in range(len(wanted) - 1)) + ")\nCREATE GRAPH g (v)\n"
    job = 'CREATE LOADING JOB j FOR GRAPH g { LOAD "v.csv" TO VERTEX v VALUES (' + ", ".join(f'$"{it}"' for it in wanted) + ') USING HEADER="true"; }\nRUN LOADING JOB j\n'
    return dict(script(schema + job), **{"v.csv": (header + "\n" + ",".join(["1"] * count) + "\n").encode()})


def parameters(size):
    """Many parameters, and as many members for them, in the other order."""
    count = size // 40
    params = ", ".join(f"INT p{at}" for at in range(count))
    text = '{"q": {' + ", ".join(f'"p{at}": {at}' for at in reversed(range(count))) + "}}"
    return dict(script(f"CREATE QUERY q ({params}) {{ PRINT p0; }}\nINSTALL QUERY q\nRUN QUERY q\n"), **{"a.json": text.encode()})


def installed(size):
    names = [f"q{at}" for at in range(size // 48)]
    return script("".join(f"CREATE QUERY {it} () {{ PRINT 1; }}\n" for it in names) + "INSTALL QUERY " + ", ".join(reversed(names)))


def run_in_turn(size):
    return script("".join(f"CREATE QUERY q{at} () {{ PRINT 1; }}\nINSTALL QUERY q{at}\nRUN QUERY q{at}\n" for at in range(size // 64)))


WITH_ARGS = ("--args", "a.json")
OPERATORS = ("+", "-", "*", "AND", "OR")


def chain(sign):
    one = "TRUE" if sign == "AND" else "FALSE" if sign == "OR" else "1" if sign == "*" else "0"
    return lambda size: query("PRINT " + fill(size, one, f" {sign} ") + " AS n;")


INPUTS = (
    ("open brackets", "small queries", lambda size: query("PRINT " + fill(size, "(")), b"nested too deep"),
    ("closed brackets", "small queries", lambda size: script(fill(size, ")")), b"syntax error"),
    ("words that nest", "small queries", lambda size: script(fill(size, "IF ")), b"nested too deep"),
    ("ELSE and IF in turn", "small queries", lambda size: script(fill(size, "ELSE IF ")), b"syntax error"),
    ("one comment", "small queries", lambda size: script("/*" + fill(size, "*") + "/ BEGIN"), 0),
    ("many comments", "small queries", lambda size: script(fill(size, "/**/")), 0),
    ("an open comment after many", "small queries", lambda size: script(fill(size, "/* */") + "/*/"), b"open comment"),
    ("one line of a comment", "small queries", lambda size: script("#" + fill(size, "/*")), 0),
    ("one text", "small queries", lambda size: query('PRINT "' + fill(size, "a") + '" AS t;'), 0),
    ("a text of escapes", "small queries", lambda size: query('PRINT "' + fill(size, "\\\\") + '" AS t;'), 0),
    ("an open text of escapes", "small queries", lambda size: query('PRINT "' + fill(size, '\\"')), b"open text"),
    ("many texts", "small queries", lambda size: query("PRINT " + fill(size, '""', " + ") + " AS t;"), 0),
    ("texts that grow", "small queries", lambda size: query("PRINT " + fill(size, '"0123456789"', " + ") + ".nosuch AS t;"), 1),
    ("texts that are joined", "small queries", lambda size: query("PRINT " + fill(size, '"0123456789"', " + ") + " AS t;"), 0),
    ("one long name", "small queries", lambda size: query("PRINT 1 AS " + fill(size, "a") + ";"), 0),
    ("one long number", "small queries", lambda size: query("PRINT " + fill(size, "0") + "1 AS n;"), 0),
    ("an item of many tokens", "small queries", lambda size: query("PRINT " + fill(size, "1", "+") + ";"), 0),
    *((f"a chain of {sign}", "small queries", chain(sign), 0) for sign in OPERATORS),
    ("a chain of /", "small queries", lambda size: query("PRINT 1 / " + fill(size, "1", " / ") + " AS n;"), 0),
    ("a chain of %", "small queries", lambda size: query("PRINT 1 % " + fill(size, "7", " % ") + " AS n;"), 0),
    ("a chain of NOT", "small queries", lambda size: query("PRINT " + fill(size, "NOT ") + "TRUE AS n;"), 0),
    ("a chain of unary -", "small queries", lambda size: query("PRINT " + fill(size, "- ") + "1 AS n;"), 0),
    ("a chain of ==", "small queries", lambda size: query("PRINT " + fill(size, "1", " == ") + " AS n;"), b"syntax error"),
    ("a chain of .", "small queries", lambda size: query("PRINT a" + fill(size, ".a") + " AS n;"), 1),
    ("a chain of calls", "small queries", lambda size: query("PRINT a" + fill(size, ".a()") + " AS n;"), 1),
    ("a chain of UNION", "small queries", lambda size: over_graph("S = {v.*}; S = " + fill(size, "S", " UNION ") + "; PRINT S;"), 0),
    ("a chain of MINUS", "small queries", lambda size: over_graph("S = {v.*}; S = " + fill(size, "S", " MINUS ") + "; PRINT S;"), 0),
    ("a chain of INTERSECT", "small queries", lambda size: over_graph("S = {v.*}; S = " + fill(size, "S", " INTERSECT ") + "; PRINT S;"), 0),
    ("a set of many starts", "small queries", lambda size: over_graph("S = {" + fill(size, "v.*", ", ") + "}; PRINT S;"), 0),
    ("a chain of ELSE IF", "small queries", lambda size: query("IF FALSE THEN PRINT 1;" + fill(size, " ELSE IF FALSE THEN PRINT 1;") + " END; PRINT 2;"), 0),
    ("a body of many statements", "small queries", lambda size: query("INT n; " + fill(size, "n = n + 1; ") + " PRINT n;"), 0),
    ("many variables", "small queries", lambda size: query(fill(size, "INT a%d = 1;", " ") + " PRINT 1;"), 0),
    ("many items of PRINT", "small queries", lambda size: query("PRINT " + fill(size, "1 AS a%d", ", ") + ";"), 0),
    ("many columns of a set", "small queries", lambda size: over_graph("S = {v.*}; PRINT S[" + fill(size, "1 AS a%d", ", ") + "];"), 0),
    ("many keys of ORDER BY", "small queries", lambda size: over_graph("S = SELECT s FROM v:s ORDER BY " + fill(size, "1", ", ") + "; PRINT S;"), 0),
    ("many types of a hop", "small queries", lambda size: over_graph("S = SELECT s FROM v:s -(" + fill(size, "e", "|") + ":h)-> v:t; PRINT S;"), 0),
    ("many ways of a step", "small queries", lambda size: over_graph("S = SELECT s FROM v:s -(" + fill(size, "e>", "|") + ")- v:t; PRINT S;", " SYNTAX v2"), 0),
    ("many types after a hop", "small queries", lambda size: over_graph("S = SELECT s FROM v:s -(e)-> (" + fill(size, "v", "|") + "):t; PRINT S;"), 0),
    ("many graphs", "small queries", lambda size: script(fill(size, "CREATE GRAPH g%d ()\n")), 0),
    ("one graph of many types", "small queries", lambda size: script(GRAPH + "CREATE GRAPH h (v" + fill(size, ", e") + ")\n"), 0),
    ("many queries", "small queries", lambda size: script(fill(size, "CREATE QUERY q%d () { PRINT 1; }\n")), 0),
    ("many queries that are installed", "small queries", installed, 0),
    ("many queries that run in turn", "small queries", run_in_turn, 0),
    ("many jobs", "small queries", lambda size: script(GRAPH + fill(size, "CREATE LOADING JOB j%d FOR GRAPH g { }\n")), 0),
    ("many names of files", "small queries", named_files, b"missing file x"),
    ("many values", "small queries", lambda size: script(GRAPH + "INSERT INTO v VALUES (" + fill(size, "1", ", ") + ")"), b"wrong number"),
    ("many attributes", "small queries", lambda size: script("CREATE VERTEX v (PRIMARY_ID id INT" + fill(size, ", a%d INT") + ")\nCREATE GRAPH g (v)\nINSERT INTO v VALUES (1)"), b"wrong number"),
    ("many discriminators", "small queries", lambda size: script("CREATE VERTEX v (PRIMARY_ID id INT)\nCREATE DIRECTED EDGE e (FROM v, TO v, DISCRIMINATOR(" + fill(size, "a%d INT", ", ") + "))"), 0),
    ("many arguments", "small queries", lambda size: script(ARGUMENTS["script"].decode()[:-1] + "(" + fill(size, "1", ", ") + ")"), b"wrong number"),
    ("many parameters", "small queries", parameters, 0, WITH_ARGS),
    ("statements of one word", "small queries", lambda size: script(fill(size, "END\n")), 0),
    ("semicolons alone", "small queries", lambda size: script(fill(size, ";")), 0),
    ("line feeds alone", "small queries", lambda size: script(fill(size, "\n")), 0),
    ("a bad byte at the end", "small queries", lambda size: script(fill(size, "\n").encode() + b"\xff"), b"not UTF-8"),
    ("open arrays of JSON", "members", lambda size: dict(ARGUMENTS, **{"a.json": fill(size, "[").encode()}), b"arguments unreadable", WITH_ARGS),
    ("open objects of JSON", "members", lambda size: dict(ARGUMENTS, **{"a.json": fill(size, '{"q":').encode()}), b"arguments unreadable", WITH_ARGS),
    ("one member of JSON, again and again", "members", lambda size: dict(ARGUMENTS, **{"a.json": ("{" + fill(size, '"q":{}', ",") + "}").encode()}), 0, WITH_ARGS),
    ("escapes of JSON", "members", lambda size: dict(ARGUMENTS, **{"a.json": ('{"q":"' + fill(size, "\\u0041") + '"}').encode()}), 0, WITH_ARGS),
    ("one number of JSON", "members", lambda size: dict(ARGUMENTS, **{"a.json": ('{"q":1' + fill(size, "0") + "}").encode()}), b"arguments unreadable", WITH_ARGS),
    ("one field", "short rows", lambda size: rows_of(b"a" * size), b'"short":1'),
    ("one field that is an id", "short rows", lambda size: rows_of(b"a" * size + b",b,1\n"), b'"loaded":1'),
    ("separators alone", "short rows", lambda size: rows_of(b"," * size), b'"lines":1'),
    ("rows of nothing", "short rows", lambda size: rows_of(b"\n" * size), b'"lines":0'),
    ("ends of lines of both kinds", "short rows", lambda size: rows_of(b"\r\n\r" * (size // 3)), b'"lines":0'),
    ("rows of a byte", "short rows", lambda size: rows_of(b"a\n" * (size // 2)), b'"loaded":0'),
    ("quotes alone", "short rows", lambda size: rows_of(b'"' * size, options='QUOTE="double"'), b'"lines":1'),
    ("a quote that stays open", "short rows", lambda size: rows_of(b'"' + b"a,\n" * (size // 3), options='QUOTE="double"'), b'"lines":1'),
    ("a quote at each field", "short rows", lambda size: rows_of(b'"a"x,' * (size // 5), options='QUOTE="double"'), b'"lines":1'),
    ("columns that are named", "short rows", columns, b'"loaded":1'),
    ("one id, again and again", "short rows", lambda size: rows_of(b"a,b,1\n" * (size // 6)), b'"loaded"'),
)


def many_columns(_):
    count = 1_000_000
    header = ",".join(f"c{at}" for at in range(count))
    return rows_of((header + "\n" + ",".join(["1"] * count) + "\n").encode(), f'$"c{count - 1}", $"c0", $"c{count // 2}"', 'HEADER="true"')


MOST, PIECE = 1 << 30, 1 << 20
# The status of a run that is refused memory.
OUT_OF_MEMORY = 5


def pieces(size, piece, end=b""):
    """Pieces of so many bytes in all, the last of which ends so: they share the memory of one."""
    piece = piece * (PIECE // len(piece))
    rest = size - len(end)
    return [piece] * (rest // len(piece)) + [piece[:rest % len(piece)] + end]


def of_size(size, values="$1, $2, $3"):
    """A LOAD of a file of zeros."""
    return dict(script(LOAD % (values, 'HEADER="false"')), **{"v.csv": size})


def script_too_large(_):
    """A script of one byte more than a file may have."""
    return {"script": MOST + 1}


# The largest that a file may be, and inputs with as much of one thing as an ordinary run would never have.
LARGE = (
    ("1,000,000 columns", "short rows", many_columns, b'"loaded":1'),
    ("a row of 256 MB", "short rows", lambda _: rows_of((b"a" * (1 << 28) + b",b,1\n")), b'"loaded":1'),
    ("a row of 1 GB", "short rows", lambda _: rows_of(pieces(MOST, b"a", b",b,1\n")), b'"loaded":1'),
    ("a field of 1 GB that isn't asked for", "short rows", lambda _: rows_of(pieces(MOST, b"a", b",b,1\n"), "$1, $1, $2"), b'"loaded":1'),
    ("a row of 200,000,000 fields", "short rows", lambda _: rows_of(pieces(200_000_000, b","), "$1, $2, $3"), b'"lines":1'),
    ("a row of 1,073,741,824 fields", "short rows", lambda _: rows_of(pieces(MOST, b","), "$1, $2, $3"), OUT_OF_MEMORY),
    ("1 GB of line feeds", "short rows", lambda _: rows_of(pieces(MOST, b"\n")), b'"lines":0'),
    ("1 GB in an open quote", "short rows", lambda _: rows_of([b'"', *pieces(MOST - 1, b"a,\n")], options='QUOTE="double"'), b'"lines":1'),
    ("a file of 1 GB", "short rows", lambda _: of_size(MOST), b'"short":1'),
    ("a file of 1 GB and one byte more", "short rows", lambda _: of_size(MOST + 1), b"file too large"),
    ("a file without end", "short rows", lambda _: script(LOAD.replace("v.csv", "/dev/zero") % ("$0, $1, $2", 'HEADER="false"')), b"file too large", (), MOST),
    ("10,000,000 statements", "small queries", lambda _: script(fill(60_000_000, "BEGIN\n")), 0),
    ("1,000,000 queries", "small queries", lambda _: script(fill(38_000_000, "INTERPRET QUERY () { PRINT %d AS n; }\n")), 0),
    ("a comment of 1 GB", "small queries", lambda _: {"script": pieces(MOST, b"#")}, 0),
    ("a text of 100 MB", "small queries", lambda _: {"script": [b'INTERPRET QUERY () { PRINT "', *pieces(100_000_000, b"a"), b'" AS t; }\n']}, 0),
    ("a script of 1 GB and one byte more", "small queries", script_too_large, b"file too large"),
    ("arguments of 1 GB and one byte more", "members", lambda _: dict(ARGUMENTS, **{"a.json": MOST + 1}), b"file too large", WITH_ARGS),
    ("a member of 100 MB", "members", lambda _: dict(ARGUMENTS, **{"a.json": [b'{"q": {"n": 4, "m": "', *pieces(100_000_000, b"a"), b'"}}']}), 0, WITH_ARGS),
)


def deepest():
    """The deepest scripts that the language allows, for each way in which its grammar nests, and chains as long as no person writes them. All end well."""
    inner = "(1 + " * 61 + "1" + ")" * 61
    yield "brackets of a column", over_graph(f"S = {{v.*}}; PRINT S[{inner} AS n];")
    yield "brackets of HAVING, ORDER BY and LIMIT", over_graph(f"S = SELECT s FROM v:s HAVING {inner} > 1 ORDER BY {inner}, {inner} DESC LIMIT {inner}; PRINT S;")
    yield "brackets of inputs", over_graph(f"SumAccum<INT> @n, @@n = {inner}; S = SELECT s FROM v:s ACCUM s.@n += {inner}, @@n += {inner} "
                                           f"POST-ACCUM s.@n = s.@n + {inner}; @@n += {inner}; INT d = {inner}; d = {inner}; PRINT S, @@n, d;")
    yield "brackets of loops", query(f"FOREACH i IN RANGE [{inner}, {inner}] DO PRINT i; END; WHILE {inner} > 1 LIMIT {inner} DO PRINT 1; END; PRINT 2;"
                                     .replace("(1 + " * 61, "(0 + " * 61))
    yield "methods", query("SetAccum<INT> @@s; MapAccum<INT, INT> @@m; PRINT " + "@@m.get(" * 63 + "1" + ")" * 63 + " AS n;")
    yield "texts", query("PRINT " + "to_string(" * 62 + '"a" + "b"' + ")" * 62 + " AS t;")
    yield "moments", query("PRINT " + "datetime_add(" * 60 + 'to_datetime("2024-01-31")' + ', 1, "MONTH")' * 60 + " AS d;")
    yield "loops of WHILE", query("INT n; " + "WHILE n < 1 DO " * 63 + "n = 1;" + " END;" * 63 + " PRINT n;")
    yield "ELSEs", query("IF FALSE THEN PRINT 1; ELSE PRINT 2; " * 63 + " END;" * 63)
    yield "all kinds of bodies", query("".join(("IF TRUE THEN ", f"FOREACH i{at} IN RANGE [1, 1] DO ", "WHILE TRUE LIMIT 1 DO ")[at % 3] for at in range(63))
                                       + "PRINT 1;" + " END;" * 63)
    yield "IFs of POST-ACCUM", over_graph("SumAccum<INT> @n; S = SELECT s FROM v:s POST-ACCUM " + "IF TRUE THEN " * 63 + "s.@n += 1" + " END" * 63 + "; PRINT S;")
    yield "ELSE IFs of ACCUM", over_graph("SumAccum<INT> @@n; S = SELECT s FROM v:s ACCUM IF FALSE THEN @@n += 1" + " ELSE IF FALSE THEN @@n += 1" * 900
                                          + " ELSE @@n += 2 END; PRINT @@n;")
    groups = "GroupByAccum<INT k, " * 7 + "AvgAccum a" + "".join(f"> g{at}" for at in range(7))
    yield "groups", query(f"{groups[:-3]} @@g; @@g += " + "(1 -> " * 7 + "5" + ")" * 7 + "; PRINT @@g, @@g" + "".join(f".get(1).g{at}" for at in reversed(range(6))) + ".get(1).a AS n;")
    yield "chains of truths", query("PRINT TRUE" + " AND TRUE" * 100_000 + " AS a, FALSE" + " OR FALSE" * 100_000 + " AS o, 1" + " * 1" * 100_000 + " AS m;")
    yield "chains of texts", query('PRINT "a"' + ' + ""' * 100_000 + " AS t;")
    yield "chains of sets", over_graph("S = {v.*}; S = S" + " UNION S MINUS S" * 50_000 + "; PRINT S; S = {" + ", ".join(["v.*"] * 100_000) + "}; PRINT S;")
    yield "many statements", query("INT n; " + "n = n + 1; " * 100_000 + "PRINT n;")
    yield "many items", query("PRINT " + ", ".join(f"1 AS a{at}" for at in range(100_000)) + ";")
    yield "many keys and types", over_graph("S = SELECT s FROM v:s -(" + "|".join(["e"] * 50_000) + ")-> v:t ORDER BY " + ", ".join(["1"] * 50_000) + "; PRINT S;")
    yield "many variables", query("INT a" + "".join(f", b{at}" for at in range(50_000)) + "; PRINT a;")
    yield "brackets", query("PRINT " + "(" * 63 + "1" + ")" * 63 + " AS n;")
    yield "brackets with signs", query("PRINT " + "(- " * 63 + "1" + ")" * 63 + " AS n;")
    yield "brackets with NOT", query("PRINT " + "(NOT " * 63 + "TRUE" + ")" * 63 + " AS n;")
    yield "calls", query("PRINT " + "abs(" * 63 + "1" + ")" * 63 + " AS n;")
    yield "right sides", query("PRINT " + "1 + (2 * " * 63 + "1" + ")" * 63 + " AS n;")
    yield "truths", query("PRINT " + "TRUE AND (FALSE OR " * 63 + "TRUE" + ")" * 63 + " AS n;")
    yield "IFs", query("IF TRUE THEN " * 63 + "PRINT 1;" + " END;" * 63)
    # (the bracket of a RANGE is one level more)
    yield "loops", query("SetAccum<INT> @@s; @@s += 7; " + "".join(f"FOREACH i{at} IN RANGE [1, 1] DO " for at in range(62)) + "FOREACH i62 IN @@s DO PRINT i62;"
                         + " END;" * 63)
    yield "IFs of ACCUM", over_graph("SumAccum<INT> @@n; S = SELECT s FROM v:s ACCUM " + "IF TRUE THEN " * 63 + "@@n += 1" + " END" * 63 + "; PRINT @@n;")
    yield "brackets of WHERE", over_graph("S = SELECT s FROM v:s WHERE " + "(s == s AND " * 63 + "TRUE" + ")" * 63 + "; PRINT S;")
    deep = "MapAccum<INT, " * 7 + "SumAccum<INT>" + ">" * 7
    yield "kinds", query(f"{deep} @@m; @@m += " + "(1 -> " * 7 + "5" + ")" * 7 + "; PRINT @@m, @@m" + ".get(1)" * 7 + " AS n;")
    yield "chains", query("PRINT " + "- " * 100_000 + "1 AS n, " + "NOT " * 100_000 + "TRUE AS t, " + "1" + " + 1" * 100_000 + " AS s;")
    yield "ELSE IFs", query("IF FALSE THEN PRINT 1;" + " ELSE IF FALSE THEN PRINT 1;" * 30_000 + " END; PRINT 2;")
    yield "JSON", dict(ARGUMENTS, **{"a.json": ('{"q": {"n": 4, "more": ' + "[" * 125 + "]" * 125 + "}}").encode()}), *WITH_ARGS
