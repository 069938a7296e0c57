"""What is most likely meant where a script can't be read."""
from language import Grammar

ARITHMETIC = {"+", "-", "*", "/", "%"}
COMPARISON = {"==", "!=", "<>", "<", "<=", ">", ">="}
STATEMENT = {"CREATE", "USE", "INSERT", "RUN", "INTERPRET", "INSTALL", "BEGIN"}
KINDS = {it + "Accum" for it in ("Sum", "Min", "Max", "Set", "Bag", "List", "Or", "And", "BitwiseOr", "BitwiseAnd", "Avg", "Heap", "Map", "GroupBy")}
TYPES = {"INT", "UINT", "BOOL", "STRING", "VERTEX"}
IN_BODY = {"IF", "WHILE", "FOREACH", "PRINT"}
CLAUSES = ("WHERE", "ACCUM", "POST-ACCUM", "HAVING", "ORDER BY", "LIMIT")
MISSING = "A `;` is missing in front of this."

NO_POINT = "There are no numbers with a point: keep cents, per mille or millionths as an INT."
NO_NULL = "There is no NULL: what isn't given is 0, FALSE or the empty text."
NO_RETURN = "Queries return nothing: PRINT what they find."
NO_SUBQUERY = "There are no subqueries: give the SELECT a name first, T = SELECT ..; and use T."
ONE_TYPE = "An edge type leads from one vertex type to one: other pairs are edge types of their own."
NOT_HERE = {
    "CASE": "There is no CASE: write IF c THEN .. ELSE .. END, as a statement or as an entry of ACCUM.",
    "BETWEEN": "There is no BETWEEN: a <= x AND x <= b.",
    "IN": "IN belongs to FOREACH alone: s.contains(x) asks whether a set, a bag or a list has x.",
    "LIKE": "There is no LIKE: texts are compared by == and < alone.",
    "IS": NO_NULL, "NULL": NO_NULL,
    "BREAK": "There is no BREAK: let the condition of WHILE become false, or give it a LIMIT.",
    "CONTINUE": "There is no CONTINUE: put the rest of the body into an IF.",
    "RETURN": NO_RETURN, "RETURNS": NO_RETURN,
    "TO_CSV": "Queries write no files: PRINT, and tools/table --csv makes CSV of it.",
    "FLOAT": NO_POINT, "DOUBLE": NO_POINT,
    "DROP": "Nothing is dropped: a script makes its graph anew each time.",
    "DELETE": "Nothing is deleted: a script makes its graph anew each time.",
    "CLEAR": "Nothing is cleared: a script makes its graph anew each time.",
    "UPDATE": "There is no UPDATE: INSERT INTO replaces the attributes of what is there.",
    "ALTER": "Types can't be changed: write the CREATE as it is to be.",
    "SCHEMA_CHANGE": "There are no jobs for schemas: write each CREATE VERTEX and CREATE DIRECTED EDGE as a statement, then CREATE GRAPH.",
    "GLOBAL": "All types are global: USE GRAPH g names the graph in use.",
    "DISTRIBUTED": "A query runs on one machine: leave DISTRIBUTED out.",
    "LS": "ls and the like are commands of TigerGraph's shell, and no statements.",
    "SHOW": "SHOW and the like are commands of TigerGraph's shell, and no statements.",
    "DATETIME": "Only attributes are DATETIME: elsewhere keep the seconds of datetime_to_epoch(..) as an INT.",
    "LET": "There are no local variables in ACCUM: write the expression itself, or feed an accumulator and use a second SELECT.",
    "STRING_COMPRESS": "Attributes are INT, UINT, BOOL, STRING or DATETIME.",
    "LOADING": "A loading job is made by CREATE LOADING JOB and run by RUN LOADING JOB.",
    "GROUP": "There is no GROUP BY: feed a GroupByAccum in ACCUM, @@by += (t.kind -> 1), and PRINT that.",
    "OFFSET": "There is no OFFSET: LIMIT has one number, how many of the first are kept.",
    "MOD": "A remainder is written %.",
    "DISTINCT": "A SELECT gives each vertex once: leave DISTINCT out.",
    "INTERVAL": 'A moment is moved by a number and a unit: datetime_add(t, 1, "HOUR").',
    "ELSEIF": "ELSE IF is two words, with one END for the whole IF.", "ELIF": "ELSE IF is two words, with one END for the whole IF.",
    "FOR": "A loop is FOREACH x IN @@set DO .. END or FOREACH i IN RANGE [1, 5] DO .. END.",
    "BOOLEAN": "The type is called BOOL.",
}
# Those of them that are names here, so that what comes behind them is at fault.
READ_AS_NAMES = ("CASE", "BREAK", "CONTINUE", "RETURN", "LET", "DATETIME", "FLOAT", "DOUBLE", "BOOLEAN", "DISTINCT", "INTERVAL", "ELSEIF", "ELIF", "FOR")


class Spot:
    """Where a script can't be read: the token in capitals, its neighbours and its kind, the statement before it, and what could stand there."""

    def __init__(self, tokens, upper, at, begun, wanted):
        self.now, self.before, self.after = upper[at], upper[at - 1] if at else "", upper[at + 1] if at + 1 < len(upper) else ""
        self.kind, self.statement, self.wanted = tokens[at][0], upper[begun:at], wanted
        parts = ("SELECT", "FROM", "WHERE", "ACCUM", "POST_ACCUM", "HAVING", "ORDER", "LIMIT", ";")
        self.part = next((it for it in reversed(self.statement) if it in parts), "")

    def wants(self, *names):
        return not self.wanted.isdisjoint(names)

    def of_select(self):
        """The tokens of the SELECT that it stands in, as far as they go."""
        found = [at for at, it in enumerate(self.statement) if it == "SELECT"]
        return self.statement[found[-1]:] if found and ";" not in self.statement[found[-1]:] else []


def advice(tokens, upper, at, begun, wanted):
    """What is most likely meant, or None."""
    if at >= len(tokens):
        return "The script ends before the statement does: a `;`, END, ) or } is missing."
    spot = Spot(tokens, upper, at, begun, wanted)
    for rule in (of_patterns, of_signs, of_accums, of_clauses, of_bodies, of_statements, of_types, of_words):
        hint = rule(spot)
        if hint:
            return hint
    return MISSING if lacks_semicolon(spot) else None


def lacks_semicolon(it):
    """Whether a new statement of a body seems to begin here."""
    begins = it.now in {"}", "END", "ELSE", "LOAD", "DEFINE"} | IN_BODY | TYPES or it.kind in ("word", "global") and it.after in ("=", "+=", "(")
    return it.wants(";") and begins


def of_patterns(it):
    if it.part == "SELECT" and it.now in (",", ".", "(", "*"):
        return "A SELECT names one alias and gives its vertices: what is shown of them goes into PRINT, as T[T.kind]; a row for each group is a GroupByAccum."
    if it.part != "FROM" or not it.of_select():
        return None
    if it.now == ",":
        return "FROM has one pattern: write a SELECT for each, with an accumulator between them."
    if it.now == "*" or it.now in ("<", ">") and it.wants("|"):
        return "Steps aren't repeated: write up to three of them, as -(a>|<b)- _ -(a>|<b)- _:t, or one in a WHILE."
    if it.now == "." and it.wants("|"):
        return "A step is one edge: write two of them, with the vertex type between them, -(a>)- person -(<b)- _:t."
    if it.now == "<" and it.after == "-":
        return "An arrow leads on, -(e)->: go back by the reverse type, or by <e in SYNTAX v2."
    if it.now == "-" and it.wants("WHERE") and not it.wants("-"):
        return "A path has at most three steps: go on from its set by a second SELECT."
    return None


def of_signs(it):
    if it.now == "=" and it.wants("=="):
        return "A comparison is written ==."
    if it.now == "==" and it.wants("="):
        return "A variable is set by a single =."
    if it.now in ("+=", "+") and it.wants("=") and it.after in ("+", "=") + (() if it.now == "+" else (it.after,)):
        return "A variable is set by =, as i = i + 1; += feeds accumulators, @@n or s.@n."
    if it.now == "'" and it.wants("Text"):
        return 'Texts are written in double quotes: "x".'
    if it.before == "." and it.kind == "number":
        return NO_POINT
    if it.now == "-" and "-" in (it.before, it.after):
        return "Comments begin with // or #, or are between /* and */."
    if it.now in COMPARISON and not it.wants(*COMPARISON) and it.wants(*ARITHMETIC):
        return "Comparisons can't be chained: a < x AND x < b."
    if it.kind == "global" and it.before == ".":
        return "A global accumulator is written alone, @@n; s.@n is the one of a vertex."
    if it.kind == "attached" and it.before != ".":
        return "An accumulator of a vertex comes after an alias: s.@n."
    if it.now == "[" and it.before.startswith("@"):
        return "A map or a group is read by get: @@map.get(k)."
    return None


def of_accums(it):
    if it.now == "." and it.before.startswith("@@") and it.wants("+="):
        return "A global accumulator is fed by +=, or set by = where it keeps one value: nothing is called on it as a statement."
    if it.wants("->") and it.now in (")", ";"):
        return "A map is fed by (key -> value), a group by (key, key -> input, input)."
    if it.part not in ("ACCUM", "POST_ACCUM"):
        return None
    if it.now == "(" and it.before == it.part:
        return "POST-ACCUM takes no alias: each of its statements is for the alias that it names."
    if it.now == "IF" and it.wants("Number"):
        return "IF isn't an expression: IF c THEN s.@n += 1 ELSE s.@n += 2 END."
    if it.now in IN_BODY and it.wants("Global"):
        return "ACCUM and POST-ACCUM have inputs, and IF with inputs: FOREACH, WHILE and PRINT are statements of the body."
    if it.now == "+=" and it.wants(","):
        return "The entries of ACCUM and POST-ACCUM are separated by commas."
    return NOT_HERE["LET"] if it.now in TYPES and it.wants("Global") else None


def of_clauses(it):
    clause = {"POST": "POST-ACCUM", "POST_ACCUM": "POST-ACCUM", "ORDER": "ORDER BY"}.get(it.now, it.now)
    if clause in CLAUSES and it.of_select() and not it.wants(it.now):
        if clause in it.of_select() and clause in ("WHERE", "HAVING"):
            return f"{clause} comes once: join its conditions by AND."
        return "The clauses of a SELECT come in this order: " + ", ".join(CLAUSES) + "."
    if it.now == "," and it.part == "LIMIT":
        return NOT_HERE["OFFSET"]
    if it.now == "SELECT" and it.before == "(" or it.now == "(" and it.before in ("UNION", "INTERSECT", "MINUS"):
        return NO_SUBQUERY
    if it.now == "SELECT" and it.wants("CREATE"):
        return "A SELECT belongs in a query: INTERPRET QUERY () FOR GRAPH g { T = SELECT s FROM person:s; PRINT T; }."
    if it.now == "SELECT" and it.before in ("", ";", "{", "DO", "THEN", "ELSE"):
        return "A SELECT gives a set, which needs a name: T = SELECT .."
    if it.now == ";" and it.wants(",") and it.wants("END") and it.of_select():
        return "The entries of ACCUM and POST-ACCUM are separated by commas, in IF too; the `;` comes after the whole SELECT."
    if it.now == "WHERE" and it.wants("AS"):
        return "PRINT has no WHERE: make a smaller set by a SELECT, and print that."
    return None


def of_bodies(it):
    if it.wants("}") and it.now in STATEMENT or it.wants("=") and it.before in STATEMENT:
        return "A `}` is missing above: a body or a job isn't closed."
    if it.now == "}" and it.wants("CREATE"):
        return "This `}` closes nothing: there is one too many."
    if it.now in IN_BODY | {"}"} and it.wants("END") and not it.wants(";"):
        return "An IF, WHILE or FOREACH above has no END."
    if it.now == "{" and it.wants("THEN", "DO"):
        return "Bodies are written between words: IF c THEN .. END, WHILE c DO .. END, FOREACH x IN c DO .. END."
    if it.before == "FOREACH" and it.now == "(":
        return "FOREACH has one variable: feed the keys of a map to a SetAccum too, and go through that with @@map.get(k)."
    if "RANGE" in (it.before, *it.statement[-6:]) and it.now in ("(", ".") and it.wants("[", "DO"):
        return "A RANGE is two numbers in square brackets, RANGE [1, 5], and goes up by one."
    if it.now.endswith("ACCUM") and it.now in {kind.upper() for kind in KINDS} or it.now == "TYPEDEF":
        return "Accumulators and tuples are declared first, before all other statements of the body."
    if it.before == "(" and it.wants("ANY") and it.statement[-3:-2] and it.statement[-3] in (";", "{", "DO", "THEN", "ELSE"):
        return "Functions aren't called as statements; S (ANY) = .. gives the types of a set."
    if it.kind == "text" and it.wants("ANY") and it.wants("}"):
        return "A set is made of types, {person.*}, and of variables: take the vertex as a parameter, VERTEX<person> p, and write {p}."
    return None


def of_statements(it):
    begun = it.statement[:2]
    if it.now == "EDGE" and it.before == "CREATE":
        return "Say CREATE DIRECTED EDGE or CREATE UNDIRECTED EDGE."
    if it.now == "{" and it.wants("FOR") and "LOADING" in it.statement:
        return "A loading job is for a graph: CREATE LOADING JOB fill FOR GRAPH g { .. }."
    if it.now == "JOB" and it.before == "RUN":
        return NOT_HERE["LOADING"]
    if begun == ["INSTALL", "QUERY"] and it.now == "-":
        return "INSTALL QUERY has no options: INSTALL QUERY q, r, or INSTALL QUERY ALL."
    if it.now == "{" and it.before == "(" and it.wants("TRUE"):
        return 'Arguments are given in order, q(7, "x"); as JSON they are in the file of --args, for RUN QUERY q without parentheses.'
    if begun == ["INTERPRET", "QUERY"] and it.wants("(", ")") and "{" not in it.statement:
        return "INTERPRET QUERY () { .. } has neither name nor parameters: CREATE, INSTALL and RUN a query that has."
    if it.now == "FOR" and it.wants("SYNTAX"):
        return "FOR GRAPH comes before API and SYNTAX."
    if it.before == "SYNTAX":
        return "It is SYNTAX v1 or SYNTAX v2."
    if it.now == "(" and it.wants("VALUES"):
        return "VALUES has a value for each attribute, in the order of the type: no names come before it."
    if it.now == "WHERE" and "LOAD" in it.statement and it.wants("USING"):
        return "LOAD takes each record: leave out what isn't wanted before, as by awk."
    if it.now == "$" or it.kind in ("number", "text") and it.wants("$"):
        return 'VALUES takes columns, $0 or $"name", and _ for a default; constants can\'t be loaded.'
    if it.kind == "word" and it.wants(")") and it.wants(",") and ("LOAD" in it.statement or it.statement[:1] == ["INSERT"]) and "VALUES" in it.statement:
        return "VALUES has ids alone, without types: an edge type has one type at each end."
    if it.kind == "word" and it.wants("$"):
        return "VALUES takes columns as they are: bring the file into shape before it is loaded."
    return "A `)` is missing in front of this." if it.now in STATEMENT and it.wants(")") else None


def of_types(it):
    if it.wants("PRIMARY_ID"):
        return "The id comes first: PRIMARY_ID id STRING."
    if it.now == "*" and it.before in ("FROM", "TO") or it.now == "|" and "EDGE" in it.statement[:3]:
        return ONE_TYPE
    if it.now == "DEFAULT" and it.before == "DATETIME":
        return "A DATETIME has no DEFAULT: what isn't given is 1970-01-01 00:00:00."
    if it.now in ("STATS", "REVERSE_EDGE", "PRIMARY_ID_AS_ATTRIBUTE") and it.wants("WITH", ",", "PRIMARY_ID_AS_ATTRIBUTE"):
        return "Options come after WITH, separated by commas."
    if it.kind == "word" and it.wants("DATETIME") and it.now not in NOT_HERE:
        return NOT_HERE["STRING_COMPRESS"]
    if it.now in ("SET", "BAG", "LIST", "MAP") and TYPES <= it.wanted:
        return "Parameters and variables are INT, UINT, BOOL, STRING, VERTEX or VERTEX<T>."
    if it.statement[-2:-1] == ["TUPLE"] and it.kind == "word" and it.now not in NOT_HERE:
        return "A field of a tuple is a type and then a name: TUPLE<INT amount, VERTEX<person> of>."
    if it.before == "(" and "HEAPACCUM" in it.statement[-6:] and it.wants("Number"):
        return "The size of a heap is a number, no parameter: write the greatest that is needed."
    if "HEAPACCUM" in it.statement[-8:] and it.now == ")":
        return "A heap says by which fields it is ordered: HeapAccum<T>(5, amount DESC)."
    if it.before == "AVGACCUM":
        return "AvgAccum has no type: it takes numbers."
    if it.before.endswith("ACCUM") and it.now == "<" and it.wants("="):
        return "There is no such accumulator: there are " + ", ".join(sorted(KINDS)) + "."
    if "GROUPBYACCUM" in it.statement[-12:] and it.wants("Name") and it.now in (",", ">"):
        return "Keys and parts of a group have names: GroupByAccum<STRING kind, SumAccum<INT> total>."
    return None


def of_words(it):
    if it.now == "NOT" and it.wants("AND", "OR"):
        return "NOT comes before a condition: NOT @@set.contains(x), NOT (a <= x AND x <= b)."
    if it.now == "IS" and it.after in ("TRUE", "FALSE"):
        return "A truth is a condition by itself: WHERE t.flag, WHERE NOT t.flag."
    if it.now in NOT_HERE or it.before in READ_AS_NAMES:
        return NOT_HERE[it.now if it.now in NOT_HERE else it.before]
    if it.kind == "word" and it.wants("Name") and it.now in Grammar().reserved_words():
        return f"{it.now} is a reserved word, in letters of any case: take another name."
    if it.kind == "text" and it.wants("Name") and not it.wants("Text"):
        return "Names are written without quotes."
    if it.kind == "word" and it.wants("Text") and not it.wants("Name"):
        return "A text belongs here, in double quotes."
    return None
