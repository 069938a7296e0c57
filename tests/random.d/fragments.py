"""Parts of queries that no check takes, and some that are taken, each with the refusal that docs/errors.md has for it, or None.

A part is definitions, a statement and the refusal. {T} is a vertex type, {F} {E} {G} an edge type with those of its ends, and {hop} the walk over it
from {F} to {G}, with the aliases oe and ot. Names of different parts differ, so that any of them may stand in one query.
"""

MANY_FIELDS = ", ".join(f"INT f{at}" for at in range(17))
MANY_KEYS = ", ".join(f"INT k{at}" for at in range(9))
MANY_PARTS = ", ".join(f"AvgAccum a{at}" for at in range(9))
LESS = {17: 16, 9: 8}


def nested(levels, inner="AvgAccum"):
    return "MapAccum<INT, " * (levels - 1) + inner + ">" * (levels - 1)


UNKNOWN = (
    ("", "PRINT nosuch", "unknown name nosuch"),
    ("", "PRINT @@nosuch", "unknown name @@nosuch"),
    ("", "PRINT nosuch(1) AS o11", "unknown name nosuch"),
    ("", "PRINT ABS(1) AS o12", "unknown name ABS"),
    ("", "PRINT (1).nosuch() AS o13", "unknown name nosuch"),
    ("SetAccum<INT> @@o14;", "PRINT @@o14.Size() AS o15", "unknown name Size"),
    ("MapAccum<INT, INT> @@o16;", "PRINT @@o16.containskey(1) AS o17", "unknown name containskey"),
    ("", "nosuch = 5", "unknown name nosuch"),
    ("", "@@nosuch += 5", "unknown name @@nosuch"),
    ("", "O18 = {nosuch.*}", "unknown name nosuch"),
    ("", "O19 = {{T}.*, nosuch}", "unknown name nosuch"),
    ("", "O20 (nosuch) = {{T}.*}", "unknown name nosuch"),
    ("", "O21 = SELECT o22 FROM {T}:o22 ACCUM o22.@nosuch += 1", "unknown name @nosuch"),
    ("", "O23 = SELECT nosuch FROM {T}:o24", "unknown name nosuch"),
    ("", "O25 = SELECT o26 FROM nosuch:o26", "unknown name nosuch"),
    ("", "O27 = SELECT o28 FROM {F}:o28 -(nosuch:oe)-{>} ANY:ot", "unknown name nosuch"),
    ("", "O29 = SELECT o30 FROM {T}:o30; PRINT o30", "unknown name o30"),
    ("", "IF TRUE THEN INT o31 = 2; END; PRINT o31", "unknown name o31"),
    ("", "FOREACH o32 IN RANGE [1, 0] DO PRINT o32; END; PRINT o32", "unknown name o32"),
    ("", 'PRINT datetime_add(to_datetime("2024-01-01"), 1, "WEEK") AS o33', "unknown name WEEK"),
    ("", "FOREACH o34 IN nosuch DO PRINT o34; END", "unknown name nosuch"),
    ("SetAccum<Nosuch> @@o35;", "", "unknown name Nosuch"),
    ("HeapAccum<Nosuch>(1, a) @@o36;", "", "unknown name Nosuch"),
    ("SetAccum<VERTEX<nosuch>> @@o37;", "", "unknown name nosuch"),
    ("TYPEDEF TUPLE<VERTEX<nosuch> a> O38;", "", "unknown name nosuch"),
    ("SumAccum<INT> @o39;", "PRINT @@o39", "unknown name @@o39"),
    ("SumAccum<INT> @@o40;", "O41 = SELECT o42 FROM {T}:o42 ACCUM o42.@o40 += 1", "unknown name @o40"),
)

MISMATCHED = (
    ("", "INT o50 = TRUE", "type mismatch"), ("", 'PRINT 1 + "a" AS o51', "type mismatch"), ("", "PRINT NOT 1 AS o52", "type mismatch"),
    ("", "PRINT TRUE < FALSE AS o53", "type mismatch"), ("", "IF 1 THEN PRINT 1; END", "type mismatch"),
    ("", 'WHILE "a" DO PRINT 1; END', "type mismatch"), ("", "PRINT abs(TRUE) AS o54", "type mismatch"),
    ("", "FOREACH o55 IN 5 DO PRINT 1; END", "type mismatch"), ("", "PRINT - TRUE AS o56", "type mismatch"),
    ("", 'PRINT "a" * 2 AS o57', "type mismatch"), ("", 'PRINT "a" == 1 AS o58', "type mismatch"), ("", "PRINT TRUE == 1 AS o59", "type mismatch"),
    ("", "PRINT 1 AND TRUE AS o60", "type mismatch"), ("", 'PRINT "a" - "b" AS o61', "type mismatch"),
    ("", "PRINT abs(1, 2) AS o62", "type mismatch"), ("", "PRINT to_string() AS o63", "type mismatch"),
    ("", "PRINT to_datetime(5) AS o64", "type mismatch"), ("", 'PRINT year("2024-01-01") AS o65', "type mismatch"),
    ("", "PRINT epoch_to_datetime(1) + 1 AS o66", "type mismatch"), ("", "PRINT epoch_to_datetime(1) == 1 AS o67", "type mismatch"),
    ("AvgAccum @@o68;", "@@o68 = 1", "type mismatch"), ("SetAccum<INT> @@o69;", "@@o69 = 1", "type mismatch"),
    ("AvgAccum @@o70;", "PRINT @@o70 + 1 AS o71", "type mismatch"), ("SetAccum<INT> @@o72;", 'PRINT @@o72.contains("a") AS o73', "type mismatch"),
    ("SetAccum<INT> @@o74;", "PRINT @@o74.get(1) AS o75", "type mismatch"), ("SetAccum<INT> @@o76;", "PRINT @@o76 == @@o76 AS o77", "type mismatch"),
    ("MapAccum<INT, INT> @@o78;", "@@o78 += 5", "type mismatch"), ("SumAccum<INT> @@o79;", "@@o79 += (1 -> 2)", "type mismatch"),
    ("SumAccum<INT> @@o80;", "@@o80 += TRUE", "type mismatch"), ("OrAccum @@o81;", "@@o81 += 1", "type mismatch"),
    ("MapAccum<INT, INT> @@o82;", "@@o82 += (1, 2 -> 3)", "type mismatch"), ("SetAccum<STRING> @@o83;", "@@o83 += 1", "type mismatch"),
    ("SumAccum<INT> @@o84 = TRUE;", "", "type mismatch"), ("OrAccum @@o85 = 1;", "", "type mismatch"),
    ("", "O86 = SELECT o87 FROM {T}:o87 WHERE 1", "type mismatch"), ("", 'O88 = SELECT o89 FROM {T}:o89 LIMIT "a"', "type mismatch"),
    ("", "O90 = SELECT o91 FROM {T}:o91 ORDER BY TRUE", "type mismatch"), ("", "O92 = SELECT o93 FROM {T}:o93 HAVING o93.type", "type mismatch"),
    ("", "O94 = SELECT o95 FROM {T}:o95 ORDER BY o95", "type mismatch"), ("", "O96 = {}; O96 = 5", "type mismatch"),
    ("", "O97 = SELECT o98 FROM {T}:o98 WHERE o98 > o98", "type mismatch"), ("", 'INT o99 = "1"', "type mismatch"),
    ("", "STRING o100 = 1", "type mismatch"), ("", "BOOL o101; o101 = 1", "type mismatch"), ("", 'FOREACH o102 IN RANGE ["a", 3] DO PRINT 1; END', "type mismatch"),
    ("", "WHILE TRUE LIMIT TRUE DO PRINT 1; END", "type mismatch"),
    ("", 'INT o109 = to_datetime("2024-01-01")', "type mismatch"), ("SumAccum<INT> @@o110;", "@@o110 += epoch_to_datetime(7)", "type mismatch"),
    ("", "INT o103; O104 = {o103}", "type mismatch"), ("SumAccum<INT> @@o105;", "O106 = {@@o105}", "type mismatch"),
    ("SumAccum<INT> @@o107;", "PRINT @@o107.size() AS o108", "type mismatch"),
)

MISPLACED = (
    ("", "VERTEX o120", "not allowed here"), ("SumAccum<INT> @o121;", "O122 = SELECT o123 FROM {T}:o123 ACCUM o123.@o121 = 1", "not allowed here"),
    ("SumAccum<INT> @o124;", "O125 = SELECT o126 FROM {T}:o126 WHERE o126.@o124' > 1", "not allowed here"),
    ("SumAccum<INT> @@o127;", "O128 = SELECT o129 FROM {T}:o129 POST-ACCUM @@o127 = 1", "not allowed here"),
    ("SumAccum<INT> @@o130;", "O131 = SELECT o132 FROM {T}:o132 ACCUM @@o130 = 1", "not allowed here"),
    ("", "O133 = SELECT ot FROM {F}:o134 {hop} ORDER BY o134.type", "not allowed here"),
    ("", "O135 = SELECT o136 FROM {F}:o136 {hop} HAVING ot.type == \"a\"", "not allowed here"),
    ("", "O137 = SELECT o138 FROM {F}:o138 {hop} WHERE oe == oe", "not allowed here"),
    ("", "O139 = {{T}.*}; PRINT O139 + 1 AS o140", "not allowed here"),
    ("SumAccum<INT> @@o141; SumAccum<INT> @@o142 = @@o141;", "", "not allowed here"),
    ("SumAccum<INT> @o143;", "O144 = {{T}.*}; PRINT O144.@o143 AS o145", "not allowed here"),
    ("SumAccum<INT> @o146;", "O147 = SELECT o148 FROM {T}:o148 ACCUM o148.@o146 += o148.@o146'", "not allowed here"),
)

OTHERS = (
    ("", "O160 = SELECT o161 FROM {T}:o161 WHERE o161.nosuch > 1", "no attribute nosuch"),
    ("", "O162 = SELECT o163 FROM {F}:o163 {hop} WHERE oe.nosuch > 1", "no attribute nosuch"),
    ("TYPEDEF TUPLE<INT a> O500; SetAccum<O500> @@o501;", "FOREACH o502 IN @@o501 DO PRINT o502.b; END", "no attribute b"),
    ("ListAccum<INT> @@o164;", "O165 = SELECT o166 FROM {T}:o166 ACCUM @@o164 += 1", "order dependent @@o164"),
    ("ListAccum<INT> @o167;", "O168 = SELECT o169 FROM {T}:o169 ACCUM o169.@o167 += 1", "order dependent @o167"),
    ("ListAccum<INT> @o170;", "O171 = SELECT o172 FROM {T}:o172 ACCUM IF TRUE THEN o172.@o170 += 1 END", "order dependent @o170"),
    ("SumAccum<INT> @o173;", "O174 = SELECT ot FROM {F}:o175 {hop} POST-ACCUM ot.@o173 += o175.outdegree()", "two aliases"),
    ("SumAccum<INT> @@o176;", "O177 = SELECT ot FROM {F}:o178 {hop} POST-ACCUM @@o176 += 1, IF ot.type == o178.type THEN @@o176 += 1 END", "two aliases"),
    ("MapAccum<STRING, BOOL> @@o180;", "", "bad accumulator @@o180"), ("MapAccum<STRING, ListAccum<INT>> @@o181;", "", "bad accumulator @@o181"),
    ("SetAccum<INT> @@o182 = 1;", "", "bad accumulator @@o182"), ("TYPEDEF TUPLE<INT a> O183; HeapAccum<O183>(0, a) @@o184;", "", "bad accumulator @@o184"),
    ("TYPEDEF TUPLE<INT a> O185; HeapAccum<O185>(1, b) @@o186;", "", "bad accumulator @@o186"),
    ("TYPEDEF TUPLE<INT a> O187; HeapAccum<O187>(1000001, a) @@o188;", "", "bad accumulator @@o188"),
    ("SumAccum<STRING> @@o189;", "", "bad accumulator @@o189"), ("MaxAccum<BOOL> @o190, @@o191;", "", "bad accumulator @o190"),
    ("OrAccum<INT> @@o192;", "", "bad accumulator @@o192"), ("BitwiseOrAccum<UINT> @@o193;", "", "bad accumulator @@o193"),
    ("TYPEDEF TUPLE<INT a> O194; MapAccum<O194, INT> @@o195;", "", "bad accumulator @@o195"), ("AvgAccum @@o196 = 1;", "", "bad accumulator @@o196"),
    ("GroupByAccum<INT k, ListAccum<INT> l> @@o197;", "", "bad accumulator @@o197"),
    ("", "INT o210, o210", "name twice o210"), ("", "PRINT 1 AS o211, 2 AS o211", "name twice o211"), ("SumAccum<INT> @@o212, @@o212;", "", "name twice @@o212"),
    ("", "INT o213; IF TRUE THEN INT o213; END", "name twice o213"), ("", "INT o214; O215 = SELECT o214 FROM {T}:o214", "name twice o214"),
    ("", "O216 = SELECT ot FROM {F}:ot {hop}", "name twice ot"), ("TYPEDEF TUPLE<INT a, BOOL a> O217;", "", "name twice a"),
    ("TYPEDEF TUPLE<INT a> O218; TYPEDEF TUPLE<INT a> O218;", "", "name twice O218"), ("GroupByAccum<INT k, AvgAccum k> @@o219;", "", "name twice k"),
    ("", "O220 = {{T}.*}; O220 (ANY) = {{T}.*}", "name twice O220"), ("", "O221 = {{T}.*}; PRINT O221[1 AS a, 2 AS a]", "name twice a"),
    ("", "INT o222; FOREACH o222 IN RANGE [1, 2] DO PRINT 1; END", "name twice o222"), ("", "PRINT 1 + 2, 1+2", "name twice 1+2"),
)

COUNTED = (
    (f"TYPEDEF TUPLE<{MANY_FIELDS}> O300;", "", "too many"), (f"GroupByAccum<{MANY_KEYS}, AvgAccum a> @@o301;", "", "too many"),
    (f"GroupByAccum<INT k, {MANY_PARTS}> @@o302;", "", "too many"),
    (f"TYPEDEF TUPLE<{MANY_FIELDS.rsplit(',', 1)[0]}> O303;", "", None), (f"GroupByAccum<{MANY_KEYS.rsplit(',', 1)[0]}, AvgAccum a> @@o304;", "", None),
    (f"GroupByAccum<INT k, {MANY_PARTS.rsplit(',', 1)[0]}> @@o305;", "", None), (f"{nested(8)} @@o306;", "", None),
    ("SumAccum<INT> @@o307;", "O308 = SELECT o309 FROM {T}:o309 ACCUM " + ", ".join(["@@o307 += 0"] * 1001), "too many"),
    ("SumAccum<INT> @@o310;", "O311 = SELECT o312 FROM {T}:o312 POST-ACCUM IF TRUE THEN " + ", ".join(["@@o310 += 0"] * 1000) + " END", "too many"),
    ("SumAccum<INT> @@o313;", "O314 = SELECT o315 FROM {T}:o315 ACCUM IF FALSE THEN " + ", ".join(["@@o313 += 0"] * 999) + " END", None),
    ("TYPEDEF TUPLE<INT a> O316; HeapAccum<O316>(1000000, a) @@o317;", "", None),
)

ALLOWED = (
    ("SumAccum<INT> @@o400 = 1;", "@@o400 = 7", None), ("", "O401 = {}; O401 = {{T}.*}", None), ("ListAccum<INT> @@o402;", "@@o402 += 7", None),
    ("MapAccum<INT, INT> @@o403;", "@@o403 += (1 -> 2)", None), ("", "O404 = SELECT o405 FROM {T}:o405; O404 = SELECT o405 FROM {T}:o405", None),
    ("TYPEDEF TUPLE<INT a, STRING b> O406; SetAccum<O406> @@o407;", '@@o407 += O406(1, "x")', None),
)
PARTS = UNKNOWN + MISMATCHED + MISPLACED + OTHERS + COUNTED + ALLOWED
USUAL = UNKNOWN + MISMATCHED + MISPLACED + OTHERS + ALLOWED


def spelled(text, maker, types, edges, with_paths):
    """A part's text over the types of a graph, or None where it wants an edge type and there is none."""
    wants = any(it in text for it in ("{F}", "{E}", "{G}", "{hop}"))
    if wants and not edges:
        return None
    text = text.replace("{T}", types[0]["name"]).replace("{>}", "" if with_paths else ">")
    if wants:
        it = edges[0]
        hop = f"-({it['name']}{'>' if it['directed'] and with_paths else ''}:oe)-{'' if with_paths else '>'} {it['to']}:ot"
        text = text.replace("{hop}", hop).replace("{F}", it["from"]).replace("{E}", it["name"]).replace("{G}", it["to"])
    return text


def chosen(maker, types, edges, with_paths, count, rare=0.1):
    """Some parts: each its definitions, its statement and its refusal."""
    found, rng = [], maker.rng
    pool = COUNTED if maker.some(rare * 0.3) else OTHERS if maker.some(0.25) else PARTS if maker.some(rare) else USUAL
    for part in rng.sample(pool, count):
        texts = [spelled(it, maker, types, edges, with_paths) for it in part[:2]]
        if None not in texts:
            found.append((*texts, part[2]))
    return found
