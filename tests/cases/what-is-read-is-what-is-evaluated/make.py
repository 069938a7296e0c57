"""Makes blocks in pairs over expressions at random: one of each pair reads them, and a text in its WHERE lets the other evaluate them."""
import random

PAIRS = 150
rng = random.Random(35)

with open("people.csv", "w", encoding="ascii") as file:
    file.writelines(f"{n},{n * 5 % 7 - 2}\n" for n in range(12))
with open("pays.csv", "w", encoding="ascii") as file:
    file.writelines(f"{n % 12},{n * 7 % 11},{n * 3 % 10 - 4}\n" for n in range(40))


def key():
    """A key of a map, held or not."""
    return rng.choice(["s.id", "t.id", "s.age", "e.amount", "k", "@@sum", "t.@least", "s.id + 1", str(rng.randrange(14))])


def collection():
    return rng.choice(["s.@set", "t.@set", "@@set", "s.@map", "@@map", "@@sets", "@@sets.get(%s)" % key(), "t.@sets.get(%s)" % key(), "@@list", "@@by"])


def number(depth):
    """An INT that can't be out of range, and never divides by 0."""
    if depth == 0 or rng.random() < 0.2:
        return rng.choice([str(rng.randrange(6)), "s.id", "t.age", "e.amount", "k", "@@sum", "s.@sum", "t.@least", "s.@map.get(%s)" % key(), "@@map.get(%s)" % key(), collection() + ".size()"])
    form = rng.randrange(5)
    if form == 0:
        return "-(%s)" % number(depth - 1)
    if form == 1:
        return "(%s) %s %d" % (number(depth - 1), rng.choice("/%"), rng.choice([-3, 2, 7]))
    return "(%s) %s (%s)" % (number(depth - 1), rng.choice("+-*"), number(depth - 1))


def truth(depth):
    if depth == 0 or rng.random() < 0.3:
        return rng.choice([
            "%s.containsKey(%s)" % (rng.choice(["s.@map", "@@map", "@@sets", "t.@sets"]), key()),
            "(%s) %s (%s)" % (number(1), rng.choice(["==", "!=", "<", "<=", ">", ">="]), number(1)),
            "s %s t" % rng.choice(["==", "!="]), "s.@seen", "@@any", "TRUE", "s.@set.contains(t.id)",
        ])
    if rng.random() < 0.25:
        return "NOT (%s)" % truth(depth - 1)
    return "(%s) %s (%s)" % (truth(depth - 1), rng.choice(["AND", "OR"]), truth(depth - 1))


HEAD = """# Made by make.py.
CREATE VERTEX person (PRIMARY_ID id INT, age INT) WITH PRIMARY_ID_AS_ATTRIBUTE="true"
CREATE DIRECTED EDGE pays (FROM person, TO person, amount INT)
CREATE GRAPH g (person, pays)
CREATE LOADING JOB j FOR GRAPH g {
  LOAD "people.csv" TO VERTEX person VALUES ($0, $1);
  LOAD "pays.csv" TO EDGE pays VALUES ($0, $1, $2);
}
RUN LOADING JOB j
INTERPRET QUERY () FOR GRAPH g {
  SumAccum<INT> @sum, @@sum, @@passed;
  MinAccum<INT> @least;
  OrAccum @seen, @@any;
  SetAccum<INT> @set, @@set, @@differ;
  ListAccum<INT> @@list;
  MapAccum<INT, INT> @map, @@map;
  MapAccum<INT, SetAccum<INT>> @sets, @@sets;
  GroupByAccum<INT age, SumAccum<INT> total> @@by;
  MapAccum<INT, INT> @@reads, @@evaluates, @@read, @@evaluated;
  INT k = 3;
  S = {person.*};
  @@list += 1;
  @@list += 1;
  T = SELECT t FROM S:s -(pays:e)-> person:t
      ACCUM s.@sum += e.amount, @@sum += 2 * e.amount + 1, t.@least += e.amount, s.@set += t.id, t.@set += e.amount, @@set += t.age,
            s.@map += (t.id -> e.amount), @@map += (t.id -> s.age), t.@sets += (e.amount -> s.id), @@sets += (s.age -> t.id), @@by += (s.age -> 1);
  T = SELECT s FROM S:s WHERE s.age > 1 ACCUM s.@seen += TRUE, @@any += s.age > 100;
"""
PAIR = """  T = SELECT t FROM S:s -(pays:e)-> person:t WHERE {where}
      ACCUM @@reads += ({n} -> 1), @@read += ({n} -> ({number}) * (s.id * 13 + t.id)), @@passed += 1;
  T = SELECT t FROM S:s -(pays:e)-> person:t WHERE s.type == "person" AND ({where})
      ACCUM @@evaluates += ({n} -> 1), @@evaluated += ({n} -> ({number}) * (s.id * 13 + t.id));
  IF @@reads.get({n}) != @@evaluates.get({n}) OR @@read.get({n}) != @@evaluated.get({n}) THEN @@differ += {n}; END;
"""
with open("script.gsql", "w", encoding="ascii") as file:
    file.write(HEAD)
    for n in range(PAIRS):
        file.write(PAIR.format(n=n, where=truth(2), number=number(3)))
    file.write("  PRINT @@differ AS differ, @@passed > 1000 AS passed;\n}\n")
