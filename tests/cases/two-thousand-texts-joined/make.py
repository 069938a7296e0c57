texts = [f'"{at}"' for at in range(2000)]
joined = " + ".join(texts)
grouped = "(" + " + ".join(texts[:1000]) + ") + (" + " + ".join(texts[1000:]) + ")"
open("script.gsql", "w", newline="").write(f"""INTERPRET QUERY () {{
  SetAccum<STRING> @@set;
  MapAccum<STRING, INT> @@map;
  STRING s = {joined};
  PRINT s;
  PRINT s == {grouped} AS same, ("a" + "b") + ("c" + "d") < "abce" AS before;
  s = s + "!" + "?";
  PRINT s == {joined} + "!?" AS longer;
  @@set += "a" + "b" + "c";
  @@map += ("k" + "e" + "y" -> 7);
  PRINT @@set.contains("a" + "bc") AS there, @@map.get("ke" + "y") AS value, to_string("x" + "y") + "z" AS spelled;
}}
""")
