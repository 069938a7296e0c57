count = 500
lines = [f"CREATE QUERY q{at} () {{ PRINT {at} AS n; }}" for at in range(count)]
lines.append("CREATE OR REPLACE QUERY q7 () { PRINT 7000 AS n; }")
lines.append("INSTALL QUERY " + ", ".join(f"q{at}" for at in reversed(range(0, count, 2))) + ", q7, q7")
lines.extend(f"RUN QUERY q{at}()" for at in (0, 7, 250, 498))
lines.append("CREATE OR REPLACE QUERY q250 () { PRINT 0 AS n; }")
lines.append("INSTALL QUERY ALL")
lines.extend(f"RUN QUERY q{at}()" for at in (1, 250, 499))
lines.append("CREATE QUERY q499 () { PRINT 1; }")
open("script.gsql", "w", newline="").write("\n".join(lines) + "\n")
