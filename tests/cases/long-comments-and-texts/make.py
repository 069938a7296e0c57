"""Makes a script whose comments, gaps and texts are long, which is to be cut in a moment."""
with open("script.gsql", "w", encoding="utf-8") as file:
    file.write("/*" + "/" * 1_000_000 + "*/" + "//" + "*" * 1_000_000 + "\n" + " \t\r\n" * 250_000)
    file.write('INTERPRET QUERY () { STRING s = "' + "a" * 1_000_000 + '"; PRINT 1 AS n; }\n')
