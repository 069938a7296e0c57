"""What a TigerGraph cluster reads otherwise than gsql, line by line."""
from names import Names
from places import Text
from syntax import read


def lines(script, data):
    """The status, and what is said of a script that can be read."""
    text = Text(script, data)
    tokens, trees, said = read(text)
    if said:
        return 1, said
    names, found = Names(text, tokens, trees), []
    for statement in trees:
        for at, hint in hints(names, statement.parts[0]):
            found += [f"{text.place(tokens[at][2])}: {hint}"]
    return 0, found


def hints(names, tree):
    """The places of a statement that are written otherwise there, each with what is written."""
    kind = getattr(tree, "name", "")
    if kind == "Insert":
        yield tree.start, "on a cluster INSERT INTO is written within a query, or the row comes by a file and a loading job"
    if kind in ("Job", "RunJob"):
        for at in (it for it in range(tree.start, tree.end) if names.tokens[it][0] == "text" and is_path(names, it)):
            if not names.word(at).startswith('"/'):
                yield at, "on a cluster a path is absolute, on the server, or is given by USING"
    if kind == "Run" and "(" not in names.words(tree):
        yield tree.start, "on a cluster arguments come after the query's name: RUN QUERY q(..)"
    if kind in ("Query", "Interpret"):
        yield from of_query(names, tree)


def is_path(names, at):
    return names.word(at - 1).upper() == "LOAD" or names.word(at - 1) == "=" and names.word(at - 2).upper() not in ("HEADER", "QUOTE", "SEPARATOR", "EOL")


def of_query(names, tree):
    if not any("SYNTAX" in (names.word(it.start).upper()) for it in tree.trees("Mode")):
        yield tree.start, "on a cluster syntax v2 is the default: write SYNTAX v1"
    for call in tree.all("Call"):
        texts = [it for it in range(call.start, call.end) if names.tokens[it][0] == "text"]
        if names.word(call.start) == "datetime_add" and texts:
            unit = names.word(texts[-1]).strip('"')
            yield call.start, f"on a cluster it is datetime_add(.., INTERVAL n {unit})"
    for item in tree.all("Item"):
        yield from of_item(names, tree, item)


def of_item(names, tree, item):
    """A set that is printed in an order which no ORDER BY gives."""
    name = names.word(item.start)
    if names.word(item.start + 1) == ".":
        return
    made = [it for it in tree.all("Plain") if names.word(it.start) == name and (it.all("Select") or it.all("SetRhs"))]
    if made and not any(names.word(at).upper() == "ORDER" for at in range(made[-1].start, made[-1].end)):
        yield item.start, f"{name} is printed in the order in which its vertices came into the graph, and on a cluster in none: ORDER BY, and LIMIT"
