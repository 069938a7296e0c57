"""What queries that run may not mean: a global accumulator that an ACCUM reads while it feeds it, and `.type` of types with an attribute of that name."""


def of_script(names, text, trees):
    """What is said of the queries of a script, in order."""
    said = []
    for it in trees:
        tree = it.parts[0]
        if getattr(tree, "name", None) in ("Query", "Interpret"):
            said += of_type(names, text, tree)
            for select in tree.all("Select"):
                said += of_select(names, text, select)
    return said


def of_type(names, text, query):
    """What is said of the first `.type` of a query, where a type has an attribute called so."""
    having = [name for name, it in names.types.items() if "type" in dict(it["attributes"])]
    at = next((at for at in range(query.start, query.end) if names.word(at) == "type" and names.word(at - 1) == "."), None)
    if not having or at is None:
        return []
    place = names.tokens[at][2]
    return [f"{text.place(place)}: .type is the name of the vertex or edge type, and not the attribute of {', '.join(having)}: call that otherwise",
            *text.shown(place, place + 4)]


def of_select(names, text, select):
    """What is said of the ACCUM of a SELECT: of each accumulator once."""
    acts = [it for it in select.trees("Acts") if names.word(it.start - 1).upper() == "ACCUM" and names.word(it.start - 2) != "-"]
    fed = {names.word(it.start) for one in acts for it in one.all("Change") if names.word(it.start + 1) == "+="}
    changed = {it.start for one in acts for it in one.all("Change")}
    said = {}
    for one in acts:
        for at in range(one.start, one.end):
            name, place = names.word(at), names.tokens[at][2]
            if name in fed and at not in changed and name not in said:
                said[name] = [f"{text.place(place)}: {name} is read here as it was before this SELECT, whatever its ACCUM feeds",
                              *text.shown(place, place + len(name))]
    return [line for lines in said.values() for line in lines]
