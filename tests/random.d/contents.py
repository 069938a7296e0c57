"""What accumulators hold, as docs/language.md has it. A content never changes: feeding gives a new one.

A kind is a list: ["Sum", "INT"], ["Min", t], ["Max", t], ["Avg"], ["Or"], ["And"], ["BitOr"], ["BitAnd"], ["Set", t], ["Bag", t], ["List", t],
["Map", key, kind], ["Group", [[type, name]..], [[kind, name]..]], ["Heap", tuple type, room, [[field, descending]..]].
An input is a value, or ("->", keys, inputs) of a map or a group.
"""
import bisect
import functools
from fractions import Fraction
from values import LEAST, MOST, WIDEST, converted, fraction_text, key, listed, moment_text, objected, quoted

PLAIN = ("Sum", "Min", "Max", "Or", "And", "BitOr", "BitAnd")


def opening(kind):
    """What a kind opens with."""
    name = kind[0]
    if name in ("Min", "Max"):
        return {("Min", "INT"): MOST, ("Min", "UINT"): WIDEST, ("Max", "INT"): LEAST, ("Max", "UINT"): 0}[name, kind[1]]
    return {"Sum": 0, "Avg": (0, 0), "Or": False, "And": True, "BitOr": 0, "BitAnd": -1}.get(name, ())


def wanted(kind):
    """The type of an input of a kind that isn't a map or a group."""
    return {"Avg": "INT", "Or": "BOOL", "And": "BOOL", "BitOr": "INT", "BitAnd": "INT"}.get(kind[0]) or kind[1]


def taken(kind, given):
    """An input by the types of its kind: a number is converted by its value."""
    if kind[0] == "Map":
        return ("->", [converted(given[1][0], kind[1])], [taken(kind[2], given[2][0])])
    if kind[0] == "Group":
        keys = [converted(it, part[0]) for it, part in zip(given[1], kind[1])]
        return ("->", keys, [taken(part[0], it) for it, part in zip(given[2], kind[2])])
    return converted(given, wanted(kind))


def fed(kind, content, given):
    """The content with one input more."""
    name = kind[0]
    if name in ("Map", "Group"):
        return fed_pairs(kind, content, given)
    n = given[1]
    if name == "Avg":
        return (content[0] + n, content[1] + 1)
    if name == "Set":
        return content if given in content else tuple(sorted(content + (given,), key=key))
    if name == "Bag":
        return tuple(sorted(content + (given,), key=key))
    if name == "List":
        return content + (given,)
    if name == "Heap":
        return tuple(sorted(content + (given,), key=functools.cmp_to_key(lambda x, y: heap_order(kind, x, y))))[:kind[2]]
    feeds = {"Sum": lambda: content + n, "Min": lambda: min(content, n), "Max": lambda: max(content, n), "Or": lambda: content or n,
             "And": lambda: content and n, "BitOr": lambda: content | n, "BitAnd": lambda: content & n}
    return feeds[name]()


def parts_of_kind(kind):
    return [kind[2]] if kind[0] == "Map" else [it[0] for it in kind[2]]


def fed_pairs(kind, content, given):
    """A map or a group is a tuple of pairs of keys and the contents under them, in order of the keys."""
    keys, parts = tuple(given[1]), parts_of_kind(kind)
    places = [tuple(key(it) for it in pair[0]) for pair in content]
    wanted_at = tuple(key(it) for it in keys)
    at = bisect.bisect_left(places, wanted_at)
    there = at < len(content) and places[at] == wanted_at
    old = content[at][1] if there else tuple(opening(it) for it in parts)
    new = tuple(fed(part, it, x) for part, it, x in zip(parts, old, given[2]))
    return content[:at] + ((keys, new),) + content[at + there:]


def heap_order(kind, left, right):
    """-1, 0 or 1: the fields that the kind names, and then the others."""
    fields = kind[4]
    named = [(fields.index(field), down) for field, down in kind[3]]
    for at, down in named + [(at, False) for at in range(len(fields)) if at not in [it for it, _ in named]]:
        x, y = key(left[2][at]), key(right[2][at])
        if x != y:
            return (-1 if x < y else 1) * (-1 if down else 1)
    return 0


def judged(kind, content):
    """Whether all sums of a content fit their types."""
    if kind[0] == "Sum":
        return LEAST <= content <= MOST if kind[1] == "INT" else 0 <= content <= WIDEST
    if kind[0] == "Avg":
        return LEAST <= content[0] <= MOST
    if kind[0] in ("Map", "Group"):
        return all(judged(part, it) for _, held in content for part, it in zip(parts_of_kind(kind), held))
    return True


def value_of(kind, content):
    """The value that an expression reads."""
    if kind[0] in ("Sum", "Min", "Max"):
        return ("I" if kind[1] == "INT" else "U", content)
    if kind[0] == "Avg":
        return ("A", Fraction(content[0], content[1]) if content[1] else Fraction(0))
    if kind[0] in PLAIN:
        return ("B" if kind[0] in ("Or", "And") else "I", content)
    return ("C", kind, content)


def content_of(kind, value):
    """The content that `=` gives a kind of one value."""
    if kind[0] not in PLAIN:
        raise ValueError(kind)
    return converted(value, wanted(kind))[1]


def got(kind, content, keys):
    """What `get` gives."""
    types = [kind[1]] if kind[0] == "Map" else [it[0] for it in kind[1]]
    keys = tuple(converted(it, type_) for it, type_ in zip(keys, types))
    held = dict(content).get(keys) or tuple(opening(it) for it in parts_of_kind(kind))
    if kind[0] == "Map":
        return value_of(kind[2], held[0])
    return ("R", {name: value_of(part, it) for (part, name), it in zip(kind[2], held)})


def holds_key(kind, content, keys):
    types = [kind[1]] if kind[0] == "Map" else [it[0] for it in kind[1]]
    return tuple(converted(it, type_) for it, type_ in zip(keys, types)) in dict(content)


def key_text(value, world):
    text = shown(value, world)
    return world.vertices[value[1]]["id"] if value[0] == "V" else value[1] if value[0] == "S" else text


def shown(value, world):
    """The JSON text of a value."""
    letter = value[0]
    if letter == "C":
        return content_shown(value[1], value[2], world)
    if letter == "T":
        return objected((name, shown(it, world)) for name, it in zip(world.fields[value[1]], value[2]))
    texts = {"I": str, "U": str, "B": lambda it: "true" if it else "false", "S": quoted, "A": fraction_text}
    texts |= {"D": lambda it: quoted(moment_text(it)), "V": lambda it: quoted(world.vertices[it]["id"])}
    return texts[letter](value[1])


def content_shown(kind, content, world):
    if kind[0] == "Map":
        return objected((key_text(keys[0], world), shown(value_of(kind[2], held[0]), world)) for keys, held in content)
    if kind[0] == "Group":
        names = [it[1] for it in kind[1] + kind[2]]
        rows = [list(keys) + [value_of(part[0], it) for part, it in zip(kind[2], held)] for keys, held in content]
        return listed(objected(zip(names, (shown(it, world) for it in row))) for row in rows)
    return listed(shown(it, world) for it in content)
