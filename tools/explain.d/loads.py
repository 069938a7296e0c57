"""Which records a LOAD leaves out, and why; and vertices that only edges name."""
import os
import re

from names import near
from records import is_readable, records_of

MOST_SHOWN, MOST_BYTES = 10, 200_000_000


class Ids:
    """The ids of each vertex type that LOADs and INSERTs of vertices name, and those at the ends of edges, each with the first place in a file."""

    def __init__(self):
        self.own, self.of_edges, self.loaded = {}, {}, set()

    def add(self, type_, kind, value):
        self.own.setdefault(type_, set()).add(self.plain(kind, value))

    def add_end(self, type_, kind, value, place):
        self.of_edges.setdefault(type_, {}).setdefault(self.plain(kind, value), place)

    @staticmethod
    def plain(kind, value):
        return value if kind == "STRING" else int(value)

    def lines(self):
        """What is said of types whose vertices are loaded, where edges name others."""
        said = []
        for type_ in sorted(self.loaded):
            made = {value: place for value, place in self.of_edges.get(type_, {}).items() if value not in self.own[type_]}
            if made:
                value, (path, start) = next(iter(made.items()))
                shown = value.decode(errors="replace") if isinstance(value, bytes) else value
                with open(path, "rb") as it:
                    number = it.read(start).count(b"\n") + 1
                more = f" ({len(made) - 1} more made so)" if len(made) > 1 else ""
                said.append(f"{path}:{number}: no record of vertices has the {type_} `{shown}`: this edge makes it{more}")
        return said


def of_script(names, text, tokens, trees):
    """What is said of all RUN LOADING JOB of a script, in order."""
    said, ids = [], Ids()
    for it in trees:
        tree = it.parts[0]
        if getattr(tree, "name", None) == "RunJob":
            for line, path in files_of(names, tree):
                said += of_path(names, line, path, ids)
        elif getattr(tree, "name", None) == "Insert":
            type_ = names.types.get(names.words(tree)[2], {})
            if type_.get("kind") == "vertex":
                value = tree.trees("Literal")[0]
                ids.add(names.words(tree)[2], type_["id"][1], plain_id(names, value))
    return said + ids.lines()


def plain_id(names, tree):
    """The id that a literal is."""
    text = "".join(names.word(at) for at in range(tree.start, tree.end))
    return (plain(text) if text.startswith('"') else text).encode()


def loads_of(names, job):
    """The LOADs of a job: of each its tree, the path or name of its file, and the paths of DEFINEs by name."""
    paths, found = {}, []
    for line in job.trees("Line"):
        words = names.words(line)
        if words[0].upper() == "DEFINE":
            paths[words[2]] = plain(words[4]) if len(words) > 4 else None
        else:
            found.append((line, words[1]))
    return found, paths


def plain(text):
    """What a text token says."""
    return text[1:-1].replace('\\"', '"').replace("\\t", "\t").replace("\\n", "\n").replace("\\r", "\r").replace("\\\\", "\\")


def path_of(word, paths, using):
    return plain(word) if word.startswith('"') else using.get(word, paths.get(word))


def options_of(names, line):
    return {names.word(it.start).upper(): plain(names.word(it.end - 1)) for it in line.trees("Opt")}


def files_of(names, run):
    """The LOADs of a RUN LOADING JOB, each with the path of its file."""
    words = names.words(run)
    job = names.jobs.get(words[3])
    if job is None:
        return []
    using = dict(zip(words[5::4], (it.strip('"') for it in words[7::4])))
    found, paths = loads_of(names, job)
    return [(line, path_of(word, paths, using)) for line, word in found]


def unread(names, trees):
    """The files of a script's jobs that can't be read, and why."""
    said = []
    for it in trees:
        for _, path in files_of(names, it.parts[0]) if getattr(it.parts[0], "name", None) == "RunJob" else []:
            try:
                with open(path or os.devnull, "rb") as file:
                    file.read(1)
            except OSError as fault:
                said.append(f"{path}: {fault.strerror}")
    return list(dict.fromkeys(said))


def of_path(names, line, path, ids):
    """What is said of the records of a file; nothing where it isn't there or is too large to be read here."""
    if not path or not os.path.isfile(path) or os.path.getsize(path) > MOST_BYTES:
        return []
    with open(path, "rb") as it:
        return of_file(names, line, path, it.read(), ids)


def values_of(names, dest):
    """The columns of a destination with what is wanted of each: its name, its type, and whether it has a default."""
    type_ = names.types.get(names.words(dest)[2])
    if type_ is None:
        return None, []
    if type_["kind"] == "vertex":
        wanted = [(*type_["id"], False)]
    else:
        ids = [names.types.get(it, {}).get("id", ("id", "STRING"))[1] for it in type_["ends"]]
        wanted = [("from", ids[0], False), ("to", ids[1], False)] + [(name, of, False) for name, of in type_["told"]]
    wanted += [(name, of, True) for name, of in type_["attributes"] if not (type_["kind"] == "vertex" and type_["shown"] and name == type_["id"][0])]
    return type_, wanted


def column_of(names, col, header):
    """The number of a column, or None for a default."""
    word = names.word(col.end - 1)
    if word == "_":
        return None
    return header.get(plain(word).encode()) if word.startswith('"') else int(word)


def of_file(names, line, path, data, ids):
    """What is said of the records of a file that are left out."""
    options = options_of(names, line)
    quote = {"double": b'"', "single": b"'"}.get(options.get("QUOTE", "").lower())
    records = records_of(data, options.get("SEPARATOR", ",").encode(), quote)
    header = {}
    if options.get("HEADER", "").lower() == "true":
        for at, (_, name) in reversed(list(enumerate(next(records, (0, 0, []))[2]))):
            header[name] = at
    routes, keys = [], []
    for dest in line.trees("Dest"):
        type_, wanted = values_of(names, dest)
        columns = [column_of(names, col, header) for col in dest.trees("Col")]
        routes += [(column, *want) for column, want in zip(columns, wanted)]
        keys += keys_of(names, names.words(dest)[2], type_, columns)
    ids.loaded |= {type_ for type_, _, _, is_end in keys if not is_end}
    found = []
    for start, end, fields in records:
        fault = fault_of(routes, fields)
        if fault:
            found.append((start, end, fault))
        else:
            add_keys(ids, keys, fields, (path, start))
    lines = [] if quote else cut_in_quotes(path, data, options.get("SEPARATOR", ","))
    for start, end, fault in found[:MOST_SHOWN]:
        number = data.count(b"\n", 0, start) + 1
        lines.append(f"{path}:{number}: {fault}")
        lines.append(f"      | {data[start:min(end, start + 150)].decode(errors='replace')}")
    if len(found) > MOST_SHOWN:
        lines.append(f"{path}: and {len(found) - MOST_SHOWN} more records that are left out")
    return lines


def keys_of(names, name, type_, columns):
    """The ids that a destination takes: of each its vertex type, the type of the id, its column, and whether it is an edge's end."""
    if type_ is None or None in columns[:2]:
        return []
    if type_["kind"] == "vertex":
        return [(name, type_["id"][1], columns[0], False)]
    return [(end, names.types.get(end, {}).get("id", ("", "STRING"))[1], column, True) for end, column in zip(type_["ends"], columns)]


def add_keys(ids, keys, fields, place):
    for type_, kind, column, is_end in keys:
        if is_end:
            ids.add_end(type_, kind, fields[column][1], place)
        else:
            ids.add(type_, kind, fields[column][1])


def cut_in_quotes(path, data, separator):
    """What is said of the first field in quotes that is cut at a separator, since its LOAD has no QUOTE."""
    mark = re.escape(separator.encode())
    first = re.search(rb'(?:^|%s)"[^"\n]*%s[^"\n]*"(?:%s|\r?$)' % (mark, mark, mark), data, re.MULTILINE)
    if first is None:
        return []
    number = data.count(b"\n", 0, first.end()) + 1
    shown = first.group().decode(errors="replace").strip(separator + "\r\n")
    return [f'{path}:{number}: {shown} is cut at its separator and keeps its quotes: the LOAD has no QUOTE="double"']


def fault_of(routes, fields):
    """Why a record is left out, or None."""
    most = max((it[0] for it in routes if it[0] is not None), default=-1)
    if most >= len(fields):
        return f"short: it has {len(fields)} fields, and VALUES asks for field {most + 1} (${most})"
    for column, name, type_name, has_default in routes:
        if column is not None and not is_readable(fields[column][1], type_name, has_default):
            value = fields[column][1].decode(errors="replace")
            return f"unreadable: field {column + 1} (${column}), `{value}`, is no {type_name} for {name}"
    return None


def no_column(name, line_of, names, job, using):
    """What the files of a job have in place of a column."""
    found, paths = loads_of(names, job)
    said = []
    for line, word in found:
        if f'"{name}"' not in [names.word(it.end - 1) for it in line.all("Col")]:
            continue
        path, options = path_of(word, paths, using), options_of(names, line)
        if options.get("HEADER", "").lower() != "true":
            said.append(f'The LOAD of {path} has no HEADER="true", so its columns have no names: $0, $1 ..')
            continue
        separator = options.get("SEPARATOR", ",")
        with open(path, "rb") as it:
            first = it.readline().decode(errors="replace").strip("\ufeff\r\n")
        columns = first.split(separator)
        said.append(f"The columns of {path} are: " + ", ".join(f"`{it}`" for it in columns))
        like = near(name, columns)
        if like:
            said.append("Near it: " + ", ".join(like))
        other = next((it for it in (";", "\t", "|", ",") if it != separator and it in first), None)
        if len(columns) == 1 and other:
            said.append(f'That is one column, with {"tabs" if other == chr(9) else other} in it: SEPARATOR="{chr(92) + "t" if other == chr(9) else other}"?')
    return said
