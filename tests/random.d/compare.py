"""Runs a case by the program and by the reference, compares, makes a case that differs smaller, and keeps it."""
import copy
import json
import os
import re
import shutil
import signal
import time

from script import Reference, script_text

# Of these each case has the first, and two others by its number.
SHAPES = ((1, 1000, 16), (4, 1, 1), (7, 3, 256), (2, 2, 2), (64, 1, 16), (3, 5, 7), (4, 1024, 16), (64, 7, 64), (5, 1, 255))
OTHERS = len(SHAPES) - 1
SECONDS = 300
# Signals that a shell ignores for what runs in its background, and so would the program: here it gets them as any other program does.
SIGNALS = (signal.SIGINT, signal.SIGQUIT, signal.SIGHUP, signal.SIGTERM, signal.SIGUSR1)
# How a script may end of which is known only that it can be read. A name of a file in it may be that of a folder, or one with a byte 0: status 3.
ENDS_OF_READ = (0, 1, 3)
# What is said of a script that can't be read.
READING = re.compile(rb'"(line \d+: (not UTF-8|bad token|open comment|open text|number too big|nested too deep|syntax error)|arguments unreadable|missing file )')


def shapes_of(seed):
    """The words of the three shapes in which a case runs."""
    first, second = seed % OTHERS, (seed // OTHERS) % (OTHERS - 1)
    chosen = (SHAPES[0], SHAPES[1 + first], SHAPES[1 + (first + 1 + second) % OTHERS])
    return [["--workers", str(workers), "--chunk", str(chunk), "--stripes", str(stripes)] for workers, chunk, stripes in chosen]


class Difference:
    """What the program gave where the reference gave another thing."""

    def __init__(self, wanted, got, words):
        self.wanted, self.got, self.words = wanted, got, words

    def class_(self):
        """What stays the same while a case is made smaller: the message of each side without its numbers, or that there is none."""
        return tuple((it[1], message(it[0])) for it in (self.wanted, self.got))

    def told(self):
        lines = [it[0].split(b"\n") for it in (self.wanted, self.got)]
        at = next((at for at, pair in enumerate(zip(*lines)) if pair[0] != pair[1]), 0)
        sides = [f"status {it[1]} {text[at][:1500].decode(errors='replace')}" for it, text in zip((self.wanted, self.got), lines)]
        return f"{' '.join(self.words)}\n  reference {sides[0]}\n  program   {sides[1]}"


def message(data):
    found = re.search(rb'"error":true,"message":"(?:line \d+: )?(.*)"', data)
    return re.sub(rb"[\d@]+", b"", found.group(1)) if found else None


def words_of(case):
    if "words" in case:
        return case["words"]
    if "sample" in case:
        return ["--sample", str(case["sample"])]
    words = ["--args", "args.json"] if case["args"] is not None else []
    return words + (["--turns", str(case["turns"])] if case["turns"] else []) + ["script.gsql"]


def write(case, folder):
    """Writes the inputs of a case into a folder that has nothing else."""
    os.makedirs(folder, exist_ok=True)
    for name in os.listdir(folder):
        os.remove(os.path.join(folder, name))
    files = dict(case["files"], **{"script.gsql": case["bytes"] if "bytes" in case else script_text(case)[0].encode()})
    if case["args"] is not None:
        files["args.json"] = args_text(case["args"], case["seed"])
    for name, data in files.items():
        if name != {"script": "script.gsql", "args": "args.json"}.get(case.get("lacks")):
            with open(os.path.join(folder, name), "wb") as it:
                it.write(data)


def args_text(args, seed):
    """The file of arguments: the bytes, or the JSON text of an object, in one of several spellings."""
    how = ({}, {"indent": 1}, {"separators": (",", ":")}, {"separators": (" ,\t", "\r\n: ")})[seed % 4]
    return args if isinstance(args, bytes) else json.dumps(args, ensure_ascii=seed % 3 == 0, **how).encode()


class Late(Exception):
    """A run takes too long."""


def late(*_):
    raise Late()


def ran(program, words, folder, more=None):
    """What the program prints in a folder, and its status: negative where a signal ended it, None where it took too long. `more` is for its environment."""
    signal.signal(signal.SIGALRM, late)
    printed = os.path.join(os.path.dirname(folder), "printed")
    actions = [(os.POSIX_SPAWN_OPEN, 0, "/dev/null", os.O_RDONLY, 0), (os.POSIX_SPAWN_OPEN, 2, "/dev/null", os.O_WRONLY, 0),
               (os.POSIX_SPAWN_OPEN, 1, printed, os.O_WRONLY | os.O_CREAT | os.O_TRUNC, 0o600)]
    os.chdir(folder)
    child = os.posix_spawn(program, [program, *words], dict(os.environ, **more or {}), file_actions=actions, setsigdef=SIGNALS)
    signal.alarm(SECONDS)
    try:
        status = os.waitstatus_to_exitcode(os.waitpid(child, 0)[1])
    except Late:
        # It may have ended meanwhile, where this process was stopped.
        ended, status = os.waitpid(child, os.WNOHANG)
        if ended:
            status = os.waitstatus_to_exitcode(status)
        else:
            os.kill(child, signal.SIGKILL)
            os.waitpid(child, 0)
            status = None
    signal.alarm(0)
    with open(printed, "rb") as it:
        return it.read(), status


def difference(program, case, room, shapes=None, wanted=None):
    """The first difference of a case, or None."""
    folder = os.path.join(room, "case")
    write(case, folder)
    wanted = wanted or Reference(case).run()
    for shape in [[]] if "words" in case else shapes or shapes_of(case["seed"]):
        words = shape + words_of(case)
        got = ran(program, words, folder)
        if wanted is None and got[1] in ENDS_OF_READ and not READING.search(got[0]):
            wanted = got
        if got != wanted:
            return Difference(wanted or (b"is read", 0), got, words)
    return None


ERRORS = os.path.join(os.path.dirname(os.path.dirname(os.path.dirname(os.path.realpath(__file__)))), "docs", "errors.md")


def parts(node):
    """What a case has, by a word for each: statements, clauses and accumulators."""
    if isinstance(node, dict):
        if "kind" in node:
            yield node["kind"][0] + "Accum"
        if "k" in node:
            yield {"feed": "+=", "attfeed": ".@ +=", "attput": ".@ =", "put": "@@ ="}.get(node["k"], node["k"])
        if node.get("k") == "select":
            yield from (name for name in ("where", "accum", "post", "having", "order", "limit") if node[name])
            if node["hop"]:
                yield f"path of {len(node['hop']['steps'])}" if "steps" in node["hop"] else "hop"
    for it in node.values() if isinstance(node, dict) else node if isinstance(node, (list, tuple)) else ():
        yield from parts(it)


def refusals():
    """The refusals of docs/errors.md by the headings of that page, each with what its messages look like."""
    with open(ERRORS, encoding="utf-8") as it:
        heads = re.findall(r"^### (.*)$", it.read(), re.MULTILINE)
    return {it: re.compile(re.sub(r"\b[A-Z]\b", ".*", it).encode()) for it in heads if not it[0].isupper()}


REFUSALS = refusals()


def tally(seen, well, case, wanted):
    """Counts how cases end, and what those have that end well."""
    output, status = wanted or (b"", 1)
    if status == 0:
        for name in set(parts(case["script"])):
            well[name] = well.get(name, 0) + 1
    said = re.search(rb'"error":true,"message":"(?:line \d+: )?(.*)"', output)
    name = "end well" if status == 0 else "usage" if status == 2 else "are read" if not wanted else \
        next((head for head, form in REFUSALS.items() if form.fullmatch(said.group(1))), said.group(1).decode())
    seen[name] = seen.get(name, 0) + 1


def cuts(node, path=()):
    """The paths of what may be left out of a tree: elements of lists of dicts, optional clauses, and expressions that a part of them may replace."""
    if isinstance(node, dict):
        for name, it in node.items():
            if name in ("where", "accum", "post", "having", "order", "limit", "else", "hop", "default", "as", "gap", "spelled") and it:
                yield path + (name,), None
            yield from cuts(it, path + (name,))
    elif isinstance(node, list):
        for at in reversed(range(len(node))):
            yield path + (at,), "out"
        for at, it in enumerate(node):
            yield from cuts(it, path + (at,))
    elif isinstance(node, tuple):
        for at, it in enumerate(node):
            if isinstance(it, tuple) and node and isinstance(node[0], str) and it and isinstance(it[0], str):
                yield path, it
            yield from cuts(it, path + (at,))


def changed(node, path, new):
    """The tree with one thing other."""
    if not path:
        return new
    at = path[0]
    if isinstance(node, tuple):
        return node[:at] + (changed(node[at], path[1:], new),) + node[at + 1:]
    node = copy.copy(node)
    if len(path) == 1 and new == "out":
        del node[at]
    elif len(path) == 1 and path[0] == "gap":
        node[at] = ""
    else:
        node[at] = changed(node[at], path[1:], new)
    return node


def tries_of(case):
    """Smaller cases: without some rows of a file, and without parts of the script."""
    if "bytes" in case:
        data = case["bytes"]
        for size in (len(data) // 2, len(data) // 4, len(data) // 8, 16, 4, 1):
            for at in range(0, len(data), size) if size else ():
                yield dict(case, bytes=data[:at] + data[at + size:])
        return
    count = len(case["script"])
    for size in (count // 2, count // 4, 1):
        for at in range(0, count, size) if size else ():
            yield dict(case, script=case["script"][:at] + case["script"][at + size:])
    for path, new in cuts(case["script"]):
        yield dict(case, script=changed(case["script"], path, new))
    for name, data in case["files"].items():
        rows = re.split(rb"(?<=\n)|(?<=\r)(?!\n)", data)
        for at in reversed(range(len(rows))):
            yield dict(case, files=dict(case["files"], **{name: b"".join(rows[:at] + rows[at + 1:])}))


def smaller(program, case, found, room, seconds):
    """A smaller case that differs in the same way, and its difference."""
    end, again = time.monotonic() + seconds, True
    while again:
        again = False
        for it in tries_of(case):
            if time.monotonic() > end:
                return case, found
            try:
                other = difference(program, it, room, [found.words[:6]])
            except Exception:  # a cut that leaves no case: the reference doesn't know a name, or no text has the tree
                continue
            if other and other.class_() == found.class_():
                case, found, again = it, other, True
                break
    return case, found


def keep(case, found, folder):
    """Writes a case in the form of tests/cases; the folder."""
    where = os.path.join(folder, f"random-{case['seed']}")
    shutil.rmtree(where, ignore_errors=True)
    write(case, where)
    also = "\n".join("\t".join(shape + words_of(case)) for shape in shapes_of(case["seed"])) + "\n"
    texts = {"words": "\n".join(words_of(case)).encode(), "expected": found.wanted[0], "status": str(found.wanted[1]).encode(), "also": also.encode()}
    for name, data in texts.items():
        with open(os.path.join(where, name), "wb") as it:
            it.write(data)
    return where
