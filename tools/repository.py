"""What the tools know of the repository: its crates, its sources and its programs."""
import hashlib
import os
import re
import subprocess
import tempfile

TOP = os.path.dirname(os.path.dirname(os.path.realpath(__file__)))
PROGRAM = "gq_main"
# The program that the last build or gate left here, and the sums of what it was built from, which the launcher reads.
BUILT, NOTE = f"crates/{PROGRAM}/out/{PROGRAM}", f"crates/{PROGRAM}/out/built.txt"


class NotAProgram(Exception):
    """A file that should be a program isn't one."""


def crates():
    """The line of each crate of crates.txt, and what it lists of the repository's own crates."""
    lines = {}
    with open(f"{TOP}/crates.txt", encoding="utf-8") as it:
        for line in it:
            head, colon, tail = line.split("#")[0].partition(":")
            if colon:
                lines[head.split()[0]] = (line, tail.split())
    return {name: (line, [it for it in listed if it in lines]) for name, (line, listed) in lines.items()}


def below(name, listed):
    """The crates that a crate stands on, lowest first, and the crate itself last."""
    found = []

    def visit(crate):
        for it in listed[crate][1]:
            if it not in found:
                visit(it)
        found.append(crate)

    visit(name)
    return found


def source_files():
    """The paths of all sources, from the repository's top, in the order of their bytes: src/, specs/ and proofs/ of each crate but those of tests."""
    found = [it for it in ("crates.txt", "HANDLES") if os.path.isfile(f"{TOP}/{it}")]
    for crate in os.listdir(f"{TOP}/crates"):
        for part in ("src", "specs", "proofs") if not crate.endswith("_tests") else ():
            for at, _, names in os.walk(f"{TOP}/crates/{crate}/{part}"):
                paths = (os.path.join(at, it) for it in names)
                found += [os.path.relpath(it, TOP) for it in paths if os.path.isfile(it) and not os.path.islink(it)]
    return sorted(found, key=os.fsencode)


def sums_of_sources():
    """The sum of the sources' contents and paths, and that of the list which `git ls-files -s` gives of them. The launcher takes the same sums."""
    read, listed = hashlib.sha256(), hashlib.sha256()
    for path in source_files():
        with open(f"{TOP}/{path}", "rb") as it:
            data = it.read()
            mode = "100755" if os.fstat(it.fileno()).st_mode & 0o100 else "100644"
        blob = hashlib.sha1(b"blob %d\0" % len(data) + data).hexdigest()
        read.update(f"{hashlib.sha256(data).hexdigest()}  {path}\n".encode())
        listed.update(f"{mode} {blob} 0\t{path}\n".encode())
    return read.hexdigest(), listed.hexdigest()


def program_of(words):
    """The program that is meant by the words `--program FILE`, else the one that the launcher runs, or None; then it was said why there is none."""
    if words[:1] == ["--program"]:
        if words[1:] and os.path.isfile(words[1]) and os.access(words[1], os.X_OK):
            return os.path.abspath(words[1])
        print(f"{words[1] if words[1:] else '--program'}: no program that can be run")
        return None
    ran = subprocess.run([f"{TOP}/gsql", "--which"], stdin=subprocess.DEVNULL, stdout=subprocess.PIPE)
    return os.fsdecode(ran.stdout).rstrip("\n") if ran.returncode == 0 else None


def put(path, data, mode=0o644):
    """Puts a file in its place below the repository's top, in one piece."""
    path = os.path.join(TOP, path)
    os.makedirs(os.path.dirname(path), exist_ok=True)
    made, room = tempfile.mkstemp(dir=os.path.dirname(path), prefix=".new-")
    try:
        with os.fdopen(made, "wb") as it:
            it.write(data)
        os.chmod(room, mode)
        os.replace(room, path)
    except OSError:
        os.remove(room)
        raise


def needed_glibc(program):
    """The newest version of glibc that a program names, as 2.34."""
    if program[:5] != b"\x7fELF\x02" or int.from_bytes(program[18:20], "little") != 62:
        raise NotAProgram("the file that was built is no program for x86-64 Linux")
    return f"2.{max((int(it) for it in re.findall(rb'GLIBC_2[.]([0-9]+)', program)), default=0)}"


def note_built(program, sums):
    """Writes beside the program that was built here which sources it is of."""
    text = f"program {hashlib.sha256(program).hexdigest()}\nsources {sums[0]}\nlisting {sums[1]}\nglibc {needed_glibc(program)}\n"
    put(NOTE, text.encode())
