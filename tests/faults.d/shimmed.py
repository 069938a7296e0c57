"""Runs over calls of the C library that fail, one after another: by shim.c, which is loaded before the program."""
import errno
import os
import shutil
import signal
import struct
import subprocess
import sys

HERE = os.path.dirname(os.path.realpath(__file__))
sys.path.append(os.path.join(os.path.dirname(HERE), "random.d"))
from compare import ran, shapes_of, words_of, write
from making import made

READ_FAULT, WRITE_FAULT, NO_MEMORY = 3, 4, 5
KINDS = ("memory", "read", "write", "open", "thread", "close", "stack")
MANY = 1 << 40
# Signals that end the program, which handles none, and signals that don't.
ENDING = (signal.SIGTERM, signal.SIGUSR1, signal.SIGINT, signal.SIGHUP)
HARMLESS = (signal.SIGPIPE, signal.SIGCHLD, signal.SIGWINCH, signal.SIGCONT)

SCRIPTS = {
    "all kinds of accumulators": b"""CREATE VERTEX person (PRIMARY_ID id STRING, age INT, born DATETIME) WITH PRIMARY_ID_AS_ATTRIBUTE="true"
CREATE VERTEX city (PRIMARY_ID id INT, name STRING DEFAULT "none")
CREATE DIRECTED EDGE likes (FROM person, TO person, DISCRIMINATOR(at INT), w INT) WITH REVERSE_EDGE="liked_by"
CREATE UNDIRECTED EDGE lives (FROM person, TO city, since UINT)
CREATE GRAPH g (*)
CREATE LOADING JOB j FOR GRAPH g { DEFINE FILENAME f;
  LOAD "p.csv" TO VERTEX person VALUES ($"id", $"age", _) USING HEADER="true", QUOTE="double";
  LOAD f TO EDGE likes VALUES ($0, $1, $2, $3), TO EDGE lives VALUES ($0, $2, _) USING SEPARATOR=";"; }
RUN LOADING JOB j USING f="k.csv"
INSERT INTO city VALUES (7, "Graz")
INSERT INTO lives VALUES ("ada", 7, 1990)
CREATE QUERY q (INT n = 2, VERTEX<person> p, STRING said = "x") FOR GRAPH g {
  TYPEDEF TUPLE<INT w, STRING who> Pay;
  SumAccum<INT> @got, @@total; MinAccum<INT> @@least; MaxAccum<UINT> @@most; AvgAccum @@mean; OrAccum @@any; AndAccum @all; BitwiseOrAccum @@bits;
  SetAccum<STRING> @names; BagAccum<INT> @@ages; ListAccum<VERTEX> @@order; MapAccum<STRING, MapAccum<INT, SetAccum<INT>>> @@deep;
  GroupByAccum<STRING k, INT l, SumAccum<INT> sum, BagAccum<INT> ages> @@groups; HeapAccum<Pay>(3, w DESC, who) @@top; SetAccum<VERTEX<person>> @@seen;
  S = {person.*}; U = {p};
  T = SELECT t FROM S:s -(likes|liked_by:e)-> person:t WHERE e.w >= 0 AND s != t
      ACCUM t.@got += e.w, @@total += e.w, @@least += e.w, @@most += e.w, @@mean += e.w, @@any += e.w > 30, t.@all += TRUE, @@bits += e.w,
            t.@names += s.id + s, @@ages += s.age, @@deep += (s.id -> (e.w -> t.age)), @@groups += (t.id, n -> e.w, s.age), @@top += Pay(e.w, t.id), @@seen += t,
            IF e.w % 20 == 0 THEN s.@got += 1 ELSE t.@names += to_string(e.w) END
      POST-ACCUM t.@got = t.@got + t.@got', @@order += t
      HAVING t.@got > 1 ORDER BY t.@got DESC, t.id LIMIT 5;
  V = {person.*};
  WHILE n < 6 LIMIT 9 DO n = n + 1; V = T MINUS U; FOREACH x IN @@seen DO @@total += x.outdegree(); END; END;
  PRINT n, said, p, @@total, @@least, @@most, @@mean, @@any, @@bits, @@ages, @@order, @@deep, @@groups, @@top, @@seen, T, V[V.id AS id, V.@names AS names] AS few;
}
INSTALL QUERY ALL
RUN QUERY q(3, "ada")
RUN QUERY q
INTERPRET QUERY () FOR GRAPH g { PRINT datetime_add(to_datetime("2024-01-31"), 1, "MONTH") AS d, "a" + "b" AS t, 7 / 0 AS never; }
""".replace(b"s.id + s,", b"s.id,"),
    "paths": b"""CREATE VERTEX v (PRIMARY_ID id STRING)
CREATE DIRECTED EDGE pays (FROM v, TO v)
CREATE GRAPH g (v, pays)
CREATE LOADING JOB j FOR GRAPH g { LOAD "pays.csv" TO EDGE pays VALUES ($0, $1); }
RUN LOADING JOB j
INTERPRET QUERY () FOR GRAPH g SYNTAX v2 { SumAccum<INT> @ways; S = {v.*};
  T = SELECT t FROM S:s -(pays>)- v -(<pays|pays>)- v -(pays>:e)- v:t ACCUM t.@ways += 1; PRINT T; }
USE GRAPH nosuch
""",
}
FILES = {
    "all kinds of accumulators": {"p.csv": b'age,id\n36,ada\n40,"ben ""b"""\n,cyd\nx,bad\n', "k.csv": b"ada;cyd;1;10\ncyd;ada;1;20\nada;dan;2;30\nada;ada;3;40\nshort\ndan;cyd;7;50\n",
                                  "args.json": b'{"q": {"n": 4, "p": "cyd", "said": "a\\u0041", "more": [1, {"x": null}]}}'},
    "paths": {"pays.csv": b"a,b\nb,c\nc,a\na,c\nc,d\n"},
}


class Case:
    """A case in a folder, with what it gives where nothing fails, and its counts of calls."""

    def __init__(self, name, folder, program, words, shim):
        self.name, self.folder, self.program, self.words, self.shim = name, folder, program, words, shim
        self.counted = os.path.join(os.path.dirname(folder), "counts")
        with open(self.counted, "wb") as it:
            it.write(bytes(64))
        self.printed, self.status = self.run()
        with open(self.counted, "rb") as it:
            self.counts = dict(zip(KINDS, struct.unpack("7q", it.read(56))))

    def run(self, fault="", file=""):
        return ran(self.program, self.words, self.folder, {"LD_PRELOAD": self.shim, "GSQL_COUNTS": self.counted, "GSQL_FAULT": fault or "none 0 0 0", "GSQL_FILE": file})

    def is_end(self, got, status, whole_lines=False):
        """Whether a run ended with this status behind a beginning of what it would print."""
        printed, ended = got
        return ended == status and self.printed.startswith(printed) and not (whole_lines and printed and not printed.endswith(b"\n"))

    def is_all(self, got):
        return got == (self.printed, self.status)


def compiled(room):
    """The shim, or None where there is no compiler."""
    for name in ("cc", "gcc", "clang"):
        made_ = os.path.join(room, "shim.so")
        if shutil.which(name) and subprocess.run([name, "-O1", "-shared", "-fPIC", "-o", made_, os.path.join(HERE, "shim.c")]).returncode == 0:
            return made_
    return None


def cases(room, program, shim, random_ones):
    """The cases: written ones, a sample, and some of those that tests/random makes."""
    for name, script in SCRIPTS.items():
        folder = os.path.join(room, f"case-{name.replace(' ', '-')}")
        write({"seed": 0, "script": [], "files": FILES[name], "args": None, "bytes": script}, folder)
        for shape in (["--workers", "1"], ["--workers", "3", "--chunk", "1"]):
            words = shape + (["--args", "args.json"] if "args.json" in FILES[name] else []) + ["script.gsql"]
            yield Case(f"{name}, {' '.join(shape)}", folder, program, words, shim)
    folder = os.path.join(room, "case-sample")
    os.mkdir(folder)
    yield Case("a sample of 9", folder, program, ["--workers", "4", "--chunk", "1", "--sample", "9"], shim)
    for seed in random_ones:
        folder = os.path.join(room, f"case-{seed}")
        case = made(seed)
        write(case, folder)
        yield Case(f"random case {seed}", folder, program, (shapes_of(seed)[seed % 3] if "words" not in case else []) + words_of(case), shim)


def faults(case, step):
    """The faults of a case, each with its name, what fails, and a test of what comes of it."""
    for n in range(1, case.counts["memory"] + 1, step):
        yield f"memory is refused at call {n}", f"memory {n} {n} 0", lambda got: case.is_end(got, NO_MEMORY) or case.is_all(got)
    for n in range(1, case.counts["memory"] + 1, step * 7):
        yield f"memory is refused from call {n} on", f"memory {n} {MANY} 0", lambda got: case.is_end(got, NO_MEMORY) or case.is_all(got)
    for n in range(1, case.counts["read"] + 1):
        for bad in (errno.EIO, errno.EINTR, errno.EISDIR, errno.EAGAIN):
            yield f"read {n} fails with {errno.errorcode[bad]}", f"read {n} {n} {bad}", lambda got: case.is_end(got, READ_FAULT, True)
    for n in range(1, case.counts["write"] + 1):
        for bad in (errno.ENOSPC, errno.EPIPE, errno.EINTR, errno.EIO, errno.EAGAIN, errno.EDQUOT):
            yield f"write {n} fails with {errno.errorcode[bad]}", f"write {n} {n} {bad}", lambda got: case.is_end(got, WRITE_FAULT)
    for n in range(1, case.counts["open"] + 1):
        for bad, status in ((errno.EACCES, READ_FAULT), (errno.EMFILE, READ_FAULT), (errno.ENOMEM, NO_MEMORY)):
            yield f"open {n} fails with {errno.errorcode[bad]}", f"open {n} {n} {bad}", lambda got, status=status: case.is_end(got, status, True)
    for n in range(1, case.counts["thread"] + 1):
        yield f"thread {n} isn't started", f"thread {n} {n} {errno.EAGAIN}", lambda got: case.is_all(got) or case.is_end(got, NO_MEMORY)
    for n in range(1, case.counts["stack"] + 1):
        yield f"thread stack {n} isn't made", f"stack {n} {n} {errno.ENOMEM}", lambda got: case.is_all(got) or case.is_end(got, NO_MEMORY)
    for n in range(1, case.counts["close"] + 1):
        for bad in (errno.EIO, errno.EINTR):
            yield f"close {n} fails with {errno.errorcode[bad]}", f"close {n} {n} {bad}", case.is_all
    if case.counts["thread"]:
        yield "thread starts are all refused", f"thread 1 {MANY} {errno.EAGAIN}", lambda got: case.is_all(got) or case.is_end(got, NO_MEMORY)
    for most in (1, 3, 64):
        yield f"short calls, each of {most} bytes at most", f"cap 1 1 {most}", case.is_all
    for n in range(1, case.counts["read"] + case.counts["write"] + 1, 3):
        for sent in ENDING:
            yield f"signal {sent.name} comes at call {n}", f"raise {n} {n} {int(sent)}", lambda got, sent=sent: case.is_end(got, -sent)
        for sent in HARMLESS:
            yield f"signal {sent.name} comes at call {n}", f"raise {n} {n} {int(sent)}", case.is_all
    for at, n in enumerate(range(1, case.counts["memory"] + 1, step * 7)):
        sent = (ENDING + HARMLESS)[at % len(ENDING + HARMLESS)]
        # (with several threads a run may have fewer growths than the one in which they were counted)
        is_right = case.is_all if sent in HARMLESS else lambda got, sent=sent: case.is_end(got, -sent) or case.counts["thread"] and case.is_all(got)
        yield f"signal {sent.name} comes at growth {n}", f"strike {n} {n} {int(sent)}", is_right


PIECE = 65_536
CHANGING = b"""CREATE VERTEX v (PRIMARY_ID id STRING, n INT)
CREATE GRAPH g (v)
CREATE LOADING JOB j FOR GRAPH g { LOAD "v.csv" TO VERTEX v VALUES ($0, $1); }
RUN LOADING JOB j
INTERPRET QUERY () { SumAccum<INT> @@n; S = {v.*}; T = SELECT s FROM S:s ACCUM @@n += s.n; PRINT @@n, S.size() AS size; }
"""


def changes(room, program, shim):
    """Files that change while they are read: the name of each, what came of it, and what would come of a file that has been so from the start."""
    folder, rows = os.path.join(room, "case-changing"), b"".join(b"id%d,%d\n" % (n, n % 97) for n in range(20000))
    plain = {"seed": 0, "script": [], "args": None, "bytes": CHANGING}

    def over(data, fault):
        write(dict(plain, files={"v.csv": data}), folder)
        case = Case("changing", folder, program, ["script.gsql"], shim)
        return case.run(fault, os.path.join(folder, "v.csv")) if fault else (case.printed, case.status)

    for cut in (0, 1, PIECE - 1, PIECE, PIECE + 1, 100_000, len(rows), -1):
        for at in range(3, 8):
            # Read 1 is the script, read 2 its end; read 3 is the first of the file.
            been = min((at - 3) * PIECE, len(rows))
            data = rows + b"late,1\n" if cut < 0 else rows[:max(cut, been)]
            what = "grows" if cut < 0 else f"is cut to {cut} bytes"
            yield f"the file {what} before its read {at - 2}", over(rows, f"change {at} {at} {cut}"), over(data, "")
    script = b"BEGIN\n" * 30000 + b"INTERPRET QUERY () { PRINT 7; }\n"

    def as_script(data, fault):
        write({"seed": 0, "script": [], "args": None, "bytes": data, "files": {}}, folder)
        case = Case("changing", folder, program, ["script.gsql"], shim)
        return case.run(fault, os.path.join(folder, "script.gsql")) if fault else (case.printed, case.status)

    for cut in (0, PIECE, PIECE + 1, len(script) - 3, -1):
        for at in range(1, 5):
            data = script + b"late,1\n" if cut < 0 else script[:max(cut, min((at - 1) * PIECE, len(script)))]
            what = "grows" if cut < 0 else f"is cut to {cut} bytes"
            yield f"the script {what} before its read {at}", as_script(script, f"change {at} {at} {cut}"), as_script(data, "")
