"""gsql-explain as one file, which runs with gsql beside it and needs nothing else of the repository: release/gsql-explain.

It is an archive that Python runs, with the files in the places that they have here. Nothing in it depends on when and where it was made, or on the
compression of a version of Python: the files are stored as they are, in the order of their names, with one time.
"""
import io
import os
import re
import zipfile

from repository import TOP

PACKED = "release/gsql-explain"
PAGE = "docs/language.md"


def grammar(page):
    """What tools/language.py reads of the page: the reserved words and the grammar."""
    reserved = re.search(r"These words are reserved.*?and `_`", page, re.DOTALL).group()
    return f"{reserved}\n{re.search(r'^## Grammar$.*?(?=^## |$(?![^$]))', page, re.DOTALL | re.MULTILINE).group()}"


def packed():
    """The bytes of release/gsql-explain."""
    explain = "tools/explain.d"
    names = ["tools/language.py", "tools/records.py", *(f"{explain}/{it}" for it in os.listdir(f"{TOP}/{explain}") if it.endswith(".py"))]
    files = {}
    for name in ["gsql-explain", PAGE, *names]:
        with open(f"{TOP}/{name}", encoding="utf-8") as it:
            files[name] = it.read()
    files["__main__.py"] = files.pop("gsql-explain")
    files[PAGE] = grammar(files[PAGE])
    room = io.BytesIO(b"#!/usr/bin/env python3\n")
    room.seek(0, io.SEEK_END)
    with zipfile.ZipFile(room, "w", zipfile.ZIP_STORED) as archive:
        for name in sorted(files):
            entry = zipfile.ZipInfo(name, (1980, 1, 1, 0, 0, 0))
            entry.create_system, entry.external_attr = 3, 0o100644 << 16
            archive.writestr(entry, files[name].encode())
    return room.getvalue()
