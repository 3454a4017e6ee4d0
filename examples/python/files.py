"""What the library makes of the forks and scripts of examples, and what the program prints or writes of them: the same.

usage: files.py LIBRARY PROGRAM [EXAMPLES]      (the folder of examples of this repository)

Each fork is read, listed, printed as source and made anew; each of its resources is given, printed, set and taken out. Each script is
replayed, and its zone is shown after some of its lines. Files and scripts at fault are refused, and change nothing but the fault. The
last line is 'N passed, M failed', of comparisons.
"""
import ctypes
import os
import subprocess
import sys
import tempfile
from ctypes import byref, c_size_t

import macmem

PARAM_ERR = -50
SIZE = 2048
NEW = b"set from Python"
BAD_SCRIPTS = {1: b"FreeMem\nFreeMen\n", 2: b"NewHandle a\n", 3: b"grow g\nNewHandle a 1\nend\n", 4: b"FreeMem\n" + b"#" * 65536 + b"\n"}
# Data that are said to be compressed (1), and a resource whose name is not ASCII.
SOURCE = b"data 'PICT' (1, $01) { $\"0102\" };\ndata 'STR ' (2, \"Caf\x8e\", purgeable) { $\"0141\" };\n"
BAD_SOURCE = b"data 'STR ' (128) {\n$\"00\"\n}\n"


class Comparison:
    """What the library gave beside what the program gave, and how often that was the same."""

    def __init__(self, library, program, folder):
        self.library, self.program, self.folder = library, program, folder
        self.passed = self.failed = 0

    def same(self, what, given, wanted):
        if given == wanted:
            self.passed += 1
        else:
            self.failed += 1
            print(f"{what}: library {given!r:.200}, program {wanted!r:.200}")

    def run(self, *words):
        """What the program prints."""
        return subprocess.run([self.program, *map(str, words)], stdout=subprocess.PIPE, stderr=subprocess.STDOUT).stdout

    def file(self, name, text):
        """A file of these bytes."""
        path = os.path.join(self.folder, name)
        with open(path, "wb") as it:
            it.write(text)
        return path

    def written(self, *words):
        """The file that the program writes; its path comes last in the arguments."""
        path = os.path.join(self.folder, "written")
        if os.path.exists(path):
            os.remove(path)
        self.run(*words, path)
        return read(path)

    def text(self, what, wanted, name, *words):
        """Compares bytes that the library makes."""
        self.same(what, self.library.text(name, *words), (0, wanted))

    def refused(self, what, code, fault, name, *words):
        """A refused call returns a code, tells a fault (the line, the code and whether the second file is at fault), and changes nothing else."""
        out, length, has = ctypes.create_string_buffer(b"#" * 16, 16), c_size_t(77), macmem.Fault(7, 7, True)
        given = getattr(self.library.c, f"macmem_{name}")(*macmem.counted(words), out, 16, byref(length), byref(has))
        self.same(what, (given, (has.line, has.code, has.second), out.raw, length.value), (code, fault, b"#" * 16, 77))


def read(path):
    with open(path, "rb") as it:
        return it.read()


def room_is_kept(c, path, file):
    """A call writes no more than it has room for, and gives the length of all."""
    whole = c.library.text("fork_listing", file)[1]
    room = len(whole) // 2 + 1
    out, length, fault = ctypes.create_string_buffer(b"#" * len(whole), len(whole)), c_size_t(), macmem.Fault()
    code = c.library.c.macmem_fork_listing(file, len(file), out, room, byref(length), byref(fault))
    c.same(f"half of the listing of {path}", (code, out.raw, length.value), (0, whole[:room] + b"#" * (len(whole) - room), len(whole)))


def whole_fork(c, path, file):
    """What is said and made of a fork as a whole."""
    lines = c.run("map", "--text", "--utf8", "--verbose", path).splitlines(keepends=True)
    at = next(i for i, line in enumerate(lines) if line.startswith(b"map "))
    c.text(f"what {path} is", b"".join(lines[:at]), "fork_info", file)
    c.text(f"the listing of {path}", b"".join(lines[at + 1 :]), "fork_listing", file)
    c.same(f"the state of {path}", c.library.words("fork_check", file), (0, c.run("check", "--why", path).partition(b"\t")[2].rstrip(b"\n")))
    for typed, words in ((True, ()), (False, ("--data",))):
        source = c.run("derez", "--utf8", *words, path)
        c.text(f"the source of {path}", source, "fork_derez", file, typed)
        c.text(f"the fork of the source of {path}", c.written("rez", c.file("source.r", source)), "fork_rez", source)
    for wrapped, words in ((True, ()), (False, ("--bare",))):
        c.text(f"{path} made anew", c.written("rewrite", *words, path), "fork_rewrite", file, wrapped)
    room_is_kept(c, path, file)


def resources(c, path, file):
    """Each resource of a fork."""
    _, rows = c.library.rows(file)
    told = [line.decode().split() for line in c.run("map", path).splitlines()[1:]]
    given = [[f"${row.kind:08x}", str(row.id), str(row.attrs), str(row.size), row.has_name] for row in rows]
    c.same(f"the resources of {path}", given, [[*it[:4], it[4] != "-"] for it in told])
    new = c.file("new", NEW)
    for row in rows:
        key, words = (row.kind, row.id), (path, f"${row.kind:08x}", row.id)
        what = " ".join(map(str, words))
        c.text(f"the bytes of {what}", c.run("get", *words), "fork_get", file, *key)
        for typed, more in ((True, ()), (False, ("--data",))):
            c.text(f"the statement of {what}", c.run("show", "--utf8", *more, *words), "fork_show", file, *key, typed)
        statement = c.run("show", "--utf8", "--data", *words).replace(b"$\"", b"$\"00 ", 1)
        stated = c.file("statement.r", statement)
        for wrapped, more in ((True, ()), (False, ("--bare",))):
            c.text(f"{what} set", c.written("set", *more, *words, new), "fork_set", file, *key, NEW, wrapped)
            c.text(f"{what} stated", c.written("set", "--rez", *more, *words, stated), "fork_state", file, *key, statement, wrapped)
            c.text(f"{what} taken out", c.written("remove", *more, *words), "fork_remove", file, *key, wrapped)


def two_forks(c, first, second):
    """How two forks differ."""
    lines = c.run("diff", "--utf8", first, second)
    c.same(f"{first} and {second}", c.library.diff(read(first), read(second)), (0, (lines, lines != b"")))


def files_at_fault(c, file):
    """Files that can't be read, and what is not there."""
    kind, fault = int.from_bytes(b"ABCD", "big"), macmem.FILE_FAULT
    c.refused("no such resource", fault, (0, -192, False), "fork_get", file, kind, 1)
    c.refused("no such resource to take out", fault, (0, -192, False), "fork_remove", file, kind, 1, True)
    c.refused("no such resource to print", fault, (0, -192, False), "fork_show", file, kind, 1, True)
    c.refused("a damaged fork", fault, (0, -199, False), "fork_listing", file[:100])
    c.refused("no bytes", fault, (0, -39, False), "fork_rewrite", b"", True)
    c.refused("a faulty source", fault, (3, 0, False), "fork_rez", BAD_SOURCE)
    c.refused("a faulty statement", fault, (3, 0, True), "fork_state", file, int.from_bytes(b"STR ", "big"), 128, BAD_SOURCE, True)
    path = c.file("bad.r", BAD_SOURCE)
    c.same("the faulty line of a source", c.library.words("source_faults", BAD_SOURCE), (0, c.run("lint", path).replace(path.encode() + b":", b"")))
    c.same("a source without fault", c.library.words("source_faults", b"/* */"), (0, b""))


def script(c, path):
    """A script, and its zone after some lines."""
    text = read(path)
    c.text(f"the transcript of {path}", c.run("script", SIZE, path), "script_transcript", SIZE, text)
    lines = text.count(b"\n")
    for line in {0, 1, lines // 2, lines}:
        shown = "--at", line, SIZE, path
        c.text(f"the list of {path} after {line}", c.run("heap", *shown), "script_list", SIZE, line, text)
        c.text(f"the picture of {path} after {line}", c.run("heap", "--svg", *shown), "script_picture", SIZE, line, text)
    for first, last in {(1, lines), (lines // 2, lines // 2 + 1)}:
        steps = "--steps", f"{first}..{last}", SIZE, path
        c.text(f"the words of {path}, {first} to {last}", c.run("heap", "--text", *steps), "script_words", SIZE, first, last, text)
        c.text(f"the steps of {path}, {first} to {last}", c.run("heap", "--svg", *steps), "script_steps", SIZE, first, last, text)
    c.same(f"the faults of {path}", c.library.words("script_faults", text), (0, c.run("lint", path).replace(path.encode() + b":", b"")))


def scripts_at_fault(c):
    """Scripts that can't be run, and sizes that no zone has."""
    for code, text in BAD_SCRIPTS.items():
        path = c.file("bad.script", text)
        line = int(c.run("script", SIZE, path).split(b"line ")[1].split(b":")[0])
        for name, words in (("script_transcript", ()), ("script_list", (1,)), ("script_picture", (1,)), ("script_steps", (1, 2)), ("script_words", (1, 2))):
            c.refused(f"{name} of fault {code}", macmem.FILE_FAULT, (line, code, False), name, SIZE, *words, text)
        c.same(f"the lines of fault {code}", c.library.words("script_faults", text), (0, c.run("lint", path).replace(path.encode() + b":", b"")))
    two = b"".join(BAD_SCRIPTS[code] for code in (1, 2))
    path = c.file("bad.script", two)
    c.same("two faulty lines", c.library.words("script_faults", two), (0, c.run("lint", path).replace(path.encode() + b":", b"")))
    for size in (0, 511, 513, 134217744):
        c.refused(f"a partition of {size} bytes", PARAM_ERR, (7, 7, True), "script_transcript", size, b"FreeMem\n")


def main():
    library, program = macmem.Library(sys.argv[1]), os.path.abspath(sys.argv[2])
    examples = sys.argv[3] if len(sys.argv) > 3 else os.path.dirname(os.path.dirname(os.path.abspath(__file__)))
    names = [os.path.join(folder, name) for folder, _, names in sorted(os.walk(examples)) for name in sorted(names)]
    forks = [it for it in names if it.endswith((".rsrc", ".bin"))]
    with tempfile.TemporaryDirectory() as folder:
        c = Comparison(library, program, folder)
        for path in [*forks, c.file("made.rsrc", c.written("rez", c.file("made.r", SOURCE)))]:
            whole_fork(c, path, read(path))
            resources(c, path, read(path))
            two_forks(c, forks[0], path)
        files_at_fault(c, read(os.path.join(examples, "Document.rsrc")))
        for path in names:
            if path.endswith(".script"):
                script(c, path)
        scripts_at_fault(c)
    print(f"{c.passed} passed, {c.failed} failed")
    return 1 if c.failed else 0


if __name__ == "__main__":
    sys.exit(main())
