#!/usr/bin/env python3
"""Builds the library for C as docs/c.md says, and runs the callers of examples/c and examples/python.

usage: tools/c_library.py [--build] [--keep FOLDER] LIBRARY.a PROGRAM [CALLS]      (100,000 random calls)

- examples/c/stale_pointer.c prints what stale_pointer.out has: linked with the library, and with the library as it is shared.
- The same under the address and undefined-behaviour sanitizers, which also say what is not freed.
- examples/c/refused.c refuses each allocation of the library in turn.
- examples/python/random_calls.py compares the library's calls with the program's, and examples/python/files.py what both make of files
  and scripts.

With --build the library is proved and built first, over the libraries below it that `rt ci` proved and left in their folders `out`. Its proof
is kept in `out/incremental`, where tools/page.py finds it.
What can't be had (gcc, a sanitizer, ctypes) is skipped, and a line says so. With --keep what is built stays in a folder.
The last line is 'N passed, M failed', of builds and runs.
"""
import os
import shutil
import subprocess
import sys
import tempfile

NAME = "macmem_c"
INCLUDE, C, PYTHON = "include", "examples/c", "examples/python"
WARNINGS = ["-std=c11", "-Wall", "-Wextra", "-Wpedantic", "-Werror", "-O2"]
SANITIZERS = "-fsanitize=address,undefined"
WRAPPED = "-Wl,--wrap=malloc,--wrap=realloc,--wrap=free"
SECONDS = 600


def run(*words, **more):
    """Runs a command; returns its status and what it prints."""
    how = {"stdout": subprocess.PIPE, "stderr": subprocess.STDOUT, "text": True, "timeout": SECONDS, **more}
    done = subprocess.run(words, **how)
    return done.returncode, done.stdout


def kit():
    """The folder of Rattle's kit."""
    _, page = run("rt", "doc")
    return os.path.dirname(page.strip().splitlines()[-1])


def heap_of_the_kit():
    """The kit's object for a library's allocations, over malloc, realloc and free."""
    return os.path.join(kit(), "c", "liblibc_c.a")


def needed():
    """Each crate of the repository with the libraries that its line names."""
    with open("crates.txt", encoding="utf-8") as it:
        lines = [line.partition("#")[0].strip() for line in it]
    named = [line.partition(":") for line in lines if line]
    return {head.split()[0]: rest.split() for head, _, rest in named}


def libraries(folder):
    """The words that name each library that the library for C stands on, as it was built: the repository's and the kit's."""
    own = needed()
    below, words = list(own[NAME]), ["-L", f"dependency={folder}/rlibs"]
    for name in below:
        below += [it for it in own.get(name, []) if it not in below]
        if name in own:
            words += ["-L", f"dependency=../{name}/out/rlib"]
    for name in ["std", *own[NAME]]:
        room = f"../{name}/out/rlib" if name in own else f"{folder}/rlibs"
        words += ["--extern", f"{name}={room}/{name}.rlib"]
    return words


def build(library):
    """Proves the library and builds it, over libraries that were proved; returns the status and what is printed."""
    folder = kit()
    os.makedirs(f"crates/{NAME}/out/incremental", exist_ok=True)
    words = ["--crate-name", NAME, "src/lib.rt", "--crate-type", "staticlib", "--links", f"{NAME}="]
    words += [*libraries(folder), "--jobs", os.environ.get("RT_JOBS", "1")]
    words += ["--antt-project", f"{folder}/rattle/logic/antt-project.json", "--logic-built", f"{folder}/logic_built"]
    words += ["--toolchain", f"{folder}/toolchain", "--backend", "llvm", "--incremental", "out/incremental", "-o", library]
    return run(f"{folder}/bin/rattle", "build", *words, cwd=f"crates/{NAME}", timeout=None)


class Work:
    """What was built and run, and how that went."""

    def __init__(self, library, folder):
        self.archives = [library, heap_of_the_kit()]
        self.folder = folder
        self.passed = self.failed = 0

    def judge(self, what, good, told):
        """Counts a build or a run; what it printed is printed where it is wrong."""
        if good:
            self.passed += 1
        else:
            self.failed += 1
            print(f"{what}: {told}")
        return good

    def path(self, name):
        return os.path.join(self.folder, name)

    def build(self, name, *words):
        """Builds a program or a library; returns its path, or nothing."""
        status, told = run("gcc", *WARNINGS, f"-I{INCLUDE}", *words, "-o", self.path(name))
        return self.path(name) if self.judge(f"building {name}", status == 0, told) else None

    def expect(self, program, wanted, **more):
        """Runs a program, which is to print a text."""
        if program:
            status, told = run(program, **more)
            self.judge(program, status == 0 and told == wanted, told)

    def end(self, *words):
        """Runs a program, whose last line is printed."""
        status, told = run(*words)
        if self.judge(" ".join(words), status == 0, told):
            print(told.splitlines()[-1])


def has_sanitizers(folder):
    """Reports whether gcc builds with the sanitizers, and what it builds runs."""
    source, program = os.path.join(folder, "empty.c"), os.path.join(folder, "empty")
    with open(source, "w", encoding="utf-8") as it:
        it.write("int main(void) { return 0; }\n")
    return run("gcc", SANITIZERS, source, "-o", program)[0] == 0 and run(program)[0] == 0


def has_ctypes():
    return run(sys.executable, "-c", "import ctypes")[0] == 0


def callers_in_c(work):
    """The callers in C."""
    with open(f"{C}/stale_pointer.out", encoding="utf-8") as it:
        wanted = it.read()
    source = f"{C}/stale_pointer.c"
    work.expect(work.build("stale_pointer", source, *work.archives), wanted)
    if has_sanitizers(work.folder):
        work.expect(work.build("stale_pointer_sanitized", SANITIZERS, "-g", source, *work.archives), wanted)
    else:
        print("skipped: gcc has no sanitizers here")
    refused = work.build("refused", f"{C}/refused.c", WRAPPED, *work.archives)
    if refused:
        work.end(refused)


def callers_of_the_shared_library(work, program, calls):
    """The callers that load the library as it is shared."""
    whole = ["-Wl,--whole-archive", work.archives[0], "-Wl,--no-whole-archive", work.archives[1]]
    shared = work.build("libmacmem.so", "-shared", *whole)
    if not shared:
        return
    linked = work.build("stale_pointer_shared", f"{C}/stale_pointer.c", f"-L{work.folder}", f"-Wl,-rpath,{work.folder}", "-lmacmem")
    with open(f"{C}/stale_pointer.out", encoding="utf-8") as it:
        work.expect(linked, it.read())
    if has_ctypes():
        work.end(sys.executable, f"{PYTHON}/random_calls.py", shared, program, calls)
        work.end(sys.executable, f"{PYTHON}/files.py", shared, program)
    else:
        print("skipped: Python has no ctypes here")


def main():
    words = sys.argv[1:]
    builds, kept = words[:1] == ["--build"], None
    if builds:
        words = words[1:]
    if words[:1] == ["--keep"]:
        kept, words = words[1], words[2:]
    library, program = (os.path.abspath(it) for it in words[:2])
    calls = words[2] if len(words) > 2 else "100000"
    if not shutil.which("gcc"):
        print("skipped: there is no gcc here")
        return 0
    if builds:
        status, told = build(library)
        if status:
            print(told)
            print("0 passed, 1 failed")
            return 1
    with tempfile.TemporaryDirectory() as folder:
        folder = kept or folder
        os.makedirs(folder, exist_ok=True)
        work = Work(library, os.path.abspath(folder))
        callers_in_c(work)
        callers_of_the_shared_library(work, program, calls)
    print(f"{work.passed} passed, {work.failed} failed")
    return 1 if work.failed else 0


if __name__ == "__main__":
    sys.exit(main())
