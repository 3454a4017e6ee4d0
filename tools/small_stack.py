#!/usr/bin/env python3
"""Runs the program in a small stack, and compares what it does then with what it does in a large one.

usage: tools/small_stack.py PROGRAM

The scripts and forks of examples/ are run in 256 kB of stack, each script in a partition of 64 kB and in one of 128 MB. The job of
examples/, and one of 64 applications that run at once, are run in 512 kB. A run passes where it has the same status, prints the same
and writes the same files as in 64 MB of stack.
The last line is 'N passed, M failed', of runs.
"""
import glob
import os
import resource
import struct
import subprocess
import sys
import tempfile

SECONDS = 120
SCRIPT_STACK, JOB_STACK, LARGE_STACK = 256 * 1024, 512 * 1024, 64 * 1024 * 1024
PARTITIONS = ("65536", "134217728")
APPLICATIONS = 64
LINES = "NewHandle a 100\nPut a 0 \"abc\"\nMoreMasters\nWaitNextEvent\nHPurge a\nNewHandle b 400000\nMaxMem\nShow a\n"


def fork_without_resources():
    header = struct.pack(">IIII", 256, 256, 0, 30)
    return header + bytes(240) + header + bytes(8) + struct.pack(">HHH", 28, 30, 0xFFFF)


def many_applications(folder):
    """A job of applications that are all launched before the first of them runs."""
    names = ["a%d" % number for number in range(APPLICATIONS)]
    fork, script, job = (os.path.join(folder, name) for name in ("many.rsrc", "many.script", "many.job"))
    apps = "".join('app %s "%s" "%s"\n' % (name, fork, script) for name in names)
    launches = "".join("launch %s\n" % name for name in names)
    for path, data in (fork, fork_without_resources()), (script, LINES.encode()):
        with open(path, "wb") as file:
            file.write(data)
    with open(job, "w", encoding="utf-8") as file:
        file.write("memory %d\n%s%srest\n" % (524288 * APPLICATIONS, apps, launches))
    return job


def files_of(folder):
    return {path: open(path, "rb").read() for path in sorted(glob.glob("**", root_dir=folder, recursive=True))
            for path in [os.path.join(folder, path)] if os.path.isfile(path)}


def run(words, stack):
    """The status, what is printed, and the files that are left, of a run in so many bytes of stack."""
    def limited():
        resource.setrlimit(resource.RLIMIT_STACK, (stack, resource.getrlimit(resource.RLIMIT_STACK)[1]))
    with tempfile.TemporaryDirectory() as folder:
        out = os.path.join(folder, "out")
        done = subprocess.run([out if word == "OUT" else word for word in words], capture_output=True,
                              timeout=SECONDS, preexec_fn=limited, check=False)
        left = {os.path.relpath(path, folder): data for path, data in files_of(folder).items()}
        return done.returncode, done.stdout, done.stderr.replace(out.encode(), b"OUT"), left


def main(program):
    failed = 0
    with tempfile.TemporaryDirectory() as folder:
        scripts = sorted(glob.glob("examples/*.script"))
        runs = [([program, "script", size, script], SCRIPT_STACK) for script in scripts for size in PARTITIONS]
        runs += [([program, work, fork], SCRIPT_STACK) for fork in sorted(glob.glob("examples/*.rsrc")) for work in ("map", "check")]
        runs += [([program, "run", job, "OUT"], JOB_STACK) for job in ("examples/job/job", many_applications(folder))]
        for words, stack in runs:
            small, large = run(words, stack), run(words, LARGE_STACK)
            if small != large:
                failed += 1
                print("%s: in %d kB of stack it ends with %d and not with %d" % (" ".join(words[1:]), stack // 1024, small[0], large[0]))
    print("%d passed, %d failed" % (len(runs) - failed, failed))
    return 1 if failed else 0


if __name__ == "__main__":
    if len(sys.argv) != 2:
        sys.exit(__doc__)
    sys.exit(main(os.path.abspath(sys.argv[1])))
