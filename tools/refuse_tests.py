#!/usr/bin/env python3
"""Runs tests with the host's memory refused at one allocation after another: what a call leaves that is stopped.

usage: tools/refuse_tests.py [CRATE..]

Of each crate (library_tests and command_tests where none is named) the tests are run whose comment says 'This test is run with each
allocation refused in turn', by the program of tests that `rt ci` built. Its N-th allocation is refused, for each N until a run meets
no refusal: that allocation alone, so that a call may be made again. A run passes where its status is 0: the test has then nothing
against what the calls left. The last line is 'N passed, M failed', of runs; each that failed has a line.
"""
import os
import re
import subprocess
import sys
import tempfile

from refuse_memory import COUNTS, SECONDS, compiled

CRATES = "library_tests", "command_tests"
SAYS = "/// This test is run with each allocation refused in turn."
TEST = re.compile(r"(?:^///.*\n)*^" + re.escape(SAYS) + r"\n(?:^///.*\n)*^#\[test\]\nfn (\w+)", re.M)


def tests_of(crate):
    """The full names of a crate's tests that are to be run so."""
    folder = f"crates/{crate}/src"
    for name in sorted(os.listdir(folder)):
        with open(f"{folder}/{name}", encoding="utf-8") as it:
            yield from (f"{name.removesuffix('.rt')}::{test}" for test in TEST.findall(it.read()))


def run(program, test, library, number):
    """Runs a test with a refusal. Returns what is wrong, None where nothing is, and whether an allocation was refused."""
    with tempfile.NamedTemporaryFile(prefix="refuse-tests-") as counts:
        environment = {"LD_PRELOAD": library, "REFUSE_COUNTS": counts.name, "REFUSE_AT": str(number)}
        try:
            ran = subprocess.run([program, test], env=environment, stdin=subprocess.DEVNULL, stdout=subprocess.PIPE,
                                 stderr=subprocess.STDOUT, timeout=SECONDS)
            wrong = None if ran.returncode == 0 else f"status {ran.returncode}: {ran.stdout.decode(errors='replace').strip()}"
        except subprocess.TimeoutExpired:
            wrong = f"no end within {SECONDS} seconds"
        _, refused, *_ = COUNTS.unpack(counts.read() or bytes(COUNTS.size))
    return wrong, refused > 0


def swept(program, test, library):
    """What is wrong with each run of a test, up to the first that meets no refusal."""
    number, is_refused = 0, True
    while is_refused:
        number += 1
        wrong, is_refused = run(program, test, library, number)
        if wrong:
            print(f"{test}: allocation {number} refused: {wrong}")
        yield wrong


def main(crates):
    passed = failed = 0
    with tempfile.TemporaryDirectory(prefix="refuse-tests-") as room:
        library = compiled(room)
        for crate in crates:
            program = os.path.abspath(f"crates/{crate}/out/{crate}_tests")
            for test in tests_of(crate):
                wrongs = list(swept(program, test, library))
                print(f"{crate}: {test}: {len(wrongs)} runs")
                passed, failed = passed + wrongs.count(None), failed + len(wrongs) - wrongs.count(None)
    print(f"{passed} passed, {failed} failed")
    return failed > 0 or not passed


if __name__ == "__main__":
    os.chdir(os.path.dirname(os.path.dirname(os.path.abspath(__file__))))
    sys.exit(main(sys.argv[1:] or CRATES))
