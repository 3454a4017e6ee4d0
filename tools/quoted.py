#!/usr/bin/env python3
"""Compares the Rust that pages quote with the tests that are compiled.

usage: tools/quoted.py [PAGE..]      (without a page: crates/*/README.md and docs/*.md)

A block between a line "```rust" and the next line "```" is quoted: its lines stand one after another, with the same indentation
before each of them, in a .rt file of a crate of tests (crates/*_tests/src, crates/worked_*/src). A block that doesn't is
printed with the page and the number of its first line. The last line is 'N passed, M failed', of blocks.
"""
import glob
import os
import sys
import textwrap

PAGES = ("crates/*/README.md", "docs/*.md")
SOURCES = ("crates/*_tests/src/**/*.rt", "crates/worked_*/src/**/*.rt")


def matching(patterns, top):
    """The files under a folder that match one of the patterns, in order."""
    return sorted(it for pattern in patterns for it in glob.glob(f"{top}/{pattern}", recursive=True))


def lines_of(path):
    """The lines of a file, without blanks at their ends."""
    with open(path, encoding="utf-8") as it:
        return [line.rstrip() for line in it.read().split("\n")]


def quotes(lines):
    """The number of the first line, and the lines, of each block of Rust."""
    found, block = [], None
    for number, line in enumerate(lines, 1):
        if block is None and line.startswith("```"):
            block = (number + 1, [])
            if line[3:].strip() == "rust":
                found.append(block)
        elif line.startswith("```"):
            block = None
        elif block is not None:
            block[1].append(line)
    return found


def stands_in(block, lines):
    """Whether the lines of a block stand one after another among others, apart from a common indentation."""
    for start in range(len(lines) - len(block) + 1):
        window = lines[start:start + len(block)]
        if window[0].strip() == block[0].strip() and textwrap.dedent("\n".join(window)) == "\n".join(block):
            return True
    return False


def main(pages):
    top = os.path.dirname(os.path.dirname(os.path.abspath(__file__)))
    sources = [lines_of(it) for it in matching(SOURCES, top)]
    passed = failed = 0
    for page in pages or matching(PAGES, top):
        for number, block in quotes(lines_of(page)):
            block = textwrap.dedent("\n".join(block)).split("\n")
            if "".join(block) and any(stands_in(block, lines) for lines in sources):
                passed += 1
                continue
            failed += 1
            print(f"{page}:{number}: in no crate of tests", *("  " + line for line in block), sep="\n")
    print(f"{passed} passed, {failed} failed")
    return 1 if failed else 0


if __name__ == "__main__":
    sys.exit(main(sys.argv[1:]))
