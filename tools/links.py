#!/usr/bin/env python3
"""Looks for links of pages that lead nowhere, and for paths of the repository that pages name and that are not there. A path with
NAME in it stands for several. Also looks up the numbers of decisions: each that the code or a page cites stands in one page, as the
start of a paragraph, and the index of docs/profile.md has each number in the row that links to its page.

usage: tools/links.py PAGE..

The last line is 'N passed, M failed', of links, paths and numbers.
"""
import glob
import os
import re
import sys

LINK = re.compile(r"\]\(([^)#\s]*)(#[^)\s]*)?\)")
PATH = re.compile(r"`((?:[a-z_]+/)+(?:src|specs|proofs|must-fail|data)/[A-Za-z0-9_/]+\.(?:rt|antt|edit|txtar|cases))`")


DECISION = re.compile(r"^\s*(?:- )?\*\*(\d+)\. ", re.MULTILINE)
CITED = re.compile(r"\bdecisions? (\d+(?:(?:, | and )\d+)*)")
ROW = re.compile(r"^\| \[[^\]]*\]\(([^)#]*)#?[^)]*\) \| ([\d ]+) \|$", re.MULTILINE)


def headings(page):
    """The anchors of a page's headings."""
    with open(page, encoding="utf-8") as it:
        lines = [line[line.index(" ") + 1:].strip() for line in it if re.match(r"#+ ", line)]
    return {re.sub(r"[^\w\- ]", "", line.lower()).replace(" ", "-") for line in lines}


def missing(page, top):
    """What a page names, and whether it is there."""
    with open(page, encoding="utf-8") as it:
        text = it.read()
    for target, anchor in LINK.findall(text):
        if "://" in target:
            continue
        file = os.path.normpath(os.path.join(os.path.dirname(page), target)) if target else page
        found = os.path.exists(file) and (not anchor or (file.endswith(".md") and anchor[1:] in headings(file)))
        yield target + anchor, found
    for path in PATH.findall(text):
        if "NAME" not in path:
            yield path, os.path.exists(f"{top}/crates/{path}") or os.path.exists(f"{top}/{path}")


def numbers(top):
    """Each number of a decision that is cited, stated or in the index, and whether it stands where the index says, and nowhere else."""
    index = f"{top}/docs/profile.md"
    stated, rows, cited = {}, {}, set()
    for path in glob.glob(f"{top}/*.md") + glob.glob(f"{top}/docs/*.md") + glob.glob(f"{top}/crates/*/README.md"):
        with open(path, encoding="utf-8") as it:
            for number in DECISION.findall(it.read()):
                stated.setdefault(int(number), []).append(path)
    with open(index, encoding="utf-8") as it:
        for target, found in ROW.findall(it.read()):
            page = os.path.normpath(os.path.join(f"{top}/docs", target)) if target else index
            rows.update((int(number), page) for number in found.split())
    for path in glob.glob(f"{top}/crates/*/s[rp]*/**/*.[ra]*t", recursive=True) + [it for pages in stated.values() for it in pages]:
        with open(path, encoding="utf-8") as it:
            cited.update(int(number) for found in CITED.findall(it.read()) for number in re.findall(r"\d+", found))
    for number in sorted(cited | set(stated) | set(rows)):
        yield number, number in rows and stated.get(number) == [rows[number]]


def main(pages):
    top = os.path.dirname(os.path.dirname(os.path.abspath(__file__)))
    passed = failed = 0
    found = [(page, *it) for page in pages for it in missing(page, top)]
    found += [("docs/profile.md", f"decision {number}", there) for number, there in numbers(top)]
    for page, name, there in found:
        passed, failed = passed + there, failed + (not there)
        if not there:
            print(f"{page}: {name} is not there")
    print(f"{passed} passed, {failed} failed")
    return 1 if failed else 0


if __name__ == "__main__":
    if len(sys.argv) < 2:
        sys.exit(__doc__)
    sys.exit(main(sys.argv[1:]))
