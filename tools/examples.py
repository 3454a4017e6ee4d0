#!/usr/bin/env python3
"""Runs the examples of pages and compares what they print with what the pages say.

usage: tools/examples.py PROGRAM PAGE..

An example is a block of a page (indented by four spaces, or between fences) of one of four forms:

- Its first line begins with `$ `. Such a line is a command, and the lines after it, up to the next one or to the end of the block,
  are what it prints. Commands are run by bash, one block after another in a folder of the page's own that has `examples/` and
  `tools/`, with PROGRAM as `macmem` on the path.
- Its fence is followed by `script SIZE`. The left column is then a script, and the column beside it, two spaces or more away, has the
  lines of its transcript without the first and the last; a third column is a remark.
- Its fence is followed by `script SIZE`, and the fence of the next block by `transcript`: the first is a script, and the second its
  transcript.
- Its fence is followed by `rez`: it is a source, of which `macmem rez` makes a fork. Where the fence of the next block is followed by
  `bytes`, that block is what the first resource of the fork holds, in hexadecimal.

The last line is 'N passed, M failed', of blocks.
"""
import os
import re
import shutil
import subprocess
import sys
import tempfile

SECONDS = 60


def blocks(text):
    """The number of the first line, the words after the fence, and the lines of each block of code."""
    found, fenced = [], False
    for number, line in enumerate(text.split("\n"), 1):
        if line.startswith("```"):
            fenced = not fenced
            if fenced:
                found.append((number + 1, line[3:].split(), []))
            continue
        if fenced:
            found[-1][2].append(line)
        elif line.startswith("    "):
            if not found or found[-1] is None:
                found.append((number, [], []))
            found[-1][2].append(line[4:])
            continue
        if not fenced and (not found or found[-1] is not None):
            found.append(None)
    return [it for it in found if it and it[2]]


def commands(lines):
    """Each command of a block, with what it is to print."""
    found = []
    for line in lines:
        if line.startswith("$ "):
            found.append((line[2:], []))
        else:
            found[-1][1].append(line + "\n")
    return [(command, "".join(told)) for command, told in found]


def columns(size, lines):
    """The command that runs the left column of a block as a script, and what it is to print."""
    parts = [re.split(r" {2,}", line) for line in lines]
    script = "\n".join(part[0] for part in parts)
    told = "".join(part[1] + "\n" for part in parts if len(part) > 1)
    return f"macmem script {size} /dev/stdin <<'END' | sed '1d;$d'\n{script}\nEND", told


def run(size, lines, transcript):
    """The command that runs the lines of a block as a script, and what it is to print."""
    return "macmem script %s /dev/stdin <<'END'\n%s\nEND" % (size, "\n".join(lines)), "".join(it + "\n" for it in transcript)


def source(lines, digits):
    """The command that makes a fork of the lines of a block, and what it is to print: of a resource, where its digits are told."""
    made = "fork=$(mktemp -u ./XXXXXX)\nmacmem rez /dev/stdin $fork <<'END'\n%s\nEND" % "\n".join(lines)
    if not digits:
        return made, ""
    got = "set -- $(macmem map $fork | sed -n 2p); macmem get $fork $1 $2 | od -An -v -tx1 | tr -d ' \\n'; echo"
    return f"{made}\n{got}", "".join("".join(digits).split()).lower() + "\n"


def examples(words, lines, next_words, next_lines):
    """The commands of a block, with what each is to print; none where the block is no example."""
    if words == ["rez"]:
        return [source(lines, next_lines if next_words == ["bytes"] else [])]
    if words[:1] == ["script"]:
        return [run(words[1], lines, next_lines) if next_words == ["transcript"] else columns(words[1], lines)]
    return commands(lines) if lines[0].startswith("$ ") else []


def fails(command, told, folder, path):
    """What differs, where something does."""
    try:
        ran = subprocess.run(["bash", "-c", command], cwd=folder, env={**os.environ, "PATH": path, "LANG": "C.UTF-8"},
                             stdin=subprocess.DEVNULL, stdout=subprocess.PIPE, stderr=subprocess.STDOUT, timeout=SECONDS)
    except subprocess.TimeoutExpired:
        return f"  $ {command}\n  had not ended after {SECONDS} seconds\n"
    said = ran.stdout.decode(errors="replace")
    if said == told:
        return None
    return f"  $ {command}\n  the page says:\n{told}  it prints:\n{said}"


def main(program, pages):
    top = os.path.dirname(os.path.dirname(os.path.abspath(__file__)))
    passed = failed = 0
    with tempfile.TemporaryDirectory(prefix="examples-") as room:
        os.mkdir(f"{room}/bin")
        os.symlink(os.path.abspath(program), f"{room}/bin/macmem")
        path = f"{room}/bin:{os.environ['PATH']}"
        for number, page in enumerate(pages):
            folder = f"{room}/{number}"
            shutil.copytree(f"{top}/examples", f"{folder}/examples")
            os.symlink(f"{top}/tools", f"{folder}/tools")
            with open(page, encoding="utf-8") as it:
                text = it.read()
            found = blocks(text)
            for (line, words, lines), (_, *after) in zip(found, found[1:] + [(0, [], [])]):
                known = examples(words, lines, *after)
                if not known:
                    continue
                wrong = [it for it in (fails(command, told, folder, path) for command, told in known) if it]
                passed, failed = passed + (not wrong), failed + bool(wrong)
                if wrong:
                    print(f"{page}:{line}: not as the page says", *wrong, sep="\n", end="")
    print(f"{passed} passed, {failed} failed")
    return 1 if failed or not passed else 0


if __name__ == "__main__":
    if len(sys.argv) < 3:
        sys.exit(__doc__)
    sys.exit(main(sys.argv[1], sys.argv[2:]))
