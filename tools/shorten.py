#!/usr/bin/env python3
"""Looks for shorter proofs: tries a tactic in the place of each clause, record, group and `let` in the proofs of a crate.

usage: tools/shorten.py [--only PATTERN] [--rounds N] [--most N] [--jobs N] CRATE

Each try is a copy of a definition, under another name, behind the definition itself: one check of the crate judges thousands of them,
and none stands on another. What is proved with fewer lines takes the definition's place; then the crate is checked as it stands, and
what fails is taken back. The files are as they were, or proved, when it ends; after an interrupt, `git checkout` the proofs.
`rt tidy` drops the imports that are not wanted any more.
"""
import argparse
import glob
import os
import re
import subprocess
from dataclasses import dataclass, field

WIDTH = 120
SIGNATURE = re.compile(r"^(\s*)(?:pub )?([^\s:(){}]+) :(?:\s|$)")
ERROR = re.compile(r"^\./(proofs/\S+?\.antt):(\d+):\d+: error(.*)")
WORD = re.compile(r"[^\s(){}\[\];,]+")
NO_NAMES = {"use", "mod", "pub", "module", "record", "data", "unfolding", "where", "let", "in", "--", "abbrev", "unfoldable"}
TACTICS = ("search rules", "grind arith", "omega arith")
WITH_LEMMAS = ("grind (arith, %s)", "search (rules, %s)", "omega (arith, %s)")


@dataclass
class Definition:
    """A definition of a file: the row of its signature, those of its first and last clause's ends, and its clauses."""
    name: str
    signature: int
    indent: int
    clauses: list = field(default_factory=list)

    @property
    def first(self):
        return self.clauses[0][0]

    @property
    def last(self):
        return self.clauses[-1][1]


@dataclass
class Try:
    """A text of a definition's clauses with fewer lines: the stretches that it replaces in the old text, and by what."""
    edits: list
    text: str
    holds: bool = True


def indent_of(line):
    return len(line) - len(line.lstrip(" "))


def goes_on(line, indent):
    return bool(line.strip()) and (indent_of(line) > indent or indent_of(line) == indent and line.strip()[0] in ")]}")


def end_of_clause(lines, row, indent):
    """The row behind the clause that begins in a row, with its `where` block."""
    row += 1
    where = False
    while row < len(lines):
        if goes_on(lines[row], indent):
            where = where or lines[row].strip() == "where"
            row += 1
            continue
        after = next((r for r in range(row, len(lines)) if lines[r].strip()), len(lines))
        if not where or after == row or after == len(lines) or indent_of(lines[after]) <= indent:
            return row
        row = after
    return row


def definitions(lines, nested=False):
    """The definitions of a file, in order; those in `where` blocks only if they are wanted."""
    found, row = [], 0
    while row < len(lines):
        match = SIGNATURE.match(lines[row])
        row += 1
        if not match or match.group(2) in NO_NAMES:
            continue
        it = Definition(match.group(2), row - 1, len(match.group(1)))
        while row < len(lines) and (goes_on(lines[row], it.indent) or lines[row].strip().startswith("unfolding ")):
            row += 1
        begins = re.compile(" " * it.indent + re.escape(it.name) + r"(\s|$)")
        while row < len(lines) and begins.match(lines[row]):
            end = end_of_clause(lines, row, it.indent)
            it.clauses.append((row, end - 1))
            row = end
        if it.clauses:
            found.append(it)
            row = it.first + 1 if nested else row
    return found


def head_and_body(text):
    """A clause up to its `=`, and what follows; nothing if there is none."""
    depth = 0
    for at, sign in enumerate(text):
        depth += (sign in "([{") - (sign in ")]}")
        if sign == "=" and depth == 0 and text[at - 1] in " \n" and text[at + 1:at + 2] in (" ", "\n", ""):
            return text[:at].rstrip(), text[at + 1:]
    return None


def joined(text):
    """The text with lines joined where both fit into one and the layout leaves them free."""
    lines = text.split("\n")
    out, starts = [lines[0]], {indent_of(lines[0])}
    for line in lines[1:]:
        last, now = out[-1].rstrip(), line.strip()
        if now == "where":
            starts.add(indent_of(line) + 2)
        fits = now and last.strip() and len(last) + 1 + len(now) <= WIDTH
        bound = (indent_of(line) in starts or now.startswith(("|", "--", "where", "]", "}", ")", "unfolding ")) or
                 last.lstrip().startswith(("--", "unfolding ")) or last.endswith((" in", "[", "{", "(", "where", ";", ",", "↦")) or
                 last.endswith("=") and now.startswith("let "))
        if fits and not bound:
            out[-1] = last + " " + now
        else:
            out.append(line)
    return re.sub(r"\b(grind|search|omega) \((arith|rules)\)", r"\1 \2", "\n".join(out))


def edited(text, edits):
    for start, end, new in sorted(edits, reverse=True):
        text = text[:start] + new + text[end:]
    return joined(text)


def brackets(text):
    """The places of each pair of brackets."""
    open_at, pairs = [], []
    for at, sign in enumerate(text):
        if sign in "([{":
            open_at.append(at)
        elif sign in ")]}" and open_at:
            pairs.append((open_at.pop(), at + 1))
    return pairs


def lets(text):
    """The stretch of each `let .. in`, with the blanks behind it."""
    open_at, found = [], []
    for word in WORD.finditer(text):
        if word.group() == "let":
            open_at.append(word.start())
        elif word.group() == "in" and open_at:
            end = word.end()
            found.append((open_at.pop(), end + len(text[end:]) - len(text[end:].lstrip(" \n"))))
    return found


def lemmas_of(lines):
    """The names of a file that may be lemmas: its own, and what it imports from proofs."""
    names = {it.name for it in definitions(lines)}
    for line in lines:
        use = re.match(r"use (\S+)\.\{(.*)\}", line)
        if use and ".proofs." in use.group(1):
            names |= {name.strip() for name in use.group(2).split(",") if "-" in name or "_" in name.strip("_") or
                      not use.group(1).endswith("proofs.Common")}
    return names


def tactics(text, lemmas):
    """The tactics that are tried in the place of a text, those with the lemmas that it cites among them."""
    cited = []
    for word in WORD.findall(text):
        name = word.split(".")[0]
        if name in lemmas and name not in cited and "◌" not in name:
            cited.append(name)
    return list(TACTICS) + [form % ", ".join(cited[:6]) for form in WITH_LEMMAS if cited]


def places(text, lines_of, lemmas):
    """Yields the stretches of a definition's text that may go, each with what is tried in its place."""
    for it in lines_of:
        for first, last in it.clauses:
            clause = "\n".join(text.split("\n")[first:last + 1])
            parts = head_and_body(clause) if last > first else None
            start = sum(len(line) + 1 for line in text.split("\n")[:first])
            for tactic in tactics(parts[1], lemmas) if parts else ():
                yield [(start, start + len(clause), "%s = %s" % (parts[0], tactic))]
    for start, end in brackets(text):
        before = text[:start].rstrip()
        if text[start] == "[" or "\n" not in text[start:end] and end - start < 40:
            continue
        if text[start] == "{":
            if not before.endswith("record"):
                continue
            start = len(before) - len("record")
        yield [(start, end, "_")]
        for tactic in tactics(text[start:end], lemmas):
            yield [(start, end, "(%s)" % tactic)]
    for start, end in lets(text):
        yield [(start, end, "")]


def tries_of(lines, it, lemmas, done):
    """The tries of a definition, those with the fewest lines first."""
    text = "\n".join(lines[it.first:it.last + 1])
    rows = [lines[it.signature]] + text.split("\n")
    inner = [Definition(d.name, 0, d.indent, [(a - 1, b - 1) for a, b in d.clauses]) for d in definitions(rows, nested=True)]
    widest = max([WIDTH] + [len(line) for line in text.split("\n")])
    found = []
    for edits in places(text, inner, lemmas - {it.name}):
        new = edited(text, edits)
        if new.count("\n") < text.count("\n") and new not in done and max(map(len, new.split("\n"))) <= widest:
            done.add(new)
            found.append(Try(edits, new))
    return sorted(found, key=lambda each: (each.text.count("\n"), len(each.text)))


def copy_of(lines, it, text, name):
    """The lines of a definition under another name, with other clauses."""
    head = list(lines[it.signature:it.first])
    head[0] = re.sub(r"(?:pub )?" + re.escape(it.name) + " :", lambda _: name + " :", head[0], count=1)
    begins = re.compile(r"(?<=^" + " " * it.indent + ")" + re.escape(it.name) + r"(?=\s|$)")
    return [""] + head + [begins.sub(lambda _: name, line) for line in text.split("\n")]


def with_imports(lines):
    """The lines with the two words that each tactic takes."""
    text = "\n".join(lines)
    names = set(WORD.findall("\n".join(line for line in lines if line.startswith("use "))))
    wanted = [w for w in ("arith", "rules") if w not in names and re.search(r"\b(grind|search|omega) \(?%s\b" % w, text)]
    at = next((row for row, line in enumerate(lines) if line.startswith("use ")), 0)
    return (lines[:at] + ["use Rattle.std.proofs.Common.{%s}" % ", ".join(wanted)] + lines[at:], bool(wanted)) if wanted else (lines, False)


def check(jobs):
    """The errors of a check, as (file, row, text), and whether it came to an end."""
    out = subprocess.run(["rt", "check", "--jobs", str(jobs)], capture_output=True, text=True, check=False).stdout
    errors = [(m.group(1), int(m.group(2)) - 1, m.group(3)) for m in map(ERROR.match, out.split("\n")) if m]
    return errors, "logic=" in out


def judge(files, jobs, depth=0):
    """Marks the tries that are not proved. `files` has for each path its lines, and its definitions with their tries."""
    spans = {}
    for path, (lines, todo) in files.items():
        out, spans[path] = [], []
        for row, line in enumerate(lines):
            out.append(line)
            for it, tries in todo:
                for number, each in enumerate(tries) if it.last == row else ():
                    start = len(out)
                    out += copy_of(lines, it, each.text, "%s-try%d" % (it.name, number)) if each.holds else []
                    spans[path].append((start, len(out), each))
        out, moved = with_imports(out)
        spans[path] = [(a + moved, b + moved, each) for a, b, each in spans[path]]
        write(path, out)
    errors, ended = check(jobs)
    blind = set()
    for path, row, text in errors:
        hit = [each for a, b, each in spans.get(path, ()) if a <= row < b]
        for each in hit:
            each.holds = False
        if path in files and (not hit or "-try" not in text):
            blind.add(path)
    for path, (lines, todo) in files.items():
        write(path, lines)
        if not ended or path in blind and depth == 3:
            forget(todo)
    if ended and blind and depth < 3:
        judge({path: files[path] for path in blind}, jobs, depth + 1)


def forget(todo):
    for _, tries in todo:
        for each in tries:
            each.holds = False


def write(path, lines):
    with open(path, "w", encoding="utf-8") as it:
        it.write("\n".join(lines))


def read(path):
    with open(path, encoding="utf-8") as it:
        return it.read().split("\n")


def best(text, tries):
    """All tries that hold and do not overlap, as one text, and the one that saves most."""
    edits = []
    for each in tries:
        if all(e <= s or f <= t for s, f, _ in each.edits for t, e, _ in edits):
            edits += each.edits
    return [edited(text, edits), tries[0].text]


def put_in(files):
    """Puts the best of what holds into the files. Returns, by path and name, the texts to fall back upon."""
    left = {}
    for path, (lines, todo) in files.items():
        new = list(lines)
        for it, tries in reversed(todo):
            good = [each for each in tries if each.holds]
            if good:
                text = "\n".join(lines[it.first:it.last + 1])
                left[path, it.name] = best(text, good) + [text]
                new[it.first:it.last + 1] = left[path, it.name].pop(0).split("\n")
        write(path, with_imports(new)[0])
    return left


def settle(files, left, jobs):
    """Takes back what does not hold where it now stands, until the crate is proved."""
    for _ in range(40):
        errors, ended = check(jobs)
        if not errors and ended:
            return
        taken = False
        for path in {path for path, _, _ in errors if path in files}:
            lines = read(path)
            for it in reversed(definitions(lines)):
                wrong = any(p == path and it.signature <= row <= it.last and "not checked" not in text for p, row, text in errors)
                if wrong and left.get((path, it.name)):
                    lines[it.first:it.last + 1] = left[path, it.name].pop(0).split("\n")
                    taken = True
            write(path, lines)
        if not taken:
            break
    for path, (lines, _) in files.items():
        write(path, lines)


def one_round(only, most, jobs, done):
    """Tries, puts in what holds, and returns the number of lines that went."""
    files = {}
    for path in sorted(glob.glob("proofs/**/*.antt", recursive=True)):
        if not re.search(only, path) or path.endswith("Invariants.antt"):
            continue
        lines = read(path)
        known = lemmas_of(lines)
        todo = [(it, tries_of(lines, it, known, done)[:most]) for it in definitions(lines) if it.last > it.first]
        todo = [(it, tries) for it, tries in todo if tries]
        if todo:
            files[path] = (lines, todo)
    judge(files, jobs)
    settle(files, put_in(files), jobs)
    return sum(len(lines) - len(read(path)) for path, (lines, _) in files.items())


def main():
    words = argparse.ArgumentParser(description="Looks for shorter proofs of a crate.")
    words.add_argument("crate", help="the crate's folder, proved as it stands")
    words.add_argument("--only", default="", help="a pattern of the paths that are gone over")
    words.add_argument("--rounds", type=int, default=3)
    words.add_argument("--most", type=int, default=12, help="tries of a definition in a round")
    words.add_argument("--jobs", type=int, default=2)
    given = words.parse_args()
    os.chdir(given.crate)
    done = set()
    for number in range(given.rounds):
        won = one_round(given.only, given.most, given.jobs, done)
        print("round %d: %d lines fewer" % (number + 1, won), flush=True)
        if won <= 0:
            break


if __name__ == "__main__":
    main()
