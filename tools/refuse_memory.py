#!/usr/bin/env python3
"""Refuses the host's memory to the program, at one allocation after another, and judges what the program then prints and writes.

usage: tools/refuse_memory.py [--counts] [--all] PROGRAM [ARCHIVE..]

The inputs are the scripts and the forks of examples/, and the commands of the archives (crates/worked_commands) that are done and
have no absolute paths; with options those that print or take source, those that compare, and those that read a dump. Each is run whole, and compared with its archive. Then its N-th allocation is refused, for
each N until a run meets no refusal: once that allocation alone, and once each from that one on. A run passes where it is like the
whole one, or where its status is 1, it prints nothing, its standard error is the line 'macmem: no host memory', and it leaves what
it is to leave:

- Commands other than `run` leave nothing.
- `run` leaves nothing while it reads its input, and then just what has happened until the refusal: all that a job of the launches,
  steps and quits before it leaves with --bare, but for the lines `fork` of desk.log. These shorter jobs are run without a refusal, and
  their logs are to be fronts, by whole lines, of those of the whole run. Which events had happened is told by a run without a refusal, by
  --progress: it says after each event that it has happened, and as it says so the allocations until then are counted. Where all had
  happened, as a fork is put into its file, it may leave the first of the whole run's files, in the order in which they are written.

With --counts a line for each input has the number of its allocations, and how many refusals the program did not notice. Of an input
of more than 2000 allocations each thirty-first is refused, of each input others, and each of the last 500; with --all each. (Most of
them are those of the table of types, which each command on sources reads first.)
The last line is 'N passed, M failed', of runs; each that failed has a line.
"""
import collections
import glob
import hashlib
import multiprocessing
import os
import re
import shutil
import struct
import subprocess
import sys
import tempfile

SECONDS = 20
MOST, EACH, LAST = 2000, 31, 500
RUNS_OF_A_TASK = 40
NO_MEMORY = b"macmem: no host memory\n"
MODES = {"REFUSE_AT": "allocation {} refused", "REFUSE_FROM": "allocation {} and all later ones refused"}
OPTIONS = {"--counts", "--all"}
# What the library counts: allocations, refusals, writes to the standard error, and the allocations before each of these.
COUNTS = struct.Struct("131Q")
COMMANDS = "script", "heap", "zone", "lint", "run", "map", "check", "get", "extract", "set", "diff", "rewrite", "derez", "show", "rez"
# Commands that are tried with options too, but for those that are words alone.
WITH_OPTIONS = "derez", "show", "rez"
NAMED_OPTIONS = {"--rez", "--text", "--name", "--attrs", "--base", "--check", "--find"}
EVENTS = (b"launch", b"step", b"turn", b"quit", b"rest")
INPUTS = (b"system", b"app", b"file")
# Parts of an archive that say what its command does; a command with one of the first is not done, or is not compared here.
OTHERS = ("stderr", "stderr has", "stdout has", "progress")
WANTED = ("stdout", "asked", "status", "each may fail", *OTHERS)

# A command, with the files that it reads; and its status, what it is to print, and which files it is to write, where an archive says that.
Input = collections.namedtuple("Input", "name words files wanted")
# What a run did: its status, a text where there is none; what it printed; the files that it wrote, None where it wrote none; the
# numbers of its allocations and of its refusals; and the number of its allocations before each write to the standard error.
Run = collections.namedtuple("Run", "status out error files met refused before")
# What is known of an input. Of a job: the first and the last moment, that is number of events, after which these files are left,
# by their key; for each event how many allocations were asked for until it had happened; and the number of allocations within which
# the job must leave nothing, and that within which it may.
Known = collections.namedtuple("Known", "whole moments until must may")
# What is wrong with a run, None where nothing is; and whether it left anything, None where it did not stop.
Verdict = collections.namedtuple("Verdict", "wrong left")


# ---- Inputs ----

def repeated(line, first):
    """The lines that a line of an archive stands for, each with its number."""
    found = re.fullmatch(r"(\d+) times (?:by (\d+) )?(.*)", line)
    if not found:
        return [(line, first)]
    count, step, rest = int(found[1]), int(found[2] or 1), found[3]
    return [(rest, (first + number) * step) for number in range(count)]


def bytes_of_word(word, number):
    """The bytes of a word: `%`, COUNT*WORD, a text in quotes, or hexadecimal digits."""
    count, star, rest = word.partition("*")
    if word.startswith('"'):
        return word.strip('"').encode()
    if word == "%":
        return number.to_bytes(2, "big")
    if star:
        return bytes_of_word(rest, number) * int(count)
    return bytes.fromhex(word)


def bytes_of_words(text):
    lines = [it for line in text.splitlines() if not line.startswith("#") for it in repeated(line, 0)]
    return b"".join(bytes_of_word(word, number) for line, number in lines for word in line.split())


def text_of_line(line, number):
    found = re.fullmatch(r"(.*) and (\d+) zeros", line)
    line, zeros = (found[1], int(found[2])) if found else (line, 0)
    return line.replace("%", str(number)) + "0" * zeros + "\n"


def part_of(name, text):
    """The name and the bytes of a part of an archive."""
    if name.endswith(".hex"):
        return name[:-len(".hex")], bytes_of_words(text)
    if name.endswith(".lines"):
        lines = [it for line in text.splitlines() for it in repeated(line, 1)]
        return name[:-len(".lines")], "".join(text_of_line(*it) for it in lines).encode()
    return name, text.encode()


def read_archive(path):
    """The files of an archive; and its commands, each with the parts that say what it is to do."""
    with open(path, encoding="utf-8") as it:
        sections = re.split(r"^(\$ .*|-- .* --)\n", it.read(), flags=re.M)[1:]
    files, commands = {}, []
    for head, text in zip(sections[::2], sections[1::2]):
        if head.startswith("$ "):
            commands.append((head[2:], {}))
            continue
        name, content = part_of(head[3:-3], text)
        is_wanted = commands and (name in WANTED or name.startswith("> "))
        (commands[-1][1] if is_wanted else files)[name] = content
    return files, commands


def is_input(words, parts):
    """Whether a command is done, and is tried here."""
    if words[0] not in COMMANDS or any(it.startswith("/") for it in words) or any(it in parts for it in OTHERS):
        return False
    is_plain = words[0] in WITH_OPTIONS or all(not it.startswith("-") or it in NAMED_OPTIONS for it in words)
    return is_plain and int(parts.get("status", b"0")) == (words[0] in ("diff", "lint") and bool(parts.get("stdout")))


def inputs_of_archive(path):
    files, commands = read_archive(path)
    files = {path: content for path, content in files.items() if not path.startswith("/")}
    for line, parts in commands:
        words = [quoted or plain for quoted, plain in re.findall(r'"([^"]*)"|(\S+)', line)][1:]
        if is_input(words, parts):
            left = {os.path.normpath(name[2:]): content for name, content in parts.items() if name.startswith("> ")}
            wanted = int(parts.get("status", b"0")), parts.get("stdout", b""), left or None
            yield Input(f"{os.path.basename(path)}: {line}", words, files, wanted)


def inputs_of_examples(top):
    """The scripts of the examples, in a partition of the size that their first line names, or of 1024 bytes; and the forks."""
    for path in sorted(glob.glob(f"{top}/examples/*.script") + glob.glob(f"{top}/examples/*.rsrc")):
        content, name = content_of(path), os.path.relpath(path, top)
        size = re.match(rb"# In (\d+) bytes", content)
        script = ["script", size[1].decode() if size else "1024"]
        for words in [script] if path.endswith(".script") else [["map"], ["check"]]:
            yield Input(f"macmem {' '.join(words)} {name}", [*words, name], {name: content}, None)


# ---- Runs ----

def content_of(path):
    with open(path, "rb") as it:
        return it.read()


def put(path, content):
    os.makedirs(os.path.dirname(path), exist_ok=True)
    with open(path, "wb") as it:
        it.write(content)


def taken(folder, files):
    """The files that a run left in its folder beside those of its input, with which the folder is removed; None where it left
    neither a file nor a folder."""
    if set(os.listdir(folder)) == {path.split("/")[0] for path in files}:
        return None
    paths = {f"{at}/{name}" for at, _, names in os.walk(folder) for name in names}
    found = {os.path.relpath(path, folder): content_of(path) for path in paths}
    shutil.rmtree(folder)
    return {path: content for path, content in found.items() if path not in files}


def key_of(files):
    return frozenset((path, hashlib.sha256(content).hexdigest()) for path, content in files.items())


class Place:
    """Where a process runs the program: the program, the library that refuses, the inputs, and a folder."""

    def __init__(self, program, library, inputs, room):
        self.program, self.library, self.inputs, self.room = program, library, inputs, room

    def folder(self, number):
        """A folder of this process that has the files of an input."""
        folder = f"{self.room}/{os.getpid()}/{number}"
        if not os.path.isdir(folder):
            os.makedirs(folder)
            for path, content in self.inputs[number].files.items():
                put(f"{folder}/{path}", content)
        return folder

    def run(self, number, refusal, job=None, options=()):
        """Runs the command of an input with a refusal; with another job in place of its own, where one is given; and with options."""
        folder, words = self.folder(number), list(self.inputs[number].words)
        put(f"{folder}.counts", b"")
        if job is not None:
            words[1] = f"{folder}.job"
            put(words[1], job)
        words[1:1] = options
        environment = {"LD_PRELOAD": self.library, "REFUSE_COUNTS": f"{folder}.counts", **refusal}
        try:
            ran = subprocess.run([self.program, *words], cwd=folder, env=environment, stdin=subprocess.DEVNULL,
                                 capture_output=True, timeout=SECONDS)
            ended = ran.returncode, ran.stdout, ran.stderr
        except subprocess.TimeoutExpired:
            ended = f"no end within {SECONDS} seconds", b"", b""
        met, refused, writes, *before = COUNTS.unpack(content_of(f"{folder}.counts") or bytes(COUNTS.size))
        return Run(*ended, taken(folder, self.inputs[number].files), met, refused, before[:writes])


def settle(*parts):
    """Sets where this process runs the program."""
    global place
    place = Place(*parts)


# ---- Jobs ----

class Course:
    """Spells the events of a job as launches, steps and quits alone, by what its whole run left."""

    def __init__(self, order, files):
        logs = {os.path.basename(path): content.splitlines() for path, content in files.items()}
        self.launches = [line.split()[2] == b"0" for line in logs["desk.log"] if line.startswith(b"launch ")]
        self.calls = {name: [line.split() for line in logs.get(f"app-{name.decode()}.log", [])[1:]
                             if not line.startswith((b"+", b"end "))] for name in order}
        self.order, self.running, self.events = order, set(), []

    def launch(self, name):
        self.events.append(b"launch %s\n" % name)
        if self.launches.pop(0):
            self.running.add(name)

    def step(self, name):
        """A step. Returns its call; nothing where the application had none left, or does not run."""
        self.events.append(b"step %s\n" % name)
        calls = self.calls[name] if name in self.running else []
        _, call, code = calls.pop(0)[:3] if calls else (b"", b"", b"")
        if call in (b"", b"ExitToShell") or code == b"15":
            self.running.discard(name)
        return call

    def turn(self, name):
        while name in self.running and self.step(name) != b"WaitNextEvent":
            pass

    def quit(self, name):
        self.events.append(b"quit %s\n" % name)
        self.running.discard(name)

    def rest(self):
        while self.running:
            for name in self.order:
                self.turn(name)


def single_events(job, files):
    """The lines of a job above its events; and its events as launches, steps and quits alone, by what its whole run left."""
    lines = [(line + b"\n", line.split()) for line in job.split(b"\n") if line.strip()]
    course = Course([words[1] for _, words in lines if words[0] == b"app"], files)
    for _, words in lines:
        if words[0] in EVENTS:
            getattr(course, words[0].decode())(*words[1:])
    return b"".join(line for line, words in lines if words[0] in (b"memory", *INPUTS)), course.events


def idle_job(job):
    """A job of the same length that reads the same files, and in which nothing happens."""
    return re.sub(rb"^([ \t]*)launch\b", rb"\1quit  ", job, flags=re.M)


def broken_job(job):
    """A job of the same length whose last input is not there; none where it has no input."""
    paths = list(re.finditer(rb"^[ \t]*(?:%s)\b.*\"([^\"\n]*)\"" % b"|".join(INPUTS), job, re.M))
    return job[:paths[-1].start(1)] + b"-" * len(paths[-1][1]) + job[paths[-1].end(1):] if paths else None


def without_forks(files):
    """The files that a run left, without the lines of forks in desk.log."""
    def kept(content):
        return b"".join(line for line in content.splitlines(True) if not line.startswith(b"fork "))
    return {path: kept(content) if os.path.basename(path) == "desk.log" else content for path, content in files.items()}


def is_front(files, whole):
    """Whether the logs that a run left are fronts, by whole lines, of those of the whole run, with a transcript for each launch."""
    logs = {os.path.basename(path): (content, whole.get(path, b"")) for path, content in files.items() if path.endswith(".log")}
    desk = [line.split() for line in logs.get("desk.log", (b"", b""))[0].splitlines()]
    launched = {f"app-{words[1].decode()}.log" for words in desk if words[0] == b"launch" and words[2] == b"0"}
    fronts = all(one.startswith(log) and log[-1:] in (b"", b"\n") for log, one in logs.values())
    return fronts and logs.keys() == {"desk.log", *launched}


def moments_of(number, whole, head, events):
    """The moments of a job by what is left at them; and of each run for that what was wrong with it, None where nothing was."""
    moments, wrong = {}, []
    for moment in range(len(events) + 1):
        run = place.run(number, {}, head + b"".join(events[:moment]), ["--bare"])
        left = without_forks(run.files or {})
        right = run[:3] == (0, b"", b"") and is_front(left, without_forks(whole.files))
        wrong.append(None if right else f"the first {moment} events leave no front of what all leave: {ending(run)}")
        first, _ = moments.get(key_of(left), (moment, moment))
        moments[key_of(left)] = first, moment
    return moments, wrong


def counts_of(number, whole, head, events):
    """For each event of a job how many allocations were asked for until it had happened, counted as its whole run counts them; and
    what was wrong with the run for that, None where nothing was."""
    run = place.run(number, {}, head + b"".join(events), ["--progress"])
    reports = b"".join(b"macmem: %d of %d done\n" % (event, len(events)) for event in range(1, len(events) + 1))
    right = run[:4] == (0, b"", reports, whole.files) and len(run.before) == len(events)
    wrong = None if right else f"its {len(events)} events one by one do not leave what it leaves: {ending(run)}"
    return [met + whole.met - run.met for met in run.before], wrong


# ---- Judging ----

def ending(run):
    """How a run ended, for the reader of a failure."""
    if not isinstance(run.status, int):
        return run.status
    ended = f"status {run.status}" if run.status >= 0 else f"signal {-run.status}"
    return f"{ended}, {len(run.out)} bytes printed, on the standard error {run.error.decode(errors='replace').strip()!r}"


def parts_told(files, moments):
    """Of which moments each file that was left is, for the reader of a failure."""
    spans = {path: [span for key, span in moments.items() if (path, digest) in key] for path, digest in sorted(key_of(files))}
    parts = [f"{path} of {min(them)[0]} to {max(them)[1]}" if them else f"{path} of none" for path, them in spans.items()]
    return ", ".join(parts) or "an empty folder"


def is_begun(files, whole):
    """Whether the files that a run left are the logs of the whole run and the first of its forks, in the order of desk.log."""
    logs = {os.path.basename(path): path for path in whole if path.endswith(".log")}
    lines = [line.split() for line in whole[logs["desk.log"]].splitlines()] if "desk.log" in logs else []
    forks = [f"app-{words[1].decode()}-{words[2].decode()}.rsrc" for words in lines if words[0] == b"fork"]
    there = {os.path.basename(path) for path in files}
    same = all(whole.get(path) == content for path, content in files.items())
    return same and there == {*logs, *forks[:len(there) - len(logs)]}


def judge_left(known, run, number):
    """Judges what a run left that was stopped."""
    happened = sum(until < number for until in known.until)
    if run.files is None:
        may = not known.moments or (happened == 0 and number <= known.may)
        return Verdict(None if may else f"nothing is left, though {happened} events had happened", False)
    if number <= known.must:
        return Verdict("files are left, though the input was not read yet", True)
    if happened == len(known.until) and is_begun(run.files, known.whole.files):
        return Verdict(None, True)
    span = known.moments.get(key_of(run.files))
    if not span:
        return Verdict(f"what is left is of no one moment: {parts_told(run.files, known.moments)}", True)
    right = span[0] <= happened <= span[1]
    return Verdict(None if right else f"{happened} events had happened, and what is left is of {span[0]} to {span[1]}", True)


def judge(known, run, number):
    """Judges a run in which the allocation of this number was to be refused."""
    whole = known.whole
    if (run.refused > 0) != (number <= whole.met):
        return Verdict(f"{run.refused} refusals and {run.met} allocations, of {whole.met} in the whole run", None)
    if run[:4] == whole[:4]:
        return Verdict(None, None)
    if not run.refused or run[:3] != (1, b"", NO_MEMORY):
        return Verdict(ending(run), None)
    return judge_left(known, run, number)


def in_order(verdicts):
    """The verdicts by number. One is wrong where nothing was left, and something with an earlier refusal."""
    begun = False
    for number, verdict in sorted(verdicts):
        if verdict.left is False and begun:
            verdict = Verdict("nothing is left, and something is with an earlier refusal", False)
        begun = begun or verdict.left is True
        yield number, verdict


# ---- The sweep ----

def prepared(number):
    """What is known of an input; and of each run for that what was wrong with it, None where nothing was."""
    it, whole = place.inputs[number], place.run(number, {})
    is_wanted = whole.status == 0 if it.wanted is None else it.wanted == (whole.status, whole.out, whole.files)
    right = is_wanted and whole.error == b"" and whole.met
    wrong = [None if right else f"the whole run is not as it is to be: {ending(whole)}, {whole.met} allocations"]
    if it.words[0] != "run" or not right:
        return Known(whole, {}, [], 0, 0), wrong
    job = it.files[it.words[1]]
    moments, more = moments_of(number, whole, *single_events(job, whole.files))
    until, last = counts_of(number, whole, *single_events(job, whole.files))
    broken = broken_job(job)
    must = place.run(number, {}, broken).met if broken else 0
    return Known(whole, moments, until, must, place.run(number, {}, idle_job(job)).met), [*wrong, *more, last]


def swept(task):
    """The verdicts of some runs of an input, with the numbers of the allocations that were refused."""
    number, mode, numbers, known = task
    return number, mode, [(it, judge(known, place.run(number, {mode: str(it)}), it)) for it in numbers]


def numbers_of(place_of, whole, options):
    """The allocations of a whole run that are refused, and the number behind the last, at which none is; those of the input at a place."""
    numbers = range(1, whole.met + 2)
    if whole.met <= MOST or "--all" in options:
        return list(numbers)
    return [number for number in numbers if (number + place_of) % EACH == 0 or number > whole.met - LAST]


def tasks_of(known, options):
    """The runs of each input whose whole run is right, in tasks."""
    for number, (it, wrong) in enumerate(known):
        numbers = [] if wrong[0] else numbers_of(number, it.whole, options)
        for mode in MODES:
            for start in range(0, len(numbers), RUNS_OF_A_TASK):
                yield number, mode, numbers[start:start + RUNS_OF_A_TASK], it


def compiled(room):
    library, source = f"{room}/refuse_memory.so", os.path.join(os.path.dirname(os.path.abspath(__file__)), "refuse_memory.c")
    subprocess.run(["cc", "-shared", "-fPIC", "-O2", "-o", library, source], check=True)
    return library


def sweep(program, inputs, options):
    """What is known of each input, with what was wrong; and the verdicts of each input and mode."""
    verdicts = collections.defaultdict(list)
    with tempfile.TemporaryDirectory(prefix="refuse-memory-") as room:
        parts = os.path.abspath(program), compiled(room), inputs, room
        with multiprocessing.Pool(os.cpu_count(), settle, parts) as pool:
            known = pool.map(prepared, range(len(inputs)), 1)
            for number, mode, found in pool.imap_unordered(swept, tasks_of(known, options)):
                verdicts[number, mode] += found
    return known, verdicts


def counted(known, verdicts):
    """The numbers of an input, for the reader. The last run of each mode met no refusal."""
    alone, later = [sum(it == (None, None) for _, it in found) - 1 for found in verdicts]
    events = f", {max(last for _, last in known.moments.values())} events" if known.moments else ""
    return f"{known.whole.met} allocations{events}; not noticed: {alone} alone, {later} with all later ones"


def main(program, archives, options):
    top = os.path.dirname(os.path.dirname(os.path.abspath(__file__)))
    inputs = [*inputs_of_examples(top), *(it for path in archives for it in inputs_of_archive(path))]
    known, verdicts = sweep(program, inputs, options)
    passed = failed = 0
    for number, (it, (what, wrong)) in enumerate(zip(inputs, known)):
        results = [(it.name, one) for one in wrong]
        for mode, words in MODES.items():
            results += [(f"{it.name}: {words.format(at)}", verdict.wrong) for at, verdict in in_order(verdicts[number, mode])]
        if "--counts" in options:
            print(f"{it.name}: {counted(what, [verdicts[number, mode] for mode in MODES])}")
        for name, one in results:
            passed, failed = passed + (not one), failed + bool(one)
            if one:
                print(f"{name}: {one}")
    print(f"{passed} passed, {failed} failed")
    return 1 if failed or not passed else 0


if __name__ == "__main__":
    WORDS = [it for it in sys.argv[1:] if not it.startswith("-")]
    GIVEN = set(sys.argv[1:]) - set(WORDS)
    if not WORDS or not GIVEN <= OPTIONS:
        sys.exit(__doc__)
    sys.exit(main(WORDS[0], WORDS[1:], GIVEN))
