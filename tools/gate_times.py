#!/usr/bin/env python3
"""Runs the gate, or another command, and tells what it took for each crate.

usage: tools/gate_times.py [COMMAND..]      (without a command: rt ci)

While the command runs, the processes of the prover are looked at twice a second. What each took of a processor is told in a
table: a crate's proof, its proof from nothing that the first wrong body asks for, its other wrong bodies, its tests, and the
compilation of a program. The last lines tell the sums and the time by the clock.
"""
import collections
import os
import subprocess
import sys
import time

TICK = os.sysconf("SC_CLK_TCK")
PARTS = ("proof", "second proof", "wrong bodies", "tests", "built")


class Process:
    """A process of the prover, with the time that it and what it started took so far, in seconds."""

    def __init__(self, words, folder):
        self.words, self.folder, self.seconds, self.began = words, folder, 0.0, time.time()

    def crate(self):
        at = self.words.index("--crate-name") if "--crate-name" in self.words else None
        return self.words[at + 1] if at is not None else "?"

    def part(self):
        if "/rt-edit-" in self.folder:
            return "wrong bodies"
        if "--test" in self.words:
            return "tests"
        return "built" if "--crate-checked" in self.words else "proof"


def is_below(pid, top):
    """Whether a process was started by another, or by one that it started."""
    for _ in range(64):
        if pid in (0, top):
            return pid == top
        try:
            with open(f"/proc/{pid}/stat") as it:
                pid = int(it.read().rpartition(")")[2].split()[1])
        except OSError:
            return False
    return False


def looked_at(pid):
    """The parent, the words, the folder and the seconds of a process, where it is one of the prover."""
    try:
        with open(f"/proc/{pid}/cmdline", "rb") as it:
            words = it.read().decode(errors="replace").split("\0")
        if os.path.basename(words[0]) != "rattle":
            return None
        with open(f"/proc/{pid}/stat") as it:
            fields = it.read().rpartition(")")[2].split()
        return int(fields[1]), words, os.readlink(f"/proc/{pid}/cwd"), sum(map(int, fields[11:15])) / TICK
    except (OSError, IndexError):
        return None


def sample(seen, top):
    """Looks once at all processes that one started. A copy that a prover made counts for the one that made it."""
    now = {int(it): looked_at(it) for it in os.listdir("/proc") if it.isdigit()}
    now = {pid: it for pid, it in now.items() if it and is_below(pid, top)}
    spent = collections.Counter()
    for pid, (parent, words, folder, seconds) in now.items():
        first = pid
        while now[first][0] in now:
            first = now[first][0]
        spent[first] += seconds
    for pid, seconds in spent.items():
        _, words, folder, _ = now[pid]
        if pid not in seen or seen[pid].words != words:
            seen[pid] = Process(words, folder)
        seen[pid].seconds = max(seen[pid].seconds, seconds)


def table(processes):
    sums = collections.defaultdict(lambda: collections.defaultdict(float))
    counts, begun = collections.Counter(), set()
    for it in sorted(processes, key=lambda it: it.began):
        crate, part = it.crate(), it.part()
        if part == "wrong bodies":
            counts[crate] += 1
            if crate not in begun:
                begun.add(crate)
                part = "second proof"
        sums[crate][part] += it.seconds
    print("Minutes of a processor\n")
    print("| Crate | " + " | ".join(PARTS) + " |\n" + "|---" * (len(PARTS) + 1) + "|")
    for crate in sorted(sums, key=lambda it: -sum(sums[it].values())):
        cells = [f"{sums[crate][it] / 60:.1f}" if sums[crate][it] else "" for it in PARTS]
        # (behind several wrong bodies the crate itself is checked over what they kept)
        bodies = counts[crate] - (counts[crate] > 1)
        cells[2] += f" ({bodies})" if bodies else ""
        print(f"| `{crate}` | " + " | ".join(cells) + " |")
    totals = [sum(sums[crate][it] for crate in sums) / 60 for it in PARTS]
    print("| in all | " + " | ".join(f"{it:.0f}" for it in totals) + f" |\n\n{sum(totals):.0f} minutes of a processor")


def main(words):
    began, past = time.time(), []
    seen = {}
    running = subprocess.Popen(words)
    while running.poll() is None:
        live = set(os.listdir("/proc"))
        for pid in [it for it in seen if str(it) not in live]:
            past.append(seen.pop(pid))
        sample(seen, running.pid)
        time.sleep(0.5)
    table([*past, *seen.values()])
    print(f"{(time.time() - began) / 60:.0f} minutes by the clock, {len(os.sched_getaffinity(0))} processors")
    return running.returncode


if __name__ == "__main__":
    sys.exit(main(sys.argv[1:] or ["rt", "ci"]))
