#!/usr/bin/env python3
"""Makes a script of a log of Memory Manager traps, and compares the log with what the script's transcript says.

usage: tools/trap_log.py LOG
       tools/trap_log.py LOG TRANSCRIPT

A line of the log is `TRAP D0 A0 -> D0 A0`: a trap by its name in the assembler, with or without the `_` before it, and the two
registers before and after it, in hexadecimal. Empty lines, and lines that begin with `#`, are passed over.

With a log alone, the script is printed. Its lines have the numbers of the log's lines: a trap that no script can call, and a
handle or a pointer that is older than the log, become comments. A name is made of the address that the machine returned:
h_2A14C is the handle 2A14C, p_2B0 the pointer 2B0, and new_7 what line 7 asked for and did not get.

With the transcript of that script, each line is printed where the machine's result is not the model's: the result code, a logical
size, or a state. Numbers of free bytes are not compared, since headers are larger here than on a Macintosh.
"""
import sys

# What a trap takes and returns: `d` is the number in D0, `h` the handle and `p` the pointer in A0, `H` and `P` a new one that is
# returned in A0; `code` says that D0 returns a result code, `value` that it returns a number, negative where the trap was refused,
# and `bytes` that it returns free bytes. HandToHand takes its handle in A0 and returns the copy there.
TRAPS = {
    "NewHandle": ("H d", "code"), "NewEmptyHandle": ("H", "code"), "DisposeHandle": ("h", "code"), "GetHandleSize": ("h", "value"),
    "SetHandleSize": ("h d", "code"), "ReallocateHandle": ("h d", "code"), "EmptyHandle": ("h", "code"), "HLock": ("h", "code"),
    "HUnlock": ("h", "code"), "HPurge": ("h", "code"), "HNoPurge": ("h", "code"), "HGetState": ("h", "value"),
    "HSetState": ("h d", "code"), "MoveHHi": ("h", "code"), "HandToHand": ("H h", "code"), "NewPtr": ("P d", "code"),
    "DisposePtr": ("p", "code"), "GetPtrSize": ("p", "value"), "SetPtrSize": ("p d", "code"), "MoreMasters": ("", "code"),
    "ReserveMem": ("d", "code"), "PurgeMem": ("d", "code"), "CompactMem": ("d", "bytes"), "FreeMem": ("", "bytes"),
    "MaxBlock": ("", "bytes"), "MaxMem": ("", "bytes"), "PurgeSpace": ("", "bytes"),
}
OLD_NAMES = {"DisposHandle": "DisposeHandle", "DisposPtr": "DisposePtr", "ReallocHandle": "ReallocateHandle",
             "ResrvMem": "ReserveMem"}


def read(path):
    """The lines of a log: the number of each, and its trap with the registers before and after it, or its text."""
    with open(path, encoding="utf-8") as it:
        lines = it.read().splitlines()
    for number, line in enumerate(lines, 1):
        words = line.split()
        if not words or words[0].startswith("#"):
            yield number, line, None
            continue
        try:
            trap, d0, a0, arrow, *after = words
            registers = [int(word, 16) for word in [d0, a0, *after]]
            if arrow != "->" or len(registers) != 4:
                raise ValueError
        except ValueError:
            sys.exit(f"{path}:{number}: expected TRAP D0 A0 -> D0 A0, in hexadecimal")
        trap = trap.lstrip("_").split(",")[0]
        yield number, OLD_NAMES.get(trap, trap), registers


def code(d0):
    """A result code: the low word of D0, with its sign."""
    return (d0 & 0xFFFF ^ 0x8000) - 0x8000


def signed(d0):
    """The long in D0, with its sign."""
    return (d0 & 0xFFFFFFFF ^ 0x80000000) - 0x80000000


def call(number, trap, registers, known):
    """The line of a script that calls a trap, or why there is none. `known` are the names that have been made."""
    if trap not in TRAPS:
        return f"# {trap} is no call of a script"
    d0, a0, _, new = registers
    arguments = []
    for part in TRAPS[trap][0].split():
        name = f"{part.lower()}_{new if part.isupper() else a0:X}"
        if part == "d":
            arguments.append(str(d0))
        elif part.isupper():
            arguments.append(name if new and code(registers[2]) == 0 else f"new_{number}")
            known.add(arguments[-1])
        elif name in known:
            arguments.append(name)
        else:
            return f"# {trap}: {name} is older than the log"
    return " ".join([trap, *arguments])


def script(path):
    """Prints the script of a log."""
    known = set()
    for number, trap, registers in read(path):
        print(call(number, trap, registers, known) if registers else trap)


def recorded(trap, d0):
    """What a trap returned on the machine, as a transcript has it; nothing of free bytes."""
    kind = TRAPS[trap][1]
    if kind == "code":
        return [str(code(d0))]
    if kind == "value":
        return ["0", str(d0)] if signed(d0) >= 0 else [str(code(d0))]
    return None


def compare(path, transcript):
    """Prints the lines of a log whose result is not that of the transcript, and returns how many there are."""
    with open(transcript, encoding="utf-8") as it:
        said = {words[0]: words[2:] for words in map(str.split, it) if words[0].isdigit()}
    count = 0
    for number, trap, registers in read(path):
        if not registers or str(number) not in said or trap not in TRAPS:
            continue
        there, here = recorded(trap, registers[2]), said[str(number)]
        if there and there != here[:len(there)]:
            count += 1
            print(f"{path}:{number}: {trap} returned {' '.join(there)} on the machine, and {' '.join(here)} here")
    return count


def main(paths):
    if len(paths) not in (1, 2):
        sys.exit(__doc__)
    try:
        return script(paths[0]) if len(paths) == 1 else int(compare(*paths) > 0)
    except OSError as why:
        sys.exit(f"{why.filename or 'standard output'}: {why.strerror}")


if __name__ == "__main__":
    sys.exit(main(sys.argv[1:]))
