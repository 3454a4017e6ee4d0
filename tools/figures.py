#!/usr/bin/env python3
"""Times built programs on made inputs: tools/figures.py PROGRAM [EARLIER ..], or tools/figures.py --malice PROGRAM [WORD ..]

PROGRAM is crates/macmem/out/macmem, each EARLIER one another build of it, to be timed beside it in the same run. Prints
tables: the best of some runs, with the most memory that was taken; and, of forks, as a multiple of `cat FILE >/dev/null`.
With --malice it prints the table of time under malice instead: inputs as unlucky as could be made, each in two sizes; with
WORDs, only the rows whose text has one of them. Inputs are made in a new folder, or in the one that FIGURES names.
"""
import functools
import glob
import os
import random
import shutil
import struct
import subprocess
import sys
import tempfile
import time

MALICE = sys.argv[1:2] == ["--malice"]
PROGRAMS = [os.path.abspath(p) for p in (sys.argv[2:3] if MALICE else sys.argv[1:])]
PROGRAM = PROGRAMS[0]
FOLDER = os.environ.get("FIGURES") or tempfile.mkdtemp()
NULL = open(os.devnull, "wb")
# A run that takes longer isn't waited for.
PATIENCE = 400
# The statuses with which runs have ended.
STATUSES = set()


def measure(command):
    """Seconds, and the most kilobytes of memory that it had; None where it took too long"""
    room = os.path.join(FOLDER, "memory")
    # (a wait with a limit of its own looks only each 50 ms whether the program has ended)
    limited = ["/usr/bin/time", "-f", "%M", "-o", room, "timeout", str(PATIENCE)] + command
    begin = time.perf_counter()
    status = subprocess.run(limited, stdout=NULL, stderr=NULL, check=False).returncode
    STATUSES.add(status)
    if status == 124:
        return None
    took = time.perf_counter() - begin
    with open(room) as file:
        return took, int(file.read().split()[-1])


def measured(command, runs):
    """The best of some runs; a long one is run once"""
    found = [measure(command)]
    while len(found) < runs and found[0] and found[0][0] < 5:
        found.append(measure(command))
    return min(found) if None not in found else None


def best(command, runs):
    return measured(command, runs)[0]


def put(name, data):
    os.makedirs(FOLDER, exist_ok=True)
    path = os.path.join(FOLDER, name)
    with open(path, "wb") as file:
        file.write(data)
    return path


# Forks: header of 256 bytes, data, map. Numbers are big-endian.
def fork(data, lists, types_at=28, names_at=28, between=b""):
    header = struct.pack(">IIII", 256, 256 + len(data), len(data), 28 + len(between) + len(lists))
    fork_map = header + bytes(6) + struct.pack(">HHH", 0, types_at, names_at)[:6] + between + lists
    return header + bytes(240) + data + fork_map


def type_entry(kind, count, at):
    return struct.pack(">IHH", kind, count - 1, at)


def reference(number, name, at):
    return struct.pack(">HHB", number & 0xFFFF, name, 0) + at.to_bytes(3, "big") + bytes(4)


TEXT = 0x54455854


def one_type(references):
    return struct.pack(">H", 0) + type_entry(TEXT, len(references) & 0xFFFF or 65536, 10) + b"".join(references)


def references_fork():
    """60,000 references of one type with 16 MB of data"""
    size = 276
    datum = struct.pack(">I", size - 4) + bytes(range(256)) + bytes(16)
    return fork(datum * 60000, one_type([reference(i, 0xFFFF, i * size) for i in range(60000)]))


def types_fork():
    """65,535 types; all share one reference, which stands in the type list itself"""
    kinds = list(range(65535))
    random.Random(7).shuffle(kinds)
    kinds[0] = 0x5445FFFF
    return fork(bytes(16), struct.pack(">H", 65534) + b"".join(type_entry(k, 1, 2) for k in kinds))


def names_fork(size=8):
    """65,536 references with names of 8 bytes"""
    types_at = 65535
    names = bytes([size]) * (types_at - 28)
    header = struct.pack(">IIII", 256, 272, 16, types_at + 10 + 12 * 65536)
    lists = struct.pack(">H", 0) + type_entry(TEXT, 65536, 10)
    lists += b"".join(reference(i, i % (len(names) - size - 1), 0) for i in range(65536))
    return header + bytes(240) + bytes(16) + header + bytes(6) + struct.pack(">HHH", 0, types_at, 30)[:6] + names + lists


def long_names_fork():
    """65,536 references with names of 255 bytes, whose listing has 33 MB"""
    return names_fork(255)


def shared_fork():
    """65,536 references that share one datum of 2,040 bytes"""
    return fork(struct.pack(">I", 2040) + bytes(2040), one_type([reference(i, 0xFFFF, 0) for i in range(65536)]))


def canonical_fork():
    """5,458 references with 16.5 MB of data, the most that one type can have in a canonical fork"""
    size = 3030
    datum = struct.pack(">I", size - 4) + bytes(size - 4)
    lists = one_type([reference(i, 0xFFFF, i * size) for i in range(5458)])
    return fork(datum * 5458, lists, names_at=28 + len(lists))


# Scripts.
def churn(lines):
    """blocks of 0 to 400 bytes, a third disposed of, a tenth made purgeable"""
    chance, text, names = random.Random(1), [], []
    while len(text) < lines:
        what = chance.random()
        if names and what < 0.33:
            text.append("DisposeHandle " + names.pop(chance.randrange(len(names))))
        elif names and what < 0.43:
            text.append("HPurge " + chance.choice(names))
        else:
            names.append("h%d" % len(text))
            text.append("NewHandle %s %d" % (names[-1], chance.randrange(401)))
    return "\n".join(text).encode() + b"\n"


def empty_handles(count):
    return b"".join(b"NewHandle h%d 0\n" % i for i in range(count))


def rounds(count):
    """over 8 names: a block of 16 to 79 bytes, written, shown and disposed of"""
    text = []
    for i in range(count):
        name = "n%d" % (i % 8)
        text += ["NewHandle %s %d" % (name, 16 + i % 64), 'Put %s 0 "bytes"' % name, "Show " + name, "DisposeHandle " + name]
    return "\n".join(text).encode() + b"\n"


def steady(lines, names=60000):
    """blocks of 0 to 400 bytes come, are written and go over 60,000 names, of which about half have one"""
    chance, text, live = random.Random(2), [], set()
    while len(text) < lines:
        name = chance.randrange(names)
        if name in live:
            live.remove(name)
            text.append("DisposeHandle h%d" % name)
        else:
            live.add(name)
            size = chance.randrange(401)
            text.append("NewHandle h%d %d" % (name, size))
            text.append('Put h%d %d "x"' % (name, size // 2) if size else "GetHandleSize h%d" % name)
    return "\n".join(text[:lines]).encode() + b"\n"


def resized(count, times):
    """master pointers for all, blocks, and then one of them at another size, again and again"""
    chance = random.Random(5)
    text = ["MoreMasters"] * (count // 64 + 1) + ["NewHandle h%d %d" % (i, 40 + i % 60) for i in range(count)]
    text += ["SetHandleSize h%d %d" % (chance.randrange(count), chance.randrange(20, 200)) for _ in range(times)]
    return "\n".join(text).encode() + b"\n"


def among_locked(lines, names):
    """blocks of 0 to 400 bytes come and go; a tenth is made purgeable, and a tenth locked until it goes"""
    chance, text, live, locked = random.Random(7), [], set(), set()
    while len(text) < lines:
        what, name = chance.random(), chance.randrange(names)
        if name in live:
            if name in locked:
                text.append("HUnlock h%d" % name)
            live.discard(name)
            locked.discard(name)
            text.append("DisposeHandle h%d" % name)
            continue
        live.add(name)
        text.append("NewHandle h%d %d" % (name, chance.randrange(401)))
        if what < 0.1:
            text.append("HPurge h%d" % name)
        elif what < 0.2:
            locked.add(name)
            text.append("HLock h%d" % name)
    return "\n".join(text[:lines]).encode() + b"\n"


def emptied(count):
    """blocks that may be emptied, and a call that needs the room of all of them"""
    text = "".join("NewHandle h%d 100\nHPurge h%d\n" % (i, i) for i in range(count))
    return (text + "NewHandle big %d\n" % (count * 128 - 64)).encode()


def packed(count, size, by="MaxMem"):
    """blocks, of which the lowest is disposed of before all others are moved down"""
    text = "".join("NewHandle h%d %d\n" % (i, size) for i in range(count))
    return (text + "DisposeHandle h0\n" + by + "\n").encode()


def every_other(count, size, last):
    """master pointers for all, blocks, of which every other one is disposed of, and then a call"""
    text = "MoreMasters\n" * (count // 64 + 1) + "".join("NewHandle h%d %d\n" % (i, size) for i in range(count))
    text += "".join("DisposeHandle h%d\n" % i for i in range(0, count, 2))
    return (text + last + "\n").encode()


def appended(count):
    """64 bytes appended to one handle again and again, below a block that lets it grow"""
    return b"NewHandle a 64\nNewHandle b 0\n" + b"HandAndHand a b\n" * count


TEN = b"NewHandle a 100\nPut a 0 \"abc\"\nShow a\nNewPtr p 100\nHLock a\nFreeMem\nMaxBlock\nHUnlock a\nCompactMem 1000\nDisposeHandle a\n"

FORKS = [references_fork, types_fork, names_fork, long_names_fork, shared_fork, canonical_fork]
SCRIPTS = [
    ("16777216", "churn of 10,000 lines", steady(10000)),
    ("16777216", "churn of 100,000 lines", steady(100000)),
    ("16777216", "churn of 1,000,000 lines", steady(1000000)),
    ("16777216", "100,000 lines that fill the zone: a third disposed of, a tenth purgeable", churn(100000)),
    ("4194304", "10,000 handles of no bytes", empty_handles(10000)),
    ("4194304", "50,000 handles of no bytes", empty_handles(50000)),
    ("4194304", "the same, MoreMasters 782 times first", b"MoreMasters\n" * 782 + empty_handles(50000)),
    ("1048576", "60,000 lines in a full zone of 1 MB", churn(60000)),
    ("1048576", "200,000 lines in a full zone of 1 MB", churn(200000)),
    ("4194304", "200,000 lines in a full zone of 4 MB, a tenth of whose blocks are locked", among_locked(200000, 40000)),
    ("16777216", "20,000 blocks, and 40,000 times one of them gets another size", resized(20000, 40000)),
    ("16777216", "25,000 rounds of four calls over 8 names", rounds(25000)),
    ("671744", "5,000 blocks emptied for one call", emptied(5000)),
    ("134217728", "10,000 blocks of 13,000 bytes, the lowest disposed of", packed(10000, 13000, "FreeMem")),
    ("134217728", "the same, and MaxMem: 9,999 moves", packed(10000, 13000)),
    ("134217728", "100,000 blocks of 1,300 bytes, every other disposed of", every_other(100000, 1300, "FreeMem")),
    ("134217728", "the same, and MaxMem: 49,999 moves", every_other(100000, 1300, "MaxMem")),
    ("16777216", "20,000 HandAndHand of 64 bytes to one handle", appended(20000)),
    ("1048576", "ten lines in 1 MB", TEN),
    ("134217728", "the same in 128 MB", TEN),
]


# What a plain program takes: a copy of so many bytes; as many moves down within one array, with no headers.
PLAIN = r"""
#include <stdio.h>
#include <stdlib.h>
#include <string.h>
#include <time.h>
static double now(void) { struct timespec t; clock_gettime(CLOCK_MONOTONIC, &t); return t.tv_sec + t.tv_nsec / 1e9; }
int main(int count, char **words) {
    long size = atol(words[1]), moves = count > 2 ? atol(words[2]) : 0, bytes = count > 2 ? atol(words[3]) : 0;
    char *from = malloc(size), *to = malloc(size);
    double best = 1e9;
    for (int run = 0; run < 5; run++) {
        memset(from, run, size);
        memset(to, run, size);
        double begin = now();
        if (moves == 0) memcpy(to, from, size);
        else for (long i = 0; i < moves; i++) memmove(from + i * bytes, from + (2 * i + 1) * bytes, bytes);
        double took = now() - begin;
        if (took < best) best = took;
    }
    printf("%.6f %d\n", best, to[size / 2] + from[size / 2]);
}
"""


def plain(*numbers):
    """Seconds that the plain program takes; None where there is no compiler"""
    program = os.path.join(FOLDER, "plain")
    if not os.path.exists(program):
        source = put("plain.c", PLAIN.encode())
        if subprocess.run(["cc", "-O2", "-o", program, source], check=False).returncode:
            return None
    return float(subprocess.run([program, *map(str, numbers)], stdout=subprocess.PIPE, check=True).stdout.split()[0])


def applications(count):
    """as many applications in one memory, with 4,080 lines each, and the job of one of them alone"""
    round_of = lambda i: ["NewHandle n%d %d" % (i % 8, 16 + i % 64), 'Put n%d 0 "bytes"' % (i % 8), "Show n%d" % (i % 8),
                          "DisposeHandle n%d" % (i % 8)]
    lines = []
    for i in range(1000):
        lines += round_of(i)
        if i % 8 == 7 or i > 955:
            lines.append("WaitNextEvent")
    script = put("app.script", ("\n".join(lines[:4080]) + "\n").encode())
    own = put("app.rsrc", struct.pack(">IIII", 256, 256, 0, 30) + bytes(240) + struct.pack(">IIII", 256, 256, 0, 30)
              + bytes(8) + struct.pack(">HHH", 28, 30, 0xFFFF))
    def job(memory, names):
        apps = "".join('app %s "%s" "%s"\n' % (n, own, script) for n in names)
        return "memory %d\n%s%srest\n" % (memory, apps, "".join("launch %s\n" % n for n in names))
    names = ["a%d" % i for i in range(count)]
    return put("all.job", job(524288 * count, names).encode()), put("one.job", job(524288, names[:1]).encode())


def run_job(program, job):
    out = os.path.join(tempfile.mkdtemp(), "out")
    return measure([program, "run", job, out])[0]


def told(found):
    return "over %d s" % PATIENCE if found is None else "%.3f s, %.0f MB" % (found[0], found[1] / 1000)

# Time under malice: inputs as unlucky as could be made, each of a size and of twice that size. An input is put into files
# whose names begin with `unlucky`, and is what the function of its row returns for a count: the words of a command.
ALLOWED = 2.2
LIMIT = 268435456
OUT = os.path.join(FOLDER, "out")


def script_of(text, zone=16777216):
    return ["script", str(zone), put("unlucky.script", text)]


def filled(line):
    """a script of so many bytes, all of one line again and again"""
    return lambda count: script_of((line * (count // len(line) + 1))[:count])


def repeated(line, first=b"", zone=16777216):
    """a script of one line so many times, after others"""
    return lambda count: script_of(first + line * count, zone)


def small_handles(count):
    return script_of(b"".join(b"NewHandle h%d %d\n" % (i, i % 32) for i in range(count)), 134217728)


def ready_handles(count):
    handles = b"".join(b"NewHandle h%d 0\n" % i for i in range(count))
    return script_of(b"MoreMasters\n" * (count // 64 + 1) + handles, 134217728)


def lost_handles(count):
    return script_of(b"".join(b"NewHandle h %d\n" % (i % 32) for i in range(count)), 134217728)


# Names of 10 letters to which the map of names gives one group and one tag. Its hash is fixed: the length and then each
# byte are multiplied into a state of 64 bits. The low bits of the 32 that are left choose the group, the 8 highest are the
# tag, and tags 0 and 1 are one.
COLLIDING = r"""
#include <stdint.h>
#include <stdio.h>
#include <stdlib.h>
static const uint64_t by = 0x9e3779b97f4a7c15ull;
static const char letters[] = "abcdefghijklmnopqrstuvwxyzABCDEFGHIJKLMNOPQRSTUVWXYZ_0123456789";
static uint64_t folded(uint64_t a, uint64_t b) {
    unsigned __int128 product = (unsigned __int128)a * b;
    return (uint64_t)product ^ (uint64_t)(product >> 64);
}
int main(int count, char **words) {
    long wanted = atol(words[1]);
    uint32_t mask = (1u << atoi(words[2])) - 1 | 0xFE000000u;
    char name[11] = "";
    for (uint64_t number = 0; wanted; number++) {
        uint64_t state = folded(0x243f6a8885a308d3ull ^ 10, by ^ 16), rest = number;
        for (int i = 0; i < 9; i++) {
            name[i] = letters[rest % (i ? 63 : 53)];
            rest /= i ? 63 : 53;
            state = folded(state ^ name[i] * 0x10101ull, by ^ 2);
        }
        for (int i = 0; i < 63 && wanted; i++) {
            uint64_t hash = folded(state ^ letters[i] * 0x10101ull, by ^ 2);
            if (((uint32_t)(hash ^ hash >> 32) & mask) == 0) {
                name[9] = letters[i];
                puts(name);
                wanted--;
            }
        }
    }
}
"""
MOST_COLLIDING = 32768


@functools.lru_cache(maxsize=None)
def all_colliding():
    program, source = os.path.join(FOLDER, "colliding"), put("colliding.c", COLLIDING.encode())
    subprocess.run(["cc", "-O3", "-o", program, source], check=True)
    # (the table has a group for each 9 names, and a power of two of them)
    bits = max(0, (MOST_COLLIDING - 1) // 9).bit_length()
    command = [program, str(MOST_COLLIDING), str(bits)]
    return subprocess.run(command, stdout=subprocess.PIPE, check=True).stdout.split()


def colliding(count):
    return all_colliding()[:count]


def ordinary(count):
    return [b"n%09d" % i for i in range(count)]


def ending_apart(count):
    """names of 63 bytes, the same but for their end"""
    return [b"n%062d" % i for i in range(count)]


def ending_apart_downward(count):
    return ending_apart(count)[::-1]


def bound(names):
    """empty handles of these names"""
    return lambda count: script_of(b"".join(b"NewEmptyHandle %s\n" % n for n in names(count)))


def grown(names):
    """grow-zone scripts of these names"""
    return lambda count: script_of(b"".join(b"grow %s\nend\n" % n for n in names(count)))


def looked_up(names, most):
    """so many lines that look up the name that was bound last but one"""
    lines = lambda: b"".join(b"NewEmptyHandle %s\n" % n for n in names(most))
    return lambda count: script_of(lines() + b"HGetState %s\n" % names(most)[-2] * count)


def set_again(count):
    """grow-zone scripts, and as many lines that set the last one"""
    blocks = b"".join(b"grow g%d\nend\n" % i for i in range(count))
    return script_of(blocks + b"SetGrowZone g%d\n" % (count - 1) * count)


def shown(count):
    return script_of(b"NewHandle a %d\nShow a\n" % count, 134217728)


def walked(call):
    """75,000 blocks, of which every third is disposed of, locked, and made purgeable; and then a call"""
    text = b"MoreMasters\n" * 1172 + b"".join(b"NewHandle h%d %d\n" % (i, 40 + i % 60) for i in range(75000))
    text += b"".join(b"DisposeHandle h%d\nHLock h%d\nHPurge h%d\n" % (i, i + 1, i + 2) for i in range(0, 75000, 3))
    return repeated(call + b"\n", text)


def swung(count):
    """a block that fills most of the zone goes up and down"""
    return script_of(b"NewHandle low 0\nNewHandle a 120000000\n" + b"MoveHHi a\nCompactMem 2147483647\n" * count, 134217728)


def in_vain(count):
    """so many calls that find no room, for each of which the lines of a grow-zone script are run: as many"""
    return script_of(b"grow g\n" + b"HPurge h\n" * count + b"end\nSetGrowZone g\n" + b"NewPtr p 2147483647\n" * count)


def long_line(start, filler, end=b""):
    """a line of 65,535 bytes"""
    return start + filler * (65535 - len(start) - len(end)) + end + b"\n"


def reallocated(count):
    """empty handles, each of which gets a block"""
    lines = (b"NewEmptyHandle h%d\nReallocateHandle h%d 0\n" % (i, i) for i in range(count))
    return script_of(b"MoreMasters\n" * (count // 64 + 1) + b"".join(lines))


def added(count):
    """resources that are added, each of a type of its own, on a file that was made"""
    lines = (b"NewHandle h 0\nAddResource h $%08x 1 \"\"\n" % i for i in range(count))
    first = b"CreateResFile \"f\"\nOpenResFile \"f\"\n" + b"MoreMasters\n" * (count // 64 + 1)
    return script_of(first + b"".join(lines))


# Forks.
def shared(count, damaged=False):
    """references that share one datum; all 65,536 have 134,217,728 bytes with their lengths. The last may be damaged"""
    references = [reference(i, 0xFFFF, 0) for i in range(count)]
    if damaged:
        references[-1] = reference(count - 1, 0xFFFF, 0xFFFFFF)
    return fork(struct.pack(">I", 2044) + bytes(2044), one_type(references))


def typed(count):
    """types that share one reference, which stands in the type list itself"""
    kinds = [0x5445FFFF] + list(range(1, count))
    random.Random(7).shuffle(kinds)
    at = kinds.index(0x5445FFFF)
    kinds[0], kinds[at] = kinds[at], kinds[0]
    return fork(bytes(16), struct.pack(">H", count - 1) + b"".join(type_entry(k, 1, 2) for k in kinds))


def one_datum(count, damaged=False):
    """one resource whose datum has so many bytes with its length, and perhaps a second one whose name lies nowhere"""
    references = [reference(128, 0xFFFF, 0)] + [reference(129, 0xFFFE, 0)] * damaged
    lists = one_type(references)
    return fork(struct.pack(">I", count - 4) + bytes(count - 4), lists, names_at=28 + len(lists))


def preloaded(count):
    """references with resPreload that share one datum of 4 bytes"""
    references = [struct.pack(">HHB", i, 0xFFFF, 4) + bytes(7) for i in range(count)]
    return fork(struct.pack(">I", 4) + bytes(4), one_type(references))


def roomy():
    """an application's fork whose 'SIZE' asks for all of the memory"""
    data = struct.pack(">IHII", 10, 0, 134217728, 134217728)
    lists = struct.pack(">H", 0) + type_entry(0x53495A45, 1, 10) + reference(-1, 0xFFFF, 0)
    return fork(data, lists, names_at=28 + len(lists))


def holding(groups):
    """a fork with resources from 1 on of types, by the bytes of each, and perhaps its name"""
    data, lists, references, names = b"", struct.pack(">H", len(groups) - 1), b"", b""
    at = 2 + 8 * len(groups)
    for kind, listed in groups:
        lists += type_entry(kind, len(listed), at)
        at += 12 * len(listed)
        for number, (datum, name) in enumerate(listed, 1):
            references += reference(number, len(names) if name else 0xFFFF, len(data))
            names += bytes([len(name)]) + name if name else b""
            data += struct.pack(">I", len(datum)) + datum
    lists += references
    return fork(data, lists + names, names_at=28 + len(lists))


STRING_LIST, STRING, TEMPLATE = 0x53545223, 0x53545220, 0x544D504C


def strings_from(first, count, step=1):
    """lists of so many strings in all, at most 1,000 each"""
    texts = [b"%d" % number for number in range(first, first + step * count, step)]
    lists = [texts[at:at + 1000] for at in range(0, count, 1000)]
    return [(struct.pack(">H", len(it)) + b"".join(bytes([len(text)]) + text for text in it), None) for it in lists]


def listed(count):
    """strings in lists"""
    return holding([(STRING_LIST, strings_from(0, count))])


def tailed(count):
    """strings with 16 bytes after them"""
    return holding([(STRING, [(b"\1x" + bytes(16), None)] * count)])


def templates(count):
    """templates of 1,000 items each, for types of which each has a resource of 500 bytes"""
    items = [(b"\0PSTR" * 500 + b"\0DBYT" * 500, b"T%03d" % number) for number in range(count)]
    kinds = [(int.from_bytes(name, "big"), [(bytes(1000), None)]) for _, name in items]
    return holding([(TEMPLATE, items), *kinds])


def compared(change):
    """strings in two forks, of which the second has others"""
    def make(count):
        first = put("unlucky.rsrc", holding([(STRING_LIST, strings_from(0, count))]))
        return ["diff", "--text", first, put("unlucky-other.rsrc", holding([(STRING_LIST, change(count))]))]
    return make


def files_named(count):
    """statements that read the same file of 100 bytes"""
    put("unlucky-bytes", bytes(100))
    lines = b"".join(b"read 'T%03d' (%d) \"unlucky-bytes\";\n" % (at % 1000, at // 1000) for at in range(count))
    return ["rez", put("unlucky.r", lines), OUT + ".rsrc"]


def read_by(word, make, damaged=False):
    return lambda count: [word, put("unlucky.rsrc", make(count, damaged) if damaged else make(count))]


# Jobs.
def job_of(events, script=b"", own=fork(b"", b"\xff\xff", names_at=30), files=(), names=("a",), memory=134217728):
    """a job whose applications have the same fork, script and files"""
    own, script = put("unlucky-own.rsrc", own), put("unlucky.script", script)
    lines = ["memory %d" % memory]
    for name in names:
        lines.append('app %s "%s" "%s"' % (name, own, script))
        lines += ['file %s "%s" "%s"' % (name, file, path) for file, path in files]
    return ["run", put("unlucky.job", "\n".join(lines).encode() + b"\n" + events), OUT]


def alone(script, big, own=roomy()):
    """a job of one application with a file, which runs to its end"""
    return job_of(b"launch a\nrest\n", script, own, [("big", put("unlucky.rsrc", big))])


def opened(make, kind, number):
    """an application opens a fork, and looks for what stands last in it and for what isn't there"""
    lines = 'OpenResFile "big"\nCount1Resources %s\nGetResource r %s %d\n' % (kind, kind, number)
    lines += 'GetNamedResource m %s "none"\nGet1Resource m \'NONE\' 1\n' % kind
    return lambda count: alone(lines.encode(), make(count))


def loading(first):
    """lines, a few more than there are master pointer blocks, and a fork is opened whose resources are preloaded"""
    return lambda count: alone(first * (count // 64 + 9) + b"OpenResFile \"big\"\n", preloaded(count))


def reopened(count):
    """a fork with 134,217,728 bytes of data is opened and closed"""
    lines = b"".join(b"OpenResFile \"big\"\nCloseResFile %d\n" % (3 + i) for i in range(count))
    return alone(lines, shared(65536))


def sought(count):
    """a resource is looked for that isn't there, among 65,536"""
    return alone(b"OpenResFile \"big\"\n" + b"Get1Resource m 'NONE' 1\n" * count, shared(65536))


def stepped(count):
    return job_of(b"launch a\n" + b"step a\n" * ((count - 9) // 7), b"FreeMem\n" * 1000)


def rested(count):
    """`rest` where 64 applications have ended"""
    names = ["a%d" % i for i in range(64)]
    return job_of(b"".join(b"launch %s\n" % n.encode() for n in names) + b"rest\n" * count, names=names)


def launched(count):
    """launches that are refused, since the last of 65,536 references is damaged"""
    return job_of(b"launch a\n" * count, b"", shared(65536, True))


def crowded(count):
    """launches that are refused for want of room, of an application whose fork has 134,217,728 bytes of data"""
    return job_of(b"launch a\n" * count, b"", shared(65536), memory=512)


def crowd(events, script, count):
    """so many applications with 255 files each"""
    small = put("unlucky-file.rsrc", one_datum(104))
    files = [("f%d" % i, small) for i in range(255)]
    return job_of(events, script, files=files, names=["a%d" % i for i in range(count)])


def peopled(count):
    """so many applications with 255 files each, of which each opens 50"""
    script = "".join('OpenResFile "f%d"\nGet1Resource r \'TEXT\' 128\n' % (5 * i) for i in range(50)).encode()
    return crowd(b"".join(b"launch a%d\n" % i for i in range(count)) + b"rest\n", script, count)


def last_named(count):
    """so many applications with 255 files each, and 500 events for each, which name the last one"""
    return crowd(b"step a%d\n" % (count - 1) * (500 * count), b"", count)


def appended(count):
    """so many parts of a byte, each written at the end of the stored data"""
    return script_of(EMPTIED + b"".join(b'WritePartialResource h %d "x"\n' % i for i in range(count)), 1024)


def enlarged(count):
    """so many resources, each of which gets as many bytes as a resource can have"""
    line = b"NewHandle h 0\nAddResource h 'TEXT' %d \"\"\nSetResourceSize h 16777215\n"
    return script_of(b"".join(line % i for i in range(count)), 16777216)


EMPTIED = b"NewHandle h 0\nAddResource h 'TEXT' 1 \"\"\nEmptyHandle h\n"
HEX = long_line(b"Put h 0 $", b"5")
BYTES = long_line(b"Put h 0 \"", b"x", b"\"")
ONE = b"NewHandle h 65535\n"
UNLUCKY = [
    ("bytes of comment lines of 64 bytes", LIMIT // 2, filled(b"#" + b"x" * 62 + b"\n")),
    ("bytes of comments `#`", LIMIT // 2, filled(b"#\n")),
    ("bytes of blank lines", LIMIT // 2, filled(b"\n")),
    ("handles of 0 to 31 bytes, one by one", 250000, small_handles),
    ("handles of 0 to 31 bytes, all under one name", 250000, lost_handles),
    ("handles of no bytes in 128 MB, MoreMasters first", 250000, ready_handles),
    ("references that share one datum: `map`", 32768, read_by("map", shared)),
    ("references that share one datum: `check`", 32768, read_by("check", shared)),
    ("references that share one datum: opened in a job", 32768, opened(shared, "'TEXT'", 0)),
    ("types: `map`", 32767, read_by("map", typed)),
    ("types: `check`", 32767, read_by("check", typed)),
    ("types: opened in a job", 32767, opened(typed, "$5445ffff", 0x5445)),
    ("resources that are preloaded", 32768, loading(b"")),
    ("resources that are preloaded, MoreMasters first", 32768, loading(b"MoreMasters\n")),
    ("openings and closings of a fork of 65,536 references", 5, reopened),
    ("searches for what isn't there among 65,536 references", 5000, sought),
    ("names that collide", 16384, bound(colliding)),
    ("ordinary names", 16384, bound(ordinary)),
    ("look-ups of the last but one of 32,768 names that collide", 10000, looked_up(colliding, MOST_COLLIDING)),
    ("look-ups of the last but one of 32,768 ordinary names", 10000, looked_up(ordinary, MOST_COLLIDING)),
    ("names of grow-zone scripts that collide", 16384, grown(colliding)),
    ("ordinary names of grow-zone scripts", 16384, grown(ordinary)),
    ("names of 63 bytes that end apart, upward", 250000, bound(ending_apart)),
    ("names of 63 bytes that end apart, downward", 250000, bound(ending_apart_downward)),
    ("grow-zone scripts, and as many SetGrowZone of the last", 500000, set_again),
    ("bytes shown by one Show", 60000000, shown),
    ("applications with 255 files each, of which each opens 50", 32, peopled),
    ("MaxBlock among 50,000 blocks", 10000, walked(b"MaxBlock")),
    ("PurgeSpace among 50,000 blocks", 10000, walked(b"PurgeSpace")),
    ("CompactMem among 50,000 blocks", 500, walked(b"CompactMem 2147483647")),
    ("ReallocateHandle among 50,000 blocks", 500, walked(b"ReallocateHandle h2 100")),
    ("empty handles, each of which gets a block by ReallocateHandle", 4000, reallocated),
    ("times 120,000,000 bytes are moved up and down", 20, swung),
    ("calls that find no room, and as many lines of a grow-zone script", 1000, in_vain),
    ("comments of 65,535 bytes", 1500, repeated(long_line(b"#", b"x"))),
    ("calls with blanks, 65,535 bytes a line", 1500, repeated(long_line(b"FreeMem", b" "))),
    ("Put of 32,763 bytes in hexadecimal", 1500, repeated(HEX, ONE)),
    ("Put of 65,525 bytes between quotation marks", 1500, repeated(BYTES, ONE)),
    ("bytes of a job of `step a`", 350000, stepped),
    ("applications with 255 files each, and 500 times as many events of the last", 32, last_named),
    ("times `rest` over 64 applications that have ended", 500000, rested),
    ("launches that are refused after 65,536 references", 1000, launched),
    ("launches that find no room, with 65,536 references", 10, crowded),
    ("bytes of data of one resource: `map`", 67108864, read_by("map", one_datum)),
    ("bytes of data of one resource: `check`", 67108864, read_by("check", one_datum)),
    ("the same and a second resource, damaged: `map`", 67108860, read_by("map", one_datum, True)),
    ("the same and a second resource, damaged: `check`", 67108860, read_by("check", one_datum, True)),
    ("references that share one datum, the last damaged: `check`", 32768, read_by("check", shared, True)),
    ("lines of the shortest call", 2500000, repeated(b"MaxMem\n")),
    ("AddResource, each of a new type", 20000, added),
    ("parts of a byte, each at the end of the stored data", 250000, appended),
    ("times stored data gets 16,777,215 bytes, and none again", 50,
     repeated(b"SetResourceSize h 16777215\nSetResourceSize h 0\n", EMPTIED)),
    ("resources that get 16,777,215 bytes each", 20, enlarged),
    ("strings in lists: `derez`", 250000, read_by("derez", listed)),
    ("strings with 16 bytes after them: `derez`", 2500, read_by("derez", tailed)),
    ("templates of 1,000 items: `derez`", 200, read_by("derez", templates)),
    ("strings, all of them others: `diff --text`", 50000, compared(lambda count: strings_from(count, count))),
    ("strings, with one before all others: `diff --text`", 50000, compared(lambda count: strings_from(-1, count))),
    ("strings in the opposite order: `diff --text`", 50000, compared(lambda count: strings_from(count - 1, count, -1))),
    ("statements that read one file: `rez`", 2000, files_named),
]


def attempt(words):
    """Seconds and kilobytes of a run, whose folder is made anew; None where it took too long"""
    shutil.rmtree(OUT, ignore_errors=True)
    if os.path.exists(OUT + ".rsrc"):
        os.remove(OUT + ".rsrc")
    return measure([PROGRAM] + words)


def tried(make, count):
    """The bytes of an input, the seconds of `cat`, the least seconds and kilobytes of some runs, and what is odd"""
    words = make(count)
    files = glob.glob(os.path.join(FOLDER, "unlucky*"))
    size, cat = sum(map(os.path.getsize, files)), best(["/bin/cat"] + files, 5)
    STATUSES.clear()
    found = [attempt(words)]
    while found[-1] and len(found) < 20 and sum(took for took, _ in found) < 4:
        found.append(attempt(words))
    odd = "".join(", status %d" % s for s in sorted(STATUSES - {0, 124}))
    for path in files:
        os.remove(path)
    return size, cat, None if None in found else min(found), odd


def lesser(one, other):
    """Of two trials of the same input, the faster one"""
    return one if other[2] is None or one[2] and one[2] < other[2] else other


def each(seconds):
    return "%.3g ms" % (seconds * 1000) if seconds >= 1e-3 else "%.3g us" % (seconds * 1e6)


def under_malice():
    wanted = sys.argv[3:]
    start = best([PROGRAM, "script", "512", os.devnull], 20)
    print("load %.1f, %d processors; an empty script takes %.4f s, which the ratios leave out\n" %
          (os.getloadavg()[0], os.cpu_count(), start))
    print("| How many, and of what | Bytes | `cat` | Half: time | Time, memory | Ratio | Within %s | Each more |" % ALLOWED)
    print("|---|---|---|---|---|---|---|---|")
    for name, half, make in UNLUCKY:
        if wanted and not any(w in name for w in wanted):
            continue
        one, two = tried(make, half), tried(make, 2 * half)
        net = lambda trial: max(trial[2][0] - start, 0.001)
        ratio = lambda: net(two) / net(one) if one[2] and two[2] else None
        rounds = 1
        while rounds < 3 and ratio() and ratio() > ALLOWED and two[2][0] < 30:
            one, two = lesser(one, tried(make, half)), lesser(two, tried(make, 2 * half))
            rounds += 1
        row = [format(2 * half, ",") + " " + name, format(two[0], ","), "%.3f s" % two[1]]
        row += ["%.3f s" % one[2][0] if one[2] else told(None), told(two[2]) + two[3]]
        if ratio():
            row += ["%.2f" % ratio(), "yes" if ratio() <= ALLOWED else "**no**", each((two[2][0] - one[2][0]) / half)]
        print("| %s |" % " | ".join(row), flush=True)
    if "FIGURES" not in os.environ:
        shutil.rmtree(FOLDER, ignore_errors=True)


def main():
    print("load %.1f, %d processors\n" % (os.getloadavg()[0], os.cpu_count()))
    print("| `script SIZE` | Script |%s Of a plain copy of the zone |" % (" Time, memory |" * len(PROGRAMS)))
    print("|---|---|%s---|" % ("---|" * len(PROGRAMS)))
    for size, name, text in SCRIPTS:
        path = put("script", text)
        found = [measured([p, "script", size, path], 3) for p in PROGRAMS]
        copy = plain(size)
        times = "%.0f" % (found[0][0] / copy) if copy and found[0] else "?"
        print("| %s | %s | %s | %s |" % (size, name, " | ".join(map(told, found)), times), flush=True)
    print("\nA bare loop of 49,999 moves of 1,328 bytes: %s s" % plain(134217728, 49999, 1328))
    print("\n| Job |%s\n|---|%s" % (" Time |" * len(PROGRAMS), "---|" * len(PROGRAMS)))
    whole, alone = applications(64)
    for name, times, job in (("64 applications in one memory", 1, whole), ("64 times one alone", 64, alone)):
        row = ["%.2f s" % min(sum(run_job(p, job) for _ in range(times)) for _ in range(3)) for p in PROGRAMS]
        print("| %s | %s |" % (name, " | ".join(row)), flush=True)
    print("\n| Fork | `cat` | `map` | `check` |\n|---|---|---|---|")
    for make in FORKS:
        path = put(make.__name__, make())
        cat = best(["/bin/cat", path], 20)
        row = [best([PROGRAM, word, path], 10) for word in ("map", "check")]
        times = ["%.1f ms, %.0f times" % (t * 1000, t / cat) for t in row]
        print("| %s | %.1f ms | %s |" % (make.__doc__, cat * 1000, " | ".join(times)))


under_malice() if MALICE else main()
