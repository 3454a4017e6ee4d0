"""Random calls of the Memory Manager by the library, and the same calls as scripts by the program: what they return is the same.

usage: random_calls.py LIBRARY PROGRAM [CALLS]      (100,000 calls)

Each zone has up to 200 calls, of all of the table, on handles and pointers of its own, some of which were disposed of, and on names that
are unbound. What the library gives of a call is written as the line of a transcript, and compared with the program's. After its calls the
bytes of each block are looked up in the bytes of the whole zone. The last line is 'N passed, M failed', of calls and blocks.
"""
import random
import subprocess
import sys
import tempfile

import macmem

CALLS_OF_A_ZONE = 200
SIZES = 512, 1024, 2048, 8192, 32768
UNBOUND = 2**64 - 1


def spelled_as(some):
    """Bytes as a script spells them."""
    return "$" + some.hex() if some else '""'


class Trial:
    """A zone, the calls that were made on it, and what they gave."""

    def __init__(self, library, seed):
        self.random = random.Random(seed)
        self.size = self.random.choice(SIZES)
        self.zone = library.zone(self.size)
        self.names = {}
        self.lines, self.told = [], []

    def name(self, letter):
        """The name of a handle or a pointer, mostly one of the kind that the call takes."""
        if self.names and self.random.random() < 0.97:
            of_kind = [it for it in self.names if it[0] == letter] or list(self.names)
            return self.random.choice(of_kind if self.random.random() < 0.95 else list(self.names))
        return letter + "_unbound"

    def number(self, name):
        """The number to which a name is bound."""
        return self.names.get(name, UNBOUND)

    def amount(self):
        """A size in bytes."""
        return self.random.choice((0, 1, 16, self.random.randrange(300), self.random.randrange(self.size)))

    def bytes(self):
        """Some bytes, as a script spells them and as they are."""
        some = self.random.randbytes(self.random.randrange(1, 20))
        return "$" + some.hex(), some

    def tell(self, words, code, *values):
        """Keeps a call and what it gave."""
        self.lines.append(" ".join(map(str, words)))
        self.told.append(" ".join(map(str, (len(self.lines), words[0], code, *(values if code == 0 else ())))))

    def make(self, word, call, letter, *arguments):
        """A call that makes a handle or a pointer."""
        new = f"{letter}{len(self.lines)}"
        code, number = call(*[it[1] for it in arguments])
        if code == 0:
            self.names[new] = number
        self.tell((word, new, *[it[0] for it in arguments]), code)

    def do(self, word, call, *arguments):
        """A call that gives nothing."""
        self.tell((word, *[it[0] for it in arguments]), call(*[it[1] for it in arguments]))

    def ask(self, word, call, *arguments):
        """A call that gives a number."""
        code, number = call(*[it[1] for it in arguments])
        self.tell((word, *[it[0] for it in arguments]), code, number)

    def step(self):
        """One random call."""
        zone, choose = self.zone, self.random.random()
        handle, pointer, other = self.name("h"), self.name("p"), self.name("h")
        h, p, o = (handle, self.number(handle)), (pointer, self.number(pointer)), (other, self.number(other))
        size = (self.amount(),) * 2
        spelled, some = self.bytes()
        if choose < 0.25:
            self.make("NewHandle", zone.new_handle, "h", size)
        elif choose < 0.32:
            self.make("NewPtr", zone.new_ptr, "p", size)
        elif choose < 0.33:
            self.make("PtrToHand", lambda bytes: zone.ptr_to_hand(bytes, len(bytes)), "h", (spelled, some))
        elif choose < 0.34:
            self.make("NewEmptyHandle", zone.new_empty_handle, "h")
        elif choose < 0.35:
            self.make("RecoverHandle", zone.recover_handle, "h", (self.place(h[1]),) * 2)
        elif choose < 0.39:
            self.munger(h, spelled, some)
        elif choose < 0.42:
            self.make("HandToHand", zone.hand_to_hand, "h", h)
        else:
            self.other_step(h, p, o, size, spelled, some)

    def place(self, number):
        """Where the content of a handle's block begins, or some place."""
        code, place = self.zone.where(number)
        return place if code == 0 else self.random.randrange(self.size)

    def munger(self, h, spelled, some):
        """Bytes of a handle's block that are replaced, or sought."""
        code, shown = self.zone.bytes_of("show", h[1])
        at, count = self.random.randrange(20), self.random.randrange(6)
        old = shown[at : at + count] if code == 0 and self.random.random() < 0.8 else self.random.randbytes(count)
        kind, start = self.random.random(), self.random.randrange(12)
        if kind < 0.5:
            words = start, spelled_as(old), spelled
            given = self.zone.munger(h[1], start, old, len(old), some, len(some))
        elif kind < 0.8:
            words = start, count, spelled
            given = self.zone.munger_count(h[1], start, count, some, len(some))
        else:
            words = start, spelled_as(old), "NIL"
            given = self.zone.munger_nil(h[1], start, old, len(old))
        self.tell(("Munger", h[0], *words), *given)

    def other_step(self, h, p, o, size, spelled, some):
        """One random call that makes no handle or pointer."""
        zone = self.zone
        state, at = (self.random.choice((0, 64, 128, 192)),) * 2, (self.random.randrange(20),) * 2
        word, call, *arguments = self.random.choice((
            ("DisposeHandle", zone.dispose_handle, h),
            ("SetHandleSize", zone.set_handle_size, h, size),
            ("SetHandleSize", zone.set_handle_size, h, size),
            ("ReallocateHandle", zone.reallocate_handle, h, size),
            ("EmptyHandle", zone.empty_handle, h),
            ("HandAndHand", zone.hand_and_hand, h, o),
            ("HLock", zone.h_lock, h),
            ("HUnlock", zone.h_unlock, h),
            ("HUnlock", zone.h_unlock, o),
            ("HPurge", zone.h_purge, h),
            ("HNoPurge", zone.h_no_purge, h),
            ("HSetState", zone.h_set_state, h, state),
            ("MoveHHi", zone.move_h_hi, h),
            ("HLockHi", zone.h_lock_hi, h),
            ("DisposePtr", zone.dispose_ptr, p),
            ("SetPtrSize", zone.set_ptr_size, p, size),
            ("PurgeMem", zone.purge_mem, size),
            ("ReserveMem", zone.reserve_mem, size),
            ("MoreMasters", zone.more_masters),
            ("GetHandleSize", zone.get_handle_size, h),
            ("HandleZone", zone.handle_zone, h),
            ("PtrZone", zone.ptr_zone, p),
            ("HGetState", zone.h_get_state, h),
            ("GetPtrSize", zone.get_ptr_size, p),
            ("MaxMem", zone.max_mem),
            ("Where", zone.where, h),
            ("Where", zone.where, p),
            ("PtrAndHand", zone.ptr_and_hand, h, (spelled, some)),
            ("PtrToXHand", zone.ptr_to_x_hand, h, (spelled, some)),
            ("BlockMove", zone.block_move, h, at, self.random.choice((h, o, p)), at, (len(some),) * 2),
            ("Put", zone.put, h, at, (spelled, some)),
            ("PutPtr", zone.put_ptr, p, at, (spelled, some)),
            ("Show", "show", h),
            ("ShowPtr", "show_ptr", p),
            ("FreeMem", zone.free_mem),
            ("MaxBlock", zone.max_block),
            ("CompactMem", zone.compact_mem, size),
            ("PurgeSpace", zone.purge_space),
            ("MemError", zone.mem_error),
        ))
        if word in ("Show", "ShowPtr"):
            code, shown = zone.bytes_of(call, arguments[0][1])
            self.tell((word, arguments[0][0]), code, *(["$" + shown.hex()] if code == 0 else []))
        elif word in ("Put", "PutPtr"):
            name, offset, (spelled, some) = arguments
            self.tell((word, name[0], offset[0], spelled), call(name[1], offset[1], some, len(some)))
        elif word in ("PtrAndHand", "PtrToXHand"):
            self.tell((word, arguments[0][0], spelled), call(arguments[0][1], some, len(some)))
        elif word in ("FreeMem", "MaxBlock", "CompactMem", "MemError"):
            self.tell((word, *[it[0] for it in arguments]), 0, call(*[it[1] for it in arguments]))
        elif word == "PurgeSpace":
            self.tell((word,), 0, *call())
        elif word in ("GetHandleSize", "HGetState", "GetPtrSize", "MaxMem", "Where", "HandleZone", "PtrZone"):
            self.ask(word, call, *arguments)
        else:
            self.do(word, call, *arguments)

    def blocks(self):
        """For each name that has a block, whether its bytes stand in those of the zone where Where says."""
        image = self.zone.image()
        for name, number in self.names.items():
            code, place = self.zone.where(number)
            _, shown = self.zone.bytes_of("show" if name[0] == "h" else "show_ptr", number)
            if code == 0:
                yield name, image[place : place + len(shown)] == shown


def transcript(program, size, lines):
    """The lines of calls that the program prints."""
    with tempfile.NamedTemporaryFile("w", suffix=".script") as it:
        it.write("\n".join(lines) + "\n")
        it.flush()
        run = subprocess.run([program, "script", str(size), it.name], capture_output=True, text=True, check=True)
    return run.stdout.splitlines()[1:-1]


def main():
    library, program = macmem.Library(sys.argv[1]), sys.argv[2]
    wanted = int(sys.argv[3]) if len(sys.argv) > 3 else 100_000
    passed = failed = seed = 0
    while wanted > 0:
        trial = Trial(library, seed)
        for _ in range(min(CALLS_OF_A_ZONE, wanted)):
            trial.step()
        wanted -= len(trial.lines)
        for name, lies in trial.blocks():
            passed, failed = passed + lies, failed + (not lies)
            if not lies:
                print(f"zone {seed} of {trial.size} bytes: the block of {name} does not lie where Where says")
        trial.zone.free()
        given = transcript(program, trial.size, trial.lines)
        for line, told, printed in zip(trial.lines, trial.told, given, strict=True):
            if told == printed:
                passed += 1
            else:
                failed += 1
                print(f"zone {seed} of {trial.size} bytes: {line}: library {told!r}, program {printed!r}")
        seed += 1
    print(f"{passed} passed, {failed} failed")
    return 1 if failed else 0


if __name__ == "__main__":
    sys.exit(main())
