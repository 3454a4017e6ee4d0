"""Reads a heap zone of a real Macintosh, and says which of its rules are broken: for fuzz.py.

The rules are those of the README of crates/real_zone, in the order in which they are judged. Nothing is taken from that crate's code.
"""
import collections

FREE, NONRELOCATABLE, RELOCATABLE = 0, 1, 2
RECORD = 52
LEAST_SIZE = 12

# How a zone is laid: the size of a block's header, what sizes and places are multiples of, and the bits of an address; and where in
# a header its size stands, how long it is, and where the size correction and the owner stand.
Layout = collections.namedtuple("Layout", "header grain mask size_at size_length correction_at owner_at")
LAYOUTS = {24: Layout(8, 2, 0xFFFFFF, 1, 3, 0, 4), 32: Layout(12, 4, 0xFFFFFFFF, 4, 4, 3, 8)}


class ReadZone:
    """The zone at an address in a dump, whose first byte stands at `base`."""

    def __init__(self, bits, dump, base, address):
        self.layout, self.address = LAYOUTS[bits], address
        self.bytes = dump[address - base:]
        self.limit = self.number(0, 4) & self.layout.mask
        self.has_limit = RECORD <= self.limit - address <= len(self.bytes)
        self.bytes = self.bytes[:self.limit - address] if self.has_limit else b""
        self.places = self.walked()

    def number(self, at, length):
        return int.from_bytes(self.bytes[at:at + length], "big")

    def long(self, at):
        """The address in a long."""
        return self.number(at, 4) & self.layout.mask

    def kind(self, at):
        return self.bytes[at] >> 6

    def size(self, at):
        return self.number(at + self.layout.size_at, self.layout.size_length)

    def wrong_length(self, at):
        if len(self.bytes) < at + LEAST_SIZE:
            return "BkLim does not agree with heap length"
        if self.size(at) < LEAST_SIZE or self.size(at) % self.layout.grain:
            return "block length is bad"
        return "BkLim does not agree with heap length" if len(self.bytes) < at + self.size(at) else None

    def walked(self):
        """Where the blocks stand, up to the end or to one whose length is bad."""
        places, at = [], RECORD
        while at < len(self.bytes):
            places.append(at)
            if self.wrong_length(at):
                break
            at += self.size(at)
        return places

    def can_have_master(self, at):
        return RECORD <= at <= len(self.bytes) - 4 and at % self.layout.grain == 0

    def wrong_kind(self, at):
        if self.kind(at) == 3:
            return "block type is bad"
        correction = self.bytes[at + self.layout.correction_at] & (0xFF if self.layout.correction_at else 0xF)
        is_long = self.size(at) < self.layout.header + correction
        return "size correction is bad" if self.kind(at) != FREE and is_long else None

    def wrong_owner(self, at):
        owner = self.number(at + self.layout.owner_at, 4)
        if self.kind(at) == NONRELOCATABLE:
            is_own = owner & self.layout.mask == self.address
            return None if is_own else "nonrelocatable block: pointer to zone is bad"
        if self.kind(at) != RELOCATABLE:
            return None
        if not self.can_have_master(owner):
            return "relative handle is bad"
        is_led = self.long(owner) == self.address + at + self.layout.header
        return None if is_led else "master pointer does not point at block"

    def wrong_blocks(self):
        for at in self.places:
            rules = [self.wrong_length(at)]
            if len(self.bytes) >= at + LEAST_SIZE:
                rules += [self.wrong_kind(at), self.wrong_owner(at)]
            yield from ((at, rule) for rule in rules if rule)

    def can_be_free(self, master):
        header = self.layout.header
        return self.can_have_master(master) and any(
            self.kind(at) == NONRELOCATABLE and at + header <= master <= at + self.size(at) - 4 for at in self.places)

    def wrong_list(self):
        """What is wrong with the list of free master pointers, and at which address."""
        address = self.long(8)
        for _ in range(len(self.bytes)):
            if not address:
                return None
            if not self.can_be_free(max(0, address - self.address)):
                return address - self.address, "free master pointer list is bad"
            address = self.long(address - self.address)
        return (address - self.address, "free master pointer list has no end") if address else None

    def wrong(self):
        """All that is wrong, each with its distance from the zone."""
        if not self.has_limit:
            return [(0, "BkLim is bad")]
        found = list(self.wrong_blocks())
        if any(self.wrong_length(at) for at in self.places):
            return found
        found += [it for it in [self.wrong_list()] if it]
        free = sum(self.size(at) for at in self.places if self.kind(at) == FREE)
        return found if free == self.number(12, 4) else found + [(0, "zcbFree does not agree with the free blocks")]


def form_of(dump, base, address):
    """The form in which a zone is judged: the one in which it stands, or else the one in which more blocks do."""
    zones = {bits: ReadZone(bits, dump, base, address) for bits in LAYOUTS}
    sound = [bits for bits in LAYOUTS if not zones[bits].wrong()]
    return sound[0] if sound else max(LAYOUTS, key=lambda bits: (len(zones[bits].places), -bits))


def damages(bits, dump, base, address):
    """The lines that are printed of what is wrong with a zone."""
    zone = ReadZone(bits, dump, base, address)
    return "".join("%08X: %s\n" % (address + at, rule) for at, rule in zone.wrong())
