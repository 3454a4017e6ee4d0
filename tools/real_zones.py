#!/usr/bin/env python3
"""Lays heap zones as a real Macintosh does, and says what a reader is to print of them.

usage: tools/real_zones.py [--seed N] [--count N] FOLDER
       tools/real_zones.py [--seed N] [--count N] --scripts MACMEM
       tools/real_zones.py --examples
       tools/real_zones.py --large FILE

Writes FOLDER/zones.dumps, a line for each dump: list, draw or script, the form (24 or 32), the addresses of its first byte and of the zone, and its
bytes, in hexadecimal; and FOLDER/zones.listed, what is to be printed of them (crates/worked_cases/data): the blocks, and the rule that is broken. Half of the
zones are sound, and one rule is broken in each of the others. The layout is that of Inside Macintosh: Memory, chapter 2, and of
resource maps that of More Macintosh Toolbox, chapter 1; nothing of it is taken from the reader.

With --examples writes examples/memory.dump, the memory of a Macintosh with a system zone and an application zone, and
examples/overrun.dump, in which a text was written past the end of a block of the application zone; and prints what macmem zone is to
print of the two zones. The application zone has the map of a resource file.

With --scripts has the program MACMEM print a script of each sound zone, runs it, and compares: each call is done, and the zone that
"heap --plain" shows has the blocks that "zone --plain" lists, in their order, with their logical sizes, locked and purgeable.

With --large writes FILE, a dump that is a zone of 16 MB with 100,000 blocks at the address 0x1000, in the form of 32 bits.
"""
import argparse
import os
import random
import subprocess
import sys
import tempfile

FREE, NONRELOCATABLE, RELOCATABLE = 0, 1, 2
UNKNOWN = 3
NAMES = {FREE: "free", NONRELOCATABLE: "nonrelocatable", RELOCATABLE: "relocatable", UNKNOWN: "unknown"}
RECORD = 52


class Block:
    """A block that is to be laid: its kind, its logical size, and of a relocatable one the flags."""

    def __init__(self, kind, logical, flags=0, masters=0):
        self.kind, self.logical, self.flags, self.masters = kind, logical, flags, masters
        self.place = self.size = self.correction = 0
        self.master = None
        self.map = None


class Map:
    """A resource map: its types in their order, each with its references, of which each is an ID and the block of its resource, None
    where that is not loaded. A damaged one has a reference past its end."""

    def __init__(self, types, is_damaged=False):
        self.types, self.is_damaged = types, is_damaged

    def size(self):
        return 30 + sum(8 + 12 * len(references) for _, references in self.types) - (4 if self.is_damaged else 0)

    def content(self, handle_of, high):
        """The bytes of the map, where blocks have these handles, and their high byte is set so."""
        size = 30 + sum(8 + 12 * len(references) for _, references in self.types)
        fixed = bytes(range(1, 17)) + bytes((0, 0, 0, 0, 0, 2, 0, 0)) + word(28) + word(self.size())
        entries, lists = b"", b""
        for kind, references in self.types:
            offset = 2 + 8 * len(self.types) + len(lists)
            entries += kind + word(len(references) - 1) + word(offset)
            for number, block in references:
                handle = 0 if block is None else handle_of(block) | high << 24
                lists += word(number) + b"\xFF\xFF" + bytes((0, 0, 1, 4)) + handle.to_bytes(4, "big")
        content = fixed + word(len(self.types) - 1) + entries + lists
        assert len(content) == size
        return content[:self.size()]


def word(number):
    return (number & 0xFFFF).to_bytes(2, "big")


def kind_text(kind):
    """A resource type as it is printed."""
    if all(32 <= byte <= 126 and byte != 39 for byte in kind):
        return "'%s'" % kind.decode("ascii")
    return "$" + kind.hex().upper()


class Zone:
    """A zone of 24 or 32 bits, whose sizes are multiples of `grain`."""

    def __init__(self, form, grain, address, blocks):
        self.form, self.grain, self.address, self.blocks = form, grain, address, blocks
        self.header = 8 if form == 24 else 12
        at = RECORD
        for block in blocks:
            size = max(12, self.header + block.logical)
            size += -size % grain
            block.place, block.size = at, size
            block.correction = size - self.header - block.logical
            at += size
        self.length = at

    def lay(self, draw):
        """The bytes of the zone: record and blocks. Sets the master pointer of each relocatable block."""
        self.bytes = bytearray(self.length)
        slots = [b.place + self.header + 4 * i for b in self.blocks for i in range(b.masters)]
        draw.shuffle(slots)
        for block in self.blocks:
            self.content(block, draw)
            if block.kind == RELOCATABLE:
                block.master = slots.pop()
        for block in self.blocks:
            self.head(block)
            if block.kind == RELOCATABLE:
                pointer = self.address + block.place + self.header
                self.long(block.master, pointer | (block.flags << 24 if self.form == 24 else 0))
        for block in self.blocks:
            if block.map is not None:
                high = draw.choice((0, 0x20, 0xE0)) if self.form == 24 else 0
                content = block.map.content(lambda b: self.address + b.master, high)
                start = block.place + self.header
                self.bytes[start:start + len(content)] = content
        self.free_masters = slots
        for slot, following in zip(slots, slots[1:] + [None]):
            self.long(slot, 0 if following is None else self.address + following)
        self.long(0, self.address + self.length)
        self.long(8, self.address + slots[0] if slots else 0)
        self.long(12, sum(b.size for b in self.blocks if b.kind == FREE))
        self.bytes[20:22] = (64).to_bytes(2, "big")
        return self.bytes

    def resource_of(self, block):
        """What is printed of a block as a resource."""
        if block.kind != RELOCATABLE or not block.flags & 0x20:
            return "-"
        for other in self.blocks:
            if other.kind == RELOCATABLE and other.map is not None and not other.map.is_damaged:
                for kind, references in other.map.types:
                    for number, named in references:
                        if named is block:
                            return "%s %d" % (kind_text(kind), number)
        return "resource"

    def content(self, block, draw):
        start = block.place + self.header
        for at in range(start, block.place + block.size):
            self.bytes[at] = draw.choice((0, 0x55, 0xAA, 0xFF))

    def head(self, block):
        owner = {FREE: 0, NONRELOCATABLE: self.address, RELOCATABLE: block.master}[block.kind]
        correction = 0 if block.kind == FREE else block.correction
        if self.form == 24:
            self.bytes[block.place] = block.kind << 6 | correction
            self.bytes[block.place + 1:block.place + 4] = block.size.to_bytes(3, "big")
            self.long(block.place + 4, owner)
        else:
            flags = block.flags if block.kind == RELOCATABLE else 0
            self.bytes[block.place:block.place + 4] = bytes((block.kind << 6, flags, 0, correction))
            self.long(block.place + 4, block.size)
            self.long(block.place + 8, owner)

    def long(self, at, number):
        self.bytes[at:at + 4] = number.to_bytes(4, "big")

    def owner_place(self, block):
        return block.place + (4 if self.form == 24 else 8)


def line_of(zone, block):
    """The line that is printed of a block."""
    logical = "-" if block.kind in (FREE, UNKNOWN) else str(block.logical)
    master = "%08X" % (zone.address + block.master) if block.kind == RELOCATABLE else "-       "
    flags = block.flags if block.kind == RELOCATABLE else 0
    return "%08X%10d%10s %-15s%s %-7s%-10s%s\n" % (
        zone.address + block.place, block.size, logical, NAMES[block.kind], master,
        "locked" if flags & 0x80 else "-", "purgeable" if flags & 0x40 else "-", zone.resource_of(block))


def total_of(name, blocks):
    return "%-15s%8d%11d\n" % (name, len(blocks), sum(b.size for b in blocks))


def title_of(zone):
    return "zone %08X: %d bits, %d bytes\n\n" % (zone.address, zone.form, zone.length)


def text_of(zone):
    """What is printed of a zone: of one that is damaged, of the blocks before the first whose physical size is wrong."""
    blocks = zone.blocks
    kinds = {k: [b for b in blocks if b.kind == k] for k in NAMES}
    moving = kinds[RELOCATABLE]
    return (
        title_of(zone)
        + "address       size   logical what           master   locked purgeable resource\n"
        + "".join(line_of(zone, b) for b in blocks)
        + "\nwhat             blocks      bytes\n"
        + total_of("free", kinds[FREE]) + total_of("nonrelocatable", kinds[NONRELOCATABLE])
        + total_of("relocatable", moving)
        + total_of("locked", [b for b in moving if b.flags & 0x80])
        + total_of("purgeable", [b for b in moving if b.flags & 0xC0 == 0x40])
        + total_of("all", blocks))


def escaped(text):
    return text.replace("&", "&amp;").replace("<", "&lt;").replace(">", "&gt;")


def bins_of(blocks):
    """The bins of a picture: of more than 800 blocks neighbours are one bin until they have a 400th of the bytes, and a block that has
    as many stands alone."""
    if len(blocks) <= 800:
        return [[b] for b in blocks]
    least = sum(b.size for b in blocks) // 400 + 1
    bins, begun = [], []
    for block in blocks:
        if begun and (sum(b.size for b in begun) >= least or block.size >= least):
            bins.append(begun)
            begun = []
        begun.append(block)
    return bins + [begun]


def classes_of(bin):
    """The kind that most bytes of a bin have, and what most of them are marked as."""
    def most(holds):
        return 2 * sum(b.size for b in bin if holds(b)) > sum(b.size for b in bin)

    moving = [b for b in bin if b.kind == RELOCATABLE]
    return ("s" + " f" * most(lambda b: b.kind == FREE) + " n" * most(lambda b: b.kind == NONRELOCATABLE)
            + " r" * most(lambda b: b in moving) + " l" * most(lambda b: b in moving and b.flags & 0x80)
            + " p" * most(lambda b: b in moving and b.flags & 0xC0 == 0x40))


def box_of(zone, bin):
    """What is drawn of a bin."""
    if len(bin) == 1:
        title = line_of(zone, bin[0])
    else:
        title = "%08X\n" % (zone.address + bin[0].place) + "".join(
            total_of(NAMES[kind], [b for b in bin if b.kind == kind]) for kind in (FREE, NONRELOCATABLE, RELOCATABLE))
    return '<rect class="%s" x="%d" width="%d" height="1"><title>%s</title></rect>\n' % (
        classes_of(bin), bin[0].place, sum(b.size for b in bin), escaped(title))


def sample(x, name, text):
    return '<rect class="%s" x="%d" y="46" width="16" height="12"/><text x="%d" y="56">%s</text>' % (name, x, x + 22, text)


LIGHT = ("text{fill:#222}rect{stroke:#555;stroke-width:.5;vector-effect:non-scaling-stroke}.b{fill:#fff}.u{fill:#777}.s{fill:#ddd29a}"
         ".f{fill:#f4f4f4}.n{fill:#f2b27a}.r{fill:#9cc8ea}.l{fill:#f0a0a0}.p{fill-opacity:.5}.d{fill:#c22}.b,.d{stroke:none}")
DARK = ("text{fill:#eee}rect{stroke:#aaa}.b{fill:#161616}.s{fill:#6b6236}.f{fill:#2c2c2c}.n{fill:#8a5524}.r{fill:#2b5f86}.l{fill:#8a3030}"
        ".d{fill:#f66}")
LEGEND = ((12, "f", "free"), (84, "n", "nonrelocatable"), (226, "r", "relocatable"), (346, "r l", "locked"), (434, "r p", "purgeable"),
          (542, "s", "mixed or unknown"), (696, "u", "no block"), (798, "d", "damaged"))


def picture_of(zone, fault):
    """The picture of a zone, of which the fault is the line below the totals, if it has one."""
    rows = min(64, len(zone.blocks) // 12 + 1)
    width = zone.length // rows + 1
    height = 84 + 24 * rows
    text = ('<svg xmlns="http://www.w3.org/2000/svg" width="972" height="%d" viewBox="0 0 972 %d" font-family="monospace" font-size="11">\n'
            '<style>%s@media(prefers-color-scheme:dark){%s}</style>\n<rect class="b" width="100%%" height="100%%"/>\n'
            '<text x="12" y="18" font-size="13">%s</text>\n<text x="12" y="36">%s</text>\n%s\n' % (
                height, height, LIGHT, DARK, title_of(zone), fault, "".join(sample(*one) for one in LEGEND)))
    text += ('<defs><g id="z"><rect class="u" height="1" width="%d"><title>no block</title></rect>\n' % zone.length
             + "".join(box_of(zone, bin) for bin in bins_of(zone.blocks)))
    if fault:
        place = max(0, int(fault.split()[2].rstrip(":"), 16) - zone.address)
        text += '<rect class="d" x="%d" width="%d" height="1"><title>%s</title></rect>\n' % (place, width // 200 + 1, fault)
    text += "</g></defs>\n"
    for row in range(rows):
        text += ('<text x="12" y="%d">%08X</text><svg x="84" width="876" height="18" y="%d" viewBox="%d 0 %d 1" preserveAspectRatio="none">'
                 '<use href="#z"/></svg>\n' % (85 + 24 * row, zone.address + row * width, 72 + 24 * row, row * width, width))
    return text + "</svg>\n"


NOTES = """# The blocks stand in the order of the dump, with their logical sizes, locked and purgeable
# as there. hADDRESS is the handle of the master pointer at ADDRESS of the dump, pADDRESS a
# pointer to the nonrelocatable block there; fADDRESS holds the place of the free block there,
# until it is disposed of.
# Not the same are: headers, of 16 bytes, and physical sizes, which are multiples of 16 (those of
# free blocks are rounded up, and free neighbours are one block); the master pointers, of which
# 64 stand in each block at the bottom (those that hold them in the dump are blocks as others);
# addresses; what the blocks hold, which is 0; and which handles are those of resources.
"""


def here(block):
    """The logical size of the block that is made for a block."""
    return max(0, block.size - 16) if block.kind == FREE else block.logical


def script_of(zone):
    """The script that makes a zone anew."""
    moving = sum(b.kind == RELOCATABLE for b in zone.blocks)
    more = max(0, moving - 1) // 64
    size = max(512, 272 * (1 + more) + sum(16 + (here(b) + 15) // 16 * 16 for b in zone.blocks))
    making, ending = "MoreMasters\n" * more, ""
    for block in zone.blocks:
        if block.kind == RELOCATABLE:
            name = "h%08X" % (zone.address + block.master)
            making += "NewHandle %s %d\nHLock %s\n" % (name, block.logical, name)
            making += "HPurge %s\n" % name if block.flags & 0x40 else ""
            ending += "" if block.flags & 0x80 else "HUnlock %s\n" % name
        else:
            name = "%s%08X" % ("f" if block.kind == FREE else "p", zone.address + block.place)
            making += "NewPtr %s %d\n" % (name, here(block))
            ending += "DisposePtr %s\n" % name if block.kind == FREE else ""
    head = "# The zone at %08X of a dump, of %d bits, made anew in a fresh partition of %d bytes.\n" % (zone.address, zone.form, size)
    return head + NOTES + making + ending


KINDS = (b"ICN#", b"CODE", b"snd ", b"\0\0\0\1", b"it's", b"a<b&", b"caf\x8E")


def random_map(draw, blocks):
    """A map with resources of some blocks, and with others that are not loaded."""
    left = [b for b in blocks if b.kind == RELOCATABLE and draw.randrange(3)]
    types = []
    for kind in draw.sample(KINDS, draw.randint(0, 3)):
        references = []
        for _ in range(draw.randint(1, 3)):
            references.append((draw.randint(-32768, 32767), left.pop() if left and draw.randrange(3) else None))
        types.append((kind, references))
    return Map(types, bool(types) and draw.randrange(5) == 0)


def random_zone(draw):
    form = draw.choice((24, 32))
    grain = draw.choice((2, 4)) if form == 24 else draw.choice((4, 16))
    blocks = [Block(NONRELOCATABLE, 4 * 10, masters=10)]
    moving = 0
    for _ in range(draw.randint(3, 9)):
        kind = draw.choice((FREE, NONRELOCATABLE, RELOCATABLE, RELOCATABLE))
        if kind == RELOCATABLE and moving == 5:
            kind = FREE
        moving += kind == RELOCATABLE
        blocks.append(Block(kind, draw.randint(4, 40), draw.choice((0, 0x80, 0x40, 0x60, 0x20, 0xE0))))
    if not any(b.kind == RELOCATABLE for b in blocks):
        blocks.append(Block(RELOCATABLE, 10, 0x80))
    for block in blocks:
        if block.kind == FREE:
            block.flags = 0
    named = list(blocks)
    for _ in range(draw.randint(0, 3)):
        laid = random_map(draw, named)
        block = Block(draw.choice((RELOCATABLE, RELOCATABLE, RELOCATABLE, NONRELOCATABLE)), laid.size() + draw.randint(0, 5), 0)
        if laid.is_damaged:
            block.logical = laid.size()
        block.map = laid
        blocks.insert(draw.randint(1, len(blocks)), block)
    return Zone(form, grain, 4 * draw.randint(0x400, 0x3F0000), blocks)


def large_zone(draw):
    """A zone with more blocks than are drawn one by one, of which some are large."""
    blocks = [Block(NONRELOCATABLE, 4 * 200, masters=200)]
    for number in range(805):
        kind = draw.choice((FREE, NONRELOCATABLE)) if number % 5 else RELOCATABLE
        size = 400 if draw.randrange(100) == 0 else 4
        blocks.append(Block(kind, size, draw.choice((0, 0x80, 0x40)) if kind == RELOCATABLE else 0))
    return Zone(24, 4, 0x10000, blocks)


def broken(zone, draw):
    """Breaks one rule of a zone, and returns its address and words. The blocks of the zone are then as they are listed."""
    moving = draw.choice([b for b in zone.blocks if b.kind == RELOCATABLE])
    where = zone.address + moving.place
    which = draw.randrange(8)
    if which == 0:
        zone.bytes[moving.place] |= 0xC0
        moving.kind = UNKNOWN
        return "%08X: block type is bad\n" % where
    if which == 1:
        zone.long(zone.owner_place(moving), 40)
        for block in zone.blocks:
            for _, references in block.map.types if block.map is not None else ():
                references[:] = [(number, None if named is moving else named) for number, named in references]
        moving.master = 40
        moving.flags = 0 if zone.form == 24 else moving.flags
        return "%08X: relative handle is bad\n" % where
    if which == 2:
        zone.bytes[moving.master + 3] ^= 4
        return "%08X: master pointer does not point at block\n" % where
    if which == 3:
        zone.long(zone.owner_place(zone.blocks[0]), zone.address + 4)
        return "%08X: nonrelocatable block: pointer to zone is bad\n" % (zone.address + RECORD)
    if which == 4:
        zone.long(12, 1 + int.from_bytes(zone.bytes[12:16], "big"))
        return "%08X: zcbFree does not agree with the free blocks\n" % zone.address
    if which == 5:
        zone.long(8, where + zone.header)
        return "%08X: free master pointer list is bad\n" % (where + zone.header)
    if which == 6:
        zone.long(zone.free_masters[-1], zone.address + zone.free_masters[-1])
        return "%08X: free master pointer list has no end\n" % (zone.address + zone.free_masters[-1])
    last = zone.blocks.pop()
    zone.bytes[last.place + (3 if zone.form == 24 else 7)] ^= 1
    return "%08X: block length is bad\n" % (zone.address + last.place)


SYS_ZONE, APPL_ZONE = 0x2A6, 0x2AA
TEXT = b"The quick brown fox jumps over the lazy dog."


def example_zones():
    """The two zones of the examples, and the block past whose end a text is written."""
    system = Zone(24, 4, 0x400, [
        Block(NONRELOCATABLE, 16, masters=4), Block(NONRELOCATABLE, 24), Block(RELOCATABLE, 30, 0xA0), Block(FREE, 44)])
    short = Block(RELOCATABLE, 33, 0x40)
    icons = Block(RELOCATABLE, 40, 0x60)
    laid = Map([(b"ICN#", [(128, icons), (129, None)])])
    file = Block(RELOCATABLE, laid.size())
    file.map = laid
    application = Zone(24, 4, 0x600, [
        Block(NONRELOCATABLE, 24, masters=6), Block(RELOCATABLE, 100, 0x80), short, Block(RELOCATABLE, 20), Block(FREE, 56), icons, file])
    return system, application, short


def write_examples():
    draw = random.Random(1984)
    system, application, short = example_zones()
    dump = bytearray(0x800)
    for zone in (system, application):
        dump[zone.address:zone.address + zone.length] = zone.lay(draw)
        print(text_of(zone))
    for at, zone in ((SYS_ZONE, system), (APPL_ZONE, application)):
        dump[at:at + 4] = zone.address.to_bytes(4, "big")
    folder = os.path.join(os.path.dirname(os.path.dirname(os.path.abspath(__file__))), "examples")
    with open(os.path.join(folder, "memory.dump"), "wb") as file:
        file.write(dump)
    begin = application.address + short.place + application.header
    dump[begin:begin + len(TEXT)] = TEXT
    with open(os.path.join(folder, "overrun.dump"), "wb") as file:
        file.write(dump)
    print("overrun: a text of %d bytes from %08X on, in a block of %d bytes" % (len(TEXT), begin, short.logical))


def write_large(path):
    """A zone of many blocks, of which two in five are free or nonrelocatable."""
    draw = random.Random(1984)
    kinds = (RELOCATABLE, FREE, RELOCATABLE, NONRELOCATABLE, RELOCATABLE)
    blocks = [Block(NONRELOCATABLE, 4 * 60_000, masters=60_000)]
    blocks += [Block(kinds[i % 5], draw.randint(100, 200), draw.choice((0, 0x40, 0x80)) if kinds[i % 5] == RELOCATABLE else 0)
               for i in range(99_999)]
    with open(path, "wb") as file:
        file.write(Zone(32, 16, 0x1000, blocks).lay(draw))


def printed(program, *words):
    """What the program prints, which is to end with status 0."""
    return subprocess.run([program, *words], check=True, stdout=subprocess.PIPE).stdout.decode("ascii")


def fields_of(text):
    return [line.split("\t") for line in text.splitlines() if line.startswith("block\t")]


def joined(blocks):
    """Blocks of which free neighbours are one: each has its kind, its logical size (of a free one the physical size), and its flags."""
    tidied = []
    for block in blocks:
        if tidied and tidied[-1][0] == "free" == block[0]:
            tidied[-1] = ("free", tidied[-1][1] + block[1], "-", "-")
        elif block[0] != "free" or block[1]:
            tidied.append(block)
    return tidied


def made_as(program, folder, zone):
    """Whether the zone that the script of a zone makes is that zone."""
    dump, script = os.path.join(folder, "dump"), os.path.join(folder, "script")
    with open(dump, "wb") as file:
        file.write(zone.bytes)
    words = ("--base", "%d" % zone.address, dump, "%d" % zone.address)
    text = printed(program, "zone", "--script", *words)
    if text != script_of(zone):
        return False
    with open(script, "w") as file:
        file.write(text)
    size = text.split("partition of ")[1].split()[0]
    codes = [line.split()[2] for line in printed(program, "script", size, script).splitlines()[1:-1]]
    there = [("free", (int(f[2]) + 15) // 16 * 16, "-", "-") if f[4] == "free" else (f[4], int(f[3]), f[6], f[7])
             for f in fields_of(printed(program, "zone", "--plain", *words))]
    made = [("free", int(f[2]), "-", "-") if f[3] == "free" else (f[3], int(f[4]), f[6], f[7])
            for f in fields_of(printed(program, "heap", "--plain", size, script)) if f[3] != "master pointers"]
    left = sum(b[1] for b in made if b[0] == "free") - sum(b[1] for b in there if b[0] == "free")
    return set(codes) == {"0"} and joined(there + [("free", left, "-", "-")]) == made


def try_scripts(program, seed, count):
    """Tries scripts of random zones, and of one with many blocks, and prints how many make their zones."""
    draw = random.Random(seed)
    well = 0
    with tempfile.TemporaryDirectory() as folder:
        for number in range(count):
            zone = large_zone(draw) if number == 0 else random_zone(draw)
            zone.lay(draw)
            if made_as(program, folder, zone):
                well += 1
            else:
                print("zone %d differs" % number)
    print("scripts: %d of %d" % (well, count))
    return well == count


def main():
    parser = argparse.ArgumentParser()
    parser.add_argument("--seed", type=int, default=1984)
    parser.add_argument("--count", type=int, default=60)
    parser.add_argument("--examples", action="store_true")
    parser.add_argument("--large")
    parser.add_argument("--scripts")
    parser.add_argument("folder", nargs="?")
    words = parser.parse_args()
    if words.examples:
        return write_examples()
    if words.large:
        return write_large(words.large)
    if words.scripts:
        return sys.exit(not try_scripts(words.scripts, words.seed, words.count))
    draw = random.Random(words.seed)
    dumps, texts = [], []
    for number in range(words.count + 9):
        is_drawn, is_made = words.count <= number < words.count + 3, number >= words.count + 3
        zone = large_zone(draw) if number in (words.count + 2, words.count + 8) else random_zone(draw)
        zone.lay(draw)
        fault = "" if number % 2 == 0 or is_made else "\ndamaged at " + broken(zone, draw)
        texts.append(script_of(zone) if is_made else picture_of(zone, fault) if is_drawn else text_of(zone) + fault)
        below, above = 4 * draw.randint(0, 8), draw.randint(0, 20)
        dump = bytes(below) + bytes(zone.bytes) + bytes(above)
        dumps.append("%s %d %X %X %s\n" % (
            "script" if is_made else "draw" if is_drawn else "list", zone.form, zone.address - below, zone.address, dump.hex().upper()))
    with open(os.path.join(words.folder, "zones.dumps"), "w") as file:
        file.writelines(dumps)
    with open(os.path.join(words.folder, "zones.listed"), "w") as file:
        file.writelines(texts)


if __name__ == "__main__":
    main()
