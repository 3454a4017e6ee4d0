#!/usr/bin/env python3
"""Looks how long the sources are that the program prints of large resources.

usage: tools/text_sizes.py PROGRAM

Of each type of types/types.r resources are made with some 50,000 bytes, if the type has an array or a string that can be long, and
with values whose text is long: long names, strings that need an escape for each byte, bytes in the places of fills. `derez` prints them
with --numbers, and with --utf8 beside that. Each text is to be a statement `resource`, of at most 25 bytes for each byte of the
resource, and 4096 for what stands once: the statement `type`, the head, and the fields outside of arrays.

The last line is 'N passed, M failed', of texts.
"""
import os
import random
import subprocess
import sys
import tempfile

from fuzz import Content, Reference, canonical
from rez_language import Align, Array, Bits, Corners, Count, Fill, Number, Run, Text
from rez_sources import is_element, table_of_types
from rez_types import Misfit, encode

MOST_A_BYTE, ONCE = 25, 4096
LARGE, INSIDE = 50000, 3
# The styles with the longest texts.
STYLES = ["--numbers"], ["--numbers", "--utf8"]
# How long strings and inner arrays are, and of which byte strings are: one that needs an escape, and one after which a line ends.
SHAPES = [(0, 0, b"\x01"), (1, 0, b"\x01"), (20, INSIDE, b"\x01"), (20, INSIDE, b"\r"), (200, INSIDE, b"\xff")]


class Large:
    """Makes values of one shape."""

    def __init__(self, chance, length, inside, byte, is_deep):
        self.chance, self.length, self.inside, self.byte, self.is_deep = chance, length, inside, byte, is_deep

    def number(self, part):
        """The number whose text is longest: that of the longest name, or the greatest below 0."""
        texts = [(len(name), number) for name, number in part.names] + [(len(str(1 << part.width - 1)) + 1, 1 << part.width - 1)]
        return max(texts)[1]

    def part(self, part):
        if isinstance(part, Number):
            return self.number(part)
        return 1 if isinstance(part, Bits) else None

    def text(self, field):
        if field.end is None:
            return self.byte * LARGE
        length = 1 if field.end == "char" else field.end if isinstance(field.end, int) else self.length
        return self.byte * length

    def elements(self, field, depth, most):
        """The elements of an array: many, or, of one in another, few."""
        how, end = field.end
        few = 1 if self.is_deep and any(isinstance(it, Array) for it in field.fields) else self.inside if depth else LARGE
        few = LARGE if self.is_deep and depth and not any(isinstance(it, Array) for it in field.fields) else few
        count = end if how == "fixed" else min(few, most[end]) if how == "count" else few
        values = self.values(field.fields, depth + 1)
        length = len(encode(field.fields, values))
        if how == "before" and not is_element(field.fields, values, end):
            return []
        return [values] * min(count, max(1, LARGE // length)) if how != "fixed" else [values] * count

    def field(self, field, depth, most):
        if isinstance(field, Run):
            return [self.part(it) for it in field.parts]
        if isinstance(field, Fill):
            return bytes([1]) * field.length
        if isinstance(field, Align):
            return b""
        if isinstance(field, Text):
            return self.text(field)
        if isinstance(field, Corners):
            return [0x8000] * field.count
        if isinstance(field, Array):
            return self.elements(field, depth, most)
        place = self.chance.randrange(len(field.cases))
        return place, self.values(field.cases[place].fields, depth)

    def values(self, fields, depth=0):
        most = [(1 << it.width) - 1 for field in fields if isinstance(field, Run) for it in field.parts if isinstance(it, Count)]
        return [self.field(it, depth, most) for it in fields]


def resources():
    """Resources of each type: the type, and the bytes."""
    for kind, fields in table_of_types().items():
        found = set()
        for number, (length, inside, byte) in enumerate(SHAPES * 4):
            try:
                found.add(encode(fields, Large(random.Random(number), length, inside, byte, number % 2).values(fields)))
            except Misfit:
                pass
        for data in sorted(found):
            yield kind, data


def main(program):
    passed, failed, most = 0, 0, (0, "")
    with tempfile.TemporaryDirectory(prefix="text-sizes-") as room:
        for kind, data in resources():
            with open(f"{room}/fork", "wb") as file:
                file.write(canonical(Content(bytes(240), 0, [(kind, [Reference(128, None, 0, data)])])))
            for style in STYLES:
                ran = subprocess.run([program, "derez", *style, f"{room}/fork"], stdin=subprocess.DEVNULL, stdout=subprocess.PIPE)
                text, name = ran.stdout, f"'{kind.decode()}' of {len(data)} bytes {' '.join(style)}"
                right = ran.returncode == 0 and b"\nresource '" in text and len(text) <= MOST_A_BYTE * len(data) + ONCE
                passed, failed = passed + right, failed + (not right)
                most = max(most, ((len(text) - ONCE) / max(1, len(data)), name))
                if not right:
                    print(f"{name}: {len(text)} bytes of text, which begins {text[:60]!r}")
    print(f"the longest, but for {ONCE} bytes: {most[0]:.1f} bytes a byte, {most[1]}")
    print(f"{passed} passed, {failed} failed")
    return 1 if failed or not passed else 0


if __name__ == "__main__":
    if len(sys.argv) != 2:
        sys.exit(__doc__)
    sys.exit(main(os.path.abspath(sys.argv[1])))
