#!/usr/bin/env python3
"""Types of resources in the language of Rez, for tests of the program: a reader of its own.

usage: tools/rez_types.py --selftest [COUNT]

The language is that of docs/types.md; a text is bytes, and so is what a resource holds.

- `read_source(text, types, files)` returns the resources that a source states, and `body(fields, text)` the bytes that the text between
  the braces of one statement `resource` states. A text that can't be read raises `Wrong`, with the line and the words of the program;
  values that have no bytes raise `Misfit`. `files` has the bytes of each file that a statement `read` names; a text that names another
  one raises `KeyError`.
- `plain_text(text)` returns a text in the bytes of Mac OS Roman, also one that says by a comment that it is UTF-8.
- `decode(fields, data)` returns the values of bytes, or raises `Misfit`; `encode(fields, values)` is the inverse.

Values are a list with one value for each field: of a run a list for its parts (a number; None of a constant and of a count), of a
fill and an alignment their bytes, of a string its bytes, of a point or a rectangle its numbers, of an array a list of the values of
its elements, and of a switch a pair, the place of the case and its values.

The self-test is that of rez_sources.py, which makes sources at random. Its last line is 'N passed, M failed'.
"""
import collections
import sys

from rez_language import (Align, Array, Bits, Constant, Corners, Count, Declaring, Fill, Number, Run, Text, Tokens, Wrong, MOST_BYTES, fits,
                          line_at, require, tokens_of)

# A resource, as a source states it.
Resource = collections.namedtuple("Resource", "kind identifier name attributes data")

ATTRIBUTES = {b"sysheap": 64, b"purgeable": 32, b"locked": 16, b"protected": 8, b"preload": 4}


class Misfit(Exception):
    """Bytes have no values of a type, or values no bytes."""


def parts_of(number, widths):
    """The numbers of parts that stand side by side in a number, the highest first."""
    left = sum(widths)
    return [number >> (left := left - width) & (1 << width) - 1 for width in widths]


# ---- Values of bytes, and bytes of values ----

def decoded_run(parts, data, at, counts):
    length = sum(it.width for it in parts) // 8
    require(at + length <= len(data), Misfit())
    numbers = parts_of(int.from_bytes(data[at:at + length], "big"), [it.width for it in parts])
    values = []
    for part, number in zip(parts, numbers):
        require(not isinstance(part, Constant) or number == part.number, Misfit())
        if isinstance(part, Count):
            counts.append((number + part.is_less_one) % (1 << part.width))
        values.append(None if isinstance(part, (Constant, Count)) else number)
    return values, at + length


def decoded_text(end, data, at):
    start = at + (end == "pstring")
    if end == "pstring":
        require(at < len(data), Misfit())
        after = start + data[at]
    elif end == "cstring":
        after = data.find(b"\0", at)
        require(after >= 0, Misfit())
    else:
        after = len(data) if end is None else at + (1 if end == "char" else end)
    require(after <= len(data), Misfit())
    return data[start:after], after + (end == "cstring")


def decoded_array(field, data, at, counts):
    how, end = field.end
    elements = []
    while True:
        if how == "rest" and at == len(data) or how == "before" and data.startswith(end, at) or \
                how == "fixed" and len(elements) == end or how == "count" and len(elements) == counts[end]:
            return elements, at
        require(at < len(data), Misfit())
        element, at = decoded(field.fields, data, at)
        elements.append(element)


def decoded_switch(field, data, at):
    before, length, below, width = field.place
    require(at + before + length <= len(data), Misfit())
    number = int.from_bytes(data[at + before:at + before + length], "big") >> below & (1 << width) - 1
    place = next((place for place, it in enumerate(field.cases) if it.number == number), None)
    require(place is not None, Misfit())
    values, at = decoded(field.cases[place].fields, data, at)
    return (place, values), at


def decoded(fields, data, at):
    values, counts = [], []
    for field in fields:
        if isinstance(field, Run):
            value, at = decoded_run(field.parts, data, at, counts)
        elif isinstance(field, (Fill, Align)):
            after = at + (field.length if isinstance(field, Fill) else -at % field.unit)
            require(after <= len(data), Misfit())
            value, at = data[at:after], after
        elif isinstance(field, Text):
            value, at = decoded_text(field.end, data, at)
        elif isinstance(field, Corners):
            value, at = decoded_run([Number(16, "signed", [])] * field.count, data, at, counts)
        elif isinstance(field, Array):
            value, at = decoded_array(field, data, at, counts)
        else:
            value, at = decoded_switch(field, data, at)
        values.append(value)
    return values, at


def decode(fields, data):
    """The values of bytes."""
    values, at = decoded(fields, data, 0)
    require(at == len(data), Misfit())
    return values


def encoded_run(parts, values, sizes, out):
    """The bytes of a run; `sizes` are the lengths of the arrays that have counts, in the order of the counts."""
    number = 0
    for part, value in zip(parts, values):
        if isinstance(part, Count):
            value = sizes.pop(0)
            require(value < 1 << part.width, Misfit())
            value = (value - part.is_less_one) % (1 << part.width)
        number = number << part.width | (part.number if isinstance(part, Constant) else value)
    out += number.to_bytes(sum(it.width for it in parts) // 8, "big")


def encoded_text(end, text, out):
    require(fits(end, text), Misfit())
    out += bytes([len(text)]) + text if end == "pstring" else text + b"\0" if end == "cstring" else text


def encoded_array(field, elements, out):
    how, end = field.end
    require(how != "fixed" or len(elements) == end, Misfit())
    for element in elements:
        start = len(out)
        encoded(field.fields, element, out)
        require(how != "before" or not out.startswith(end, start), Misfit())


def encoded(fields, values, out):
    counted = {field.end[1]: len(it) for field, it in zip(fields, values) if isinstance(field, Array) and field.end[0] == "count"}
    sizes = [counted[place] for place in sorted(counted)]
    for field, value in zip(fields, values):
        if isinstance(field, Run):
            encoded_run(field.parts, value, sizes, out)
        elif isinstance(field, (Fill, Align)):
            length = field.length if isinstance(field, Fill) else -len(out) % field.unit
            out += value if len(value) == length else bytes(length)
        elif isinstance(field, Text):
            encoded_text(field.end, value, out)
        elif isinstance(field, Corners):
            out += b"".join(it.to_bytes(2, "big") for it in value)
        elif isinstance(field, Array):
            encoded_array(field, value, out)
        else:
            encoded(field.cases[value[0]].fields, value[1], out)
    require(len(out) <= MOST_BYTES, Misfit())


def encode(fields, values):
    """The bytes of values."""
    out = bytearray()
    encoded(fields, values, out)
    return bytes(out)


# ---- What a statement states ----

class Taking(Tokens):
    """Tokens, read as the values of a type. `stated`: something was stated since the last opening brace, or in the element."""

    stated = False

    def place(self):
        """The place of the next token; the bytes of fills are passed over where no fill is."""
        return next((it for it in range(self.at, len(self.tokens)) if self.tokens[it].kind != "filled"), len(self.tokens))

    def filled(self, lengths):
        """The bytes of a fill, if they are the very next token and as many as one of some lengths."""
        if self.at == self.place() or len(self.tokens[self.at].value) not in lengths:
            return None
        self.at += 1
        return self.tokens[self.at - 1].value

    def is_separator(self):
        return self.is_mark(b",") or self.is_mark(b";")

    def separate(self, what="a comma or a semicolon is needed"):
        if self.stated and not self.is_separator():
            self.refuse(what)
        self.skip(self.stated)
        self.stated = True

    def trail(self):
        self.skip(self.stated and self.is_separator())

    def open(self, what):
        self.take_mark(b"{", what)
        self.stated = False

    def close(self, what):
        self.trail()
        self.take_mark(b"}", what)
        self.stated = True

    def number(self, width, what):
        is_negative = self.is_mark(b"-")
        self.skip(is_negative)
        kind, value = self.next()[1:]
        if kind != "number":
            self.refuse(what)
        if value > 1 << width - 1 if is_negative else value >> width:
            self.refuse(f"a number of {width} bits is out of range")
        self.skip()
        return -value % (1 << width) if is_negative else value

    def named(self, names, what):
        """What the word that stands here is the name of."""
        found = next((value for name, value in names if name.lower() == self.next().value.lower()), None)
        if found is None:
            self.refuse(what)
        self.skip()
        return found

    def integer(self, part):
        self.separate()
        kind, value = self.next()[1:]
        what = "a number is needed, or the name of a constant of its field" if part.names else "a number is needed"
        if kind == "word":
            return self.named(part.names + ([(b"true", 1), (b"false", 0)] if part.form == "boolean" else []), what)
        if kind != "literal":
            return self.number(part.width, what)
        if len(value) > 4:
            self.refuse("more than four characters stand for a number")
        if int.from_bytes(value, "big") >> part.width:
            self.refuse(f"a number of {part.width} bits is out of range")
        return int.from_bytes(self.take(), "big")

    def part(self, part):
        if isinstance(part, Number):
            return self.integer(part)
        if isinstance(part, Bits):
            at, number = self.at, int.from_bytes(self.filled([(part.width + 7) // 8]) or b"", "big")
            self.at = at if number >> part.width else self.at
            return 0 if number >> part.width else number
        return None

    def text(self, field):
        self.separate()
        token = self.next()
        if token.kind == "word" or token.kind not in ("text", "hex"):
            what = "a string is needed, or the name of a constant of its field" if field.names else "a string is needed"
            text = self.named(field.names, what) if token.kind == "word" else self.refuse(what)
        else:
            text = self.strings()
        length = 1 if field.end == "char" else field.end
        what = {"pstring": "a string has more than 255 bytes", "cstring": "a string has a byte of 0, which would end it"}
        require(fits(field.end, text), Wrong(token.line, what.get(field.end, f"a string of length {length} is needed")))
        return text

    def corners(self, count):
        what = "a point must be {v, h}" if count == 2 else "a rectangle must be {top, left, bottom, right}"
        self.separate()
        self.open(what)
        found = []
        for _ in range(count):
            self.separate(what)
            found.append(self.number(16, what))
        self.close(what)
        return found

    def closes(self):
        """A brace closes here, or after a separator."""
        at = self.at
        self.trail()
        found = self.is_mark(b"}")
        self.at = at
        return found

    def begin(self):
        """An element begins: after the separator before it, where that is the very next token."""
        if self.stated and self.at == self.place() and self.is_separator():
            self.skip()
            self.stated = False

    def array(self, field, most):
        self.separate()
        self.open("an array must stand in braces")
        elements = []
        while not self.closes():
            self.begin()
            elements.append(self.fields(field.fields))
        if field.end[0] == "fixed" and len(elements) != field.end[1]:
            self.refuse(f"an array must have so many elements: {field.end[1]}")
        if field.end[0] == "count" and len(elements) >> most[field.end[1]]:
            self.refuse("an array has more elements than its count can state")
        self.close("a closing brace is needed")
        return elements

    def switch(self, field):
        self.separate()
        names = [(it.name, place) for place, it in enumerate(field.cases)]
        what = "the name of a case is needed"
        place = self.named(names, what) if self.next().kind == "word" else self.refuse(what)
        self.open("an opening brace is needed")
        values = self.fields(field.cases[place].fields)
        self.close("a closing brace is needed")
        return place, values

    def field(self, field, most):
        if isinstance(field, Run):
            return [self.part(it) for it in field.parts]
        if isinstance(field, Fill):
            return self.filled([field.length]) or bytes(field.length)
        if isinstance(field, Align):
            return self.filled(range(field.unit)) or b""
        if isinstance(field, Text):
            return self.text(field)
        if isinstance(field, Corners):
            return self.corners(field.count)
        return self.array(field, most) if isinstance(field, Array) else self.switch(field)

    def fields(self, fields):
        most = [it.width for field in fields if isinstance(field, Run) for it in field.parts if isinstance(it, Count)]
        return [self.field(it, most) for it in fields]


def taken(fields, tokens, line=1):
    """The values that tokens state, of a text that begins on a line."""
    statement = Taking(tokens, line)
    values = statement.fields(fields)
    statement.trail()
    if statement.next().kind != "end":
        statement.refuse("nothing more may stand here")
    return values


def body(fields, text):
    """The bytes of a resource, of which the text stands between the braces of a statement."""
    return encode(fields, taken(fields, list(tokens_of(text))))


# ---- Whole sources ----

CODING = b"/* -*- coding: utf-8 -*- */"
MARK = "\ufeff".encode()


def plain_text(text):
    """A text in the bytes of Mac OS Roman. It is UTF-8 where it begins with a byte order mark, or, after blanks, with the comment for that."""
    if not text.startswith(MARK) and not text.lstrip(b" \t\r\n").startswith(CODING):
        return text
    text = text[len(MARK):] if text.startswith(MARK) else text
    try:
        return text.decode("utf-8").encode("mac_roman")
    except UnicodeDecodeError as fault:
        raise Wrong(line_at(text, fault.start), "not UTF-8") from None
    except UnicodeEncodeError as fault:
        other = fault.object[fault.start].encode()
        raise Wrong(line_at(text, text.index(other)), f"Mac OS Roman has no character '{other.decode()}'") from None


def statements(text):
    """The tokens of each statement of a source."""
    depth, tokens = 0, []
    for token in tokens_of(text):
        if tokens or token.kind != "filled":
            tokens.append(token)
        depth += {b"{": 1, b"}": -1}.get(token.value, 0) if token.kind == "mark" else 0
        if depth == 0 and token[1:] == ("mark", b";"):
            yield tokens
            tokens = []
    require(not tokens, Wrong(tokens and tokens[-1].line, "a statement does not end"))


def head_of(statement):
    """The type, ID, name and attributes of a statement, up to its closing parenthesis."""
    def must(holds):
        return holds or statement.refuse("not a statement")
    kind = must(statement.next().kind == "literal") and statement.take()
    statement.take_mark(b"(", "not a statement")
    sign = -1 if statement.is_mark(b"-") else 1
    statement.skip(sign < 0)
    identifier = must(statement.next().kind == "number") and sign * statement.take()
    name, attributes = None, 0
    while statement.is_mark(b","):
        statement.skip()
        kind_of_token, value = statement.next()[1:]
        must(kind_of_token in ("text", "number") or value in ATTRIBUTES)
        name = value if kind_of_token == "text" else name
        attributes |= value if kind_of_token == "number" else ATTRIBUTES.get(value, 0)
        statement.skip()
    statement.take_mark(b")", "not a statement")
    return Resource(kind, identifier, name, attributes & ~2, None)


def named_file(tokens, statement):
    """The name of the file of a statement `read`, after whose head stands just that."""
    inside = [it for it in tokens[statement.at:-1] if it.kind != "filled"]
    require(len(inside) == 1 and inside[0].kind == "text", Wrong(tokens[0].line, "not a statement"))
    return inside[0].value


def stated_data(word, tokens, statement, kind, types):
    """The data of a statement `data` or `resource`."""
    statement.take_mark(b"{", "not a statement")
    inside, begun = tokens[statement.at:-2], tokens[statement.at - 1].line
    if word == b"data":
        odd = [it.line for it in inside if it.kind not in ("text", "hex", "filled")]
        require(not odd, Wrong(odd and odd[0], "a string or a closing brace is needed"))
        return b"".join(it.value for it in inside if it.kind != "filled")
    require(kind in types, Wrong(tokens[0].line, "a type that is declared is needed"))
    return encode(types[kind], taken(types[kind], inside, begun))


def read_source(text, types, files=()):
    """The resources that a source states. `types` has the fields of each type, and gets those that the source declares; `files` has the
    bytes of the files that statements `read` name."""
    found = []
    for tokens in statements(plain_text(text)):
        word = tokens[0].value.lower() if tokens[0].kind == "word" else None
        if word == b"type":
            kind, fields = Declaring([it for it in tokens if it.kind != "filled"]).statement()
            require(fields in types if isinstance(fields, bytes) else True, Wrong(tokens[0].line, "a type that is declared is needed"))
            types[kind] = types[fields] if isinstance(fields, bytes) else fields
            continue
        statement = Tokens(tokens)
        statement.skip()
        require(word in (b"data", b"resource", b"read"), Wrong(tokens[0].line, "not a statement"))
        head = head_of(statement)
        data = dict(files)[named_file(tokens, statement)] if word == b"read" else stated_data(word, tokens, statement, head.kind, types)
        found.append(head._replace(data=data))
    return found


if __name__ == "__main__":
    import rez_sources
    sys.exit(rez_sources.main(sys.argv[1:]))
