"""Declarations of types in the language of Rez: their tokens, their fields, and whether they are sound. For tests of the program.

The language is that of docs/types.md. A text is bytes. `tokens_of(text)` has its tokens in turn, and `declaration(text)` the type and the
fields that it declares. A text that can't be read raises `Wrong`, with the line and the words of the program. `judged(fields)` raises
`Unsound` where fields do not say where each value begins and ends.
"""
import collections
import re

# The parts of a run: an integer, with pairs of a name and a number; a constant; a count; and a fill of bits.
Number = collections.namedtuple("Number", "width form names")
Constant = collections.namedtuple("Constant", "width number is_key")
Count = collections.namedtuple("Count", "width is_less_one")
Bits = collections.namedtuple("Bits", "width")
# The fields. The end of a string is `pstring`, `cstring`, `char`, a length, or None: that of the resource. The end of an array is a pair:
# `fixed` and its length, `count` and the place of its count, `before` and the bytes after it, or `rest` and None.
Run = collections.namedtuple("Run", "parts")
Fill = collections.namedtuple("Fill", "length")
Align = collections.namedtuple("Align", "unit")
Text = collections.namedtuple("Text", "end is_hex names")
Corners = collections.namedtuple("Corners", "count")
Array = collections.namedtuple("Array", "name end fields")
Switch = collections.namedtuple("Switch", "place cases")
Case = collections.namedtuple("Case", "name number fields")
# What is known of the bytes of fields, and of where the fields stand.
Shape = collections.namedtuple("Shape", "least fields depth states is_open after_fill counts")
Token = collections.namedtuple("Token", "line kind value")

WIDTHS = {b"boolean": 1, b"byte": 8, b"integer": 16, b"longint": 32}
UNITS = {b"bit": 1, b"nibble": 4, b"byte": 8, b"word": 16, b"long": 32}
MODIFIERS = b"key", b"unsigned", b"decimal", b"hex", b"binary", b"literal", b"wide"
MOST_BYTES = 1 << 24


class Wrong(Exception):
    """A text can't be read: the line, and what is wrong there."""


class Unsound(Exception):
    """A declaration does not say where each value begins and ends."""


def require(holds, fault):
    if not holds:
        raise fault


def distinct(names):
    return len({it.lower() for it in names}) == len(names)


# ---- Tokens ----

ESCAPE = rb"\\(?:[\"'\\nrtbfv?]|0[xX][0-9A-Fa-f]{2}|\$[0-9A-Fa-f]{2}|0[bB][01]{8}|0[dD][0-9]{3}|[0-7]{3})"
PLAIN_ESCAPES = {b"n": 13, b"r": 10, b"t": 9, b"b": 8, b"f": 12, b"v": 11, b"?": 127, b'"': 34, b"'": 39, b"\\": 92}
TOKEN = re.compile(rb"""
    (?P<blank>[ \t\r\n]+|//[^\r\n]*) | /\*(?P<comment>.*?)\*/ | \$"(?P<hex>[0-9A-Fa-f \t\r\n]*)" | \$\$(?P<function>[A-Za-z_]\w*) |
    "(?P<text>(?:[^"\\\r\n]|ESCAPE)*)" | '(?P<literal>(?:[^'\\\r\n]|ESCAPE)*)' | (?P<word>[A-Za-z_]\w*) |
    (?P<number>0[xX][0-9A-Fa-f]+|0[bB][01]+|\$[0-9A-Fa-f]+|[0-9]+) | (?P<mark>.)""".replace(b"ESCAPE", ESCAPE), re.VERBOSE | re.DOTALL)
FILL = re.compile(rb"[ \t\r\n]*fill[ \t\r\n]*\$([0-9A-Fa-f \t\r\n]+)\Z")


def line_at(text, at):
    """The number of the line on which a byte of a text stands."""
    return 1 + len(re.findall(rb"\r\n|\r|\n", text[:at])) - (text[at - 1:at + 1] == b"\r\n")


def unescaped(match):
    """The byte of an escape; a number above 255 where it is none."""
    digits = match[0][1:]
    if digits in PLAIN_ESCAPES:
        return PLAIN_ESCAPES[digits]
    for prefix, base in ((b"0x", 16), (b"$", 16), (b"0b", 2), (b"0d", 10)):
        if digits.lower().startswith(prefix):
            return int(digits[len(prefix):], base)
    return int(digits, 8)


def quoted(text, at, quoted_text):
    """The bytes of a text between quotes."""
    def byte(match):
        if unescaped(match) > 255:
            raise Wrong(line_at(text, at), "an escape out of range")
        return bytes([unescaped(match)])
    return re.sub(ESCAPE, byte, quoted_text)


def open_quote(text, at):
    """What is wrong with a text that begins with a quote, and with no string."""
    begun = re.compile(rb"""(["'])(?:(?!\1)[^\\\r\n]|ESCAPE)*""".replace(b"ESCAPE", ESCAPE)).match(text, at)
    after = text[begun.end():begun.end() + 4]
    large = re.match(rb"\\(?:[4-7][0-7]{2}|0[dD](?:2[6-9]|25[6-9]|[3-9]))", after)
    what = "an escape out of range" if large else "not an escape" if after.startswith(b"\\") else "a string does not end"
    raise Wrong(line_at(text, at), what)


def open_hex(text, at):
    """What is wrong with a text that begins as a hexadecimal string."""
    place = re.compile(rb"[0-9A-Fa-f \t\r\n]*").match(text, at + 2).end()
    if place == len(text):
        raise Wrong(line_at(text, at), "a string does not end")
    raise Wrong(line_at(text, place), "not a hexadecimal digit")


def mark_of(text, at):
    """The mark at a place, if no token begins there that goes on wrong."""
    two = text[at:at + 2].lower()
    if two == b"/*":
        raise Wrong(line_at(text, at), "a comment does not end")
    if two == b'$"':
        open_hex(text, at)
    if two[:1] in (b'"', b"'"):
        open_quote(text, at)
    if two[:1] == b"$":
        raise Wrong(line_at(text, at), "a name is needed" if two == b"$$" else "a hexadecimal number or string is needed")
    return two[:1]


def number_of(text, at, digits):
    """A number; `0x` and `0b` need a digit after them."""
    if digits == b"0" and text[at + 1:at + 2].lower() in (b"x", b"b"):
        raise Wrong(line_at(text, at), "a digit is needed")
    base = {b"0x": 16, b"0b": 2}.get(digits[:2].lower(), 16 if digits[:1] == b"$" else 10)
    number = int(digits.lstrip(b"$") if base == 16 else digits, base)
    if number >> 32:
        raise Wrong(line_at(text, at), "a number out of range")
    return number


def value_of(text, at, kind, found):
    if kind in ("text", "literal"):
        return quoted(text, at, found)
    if kind == "hex":
        digits = b"".join(found.split())
        if len(digits) % 2:
            raise Wrong(line_at(text, at + 2 + len(found)), "an odd number of hexadecimal digits")
        return bytes.fromhex(digits.decode())
    if kind == "number":
        return number_of(text, at, found)
    return mark_of(text, at) if kind == "mark" else found


def tokens_of(text):
    """The tokens of a text in turn. A comment that states the bytes of a fill is a token too."""
    at, line, before = 0, 1, 0
    while at < len(text):
        line, before = line + line_at(text[before:at + 1], at - before) - 1, at
        match = TOKEN.match(text, at)
        kind = match.lastgroup
        if kind == "comment" and (fill := FILL.match(match["comment"])):
            digits = b"".join(fill[1].split())
            if len(digits) in range(2, 514, 2):
                yield Token(line, "filled", bytes.fromhex(digits.decode()))
        elif kind not in ("blank", "comment"):
            yield Token(line, kind, value_of(text, at, kind, match[kind]))
        at = match.end()


class Tokens:
    """Tokens that are read in turn."""

    def __init__(self, tokens, line=1):
        self.tokens, self.at, self.line = tokens, 0, line

    def place(self):
        """The place of the next token."""
        return self.at

    def next(self):
        last = self.tokens[-1].line if self.tokens else self.line
        return self.tokens[self.place()] if self.place() < len(self.tokens) else Token(last, "end", None)

    def skip(self, holds=True):
        """The next token is passed over, where something holds."""
        self.at = self.place() + 1 if holds else self.at

    def refuse(self, what):
        raise Wrong(self.next().line, what)

    def take(self):
        self.skip()
        return self.tokens[self.at - 1].value

    def is_mark(self, mark):
        return self.next()[1:] == ("mark", mark)

    def is_word(self, word):
        return self.next().kind == "word" and self.next().value.lower() == word

    def take_mark(self, mark, what):
        if not self.is_mark(mark):
            self.refuse(what)
        self.skip()

    def take_word(self, words):
        """The word that stands here, in small letters, if it is one of these."""
        return self.take().lower() if self.next().kind == "word" and self.next().value.lower() in words else None

    def strings(self):
        """The strings that stand here side by side, as one."""
        found = b""
        while self.next().kind in ("text", "hex"):
            found += self.take()
        return found


# ---- Declarations ----

class Block:
    """The fields of a type, of an element or of a case, as they are declared."""

    def __init__(self):
        self.fields, self.parts, self.counts, self.names, self.waiting = [], [], [], [], None

    def bits(self):
        return sum(it.width for it in self.parts)

    def stand_alone(self):
        """No part of a run stands here."""
        require(not self.waiting, Unsound("an array without an end: give it a length, a count or a constant after it, or put it last"))
        require(not self.parts, Unsound("bits that are not one to four whole bytes"))

    def put(self, field):
        self.stand_alone()
        self.fields.append(field)

    def put_part(self, part):
        if self.waiting:
            is_end = isinstance(part, Constant) and part.width % 8 == 0
            require(is_end, Unsound("an array without an end: give it a length, a count or a constant after it, or put it last"))
            name, fields = self.waiting
            self.fields.append(Array(name, ("before", part.number.to_bytes(part.width // 8, "big")), fields))
            self.waiting = None
        require(self.bits() + part.width <= 32, Unsound("bits that are not one to four whole bytes"))
        self.parts.append(part)
        if self.bits() % 8 == 0:
            self.fields.append(Run(self.parts))
            self.parts = []

    def put_fill(self, bits):
        if not self.parts and bits % 8 == 0:
            self.stand_alone()
            require(bits <= 2048, Unsound("a fill of more than 256 bytes"))
            self.fields.append(Fill(bits // 8))
        else:
            require(bits <= 32, Unsound("bits that are not one to four whole bytes"))
            self.put_part(Bits(bits))

    def put_count(self, name, part):
        fault = Unsound("a count that is not the count of one array after it")
        require(name.lower() not in self.counts, fault)
        self.put_part(part)
        self.counts.append(name.lower())

    def put_array(self, name, length, fields):
        self.stand_alone()
        require(not name or name.lower() not in self.names, Unsound("two constants, cases or arrays of one name"))
        self.names.append(name.lower())
        place = self.counts.index(name.lower()) if name.lower() in self.counts else None
        require(length is None or place is None, Unsound("a count that is not the count of one array after it"))
        if length is None and place is None:
            self.waiting = name, fields
        else:
            self.fields.append(Array(name, ("count", place) if length is None else ("fixed", length), fields))

    def closed(self):
        require(not self.parts, Unsound("bits that are not one to four whole bytes"))
        if self.waiting:
            name, fields = self.waiting
            self.fields.append(Array(name, ("rest", None), fields))
        return self.fields


class Declaring(Tokens):
    """Tokens, read as statements `type`."""

    count = 0

    def draft(self, put, *arguments):
        try:
            return put(*arguments)
        except Unsound as fault:
            self.refuse(str(fault))

    def name(self):
        if self.next().kind != "word":
            self.refuse("a name is needed")
        if len(self.next().value) > 63:
            self.refuse("a name of more than 63 letters")
        return self.take()

    def bracketed(self, most, what):
        self.take_mark(b"[", "a bracket is needed")
        if self.next().kind != "number":
            self.refuse("a number is needed")
        if not 1 <= self.next().value <= most:
            self.refuse(what)
        number = self.take()
        self.take_mark(b"]", "a bracket is needed")
        return number

    def length(self):
        return self.bracketed(65535, "a length from 1 to 65535 is needed")

    def constant(self, width):
        is_negative = self.is_mark(b"-")
        self.skip(is_negative)
        kind, value = self.next()[1:]
        if kind == "literal" and not is_negative and len(value) <= 4:
            value = int.from_bytes(value, "big")
        elif kind != "number":
            self.refuse("a number or up to four characters are needed")
        if value > (1 << width - 1) if is_negative else value >> width:
            self.refuse("a constant out of range")
        self.skip()
        return -value % (1 << width) if is_negative else value

    def names(self, value):
        """Constants with their names, of which `value` reads what follows the name."""
        found = []
        while not found or self.is_mark(b","):
            self.skip(bool(found))
            if len(found) == 256:
                self.refuse("more than 256 constants")
            found.append((self.name(), value(found)))
        return found

    def number_after(self, width, found):
        if self.is_mark(b"="):
            self.skip()
            return self.constant(width)
        following = found[-1][1] + 1 if found else 0
        if following >> width:
            self.refuse("a constant out of range")
        return following

    def string_after(self):
        self.take_mark(b"=", "a string is needed")
        if self.next().kind not in ("text", "hex"):
            self.refuse("a string is needed")
        return self.strings()

    def integer(self, block, width, form, is_key):
        if not self.is_mark(b"="):
            if is_key:
                self.refuse("the constant of a key is needed")
            names = self.names(lambda found: self.number_after(width, found)) if self.next().kind == "word" else []
            return self.draft(block.put_part, Number(width, form, names))
        self.skip()
        if self.next().kind != "function":
            return self.draft(block.put_part, Constant(width, self.constant(width), is_key))
        if self.next().value.lower() != b"countof":
            self.refuse("$$CountOf is needed")
        self.skip()
        self.take_mark(b"(", "a parenthesis is needed")
        name = self.name()
        self.take_mark(b")", "a parenthesis is needed")
        is_less_one = self.is_mark(b"-")
        if is_less_one:
            self.skip()
            if self.next()[1:] != ("number", 1):
                self.refuse("1 is needed" if self.next().kind == "number" else "a number is needed")
            self.skip()
        return self.draft(block.put_count, name, Count(width, is_less_one))

    def text(self, block, end, is_hex):
        names = self.names(lambda found: self.string_after()) if self.next().kind == "word" else []
        self.draft(block.put, Text(end, is_hex, names))

    def array(self, block, depth):
        name = self.name() if self.next().kind == "word" else b""
        length = self.length() if self.is_mark(b"[") else None
        self.take_mark(b"{", "an opening brace is needed")
        fields = self.fields(depth - 1, False)
        self.take_mark(b"}", "a field or a closing brace is needed")
        self.draft(block.put_array, name, length, fields)

    def switch(self, block, depth):
        self.take_mark(b"{", "an opening brace is needed")
        cases, place = [], None
        while self.take_word([b"case"]):
            name = self.name()
            self.take_mark(b":", "a colon is needed")
            fields = self.fields(depth - 1, True)
            key = key_of(fields)
            if not key:
                self.refuse("a case without a key after fields of fixed length")
            cases.append(Case(name, key[1], fields))
            place = place or key[0]
        self.take_mark(b"}", "a case or a closing brace is needed")
        if not cases:
            self.refuse("a switch without a case")
        self.draft(block.put, Switch(place, cases))

    def field(self, block, depth):
        self.count += 1
        if self.count > 512:
            self.refuse("more than 512 fields")
        words = []
        while len(words) < 4 and (word := self.take_word(MODIFIERS)):
            words.append(word)
        form = next((it.decode() for it in reversed(words) if it in (b"hex", b"binary", b"literal")), None)
        form = form or ("unsigned" if b"unsigned" in words else "signed")
        kind = self.take_word({*WIDTHS, b"bitstring", b"pstring", b"cstring", b"char", b"string", b"point", b"rect", b"fill", b"align",
                               b"array", b"switch"})
        if kind in WIDTHS:
            self.integer(block, WIDTHS[kind], "boolean" if kind == b"boolean" else form, b"key" in words)
        elif kind == b"bitstring":
            self.integer(block, self.bracketed(32, "a bit string of 1 to 32 bits is needed"), form, b"key" in words)
        elif kind in (b"pstring", b"cstring", b"char"):
            self.text(block, kind.decode(), False)
        elif kind == b"string":
            self.text(block, self.length() if self.is_mark(b"[") else None, form == "hex")
        elif kind in (b"point", b"rect"):
            self.draft(block.put, Corners(2 if kind == b"point" else 4))
        elif kind == b"fill":
            unit = self.take_word(UNITS) or self.refuse("bit, nibble, byte, word or long is needed")
            self.draft(block.put_fill, UNITS[unit] * (self.length() if self.is_mark(b"[") else 1))
        elif kind == b"align":
            unit = self.take_word([b"word", b"long"]) or self.refuse("word or long is needed")
            self.draft(block.put, Align(UNITS[unit] // 8))
        elif kind:
            (self.array if kind == b"array" else self.switch)(block, depth)
        else:
            self.refuse("a field or a closing brace is needed")
        self.take_mark(b";", "a semicolon is needed")

    def fields(self, depth, is_case):
        if depth == 0:
            self.refuse("arrays and switches more than 8 deep")
        block = Block()
        while not (self.is_mark(b"}") or is_case and self.is_word(b"case")):
            self.field(block, depth)
        return self.draft(block.closed)

    def kind(self):
        if self.next().kind != "literal" or len(self.next().value) != 4:
            self.refuse("a type of four characters is needed")
        return self.take()

    def statement(self):
        """The type that a statement declares, and its fields, or the type that it is like."""
        line = self.next().line
        if not self.take_word([b"type"]):
            self.refuse("a declaration is needed")
        kind = self.kind()
        if self.take_word([b"as"]):
            stated = self.kind()
            self.take_mark(b";", "a semicolon is needed")
            return kind, stated
        self.count = 0
        self.take_mark(b"{", "an opening brace is needed")
        fields = self.fields(9, False)
        self.take_mark(b"}", "a field or a closing brace is needed")
        self.take_mark(b";", "a semicolon is needed")
        try:
            judged(fields)
        except Unsound as fault:
            raise Wrong(line, str(fault)) from None
        return kind, fields


def declaration(text):
    """The type and the fields of a text that is one statement `type`."""
    return Declaring(list(tokens_of(text))).statement()


# ---- What a sound declaration is ----

def length_of(field):
    """The bytes of a field that always has as many; None for others."""
    if isinstance(field, Run):
        return sum(it.width for it in field.parts) // 8
    if isinstance(field, Text):
        return 1 if field.end == "char" else field.end if isinstance(field.end, int) else None
    return {Fill: lambda: field.length, Corners: lambda: 2 * field.count}.get(type(field), lambda: None)()


def key_of(fields):
    """Where the key of a case stands, and what it is: the bytes before its run, those of the run, the bits below it, its own."""
    before = 0
    for field in fields:
        left = 8 * length_of(field) if isinstance(field, Run) else 0
        for part in field.parts if left else ():
            left -= part.width
            if isinstance(part, Constant) and part.is_key:
                return (before, length_of(field), left, part.width), part.number
        if length_of(field) is None:
            return None
        before += length_of(field)
    return None


def fits(end, text):
    """A string may end so."""
    return {"pstring": len(text) < 256, "cstring": 0 not in text, "char": len(text) == 1, None: True}.get(end, len(text) == end)


def blocks_of(field):
    return [field.fields] if isinstance(field, Array) else [it.fields for it in field.cases] if isinstance(field, Switch) else []


def judged_field(field, inner, shape):
    """The shape with one more field or part, whose blocks have the shapes `inner`."""
    longer, fields = 0, shape.fields + 1
    stating = shape._replace(states=True, after_fill=False)
    if isinstance(field, (Fill, Align)) or isinstance(field, Bits):
        require(not shape.after_fill, Unsound("two fills with nothing stated between them"))
        shape = shape._replace(after_fill=True)
    elif isinstance(field, Count):
        shape = shape._replace(counts=shape.counts + 1)
    elif not isinstance(field, Constant):
        shape = stating
    if isinstance(field, (Number, Text)):
        require(distinct([name for name, _ in field.names]), Unsound("two constants, cases or arrays of one name"))
    if isinstance(field, Text):
        require(all(fits(field.end, it) for _, it in field.names), Unsound("a constant that is no such string"))
        longer, shape = length_of(field) or int(field.end is not None), shape._replace(is_open=field.end is None)
    elif isinstance(field, (Fill, Corners)):
        longer = length_of(field)
    elif isinstance(field, Array):
        [element] = inner
        require(not element.is_open, Unsound("a string or an array without an end that is not at the end of the resource"))
        require(element.least, Unsound("elements that may have no bytes"))
        require(element.states, Unsound("elements that state nothing"))
        require(element.depth < 8, Unsound("arrays and switches more than 8 deep"))
        longer = field.end[1] * element.least if field.end[0] == "fixed" else 0
        is_long = field.end[0] == "before" and element.least < len(field.end[1])
        require(not is_long, Unsound("a constant after an array that is longer than an element may be"))
        shape = shape._replace(is_open=field.end[0] == "rest")
    elif isinstance(field, Switch):
        require(distinct([it.name for it in field.cases]), Unsound("two constants, cases or arrays of one name"))
        require(len({it.number for it in field.cases}) == len(field.cases), Unsound("two cases of one key"))
        for case, it in zip(field.cases, inner):
            require(key_of(case.fields)[0] == field.place, Unsound("keys at different places"))
            require(it.depth < 8, Unsound("arrays and switches more than 8 deep"))
        longer, shape = min(it.least for it in inner), shape._replace(is_open=any(it.is_open for it in inner))
    depth = max([shape.depth] + [it.depth + 1 for it in inner])
    return shape._replace(least=shape.least + longer, depth=depth, fields=fields + sum(it.fields for it in inner))


def judged(fields):
    """The shape of fields; raises Unsound where they are not sound. The blocks in them are judged before them."""
    inner = [[judged(it) for it in blocks_of(field)] for field in fields]
    shape = Shape(0, 0, 0, False, False, False, 0)
    for field, it in zip(fields, inner):
        require(not shape.is_open, Unsound("a string or an array without an end that is not at the end of the resource"))
        for part in field.parts if isinstance(field, Run) else (field,):
            shape = judged_field(part, it, shape)
        shape = shape._replace(least=shape.least + (length_of(field) if isinstance(field, Run) else 0))
    ends = sorted(it.end[1] for it in fields if isinstance(it, Array) and it.end[0] == "count")
    require(ends == list(range(shape.counts)), Unsound("a count that is not the count of one array after it"))
    require(shape.fields <= 512, Unsound("more than 512 fields"))
    require(shape.least <= MOST_BYTES, Unsound("more bytes than a resource can have"))
    return shape
