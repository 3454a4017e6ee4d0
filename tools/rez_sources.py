"""Random sources with types in the language of Rez, and the resources that they state. For tests of the program.

`random_fields(chance)` returns the fields of a sound declaration, and `random_values(chance, fields)` values of them. A `Source` has a
text, the files that its statements `read` name, a text of declarations that are to be read before it, and the resources that it
states: `random_source(chance)` returns one, `table_source(chance, types)` one of declared types, and `damaged_source(chance)` one with a
few other words. One in five says by a comment that it is UTF-8. `chance` is a `random.Random`. The self-test, by
`tools/rez_types.py --selftest [COUNT]`, reads types/types.r, the examples of docs/types.md, worked statements, faults, and COUNT
sources (300) that are made at random.
"""
import collections
import os
import random
import re

from rez_language import (Align, Array, Bits, Case, Constant, Corners, Count, Fill, Number, Run, Switch, Text, Unsound, Wrong, declaration,
                          judged, key_of)
from rez_types import ATTRIBUTES, CODING, MARK, Misfit, Resource, body, decode, encode, read_source

# `found` is the list of the resources; of a text that can't be read the words that name its first fault; or None, where this tool can't tell.
Source = collections.namedtuple("Source", "text found files types")

# ---- Random declarations and values ----

LETTERS = "abcdeXYZ_"

# Numbers of bytes that no fill has; a comment with so many is passed over.
OTHER_LENGTHS = 5, 6, 7


def random_name(chance):
    return "".join(chance.choice(LETTERS + "019" * bool(at)) for at in range(chance.choice([1, 2, 3, 5]))).encode()


def random_number(chance, width):
    most = (1 << width) - 1
    return chance.choice([0, 1 & most, most, most >> 1, (most >> 1) + 1, chance.randrange(most + 1), chance.randrange(most + 1)])


def random_bytes(chance, length):
    ranges = range(256), range(32, 127), range(97, 123), b'\r"\\'
    return bytes(chance.choice(chance.choice(ranges)) for _ in range(length))


def random_length(chance, end):
    return 1 if end == "char" else end if isinstance(end, int) else chance.choice([0, 1, 2, 5, chance.randrange(40)])


def random_text(chance, end):
    text = random_bytes(chance, random_length(chance, end))
    return text.replace(b"\0", b"0") if end == "cstring" else text


def random_names(chance, value):
    """Some names, no two alike, each with a value."""
    names = {random_name(chance).lower(): None for _ in range(chance.choice([0, 0, 0, 1, 2, 4]))}
    found = []
    for name in names:
        found.append((chance.choice([name, name.upper()]), value(found)))
    return found


def named_number(chance, width, found):
    following = found[-1][1] + 1 if found else 0
    return following if chance.random() < 0.7 and not following >> width else random_number(chance, width)


def random_widths(chance, bits=None):
    """The widths of parts that come to no whole byte before the last one ends."""
    bits = bits or chance.choice([8, 8, 8, 16, 16, 24, 32, 32])
    cuts = [it for it in range(1, bits) if it % 8]
    cuts = sorted(chance.sample(cuts, chance.choice([0, 0, 1, 2, min(len(cuts), 5)])))
    return [after - before for before, after in zip([0] + cuts, cuts + [bits])]


def random_part(chance, width):
    what = chance.random()
    if what < 0.1:
        return Constant(width, random_number(chance, width), chance.random() < 0.1)
    if what < 0.25 and width % 8:
        return Bits(width)
    form = "boolean" if width == 1 else chance.choice(["signed", "unsigned", "hex", "binary", "literal"])
    return Number(width, form, random_names(chance, lambda found: named_number(chance, width, found)))


def random_run(chance, special=None):
    """A run; one of its parts is of the special kind, if there is one."""
    parts = [random_part(chance, it) for it in random_widths(chance)]
    if special:
        place = chance.randrange(len(parts))
        parts[place] = special(parts[place].width)
    return Run(parts)


def random_array(chance, depth, place, may_be_open):
    """An array, and the fields that say where it ends."""
    how = chance.choice(["fixed", "count", "count", "before"] + ["rest"] * may_be_open)
    name = b"N%d" % chance.randrange(1 << 40) + random_name(chance)
    fields = random_block(chance, depth + 1, lambda shape: shape.states and shape.least and not shape.is_open)
    if how == "count":
        count = random_run(chance, lambda width: Count(width, chance.random() < 0.5))
        between = [random_run(chance)] if chance.random() < 0.2 else []
        return [count, *between, Array(name, (how, place), fields)]
    name = chance.choice([name, b""])
    if how == "before":
        length = chance.choice([it for it in (1, 2, 4) if it <= judged(fields).least])
        end = chance.choice([bytes(length), chance.randbytes(length)])
        return [Array(name, (how, end), fields), Run([Constant(8 * length, int.from_bytes(end, "big"), False)])]
    return [Array(name, (how, chance.randrange(1, 4) if how == "fixed" else None), fields)]


def random_switch(chance, depth, may_be_open):
    before = chance.choice([[], [], [Corners(2)], [Fill(1)], [random_run(chance)]])
    widths = chance.choice([[8], [16], [1, 7], [3, 5], [5, 11], [2, 7, 7]])
    at = chance.randrange(len(widths))
    cases = {}
    for _ in range(chance.choice([1, 2, 3])):
        number = random_number(chance, widths[at])
        parts = [random_part(chance, it) for it in widths]
        parts[at] = Constant(widths[at], number, True)
        fields = [*before, Run(parts), *random_block(chance, depth + 1, lambda shape: may_be_open or not shape.is_open)]
        key = key_of(fields)
        cases[key[1]] = Case(b"C%d" % len(cases) + random_name(chance), key[1], fields)
    return Switch(key[0], list(cases.values()))


def random_field(chance, depth, place, may_be_open):
    """A field, with those that belong to it; `place` counts are before it in its block."""
    what = chance.random()
    if what < 0.25 and depth < 3:
        return random_array(chance, depth, place, may_be_open)
    if what < 0.35 and depth < 3:
        return [random_switch(chance, depth, may_be_open)]
    if what < 0.65:
        return [random_run(chance)]
    if what < 0.85:
        end = chance.choice(["pstring", "pstring", "cstring", "char", chance.randrange(1, 9)] + [None] * may_be_open)
        is_hex = not isinstance(end, str) and chance.random() < 0.5
        return [Text(end, is_hex, random_names(chance, lambda found: random_text(chance, end)))]
    return [chance.choice([Corners(2), Corners(4), Align(2), Align(4), Fill(chance.choice([1, 2, 3, 4, 8]))])]


def random_block(chance, depth, serves):
    """Fields that are sound, and have a shape that serves."""
    while True:
        fields, places = [], 0
        for left in range(chance.choice([1, 1, 2, 3, 4]) - 1, -1, -1):
            more = random_field(chance, depth, places, left == 0 and chance.random() < 0.5)
            places += sum(isinstance(part, Count) for it in more if isinstance(it, Run) for part in it.parts)
            fields += more
        try:
            if serves(judged(fields)):
                return fields
        except Unsound:
            pass


def random_fields(chance):
    return random_block(chance, 0, lambda shape: True)


def is_element(fields, values, end):
    """An element has bytes, with which its array would not end."""
    try:
        return not encode(fields, values).startswith(end)
    except Misfit:
        return False


def random_value(chance, field, most):
    if isinstance(field, Run):
        return [random_value(chance, it, most) for it in field.parts]
    if isinstance(field, Number):
        return chance.choice(field.names)[1] if field.names and chance.random() < 0.5 else random_number(chance, field.width)
    if isinstance(field, Bits):
        return chance.choice([0, 0, random_number(chance, field.width)])
    if isinstance(field, (Fill, Align)):
        length = field.length if isinstance(field, Fill) else chance.randrange(field.unit)
        return chance.choice([bytes(length), bytes(length), chance.randbytes(length), chance.randbytes(chance.choice(OTHER_LENGTHS))])
    if isinstance(field, Text):
        return chance.choice(field.names)[1] if field.names and chance.random() < 0.5 else random_text(chance, field.end)
    if isinstance(field, Corners):
        return [random_number(chance, 16) for _ in range(field.count)]
    if isinstance(field, Array):
        how, end = field.end
        count = end if how == "fixed" else chance.choice([0, 1, 1, 2, 3, 5])
        count = min(count, most[end]) if how == "count" else count
        elements = [random_values(chance, field.fields) for _ in range(count)]
        return [it for it in elements if how != "before" or is_element(field.fields, it, end)]
    if isinstance(field, Switch):
        place = chance.randrange(len(field.cases))
        return place, random_values(chance, field.cases[place].fields)
    return None


def random_values(chance, fields):
    most = [(1 << it.width) - 1 for field in fields if isinstance(field, Run) for it in field.parts if isinstance(it, Count)]
    return [random_value(chance, it, most) for it in fields]


# ---- Texts of declarations and of values ----

def any_case(chance, word):
    return chance.choice([word, word, word.lower(), word.upper(), word.swapcase()])


def joined(chance, words):
    """Words with blanks and comments between some of them."""
    text = b""
    for word in words:
        blank = chance.choice([b"", b"", b"", b" ", b" ", b"\n", b"\t", b"\r\n", b"\r", b"/* } \" ' */", b"// {\n", b"/***/ "])
        is_apart = not (text[-1:].isalnum() or text[-1:] in b"_$") or not (word[:1].isalnum() or word[:1] in b"_$")
        text += (blank if blank or is_apart else b" ") + word
    return text


def escaped(chance, byte, quote):
    """A byte between quotes."""
    forms = [b"\\0x%02X" % byte, b"\\$%02x" % byte, b"\\%03o" % byte, b"\\0d%03d" % byte, b"\\0b" + format(byte, "08b").encode()]
    forms += [b"\\" + name for name, value in ((b"n", 13), (b"r", 10), (b"t", 9), (b"?", 127)) if value == byte]
    if byte in b"\"'\\":
        forms += [b"\\" + bytes([byte])] * 9
    if byte not in b"\\\r\n" + quote:
        forms += [bytes([byte])] * 20
    return chance.choice(forms)


def quote_of(chance, text, quote):
    return quote + b"".join(escaped(chance, it, quote) for it in text) + quote


def string_words(chance, text):
    """A string, in one piece or in several."""
    cut = chance.randrange(len(text) + 1) if chance.random() < 0.3 else len(text)
    digits = chance.choice([b"", b" "]).join(b"%02X" % it for it in text[:cut])
    return [chance.choice([quote_of(chance, text[:cut], b'"')] * 3 + [b'$"' + digits + b'"'])] + \
        (string_words(chance, text[cut:]) if cut < len(text) else [])


def number_words(chance, number, width, literal=0.1):
    """A number; `literal` is how likely it is spelled by characters."""
    forms = [[b"%d" % number], [b"0x%X" % number], [b"$%x" % number], [b"0b" + format(number, "b").encode()]]
    if number >> width - 1:
        forms.append([b"-", b"%d" % ((1 << width) - number)])
    if chance.random() < literal:
        length = max(1, (number.bit_length() + 7) // 8)
        forms = [[quote_of(chance, number.to_bytes(chance.randrange(length, 5), "big"), b"'")]]
    return chance.choice(forms)


def names_words(chance, names, value):
    words, following = [], 0
    for name, it in names:
        words += [b","] * bool(words) + [name]
        if it != following or chance.random() < 0.5:
            words += [b"=", *value(it)]
        following = it + 1 if isinstance(it, int) else None
    return words


def part_words(chance, part, array):
    """A part of a run, as it is declared; `array` is the name of the array that it counts."""
    if isinstance(part, Bits):
        unit = chance.choice([(1, b"bit")] + [(4, b"nibble")] * (part.width % 4 == 0) + [(8, b"byte")] * (part.width % 8 == 0))
        return [b"fill", unit[1]] + [b"[", b"%d" % (part.width // unit[0]), b"]"] * (part.width > unit[0])
    form = part.form if isinstance(part, Number) else "signed"
    words = {8: [b"byte"], 16: [b"integer"], 32: [b"longint"]}.get(part.width, [b"bitstring", b"[", b"%d" % part.width, b"]"])
    words = [b"boolean"] if form == "boolean" else [form.encode(), *words] if form != "signed" else words
    if isinstance(part, Constant):
        return [b"key"] * part.is_key + words + [b"=", *number_words(chance, part.number, part.width)]
    if isinstance(part, Count):
        return words + [b"=", b"$$CountOf", b"(", any_case(chance, array), b")"] + [b"-", b"1"] * part.is_less_one
    return words + names_words(chance, part.names, lambda it: number_words(chance, it, part.width))


def field_words(chance, field):
    if isinstance(field, Fill):
        units = [it for it in ((1, b"byte"), (2, b"word"), (4, b"long")) if field.length % it[0] == 0]
        length, unit = chance.choice(units)
        return [b"fill", unit] + [b"[", b"%d" % (field.length // length), b"]"] * (field.length > length)
    if isinstance(field, Align):
        return [b"align", b"word" if field.unit == 2 else b"long"]
    if isinstance(field, Text):
        length = [b"[", b"%d" % field.end, b"]"] if isinstance(field.end, int) else []
        words = [field.end.encode()] if isinstance(field.end, str) else [b"hex"] * field.is_hex + [b"string", *length]
        return words + names_words(chance, field.names, lambda it: string_words(chance, it))
    if isinstance(field, Corners):
        return [b"point" if field.count == 2 else b"rect"]
    if isinstance(field, Array):
        length = [b"[", b"%d" % field.end[1], b"]"] if field.end[0] == "fixed" else []
        words = [b"array"] + ([any_case(chance, field.name)] if field.name else [])
        return [b"wide"] * chance.randrange(2) + words + length + [b"{", *fields_words(chance, field.fields), b"}"]
    cases = [[b"case", it.name, b":", *fields_words(chance, it.fields)] for it in field.cases]
    return [b"switch", b"{", *sum(cases, []), b"}"]


def fields_words(chance, fields):
    """The words of fields."""
    names = {it.end[1]: it.name for it in fields if isinstance(it, Array) and it.end[0] == "count"}
    words, place = [], 0
    for field in fields:
        for part in field.parts if isinstance(field, Run) else ():
            words += part_words(chance, part, names.get(place)) + [b";"]
            place += isinstance(part, Count)
        if not isinstance(field, Run):
            words += field_words(chance, field) + [b";"]
    return words


def fill_words(value):
    return [b"/* fill $%s */" % value.hex().encode()] if value.strip(b"\0") else []


def name_or(chance, names, value, words):
    named = [name for name, it in names if it == value]
    return [any_case(chance, chance.choice(named))] if named and chance.random() < 0.8 else words


def listed(chance, lists):
    """Lists of words with commas and semicolons between them, and perhaps after the last one."""
    words = sum((words + [chance.choice([b",", b";"])] for words in lists), [])
    return words if chance.random() < 0.1 else words[:-1]


def stated_words(chance, field, value):
    """What a field states, and whether it states something, for each of its parts."""
    if isinstance(field, Run):
        return [it for part, number in zip(field.parts, value) for it in stated_words(chance, part, number)]
    if isinstance(field, (Constant, Count)):
        return []
    if isinstance(field, (Fill, Align)):
        return [(fill_words(value), False)]
    if isinstance(field, Bits):
        return [(fill_words(value.to_bytes((field.width + 7) // 8, "big")), False)]
    if isinstance(field, Number):
        literal = 0.9 if field.form == "literal" else 0.1
        return [(name_or(chance, field.names, value, number_words(chance, value, field.width, literal)), True)]
    if isinstance(field, Text):
        return [(name_or(chance, field.names, value, string_words(chance, value)), True)]
    if isinstance(field, Corners):
        return [([b"{", *listed(chance, [number_words(chance, it, 16, 0) for it in value]), b"}"], True)]
    if isinstance(field, Array):
        return [([b"{", *listed(chance, [element_words(chance, field.fields, it) for it in value]), b"}"], True)]
    case = field.cases[value[0]]
    return [([any_case(chance, case.name), b"{", *values_words(chance, case.fields, value[1]), b"}"], True)]


def values_words(chance, fields, values):
    """The words of values, with the bytes of fills in their places."""
    words, is_first = [], True
    for field, value in zip(fields, values):
        for more, states in stated_words(chance, field, value):
            words += [chance.choice([b",", b";"])] * (states and not is_first) + more
            is_first = is_first and not states
    return words


def element_words(chance, fields, values):
    """The words of an element. None ends by the comment of a fill of another length, after which the one of a fill by which the next
    element begins would be passed over too."""
    words = values_words(chance, fields, values)
    is_other = words[-1].startswith(b"/* fill") and (len(words[-1]) - len(b"/* fill $ */")) // 2 in OTHER_LENGTHS
    return words[:-1] if is_other else words


# ---- Random sources ----

KINDS = b"Tst ", b"TST ", b"it's", b"\xff\0ab", b"STR#", b'a\\b"'


def quote_of_head(text, quote):
    """A name or a type, with the escapes that stand in the head of a statement."""
    marks = {quote[0]: b"\\" + quote, 92: b"\\\\"}
    return quote + b"".join(marks.get(it, bytes([it]) if 32 <= it < 127 else b"\\0x%02X" % it) for it in text) + quote


def head_words(chance, word, one):
    """A statement up to its closing parenthesis."""
    words = [word, quote_of_head(one.kind, b"'"), b"(", b"%d" % one.identifier]
    words += [b",", quote_of_head(one.name, b'"')] if one.name is not None else []
    named = [name for name, bit in ATTRIBUTES.items() if one.attributes & bit]
    if sum(ATTRIBUTES[it] for it in named) != one.attributes or chance.random() < 0.3:
        named = [chance.choice([b"%d", b"$%02X"]) % one.attributes] * bool(one.attributes)
    return words + sum(([b",", it] for it in named), []) + [b")"]


def plain_words(chance, one, files):
    """A statement `data` or `read`; the file that it names is put to the others."""
    if chance.random() < 0.5:
        return [*head_words(chance, b"data", one), b"{", b'$"%s"' % one.data.hex().encode(), b"}", b";"]
    name = chance.choice([it for it in files if files[it] == one.data] or [b"file%d" % len(files), b"below/file \x8e%d" % len(files)])
    files[name] = one.data
    return [*head_words(chance, any_case(chance, b"read"), one), quote_of_head(name, b'"'), b";"]


def random_resource(chance, kind, fields, files):
    """A resource of a type, and the words of its statement; none where the values have no bytes."""
    name = chance.choice([None, None, b"", b"Name", random_bytes(chance, 5)])
    one = Resource(kind, chance.choice([128, -1, chance.randrange(-32768, 32768)]), name, chance.choice([0, 0, 32, 36, 1, 0xfd]), None)
    if fields is None:
        one = one._replace(data=chance.randbytes(chance.randrange(20)))
        return one, plain_words(chance, one, files)
    values = random_values(chance, fields)
    try:
        one = one._replace(data=encode(fields, values))
    except Misfit:
        return None, []
    return one, [*head_words(chance, b"resource", one), b"{", *values_words(chance, fields, values), b"}", b";"]


def random_statements(chance):
    """The words of statements `type`, `resource`, `data` and `read`, the resources that they state, in their order, and the files that
    they name."""
    types, statements, found, files = {}, [], [], {}
    for _ in range(chance.choice([1, 2, 3, 6])):
        kind = chance.choice(KINDS)
        like = chance.choice(list(types)) if types and chance.random() < 0.2 else None
        types[kind] = types[like] if like else random_fields(chance)
        stated = [b"as", quote_of_head(like, b"'")] if like else [b"{", *fields_words(chance, types[kind]), b"}"]
        statements.append([b"type", quote_of_head(kind, b"'"), *stated, b";"])
        for _ in range(chance.choice([0, 1, 2])):
            kind = chance.choice(list(types))
            one, words = random_resource(chance, kind, types[kind] if chance.random() < 0.8 else None, files)
            if one:
                found.append(one)
                statements.append(words)
    return statements, found, files


def coded(chance, text):
    """A text, or the same in UTF-8, after the comment for that."""
    if chance.random() < 0.8:
        return text
    mark, blanks = chance.choice([b"", b"", MARK]), chance.choice([b"", b"", b"\n", b" \r\n\t"])
    comment = chance.choice([CODING, CODING, b""] if mark else [CODING])
    return mark + blanks + comment + b"\n" + text.decode("mac_roman").encode()


def random_source(chance):
    """A source with statements `type`, `resource`, `data` and `read`. Where each type is declared once, the declarations may stand apart."""
    statements, found, files = random_statements(chance)
    declared = [it for it in statements if it[0] == b"type"]
    is_apart = chance.random() < 0.5 and len({it[1] for it in declared}) == len(declared)
    apart = coded(chance, joined(chance, sum(declared, []))) if is_apart else None
    text = joined(chance, sum((it for it in statements if not (is_apart and it[0] == b"type")), []))
    return Source(coded(chance, text), found, files, apart)


def table_of_types():
    """The fields of each type that is declared before the first line of a source."""
    types = {}
    with open(f"{os.path.dirname(os.path.dirname(os.path.abspath(__file__)))}/types/types.r", "rb") as file:
        read_source(file.read(), types)
    return types


def table_source(chance, types):
    """A source with statements `resource` of declared types."""
    made = [random_resource(chance, kind, types[kind], {}) for kind in chance.choices(list(types), k=chance.choice([1, 2, 3, 6]))]
    made = [(one, words) for one, words in made if one]
    return Source(coded(chance, joined(chance, sum((words for _, words in made), []))), [one for one, _ in made], {}, None)


ODD_WORDS = [b"0", b"1", b"-", b"70000", b"4294967296", b"abc", b'"x"', b'""', b'"\\q"', b"'ab'", b"'abcde'", b'$"00"', b'$"0"',
             b"$", b"0x", b",", b";", b":", b"[", b"]", b"(", b")", b"=", b"%", b"\xff", b"/* fill $01 */", b"$$CountOf", b"$$ID",
             b"key", b"case", b"byte", b"boolean", b"string", b"fill", b"align", b"word", b"array", b"switch"]


# What no text in UTF-8 with characters of Mac OS Roman has.
ODD_CHARACTERS = ["\u0141".encode(), "e\u0301".encode(), b"\x8e", b"\xff", b"\xc3"]


def damaged_source(chance):
    """A source of which a few words between the braces of a statement `type` or `resource` are others, or which has an odd character."""
    statements, _, files = random_statements(chance)
    words = chance.choice([it for it in statements if b"{" in it and it[0] != b"data"])
    for _ in range(chance.choice([1, 1, 2])):
        places = [it for it in range(words.index(b"{") + 1, len(words) - 2) if words[it] not in (b"{", b"}")]
        if places:
            place = chance.choice(places)
            more = chance.choice([[], [words[chance.choice(places)]], [chance.choice(ODD_WORDS)]])
            words[place:place + chance.randrange(2)] = more
    text = coded(chance, joined(chance, sum(statements, [])))
    if text.lstrip().startswith((CODING, MARK)) and chance.random() < 0.5:
        front = max(text.find(CODING) + len(CODING), len(MARK))
        at = chance.choice([it for it in range(front, len(text) + 1) if text[it:it + 1] < b"\x80"])
        text = text[:at] + chance.choice(ODD_CHARACTERS) + text[at:]
    try:
        return Source(text, read_source(text, {}, files), files, None)
    except Wrong as fault:
        return Source(text, "line %d: %s" % fault.args, files, None)
    except Misfit:
        return Source(text, None, files, None)


# ---- The self-test ----

# Types of the table, what stands in the braces of statements, and the bytes in hexadecimal.
WORKED = [
    (b"STR ", b'"Hello"', "0548656c6c6f"),
    (b"STR#", b'{ "No"; "Y" /* and */ "es"; }', "0002 024e6f 03596573"),
    (b"SIZE", b"reserved, acceptSuspendResumeEvents, reserved, canBackground, true, 0, false, 0, is32BitCompatible, isHighLevelEventAware, "
              b"localAndRemoteHLEvents, isStationeryAware, 0, 0, 0, 0; 500000; 300000", "58f0 0007a120 000493e0"),
    (b"BNDL", b"'abcd', 0, { 'ICN#', { 0, 128; 1, 129 }; 'FREF', { } }",
     "61626364 0000 0001 49434e23 0001 0000 0080 0001 0081 46524546 ffff"),
    (b"MENU", b'128, textMenuProc, allEnabled, enabled, apple, { "New", noIcon, "N", noMark, plain; "-", 0, noKey, check, 64 }',
     "0080 00000000 0000 0000 ffffffff 0114 034e6577 00 4e 00 00 012d 00 00 12 40 00"),
    (b"DITL", b"""{ {20, 20, 40, 80}, Button { enabled, "OK" }; {50, -5, 66, 300}, StaticText { disabled, "Hi!" } /* fill $6B */;
        {0, 0, 0, 0}, HelpItem { disabled, HMScanhdlg { 400 } } }""",
     "0002 00000000 0014001400280050 04 024f4b 00000000 0032fffb0042012c 88 03486921 6b 00000000 0000000000000000 81 04 0001 0190"),
    (b"ALRT", b"""{40, 40, 150, 340}, 128, { OK, visible, sound1, OK, visible, sound2; Cancel, visible, silent, OK, invisible, 3 },
        alertPositionMainScreen""", "0028002800960154 0080 56 c3 300a"),
    (b"POST", b"EndOfFile { }", "0300"),
    (b"vers", b'1, 0x23, beta, 4, verUS, "1.2.3", $"41"', "01 23 60 04 0000 05312e322e33 0141"),
]

# What is wrong with a declaration, and with what stands in the braces of a statement of a type of the table.
FAULTS = [
    (None, b"data", "line 1: a declaration is needed"),
    (None, b"type 'STR'", "line 1: a type of four characters is needed"),
    (None, b"type 'STR ' {\n pstring\n }", "line 3: a semicolon is needed"),
    (None, b"type 'STR ' {\n string;\n point; };", "line 1: a string or an array without an end that is not at the end of the resource"),
    (None, b"type 'Test' { bitstring[3]; point; };", "line 1: bits that are not one to four whole bytes"),
    (None, b"type 'Test' { byte a = 256; };", "line 1: a constant out of range"),
    (None, b"type 'Test' { byte a, A; };", "line 1: two constants, cases or arrays of one name"),
    (None, b"type 'Test' { fill word; align word; };", "line 1: two fills with nothing stated between them"),
    (None, b"type 'Test' { array { align word; }; };", "line 1: elements that may have no bytes"),
    (None, b"type 'Test' { array { pstring; };\r\n integer; };", "line 2: an array without an end: give it a length, a count or a constant after it, or put it last"),
    (None, b"type 'Test' { integer = $$CountOf(Nothing); };", "line 1: a count that is not the count of one array after it"),
    (None, b"type 'Test' { switch { case A: key byte = 1; case B: key byte = 1; }; };", "line 1: two cases of one key"),
    (None, b"type 'Test' {" + b"array {" * 9 + b" byte;" + b" };" * 9 + b" };", "line 1: arrays and switches more than 8 deep"),
    (b"STR#", b'{\n"a";\n12\n}', "line 3: a string is needed"),
    (b"STR#", b'{ "a" }, "c"', "line 1: nothing more may stand here"),
    (b"STR ", b'"a\\q"', "line 1: not an escape"),
    (b"STR ", b'"\\0d256"', "line 1: an escape out of range"),
    (b"ICON", b'$"00 0"', "line 1: an odd number of hexadecimal digits"),
    (b"ICON", b'\n$"0000"', "line 2: a string of length 128 is needed"),
    (b"DITL", b'{ {1, 2, 3}, Button { enabled, "OK" } }', "line 1: a rectangle must be {top, left, bottom, right}"),
    (b"DITL", b'{ {1, 2, 3, 70000}, Button { enabled, "OK" } }', "line 1: a number of 16 bits is out of range"),
    (b"DITL", b'{ {1, 2, 3, 4},\nButon { enabled, "OK" } }', "line 2: the name of a case is needed"),
    (b"WIND", b"{0, 0, 1, 1}, documentProc, visibel", "line 1: a number is needed, or the name of a constant of its field"),
    (b"WIND", b'{0, 0, 1, 1}, documentProc, visible, goAway, 0, "A"\n', "line 1: a comma or a semicolon is needed"),
    (b"ALRT", b"{0, 0, 1, 1}, 128, { 0, 0, 0, 0, 0, 0 }, 0", "line 1: an array must have so many elements: 2"),
    (b"BNDL", b"'nethack'", "line 1: more than four characters stand for a number"),
]


def fault_of(read, *arguments):
    try:
        read(*arguments)
    except Wrong as fault:
        return "line %d: %s" % fault.args
    return "it is read"


def wrong_of_page(text, types):
    """What is wrong with the examples of a page: each block `rez` is a source, and a block `bytes` what its first resource holds."""
    wrong, found = [], []
    for kind, block in re.findall(r"^```(rez|bytes)\n(.*?)^```$", text, re.MULTILINE | re.DOTALL):
        if kind == "bytes" and found[0].data != bytes.fromhex(block):
            wrong.append(f"{found[0]}, and not {block}")
        if kind == "rez":
            what = fault_of(read_source, block.encode(), dict(types))
            found = read_source(block.encode(), dict(types)) if what == "it is read" else found
            wrong += [f"{what}: {block}"] * (what != "it is read")
    return wrong


def wrong_of_source(number):
    """What is wrong with how a source that is made at random is read, if something is."""
    chance = random.Random(number)
    fields = random_fields(chance)
    _, read = declaration(joined(chance, [b"type", b"'Test'", b"{", *fields_words(chance, fields), b"}", b";"]))
    if repr(read).lower() != repr(fields).lower():
        return "the declaration is another"
    values = random_values(chance, fields)
    try:
        data = encode(fields, values)
    except Misfit:
        data = None
    if data is not None and body(fields, joined(chance, values_words(chance, fields, values))) != data:
        return "the bytes are others"
    if data is not None and encode(fields, decode(fields, data)) != data:
        return "the bytes of their values are others"
    source, types = random_source(chance), {}
    read_source(source.types or b"", types)
    return None if read_source(source.text, types, source.files) == source.found else "the resources are others"


def main(words):
    if words[:1] != ["--selftest"]:
        raise SystemExit(__doc__)
    top = os.path.dirname(os.path.dirname(os.path.abspath(__file__)))
    types = table_of_types()
    wrong = ["the table has %d types" % len(types)] if len(types) != 52 else []
    with open(f"{top}/docs/types.md", encoding="utf-8") as file:
        wrong += wrong_of_page(file.read(), types)
    for kind, text, digits in WORKED:
        if body(types[kind], text) != bytes.fromhex(digits):
            wrong.append(f"{kind}: {body(types[kind], text).hex()} and not {digits}")
    for kind, text, told in FAULTS:
        found = fault_of(declaration, text) if kind is None else fault_of(body, types[kind], text)
        if found != told:
            wrong.append(f"{text}: {found}, and not {told}")
    count = int(words[1]) if words[1:] else 300
    found = [(number, wrong_of_source(number)) for number in range(count)]
    wrong += [f"source {number}: {what}" for number, what in found if what]
    print(*wrong, f"{2 + len(WORKED) + len(FAULTS) + count - len(wrong)} passed, {len(wrong)} failed", sep="\n")
    return int(bool(wrong))
