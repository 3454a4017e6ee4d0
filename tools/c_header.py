#!/usr/bin/env python3
"""Compares include/macmem.h with what crates/macmem_c exports.

usage: tools/c_header.py [HEADER [CRATE]]      (without them: include/macmem.h and crates/macmem_c)
       tools/c_header.py --selftest

Each function with `#[unsafe(no_mangle)]` in the crate's sources has a prototype in the header with the types of its parameters as they
cross to C, in their order, and of its result; a slice crosses as a pointer and a count, and an allocator not at all. Each struct with
`#[repr(C)]` has a struct in the header with its fields, in their order, by name and type; an allocator and a ghost field take no bytes. The
header has no other function or struct. Each of the header's named codes is the number of a constant of the crate. With --selftest
changed headers are tried, each of which is to be found wrong.
The last line is 'N passed, M failed', of functions, structs and codes; each that failed has a line.
"""
import glob
import re
import sys

HEADER, CRATE = "include/macmem.h", "crates/macmem_c"
NUMBERS = {"u8": "uint8_t", "u32": "uint32_t", "i16": "int16_t", "i32": "int32_t", "i64": "int64_t", "usize": "size_t", "bool": "bool"}
NUMBERS["*mut u8"] = "void *"
STRUCTS = {"Kept": "macmem_zone", "Fault": "macmem_fault", "Row": "macmem_row"}
CODES = {"MACMEM_BAD_SIZE": "BAD_SIZE", "MACMEM_HOST_MEMORY": "HOST_MEMORY", "MACMEM_FILE_FAULT": "FILE_FAULT"}
TAKES_NO_BYTES = "Global"


def without_comments(text):
    """The text of a source without its comments."""
    return re.sub(r"/\*.*?\*/|//[^\n]*", "", text, flags=re.S)


def sources(crate):
    """The text of a crate's sources, without comments."""
    texts = []
    for path in sorted(glob.glob(f"{crate}/src/*.rt")):
        with open(path, encoding="utf-8") as it:
            texts.append(without_comments(it.read()))
    return "\n".join(texts)


def crossed(kind):
    """The types in C of one type of Rust, as a parameter."""
    slice_of = re.fullmatch(r"&(mut )?\[(\w+)\]", kind)
    if slice_of:
        const = "" if slice_of[1] else "const "
        return [f"{const}{value(slice_of[2])} *", "size_t"]
    lent = re.fullmatch(r"&(mut )?(\w+)", kind)
    if lent:
        return [("" if lent[1] else "const ") + value(lent[2]) + " *"]
    return [value(kind)]


def value(kind):
    """The type in C of a number or a struct of Rust."""
    return NUMBERS.get(kind) or STRUCTS.get(kind) or f"?{kind}"


def named(list_of):
    """The names and types of a list 'name: type, ..' of Rust."""
    parts = [it.split(":", 1) for it in re.split(r",(?![^\[(]*[\])])", list_of) if ":" in it]
    return [(name.split()[-1], " ".join(kind.split())) for name, kind in parts]


def exports(text):
    """For each function that is exported its result and the types of its parameters, in C."""
    found = {}
    for name, parameters, result in re.findall(
        r'#\[unsafe\(no_mangle\)\]\s*pub extern "C" fn (\w+)\((.*?)\)(?:\s*->\s*(\w+))?\s*(?:requires|ensures|\{)', text, re.S
    ):
        kinds = [kind for _, kind in named(parameters) if kind != TAKES_NO_BYTES]
        found[name] = (value(result) if result else "void", [it for kind in kinds for it in crossed(kind)])
    return found


def exported_structs(text):
    """For each struct that crosses to C its fields, in C."""
    found = {}
    for name, fields in re.findall(r"#\[repr\(C\)\].*?struct (\w+) \{(.*?)\n\}", text, re.S):
        data = [it for it in fields.split("\n") if "ghost " not in it]
        kept = [(field, kind) for field, kind in named("\n".join(data)) if kind != TAKES_NO_BYTES]
        found[STRUCTS.get(name, f"?{name}")] = [(field, value(kind)) for field, kind in kept]
    return found


def spaced(kind):
    """A type of C, with one blank before a star."""
    return re.sub(r"\s*\*", " *", " ".join(kind.split()))


def declared(parameter):
    """The type of a parameter or a field of C, and its name."""
    kind, name = re.fullmatch(r"\s*(.*?[\s*])(\w+)\s*", parameter, re.S).groups()
    return spaced(kind.strip()), name


def prototypes(header):
    """For each function of the header its result and the types of its parameters."""
    found = {}
    for result, name, parameters in re.findall(r"^(\w+) (macmem_\w+)\(([^)]*)\);", header, re.M):
        found[name] = (result, [declared(it)[0] for it in parameters.split(",")])
    return found


def header_structs(header):
    """For each struct of the header its fields."""
    found = {}
    for name, fields, other in re.findall(r"typedef struct (\w+) \{(.*?)\} (\w+);", header, re.S):
        if name == other:
            found[name] = [declared(it)[::-1] for it in fields.split(";") if it.strip()]
    return found


def header_codes(header):
    """The numbers of the header's codes."""
    return {name: int(number) for name, number in re.findall(r"(MACMEM_\w+) = (-?\d+)", header)}


def exported_codes(text):
    """The numbers of the constants of the crate that are codes."""
    numbers = {name: int(number.replace("_", ""), 0) for name, number in re.findall(r"const (\w+): i32 = (-?\w+);", text)}
    return {code: numbers.get(name) for code, name in CODES.items()}


def compared(text, header):
    """How many things agree, and a line for each that doesn't."""
    passed, failed = 0, []
    header = without_comments(header)
    for of_crate, of_header in (
        (exports(text), prototypes(header)),
        (exported_structs(text), header_structs(header)),
        (exported_codes(text), header_codes(header)),
    ):
        for name in sorted(of_crate.keys() | of_header.keys()):
            if of_crate.get(name) == of_header.get(name):
                passed += 1
            else:
                failed.append(f"{name}: exported as {of_crate.get(name)}, declared as {of_header.get(name)}")
    return passed, failed


def selftest(text, header):
    """How many changes of the header are found, and a line for each that is not."""
    changes = [
        ("uint32_t size, size_t *handle", "uint32_t size, uint32_t *handle"),
        ("size_t handle, uint32_t from", "uint32_t from, size_t handle"),
        ("const uint8_t *bytes, size_t count", "const uint8_t *bytes"),
        ("int32_t macmem_h_lock(macmem_zone *zone, size_t handle);", ""),
        ("void macmem_zone_free", "int32_t macmem_zone_free"),
        ("    void *at;\n", "    void *at;\n    void *more;\n"),
        ("    size_t line;\n    int16_t code;\n", "    int16_t code;\n    size_t line;\n"),
        ("65536", "65535"),
        ("#ifdef __cplusplus\n}", "int32_t macmem_more(macmem_zone *zone);\n#ifdef __cplusplus\n}"),
    ]
    missed = [old for old, new in changes if old not in header or not compared(text, header.replace(old, new, 1))[1]]
    return len(changes) - len(missed), [f"not found wrong: {it!r}" for it in missed]


def main():
    words = sys.argv[1:]
    tests = words[:1] == ["--selftest"]
    if tests:
        words = words[1:]
    header_path, crate = (words + [HEADER, CRATE][len(words):])[:2]
    with open(header_path, encoding="utf-8") as it:
        header = it.read()
    passed, failed = (selftest if tests else compared)(sources(crate), header)
    for line in failed:
        print(line)
    print(f"{passed} passed, {len(failed)} failed")
    return 1 if failed or not passed else 0


if __name__ == "__main__":
    sys.exit(main())
