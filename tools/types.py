#!/usr/bin/env python3
"""Writes the table of types into the crate that holds it; with --check, compares.

usage: tools/types.py [--check]

The table is types/types.r. The crate rez_table has the same bytes as a constant, since a program reads no file of its own; its
source is made here, and no hand changes it. The table is printable ASCII, in lines that end with LF, without tabs, which no source
of Rattle has: so it stands between the quotes of the constant as it is.

The last line is 'N passed, M failed', of files.
"""
import os
import sys

TABLE = "types/types.r"
CRATE = "crates/rez_table/src/lib.rt"

BEGIN = """//! The types of resources that are declared before the first line of a source. The file is made by
//! tools/types.py.
#![tactic(auto)]

ghost use Rattle.std.specs.Prelude.{◌≡◌};

/// The statements `type` of `types/types.r`.
pub const TABLE: &[u8] = br#\""""

END = """\"#;

/// Returns the statements `type` that are in force before the first line of a source.
pub fn table() -> &'static [u8]
    ensures { result.now ≡ TABLE.now }
{
    TABLE
}
"""


class Odd(Exception):
    """The table has a byte that the constant would not keep."""


def constant(table):
    """The bytes of a table, as they stand between the quotes of a constant."""
    for number, line in enumerate(table.split(b"\n"), 1):
        if any(not 32 <= byte < 127 for byte in line) or b'"#' in line:
            raise Odd(f"{TABLE}:{number}: a byte that is not printable ASCII, or what ends the constant")
    return table.decode("ascii")


def source(table):
    """The source of the crate."""
    return BEGIN + constant(table) + END


def main(words):
    if words not in ([], ["--check"]):
        sys.exit(__doc__)
    os.chdir(os.path.dirname(os.path.dirname(os.path.abspath(__file__))))
    with open(TABLE, "rb") as file:
        table = file.read()
    try:
        made = source(table)
    except Odd as fault:
        print(fault, "0 passed, 1 failed", sep="\n")
        return 1
    if not words:
        with open(CRATE, "w", encoding="utf-8") as file:
            file.write(made)
    with open(CRATE, encoding="utf-8") as file:
        kept = file.read()
    if kept != made:
        print(f"{CRATE} is not what tools/types.py makes of {TABLE}")
    print("1 passed, 0 failed" if kept == made else "0 passed, 1 failed")
    return int(kept != made)


if __name__ == "__main__":
    sys.exit(main(sys.argv[1:]))
