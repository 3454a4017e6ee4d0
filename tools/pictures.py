#!/usr/bin/env python3
"""Compares the pictures in docs/pictures with what the program draws; with --write, draws them anew.

usage: tools/pictures.py [--write] PROGRAM

The last line is 'N passed, M failed', of pictures.
"""
import os
import subprocess
import sys

FOLDER = "docs/pictures"

# Each picture, and the words after 'macmem' that draw it.
PICTURES = {
    "first.svg": "heap --svg 1024 examples/first.script",
    "kept_pointer.svg": "heap --svg --steps 7..8 1024 examples/kept_pointer.script",
    "kept_pointer_blocks.svg": "heap --svg 1024 examples/kept_pointer.script",
    "kept_pointer_locked.svg": "heap --svg --steps 9..10 1024 examples/kept_pointer_locked.script",
    "compaction.svg": "heap --svg --steps 6..7 1024 examples/compaction.script",
    "purging.svg": "heap --svg --steps 4..5 1024 examples/purging.script",
    "document.svg": "heap --svg 16384 examples/document.script",
    "grow_zone.svg": "heap --svg 1024 examples/grow_zone.script",
    "inside.svg": "heap --svg --steps 12..14 --inside 1024 examples/grow_zone.script",
    "zone.svg": "zone --svg examples/memory.dump 0x600",
}


def drawn(program, words):
    """What the program draws."""
    return subprocess.run([program, *words.split()], stdout=subprocess.PIPE, check=True).stdout


def kept(name):
    """The picture as it is kept, if it is."""
    try:
        with open(os.path.join(FOLDER, name), "rb") as file:
            return file.read()
    except FileNotFoundError:
        return None


def main(words):
    program, writes = words[-1], words[:-1] == ["--write"]
    os.chdir(os.path.dirname(os.path.dirname(os.path.abspath(__file__))))
    failed = 0
    for name, how in PICTURES.items():
        picture = drawn(program, how)
        if writes:
            with open(os.path.join(FOLDER, name), "wb") as file:
                file.write(picture)
        elif picture != kept(name):
            failed += 1
            print(f"{FOLDER}/{name} is not what 'macmem {how}' draws")
    for name in sorted(set(os.listdir(FOLDER)) - set(PICTURES)):
        failed += 1
        print(f"{FOLDER}/{name}: nothing draws it")
    print(f"{len(PICTURES) - failed} passed, {failed} failed")
    return 1 if failed else 0


if __name__ == "__main__":
    program = os.path.abspath(sys.argv[-1])
    sys.exit(main(sys.argv[1:-1] + [program]))
