#!/usr/bin/env python3
"""Writes small core files, each with one fault, into a folder, and prints the name of each and the words by which it is refused.

    made_cores.py FOLDER
    made_cores.py --whole CORE STORE    writes a core file without a fault, and the symbol file of its module into a store
"""

import os
import struct
import sys


def note(kind, descriptor, owner=b"CORE\0"):
    """A note, by its kind, its descriptor and its owner, each filled to four bytes."""
    fill = lambda text: text + bytes(-len(text) % 4)
    return struct.pack("<III", len(owner), len(descriptor), kind) + fill(owner) + fill(descriptor)


def header(kind=4, machine=62, ident=b"\x7fELF\x02\x01\x01", count=1, size=56, place=64):
    """A file header with a table of program headers behind it."""
    return ident + bytes(16 - len(ident)) + struct.pack("<HHIQQQIHHHHHH", kind, machine, 1, 0, place, 0, 0, 64, size, count, 0, 0, 0)


def core(pieces, **fields):
    """A core file of segments, each a type, an address and its bytes."""
    place, table, contents = 64 + 56 * len(pieces), b"", b""
    for kind, address, content in pieces:
        table += struct.pack("<IIQQQQQQ", kind, 6, place, address, 0, len(content), len(content), 1)
        place, contents = place + len(content), contents + content
    return header(count=len(pieces), **fields) + table + contents


STATE = note(1, bytes(336))
NOTES, LOADED = 4, 1

FILES = {
    "not-an-elf": (b"#!/bin/sh\n", "not-elf"),
    "of-32-bits": (core([(NOTES, 0, STATE)], ident=b"\x7fELF\x01\x01\x01"), "class"),
    "big-endian": (core([(NOTES, 0, STATE)], ident=b"\x7fELF\x02\x02\x01"), "order"),
    "of-another-machine": (core([(NOTES, 0, STATE)], machine=183), "machine"),
    "an-executable": (core([(NOTES, 0, STATE)], kind=2), "kind"),
    "without-a-table": (header(count=2), "program-table"),
    "a-segment-that-leaves": (core([(NOTES, 0, STATE), (LOADED, (1 << 64) - 4, bytes(8))]), "segment 1"),
    "a-short-state": (core([(NOTES, 0, note(1, bytes(271)))]), "note 0"),
    "a-note-that-leaves": (core([(NOTES, 0, STATE + struct.pack("<III", 5, 100, 1))]), "note 0"),
    "files-that-leave": (core([(NOTES, 0, STATE + note(0x46494C45, struct.pack("<QQ", 1 << 32, 4096)))]), "note 0"),
    "without-a-thread": (core([(NOTES, 0, note(3, bytes(136)))]), "no-thread"),
}


START, END = 0x555555550000, 0x555555554000
ID = "030201000504070608090A0B0C0D0E0F0"
SYMBOLS = f"""MODULE Linux x86_64 {ID} a
FUNC 1000 20 0 f
FUNC 2000 10 0 g
STACK CFI INIT 1000 20 .cfa: $rsp 8 + .ra: .cfa -8 + ^
STACK CFI INIT 2000 10 .cfa: $rsp 8 +
"""


def whole():
    """The core of a process of one module, whose thread is in f, called by g."""
    image = header(kind=3, count=2) + struct.pack("<IIQQQQQQ", 1, 5, 0, 0, 0, 0x3010, 0x3010, 1)
    image += struct.pack("<IIQQQQQQ", 4, 4, 176, 176, 176, 36, 36, 1) + note(3, bytes(range(20)), b"GNU\0")
    state = bytearray(336)
    state[12:14] = struct.pack("<H", 11)
    state[32:36] = struct.pack("<I", 1)
    state[240:248] = struct.pack("<Q", START + 0x1005)
    state[264:272] = struct.pack("<Q", 0x7000)
    files = struct.pack("<QQQQQ", 1, 4096, START, END, 0) + b"/x/a\0"
    stack = struct.pack("<Q", START + 0x2005) + bytes(8)
    return core([(NOTES, 0, note(1, bytes(state)) + note(0x46494C45, files)), (LOADED, START, image), (LOADED, 0x7000, stack)])


def main():
    if sys.argv[1] == "--whole":
        with open(sys.argv[2], "wb") as file:
            file.write(whole())
        folder = os.path.join(sys.argv[3], "a", ID)
        os.makedirs(folder, exist_ok=True)
        with open(os.path.join(folder, "a.sym"), "w", encoding="ascii") as file:
            file.write(SYMBOLS)
        return
    for name, (content, words) in FILES.items():
        with open(os.path.join(sys.argv[1], name), "wb") as file:
            file.write(content)
        print(name, words)


if __name__ == "__main__":
    main()
