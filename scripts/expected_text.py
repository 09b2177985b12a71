#!/usr/bin/env python3
"""What `dumpsyms dump FILE` must answer, derived from what readelf says of FILE; with SUPPLEMENT, the supplementary file of FILE, `dump --full FILE`.

Writes the text to standard output and the err line to standard error, and ends with the status. It knows the refusals
that the usual tools can make, and ends with status 9 where it can say nothing. The frame records at the end of the text and
the entries that err omits are left to expected_frames.py.
"""

import os
import re
import subprocess
import sys

sys.dont_write_bytecode = True
from read_elf import bytes_named, clean, read_base, read_code, read_sections, readelf  # noqa: E402
from expected_debug import Debug  # noqa: E402

READ_NAMES = {
    b".debug_info", b".debug_abbrev", b".debug_line", b".debug_line_str", b".debug_str", b".debug_str_offsets",
    b".debug_addr", b".debug_ranges", b".debug_rnglists", b".debug_frame", b".eh_frame", b".text",
}
READ_TYPES = {b"SYMTAB", b"DYNSYM", b"STRTAB", b"NOTE"}


class Refused(Exception):
    """The err line of a file that is refused."""


def check_header(path, data):
    """The fields of the file header, by `readelf -h`, in the order in which they are looked at."""
    if len(data) < 64 or data[:4] != b"\x7fELF":
        raise Refused("refused elf not-elf")
    text = readelf(["-hW"], path)

    def field(name):
        found = re.search(rb"^ *" + name + rb": *(.*)$", text, re.M)
        return found.group(1) if found else b""

    def number(name):
        return int(field(name).split()[0])

    if field(b"Class") != b"ELF64":
        raise Refused("refused elf class")
    if b"little endian" not in field(b"Data"):
        raise Refused("refused elf order")
    if b"X86-64" not in field(b"Machine"):
        raise Refused("refused elf machine")
    if field(b"Type").split()[0] not in (b"EXEC", b"DYN"):
        raise Refused("refused elf kind")
    start, count = number(b"Start of section headers"), number(b"Number of section headers")
    if start == 0 or count == 0 or start + 64 * count > len(data):
        raise Refused("refused elf section-table")


def check_sections(sections):
    for section in sections:
        is_read = section.name in READ_NAMES or section.kind in READ_TYPES
        if (is_read and b"C" in section.flags) or section.name.startswith(b".zdebug_"):
            raise Refused("refused elf compressed %d" % section.index)


def read_build_id(sections, data):
    """The first GNU build id. Notes are read from the bytes: readelf refuses a last one whose padding is missing."""
    for section in sections:
        notes = section.bytes_of(data) if section.kind == b"NOTE" else b""
        while len(notes) >= 12:
            name_size, size, kind = (int.from_bytes(notes[place:place + 4], "little") for place in (0, 4, 8))
            start = 12 + (name_size + 3) // 4 * 4
            if start + size > len(notes):
                break
            if notes[12:12 + name_size] == b"GNU\0" and kind == 3 and 1 <= size <= 64:
                return notes[start:start + size]
            notes = notes[start + (size + 3) // 4 * 4:]
    return None


def fold(code):
    identity = bytearray(16)
    for place, byte in enumerate(code[:4096]):
        identity[place % 16] ^= byte
    return bytes(identity)


def name_of(number, table, sections, data):
    """The name of a symbol as it stands in the file: readelf adds versions, and spells control characters in its way."""
    strings = sections[table.link].bytes_of(data)
    place = int.from_bytes(table.bytes_of(data)[24 * number:24 * number + 4], "little")
    return strings[place:strings.index(b"\0", place)]


def read_functions(path, sections, base, data):
    """The addresses and names of the function symbols, in the order of their table."""
    tables = [s for s in sections if s.kind == b"SYMTAB"] or [s for s in sections if s.kind == b"DYNSYM"]
    if not tables:
        return []
    spans = read_code(sections, base)
    line = re.compile(rb"^ *(\d+): ([0-9a-f]+) +\S+ (\S+) +\S+ +\S+ +(?:\[.*\] +)?(\S+) ")
    functions, here = [], False
    for text in readelf(["-sW"], path).splitlines():
        head = re.match(rb"^Symbol table '(.*)' contains", text)
        if head:
            here = head.group(1) == tables[0].name
        found = line.match(text) if here else None
        if found and found.group(3) in (b"FUNC", b"IFUNC") and found.group(4) != b"UND":
            address = int(found.group(2), 16)
            name = name_of(int(found.group(1)), tables[0], sections, data)
            if name and any(start <= address < end for start, end in spans):
                functions.append((address, name))
    return functions


def public_lines(functions, base):
    names = {}
    for address, name in functions:
        names.setdefault(address, []).append(clean(name))
    for address in sorted(names):
        several = b"m " if len(set(names[address])) > 1 else b""
        yield b"PUBLIC %s%x 0 %s" % (several, address - base, names[address][0])


def expected(path, data, supplement=None):
    check_header(path, data)
    sections = read_sections(path)
    check_sections(sections)
    build_id, code = read_build_id(sections, data), bytes_named(sections, b".text", data)
    if build_id is None and not code:
        raise Refused("refused elf no-identity")
    identity = fold(code) if build_id is None else build_id[:16].ljust(16, b"\0")
    turned = identity[3::-1] + identity[5:3:-1] + identity[7:5:-1] + identity[8:]
    lines = [b"MODULE Linux x86_64 %s0 %s" % (turned.hex().upper().encode(), clean(path.rpartition(b"/")[2]))]
    if build_id is not None:
        lines.append(b"INFO CODE_ID " + build_id.hex().upper().encode())
    base = read_base(path)
    functions, skipped = read_functions(path, sections, base, data), []
    if bytes_named(sections, b".debug_info", data):
        debug = Debug(path, sections, base, data, supplement)
        lines.extend(debug.records())
        functions, skipped = [pair for pair in functions if not debug.covers(pair[0])], debug.skipped()
    lines.extend(public_lines(functions, base))
    return [b"".join(line + b"\n" for line in part) for part in (lines, skipped)]


def main():
    if len(sys.argv) not in (2, 3):
        print("usage: expected_text.py FILE [SUPPLEMENT]", file=sys.stderr)
        return 9
    path, *supplement = map(os.fsencode, sys.argv[1:])
    try:
        with open(path, "rb") as file:
            data = file.read()
        text, skipped = expected(path, data, *supplement)
        sys.stdout.buffer.write(text)
        sys.stderr.buffer.write(skipped)
    except OSError:
        print("cannot read input", file=sys.stderr)
        return 3
    except Refused as refused:
        print(refused, file=sys.stderr)
        return 1
    return 0


if __name__ == "__main__":
    try:
        sys.exit(main())
    except (ValueError, LookupError, subprocess.SubprocessError) as error:
        print("expected_text.py: %r" % error, file=sys.stderr)
        sys.exit(9)
