#!/usr/bin/env python3
"""The ELF file that `sample N` dumps, made anew: N units of DWARF 5 and 4 in turn, each with two functions of 32 bytes at 401000 + 64 k, a copy of
the second inlined in the first, four lines, and two frame entries; every tenth unit's second entry restores a state that was not remembered.

  made_elf.py N FILE    writes the file
  made_elf.py --rows N  prints its parts in hexadecimal, but for zeros
"""
import struct
import sys

CODE = 0x401000


def text(value):
    return value.encode() + b"\0"


def counted(body):
    return struct.pack("<I", len(body)) + body


def line_table(k):
    fields = bytes([1, 1, 1, 0x100 - 5, 14, 13]) + bytes([0, 1, 1, 1, 1, 0, 0, 0, 1, 0, 0, 1])
    name = text(f"u{k}.c")
    if k % 2 == 0:
        version = struct.pack("<HBB", 5, 8, 0)
        # directories: a path as a string; files: a path as a string, and a directory of one byte
        tables = bytes([1, 1, 8, 1]) + text("/s") + bytes([2, 1, 8, 2, 0x0B, 2]) + (name + b"\0") * 2
    else:
        version = struct.pack("<H", 4)
        tables = b"\0" + name + bytes([0, 0, 0]) + b"\0"
    program = bytes([0, 9, 2]) + struct.pack("<Q", CODE + 64 * k)
    for lines in (9, 1, 9, 1):
        program += bytes([3, lines, 1, 2, 16])
    program += bytes([0, 1, 1])
    return counted(version + counted(fields + tables) + program)


def entries(k, table, front):
    address = CODE + 64 * k
    root = b"\1" + text(f"u{k}.c") + text("/s") + struct.pack("<IQI", table, address, 64)
    second = b"\3" + text(f"g{k}") + struct.pack("<QI", address + 32, 32)
    first = b"\2" + text(f"f{k}") + struct.pack("<QI", address, 32)
    copy = b"\4" + struct.pack("<IQIBB", front + len(root), address + 8, 8, 1, 5)
    return root + second + first + copy + b"\0\0"


def unit(k, table):
    if k % 2 == 0:
        header = struct.pack("<HBBI", 5, 1, 8, 0)
    else:
        header = struct.pack("<HIB", 4, 0, 8)
    return counted(header + entries(k, table, 4 + len(header)))


def abbreviation(code, tag, children, *pairs):
    return bytes([code, tag, children]) + bytes(sum(pairs, ())) + b"\0\0"


ADDRESSES = ((0x11, 0x01), (0x12, 0x06))
ABBREVIATIONS = (
    abbreviation(1, 0x11, 1, (0x03, 0x08), (0x1B, 0x08), (0x10, 0x17), *ADDRESSES)
    + abbreviation(2, 0x2E, 1, (0x03, 0x08), *ADDRESSES)
    + abbreviation(3, 0x2E, 0, (0x03, 0x08), *ADDRESSES)
    + abbreviation(4, 0x1D, 0, (0x31, 0x13), *ADDRESSES, (0x58, 0x0B), (0x59, 0x0B))
    + b"\0"
)


def frames(n):
    at = CODE + 64 * n
    section = counted(b"\0\0\0\0" + b"\1" + b"zR\0" + bytes([1, 0x78, 16, 1, 0x1B, 0x0C, 7, 8, 0x90, 1, 0, 0]))
    for j in range(2 * n):
        bad = j % 2 == 1 and (j // 2) % 10 == 9
        start = len(section)
        way = CODE + 32 * j - (at + start + 8)
        instructions = (b"\x0b" if bad else bytes([0x41, 0x0E, 16, 0x86, 2])).ljust(7, b"\0")
        section += counted(struct.pack("<IiIB", start + 4, way, 32, 0) + instructions)
    return section + b"\0\0\0\0"


def parts(n):
    lines, units = b"", b""
    for k in range(n):
        units += unit(k, len(lines))
        lines += line_table(k)
    names = b"\0"
    numbers = {}
    for name in (".note.gnu.build-id", ".text", ".eh_frame", ".debug_abbrev", ".debug_info", ".debug_line", ".shstrtab"):
        numbers[name] = len(names)
        names += text(name)
    note = struct.pack("<III", 4, 20, 3) + b"GNU\0" + bytes([n % 256]) * 20
    eh = frames(n)
    front = 64 + 56 + len(note)
    places, at = {}, 0x1000 + 64 * n
    for name, body in ((".eh_frame", eh), (".debug_abbrev", ABBREVIATIONS), (".debug_info", units), (".debug_line", lines), (".shstrtab", names)):
        places[name] = (at, len(body))
        at += len(body)

    def section(name, kind, flags, address, offset, size, alignment):
        return struct.pack("<IIQQQQIIQQ", numbers.get(name, 0), kind, flags, address, offset, size, 0, 0, alignment, 0)

    eh_at, eh_size = places[".eh_frame"]
    headers = [
        section("", 0, 0, 0, 0, 0, 0),
        section(".note.gnu.build-id", 7, 2, 0x400000 + 120, 120, len(note), 4),
        section(".text", 1, 6, CODE, 0x1000, 64 * n, 16),
        section(".eh_frame", 1, 2, 0x400000 + eh_at, eh_at, eh_size, 8),
    ]
    for name, kind in ((".debug_abbrev", 1), (".debug_info", 1), (".debug_line", 1), (".shstrtab", 3)):
        headers.append(section(name, kind, 0, 0, *places[name], 1))
    elf = b"\x7fELF" + bytes([2, 1, 1]) + bytes(9) + struct.pack("<HHIQQQIHHHHHH", 2, 62, 1, 0, 64, at, 0, 64, 56, 1, 64, 8, 7)
    size = eh_at + eh_size
    program = struct.pack("<IIQQQQQQ", 1, 5, 0, 0x400000, 0x400000, size, size, 0x1000)
    return {
        "front": elf + program + note,
        "zeros": bytes(0x1000 - front + 64 * n),
        "frames": eh,
        "abbreviations": ABBREVIATIONS,
        "units": units,
        "lines": lines,
        "names": names,
        "headers": b"".join(headers),
    }


if __name__ == "__main__":
    if sys.argv[1] == "--rows":
        for name, body in parts(int(sys.argv[2])).items():
            if name != "zeros":
                print(name, body.hex(" "))
    else:
        with open(sys.argv[2], "wb") as out:
            out.write(b"".join(parts(int(sys.argv[1])).values()))
