#!/usr/bin/env python3
"""Dumps binaries of many sections, symbols, entries, lines, ranges and frames, and of long names, made field by field; what each gives is
known by how it is made.

  scripts/long_files.py PROGRAM      in an empty folder; ends with `long files: N passed, M failed`
"""
import re
import struct
import subprocess
import sys

program = sys.argv[1]
passed = failed = 0
ID = ("note", 7, 0, 0, 0, struct.pack("<III", 4, 20, 3) + b"GNU\0" + bytes(range(20)))
NULL = ("", 0, 0, 0, 0, b"")
FRONT = "MODULE Linux x86_64 030201000504070608090A0B0C0D0E0F0 a.out\nINFO CODE_ID 000102030405060708090A0B0C0D0E0F10111213\n"


def check(label, holds, found=""):
    global passed, failed
    if holds:
        passed += 1
    else:
        failed += 1
        print(f"{label}: {found!r:.200}")


def run(*words):
    ran = subprocess.run([program, *words], stdin=subprocess.DEVNULL, capture_output=True, timeout=120)
    return ran.returncode, ran.stdout.decode("latin-1"), ran.stderr.decode("latin-1")


def expect(label, status, out, err="", words=("dump", "a.out")):
    found = run(*words)
    check(label, found == (status, out, err), found)


def text():
    """The text of the file that was written last."""
    status, out, err = run("dump", "a.out")
    check("a dump", (status, err) == (0, ""), err)
    return out


def write(sections, programs=((1, 0),), more=b"", count=None):
    """A shared object of sections (name, kind, flags, address, link, bytes) and one of their names; `more` stands behind its headers."""
    bodies, headers, names, at = b"", b"", b"", 64 + 56 * len(programs)
    for name, kind, flags, address, link, body in (*sections, ("names", 3, 0, 0, 0, None)):
        place = len(names)
        names += name.encode() + b"\0"
        body = names if body is None else body
        headers += struct.pack("<IIQQQQIIQQ", place, kind, flags, address, at + len(bodies), len(body), link, 0, 1, 0)
        bodies += body
    last = len(sections)
    elf = b"\x7fELF\x02\x01\x01" + bytes(9) + struct.pack("<HHIQQQI", 3, 62, 1, 0, 64, at + len(bodies), 0)
    elf += struct.pack("<HHHHHH", 64, 56, len(programs), 64, count or last + 1, last)
    segments = b"".join(struct.pack("<IIQQQQQQ", kind, 5, 0, address, address, 0, 0, 4096) for kind, address in programs)
    with open("a.out", "wb") as file:
        file.write(elf + segments + bodies + headers + more)


def code(size):
    return (".text", 1, 6, 0x1000, 0, b"\x90" * size)


def debug(name, body):
    return (f".debug_{name}", 1, 0, 0, 0, body)


def leb(number):
    out = b""
    while number > 127:
        out += bytes([number & 127 | 128])
        number >>= 7
    return out + bytes([number])


def counted(body):
    return struct.pack("<I", len(body)) + body


def unit(entries):
    return counted(struct.pack("<HIB", 4, 0, 8) + entries)


def new_unit(entries, at=0):
    return counted(struct.pack("<HBBI", 5, 1, 8, at) + entries)


def lines_of(program, files=b"a.c\0\0\0\0\0", version=b"\x04\0", fields=b"\x01\x01\x01\xfd\x0c\x0d\0\x01\x01\x01\x01\0\0\0\x01\0\0\x01\0"):
    return counted(version + counted(fields + files) + program)


def set_address(address):
    return b"\0\x09\x02" + struct.pack("<Q", address)


# A root with a directory and a line table; a function with a name, and one with children; a copy in it; a function without a name.
ABBREVS = (b"\x01\x11\x01\x10\x17\x1b\x08\0\0\x02\x2e\0\x03\x08\x11\x01\x12\x06\0\0\x03\x1d\0\x03\x08\x11\x01\x12\x06\x58\x0b\x59\x0b\0\0"
           b"\x04\x2e\x01\x03\x08\x11\x01\x12\x06\0\0\x05\x2e\0\x11\x01\x12\x06\0\0\0")
ROOT = b"\x01" + bytes(4) + b"/s\0"


def function(name, first, size, kind=2):
    return bytes([kind]) + name + b"\0" + struct.pack("<QI", first, size)


def symbols(entries, names):
    return (".symtab", 2, 0, 0, 4, entries), (".strtab", 3, 0, 0, 0, names)


def symbol(name, address, section=2):
    return struct.pack("<IBBHQQ", name, 2, 0, section, address, 4)


MAIN = bytes(24) + symbol(1, 0x1000)


def sections_and_segments():
    main = [NULL, ID, code(16), *symbols(MAIN, b"\0main\0")]
    for more, count, answer in ((65_273, 0xfeff, (0, FRONT + "PUBLIC 1000 0 main\n")), (65_274, 0xff00, (1, "", "refused elf section-table\n"))):
        write(main, more=bytes(64 * more), count=count)
        expect(f"{count} sections", *answer)
    write(main, ((6, 0x40),) * 65_534 + ((1, 0x400),))
    expect("65,535 segments", 0, FRONT + "PUBLIC c00 0 main\n")
    # Notes over the same six million bytes, which are walked once.
    zeros = bytes(6_000_000)
    write([NULL, ("", 7, 0, 0, 0, zeros), (".text", 1, 6, 0x1000, 0, b"\x04\0\0\0")],
          more=struct.pack("<IIQQQQIIQQ", 0, 7, 0, 0, 120, len(zeros), 0, 0, 1, 0) * 20_000, count=20_004)
    expect("20,000 sections of notes", 0, f"MODULE Linux x86_64 00000004{'0' * 25} a.out\n")


def names_and_code():
    for spaces, letters, left in ((0, 65_536, 65_536), (0, 65_537, 65_536), (3, 65_535, 65_535), (3, 65_536, 65_536), (3, 70_000, 65_536)):
        write([NULL, ID, code(16), *symbols(MAIN, b"\0" + b" " * spaces + b"a" * letters + b"\0")])
        expect("a long name", 0, f"{FRONT}PUBLIC 1000 0 {'a' * left}\n")
    # Without a build id the first 4,096 bytes of code count, each at its place modulo 16.
    for length, at, identity in ((4095, 4080, "000000FF0000000000000000000000000"), (4096, 4095, "000000000000000000000000000000FF0"),
                                 (4097, 4095, "000000000000000000000000000000FF0"), (4097, 4096, "0" * 33), (9000, 4111, "0" * 33)):
        body = bytearray(length)
        body[at] = 0xff
        write([NULL, (".text", 1, 6, 0x1000, 0, bytes(body))])
        expect("long code", 0, f"MODULE Linux x86_64 {identity} a.out\n")
    # Two symbols at each of a thousand addresses, one of which is a function's.
    table = b"".join(symbol(name, 0x2000 - k) for k in range(1000) for name in (1, 2))
    write([NULL, ID, code(0x1001), *symbols(table, b"\0main\0"), debug("info", unit(ROOT + function(b"f", 0x1fff, 1) + b"\0")), debug("abbrev", ABBREVS),
           debug("line", lines_of(b""))])
    publics = (f"PUBLIC m {address:x} 0 main\n" for address in range(0x2000 - 999, 0x2001) if address != 0x1fff)
    expect("a thousand addresses of two symbols", 0, FRONT + "FUNC 1fff 1 0 f\n" + "".join(publics))


def functions():
    """Functions of eight addresses and two names in turn, each with a copy in its first half; the lines are 3, 9 and 4 up to 1020."""
    rows = set_address(0x1000) + b"\x03\x02\x01\x02\x04\x03\x06\x01\x02\x08\x03\x7b\x01\x02\x14\0\x01\x01"
    for count, apart, names, wanted in ((1000, 16, b"ab", (1000, 0, 8000, 3, 1000, 1000)), (1000, 8, b"ab", (1000, 0, 8000, 6, 1000, 1000)),
                                        (1000, 4, b"ab", (1000, 998, 4004, 8, 1, 1000)), (1000, 0, b"ab", (1, 1, 8, 2, 1, 1)),
                                        (1000, 0, b"?\t", (1, 0, 8, 2, 1, 1)), (500_000, 8, b"ab", (500_000, 0, 4_000_000, 6, 500_000, 500_000))):
        entries = (function(names[k % 2 : k % 2 + 1], 0x1000 + k * apart, 8, 4) + function(names[k % 2 : k % 2 + 1], 0x1000 + k * apart, 4, 3) + b"\x01\x05\0"
                   for k in range(count))
        info = unit(ROOT + b"".join(entries) + b"\0")
        write([NULL, ID, code(count * apart + 32), debug("info", info), debug("abbrev", ABBREVS), debug("line", lines_of(rows))])
        out = text()
        funcs = re.findall(r"^FUNC (m )?([0-9a-f]+) ([0-9a-f]+) 0 (.*)$", out, re.M)
        found = (len(funcs), sum(bool(many) for many, *_ in funcs), sum(int(size, 16) for _, _, size, _ in funcs),
                 len(re.findall(r"^[0-9a-f]+ [0-9a-f]+ [0-9]+ [0-9]+$", out, re.M)), out.count("\nINLINE "), sum(len(name) for *_, name in funcs))
        check(f"{count} functions, {apart} apart", found == wanted, found)
        if apart >= 8:
            check("their order", [int(start, 16) for _, start, *_ in funcs] == [0x1000 + k * apart for k in range(count)], funcs)
        if apart == 16:
            blocks = (f"FUNC {a:x} 8 0 {'ab'[k % 2]}\nINLINE 0 5 0 {k % 2} {a:x} 4\n" + {0: "1000 4 3 0\n1004 4 9 0\n", 1: "1010 8 4 0\n"}.get(k, "")
                      for k, a in ((k, 0x1000 + 16 * k) for k in range(1000)))
            check("their text", out == FRONT + "FILE 0 /s/a.c\nINLINE_ORIGIN 0 a\nINLINE_ORIGIN 1 b\n" + "".join(blocks), out)


def functions_of_one_name():
    """Half a million functions, sixteen apart: each is a record of its own, in their order. Whoever scans them all for each does not come to an end."""
    first, many = 1 << 24, range(500_000)
    info = unit(ROOT + b"".join(function(b"f", first + 16 * k, 8) for k in many) + b"\0")
    write([NULL, ID, (".text", 1, 6, first, 0, bytes(16 * len(many))), debug("info", info), debug("abbrev", ABBREVS), debug("line", lines_of(b""))])
    expect("functions of one name", 0, FRONT + "".join(f"FUNC {first + 16 * k:x} 8 0 f\n" for k in many))


def abbreviations():
    """The k-th abbreviation is of a function with k bytes, by its constant; its code is another in each order."""
    for label, code_of, found in (("rising", lambda k: k, {1: 1, 2: 2, 500: 500, 999: 999, 1000: 1000, 1001: 0}),
                                  ("falling", lambda k: 1001 - k, {1: 1000, 2: 999, 500: 501, 999: 2, 1000: 1, 1001: 0}),
                                  ("doubled", lambda k: (k + 1) // 2, {1: 1, 2: 3, 500: 999, 999: 0, 1000: 0, 1001: 0})):
        # The constants are SLEB128: two bytes have room for 13 bits and a sign.
        table = b"".join(leb(code_of(k)) + b"\x2e\0\x11\x01\x12\x21" + bytes([k & 127 | 128, k >> 7]) + b"\0\0" for k in range(1, 1001))
        table = leb(2000) + b"\x11\x01\0\0" + table + b"\0"
        for number, size in found.items():
            write([NULL, ID, code(0x1000), debug("info", new_unit(leb(2000) + leb(number) + struct.pack("<Q", 0x1000) + b"\0")), debug("abbrev", table)])
            if size:
                expect(f"{label} codes, {number}", 0, f"{FRONT}FUNC 1000 {size:x} 0 <name omitted>\n")
            else:
                expect(f"{label} codes, {number}", 1, "", "refused dwarf no-abbrev debug_info e\n")


def entries():
    """A function behind a thousand variables, and inside of a million entries."""
    for label, around in (("variables", b"\x03\x02" * 1000), ("levels", b"\x01" * 1_000_000)):
        table = b"\x01\x2e\x01\0\0\x02\x2e\0\0\0\x03\x34\0\0\0\x04\x2e\0\x03\x08\x11\x01\x12\x06\0\0\0"
        write([NULL, ID, code(32), debug("info", unit(b"\x01" + around + function(b"f", 0x1000, 8, 4))), debug("abbrev", table)])
        expect(label, 0, FRONT + "FUNC 1000 8 0 f\n")


def lines():
    count = 3000
    top, end = 0x1000 + 4 * count, 0x1000 + count
    sequences = b"".join(set_address(0x1000 + 4 * (count - k)) + bytes([3, k % 60, 1, 2, 8, 0, 1, 1]) for k in range(count))
    rows = set_address(0x1000) + b"\x03\x04\x01" + b"".join(b"\x1d" if k % 2 == 0 else b"\x1b" for k in range(count)) + b"\x02\x02\0\x01\x01"
    fallen = b"".join(set_address(0x1000 + 4 * (count - k)) + b"\x03\x01\x01" for k in range(count)) + set_address(0x1008 + 4 * count) + b"\0\x01\x01"
    around = unit(ROOT + function(b"f", 0x1000 - 1, 5 * count, 2) + b"\0")
    text_code = (".text", 1, 6, 0x800, 0, b"\x90" * 0x8000)
    for label, opcodes, wanted in (
        ("sequences that overlap", sequences, {0x1003: 0, 0x1004: 60, 0x1007: 60, 0x1008: 59, top - 4: 2, top: 1, top + 7: 1, top + 8: 0}),
        ("rows of one sequence", rows, {0xfff: 0, 0x1000: 5, 0x1001: 6, 0x1002: 5, end: 5, end + 1: 5, end + 2: 0}),
        ("rows that fall", fallen, {0x1003: 0, 0x1004: count + 1, 0x1007: count + 1, 0x1008: count, top: 2, top + 7: 2, top + 8: 0}),
    ):
        write([NULL, ID, text_code, debug("info", around), debug("abbrev", ABBREVS), debug("line", lines_of(opcodes))])
        with open("text", "w") as file:
            file.write(text())
        for address, line in wanted.items():
            answer = f"f at /s/a.c:{line}\n" if line else "f at ?\n"
            # A line 0 is none.
            expect(f"{label}, {address:x}", 0, answer, words=("lookup", "text", f"{address:x}"))
    # Each path twice, and a row for each file.
    paths = [bytes([65 + k // 40, 65 + k % 40]) + b".c" for k in range(count // 2)]
    new_fields = b"\x01\x01\x01\xfd\x0c\x0d\0\x01\x01\x01\x01\0\0\0\x01\0\0\x01\x01\x01\x08\x01/s\0\x02\x01\x08\x02\x0b" + leb(count)
    for label, first, made in (
        ("version 4", 1, lambda opcodes: lines_of(opcodes, b"".join((path + bytes(4)) * 2 for path in paths) + b"\0")),
        ("version 5", 0, lambda opcodes: lines_of(opcodes, b"".join((path + b"\0\0") * 2 for path in paths), b"\x05\0\x08\0", new_fields)),
    ):
        opcodes = set_address(0x1000) + b"".join(b"\x04" + leb(k + first) + b"\x01\x02\x01" for k in range(count)) + b"\0\x01\x01"
        info = unit(ROOT + function(b"f", 0x1000, count) + b"\0")
        write([NULL, ID, code(count), debug("info", info), debug("abbrev", ABBREVS), debug("line", made(opcodes))])
        wanted = "".join(f"FILE {k} /s/{path.decode()}\n" for k, path in enumerate(paths)) + f"FUNC 1000 {count:x} 0 f\n"
        expect(f"many files, {label}", 0, FRONT + wanted + "".join(f"{0x1000 + 2 * k:x} 2 1 {k}\n" for k in range(count // 2)))


def ranges():
    """Lists of a thousand pairs of 8 addresses, and a function of one pair."""
    table = b"\x01\x11\x01\x11\x01\0\0\x02\x2e\0\x55\x17\0\0\x03\x2e\0\x11\x01\x12\x06\0\0\0"
    info = new_unit(b"\x01" + struct.pack("<Q", 0x1000) + b"\x02" + bytes(4) + b"\x03" + struct.pack("<QI", 0x2000, 16) + b"\0")
    separate = [(0x10000 + 16 * k, 8) for k in range(1000)]
    for label, apart, falls, pairs in (("rising", 16, False, separate), ("falling", 16, True, separate), ("touching", 8, False, [(0x10000, 8000)]),
                                       ("touching, falling", 8, True, [(0x10000, 8000)]), ("overlapping", 4, False, [(0x10000, 4004)])):
        order = range(1000)[::-1] if falls else range(1000)
        listed = b"".join(b"\x07" + struct.pack("<Q", 0x10000 + apart * k) + b"\x08" for k in order) + b"\0"
        write([NULL, ID, code(0x20000), debug("info", info), debug("abbrev", table), debug("rnglists", listed)])
        expect(f"pairs, {label}", 0, FRONT + "".join(f"FUNC {start:x} {size:x} 0 <name omitted>\n" for start, size in [(0x2000, 16), *pairs]))


def units():
    """Two thousand units of a function of one place, a unit of version 3 and one without a function; and a fault behind them."""
    table = b"\x01\x11\0\x3b\x07\0\0\0\x01\x11\0\x3b\x06\0\0\0\x01\x11\0\x10\x17\0\0\x02\x2e\0\x11\x01\x12\x0f\0\0\0"
    one = new_unit(b"\x01" + bytes(4) + b"\x02" + struct.pack("<Q", 0x1000) + b"\x10", 16)
    other, none = counted(b"\x03\0\xff\xff"), new_unit(b"\x01" + bytes(4), 16)
    read = one + other + none + one * 2000
    line = lines_of(set_address(0x1000) + b"\x01\x02\x10\0\x01\x01", b"a\0\0\0\0\0", b"\x02\0", b"\x01\x01\xfd\x0c\x0d\0\x01\x01\x01\x01\0\0\0\x01\0\0\x01\0")
    # Frames without a rule of the CFA: an entry of the one section, and two of the other.
    cie, entry = b"\x01\0\x01\x78\x10\0\0\0", lambda of, start: counted(struct.pack("<IQQ", of, start, 16))
    sections = ((".eh_frame", 1, 2, 0, 0, counted(bytes(4) + cie) + entry(0x14, 0x1000)),
                (".debug_frame", 1, 0, 0, 0, counted(b"\xff" * 4 + cie) + entry(0, 0x1000) + entry(0, 0x1010)))
    left_out = "omitted eh_frame 10 cfa\nomitted debug_frame 10 cfa\nomitted debug_frame 28 cfa\n"
    for workers in ("1", "2", "8"):
        words = ("dump", "a.out", "--workers", workers)
        write([NULL, ID, code(32), debug("info", read), debug("abbrev", table), debug("line", line), *sections])
        out = FRONT + "FILE 0 a\nFUNC 1000 10 0 <name omitted>\n1000 10 1 0\n"
        expect(f"units, workers: {workers}", 0, out, f"skipped debug_info {len(one):x} version 3\n{left_out}", words)
        write([NULL, ID, code(32), debug("info", read + unit(b"\x01" + bytes(4)) * 100), debug("abbrev", table), debug("line", line)])
        expect(f"a fault, workers: {workers}", 1, "", f"refused dwarf ends debug_info {len(read) + 12:x}\n", words)


def shared():
    """Functions and copies that share a list, names that are alike in namespaces and beside them, and units that share a line table."""
    table = (ABBREVS[:-1] + b"\x06\x2e\0\x03\x08\x55\x17\0\0\x07\x1d\0\x03\x08\x55\x17\x58\x0b\x59\x0b\0\0\x08\x39\x01\x03\x08\0\0\0")

    def made(info, rows=b"", listed=b""):
        write([NULL, ID, code(0x2000), debug("info", info), debug("abbrev", table), debug("line", lines_of(rows)), debug("ranges", listed)])

    listed = b"".join(struct.pack("<QQ", 0x1000 + 16 * k, 0x1008 + 16 * k) for k in range(300)) + bytes(16)
    for names, many in ((b"a" * 300, ""), (b"ab" * 150, "m "), (b"a" * 299 + b"b", "m "), (b"abc" * 100, "m "), (b"a", "")):
        made(unit(ROOT + b"".join(b"\x06" + names[k : k + 1] + bytes(5) for k in range(len(names))) + b"\0"), listed=listed)
        expect(f"{len(names)} functions of one list, {names[:3]}", 0, FRONT + "".join(f"FUNC {many}{0x1000 + 16 * k:x} 8 0 a\n" for k in range(300)))
    copies = b"".join(b"\x07" + bytes([97 + k % 2, 0]) + bytes(4) + bytes([1, k % 100 + 5]) for k in range(300))
    made(unit(ROOT + function(b"f", 0x1000, 16 * 300, 4) + copies + b"\0\0"), listed=listed)
    expect("300 copies of one list", 0, f"{FRONT}FILE 0 /s/a.c\nINLINE_ORIGIN 0 a\nFUNC 1000 {16 * 300:x} 0 f\nINLINE 0 5 0 0"
           + "".join(f" {0x1000 + 16 * k:x} 8" for k in range(300)) + "\n")

    # The k-th function stands in k + 1 namespaces, in two units; in a third one its name is spelled as it is.
    inner = b"".join(b"\x08n\0" + function(b"f", 0x1000 + 16 * k, 8) for k in range(300)) + bytes(300)
    for label, last, many in (("one name", b"f", ""), ("two names", b"g", "m ")):
        beside = b"".join(function(b"n::" * (k + 1) + last, 0x1000 + 16 * k, 8) for k in range(300))
        for order, units in (("behind", [inner, inner, beside]), ("in front", [beside, inner, inner])):
            made(b"".join(unit(ROOT + one + b"\0") for one in units))
            name = "f" if order == "behind" else last.decode()
            expect(f"functions in namespaces, {label}, {order}", 0, FRONT + "".join(f"FUNC {many}{0x1000 + 16 * k:x} 8 0 {'n::' * (k + 1)}{name}\n" for k in range(300)))
    for length, many in ((65_533, "m "), (65_534, "")):
        made(unit(ROOT + b"\x08" + b"n" * length + b"\0" + function(b"f", 0x1000, 8) + function(b"g", 0x1000, 8) + b"\0\0"))
        expect(f"a namespace of {length} bytes", 0, f"{FRONT}FUNC {many}1000 8 0 {('n' * length + '::f')[:65_536]}\n")
    made(unit(ROOT + b"\x08n\0" + function(b"a\x01b", 0x1000, 8) + b"\0" + function(b"n::a?b", 0x1000, 8) + b"\0"))
    expect("control bytes in a namespace", 0, FRONT + "FUNC 1000 8 0 n::a?b\n")

    rows = set_address(0x1000) + b"\x03\x02\x01\x02" + leb(16 * 300) + b"\0\x01\x01"
    info = b"".join(unit(b"\x01" + bytes(4) + b"/" + b"st"[k % 2 : k % 2 + 1] + b"\0" + function(b"f", 0x1000 + 16 * k, 8) + b"\0") for k in range(300))
    made(info, rows)
    for workers in ("1", "8"):
        expect(f"units of one line table, workers: {workers}", 0, FRONT + "FILE 0 /s/a.c\nFILE 1 /t/a.c\n"
               + "".join(f"FUNC {a:x} 8 0 f\n{a:x} 8 3 {k % 2}\n" for k, a in ((k, 0x1000 + 16 * k) for k in range(300))), words=("dump", "a.out", "--workers", workers))


CIE = b"\x14\0\0\0\0\0\0\0\x01\0\x01\x78\x10\x0c\x07\x08\x90\x01\0\0\0\0\0\0"
CALLED = ".cfa: $rsp 8 + .ra: .cfa -8 + ^\n"


def fde(at, start, size, own=b""):
    return struct.pack("<IIQQ", 20 + len(own), at + 4, start, size) + own


def frames_of(section, size, name=".eh_frame"):
    write([NULL, ID, code(size), (name, 1, 2, 0x2000, 0, section)])


def frames():
    section = b"\x09\0\0\0\xff\xff\xff\xff\x01\0\x01\x78\x10"
    for k in range(1000):
        section += struct.pack("<IIQQ", 23, 0, 0x1000 + 16 * k, 16) + b"\x0c\x07\x08"
    frames_of(section, 16_000, ".debug_frame")
    expect("a thousand entries", 0, FRONT + "".join(f"STACK CFI INIT {0x1000 + 16 * k:x} 10 .cfa: $rsp 8 +\n" for k in range(1000)))
    high = 0xfffffffffffff000
    write([NULL, ID, (".text", 1, 6, high, 0, b"\x90" * 0xfff), (".eh_frame", 1, 2, 0x2000, 0, CIE + fde(len(CIE), high, 0xfff))])
    expect("an entry up to the last address", 0, f"{FRONT}STACK CFI INIT {high:x} fff {CALLED}")
    own = b"".join(b"\x41\x0e\x10" if k % 2 else b"\x41\x0e\x18" for k in range(1, 400_001))
    frames_of(CIE + fde(len(CIE), 0x1000, 500_000, own), 500_000)
    changes = (f"STACK CFI {0x1000 + k:x} .cfa: $rsp {16 if k % 2 else 24} +\n" for k in range(1, 400_001))
    expect("400,000 changes", 0, f"{FRONT}STACK CFI INIT 1000 7a120 {CALLED}" + "".join(changes))
    # breg7 8, then 510 times lit1 and plus: 1,023 words.
    block = b"\xfe\x07\x77\x08" + b"\x31\x22" * 510
    words = " $rsp 8 +" + " 1 +" * 510
    own = b"\x0f" + block + b"".join(bytes([0x10, column]) + block for column in range(17))
    targets = [".ra", *("$" + name for name in "rax rdx rcx rbx rsi rdi rbp rsp r8 r9 r10 r11 r12 r13 r14 r15".split())]
    frames_of(CIE + fde(len(CIE), 0x1000, 16, own), 32)
    expect("long rules", 0, f"{FRONT}STACK CFI INIT 1000 10 .cfa:{words}" + "".join(f" {target}:{words} ^" for target in targets) + "\n")
    section, left_out = CIE, ""
    for k in range(1000):
        section += fde(len(section), 0x1000 + 16 * k, 16)
        left_out += f"omitted eh_frame {len(section):x} state\n"
        section += fde(len(section), 0x1000 + 16 * k, 16, b"\x0b")
    frames_of(section, 16_000)
    expect("a thousand good and as many bad entries", 0, FRONT + "".join(f"STACK CFI INIT {0x1000 + 16 * k:x} 10 {CALLED}" for k in range(1000)), left_out)
    # Entries that rise or fall, and now and then one that meets the first: workers take them in shares.
    for places, first in ((range(4000), 0x1008), (range(3999, -1, -1), 0x1000 + 16 * 3999 - 8)):
        section, out, left_out = CIE, FRONT, ""
        for k, place in enumerate(places):
            if k % 700 == 699:
                left_out += f"omitted eh_frame {len(section):x} overlap\n"
                section += fde(len(section), first, 16)
            out += f"STACK CFI INIT {0x1000 + 16 * place:x} 10 {CALLED}"
            section += fde(len(section), 0x1000 + 16 * place, 16)
        frames_of(section, 64_000)
        for workers in ("1", "2", "8", "64"):
            expect(f"entries that meet, workers: {workers}", 0, out, left_out, ("dump", "a.out", "--workers", workers))


def texts():
    """A name is shown without its leading spaces and cut after 65,536 bytes, however many more it has; one without a zero byte is missing."""
    many, long = b" " * 70_000, b"a" * 140_000
    # A function whose name is in .debug_str, and two namespaces, of which the second has its name there.
    table = ABBREVS[:-1] + b"\x06\x2e\0\x03\x0e\x11\x01\x12\x06\0\0\x07\x39\x01\x03\x08\0\0\x08\x39\x01\x03\x0e\0\0\0"
    rows = set_address(0x1000) + b"\x03\x02\x01\x02\x04\0\x01\x01"

    def made(entries, strings=b"", line=b"", more=(NULL, NULL), root=ROOT, line_strings=b""):
        write([NULL, ID, code(0x100), *more, debug("info", unit(root + entries + b"\0")), debug("abbrev", table), debug("line", line or lines_of(b"")),
               debug("str", strings), debug("line_str", line_strings)])

    def named(place, first):
        return struct.pack("<BIQI", 6, place, first, 4)

    # Names that begin with the first space, with others, and behind the last one.
    places, starts = (0, 1, 4463, 4464, 4465, 65_536, 69_999, 70_000), (1, 2, 35_001, 70_000, 70_001)
    functions = b"".join(named(place, 0x1000 + 8 * k) for k, place in enumerate(places))
    entries = b"".join(symbol(start, 0x1080 + 8 * k) for k, start in enumerate(starts))
    made(function(many + b"f", 0x1040, 4) + functions, many + b"f\0", more=symbols(entries, b"\0" + many + b"f\0"))
    expect("names of 70,000 spaces and a letter", 0, FRONT + "".join(f"FUNC {0x1000 + 8 * k:x} 4 0 f\n" for k in range(9))
           + "".join(f"PUBLIC {0x1080 + 8 * k:x} 0 f\n" for k in range(5)))
    # Only spaces in front of the whole name are left out.
    inner = function(b"   g", 0x1000, 4) + function(many + b"h", 0x1010, 4) + named(0, 0x1020) + b"\0"
    for label, namespace in (("here", b"\x07" + many + b"n\0"), ("in .debug_str", b"\x08" + bytes(4))):
        made(namespace + inner, many + b"n\0")
        expect(f"a namespace of 70,000 spaces and a letter, {label}", 0,
               f"{FRONT}FUNC 1000 4 0 n::   g\nFUNC 1010 4 0 n::{' ' * 65_533}\nFUNC 1020 4 0 n::{' ' * 65_533}\n")
    made(function(long, 0x1000, 4) + named(0, 0x1010) + named(70_000, 0x1020) + function(many + long, 0x1030, 4), many + long + b"\0",
         more=symbols(symbol(1, 0x1040) + symbol(70_001, 0x1050), b"\0" + many + long + b"\0"))
    cut = "a" * 65_536
    expect("names of 140,000 letters", 0, FRONT + "".join(f"{record} {cut}\n" for record in (
        "FUNC 1000 4 0", "FUNC 1010 4 0", "FUNC 1020 4 0", "FUNC 1030 4 0", "PUBLIC 1040 0", "PUBLIC 1050 0")))

    fields, directory = b"\x01\x01\x01\xfd\x0c\x0d\0\x01\x01\x01\x01\0\0\0\x01\0\0\x01", many + b"/d"
    new = fields + b"\x01\x01\x1f\x01" + bytes(4) + b"\x01\x01\x08\x02x\0"
    for label, root, line, path in (
        ("of the unit", directory, lines_of(rows), "/d/a.c"),
        ("of the table", b"", lines_of(rows, b"a.c\0\x01\0\0\0", fields=fields + directory + b"\0\0"), "/d/a.c"),
        ("of both", b"/s", lines_of(rows, b"a.c\0\x01\0\0\0", fields=fields + directory + b"\0\0"), "/s/" + " " * 65_533),
        ("of version 5", b"", lines_of(rows, b"a.c\0", b"\x05\0\x08\0", new), "/d/a.c"),
        ("of letters", b"/" + long, lines_of(rows), "/" + "a" * 65_535),
    ):
        made(function(b"f", 0x1000, 4), line=line, root=b"\x01" + bytes(4) + root + b"\0", line_strings=directory + b"\0end")
        expect(f"a long directory {label}", 0, f"{FRONT}FILE 0 {path}\nFUNC 1000 4 0 f\n1000 4 3 0\n")

    # The last zero byte of .debug_str ends the last of its texts.
    for label, end in (("letters", b"end"), ("spaces", many)):
        strings = b"f\0g\0" + end
        functions = named(0, 0x1000) + named(2, 0x1010) + named(4, 0x1020) + named(5, 0x1030) + named(len(strings), 0x1040)
        made(functions + b"\x08" + struct.pack("<I", 4) + function(b"h", 0x1050, 4) + b"\0", strings)
        expect(f"{label} behind the last zero byte", 0, f"{FRONT}FUNC 1000 4 0 f\nFUNC 1010 4 0 g\nFUNC 1020 4 0 <name omitted>\n"
               "FUNC 1030 4 0 <name omitted>\nFUNC 1040 4 0 <name omitted>\nFUNC 1050 4 0 (anonymous)::h\n")


for part in (sections_and_segments, names_and_code, functions, functions_of_one_name, abbreviations, entries, lines, ranges, units, shared, texts, frames):
    part()
print(f"long files: {passed} passed, {failed} failed")
