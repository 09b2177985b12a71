"""ELF files that a dump takes more than linear time or memory for, and the functions that write these and the other files of bench/worst_cases.

A case is a label and what makes its file. It is called with a path and a scale of 1, 2 or 4, at double of which the file is twice as long. The sizes in a
label are those at scale 4.
"""

import itertools
import random
import struct

from made_units import CODE, NOTE, header, leb


def write(path, parts, sections, names_index):
    """An ELF file: the header, the parts one after another, and the section headers that `sections` makes of their offsets."""
    with open(path, "wb") as file:
        file.write(b"\0" * 64)
        places = []
        for part in parts:
            places.append((file.tell(), len(part)))
            file.write(part)
        table = file.tell()
        headers = sections(places)
        for one in headers:
            file.write(one)
        file.seek(0)
        file.write(b"\x7fELF\x02\x01\x01" + b"\0" * 9 + struct.pack("<HHIQQQIHHHHHH", 3, 62, 1, 0, 0, table, 0, 64, 56, 0, 64, len(headers), names_index))


def units(path, info, abbrevs, line=b"", texts=b"", lists=b"", offsets=b""):
    """A file with these sections of debugging information and some code."""
    names = (b".debug_info", b".debug_abbrev", b".debug_line", b".debug_str", b".debug_rnglists", b".debug_str_offsets")
    table, places = b"\0", []
    for name in names:
        places.append(len(table))
        table += name + b"\0"
    write(path, [table, NOTE, info, abbrevs, line, texts, lists, offsets],
          lambda p: [header(3, 0, 0, *p[0]), header(1, 6, CODE, 64, 1 << 20), header(7, 0, 0, *p[1])]
          + [header(1, 0, 0, *p[2 + k], name=places[k]) for k in range(len(names))], 0)


def unit(entries, abbrevs=0):
    body = struct.pack("<HBBI", 5, 1, 8, abbrevs) + entries
    return struct.pack("<I", len(body)) + body


ROOT = b"\x01\x11\x01\0\0"
FUNCTION = b"\x02\x2e\0\x11\x01\x12\x07\x03\x08\0\0"
# The names of these are in .debug_str.
NAMED = b"\x02\x2e\0\x11\x01\x12\x07\x03\x0e\0\0"
NAMED_COPY = b"\x03\x1d\0\x11\x01\x12\x07\x03\x0e\0\0"


def function(k, text, step=4):
    """The entry of a function or of a copy, without its code; the name is at this place of .debug_str."""
    return struct.pack("<QQI", CODE + step * k, 4, text)


def functions(path, names, texts, step=4):
    """A function for each of the names; with the step 0 all have one address."""
    entries = b"".join(b"\x02" + function(k, name, step) for k, name in enumerate(names))
    units(path, unit(b"\x01" + entries + b"\0"), ROOT + NAMED + b"\0", texts=texts)


def line_table(version, tables, program, behind=0):
    """A line table, to which so many bytes behind it belong too."""
    sizes = b"\x08\0" if version == 5 else b""
    head = struct.pack("<BBBbBB", 1, 1, 1, -5, 14, 13) + bytes([0, 1, 1, 1, 1, 0, 0, 0, 1, 0, 0, 1]) + tables
    line = struct.pack("<H", version) + sizes + struct.pack("<I", len(head)) + head + program
    return struct.pack("<I", len(line) + behind) + line


def sequence(address, rows):
    return b"\0\x09\x02" + struct.pack("<Q", address) + rows + b"\x02\x01\0\x01\x01"


def functions_with_lines(path, places, lines, texts=b"", directory=False):
    """Units with a function each, whose line tables are at these places. They may share a compilation directory, which begins .debug_str."""
    shared = struct.pack("<I", 0) if directory else b""
    info = b"".join(unit(b"\x01" + struct.pack("<I", place) + shared + b"\x02" + struct.pack("<QQ", CODE + 4 * k, 2) + b"f\0\0") for k, place in enumerate(places))
    units(path, info, b"\x01\x11\x01\x10\x17" + (b"\x1b\x0e" if directory else b"") + b"\0\0" + FUNCTION + b"\0", lines, texts)


def functions_of_lines(path, count, version, tables, rows, texts=b""):
    """So many units with a function each, which share a line table."""
    functions_with_lines(path, [0] * count, line_table(version, tables, sequence(CODE, b"\x21" * rows)), texts)


def files_in(path, count, directory):
    names = b"".join(b"%d.c\0" % k for k in range(count))
    functions_of_lines(path, 1, 5, b"\x01\x01\x08\x01" + directory + b"\0\x01\x01\x08" + leb(count) + names, 4)


def files_that_lines_name(path, scale):
    """Each row of the function is of another file, and the text has the paths of all."""
    count = 2_500 * scale
    tables = b"\x01\x01\x08\x01/" + b"d" * 65_000 + b"\0\x01\x01\x08" + leb(count) + b"".join(b"%d.c\0" % k for k in range(count))
    rows = b"".join(b"\x04" + leb(k) + b"\x21" for k in range(count))
    entries = b"\x01" + struct.pack("<I", 0) + b"\x02" + struct.pack("<QQ", CODE, count) + b"f\0\0"
    units(path, unit(entries), b"\x01\x11\x01\x10\x17\0\0" + FUNCTION + b"\0", line_table(5, tables, sequence(CODE, rows)))


def lines_in_lines(path, scale):
    """Each program ends with an opcode that does nothing, whose operands are the header of the next table; the last one has zeros there."""
    count, files = 2_000 * scale, b"\0a.c\0\0\0\0\0"
    head = len(line_table(4, files, b""))
    programs = [sequence(CODE + 4 * k, b"\x13") + b"\0" + leb(1 + head) + b"\x80" for k in range(count)]
    size = head + len(programs[0])
    lines = b"".join(line_table(4, files, program, (count - 1 - k) * size + head) for k, program in enumerate(programs))
    functions_with_lines(path, range(0, count * size, size), lines + bytes(head))


def lists_in_a_list(path, scale):
    count = 1_000 * scale
    entries = b"\x01" + b"".join(b"\x02" + struct.pack("<I", 12 + 17 * k) + b"f\0" for k in range(count)) + b"\0"
    lists = struct.pack("<HBBI", 5, 8, 0, 0) + b"".join(b"\x06" + struct.pack("<QQ", CODE + 16 * k, CODE + 16 * k + 8) for k in range(count)) + b"\0"
    units(path, unit(entries), b"\x01\x11\x01\0\0\x02\x2e\0\x55\x17\x03\x08\0\0\0", lists=struct.pack("<I", len(lists)) + lists)


def abbreviations_in_a_list(path, scale):
    """The root of a unit has the first of its abbreviations, and its function the last."""
    count = 2_000 * scale
    codes = [leb(3 + k * 40_503 % 65_536) for k in range(count)]
    roots = [code + b"\x11\x01\0\0" for code in codes]
    places = itertools.accumulate(map(len, roots), initial=0)
    info = b"".join(unit(code + b"\x02" + struct.pack("<QQ", CODE + 4 * k, 4) + b"f\0\0", place) for k, (code, place) in enumerate(zip(codes, places)))
    units(path, info, b"".join(roots) + FUNCTION + b"\0")


# The forms of a name by its place and by its number.
STRP, STRX4 = 0x0e, 0x28


def ends_of_a_text(path, count, form, behind=b""):
    """Functions whose names are ends of one text. Only the last one has an address, and its name is `f`."""
    places = range(0, 8 * count, 8)
    offsets = struct.pack("<IHH", 4 + 4 * count, 5, 0) + struct.pack(f"<{count}I", *places)
    *others, last = (struct.pack("<I", name) for name in (range(count) if form == STRX4 else places))
    entries = b"".join(b"\x03" + name for name in others) + b"\x02" + struct.pack("<QQ", CODE, 4) + last
    abbrevs = b"\x01\x11\x01\x72\x17\0\0\x02\x2e\0\x11\x01\x12\x07\x03%c\0\0\x03\x2e\0\x03%c\0\0\0" % (form, form)
    units(path, unit(b"\x01" + struct.pack("<I", 8) + entries + b"\0"), abbrevs, texts=b"n" * (8 * count - 8) + b"f\0" + behind, offsets=offsets)


def functions_with_a_control_byte(path, scale):
    functions(path, range(5_000 * scale), b"n" * (16_384 * scale - 1) + b"\x01\0")


def copies_with_a_control_byte(path, scale):
    count = 5_000 * scale
    around = b"\x02" + struct.pack("<QQ", CODE, 4 * count) + b"f\0"
    copies = b"".join(b"\x03" + function(k, 0) for k in range(count))
    units(path, unit(b"\x01" + around + copies + b"\0\0"), ROOT + b"\x02\x2e\x01" + FUNCTION[3:] + NAMED_COPY + b"\0", texts=b"n" * (15_000 * scale - 1) + b"\x01\0")


def functions_of_one_address(path, scale):
    letters = bytes(random.Random(1).choices(range(97, 123), k=16_384 * scale - 1))
    functions(path, range(1_000 * scale), letters + b"\x01\0", 0)


def functions_of_one_hash(path, scale):
    """The names are 64 blocks of 1,024 bytes each: the letters of the Thue-Morse sequence, or these exchanged. Both blocks have one hash, since it is a
    polynomial modulo 2^64 in an odd factor."""
    blocks = [bytes(97 + (k.bit_count() + swap) % 2 for k in range(1024)) for swap in (0, 1)]
    count = 500 * scale
    text = b"".join(random.Random(1).choices(blocks, k=count + 63))
    functions(path, range(0, 1024 * count, 1024), text + b"\0", 0)


CASES = (
    ("10,000 lines that name as many files in a directory of 65,000 bytes", files_that_lines_name),
    ("4,000 functions whose lists begin at other places of one list of as many ranges", lists_in_a_list),
    ("8,000 units whose abbreviations begin at other places of one list", abbreviations_in_a_list),
    ("8,000 units with a function whose line tables lie inside one another", lines_in_lines),
    ("20,000 functions whose names are ends of one text of 65,536 bytes with a control byte", functions_with_a_control_byte),
    ("20,000 inlined copies of one name of 60,000 bytes with a control byte", copies_with_a_control_byte),
    ("4,000 functions of one address whose names are ends of one text of 65,536 bytes with a control byte", functions_of_one_address),
    ("2,000 functions of one address whose names of 65,536 bytes are made to have one hash", functions_of_one_hash),
)
