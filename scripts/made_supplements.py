#!/usr/bin/env python3
"""Writes small ELF files with a supplementary file (DWARF 5, 7.3.6), each in a folder of its own, and prints the name of each folder.

    made_supplements.py FOLDER
    made_supplements.py --link PATH FILE SUPPLEMENT    writes the two files of the first case, the one with that path in its link

A folder has the file `g`, whose link leads to `s` beside it, and what `dump --full` of `g` has to answer: `out`, `err` and `status`, which are written here by
hand. Where there is `plain`, it is the text without `--full`.
"""

import os
import struct
import sys
import zlib

G_ID, S_ID = bytes(range(20)), bytes(range(0x40, 0x54))
CODE = 0x401000
# The forms of a place and of a text in the supplementary file: of the GNU tools, and of DWARF 5. Two others, whose places are those of the file itself.
ALT, SUP4, SUP8 = (0x1F20, 0x1F21), (0x1C, 0x1D), (0x24, 0x1D)
SECTION_PLACE, UNIT_PLACE = 0x10, 0x14
COMPRESSED = 0x800


def uleb(value):
    return bytes([value & 127 | 128]) + uleb(value >> 7) if value > 127 else bytes([value])


# ---- the layout of ELF

def note(id_):
    return struct.pack("<III", 4, len(id_), 3) + b"GNU\0" + id_


class Section:
    """A section by its name and its bytes; `at` and `size` take the place of what is so."""

    def __init__(self, name, content, kind=1, flags=0, address=0, at=None, size=None, name_at=None):
        self.name, self.content, self.kind, self.flags, self.address = name, content, kind, flags, address
        self.at, self.size, self.name_at = at, size, name_at


def elf(sections, kind, magic=b"\x7fELF\2\1\1", machine=62, loaded=False, table=True, entry=56):
    """An ELF file of these sections, numbered from 1, with their names in one more behind them."""
    names = b"\0" + b"".join(section.name.encode() + b"\0" for section in sections) + b".shstrtab\0"
    place, held, headers, name_at = 64 + 56 * loaded, b"", bytes(64), 1
    for section in sections + [Section(".shstrtab", names, 3)]:
        at, size = place + len(held), len(section.content)
        headers += struct.pack("<IIQQQQIIQQ", name_at if section.name_at is None else section.name_at, section.kind, section.flags, section.address,
                               at if section.at is None else section.at, size if section.size is None else section.size, 0, 0, 1, 0)
        held, name_at = held + (b"" if section.kind == 8 else section.content), name_at + len(section.name) + 1
    count = len(sections) + 2
    head = magic + bytes(16 - len(magic)) + struct.pack("<HHIQQQIHHHHHH", kind, machine, 1, 0, 64, (place + len(held)) * table, 0, 64, entry,
                                                       loaded or entry != 56, 64, count, count - 1)
    return head + (struct.pack("<IIQQQQQQ", 1, 5, 0, 0x400000, 0x400000, 0x1000, 0x1000, 0x1000) if loaded else b"") + held + headers


# ---- the layout of DWARF

def abbreviation(code, tag, children, *pairs):
    return bytes([code, tag, children]) + b"".join(uleb(number) for pair in pairs for number in pair) + b"\0\0"


def offset(value, wide):
    return struct.pack("<Q" if wide else "<I", value)


def front(version, wide=False):
    """The bytes in front of a unit's entries."""
    return {4: 11, 5: 12}[version] + (12 if wide else 0)


def unit(entries, version=4, wide=False, kind=1, size=8, at=0, length=None):
    if version == 5:
        head = struct.pack("<HBB", version, kind, size) + offset(at, wide) + (bytes(8) if kind == 4 else b"")
    else:
        head = struct.pack("<H", version) + offset(at, wide) + bytes([size])
    count = len(head) + len(entries) if length is None else length
    return (b"\xff" * 4 if wide else b"") + offset(count, wide) + head + entries


NAME, SPECIFICATION, ORIGIN, LINKAGE, DECLARATION, LOW, HIGH, INLINE, LINES, RANGES = 0x03, 0x47, 0x31, 0x6E, 0x3C, 0x11, 0x12, 0x20, 0x10, 0x55
STRING, STRP, REF4, PRESENT, ADDR, DATA4, DATA1, OFFSET = 0x08, 0x0E, 0x13, 0x19, 0x01, 0x06, 0x0B, 0x17
COMPILED, PARTIAL, NAMESPACE, STRUCTURE, FUNCTION, COPY, PARAMETER = 0x11, 0x3C, 0x39, 0x13, 0x2E, 0x1D, 0x05

# ---- the supplementary file: in its unit the namespace n, in it the structure S, in it a function f; and behind them an instance of f

STRINGS = b"\0n\0S\0f\0_ZN1n1S1hEv\0"
N, S, F, H = 1, 3, 5, 7


def lent_abbreviations(scope=((NAME, STRP),), function=((NAME, STRP), (DECLARATION, PRESENT)), root=()):
    return (abbreviation(1, PARTIAL, 1, *root) + abbreviation(2, NAMESPACE, 1, *scope) + abbreviation(3, STRUCTURE, 1, (NAME, STRP))
            + abbreviation(4, FUNCTION, 0, *function) + abbreviation(5, FUNCTION, 0, (SPECIFICATION, REF4), (INLINE, DATA1))
            + abbreviation(6, FUNCTION, 0, (SPECIFICATION, REF4)) + b"\0")


def f_place(start=11, wide=False):
    return start + 1 + 2 * (9 if wide else 5)


def instance_place(start=11, wide=False):
    return f_place(start, wide) + (9 if wide else 5) + 2


def lent_entries(start=11, wide=False, namespace=None, function=None, root=b""):
    """The entries; `namespace` and `function` have the values of two in place of their names."""
    scopes = b"\2" + (offset(N, wide) if namespace is None else namespace) + b"\3" + offset(S, wide)
    named = b"\4" + (offset(F, wide) if function is None else function)
    return b"\1" + root + scopes + named + b"\0\0" + b"\5" + struct.pack("<IB", f_place(start, wide), 0) + b"\0"


def supplement(units=None, abbreviations=None, strings=STRINGS, id_=S_ID, mark=None, pack=None, more=(), **fields):
    """The file; `mark` is its section .debug_sup, in place of a build id, and `pack` the section .debug_info."""
    sections = [Section(".note.gnu.build-id", note(id_), 7, 2) if mark is None else Section(".debug_sup", mark),
                pack or Section(".debug_info", unit(lent_entries()) if units is None else units),
                Section(".debug_abbrev", lent_abbreviations() if abbreviations is None else abbreviations), Section(".debug_str", strings), *more]
    return elf(sections, **{"kind": 1, **fields})


# ---- the file that is dumped: functions that lead into the supplementary file, or whose names stand there

def own_abbreviations(place, text):
    addresses = (LOW, ADDR), (HIGH, DATA4)
    return (abbreviation(1, COMPILED, 1) + abbreviation(2, FUNCTION, 0, (SPECIFICATION, place), *addresses) + abbreviation(3, NAMESPACE, 1, (NAME, text))
            + abbreviation(4, STRUCTURE, 1, (NAME, text)) + abbreviation(5, FUNCTION, 0, (NAME, text), *addresses)
            + abbreviation(6, FUNCTION, 0, (LINKAGE, text), *addresses) + abbreviation(7, FUNCTION, 1, (ORIGIN, place), *addresses)
            + abbreviation(8, COPY, 0, (ORIGIN, place), *addresses) + abbreviation(9, FUNCTION, 0, (NAME, STRING), *addresses)
            + abbreviation(10, FUNCTION, 1, (NAME, STRING), *addresses) + abbreviation(11, PARAMETER, 0, (ORIGIN, place)) + b"\0")


def own_entries(forms, wide=False, f=None, instance=None, n=N, parameter=None):
    at = lambda place: offset(place, wide and forms[0] in (0x1F20, SECTION_PLACE) or forms[0] in (0x24, UNIT_PLACE))
    text = lambda place: offset(place, wide)
    addresses = lambda start, size: struct.pack("<QI", CODE + start, size)
    f, instance = f_place() if f is None else f, instance_place() if instance is None else instance
    return (b"\1" + b"\2" + at(f) + addresses(0, 16)
            + b"\3" + text(n) + b"\4" + text(S) + b"\5" + text(F) + addresses(16, 16) + b"\0\0"
            + b"\6" + text(H) + addresses(32, 16)
            + b"\7" + at(instance) + addresses(48, 32) + b"\10" + at(f) + addresses(56, 8) + b"\0"
            + b"\3" + text(n) + b"\11" + b"own\0" + addresses(80, 16) + b"\0"
            + (b"" if parameter is None else b"\12" + b"last\0" + addresses(96, 16) + b"\13" + at(parameter) + b"\0") + b"\0")


def altlink(path=b"s", id_=S_ID):
    return Section(".gnu_debugaltlink", path + b"\0" + id_)


def debug_sup(path=b"s", id_=S_ID, version=5, second=0):
    return struct.pack("<HB", version, second) + path + b"\0" + uleb(len(id_)) + id_


def dumped(*links, forms=ALT, version=4, wide=False, units=b"", more=(), abbreviations=None, **entries):
    """The file with these sections of links behind those of DWARF, and `units` behind its own."""
    sections = [Section(".note.gnu.build-id", note(G_ID), 7, 2, 0x400078), Section(".text", b"\x90" * 128, 1, 6, CODE),
                Section(".debug_info", unit(own_entries(forms, wide, **entries), version, wide) + units),
                Section(".debug_abbrev", own_abbreviations(*forms) if abbreviations is None else abbreviations), *(links or (altlink(),)), *more]
    return elf(sections, 2, loaded=True)


HEAD = "MODULE Linux x86_64 030201000504070608090A0B0C0D0E0F0 g\nINFO CODE_ID 000102030405060708090A0B0C0D0E0F10111213\n"
OMITTED = "<name omitted>"


def text(lent="n::S::f", own="n::S::f", linkage="_ZN1n1S1hEv", scope="n", copy=None, more=""):
    """The text: `lent` is the name of what leads into the supplementary file, the others those of what has its names there."""
    return HEAD + f"""FILE 0 <name omitted>
INLINE_ORIGIN 0 {lent if copy is None else copy}
FUNC 1000 10 0 {lent if copy is None else copy}
FUNC 1010 10 0 {own}
FUNC 1020 10 0 {linkage}
FUNC 1030 20 0 {lent}
INLINE 0 0 0 0 1038 8
FUNC 1050 10 0 {scope}::own
{more}"""


PLAIN = text(OMITTED, OMITTED, OMITTED, OMITTED)
LAST = "FUNC 1060 10 0 last\n"


# ---- the cases: the file, the supplementary file, and what is answered

def named():
    """Whole files, by each form and format, and what stands in places that give no name."""
    yield "of-the-gnu-tools", dumped(), supplement(), text()
    of_5 = f_place(12), instance_place(12)
    five = {"units": unit(lent_entries(12), 5, kind=3)}
    yield "of-the-gnu-tools-in-version-5", dumped(version=5, f=of_5[0], instance=of_5[1]), supplement(**five), text()
    for name, forms in ("of-version-5", SUP4), ("of-version-5-in-eight-bytes", SUP8):
        own = dumped(Section(".debug_sup", debug_sup()), forms=forms, version=5, f=of_5[0], instance=of_5[1])
        yield name, own, supplement(mark=debug_sup(b"", second=1), **five), text()
    yield "with-a-build-id-beside-the-mark", dumped(Section(".debug_sup", debug_sup()), forms=SUP4), supplement(
        mark=debug_sup(b"", second=1), more=[Section(".note.gnu.build-id", note(b"another"), 7, 2)]), text()
    yield "in-the-64-bit-format", dumped(wide=True), supplement(), text()
    yield "in-the-64-bit-format-of-version-5", dumped(Section(".debug_sup", debug_sup()), forms=SUP4, version=5, wide=True), supplement(
        mark=debug_sup(b"", second=1)), text()
    wide = f_place(23, True), instance_place(23, True)
    yield "into-the-64-bit-format", dumped(f=wide[0], instance=wide[1]), supplement(unit(lent_entries(23, True), wide=True)), text()
    yield "forms-of-version-5-by-the-older-link", dumped(forms=SUP4), supplement(), text()
    yield "older-forms-by-the-link-of-version-5", dumped(Section(".debug_sup", debug_sup())), supplement(mark=debug_sup(b"", second=1)), text()
    yield "with-both-links", dumped(altlink(), Section(".debug_sup", b"")), supplement(), text()
    yield "with-two-links", dumped(altlink(), altlink(b"another")), supplement(), text()
    yield "of-an-executable-kind", dumped(), supplement(kind=2), text()
    yield "of-a-core-file", dumped(), supplement(kind=4, entry=1), text()
    skeleton = f_place(20), instance_place(20)
    yield "in-a-skeleton-unit", dumped(f=skeleton[0], instance=skeleton[1]), supplement(unit(lent_entries(20), 5, kind=4)), text()
    yield "in-a-second-unit", dumped(f=0x24 + f_place(), instance=0x24 + instance_place()), supplement(2 * unit(lent_entries())), text()

    # Nothing stands there.
    yield "beside-an-entry", dumped(f=f_place() + 1), supplement(), text(copy=OMITTED)
    yield "behind-the-section", dumped(f=0x7FFFFFFF), supplement(), text(copy=OMITTED)
    yield "at-the-greatest-place", dumped(f=0xFFFFFFFF), supplement(), text(copy=OMITTED)
    yield "at-the-greatest-place-of-eight-bytes", dumped(Section(".debug_sup", debug_sup()), forms=SUP8, f=2**64 - 1), supplement(
        mark=debug_sup(b"", second=1)), text(copy=OMITTED)
    yield "at-the-place-of-an-own-entry", dumped(f=11), supplement(), text(copy=OMITTED)
    yield "text-behind-the-section", dumped(n=len(STRINGS) + 1), supplement(), text(own="(anonymous)::S::f", scope="(anonymous)")
    yield "text-without-an-end", dumped(n=len(STRINGS)), supplement(strings=STRINGS + b"end"), text(own="(anonymous)::S::f", scope="(anonymous)")
    yield "empty-text", dumped(n=0), supplement(), text(own="::S::f", scope="")
    yield "without-texts", dumped(), supplement(strings=b""), text(OMITTED, OMITTED, OMITTED, "(anonymous)")

    # What the supplementary file says of another one is not known; nor has it addresses or lines.
    scope = lent_abbreviations(scope=((NAME, 0x1F21),))
    yield "in-a-namespace-named-elsewhere", dumped(), supplement(abbreviations=scope), text(OMITTED + "::S::f")
    yield "in-a-namespace-without-a-name", dumped(f=f_place() - 4, instance=instance_place() - 4), supplement(
        unit(lent_entries(7, namespace=b"")), lent_abbreviations(scope=())), text("(anonymous)::S::f")
    yield "a-function-named-elsewhere", dumped(), supplement(
        abbreviations=lent_abbreviations(function=((NAME, 0x1F21), (DECLARATION, PRESENT)))), text(OMITTED)
    yield "a-function-that-leads-elsewhere", dumped(), supplement(
        unit(lent_entries(function=struct.pack("<I", 12))), lent_abbreviations(function=((SPECIFICATION, 0x1F20), (DECLARATION, PRESENT)))), text(OMITTED)
    addresses = struct.pack("<IQI", F, CODE + 96, 16)
    yield "a-function-with-addresses", dumped(instance=instance_place() + 12), supplement(
        unit(lent_entries(function=addresses)), lent_abbreviations(function=((NAME, STRP), (LOW, ADDR), (HIGH, DATA4)))), text()
    lines = struct.pack("<II", 0x7FFFFFFF, 0x7FFFFFFF)
    yield "a-unit-with-lines-and-ranges-that-are-not-there", dumped(f=f_place(19), instance=instance_place(19)), supplement(
        unit(lent_entries(19, root=lines)), lent_abbreviations(root=((LINES, OFFSET), (RANGES, OFFSET)))), text()
    # No place of one file is one of the other, however great it is.
    far, wraps, place = 2**29, 2**64 - 2**29, 11 + own_entries(ALT).index(b"own") - 1
    yield "an-own-place-behind-the-section", dumped(forms=(SECTION_PLACE, 0x1F21), f=far + f_place(), instance=far + instance_place()), supplement(), text(OMITTED)
    yield "an-own-place-behind-the-unit", dumped(forms=(UNIT_PLACE, 0x1F21), f=far + f_place(), instance=far + instance_place()), supplement(), text(OMITTED)
    yield "an-own-place-that-wraps", dumped(forms=(UNIT_PLACE, 0x1F21), f=wraps + f_place(), instance=wraps + instance_place()), supplement(), text(OMITTED)
    of_8 = 11 + own_entries(SUP8).index(b"own") - 1
    yield "a-place-that-wraps", dumped(forms=SUP8, f=wraps + of_8, instance=wraps + of_8), supplement(), text(OMITTED)
    for name, form, start in ("section", SECTION_PLACE, 23), ("unit", UNIT_PLACE, 11):
        for way, goal in ("wraps", wraps + place), ("is-one-of-the-file", place):
            leads = lent_abbreviations(function=((SPECIFICATION, form), (DECLARATION, PRESENT)))
            units = unit(lent_entries(start, start == 23, function=struct.pack("<Q", goal)), wide=start == 23)
            f = f_place(start, start == 23)
            yield f"a-place-of-its-{name}-that-{way}", dumped(f=f, instance=f + 11), supplement(units, leads), text(OMITTED)
    # Sixteen links lead to a name, and seventeen are too many: the function of the file, then those of the supplementary file.
    for count in 16, 17:
        chain = b"".join(b"\6" + struct.pack("<I", f_place() + 7 + 5 * k) for k in range(1, count - 1)) + b"\6" + struct.pack("<I", f_place())
        units = unit(lent_entries()[:18] + chain + b"\0")
        yield f"a-way-of-{count}-links", dumped(instance=f_place() + 7), supplement(units), text(OMITTED if count > 16 else "n::S::f", copy="n::S::f")


def compressed():
    units = unit(lent_entries())
    head = struct.pack("<IIQQ", 1, 0, len(units), 1)
    yield "compressed", dumped(), supplement(pack=Section(".debug_info", head + zlib.compress(units), flags=COMPRESSED)), text()
    older = b"ZLIB" + struct.pack(">Q", len(units)) + zlib.compress(units)
    yield "compressed-by-the-older-name", dumped(), supplement(pack=Section(".zdebug_info", older)), text()
    yield "compressed-by-zstd", dumped(), supplement(pack=Section(".debug_info", b"\2" + head[1:], flags=COMPRESSED)), "refused sup compressed 2"
    yield "a-note-that-is-compressed", dumped(), supplement(more=[Section(".note", b"", 7, COMPRESSED)]), "refused sup compressed 5"
    yield "bad-data", dumped(), supplement(pack=Section(".debug_info", head + b"none", flags=COMPRESSED)), "refused sup inflate 2"
    large = struct.pack("<IIQQ", 1, 0, 2**29 + 1, 1) + zlib.compress(units)
    yield "data-that-says-too-much", dumped(), supplement(pack=Section(".debug_info", large, flags=COMPRESSED)), "refused sup inflated-too-long"


def skipped():
    """Units of other versions: told where an entry that is kept leads into them."""
    three = unit(lent_entries(), 3)
    yield "of-version-3", dumped(), supplement(three), (text(OMITTED), "skipped sup_info 0 version 3\n")
    own = unit(own_entries(ALT), 3)
    at = len(unit(own_entries(ALT)))
    yield "both-of-version-3", dumped(units=own), supplement(three), (text(OMITTED), f"skipped debug_info {at:x} version 3\nskipped sup_info 0 version 3\n")
    yield "a-second-unit-of-version-3", dumped(), supplement(unit(lent_entries()) + three), text()
    yield "a-second-unit-of-version-2-that-is-asked-for", dumped(f=0x24 + f_place()), supplement(unit(lent_entries()) + unit(lent_entries(), 2)), (
        text(copy=OMITTED), "skipped sup_info 24 version 2\n")
    yield "two-units-of-version-3", dumped(f=0x24 + f_place()), supplement(2 * three), (
        text(OMITTED), "skipped sup_info 0 version 3\nskipped sup_info 24 version 3\n")
    yield "of-version-3-by-a-parameter-alone", dumped(parameter=0x24 + f_place()), supplement(unit(lent_entries()) + three), text(more=LAST)
    yield "of-a-type-unit", dumped(), supplement(unit(bytes(12) + lent_entries(), 5, kind=2)), text(OMITTED)
    # A file has no byte at 2^29: a place of its own there is none of the supplementary file.
    yield "of-version-3-beside-an-own-place-behind-the-file", dumped(forms=(SECTION_PLACE, 0x1F21), f=2**29, instance=2**29), supplement(three), text(OMITTED)


def bad_links():
    """Links that are refused, and sections that are none."""
    bad = {
        "without-a-zero-byte": b"s" + S_ID.replace(b"\0", b"\1"), "that-is-empty": b"", "without-a-path": b"\0" + S_ID,
        "of-no-utf-8": b"\xff\0" + S_ID, "without-an-id": b"s\0",
    }
    sections = [(name, Section(".gnu_debugaltlink", content)) for name, content in bad.items()]
    sections += [("that-is-compressed", Section(".gnu_debugaltlink", b"s\0" + S_ID, flags=COMPRESSED)),
                 ("without-bytes", Section(".gnu_debugaltlink", b"s\0" + S_ID, 8)),
                 ("that-leaves-the-file", Section(".gnu_debugaltlink", b"s\0" + S_ID, at=0x100000))]
    whole = debug_sup()
    bad = {
        "that-is-empty": b"", "of-one-byte": whole[:1], "of-two-bytes": whole[:2], "of-three-bytes": whole[:3], "without-a-zero-byte": whole[:4],
        "without-a-length": whole[:5], "of-a-length-that-is-cut": whole[:5] + b"\x94", "of-a-length-that-is-too-long": whole[:5] + b"\xff" * 10,
        "that-is-cut": whole[:-1], "without-a-path": debug_sup(b""), "of-no-utf-8": debug_sup(b"\xc3"), "without-an-id": debug_sup(id_=b""),
    }
    sections += [(name + "-of-version-5", Section(".debug_sup", content)) for name, content in bad.items()]
    sections += [("that-is-compressed-of-version-5", Section(".debug_sup", whole, flags=COMPRESSED)), ("without-bytes-of-version-5", Section(".debug_sup", whole, 8)),
                 ("that-leaves-the-file-of-version-5", Section(".debug_sup", whole, at=0x100000))]
    for name, section in sections:
        yield "a-link-" + name, dumped(section), supplement(), "refused sup link"
    yield "a-bad-link-beside-a-good-one", dumped(Section(".gnu_debugaltlink", b""), Section(".debug_sup", whole)), supplement(), "refused sup link"
    yield "a-bad-link-in-front-of-a-good-one", dumped(Section(".gnu_debugaltlink", b""), altlink()), supplement(), "refused sup link"
    yield "a-link-of-version-6", dumped(Section(".debug_sup", debug_sup(version=6))), supplement(), PLAIN
    yield "a-link-of-a-supplementary-file", dumped(Section(".debug_sup", debug_sup(second=1))), supplement(), PLAIN
    yield "a-link-of-a-supplementary-file-that-is-cut", dumped(Section(".debug_sup", whole[:2] + b"\1")), supplement(), PLAIN
    yield "no-link", dumped(Section(".other", b"")), supplement(), PLAIN


def bad_files():
    """Supplementary files that are refused, and those that are not the link's."""
    for name, words, fields in (
            ("of-32-bits", "class", {"magic": b"\x7fELF\1\1\1"}), ("big-endian", "order", {"magic": b"\x7fELF\2\2\1"}),
            ("of-another-machine", "machine", {"machine": 183}), ("without-a-table", "section-table", {"table": False}),
            ("with-a-name-that-is-not-there", "section-names", {"more": [Section(".other", b"", name_at=0xFFFF)]}),
            ("with-a-section-that-leaves", "section-bytes 2", {"pack": Section(".debug_info", b"", at=0x10000, size=4)}),
            ("with-notes-that-leave", "section-bytes 5", {"more": [Section(".note", b"", 7, at=0x10000, size=4)]})):
        yield name, dumped(), supplement(**fields), "refused sup " + words
    yield "no-elf", dumped(), b"#!/bin/sh\n".ljust(64), "refused sup not-elf"
    yield "empty", dumped(), b"", "refused sup not-elf"
    yield "cut", dumped(), supplement()[:-1], "refused sup section-table"
    yield "with-an-id-of-another-last-byte", dumped(), supplement(id_=S_ID[:-1] + b"\0"), "refused sup build-id"
    yield "with-a-shorter-id", dumped(), supplement(id_=S_ID[:-1]), "refused sup build-id"
    yield "with-a-longer-id", dumped(), supplement(id_=S_ID + b"\0"), "refused sup build-id"
    yield "with-an-id-of-65-bytes", dumped(altlink(id_=bytes(65))), supplement(id_=bytes(65)), "refused sup build-id"
    yield "without-an-id", dumped(), supplement(mark=b""), "refused sup build-id"
    yield "with-a-mark-in-place-of-an-id", dumped(), supplement(mark=debug_sup(b"", second=1)), "refused sup build-id"
    new = dumped(Section(".debug_sup", debug_sup()), forms=SUP4)
    yield "with-an-id-in-place-of-a-mark", new, supplement(), "refused sup build-id"
    for name, mark in (("of-another-last-byte", debug_sup(b"", S_ID[:-1] + b"\0", second=1)), ("of-version-4", debug_sup(b"", version=4, second=1)),
                       ("of-no-supplementary-file", debug_sup(b"")), ("that-is-cut", debug_sup(b"", second=1)[:-1]), ("that-is-empty", b"")):
        yield "with-a-mark-" + name, new, supplement(mark=mark), "refused sup build-id"
    yield "damaged-and-another", dumped(), supplement(b"\1", id_=b"another"), "refused sup build-id"


def bad_dwarf():
    """What is wrong in the debugging information of the supplementary file, and which of several faults is the first."""
    entries, abbreviations = lent_entries(), lent_abbreviations()
    bad = {
        "reserved debug_info 0": (unit(entries, length=0xFFFFFFF0), None), "ends debug_info 0": (unit(entries, length=0x21), None),
        "ends debug_info 24": (unit(entries) + b"\1", None), "address-size debug_info 0": (unit(entries, size=4), None),
        "unit-type debug_info 0": (unit(entries, 5, kind=9), None), "offset-outside debug_info 0": (unit(entries, at=0xFFFF), None),
        "ends debug_abbrev 0": (None, b""), "no-abbrev debug_info c": (unit(entries[:1] + b"\x7f"), None),
        "unknown-form debug_info d": (None, lent_abbreviations(scope=((NAME, 0x7F),))), "ends debug_info 17": (unit(entries[:14]), None),
        "leb-long debug_abbrev 0": (None, b"\xff" * 10), "no-zero debug_info d": (unit(entries[:1] + b"\2none"), lent_abbreviations(scope=((NAME, STRING),))),
    }
    for words, (units, table) in bad.items():
        yield words.replace(" ", "-"), dumped(), supplement(units, table), "refused sup-dwarf " + words
    damaged = supplement(unit(entries, size=4))
    yield "a-fault-of-both", dumped(abbreviations=b""), damaged, "refused dwarf ends debug_abbrev 0"
    frames = [Section(".eh_frame", b"\x10\0\0\0", 1, 2, 0x400200)]
    yield "a-fault-in-front-of-frames", dumped(more=frames), damaged, "refused sup-dwarf address-size debug_info 0"
    yield "a-fault-of-frames", dumped(more=frames), supplement(), "refused frame length eh_frame 0"
    yield "a-link-and-a-fault", dumped(altlink(b""), abbreviations=b""), damaged, "refused sup link"
    yield "another-id-and-a-fault", dumped(abbreviations=b""), supplement(id_=b"another"), "refused sup build-id"
    three = unit(entries, 3, at=0xFFFF)
    yield "no-fault-of-a-unit-of-version-3", dumped(f=len(three) + f_place(), instance=len(three) + instance_place()), supplement(
        three + unit(lent_entries())), text()


def write(path, content):
    with open(path, "wb") as file:
        file.write(content)


def main():
    if sys.argv[1] == "--link":
        path, file, lent = sys.argv[2:]
        write(file, dumped(altlink(os.fsencode(path))))
        write(lent, supplement())
        return
    for make in named, compressed, skipped, bad_links, bad_files, bad_dwarf:
        for name, own, lent, answer in make():
            folder = os.path.join(sys.argv[1], name)
            os.makedirs(folder)
            refused = isinstance(answer, str) and answer.startswith("refused ")
            out, err = ("", answer + "\n") if refused else answer if isinstance(answer, tuple) else (answer, "")
            contents = {"g": own, "s": lent, "out": out.encode(), "err": err.encode(), "status": b"%d\n" % refused}
            if make is named:
                contents["plain"] = PLAIN.encode()
            for file, content in contents.items():
                write(os.path.join(folder, file), content)
            print(name)


if __name__ == "__main__":
    main()
