#!/usr/bin/env python3
"""Assembler text of files whose inlined copies no compiler makes.

    inline_sources.py NAME VERSION          writes the text of that name (`SOURCES`) with debugging information of that version (4 or 5)
    inline_sources.py random VERSION SEED   writes one whose functions and copies have addresses by chance

Addresses are counted from the first byte of the code. Entries of the functions that were inlined stand in front of the others.
"""

import random
import sys

FORMS = {"addr": 0x01, "data2": 0x05, "data4": 0x06, "string": 0x08, "data1": 0x0b, "flag": 0x0c, "udata": 0x0f, "ref4": 0x13, "sec_offset": 0x17, "implicit_const": 0x21}
WRITTEN = {"addr": ".8byte code + %d", "data2": ".2byte %d", "data4": ".4byte %d", "string": '.asciz "%s"', "data1": ".byte %d", "flag": ".byte %d", "udata": ".uleb128 %d",
           "ref4": ".4byte %s - unit", "sec_offset": ".4byte %s"}
ATTRIBUTES = {"name": 0x03, "stmt_list": 0x10, "low_pc": 0x11, "high_pc": 0x12, "comp_dir": 0x1b, "abstract_origin": 0x31, "declaration": 0x3c,
              "ranges": 0x55, "call_file": 0x58, "call_line": 0x59, "linkage_name": 0x6e}
TAGS = {"lexical_block": 0x0b, "compile_unit": 0x11, "structure_type": 0x13, "inlined_subroutine": 0x1d, "subprogram": 0x2e}


class Entry:
    """An entry: its tag, its attributes as (name, form, value), and its children."""

    def __init__(self, tag, *attributes, children=()):
        self.tag, self.attributes, self.children = tag, attributes, list(children)

    def shape(self):
        """What its abbreviation says."""
        return (self.tag, bool(self.children), tuple((name, form, value if form == "implicit_const" else None) for name, form, value in self.attributes))


def name(text):
    return "name", "string", text


def span(start, end):
    return ("low_pc", "addr", start), ("high_pc", "data4", end - start)


def function(text, start, end, *children):
    return Entry("subprogram", name(text), *span(start, end), children=children)


class Source:
    def __init__(self, version, size, entries, files=("a.c", "b.c")):
        self.version, self.size, self.files, self.lists = version, size, files, []
        self.abstract, self.entries = [], entries

    def ranges(self, pairs):
        self.lists.append(pairs)
        return "ranges", "sec_offset", "list_%d" % (len(self.lists) - 1)

    def copy(self, of, where, *children, call=(("call_file", "data1", 1), ("call_line", "data1", 7))):
        """A copy of a function of that name (of none where that is None): at its addresses, a pair or a list of pairs."""
        if of is not None and of not in self.abstract:
            self.abstract.append(of)
        origin = [("abstract_origin", "ref4", "origin_%d" % self.abstract.index(of))] if of is not None else []
        placed = [self.ranges(where)] if isinstance(where, list) else span(*where)
        return Entry("inlined_subroutine", *origin, *placed, *call, children=children)

    def text(self):
        root = Entry("compile_unit", name("a.c"), ("comp_dir", "string", "/s"), ("stmt_list", "sec_offset", "table"), *span(0, self.size),
                     children=[Entry("subprogram", name(of)) for of in self.abstract] + self.entries)
        shapes = {}
        return [*self.code(), *self.info(root, shapes), *self.abbreviations(shapes), *self.range_lists(), '\t.section .note.GNU-stack,"",@progbits']

    def code(self):
        yield "\t.text\ncode:"
        if self.version == 5:
            yield '\t.file 0 "/s" "a.c"'
        for number, file in enumerate(self.files, 1):
            yield '\t.file %d "%s"' % (number, file)
        for place in range(0, self.size, self.size // 8):
            yield "\t.loc %d %d\n\tnop" % (place // 8 % len(self.files) + 1, place % 1000 + 1)
            yield "\t.fill %d, 1, 0x90" % (min(self.size // 8, self.size - place) - 1)
        for entry in self.entries:
            at = dict((what, value) for what, _, value in entry.attributes)
            if entry.tag == "subprogram" and "low_pc" in at:
                yield "\t.type {0}, @function\n\t.set {0}, code + {1}\n\t.size {0}, {2}".format(at["name"], at["low_pc"], at["high_pc"])

    def info(self, root, shapes):
        yield '\t.section .debug_info,"",@progbits\nunit:\n\t.4byte unit_end - unit_start\nunit_start:\n\t.2byte %d' % self.version
        yield "\t.byte 1, 8\n\t.4byte abbreviations" if self.version == 5 else "\t.4byte abbreviations\n\t.byte 8"
        origins = 0
        waiting = [root]
        while waiting:
            entry = waiting.pop()
            if entry is None:
                yield "\t.byte 0"
                continue
            if entry.tag == "subprogram" and len(entry.attributes) == 1:
                yield "origin_%d:" % origins
                origins += 1
            yield "\t.uleb128 %d" % shapes.setdefault(entry.shape(), len(shapes) + 1)
            for _, form, value in entry.attributes:
                if form in WRITTEN:
                    yield "\t" + WRITTEN[form] % value
            if entry.children:
                waiting += [None, *reversed(entry.children)]
        yield "unit_end:"

    def abbreviations(self, shapes):
        yield '\t.section .debug_abbrev,"",@progbits\nabbreviations:'
        for (tag, children, attributes), code in shapes.items():
            yield "\t.uleb128 %d, %d\n\t.byte %d" % (code, TAGS[tag], children)
            for what, form, constant in attributes:
                yield "\t.uleb128 %d, %d" % (ATTRIBUTES[what], FORMS[form])
                if constant is not None:
                    yield "\t.sleb128 %d" % constant
            yield "\t.byte 0, 0"
        yield "\t.byte 0\n\t.section .debug_line,\"\",@progbits\ntable:"

    def range_lists(self):
        if self.version == 4:
            yield '\t.section .debug_ranges,"",@progbits'
        else:
            yield '\t.section .debug_rnglists,"",@progbits\n\t.4byte lists_end - lists_start\nlists_start:\n\t.2byte 5\n\t.byte 8, 0\n\t.4byte 0'
        for number, pairs in enumerate(self.lists):
            yield "list_%d:" % number
            for start, end in pairs:
                yield "\t.8byte %d, %d" % (start, end) if self.version == 4 else "\t.byte 4\n\t.uleb128 %d, %d" % (start, end)
            yield "\t.8byte 0, 0" if self.version == 4 else "\t.byte 0"
        yield "lists_end:"


def many_runs(version):
    """Copies of 16,384 and of 16,385 runs that take turns, and one in each run of the second."""
    source = Source(version, 4 * 16386, [])
    source.entries = [function("f", 0, source.size,
                               source.copy("a", [(4 * k, 4 * k + 1) for k in range(16384)]),
                               source.copy("b", [(4 * k + 2, 4 * k + 4) for k in range(16385)],
                                           source.copy("c", [(4 * k + 1, 4 * k + 3) for k in range(1, 16386)])))]
    return source


def deep(version):
    """A hundred copies, each in the one before and smaller by a byte at both ends."""
    source = Source(version, 256, [])
    inner = None
    for level in reversed(range(100)):
        inner = source.copy("level%d" % level, (level + 1, 255 - level), *([inner] if inner else []),
                            call=(("call_file", "data1", level % 2 + 1), ("call_line", "data2", 1000 + level)))
    source.entries = [function("f", 0, 256, inner)]
    return source


def calls(version):
    """Files and lines of calls: none, 0, those of the table, and one that it has not; copies without an origin, and of a name without a function."""
    source = Source(version, 256, [])
    given = [(), (("call_file", "data1", 0), ("call_line", "data1", 1)), (("call_file", "data1", 1), ("call_line", "data4", 0xffffffff)),
             (("call_file", "udata", 2),), (("call_line", "data2", 500),), (("call_file", "data2", 77), ("call_line", "data1", 3)),
             (("call_file", "data1", 3), ("call_line", "data1", 0))]
    if version == 5:
        given.append((("call_file", "implicit_const", 1), ("call_line", "implicit_const", 12)))
    copies = [source.copy("a" if k % 3 else "b", (16 * k, 16 * k + 8), call=call) for k, call in enumerate(given)]
    copies.append(source.copy(None, (16 * len(copies), 16 * len(copies) + 8), call=given[1]))
    source.entries = [function("f", 0, 256, *copies)]
    return source


def nested(version):
    """Siblings that overlap, a copy that leaves its parent, copies behind other entries, and functions that share addresses."""
    source = Source(version, 0x200, [])
    copy = source.copy
    source.entries = [
        # Row 18 of the worked rows.
        function("f", 0x00, 0x40, copy("a", (0x00, 0x10), copy("c", (0x04, 0x20))), copy("b", (0x08, 0x18))),
        # Addresses in two pieces, touching runs, a run outside of the function and of all code; blocks and a class are passed.
        function("g", 0x40, 0x80, Entry("lexical_block", *span(0x41, 0x42), children=[
            copy("a", [(0x44, 0x46), (0x46, 0x48), (0x48, 0x48), (0x7e, 0x84), (0x10000, 0x10010)],
                 Entry("structure_type", children=[Entry("lexical_block", children=[copy("b", (0x45, 0x80))])]))]),
                 copy("b", (0x44, 0x50)), copy("a", (0x44, 0x52))),
        # Two functions that share addresses, each with copies; the second one has what is left, in two pieces.
        function("h", 0x90, 0xa0, copy("a", (0x88, 0x98), copy("b", (0x80, 0xb0)))),
        function("i", 0x80, 0xb0, copy("c", (0x84, 0xa8), copy("a", (0x86, 0xa2)))),
        # A function that owns nothing, and a copy in a function in a function.
        function("j", 0x90, 0x98, copy("a", (0x90, 0x98))),
        function("k", 0xc0, 0xe0, copy("a", (0xc0, 0xc8)), Entry("subprogram", name("kk"), *span(0xd0, 0xd8), children=[copy("b", (0xc4, 0xd8))]), copy("c", (0xc2, 0xe0))),
        # A declaration around a copy, and a copy at no level of a function.
        Entry("subprogram", name("l"), ("declaration", "flag", 1), *span(0x100, 0x110), children=[copy("a", (0x100, 0x108))]),
        copy("a", (0x100, 0x108)),
        function("m", 0x100, 0x110),
    ]
    return source


def by_chance(version, seed):
    """Functions and copies in each other, with other entries between them, at addresses by chance, some of them beyond the code."""
    pick, source = random.Random(seed), Source(version, 512, [])
    calls_by_chance = [(), (("call_file", "data1", 0),), (("call_file", "data1", 1), ("call_line", "data1", 7)), (("call_file", "data1", 2), ("call_line", "data2", 300))]

    def where(low, high):
        """Addresses that for the most part lie between these two: a pair or a list."""
        pairs = []
        for _ in range(pick.choice((1, 1, 1, 2, 3, 6))):
            start = max(low + pick.randrange(-4, high - low + 4), 0)
            pairs.append((start, start + int(pick.expovariate(2 / (high - low)))))
        return pairs if len(pairs) > 1 or pick.random() < 0.3 else pairs[0]

    def function_of(text, low, high, depth):
        placed = where(low, high)
        return Entry("subprogram", name(text), *([source.ranges(placed)] if isinstance(placed, list) else span(*placed)), children=inside(placed, depth))

    def inside(placed, depth):
        low, high = (min(placed)[0], max(placed)[1]) if isinstance(placed, list) else placed
        count = pick.choice((2, 3, 4) if depth == 0 else (0, 1, 2, 3) if depth < 6 else (0, 0, 1, 2) if depth < 12 else (0,))
        return [entry(low, max(high, low + 4), depth + 1) for _ in range(count)]

    def entry(low, high, depth):
        what = pick.random()
        if what < 0.8:
            placed = where(low, high)
            return source.copy(pick.choice((None, "a", "b", "c", "d")), placed, *inside(placed, depth), call=pick.choice(calls_by_chance))
        if what < 0.95:
            return Entry(pick.choice(("lexical_block", "structure_type")), children=inside((low, high), depth))
        return function_of("in%d" % depth, low, high, depth)

    starts = [pick.randrange(0, 400) for _ in range(8)]
    source.entries = [function_of("f%d" % k, start, start + 150, 0) if pick.random() < 0.9 else entry(start, start + 150, 0) for k, start in enumerate(starts)]
    return source


SOURCES = {"many-runs": many_runs, "deep": deep, "calls": calls, "nested": nested}


def main():
    words = sys.argv[1:]
    if len(words) == 3 and words[0] == "random" and words[1] in ("4", "5"):
        source = by_chance(int(words[1]), words[2])
    elif len(words) == 2 and words[0] in SOURCES and words[1] in ("4", "5"):
        source = SOURCES[words[0]](int(words[1]))
    else:
        print("usage: inline_sources.py " + "|".join(SOURCES) + "|random 4|5 [SEED]", file=sys.stderr)
        return 9
    print("\n".join(source.text()))
    return 0


if __name__ == "__main__":
    sys.exit(main())
