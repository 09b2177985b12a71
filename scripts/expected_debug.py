#!/usr/bin/env python3
"""The functions, their inlined copies and their lines of a file with debugging information, derived from what readelf shows of it.

    expected_debug.py FILE TEXT   compares the FUNC and PUBLIC records of TEXT, a dump of FILE, with the symbols that `nm -S` shows;
                                  ends with status 0 where they agree, and else with 1 and the first difference

Entries are those of `readelf --debug-dump=info`, ranges in .debug_ranges those of `--debug-dump=Ranges`, lines those of
`--debug-dump=rawline`, which shows files by their numbers; `--debug-dump=decodedline` must have the same rows. Lists in .debug_rnglists
are read from the bytes: of those that no table of places names readelf shows the first one alone.
"""

import bisect
import re
import subprocess
import sys

sys.dont_write_bytecode = True
from read_elf import LONGEST, bytes_named, clean, read_base, read_code, read_sections, readelf  # noqa: E402

LINES = 1 << 32
# An INLINE record has so many ranges at the most.
RANGES = 16384
SCOPES = {b"class_type", b"structure_type", b"union_type", b"namespace"}
KEPT = SCOPES | {b"inlined_subroutine", b"subprogram"}
# What these forms say stands in a supplementary file.
SUP_TEXTS = {b"GNU_strp_alt", b"strp_sup"}
SUP_PLACES = {b"GNU_ref_alt", b"ref_sup4", b"ref_sup8"}
# Of version 5 these types of units are read, and the others passed over.
READ_TYPES = {1, 3, 4}


def shown(what, path):
    """The lines of one of readelf's dumps, of this file alone."""
    return readelf(["-W", "--debug-dump=no-follow-links", "--debug-dump=" + what], path).splitlines()


def number(value):
    """A number as readelf shows it; one of an address, or of a list, stands in front of what it names."""
    return int(re.sub(rb"^\(index: [^)]*\): ", b"", value).split()[0], 0)


class Entry:
    """An entry that is kept, or a unit's root: for each attribute its form and its value as readelf shows it.

    A text of the supplementary file is that text, or None where it is not known.
    """

    def __init__(self, unit, place, tag, parent):
        self.unit, self.place, self.tag, self.parent = unit, place, tag, parent
        self.attributes = {}

    def value(self, name):
        return self.attributes[name][1] if name in self.attributes else None

    def number(self, name):
        return number(self.value(name)) if name in self.attributes else None

    def links(self):
        """The files, and the places in their sections, that an origin and a specification name."""
        for name in b"abstract_origin", b"specification":
            form, value = self.attributes.get(name, (b"", None))
            if value and (form not in SUP_PLACES or self.unit.strings is not None):
                yield "supplement" if form in SUP_PLACES else self.unit.file, int(re.match(rb"<?(\w+)", value).group(1), 16)

    def link(self):
        """The first of these."""
        return next(self.links(), None)

    def around(self):
        """What a scope adds in front of the names in it."""
        form, value = self.attributes.get(b"name", (b"", None))
        is_unknown = form in SUP_TEXTS and self.unit.strings is None
        return value if value is not None else clean(b"") if is_unknown else b"(anonymous)"

    def is_function(self):
        return self.tag == b"subprogram" and self.value(b"declaration") != b"1"

    def is_copy(self):
        return self.tag == b"inlined_subroutine"

    def inside(self):
        """The nearest function or inlined copy around the entry; all other tags are passed."""
        around = self.parent
        while around and not around.is_copy() and around.tag != b"subprogram":
            around = around.parent
        return around


class Unit:
    def __init__(self, file, place, strings):
        self.file, self.place, self.strings, self.version, self.kind, self.entries = file, place, strings, 0, 1, []

    def is_skipped(self):
        return self.version not in (4, 5)

    def is_read(self):
        return self.version == 4 or (self.version == 5 and self.kind in READ_TYPES)


def in_supplement(form, value, place, info, strings):
    """What stands in the supplementary file: a text of it, or None, and the place of an entry; other values are as readelf shows them.

    These are read from the bytes, in the 32-bit format: readelf adds the unit's place to some.
    """
    if form not in SUP_TEXTS | SUP_PLACES:
        return value
    start = Bytes(info, place).fixed(8 if form == b"ref_sup8" else 4)
    end = -1 if strings is None else strings.find(b"\0", start)
    return b"<0x%x>" % start if form in SUP_PLACES else strings[start:end] if end >= 0 else None


def read_units(path, data, file="debug", strings=None):
    """The units of .debug_info, with their roots and the entries that are kept; `strings` are those of the supplementary file, if it is read."""
    info = bytes_named(read_sections(path), b".debug_info", data)
    units, entry, around, here = [], None, [], False
    unit_head = re.compile(rb"^  Compilation Unit @ offset (\w+):")
    field = re.compile(rb"^   (Version|Unit Type): +(?:DW_UT_\w+ \()?(\d+)")
    entry_head = re.compile(rb"^ <(\w+)><(\w+)>: Abbrev Number: \d+(?: \(DW_TAG_(\w+)\))?")
    attribute = re.compile(rb"^ +<(\w+)> +DW_AT_(\w+) *: (?:\((\w+)\) )?(?:\([^()]*offset: \w+\): )?(.*)$")
    for line in shown("info", path):
        if line.startswith(b"Contents of the "):
            here = line.startswith(b"Contents of the .debug_info ")
        elif not here:
            continue
        elif found := unit_head.match(line):
            units.append(Unit(file, int(found.group(1), 0), strings))
            entry, around = None, []
        elif found := entry_head.match(line):
            depth, entry = int(found.group(1), 16), None
            if found.group(3) is not None and (depth == 0 or found.group(3) in KEPT):
                del around[depth:]
                parent = next((e for e in reversed(around) if e), None)
                entry = Entry(units[-1], int(found.group(2), 16), found.group(3), parent)
                units[-1].entries.append(entry)
                around += [None] * (depth - len(around)) + [entry]
            else:
                del around[depth:]
        elif found := field.match(line):
            setattr(units[-1], {b"Version": "version", b"Unit Type": "kind"}[found.group(1)], int(found.group(2)))
        elif entry and (found := attribute.match(line)):
            place, name, form, value = found.groups()
            entry.attributes.setdefault(name, (form, in_supplement(form, value, int(place, 16), info, strings)))
    return units


# ---- names (DWARF 5, 2.15 and 3.3.8.2)

def name_of(entry, places):
    """The first linkage name on the way of links, else the first name, behind the scopes around its entry."""
    way = [entry]
    while len(way) < 17 and way[-1].link() in places:
        way.append(places[way[-1].link()])
    for step in way:
        linkage = step.value(b"linkage_name") or step.value(b"MIPS_linkage_name")
        if linkage is not None:
            return clean(linkage)
    for step in way:
        if step.value(b"name") is not None:
            name, scope = step.value(b"name"), step.parent
            while scope:
                if scope.tag in SCOPES:
                    name = scope.around() + b"::" + name
                scope = scope.parent
            return clean(name)
    return clean(b"")


# ---- ranges (DWARF 5, 2.17 and 7.25)

def read_ranges(path):
    """The pairs of each list of .debug_ranges, by the list's place."""
    lists, here, pairs = {}, False, None
    line = re.compile(rb"^ +([0-9a-f]{8,16}) (?:([0-9a-f]{16}) ([0-9a-f]{16})|<End of list>)(.*)$")
    for text in shown("Ranges", path):
        if text.startswith(b"Contents of the "):
            here = text.startswith(b"Contents of the .debug_ranges ")
        found = line.match(text) if here else None
        if found:
            pairs = lists.setdefault(int(found.group(1), 16), []) if pairs is None else pairs
            if found.group(2) is None:
                pairs = None
            elif b"base address" not in found.group(4):
                pairs.append((int(found.group(2), 16), int(found.group(3), 16)))
    return lists


class Bytes:
    """Numbers of a section, one behind the other."""

    def __init__(self, data, place):
        self.data, self.place = data, place

    def fixed(self, count):
        self.place += count
        return int.from_bytes(self.data[self.place - count:self.place], "little")

    def leb(self):
        total = shift = 0
        while True:
            byte = self.fixed(1)
            total |= (byte & 127) << shift
            shift += 7
            if byte < 128:
                return total


def list_of(section, place, base, address):
    """The pairs of the list at that place of .debug_rnglists; `address` looks an address up by its number."""
    at, pairs = Bytes(section, place), []
    while kind := at.fixed(1):
        if kind == 1:
            base = address(at.leb())
        elif kind == 5:
            base = at.fixed(8)
        elif kind == 4:
            start, end = at.leb(), at.leb()
            pairs.append((base + start, base + end))
        else:
            start = at.fixed(8) if kind in (6, 7) else address(at.leb())
            end = {2: lambda: address(at.leb()), 3: lambda: start + at.leb(), 6: lambda: at.fixed(8), 7: lambda: start + at.leb()}[kind]()
            pairs.append((start, end))
    return pairs


# ---- lines (DWARF 5, 6.2)

class Table:
    """A line table: its directories and files by number, and for each sequence its rows (address, file, line) and its end."""

    def __init__(self):
        self.version, self.directories, self.files, self.sequences = 0, {}, {}, []

    def path_of(self, file, directory):
        """The path of a file, in the directory of the compilation; None where the table has not the file."""
        if file not in self.files:
            return None
        at, name = self.files[file]
        first = self.directories.get(0)
        top = directory if self.version < 5 or first == directory else joined(directory, first)
        return clean(joined(top if at == 0 else joined(top, self.directories.get(at)), name))

    def runs(self, directory, code):
        """The runs of addresses with one path and line, or with None. The first sequence that counts has an address."""
        spans = []
        for rows, end in self.sequences:
            if not lies_in(code, (min((row[0] for row in rows), default=end), end)):
                continue
            # Of several rows at one address the last.
            last = sorted({row[0]: row for row in rows}.values())
            for row, stop in zip(last, [row[0] for row in last[1:]] + [end]):
                path = self.path_of(row[1], directory) if row[2] else None
                spans.append((row[0], min(stop, end), (path, row[2]) if path is not None else None))
        return first_wins(spans)


def joined(directory, name):
    if directory is None or not directory or name.startswith(b"/"):
        return name
    if not name:
        return directory
    return directory + (b"" if directory.endswith(b"/") else b"/") + name


def read_tables(path):
    """The line tables by their places in .debug_line."""
    tables, table, part = {}, None, None
    name = rb"(?:\((?:line_strp|strp)\)\t\(offset: \w+\): |\(string\)\t)?(.*)$"
    directory = re.compile(rb"^  (\d+)\t" + name)
    file = re.compile(rb"^  (\d+)\t(?:\(\w+\)\t)?(\d+)\t(?:\(data16\) \w+\t|\d+\t\d+\t)?" + name)
    for line in shown("rawline", path):
        if found := re.match(rb"^  Offset: +(\w+)$", line):
            table, registers, rows = tables.setdefault(int(found.group(1), 0), Table()), [0, 1, 1], []
        elif found := re.match(rb"^  DWARF Version: +(\d+)$", line):
            table.version = int(found.group(1))
        elif found := re.match(rb"^ The (Directory|File Name) Table|^ (Line Number) Statements", line):
            part = found.group(1)
        elif part == b"Directory" and (found := directory.match(line)):
            table.directories[int(found.group(1))] = found.group(2)
        elif part == b"File Name" and (found := file.match(line)):
            table.files[int(found.group(1))] = (int(found.group(2)), found.group(3))
        elif table and (found := re.match(rb"^  \[0x\w+\]  (.*)$", line)):
            if found.group(1).startswith(b"Extended opcode 1:"):
                table.sequences.append((rows, registers[0]))
                registers, rows = [0, 1, 1], []
            elif take(found.group(1), registers):
                rows.append(tuple(registers))
    return tables


def take(statement, registers):
    """What a statement, as readelf spells it, does to the registers address, file and line; whether it adds a row."""
    if found := re.search(rb"^Special .* Address by .* to (\w+)(?:\[\d+\])? and Line by .* to (-?\d+)", statement):
        registers[0], registers[2] = int(found.group(1), 0), int(found.group(2)) % LINES
    elif found := re.search(rb"^(?:Advance PC|Extended opcode 2:) .*to (\w+)", statement):
        registers[0] = int(found.group(1), 0)
    elif found := re.search(rb"^Advance Line by .* to (-?\d+)", statement):
        registers[2] = int(found.group(1)) % LINES
    elif found := re.search(rb"^Set File Name to entry (\d+)", statement):
        registers[1] = int(found.group(1))
    return statement.startswith((b"Special", b"Copy"))


def check_rows(tables, path):
    """That `--debug-dump=decodedline` shows the same rows, in the same order: the file's own name, the line and the address."""
    wanted = [(name, line, address) for table in tables.values() for rows, end in table.sequences
              for name, line, address in [(table.files.get(file, (0, None))[1], b"%d" % line, address) for address, file, line in rows]
              + [(None, b"-", end)]]
    shape = re.compile(rb"^(\S.*?) +(\d+|-) +(0x[0-9a-f]+|0)(?:\[\d+\])?(?: +\d+)?(?: +x)?(?: +END)? *$")
    found = [(row.group(1), row.group(2), int(row.group(3), 0)) for row in map(shape.match, shown("decodedline", path)) if row]
    if len(wanted) != len(found):
        raise ValueError("rawline has %d rows, decodedline %d" % (len(wanted), len(found)))
    for want, have in zip(wanted, found):
        if want[1:] != have[1:] or (want[0] is not None and want[0].rpartition(b"/")[2] != have[0].rpartition(b"/")[2]):
            raise ValueError("rawline has the row %s, decodedline %s" % (want, have))


# ---- owners of addresses (DWARF 5, 3.3)

def lies_in(code, pair):
    return pair[0] < pair[1] and any(start <= pair[0] and pair[1] <= end for start, end in code)


def first_wins(spans):
    """The maximal runs of addresses with one label, for spans (start, end, label): of two that meet the earlier one counts."""
    places = sorted({place for start, end, _ in spans for place in (start, end)})
    index, owners, runs = {place: k for k, place in enumerate(places)}, [None] * len(places), []
    for start, end, label in spans:
        for k in range(index[start], index[end]):
            owners[k] = owners[k] or (label,)
    for k, owner in enumerate(owners):
        if owner is None:
            continue
        if runs and runs[-1][1] == places[k] and runs[-1][2] == owner[0]:
            runs[-1] = (runs[-1][0], places[k + 1], owner[0])
        else:
            runs.append((places[k], places[k + 1], owner[0]))
    return runs


def met(runs, start, end):
    """The parts that lie between two addresses of runs (start, end, label), which stand by address and share none."""
    for k in range(max(bisect.bisect(runs, (start,)) - 1, 0), len(runs)):
        low, high, label = runs[k]
        if low >= end:
            break
        if start < high:
            yield max(low, start), min(high, end), label


class Debug:
    """What the debugging information says: `functions` with their pairs in code, and `pieces` with their lines."""

    def __init__(self, path, sections, base, data, supplement=None):
        self.base, self.code = base, read_code(sections, base)
        strings, above = None, []
        if supplement:
            with open(supplement, "rb") as file:
                lent = file.read()
            strings, above = bytes_named(read_sections(supplement), b".debug_str", lent), read_units(supplement, lent, "supplement")
        self.units = read_units(path, data, "debug", strings)
        self.ranges, self.tables = read_ranges(path), read_tables(path)
        self.rnglists, self.addresses = (bytes_named(sections, name, data) for name in (b".debug_rnglists", b".debug_addr"))
        check_rows(self.tables, path)
        entries, lent = ([entry for unit in units if unit.is_read() for entry in unit.entries] for units in (self.units, above))
        self.above, self.leads = above, {link for entry in entries if entry.tag in KEPT for link in entry.links()}
        self.known, self.copies = {}, {}
        places, functions = {(entry.unit.file, entry.place): entry for entry in entries + lent if entry.tag in KEPT}, []
        for entry in entries:
            if entry.is_copy():
                self.copies.setdefault(entry.inside(), []).append((entry, name_of(entry, places), self.pairs(entry)))
        for entry in entries:
            if entry.is_function():
                functions.append((entry, name_of(entry, places), self.pairs(entry)))
        self.functions = functions
        owners = first_wins([(*pair, k) for k, (_, _, pairs) in enumerate(functions) for pair in pairs])
        self.pieces = [(start, end, *functions[k][:2]) for start, end, k in owners]

    def address_at(self, root, index):
        """An address by its number, from the bytes: of a unit's root readelf may show another one."""
        return Bytes(self.addresses, root.number(b"addr_base") + 8 * index).fixed(8)

    def bound(self, entry, name):
        """The entry's low_pc or high_pc, or None."""
        form, value = entry.attributes.get(name, (b"", b""))
        index = re.match(rb"\(index: (\w+)\)", value) if form.startswith(b"addrx") else None
        return self.address_at(entry.unit.entries[0], int(index.group(1), 0)) if index else entry.number(name)

    def pairs(self, entry):
        """The entry's pairs of addresses that are code."""
        root = entry.unit.entries[0]
        low, high = self.bound(entry, b"low_pc"), self.bound(entry, b"high_pc")
        if b"ranges" in entry.attributes:
            found = self.list_at(entry, root)
        elif low is not None and high is not None:
            found = [(low, high if entry.attributes[b"high_pc"][0].startswith(b"addr") else low + high)]
        else:
            found = []
        return [pair for pair in found if lies_in(self.code, pair)]

    def list_at(self, entry, root):
        form, value = entry.attributes[b"ranges"]
        if entry.unit.version < 5:
            return self.ranges[number(value)]
        place, low = number(value), self.bound(root, b"low_pc") or 0
        if form == b"rnglistx":
            base = root.number(b"rnglists_base")
            index = int(re.match(rb"\(index: (\w+)\)", value).group(1), 0)
            place = base + Bytes(self.rnglists, base + 4 * index).fixed(4)
        return list_of(self.rnglists, place, low, lambda k: self.address_at(root, k))

    def covers(self, address):
        return any(start <= address < end for start, end, _, _ in self.pieces)

    def skipped(self):
        """The units that are skipped, and behind them those of the supplementary file into which an entry leads."""
        own = [b"skipped debug_info %x version %d" % (unit.place, unit.version) for unit in self.units if unit.is_skipped()]
        starts = [unit.place for unit in self.above]
        asked = {bisect.bisect(starts, place) - 1 for file, place in self.leads if file == "supplement"}
        return own + [b"skipped sup_info %x version %d" % (unit.place, unit.version)
                      for k, unit in enumerate(self.above) if k in asked and unit.is_skipped()]

    def table_of(self, entry):
        """The line table of the entry's unit, or None, and the directory of the compilation."""
        root = entry.unit.entries[0]
        return self.tables.get(root.number(b"stmt_list")), root.value(b"comp_dir")

    def lines_of(self, start, end, entry):
        """The lines of a piece: runs with a path and a line, by the table of the unit."""
        table, directory = self.table_of(entry)
        if table is None:
            return
        if (table, directory) not in self.known:
            self.known[table, directory] = table.runs(directory, self.code)
        for low, high, line in met(self.known[table, directory], start, end):
            if line:
                yield low, high, line

    def copies_in(self, entry, spans, level=0):
        """The inlined copies on the chains of these runs of an entry: for each its level, its entry, its name and its pairs.

        Of the copies directly in the entry the first one has an address.
        """
        inside, owned = self.copies.get(entry, ()), {}
        for low, high, k in first_wins([(*pair, k) for k, (_, _, pairs) in enumerate(inside) for pair in pairs]):
            for start, end, _ in met(spans, low, high):
                owned.setdefault(k, []).append((start, end, None))
        for k, runs in owned.items():
            yield level, *inside[k][:2], [run[:2] for run in runs]
            yield from self.copies_in(inside[k][0], runs, level + 1)

    def inlines_of(self, start, end, entry):
        """The inlined copies of a piece by level and first address: level, line and path of the call, name, and at most 16,384 runs."""
        inlines = []
        for level, copy, name, runs in self.copies_in(entry, [(start, end, None)]):
            table, directory = self.table_of(copy)
            file = copy.number(b"call_file")
            path = table.path_of(file, directory) if table and file is not None else None
            call = (copy.number(b"call_line") or 0) % LINES, path or clean(b""), name
            inlines += [(level, *call, runs[k:k + RANGES]) for k in range(0, len(runs), RANGES)]
        return sorted(inlines, key=lambda inline: (inline[0], inline[4][0]))

    def shared(self):
        """The starts of pieces that a function of another name has, too."""
        spans = sorted((*pair, name) for _, name, pairs in self.functions for pair in pairs)
        here, k, found = [], 0, set()
        for start, _, _, name in self.pieces:
            while k < len(spans) and spans[k][0] <= start:
                here.append(spans[k])
                k += 1
            here = [span for span in here if span[1] > start]
            if any(span[2] != name for span in here):
                found.add(start)
        return found

    def records(self):
        """The FILE and INLINE_ORIGIN records, then each FUNC with its INLINE and line records."""
        pieces = [(start, end, name, self.inlines_of(start, end, entry), list(self.lines_of(start, end, entry)))
                  for start, end, entry, name in self.pieces]
        paths = sorted({path for *_, lines in pieces for _, _, (path, _) in lines} | {path for *_, inlines, _ in pieces for _, _, path, _, _ in inlines})
        names = sorted({name for *_, inlines, _ in pieces for _, _, _, name, _ in inlines})
        for pair in enumerate(paths):
            yield b"FILE %d %s" % pair
        for pair in enumerate(names):
            yield b"INLINE_ORIGIN %d %s" % pair
        shared = self.shared()
        files, origins = ({text: k for k, text in enumerate(texts)} for texts in (paths, names))
        for start, end, name, inlines, lines in pieces:
            yield b"FUNC %s%x %x 0 %s" % (b"m " if start in shared else b"", start - self.base, end - start, name)
            for level, line, path, called, runs in inlines:
                yield b"INLINE %d %d %d %d " % (level, line, files[path], origins[called]) + b" ".join(
                    b"%x %x" % (low - self.base, high - low) for low, high in runs)
            for low, high, (path, line) in lines:
                yield b"%x %x %d %d" % (low - self.base, high - low, line, files[path])


# ---- what `nm -S` shows

def last_part(name):
    """A name without the scopes in front of it and the arguments of templates: `f` of `n::S<a::b>::f<int>`."""
    depth, part = 0, b""
    for piece in re.findall(rb"operator(?:[<>=]+|->\*?|\(\))?|::|->|.", name, re.S):
        depth -= piece in (b">", b")")
        if depth == 0:
            part = b"" if piece == b"::" else part + (piece if piece not in (b">", b")", b"<", b"(") else b"")
        depth += piece in (b"<", b"(")
    return part


def is_named(symbol, name):
    """Whether a symbol has that name: as it is, or with a suffix of the compiler, or as a part where it is a name of C++.

    A constructor or destructor may have the number 4 in its name, which stands for all its symbols. Of a name that was cut the end is missing, so
    any symbol will do.
    """
    if len(name) == LONGEST:
        return True
    symbol, name = (re.sub(rb"([CD])[0-9](?=[EI])", rb"\1", text) for text in (symbol, name))
    return symbol.partition(b".")[0] == name or (name in symbol and (symbol.startswith(b"_Z") or b"(" in symbol))


def read_symbols(path, base):
    """The names of the symbols of code, as they are and as C++ spells them, by address and size."""
    places = {}
    for options in (["-S"], ["-S", "-C"]):
        done = subprocess.run(["nm", *options, "--", path], stdout=subprocess.PIPE, stderr=subprocess.DEVNULL)
        for address, size, name in re.findall(rb"^([0-9a-f]{16}) ([0-9a-f]{16}) [tTwWi] (.*)$", done.stdout, re.M):
            places.setdefault((int(address, 16) - base, int(size, 16)), []).append(name)
    return places


def check_symbols(path, text):
    """Answers the first difference between the FUNC and PUBLIC records of a text and the symbols of code, or None."""
    places = read_symbols(path, read_base(path))
    functions = {int(address, 16): (int(size, 16), name) for address, size, name in
                 re.findall(rb"^FUNC (?:m )?(\w+) (\w+) 0 (.*)$", text, re.M)}
    publics = {int(address, 16) for address in re.findall(rb"^PUBLIC (?:m )?(\w+) 0 ", text, re.M)}
    for address, (size, name) in functions.items():
        if not any(is_named(symbol, name if len(name) == LONGEST else last_part(name)) for symbol in places.get((address, size), ())):
            return "FUNC %x %x %s is no symbol" % (address, size, name[:80].decode())
    for address, size in places:
        if functions.get(address, (None,))[0] != size and address not in publics:
            return "the symbol at %x of %x bytes has neither a FUNC nor a PUBLIC" % (address, size)
    both = publics & {address + k for address, (size, _) in functions.items() for k in range(size)}
    return "PUBLIC %x lies in a FUNC" % min(both) if both else None


def main():
    if len(sys.argv) != 3:
        print("usage: expected_debug.py FILE TEXT", file=sys.stderr)
        return 9
    with open(sys.argv[2], "rb") as file:
        difference = check_symbols(sys.argv[1], file.read())
    if difference:
        print(difference)
    return 1 if difference else 0


if __name__ == "__main__":
    sys.exit(main())
