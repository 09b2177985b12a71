#!/usr/bin/env python3
"""Compares the STACK CFI records of a dump with the rows that readelf shows of the same file's frame sections.

    expected_frames.py FILE TEXT ERR REASON..  TEXT and ERR are what `dumpsyms dump FILE` wrote; ends with status 0 where all
                                               agrees, and else with 1 and the first difference; only the REASONs may be given
    expected_frames.py --lines FILE ERR        prints the records that readelf's rows lead to, without the entries that ERR omits

Three things are compared. Which entries are left out: the entries written and those that err lists are all that readelf lists,
in its order, and each for the first reason that readelf or the section headers show, where they show one. What the text means: at
each address where readelf or the text has a row, the rules of the first record that covers it, with the changes up to it, are
readelf's row. And the spelling: the records are, byte for byte, those that the rows lead to.

readelf shows no row where a rule is overwritten at the same address, and 32 bits of an offset: a file where that matters counts
as different. Where a row has an expression it shows only that; what it is stands in the instructions (expected_expressions.py).
"""

import bisect
import collections
import functools
import re
import sys

sys.dont_write_bytecode = True
from expected_expressions import Expressions  # noqa: E402
from read_elf import read_base, read_code, read_sections, readelf  # noqa: E402

NAMES = [b"rax", b"rdx", b"rcx", b"rbx", b"rsi", b"rdi", b"rbp", b"rsp"] + [b"r%d" % k for k in range(8, 16)]
RETURN = 16
COLUMNS = {name: column for column, name in enumerate(NAMES)}
KEPT = {COLUMNS[name] for name in (b"rbx", b"rbp", b"r12", b"r13", b"r14", b"r15")}
STACK_POINTER = COLUMNS[b"rsp"]
# The order in which an entry's reasons are looked at.
REASONS = [b"cie", b"augmentation", b"encoding", b"column", b"entry", b"expression", b"instruction", b"register", b"state", b"range",
           b"cfa", b"outside", b"overlap"]
# The reasons that readelf and the section headers show.
SHOWN = {b"augmentation", b"column", b"expression", b"register", b"state", b"cfa", b"outside", b"overlap"}
# Of these the first bad instruction decides.
OF_AN_INSTRUCTION = {b"expression", b"instruction", b"register", b"state", b"range"}

# A column's rule is None at rest, or a kind and its number or name.
SAME = ("same", 0)


class Differs(Exception):
    """The first difference, as a line."""


class Entry:
    """A CIE (without addresses) or an FDE, with the rows that readelf shows, past the range too."""

    def __init__(self, section, place, cie=None, start=0, end=0):
        self.section, self.place, self.cie, self.start, self.end = section, place, cie, start, end
        self.column, self.augmentation = (cie.column, cie.augmentation) if cie else (RETURN, b"")
        self.own_rows, self.is_mismatched = [], False
        self.expressions, self.states = [], None

    def rows(self):
        """Of an FDE without instructions readelf shows no row: the CIE's row holds in all of it."""
        if self.own_rows or not self.cie:
            return self.own_rows
        return [(self.start, cfa, rules) for _, cfa, rules in self.cie.own_rows[-1:]]

    def all_rows(self):
        return self.rows() + (self.cie.own_rows if self.cie else [])

    def has_unsaid_expression(self):
        return any(expression.words() is None for expression in self.expressions)

    def has_other_register(self):
        return any((cfa and cfa[0] not in COLUMNS and cfa[0] != "expression") or rules.get(RETURN) == SAME
                   or any(rule and rule[0] == "other" for rule in rules.values()) for _, cfa, rules in self.all_rows())

    def lacks_cfa(self):
        """readelf shows a CFA that was never given as rax+0."""
        cfas = [cfa for address, cfa, _ in self.rows() if self.start <= address < self.end]
        return self.start < self.end and (not cfas or (b"rax", 0) in cfas)

    def label(self):
        return "%s %x" % (self.section, self.place)


# ---- what readelf shows

@functools.lru_cache(None)
def rule_of(word, column):
    """A column's rule as readelf spells it; at rest are also the rules that mean the same there."""
    if word == b"u":
        return None
    if word in (b"exp", b"vexp"):
        return ("expression", 0)
    found = re.fullmatch(rb"([cv])([+-]\d+)", word)
    if found:
        return ("offset" if found.group(1) == b"c" else "value", int(found.group(2)))
    source = re.match(rb"r(\d+)", word)
    if word == b"s" or (source and int(source.group(1)) == column):
        return None if column in KEPT else SAME
    if source and int(source.group(1)) < RETURN:
        return ("register", NAMES[int(source.group(1))])
    return ("other", word)


@functools.lru_cache(None)
def cfa_of(word):
    """The CFA rule as a register and an offset, or None for an expression."""
    found = re.fullmatch(rb"(.+?)([+-]\d+)", word)
    return (found.group(1), int(found.group(2))) if found else None


def read_entries(path):
    """The FDEs of `.eh_frame` and then of `.debug_frame`, in order. A terminator ends `.eh_frame`."""
    of_section = {"eh_frame": [], "debug_frame": []}
    section, ended, entry, columns, cies = None, False, None, [], {}
    head = re.compile(rb"^([0-9a-f]+) [0-9a-f]+ [0-9a-f]+ (CIE \"(.*)\" .*ra=(\d+)|FDE .*cie=([0-9a-f]+) pc=([0-9a-f]+)\.\.([0-9a-f]+))")
    row = re.compile(rb"^[0-9a-f]{8,16} (?:\S+[+-]\d+|exp) ")
    for line in readelf(["--debug-dump=no-follow-links", "--debug-dump=frames-interp"], path).splitlines():
        if entry and row.match(line):
            words = re.findall(rb"r\d+ \([^)]*\)|\S+", line) if b"(" in line else line.split()
            rules = {column: rule_of(word, column) for column, word in zip(columns, words[2:]) if column is not None}
            entry.own_rows.append((int(words[0], 16), cfa_of(words[1]), rules))
            continue
        title = re.match(rb"^Contents of the \.(eh_frame|debug_frame) section", line)
        if title:
            section, ended, entry, cies = title.group(1).decode(), False, None, {}
            continue
        if section is None or ended:
            continue
        if line.endswith(b" ZERO terminator"):
            ended, entry = section == "eh_frame", None
            continue
        found = head.match(line)
        if found and found.group(4):
            entry = Entry(section, int(found.group(1), 16))
            entry.augmentation, entry.column = found.group(3), int(found.group(4))
            cies[entry.place] = entry
        elif found:
            cie = cies.get(int(found.group(5), 16))
            entry = Entry(section, int(found.group(1), 16), cie, int(found.group(6), 16), int(found.group(7), 16))
            of_section[section].append(entry)
        elif line.startswith(b"   LOC "):
            columns = [RETURN if name == b"ra" else COLUMNS.get(name) for name in line.split()[2:]]
        elif entry and line.startswith(b"Mismatched DW_CFA_restore_state"):
            entry.is_mismatched = True
    entries = of_section["eh_frame"] + of_section["debug_frame"]
    put_expressions(path, entries)
    return entries


def put_expressions(path, entries):
    """The rows have the expressions that stand in the instructions in place of readelf's words for them."""
    expressions = Expressions(path)
    if not expressions.some:
        return
    for entry in entries:
        if not entry.cie:
            continue
        states, entry.expressions, mismatched = expressions.of((entry.section, entry.place), entry.start)
        if not entry.expressions:
            continue
        entry.is_mismatched = entry.is_mismatched or mismatched
        rows = []
        for address, cfa, rules in entry.rows():
            state = expressions.at(states, address)
            rules = {column: rule for column, rule in rules.items() if not (rule and rule[0] == "expression")}
            rules.update({column: ("expression", expression) for column, expression in state.columns.items()})
            rows.append((address, ("expression", state.cfa) if state.cfa else cfa, rules))
        entry.own_rows = rows


# ---- which entries are left out

def read_omitted(err):
    """The reasons by section and place, in the order of err."""
    omitted = collections.OrderedDict()
    for line in err.splitlines():
        found = re.fullmatch(rb"omitted (eh_frame|debug_frame) (0|[1-9a-f][0-9a-f]*) ([a-z]+)", line)
        if found:
            omitted[found.group(1).decode(), int(found.group(2), 16)] = found.group(3)
        elif not line.startswith(b"skipped "):
            raise Differs("err has <%s>" % line.decode(errors="replace"))
    return omitted


class Written:
    """The ranges written so far, which do not meet."""

    def __init__(self):
        self.starts, self.ends = [], []

    def meets(self, start, end):
        at = bisect.bisect_left(self.ends, start + 1)
        return start < end and at < len(self.starts) and self.starts[at] < end

    def add(self, start, end):
        at = bisect.bisect_left(self.starts, start)
        self.starts.insert(at, start)
        self.ends.insert(at, end)


def reasons_shown(entry, spans, written):
    """The reasons that readelf and the headers show, in their order."""
    text, start, end = entry.augmentation, entry.start, entry.end
    if text and not re.fullmatch(rb"z[LPRS]*", text):
        yield b"augmentation"
    if entry.column != RETURN:
        yield b"column"
    if entry.has_unsaid_expression():
        yield b"expression"
    if entry.has_other_register():
        yield b"register"
    if entry.is_mismatched or (entry.cie and entry.cie.is_mismatched):
        yield b"state"
    if entry.lacks_cfa():
        yield b"cfa"
    if start >= end or not any(low <= start and end <= high for low, high in spans):
        yield b"outside"
    if written.meets(start, end):
        yield b"overlap"


def check_reason(entry, reason, shown):
    """That an entry is left out for the first reason shown or for one before it, and for none that is not shown."""
    if reason is None:
        if shown:
            raise Differs("%s is to be omitted for <%s>, and is written" % (entry.label(), shown[0].decode()))
        return
    if reason not in REASONS:
        raise Differs("%s is omitted for <%s>" % (entry.label(), reason.decode()))
    if reason in SHOWN and reason not in shown:
        raise Differs("%s is omitted for <%s>, which readelf does not show" % (entry.label(), reason.decode()))
    if shown and REASONS.index(reason) > REASONS.index(shown[0]) and not {reason, shown[0]} <= OF_AN_INSTRUCTION:
        raise Differs("%s is to be omitted for <%s>, and is for <%s>" % (entry.label(), shown[0].decode(), reason.decode()))


def choose_written(path, entries, omitted, allowed=frozenset(REASONS)):
    """The entries that the text is to have, once the omitted ones are all listed, in order, and each for a reason."""
    places = [(entry.section, entry.place) for entry in entries]
    listed = [place for place in places if place in omitted]
    if listed != list(omitted):
        known = set(places)
        stray = next((place for place in omitted if place not in known), None)
        raise Differs("err omits %s %x, which readelf does not list" % stray if stray else "the omitted entries are not in order")
    spans, written, chosen = read_code(read_sections(path), read_base(path)), Written(), []
    for entry in entries:
        reason = omitted.get((entry.section, entry.place))
        check_reason(entry, reason, list(reasons_shown(entry, spans, written)))
        if reason and reason not in allowed:
            raise Differs("%s is omitted for <%s>" % (entry.label(), reason.decode()))
        if reason is None:
            written.add(entry.start, entry.end)
            chosen.append(entry)
    return chosen


# ---- the records that rows lead to

def rows_within(entry):
    """The rows at the entry's addresses, one for each location: of several at one location the last counts."""
    rows = {address: (cfa, {column: rule for column, rule in rules.items() if rule is not None})
            for address, cfa, rules in entry.rows() if entry.start <= address < entry.end}
    return sorted(rows.items())


def said(expression):
    return " ".join(expression.words()).encode()


def spell_cfa(cfa):
    return said(cfa[1]) if cfa[0] == "expression" else b"$%s %d +" % cfa


@functools.lru_cache(None)
def spell(column, rule):
    name = b".ra" if column == RETURN else b"$" + NAMES[column]
    if rule is None:
        return name + b": " + (b".cfa" if column == STACK_POINTER else name)
    kind, value = rule
    if kind == "expression":
        return name + b": " + said(value)
    if kind == "register":
        return name + b": $" + value
    if kind == "same":
        return name + b": " + name
    return name + b": .cfa %d +" % value + (b" ^" if kind == "offset" else b"")


def spell_rules(cfa, rules):
    """Rules in their order: the CFA where it is given, the return address, then by register."""
    order = sorted(rules, key=lambda column: (column != RETURN, column))
    return b" ".join(([b".cfa: " + spell_cfa(cfa)] if cfa else []) + [spell(column, rules[column]) for column in order])


def lines_of(entry, rows, base):
    """The records of an entry with these rows."""
    lines, begins = [], []
    before = None
    for address, (cfa, rules) in rows:
        ended = before and any(c not in rules and c not in KEPT and c != STACK_POINTER for c in before[1])
        if before is None or ended:
            begins.append((len(lines), address))
            lines.append(spell_rules(cfa, rules))
        else:
            changed = {c: rules.get(c) for c in rules.keys() | before[1].keys() if rules.get(c) != before[1].get(c)}
            if changed or cfa != before[0]:
                lines.append(b"STACK CFI %x " % (address - base) + spell_rules(cfa if cfa != before[0] else None, changed))
        before = (cfa, rules)
    ends = [address for _, address in begins[1:]] + [entry.end]
    for (place, address), end in zip(begins, ends):
        lines[place] = b"STACK CFI INIT %x %x " % (address - base, end - address) + lines[place]
    return lines


# ---- what the text means

class Text:
    """The records of a text: for each INIT its range, its rules and the changes behind it."""

    def __init__(self, text):
        self.lines = []
        inits = []
        for number, line in enumerate(text.splitlines(), 1):
            words = line.split(b" ")
            if line.startswith(b"STACK") and not re.match(rb"STACK CFI (INIT [0-9a-f]+ [0-9a-f]+|[0-9a-f]+) \S+: \S", line):
                raise Differs("line %d is no STACK CFI record" % number)
            if words[:3] == [b"STACK", b"CFI", b"INIT"]:
                start = int(words[3], 16)
                inits.append((start, start + int(words[4], 16), [(start, self.rules(words[5:]))]))
            elif words[:2] == [b"STACK", b"CFI"]:
                if not inits:
                    raise Differs("line %d: a change without an INIT" % number)
                inits[-1][2].append((int(words[2], 16), self.rules(words[3:])))
            elif self.lines:
                raise Differs("line %d stands behind the STACK CFI records" % number)
            else:
                continue
            self.lines.append(line)
        self.inits = sorted(inits, key=lambda init: init[0])
        self.starts = [init[0] for init in self.inits]
        for one, other in zip(self.inits, self.inits[1:]):
            if other[0] < one[1]:
                raise Differs("two INIT records meet at %x" % other[0])

    @staticmethod
    def rules(words):
        rules, target = {}, None
        for word in words:
            if word.endswith(b":"):
                target = word[:-1]
                rules[target] = []
            elif target is None:
                raise Differs("a rule without a target: <%s>" % b" ".join(words).decode())
            else:
                rules[target].append(word)
        return {target: b" ".join(tokens) for target, tokens in rules.items()}

    def init_at(self, address):
        at = bisect.bisect_right(self.starts, address) - 1
        return self.inits[at] if at >= 0 and address < self.inits[at][1] else None

    def rules_at(self, address):
        init = self.init_at(address)
        if init is None:
            return None
        rules = {}
        for place, changes in init[2]:
            if place <= address:
                rules.update(changes)
        return rules

    def changes_between(self, start, end):
        """The addresses from a start up to an end at which a record gives rules."""
        at = max(bisect.bisect_right(self.starts, start) - 1, 0)
        found = set()
        while at < len(self.inits) and self.inits[at][0] < end:
            found.update(place for place, _ in self.inits[at][2] if start <= place < end)
            at += 1
        return found


@functools.lru_cache(None)
def meaning(target, tokens):
    """A column's rule by the tokens of the text; what no row spells stands for itself."""
    column = RETURN if target == b".ra" else COLUMNS.get(target[1:])
    found = re.fullmatch(rb"\.cfa (-?\d+) \+( \^)?", tokens)
    if found:
        return ("offset" if found.group(2) else "value", int(found.group(1)))
    if column is not None and tokens == target:
        return None if column in KEPT else SAME
    if column == STACK_POINTER and tokens == b".cfa":
        return None
    if tokens.startswith(b"$") and tokens[1:] in COLUMNS:
        return ("register", tokens[1:])
    return ("other", tokens)


def compare_rules(place, row, rules):
    if rules is None:
        raise Differs("%s: no INIT covers it" % place)
    cfa, columns = row
    wanted = {target: meaning(target, said(rule[1])) if rule[0] == "expression" else rule
              for target, rule in ((b".ra" if column == RETURN else b"$" + NAMES[column], rule) for column, rule in columns.items())}
    wanted = {target: rule for target, rule in wanted.items() if rule is not None}
    if cfa is not None:
        wanted[b".cfa"] = ("cfa", spell_cfa(cfa))
    found = {target: meaning(target, tokens) for target, tokens in rules.items() if target != b".cfa"}
    found = {target: rule for target, rule in found.items() if rule is not None}
    if b".cfa" in rules:
        found[b".cfa"] = ("cfa", rules[b".cfa"])
    for target in sorted(wanted.keys() | found.keys()):
        if wanted.get(target) != found.get(target):
            raise Differs("%s: %s is %s by readelf and %s by the text" % (
                place, target.decode(), wanted.get(target), found.get(target)))


def compare_meaning(chosen, text, base):
    """At each address where readelf or the text has a row they agree; answers how many addresses these are."""
    count = 0
    for entry, rows in chosen:
        locations = [address for address, _ in rows]
        for address in sorted(set(locations) | {base + a for a in text.changes_between(entry.start - base, entry.end - base)}):
            at = bisect.bisect_right(locations, address) - 1
            if at < 0:
                raise Differs("%s: readelf has no row at %x" % (entry.label(), address))
            compare_rules("%s at %x" % (entry.label(), address), rows[at][1], text.rules_at(address - base))
            count += 1
        last = text.init_at(entry.end - 1 - base)
        if last is None or last[1] != entry.end - base:
            raise Differs("%s: no INIT ends with it" % entry.label())
    return count


def compare_lines(wanted, found):
    for want, have in zip(wanted, found):
        if want != have:
            raise Differs("expected <%s>, found <%s>" % (want.decode(), have.decode(errors="replace")))
    if len(wanted) != len(found):
        raise Differs("expected %d records, found %d" % (len(wanted), len(found)))


def compare(path, text, err, allowed):
    entries, omitted, records, base = read_entries(path), read_omitted(err), Text(text), read_base(path)
    chosen = [(entry, rows_within(entry)) for entry in choose_written(path, entries, omitted, allowed)]
    count = compare_meaning(chosen, records, base)
    compare_lines([line for entry, rows in chosen for line in lines_of(entry, rows, base)], records.lines)
    reasons = collections.Counter(reason.decode() for reason in omitted.values())
    listed = "".join(", %s %d" % pair for pair in sorted(reasons.items()))
    print("%d entries, %d written at %d addresses in %d records, %d omitted%s" % (
        len(entries), len(chosen), count, len(records.lines), len(omitted), listed))


def main():
    words = sys.argv[1:]
    is_list = words[:1] == ["--lines"]
    if len(words) < 3 or (is_list and len(words) > 3):
        print("usage: expected_frames.py FILE TEXT ERR REASON.., expected_frames.py --lines FILE ERR", file=sys.stderr)
        return 9
    if is_list:
        words = words[1:]
    path = words[0]
    texts = []
    for word in words[1:2] if is_list else words[1:3]:
        with open(word, "rb") as file:
            texts.append(file.read())
    try:
        if is_list:
            chosen, base = choose_written(path, read_entries(path), read_omitted(texts[0])), read_base(path)
            for entry in chosen:
                sys.stdout.buffer.writelines(line + b"\n" for line in lines_of(entry, rows_within(entry), base))
        else:
            compare(path, *texts, {word.encode() for word in words[3:]})
    except Differs as differs:
        print(differs)
        return 1
    return 0


if __name__ == "__main__":
    sys.exit(main())
