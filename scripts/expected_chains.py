#!/usr/bin/env python3
"""What `lookup` answers on a dump at addresses, beside what a tool names there: llvm-symbolizer or addr2line.

    expected_chains.py TOOL PROGRAM FILE TEXT COUNT   asks for some COUNT addresses, spread over the code of FILE; TEXT is what PROGRAM dumped
                                                      of it. Prints how many of them have one frame, two, and so on, and ends with status 0,
                                                      or with 1 and the first difference

Functions are compared by their linkage names, files and lines level by level, the innermost first. What may differ is said by `Rules`.
"""

import collections
import json
import os
import re
import subprocess
import sys

sys.dont_write_bytecode = True
from read_elf import clean, read_base, read_code, read_sections  # noqa: E402
from expected_debug import is_named, last_part, read_symbols  # noqa: E402

# A frame: the name of its function, and path and line of the place in it; these are None where nothing says them.
Frame = collections.namedtuple("Frame", "name path line")
OMITTED = clean(b"")


# ---- what `lookup` answers

def place_of(text):
    if text == b"?":
        return None, None
    path, _, line = text.rpartition(b":")
    return path, int(line)


def by_lookup(program, text, address):
    """The frames that `lookup` prints, the innermost first; none where it prints a PUBLIC or nothing."""
    run = subprocess.run([program, "lookup", text, "%x" % address], stdout=subprocess.PIPE, stderr=subprocess.PIPE)
    if run.returncode or run.stderr or not run.stdout.endswith(b"\n"):
        raise ValueError("lookup at %x: status %d, <%s>" % (address, run.returncode, os.fsdecode(run.stderr.strip())))
    lines = run.stdout[:-1].split(b"\n")
    if lines == [b"none"] or len(lines) == 1 and lines[0].startswith(b"public "):
        return []
    return [Frame(name, *place_of(place)) for name, _, place in (line.rpartition(b" at ") for line in lines)]


# ---- what the tools answer

def ask(words, addresses):
    asked = b"".join(b"0x%x\n" % address for address in addresses)
    return subprocess.run(words, input=asked, stdout=subprocess.PIPE, stderr=subprocess.DEVNULL, env={**os.environ, "LC_ALL": "C"}).stdout


def told(text, unknown):
    return None if text in unknown else text


def by_llvm(path, addresses):
    """The frames of each address. A name that is not known is empty; a line is 0 where there is none."""
    answer = ask(["llvm-symbolizer", "--output-style=JSON", "--inlines", "--no-demangle", b"--obj=" + path], addresses)
    for line in answer.splitlines():
        yield [Frame(told(os.fsencode(one["FunctionName"]), (b"", b"??")), told(os.fsencode(one["FileName"]), (b"", b"??")), one["Line"] or None)
               for one in json.loads(line).get("Symbol", ())]


def by_addr2line(path, addresses):
    answer, frames = ask(["addr2line", "-a", "-f", "-i", b"--exe=" + path], addresses).splitlines(), None
    rows = iter(answer)
    for row in rows:
        if re.fullmatch(rb"0x[0-9a-f]{16}", row):
            if frames is not None:
                yield frames
            frames = []
            continue
        file, _, line = next(rows).rpartition(b":")
        line = line.partition(b" ")[0]
        frames.append(Frame(told(row, (b"??",)), told(file, (b"??",)), int(line) if line.isdigit() and int(line) else None))
    if frames is not None:
        yield frames


TOOLS = {"llvm-symbolizer": by_llvm, "addr2line": by_addr2line}


# ---- what may differ

class Rules:
    """What a frame of a dump may have where the tool has something else, each by a rule of docs/RULES.md."""

    def __init__(self, symbols):
        self.used, self.beside = collections.Counter(), collections.defaultdict(set)
        for (address, _), names in symbols.items():
            for name in names:
                self.beside[name].update(names)

    def names_agree(self, ours, theirs, is_last):
        if ours == theirs:
            return True
        # "Names of entries": without a linkage name the scopes around it stand in front, and without any name `<name omitted>`; "Cleaning".
        if theirs is None:
            return ours == OMITTED
        if ours == clean(theirs) or ours.endswith(b"::" + clean(theirs)):
            self.used["scopes in front of a name"] += 1
            return True
        # "Who owns an address": the name is that of the first function; the tools take that of a symbol there, with the compiler's suffix.
        if is_last and any(is_named(symbol, last_part(ours)) for symbol in {theirs, *self.beside[theirs]}):
            self.used["the name of a symbol"] += 1
            return True
        return False

    def places_agree(self, ours, theirs, is_first):
        # "The line at an address": where a row's line is 0 there is none; the tools keep its file.
        if is_first and ours.line is None and theirs.line is None:
            self.used["no line"] += 1
            return True
        # "The records of a file", INLINE: a call without a line has line 0.
        if (ours.line if is_first else ours.line or None) != theirs.line:
            return False
        # The same: a call file that is absent or not in the table is `<name omitted>`; llvm-symbolizer takes file 0 or the symbol table's.
        if not is_first and ours.path == OMITTED:
            self.used["no call file"] += 1
            return True
        # "Cleaning".
        if theirs.path is not None and ours.path == clean(theirs.path):
            self.used["a cleaned path"] += ours.path != theirs.path
            return True
        return False

    def difference(self, ours, theirs):
        """What is wrong, or None."""
        if not ours:
            # "Who owns an address": no function has it, so the tools have no chain; the line table may have a row of padding.
            self.used["a line that no function has"] += any(frame.line for frame in theirs)
            return None if len(theirs) < 2 else "no FUNC covers it"
        if len(ours) != len(theirs):
            return "another depth"
        for k, (mine, other) in enumerate(zip(ours, theirs)):
            if not self.names_agree(mine.name, other.name, k + 1 == len(ours)):
                return "another name at level %d from within" % k
            if not self.places_agree(mine, other, k == 0):
                return "another place at level %d from within" % k
        return None


def shown(frames):
    return " < ".join("%s %s:%s" % (os.fsdecode(name or b"??")[:60], os.fsdecode(path or b"??"), line) for name, path, line in frames)


def spread(code, count):
    """Some `count` addresses at equal distances over all code."""
    step, passed = max(sum(end - start for start, end in code) // count, 1), 0
    for start, end in sorted(code):
        yield from range(start + -passed % step, end, step)
        passed += end - start


def main():
    if len(sys.argv) != 6 or sys.argv[1] not in TOOLS:
        print("usage: expected_chains.py llvm-symbolizer|addr2line PROGRAM FILE TEXT COUNT", file=sys.stderr)
        return 9
    tool, program, path, text = sys.argv[1], sys.argv[2], os.fsencode(sys.argv[3]), sys.argv[4]
    base = read_base(path)
    addresses = list(spread(read_code(read_sections(path), base), int(sys.argv[5])))
    answers = list(TOOLS[tool](path, addresses))
    if len(answers) != len(addresses):
        print("%s answers %d times for %d addresses" % (tool, len(answers), len(addresses)))
        return 1
    rules, depths = Rules(read_symbols(path, base)), collections.Counter()
    for address, theirs in zip(addresses, answers):
        ours = by_lookup(program, text, address - base)
        depths[len(ours)] += 1
        if what := rules.difference(ours, theirs):
            print("%x: %s: the text has <%s>, %s <%s>" % (address, what, shown(ours), tool, shown(theirs)))
            return 1
    print("%d addresses; frames %s; %s" % (len(addresses), dict(sorted(depths.items())), dict(rules.used)))
    return 0


if __name__ == "__main__":
    sys.exit(main())
