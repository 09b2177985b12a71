#!/usr/bin/env python3
"""Compares what `dumpsyms frame` answers on a dumped text with the rows that readelf shows of the binary, evaluated over a made-up stack.

    expected_values.py PROGRAM FILE TEXT ERR COUNT  TEXT and ERR are what `PROGRAM dump FILE` wrote; ends with status 0 where the answers
                                                    at COUNT addresses of written entries agree, and else with 1 and the first difference

The addresses are spread evenly over all at which readelf shows a row, and the last address of each such row's reach is asked for in turn
with its first. One more address, past the last entry, has no rules.
"""

import os
import subprocess
import sys
import tempfile

sys.dont_write_bytecode = True
from expected_frames import (KEPT, NAMES, RETURN, SAME, STACK_POINTER, choose_written, read_entries, read_omitted,  # noqa: E402
                             rows_within)
from expected_expressions import Failed  # noqa: E402
from read_elf import read_base  # noqa: E402

WORD = 1 << 64
STACK = 0x7FFE00000000
SIZE = 0x4000
# Each register has a value of its own; rsp and rbp point into the stack, and others elsewhere.
VALUES = {column: 0x1111111111111111 * (column + 1) % WORD for column in range(16)}
VALUES[7] = STACK + 0x1000
VALUES[6] = STACK + 0x1800
VALUES[10] = STACK + 0x2000
# In a procedure linkage table the CFA rests on the low four bits.
RIP = 0x40100B


def memory():
    """The stack: no two of its words are the same."""
    return b"".join((0x5EED000000000000 + 0x9E3779B1 * k % (1 << 44)).to_bytes(8, "little") for k in range(SIZE // 8))


def word_at(stack, address):
    at = address - STACK
    if 0 <= at and at + 8 <= SIZE:
        return "%x" % int.from_bytes(stack[at:at + 8], "little")
    return "failed unreadable %x" % address


def value_of(stack, rule, column, cfa):
    """A column's line by its rule: at rest a kept register has its value, rsp is the CFA, and the others are undefined."""
    if rule is None:
        if column in KEPT:
            return "%x" % VALUES[column]
        return "%x" % cfa if column == STACK_POINTER else "undefined"
    if rule == SAME:
        return "%x" % VALUES[column]
    kind, value = rule
    if kind == "expression":
        return expression_value(stack, value, cfa)
    if kind == "register":
        return "%x" % VALUES[NAMES.index(value)]
    address = (cfa + value) % WORD
    return word_at(stack, address) if kind == "offset" else "%x" % address


def expression_value(stack, expression, cfa):
    """The line of an expression: its value, or the first failure."""
    def word(address):
        text = word_at(stack, address)
        if text.startswith("failed"):
            raise Failed(text)
        return int(text, 16)

    try:
        return "%x" % expression.value(lambda register: RIP if register == 16 else VALUES[register], word, cfa)
    except Failed as failed:
        return str(failed)


def lines_of_row(stack, cfa, rules):
    if cfa[0] == "expression":
        line = expression_value(stack, cfa[1], None)
        at = line if line.startswith("failed") else int(line, 16)
    else:
        register, offset = cfa
        at = (VALUES[NAMES.index(register)] + offset) % WORD
    if isinstance(at, str):
        return ["cfa " + at]
    lines = ["cfa %x" % at, "ra %s" % value_of(stack, rules.get(RETURN), RETURN, at)]
    return lines + ["%s %s" % (NAMES[column].decode(), value_of(stack, rules.get(column), column, at)) for column in range(16)]


def answer(program, text, address, state):
    ran = subprocess.run([program, "frame", text, "%x" % address, state], capture_output=True)
    return ran.returncode, ran.stdout.decode(), ran.stderr.decode()


def main():
    if len(sys.argv) != 6:
        print("usage: expected_values.py PROGRAM FILE TEXT ERR COUNT", file=sys.stderr)
        return 9
    program, path, text, err, count = sys.argv[1:5] + [int(sys.argv[5])]
    with open(err, "rb") as file:
        omitted = read_omitted(file.read())
    base, asked = read_base(path), []
    for entry in choose_written(path, read_entries(path), omitted):
        rows = rows_within(entry)
        ends = [address for address, _ in rows[1:]] + [entry.end]
        asked += [(address, end - 1, row) for (address, row), end in zip(rows, ends)]
    asked.sort(key=lambda one: one[0])
    stack = memory()
    with tempfile.TemporaryDirectory() as folder:
        state = os.path.join(folder, "state")
        with open(state, "w") as file:
            for column, value in VALUES.items():
                file.write("REG %s %x\n" % (NAMES[column].decode(), value))
            file.write("REG rip %x\n" % RIP)
            file.write("MEM %x %s\n" % (STACK, stack.hex()))
        step = max(len(asked) // count, 1)
        for turn, (first, last, (cfa, rules)) in enumerate(asked[::step][:count]):
            address = last if turn % 2 else first
            wanted = (0, "".join(line + "\n" for line in lines_of_row(stack, cfa, rules)), "")
            found = answer(program, text, address - base, state)
            if wanted[1].startswith("cfa failed"):
                found = (found[0], found[1].splitlines()[0] + "\n", found[2])
            if found != wanted:
                different = [pair for pair in zip(wanted[1].splitlines(), found[1].splitlines()) if pair[0] != pair[1]][:1]
                print("at %x: expected %s, found status %d, %s, err <%s>" % (
                    address, different[0][0] if different else wanted[:1], found[0], different[0][1] if different else "the same lines",
                    found[2].strip()))
                return 1
        if asked:
            end = max(last for _, last, _ in asked) + 1
            if answer(program, text, end - base, state) != (0, "none\n", ""):
                print("at %x: expected none" % end)
                return 1
    return 0


if __name__ == "__main__":
    sys.exit(main())
