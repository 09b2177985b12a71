"""DWARF expressions of frame entries: what readelf shows of them, the words that say them, and their values.

An expression is a list of operations as readelf spells them, `DW_OP_breg7 (rsp): 8`. Its words follow the table of docs/RULES.md; its value
goes by the operations themselves (DWARF 5, 2.5), so that the one can be compared with the other.
"""

import re

from read_elf import readelf

WORD = 1 << 64
SIZES = {"1": 1, "2": 2, "4": 4, "8": 8}


class Unsaid(Exception):
    """Rule text cannot say the expression."""


class Failed(Exception):
    """What an evaluation fails of, as `frame` writes it."""


def read_operation(text):
    """An operation as a name and a number, or None of another one: a constant modulo 2^64, a register with its offset."""
    found = re.fullmatch(r"DW_OP_(\w+?)(\d*)(?: \((\w+)\))?(?:: (-?\d+|0x[0-9a-f]+))?", text)
    if not found:
        return None
    name, digits, _, operand = found.groups()
    number = int(operand, 0) if operand else None
    if name == "lit":
        return ("constant", int(digits))
    if name == "breg":
        return ("register", (int(digits), number))
    constant = re.fullmatch(r"DW_OP_const(?:[1248]?[us]): (-?\d+|0x[0-9a-f]+)", text)
    if constant:
        return ("constant", int(constant.group(1), 0) % WORD)
    if name == "plus_uconst":
        return ("plus_uconst", number)
    whole = name + digits
    return (whole, None) if whole in ("deref", "and", "minus", "mul", "plus", "shl", "ge") else None


def signed(number):
    return number - WORD if number >= WORD // 2 else number


def steps(operations):
    """Each step as what it takes from the stack, and its words."""
    at, kept = 0, None
    while at < len(operations):
        name, value = operations[at]
        follows = operations[at + 1][0] if at + 1 < len(operations) else None
        bits, kept = kept, None
        if name == "constant" and follows in ("and", "shl", "ge"):
            at += 2
            if follows == "and" and value + 1 in {1 << k for k in range(63)}:
                kept = value + 1
                yield 1, ["%d" % kept, "%"]
            elif follows == "shl" and value <= 62:
                yield 1, ["%d" % (1 << value), "*"]
            elif follows == "ge" and bits and value <= bits:
                yield 1, ["%d" % (bits - value), "+", "%d" % bits, "/"]
            else:
                raise Unsaid
            continue
        at += 1
        if name == "constant":
            yield 0, ["%d" % signed(value)]
        elif name == "register" and value[0] <= 16:
            yield 0, ["$" + ("rip" if value[0] == 16 else REGISTERS[value[0]]), "%d" % value[1], "+"]
        elif name == "plus_uconst":
            yield 1, ["%d" % signed(value % WORD), "+"]
        elif name == "deref":
            yield 1, ["^"]
        elif name in ("plus", "minus", "mul"):
            yield 2, [{"plus": "+", "minus": "-", "mul": "*"}[name]]
        else:
            raise Unsaid


REGISTERS = ["rax", "rdx", "rcx", "rbx", "rsi", "rdi", "rbp", "rsp"] + ["r%d" % k for k in range(8, 16)]


def depth_from(begin, given):
    depth = begin
    for takes, _ in given:
        if depth < takes:
            return None
        depth += 1 - takes
    return depth


class Expression:
    """An expression of an instruction, known by the place of that: the same bytes elsewhere are another."""

    def __init__(self, place, text, over_cfa, fetches):
        self.place, self.text, self.may_be_over_cfa, self.fetches = place, text, over_cfa, fetches
        self.operations = [read_operation(word) for word in text.split("; ")] if text else []

    def __eq__(self, other):
        return isinstance(other, Expression) and self.place == other.place

    def __hash__(self):
        return hash(self.place)

    def __repr__(self):
        return "an expression (%s)" % self.text

    def words(self):
        """The words of its rule, or None where rule text cannot say it."""
        if None in self.operations:
            return None
        try:
            given = list(steps(self.operations))
        except Unsaid:
            return None
        said = [word for _, words in given for word in words]
        if depth_from(0, given) == 1 and len(said) <= 1024:
            return said + ["^"] * self.fetches
        if self.may_be_over_cfa and depth_from(1, given) == 1 and len(said) < 1024:
            return [".cfa"] + said + ["^"] * self.fetches
        return None

    def value(self, register, word, cfa):
        """Its value by the operations, where `register` gives a register's value and `word` the word at an address, or fail."""
        try:
            free = depth_from(0, list(steps(self.operations))) == 1
        except Unsaid:
            free = False
        stack = [] if free else [cfa]
        for name, value in self.operations:
            if name == "constant":
                stack.append(value % WORD)
            elif name == "register":
                stack.append((register(value[0]) + value[1]) % WORD)
            elif name == "plus_uconst":
                stack.append((stack.pop() + value) % WORD)
            elif name == "deref":
                stack.append(word(stack.pop()))
            else:
                upper, lower = stack.pop(), stack.pop()
                stack.append({"plus": lambda: (lower + upper) % WORD, "minus": lambda: (lower - upper) % WORD,
                              "mul": lambda: lower * upper % WORD, "and": lambda: lower & upper,
                              "shl": lambda: (lower << upper) % WORD if upper < 64 else 0,
                              "ge": lambda: int(signed(lower) >= signed(upper))}[name]())
        return word(stack[-1]) if self.fetches else stack[-1]


class State:
    """The expressions of a row: that of the CFA, and those of columns."""

    def __init__(self, cfa=None, columns=()):
        self.cfa, self.columns = cfa, dict(columns)

    def copy(self):
        return State(self.cfa, self.columns)


def read_instructions(path):
    """The instructions of each CIE and FDE, by section and place, as readelf spells them; the CIE's place of each FDE."""
    section, key, found, cies = None, None, {}, {}
    for line in readelf(["--debug-dump=no-follow-links", "--debug-dump=frames"], path).decode(errors="replace").splitlines():
        title = re.match(r"^Contents of the \.(eh_frame|debug_frame) section", line)
        head = re.match(r"^([0-9a-f]+) [0-9a-f]+ [0-9a-f]+ (?:CIE|FDE .*?cie=([0-9a-f]+))", line)
        if title:
            section, key = title.group(1), None
        elif head:
            key = (section, int(head.group(1), 16))
            found[key] = []
            if head.group(2):
                cies[key] = (section, int(head.group(2), 16))
        elif line.endswith("ZERO terminator"):
            key = None
        elif key and line.startswith("  DW_CFA_"):
            found[key].append(line[2:])
    return found, cies


def carry_out(key, instructions, state, initial, location, stack):
    """The states of expressions by their locations, all expressions that stand in the instructions, the state after them, and whether an
    offset or a register is given to a CFA that is an expression."""
    states, given, mismatched = [(location, state.copy())], [], False
    for number, text in enumerate(instructions):
        name = re.match(r"DW_CFA_(\w+)", text).group(1)
        moved = re.search(r" to ([0-9a-f]{8,16})$", text)
        column = re.match(r"DW_CFA_\w+: r(\d+)", text)
        column = int(column.group(1)) if column else None
        block = re.search(r"\((DW_OP_.*|)\)$", text) if name.endswith("expression") else None
        if name.startswith(("advance_loc", "set_loc")) and moved:
            location = int(moved.group(1), 16)
        elif name == "def_cfa_expression":
            state.cfa = Expression((key, number), block.group(1) if block else "", False, False)
            given.append(state.cfa)
        elif name in ("expression", "val_expression"):
            if column <= 16:
                state.columns[column] = Expression((key, number), block.group(1) if block else "", True, name == "expression")
                given.append(state.columns[column])
        elif name in ("def_cfa", "def_cfa_sf"):
            state.cfa = None
        elif name in ("def_cfa_register", "def_cfa_offset", "def_cfa_offset_sf"):
            mismatched = mismatched or state.cfa is not None
        elif name == "remember_state":
            stack.append(state.copy())
        elif name == "restore_state":
            if stack:
                state = stack.pop()
        elif name in ("restore", "restore_extended") and initial is not None:
            state.columns.pop(column, None)
            if column in initial.columns:
                state.columns[column] = initial.columns[column]
        elif column is not None and name.startswith(("offset", "val_offset", "undefined", "same_value", "register")):
            state.columns.pop(column, None)
        states.append((location, state.copy()))
    return states, given, state, mismatched


class Expressions:
    """The expressions of a file's frame entries."""

    def __init__(self, path):
        self.instructions, self.cies = read_instructions(path)
        self.some = any("expression" in text for texts in self.instructions.values() for text in texts)

    def of(self, key, start):
        """The states of an FDE by their locations, in order, all expressions in its CIE's instructions and in its own, and whether one of
        these is given a register or an offset."""
        cie, stack = self.cies[key], []
        _, first, left, one = carry_out(cie, self.instructions.get(cie, []), State(), None, start, stack)
        states, own, _, other = carry_out(key, self.instructions[key], left.copy(), left, start, stack)
        return states, first + own, one or other

    def at(self, states, address):
        found = states[0][1]
        for location, state in states:
            if location <= address:
                found = state
        return found
