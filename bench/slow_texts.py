"""Symbol files and state files that are made to be slow to read or to ask, for bench/worst_cases.

A case is a label, the words that the program is called with, in which ELF, SYM and STATE stand for files, and what makes SYM and STATE. It is called with
a scale, at double of which its files are twice as long, and gives the lines of the symbol file behind its MODULE; or a pair of these and of the lines of
the state file. COUNT is ten thousand times the scale.
"""

# Where the code of the binary begins that texts are judged by, which is one function with one frame entry, and how long it is.
CODE, ROOM = 0x1000, 1 << 31
# A multiple of it, modulo a power of two, goes over all addresses below that in no order.
ODD = 0x9e3779b1
RULES = b".cfa: $rsp 8 + .ra: .cfa -8 + ^"
# A walk that comes to its limit: each frame returns to the address 2, so 1 is looked up.
ENDLESS = b".cfa: $rsp 1 + .ra: 2"
STATE = b"REG rip 1\nREG rsp 8\n"


def scattered(form, count):
    return (form % (k * ODD % (1 << 32)) for k in range(count))


def falling(form, count):
    return (form % k for k in range(count, 0, -1))


def with_reach(form, count):
    """As many records, in falling order, each of which has half of the others' addresses."""
    return (form % (k, count) for k in range(count, 0, -1))


def nested(form, count):
    """As many records, each inside the next."""
    return (form % (k, 2 * (count - k) + 1) for k in range(count, 0, -1))


def under(line, lines):
    yield line
    yield from lines


def whole(line, fill):
    """The line, and the other bytes behind it until it is as long as a line may be."""
    return line + fill * (((1 << 20) - len(line)) // len(fill)) + b"\n"


def many(line, count):
    return (line for _ in range(count))


FUNC = b"FUNC 0 %x 0 a\n" % (1 << 32)
INIT = b"STACK CFI INIT 0 %x %s\n" % (1 << 32, RULES)
COVER = b"STACK CFI INIT %x %x %s\n" % (CODE, ROOM, RULES)
LOW_FUNC = b"FUNC %x %x 0 f\n" % (CODE, ROOM)


def inline(level, runs):
    return b"INLINE %d 1 0 0 %s\n" % (level, b" ".join(b"%x %x" % run for run in runs))


def levels(count, numbers=lambda count: range(count)):
    return under(b"FUNC 0 %x 0 a\n" % count, (inline(level, [(0, count)]) for level in numbers(count)))


def named_levels(count):
    """A chain of calls whose path and name stand behind everything."""
    yield from levels(count)
    yield from many(b"FILE 1 a\n", count)
    yield b"FILE 0 a\nINLINE_ORIGIN 0 b\n"


def with_long_path(count):
    return under(whole(b"FILE 0 a", b"a"), levels(count))


def ranges(count):
    """Records of 90,000 ranges each in no order, as many as fit into a line."""
    return under(FUNC, (inline(0, [((k * 90_000 + at) * ODD % (1 << 32), 1) for at in range(90_000)]) for k in range(count)))


def lines_in_small_functions(count):
    """Functions whose lines are too few for a map of their own."""
    for k in range(count):
        yield b"FUNC %x 20 0 a\n" % (32 * k)
        yield from falling(b"%x 20 1 0\n", 32)


def every_level(count):
    """A chain of calls, and lines in falling order, each of which is asked for."""
    yield LOW_FUNC
    yield from (inline(level, [(CODE, ROOM)]) for level in range(count))
    yield from (b"%x 1 1 0\n" % (CODE + 2 * k) for k in range(count, 0, -1))


def ranges_in_few_records(count):
    """A record of ranges in falling order under one function, each of which is asked for."""
    yield LOW_FUNC
    for first in range(count, 0, -60_000):
        yield inline(0, [(CODE + 2 * k, 1) for k in range(first, max(first - 60_000, 0), -1)])


def falling_changes(count):
    return under(COVER, (b"STACK CFI %x a: 1\n" % (CODE + k) for k in range(count, 0, -1)))


def long_rule_and_changes(count):
    """A rule of the CFA that adds 0 again and again, and changes of another name, at each of which it is compared."""
    init = whole(b"STACK CFI INIT %x %x .ra: .cfa -8 + ^ .cfa: $rsp 8 +" % (CODE, ROOM), b" 0 +")
    return under(init, (b"STACK CFI %x a: 1\n" % (CODE + k) for k in range(1, count)))


def long_rules(count):
    """So many registers' rules, each of half a million words."""
    names = [b"$" + name for name in b"rax rdx rcx rbx rsi rdi rbp r8 r9 r10 r11 r12 r13 r14 r15".split()]
    yield b"STACK CFI INIT 0 8 %s\n" % ENDLESS
    for name in names[:count]:
        yield whole(b"STACK CFI 0 %s: 1" % name, b" 0 +")


def fetches(count):
    """A rule that fetches 0 at 0, and memory of which the first run has it."""
    line = b"STACK CFI INIT 0 8 .cfa: 0" + b" ^" * count + b"\n"
    return [line], under(b"MEM 0 0000000000000000\n", many(b"MEM 9 00\n", 2 * count))


def of_state(lines):
    return [b"STACK CFI INIT 0 8 %s\n" % RULES], lines


def legacy(length):
    part = b"$C$" * (length // 3)
    return b"PUBLIC 0 0 _ZN%d%s17h0123456789abcdefE\n" % (len(part), part)


def hidden_path(size):
    """A name of the current mangling: half of its bytes are a path that is not shown, and the others lead back to the type that has it."""
    return b"PUBLIC 0 0 _RINvC1a1fMIC1b" + b"u" * (size // 2) + b"Eu" + b"B7_" * (size // 6) + b"E\n"


def base_62(place):
    """A place behind the first as backreferences write it."""
    digits, number = b"_", place - 1
    while number > 0:
        digits = b"0123456789abcdefghijklmnopqrstuvwxyzABCDEFGHIJKLMNOPQRSTUVWXYZ"[number % 62:number % 62 + 1] + digits
        number //= 62
    return digits


def long_zeros(size):
    """A name of the current mangling: half of its bytes are a constant with zeros in front, and the others lead back to it."""
    return b"PUBLIC 0 0 _RINvC1a1fKj" + b"0" * (size // 2) + b"1_" + b"KB8_" * (size // 8) + b"E\n"


def disambiguator_zeros(size):
    """A name of the current mangling: half of its bytes are a disambiguator with zeros in front, and the others lead back to the crate that has it."""
    return b"PUBLIC 0 0 _RINvC1a1fCs" + b"0" * (size // 2) + b"1_1b" + b"B7_" * (size // 6) + b"E\n"


def identifiers_in_one(size):
    """A name of the current mangling: half of its bytes are an identifier, and the others lead to types in it, whose crates that are not shown have the
    rest of it as a name."""
    inside, starts = [b"h"], []
    length = 0
    while length < size // 2:
        inside.append(b"MC%d" % length if length > 0 else b"a")
        length += len(inside[-1])
        starts.append(length)
    inside = b"".join(reversed(inside))
    front = b"INvC1a1fC%d_" % len(inside)
    return b"PUBLIC 0 0 _R" + front + inside + b"".join(b"B" + base_62(len(front) + length - start) for start in reversed(starts[1:])) + b"E\n"


def lists_in_one_identifier(size):
    """A name of the current mangling: half of its bytes are an identifier, and the others lead to types in it, whose paths have the rest of it as a list."""
    inside = b"C4MIC0" * (size // 12) + b"Eh"
    front = b"INvC1a1fC%d_" % len(inside)
    places = range(len(front) + 2, len(front) + len(inside) - 8, 6)
    return b"PUBLIC 0 0 _R" + front + inside + b"".join(b"B" + base_62(place) for place in places) + b"E\n"


LOOKUP, WALK, FRAME, JUDGE = ("lookup", "SYM", "1"), ("walk", "SYM", "STATE"), ("frame", "SYM", "1", "STATE"), ("judge", "ELF", "SYM")
CHECK, NAMES = ("check", "SYM"), ("names", "SYM")
M = 500_000
CASES = (
    ("blank lines", CHECK, lambda n: many(b"\n" * 1000, 40 * n * M // 1000)),
    ("INFO lines of 2^20 bytes", NAMES, lambda n: many(whole(b"INFO a", b"a"), 40 * n)),
    ("a million INFO records", NAMES, lambda n: many(b"INFO a\n", n * M)),
    ("a million INFO records, and a bad line", CHECK, lambda n: under(b"", (*many(b"INFO a\n", n * M), b"INFO\n"))),
    ("a million FILE records of numbers in no order", CHECK, lambda n: scattered(b"FILE %d a\n", n * M)),
    ("a million FILE records of one number", CHECK, lambda n: many(b"FILE 7 a\n", n * M)),
    ("a million INLINE_ORIGIN records of numbers in no order", WALK, lambda n: scattered(b"INLINE_ORIGIN %d a\n", n * M)),
    ("a million FUNC records in no order", CHECK, lambda n: scattered(b"FUNC %x 1 0 a\n", n * M)),
    ("a million FUNC records in no order", WALK, lambda n: scattered(b"FUNC %x 1 0 a\n", n * M)),
    ("a million FUNC records of one address", CHECK, lambda n: many(b"FUNC 1 1 0 a\n", n * M)),
    ("a million FUNC records that overlap, falling", WALK, lambda n: with_reach(b"FUNC %x %x 0 a\n", n * M)),
    ("a million nested FUNC records, the inner first", WALK, lambda n: nested(b"FUNC %x %x 0 a\n", n * M)),
    ("a million lines in no order", CHECK, lambda n: under(FUNC, scattered(b"%x 1 1 0\n", n * M))),
    ("a million lines in no order", WALK, lambda n: under(FUNC, scattered(b"%x 1 1 0\n", n * M))),
    ("a million lines that overlap, falling", WALK, lambda n: under(FUNC, with_reach(b"%x %x 1 0\n", n * M))),
    ("4 million lines of one address", CHECK, lambda n: under(FUNC, many(b"1 1 1 0\n", 4 * n * M))),
    ("50,000 functions of 32 lines that overlap", CHECK, lambda n: lines_in_small_functions(n * 25_000)),
    ("an INLINE level of 7 million ranges", CHECK, lambda n: ranges(40 * n)),
    ("an INLINE level of 7 million ranges", WALK, lambda n: ranges(40 * n)),
    ("20,000 levels of INLINE records", LOOKUP, lambda n: levels(n * 10_000)),
    ("20,000 levels of INLINE records, the innermost first", LOOKUP, lambda n: levels(n * 10_000, lambda count: range(count)[::-1])),
    ("20,000 levels of INLINE records, and as many FILE records behind", LOOKUP, lambda n: named_levels(n * 10_000)),
    ("400 levels of INLINE records whose path has 2^20 bytes", LOOKUP, lambda n: with_long_path(n * 200)),
    ("20,000 levels of INLINE records", WALK, lambda n: levels(n * 10_000)),
    ("a million levels of INLINE records, but the first", WALK, lambda n: levels(n * M, lambda count: range(1, count))),
    ("a million PUBLIC records in no order", WALK, lambda n: scattered(b"PUBLIC %x 0 a\n", n * M)),
    ("a million PUBLIC records of one address", WALK, lambda n: many(b"PUBLIC 1 0 a\n", n * M)),
    ("PUBLIC records of 2^20 bytes", CHECK, lambda n: many(whole(b"PUBLIC 0 0 a", b"a"), 40 * n)),
    ("a million legacy names", NAMES, lambda n: many(legacy(3), n * M)),
    ("2,000 legacy names of 49,152 bytes", NAMES, lambda n: many(legacy(49_152), n * 1000)),
    ("200 names of 60,000 bytes whose path that is not shown is met 10,000 times", NAMES, lambda n: many(hidden_path(n * 30_000), 200)),
    ("20 names of 44,000 bytes whose constant with many zeros is met 5,500 times", NAMES, lambda n: many(long_zeros(n * 22_000), 20)),
    ("20 names of 40,000 bytes with lists that are not shown at 3,600 places of one identifier", NAMES, lambda n: many(lists_in_one_identifier(n * 22_000), 20)),
    ("20 names of 44,000 bytes whose disambiguator with many zeros is met 7,300 times", NAMES, lambda n: many(disambiguator_zeros(n * 22_000), 20)),
    ("20 names of 44,000 bytes whose names that are not shown begin at 3,000 places of one identifier", NAMES, lambda n: many(identifiers_in_one(n * 22_000), 20)),
    ("a million INIT records in no order", CHECK, lambda n: scattered(b"STACK CFI INIT %x 1 a: 1\n", n * M)),
    ("a million INIT records that overlap, falling", WALK, lambda n: with_reach(b"STACK CFI INIT %x %x a: 1\n", n * M)),
    ("a million changes of one INIT, falling", CHECK, lambda n: under(INIT, falling(b"STACK CFI %x a: 1\n", n * M))),
    ("20,000 changes at each of 1,024 frames", WALK, lambda n: under(b"STACK CFI INIT 0 8 %s\n" % ENDLESS, many(b"STACK CFI 1 a: 1\n", n * 10_000))),
    ("400,000 rules with 15 `:` in a word", CHECK, lambda n: under(INIT, many(b"STACK CFI 0 a: a%sa\n" % (b":" * 14), n * 200_000))),
    ("lines of 209,000 rules", CHECK, lambda n: under(INIT, many(whole(b"STACK CFI 0 a: 1", b" a: 1"), 20 * n))),
    ("lines of half a million words", CHECK, lambda n: under(INIT, many(whole(b"STACK CFI 0 a: 1", b" 1"), 20 * n))),
    ("two rules of 262,000 words at each of 1,024 frames", WALK, long_rules),
    ("a FUNC name of a million bytes at each of 1,024 frames", WALK, lambda n: [b"FUNC 0 8 0 %s\n" % (b"a" * (n * M)), b"STACK CFI INIT 0 8 %s\n" % ENDLESS]),
    ("20,000 fetches of memory in 40,000 runs in no order", FRAME, lambda n: fetches(n * 10_000)),
    ("a million registers", FRAME, lambda n: of_state(many(b"REG r15 1\n", n * M))),
    ("1.8 million runs of memory", FRAME, lambda n: of_state(many(b"MEM 0 00\n", n * 900_000))),
    ("a run of 8 million bytes", FRAME, lambda n: of_state([b"MEM 0 " + b"00" * (n * 4_000_000) + b"\n"])),
    ("16 million blank lines of a state", FRAME, lambda n: of_state(many(b"\n" * 1000, n * 8000))),
    ("20,000 levels, and as many lines, falling", JUDGE, lambda n: every_level(n * 10_000)),
    ("60,000 ranges of one INLINE record, falling", JUDGE, lambda n: ranges_in_few_records(n * 30_000)),
    ("10,000 changes of one INIT, falling", JUDGE, lambda n: falling_changes(n * 5000)),
    ("2,000 changes behind a rule of 524,000 words", JUDGE, lambda n: long_rule_and_changes(n * 1000)),
    ("a million FUNC records that overlap, falling", JUDGE, lambda n: with_reach(b"FUNC 1%06x %x 0 a\n", n * M)),
    ("20,000 units", ("sample", "COUNT"), lambda n: []),
)
