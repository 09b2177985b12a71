#!/usr/bin/env python3
"""Runs the commands on symbol files and states of many records, long lines and bad lines, whose answers are known by how they are made.

  scripts/long_texts.py PROGRAM      in an empty folder; ends with `long texts: N passed, M failed`

Texts have a MODULE line in front, so the first other record is the second.
"""
import subprocess
import sys

program = sys.argv[1]
MODULE = "MODULE Linux x86_64 0 a\n"
HASH = "17h0123456789abcdefE"
NOT_SET = "rbx r12 r13 r14 r15".split()
REGISTERS = "rax rdx rcx rbx rsi rdi rbp rsp r8 r9 r10 r11 r12 r13 r14 r15".split()
passed = failed = 0


def expect(label, words, status, out="", err=""):
    global passed, failed
    ran = subprocess.run([program, *words], stdin=subprocess.DEVNULL, capture_output=True)
    found = (ran.returncode, ran.stdout, ran.stderr)
    if found == (status, out.encode(), err.encode()):
        passed += 1
        return
    failed += 1
    print(f"{label}: expected {(status, out[:80], err[:80])}, found {(found[0], found[1][:80], found[2][:80])}")


def write(name, *lines):
    with open(name, "w") as file:
        file.writelines(lines)


def text(*lines):
    write("text", MODULE, *lines)


def finds(label, *findings):
    """`check` finds these: pairs of a kind and a record."""
    expect(label, ["check", "text"], 1, "".join(f"C{kind} record {record}\n" for kind, record in findings))


def findings():
    meeting = [f"{0x1000 + k:x} 2000 1 7\n" for k in range(1000)]
    text("FILE 0 a\nFILE 0 a\nFUNC 1000 10 0 f\nFUNC 1000 0 0 f\nFUNC 1008 10 0 f\nINLINE 0 4 7 7 1008 8 2000 8\n", *meeting,
         "STACK CFI INIT 1000 10 .cfa: $rsp 8 +\nSTACK CFI INIT 100f 10 .cfa: $rsp 8 +\nSTACK CFI 100f .cfa: $rsp 8 +\n")
    lines = [pair for k in range(1000) for pair in ((2, 8 + k), (6, 8 + k), *([(7, 8 + k)] if k else []))]
    finds("several at a record", (1, 3), (4, 5), (5, 6), (2, 7), (3, 7), (6, 7), *lines, (8, 1009), (9, 1010))
    many = 300_000
    text(*(f"FUNC {k:x} 40000000 0 f\n" for k in range(many)))
    finds("functions that meet", *((5, k + 2) for k in range(1, many)))
    falling = lambda step: (f"{step * (many - k):x} 4 1 0\n" for k in range(many))
    text("FILE 0 a\nFUNC 0 40000000 0 f\n", *falling(8), "FILE 0 a\n")
    finds("lines that fall, and a file", (1, many + 4))
    text("FILE 0 a\nFUNC 0 40000000 0 f\n", *falling(3))
    finds("lines that fall and meet", *((7, k + 4) for k in range(1, many)))
    text(*["FILE 3 a\n"] * many)
    finds("files of one number", *((1, k + 2) for k in range(1, many)))
    text(*["PUBLIC 0 0 a\n"] * many)
    expect("nothing is found in as many symbols", ["check", "text"], 0, "no findings\n")


def walks():
    """Each frame of these stacks returns so far below its own address that it is in another function."""
    for functions, under in ((500_000, 2), (1100, 50)):
        size = 4 * under
        func = lambda k: f"FUNC {2 * size * k:x} {size:x} 0 f{k}\n" + "".join(f"{2 * size * k + 4 * at:x} 4 {100 * k + at} 0\n" for at in range(under))
        text("FILE 0 /s/a.c\n", *(func(k) for k in range(functions)), f"STACK CFI INIT 0 {2 * size * functions:x} .cfa: $rsp 8 + .ra: $rip {2 * size} -\n")
        # The last address of a function; of the frames behind the first the one below is looked up, which is in the same line.
        last = 2 * size * (functions - 1) + size - 1
        write("state", f"REG rip {last:x}\nREG rsp 7000\n")
        steps = [f"{k} {last - 2 * size * k:x}\nf{functions - 1 - k} at /s/a.c:{100 * (functions - 1 - k) + under - 1}\n" for k in range(1024)]
        expect(f"a walk through {functions} functions", ["walk", "text", "state"], 0, "".join(steps) + "end limit\n")
        expect(f"a look-up in {functions} functions", ["lookup", "text", f"{last:x}"], 0, steps[0].split("\n", 1)[1])
        expect(f"a look-up between {functions} functions", ["lookup", "text", f"{size:x}"], 0, "none\n")
    count = 20_000
    text(*(f"FILE {k} /s/{k}.c\n" for k in range(count)[::-1]), *(f"INLINE_ORIGIN {k} g{k}\n" for k in range(count)[::-1]),
         "FUNC 0 2000 0 f\nINLINE 0 7 1 1 0 1000\n0 2000 9 2\nSTACK CFI INIT 0 2000 .cfa: $rsp 8 + .ra: $rip 1 -\n")
    answer = "g1 at /s/2.c:9\nf at /s/1.c:7\n"
    expect("many names, looked up", ["lookup", "text", "400"], 0, answer)
    for rip, steps, end in ((1, 1, "ra-zero"), (0x400, 1024, "ra-zero"), (0x401, 1024, "limit"), (0x800, 1024, "limit")):
        write("state", f"REG rip {rip:x}\nREG rsp 7000\n")
        expect(f"a walk from {rip:x}", ["walk", "text", "state"], 0, "".join(f"{k} {rip - k:x}\n{answer}" for k in range(steps)) + f"end {end}\n")
    write("state", "REG rsp 7000\n")
    expect("a walk without rip", ["walk", "text", "state"], 1, err="refused walk no-rip\n")


def levels():
    """Of 3,000 levels of inlining each is one address shorter than the one around it; a second record of each level says something else."""
    count = 3000
    inline = lambda level, line, number: f"INLINE {level} {line} {number} {number} 0 {count - level:x}\n"
    first = [inline(k, k + 1, k) for k in range(count)]
    second = [inline(k, 77, 2) for k in range(count)]
    for order in (1, -1):
        text("FUNC 0 2000 0 f\n", *first[::order], *second[::order], "0 2000 9 2\n",
             *(f"FILE {k} /s/{k}.c\nINLINE_ORIGIN {k} g{k}\n" for k in range(count)[::-1]), "FILE 5 /other.c\nINLINE_ORIGIN 5 other\n")
        for deep in (count, count // 2, 9, 8, 1, 0):
            inner = list(range(deep))[::-1]
            names = [*(f"g{k}" for k in inner), "f"]
            places = ["/s/2.c:9", *(f"/s/{k}.c:{k + 1}" for k in inner)]
            answer = "".join(f"{name} at {place}\n" for name, place in zip(names, places))
            expect(f"{deep} levels", ["lookup", "text", f"{count - deep:x}"], 0, answer)


def frame(**known):
    """The lines of `frame`, of which these are known; where the CFA is, rsp is it."""
    known = {"rsp": known.get("cfa", "undefined"), **known}
    names = ["cfa", "ra", *REGISTERS]
    return "".join(f"{name} {known.get(name, f'failed missing {name}' if name in NOT_SET + ['rbp'] else 'undefined')}\n" for name in names)


def frames():
    write("state", "REG rsp 10\n")
    text("STACK CFI INIT 0 1 .cfa:", " 1" * 500, " +" * 499, "\n")
    expect("a rule of a thousand words", ["frame", "text", "0", "state"], 0, frame(cfa=f"{500:x}"))
    text("STACK CFI INIT 1000 2000 .cfa: $rsp 8 +\n", *(f"STACK CFI {0x1000 + k:x} .cfa: $rsp {16 * k} +\n" for k in range(1, 1001)))
    for address, cfa in ((0x1000, 0x18), (0x1001, 0x20), (0x11f4, 8016), (0x13e8, 16016), (0x2fff, 16016)):
        expect("a thousand changes", ["frame", "text", f"{address:x}", "state"], 0, frame(cfa=f"{cfa:x}"))
    for address in ("fff", "3000"):
        expect("outside of a thousand changes", ["frame", "text", address, "state"], 0, "none\n")


def states():
    runs = [f"MEM {0x1000 + k:x} {k % 256:02x}\n" for k in range(100_000)]
    text(f"STACK CFI INIT 0 1 .cfa: {0xfff} ^ .ra: {0x1000} ^ $rax: {0x19698} ^ $rbx: {0x19699} ^ $rdx: $rip $rcx: $rsp\n")
    wanted = frame(cfa="failed unreadable fff", ra="706050403020100", rax="9f9e9d9c9b9a9998", rbx="failed unreadable 19699", rdx="10", rcx="7ffe0010")
    for label, lines in (("rising", runs), ("falling", runs[::-1])):
        write("state", *lines, "REG rsp 7FFE0010\nREG rip 10")
        expect(f"{label} runs of memory", ["frame", "text", "0", "state"], 0, wanted)
    pairs = [f"MEM {0x1000 + k:x} {k % 256:02x}ff\n" for k in range(100_000)]
    wanted = frame(cfa="failed unreadable fff", ra="706050403020100", rax="9f9e9d9c9b9a9998", rbx="ff9f9e9d9c9b9a99", rdx="10", rcx="7ffe0010")
    write("state", *pairs, "REG rsp 7FFE0010\nREG rip 10")
    expect("rising runs that overlap", ["frame", "text", "0", "state"], 0, wanted)
    wanted = frame(cfa="failed unreadable fff", ra="ffffffffffffff00", rax="f" * 16, rbx="f" * 16, rdx="10", rcx="7ffe0010")
    write("state", *pairs[::-1], "REG rsp 7FFE0010\nREG rip 10")
    expect("falling runs that overlap", ["frame", "text", "0", "state"], 0, wanted)
    write("state", "REG rax 1\n\nMEM 0 012\nSET\n")
    expect("the first fault of a state", ["frame", "text", "0", "state"], 1, err="refused state hex line 3\n")


def names():
    mangled = lambda length: f"_ZN{length}{'a' * length}{HASH}"
    shown = [("_ZN4core3fmt5write" + HASH, "core::fmt::write"), ("main", "main"), (mangled(65_536), "a" * 65_536), (mangled(65_537), mangled(65_537))]
    huge = f"_ZN{'9' * 40}1a{HASH}"
    shown.append((huge, huge))
    text(*(f"PUBLIC 0 0 {name}\n" for name, _ in shown))
    expect("names", ["names", "text"], 0, MODULE + "".join(f"PUBLIC 0 0 {name}\n" for _, name in shown))
    for name, wanted in (("_ZN1a1b" + HASH, "a::b"), ("main", "main")):
        records = lambda name: (f"INLINE_ORIGIN {k} {name}\nFUNC m {k:x} 1 0 {name}\nPUBLIC {k:x} 0 {name}\n" for k in range(100_000))
        text(*records(name))
        expect("many names", ["names", "text"], 0, MODULE + "".join(records(wanted)))


# What a line behind MODULE is refused for.
BAD = (
    ("misplaced", "1000 4 1 0", "INLINE 0 0 0 0 1 1", "STACK CFI 1 .cfa: $rsp", "MODULE a b c d"),
    ("windows", "STACK WIN 4"),
    ("unknown", "STACK", "STACK CFA 1", "FUNCTION 1 1 0 f", "\tFILE 0 a", "FILE\t0 a", "\0", "FILE\r "),
    ("hex", "FUNC  M000 1 0 f", "FUNC x", "FUNC 1 1 10000000000000000 f", "PUBLIC m m 0 f", "12345678901234567 1 1 0", "STACK CFI INIT\r ",
     "INLINE 0 0 0 0 1 1 x"),
    ("fields", "FUNC 10 4 0", "FUNC", "INLINE 0 0 0 0 1 1 2", "INLINE 0 0 0 0", "STACK CFI", "1 1 1 0 0", "INFO  "),
    ("decimal", "FILE 4294967296 a", "FILE 000000000000000000001 a", "1 1 f 0"),
    ("rule", "STACK CFI INIT 10 4 .cfa: $rsp 8 + .ra:", "STACK CFI INIT 10 4", "STACK CFI INIT 10 4 .cfa $rsp",
     "STACK CFI INIT 10 4 .cfa: 9223372036854775808"),
)
# A record of each kind, with the spaces, CRs, blank lines and digits that a text may have and a canonical one has not, and its canonical text.
LENIENT = (" \r\n  MODULE  Linux x86_64 0F0  a.out\r\r\nINFO CODE_ID 00\r\nFILE 04294967295   /s/a.c \n\nINLINE_ORIGIN 0 g\nFUNC  m 00001000 20 0 _Z1fv\n"
           "INLINE 0 4 0 0 1004 8 2000 10 \r\n01004 8 009 0  \r\nFUNC 3000 A 0 m\nPUBLIC FFFFFFFFFFFFFFFF 0 main \tm\n"
           "STACK  CFI INIT 1000 20  .cfa: $rsp 08 +  .ra: .cfa -8 + ^ x: .undef $y - * / % @\nSTACK CFI 1001 $rbp: $r15 a b c -0 \r \n   ")
CANONICAL = ("MODULE Linux x86_64 0F0 a.out\nINFO CODE_ID 00\nFILE 4294967295 /s/a.c \nINLINE_ORIGIN 0 g\nFUNC m 1000 20 0 _Z1fv\n"
             "INLINE 0 4 0 0 1004 8 2000 10\n1004 8 9 0\nFUNC 3000 a 0 m\nPUBLIC ffffffffffffffff 0 main \tm\n"
             "STACK CFI INIT 1000 20 .cfa: $rsp 8 + .ra: .cfa -8 + ^ x: .undef $y - * / % @\nSTACK CFI 1001 $rbp: $r15 a b c 0\n")


def refuses(word, line, *lines):
    with open("text", "w", newline="") as file:
        file.writelines(lines)
    expect(f"{lines!r:.60}", ["check", "text"], 1, err=f"refused text {word} line {line}\n")


def lines():
    for word, *bad in BAD:
        for line in bad:
            refuses(word, 2, MODULE, line)
            refuses(word, 2, MODULE, line, "\n")
    for word, line, bad in (("empty", 1, ""), ("empty", 1, "\n\n\n"), ("empty", 1, " \r\n \r"), ("no-module", 2, "\nFILE 0 a\n"),
                            ("no-module", 4, "\n\r\n  \nx"), ("no-module", 1, "STACK WIN 4\nMODULE a b c d\n"), ("fields", 1, "MODULE x")):
        refuses(word, line, bad)
        refuses(word, line, bad, "\n")
    refuses("hex", 4, MODULE, "FUNC 1 1 0 f\n\r\n1 x 1 0\n1 1 1 0\nFILE 0 a\n")
    write("text", LENIENT)
    expect("a lenient text", ["names", "text"], 0, CANONICAL)
    # The reader gets its text in pieces of 65,536 bytes: each of these has another cut inside of a record.
    for blanks in range(65_536 - len(LENIENT), 65_536):
        write("text", "\n" * blanks, LENIENT)
        expect(f"a lenient text behind {blanks} lines", ["names", "text"], 0, CANONICAL)
    longest = "INFO " + "a" * ((1 << 20) - 5)
    for end in ("", "\n"):
        text(longest, end)
        expect("the greatest line", ["names", "text"], 0, MODULE + longest + "\n")
    for behind in ("\r", "\r\n", "x\n", "x"):
        refuses("long-line", 2, MODULE, longest, behind)
    many = "FUNC 10 4 0 f\n10 4 1 0\nSTACK CFI INIT 10 4 .cfa: $rsp 8 +\n" * 5000
    text(many)
    expect("many records", ["names", "text"], 0, MODULE + many)
    records = f"FUNC 0 1 0 {'a' * 200_000}\n" + "1000 10 5 1\n" * 200_000
    text(records)
    expect("a long name and many lines", ["names", "text"], 0, MODULE + records)


for part in (findings, walks, levels, frames, states, names, lines):
    part()
print(f"long texts: {passed} passed, {failed} failed")
