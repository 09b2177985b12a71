#!/usr/bin/env python3
"""What `names` writes, beside what other demanglers show.

    expected_names.py PROGRAM TEXT MOST [SHORT]

Runs `names` on a symbol file, and compares each line with the one that the file has. The name of a FUNC, an INLINE_ORIGIN or a PUBLIC that has
the form of Rust's legacy mangling is the one that `c++filt -s rust` shows of it, without the hash at its end. One that begins with `_R` is the
one that SHORT shows, a program that reads names and prints a line for each, or else the one that `c++filt -i` shows; a suffix is not shown.
Every other name, and all else, stays. Where c++filt knows an escape that docs/TEXT.md does not list, or shows no name, the name stays; at most
MOST names may be so. Prints the first line that differs and ends with status 1, or prints how many names were compared.
"""
import re
import subprocess
import sys

LEGACY = re.compile(rb"_ZN.*17h[0-9a-f]{16}E")
CURRENT = re.compile(rb"_R[A-Z][^.]*(\..*)?")
HASH = re.compile(rb"::h[0-9a-f]{16}$")
FIELDS = {b"FUNC": 4, b"INLINE_ORIGIN": 2, b"PUBLIC": 3}


def split(line):
    """The line up to its name, and the name; None where the record has none."""
    words = line.split(b" ")
    count = FIELDS.get(words[0])
    if count is None:
        return line, None
    if words[0] != b"INLINE_ORIGIN" and words[1] == b"m":
        count += 1
    return b" ".join(words[:count]) + b" ", b" ".join(words[count:])


def shown(names):
    """What c++filt shows of each name."""
    text = subprocess.run(["c++filt", "-s", "rust"], input=b"".join(n + b"\n" for n in names), stdout=subprocess.PIPE, check=True).stdout
    return dict(zip(names, text.split(b"\n")))


def shown_short(command, names):
    """What a demangler shows of each name of the current mangling, without its suffix."""
    plain = [n.split(b".")[0] for n in names]
    text = subprocess.run(command, input=b"".join(n + b"\n" for n in plain), stdout=subprocess.PIPE, check=True).stdout
    return dict(zip(names, text.split(b"\n")))


def main():
    program, text, most = sys.argv[1], sys.argv[2], int(sys.argv[3])
    short = [sys.argv[4]] if len(sys.argv) > 4 else ["c++filt", "-i"]
    with open(text, "rb") as file:
        before = file.read().split(b"\n")
    run = subprocess.run([program, "names", text], stdout=subprocess.PIPE, stderr=subprocess.PIPE, stdin=subprocess.DEVNULL)
    if run.returncode != 0 or run.stderr:
        sys.exit(f"status {run.returncode}, {run.stderr[:200]!r}")
    after = run.stdout.split(b"\n")
    if len(before) != len(after):
        sys.exit(f"{len(after)} lines in place of {len(before)}")
    named = {name for _, name in map(split, before) if name is not None}
    names = sorted(name for name in named if LEGACY.fullmatch(name))
    current = sorted(name for name in named if CURRENT.fullmatch(name))
    wanted = {**shown(names), **shown_short(short, current)}
    other = 0
    for old, new in zip(before, after):
        front, name = split(old)
        if name not in wanted:
            if new != old:
                sys.exit(f"<{old.decode()}> became <{new.decode()}>")
            continue
        expected = HASH.sub(b"", wanted[name])
        if new == old:
            other += 1
        elif new != front + expected:
            sys.exit(f"expected <{(front + expected).decode()}>, found <{new.decode()}>")
    if other > most:
        sys.exit(f"{other} names of {len(wanted)} stay")
    print(f"{len(wanted)} names")


if __name__ == "__main__":
    main()
