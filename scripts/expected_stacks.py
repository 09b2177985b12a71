#!/usr/bin/env python3
"""Compares what `stacks` answers on a core file with the stacks that gdb shows of it.

    expected_stacks.py PROGRAM FILE CORE STORE [MOST]

For each thread `PROGRAM stacks CORE STORE` has to show gdb's frames: the same addresses, one after another, and where gdb knows a function with its
line the same name, path and line, inlined calls among them. A thread may end before gdb's does where it says `no-rules`, `no-module` or `no-symbols`.
Of a long thread the first MOST frames are compared, those that `skipped` stands for apart. Ends with 0 where all are the same, with 1 where they
are not, and with 2 where gdb can't read the core; the last line says why.
"""

import os
import re
import subprocess
import sys

ENDS = ("no-rules", "no-module", "no-symbols")


def gdb_threads(path, core, most):
    """The threads by their numbers, each a list of steps: an address, and the frames with name, path and line, the innermost first."""
    page = os.path.join(os.path.dirname(os.path.abspath(__file__)), "frames.gdb")
    words = ["gdb", "-nx", "-batch", "-ex", "set debuginfod enabled off", "-ex", "set backtrace past-main on",
             "-ex", "set backtrace past-entry on", "-x", page, "-ex", f"write-frames {most}", path, core]
    try:
        done = subprocess.run(words, stdin=subprocess.DEVNULL, stdout=subprocess.PIPE, stderr=subprocess.PIPE,
                              env={**os.environ, "LC_ALL": "C"}, timeout=300)
    except subprocess.TimeoutExpired:
        print("gdb did not end")
        sys.exit(2)
    threads, steps, inlined = {}, None, []
    for line in done.stdout.decode("utf-8", "replace").splitlines():
        fields = line.split("\t")
        if re.fullmatch(r"thread \d+", line):
            steps, inlined = threads.setdefault(int(line.split()[1]), []), []
        elif len(fields) == 5 and steps is not None:
            kind, address, name, file, number = fields
            # gdb shows some names of C++ with their parameters.
            frame = (name if name.startswith("_Z") else re.sub(r"\(.*", "", name), file, number)
            if kind == "inline":
                inlined.append(frame)
            elif kind != "tail":
                steps.append((int(address, 16), inlined + [frame]))
                inlined = []
    if not threads:
        print("gdb shows no thread: " + " ".join(done.stderr.decode("utf-8", "replace").split())[:200])
        sys.exit(2)
    return threads


def shown_threads(text):
    """The same of what `stacks` prints; a step is a number, an address and its lines. And the end of each thread."""
    threads, ends, steps = {}, {}, None
    for line in text.splitlines():
        head = re.fullmatch(r"(\d+) ([0-9a-f]+)( .*)?", line)
        if re.fullmatch(r"thread \d+", line):
            number = int(line.split()[1])
            steps = threads.setdefault(number, [])
        elif steps is None or re.fullmatch(r"skipped \d+", line):
            continue
        elif head:
            steps.append((int(head[1]), int(head[2], 16), []))
        elif line.startswith("end ") and number not in ends:
            ends[number] = line[4:]
        else:
            steps[-1][2].append(line)
    return threads, ends


def whole(name, line):
    """A line of gdb's, or another that says the same: of a library whose paths are not absolute, its functions have several names each."""
    path = name.split(" at ", 1)[1]
    if path.startswith("/") or line.split("/")[-1] != path.split("/")[-1]:
        return name
    return line


def differs(number, wanted, found, end, most):
    """In what a thread differs from gdb's, or nothing."""
    for place, address, lines in found:
        if place >= len(wanted):
            if place >= most:
                return None
            return f"thread {number}: gdb has {len(wanted)} steps, and step {place} is at {address:x}"
        if wanted[place][0] != address:
            return f"thread {number}, step {place}: gdb has {wanted[place][0]:x}, found {address:x}"
        frames = wanted[place][1]
        if all("-" not in frame for frame in frames):
            names = [f"{name} at {path}:{line}" for name, path, line in frames]
            if [whole(name, line) for name, line in zip(names, lines)] != lines or len(names) != len(lines):
                return f"thread {number}, step {place}: gdb has {names}, found {lines}"
    if len(found) < min(len(wanted), most) and end.split()[0] not in ENDS:
        return f"thread {number}: gdb has {len(wanted)} steps, found {len(found)}, and then {end}"
    return None


def main():
    program, path, core, store = sys.argv[1:5]
    most = int(sys.argv[5]) if len(sys.argv) > 5 else 1 << 20
    done = subprocess.run([program, "stacks", core, store], stdin=subprocess.DEVNULL, stdout=subprocess.PIPE, stderr=subprocess.PIPE)
    if done.returncode != 0:
        print(f"status {done.returncode}: {done.stderr.decode('utf-8', 'replace').strip()[:200]}")
        sys.exit(1)
    wanted = gdb_threads(path, core, most)
    found, ends = shown_threads(done.stdout.decode("utf-8", "replace"))
    if sorted(wanted) != sorted(found):
        print(f"gdb has the threads {sorted(wanted)}, found {sorted(found)}")
        sys.exit(1)
    for number, steps in wanted.items():
        why = differs(number, steps, found[number], ends[number], most)
        if why:
            print(why)
            sys.exit(1)


if __name__ == "__main__":
    main()
