#!/usr/bin/env python3
"""Compares what `walk` answers on a dumped text with the stack that gdb shows of the program as it runs.

    expected_stack.py PROGRAM FILE TEXT PLACE FOLDER

FILE runs under gdb up to the first time at PLACE, where state.gdb writes its state; and `PROGRAM walk` over TEXT, which was dumped of FILE,
has to name the functions, paths and lines of gdb's frames, one by one, up to main; and of the state at main's frame main alone. Ends with 0
where it does, with 1 where it does not, and with 2 where gdb can't run the file; the last line says why.
"""

import os
import re
import subprocess
import sys


def run_gdb(path, place, states):
    """What gdb prints of the program at the place, where the states of its first and its last frame are written."""
    commands = ["set width 0", "set height 0", "set confirm off", "set debuginfod enabled off", "set print frame-arguments none",
                "set print entry-values no", "set filename-display absolute",
                f"source {os.path.join(os.path.dirname(os.path.abspath(__file__)), 'state.gdb')}",
                f"break {place}", "run", "backtrace", f"write-state {path} {states[0]}",
                "up-silently 1000", f"write-state {path} {states[1]}", "kill"]
    words = ["gdb", "-nx", "-batch"]
    for command in commands:
        words += ["-ex", command]
    for state in states:
        if os.path.exists(state):
            os.remove(state)
    try:
        done = subprocess.run(words + [path], stdin=subprocess.DEVNULL, stdout=subprocess.PIPE, stderr=subprocess.PIPE,
                              env={**os.environ, "LC_ALL": "C"}, timeout=60)
    except subprocess.TimeoutExpired:
        print("gdb did not end")
        sys.exit(2)
    return done.stdout.decode("utf-8", "replace"), " ".join(done.stderr.decode("utf-8", "replace").split())[:200]


def frames_of(text):
    """The frames of a backtrace: function, path and line."""
    return [f"{name} at {path}:{line}" for name, path, line in
            re.findall(r"^#\d+ +(?:0x[0-9a-f]+ in )?(\S+) \(.*\) at (.*):(\d+)$", text, re.M)]


def differs(program, text_path, state, wanted):
    """In what a walk from the state differs from the frames that are wanted, or nothing."""
    done = subprocess.run([program, "walk", text_path, state],
                          stdin=subprocess.DEVNULL, stdout=subprocess.PIPE, stderr=subprocess.PIPE)
    answer = done.stdout.decode("utf-8", "replace").splitlines()
    found = [line for line in answer if not re.fullmatch(r"\d+ [0-9a-f]+", line)]
    heads = [line.split()[0] for line in answer if re.fullmatch(r"\d+ [0-9a-f]+", line)]
    if done.returncode != 0 or done.stderr:
        return f"status {done.returncode}, err <{done.stderr.decode('utf-8', 'replace').strip()}>"
    for number, frame in enumerate(wanted):
        if number >= len(found) or found[number] != frame:
            return f"frame {number}: gdb shows <{frame}>, walk <{found[number] if number < len(found) else ''}>"
    # The caller of main is in a library: the text has no rules there, and at most a symbol far below.
    behind = [re.sub("^public .*", "none", line) for line in found[len(wanted):]]
    if behind != ["none", "end no-rules"] or heads != [str(number) for number in range(len(heads))]:
        return f"behind main stands <{' | '.join(found[len(wanted):])}>, of steps {' '.join(heads)}"
    return ""


def main():
    program, path, text_path, place, folder = sys.argv[1:]
    states = [os.path.join(folder, name) for name in ("state", "state-of-main")]
    shown, problem = run_gdb(path, place, states)
    wanted = frames_of(shown)
    if not wanted or "Python scripting is not supported" in problem:
        print(f"gdb can't run it: {problem}")
        return 2
    if len(wanted) < 4 or not all(map(os.path.exists, states)):
        print(f"gdb shows {len(wanted)} frames, or wrote no states: {problem}")
        return 1
    for state, frames in zip(states, (wanted, wanted[-1:])):
        difference = differs(program, text_path, state, frames)
        if difference:
            print(difference)
            return 1
    print(f"{len(wanted)} frames")
    return 0


if __name__ == "__main__":
    sys.exit(main())
