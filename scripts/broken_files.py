#!/usr/bin/env python3
"""Runs each command on files that are cut at every length, and on files with one byte changed, each in its turn.

Whatever the bytes, a run is to end by itself with status 0 or 1, and to say what it refuses: on status 1 out is empty and err has one line,
`refused ..`; but `check` may list findings on out and `judge` say no, with nothing on err. On status 0 err has lines of what was left out alone, and
of `stacks` of modules without records.

  scripts/broken_files.py PROGRAM      in an empty folder; a line for each command and file, `WORDS: FILE: N cut, M changed, F failed`

The files are the made file of one unit (made_elf.py), its text, and a state; a file and its supplementary file (made_supplements.py); and a core
file (made_cores.py).
"""
import concurrent.futures
import os
import re
import shutil
import subprocess
import sys

HERE = os.path.dirname(os.path.abspath(__file__))
program = sys.argv[1]
LEFT_OUT = re.compile(rb"((skipped|split|omitted) [^\n]*\n)*\Z")
LACKS = re.compile(rb"((missing|refused) [^\n]*\n)*\Z")
REFUSED = re.compile(rb"refused [^\n]*\n\Z")


def is_good(words, status, out, err):
    if status == 0:
        return bool((LACKS if words[0] == "stacks" else LEFT_OUT).match(err))
    if status != 1:
        return False
    if out:
        return words[0] in ("check", "judge") and not err
    return bool(REFUSED.match(err))


def run(words, name, bytes_, number, beside):
    """Runs the words over these bytes in the place of a file, with another one beside it."""
    folder = f"{number}.broken"
    os.mkdir(folder)
    with open(f"{folder}/{name}", "wb") as file:
        file.write(bytes_)
    if beside:
        shutil.copy(beside, folder)
    try:
        ran = subprocess.run([program, *[f"{folder}/{word}" if word in (name, beside) else word for word in words]], stdin=subprocess.DEVNULL, capture_output=True, timeout=60)
        return is_good(words, ran.returncode, ran.stdout, ran.stderr) or (ran.returncode, ran.stdout[:80], ran.stderr[:80])
    except subprocess.TimeoutExpired:
        return "did not end"
    finally:
        shutil.rmtree(folder)


def broken(words, name, beside=None):
    with open(name, "rb") as file:
        whole = file.read()
    cut = [whole[:length] for length in range(len(whole))]
    changed = [whole[:at] + bytes([whole[at] ^ 0xFF]) + whole[at + 1 :] for at in range(len(whole))]
    with concurrent.futures.ThreadPoolExecutor(4) as pool:
        answers = list(pool.map(lambda k: run(words, name, (cut + changed)[k], k, beside), range(len(cut) + len(changed))))
    bad = [(k, it) for k, it in enumerate(answers) if it is not True]
    for k, it in bad[:3]:
        print(f"{' '.join(words)}: {name}: {'cut at' if k < len(cut) else 'changed'} {k if k < len(cut) else k - len(cut)}: {it}")
    print(f"{' '.join(words)}: {name}: {len(cut)} cut, {len(changed)} changed, {len(bad)} failed", flush=True)


def main():
    subprocess.run([sys.executable, f"{HERE}/made_elf.py", "1", "made"], check=True)
    text = subprocess.run([program, "dump", "made"], capture_output=True, check=True).stdout
    with open("text", "wb") as file:
        file.write(text)
    at = [line.split()[3] for line in text.decode().splitlines() if line.startswith("STACK CFI INIT ")][-1]
    with open("state", "w") as file:
        file.write(f"REG rip {at}\nREG rsp 7000\nMEM 7000 {at.zfill(16)}0000\n")
    broken(["dump", "made"], "made")
    for words in (["check", "text"], ["names", "text"], ["lookup", "text", at], ["frame", "text", at, "state"], ["walk", "text", "state"], ["judge", "made", "text"]):
        broken(words, "text")
    for words in (["frame", "text", at, "state"], ["walk", "text", "state"]):
        broken(words, "state")
    subprocess.run([sys.executable, f"{HERE}/made_supplements.py", "--link", "lent", "linking", "lent"], check=True)
    broken(["dump", "--full", "linking"], "linking", "lent")
    broken(["dump", "--full", "linking"], "lent", "linking")
    subprocess.run([sys.executable, f"{HERE}/made_cores.py", "--whole", "core", "store"], check=True)
    broken(["stacks", "core", "store"], "core")


main()
