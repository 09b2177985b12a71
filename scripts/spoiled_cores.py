#!/usr/bin/env python3
"""Runs `stacks` on spoiled copies of a core file: bytes are changed near its front, where its headers and notes stand, or anywhere, numbers are put
to their limits, and ends are cut off. A run is to end by itself, with status 0, or with status 1 and one line `refused ..`. The same seed draws the
same copies.

  scripts/spoiled_cores.py PROGRAM CORE STORE [COUNT [SEED]]    ends with `cores: N spoiled, R of them refused, F failed, S seconds at most`
"""
import concurrent.futures
import os
import random
import re
import struct
import subprocess
import sys
import tempfile
import time

program, core, store = sys.argv[1:4]
COUNT = int(sys.argv[4]) if len(sys.argv) > 4 else 10_000
SEED = int(sys.argv[5]) if len(sys.argv) > 5 else 1
REFUSED = re.compile(rb"refused (core|input) [^\n]*\n\Z")
LIMITS = [0, 1, 0xFF, 0xFFFF, 1 << 31, (1 << 32) - 1, 1 << 32, 1 << 47, (1 << 63) - 1, 1 << 63, (1 << 64) - 8, (1 << 64) - 1]


def spoiled(whole, draw):
    """A copy with one to four changes."""
    copy = bytearray(whole)
    for _ in range(draw.choice((1, 1, 2, 4))):
        reach = draw.choice((64, 1024, 16384, len(copy)))
        at = draw.randrange(min(reach, len(copy)))
        kind = draw.randrange(4)
        if kind == 0:
            copy[at] = draw.randrange(256)
        elif kind == 1:
            copy[at] ^= 1 << draw.randrange(8)
        elif kind == 2:
            number = struct.pack("<Q", draw.choice(LIMITS))[: draw.choice((2, 4, 8))]
            copy[at : at + len(number)] = number[: len(copy) - at]
        else:
            del copy[at + draw.randrange(len(copy) - at) :]
        if not copy:
            break
    return bytes(copy)


def run(whole, folder, number):
    """Whether a copy was refused, or how it failed; and the seconds."""
    path = os.path.join(folder, str(number))
    with open(path, "wb") as file:
        file.write(spoiled(whole, random.Random(SEED * 1_000_003 + number)))
    begun = time.monotonic()
    try:
        ran = subprocess.run([program, "stacks", path, store], stdin=subprocess.DEVNULL, capture_output=True, timeout=120)
        seconds = time.monotonic() - begun
        if ran.returncode == 0:
            return False, None, seconds
        if ran.returncode == 1 and not ran.stdout and REFUSED.match(ran.stderr):
            return True, None, seconds
        return False, f"copy {number}: status {ran.returncode}, err {ran.stderr[:80]}", seconds
    except subprocess.TimeoutExpired:
        return False, f"copy {number}: did not end", 120
    finally:
        os.remove(path)


def main():
    with open(core, "rb") as file:
        whole = file.read()
    with tempfile.TemporaryDirectory() as folder, concurrent.futures.ThreadPoolExecutor(4) as pool:
        answers = list(pool.map(lambda number: run(whole, folder, number), range(COUNT)))
    bad = [why for _, why, _ in answers if why]
    for why in bad[:10]:
        print(why)
    print(f"cores: {COUNT} spoiled, {sum(refused for refused, _, _ in answers)} of them refused, {len(bad)} failed, {max(s for _, _, s in answers):.2f} seconds at most")


main()
