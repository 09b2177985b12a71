#!/usr/bin/env python3
"""Runs `dump --full` on files whose compressed sections hold streams of zlib, whole and spoiled, and compares with what python's zlib makes of them.

A whole section is one stream or several, by a level and a strategy that are drawn, by the flag or by the older name; its dump is that of the file
that was not compressed. A spoiled one has a bit or a byte changed, is cut, has bytes taken out or put in, or says another size; zlib says, stream by
stream, whether it is bad and else which bytes it gives. The same seed draws the same files.

  scripts/spoiled_streams.py PROGRAM [COUNT [SEED]]    in an empty folder; ends with `streams: N whole, M spoiled, B of them bad, F failed`
"""
import concurrent.futures
import os
import random
import struct
import subprocess
import sys
import zlib

HERE = os.path.dirname(os.path.abspath(__file__))
program = sys.argv[1]
COUNT = int(sys.argv[2]) if len(sys.argv) > 2 else 10_000
SEED = int(sys.argv[3]) if len(sys.argv) > 3 else 1
HEADER = 64
STRATEGIES = (zlib.Z_DEFAULT_STRATEGY, zlib.Z_FILTERED, zlib.Z_HUFFMAN_ONLY, zlib.Z_RLE, zlib.Z_FIXED)


def inflated(data, size):
    """What streams, one behind the other, give until they have given `size` bytes; None where one is bad."""
    if not data and size == 0:
        return b""
    out = b""
    while True:
        stream = zlib.decompressobj()
        try:
            while not stream.eof:
                part = stream.decompress(data, size - len(out) + 1)
                data = stream.unused_data if stream.eof else stream.unconsumed_tail
                out += part
                if len(out) > size or (not stream.eof and not part and not data):
                    return None
        except zlib.error:
            return None
        if len(out) == size:
            return out


class File:
    """An ELF file, with the headers of its sections of debugging information by their names."""

    def __init__(self, bytes_):
        self.bytes = bytes_
        table, = struct.unpack_from("<Q", bytes_, 40)
        count, names = struct.unpack_from("<HH", bytes_, 60)
        self.headers = [table + HEADER * k for k in range(count)]
        self.names_at = struct.unpack_from("<Q", bytes_, self.headers[names] + 24)[0]
        self.debug = {name: at for at in self.headers if (name := self.name(at)).startswith(b".debug_")}

    def name(self, at):
        begin = self.names_at + struct.unpack_from("<I", self.bytes, at)[0]
        return self.bytes[begin : self.bytes.index(0, begin)]

    def content(self, at):
        offset, size = struct.unpack_from("<QQ", self.bytes, at + 24)
        return self.bytes[offset : offset + size]

    def number(self, name):
        return self.headers.index(self.debug[name])

    def with_sections(self, held):
        """The file whose sections have these contents and flags, behind the old ones."""
        made = bytearray(self.bytes)
        for name, (content, flags) in held.items():
            at = self.debug[name]
            struct.pack_into("<Q", made, at + 8, flags)
            struct.pack_into("<QQ", made, at + 24, len(made), len(content))
            made += content
        return bytes(made)


def stream_of(draw, data):
    packer = zlib.compressobj(draw.randrange(10), zlib.DEFLATED, draw.choice((15, 15, 15, 9, 12)), draw.randrange(1, 10), draw.choice(STRATEGIES))
    made = b""
    while data and draw.random() < 0.5:
        cut = draw.randrange(len(data) + 1)
        made += packer.compress(data[:cut]) + packer.flush(draw.choice((zlib.Z_SYNC_FLUSH, zlib.Z_FULL_FLUSH)))
        data = data[cut:]
    return made + packer.compress(data) + packer.flush()


def compressed(draw, data):
    """Streams that give the data, one behind the other."""
    made = b""
    while data and draw.random() < 0.2:
        cut = draw.randrange(1, len(data) + 1)
        made += stream_of(draw, data[:cut])
        data = data[cut:]
    return made + stream_of(draw, data) if data or not made else made


def spoiled(draw, stream, size):
    """The stream or its size changed; the first byte, which says how far back a copy may reach, stays."""
    at = draw.randrange(1, len(stream))
    way = draw.randrange(6)
    if way == 0:
        return stream[:at] + bytes([stream[at] ^ 1 << draw.randrange(8)]) + stream[at + 1 :], size
    if way == 1:
        return stream[:at] + bytes([draw.randrange(256)]) + stream[at + 1 :], size
    if way == 2:
        return stream[:at], size
    if way == 3:
        return stream[:at] + draw.randbytes(draw.randrange(1, 4)) + stream[at:], size
    if way == 4:
        return stream[:at] + stream[at + draw.randrange(1, 4) :], size
    return stream, max(0, size + draw.choice((-1, 1, -2, 256, -256)))


def run(words, bytes_, number):
    os.makedirs(f"f{number}", exist_ok=True)
    with open(f"f{number}/a.out", "wb") as file:
        file.write(bytes_)
    try:
        ran = subprocess.run([program, "dump", *words, f"f{number}/a.out"], stdin=subprocess.DEVNULL, capture_output=True, timeout=60)
        return ran.returncode, ran.stdout, ran.stderr
    finally:
        os.remove(f"f{number}/a.out")
        os.rmdir(f"f{number}")


def one(plain, number):
    """One file: whether it was spoiled, whether that was bad, and what went wrong."""
    draw = random.Random(SEED * 1_000_003 + number)
    names = draw.sample(sorted(plain.debug), draw.randrange(1, 4))
    is_spoiled = draw.random() < 0.8
    packed, bare, bad = {}, {}, []
    for name in names:
        data = plain.content(plain.debug[name])
        stream, size = compressed(draw, data), len(data)
        if is_spoiled and name == names[0]:
            stream, size = spoiled(draw, stream, size)
        given = inflated(stream, size)
        if given is None:
            bad.append(plain.number(name))
        packed[name] = struct.pack("<IIQQ", 1, 0, size, 1) + stream, 0x800
        bare[name] = given or b"", 0
    found = run(["--full"], plain.with_sections(packed), number)
    wanted = (1, b"", b"refused elf inflate %d\n" % min(bad)) if bad else run([], plain.with_sections(bare), number)
    return is_spoiled, bool(bad), None if found == wanted else (names, wanted[0], wanted[2][:80], found[0], found[2][:80])


def main():
    subprocess.run([sys.executable, f"{HERE}/made_elf.py", "6", "made"], check=True)
    with open("made", "rb") as file:
        plain = File(file.read())
    with concurrent.futures.ThreadPoolExecutor(4) as pool:
        answers = list(pool.map(lambda number: one(plain, number), range(COUNT)))
    wrong = [(k, it[2]) for k, it in enumerate(answers) if it[2]]
    for k, it in wrong[:5]:
        print(f"file {k} of seed {SEED}: {it}")
    many = sum(it[0] for it in answers)
    print(f"streams: {COUNT - many} whole, {many} spoiled, {sum(it[1] for it in answers)} of them bad, {len(wrong)} failed")


main()
