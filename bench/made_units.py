"""ELF files with one unit of DWARF 5 that are made by hand, and what a dump of them takes; for bench/owners and bench/copies."""

import os
import resource
import struct
import subprocess
import tempfile

CODE = 0x1000
NAMES = (".debug_info", ".debug_abbrev", ".debug_str", ".debug_line", ".debug_rnglists")
NOTE = struct.pack("<III", 4, 20, 3) + b"GNU\0" + bytes(range(20))
# Behind the length of .debug_rnglists stand so many bytes before its first list.
LISTS = 12


def header(kind, flags, address, offset, size, link=0, name=0):
    return struct.pack("<IIQQQQIIQQ", name, kind, flags, address, offset, size, link, 0, 1, 0)


def abbreviations(*all_of_them):
    """The table of abbreviations: code, tag, whether there are children, and pairs of attribute and form."""
    return b"".join(bytes([code, tag, children]) + bytes(pairs) + b"\0\0" for code, tag, children, *pairs in all_of_them) + b"\0"


# The root has a name, a line table and the address of the first byte of code.
ROOT = (1, 0x11, 1, 0x03, 0x08, 0x10, 0x17, 0x11, 0x01)
# The entries behind the root begin at this place of the unit.
FIRST = 12 + 1 + 4 + 4 + 8


def span_list(spans):
    """A list of ranges."""
    return b"".join(b"\x07" + struct.pack("<Q", CODE + start) + leb(end - start) for start, end in spans) + b"\0"


def leb(number):
    out = b""
    while number > 127:
        out += bytes([number & 127 | 128])
        number >>= 7
    return out + bytes([number])


def write(path, abbrevs, entries, strings, rows=0, lists=b"", files=(b"a.c",)):
    """An ELF file of one unit whose entries behind the root are these bytes, with a line table of this many rows, one for each address."""
    program = b"\0\x09\x02" + struct.pack("<Q", CODE) + b"\x21" * rows + b"\x02\x01\0\x01\x01"
    opcodes = bytes([0, 1, 1, 1, 1, 0, 0, 0, 1, 0, 0, 1])
    head = struct.pack("<BBBbBB", 1, 1, 1, -5, 14, 13) + opcodes + b"\0" + b"".join(file + b"\0\0\0\0" for file in files) + b"\0"
    line = struct.pack("<HI", 4, len(head)) + head + program
    info = struct.pack("<HBBI", 5, 1, 8, 0) + b"\x01" + b"a.c\0" + struct.pack("<IQ", 0, CODE) + entries + b"\0"
    ranges = struct.pack("<HBBI", 5, 8, 0, 0) + lists
    parts = [struct.pack("<I", len(info)) + info, abbrevs, strings, struct.pack("<I", len(line)) + line, struct.pack("<I", len(ranges)) + ranges]
    names = b"\0" + b"".join(name.encode() + b"\0" for name in NAMES)
    with open(path, "wb") as file:
        file.write(b"\0" * 64)
        places = []
        for part in [names, NOTE, *parts]:
            places.append((file.tell(), len(part)))
            file.write(part)
        headers = [header(0, 0, 0, 0, 0), header(3, 0, 0, *places[0]), header(1, 6, CODE, 64, 1 << 32), header(7, 0, 0, *places[1])]
        headers += [header(1, 0, 0, *place, name=names.index(name.encode() + b"\0")) for name, place in zip(NAMES, places[2:])]
        file.write(b"\0" * (-file.tell() % 8))
        table = file.tell()
        for one in headers:
            file.write(one)
        file.seek(0)
        file.write(b"\x7fELF\x02\x01\x01" + b"\0" * 9 + struct.pack("<HHIQQQIHHHHHH", 3, 62, 1, 0, 0, table, 0, 64, 56, 0, 64, len(headers), 1))


def measured(program, cases, count, keyword):
    """Prints what a dump with one worker takes of each case (label and maker of a file of a size), at half of its size and at its size.

    Processor seconds are the least of three runs. Where PEER names a dumper over gimli and object, its seconds stand beside, in 2 GiB of
    address space at most.
    """
    peer = os.environ.get("PEER")
    with tempfile.TemporaryDirectory() as folder:
        path, text = os.path.join(folder, "file"), os.path.join(folder, "text")
        for label, make in cases:
            times, peaks, sizes = [], [], []
            for scale in (1, 2):
                # Made in a process of its own, so that its memory is not taken for the program's.
                maker = os.fork()
                if maker == 0:
                    make(path, count * scale)
                    os._exit(0)
                os.waitpid(maker, 0)
                least = []
                for _ in range(3):
                    with open(text, "wb") as out:
                        child = subprocess.Popen([program, "dump", path, "--workers", "1"], stdout=out, stderr=subprocess.DEVNULL)
                        _, status, usage = os.wait4(child.pid, 0)
                    least.append(usage.ru_utime + usage.ru_stime)
                times.append(min(least))
                peaks.append(usage.ru_maxrss / 1024)
                sizes.append(os.path.getsize(text) / 1e6)
            records = subprocess.run(["grep", "-c", "^%s " % keyword, text], capture_output=True, text=True).stdout.strip()
            beside = ""
            if peer:
                child = subprocess.Popen([peer, path, "/dev/null"], stderr=subprocess.DEVNULL, preexec_fn=lambda: resource.setrlimit(resource.RLIMIT_AS, (2 << 30, 2 << 30)))
                _, ended, usage = os.wait4(child.pid, 0)
                beside = f"; peer {usage.ru_utime + usage.ru_stime:.2f} s" if ended == 0 else "; the peer failed in 2 GiB"
            print(f"{label}: {times[1]:.2f} s, ratio {times[1] / max(times[0], 0.01):.1f}; {peaks[1]:.0f} MB, ratio {peaks[1] / peaks[0]:.1f}; "
                  f"file of {os.path.getsize(path) / 1e6:.1f} MB, text of {sizes[1]:.1f} MB, ratio {sizes[1] / max(sizes[0], 1e-6):.1f}, {records} {keyword}, "
                  f"status {os.waitstatus_to_exitcode(status)}{beside}", flush=True)
