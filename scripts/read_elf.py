"""What readelf shows of an ELF file, for the scripts that derive what the program must answer."""

import os
import re
import subprocess

NO_BYTES = {b"NULL", b"NOBITS"}

# A name is cut after so many bytes.
LONGEST = 65536


class Section:
    def __init__(self, index, name, kind, address, offset, size, flags, link):
        self.index, self.name, self.kind, self.flags, self.link = index, name, kind, flags, link
        self.address, self.offset, self.size = address, offset, size

    def bytes_of(self, data):
        return b"" if self.kind in NO_BYTES else data[self.offset:self.offset + self.size]


def readelf(options, path):
    done = subprocess.run(["readelf", *options, "--", path], stdout=subprocess.PIPE, stderr=subprocess.DEVNULL,
                          env={**os.environ, "LC_ALL": "C"})
    return done.stdout


def read_sections(path):
    line = re.compile(rb"^ *\[ *(\d+)\] (.*?) +(\S+) +([0-9a-f]{16}) ([0-9a-f]+) ([0-9a-f]+) [0-9a-f]+ (.*)$")
    sections = []
    for found in map(line.match, readelf(["-SW"], path).splitlines()):
        if found:
            last = found.group(7).split()
            flags = last[0] if len(last) == 4 else b""
            sections.append(Section(int(found.group(1)), found.group(2), found.group(3), int(found.group(4), 16),
                                    int(found.group(5), 16), int(found.group(6), 16), flags, int(last[-3])))
    return sections


def first_named(sections, name):
    return next((s for s in sections if s.name == name), None)


def bytes_named(sections, name, data):
    section = first_named(sections, name)
    return section.bytes_of(data) if section else b""


def read_base(path):
    found = re.search(rb"^ *LOAD +0x[0-9a-f]+ 0x([0-9a-f]+)", readelf(["-lW"], path), re.M)
    return int(found.group(1), 16) if found else 0


def read_code(sections, base):
    """The addresses of code, a start and an end for each section."""
    return [(s.address, s.address + s.size) for s in sections
            if b"A" in s.flags and b"X" in s.flags and s.size > 0 and s.address >= base and s.address + s.size < 1 << 64]


KEPT = bytes(0x3F if byte < 0x20 or byte == 0x7F else byte for byte in range(256))


def clean(name):
    return name.translate(KEPT).lstrip(b" ")[:LONGEST] or b"<name omitted>"
