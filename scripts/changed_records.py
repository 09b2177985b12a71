#!/usr/bin/env python3
"""changed_records.py TEXT FOLDER: writes symbol files that differ from TEXT, a dumped one, by one record each, and what `judge` has to answer.

For each kind of record FOLDER gets KIND.sym and KIND.want: `yes`, or `no`, the least address at which the change shows, and what differs there.
What is foretold rests on what a dumped text is: its FUNC records do not meet, nor do its INITs, its line records under one FUNC, or its INLINE
records of one level under one FUNC."""

import os
import sys


def number(text):
    return int(text, 16)


class Text:
    """The lines of a text, and where each record of a kind stands."""

    def __init__(self, path):
        with open(path, "rb") as file:
            self.lines = file.read().decode("latin-1").split("\n")[:-1]
        self.words = [line.split(" ") for line in self.lines]

    def kind(self, place):
        words = self.words[place]
        if words[:3] == ["STACK", "CFI", "INIT"]:
            return "INIT"
        if words[:2] == ["STACK", "CFI"]:
            return "CFI"
        return words[0] if words[0].isupper() and words[0].isalpha() or words[0] == "INLINE_ORIGIN" else "LINE"

    def places(self, kind):
        return [place for place in range(len(self.lines)) if self.kind(place) == kind]

    def middle(self, kind, test=lambda words: True):
        places = [place for place in self.places(kind) if test(self.words[place])]
        return places[len(places) // 2] if places else None


def is_line(words):
    """A line record whose address is written in letters alone is no keyword."""
    return len(words) == 4


def ranges(words):
    """The addresses of an INLINE."""
    return [number(words[k]) for k in range(5, len(words), 2)]


def used(text, test_inline, test_line):
    """The least address at which a record shows that others name by a number, and what differs there."""
    found = [(address, "chain") for place in text.places("INLINE") if test_inline(text.words[place]) for address in ranges(text.words[place])]
    found += [(number(text.words[place][0]), "line") for place in text.places("LINE") if test_line(text.words[place])]
    return min(found, default=None)


def renumbered(kind, words):
    """The record with other numbers of FILE records."""
    at = {"FILE": 1, "LINE": 3, "INLINE": 3}.get(kind)
    return " ".join(words[:at] + [str(int(words[at]) + 7)] + words[at + 1 :]) if at else " ".join(words)


def changes(text):
    """Pairs of a name, the changed lines and the answer."""
    lines = text.lines

    def with_line(place, line):
        return lines[:place] + [line] + lines[place + 1 :]

    def no(address, part):
        return "no %x %s" % (address, part)

    place = text.middle("MODULE")
    yield "module", with_line(place, "MODULE Linux x86_64 0 other"), "yes"
    place = text.middle("INFO")
    if place is not None:
        yield "info", lines[:place] + lines[place + 1 :], "yes"
    place = text.middle("PUBLIC")
    if place is not None:
        yield "public", lines[:place] + lines[place + 1 :], "yes"

    place = text.middle("FUNC", lambda words: words[1] != "m" and number(words[2]) > 1)
    if place is not None:
        words = text.words[place]
        address, size = number(words[1]), number(words[2])
        yield "func-name", with_line(place, lines[place] + "x"), no(address, "func")
        yield "func-params", with_line(place, " ".join(words[:3] + ["8"] + words[4:])), "yes"
        yield "func-size", with_line(place, " ".join(words[:2] + ["%x" % (size - 1)] + words[3:])), no(address + size - 1, "func")
        yield "func-mark", with_line(place, " ".join(["FUNC", "m"] + words[1:])), "yes"

    place = text.middle("INLINE")
    if place is not None:
        words = text.words[place]
        yield "inline-line", with_line(place, " ".join(words[:2] + [str(int(words[2]) + 1)] + words[3:])), no(min(ranges(words)), "chain")
        yield "inline", lines[:place] + lines[place + 1 :], no(min(ranges(words)), "chain")
    place = text.middle("INLINE_ORIGIN")
    if place is not None:
        own = text.words[place][1]
        shown = used(text, lambda words: words[4] == own, lambda words: False)
        yield "origin", with_line(place, lines[place] + "x"), no(*shown) if shown else "yes"
        other = [(" ".join(words[:1] + [str(int(words[1]) + 9)] + words[2:]) if words[0] == "INLINE_ORIGIN" else " ".join(words[:4] + [str(int(words[4]) + 9)] + words[5:]) if words[0] == "INLINE" else line) for line, words in zip(lines, text.words)]
        yield "origin-numbers", other, "yes"

    place = text.middle("FILE")
    if place is not None:
        own = text.words[place][1]
        shown = used(text, lambda words: words[3] == own, lambda words: words[3] == own)
        yield "file", with_line(place, lines[place] + "x"), no(*shown) if shown else "yes"
        other = [renumbered(text.kind(place), words) for place, words in enumerate(text.words)]
        yield "file-numbers", other, "yes"
        yield "file-numbers-twice", other + ["FILE %d /other" % (int(own) + 7)], "yes"

    place = text.middle("LINE", is_line)
    if place is not None:
        words = text.words[place]
        yield "line", with_line(place, " ".join(words[:2] + [str(int(words[2]) + 1)] + words[3:])), no(number(words[0]), "line")
        yield "line-gone", lines[:place] + lines[place + 1 :], no(number(words[0]), "line")

    place = text.middle("INIT", lambda words: ".ra:" in words and number(words[4]) > 1)
    if place is not None:
        words = text.words[place]
        address, size = number(words[3]), number(words[4])
        end = next((k for k in range(place + 1, len(lines)) if text.kind(k) != "CFI"), len(lines))
        yield "init", lines[:place] + lines[end:], no(address, "init")
        yield "init-size", with_line(place, " ".join(words[:4] + ["%x" % (size - 1)] + words[5:])), no(address + size - 1, "init")
        yield "init-ra", with_line(place, lines[place] + " .ra: .cfa 99 - ^"), no(address, "ra")
        yield "init-cfa", with_line(place, lines[place] + " .cfa: $r15 99 -"), no(address, "cfa")
        yield "init-words", with_line(place, lines[place].replace("$rsp 8 +", "8 $rsp +").replace(".cfa -8 + ^", ".cfa 8 - ^")), "yes"
        yield "init-again", lines[:place] + [lines[place]] + lines[place:], "yes" if end == place + 1 else None
    place = text.middle("CFI", lambda words: "$rbp:" not in words)
    if place is not None:
        address = number(text.words[place][2])
        yield "change", with_line(place, lines[place] + " $r12: .cfa 99 - ^"), no(address, "r12")
        yield "change-cfa", with_line(place, lines[place] + " .cfa: $r15 99 -"), no(address, "cfa")


def turned(text):
    """The same records in another order: FUNCs backwards, line records before INLINE records and these by falling depth, names at the end."""
    blocks, front, names, frames = [], [], [], []
    for place, line in enumerate(text.lines):
        kind = text.kind(place)
        if kind == "FUNC":
            blocks.append([line])
        elif kind in ("INLINE", "LINE"):
            blocks[-1].append(line)
        elif kind in ("FILE", "INLINE_ORIGIN"):
            names.append(line)
        elif kind == "INIT":
            frames.append([line])
        elif kind == "CFI":
            frames[-1].append(line)
        else:
            front.append(line)
    lines = front + [line for block in reversed(frames) for line in block]
    for block in reversed(blocks):
        inlined = [line for line in block[1:] if line.startswith("INLINE ")]
        lines += block[:1] + [line for line in block[1:] if not line.startswith("INLINE ")] + sorted(inlined, key=lambda line: -int(line.split(" ")[1]))
    return lines + names


def main():
    text = Text(sys.argv[1])
    made = list(changes(text)) + [("turned", turned(text), "yes"), ("same", text.lines, "yes")]
    for name, lines, answer in made:
        if answer is None:
            continue
        with open(os.path.join(sys.argv[2], name + ".sym"), "wb") as file:
            file.write("".join(line + "\n" for line in lines).encode("latin-1"))
        with open(os.path.join(sys.argv[2], name + ".want"), "w") as file:
            file.write(answer + "\n")


main()
