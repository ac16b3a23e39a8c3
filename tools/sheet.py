#!/usr/bin/env python3
"""Month sheets as text: make a sheet from text, or show a sheet as text.

    python3 tools/sheet.py make < month.txt > month.sheet
    python3 tools/sheet.py show < month.sheet

Both formats are described in docs/SHEET.md. The tables below have every field
of a sheet; text and bytes are read and written by them alone.
"""

import os
import sys
from typing import NamedTuple

USAGE = """usage: sheet.py make < TEXT > SHEET
       sheet.py show < SHEET > TEXT"""


class Kind(NamedTuple):
    """A kind of section. Head and term give the fields by name, with their widths in bytes."""

    number: int
    name: str
    head: dict
    term: dict

    @property
    def item(self):
        """The fields of an item, in the order of the text."""
        return self.head | self.term


KINDS = (
    Kind(1, "enrol", {"plant": 1}, {"class": 1, "price": 4}),
    Kind(2, "enter", {"contract": 4}, {"plant": 1, "rank": 1, "energy": 8, "price": 4}),
    Kind(3, "transfer", {"new": 4, "old": 4}, {"receiver": 1, "energy": 8, "price": 4}),
    Kind(4, "meter", {"plant": 1}, {"metered": 8, "commissioning": 8}),
)
KIND_BY_NAME = {kind.name: kind for kind in KINDS}
KIND_BY_NUMBER = {kind.number: kind for kind in KINDS}

SECTION_COUNT = {"sections": 1}
HEADER_FIGURES = {"month": 1, "residential": 4}
HEADER = SECTION_COUNT | HEADER_FIGURES
SECTION_START = {"kind": 1, "count": 2}

MOST_SECTIONS = 256 ** SECTION_COUNT["sections"] - 1
MOST_ITEMS = 256 ** SECTION_START["count"] - 1


class Wrong(Exception):
    """A text or a sheet that cannot be read; says what is wrong where."""


# Figures as bytes and as words. `fields` is one of the tables above.


def size(fields):
    """How many bytes the fields take."""
    return sum(fields.values())


def pack(fields, figures):
    """The bytes of the fields with these figures."""
    pairs = zip(fields.values(), figures, strict=True)
    return b"".join(figure.to_bytes(width, "little") for width, figure in pairs)


def unpack(fields, data, offset):
    """The figures of the fields that start at the offset. All their bytes are there."""
    figures = []
    for width in fields.values():
        figures.append(int.from_bytes(data[offset : offset + width], "little"))
        offset += width
    return figures


def write_words(fields, figures):
    """Each name with its figure after it, as text."""
    return " ".join(f"{name} {figure}" for name, figure in zip(fields, figures, strict=True))


def read_words(fields, words):
    """The figures of a line of words that has each name with a number after it."""
    figures = []
    rest = iter(words)
    for name, width in fields.items():
        word = next(rest, None)
        if word is None:
            raise Wrong(f"the line ends where '{name}' should stand")
        if word != name:
            raise Wrong(f"'{word}' stands where '{name}' should stand")
        figures.append(read_number(name, width, next(rest, None)))
    for word in rest:
        raise Wrong(f"'{word}' stands after the last figure")
    return figures


def read_number(name, width, word):
    """The decimal number that a word has for a field of this width."""
    if word is None:
        raise Wrong(f"there is no number after '{name}'")
    if not (word.isascii() and word.isdigit()):
        raise Wrong(f"'{word}' after '{name}' is not a decimal number")
    largest = 256**width - 1
    digits = word.lstrip("0") or "0"
    if len(digits) > len(str(largest)) or int(digits) > largest:
        raise Wrong(f"{name} {word} does not fit its field: the largest number is {largest}")
    return int(digits)


# Sheets as bytes.


def header_bytes(sections, month, residential):
    """A header that counts so many sections."""
    return pack(HEADER, (sections, month, residential))


def section_bytes(kind, items):
    """A section. An item is the figures of its head and of its term, in one row."""
    split = len(kind.head)
    start = pack(SECTION_START, (kind.number, len(items)))
    heads = [pack(kind.head, item[:split]) for item in items]
    terms = [pack(kind.term, item[split:]) for item in items]
    return b"".join([start, *heads, *terms])


def make(text):
    """The sheet that a text describes. Raises Wrong with the line."""
    header = None
    sections = []  # a kind and its items, for each section
    number = 0
    for number, line in enumerate(text.split("\n"), start=1):
        words = line.partition("#")[0].split()
        if not words:
            continue
        try:
            if header is None:
                header = read_words(HEADER_FIGURES, words)
            elif words[0] in KIND_BY_NAME:
                begin_section(sections, words)
            else:
                add_item(sections, words)
        except Wrong as wrong:
            raise Wrong(f"line {number}: {wrong}") from None
    if header is None:
        raise Wrong(f"line {number}: the text ends before the header 'month N residential N'")
    bodies = [section_bytes(kind, items) for kind, items in sections]
    return header_bytes(len(sections), *header) + b"".join(bodies)


def begin_section(sections, words):
    """Takes a line with the name of a section."""
    if len(words) > 1:
        raise Wrong(f"'{words[1]}' stands after '{words[0]}', which stands alone")
    if len(sections) == MOST_SECTIONS:
        raise Wrong(f"a sheet has at most {MOST_SECTIONS} sections")
    sections.append((KIND_BY_NAME[words[0]], []))


def add_item(sections, words):
    """Takes a line with an item of the last section."""
    if not sections:
        names = ", ".join(f"'{name}'" for name in KIND_BY_NAME)
        raise Wrong(f"'{words[0]}' stands where a section should begin: one of {names}")
    kind, items = sections[-1]
    if len(items) == MOST_ITEMS:
        raise Wrong(f"the count of a section is at most {MOST_ITEMS}")
    items.append(read_words(kind.item, words))


def show(sheet):
    """Yields the lines of the text of a sheet. Raises Wrong with the offset where it cannot go on."""
    if len(sheet) < size(HEADER):
        raise Wrong(f"offset 0: the header is cut short: {len(sheet)} of {size(HEADER)} bytes")
    sections, *figures = unpack(HEADER, sheet, 0)
    yield write_words(HEADER_FIGURES, figures)
    offset = size(HEADER)
    for place in range(1, sections + 1):
        try:
            kind, count = section_start(sheet, offset)
        except Wrong as wrong:
            raise Wrong(f"offset {offset}: section {place} of {sections}: {wrong}") from None
        yield kind.name
        heads = offset + size(SECTION_START)
        terms = heads + count * size(kind.head)
        for item in range(count):
            head = unpack(kind.head, sheet, heads + item * size(kind.head))
            term = unpack(kind.term, sheet, terms + item * size(kind.term))
            yield "  " + write_words(kind.item, head + term)
        offset = terms + count * size(kind.term)
    if offset < len(sheet):
        raise Wrong(f"offset {offset}: bytes after the last section: {len(sheet) - offset}")


def section_start(sheet, offset):
    """The kind and the count of the section at the offset, if all of its bytes are there."""
    left = len(sheet) - offset
    if left == 0:
        raise Wrong("it is missing")
    if left < size(SECTION_START):
        raise Wrong(f"kind and count are cut short: {left} of {size(SECTION_START)} bytes")
    number, count = unpack(SECTION_START, sheet, offset)
    if number not in KIND_BY_NUMBER:
        raise Wrong(f"kind {number} is unknown")
    kind = KIND_BY_NUMBER[number]
    left -= size(SECTION_START)
    needed = count * size(kind.item)
    if left < needed:
        raise Wrong(f"the items, {count} of kind '{kind.name}', are cut short: {left} of {needed} bytes")
    return kind, count


# The program.


def run_make(data):
    """From the bytes of a text: what to write, and what is wrong."""
    try:
        return make(data.decode("utf-8", "replace")), None
    except Wrong as wrong:
        return b"", wrong


def run_show(data):
    """From the bytes of a sheet: what to write, and what is wrong."""
    text = ""
    try:
        for line in show(data):
            text += line + "\n"
    except Wrong as wrong:
        return text.encode("ascii"), wrong
    return text.encode("ascii"), None


COMMANDS = {"make": run_make, "show": run_show}


def main(arguments):
    """The status of the program."""
    if len(arguments) != 1 or arguments[0] not in COMMANDS:
        print(USAGE, file=sys.stderr)
        return 2
    try:
        output, fault = COMMANDS[arguments[0]](sys.stdin.buffer.read())
        sys.stdout.buffer.write(output)
        sys.stdout.buffer.flush()
    except OSError as error:
        # The reader may have gone: standard output must not be tried again at the exit.
        os.dup2(os.open(os.devnull, os.O_WRONLY), sys.stdout.fileno())
        fault = error
    if fault is not None:
        print(f"sheet.py: {fault}", file=sys.stderr)
        return 1
    return 0


if __name__ == "__main__":
    sys.exit(main(sys.argv[1:]))
