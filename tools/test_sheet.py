#!/usr/bin/env python3
"""Tests of sheet.py: python3 tools/test_sheet.py"""

import random
import subprocess
import sys
import unittest
from pathlib import Path

import sheet

HERE = Path(__file__).resolve().parent
EXAMPLES = HERE.parent / "examples"

# January, as the table in docs/SHEET.md has it: the offset of each row, and its bytes.
JANUARY = (
    (0, "03"),
    (1, "01"),
    (2, "00 00 00 00"),
    (6, "01"),
    (7, "01 00"),
    (9, "01"),
    (10, "01 e0 93 04 00"),
    (15, "02"),
    (16, "02 00"),
    (18, "07 00 00 00"),
    (22, "09 00 00 00"),
    (26, "01 06 3c 00 00 00 00 00 00 00 90 d0 03 00"),
    (40, "01 07 28 00 00 00 00 00 00 00 40 0d 03 00"),
    (54, "04"),
    (55, "01 00"),
    (57, "01"),
    (58, "32 00 00 00 00 00 00 00 00 00 00 00 00 00 00 00"),
    (74, ""),
)
JANUARY_BYTES = b"".join(bytes.fromhex(row) for _, row in JANUARY)

JANUARY_TEXT = """\
month 1 residential 0
enrol
  plant 1 class 1 price 300000
enter
  contract 7 plant 1 rank 6 energy 60 price 250000
  contract 9 plant 1 rank 7 energy 40 price 200000
meter
  plant 1 metered 50 commissioning 0
"""

# Every field at its largest, an empty section, and a kind that comes twice.
WIDEST_TEXT = """\
month 255 residential 4294967295
transfer
  new 4294967295 old 4294967295 receiver 255 energy 18446744073709551615 price 4294967295
meter
enrol
  plant 255 class 255 price 4294967295
  plant 0 class 0 price 0
enter
  contract 4294967295 plant 255 rank 255 energy 18446744073709551615 price 4294967295
meter
  plant 255 metered 18446744073709551615 commissioning 18446744073709551615
"""


def program(*arguments, data=b""):
    """Runs sheet.py: its status, standard output and standard error."""
    done = subprocess.run(
        [sys.executable, "-B", HERE / "sheet.py", *arguments], input=data, capture_output=True, check=False
    )
    return done.returncode, done.stdout, done.stderr.decode()


def shown(data):
    """The text of a sheet that can be read to its end."""
    return "".join(line + "\n" for line in sheet.show(data))


class January(unittest.TestCase):
    def test_table(self):
        made = sheet.make(JANUARY_TEXT)
        ends = [offset for offset, _ in JANUARY[1:]] + [len(made)]
        for (offset, row), end in zip(JANUARY, ends, strict=True):
            self.assertEqual(made[offset:end].hex(" "), row, f"at offset {offset}")
        self.assertEqual(len(made), 74)

    def test_example_file(self):
        data = (EXAMPLES / "january.txt").read_bytes()
        self.assertEqual(program("make", data=data), (0, JANUARY_BYTES, ""))

    def test_shown(self):
        self.assertEqual(program("show", data=JANUARY_BYTES), (0, JANUARY_TEXT.encode(), ""))


class RoundTrip(unittest.TestCase):
    def test_text(self):
        for text in (JANUARY_TEXT, WIDEST_TEXT, "month 0 residential 0\n"):
            self.assertEqual(shown(sheet.make(text)), text)

    def test_example_files(self):
        for path in sorted(EXAMPLES.glob("*.txt")):
            made = sheet.make(path.read_text())
            self.assertEqual(sheet.make(shown(made)), made, path.name)

    def test_bytes(self):
        # Any bytes at all in the fields come back, whatever a book would say to them.
        source = random.Random(1)
        for _ in range(200):
            data = bytearray([source.randrange(4)]) + source.randbytes(5)
            for _ in range(data[0]):
                kind = source.choice(sheet.KINDS)
                count = source.randrange(4)
                data += bytes([kind.number, count, 0]) + source.randbytes(count * sheet.size(kind.item))
            self.assertEqual(sheet.make(shown(bytes(data))), data)

    def test_more_items_than_a_sheet_may_have(self):
        text = "month 1 residential 0\nenrol\n" + "  plant 1 class 1 price 1\n" * 257
        self.assertEqual(shown(sheet.make(text)), text)


class Layout(unittest.TestCase):
    def test_comments_blanks_and_zeros(self):
        text = """
            # a comment
            month 001 residential 0# another
            \tenrol\t # the section
            plant 1\tclass   1 price 300000\r

            enter
            contract 7 plant 1 rank 6 energy 60 price 250000
            contract 9 plant 1 rank 7 energy 40 price 000000000000000000000000200000
            meter
            plant 1 metered 50 commissioning 0"""
        self.assertEqual(sheet.make(text), JANUARY_BYTES)

    def test_comment_of_any_bytes(self):
        self.assertEqual(program("make", data=b"month 1 residential 0 # \xff\xfe"), (0, b"\0\1\0\0\0\0", ""))


class MakeRefuses(unittest.TestCase):
    def refuses(self, text, message):
        status, output, error = program("make", data=text.encode())
        self.assertEqual((status, output, error), (1, b"", f"sheet.py: {message}\n"))

    def in_section(self, name, item):
        return f"month 1 residential 0\n{name}\n\n{item}\n"

    def test_no_header(self):
        self.refuses("", "line 1: the text ends before the header 'month N residential N'")
        self.refuses("# one\n# two", "line 2: the text ends before the header 'month N residential N'")
        self.refuses("\nenrol\n", "line 2: 'enrol' stands where 'month' should stand")

    def test_header(self):
        self.refuses("month 1 price 0", "line 1: 'price' stands where 'residential' should stand")
        self.refuses("month 256 residential 0", "line 1: month 256 does not fit its field: the largest number is 255")
        self.refuses(
            "month 1 residential 4294967296",
            "line 1: residential 4294967296 does not fit its field: the largest number is 4294967295",
        )

    def test_no_section(self):
        self.refuses(
            "month 1 residential 0\n  plant 1 class 1 price 1",
            "line 2: 'plant' stands where a section should begin: one of 'enrol', 'enter', 'transfer', 'meter'",
        )

    def test_section_with_more_words(self):
        self.refuses("month 1 residential 0\nenrol 2", "line 2: '2' stands after 'enrol', which stands alone")

    def test_wrong_name(self):
        self.refuses(self.in_section("enrol", "plant 1 rank 1"), "line 4: 'rank' stands where 'class' should stand")
        self.refuses(self.in_section("enter", "plant 1"), "line 4: 'plant' stands where 'contract' should stand")

    def test_line_ends(self):
        self.refuses(self.in_section("enrol", "plant 1 class 1"), "line 4: the line ends where 'price' should stand")
        self.refuses(self.in_section("enrol", "plant 1 class"), "line 4: there is no number after 'class'")

    def test_line_goes_on(self):
        item = "plant 1 metered 5 commissioning 0 kWh"
        self.refuses(self.in_section("meter", item), "line 4: 'kWh' stands after the last figure")

    def test_not_a_number(self):
        for word in ("-1", "+1", "1.0", "1,000", "0x10", "1_000", "ten", "1e3"):
            item = f"plant {word} class 1 price 1"
            self.refuses(self.in_section("enrol", item), f"line 4: '{word}' after 'plant' is not a decimal number")
        with self.assertRaisesRegex(sheet.Wrong, "line 1: '٣' after 'month' is not a decimal number"):
            sheet.make("month ٣ residential 0")

    def test_too_large_in_every_field(self):
        for kind in sheet.KINDS:
            for name, width in kind.item.items():
                largest = 256**width - 1
                for number in (largest + 1, 10**5000):
                    figures = [number if other == name else 0 for other in kind.item]
                    # As words, so that a number of any length can be written.
                    digits = ["1" + "0" * 5000 if figure == 10**5000 else str(figure) for figure in figures]
                    item = sheet.write_words(kind.item, digits)
                    with self.assertRaisesRegex(
                        sheet.Wrong, f"^line 4: {name} [0-9]+ does not fit its field: the largest number is {largest}$"
                    ):
                        sheet.make(self.in_section(kind.name, item))

    def test_too_many_sections(self):
        text = "month 1 residential 0\n" + "meter\n" * 255
        self.assertEqual(len(sheet.make(text)), 6 + 255 * 3)
        self.refuses(text + "meter\n", "line 257: a sheet has at most 255 sections")

    def test_too_many_items(self):
        text = "month 1 residential 0\nenrol\n" + "plant 1 class 1 price 1\n" * 65535
        self.assertEqual(len(sheet.make(text)), 6 + 3 + 65535 * 6)
        self.refuses(text + "plant 1 class 1 price 1", "line 65538: the count of a section is at most 65535")


class ShowRefuses(unittest.TestCase):
    def refuses(self, data, text, message):
        status, output, error = program("show", data=data)
        self.assertEqual((status, output.decode(), error), (1, text, f"sheet.py: {message}\n"))

    def test_header_cut(self):
        for length in range(6):
            self.refuses(
                JANUARY_BYTES[:length], "", f"offset 0: the header is cut short: {length} of 6 bytes"
            )

    def test_section_cut(self):
        header = "month 1 residential 0\n"
        first = header + "enrol\n  plant 1 class 1 price 300000\n"
        self.refuses(JANUARY_BYTES[:6], header, "offset 6: section 1 of 3: it is missing")
        self.refuses(JANUARY_BYTES[:15], first, "offset 15: section 2 of 3: it is missing")
        for length in (1, 2):
            self.refuses(
                JANUARY_BYTES[: 15 + length],
                first,
                f"offset 15: section 2 of 3: kind and count are cut short: {length} of 3 bytes",
            )
        for length in (0, 1, 8, 22, 35):
            self.refuses(
                JANUARY_BYTES[: 18 + length],
                first,
                f"offset 15: section 2 of 3: the items, 2 of kind 'enter', are cut short: {length} of 36 bytes",
            )

    def test_unknown_kind(self):
        for kind in (0, 5, 255):
            data = bytearray(JANUARY_BYTES)
            data[54] = kind
            text = "".join(JANUARY_TEXT.splitlines(keepends=True)[:-2])
            self.refuses(bytes(data), text, f"offset 54: section 3 of 3: kind {kind} is unknown")

    def test_left_over(self):
        self.refuses(JANUARY_BYTES + b"\0", JANUARY_TEXT, "offset 74: bytes after the last section: 1")
        self.refuses(JANUARY_BYTES * 2, JANUARY_TEXT, "offset 74: bytes after the last section: 74")
        self.refuses(bytes(9), "month 0 residential 0\n", "offset 6: bytes after the last section: 3")


class Usage(unittest.TestCase):
    def test_usage(self):
        for arguments in ((), ("help",), ("make", "show"), ("show", "january.sheet"), ("",)):
            self.assertEqual(program(*arguments, data=JANUARY_BYTES), (2, b"", sheet.USAGE + "\n"))


if __name__ == "__main__":
    unittest.main()
