"""The worked examples of docs/, and months worked by hand, against book.py."""

import subprocess
import sys
import unittest
from pathlib import Path

import book

PROGRAM = Path(__file__).with_name("book.py")

# The documents' example: January, one hydro plant, two contracts, 50 kWh.
JANUARY = [
    "book equal-ratio",
    "open 1 0 equal-ratio",
    "enrol 1 1 300000",
    "enter 7 1 6 60 250000",
    "enter 9 1 7 40 200000",
    "meter 1 50 0",
]


def ask(*lines):
    return book.answers("\n".join(lines))


class BookTest(unittest.TestCase):
    def check(self, before, *asked):
        """Each of the pairs is a line and its answer; the lines before are only made."""
        told = ask(*before, *(line for line, _ in asked))[len(before):]
        self.assertEqual(list(zip([line for line, _ in asked], told)), list(asked))


class Sharing(BookTest):
    def test_equal_ratio(self):
        self.check(
            [],
            ("share equal-ratio 1 1 1", "parts 0 1"),
            ("share equal-ratio 7 5 3 2", "parts 3 2 2"),
            ("share equal-ratio 2 1 1 1", "parts 0 1 1"),
            ("share equal-ratio 10 1 0 2", "parts 3 0 7"),
            ("share equal-ratio 0 0 0", "parts 0 0"),
            ("share equal-ratio 0", "parts"),
        )

    def test_in_order(self):
        self.check(
            [],
            ("share in-order 1 1 1", "parts 1 0"),
            ("share in-order 9 4 2 0", "parts 4 5 0"),
            ("share in-order 0", "parts"),
            ("share in-order 0 0 0", "parts 0 0"),
        )

    def test_refusals(self):
        for rule in book.RULES:
            share = f"share {rule} "
            self.check(
                [],
                (share + "0" + " 0" * 256, "parts" + " 0" * 256),
                (share + "0" + " 0" * 257, "declined 21"),
                (share + "1" + " 0" * 257, "declined 21"),
                (share + "1", "declined 22"),
                (share + "9223372036854775807 0 0", "declined 22"),
                (share + "0 300000000000", "parts 0"),
                (share + "0 300000000001", "declined 23"),
                (share + "9000000000 1000000000", "parts 9000000000"),
                (share + "9000000000000000000 1", "parts 9000000000000000000"),
                (share + "9000000000000000001 1", "declined 23"),
                (share + "9000000000000000000 1 1", "declined 23"),
            )

    def test_divide(self):
        self.check(
            [],
            ("divide 50 0 0 0 0 0 60 40", "parts 0 0 0 0 0 50 0 0 50"),
            ("divide 10 1 1 1 1 1 1 1", "parts 1 1 1 1 1 1 1 3 0"),
            ("divide 3000000000" + " 3000000000" * 7,
             "parts 3000000000 0 0 0 0 0 0 0 18000000000"),
            ("divide 3000000001" + " 0" * 7, "declined 1"),
            ("divide 0 0 0 0 0 0 0 3000000001", "declined 1"),
            ("divide 3000000001" + " 0" * 6, "declined 11"),
            ("divide 0" + " 0" * 8, "declined 11"),
            ("divide 0", "declined 11"),
        )


class Settling(BookTest):
    def test_example(self):
        self.check(
            JANUARY,
            ("settle 1 2 2", "settled 0 0 0 50 4800 252488000 50 1250000000 0 0"),
            ("issue 1", "paid 252"),
        )

    def test_hydro_over_and_short(self):
        energies = {1: 300_000, 2: 700_000, 4: 1_000_000, 5: 500_000, 6: 2_000_000, 7: 1_200_000}
        contracts = [f"enter {rank} 1 {rank} {energy} 0" for rank, energy in energies.items()]
        full = " ".join(f"{energy} 0" for energy in energies.values())
        short = full.replace("1200000", "500000")
        # At prices of 0 the net is the assessment alone: over-generation is
        # paid nothing in the wet season.
        self.check(
            ["book equal-ratio", "open 7 0 equal-ratio", "enrol 1 1 0", *contracts],
            ("meter 1 6500000 0", "done"),
            ("settle 1 6 6", f"settled 0 800000 800000 0 68600000 -1740519200000 {full}"),
        )
        self.check(
            ["book equal-ratio", "open 1 0 equal-ratio", "enrol 1 1 0", *contracts],
            ("meter 1 5000000 0", "done"),
            ("settle 1 6 6", f"settled 0 0 0 700000 58600000 -12177959000000 {short}"),
        )

    def test_commissioning_stands_in_for_priority(self):
        # Level: all at the approved price 0, over by 100,000: 8,200,000 × 25,372 assessed.
        self.check(
            ["book equal-ratio", "open 5 0 equal-ratio", "enrol 1 4 0",
             "enter 1 1 6 400000 0", "enter 2 1 7 500000 0", "meter 1 1000000 550000"],
            ("settle 1 2 2", "settled 550000 0 100000 0 8200000 -208050400000 0 0 450000 0"),
        )

    def test_free_deviation(self):
        # Two in a hundred of 100 kWh are free: 98 cost nothing, 97 cost 100 hundredths.
        self.check(
            ["book equal-ratio", "enrol 1 2 0", "enter 1 1 7 100 0"],
            ("meter 1 98 0", "done"),
            ("settle 1 1 1", "settled 0 0 0 2 0 0 98 0"),
            ("meter 1 97 0", "done"),
            ("settle 1 1 1", "settled 0 0 0 3 100 -20781500 97 0"),
        )

    def test_rule_shares_within_a_rank(self):
        # Coal in July, 1 of 2 kWh: A = 100 − 4 = 96, at 126,859 that is 12,178,464.
        lines = ["enrol 1 2 0", "enter 4 1 7 1 100", "enter 5 1 7 1 200", "meter 1 1 0"]
        self.check(
            ["book in-order", "open 7 0 equal-ratio", *lines],
            ("settle 1 2 2", "settled 0 0 0 1 96 -12158464 0 0 1 20000"),
        )
        self.check(
            ["book equal-ratio", "open 7 0 in-order", *lines],
            ("settle 1 2 2", "settled 0 0 0 1 96 -12168464 1 10000 0 0"),
        )

    def test_places(self):
        self.check(
            JANUARY,
            ("settle 1 1 2", "declined 11"),
            ("settle 1 2 3", "declined 11"),
            ("settle 1 0 0", "declined 11"),
        )


class Paying(BookTest):
    def test_payment_rounds_down(self):
        self.assertEqual(book.pay(252_488_000, 0), (252, 488_000))
        self.assertEqual(book.pay(-1, 0), (-1, 999_999))

    def test_compensation(self):
        # Each kWh over is paid 22,859,700 grains in January. Equal ratio takes
        # 3, 0 and 7 of the 10 fen, in order takes 1, 0 and 9.
        lines = ["enrol 1 1 0", "enrol 2 1 0", "enrol 3 1 0",
                 "meter 1 1 0", "meter 2 0 0", "meter 3 2 0", "compensate 2 10"]
        nets = {"equal-ratio": (19_859_700, 38_719_400), "in-order": (21_859_700, 36_719_400)}
        for rule, (first, third) in nets.items():
            self.check(
                [f"book {rule}", *lines],
                ("settle 1 0 0", f"settled 0 1 1 0 100 {first}"),
                ("settle 2 0 0", "settled 0 0 0 0 0 10000000"),
                ("settle 3 0 0", f"settled 0 2 2 0 200 {third}"),
            )

    def test_compensated_plant_bears_its_own_part(self):
        # 1, 1, 1 and 2 fen: equal ratio debits 0, 1, 1 and plant 2 is credited 2.
        self.check(
            ["book equal-ratio", "enrol 1 1 0", "enrol 2 1 0", "enrol 3 1 0",
             "meter 1 1 0", "meter 2 1 0", "meter 3 1 0", "compensate 2 2"],
            ("settle 1 0 0", "settled 0 1 1 0 100 22859700"),
            ("settle 2 0 0", "settled 0 1 1 0 100 23859700"),
            ("settle 3 0 0", "settled 0 1 1 0 100 21859700"),
        )

    def test_transfer_fee(self):
        # 40 kWh at 300,000 pass for 100,000: 800,000,000 grains to the giver.
        self.check(
            ["book equal-ratio", "enrol 1 1 0", "enrol 2 2 0", "enter 7 1 6 100 300000",
             "meter 1 60 0", "meter 2 40 0", "transfer 3 7 2 40 100000"],
            ("issue 1", "paid 2600"),
            ("issue 2", "paid 400"),
        )


class Months(BookTest):
    def test_carry_from_month_to_month(self):
        self.check(
            [*JANUARY, "enrol 2 2 250000", "meter 2 0 0"],
            ("close 1", "declined 10"),
            ("issue 1", "paid 252"),  # and 488,000 grains are carried
            ("issue 1", "declined 4"),
            ("meter 1 100 0", "done"),
            ("settle 1 2 2", "settled 0 0 0 0 0 2300000000 60 1500000000 40 800000000"),
            ("close 1", "done"),  # 488,000 + 2,300,000,000 − 252,488,000 are carried
            ("close 1", "declined 5"),
            ("settle 1 2 2", "settled 0 0 0 0 0 2300000000 60 1500000000 40 800000000"),
            ("turn 100", "declined 10"),
            ("issue 2", "paid 0"),
            ("close 2", "done"),
            ("turn 1000001", "declined 1"),
            ("turn 100", "done"),
            # February: 2,048 fen were carried, and nothing else is left.
            ("issue 1", "declined 10"),
            ("amend 7 0", "declined 3"),
            ("meter 1 0 0", "done"),
            ("settle 1 0 0", "settled 0 0 0 0 0 0"),
            ("issue 1", "paid 2048"),
            # 1 kWh missing: A = 98, at 207,815 that is 20,365,870 below zero.
            ("enter 3 1 7 1 0", "done"),
            ("close 1", "done"),
            ("meter 2 0 0", "done"),
            ("issue 2", "paid 0"),
            ("close 2", "done"),
            ("turn 0", "done"),
            # March: −21 fen, and 634,130 grains are carried.
            ("meter 1 0 0", "done"),
            ("issue 1", "paid -21"),
            ("close 1", "done"),
            ("meter 2 0 0", "done"),
            ("issue 2", "paid 0"),
            ("close 2", "done"),
            ("turn 0", "done"),
            # April: 1 kWh over at 228,597 and the carry are 23,493,830 grains.
            ("meter 1 1 0", "done"),
            ("issue 1", "paid 23"),
        )

    def test_december_to_january(self):
        # 1 kWh over costs a coal plant 100 × 25,372 when it is wet, and is
        # paid 22,859,700 in the dry season and 18,361,200 in a level month.
        over = ["meter 1 1 0", "issue 1", "close 1", "turn 0"]
        told = ask("book in-order", "open 10 0 in-order", "enrol 1 2 0", *over * 4)
        paid = [line for line in told if line.startswith("paid")]
        # October −2,537,200, rounded down; November 18,361,200 + 462,800;
        # December 22,859,700 + 824,000; January 22,859,700 + 683,700.
        self.assertEqual(paid, ["paid -3", "paid 18", "paid 23", "paid 23"])

    def test_open_drops_everything(self):
        self.check(
            JANUARY,
            ("issue 1", "paid 252"),
            ("open 13 0 in-order", "declined 1"),
            ("issue 1", "declined 4"),
            ("open 12 0 in-order", "done"),
            ("settle 1 2 2", "declined 2"),
            ("enrol 1 1 300000", "done"),
            ("enter 7 1 6 60 250000", "done"),
            ("meter 1 0 0", "done"),
            # 60 missing: A = 5,880, at 207,815 that is 1,221,952,200; no carry.
            ("issue 1", "paid -1222"),
        )


class Declining(BookTest):
    # Plant 1 is hydro at its contract limit, 2 wind, 3 coal, 4 gas and closed.
    BOOK = [
        "book equal-ratio", "enrol 1 1 0", "enrol 2 4 0", "enrol 3 2 0", "enrol 4 3 0",
        "enter 1 1 5 3000000000 1000000", "enter 2 2 7 10 0", "enter 3 3 7 10 0",
        "enter 4 4 7 10 0", "meter 1 9 0", "meter 2 9 0", "meter 4 9 0", "issue 4", "close 4",
    ]

    def test_numbers(self):
        self.check(
            self.BOOK,
            ("enrol 1 6 0", "declined 1"),
            ("enrol 1 1 0", "declined 4"),
            ("enter 1 5 8 1 0", "declined 1"),
            ("enter 1 5 3 1 0", "declined 2"),
            ("enter 1 4 3 1 0", "declined 4"),
            ("enter 5 4 3 1 0", "declined 5"),
            ("enter 5 1 3 1 0", "declined 6"),
            ("enter 5 1 7 1 0", "declined 9"),
            ("enter 5 1 7 0 0", "done"),
            ("amend 9 3000000001", "declined 1"),
            ("amend 9 3000000000", "declined 3"),
            ("amend 4 10", "declined 5"),
            ("amend 5 1", "declined 9"),
            ("amend 1 3000000000", "done"),
            ("transfer 6 7 5 0 0", "declined 1"),
            ("transfer 6 7 5 1 0", "declined 2"),
            ("transfer 7 7 4 1 0", "declined 3"),
            ("transfer 4 4 4 1 0", "declined 4"),
            ("transfer 6 4 4 11 0", "declined 5"),
            ("transfer 6 3 4 11 0", "declined 5"),
            ("transfer 6 1 3 1 0", "declined 6"),
            ("transfer 6 3 3 11 0", "declined 6"),
            ("transfer 6 3 1 11 0", "declined 7"),
            ("transfer 6 3 1 10 0", "declined 9"),
            ("meter 5 3000000001 0", "declined 1"),
            ("meter 5 0 1", "declined 2"),
            ("meter 4 0 1", "declined 5"),
            ("meter 3 0 1", "declined 7"),
            ("compensate 5 -1", "declined 1"),
            ("compensate 5 100000001", "declined 1"),
            ("compensate 5 100000000", "declined 2"),
            ("compensate 1 0", "declined 5"),
            ("issue 4", "declined 4"),
            ("issue 3", "declined 10"),
            ("settle 3 9 9", "declined 10"),
        )

    def test_compensate_not_ready_before_sums(self):
        self.check(
            ["book equal-ratio", "enrol 1 1 0", "enrol 2 1 0", "enter 1 1 7 3000000000 1000000",
             "transfer 2 1 2 3000000000 0"],  # plant 1 is at its side balance limit
            ("meter 1 0 0", "done"),
            ("compensate 1 1", "declined 10"),
            ("meter 2 0 0", "done"),
            ("compensate 1 1", "declined 10"),
            ("meter 2 1 0", "done"),
            ("compensate 1 1", "declined 9"),
            ("compensate 2 1", "done"),  # credit and debit are one: 0
            ("meter 1 1 0", "done"),
            ("meter 2 0 0", "done"),
            ("compensate 2 1", "done"),  # plant 1 pays 1 fen and is below its limit
            ("transfer 3 2 1 1 1000000", "done"),
        )

    def test_full_book(self):
        contracts = [f"enter {number} 1 7 1 0" for number in range(1, 257)]
        self.check(
            ["book equal-ratio", "enrol 1 1 0", "enrol 2 1 0", *contracts],
            ("enter 257 1 7 3000000000 0", "declined 8"),
            ("transfer 257 1 2 2 0", "declined 7"),
            ("transfer 257 1 2 1 0", "declined 8"),
        )


class Program(unittest.TestCase):
    def run_program(self, given):
        done = subprocess.run(
            [sys.executable, PROGRAM], input=given, capture_output=True, timeout=30
        )
        return done.returncode, done.stdout

    def test_answers(self):
        given = b"book in-order\nenrol 25 1 0\nshare in-order 1 1 1\n"
        self.assertEqual(self.run_program(given), (0, b"book\ndeclined 1\nparts 1 0\n"))

    def test_no_lines(self):
        self.assertEqual(self.run_program(b""), (0, b""))

    def test_lines_that_are_no_calls(self):
        faults = ["", "pay 1", "book fair", "enrol 1 1", "enrol 256 1 0", "enrol  1 1 0",
                  "enter 4294967296 1 7 1 0", "meter 1 -1 0", "amend 1 9223372036854775808"]
        for fault in faults:
            with self.subTest(fault):
                given = f"book in-order\n{fault}\n".encode()
                self.assertEqual(self.run_program(given), (1, b""))


if __name__ == "__main__":
    unittest.main()
