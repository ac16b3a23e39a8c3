"""The worked examples of docs/, and a few figures worked by hand, against settle.py."""

import subprocess
import sys
import unittest
from pathlib import Path
from struct import pack

import settle
from settle import Contract, PlantClass, Rank, Reading, Season

PROGRAM = Path(__file__).with_name("settle.py")

# January, one hydro plant, two contracts, 50 kWh: the sheet written out byte by byte.
JANUARY = bytes.fromhex(
    "03 01 00000000"
    "01 0100 01 01e0930400"
    "02 0200 07000000 09000000"
    "01063c0000000000000090d00300"
    "01072800000000000000400d0300"
    "04 0100 01 32000000000000000000000000000000"
)


def section(kind, heads, terms, count=None):
    count = len(heads) if count is None else count
    return pack("<BH", kind, count) + b"".join(heads) + b"".join(terms)


def enrol(*items):
    return section(1, [pack("<B", i[0]) for i in items], [pack("<BI", *i[1:]) for i in items])


def enter(*items):
    return section(2, [pack("<I", i[0]) for i in items], [pack("<BBQI", *i[1:]) for i in items])


def transfer(*items):
    return section(3, [pack("<II", *i[:2]) for i in items], [pack("<BQI", *i[2:]) for i in items])


def meter(*items):
    return section(4, [pack("<B", i[0]) for i in items], [pack("<QQ", *i[1:]) for i in items])


def sheet(*sections, month=1, residential=0):
    return pack("<BBI", len(sections), month, residential) + b"".join(sections)


def run(given, *arguments):
    done = subprocess.run(
        [sys.executable, PROGRAM, *arguments], input=given, capture_output=True, timeout=30
    )
    return done.returncode, done.stdout


def month_of(plant_class, season, reading, contracts, approved=0, residential=0, side=0):
    held = [Contract(i, 1, Rank(rank), energy, price)
            for i, (rank, energy, price) in enumerate(contracts, 1)]
    tariff = settle.tariff_of(plant_class, season, approved, residential)
    return settle.settle_month(Reading(*reading), held, tariff, side)


class TheProgram(unittest.TestCase):
    def test_sheet_byte_by_byte(self):
        self.assertEqual(len(JANUARY), 74)
        self.assertEqual(run(JANUARY), (0, b"1 50 0 50 252\n"))

    def test_number_there_already(self):
        changed = JANUARY[:22] + b"\x07" + JANUARY[23:]
        self.assertEqual(run(changed), (0, b"fault 2 4 15 1\n"))

    def test_cases(self):
        cases = f"a {JANUARY.hex()}\nb \nc {sheet().hex()}\n".encode()
        self.assertEqual(
            run(cases, "--cases"),
            (0, b"case a\n1 50 0 50 252\ncase b\nfault 1 32 0 0\ncase c\n"),
        )

    def test_too_long(self):
        self.assertEqual(run(bytes(65_537)), (0, b"fault 1 31 0 0\n"))
        self.assertEqual(run(bytes(65_536)), (0, b"fault 2 1 0 0\n"))

    def test_nothing_metered_prints_nothing(self):
        self.assertEqual(run(sheet(enrol((1, 1, 0)))), (0, b""))


class SheetFaults(unittest.TestCase):
    def check(self, given, line):
        self.assertEqual(settle.report(given), [line])

    def test_cut_short(self):
        self.check(JANUARY[:5], "fault 1 32 0 0")
        self.check(JANUARY[:6], "fault 1 32 6 0")
        self.check(JANUARY[:17], "fault 1 32 15 0")
        self.check(JANUARY[:53], "fault 1 32 15 0")
        self.check(JANUARY[:73], "fault 1 32 54 0")

    def test_kind_before_count_before_length(self):
        self.check(sheet(section(5, [], [], count=257)), "fault 1 33 6 0")
        self.check(sheet(section(0, [], [])), "fault 1 33 6 0")
        self.check(sheet(section(1, [], [], count=257)), "fault 1 34 6 0")
        self.check(sheet(section(1, [], [], count=256)), "fault 1 32 6 0")

    def test_left_over(self):
        self.check(JANUARY + b"\0", "fault 1 35 74 0")
        self.check(sheet() + b"\0", "fault 1 35 6 0")

    def test_opening(self):
        self.check(sheet(month=0), "fault 2 1 0 0")
        self.check(sheet(month=13), "fault 2 1 0 0")
        self.check(sheet(residential=1_000_001), "fault 2 1 0 0")

    def test_calls_come_before_the_next_section(self):
        self.check(sheet(enrol((25, 1, 0)), b"\xff\xff\xff"), "fault 2 1 6 0")


class Refusals(unittest.TestCase):
    """Each case has the faults of all later checks too, so that the order shows."""

    PLANTS = enrol((1, 1, 0), (2, 2, 0), (3, 4, 0), (4, 1, 0))
    STANDING = enter((1, 1, 1, 100, 500_000), (2, 1, 7, 100, 500_000), (3, 3, 7, 100, 0),
                     (5, 4, 7, 3_000_000_000, 0))

    def check(self, last, number):
        given = sheet(self.PLANTS, self.STANDING, last)
        offset = len(given) - len(last)
        self.assertEqual(settle.report(given), [f"fault 2 {number} {offset} 0"])

    def test_enrol(self):
        self.check(enrol((0, 1, 0)), 1)
        self.check(enrol((1, 6, 0)), 1)
        self.check(enrol((1, 1, 1_000_001)), 1)
        self.check(enrol((1, 1, 0)), 4)

    def test_enter(self):
        self.check(enter((0, 9, 3, 0, 0)), 1)
        self.check(enter((1, 9, 8, 0, 0)), 1)
        self.check(enter((1, 9, 3, 3_000_000_001, 0)), 1)
        self.check(enter((1, 9, 3, 0, 1_000_001)), 1)
        self.check(enter((1, 9, 3, 0, 0)), 2)
        self.check(enter((1, 4, 3, 3_000_000_000, 0)), 4)
        self.check(enter((9, 4, 3, 3_000_000_000, 0)), 6)
        self.check(enter((9, 2, 5, 0, 0)), 6)
        self.check(enter((9, 4, 7, 1, 0)), 9)

    def test_transfer(self):
        self.check(transfer((9, 0, 2, 1, 0)), 1)
        self.check(transfer((9, 2, 2, 0, 0)), 1)
        self.check(transfer((1, 99, 9, 1, 0)), 2)
        self.check(transfer((1, 99, 3, 101, 0)), 3)
        self.check(transfer((1, 2, 3, 101, 0)), 4)
        self.check(transfer((9, 2, 3, 101, 0)), 6)  # the receiver may not
        self.check(transfer((9, 3, 2, 101, 0)), 6)  # the giver may not
        self.check(transfer((9, 1, 2, 101, 0)), 6)  # not of this rank
        self.check(transfer((9, 2, 1, 101, 0)), 6)  # to itself
        self.check(transfer((9, 2, 4, 101, 0)), 7)
        self.check(transfer((9, 2, 4, 1, 0)), 9)

    def test_meter(self):
        self.check(meter((9, 3_000_000_001, 0)), 1)
        self.check(meter((9, 0, 1)), 2)
        self.check(meter((1, 0, 1)), 7)

    def test_full(self):
        many = enter(*[(n, 1, 6, 0, 0) for n in range(1, 257)])
        more = enter((257, 1, 6, 3_000_000_000, 0))
        given = sheet(enrol((1, 1, 0)), many, more)
        self.assertEqual(settle.report(given), [f"fault 2 8 {len(given) - len(more)} 0"])

    def test_side_balance(self):
        # A fee of 3e9 x 100 x 1,000,000 grains is just the limit; one kWh more is past it.
        at_limit = [
            enrol((1, 1, 0), (2, 2, 0), (3, 2, 0)),
            enter((1, 1, 7, 3_000_000_000, 1_000_000)),
            transfer((2, 1, 2, 3_000_000_000, 0)),
            enter((3, 1, 7, 1, 1_000_000)),
        ]
        past = transfer((4, 3, 3, 1, 0))
        self.assertEqual(settle.report(sheet(*at_limit)), [])
        given = sheet(*at_limit, past)
        self.assertEqual(settle.report(given), [f"fault 2 9 {len(given) - len(past)} 0"])


class Sharing(unittest.TestCase):
    def test_equal_ratio(self):
        for claims, total, parts in [
            ([1, 1], 1, [0, 1]),
            ([5, 3, 2], 7, [3, 2, 2]),
            ([1, 1, 1], 2, [0, 1, 1]),
            ([1, 0, 2], 10, [3, 0, 7]),
            ([0, 0], 0, [0, 0]),
            ([], 0, []),
        ]:
            self.assertEqual(settle.share_equal_ratio(total, claims), parts)

    def test_in_order(self):
        self.assertEqual(settle.fill_in_order(1, [1, 1]), ([1, 0], 0))
        self.assertEqual(settle.fill_in_order(9, [4, 2, 0]), ([4, 2, 0], 3))


class Settlements(unittest.TestCase):
    RANKS = [(1, 300_000, 0), (2, 700_000, 0), (4, 1_000_000, 0), (5, 500_000, 0),
             (6, 2_000_000, 0), (7, 1_200_000, 0)]

    def test_january(self):
        month = month_of(PlantClass.HYDRO, Season.DRY, (50, 0),
                         [(6, 60, 250_000), (7, 40, 200_000)], approved=300_000)
        self.assertEqual(month.settled, [50, 0])
        self.assertEqual(month.amounts, [1_250_000_000, 0])
        self.assertEqual((month.shortfall, month.assessed), (50, 4_800))
        self.assertEqual(month.assessment, 997_512_000)
        self.assertEqual(month.net, 252_488_000)

    def test_hydro_over_in_the_wet_season(self):
        month = month_of(PlantClass.HYDRO, Season.WET, (6_500_000, 0), self.RANKS)
        self.assertEqual(month.over_generation, 800_000)
        self.assertEqual(month.assessed, 68_600_000)
        self.assertEqual(month.assessment, 1_740_519_200_000)

    def test_hydro_short_in_the_dry_season(self):
        month = month_of(PlantClass.HYDRO, Season.DRY, (5_000_000, 0), self.RANKS)
        self.assertEqual(month.settled[-1], 500_000)
        self.assertEqual(month.assessed, 58_600_000)
        self.assertEqual(month.assessment, 12_177_959_000_000)

    def test_commissioning_stands_in_for_priority(self):
        month = month_of(PlantClass.RENEWABLE, Season.LEVEL, (1_000_000, 550_000),
                         [(6, 400_000, 0), (7, 500_000, 0)])
        self.assertEqual(month.commissioning, 550_000)
        self.assertEqual(month.settled, [0, 450_000])
        self.assertEqual(month.over_generation, 0)
        self.assertEqual(month.assessed, 8_200_000)

    def test_two_in_a_hundred_are_free(self):
        for metered, assessed in [(98, 0), (97, 100)]:
            month = month_of(PlantClass.HYDRO, Season.WET, (metered, 0), [(7, 100, 0)])
            self.assertEqual(month.assessed, assessed)

    def test_no_contracts(self):
        month = month_of(PlantClass.COAL, Season.WET, (3, 0), [])
        self.assertEqual((month.assessed, month.net), (300, -300 * 25_372))

    def test_missing_aluminium(self):
        # 60 of 100 kWh of rank 5, in the dry season: 40 are missing and A is 3,800.
        month = month_of(PlantClass.HYDRO, Season.DRY, (60, 0), [(5, 100, 0)])
        self.assertEqual(month.assessment, 3_800 * 207_815 + 40 * 100 * 60_000)
        # Ranks 1 and 3 take all of M, which is K: no deviation, and all 20 are missing.
        month = month_of(PlantClass.HYDRO, Season.DRY, (30, 20), [(1, 10, 0), (5, 20, 0)])
        self.assertEqual((month.assessed, month.assessment), (0, 20 * 100 * 60_000))

    def test_priority_contracts_share_by_whole_energies(self):
        # C is 40 of P 100, so the rank is full at 60, over claims of 50, 30 and 20.
        month = month_of(PlantClass.GAS, Season.WET, (100, 40),
                         [(6, 50, 1), (6, 30, 1), (6, 20, 1)], approved=7)
        self.assertEqual((month.commissioning, month.settled), (40, [30, 18, 12]))
        self.assertEqual(month.net, 40 * 100 * 7 + 60 * 100)

    def test_tariff(self):
        # Price of O, A when over and A when short, by class and season.
        wet, dry, level = Season.WET, Season.DRY, Season.LEVEL
        for classes, season, prices in [
            ((1, 2, 3), wet, (0, 25_372, 126_859)),
            ((1, 2, 3), dry, (228_597, 0, 207_815)),
            ((1, 2, 3), level, (183_612, 0, 166_920)),
            ((4,), wet, (11, 25_372, 25_372)),
            ((4,), dry, (228_597, 0, 25_372)),
            ((4,), level, (22, 25_372, 25_372)),
            ((5,), wet, (22, 25_372, 25_372)),
            ((5,), dry, (22, 25_372, 25_372)),
            ((5,), level, (22, 25_372, 25_372)),
        ]:
            for number in classes:
                tariff = settle.tariff_of(PlantClass(number), season, 22, 11)
                found = (tariff.over_generation, tariff.assessed_over, tariff.assessed_short)
                self.assertEqual(found, prices, (number, season))
                residential = number == 4 and season == wet
                self.assertEqual(tariff.commissioning, 11 if residential else 22)
                own = None if number <= 3 else 11 if residential else 22
                self.assertEqual(tariff.contract, own)

    def test_seasons(self):
        names = "dry dry dry dry level wet wet wet wet wet level dry".split()
        self.assertEqual([settle.season_of(m).value for m in range(1, 13)], names)

    def test_payment(self):
        self.assertEqual(settle.pay(252_488_000, 0), (252, 488_000))
        self.assertEqual(settle.pay(-1, 0), (-1, 999_999))


class Transfers(unittest.TestCase):
    def test_fee_and_energy(self):
        # 40 of 100 kWh at 300,000 pass for 100,000: the fee is 40 x 100 x 200,000 =
        # 800,000,000 grains, or 800 fen, to plant 1. Each plant meters its contracts.
        given = sheet(
            enrol((2, 2, 0), (1, 1, 0)),
            enter((7, 1, 6, 100, 300_000)),
            transfer((3, 7, 2, 40, 100_000)),
            meter((2, 40, 0), (1, 60, 0)),
        )
        self.assertEqual(settle.report(given), ["1 60 0 0 2600", "2 40 0 0 400"])

    def test_negative_fee_and_whole_energy(self):
        # 10 kWh at 0 pass for 1: the giver pays 1,000 grains, which is -1 fen rounded down.
        given = sheet(
            enrol((1, 1, 0), (2, 2, 0)),
            enter((7, 1, 6, 10, 0)),
            transfer((8, 7, 2, 10, 1)),
            meter((1, 0, 0), (2, 10, 0)),
        )
        self.assertEqual(settle.report(given), ["1 0 0 0 -1", "2 10 0 0 0"])


if __name__ == "__main__":
    unittest.main()
