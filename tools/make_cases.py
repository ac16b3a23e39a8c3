#!/usr/bin/env python3
"""Prints month sheets to try a month book with, one to a line: NAME HEX.

    python3 tools/make_cases.py > cases.txt
    python3 tools/make_cases.py --count

HEX is the bytes of the sheet, which may be none. A name begins with the group of
the case. In the group `form` a number from 31 to 35 after it is the fault that
comes, and a 2 stands for any refusal of the book; in `refusal` and `order` the call
and the number of the book's refusal follow it. The same cases are printed at every
run. With --count the number of cases of each group is printed instead.

docs/SHEET.md has the format of a sheet, docs/BOOK.md the calls and their checks,
docs/SETTLEMENT.md how a month is settled.
"""

import random
import sys

from sheet import KIND_BY_NAME, header_bytes, section_bytes

# Classes of plants.
HYDRO, COAL, GAS, WIND, RELIEF = 1, 2, 3, 4, 5
CLASS_NAMES = {HYDRO: "hydro", COAL: "coal", GAS: "gas", WIND: "wind", RELIEF: "relief"}
# The ranks that a class may hold, and the classes that may transfer.
RANKS = {HYDRO: (1, 2, 4, 5, 6, 7), COAL: (6, 7), GAS: (6, 7), WIND: (6, 7), RELIEF: (6, 7)}
TRANSFERRING = (HYDRO, COAL, GAS)

# A month of each season.
SEASONS = {"wet": 8, "level": 11, "dry": 2}

# The limits of the book.
ENERGY = 3_000_000_000
PRICE = 1_000_000
CONTRACTS = 256
BYTES = 65_536

# The largest numbers of fields of 1, 4 and 8 bytes.
BYTE, WORD, LONG = 2**8 - 1, 2**32 - 1, 2**64 - 1


# Builders. An item is a row of figures in the order of the text form of a sheet.


def enrol(*items):
    """A section of items (plant, class, price)."""
    return section_bytes(KIND_BY_NAME["enrol"], items)


def enter(*items):
    """A section of items (contract, plant, rank, energy, price)."""
    return section_bytes(KIND_BY_NAME["enter"], items)


def transfer(*items):
    """A section of items (new, old, receiver, energy, price)."""
    return section_bytes(KIND_BY_NAME["transfer"], items)


def meter(*items):
    """A section of items (plant, metered, commissioning)."""
    return section_bytes(KIND_BY_NAME["meter"], items)


SECTION = {"enrol": enrol, "enter": enter, "transfer": transfer, "meter": meter}


def sheet_of(*sections, month=1, residential=0, count=None):
    """A sheet of these sections. The header counts them, or says another count."""
    counted = len(sections) if count is None else count
    return header_bytes(counted, month, residential) + b"".join(sections)


def section_head(kind, count):
    """The first three bytes of a section, whatever kind and count are."""
    return bytes([kind]) + count.to_bytes(2, "little")


def one_plant(kind, contracts, metered, commissioning=0, *, plant=1, **figures):
    """A sheet of one metered plant. Its contracts are (rank, energy, price)."""
    return many_plants(kind, [(contracts, metered, commissioning)], first=plant, **figures)


def many_plants(kind, plants, *, month, residential=0, approved=0, first=1):
    """A sheet of metered plants of one class, each (contracts, metered, commissioning).

    The plants are numbered from `first` on, and all contracts from 1 on.
    """
    numbered = list(enumerate(plants, start=first))
    held = [(plant, *contract) for plant, (contracts, _, _) in numbered for contract in contracts]
    return sheet_of(
        enrol(*[(plant, kind, approved) for plant, _ in numbered]),
        enter(*[(number, *contract) for number, contract in enumerate(held, start=1)]),
        meter(*[(plant, metered, started) for plant, (_, metered, started) in numbered]),
        month=month,
        residential=residential,
    )


# The published rules' worked examples of power plants.


def worked_cases():
    """The published rules' worked examples. They are in units of 10,000 kWh; sheets are in kWh.

    The comments give the examples' own results, in the same units. Prices that the
    examples leave open are our choice: those of hydro contracts, hydro's approved
    price and the residential price. The price of 0.4012 yuan is theirs.
    """
    unit = 10_000

    # Hydro. Contracts: inter-province priority 30, inter-province market 70, retained
    # energy 100, aluminium cooperation 50, in-province priority 200, in-province market 120.
    hydro = [
        (1, 30 * unit, 285_000),
        (2, 70 * unit, 262_000),
        (4, 100 * unit, 190_000),
        (5, 50 * unit, 247_000),
        (6, 200 * unit, 288_000),
        (7, 120 * unit, 221_500),
    ]
    # The same with the in-province market in three contracts, which are cut in equal ratio.
    split = hydro[:5] + [(7, 70 * unit, 221_500), (7, 30 * unit, 305_500), (7, 20 * unit, 198_000)]
    for season, month in SEASONS.items():
        for name, contracts in (("hydro", hydro), ("hydro-split", split)):
            figures = {"month": month, "approved": 288_000}
            # Metered 650. Settled 30, 70, 100, 50, 200, 120; over-generation 80; assessed 68.6,
            # at 0.025372 in the wet season and at nothing else.
            yield f"{name}-{season}-over", one_plant(HYDRO, contracts, 650 * unit, **figures)
            # Metered 500. Settled 30, 70, 100, 50, 200, 50; short 70; assessed 58.6,
            # at 0.126859 wet, 0.166920 level, 0.207815 dry.
            yield f"{name}-{season}-under", one_plant(HYDRO, contracts, 500 * unit, **figures)

    # Wind, solar and biomass share their examples; here they differ in plant and months.
    # Each example: season, metered, commissioning, contracts as (rank, energy).
    examples = {
        # Residential replacement 40 and direct purchase 20. Settled 40 and 20;
        # over-generation 30, at the residential price; assessed 28.8.
        "wet-over": ("wet", 90, 0, [(7, 40), (7, 20)]),
        # Residential replacement 80 and direct purchase 20, cut in equal ratio.
        # Settled 40 and 10; short 50; assessed 48.
        "wet-under": ("wet", 50, 0, [(7, 80), (7, 20)]),
        # Commissioning 55, priority 40, direct purchase 50.
        # Settled 55, 0 and 45; over-generation 0; assessed 8.2.
        "level-over": ("level", 100, 55, [(6, 40), (7, 50)]),
        # Commissioning 50, priority 40, direct purchase 50.
        # Settled 50, 0 and 30; short 10; assessed 8.2.
        "level-under": ("level", 80, 50, [(6, 40), (7, 50)]),
        # Priority 70, direct purchase 20. Settled 70 and 20; over-generation 10,
        # at 0.228597; assessed 8.2, at price 0.
        "dry-over": ("dry", 100, 0, [(6, 70), (7, 20)]),
        # Priority 40, direct purchase 30. Settled 40 and 10; short 20; assessed 18.6.
        "dry-under": ("dry", 50, 0, [(6, 40), (7, 30)]),
    }
    plants = {
        "wind": (2, {"wet": 6, "level": 5, "dry": 12}),
        "solar": (3, {"wet": 8, "level": 11, "dry": 2}),
        "biomass": (4, {"wet": 10, "level": 5, "dry": 4}),
    }
    for kind, (plant, months) in plants.items():
        for name, (season, metered, commissioning, contracts) in examples.items():
            yield f"{kind}-{name}", one_plant(
                WIND,
                [(rank, energy * unit, 401_200) for rank, energy in contracts],
                metered * unit,
                commissioning * unit,
                month=months[season],
                residential=231_500,
                approved=401_200,
                plant=plant,
            )

    # Solar for the relief of poverty, in any season: priority 40.
    for ending, month in {"": 3, "-wet": 7, "-level": 5}.items():
        figures = {"month": month, "residential": 231_500, "approved": 401_200, "plant": 5}
        # Metered 50. Settled 40; over-generation 10; assessed 9.2.
        yield f"relief-over{ending}", one_plant(RELIEF, [(6, 40 * unit, 401_200)], 50 * unit, **figures)
        # Metered 30. Settled 30; short 10; assessed 9.2.
        yield f"relief-under{ending}", one_plant(RELIEF, [(6, 40 * unit, 401_200)], 30 * unit, **figures)


# The documents' own examples.

JANUARY = sheet_of(
    enrol((1, HYDRO, 300_000)),
    enter((7, 1, 6, 60, 250_000), (9, 1, 7, 40, 200_000)),
    meter((1, 50, 0)),
)


def document_cases():
    """The examples in the documents."""
    # `1 50 0 50 252`
    yield "january", JANUARY
    # The same number for both contracts: `fault 2 4 15 1`
    yield "january-again", JANUARY[:22] + b"\x07" + JANUARY[23:]

    # The examples of the settlement that are proved.
    hydro = [
        (1, 300_000, 100_000),
        (2, 700_000, 110_000),
        (4, 1_000_000, 120_000),
        (5, 500_000, 130_000),
        (6, 2_000_000, 140_000),
        (7, 1_200_000, 150_000),
    ]
    # O 800,000 kWh; A 68,600,000 hundredths
    yield "hydro-wet", one_plant(HYDRO, hydro, 6_500_000, month=7)
    # rank 7 settles 500,000 kWh; A 58,600,000 hundredths
    yield "hydro-dry", one_plant(HYDRO, hydro, 5_000_000, month=1)
    # 550,000, 0 and 450,000 kWh settled; A 8,200,000 hundredths
    level = [(6, 400_000, 0), (7, 500_000, 0)]
    yield "class-4-level", one_plant(WIND, level, 1_000_000, 550_000, month=5, approved=300_000)
    # two in a hundred are free: A 0 and A 100 hundredths
    yield "two-in-a-hundred", one_plant(COAL, [(7, 100, 0)], 98, month=1)
    yield "three-in-a-hundred", one_plant(COAL, [(7, 100, 0)], 97, month=1)

    # The sharing examples, as rank 7 of a hydro plant that is metered below its contracts.
    # 1, 1 and 1: 0, 1.  5, 3, 2 and 7: 3, 2, 2.  1, 1, 1 and 2: 0, 1, 1.  0, 0 and 0: 0, 0.
    for claims, total in (((1, 1), 1), ((5, 3, 2), 7), ((1, 1, 1), 2), ((0, 0), 0)):
        yield f"sharing-{share_name(claims, total)}", one_plant(HYDRO, at_digit_prices(7, claims), total, month=7)


def share_name(claims, total):
    """A name such as 5-3-2-of-7."""
    return "-".join(str(claim) for claim in claims) + f"-of-{total}"


def at_digit_prices(rank, claims):
    """Contracts of a rank with these energies. Their first three prices are 100, 10 and 1 fen
    for each kWh, so that the digits of a payment show which contract settled how much."""
    prices = (1_000_000, 100_000, 10_000)
    return [(rank, claim, prices[place] if place < 3 else 500) for place, claim in enumerate(claims)]


# Faults of the sheet itself.

# A small sound sheet. Its sections are at the offsets 6, 15 and 36, and it has 56 bytes.
SMALL_SECTIONS = (
    enrol((1, HYDRO, 300_000)),
    enter((7, 1, 6, 60, 250_000)),
    meter((1, 50, 0)),
)
SMALL = sheet_of(*SMALL_SECTIONS)
SMALL_OFFSETS = (6, 15, 36)


def form_cases():
    """Faults 31 to 35, and their order among each other and with the book's refusals."""
    yield "small", SMALL
    yield from form_lengths()
    yield from form_cuts()
    yield from form_kinds()
    yield from form_counts()
    yield from form_left_over()
    yield from form_orders()


def form_lengths():
    """31: the longest sheet that may be, and one byte more."""
    # 18 sections of meters, 3,851 items in all, fill the sheet to its last byte.
    # It is sound, and the last reading stands.
    readings = [(1, energy, 0) for energy in range(3_851)]
    sections = [meter(*readings[start : start + 214]) for start in range(0, 3_851, 214)]
    longest = sheet_of(enrol((1, COAL, 0)), *sections, month=4)
    assert len(longest) == BYTES
    yield "65536-bytes", longest
    # One byte more would be left over, but the length is looked at first.
    yield "31-at-65537-bytes", longest + b"\0"


def form_cuts():
    """32: bytes that are missing."""
    # A sound sheet cut: none of it, within the header, within the first three bytes of
    # each section, within its heads and its terms.
    for length in (*range(12), *range(14, 20), 21, 22, 23, 34, *range(35, 42), 54, 55):
        yield f"32-cut-at-{length:02}", SMALL[:length]
    # Sections of two items of each kind, cut in heads, between heads and terms, and in terms.
    items = {
        "enrol": [(1, HYDRO, 1), (2, COAL, 2)],
        "enter": [(1, 1, 6, 5, 1), (2, 1, 7, 5, 1)],
        "transfer": [(3, 1, 2, 1, 0), (4, 1, 2, 1, 0)],
        "meter": [(1, 5, 0), (2, 5, 0)],
    }
    for name, pair in items.items():
        section = SECTION[name](*pair)
        heads = 3 + 2 * sum(KIND_BY_NAME[name].head.values())
        for cut in (4, heads, heads + 1, len(section) - 1):
            yield f"32-{name}-cut-at-{cut}", sheet_of(section[:cut])
    # A header that counts more sections than there are.
    for count in (4, 5, 255):
        yield f"32-counted-{count}", sheet_of(*SMALL_SECTIONS, count=count)
    for count in (1, 2, 255):
        yield f"32-none-of-{count}", sheet_of(count=count)
    yield "32-254-of-255-sections", sheet_of(*[enrol()] * 254, count=255)


def form_kinds():
    """33: kinds that there are not."""
    for kind in (0, 5, 255):
        for offset in SMALL_OFFSETS:
            yield f"33-kind-{kind}-at-{offset}", SMALL[:offset] + bytes([kind]) + SMALL[offset + 1 :]
        yield f"33-kind-{kind}-without-items", sheet_of(section_head(kind, 0))


def form_counts():
    """34: counts above 256; and 32 where the count is right and the items are missing."""
    for kind in (1, 2, 3, 4):
        for count in (257, 65_535):
            yield f"34-kind-{kind}-count-{count}", sheet_of(section_head(kind, count), bytes(40), count=1)
        for count in (1, 256):
            yield f"32-kind-{kind}-count-{count}", sheet_of(section_head(kind, count))
    # At a later section, after calls that were made.
    yield "34-at-15", sheet_of(SMALL_SECTIONS[0], section_head(2, 257), SMALL_SECTIONS[2])
    yield "32-256-at-15", sheet_of(SMALL_SECTIONS[0], section_head(2, 256), bytes(300), count=2)
    # All 257 items are there, and the book would decline each.
    yield "34-before-2-all-there", sheet_of(section_head(1, 257), bytes(257 * 6), count=1)
    # 256 items are in order: 256 readings of one plant, the last one stands.
    yield "256-items", sheet_of(enrol((1, GAS, 5)), meter(*[(1, energy, 0) for energy in range(256)]))
    # The last of 256 items is declined.
    yield "2-item-255", sheet_of(enrol((1, GAS, 5)), meter(*[(1, energy, 0) for energy in range(255)], (1, 0, 1)))
    # A count one too high takes the next section's bytes for its own; one too low leaves some.
    for count in (0, 2, 3):
        yield f"wrong-count-{count}", SMALL[:7] + bytes([count, 0]) + SMALL[9:]
        yield f"wrong-count-{count}-at-15", SMALL[:16] + bytes([count, 0]) + SMALL[18:]
        yield f"wrong-count-{count}-at-36", SMALL[:37] + bytes([count, 0]) + SMALL[39:]


def form_left_over():
    """35: bytes after the last section."""
    for extra in (1, 2, 3, 100):
        yield f"35-{extra}-bytes", SMALL + bytes(extra)
        yield f"35-{extra}-bytes-after-the-header", sheet_of() + b"\xff" * extra
    # A header that counts fewer sections than there are.
    for count in (0, 1, 2):
        yield f"35-counted-{count}", sheet_of(*SMALL_SECTIONS, count=count)
    yield "35-twice", SMALL + SMALL
    yield "35-after-an-empty-section", sheet_of(enrol(), count=1) + b"\1"


def form_orders():
    """Two faults at once: the first of the two numbers in a name is the one that comes.
    `2` stands for a refusal of the book."""
    no_plant = enter((1, 9, 7, 1, 1))  # plant 9 is not enrolled
    # The header before the book is opened, the book before the first section, and before left-over bytes.
    for length in (2, 5):
        yield f"32-before-2-month-0-{length}-bytes", sheet_of(month=0, residential=WORD)[:length]
    yield "2-before-32-month-0", sheet_of(month=0, count=1)
    yield "2-before-32-residential", sheet_of(residential=PRICE + 1, count=1) + b"\1"
    yield "2-before-33-month-13", sheet_of(section_head(9, 0), month=13)
    yield "2-before-34-month-0", sheet_of(section_head(1, 257), month=0)
    yield "2-before-35-month-0", sheet_of(month=0) + b"\0"
    # In a section: its first three bytes, its kind, its count, its items, its calls.
    yield "32-before-33", sheet_of(b"\5", count=1)
    yield "32-before-33-two-bytes", sheet_of(b"\5\0", count=1)
    yield "32-before-34", sheet_of(b"\1\xff", count=1)
    yield "33-before-34", sheet_of(section_head(5, 257))
    yield "33-before-32", sheet_of(section_head(0, 3))
    yield "33-before-34-65535", sheet_of(section_head(255, 65_535))
    yield "34-before-32", sheet_of(section_head(3, 257))
    yield "32-before-2-first-item", sheet_of(enter((1, 9, 7, 1, 1), (2, 9, 7, 1, 1))[:-1])
    yield "32-before-2-all-heads", sheet_of(enrol((0, 9, 1), (0, 9, 1))[:5])
    # The calls of a section are made before the next section is looked at.
    yield "2-before-32-next-section", sheet_of(no_plant, count=2)
    yield "2-before-32-next-items", sheet_of(no_plant, section_head(1, 2))
    yield "2-before-33-next-section", sheet_of(no_plant, section_head(0, 0))
    yield "2-before-34-next-section", sheet_of(no_plant, section_head(1, 300))
    yield "2-before-35", sheet_of(no_plant) + b"\0"
    yield "32-before-2-next-section", sheet_of(section_head(1, 1), no_plant[:2], count=2)
    yield "33-before-2-next-section", sheet_of(section_head(7, 0), no_plant)
    yield "34-before-2-next-section", sheet_of(section_head(1, 257), no_plant)
    # Bytes that would be left over follow.
    yield "33-before-35", sheet_of(section_head(6, 0), bytes(9), count=1)
    yield "34-before-35", sheet_of(section_head(4, 4_096), bytes(80), count=1)


def sections_cases():
    """Sheets whose sections stand in unusual ways. Nearly all are sound."""
    yield "none", sheet_of()
    yield "none-december", sheet_of(month=12, residential=PRICE)
    for name, section in SECTION.items():
        yield f"one-empty-{name}", sheet_of(section())
    yield "empty-of-each-kind", sheet_of(meter(), transfer(), enter(), enrol())
    yield "255-empty", sheet_of(*[SECTION[name]() for name in (*SECTION, "meter") * 51])
    yield "empty-between", sheet_of(enter(), SMALL_SECTIONS[0], meter(), *SMALL_SECTIONS[1:], enrol())
    yield "no-meter", sheet_of(*SMALL_SECTIONS[:2])
    yield "meter-before-enter", sheet_of(SMALL_SECTIONS[0], SMALL_SECTIONS[2], SMALL_SECTIONS[1])
    # Calls out of order are refused with 2, at the first section that needs the plant.
    yield "enter-before-enrol", sheet_of(SMALL_SECTIONS[1], SMALL_SECTIONS[0], SMALL_SECTIONS[2])
    yield "meter-before-enrol", sheet_of(SMALL_SECTIONS[2], SMALL_SECTIONS[0], SMALL_SECTIONS[1])
    yield "repeated-enrol", sheet_of(SMALL_SECTIONS[0], *SMALL_SECTIONS)
    yield "repeated-enter", sheet_of(*SMALL_SECTIONS[:2], *SMALL_SECTIONS[1:])
    yield "repeated-meter", sheet_of(*SMALL_SECTIONS, SMALL_SECTIONS[2])
    # The same month in one section for each kind, in one for each item, and plant by plant.
    plants = [(4, HYDRO, 300_000), (2, GAS, 500_000)]
    contracts = [(9, 4, 7, 40, 200_000), (3, 2, 6, 30, 450_000), (5, 4, 6, 70, 250_000)]
    handed = [(12, 9, 2, 10, 150_000), (11, 12, 4, 5, 210_000)]
    readings = [(4, 100, 8), (2, 41, 0)]
    yield "one-for-each-kind", sheet_of(enrol(*plants), enter(*contracts), transfer(*handed), meter(*readings))
    rows = {enrol: plants, enter: contracts, transfer: handed, meter: readings}
    single = [section(item) for section, items in rows.items() for item in items]
    yield "one-for-each-item", sheet_of(*single)
    first = [enrol(plants[0]), meter(readings[0]), enter(contracts[0], contracts[2])]
    second = [enrol(plants[1]), enter(contracts[1]), meter(readings[1])]
    yield "plant-by-plant", sheet_of(*first, *second, transfer(*handed))


# Refusals of the book.

# A book that the calls below are made on. Plant 1 has 100 kWh in contract 10 and 40 in
# contract 12, plant 3 has 50 in contract 11, plant 5 has 50 in contract 13.
BASE = (
    enrol((1, HYDRO, 300_000), (2, COAL, 400_000), (3, WIND, 401_200), (5, RELIEF, 401_200)),
    enter((10, 1, 6, 100, 250_000), (11, 3, 7, 50, 0), (12, 1, 1, 40, 280_000), (13, 5, 6, 50, 0)),
)
# Two calls of each kind that this book accepts.
ACCEPTED = {
    "enrol": [(7, GAS, 1), (8, RELIEF, 0)],
    "enter": [(20, 1, 1, 5, 5), (21, 2, 7, 0, 0)],
    "transfer": [(20, 10, 2, 5, 200_000), (21, 10, 2, 1, 300_000)],
    "meter": [(1, 100, 0), (2, 7, 7)],
}
# Calls that it declines: by call and number, what is wrong, and the item.
DECLINED = {
    ("enrol", 1): {
        "plant-0": (0, HYDRO, 1),
        "plant-25": (25, HYDRO, 1),
        "plant-255": (BYTE, HYDRO, 1),
        "class-0": (9, 0, 1),
        "class-6": (9, 6, 1),
        "class-255": (9, BYTE, 1),
        "price": (9, HYDRO, PRICE + 1),
        "price-most": (9, HYDRO, WORD),
    },
    ("enrol", 4): {
        "same": (1, HYDRO, 300_000),
        "other-class": (3, COAL, 5),
    },
    ("enter", 1): {
        "contract-0": (0, 1, 7, 1, 1),
        "plant-0": (30, 0, 7, 1, 1),
        "plant-25": (30, 25, 7, 1, 1),
        "plant-255": (30, BYTE, 7, 1, 1),
        "rank-0": (30, 1, 0, 1, 1),
        "rank-8": (30, 1, 8, 1, 1),
        "rank-255": (30, 1, BYTE, 1, 1),
        "energy": (30, 2, 7, ENERGY + 1, 1),
        "energy-wraps-to-1": (30, 2, 7, 2**32 + 1, 1),
        "energy-half": (30, 2, 7, 2**63, 1),
        "energy-most": (30, 2, 7, LONG, 1),
        "price": (30, 1, 7, 1, PRICE + 1),
        "price-most": (30, 1, 7, 1, WORD),
        "price-of-wind": (30, 3, 7, 1, PRICE + 1),
    },
    ("enter", 2): {
        "plant-4": (30, 4, 7, 1, 1),
        "plant-24": (30, 24, 6, 0, 0),
    },
    ("enter", 4): {
        "same": (10, 1, 6, 100, 250_000),
        "other-plant": (11, 1, 7, 1, 1),
    },
    ("enter", 6): {
        "hydro-rank-3": (30, 1, 3, 1, 1),
        "coal-rank-1": (30, 2, 1, 1, 1),
        "coal-rank-3": (30, 2, 3, 1, 1),
        "wind-rank-2": (30, 3, 2, 1, 1),
        "wind-rank-5": (30, 3, 5, 1, 1),
        "relief-rank-4": (30, 5, 4, 0, 0),
    },
    ("enter", 9): {
        "sum": (30, 1, 7, ENERGY - 139, 1),
        "sum-most": (30, 3, 6, ENERGY, PRICE),
    },
    ("transfer", 1): {
        "new-0": (0, 10, 2, 1, 1),
        "old-0": (30, 0, 2, 1, 1),
        "receiver-0": (30, 10, 0, 1, 1),
        "receiver-25": (30, 10, 25, 1, 1),
        "receiver-255": (30, 10, BYTE, 1, 1),
        "energy-0": (30, 10, 2, 0, 1),
        "energy": (30, 10, 2, ENERGY + 1, 1),
        "energy-wraps-to-1": (30, 10, 2, 2**32 + 1, 1),
        "energy-most": (30, 10, 2, LONG, 1),
        "price": (30, 10, 2, 1, PRICE + 1),
        "price-most": (30, 10, 2, 1, WORD),
    },
    ("transfer", 2): {
        "receiver-4": (30, 10, 4, 1, 1),
        "receiver-24": (30, 10, 24, 1, 1),
    },
    ("transfer", 3): {
        "old-9": (30, 9, 2, 1, 1),
        "old-most": (30, WORD, 2, 1, 1),
        "old-is-new": (30, 30, 2, 1, 1),
    },
    ("transfer", 4): {
        "new-11": (11, 10, 2, 1, 1),
        "new-is-old": (10, 10, 2, 1, 1),
    },
    ("transfer", 6): {
        "from-wind": (30, 11, 2, 1, 1),
        "from-relief": (30, 13, 2, 1, 1),
        "to-wind": (30, 10, 3, 1, 1),
        "to-relief": (30, 10, 5, 1, 1),
        "wind-to-relief": (30, 11, 5, 1, 1),
        "rank-1-to-coal": (30, 12, 2, 1, 1),
        "to-itself": (30, 10, 1, 1, 1),
        "to-itself-all": (30, 10, 1, 100, 250_000),
    },
    ("transfer", 7): {
        "one-more": (30, 10, 2, 101, 1),
        "most": (30, 10, 2, ENERGY, 1),
    },
    ("meter", 1): {
        "plant-0": (0, 1, 0),
        "plant-25": (25, 1, 0),
        "plant-255": (BYTE, 1, 0),
        "metered": (1, ENERGY + 1, 0),
        "metered-most": (1, LONG, 0),
        "commissioning": (1, ENERGY, ENERGY + 1),
        "commissioning-most": (1, ENERGY, LONG),
        "both": (1, LONG, LONG),
        "metered-wraps-to-5": (1, 2**32 + 5, 5),
    },
    ("meter", 2): {
        "plant-4": (4, 1, 0),
        "plant-24": (24, 0, 0),
    },
    ("meter", 7): {
        "one-more": (1, 100, 101),
        "of-nothing": (2, 0, 1),
        "most": (3, ENERGY - 1, ENERGY),
    },
}


def refusal_cases():
    """Each refusal by each call, at item 0 and, of some, at a later item of its section."""
    for (call, number), wrongs in DECLINED.items():
        first, second = ACCEPTED[call]
        for place, (what, item) in enumerate(wrongs.items()):
            name = f"{call}-{number}-{what}"
            yield f"{name}-first", sheet_of(*BASE, SECTION[call](item, first))
            if place % 3 == 0:
                yield f"{name}-later", sheet_of(*BASE, SECTION[call](first, second, item))

    # Numbers that an item of the same section took.
    yield "enrol-4-same-section", sheet_of(enrol((1, HYDRO, 1), (2, COAL, 1), (1, HYDRO, 1)))
    yield "enter-4-same-section", sheet_of(*BASE, enter((20, 1, 7, 1, 1), (20, 1, 7, 1, 1)))
    yield "transfer-4-same-section", sheet_of(*BASE, transfer((20, 10, 2, 5, 1), (20, 10, 2, 5, 1)))
    # What is left of a contract after two transfers: 94 kWh, and one more than that.
    yield "transfer-all-that-is-left", sheet_of(*BASE, transfer(*ACCEPTED["transfer"], (22, 10, 2, 94, 1)))
    yield "transfer-7-more-than-is-left", sheet_of(*BASE, transfer(*ACCEPTED["transfer"], (22, 10, 2, 95, 1)))
    # A contract of 0 kWh has nothing to transfer.
    yield "transfer-7-of-nothing", sheet_of(*BASE, enter((20, 2, 7, 0, 0)), transfer((21, 20, 1, 1, 0)))
    # The receiver's contracts would be past their limit.
    full = enter((20, 2, 7, ENERGY - 5, 0))
    yield "transfer-sum-at", sheet_of(*BASE, full, transfer((21, 10, 2, 5, 0)), meter((2, 0, 0)))
    yield "transfer-9-sum-first", sheet_of(*BASE, full, transfer((21, 10, 2, 6, 0)))
    yield "transfer-9-sum-later", sheet_of(*BASE, full, transfer((21, 10, 2, 5, 0), (22, 10, 2, 1, 0)))

    # The book declines to be opened, whatever stands in the sheet.
    headers = {
        "month-0": {"month": 0},
        "month-13": {"month": 13},
        "month-255": {"month": BYTE},
        "residential": {"residential": PRICE + 1},
        "residential-most": {"residential": WORD},
        "both": {"month": 0, "residential": WORD},
    }
    for name, header in headers.items():
        yield f"open-1-{name}", sheet_of(*SMALL_SECTIONS, **header)
    yield "open-1-month-0-empty", sheet_of(month=0)


def order_cases():
    """Two conditions of refusals at once: the first number in a name is the one that comes."""
    at_limit = enter((40, 2, 7, ENERGY, 0))  # the coal plant can take no more
    pairs = {
        "enrol": {
            "1-before-4-class": (1, 6, 1),
            "1-before-4-price": (3, WIND, PRICE + 1),
        },
        "enter": {
            "1-before-2-price": (30, 4, 7, 1, PRICE + 1),
            "1-before-2-rank": (30, 4, 8, 1, 1),
            "1-before-4-rank": (10, 1, 0, 1, 1),
            "1-before-4-energy": (10, 1, 7, ENERGY + 1, 1),
            "1-before-6-energy": (30, 3, 1, LONG, 1),
            "1-before-6-price": (30, 1, 3, 1, WORD),
            "1-before-9-price": (30, 2, 7, 1, PRICE + 1),
            "1-before-9-energy": (30, 2, 7, ENERGY + 1, 1),
            "2-before-4": (10, 4, 7, 1, 1),
            "2-before-6": (30, 4, 3, 1, 1),
            "4-before-6": (10, 3, 1, 1, 1),
            "4-before-6-rank-3": (10, 1, 3, 1, 1),
            "4-before-9": (10, 2, 7, 1, 1),
            "6-before-9": (30, 2, 1, 1, 1),
            "6-before-9-rank-3": (30, 2, 3, ENERGY, 1),
        },
        "transfer": {
            "1-before-2-energy": (30, 10, 4, 0, 1),
            "1-before-2-price": (30, 10, 4, 1, WORD),
            "1-before-3-price": (30, 9, 2, 1, PRICE + 1),
            "1-before-3-new": (0, 9, 2, 1, 1),
            "1-before-4-energy": (11, 10, 2, 0, 1),
            "1-before-4-price": (10, 10, 2, 1, WORD),
            "1-before-6-price": (30, 10, 3, 1, WORD),
            "1-before-6-energy": (30, 10, 1, 0, 1),
            "1-before-7-energy": (30, 10, 2, ENERGY + 1, 1),
            "1-before-7-price": (30, 10, 2, 101, PRICE + 1),
            "1-before-9-price": (30, 10, 2, 1, PRICE + 1),
            "2-before-3": (30, 9, 4, 1, 1),
            "2-before-4": (11, 10, 4, 1, 1),
            "2-before-6": (30, 11, 4, 1, 1),
            "2-before-7": (30, 10, 4, 101, 1),
            "3-before-4": (11, 9, 2, 1, 1),
            "3-before-6": (30, 9, 3, 1, 1),
            "3-before-9": (30, 9, 2, 1, 1),
            "4-before-6-to-itself": (12, 10, 1, 1, 1),
            "4-before-6-to-wind": (11, 10, 3, 1, 1),
            "4-before-6-from-wind": (11, 11, 2, 1, 1),
            "4-before-7": (11, 10, 2, 101, 1),
            "4-before-9": (11, 10, 2, 1, 1),
            "6-before-7-to-itself": (30, 10, 1, 101, 1),
            "6-before-7-to-wind": (30, 10, 3, 101, 1),
            "6-before-7-rank-1": (30, 12, 2, 41, 1),
            "6-before-9-rank-1": (30, 12, 2, 1, 1),
            "6-before-9-to-itself": (41, 40, 2, 1, 1),
            "7-before-9": (30, 10, 2, 101, 1),
            "7-before-9-most": (30, 10, 2, ENERGY, 1),
        },
        "meter": {
            "1-before-2-metered": (4, ENERGY + 1, 0),
            "1-before-2-commissioning": (4, 1, LONG),
            "1-before-7": (1, 5, ENERGY + 1),
            "1-before-7-most": (1, LONG - 1, LONG),
            "2-before-7": (4, 1, 2),
        },
    }
    for call, cases in pairs.items():
        for name, item in cases.items():
            yield f"{call}-{name}", sheet_of(*BASE, at_limit, SECTION[call](item))

    # Pairs with 8 want a book of 256 contracts.
    stand = full_book()
    yield "enter-4-before-8", sheet_of(*stand, enter((256, 1, 7, 1, 1)))
    yield "enter-6-before-8", sheet_of(*stand, enter((300, 2, 1, 1, 1)))
    yield "enter-8-before-9", sheet_of(*stand, enter((300, 1, 7, ENERGY, 1)))
    yield "transfer-7-before-8", sheet_of(*stand, transfer((300, 1, 2, 11, 1)))
    # The receiver, plant 1, would be past its contract sum.
    stand = full_book(first=[(1, 2, 7, 10, 0), (2, 1, 7, ENERGY, 0)])
    yield "transfer-8-before-9", sheet_of(*stand, transfer((300, 1, 1, 1, 1)))


def full_book(held=CONTRACTS, first=((1, 1, 7, 10, 0),)):
    """Two sections that fill a book with contracts 1 to `held`: the first ones as given, the
    others of 0 kWh. Plants 1 and 2 are a hydro and a coal plant."""
    others = [(number, 1, 7, 0, 0) for number in range(len(first) + 1, held + 1)]
    return enrol((1, HYDRO, 0), (2, COAL, 0)), enter(*first, *others)


# Figures at their limits and one past them.


def limit_cases():
    """Every figure of a sheet at its limits and one past them."""
    yield from limit_figures()
    yield from limit_ranks()
    yield from limit_contracts()
    yield from limit_sums()
    yield from limit_balances()


def limit_figures():
    """Months, plants, classes, contract numbers, energies and prices."""
    for month in range(14):
        yield f"month-{month}", one_plant(COAL, [(7, 1_000, 300_000)], 500, month=month)
    for plant in (0, 1, 24, 25):
        yield f"plant-{plant}", one_plant(COAL, [(7, 100, 300_000)], 120, month=1, plant=plant)
        yield f"enter-plant-{plant}", sheet_of(enrol((1, GAS, 0), (24, GAS, 0)), enter((1, plant, 7, 5, 5)))
        yield f"meter-plant-{plant}", sheet_of(enrol((1, GAS, 0), (24, GAS, 0)), meter((plant, 5, 0)))
        yield f"receiver-{plant}", sheet_of(
            enrol((1, GAS, 0), (24, GAS, 0), (5, COAL, 0)),
            enter((1, 5, 7, 50, 300_000)),
            transfer((2, 1, plant, 20, 100_000)),
            meter((24, 20, 0), (5, 30, 0), (1, 20, 0)),
        )
    for kind in range(7):
        yield f"class-{kind}", one_plant(kind, [(6, 100, 300_000)], 130, month=2, approved=400_000)
    for number in (0, 1, WORD):
        yield f"contract-{number}", sheet_of(
            enrol((1, GAS, 0)), enter((number, 1, 7, 90, 300_000)), meter((1, 90, 0))
        )
        yield f"new-contract-{number}", sheet_of(
            enrol((1, GAS, 0), (2, COAL, 0)),
            enter((7, 1, 7, 90, 300_000)),
            transfer((number, 7, 2, 30, 200_000)),
            meter((1, 60, 0), (2, 30, 0)),
        )
        yield f"old-contract-{number}", sheet_of(
            enrol((1, GAS, 0), (2, COAL, 0)),
            enter((max(number, 1), 1, 7, 90, 300_000)),
            transfer((7, number, 2, 30, 200_000)),
            meter((1, 60, 0), (2, 30, 0)),
        )
    for name, energy in {"0": 0, "at": ENERGY, "past": ENERGY + 1}.items():
        yield f"energy-{name}", one_plant(COAL, [(7, energy, 999_999)], 5, month=6)
        yield f"metered-{name}", one_plant(COAL, [(7, 50, 300_000)], energy, month=6)
        yield f"commissioning-{name}", one_plant(
            COAL, [(6, 50, 300_000)], ENERGY, energy, month=2, approved=PRICE
        )
        yield f"transfer-energy-{name}", sheet_of(
            enrol((1, GAS, 0), (2, COAL, 0)),
            enter((1, 1, 7, ENERGY, 300_000)),
            transfer((2, 1, 2, energy, 299_999)),
            meter((1, 5, 0), (2, 5, 0)),
        )
    for name, price in {"at": PRICE, "past": PRICE + 1}.items():
        yield f"residential-{name}", one_plant(WIND, [(7, 1_000, 5)], 2_000, 10, month=9, residential=price)
        yield f"approved-{name}", one_plant(RELIEF, [(6, 1_000, 5)], 2_000, 10, month=9, approved=price)
        yield f"price-{name}", one_plant(HYDRO, [(1, 1_000, price)], 2_000, month=9)
        yield f"price-of-wind-{name}", one_plant(WIND, [(7, 1_000, price)], 900, month=3, approved=7)
        yield f"transfer-price-{name}", sheet_of(
            enrol((1, GAS, 0), (2, COAL, 0)),
            enter((1, 1, 7, 1_000, 500_000)),
            transfer((2, 1, 2, 400, price)),
            meter((1, 600, 0), (2, 400, 0)),
        )


def limit_ranks():
    """Every rank with every class, and the numbers before and after the ranks."""
    for kind, name in CLASS_NAMES.items():
        for rank in range(9) if kind == HYDRO else range(1, 8):
            yield f"{name}-rank-{rank}", one_plant(
                kind, [(rank, 1_000, 210_000)], 1_300, month=10, residential=190_000, approved=330_000
            )


def limit_contracts():
    """256 contracts in a book, and one more."""
    stand = full_book()
    yield "contracts-256", sheet_of(*stand, meter((1, 10, 0)))
    yield "contracts-257", sheet_of(*stand, enter((257, 1, 7, 0, 0)))
    # One section of 250, and one of 7 whose last item is one too many.
    most = full_book(held=250)
    later = [(number, 2, 6, 1, 1) for number in range(251, 258)]
    yield "contracts-257-later", sheet_of(*most, enter(*later))
    # A transfer makes the last contract; a second one is one too many, of the whole energy too.
    nearly = full_book(held=255)
    yield "contracts-256-by-transfer", sheet_of(
        *nearly, transfer((300, 1, 2, 4, 1)), meter((1, 6, 0), (2, 4, 0))
    )
    yield "contracts-257-by-transfer", sheet_of(*nearly, transfer((300, 1, 2, 4, 1), (301, 1, 2, 6, 1)))


def limit_sums():
    """The sum of a plant's contracts at its limit and past it."""
    plants = enrol((1, HYDRO, 0), (2, HYDRO, 0))
    third = ENERGY // 3
    three = [(1, 1, 6, third, 0), (2, 1, 7, third, 0), (3, 1, 1, third, 0)]
    readings = meter((1, 5, 0))
    yield "sum-at", sheet_of(plants, enter(*three), readings)
    yield "sum-at-and-nothing", sheet_of(plants, enter(*three, (4, 1, 7, 0, 0)), readings)
    yield "sum-past", sheet_of(plants, enter(*three, (4, 1, 7, 1, 0)), readings)
    yield "sum-past-other-section", sheet_of(plants, enter(*three), enter((4, 1, 2, 1, 0)), readings)
    # Another plant has a sum of its own.
    yield "sum-of-another", sheet_of(plants, enter(*three, (4, 2, 7, ENERGY, 0)), readings)
    yield "sum-two-past", sheet_of(plants, enter((1, 1, 7, ENERGY, 0), (2, 1, 6, ENERGY, 0)))
    # What was transferred is free again: 10 kWh can be entered, 11 cannot.
    handed = transfer((9, 2, 2, 10, 0))
    yield "sum-refilled", sheet_of(plants, enter(*three), handed, enter((4, 1, 7, 10, 0)), readings)
    yield "sum-refilled-past", sheet_of(plants, enter(*three), handed, enter((4, 1, 7, 11, 0)), readings)
    # The receiver's sum: a third reaches the limit, one kWh more goes past it.
    entered = enter((1, 1, 7, third + 5, 0), (2, 2, 6, third, 0), (3, 2, 7, third, 0))
    yield "receiver-sum-at", sheet_of(plants, entered, transfer((9, 1, 2, third, 0)), meter((2, 5, 0)))
    yield "receiver-sum-past", sheet_of(plants, entered, transfer((9, 1, 2, third + 1, 0)))
    yield "receiver-sum-past-later", sheet_of(plants, entered, transfer((9, 1, 2, third, 0), (8, 1, 2, 1, 0)))
    # The receiver gives some back, and so has room again.
    yield "receiver-sum-and-back", sheet_of(
        plants, entered, transfer((9, 1, 2, third, 0), (8, 2, 1, 5, 0), (7, 1, 2, 5, 0)), meter((2, 5, 0))
    )


def limit_balances():
    """Side balances at their limit, 3,000,000,000 kWh x 1 yuan, and past it.

    The smallest step is 1 kWh at a difference of 1 micro-yuan.
    """
    plants = enrol((1, HYDRO, 0), (2, HYDRO, 0), (3, HYDRO, 0), (4, HYDRO, 0))
    readings = meter((1, 0, 0), (2, 0, 0), (3, 0, 0))
    # Plant 1 gives all to plant 2: up to the limit with a fee, down to it with one below zero.
    ways = {"up": (PRICE, 0), "down": (0, PRICE)}
    for name, (price, transfer_price) in ways.items():
        entered = enter((10, 1, 7, ENERGY, price), (11, 3, 7, 5, 500_000))
        all_given = (20, 10, 2, ENERGY, transfer_price)
        # A price for the smallest step further, and one for the smallest step back.
        further, back = (499_999, 500_001) if name == "up" else (500_001, 499_999)
        yield f"balance-{name}-at", sheet_of(plants, entered, transfer(all_given), readings)

        # Plant 1 then gives 1 kWh to plant 3: past the giver's limit, on it, and back from it.
        more = enter((12, 1, 7, 1, 500_000))
        for step, step_price in (("past", further), ("on", 500_000), ("back", back)):
            yield f"balance-{name}-giver-{step}", sheet_of(
                plants, entered, transfer(all_given), more, transfer((21, 12, 3, 1, step_price)), readings
            )
        # Plant 2 passes its contract on to plant 4 without a fee, and then takes 1 kWh from
        # plant 3: past the receiver's limit, on it, and back from it.
        passed = (22, 20, 4, ENERGY, price)
        for step, step_price in (("past", further), ("on", 500_000), ("back", back)):
            yield f"balance-{name}-receiver-{step}", sheet_of(
                plants, entered, transfer(all_given, passed, (23, 11, 2, 1, step_price)), readings
            )
        # Three thirds reach the limit; a fourth, of 1 kWh, goes past it.
        third = ENERGY // 3
        thirds = [(20 + place, 10, 2, third, transfer_price) for place in range(3)]
        yield f"balance-{name}-thirds", sheet_of(plants, entered, transfer(*thirds), readings)
        again = [*thirds, (30, 20, 4, third, price)]
        yield f"balance-{name}-thirds-past", sheet_of(
            plants, entered, transfer(*again), more, transfer((31, 12, 2, 1, further)), readings
        )
        # Refilled: plant 1 gives two thirds, is given new contracts, and gives a third twice.
        refill = enter((13, 1, 6, 2 * third, price))
        yield f"balance-{name}-refilled", sheet_of(
            plants,
            entered,
            transfer((20, 10, 2, 2 * third, transfer_price)),
            refill,
            transfer((21, 13, 3, third, transfer_price), (22, 13, 4, third, transfer_price)),
            readings,
        )
        # To and fro: the second transfer brings both balances back to zero.
        yield f"balance-{name}-to-and-fro", sheet_of(
            plants, entered, transfer(all_given, (24, 20, 1, ENERGY, transfer_price)), readings
        )


# Settlement.


def month_cases():
    """Every class in every month: three plants, over, short and exactly on contract.

    The energies are large, so that one micro-yuan more in a price shows in the payment.
    """
    contracts = [(6, 640_000, 251_300), (7, 360_000, 198_700)]
    plants = [(contracts, metered, 0) for metered in (1_230_457, 770_311, 1_000_000)]
    for kind, name in CLASS_NAMES.items():
        for number in range(1, 13):
            yield f"{name}-{number:02}", many_plants(
                kind, plants, month=number, residential=231_507, approved=401_209
            )


def commissioning_cases():
    """Commissioning energy C beside the rank 6 sum P, in every class and season."""
    # Three plants, with C below P, equal to it and above it.
    contracts = [(6, 400_000, 251_300), (7, 500_000, 198_700)]
    for kind, name in CLASS_NAMES.items():
        for season, number in SEASONS.items():
            figures = {"month": number, "residential": 231_507, "approved": 401_209}
            for way, metered in (("over", 1_100_000), ("short", 700_000), ("exact", 900_000)):
                plants = [(contracts, metered, energy) for energy in (150_000, 400_000, 550_000)]
                yield f"{name}-{season}-{way}", many_plants(kind, plants, **figures)

    # Ranks 1 and 2 come before commissioning energy and cut it: nothing of it is settled at
    # 400,000 and 500,000, 100,000 at 600,000, and all of it from 850,000 on. The claim of
    # rank 6 is 50,000 all the same.
    cut = [(1, 300_000, 285_100), (2, 200_000, 262_300), (6, 400_000, 251_300), (7, 100_000, 198_700)]
    for season, number in SEASONS.items():
        figures = {"month": number, "residential": 231_507, "approved": 401_209}
        for metered in (400_000, 500_000, 600_000, 850_000, 880_000, 1_000_000, 1_100_000):
            yield f"cut-{season}-{metered}", one_plant(HYDRO, cut, metered, 350_000, **figures)
        # All of the meter is from commissioning.
        yield f"all-{season}", one_plant(HYDRO, cut, 900_000, 900_000, **figures)
    # Four plants: no contracts of rank 6, no contracts at all, C one below P and one above it.
    for kind, name in CLASS_NAMES.items():
        plants = [
            ([(7, 500, 198_700)], 600, 300),
            ([], 600, 300),
            ([(6, 300, 198_700)], 300, 299),
            ([(6, 300, 198_700)], 301, 301),
        ]
        yield f"{name}-beside", many_plants(kind, plants, month=12, residential=231_507, approved=401_209)
    # At the limits: C takes the place of all contracts.
    yield "most", one_plant(HYDRO, [(6, ENERGY, PRICE)], ENERGY, ENERGY, month=1, approved=PRICE)
    yield "most-rank-7", one_plant(HYDRO, [(7, ENERGY, PRICE)], ENERGY, ENERGY, month=1, approved=PRICE)
    yield "most-less-one", one_plant(HYDRO, [(6, ENERGY, PRICE)], ENERGY, ENERGY - 1, month=1)


def aluminium_cases():
    """Energy missing in rank 5: 60,000 micro-yuan more for each kWh, in the dry season only."""
    contracts = [(4, 100_000, 190_000), (5, 500_000, 247_000), (6, 200_000, 288_000)]
    for number in range(1, 13):
        # 200,000 kWh are missing in rank 5.
        yield f"short-{number:02}", one_plant(HYDRO, contracts, 400_000, month=number, approved=288_000)
    for season, number in SEASONS.items():
        figures = {"month": number, "approved": 288_000}
        # All of rank 5 is settled, all but 1 kWh, nothing of it, nothing at all.
        yield f"full-{season}", one_plant(HYDRO, contracts, 600_000, **figures)
        yield f"one-missing-{season}", one_plant(HYDRO, contracts, 599_999, **figures)
        yield f"none-{season}", one_plant(HYDRO, contracts, 100_000, **figures)
        yield f"nothing-metered-{season}", one_plant(HYDRO, contracts, 0, **figures)
        # Commissioning above P takes the energy of rank 5, although more is metered than contracted.
        yield f"missing-though-over-{season}", one_plant(HYDRO, contracts, 900_000, 700_000, **figures)
        yield f"missing-though-exact-{season}", one_plant(HYDRO, contracts, 800_000, 500_000, **figures)
        # Within the free two in a hundred: the charge for rank 5 has no free part.
        yield f"within-two-in-a-hundred-{season}", one_plant(
            HYDRO, [(4, 1_000_000, 0), (5, 10_000, 0)], 1_001_000, **figures
        )
        # Three contracts of rank 5.
        yield f"three-{season}", one_plant(
            HYDRO, [(5, 5, 1_000_000), (5, 3, 100_000), (5, 2, 10_000)], 7, **figures
        )
    # Transferred energy is missing at the receiver, and no more at the giver.
    yield "transferred", sheet_of(
        enrol((1, HYDRO, 288_000), (2, HYDRO, 262_000)),
        enter((1, 1, 5, 1_000, 247_000)),
        transfer((2, 1, 2, 400, 240_000)),
        meter((1, 600, 0), (2, 150, 0)),
        month=4,
    )


def share_cases():
    """Equal ratio within a rank, where there are odd kilowatt-hours to give."""
    ties = (((1, 1), 1), ((1, 1, 1), 2), ((5, 3, 2), 7))
    odd = (
        ((1, 1, 1), 1), ((1, 0, 2), 2), ((0, 1, 0), 1), ((0, 0, 3), 2), ((3, 3, 3), 4), ((3, 3, 3), 5),
        ((2, 3, 5), 7), ((2, 5, 3), 7), ((7, 7, 7), 10), ((7, 1, 1), 8), ((1, 1, 7), 8), ((1, 1, 1, 1, 1), 3),
        ((9, 8, 7, 6, 5, 4, 3, 2, 1), 31), ((1, 1, 1, 1, 1, 1, 1), 6),
    )
    # In each rank, with the energy cut by the meter.
    for claims, total in ties:
        name = share_name(claims, total)
        for rank in RANKS[HYDRO]:
            yield f"rank-{rank}-{name}", one_plant(HYDRO, at_digit_prices(rank, claims), total, month=8)
        yield f"gas-{name}", one_plant(GAS, at_digit_prices(7, claims), total, month=8)

    # In rank 6, with the energy cut by commissioning. The meter is on contract and the
    # approved price is 0, so the payment has no other part: 322 fen for 3, 2, 2.
    for claims, total in ties + odd:
        name = share_name(claims, total)
        whole = sum(claims)
        yield f"commissioned-{name}", one_plant(
            COAL, at_digit_prices(6, claims), whole, whole - total, month=8
        )

    # Contracts that arrive out of number order are shared by rising number.
    for claims, total in ties:
        name = share_name(claims, total)
        held = at_digit_prices(6, claims)
        numbers = range(11, 11 + len(held))
        rows = [(number, 1, *contract) for number, contract in zip(numbers, held, strict=True)]
        whole = sum(claims)
        ways = {"falling": rows[::-1]}
        if len(rows) > 2:
            ways["turned"] = rows[1:] + rows[:1]
        for way, arriving in ways.items():
            yield f"{way}-{name}", sheet_of(
                enrol((1, GAS, 0)), enter(*arriving), meter((1, whole, whole - total)), month=8
            )
            yield f"{way}-sections-{name}", sheet_of(
                enrol((1, GAS, 0)), *[enter(row) for row in arriving], meter((1, whole, whole - total)), month=8
            )
    # A transferred contract takes its place by its number: before, between or after the
    # receiver's own contracts.
    for new in (5, 15, 25):
        yield f"transferred-as-{new}", sheet_of(
            enrol((1, GAS, 0), (2, COAL, 0)),
            enter((10, 1, 6, 4, 1_000_000), (20, 2, 6, 3, 100_000), (11, 2, 6, 5, 10_000)),
            transfer((new, 10, 2, 3, 1_000_000)),
            meter((1, 1, 0), (2, 11, 4)),
            month=8,
        )
    # Two ranks at once: the first is full, the second is cut.
    yield "two-ranks", one_plant(
        HYDRO, at_digit_prices(4, (5, 3, 2)) + at_digit_prices(7, (5, 3, 2)), 17, month=8
    )
    yield "mixed-ranks", one_plant(
        HYDRO,
        [(7, 5, 1_000_000), (4, 5, 1), (7, 3, 100_000), (4, 3, 1), (7, 2, 10_000), (6, 2, 1)],
        17,
        month=8,
    )
    # Products near the largest that a share meets, 3,000,000,000 x 3,000,000,000.
    third = ENERGY // 3
    for total in (ENERGY, ENERGY - 1, ENERGY - 2, 2 * third + 1, third + 1, 1):
        yield f"large-{total}", one_plant(HYDRO, at_digit_prices(7, (third, third, third)), total, month=8)
    for total in (ENERGY, ENERGY - 1, 1_234_567_891):
        claims = (1, ENERGY - 2, 1)
        yield f"lopsided-{total}", one_plant(HYDRO, at_digit_prices(7, claims), total, month=8)


def settle_cases():
    """Everything else that a settlement turns on."""
    yield from settle_nothing()
    yield from settle_two_in_a_hundred()
    yield from settle_payments()
    yield from settle_meters()
    yield from settle_transfers()


def settle_nothing():
    """No contracts, contracts of 0 kWh, and nothing metered, in every class and season."""
    some = [(6, 60_000, 250_000), (7, 40_000, 200_000)]
    none = [(6, 0, 250_000), (7, 0, 200_000)]
    # Four plants: with no contracts, and with contracts of 0 kWh, all of M is assessed; with
    # nothing metered the net is below zero; and with nothing at all it is zero.
    plants = [([], 123_457, 0), (none, 123_457, 0), (some, 0, 0), (none, 0, 0)]
    for kind, name in CLASS_NAMES.items():
        for season, number in SEASONS.items():
            yield f"nothing-{name}-{season}", many_plants(
                kind, plants, month=number, residential=231_507, approved=401_209
            )
    yield "no-contracts-nothing-metered", one_plant(HYDRO, [], 0, month=1)
    yield "zero-beside-some", one_plant(HYDRO, [(7, 0, 900_000), (7, 50, 1), (6, 0, 0)], 40, month=5)


def settle_two_in_a_hundred():
    """Deviations about the free two in a hundred of the contracts."""
    for kind, number in ((COAL, 1), (COAL, 7), (COAL, 5), (WIND, 7), (RELIEF, 1)):
        figures = {"month": number, "residential": 231_507, "approved": 401_209}
        for way, meters in (("short", (97, 98, 99)), ("over", (101, 102, 103))):
            plants = [([(6, 100, 250_000)], metered, 0) for metered in meters]
            yield f"{CLASS_NAMES[kind]}-{number:02}-{way}-of-100", many_plants(kind, plants, **figures)
    # Contracts of which two in a hundred are 0.02, 0.98, 1, 1.02 and 1.98 kWh.
    for held in (1, 49, 50, 51, 99):
        plants = [([(7, held, 200_000)], max(held + deviation, 0), 0) for deviation in (-2, -1, 1, 2)]
        yield f"contracted-{held}", many_plants(GAS, plants, month=9)
    # At the limit of the contracts.
    for missing in (60_000_000, 60_000_001, ENERGY):
        yield f"most-contracted-{missing}-missing", one_plant(
            GAS, [(7, ENERGY, 200_000)], ENERGY - missing, month=3
        )


def settle_payments():
    """Payments: rounded down to whole fen, also below zero, and the largest of either sign."""
    # 11 kWh contracted and 10 metered in the wet season: 78 hundredths at 126,859 are
    # 9,895,002 grains. At 9,895 micro-yuan the contract brings 2 grains less, at 9,896
    # 998 more: -1 fen and 0 fen.
    for price in (9_894, 9_895, 9_896, 10_895, 10_896):
        yield f"about-zero-{price}", one_plant(COAL, [(7, 11, price)], 10, month=7)
    # A relief plant without contracts at approved price 0 pays 25,372 for each hundredth.
    for metered in (1, 2, 39, 40, 2_500, 5_000):
        yield f"below-zero-{metered}", one_plant(RELIEF, [], metered, month=7)
    # Whole fen to the grain, a little below, a little above.
    for price in (9_999, 10_000, 10_001, 20_000):
        yield f"about-a-fen-{price}", one_plant(COAL, [(7, 1, price)], 1, month=7)
    # The largest net: 3,000,000,000 kWh at 1 yuan, and a side balance at its limit.
    yield "largest-net", sheet_of(
        enrol((1, HYDRO, 0), (2, HYDRO, 0)),
        enter((1, 1, 7, ENERGY, PRICE)),
        transfer((2, 1, 2, ENERGY, 0)),
        enter((3, 1, 7, ENERGY, PRICE)),
        meter((1, ENERGY, 0), (2, ENERGY, 0)),
    )
    # The smallest: a side balance at its lower limit, all of rank 5 missing in the dry season.
    yield "smallest-net", sheet_of(
        enrol((1, HYDRO, 0), (2, HYDRO, 0)),
        enter((1, 1, 5, ENERGY, PRICE)),
        transfer((2, 1, 2, ENERGY, 0)),
        meter((2, 0, 0), (1, 0, 0)),
    )


def settle_meters():
    """Readings: repeated, missing, and of many plants."""
    plants = enrol((6, COAL, 0), (3, HYDRO, 0), (17, GAS, 0))
    contracts = enter((1, 3, 7, 50, 300_000), (2, 6, 6, 50, 300_000))
    # The last reading stands, in the same section or in another.
    yield "repeated", sheet_of(plants, contracts, meter((6, 1, 0), (6, 2, 2), (6, 50, 0)))
    yield "repeated-later", sheet_of(plants, contracts, meter((6, 50, 7), (3, 5, 0)), meter((6, 20, 0)))
    yield "repeated-to-zero", sheet_of(plants, contracts, meter((6, 50, 50)), meter((6, 0, 0)))
    # A reading that is declined ends the sheet.
    yield "repeated-declined", sheet_of(plants, contracts, meter((6, 50, 7), (6, 6, 7)))
    # Plants are printed in rising number, whatever the order of the readings; unmetered ones are not.
    yield "rising", sheet_of(plants, contracts, meter((17, 5, 0), (6, 50, 0), (3, 60, 0)))
    yield "only-one-metered", sheet_of(plants, contracts, meter((17, 5, 0)))
    yield "none-metered", sheet_of(plants, contracts)
    # A contract after the reading counts as well.
    yield "contract-after-meter", sheet_of(plants, meter((3, 60, 0)), contracts)
    # All 24 plants, falling, of all classes, none with a contract.
    falling = [(plant, plant % 5 + 1, plant * 10_000) for plant in range(24, 0, -1)]
    for season, number in SEASONS.items():
        yield f"24-plants-{season}", sheet_of(
            enrol(*falling),
            meter(*[(plant, plant * 1_000 + kind, plant) for plant, kind, _ in falling]),
            month=number,
            residential=222_222,
        )


def settle_transfers():
    """Fees in the payment of giver and receiver, and contracts after a transfer."""
    plants = enrol((1, HYDRO, 300_000), (2, COAL, 400_000), (3, HYDRO, 250_000))
    contracts = enter((10, 1, 7, 1_000, 300_000), (11, 2, 6, 500, 400_000), (12, 3, 1, 800, 280_000))
    readings = meter((1, 700, 0), (2, 900, 0), (3, 800, 0))

    def handed(*items, number=1):
        return sheet_of(plants, contracts, transfer(*items), readings, month=number)

    for season, number in SEASONS.items():
        # The receiver pays the giver, nobody pays, the giver pays the receiver.
        for price in (200_000, 300_000, 400_001):
            yield f"transfer-{season}-at-{price}", handed((20, 10, 2, 300, price), number=number)
    yield "transfer-all", handed((20, 10, 2, 1_000, 250_000))
    yield "transfer-one", handed((20, 10, 2, 1, 299_999))
    yield "transfer-rank-1", handed((20, 12, 1, 300, 250_000))
    yield "transfer-lower-number", handed((1, 10, 2, 300, 250_000))
    # The contract goes further, to a third plant or back, with its rank and its first price.
    yield "transfer-further", handed((20, 10, 2, 300, 250_000), (21, 20, 3, 200, 350_000))
    yield "transfer-back", handed((20, 10, 2, 300, 250_000), (21, 20, 1, 300, 250_000))
    yield "transfer-in-parts", handed((20, 10, 2, 300, 1), (21, 10, 3, 300, 2), (22, 10, 2, 400, 999_999))
    # Giver or receiver is not metered: its fee is paid by no line.
    for plant in (1, 2):
        yield f"transfer-only-{plant}-metered", sheet_of(
            plants, contracts, transfer((20, 10, 2, 300, 200_000)), meter((plant, 700, 0))
        )
    # A fee takes the giver below zero.
    yield "transfer-giver-below-zero", sheet_of(
        plants, contracts, transfer((20, 10, 2, 1_000, PRICE)), meter((1, 0, 0), (2, 1_500, 0))
    )


# Random sheets.


class Draft:
    """A random sheet that is sound, or nearly always so: a transfer may be declined.

    It keeps what it needs of the book to stay sound.
    """

    def __init__(self, source, most_plants, most_contracts):
        self.source = source
        self.month = source.randint(1, 12)
        self.residential = source.randint(0, 400_000)
        self.scale = source.choice((3, 20, 1_000, 100_000, 20_000_000))
        self.held = {}  # contract: (plant, rank, energy)
        plants = source.sample(range(1, 25), source.randint(1, most_plants))
        self.classes = {plant: source.choice((1, 1, 1, 2, 2, 3, 4, 4, 5)) for plant in plants}
        enrolled = [(plant, kind, self.price()) for plant, kind in self.classes.items()]
        entered = [self.contract(number) for number in self.numbers(source.randint(0, most_contracts))]
        handed = [item for _ in range(source.choice((0, 0, 1, 2, 3))) for item in self.handed()]
        readings = [self.reading(plant) for plant in plants if source.random() < 0.9]
        source.shuffle(readings)
        self.sections = self.arranged(enrolled, entered, handed, readings)

    def price(self):
        return self.source.randint(0, 600_000)

    def numbers(self, count):
        """Numbers for contracts, near each other or far apart, in no order."""
        return self.source.sample(range(1, self.source.choice((20, 300, WORD + 1))), count)

    def contract(self, number):
        plant = self.source.choice(list(self.classes))
        rank = self.source.choice(RANKS[self.classes[plant]])
        energy = self.source.randint(0, self.scale)
        self.held[number] = (plant, rank, energy)
        return number, plant, rank, energy, self.price()

    def handed(self):
        """A transfer, or none where the contracts allow none; one in twelve may be declined."""
        source = self.source
        new = source.choice([number for number in range(1, 500) if number not in self.held])
        if source.random() < 1 / 12:
            old = source.choice([*self.held, 500])
            return [(new, old, source.choice(list(self.classes)), source.randint(1, self.scale), self.price())]
        possible = [
            (old, receiver)
            for old, (giver, rank, energy) in self.held.items()
            for receiver, kind in self.classes.items()
            if energy > 0
            and receiver != giver
            and self.classes[giver] in TRANSFERRING
            and kind in TRANSFERRING
            and rank in RANKS[kind]
        ]
        if not possible:
            return []
        old, receiver = source.choice(possible)
        giver, rank, energy = self.held[old]
        moved = source.choice((1, energy, source.randint(1, energy)))
        self.held[old] = (giver, rank, energy - moved)
        self.held[new] = (receiver, rank, moved)
        return [(new, old, receiver, moved, self.price())]

    def reading(self, plant):
        """A reading about the sum of the plant's contracts."""
        source = self.source
        whole = sum(energy for holder, _, energy in self.held.values() if holder == plant)
        margin = whole // 25 + 1
        metered = source.choice((
            whole,
            whole + source.randint(-margin, margin),
            source.randint(whole // 2, whole),
            source.randint(whole, whole + whole // 2 + 1),
            source.randint(0, self.scale),
        ))
        metered = max(metered, 0)
        started = source.choice((0, 0, 0, source.randint(0, metered), metered))
        return plant, metered, started

    def arranged(self, enrolled, entered, handed, readings):
        """Sections of these items, as (name, items): some in two parts, some empty ones."""
        source = self.source
        rows = [("enrol", enrolled), ("enter", entered), ("transfer", handed), ("meter", readings)]
        if source.random() < 0.15:  # the readings first
            rows = [rows[0], rows[3], rows[1], rows[2]]
        parts = []
        for name, items in rows:
            cut = source.randint(0, len(items)) if source.random() < 0.25 else len(items)
            parts += [(name, part) for part in (items[:cut], items[cut:]) if part]
            if source.random() < 0.05:
                parts.append((source.choice(list(SECTION)), []))
        return parts

    def bytes(self):
        """The sheet."""
        return sheet_of(*self.parts(), month=self.month, residential=self.residential)

    def parts(self):
        """The bytes of each section."""
        return [SECTION[name](*items) for name, items in self.sections]


def sound_cases():
    """Random sound sheets, a few of them with a transfer that is declined."""
    for seed in range(450):
        yield f"{seed:03}", Draft(random.Random(seed), most_plants=5, most_contracts=10).bytes()


def damaged_cases():
    """Random sound sheets with one thing wrong, in eight ways."""
    ways = {
        "changed": byte_changed,
        "removed": byte_removed,
        "inserted": byte_inserted,
        "cut": cut_off,
        "appended": bytes_appended,
        "extreme": figure_extreme,
        "swapped": sections_swapped,
        "repeated": section_repeated,
    }
    for place, (name, way) in enumerate(ways.items(), start=1):
        for number in range(45):
            source = random.Random(1_000 * place + number)
            draft = Draft(source, most_plants=4, most_contracts=5)
            yield f"{name}-{number:02}", way(source, draft)


def byte_changed(source, draft):
    data = bytearray(draft.bytes())
    data[source.randrange(len(data))] ^= source.choice((1, 2, 4, 128, source.randint(1, 255)))
    return bytes(data)


def byte_removed(source, draft):
    data = bytearray(draft.bytes())
    del data[source.randrange(len(data))]
    return bytes(data)


def byte_inserted(source, draft):
    data = bytearray(draft.bytes())
    data.insert(source.randint(0, len(data)), source.choice((0, 1, 255, source.randrange(256))))
    return bytes(data)


def cut_off(source, draft):
    data = draft.bytes()
    return data[: source.randrange(len(data))]


def bytes_appended(source, draft):
    return draft.bytes() + source.randbytes(source.choice((1, 2, 3, 17, source.randint(4, 40))))


def figure_extreme(source, draft):
    """One figure of one item is replaced by one at the end of its range or of its limits."""
    extremes = {
        1: (0, 1, 24, 25, BYTE),
        4: (0, 1, PRICE, PRICE + 1, WORD),
        8: (0, 1, ENERGY, ENERGY + 1, 2**63, LONG),
    }
    name, items = source.choice([section for section in draft.sections if section[1]])
    place = source.randrange(len(items))
    field = source.randrange(len(items[place]))
    width = list(KIND_BY_NAME[name].item.values())[field]
    figures = list(items[place])
    figures[field] = source.choice(extremes[width])
    items[place] = tuple(figures)
    return draft.bytes()


def sections_swapped(source, draft):
    """Two sections change places, if there are two."""
    count = len(draft.sections)
    one = source.randrange(count)
    other = (one + source.randrange(1, max(count, 2))) % count
    draft.sections[one], draft.sections[other] = draft.sections[other], draft.sections[one]
    return draft.bytes()


def section_repeated(source, draft):
    """A section comes twice: counted in the header, or not counted and so left over."""
    place = source.randrange(len(draft.sections))
    again = source.randint(place, len(draft.sections))
    rows = draft.parts()
    rows.insert(again, rows[place])
    counted = source.choice((len(rows), len(rows), len(rows) - 1))
    return sheet_of(*rows, month=draft.month, residential=draft.residential, count=counted)


# The program.

GROUPS = {
    "worked": worked_cases,
    "document": document_cases,
    "form": form_cases,
    "sections": sections_cases,
    "refusal": refusal_cases,
    "order": order_cases,
    "limit": limit_cases,
    "month": month_cases,
    "commissioning": commissioning_cases,
    "aluminium": aluminium_cases,
    "share": share_cases,
    "settle": settle_cases,
    "sound": sound_cases,
    "damaged": damaged_cases,
}


def main(arguments):
    """The status of the program."""
    if arguments not in ([], ["--count"]):
        print("usage: make_cases.py [--count]", file=sys.stderr)
        return 2
    names = set()
    for group, cases in GROUPS.items():
        if arguments:
            print(group, len(list(cases())))
            continue
        for ending, data in cases():
            name = f"{group}-{ending}"
            assert name not in names, f"two cases have the name {name}"
            names.add(name)
            print(name, data.hex())
    return 0


if __name__ == "__main__":
    sys.exit(main(sys.argv[1:]))
