"""Print runs of calls on month books, as text: the same ones every time.

    python3 make_runs.py > RUNS

A line is a call (docs/CHECKING.md, "Runs of calls"), and every run starts with
a `book` line. First come runs that look for each refusal, each limit and the
order of the checks, then random ones that are mostly sensible.
"""

import sys
from itertools import product
from random import Random

RULES = ("equal-ratio", "in-order")
HYDRO, COAL, GAS, WIND, RELIEF = 1, 2, 3, 4, 5
RANKS = {HYDRO: (1, 2, 4, 5, 6, 7), COAL: (6, 7), GAS: (6, 7), WIND: (6, 7), RELIEF: (6, 7)}
TRADING = (HYDRO, COAL, GAS)

ENERGY = 3_000_000_000
PRICE = 1_000_000
NUMBER = 4_294_967_295
FEN = 100_000_000
CONTRACTS = 256
CLAIM = 300_000_000_000
PRODUCT = 9_000_000_000_000_000_000
WIDEST = 2**63 - 1

RANDOM_BOOKS = 90


def line(*words):
    return " ".join(map(str, words))


def finish(*plants):
    """Issue and close plants."""
    return [line(call, plant) for plant in plants for call in ("issue", "close")]


# -------------------------------------------------------------------- limits


def unopened():
    """A book that was made and not opened: January, residential price 0."""
    yield [
        "book in-order",
        "settle 1 0 0", "issue 1", "turn 0", "open 0 0 in-order", "amend 1 0",
        "enrol 1 1 300000", "meter 1 10 4", "settle 1 0 0", *finish(1), "turn 0",
    ]
    # By five turns it is June, where the residential price is the paid one.
    yield ["book equal-ratio", *["turn 7"] * 4, "turn 0", "enrol 1 4 9", "meter 1 10 0",
           "settle 1 0 0", "issue 1"]


def open_limits():
    yield [
        "book equal-ratio",
        "enrol 1 1 0", "meter 1 1 0",
        *(f"open {month} 0 in-order" for month in (0, 13, 255)),
        f"open 1 {PRICE + 1} in-order", f"open 0 {PRICE + 1} in-order",
        f"open 12 {NUMBER} in-order",
        "settle 1 0 0",  # nothing was dropped
        f"open 12 {PRICE} in-order", "settle 1 0 0", "enrol 1 4 0", "meter 1 1 0", "settle 1 0 0",
        *finish(1), f"turn {PRICE + 1}", f"turn {NUMBER}", f"turn {PRICE}", "settle 1 0 0",
        "open 1 0 in-order", "enrol 1 1 0", "meter 1 5 0", "settle 1 0 0",
    ]


def enrol_limits():
    yield [
        "book in-order",
        *(f"enrol {plant} 1 0" for plant in (0, 1, 24, 25, 255, 1, 24)),
        *(f"enrol 2 {number} 0" for number in (0, 6, 255)),
        f"enrol 2 1 {PRICE + 1}", f"enrol 2 1 {NUMBER}", f"enrol 2 1 {PRICE}",
        f"enrol 1 1 {PRICE + 1}", "enrol 1 6 0", "enrol 1 5 0",
        *(f"enrol {number + 2} {number} 7" for number in (1, 2, 3, 4, 5)),
        *(f"meter {plant} 3 3" for plant in range(1, 8)),
        *(f"settle {plant} 0 0" for plant in range(1, 9)),
    ]


def enter_limits():
    yield [
        "book equal-ratio", "enrol 1 1 0", "enrol 24 1 0", "enrol 2 4 0",
        *(f"enter {number} 1 7 1 0" for number in (0, 1, NUMBER, NUMBER)),
        *(f"enter 2 {plant} 7 1 0" for plant in (0, 25, 255, 23, 24)),
        *(f"enter {10 + rank} 1 {rank} 1 5" for rank in (0, 1, 2, 3, 4, 5, 6, 7, 8, 255)),
        *(f"enter {20 + rank} 2 {rank} 1 5" for rank in (0, 1, 2, 3, 4, 5, 6, 7, 8, 255)),
        f"enter 3 1 7 1 {PRICE + 1}", f"enter 3 1 7 1 {NUMBER}", f"enter 3 1 7 1 {PRICE}",
        f"enter 4 1 7 {ENERGY + 1} 0", f"enter 4 1 7 {WIDEST} 0", f"enter 4 1 7 {ENERGY} 0",
        *(f"enter 4 1 7 {ENERGY - less} 0" for less in (8, 9, 10)),
        "enter 5 1 7 1 0", "enter 6 1 7 1 0", "enter 6 1 7 0 0", "enter 7 1 7 1 0",
        f"enter 8 24 7 {ENERGY} 0", f"enter 8 24 7 {ENERGY - 1} 0", "enter 9 24 7 1 0",
        "meter 1 0 0", "settle 1 13 13", "settle 1 12 12", "settle 1 11 11",
    ]


def amend_limits():
    yield [
        "book in-order", "enrol 1 1 0", "enrol 2 2 0", "meter 1 30 0", "meter 2 30 0",
        "amend 1 0", "enter 1 1 7 10 100", "enter 2 1 7 20 200", f"enter {NUMBER} 2 6 5 300",
        f"amend 0 {ENERGY}", "amend 0 0", f"amend 1 {ENERGY + 1}", f"amend 1 {WIDEST}",
        f"amend 9 {ENERGY + 1}", f"amend 9 {ENERGY}", "amend 3 0",
        "amend 1 10", "settle 1 2 2", "amend 1 15", "settle 1 2 2", "amend 1 3", "settle 1 2 2",
        "amend 1 0", "settle 1 2 2", "settle 2 1 1",
        f"amend 1 {ENERGY - 19}", f"amend 1 {ENERGY}", f"amend 1 {ENERGY - 20}", "settle 1 2 2",
        "amend 2 21", "amend 2 20", "amend 2 19", "amend 2 21", "amend 2 20",
        "enter 3 1 7 1 0", "enter 3 1 7 0 0", "amend 3 1", "amend 3 0",
        f"amend {NUMBER} {ENERGY}", f"amend {NUMBER} {ENERGY}", "settle 2 1 1",
        "amend 1 0", "amend 3 1", "settle 1 3 3",
        *finish(1), "amend 1 0", "amend 1 1", f"amend 1 {ENERGY}", f"amend 1 {ENERGY + 1}",
        "amend 4 0", f"amend {NUMBER} 7", "settle 1 3 3", "settle 2 1 1",
    ]


def transfer_limits():
    book = ["enrol 1 1 0", "enrol 2 2 0", "enrol 24 3 0", f"enter 1 1 7 100 {PRICE}",
            "enter 2 1 1 100 5", "meter 1 100 0", "meter 2 50 0"]
    yield [
        "book equal-ratio", *book,
        "transfer 0 1 2 1 0", "transfer 3 0 2 1 0", "transfer 3 1 0 1 0", "transfer 3 1 25 1 0",
        "transfer 3 1 2 0 0", f"transfer 3 1 2 {ENERGY + 1} 0", f"transfer 3 1 2 {WIDEST} 0",
        f"transfer 3 1 2 1 {PRICE + 1}", f"transfer 3 1 2 1 {NUMBER}", "transfer 3 1 2 101 0",
        f"transfer 3 1 2 {ENERGY} 0", "transfer 0 0 0 0 0", "transfer 3 1 3 1 0",
        "transfer 1 1 2 1 0", "transfer 3 3 2 1 0", "transfer 2 1 2 1 0", "transfer 3 4 2 1 0",
        "transfer 4 2 2 1 0", "transfer 4 2 24 1 0", "transfer 4 1 1 1 0", "transfer 4 2 1 1 0",
        f"transfer {NUMBER} 1 2 1 {PRICE}", f"transfer {NUMBER - 1} {NUMBER} 24 1 0",
        f"transfer {NUMBER - 1} {NUMBER} 24 1 0", f"transfer 5 {NUMBER} 24 1 0",
        "transfer 6 1 2 99 7", "transfer 7 1 2 1 7", "transfer 7 6 24 98 0", "transfer 8 6 1 1 3",
        "settle 1 3 3", "settle 2 2 2", "settle 24 2 2", "meter 24 98 0", "settle 24 2 2",
        *finish(1), "transfer 9 7 1 1 0", "transfer 9 1 2 1 0", "transfer 9 8 2 1 0",
        "transfer 9 7 2 1 0", "settle 2 3 3",
    ]


def meter_limits():
    yield [
        "book in-order", "enrol 1 1 200000", "enrol 24 4 100000", "enter 1 1 6 50 70000",
        *(f"meter {plant} 1 0" for plant in (0, 25, 255, 2, 23)),
        f"meter 1 {ENERGY + 1} 0", f"meter 1 {ENERGY} {ENERGY + 1}", f"meter 1 {WIDEST} {WIDEST}",
        "settle 1 1 1", f"meter 1 {ENERGY} {ENERGY}", "settle 1 1 1",
        f"meter 1 {ENERGY - 1} {ENERGY}", "settle 1 1 1", "meter 1 0 1", "meter 1 0 0",
        "settle 1 1 1", "meter 1 40 20", "settle 1 1 1",
        "meter 1 50 51", "meter 1 60 60", "settle 1 1 1", f"meter 2 {ENERGY + 1} 0", "meter 2 0 1",
        f"meter 24 {ENERGY} 0", "settle 24 0 0", "issue 1", "meter 1 60 61", "meter 1 61 60",
        "settle 1 1 1", "close 1", "meter 1 61 60", "meter 1 0 1", f"meter 1 {ENERGY + 1} 0",
        "settle 1 1 1", "meter 24 1 1", "settle 24 0 0",
    ]


def plant_limits():
    """Calls that have a plant and hardly anything else."""
    plants = (0, 25, 255, 1, 2, 3, 24)
    yield [
        "book equal-ratio", "turn 0", "enrol 1 1 0", "enrol 2 5 40000", "enrol 24 2 0",
        "turn 0", f"turn {PRICE + 1}", "meter 1 0 0", "meter 24 7 0",
        *(f"close {plant}" for plant in plants),
        *(f"settle {plant} 0 0" for plant in plants),
        *(f"issue {plant}" for plant in plants),
        *(f"issue {plant}" for plant in plants),
        "turn 0",
        *(f"close {plant}" for plant in plants),
        *(f"close {plant}" for plant in plants),
        *(f"issue {plant}" for plant in plants),
        *(f"settle {plant} 0 0" for plant in plants),
        "turn 0", f"turn {PRICE + 1}", "meter 2 1 1", *finish(2),
        f"turn {PRICE + 1}", "turn 0", "turn 0", "issue 1",
    ]


# --------------------------------------------- conditions that hold at once

# Plants 4, 8 and 10 are closed, 7 is not metered, 9 is not enrolled; 4 and 5
# have all the contracts that they may.
CROWD = [
    "open 7 345678 equal-ratio",
    *(f"enrol {plant} {number} 300000" for plant, number in (
        (1, HYDRO), (2, COAL), (3, WIND), (4, HYDRO), (5, HYDRO), (6, RELIEF), (7, GAS),
        (8, COAL), (10, WIND))),
    f"enter 101 1 5 1000 {PRICE}", "enter 102 1 6 1000 500000", "enter 103 1 7 0 0",
    "enter 201 2 7 1000 400000", "enter 301 3 7 1000 400000", f"enter 401 4 7 {ENERGY} 0",
    f"enter 501 5 7 {ENERGY} {PRICE}", "enter 801 8 6 10 400000", "enter 1001 10 7 10 400000",
    *(f"meter {plant} 1000 {plant}" for plant in (1, 2, 3, 4, 5, 6, 8, 10)),
    *finish(4, 8, 10),
]


def fill_up(entered):
    """Contracts of nothing, until the book has as many as it may."""
    return [f"enter {5000 + i} 2 7 0 0" for i in range(CONTRACTS - entered)]


def crowd(rule, full, probes):
    entered = sum(call.startswith("enter") for call in CROWD)
    return [f"book {rule}", *CROWD, *(fill_up(entered) if full else []), *probes]


def enter_probes():
    fresh = iter(range(2001, 3000))
    for known, plant, rank, energy in product((1, 0), (9, 1, 3, 4, 5, 8), (3, 1, 7), (ENERGY, 1)):
        yield line("enter", 101 if known else next(fresh), plant, rank, energy, 0)
    # One figure past its limit, and each other condition besides.
    for number, plant, rank, energy in product((101, 2000), (9, 3, 4), (3, 7), (1, ENERGY)):
        yield line("enter", number, plant, rank, energy, PRICE + 1)
    for past in ("0 4 3 1 0", "101 25 3 1 0", "101 4 8 1 0", f"101 4 3 {ENERGY + 1} 0"):
        yield f"enter {past}"


def transfer_probes():
    fresh = iter(range(3001, 4000))
    olds = ((999, 10), (101, 1000), (102, 1000), (301, 1000), (801, 10), (501, ENERGY))
    for (old, energy), receiver, known, more in product(olds, (9, 1, 2, 3, 4, 5), (1, 0), (0, 1)):
        asked = energy + 1 if more else min(energy, 7)
        if asked <= ENERGY:
            yield line("transfer", 201 if known else next(fresh), old, receiver, asked, 450000)
    for old, receiver, new in product((999, 301, 801), (9, 4, 3), (201, 2999)):
        yield line("transfer", new, old, receiver, 2000, PRICE + 1)
    for past in ("0 801 4 11 0", "201 0 9 11 0", "201 801 25 11 0", "201 801 4 0 0",
                 f"201 999 9 {ENERGY + 1} 0"):
        yield f"transfer {past}"


def other_probes():
    for number, energy in product((0, 999, 102, 401, 501, 801), (ENERGY + 1, ENERGY, 1001, 0)):
        yield line("amend", number, energy)
    for plant in (0, 25, 9, 1, 4, 7):
        for metered, commissioning in ((ENERGY + 1, 0), (5, ENERGY + 1), (5, 6), (5, 5)):
            if plant != 7 or metered != commissioning:  # it stays without a reading
                yield line("meter", plant, metered, commissioning)
    for plant, fen in product((0, 25, 9, 1, 4, 7), (-1, 0, FEN, FEN + 1)):
        yield line("compensate", plant, fen)
    for call, plant in product(("issue", "close"), (0, 25, 9, 7, 4, 1)):
        yield line(call, plant)
    for price in (PRICE + 1, PRICE):
        yield line("turn", price)
    for plant, places in product((0, 9, 7, 6, 1), ("0 0", "3 3", "3 2", "2 3", "999 999")):
        yield line("settle", plant, places)
    for plant, number, price in product((0, 1, 4, 25), (0, 1, 6), (0, PRICE + 1)):
        yield line("enrol", plant, number, price)
    yield line("enrol", 9, 2, 0)  # a plant may join though others are closed
    yield from ("meter 9 7 0", "settle 9 0 0", "turn 0")


def conditions():
    yield crowd("equal-ratio", False, [*enter_probes()])
    yield crowd("in-order", False, [*transfer_probes()])
    yield crowd("equal-ratio", False, [*other_probes()])
    full = [*enter_probes(), *transfer_probes(), *other_probes()]
    yield crowd("in-order", True, full)


# ------------------------------------------------------------- side balances


def settle_all(count, places=0):
    return [f"settle {plant} {places} {places}" for plant in range(1, count + 1)]


def meters(*energies):
    return [f"meter {plant} {energy} 0" for plant, energy in enumerate(energies, 1)]


def side_balances():
    """Side balances at their limit, and past it by transfers and compensations."""
    start = ["enrol 1 1 0", "enrol 2 1 0", "enrol 3 2 0", f"enter 1 1 7 {ENERGY} {PRICE}"]
    yield [
        "book equal-ratio", *start,
        f"transfer 2 1 2 {ENERGY} 0",  # plant 1 is at the limit above, 2 at the one below
        *meters(0, 0, 0), "settle 1 1 1", "settle 2 1 1", "amend 2 0", "amend 1 10",
        "enter 3 3 7 100 500000", "enter 4 1 7 10 500000", "enter 5 2 7 10 500000",
        "transfer 6 3 1 1 500001", "transfer 6 3 1 1 500000", "transfer 7 3 2 1 499999",
        "transfer 7 3 2 1 500000", "transfer 8 4 3 1 499999", "transfer 8 5 3 1 500001",
        "transfer 8 4 3 1 500001", "transfer 9 5 3 1 499999",
        "transfer 10 4 3 1 499998", "transfer 10 4 3 1 499999", "transfer 11 4 3 1 499999",
        "transfer 12 5 3 2 500001", "transfer 12 5 3 1 500001", "transfer 13 5 3 1 500001",
        "transfer 14 3 1 101 500001", "transfer 3 3 1 1 500001",
        "settle 1 3 3", "settle 2 3 3", "settle 3 5 5",
        "compensate 1 1", *meters(0, 0, 5), "compensate 1 1", "compensate 1 0",
        "compensate 2 0", "compensate 2 1", "compensate 1 1", "compensate 1 2", "compensate 1 1",
        *meters(0, 5, 0), "compensate 3 1", "compensate 1 1", "compensate 2 1", "compensate 3 0",
        "compensate 4 1", "compensate 4 -1", "compensate 3 -1",
        *meters(5, 0, 0), "compensate 2 1", f"compensate 1 {FEN}", f"compensate 1 {FEN + 1}",
        *meters(0, 5, 0), "compensate 1 1", "compensate 1 1", "compensate 3 1", "compensate 4 1",
        f"compensate 2 {FEN}",
        "settle 1 3 3", "settle 2 3 3", "settle 3 5 5",
        "enrol 4 1 0", "compensate 1 1", "meter 4 0 0", "compensate 1 1",
        *finish(3), "compensate 1 1", "transfer 15 4 3 1 0", "transfer 15 4 2 1 0",
    ]
    for rule in RULES:
        yield [
            f"book {rule}", *start,
            f"transfer 2 1 2 {ENERGY - 1_000_000} 0",  # one greatest compensation below
            *meters(0, 9, 0), f"compensate 1 {FEN + 1}", f"compensate 1 {FEN}", "compensate 1 1",
            "settle 1 1 1", "settle 2 1 1", "compensate 2 7", "settle 2 1 1", "issue 1", "issue 2",
        ]
        yield [
            f"book {rule}", *start,
            f"transfer 2 1 2 {ENERGY - 1_000_000} 0",
            "enter 3 3 7 1 0", "transfer 4 3 1 1 1",  # and 100 grains nearer
            *meters(0, 9, 0), f"compensate 1 {FEN}", f"compensate 1 {FEN - 1}", "compensate 1 1",
            "compensate 1 0", "settle 1 2 2", "settle 2 1 1", "settle 3 1 1",
        ]


def extreme_carries():
    """Nets at issue and at close that lie as far apart as they can."""
    yield [
        "book in-order", "open 1 0 in-order", "enrol 1 1 0", "enrol 2 1 0",
        f"enter 1 1 7 {ENERGY} {PRICE}", f"transfer 2 1 2 {ENERGY} 0",
        f"enter 3 1 7 {ENERGY} {PRICE}", f"meter 1 {ENERGY} 0", "meter 2 0 0",
        "settle 1 2 2", "settle 2 1 1", "issue 1", "issue 2",
        "amend 3 0", f"enter 4 1 7 {ENERGY} 0", "amend 2 0", f"transfer 5 4 2 {ENERGY} {PRICE}",
        f"amend 4 {ENERGY}", "amend 5 0", f"transfer 6 4 2 {ENERGY} {PRICE}",
        f"amend 4 {ENERGY}", f"transfer 7 4 2 {ENERGY} {PRICE}", "amend 4 0",
        f"enter 8 1 5 {ENERGY} 0", "meter 1 0 0", "amend 6 0", f"amend 2 {ENERGY}",
        f"meter 2 {ENERGY} 0", "settle 1 4 4", "settle 2 3 3", "close 1", "close 2",
        "turn 0", *meters(0, 0), "settle 1 0 0", "settle 2 0 0", *finish(1, 2),
        "turn 0", *meters(1, 1), *finish(1, 2),
    ]


# ------------------------------------------------------------- compensations


def compensations():
    for rule in RULES:
        for energies in ((7, 0, 11, 3), (0, 5, 0, 0), (1, 1, 1, 0)):
            calls = [f"book {rule}", *(f"enrol {plant} {plant} 100000" for plant in (4, 2, 3, 1))]
            calls += meters(*energies)
            for plant, fen in ((1, 1), (2, 2), (4, 10), (3, 21), (2, 22), (1, 12_347), (4, FEN)):
                calls += [f"compensate {plant} {fen}", *settle_all(4)]
            yield calls
        yield [
            f"book {rule}", "compensate 1 0", "enrol 3 1 0", "enrol 1 1 0", "compensate 1 0",
            "meter 1 5 0", "compensate 1 5", "meter 3 0 0", "compensate 0 0", "compensate 25 0",
            "compensate 2 5", "compensate 3 5", "meter 1 0 0", "compensate 3 5", "compensate 3 0",
            "compensate 1 5", "meter 3 1 0", f"compensate 3 {FEN}", f"compensate 3 {FEN + 1}",
            "compensate 3 -1", f"compensate 3 -{FEN}", f"compensate 3 {WIDEST}", "compensate 3 0",
            "settle 1 0 0", "settle 3 0 0", "meter 1 2 0", "compensate 1 2", "settle 1 0 0",
            "settle 3 0 0", "issue 1", "compensate 1 7", *finish(3), "compensate 1 7",
            "compensate 2 7", "close 1", "compensate 1 7", "settle 1 0 0", "settle 3 0 0",
            "turn 0", "compensate 1 7", *("meter 1 1 0", "meter 3 0 0"), *finish(1, 3),
        ]
        # The greatest compensation over the greatest energies, and over odd ones.
        enrolled = [f"enrol {plant} {plant % 5 + 1} 1" for plant in range(1, 25)]
        yield [
            f"book {rule}", "open 7 1 in-order", f"open 8 1 {rule}", *enrolled,
            *meters(*[ENERGY] * 24), f"compensate 24 {FEN}", *settle_all(3), "settle 24 0 0",
            *meters(*(plant * plant % 17 for plant in range(1, 25))), "compensate 17 1000003",
            *settle_all(24),
        ]


# ---------------------------------------------------------------- settlement


def places():
    """A settlement into places that fit, and that do not."""
    counts = ("2 2", "1 2", "2 1", "3 2", "2 3", "0 0", "0 2", "2 0", "256 256", "2 257")
    asked = [*(f"settle 1 {count}" for count in counts),
             *(f"settle 2 {count}" for count in ("0 0", "0 1", "1 0"))]
    yield [
        "book equal-ratio", "settle 1 0 0", "enrol 1 1 300000", "enrol 2 4 250000",
        "settle 1 0 0", "settle 1 1 0", "enter 9 1 7 40 200000", "enter 7 1 6 60 250000",
        "settle 1 2 2", "meter 1 50 0", "meter 2 9 0", *asked, "issue 1", *asked, "close 1", *asked,
        *finish(2), "settle 2 0 0", "settle 2 1 1", "turn 0", "settle 1 0 0", "settle 1 2 2",
        "meter 1 0 0", "settle 1 2 2", "settle 1 0 0",
    ]
    # One plant holds all the contracts that a book has room for.
    held = [f"enter {1000 - i} 1 {RANKS[HYDRO][i % 6]} {i % 7} {i}" for i in range(CONTRACTS)]
    yield [
        "book in-order", "open 11 0 equal-ratio", "enrol 1 1 5", *held, "enter 1001 1 7 0 0",
        "meter 1 333 11", "settle 1 255 256", "settle 1 256 255", "settle 1 257 257",
        "settle 1 256 256", "meter 1 600 0", "settle 1 256 256",
    ]


def shares_within_ranks():
    """Ranks that are full, half full and empty, with contracts of odd energies."""
    for rule, month in (("equal-ratio", 1), ("in-order", 5), ("in-order", 7)):
        calls = [f"book {rule}", f"open {month} 54321 {rule}"]
        for plant, holder in enumerate((HYDRO, COAL, WIND, RELIEF), 1):
            calls.append(f"enrol {plant} {holder} {200_000 + plant}")
            count = 0
            for rank in RANKS[holder]:
                for energy in (5, 3, 0, 2)[:2 + rank // 2]:
                    count += 1
                    number = 100 * plant + (37 * count) % 41
                    calls.append(line("enter", number, plant, rank, energy, 1000 * rank + energy))
            for metered, commissioning in ((7, 0), (13, 4), (23, 23), (41, 1)):
                calls += [f"meter {plant} {metered} {commissioning}",
                          f"settle {plant} {count} {count}"]
        yield calls


# -------------------------------------------------------------------- months


def many_months():
    """Months in a row; what changes after the issue moves the carry."""
    for rule, months in (("equal-ratio", 8), ("in-order", 3)):
        random = Random(f"months {rule}")
        calls = [f"book {rule}", f"open 11 200000 {rule}",
                 *(f"enrol {plant} {plant} 31234{plant}" for plant in range(1, 6))]
        for month in range(months):
            for plant in range(1, 6):
                calls += month_of(plant, random, 10 * (plant + 5 * (month % 2)))
            calls.append(f"turn {random.randrange(PRICE)}")
        yield calls


def month_of(plant, random, number):
    first, second = random.randrange(1, 2000), random.randrange(1, 2000)
    metered = random.randrange(first + second + 300)
    calls = [
        f"enter {number} {plant} 7 {first} {random.randrange(PRICE)}",
        f"enter {number + 1} {plant} 6 {second} {random.randrange(PRICE)}",
        f"meter {plant} {metered} {random.choice((0, 0, metered // 3))}",
        f"issue {plant}",
    ]
    changed = random.choice(("meter", "amend", "both", "none"))
    if changed in ("meter", "both"):
        calls.append(f"meter {plant} {random.randrange(4000)} 0")
    if changed in ("amend", "both"):
        calls.append(f"amend {number} {random.randrange(4000)}")
    return [*calls, f"settle {plant} 2 2", f"close {plant}"]


def carries():
    """The documents' example, then carries above and below zero."""
    january = ["enrol 1 1 300000", "enter 7 1 6 60 250000", "enter 9 1 7 40 200000", "meter 1 50 0"]
    yield [
        "book equal-ratio", "open 1 0 equal-ratio", *january, "settle 1 2 2", "close 1", "turn 0",
        "issue 1", "issue 1", "turn 0", "meter 1 100 0", "issue 1", "settle 1 2 2", "close 1",
        "close 1", "issue 1", "settle 1 2 2", "turn 100", "amend 7 0", "issue 1", "meter 1 0 0",
        "settle 1 0 0", "issue 1", "enter 3 1 7 1 0", "close 1", "turn 0",
        "meter 1 0 0", "issue 1", "close 1", "turn 0", "meter 1 1 0", "issue 1", "close 1",
    ]
    # Side balances that change after the issue are carried too.
    yield [
        "book in-order", "open 12 0 in-order", "enrol 1 1 0", "enrol 2 2 0", "enrol 3 4 0",
        *meters(10, 20, 30), "enter 1 1 7 10 5", "issue 1", "transfer 2 1 2 3 7", "issue 2",
        "compensate 3 17", "transfer 4 1 2 3 1", "issue 3", "compensate 1 1", "close 2",
        "transfer 5 1 2 1 0", "compensate 1 1", "amend 2 0", "amend 1 0", "close 1", "close 3",
        "turn 0", *meters(0, 0, 0), "issue 1", "issue 2", "issue 3", "close 3", "close 2",
        "turn 0", "close 1", "turn 0", *meters(0, 0, 0), *finish(1, 2, 3), "turn 1",
    ]
    yield [
        "book equal-ratio", "open 12 5 equal-ratio", "enrol 1 4 50000", "meter 1 3 0", "issue 1",
        "meter 1 4 0", "close 1", "turn 6", "open 12 7 in-order",  # the carry is dropped
        "turn 8", "settle 1 0 0", "enrol 1 4 50000", "meter 1 0 0", "issue 1", "enter 1 1 7 5 0",
        "close 1", "open 13 0 equal-ratio", "close 1", f"open 6 {PRICE + 1} equal-ratio",
        "turn 9", "meter 1 0 0", "issue 1", "open 6 9 equal-ratio", "issue 1", "amend 1 1",
        "enrol 1 4 50000", "meter 1 2 0", "issue 1",
    ]
    # A plant that joins before the others are closed keeps the month open.
    yield [
        "book in-order", "enrol 5 3 1", "meter 5 1 0", *finish(5), "enrol 6 3 1", "turn 0",
        "meter 6 1 0", "turn 0", "issue 6", "turn 0", "close 6", "turn 0", "enrol 5 3 1", "issue 5",
        "issue 6", "meter 5 0 0", "meter 6 0 0", *finish(5, 6), "turn 0",
    ]


# ------------------------------------------------------- sharing and dividing


def shares():
    questions = [
        "1 1 1", "7 5 3 2", "2 1 1 1", "10 1 0 2", "0 0 0", "0", "9 4 2 0", "1", "1 0 0",
        f"{WIDEST} 0 0 0", f"{WIDEST}", "0 5 3 2", "10 5 3 2", "11 5 3 2", "5 0 0 3 0", "3 0 0 3 0",
        f"0 {CLAIM}", f"0 {CLAIM + 1}", f"1 0 {CLAIM + 1} 0", f"0 0 0 {WIDEST}", f"1 {CLAIM} 0",
        f"{PRODUCT} 1", f"{PRODUCT + 1} 1", f"{WIDEST} 1", f"{PRODUCT // 2} 1 1",
        f"{PRODUCT // 2 + 1} 1 0 1", f"{PRODUCT // CLAIM} {CLAIM}",
        f"{PRODUCT // CLAIM + 1} {CLAIM}",
        "9000000000 999999999 1", "9000000001 999999999 1", "9000000000 1000000000 1",
        "3000000000 2999999999 1", "3000000001 2999999999 1",
        f"0 {WIDEST} {WIDEST}", f"1 {2**62} {2**62} {2**62} {2**62}", f"{2**33} {2**31}",
        f"{2**34} {2**30}", f"{WIDEST} {CLAIM} {CLAIM}", f"{WIDEST} {WIDEST} {WIDEST}",
        "100000000" + " 3000000000" * 24,
        "0" + " 0" * 256, "0" + " 0" * 257, "1" + " 0" * 256, "1" + " 0" * 257, "100" + " 1" * 256,
        "300 7" + " 0" * 255, "256" + " 1" * 257, f"1 {WIDEST}" + " 9" * 256,
        f"{PRODUCT // CLAIM // 256} " + line(*[CLAIM] * 256),
        f"{PRODUCT // CLAIM // 256 + 1} " + line(*[CLAIM] * 256),
    ]
    random = Random("shares")
    for _ in range(40):
        claims = [random.choice((0, 1, random.randrange(20), random.randrange(10**6)))
                  for _ in range(random.randrange(1, 9))]
        questions.append(line(random.randrange(2 * sum(claims) + 2), *claims))
    yield ["book equal-ratio", *(f"share {rule} {asked}" for asked in questions for rule in RULES)]


def divisions():
    questions = [
        "50 0 0 0 0 0 60 40", "0 0 0 0 0 0 0 0", "10 1 1 1 1 1 1 1", "7 1 1 1 1 1 1 1",
        "6 1 1 1 1 1 1 1", "6500000 300000 700000 0 1000000 500000 2000000 1200000",
        "5000000 300000 700000 0 1000000 500000 2000000 1200000",
        "1000000 0 0 550000 0 0 0 500000",
        line(ENERGY, *[ENERGY] * 7), line(0, *[ENERGY] * 7), line(ENERGY, *[0] * 7),
        line(ENERGY + 1, *[0] * 7), line(WIDEST, *[0] * 7), line(0, *[WIDEST] * 7),
        *(line(5, *[0] * i, ENERGY + 1, *[0] * (6 - i)) for i in range(7)),
        "0", "5", "5 1 1 1 1 1 1", "5 1 1 1 1 1 1 1 1", line(ENERGY + 1, *[0] * 6),
        line(5, *[ENERGY + 1] * 8), line(WIDEST, WIDEST), line(5, *[1] * 256),
    ]
    random = Random("divisions")
    for _ in range(20):
        claims = [random.choice((0, random.randrange(9), random.randrange(999))) for _ in range(7)]
        questions.append(line(random.randrange(2 * sum(claims) + 2), *claims))
    yield ["book in-order", *(f"divide {asked}" for asked in questions)]


# --------------------------------------------------------------- random runs


class RandomBook:
    """A run that goes through months as a clerk would, with a slip now and then.

    It keeps what it needs to make calls that fit: the classes of the plants and
    the contracts of the month.
    """

    def __init__(self, seed):
        self.random = Random(f"book {seed}")
        self.scale = self.random.choice((10, 10, 1000, 1000, 10**6, 10**9))
        self.number = 0
        self.classes = {}
        self.contracts = {}  # by number: plant, rank and energy
        self.calls = [f"book {self.rule()}"]

    def rule(self):
        return self.random.choice(RULES)

    def chance(self, percent):
        return self.random.randrange(100) < percent

    def call(self, *words):
        self.calls.append(line(*words))
        if self.chance(7):
            self.slip()

    def energy(self):
        return self.random.randrange(self.scale)

    def price(self):
        return self.random.choice((0, self.random.randrange(1000), self.random.randrange(PRICE)))

    def plant(self):
        return self.random.choice(sorted(self.classes))

    def slip(self):
        """A call whose figures fit badly; nearly all are declined."""
        any_plant = self.random.choice((0, self.plant(), self.plant(), 23, 25))
        any_number = self.random.choice((0, self.number, self.number, 99))
        self.calls.append(line(*self.random.choice((
            ("open", self.random.choice((0, 13)), 0, self.rule()),
            ("enrol", any_plant, self.random.choice((0, 6)), self.price()),
            ("enrol", self.plant(), HYDRO, self.price()),
            ("enter", any_number, any_plant, self.random.randrange(10), ENERGY, self.price()),
            ("enter", self.number + 50, any_plant, 3, self.energy(), self.price()),
            ("amend", any_number, self.random.choice((self.energy(), ENERGY + 1))),
            ("transfer", any_number, any_number, any_plant, self.energy(), self.price()),
            ("transfer", self.number + 60, self.number, any_plant, ENERGY, self.price()),
            ("meter", any_plant, self.energy(), self.energy()),
            ("compensate", any_plant, self.random.randrange(-3, 100)),
            ("issue", any_plant),
            ("close", any_plant),
            ("turn", self.price()),
            ("settle", any_plant, self.random.randrange(3), self.random.randrange(3)),
        ))))

    def held(self, plant):
        return [number for number, contract in self.contracts.items() if contract[0] == plant]

    def enrol(self, count):
        for plant in self.random.sample(range(1, 25), count):
            self.classes[plant] = self.random.choice((HYDRO, HYDRO, HYDRO, COAL, GAS, WIND, RELIEF))
            self.calls.append(line("enrol", plant, self.classes[plant], self.price()))

    def enter(self, plant):
        self.number += self.random.randrange(1, 5)
        rank = self.random.choice(RANKS[self.classes[plant]])
        self.contracts[self.number] = (plant, rank, self.energy())
        self.call("enter", self.number, *self.contracts[self.number], self.price())

    def amend(self):
        if self.contracts:
            number = self.random.choice(sorted(self.contracts))
            self.contracts[number] = (*self.contracts[number][:2], self.energy())
            self.call("amend", number, self.contracts[number][2])

    def transfer(self):
        """Moves a part of a contract, where there are two plants that may."""
        choices = [
            (number, receiver)
            for number, (giver, rank, energy) in self.contracts.items()
            for receiver, holder in self.classes.items()
            if giver != receiver and energy and rank in RANKS[holder]
            and self.classes[giver] in TRADING and holder in TRADING
        ]
        if choices:
            old, receiver = self.random.choice(choices)
            giver, rank, energy = self.contracts[old]
            moved = self.random.choice((energy, self.random.randrange(energy) + 1))
            self.number += 1
            self.contracts[old] = (giver, rank, energy - moved)
            self.contracts[self.number] = (receiver, rank, moved)
            self.call("transfer", self.number, old, receiver, moved, self.price())

    def meter(self, plant):
        contracted = sum(self.contracts[number][2] for number in self.held(plant))
        near = contracted + contracted * self.random.randrange(-9, 10) // 100
        metered = min(self.random.choice((near, contracted, self.energy())), ENERGY)
        commissioning = self.random.randrange(metered + 1) if self.chance(30) else 0
        self.call("meter", plant, metered, commissioning)

    def compensate(self):
        self.call("compensate", self.plant(), self.random.randrange(self.random.choice((9, 10**6))))

    def settle(self, plant):
        count = len(self.held(plant))
        self.call("settle", plant, count, count)

    def change(self):
        """One of the calls that change a month before it is closed."""
        self.random.choice((
            self.amend, self.transfer, self.compensate,
            lambda: self.meter(self.plant()), lambda: self.settle(self.plant()),
        ))()

    def month(self):
        plants = sorted(self.classes)
        for plant in plants:
            for _ in range(self.random.choice((0, 1, 2, 2))):
                self.enter(plant)
        if self.chance(50):
            self.transfer()
        for plant in plants:
            self.meter(plant)
        if self.chance(40):
            self.change()
        for call in ("issue", "close"):
            self.random.shuffle(plants)
            for plant in plants:
                if self.chance(30):
                    self.settle(plant)
                self.call(call, plant)
                if self.chance(30):
                    self.change()
        self.call("turn", self.price())
        self.contracts = {}
        self.number = self.random.randrange(5)

    def run(self):
        length = self.random.randrange(10, 41)
        if self.chance(90):
            self.calls.append(line("open", self.random.randrange(1, 13), self.price(), self.rule()))
        self.enrol(self.random.choice((1, 1, 2, 2, 3)))
        while len(self.calls) <= length:
            self.month()
        return self.calls[:length + 1]


def random_books():
    for seed in range(RANDOM_BOOKS):
        yield RandomBook(seed).run()


# --------------------------------------------------------------- the program

GROUPS = (
    unopened, open_limits, enrol_limits, enter_limits, amend_limits, transfer_limits,
    meter_limits, plant_limits, conditions, side_balances, extreme_carries, compensations,
    places, shares_within_ranks, many_months, carries, shares, divisions, random_books,
)


def main():
    for group in GROUPS:
        for run in group():
            sys.stdout.write("".join(f"{call}\n" for call in run))


if __name__ == "__main__":
    main()
