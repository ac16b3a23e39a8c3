"""Prints a full month sheet: 24 metered plants and 256 contracts, always the same bytes."""

import random
import struct
import sys

MONTH = 1
RESIDENTIAL_PRICE = 231_500
CLASSES = [1, 1, 1, 2, 1, 1, 3, 1, 1, 4, 1, 1, 5, 1, 1, 2, 1, 1, 3, 1, 1, 4, 1, 5]
HYDRO_RANKS = [1, 2, 4, 5, 6, 7]
OTHER_RANKS = [6, 7]
ENTERED = 250
TRANSFERRED = 6


def section(kind, items):
    """A section from its items, each a head and a term."""
    heads = b"".join(head for head, _ in items)
    terms = b"".join(term for _, term in items)
    return struct.pack("<BH", kind, len(items)) + heads + terms


def enrolments(rng):
    return [(struct.pack("<B", plant), struct.pack("<BI", kind, rng.randrange(250_000, 450_000)))
            for plant, kind in enumerate(CLASSES, 1)]


def make_contracts(rng, numbers):
    """(number, plant, rank, energy, price) over all plants and all the ranks they may hold."""
    held = dict.fromkeys(range(1, len(CLASSES) + 1), 0)
    contracts = []
    for place, number in enumerate(numbers):
        plant = place % len(CLASSES) + 1
        ranks = HYDRO_RANKS if CLASSES[plant - 1] == 1 else OTHER_RANKS
        rank = ranks[held[plant] % len(ranks)]
        held[plant] += 1
        energy = rng.randrange(1_000_000, 90_000_000)
        contracts.append((number, plant, rank, energy, rng.randrange(150_000, 500_000)))
    return contracts


def make_transfers(rng, contracts, numbers):
    """(new, old, receiver, energy, price): parts of hydro contracts, each to another hydro plant."""
    hydro = [contract for contract in contracts if CLASSES[contract[1] - 1] == 1]
    transfers = []
    for number, (old, giver, _, energy, price) in zip(numbers, rng.sample(hydro, len(numbers))):
        receiver = rng.choice([plant for plant, kind in enumerate(CLASSES, 1)
                               if kind == 1 and plant != giver])
        transfers.append((number, old, receiver, energy // 3, price + rng.randrange(-20_000, 20_000)))
    return transfers


def contract_sums(contracts, transfers):
    sums = dict.fromkeys(range(1, len(CLASSES) + 1), 0)
    holder = {}
    for number, plant, _, energy, _ in contracts:
        sums[plant] += energy
        holder[number] = plant
    for _, old, receiver, energy, _ in transfers:
        sums[holder[old]] -= energy
        sums[receiver] += energy
    return sums


def readings(rng, sums):
    """Every other plant is short, the rest are over; every third has commissioning energy."""
    items = []
    for plant, contracted in sums.items():
        percent = rng.randrange(60, 98) if plant % 2 else rng.randrange(103, 130)
        metered = contracted * percent // 100 + rng.randrange(1_000)
        commissioning = metered // rng.randrange(15, 60) if plant % 3 == 0 else 0
        items.append((struct.pack("<B", plant), struct.pack("<QQ", metered, commissioning)))
    return items


def full_sheet():
    rng = random.Random(20210131)
    numbers = rng.sample(range(1, 2**32), ENTERED + TRANSFERRED)
    contracts = make_contracts(rng, numbers[:ENTERED])
    rng.shuffle(contracts)
    transfers = make_transfers(rng, contracts, numbers[ENTERED:])
    sections = [
        section(1, enrolments(rng)),
        section(2, [(struct.pack("<I", number), struct.pack("<BBQI", *terms))
                    for number, *terms in contracts]),
        section(3, [(struct.pack("<II", new, old), struct.pack("<BQI", *terms))
                    for new, old, *terms in transfers]),
        section(4, readings(rng, contract_sums(contracts, transfers))),
    ]
    return struct.pack("<BBI", len(sections), MONTH, RESIDENTIAL_PRICE) + b"".join(sections)


if __name__ == "__main__":
    sys.stdout.buffer.write(full_sheet())
