"""Settle a month sheet: the second, independent implementation.

It is written from docs/ alone and shares no code with the product. The gate
runs both over the same sheets and compares what they print.

    python3 settle.py < SHEET            one sheet, in bytes
    python3 settle.py --cases < CASES    many sheets, each a line "NAME HEX"

Every figure is an exact integer. Python's // rounds down also below zero,
which is the rounding that a payment wants.

Units: energy in kWh, prices in micro-yuan for each kWh, money in grains
(0.00000001 yuan), payments in fen (1,000,000 grains).
"""

import binascii
import sys
from dataclasses import dataclass, field
from enum import Enum, IntEnum
from itertools import accumulate
from struct import Struct

PLANTS = 24
CONTRACTS = 256
CONTRACT_NUMBER_LIMIT = 4_294_967_295
ENERGY_LIMIT = 3_000_000_000
PRICE_LIMIT = 1_000_000
SIDE_BALANCE_LIMIT = 300_000_000_000_000_000
SHEET_LIMIT = 65_536
SECTION_LIMIT = 256

GRAINS_IN_FEN = 1_000_000
HUNDREDTHS_IN_KWH = 100  # a hundredth of a kWh times a price is in grains
FREE_HUNDREDTHS = 2  # of each contracted kWh, the deviation that costs nothing


# ---------------------------------------------------------------- the market


class PlantClass(IntEnum):
    HYDRO = 1
    COAL = 2
    GAS = 3
    RENEWABLE = 4  # wind, solar and biomass
    RELIEF_SOLAR = 5  # solar for the relief of poverty


class Rank(IntEnum):
    INTER_PROVINCE_PRIORITY = 1
    INTER_PROVINCE_MARKET = 2
    COMMISSIONING = 3
    RETAINED = 4
    ALUMINIUM = 5
    PRIORITY = 6
    MARKET = 7


class Season(Enum):
    WET = "wet"
    DRY = "dry"
    LEVEL = "level"


# The classes that sell at prices of their own, and so may trade contracts.
MARKET_CLASSES = frozenset({PlantClass.HYDRO, PlantClass.COAL, PlantClass.GAS})


def may_hold(plant_class, rank):
    """Whether a plant of the class may hold a contract of the rank."""
    if rank == Rank.COMMISSIONING:  # it comes from the meter, never a contract
        return False
    if rank in (Rank.PRIORITY, Rank.MARKET):
        return True
    return plant_class == PlantClass.HYDRO


def may_transfer(plant_class):
    return plant_class in MARKET_CLASSES


def season_of(month):
    if 6 <= month <= 10:
        return Season.WET
    if month in (5, 11):
        return Season.LEVEL
    return Season.DRY


# ---------------------------------------------------------------- the tariff

OVER_PRICE = 25_372
MARKET_OVER_GENERATION = {Season.WET: 0, Season.DRY: 228_597, Season.LEVEL: 183_612}
MARKET_ASSESSED_OVER = {Season.WET: OVER_PRICE, Season.DRY: 0, Season.LEVEL: 0}
MARKET_ASSESSED_SHORT = {Season.WET: 126_859, Season.DRY: 207_815, Season.LEVEL: 166_920}
MISSING_ALUMINIUM = 60_000


@dataclass(frozen=True)
class Tariff:
    """The prices at which a plant's month is settled."""

    commissioning: int
    over_generation: int
    assessed_over: int
    assessed_short: int
    missing_aluminium: int = 0  # on top, for each kWh missing in that rank
    contract: int | None = None  # None: each contract at its own price


def tariff_of(plant_class, season, approved, residential):
    if plant_class in MARKET_CLASSES:
        return market_tariff(plant_class, season, approved)
    if plant_class == PlantClass.RENEWABLE:
        return renewable_tariff(season, approved, residential)
    return relief_tariff(approved)


def market_tariff(plant_class, season, approved):
    pays_aluminium = plant_class == PlantClass.HYDRO and season == Season.DRY
    return Tariff(
        commissioning=approved,
        over_generation=MARKET_OVER_GENERATION[season],
        assessed_over=MARKET_ASSESSED_OVER[season],
        assessed_short=MARKET_ASSESSED_SHORT[season],
        missing_aluminium=MISSING_ALUMINIUM if pays_aluminium else 0,
    )


def renewable_tariff(season, approved, residential):
    paid = residential if season == Season.WET else approved
    # In the dry season over-generation has the market's price and is not
    # assessed; in the others it is paid like the contracts.
    dry = season == Season.DRY
    return Tariff(
        contract=paid,
        commissioning=paid,
        over_generation=MARKET_OVER_GENERATION[season] if dry else paid,
        assessed_over=0 if dry else OVER_PRICE,
        assessed_short=OVER_PRICE,
    )


def relief_tariff(approved):
    return Tariff(
        contract=approved,
        commissioning=approved,
        over_generation=approved,
        assessed_over=OVER_PRICE,
        assessed_short=OVER_PRICE,
    )


# ------------------------------------------------------------------- sharing


def share_equal_ratio(total, claims):
    """Share a total over claims, each part a difference of running floors."""
    claimed = sum(claims)
    if claimed == 0:
        return [0] * len(claims)
    floors = [0] + [total * so_far // claimed for so_far in accumulate(claims)]
    return [after - before for before, after in zip(floors, floors[1:])]


def fill_in_order(total, claims):
    """Fill the claims one after another: the parts, and what is left over."""
    parts = []
    for claim in claims:
        part = min(claim, total)
        parts.append(part)
        total -= part
    return parts, total


# ------------------------------------------- the settlement of a plant's month


@dataclass(frozen=True)
class Enrolment:
    plant_class: PlantClass
    approved_price: int


@dataclass(frozen=True)
class Reading:
    metered: int
    commissioning: int


@dataclass
class Contract:
    number: int
    plant: int
    rank: Rank
    energy: int
    price: int


@dataclass(frozen=True)
class Division:
    """The metered energy, divided over the ranks and within each."""

    ranks: dict  # settled energy by rank
    contracts: list  # settled energy by contract, in the order given
    over_generation: int


@dataclass(frozen=True)
class Settlement:
    settled: list  # energy of each contract, by rising number
    amounts: list  # grains of each contract, by rising number
    commissioning: int
    over_generation: int
    over_deviation: int
    shortfall: int
    assessed: int  # hundredths of a kWh
    assessment: int  # grains
    net: int


def rank_sums(contracts):
    sums = dict.fromkeys(Rank, 0)
    for contract in contracts:
        sums[contract.rank] += contract.energy
    return sums


def rank_claims(sums, commissioning):
    """What each rank claims of the metered energy."""
    claims = dict(sums)
    claims[Rank.COMMISSIONING] = commissioning
    # Commissioning energy stands in for as much priority energy.
    claims[Rank.PRIORITY] = max(sums[Rank.PRIORITY] - commissioning, 0)
    return claims


def divide(reading, contracts, sums):
    claims = rank_claims(sums, reading.commissioning)
    parts, left = fill_in_order(reading.metered, [claims[rank] for rank in Rank])
    ranks = dict(zip(Rank, parts))
    return Division(ranks, share_ranks(ranks, contracts), left)


def share_ranks(ranks, contracts):
    """Share what each rank settles over its contracts.

    The claims are the whole energies, also in the priority rank, whose own
    claim commissioning energy may have lowered.
    """
    settled = [0] * len(contracts)
    for rank, total in ranks.items():
        places = [i for i, contract in enumerate(contracts) if contract.rank == rank]
        parts = share_equal_ratio(total, [contracts[i].energy for i in places])
        for place, part in zip(places, parts):
            settled[place] = part
    return settled


def assessed_hundredths(deviation, contracted):
    beyond = HUNDREDTHS_IN_KWH * deviation - FREE_HUNDREDTHS * contracted
    return max(beyond, 0)


def worth(energy, price):
    """Grains for an energy in kWh."""
    return energy * HUNDREDTHS_IN_KWH * price


def settle_month(reading, contracts, tariff, side_balance):
    """Settle one plant's month; its contracts stand by rising number."""
    sums = rank_sums(contracts)
    contracted = sum(sums.values())
    division = divide(reading, contracts, sums)

    over = max(reading.metered - contracted, 0)
    short = max(contracted - reading.metered, 0)
    assessed = assessed_hundredths(over or short, contracted)
    missing = sums[Rank.ALUMINIUM] - division.ranks[Rank.ALUMINIUM]
    assessment = assessed * (tariff.assessed_over if over else tariff.assessed_short)
    assessment += worth(missing, tariff.missing_aluminium)

    amounts = [
        worth(energy, contract.price if tariff.contract is None else tariff.contract)
        for energy, contract in zip(division.contracts, contracts)
    ]
    commissioning = division.ranks[Rank.COMMISSIONING]
    net = (
        sum(amounts)
        + worth(commissioning, tariff.commissioning)
        + worth(division.over_generation, tariff.over_generation)
        - assessment
        + side_balance
    )
    return Settlement(
        settled=division.contracts,
        amounts=amounts,
        commissioning=commissioning,
        over_generation=division.over_generation,
        over_deviation=over,
        shortfall=short,
        assessed=assessed,
        assessment=assessment,
        net=net,
    )


def pay(net, carry):
    """The whole fen of net and carry, rounded down, and the grains left."""
    return divmod(net + carry, GRAINS_IN_FEN)


# ------------------------------------------------------------------ the book


class Refusal(IntEnum):
    """Why the book declines a call. No sheet closes a plant, so 5 is missing."""

    PAST_LIMIT = 1
    NOT_ENROLLED = 2
    NO_CONTRACT = 3
    ALREADY_THERE = 4
    NOT_PERMITTED = 6
    TOO_MUCH = 7
    FULL = 8
    SUM_PAST_LIMIT = 9


class Declined(Exception):
    def __init__(self, refusal):
        super().__init__(refusal.name)
        self.refusal = refusal


def decline_if(condition, refusal):
    if condition:
        raise Declined(refusal)


def plant_within(plant):
    return 1 <= plant <= PLANTS


def contract_within(number):
    return 1 <= number <= CONTRACT_NUMBER_LIMIT


def energy_within(energy):
    return 0 <= energy <= ENERGY_LIMIT


def price_within(price):
    return 0 <= price <= PRICE_LIMIT


def class_within(number):
    return PlantClass.HYDRO <= number <= PlantClass.RELIEF_SOLAR


def rank_within(number):
    return Rank.INTER_PROVINCE_PRIORITY <= number <= Rank.MARKET


def balance_within(grains):
    return -SIDE_BALANCE_LIMIT <= grains <= SIDE_BALANCE_LIMIT


@dataclass
class Account:
    """What the book has of an enrolled plant."""

    enrolment: Enrolment
    reading: Reading | None = None  # not metered yet, which differs from zero
    side_balance: int = 0
    carry: int = 0


@dataclass
class Book:
    """One month of the plants. Each call makes all its checks before it changes anything."""

    month: int
    residential_price: int
    accounts: dict = field(default_factory=dict)  # by plant, the enrolled ones
    contracts: dict = field(default_factory=dict)  # by number

    @classmethod
    def open(cls, month, residential_price):
        within = 1 <= month <= 12 and price_within(residential_price)
        decline_if(not within, Refusal.PAST_LIMIT)
        return cls(month, residential_price)

    def enrol(self, plant, class_number, approved_price):
        within = plant_within(plant) and class_within(class_number) and price_within(approved_price)
        decline_if(not within, Refusal.PAST_LIMIT)
        decline_if(plant in self.accounts, Refusal.ALREADY_THERE)
        self.accounts[plant] = Account(Enrolment(PlantClass(class_number), approved_price))

    def enter(self, number, plant, rank_number, energy, price):
        within = (
            contract_within(number)
            and plant_within(plant)
            and rank_within(rank_number)
            and energy_within(energy)
            and price_within(price)
        )
        decline_if(not within, Refusal.PAST_LIMIT)
        decline_if(plant not in self.accounts, Refusal.NOT_ENROLLED)
        decline_if(number in self.contracts, Refusal.ALREADY_THERE)
        rank = Rank(rank_number)
        decline_if(not may_hold(self.class_of(plant), rank), Refusal.NOT_PERMITTED)
        self.decline_without_room(plant, energy)
        self.contracts[number] = Contract(number, plant, rank, energy, price)

    def transfer(self, new, old, receiver, energy, price):
        within = (
            contract_within(new)
            and contract_within(old)
            and plant_within(receiver)
            and energy_within(energy)
            and energy > 0
            and price_within(price)
        )
        decline_if(not within, Refusal.PAST_LIMIT)
        decline_if(receiver not in self.accounts, Refusal.NOT_ENROLLED)
        decline_if(old not in self.contracts, Refusal.NO_CONTRACT)
        decline_if(new in self.contracts, Refusal.ALREADY_THERE)
        given = self.contracts[old]
        decline_if(not self.may_pass(given, receiver), Refusal.NOT_PERMITTED)
        decline_if(energy > given.energy, Refusal.TOO_MUCH)
        self.decline_without_room(receiver, energy)
        fee = worth(energy, given.price - price)
        giver_balance = self.accounts[given.plant].side_balance + fee
        receiver_balance = self.accounts[receiver].side_balance - fee
        past = not (balance_within(giver_balance) and balance_within(receiver_balance))
        decline_if(past, Refusal.SUM_PAST_LIMIT)

        # The old contract stays in the book even when nothing is left of it.
        given.energy -= energy
        self.contracts[new] = Contract(new, receiver, given.rank, energy, given.price)
        self.accounts[given.plant].side_balance = giver_balance
        self.accounts[receiver].side_balance = receiver_balance

    def meter(self, plant, metered, commissioning):
        within = plant_within(plant) and energy_within(metered) and energy_within(commissioning)
        decline_if(not within, Refusal.PAST_LIMIT)
        decline_if(plant not in self.accounts, Refusal.NOT_ENROLLED)
        decline_if(commissioning > metered, Refusal.TOO_MUCH)
        self.accounts[plant].reading = Reading(metered, commissioning)

    def settle(self, plant):
        account = self.accounts[plant]
        tariff = tariff_of(
            account.enrolment.plant_class,
            season_of(self.month),
            account.enrolment.approved_price,
            self.residential_price,
        )
        contracts = self.contracts_of(plant)
        return settle_month(account.reading, contracts, tariff, account.side_balance)

    def issue(self, plant):
        """Pay a metered plant: the answer is in fen, the rest is carried."""
        account = self.accounts[plant]
        fen, account.carry = pay(self.settle(plant).net, account.carry)
        return fen

    def metered_plants(self):
        accounts = self.accounts.items()
        return sorted(plant for plant, account in accounts if account.reading is not None)

    def class_of(self, plant):
        return self.accounts[plant].enrolment.plant_class

    def contracts_of(self, plant):
        held = [contract for contract in self.contracts.values() if contract.plant == plant]
        return sorted(held, key=lambda contract: contract.number)

    def contract_sum(self, plant):
        return sum(c.energy for c in self.contracts.values() if c.plant == plant)

    def may_pass(self, contract, receiver):
        """Whether the contract's plant may transfer it to the receiver."""
        return (
            contract.plant != receiver
            and may_transfer(self.class_of(contract.plant))
            and may_transfer(self.class_of(receiver))
            and may_hold(self.class_of(receiver), contract.rank)
        )

    def decline_without_room(self, plant, energy):
        """Decline a further contract where the book is full or the plant's sum is."""
        decline_if(len(self.contracts) >= CONTRACTS, Refusal.FULL)
        past = self.contract_sum(plant) + energy > ENERGY_LIMIT
        decline_if(past, Refusal.SUM_PAST_LIMIT)


# ----------------------------------------------------------------- the sheet


class Layer(IntEnum):
    SHEET = 1
    BOOK = 2


class SheetFault(IntEnum):
    TOO_LONG = 31
    CUT_SHORT = 32
    UNKNOWN_KIND = 33
    TOO_MANY_ITEMS = 34
    LEFT_OVER = 35


class Fault(Exception):
    """Where loading stopped, and why."""

    def __init__(self, layer, number, offset, item=0):
        super().__init__(f"fault {layer:d} {number:d} {offset} {item}")


@dataclass(frozen=True)
class Kind:
    """A kind of section: the call that an item makes, and the item's fields."""

    call: object
    head: Struct
    term: Struct

    def size(self, count):
        return count * (self.head.size + self.term.size)


# "<" is little-endian without padding; B, I and Q take 1, 4 and 8 bytes.
HEADER = Struct("<BBI")
SECTION = Struct("<BH")
KINDS = {
    1: Kind(Book.enrol, Struct("<B"), Struct("<BI")),
    2: Kind(Book.enter, Struct("<I"), Struct("<BBQI")),
    3: Kind(Book.transfer, Struct("<II"), Struct("<BQI")),
    4: Kind(Book.meter, Struct("<B"), Struct("<QQ")),
}


def require(condition, number, offset):
    if not condition:
        raise Fault(Layer.SHEET, number, offset)


def load(sheet):
    """Make the calls of a sheet on a new book. Raises the first fault."""
    require(len(sheet) <= SHEET_LIMIT, SheetFault.TOO_LONG, 0)
    require(len(sheet) >= HEADER.size, SheetFault.CUT_SHORT, 0)
    section_count, month, residential_price = HEADER.unpack_from(sheet)
    try:
        book = Book.open(month, residential_price)
    except Declined as declined:
        raise Fault(Layer.BOOK, declined.refusal, 0) from None
    offset = HEADER.size
    for _ in range(section_count):
        offset = load_section(book, sheet, offset)
    require(offset == len(sheet), SheetFault.LEFT_OVER, offset)
    return book


def load_section(book, sheet, offset):
    """Make the calls of one section; the answer is where the next one starts."""
    heads = offset + SECTION.size
    require(heads <= len(sheet), SheetFault.CUT_SHORT, offset)
    kind_number, count = SECTION.unpack_from(sheet, offset)
    require(kind_number in KINDS, SheetFault.UNKNOWN_KIND, offset)
    require(count <= SECTION_LIMIT, SheetFault.TOO_MANY_ITEMS, offset)
    kind = KINDS[kind_number]
    end = heads + kind.size(count)
    require(end <= len(sheet), SheetFault.CUT_SHORT, offset)

    terms = heads + count * kind.head.size
    for item in range(count):
        head = kind.head.unpack_from(sheet, heads + item * kind.head.size)
        term = kind.term.unpack_from(sheet, terms + item * kind.term.size)
        try:
            kind.call(book, *head, *term)
        except Declined as declined:
            raise Fault(Layer.BOOK, declined.refusal, offset, item) from None
    return end


# --------------------------------------------------------------- the program


def plant_line(book, plant):
    metered = book.accounts[plant].reading.metered
    settlement = book.settle(plant)
    payment = book.issue(plant)
    return f"{plant} {metered} {settlement.over_generation} {settlement.shortfall} {payment}"


def report(sheet):
    """The lines that are printed for a sheet."""
    try:
        book = load(sheet)
    except Fault as fault:
        return [str(fault)]
    return [plant_line(book, plant) for plant in book.metered_plants()]


def report_cases(text):
    """The lines that are printed for a file of cases."""
    lines = []
    cases = text.removesuffix("\n").split("\n") if text else []
    for number, line in enumerate(cases, 1):
        name, blank, digits = line.partition(" ")
        if not (name and blank):
            raise ValueError(f"line {number}: not a name, a space and a sheet")
        try:
            sheet = binascii.unhexlify(digits)
        except ValueError as error:
            raise ValueError(f"line {number}: {error}") from None
        lines.append(f"case {name}")
        lines.extend(report(sheet))
    return lines


def read_sheet():
    """Read a sheet, and at most the one byte more that shows it is too long."""
    sheet = bytearray()
    # Unbuffered, so that nothing beyond that byte is taken from the input.
    with open(0, "rb", buffering=0, closefd=False) as source:
        while len(sheet) <= SHEET_LIMIT:
            piece = source.read(SHEET_LIMIT + 1 - len(sheet))
            if not piece:
                break
            sheet += piece
    return bytes(sheet)


def read_cases():
    with open(0, "rb", closefd=False) as source:
        return source.read().decode("ascii")


def main(arguments):
    try:
        if arguments == ["--cases"]:
            lines = report_cases(read_cases())
        elif not arguments:
            lines = report(read_sheet())
        else:
            raise ValueError("usage: settle.py [--cases]")
    except (OSError, MemoryError, ValueError) as error:
        print(f"settle.py: {str(error) or type(error).__name__}", file=sys.stderr)
        return 1
    sys.stdout.write("".join(f"{line}\n" for line in lines))
    return 0


if __name__ == "__main__":
    sys.exit(main(sys.argv[1:]))
