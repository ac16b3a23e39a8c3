"""Answer runs of calls on a month book: the second, independent implementation.

It is written from docs/ alone and shares no code with the product. The gate
makes the same calls on both and compares what they answer.

    python3 book.py < RUNS

A line is a call, a word and its figures, and has one line for its answer
(docs/CHECKING.md, "Runs of calls"). The market, its tariff and the units are
those of settle.py. The book is written anew: a sheet closes no plant, and a
closed plant is looked for between the other checks.
"""

import re
import sys
from dataclasses import dataclass, field, replace
from enum import IntEnum

from settle import (
    CONTRACTS,
    ENERGY_LIMIT,
    GRAINS_IN_FEN,
    Contract,
    Declined,
    Enrolment,
    PlantClass,
    Rank,
    Reading,
    balance_within,
    class_within,
    contract_within,
    decline_if,
    energy_within,
    fill_in_order,
    may_hold,
    may_transfer,
    pay,
    plant_within,
    price_within,
    rank_within,
    season_of,
    settle_month,
    share_equal_ratio,
    tariff_of,
    worth,
)

MONTHS = 12
COMPENSATION_LIMIT = 100_000_000
SHARE_CLAIMS = 256
SHARE_CLAIM_LIMIT = 300_000_000_000
SHARE_PRODUCT_LIMIT = 9_000_000_000_000_000_000


class Refusal(IntEnum):
    """Why a call is declined."""

    PAST_LIMIT = 1
    NOT_ENROLLED = 2
    NO_CONTRACT = 3
    ALREADY_THERE = 4
    CLOSED = 5
    NOT_PERMITTED = 6
    TOO_MUCH = 7
    FULL = 8
    SUM_PAST_LIMIT = 9
    NOT_READY = 10
    SLICE_LENGTH = 11
    LENGTHS = 21
    NOTHING_CLAIMED = 22
    TOO_LARGE = 23


# ------------------------------------------------------------------- sharing


def share_in_order(total, claims):
    """Fill the claims from the first on; what is beyond them goes to the last above zero."""
    parts, rest = fill_in_order(total, claims)
    if rest:
        last = max(i for i, claim in enumerate(claims) if claim > 0)
        parts[last] += rest
    return parts


# A rule takes a total and claims and gives the parts.
RULES = {"equal-ratio": share_equal_ratio, "in-order": share_in_order}


def share(rule, total, claims):
    """Share by a rule, into as many places as there are claims."""
    claimed = sum(claims)
    decline_if(len(claims) > SHARE_CLAIMS, Refusal.LENGTHS)
    decline_if(claimed == 0 and total > 0, Refusal.NOTHING_CLAIMED)
    large = any(claim > SHARE_CLAIM_LIMIT for claim in claims)
    decline_if(large or total * claimed > SHARE_PRODUCT_LIMIT, Refusal.TOO_LARGE)
    return rule(total, claims)


def divide(metered, claims):
    """Divide over the ranks: the parts, what is left over and what stays unfilled."""
    decline_if(len(claims) != len(Rank), Refusal.SLICE_LENGTH)
    within = all(energy_within(energy) for energy in [metered, *claims])
    decline_if(not within, Refusal.PAST_LIMIT)
    parts, left = fill_in_order(metered, claims)
    return parts, left, sum(claims) - sum(parts)


# ------------------------------------------- the settlement of a plant's month


def settle_by(rule, reading, contracts, tariff, side_balance):
    """Settle one plant's month, each rank shared over its contracts by the rule.

    settle_month shares by equal ratio. A rule moves energy only between the
    contracts of a rank, so nothing else changes but what they are paid.
    """
    by_ratio = settle_month(reading, contracts, tariff, side_balance)
    settled = share_ranks_again(rule, by_ratio.settled, contracts)
    amounts = [
        worth(energy, contract.price if tariff.contract is None else tariff.contract)
        for energy, contract in zip(settled, contracts)
    ]
    net = by_ratio.net - sum(by_ratio.amounts) + sum(amounts)
    return replace(by_ratio, settled=settled, amounts=amounts, net=net)


def share_ranks_again(rule, settled, contracts):
    """Share by the rule what the contracts of each rank settle together."""
    shared = [0] * len(contracts)
    for rank in Rank:
        places = [i for i, contract in enumerate(contracts) if contract.rank == rank]
        total = sum(settled[i] for i in places)
        parts = rule(total, [contracts[i].energy for i in places])
        for place, part in zip(places, parts):
            shared[place] = part
    return shared


# ------------------------------------------------------------------ the book


def open_within(month, residential_price):
    return 1 <= month <= MONTHS and price_within(residential_price)


def compensation_within(fen):
    return 0 <= fen <= COMPENSATION_LIMIT


@dataclass
class Account:
    """What the book has of an enrolled plant."""

    enrolment: Enrolment
    reading: Reading | None = None  # not metered yet, which differs from zero
    side_balance: int = 0
    carry: int = 0
    issued_net: int | None = None  # not issued yet this month
    closed: bool = False

    def next_month(self):
        return Account(self.enrolment, carry=self.carry)


@dataclass
class Book:
    """A month of the plants. Each call makes all its checks before it changes anything."""

    rule: object
    month: int = 1
    residential_price: int = 0
    accounts: dict = field(default_factory=dict)  # by plant, the enrolled ones
    contracts: dict = field(default_factory=dict)  # by number

    def open(self, month, residential_price, rule):
        decline_if(not open_within(month, residential_price), Refusal.PAST_LIMIT)
        self.rule = rule
        self.month = month
        self.residential_price = residential_price
        self.accounts = {}
        self.contracts = {}

    def enrol(self, plant, class_number, approved_price):
        within = plant_within(plant) and class_within(class_number) and price_within(approved_price)
        decline_if(not within, Refusal.PAST_LIMIT)
        decline_if(plant in self.accounts, Refusal.ALREADY_THERE)
        self.accounts[plant] = Account(Enrolment(PlantClass(class_number), approved_price))

    def enter(self, number, plant, rank_number, energy, price):
        within = (
            contract_within(number)
            and plant_within(plant)
            and rank_within(rank_number)
            and energy_within(energy)
            and price_within(price)
        )
        decline_if(not within, Refusal.PAST_LIMIT)
        self.decline_not_enrolled(plant)
        decline_if(number in self.contracts, Refusal.ALREADY_THERE)
        self.decline_closed(plant)
        rank = Rank(rank_number)
        decline_if(not may_hold(self.class_of(plant), rank), Refusal.NOT_PERMITTED)
        self.decline_full()
        self.decline_sum(self.contract_sum(plant) + energy)
        self.contracts[number] = Contract(number, plant, rank, energy, price)

    def amend(self, number, energy):
        decline_if(not (contract_within(number) and energy_within(energy)), Refusal.PAST_LIMIT)
        decline_if(number not in self.contracts, Refusal.NO_CONTRACT)
        contract = self.contracts[number]
        self.decline_closed(contract.plant)
        self.decline_sum(self.contract_sum(contract.plant) - contract.energy + energy)
        contract.energy = energy

    def transfer(self, new, old, receiver, energy, price):
        within = (
            contract_within(new)
            and contract_within(old)
            and plant_within(receiver)
            and energy_within(energy)
            and energy > 0
            and price_within(price)
        )
        decline_if(not within, Refusal.PAST_LIMIT)
        self.decline_not_enrolled(receiver)
        decline_if(old not in self.contracts, Refusal.NO_CONTRACT)
        decline_if(new in self.contracts, Refusal.ALREADY_THERE)
        given = self.contracts[old]
        self.decline_closed(given.plant, receiver)
        decline_if(not self.may_pass(given, receiver), Refusal.NOT_PERMITTED)
        decline_if(energy > given.energy, Refusal.TOO_MUCH)
        self.decline_full()
        self.decline_sum(self.contract_sum(receiver) + energy)
        fee = worth(energy, given.price - price)
        balances = self.balances_after({given.plant: fee, receiver: -fee})

        # The old contract stays in the book even when nothing is left of it.
        given.energy -= energy
        self.contracts[new] = Contract(new, receiver, given.rank, energy, given.price)
        self.set_balances(balances)

    def meter(self, plant, metered, commissioning):
        within = plant_within(plant) and energy_within(metered) and energy_within(commissioning)
        decline_if(not within, Refusal.PAST_LIMIT)
        self.decline_not_enrolled(plant)
        self.decline_closed(plant)
        decline_if(commissioning > metered, Refusal.TOO_MUCH)
        self.accounts[plant].reading = Reading(metered, commissioning)

    def compensate(self, plant, fen):
        decline_if(not (plant_within(plant) and compensation_within(fen)), Refusal.PAST_LIMIT)
        self.decline_not_enrolled(plant)
        self.decline_closed(*self.accounts)
        plants = sorted(self.accounts)
        readings = [self.accounts[each].reading for each in plants]
        decline_if(None in readings, Refusal.NOT_READY)
        claims = [reading.metered for reading in readings]
        decline_if(not any(claims), Refusal.NOT_READY)
        # The plant that is credited is debited its part like the others.
        parts = self.rule(fen, claims)
        changes = {each: -part * GRAINS_IN_FEN for each, part in zip(plants, parts)}
        changes[plant] += fen * GRAINS_IN_FEN
        self.set_balances(self.balances_after(changes))

    def issue(self, plant):
        """Pay a plant: the answer is in fen, the rest is carried."""
        self.decline_unknown(plant)
        account = self.accounts[plant]
        decline_if(account.issued_net is not None, Refusal.ALREADY_THERE)
        decline_if(account.reading is None, Refusal.NOT_READY)
        account.issued_net = self.settlement(plant).net
        fen, account.carry = pay(account.issued_net, account.carry)
        return fen

    def close(self, plant):
        self.decline_unknown(plant)
        self.decline_closed(plant)
        account = self.accounts[plant]
        decline_if(account.issued_net is None, Refusal.NOT_READY)
        account.carry += self.settlement(plant).net - account.issued_net
        account.closed = True

    def turn(self, residential_price):
        decline_if(not price_within(residential_price), Refusal.PAST_LIMIT)
        all_closed = all(account.closed for account in self.accounts.values())
        decline_if(not all_closed, Refusal.NOT_READY)
        self.month = self.month % MONTHS + 1
        self.residential_price = residential_price
        self.accounts = {plant: account.next_month() for plant, account in self.accounts.items()}
        self.contracts = {}

    def settle(self, plant, energy_places, amount_places):
        """The plant's month, put into so many places for energies and for amounts."""
        self.decline_unknown(plant)
        decline_if(self.accounts[plant].reading is None, Refusal.NOT_READY)
        held = len(self.contracts_of(plant))
        decline_if(energy_places != held or amount_places != held, Refusal.SLICE_LENGTH)
        return self.settlement(plant)

    # What the calls look up.

    def settlement(self, plant):
        """The month of a metered plant, by the figures that the book has now."""
        account = self.accounts[plant]
        tariff = tariff_of(
            account.enrolment.plant_class,
            season_of(self.month),
            account.enrolment.approved_price,
            self.residential_price,
        )
        contracts = self.contracts_of(plant)
        return settle_by(self.rule, account.reading, contracts, tariff, account.side_balance)

    def class_of(self, plant):
        return self.accounts[plant].enrolment.plant_class

    def contracts_of(self, plant):
        held = [contract for contract in self.contracts.values() if contract.plant == plant]
        return sorted(held, key=lambda contract: contract.number)

    def contract_sum(self, plant):
        return sum(contract.energy for contract in self.contracts_of(plant))

    def may_pass(self, contract, receiver):
        """Whether the contract's plant may transfer it to the receiver."""
        return (
            contract.plant != receiver
            and may_transfer(self.class_of(contract.plant))
            and may_transfer(self.class_of(receiver))
            and may_hold(self.class_of(receiver), contract.rank)
        )

    def balances_after(self, changes):
        """The side balances after changes, by plant; declined where one is past its limit."""
        balances = {
            plant: self.accounts[plant].side_balance + change for plant, change in changes.items()
        }
        past = not all(balance_within(balance) for balance in balances.values())
        decline_if(past, Refusal.SUM_PAST_LIMIT)
        return balances

    def set_balances(self, balances):
        for plant, balance in balances.items():
            self.accounts[plant].side_balance = balance

    # Checks that several calls make.

    def decline_unknown(self, plant):
        decline_if(not plant_within(plant), Refusal.PAST_LIMIT)
        self.decline_not_enrolled(plant)

    def decline_not_enrolled(self, plant):
        decline_if(plant not in self.accounts, Refusal.NOT_ENROLLED)

    def decline_closed(self, *plants):
        decline_if(any(self.accounts[plant].closed for plant in plants), Refusal.CLOSED)

    def decline_full(self):
        decline_if(len(self.contracts) >= CONTRACTS, Refusal.FULL)

    @staticmethod
    def decline_sum(contract_sum):
        decline_if(contract_sum > ENERGY_LIMIT, Refusal.SUM_PAST_LIMIT)


# ----------------------------------------------------------------- the lines


def figure(below, signed=False):
    """A reader of figures in decimal digits that are below a bound."""
    digits = re.compile("-?[0-9]+" if signed else "[0-9]+")

    def read(word):
        if not digits.fullmatch(word) or abs(int(word)) >= below:
            raise ValueError(f"{word!r} is no figure of its kind")
        return int(word)

    return read


def rule_named(word):
    if word not in RULES:
        raise ValueError(f"{word!r} is no rule")
    return RULES[word]


MONTH = PLANT = CLASS = RANK = figure(2**8)
CONTRACT = PRICE = figure(2**32)
ENERGY = TOTAL = CLAIM = PLACES = figure(2**63)
FEN = figure(2**63, signed=True)
RULE = rule_named


def read_words(readers, words):
    if len(words) != len(readers):
        raise ValueError(f"{len(words)} figures instead of {len(readers)}")
    return [read(word) for read, word in zip(readers, words)]


def spaced(*figures):
    return " ".join(map(str, figures))


def done(_):
    return "done"


def paid(fen):
    return spaced("paid", fen)


def settled(settlement):
    figures = (
        settlement.commissioning,
        settlement.over_generation,
        settlement.over_deviation,
        settlement.shortfall,
        settlement.assessed,
        settlement.net,
    )
    contracts = zip(settlement.settled, settlement.amounts)
    return spaced("settled", *figures, *(each for contract in contracts for each in contract))


# The calls on a book, what their figures are, and how they are answered.
CALLS = {
    "open": (Book.open, (MONTH, PRICE, RULE), done),
    "enrol": (Book.enrol, (PLANT, CLASS, PRICE), done),
    "enter": (Book.enter, (CONTRACT, PLANT, RANK, ENERGY, PRICE), done),
    "amend": (Book.amend, (CONTRACT, ENERGY), done),
    "transfer": (Book.transfer, (CONTRACT, CONTRACT, PLANT, ENERGY, PRICE), done),
    "meter": (Book.meter, (PLANT, ENERGY, ENERGY), done),
    "compensate": (Book.compensate, (PLANT, FEN), done),
    "issue": (Book.issue, (PLANT,), paid),
    "close": (Book.close, (PLANT,), done),
    "turn": (Book.turn, (PRICE,), done),
    "settle": (Book.settle, (PLANT, PLACES, PLACES), settled),
}


class Run:
    """Answers lines one after another; it keeps the book between them."""

    def __init__(self):
        self.book = None

    def answer(self, line):
        word, *words = line.split(" ")
        try:
            return self.answer_words(word, words)
        except Declined as declined:
            return spaced("declined", int(declined.refusal))

    def answer_words(self, word, words):
        if word == "book":
            (rule,) = read_words((RULE,), words)
            self.book = Book(rule)
            return "book"
        if word == "share":
            rule, total, *claims = read_words((RULE, TOTAL) + (CLAIM,) * (len(words) - 2), words)
            return spaced("parts", *share(rule, total, claims))
        if word == "divide":
            metered, *claims = read_words((ENERGY,) + (CLAIM,) * (len(words) - 1), words)
            parts, left, unfilled = divide(metered, claims)
            return spaced("parts", *parts, left, unfilled)
        return self.answer_call(word, words)

    def answer_call(self, word, words):
        if word not in CALLS:
            raise ValueError(f"{word!r} is no call")
        if self.book is None:
            raise ValueError("no book is made yet")
        call, readers, told = CALLS[word]
        return told(call(self.book, *read_words(readers, words)))


# --------------------------------------------------------------- the program


def answers(text):
    """The answers to the lines of a text."""
    run = Run()
    lines = text.removesuffix("\n").split("\n") if text else []
    told = []
    for number, line in enumerate(lines, 1):
        try:
            told.append(run.answer(line))
        except ValueError as error:
            raise ValueError(f"line {number}: {error}") from None
    return told


def read_runs():
    with open(0, "rb", closefd=False) as source:
        return source.read().decode("ascii")


def main(arguments):
    try:
        if arguments:
            raise ValueError("usage: book.py")
        lines = answers(read_runs())
    except (OSError, MemoryError, ValueError) as error:
        print(f"book.py: {str(error) or type(error).__name__}", file=sys.stderr)
        return 1
    sys.stdout.write("".join(f"{line}\n" for line in lines))
    return 0


if __name__ == "__main__":
    sys.exit(main(sys.argv[1:]))
