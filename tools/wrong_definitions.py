#!/usr/bin/env python3
"""Tries wrong definitions: would the stored cases tell?

    python3 tools/wrong_definitions.py

The proofs hold the product to its definitions. What holds the definitions to the documents is that
a second program, written from the documents alone, answers the stored cases alike. So this tool
changes one figure or one check of the second program at a time, as if the documents said so, and
counts the cases whose answer changes. A change that none of them shows could stand in the
definitions unnoticed. It is no part of the gate; docs/PLANTED.md has what it printed.
"""

import pathlib
import subprocess
import sys
import tempfile

HERE = pathlib.Path(__file__).resolve().parent.parent
SECOND = HERE / "second"

# What stands in second/settle.py, and what is put in its place; the cases are sheets.
SHEET_CHANGES = [
    (
        "OVER_PRICE = 25_372",
        "OVER_PRICE = 25_373",
    ),
    (
        "Season.WET: 0, Season.DRY: 228_597",
        "Season.WET: 1, Season.DRY: 228_597",
    ),
    (
        "Season.DRY: 228_597, Season.LEVEL: 183_612",
        "Season.DRY: 228_598, Season.LEVEL: 183_612",
    ),
    (
        "Season.LEVEL: 183_612",
        "Season.LEVEL: 183_613",
    ),
    (
        "Season.WET: OVER_PRICE, Season.DRY: 0, Season.LEVEL: 0",
        "Season.WET: OVER_PRICE, Season.DRY: 1, Season.LEVEL: 0",
    ),
    (
        "Season.WET: OVER_PRICE, Season.DRY: 0, Season.LEVEL: 0",
        "Season.WET: OVER_PRICE, Season.DRY: 0, Season.LEVEL: 1",
    ),
    (
        "Season.WET: 126_859",
        "Season.WET: 126_860",
    ),
    (
        "Season.DRY: 207_815",
        "Season.DRY: 207_816",
    ),
    (
        "Season.LEVEL: 166_920",
        "Season.LEVEL: 166_921",
    ),
    (
        "MISSING_ALUMINIUM = 60_000",
        "MISSING_ALUMINIUM = 60_001",
    ),
    (
        "plant_class == PlantClass.HYDRO and season == Season.DRY",
        "season == Season.DRY",
    ),
    (
        "plant_class == PlantClass.HYDRO and season == Season.DRY",
        "plant_class == PlantClass.HYDRO",
    ),
    (
        "paid = residential if season == Season.WET else approved",
        "paid = residential if season != Season.DRY else approved",
    ),
    (
        "over_generation=MARKET_OVER_GENERATION[season] if dry else paid",
        "over_generation=paid",
    ),
    (
        "assessed_over=0 if dry else OVER_PRICE",
        "assessed_over=OVER_PRICE",
    ),
    (
        "FREE_HUNDREDTHS = 2 ",
        "FREE_HUNDREDTHS = 3 ",
    ),
    (
        "if 6 <= month <= 10:",
        "if 5 <= month <= 10:",
    ),
    (
        "if 6 <= month <= 10:",
        "if 7 <= month <= 10:",
    ),
    (
        "if 6 <= month <= 10:",
        "if 6 <= month <= 9:",
    ),
    (
        "if 6 <= month <= 10:",
        "if 6 <= month <= 11:",
    ),
    (
        "month in (5, 11)",
        "month in (5, 12)",
    ),
    (
        "month in (5, 11)",
        "month in (4, 11)",
    ),
    (
        "PLANTS = 24",
        "PLANTS = 23",
    ),
    (
        "PLANTS = 24",
        "PLANTS = 25",
    ),
    (
        "CONTRACTS = 256",
        "CONTRACTS = 255",
    ),
    (
        "CONTRACTS = 256",
        "CONTRACTS = 257",
    ),
    (
        "ENERGY_LIMIT = 3_000_000_000",
        "ENERGY_LIMIT = 2_999_999_999",
    ),
    (
        "ENERGY_LIMIT = 3_000_000_000",
        "ENERGY_LIMIT = 3_000_000_001",
    ),
    (
        "PRICE_LIMIT = 1_000_000",
        "PRICE_LIMIT = 999_999",
    ),
    (
        "PRICE_LIMIT = 1_000_000",
        "PRICE_LIMIT = 1_000_001",
    ),
    (
        "SIDE_BALANCE_LIMIT = 300_000_000_000_000_000",
        "SIDE_BALANCE_LIMIT = 299_999_999_999_999_999",
    ),
    (
        "SIDE_BALANCE_LIMIT = 300_000_000_000_000_000",
        "SIDE_BALANCE_LIMIT = 300_000_000_000_000_100",
    ),
    (
        "SHEET_LIMIT = 65_536",
        "SHEET_LIMIT = 65_535",
    ),
    (
        "SHEET_LIMIT = 65_536",
        "SHEET_LIMIT = 65_537",
    ),
    (
        "SECTION_LIMIT = 256",
        "SECTION_LIMIT = 255",
    ),
    (
        "SECTION_LIMIT = 256",
        "SECTION_LIMIT = 257",
    ),
    (
        "1 <= month <= 12",
        "1 <= month <= 13",
    ),
    (
        "1 <= month <= 12",
        "0 <= month <= 12",
    ),
    (
        "return 1 <= number <= CONTRACT_NUMBER_LIMIT",
        "return 0 <= number <= CONTRACT_NUMBER_LIMIT",
    ),
    (
        "PlantClass.HYDRO <= number <= PlantClass.RELIEF_SOLAR",
        "PlantClass.HYDRO <= number <= PlantClass.RENEWABLE",
    ),
    (
        "total * so_far // claimed",
        "-(-total * so_far // claimed)",
    ),
    (
        "return divmod(net + carry, GRAINS_IN_FEN)",
        "return (-(-(net + carry) // GRAINS_IN_FEN), 0)",
    ),
    (
        "max(sums[Rank.PRIORITY] - commissioning, 0)",
        "sums[Rank.PRIORITY]",
    ),
    (
        "fee = worth(energy, given.price - price)",
        "fee = worth(energy, price - given.price)",
    ),
    (
        "        + side_balance\n    )",
        "    )",
    ),
    (
        "- assessment\n",
        "+ assessment\n",
    ),
    (
        "assessed_hundredths(over or short, contracted)",
        "assessed_hundredths(over or short, reading.metered)",
    ),
    (
        "return max(beyond, 0)",
        "return HUNDREDTHS_IN_KWH * deviation if beyond > 0 else 0",
    ),
    (
        "tariff.assessed_over if over else tariff.assessed_short",
        "tariff.assessed_short if over else tariff.assessed_over",
    ),
    (
        (
            'held = [contract for contract in self.contracts.values() if contract.plant == plant]\n'
            '        return sorted(held, key=lambda contract: contract.number)'
        ),
        "return [contract for contract in self.contracts.values() if contract.plant == plant]",
    ),
    (
        "missing = sums[Rank.ALUMINIUM] - division.ranks[Rank.ALUMINIUM]",
        "missing = sums[Rank.ALUMINIUM] - division.ranks[Rank.ALUMINIUM] if not over else 0",
    ),
    (
        "worth(commissioning, tariff.commissioning)",
        "worth(reading.commissioning, tariff.commissioning)",
    ),
    (
        "if rank == Rank.COMMISSIONING:",
        "if False:",
    ),
    (
        "MARKET_CLASSES = frozenset({PlantClass.HYDRO, PlantClass.COAL, PlantClass.GAS})",
        "MARKET_CLASSES = frozenset({PlantClass.HYDRO, PlantClass.COAL})",
    ),
    (
        (
            '            and may_hold(self.class_of(receiver), contract.rank)\n'
        ),
        "",
    ),
    (
        "contract.plant != receiver\n            and ",
        "",
    ),
    (
        "            and energy > 0\n",
        "",
    ),
    (
        "decline_if(commissioning > metered, Refusal.TOO_MUCH)",
        "decline_if(commissioning >= metered and metered, Refusal.TOO_MUCH)",
    ),
    (
        "decline_if(energy > given.energy, Refusal.TOO_MUCH)",
        "decline_if(energy >= given.energy, Refusal.TOO_MUCH)",
    ),
    (
        "Contract(new, receiver, given.rank, energy, given.price)",
        "Contract(new, receiver, given.rank, energy, price)",
    ),
    (
        "given.energy -= energy\n",
        (
            'given.energy -= energy\n'
            '        if not given.energy: del self.contracts[old]\n'
        ),
    ),
    (
        (
            '        decline_if(plant not in self.accounts, Refusal.NOT_ENROLLED)\n'
            '        decline_if(number in self.contracts, Refusal.ALREADY_THERE)\n'
        ),
        (
            '        decline_if(number in self.contracts, Refusal.ALREADY_THERE)\n'
            '        decline_if(plant not in self.accounts, Refusal.NOT_ENROLLED)\n'
        ),
    ),
    (
        (
            '        decline_if(not may_hold(self.class_of(plant), rank), Refusal.NOT_PERMITTED)\n'
            '        self.decline_without_room(plant, energy)\n'
        ),
        (
            '        self.decline_without_room(plant, energy)\n'
            '        decline_if(not may_hold(self.class_of(plant), rank), Refusal.NOT_PERMITTED)\n'
        ),
    ),
    (
        (
            '        decline_if(receiver not in self.accounts, Refusal.NOT_ENROLLED)\n'
            '        decline_if(old not in self.contracts, Refusal.NO_CONTRACT)\n'
        ),
        (
            '        decline_if(old not in self.contracts, Refusal.NO_CONTRACT)\n'
            '        decline_if(receiver not in self.accounts, Refusal.NOT_ENROLLED)\n'
        ),
    ),
    (
        (
            '        decline_if(old not in self.contracts, Refusal.NO_CONTRACT)\n'
            '        decline_if(new in self.contracts, Refusal.ALREADY_THERE)\n'
        ),
        (
            '        decline_if(new in self.contracts, Refusal.ALREADY_THERE)\n'
            '        decline_if(old not in self.contracts, Refusal.NO_CONTRACT)\n'
        ),
    ),
    (
        (
            '        decline_if(not self.may_pass(given, receiver), Refusal.NOT_PERMITTED)\n'
            '        decline_if(energy > given.energy, Refusal.TOO_MUCH)\n'
        ),
        (
            '        decline_if(energy > given.energy, Refusal.TOO_MUCH)\n'
            '        decline_if(not self.may_pass(given, receiver), Refusal.NOT_PERMITTED)\n'
        ),
    ),
    (
        (
            '        decline_if(energy > given.energy, Refusal.TOO_MUCH)\n'
            '        self.decline_without_room(receiver, energy)\n'
        ),
        (
            '        self.decline_without_room(receiver, energy)\n'
            '        decline_if(energy > given.energy, Refusal.TOO_MUCH)\n'
        ),
    ),
    (
        (
            '        decline_if(len(self.contracts) >= CONTRACTS, Refusal.FULL)\n'
            '        past = self.contract_sum(plant) + energy > ENERGY_LIMIT\n'
            '        decline_if(past, Refusal.SUM_PAST_LIMIT)\n'
        ),
        (
            '        past = self.contract_sum(plant) + energy > ENERGY_LIMIT\n'
            '        decline_if(past, Refusal.SUM_PAST_LIMIT)\n'
            '        decline_if(len(self.contracts) >= CONTRACTS, Refusal.FULL)\n'
        ),
    ),
    (
        (
            '        decline_if(plant not in self.accounts, Refusal.NOT_ENROLLED)\n'
            '        decline_if(commissioning > metered, Refusal.TOO_MUCH)\n'
        ),
        (
            '        decline_if(commissioning > metered, Refusal.TOO_MUCH)\n'
            '        decline_if(plant not in self.accounts, Refusal.NOT_ENROLLED)\n'
        ),
    ),
    (
        "self.contract_sum(plant) + energy > ENERGY_LIMIT",
        "self.contract_sum(plant) + energy >= ENERGY_LIMIT",
    ),
    (
        "return -SIDE_BALANCE_LIMIT <= grains <= SIDE_BALANCE_LIMIT",
        "return -SIDE_BALANCE_LIMIT < grains <= SIDE_BALANCE_LIMIT",
    ),
    (
        "return -SIDE_BALANCE_LIMIT <= grains <= SIDE_BALANCE_LIMIT",
        "return abs(grains) <= SIDE_BALANCE_LIMIT or grains < 0",
    ),
    (
        "return -SIDE_BALANCE_LIMIT <= grains <= SIDE_BALANCE_LIMIT",
        "return abs(grains) <= SIDE_BALANCE_LIMIT or grains > 0",
    ),
    (
        "past = not (balance_within(giver_balance) and balance_within(receiver_balance))",
        "past = not balance_within(giver_balance)",
    ),
    (
        "past = not (balance_within(giver_balance) and balance_within(receiver_balance))",
        "past = not balance_within(receiver_balance)",
    ),
    (
        "return divmod(net + carry, GRAINS_IN_FEN)",
        "return divmod(abs(net + carry), GRAINS_IN_FEN)",
    ),
]

# The same for second/book.py; the cases are runs of calls.
BOOK_CHANGES = [
    (
        "COMPENSATION_LIMIT = 100_000_000",
        "COMPENSATION_LIMIT = 99_999_999",
    ),
    (
        "COMPENSATION_LIMIT = 100_000_000",
        "COMPENSATION_LIMIT = 100_000_001",
    ),
    (
        "return 0 <= fen <= COMPENSATION_LIMIT",
        "return fen <= COMPENSATION_LIMIT",
    ),
    (
        "return 0 <= fen <= COMPENSATION_LIMIT",
        "return 0 < fen <= COMPENSATION_LIMIT",
    ),
    (
        "SHARE_CLAIMS = 256",
        "SHARE_CLAIMS = 255",
    ),
    (
        "SHARE_CLAIMS = 256",
        "SHARE_CLAIMS = 257",
    ),
    (
        "SHARE_CLAIM_LIMIT = 300_000_000_000",
        "SHARE_CLAIM_LIMIT = 299_999_999_999",
    ),
    (
        "SHARE_CLAIM_LIMIT = 300_000_000_000",
        "SHARE_CLAIM_LIMIT = 300_000_000_001",
    ),
    (
        "SHARE_PRODUCT_LIMIT = 9_000_000_000_000_000_000",
        "SHARE_PRODUCT_LIMIT = 8_999_999_999_999_999_999",
    ),
    (
        "SHARE_PRODUCT_LIMIT = 9_000_000_000_000_000_000",
        "SHARE_PRODUCT_LIMIT = 9_000_000_000_000_000_001",
    ),
    (
        "last = max(i for i, claim in enumerate(claims) if claim > 0)",
        "last = len(claims) - 1",
    ),
    (
        "last = max(i for i, claim in enumerate(claims) if claim > 0)",
        "last = min(i for i, claim in enumerate(claims) if claim > 0)",
    ),
    (
        (
            '    decline_if(claimed == 0 and total > 0, Refusal.NOTHING_CLAIMED)\n'
        ),
        "    decline_if(claimed == 0, Refusal.NOTHING_CLAIMED)\n",
    ),
    (
        (
            '    decline_if(len(claims) > SHARE_CLAIMS, Refusal.LENGTHS)\n'
            '    decline_if(claimed == 0 and total > 0, Refusal.NOTHING_CLAIMED)\n'
        ),
        (
            '    decline_if(claimed == 0 and total > 0, Refusal.NOTHING_CLAIMED)\n'
            '    decline_if(len(claims) > SHARE_CLAIMS, Refusal.LENGTHS)\n'
        ),
    ),
    (
        (
            '    decline_if(len(claims) != len(Rank), Refusal.SLICE_LENGTH)\n'
            '    within = all(energy_within(energy) for energy in [metered, *claims])\n'
            '    decline_if(not within, Refusal.PAST_LIMIT)\n'
        ),
        (
            '    within = all(energy_within(energy) for energy in [metered, *claims])\n'
            '    decline_if(not within, Refusal.PAST_LIMIT)\n'
            '    decline_if(len(claims) != len(Rank), Refusal.SLICE_LENGTH)\n'
        ),
    ),
    (
        "return parts, left, sum(claims) - sum(parts)",
        "return parts, sum(claims) - sum(parts), left",
    ),
    (
        "return Account(self.enrolment, carry=self.carry)",
        "return Account(self.enrolment)",
    ),
    (
        "return Account(self.enrolment, carry=self.carry)",
        "return Account(self.enrolment, carry=self.carry, side_balance=self.side_balance)",
    ),
    (
        "        self.accounts = {}\n        self.contracts = {}\n",
        (
            '        self.accounts = {p: a.next_month() for p, a in self.accounts.items()}\n'
            '        self.contracts = {}\n'
        ),
    ),
    (
        "        self.rule = rule\n",
        "",
    ),
    (
        (
            '        decline_if(number in self.contracts, Refusal.ALREADY_THERE)\n'
            '        self.decline_closed(plant)\n'
        ),
        (
            '        self.decline_closed(plant)\n'
            '        decline_if(number in self.contracts, Refusal.ALREADY_THERE)\n'
        ),
    ),
    (
        (
            '        self.decline_closed(plant)\n'
            '        rank = Rank(rank_number)\n'
            '        decline_if(not may_hold(self.class_of(plant), rank), Refusal.NOT_PERMITTED)\n'
        ),
        (
            '        rank = Rank(rank_number)\n'
            '        decline_if(not may_hold(self.class_of(plant), rank), Refusal.NOT_PERMITTED)\n'
            '        self.decline_closed(plant)\n'
        ),
    ),
    (
        (
            '        self.decline_closed(contract.plant)\n'
            '        self.decline_sum(self.contract_sum(contract.plant) - contract.energy + energy)\n'
        ),
        (
            '        self.decline_sum(self.contract_sum(contract.plant) - contract.energy + energy)\n'
            '        self.decline_closed(contract.plant)\n'
        ),
    ),
    (
        "self.contract_sum(contract.plant) - contract.energy + energy",
        "self.contract_sum(contract.plant) + energy",
    ),
    (
        (
            '        self.decline_closed(given.plant, receiver)\n'
            '        decline_if(not self.may_pass(given, receiver), Refusal.NOT_PERMITTED)\n'
        ),
        (
            '        decline_if(not self.may_pass(given, receiver), Refusal.NOT_PERMITTED)\n'
            '        self.decline_closed(given.plant, receiver)\n'
        ),
    ),
    (
        "self.decline_closed(given.plant, receiver)",
        "self.decline_closed(given.plant)",
    ),
    (
        "self.decline_closed(given.plant, receiver)",
        "self.decline_closed(receiver)",
    ),
    (
        (
            '        self.decline_closed(plant)\n'
            '        decline_if(commissioning > metered, Refusal.TOO_MUCH)\n'
        ),
        (
            '        decline_if(commissioning > metered, Refusal.TOO_MUCH)\n'
            '        self.decline_closed(plant)\n'
        ),
    ),
    (
        "self.decline_closed(*self.accounts)",
        "self.decline_closed(plant)",
    ),
    (
        (
            '        self.decline_not_enrolled(plant)\n'
            '        self.decline_closed(*self.accounts)\n'
        ),
        (
            '        self.decline_closed(*self.accounts)\n'
            '        self.decline_not_enrolled(plant)\n'
        ),
    ),
    (
        "        decline_if(not any(claims), Refusal.NOT_READY)\n",
        (
            '        decline_if(fen and not any(claims), Refusal.NOT_READY)\n'
        ),
    ),
    (
        "        changes[plant] += fen * GRAINS_IN_FEN\n",
        "        changes[plant] = fen * GRAINS_IN_FEN\n",
    ),
    (
        "claims = [reading.metered for reading in readings]",
        "claims = [reading.metered - reading.commissioning for reading in readings]",
    ),
    (
        "parts = self.rule(fen, claims)",
        "parts = share_equal_ratio(fen, claims)",
    ),
    (
        (
            '        decline_if(account.issued_net is not None, Refusal.ALREADY_THERE)\n'
            '        decline_if(account.reading is None, Refusal.NOT_READY)\n'
        ),
        (
            '        decline_if(account.reading is None, Refusal.NOT_READY)\n'
        ),
    ),
    (
        (
            'account.issued_net = self.settlement(plant).net\n'
            '        fen, account.carry = pay(account.issued_net, account.carry)'
        ),
        (
            'account.issued_net = self.settlement(plant).net\n'
            '        fen, account.carry = pay(account.issued_net, 0)'
        ),
    ),
    (
        "account.carry += self.settlement(plant).net - account.issued_net",
        "account.carry -= self.settlement(plant).net - account.issued_net",
    ),
    (
        "account.carry += self.settlement(plant).net - account.issued_net",
        "account.carry = self.settlement(plant).net - account.issued_net",
    ),
    (
        "        account.closed = True\n",
        "",
    ),
    (
        (
            '        self.decline_closed(plant)\n'
            '        account = self.accounts[plant]\n'
            '        decline_if(account.issued_net is None, Refusal.NOT_READY)\n'
        ),
        (
            '        account = self.accounts[plant]\n'
            '        decline_if(account.issued_net is None, Refusal.NOT_READY)\n'
        ),
    ),
    (
        "all_closed = all(account.closed for account in self.accounts.values())",
        "all_closed = any(account.closed for account in self.accounts.values()) or not self.accounts",
    ),
    (
        (
            '        decline_if(not price_within(residential_price), Refusal.PAST_LIMIT)\n'
            '        all_closed'
        ),
        "        all_closed",
    ),
    (
        "self.month = self.month % MONTHS + 1",
        "self.month = min(self.month + 1, MONTHS)",
    ),
    (
        (
            '        self.residential_price = residential_price\n'
            '        self.accounts = {plant:'
        ),
        "        self.accounts = {plant:",
    ),
    (
        (
            '        self.accounts = {plant: account.next_month() for plant, account in self.accounts.items()}\n'
            '        self.contracts = {}\n'
        ),
        (
            '        self.accounts = {plant: account.next_month() for plant, account in self.accounts.items()}\n'
        ),
    ),
    (
        "energy_places != held or amount_places != held",
        "energy_places != held",
    ),
    (
        "energy_places != held or amount_places != held",
        "amount_places != held",
    ),
    (
        (
            '        decline_if(self.accounts[plant].reading is None, Refusal.NOT_READY)\n'
            '        held = len(self.contracts_of(plant))\n'
            '        decline_if(energy_places != held or amount_places != held, Refusal.SLICE_LENGTH)\n'
        ),
        (
            '        held = len(self.contracts_of(plant))\n'
            '        decline_if(energy_places != held or amount_places != held, Refusal.SLICE_LENGTH)\n'
            '        decline_if(self.accounts[plant].reading is None, Refusal.NOT_READY)\n'
        ),
    ),
    (
        "parts = rule(total, [contracts[i].energy for i in places])",
        "parts = share_equal_ratio(total, [contracts[i].energy for i in places])",
    ),
]


def cases_of(crate):
    folder = HERE / "crates" / crate
    return (folder / "stdin").read_bytes(), (folder / "stdout").read_bytes()


def answers(folder, program, given):
    run = subprocess.run([sys.executable, "-B", *program], cwd=folder, input=given, capture_output=True)
    return run.stdout if run.returncode == 0 else b""


def pieces(text, separator):
    return text.split(separator)


def differing(ours, theirs):
    """How many pieces differ, counted over the longer list."""
    longer = max(len(ours), len(theirs))
    return sum(a != b for a, b in zip(ours, theirs)) + longer - min(len(ours), len(theirs))


def shown(text):
    return " ".join(text.split())


def try_changes(name, arguments, crate, separator, changes):
    """Prints each change with the number of cases that show it; gives the changes that none shows."""
    given, stored = cases_of(crate)
    wanted = pieces(stored, separator)
    unseen = []
    for old, new in changes:
        with tempfile.TemporaryDirectory() as folder:
            for module in SECOND.glob("*.py"):
                text = module.read_text()
                if module.name == name:
                    if text.count(old) != 1:
                        sys.exit(f"{name} has this {text.count(old)} times: {old}")
                    text = text.replace(old, new)
                (pathlib.Path(folder) / module.name).write_text(text)
            found = differing(pieces(answers(folder, [name, *arguments], given), separator), wanted)
        print(f"{found:5d}  {shown(old)}  ->  {shown(new)}", flush=True)
        if found == 0:
            unseen.append(old)
    return unseen


def main():
    unseen = try_changes("settle.py", ["--cases"], "sheet_cases", b"case ", SHEET_CHANGES)
    unseen += try_changes("book.py", [], "book_cases", b"\n", BOOK_CHANGES)
    print(f"{len(SHEET_CHANGES) + len(BOOK_CHANGES)} changes, {len(unseen)} shown by no case")


main()
