"""Times two programs on one sheet and prints the ratio.

Each program settles the sheet once, and then many times, in one process; the difference of the two
wall-clock times, divided by the difference in number, is the time of one settlement. So starting
the process and reading the input are left out. The programs take turns, and the least time of
several rounds counts.
"""

import subprocess
import sys
import time

PROVED = "crates/sheet_cases/out/sheet_cases"
INDEPENDENT = "bench/independent/target/release/independent"
ROUNDS = 7


def output_and_seconds(command, given):
    begun = time.perf_counter()
    run = subprocess.run(command, input=given, capture_output=True, check=True)
    return run.stdout, time.perf_counter() - begun


def seconds_for_one(command, given, times):
    _, once = output_and_seconds([*command, "1"], given)
    _, many = output_and_seconds([*command, str(times + 1)], given)
    return (many - once) / times


def main(times):
    sheet = subprocess.run([sys.executable, "bench/full_sheet.py"], capture_output=True, check=True).stdout
    case = b"full " + sheet.hex().encode() + b"\n"
    first, _ = output_and_seconds([PROVED, "1"], case)
    second, _ = output_and_seconds([INDEPENDENT, "1"], sheet)
    if first != b"case full\n" + second:
        sys.exit("the two programs print different statements")
    proved, independent = [], []
    for _ in range(ROUNDS):
        proved.append(seconds_for_one([PROVED], case, times))
        independent.append(seconds_for_one([INDEPENDENT], sheet, times))
    least, yardstick = min(proved), min(independent)
    print(f"a sheet of {len(sheet)} bytes, {times} times, least of {ROUNDS} rounds")
    print(f"proved library: {least * 1e6:.1f} us for each settlement")
    print(f"independent Rust: {yardstick * 1e6:.1f} us for each settlement")
    print(f"ratio: {least / yardstick:.1f}")


main(int(sys.argv[1]))
