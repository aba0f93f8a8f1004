#!/usr/bin/env python3
"""Writes a large journal, for measuring.

    python3 tools/make_journal.py [YEARS] [ACCOUNTS] [METHOD] [BOOK] > journal

Without arguments 25 years of monthly bills of 4,096 accounts by the volumetric method in a table: 1.2 million bills.
The numbers are drawn from a fixed seed, so that the same arguments give the same journal. A request has at most 1,024
lines, and one that comes later sets the percentages of all earlier accounts to 0; so that all accounts hold units, a
month's reading is followed by bills of every account, and each quarter enrols the next 1,024 accounts.
"""
import random
import sys


def journal(years, accounts, method, book):
    draw = random.Random(19)
    yield f"method {method}"
    yield "book table 4096" if book == "table" else "book image 147460"
    yield "open 1 farm"
    if method == "volumetric":
        yield "rates " + " ".join(str(draw.randint(40000, 200000)) for _ in range(16))
    numbers = [20010000001 + i for i in range(accounts)]
    for start in range(0, accounts, 1024):
        yield from enrolment(draw, numbers[start : start + 1024])
    for month in range(12 * years):
        if month % 3 == 0 and month > 0:
            start = (month // 3) * 1024 % accounts
            yield from enrolment(draw, numbers[start : start + 1024])
        yield f"reading {draw.randint(2000000, 3000000)}"
        for number in numbers:
            yield f"bill {number} {draw.randint(0, 20000)}"
        yield "close"


def enrolment(draw, numbers):
    for i, number in enumerate(numbers):
        kind = "X" if i % 100 == 0 else "M"
        yield f"line {number} {100000 // len(numbers)} {draw.randint(500, 9800)} {i % 16 + 1} S {kind}"
    yield "enrol"


if __name__ == "__main__":
    given = sys.argv[1:]
    years = int(given[0]) if given else 25
    accounts = int(given[1]) if len(given) > 1 else 4096
    method = given[2] if len(given) > 2 else "volumetric"
    book = given[3] if len(given) > 3 else "table"
    sys.stdout.writelines(line + "\n" for line in journal(years, accounts, method, book))
