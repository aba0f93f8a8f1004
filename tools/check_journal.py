#!/usr/bin/env python3
"""Posts a journal by a computation of its own and prints the lines that `cabinet` prints.

    python3 tools/check_journal.py [--report] JOURNAL > expected
    cabinet [--report] JOURNAL | diff - expected

Request files are looked for in the present folder, and then in the journal's. Nothing here is taken from the program:
the account book is a dictionary, a credit is found by stepping down from an estimate, and the totals are kept as the
calls come and then checked against what the books hold. The report is made from what each call did; its sums are
checked against the reading, the bank and the settlement.
"""
import os
import sys

MOST_UNITS = 10**12
ANCHOR = "X"  # the letter of an excluded anchor

REASONS = {
    9: "the smallest number of lines is neither 1 nor 10",
    10: "the book has records already",
    11: "a period is open",
    12: "the lines are too few, or more than 1024",
    13: "a number of the line is out of range",
    14: "the account stands on an earlier line",
    15: "the account is closed",
    16: "the percentages pass 100 percent together",
    17: "the percentages of large satellites pass 40 percent together",
    18: "the book has no room for the new accounts",
    19: "all 1200 periods are closed",
    20: "the reading passes 10000000000 units",
    21: "the readings pass 1000000000000 units together",
    22: "no period is open",
    23: "the bill passes 1000000000 cents",
    24: "no open account has this number",
    25: "the account is billed already in this period",
    26: "the units are 0, or more than the bank has",
    27: "the book is another ledger's",
}


class Refused(Exception):
    def __init__(self, number, place=0, reason=None):
        super().__init__(number)
        self.number, self.place = number, place
        self.reason = reason or REASONS[number]


def request_lines(data):
    """The lines of a request file."""
    if not 2 <= len(data) <= 65535:
        raise Refused(1, 0, "the file has under 2 or over 65,535 bytes")
    n = int.from_bytes(data[:2], "little")
    if not 1 <= n <= 1024 or 2 + 6 * n > len(data):
        raise Refused(2, 0, "the line count is 0 or above 1,024, or the pairs pass the file's end")
    pairs = []
    ahead = 2 + 6 * n
    for i in range(n):
        at = 2 + 6 * i
        offset, size = int.from_bytes(data[at : at + 4], "little"), int.from_bytes(data[at + 4 : at + 6], "little")
        if offset < ahead or not 30 <= size <= 110 or offset + size > len(data):
            raise Refused(4, i, "the pair starts too early, has a length outside 30 to 110, or passes the file's end")
        pairs.append((offset, size))
        ahead = offset + size
    lines = []
    for i, (offset, size) in enumerate(pairs):
        line = data[offset : offset + size]
        shape = "".join("9" if 48 <= b <= 57 else chr(b) for b in line[:27]) == "99999999999 999999 9999 99 "
        letters = line[27:28] in (b"S", b"L") and line[28:29] == b" " and line[29:30] in (b"M", b"X")
        if not (shape and letters and line[30:31] in (b"", b" ")):
            raise Refused(5, i, "the line breaks the form")
        words = line[:30].decode().split(" ")
        lines.append([int(w) for w in words[:4]] + words[4:])
    return lines


def dollars(cents):
    return f"{cents // 100}.{cents % 100:02}"


def percent(thousandths):
    return f"{thousandths // 1000}.{thousandths % 1000:03}"


class Month:
    """What the summary of a period tells: each account's percentage, units carried over, share, cents applied, units left."""

    def __init__(self, period, reading, bank):
        self.period, self.reading, self.bank, self.rows, self.forfeited = period, reading, bank, {}, 0

    def summary(self, members, fees, utility, payment):
        yield f"Period {self.period}"
        yield f"Reading: {self.reading} units"
        yield ""
        heads = ["Account", "Percent", "Carried over", "Share", "Available", "Applied in $", "Left"]
        widths = [11, 10, 15, 15, 15, 15, 15]
        yield "".join(head.rjust(width) for head, width in zip(heads, widths))

        def line(label, part, carried, share, applied, left):
            cells = [label, part, carried, share, carried + share, dollars(applied), left]
            return "".join(str(cell).rjust(width) for cell, width in zip(cells, widths))

        for number, (part, carried, share, applied, left) in self.rows.items():
            if part or carried + share:
                yield line(number, percent(part), carried, share, applied, left)
        part, carried, share, applied, left = (sum(column) for column in zip(*self.rows.values())) if self.rows else [0] * 5
        yield line("Satellites", percent(part), carried, share, applied, left)
        rest = self.reading - share
        yield line("Host bank", "", self.bank, rest, 0, self.bank + rest)
        if self.forfeited:
            yield f"Forfeited by final bills: {self.forfeited} units"
        yield ""
        net = members - fees
        assert payment == applied - (applied - members) - net - utility
        for label, cents in (
            ("Credit applied to satellites", applied),
            ("  less that of excluded anchors, without fee", applied - members),
            ("Credit applied to members", members),
            ("  less their net credit", net),
            ("Subscription fees", fees),
            ("  less utility fee, 1.5 percent of members' credit", utility),
            ("Paid to the host", payment),
        ):
            yield label + dollars(cents).rjust(66 - len(label))
        yield ""


class Account:
    def __init__(self, number):
        self.number, self.held, self.last, self.open = number, 0, 0, True
        self.percentage = self.savings = self.service = 0
        self.size = self.kind = "?"


class Cabinet:
    def __init__(self, method, places, smallest, farm):
        if smallest not in (1, 10):
            raise Refused(9)
        self.by_rates, self.places, self.smallest, self.farm = method == "volumetric", places, smallest, farm
        self.rates, self.book = [1] * 16, {}
        self.open_period, self.closed, self.bank = False, 0, 0
        self.applied = self.fees = 0
        self.sums = dict.fromkeys(["read", "used", "forfeited", "applied", "net", "paid", "utility"], 0)
        self.summaries, self.month, self.refused = [], None, 0

    def worth(self, service, units):
        return units * self.rates[service - 1] // 10000 if self.by_rates else units

    def credit(self, service, units, cents):
        credit = min(cents, self.worth(service, units))
        if not self.by_rates:
            return credit, credit
        used = min(units, credit * 10000 // self.rates[service - 1] + 2)
        while used > 0 and self.worth(service, used - 1) >= credit:
            used -= 1
        return credit, used

    def set_rates(self, rates):
        if len(rates) != 16:
            raise Refused(8, 0, "there are not sixteen rates")
        for place, rate in enumerate(rates):
            if not 1 <= rate <= 1000000:
                raise Refused(8, place, "the rate is not 1 to 1000000")
        self.rates = list(rates)

    def enrol(self, lines):
        if self.open_period:
            raise Refused(11)
        if not self.smallest <= len(lines) <= 1024:
            raise Refused(12)
        for i, (number, percentage, savings, service, _, _) in enumerate(lines):
            ok = 1 <= number <= 99999999999 and 1 <= percentage <= 100000
            if not (ok and 500 <= savings <= 9800 and 1 <= service <= 16):
                raise Refused(13, i)
        met = set()
        for i, line in enumerate(lines):
            if line[0] in met:
                raise Refused(14, i)
            met.add(line[0])
        for i, line in enumerate(lines):
            if line[0] in self.book and not self.book[line[0]].open:
                raise Refused(15, i)
        if sum(line[1] for line in lines) > 100000:
            raise Refused(16)
        if not self.farm and sum(line[1] for line in lines if line[4] == "L") > 40000:
            raise Refused(17)
        new = [line[0] for line in lines if line[0] not in self.book]
        if len(self.book) + len(new) > self.places:
            raise Refused(18)
        for number in new:
            self.book[number] = Account(number)
        for account in self.book.values():
            account.percentage = 0
        for number, percentage, savings, service, size, kind in lines:
            account = self.book[number]
            account.percentage, account.savings, account.service = percentage, savings, service
            account.size, account.kind = size, kind
        return f"{len(new)} new"

    def reading(self, units):
        if self.open_period:
            raise Refused(11)
        if self.closed >= 1200:
            raise Refused(19)
        if units > 10**10:
            raise Refused(20)
        if self.sums["read"] + units > MOST_UNITS:
            raise Refused(21)
        self.open_period = True
        self.sums["read"] += units
        self.month = Month(self.closed + 1, units, self.bank)
        left = units
        for account in self.book.values():
            share = units * account.percentage // 100000
            self.month.rows[account.number] = [account.percentage, account.held, share, 0, account.held + share]
            account.held += share
            left -= share
        self.bank += left
        return f"period {self.closed + 1}"

    def bill(self, number, cents, last):
        if not self.open_period:
            raise Refused(22)
        if cents > 10**9:
            raise Refused(23)
        account = self.book.get(number)
        if account is None or not account.open:
            raise Refused(24)
        if account.last == self.closed + 1:
            raise Refused(25)
        credit, used = self.credit(account.service, account.held, cents)
        net = credit if account.kind == ANCHOR else credit * account.savings // 10000
        fee = credit - net
        account.held -= used
        account.last = self.closed + 1
        self.fees += fee
        if account.kind != ANCHOR:
            self.applied += credit
        for key, amount in (("used", used), ("applied", credit), ("net", net)):
            self.sums[key] += amount
        self.month.rows[number][3:] = [credit, account.held]
        answer = f"applied {credit} used {used} net {net} fee {fee}"
        if not last:
            return answer
        forfeited, account.held, account.percentage, account.open = account.held, 0, 0, False
        self.sums["forfeited"] += forfeited
        self.month.rows[number][4] = 0
        self.month.forfeited += forfeited
        return f"{answer} forfeited {forfeited}"

    def disburse(self, number, units):
        if self.open_period:
            raise Refused(11)
        account = self.book.get(number)
        if account is None or not account.open:
            raise Refused(24)
        if not 1 <= units <= self.bank:
            raise Refused(26)
        self.bank -= units
        account.held += units
        return f"bank {self.bank}"

    def lapse(self):
        if self.open_period:
            raise Refused(11)
        forfeited, self.bank = self.bank, 0
        self.sums["forfeited"] += forfeited
        return f"forfeited {forfeited}"

    def close(self):
        if not self.open_period:
            raise Refused(22)
        utility = (2 * self.applied * 150 + 10000) // 20000
        payment = self.fees - utility
        answer = f"applied {self.applied} fees {self.fees} utility {utility} payment {payment}"
        self.summaries.extend(self.month.summary(self.applied, self.fees, utility, payment))
        self.sums["utility"] += utility
        self.sums["paid"] += payment
        self.open_period, self.applied, self.fees = False, 0, 0
        self.closed += 1
        return answer

    def end(self):
        phase = "in period" if self.open_period else "between periods"
        yield f"ledger: {phase}, closed {self.closed}, bank {self.bank}, applied {self.applied}, fees {self.fees}"
        for a in self.book.values():
            state = "open" if a.open else "closed"
            yield (
                f"account {a.number}: percentage {a.percentage} savings {a.savings} class {a.service} "
                f"size {a.size} kind {a.kind} state {state} held {a.held} last {a.last}"
            )
        s, held = self.sums, sum(a.held for a in self.book.values())
        assert s["read"] == s["used"] + s["forfeited"] + self.bank + held
        assert s["applied"] == s["net"] + s["paid"] + s["utility"] + self.fees
        yield f"units: read {s['read']} used {s['used']} forfeited {s['forfeited']} bank {self.bank} held {held}"
        yield (
            f"cents: applied {s['applied']} net {s['net']} paid {s['paid']} utility {s['utility']} open {self.fees}"
        )


def opened(name, folder):
    return open(name if os.path.exists(name) else os.path.join(folder, name), "rb")


def calls(cabinet, statements, folder):
    """Each statement that answers, as its word and what it does."""
    hand = []
    for word, *rest in statements:
        if word == "line":
            hand.append([int(w) for w in rest[:4]] + rest[4:])
        elif word == "rates":
            yield word, lambda: cabinet.set_rates([int(w) for w in rest]) or "set"
        elif word == "request":

            def take():
                nonlocal hand
                with opened(rest[0], folder) as file:
                    hand = request_lines(file.read())
                return f"{len(hand)} lines"

            yield word, take
        elif word == "enrol":
            lines, hand = hand, []
            yield word, lambda: cabinet.enrol(lines)
        elif word in ("bill", "final"):
            yield word, lambda: cabinet.bill(int(rest[0]), int(rest[1]), word == "final")
        else:
            yield word, lambda: getattr(cabinet, word)(*[int(w) for w in rest])


def post(text, folder, report):
    lines = [line.split() for line in text.split("\n")]
    statements = [words for words in lines if words and not words[0].startswith("#")]
    (_, method), (_, book, room), (_, smallest, farm) = statements[:3]
    places = min(int(room), 4096)
    if book == "image":
        if int(room) < 4:
            yield "book: refused 6 place 0: the image has under 4 bytes, or its count is above its capacity"
            return
        places = min((int(room) - 4) // 36, 4096)
    try:
        cabinet = Cabinet(method, places, int(smallest), farm == "farm")
    except Refused as why:
        yield f"open: refused {why.number} place {why.place}: {why.reason}"
        return
    log = ["open: opened"]
    for word, call in calls(cabinet, statements[3:], folder):
        try:
            log.append(f"{word}: {call()}")
        except Refused as why:
            log.append(f"{word}: refused {why.number} place {why.place}: {why.reason}")
            cabinet.refused += word not in ("rates", "request")
    if not report:
        yield from log
        yield from cabinet.end()
        return
    yield from cabinet.summaries
    yield f"Closed periods: {cabinet.closed}" + ("; one more is open" if cabinet.open_period else "")
    if cabinet.refused:
        yield f"Refused calls: {cabinet.refused}; the log tells why"


if __name__ == "__main__":
    name = sys.argv[-1]
    with open(name, encoding="utf-8") as journal:
        for line in post(journal.read(), os.path.dirname(name), "--report" in sys.argv):
            print(line)
