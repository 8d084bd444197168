#!/usr/bin/env python3
"""Divides an input of `prepaid run` into inputs by account: examples/divide.py [--parts N] INPUT FOLDER

The input may be larger than one run takes. Each part has the whole tariff, some of the accounts with their subscribers,
and all that the script says of them: all calls of an account, and its recharges, in their order. A call of a subscriber
that the setup doesn't name has no account: it goes to a part by its number. Without N there are as many parts as the
limits of a run ask for. The folder is made, or is empty. docs/SCALING.md says how the parts are run.
"""
import argparse
import collections
import csv
import datetime
import heapq
import os
import re
import sys

Limits = collections.namedtuple("Limits", "bytes accounts setup script")
# What one run takes: bytes, accounts, rows of a setup and rows of a script.
RUN = Limits(16_777_216, 1_000, 10_000, 1_000_000)
SETUP = [["kind", "key", "value", *more] for more in ([], ["until"])]
SCRIPT = [["moment", "call", "what", "x", "y", *more] for more in ([], ["z"])]
# Calls without an account go together by their number modulo this.
GROUPS = 1_000
# How much is held back before it is written to the parts.
HELD = 64 << 20
MARK = b"%%\n"
EPOCH, TENTH = datetime.datetime(1970, 1, 1), datetime.timedelta(milliseconds=100)


class Wrong(Exception):
    """Why an input is not divided."""


def decimal(field, fail):
    if not re.fullmatch("[0-9]{1,20}", field):
        fail("Number")
    return int(field)


def moment_of(field, fail):
    """A moment: a decimal, or a date and a time."""
    said = re.fullmatch(r"([0-9]{4}-[0-9]{2}-[0-9]{2})[T ]([0-9]{2}:[0-9]{2}:[0-9]{2})(?:\.([0-9]))?", field)
    if not said:
        return decimal(field, fail)
    try:
        at = datetime.datetime.strptime(f"{said[1]} {said[2]}", "%Y-%m-%d %H:%M:%S")
    except ValueError:
        fail("Number")
    return (at - EPOCH) // TENTH + int(said[3] or 0)


def line_of(fields):
    return (",".join(fields) + "\n").encode("latin-1")


class Input:
    """An input that is read from its file as often as it is needed."""

    def __init__(self, path):
        self.path, self.ends, at = path, [], 0
        with open(path, "rb") as file:
            for line in file:
                if line in (MARK, b"%%\r\n", b"%%"):
                    self.ends.append((at, at + len(line)))
                at += len(line)
        if len(self.ends) != 2:
            raise Wrong("input: Parts")
        self.size = at
        with open(path, "rb") as file:
            self.tariff = file.read(self.ends[0][0])

    def lines(self, start, end):
        """The lines of a table, whatever they end with."""
        with open(self.path, "rb") as file:
            file.seek(start)
            while start < end:
                line = file.readline()
                start += len(line)
                if b"\r" in line:
                    yield from re.split("[\r\n]+", line.decode("latin-1"))
                else:
                    yield line.decode("latin-1")

    def rows(self, name, headers, start, end):
        """The header, and then the fields of each row with what raises a fault of the row."""
        rows = (it for it in csv.reader(without_mark(self.lines(start, end))) if it)
        header = next(rows, None)
        if header not in headers:
            raise Wrong(f"{name} row 1: Header")
        yield header, None
        for row, fields in enumerate(rows, 2):

            def fail(kind, row=row):
                raise Wrong(f"{name} row {row}: {kind}")

            if len(fields) != len(header):
                fail("Csv")
            yield fields, fail

    def setup(self):
        return self.rows("setup", SETUP, self.ends[0][1], self.ends[1][0])

    def script(self):
        return self.rows("script", SCRIPT, self.ends[1][1], self.size)


def without_mark(lines):
    """The lines without a byte order mark at their start, whose bytes are these characters here."""
    yield next(lines, "").removeprefix("\xef\xbb\xbf")
    yield from lines


class Owners:
    """Whose each row is: the number of an account, or below 0 a group of calls that have none."""

    def __init__(self):
        self.accounts, self.subscribers, self.calls, self.last = set(), {}, {}, 0

    def of_setup(self, fields, fail):
        kind, key, value = fields[:3]
        account = decimal(key if kind == "account" else value, fail)
        if kind == "account":
            if account in self.accounts:
                fail("Repeated")
            self.accounts.add(account)
        elif kind == "subscriber":
            if key in self.subscribers:
                fail("Repeated")
            if account not in self.accounts:
                fail("Unknown")
            self.subscribers[key] = account
        else:
            fail("What")
        return account

    def of_script(self, fields, fail):
        moment, number, what, x = fields[:4]
        now, number = moment_of(moment, fail), decimal(x if what == "recharge" else number, fail)
        if now < self.last:
            fail("Order")
        self.last = now
        if what == "start":
            if number in self.calls:
                fail("Repeated")
            self.calls[number] = self.subscribers.get(x, -1 - number % GROUPS)
            return self.calls[number]
        if number not in (self.accounts if what == "recharge" else self.calls):
            fail("Unknown")
        return number if what == "recharge" else self.calls[number]


def each_row(found, owner):
    """The owner and the line of each row, the header first with no owner."""
    for fields, fail in found:
        yield owner(fields, fail) if fail else None, line_of(fields)


def weights_of(given):
    """What each owner takes of a run, and what each part takes before it has any."""
    owners, weights, bare = Owners(), {}, len(given.tariff) + 2 * len(MARK)
    for at, rows in ((2, each_row(given.setup(), owners.of_setup)), (3, each_row(given.script(), owners.of_script))):
        bare += len(next(rows)[1])
        for owner, line in rows:
            weight = weights.setdefault(owner, [0, owner >= 0, 0, 0])
            weight[0] += len(line)
            weight[at] += 1
    return weights, bare


def shared(weights, limits, count):
    """The part of each owner, the largest first and each to the smallest part; None where they don't fit so."""
    places, parts = {}, [(0, part, (0, 0, 0, 0)) for part in range(count)]
    for owner, weight in sorted(weights.items(), key=lambda it: (-it[1][0], it[0])):
        while parts:
            _, part, taken = heapq.heappop(parts)
            taken = tuple(map(sum, zip(taken, weight)))
            if all(map(int.__le__, taken, limits)):
                heapq.heappush(parts, (taken[0], part, taken))
                places[owner] = part
                break
        else:
            return None
    return places


def placed(weights, bare, limits, count):
    """The part of each owner, and how many parts there are."""
    left = limits._replace(bytes=limits.bytes - bare)
    for owner, weight in weights.items():
        if not all(map(int.__le__, weight, left)):
            who = f"account {owner}" if owner >= 0 else "a group of calls without account"
            raise Wrong(f"{who} is more than one run takes")
    sums = [sum(it) for it in zip(*weights.values())] or [0]
    least = max(1, *(-(-total // most) for total, most in zip(sums, left)))
    parts = count or least
    while (places := shared(weights, left, parts)) is None:
        if count:
            raise Wrong(f"{count} parts are too few")
        parts += 1 + parts // 50
    return places, parts


class Parts:
    """The files of the parts. They are opened for a moment each, as there may be more than may be open."""

    def __init__(self, folder, count):
        os.makedirs(folder, exist_ok=True)
        if os.listdir(folder):
            raise Wrong(f"{folder} is not empty")
        self.paths = [os.path.join(folder, f"part-{part:05}.txt") for part in range(1, count + 1)]
        self.texts, self.held = [bytearray() for _ in self.paths], 0

    def put(self, part, text):
        self.texts[part] += text
        self.held += len(text)
        if self.held > HELD:
            self.write()

    def put_each(self, text):
        for part in range(len(self.paths)):
            self.put(part, text)

    def write(self):
        for path, text in zip(self.paths, self.texts):
            with open(path, "ab") as file:
                file.write(text)
            text.clear()
        self.held = 0


def divide(path, folder, count=None, limits=RUN):
    """Writes the parts, and returns their paths."""
    given = Input(path)
    places, found = placed(*weights_of(given), limits, count)
    owners, parts = Owners(), Parts(folder, found)
    parts.put_each(given.tariff)
    for rows in (each_row(given.setup(), owners.of_setup), each_row(given.script(), owners.of_script)):
        parts.put_each(MARK + next(rows)[1])
        for owner, line in rows:
            parts.put(places[owner], line)
    parts.write()
    return parts.paths


def main():
    asked = argparse.ArgumentParser(description=__doc__, formatter_class=argparse.RawDescriptionHelpFormatter)
    asked.add_argument("--parts", type=int, help="how many parts; left out: as many as the limits ask for")
    asked.add_argument("input")
    asked.add_argument("folder")
    words = asked.parse_args()
    if words.parts is not None and words.parts < 1:
        asked.error("--parts is at least 1")
    try:
        print(*divide(words.input, words.folder, words.parts), sep="\n")
    except (Wrong, OSError, csv.Error) as fault:
        print(f"divide: {fault}", file=sys.stderr)
        return 1
    return 0


if __name__ == "__main__":
    sys.exit(main())
