#!/usr/bin/env python3
"""Writes a report of a run, or of two runs side by side, as one HTML file that needs no other.

examples/report.py [--decimals N] [--output FILE] [--picture ACCOUNT] FOLDER [FOLDER]

A folder has the tables of one run, without --clock: lines.txt, book.csv, calls.csv and trace.csv. The report shows what
was paid by hour and by prefix, how the balance of each account fell and rose, its calls over time, and which calls were
cut or not taken and why. With two folders it shows both beside each other, and what differs. With --picture it is the
balance of this account alone, as an SVG. The file is written under another name first, so there is never half of one.
"""
import argparse
import os
import sys
from collections import Counter
from dataclasses import dataclass
from html import escape
from typing import Callable

from report_pictures import MARKS, Axis, alone, balance, bars, clock, rings, tag, timeline
from run_rows import Wrong
from run_tables import read_run

HOUR = 36_000
# The bars that a picture shows at most; the table behind it has all.
BARS = 24
# The rows of a table that is shown at once.
MANY = 1_000
# The outcomes of the calls that a report lists, each with why.
LISTED = {*MARKS, "unknown"}
STYLES = ["report_pictures.css", "report.css"]
META = '<meta charset="utf-8"><meta name="viewport" content="width=device-width, initial-scale=1">'
# The legend of the accounts: the class and the name of what is drawn.
KINDS = {
    "available": "available", "held": "held by open calls", "recharge": "recharge", "ring": "ring", "talk": "talk",
    "late": "talk after the switch", "cut": "cut", "denied": "denied", "other": "no route, refused or forfeit",
}


@dataclass(frozen=True)
class Measure:
    """A figure of a run or of an account."""

    name: str
    of: Callable
    is_money: bool = False


def count_of(outcome):
    return Measure(outcome, lambda it: sum(call.outcome == outcome for call in it.calls.values()))


CALLS = Measure("calls", lambda it: len(it.calls))
PAID = Measure("paid", lambda it: sum(call.paid for call in it.calls.values()), True)
PAID_BY_CALL = Measure("paid", lambda call: call.paid, True)
LOWEST = Measure("lowest", lambda account: account.lowest.available, True)
OF_RUN = [Measure("accounts", lambda run: len(run.accounts)), CALLS, PAID, *map(count_of, ("cut", "denied", "unknown"))]
OF_ACCOUNT = [
    CALLS, count_of("cut"), count_of("denied"),
    Measure("opening", lambda account: account.steps[0].available, True),
    Measure("recharged", lambda account: account.recharged, True),
    PAID,
    Measure("held", lambda account: account.steps[-1].held, True),
    Measure("available", lambda account: account.steps[-1].available, True),
    LOWEST,
]
# What two runs are compared by.
COMPARED = [PAID, count_of("cut"), count_of("denied"), LOWEST]


def style(names):
    folder = os.path.dirname(os.path.abspath(__file__))
    return "".join(open(os.path.join(folder, name), encoding="utf-8").read() for name in names)


def table(caption, head, rows, kind="figures"):
    """A table whose rows begin with what they are about. Cells are markup; rows and cells need no end in HTML."""
    head = "<tr>" + "".join(f'<th scope="col">{it}' for it in head)
    body = "".join("<tr><th>" + "<td>".join(cells) for cells in rows)
    return tag("table", tag("caption", escape(caption)), tag("thead", head), tag("tbody", body), class_=kind)


def wide(caption, head, rows, kind="figures"):
    """A table that may be longer and wider than there is room, which then scrolls. One of very many rows is opened by
    its reader: a browser lays out a table whole, and this one takes it seconds."""
    drawn = tag("div", table(caption, head, rows, kind), class_="wide", tabindex=0, role="region", aria_label=caption)
    return drawn if len(rows) <= MANY else folded(f"{len(rows)} rows", drawn)


def folded(summary, content):
    return tag("details", tag("summary", summary), content)


def figure(caption, drawn, behind):
    """A picture with the table behind it."""
    return tag("figure", tag("figcaption", escape(caption)), drawn, folded("Table", behind))


def seconds(units):
    return f"{units // 10}.{units % 10}"


class Report:
    def __init__(self, runs, decimals):
        self.runs, self.decimals = runs, decimals
        self.axis = Axis.over(min(run.first for run in runs), max(run.last for run in runs))
        self.numbers = sorted({number for run in runs for number in run.accounts})
        names = [os.path.basename(run.name) for run in runs]
        self.names = [escape(it) for it in (names if len({*names}) == len(runs) else [run.name for run in runs])]

    def money(self, amount):
        """An amount of the smallest coin with its decimals."""
        if not self.decimals:
            return str(amount)
        digits = str(abs(amount)).rjust(self.decimals + 1, "0")
        return f"{'-' if amount < 0 else ''}{digits[:-self.decimals]}.{digits[-self.decimals:]}"

    def shown(self, measure, amount):
        return "–" if amount is None else self.money(amount) if measure.is_money else str(amount)

    def beside(self, measure, things):
        """A measure of the same thing in each run, and the difference where there are two."""
        amounts = [None if it is None else measure.of(it) for it in things]
        shown = [self.shown(measure, it) for it in amounts]
        if len(amounts) == 2:
            shown.append("–" if None in amounts else self.difference(measure, amounts[1] - amounts[0]))
        return shown

    def difference(self, measure, amount):
        return ("+" if amount > 0 else "") + self.shown(measure, amount)

    def heads(self, measures):
        """The heads of the columns that `beside` fills."""
        if len(self.runs) == 1:
            return [it.name for it in measures]
        return [f"{it.name}, {name}" for it in measures for name in [*self.names, "difference"]]

    # the sections

    def cards(self):
        """The figures at the top."""
        names = [" " + tag("span", it) for it in [*self.names, "difference"]] if len(self.runs) > 1 else [""]
        cards = []
        for measure in OF_RUN:
            told = (tag("dd", it, name) for it, name in zip(self.beside(measure, self.runs), names))
            cards.append(tag("div", tag("dt", measure.name), *told))
        return tag("dl", *cards, class_="cards")

    def revenue(self):
        calls = [list(run.calls.values()) for run in self.runs]
        if not any(calls):
            return tag("p", "No call was started.")
        starts = [call.start // HOUR for each in calls for call in each]
        hours = [(min(starts) + it) % 24 for it in range(min(24, max(starts) - min(starts) + 1))]
        by_hour = self.split(calls, lambda call: call.start // HOUR % 24)
        by_prefix = self.split(calls, lambda call: call.prefix)
        prefixes = {key for paid, _ in by_prefix for key in paid}
        prefixes = sorted(prefixes, key=lambda it: (-sum(paid[it] for paid, _ in by_prefix), it))
        return "".join([
            self.bars("hour", "the hour of the day in which the call began", hours, "{:02}:00".format, by_hour),
            self.bars("prefix", "the prefix of the tariff", prefixes, lambda it: it or "none", by_prefix),
        ])

    def split(self, calls, key):
        """Of each run what was paid, and how many calls there were, by a key of the calls."""
        parts = []
        for each in calls:
            paid = Counter()
            for call in each:
                paid[key(call)] += call.paid
            parts.append((paid, Counter(map(key, each))))
        return parts

    def bars(self, name, told, keys, label, parts):
        caption = f"Paid by {told}" + (f", the {BARS} largest" if len(keys) > BARS else "")
        rows = [(label(key), [(paid[key], self.money(paid[key])) for paid, _ in parts]) for key in keys[:BARS]]
        measures = [Measure("calls", lambda it: it[1]), Measure("paid", lambda it: it[0], True)]
        behind = []
        for key in keys:
            things = [(paid[key], count[key]) for paid, count in parts]
            behind.append([label(key), *(cell for it in measures for cell in self.beside(it, things))])
        return figure(caption, bars(caption, rows), table(f"Paid by {name}", [name, *self.heads(measures)], behind))

    def overview(self):
        """A row for each account."""
        measures = OF_ACCOUNT if len(self.runs) == 1 else COMPARED
        rows = []
        for number in self.numbers:
            things = [run.accounts.get(number) for run in self.runs]
            link = tag("a", str(number), href=f"#account-{number}")
            rows.append([link, *(cell for it in measures for cell in self.beside(it, things))])
        return wide("Accounts", ["account", *self.heads(measures)], rows)

    def account(self, number):
        """An account's balance and calls, in each run."""
        found = [run.accounts[number] for run in self.runs if number in run.accounts]
        top = max(step.available + step.held for account in found for step in account.steps)
        columns = []
        for name, run in zip(self.names, self.runs):
            name = tag("h4", name) if len(self.runs) > 1 else ""
            if account := run.accounts.get(number):
                columns.append(tag("div", name, self.curve(account, top), self.calls(account, run)))
            else:
                columns.append(tag("div", name, tag("p", "This run has no such account.")))
        columns = tag("div", *columns, class_="beside")
        return tag("section", tag("h3", f"Account {number}"), columns, id=f"account-{number}")

    def curve(self, account, top):
        opening, low, last = account.steps[0], account.lowest, account.steps[-1]
        title = (f"Balance of account {account.number}: opened with {self.money(opening.available)}, "
                 f"lowest {self.money(low.available)} at {clock(low.moment)}, at last {self.money(last.available)}")
        return figure(title, self.balance(account, top), self.steps(account))

    def balance(self, account, top):
        return balance(f"Balance of account {account.number} over time", self.axis, account, top, self.money)

    def steps(self, account):
        """The table behind a balance: a row for each part of the time axis in which the account was asked."""
        rows, steps, before = [], account.steps, account.steps[0]
        for start in self.axis.ticks[:-1]:
            inside = [it for it in steps if start <= it.moment < start + self.axis.step]
            if not inside:
                continue
            seen = inside if inside[0].moment == start else [before, *inside]
            last = seen[-1]
            amounts = [it.available for it in seen]
            figures = [min(amounts), max(amounts), max(it.held for it in seen), sum(it.recharge for it in inside),
                       last.paid - before.paid, last.available]
            rows.append([clock(start, self.axis.step < 600), *map(self.money, figures)])
            before = last
        head = ["from", "lowest", "highest", "most held", "recharged", "paid", "available at its end"]
        return table(f"Balance of account {account.number}", head, rows)

    def calls(self, account, run):
        """The time line of an account's calls."""
        if not account.calls:
            return tag("p", "No calls.")
        title = f"Calls of account {account.number} over time"
        calls = sorted(account.calls.values(), key=lambda call: call.start)
        drawn = timeline(title, self.axis, calls, run.last, lambda call: self.told(call, run.last))
        rows = []
        for it in calls:
            times = map(seconds, (rings(it, run.last), it.before, it.after))
            paid = self.money(it.paid)
            rows.append([str(it.number), it.calling, it.called, clock(it.start), *times, paid, it.outcome])
        head = ["call", "calling", "called", "start", "ring, s", "talk, s", "after the switch, s", "paid", "outcome"]
        return figure(title, drawn, table(f"Calls of account {account.number}", head, rows, "told"))

    def told(self, call, last):
        """A call as it is seen on hover."""
        times = (("ring", rings(call, last)), ("talk", call.before), ("after the switch", call.after))
        told = [f"{kind} {seconds(units)} s" for kind, units in times if units]
        paid = [f"paid {self.money(call.paid)}"] if call.paid else []
        who = f"call {call.number}: {call.calling} to {call.called}, {clock(call.start)}"
        return ", ".join([who, *told, *paid, call.outcome])

    def listed(self):
        """The calls that were cut or not taken, in any of the runs."""
        numbers = sorted({it.number for run in self.runs for it in run.calls.values() if it.outcome in LISTED})
        if not numbers:
            return tag("p", "No call was cut or denied.")
        rows = []
        for number in numbers:
            found = [run.calls.get(number) for run in self.runs]
            call = next(it for it in found if it)
            account = "" if call.account is None else str(call.account)
            outcomes, paid = map(self.became, found), self.beside(PAID_BY_CALL, found)
            rows.append([str(number), clock(call.start), account, *outcomes, *paid, call.calling, call.called])
        alone = len(self.runs) == 1
        outcomes = ["outcome"] if alone else [f"outcome, {name}" for name in self.names]
        head = ["call", "start", "account", *outcomes, *self.heads([PAID]), "calling", "called"]
        return wide("Calls that were cut, denied or not taken", head, rows, "listed" if alone else "listed two")

    def became(self, call):
        if call is None:
            return "not started"
        return escape(call.outcome + (f": {self.why(call)}" if call.outcome in LISTED else ""))

    def why(self, call):
        """Why a call was cut, or not taken."""
        known = {
            "unknown": "the calling number is no subscriber's",
            "noroute": "no prefix of the tariff fits",
            "refused": "the history of its account was full",
            "forfeit": "a report of it was not lawful",
        }
        if call.outcome in known:
            return known[call.outcome]
        asked = call.asked
        if asked.units is not None:
            return f"its last grant of {seconds(asked.units)} s is talked, {self.money(asked.available)} available"
        if asked.expired is not None:
            return f"the credit expired at {clock(asked.expired)}"
        return f"{self.money(asked.available)} available, too little for {seconds(asked.least)} s"

    def page(self):
        title = "Calls and balances: " + " and ".join(self.names)
        first, last = min(run.first for run in self.runs), max(run.last for run in self.runs)
        body = [
            tag("header", tag("h1", title), tag("p", f"From {clock(first)} to {clock(last)}."), self.cards()),
            section("Revenue", self.legend_of_runs() + tag("div", self.revenue(), class_="beside")),
            section("Cut, denied or not taken", self.listed()),
            section("Accounts", self.overview() + legend(KINDS.items()) + "".join(map(self.account, self.numbers))),
        ]
        times = tag("svg", self.axis.lines(), class_="hidden", aria_hidden="true", width=0, height=0)
        head = tag("head", META, tag("title", title), tag("style", style(STYLES)))
        return "<!DOCTYPE html>\n" + tag("html", head, tag("body", times, tag("main", *body)), lang="en") + "\n"

    def legend_of_runs(self):
        return legend((f"run{at}", name) for at, name in enumerate(self.names)) if len(self.runs) > 1 else ""

    def alone(self, number):
        """The balance of an account as a file of its own."""
        account = self.runs[0].accounts.get(number)
        if account is None:
            raise Wrong(f"{self.runs[0].name}: there is no account {number}")
        drawn = self.balance(account, max(step.available + step.held for step in account.steps))
        return alone(drawn, self.axis, style(STYLES[:1])) + "\n"



def legend(kinds):
    return tag("p", *(tag("span", tag("i", class_=kind), name) for kind, name in kinds), class_="legend")


def section(title, content):
    return tag("section", tag("h2", title), content)


def notes(run):
    """What a reader may wonder at."""
    if not run.calls:
        yield f"{run.name}: no call was started"
    elif idle := [str(it.number) for it in run.accounts.values() if not it.calls]:
        yield f"{run.name}: accounts without calls: {', '.join(idle)}"


def write(path, text):
    """Writes a file whole, or not at all."""
    part = f"{path}.{os.getpid()}.part"
    try:
        with open(part, "x", encoding="utf-8") as file:
            file.write(text)
        os.replace(part, path)
    except BaseException:
        if os.path.exists(part):
            os.unlink(part)
        raise


def main():
    asked = argparse.ArgumentParser(description=__doc__, formatter_class=argparse.RawDescriptionHelpFormatter)
    decimals = {"type": int, "default": 0, "choices": range(10), "metavar": "N"}
    asked.add_argument("--decimals", **decimals, help="of an amount of money, 0 to 9; left out: 0")
    asked.add_argument("--output", help="left out: report.html, or with --picture balance.svg")
    asked.add_argument("--picture", type=int, metavar="ACCOUNT", help="writes the balance of this account alone")
    asked.add_argument("folders", nargs="+", metavar="FOLDER")
    words = asked.parse_args()
    if len(words.folders) > (2 if words.picture is None else 1):
        asked.error("there are at most two folders, and one beside --picture")
    path = words.output or ("report.html" if words.picture is None else "balance.svg")
    try:
        runs = [read_run(it) for it in words.folders]
        report = Report(runs, words.decimals)
        write(path, report.page() if words.picture is None else report.alone(words.picture))
    except (Wrong, OSError) as fault:
        print(f"report: {fault}", file=sys.stderr)
        return 1
    for note in (note for run in runs for note in notes(run)):
        print(f"report: {note}", file=sys.stderr)
    print(path)
    return 0


if __name__ == "__main__":
    sys.exit(main())
