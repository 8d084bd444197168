"""Reads the tables of one run from a folder: lines.txt, book.csv, calls.csv and trace.csv.

`read_run` gives the calls, and the accounts with each step of their balances. A book has the moments of its reserves
alone; those of settlements, returns and credits are the moments of the messages in the trace that they answer. Tables
that aren't of one run are refused (`Wrong`).
"""
import os
from collections import defaultdict
from dataclasses import dataclass, field

from merge import ACCOUNT, CALL
from run_rows import Asked, Call, Entry, Message, Wrong, lines_of, rows_of, whole

# What a line on the error writer doesn't show of a dictionary.
PLAIN = str.maketrans("", "", "{}':")


@dataclass(frozen=True, slots=True)
class Step:
    """What an account has after an entry: what is left, what its open calls hold beyond what they paid, and what all
    its calls have paid."""

    moment: int
    available: int
    held: int
    paid: int
    recharge: int = 0  # the amount, where the entry is an accepted credit


@dataclass
class Account:
    """An account with its calls. Its first step is its opening."""

    number: int
    steps: list
    calls: dict = field(default_factory=dict)

    @property
    def lowest(self):
        """The first step at which least was left."""
        return min(self.steps, key=lambda step: step.available)

    @property
    def recharged(self):
        return sum(step.recharge for step in self.steps)


@dataclass(frozen=True)
class Run:
    name: str
    accounts: dict
    calls: dict
    first: int
    last: int


class Trace:
    """Of each call the messages of its switch but the answers, which no account is asked for; of each account the
    recharges that it took; of each call the parties and the moments that a table of calls has."""

    def __init__(self, messages):
        self.calls, self.recharges, self.records = defaultdict(list), defaultdict(list), defaultdict(dict)
        self.first, self.last, self.charged, count = None, 0, None, 0
        for it in messages:
            if it.sender == "service":
                self.not_taken(it)
            elif it.number != count or it.moment < self.last:
                raise Wrong(f"trace.csv: message {count} is missing")
            else:
                self.first, self.last, count = it.moment if self.first is None else self.first, it.moment, count + 1
                self.hear(it)

    def hear(self, it):
        if it.sender == "operator":
            self.charged = whole(it.terms[0])
            self.recharges[self.charged].append(it)
            return
        record = self.records[it.call]
        if it.what == "InitialDP":
            record.update(calling=it.terms[0], called=it.terms[1], start=it.moment)
        elif it.what == "Ended":
            record["end"] = it.moment
        elif it.terms[0] == "answer":
            record["answer"] = it.moment
            return
        self.calls[it.call].append(it)

    def not_taken(self, it):
        """A recharge that was refused, or that had no place, is none."""
        if it.call is None:
            if not self.recharges[self.charged]:
                raise Wrong(f"trace.csv: message {it.number} is no recharge")
            self.recharges[self.charged].pop()


class Ledger:
    """The entries of an account as they are read, each with the message that it answers."""

    def __init__(self, opening, trace):
        self.account = Account(opening.account, [Step(trace.first or 0, opening.available, 0, 0)])
        self.funds, self.until = opening.available, opening.until
        self.trace, self.recharges = trace, iter(trace.recharges[opening.account])
        self.coming, self.at, self.granted, self.bills, self.asked = {}, {}, set(), {}, {}

    @property
    def total(self):
        """What the lines of a run say of the account."""
        steps = self.account.steps
        return {"opening": steps[0].available, "available": steps[-1].available, "entries": len(steps) - 1}

    def take(self, entry):
        message = self.message(entry)
        if not self.fits(entry, message):
            what = "a credit" if entry.call is None else f"a {entry.op} of call {entry.call}"
            raise Wrong(f"account {entry.account}: {what} in book.csv answers no message of trace.csv")
        recharge, paid = 0, self.account.steps[-1].paid
        if entry.op == "reserve":
            self.reserve(entry, message.moment)
        elif entry.op != "credit":
            paid += self.pay(entry)
        elif entry.reply == "credited":
            recharge = whole(entry.terms[0])
            self.funds += recharge
            self.until = entry.until or self.until
        held = self.funds - entry.available - paid
        if held < 0:
            raise Wrong(f"account {entry.account}: book.csv has more available than there is")
        self.account.steps.append(Step(message.moment, entry.available, held, paid, recharge))

    def message(self, entry):
        """The message that an entry answers. A return answers that of the entry before it, unless the call was granted
        time by that one: then it answers the next message of the call."""
        if entry.op == "credit":
            return next(self.recharges, None)
        call = entry.call
        coming = self.coming.setdefault(call, iter(self.trace.calls[call]))
        if entry.op == "settle":
            self.at[call] = next((it for it in coming if it.number == whole(entry.terms[0])), None)
        elif call not in self.at or entry.op == "return" and call in self.granted:
            self.at[call] = next(coming, None)
        return self.at[call]

    def fits(self, entry, message):
        if message is None or message.moment < self.account.steps[-1].moment:
            return False
        if entry.op == "credit":
            return message.terms[1] == entry.terms[0]
        if entry.op == "reserve":
            return message.moment == whole(entry.terms[6])
        return entry.call in self.bills and (entry.op == "return" or message.terms[1:] == entry.terms[1:4])

    def reserve(self, entry, moment):
        if entry.reply == "granted":
            self.granted.add(entry.call)
            self.bills.setdefault(entry.call, {"account": entry.account, "paid": 0, "before": 0, "after": 0})
        expired = self.until if self.until is not None and self.until < moment else None
        self.asked[entry.call] = Asked(entry.figure, whole(entry.terms[4]), entry.available, expired)


    def pay(self, entry):
        """What a call has paid more by a settle or a return."""
        bill = self.bills[entry.call]
        more = entry.figure - bill["paid"]
        bill["paid"] = entry.figure
        if entry.reply == "settled":
            bill["before"], bill["after"] = entry.times
        self.granted.discard(entry.call)
        return more


def read_book(folder, trace):
    """A ledger for each account."""
    ledgers = {}
    for entry in rows_of(folder, "book.csv", Entry.read):
        if entry.op == "opening" and entry.account not in ledgers:
            ledgers[entry.account] = Ledger(entry, trace)
        elif entry.op != "opening" and entry.account in ledgers:
            ledgers[entry.account].take(entry)
        else:
            raise Wrong(f"book.csv: account {entry.account} has no opening, or two")
    return ledgers


def read_calls(folder, ledgers):
    """The calls by their numbers, and those of each account."""
    calls, last = {}, -1
    for call in rows_of(folder, "calls.csv", Call.read):
        if call.number <= last:
            raise Wrong(f"calls.csv: call {call.number} isn't where it belongs")
        if call.account is not None:
            if call.account not in ledgers:
                raise Wrong(f"calls.csv: the account of call {call.number} is not in book.csv")
            ledger = ledgers[call.account]
            ledger.account.calls[call.number], call.asked = call, ledger.asked.get(call.number)
        calls[call.number], last = call, call.number
    return calls


def read_lines(folder):
    """What the lines of a run say of each account, and of each call of an account."""
    accounts, calls = {}, {}
    for row, line in enumerate(lines_of(folder, "lines.txt"), 1):
        if found := ACCOUNT.fullmatch(line):
            account, opening, available, entries = map(int, found.groups())
            accounts[account] = {"opening": opening, "available": available, "entries": entries}
        elif found := CALL.fullmatch(line):
            call, account, paid = map(int, found.groups())
            calls[call] = {"account": account, "paid": paid}
        else:
            raise Wrong(f"lines.txt row {row}: no line of a run")
    return accounts, calls


def agree(what, tables):
    """Refuses two tables that don't say the same of each account or call."""
    one, other = tables.values()
    for key in sorted(one.keys() | other.keys()):
        if one.get(key) != other.get(key):
            said = ", ".join(f"{name} has {it.get(key, 'none')}" for name, it in tables.items())
            raise Wrong(f"the tables are not of one run: {what} {key}: {said.translate(PLAIN)}")


def compare(folder, trace, ledgers, calls):
    """Refuses tables that aren't of one run."""
    accounts, paid = read_lines(folder)
    bills = {call: bill for it in ledgers.values() for call, bill in it.bills.items()}
    booked = {call: {"account": it["account"], "paid": it["paid"]} for call, it in bills.items()}
    told = {it.number: it.bill for it in calls.values() if it.paid or it.number in bills}
    agree("account", {"lines.txt": accounts, "book.csv": {number: it.total for number, it in ledgers.items()}})
    agree("call", {"lines.txt": paid, "book.csv": booked})
    agree("call", {"calls.csv": told, "book.csv": bills})
    agree("call", {"calls.csv": {it.number: it.record for it in calls.values()}, "trace.csv": trace.records})
    for call in calls.values():
        if call.outcome in ("cut", "denied") and call.asked is None:
            raise Wrong(f"call {call.number} is {call.outcome} in calls.csv, and book.csv has no reserve of it")


def read_run(folder):
    """The run whose tables a folder has."""
    try:
        trace = Trace(rows_of(folder, "trace.csv", Message.read))
        ledgers = read_book(folder, trace)
        calls = read_calls(folder, ledgers)
        compare(folder, trace, ledgers, calls)
    except Wrong as fault:
        raise Wrong(f"{folder}: {fault}") from None
    accounts = {number: ledgers[number].account for number in sorted(ledgers)}
    return Run(os.path.normpath(folder), accounts, calls, trace.first or 0, trace.last)
