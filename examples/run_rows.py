"""The rows of the tables of a run, as they are read: calls, entries of books, messages of a trace.

Moments and times are in units of 100 ms, money is in the smallest coin; docs/FORMATS.md has the columns. A row that
isn't of its table, and a table that is cut short, are refused (`Wrong`).
"""
import os
import re
from dataclasses import dataclass

# A moment as a date and a time.
DATE = re.compile(r"\b\d{4}-\d\d-\d\dT")
# The headers that a table may have: a book has x8 and x9 where its tariff has billing steps.
HEADERS = {
    "book.csv": [f"account,seat,op,call,x1,x2,x3,x4,x5,x6,x7,{steps}reply,y1,y2,y3" for steps in ("", "x8,x9,")],
    "calls.csv": ["call,calling,called,account,prefix,start,answer,end,before,after,paid,outcome"],
    "trace.csv": ["moment,number,call,from,what,x1,x2,x3,x4"],
}


class Wrong(Exception):
    """Why the tables of a folder are refused."""


@dataclass(frozen=True, slots=True)
class Asked:
    """The last time that a call asked for."""

    units: int | None  # what it was granted, if it was
    least: int  # the least time that was worth a grant
    available: int  # what the account had left then
    expired: int | None  # the last moment of the account's credit, where that was past


@dataclass(slots=True)
class Call:
    """A row of the table of calls."""

    number: int
    calling: str
    called: str
    account: int | None
    prefix: str
    start: int
    answer: int | None
    end: int | None
    before: int
    after: int
    paid: int
    outcome: str
    asked: Asked | None = None

    @classmethod
    def read(cls, call, calling, called, account, prefix, start, answer, end, before, after, paid, outcome):
        if not (outcome.isascii() and outcome.isalpha()):
            raise ValueError(outcome)
        return cls(whole(call), digits(calling), digits(called), maybe(account), digits(prefix), whole(start),
                   maybe(answer), maybe(end), whole(before), whole(after), whole(paid), outcome)

    @property
    def record(self):
        """What a trace says of it: the parties, and the moments that there are."""
        names = ("calling", "called", "start", "answer", "end")
        return {name: getattr(self, name) for name in names if getattr(self, name) is not None}

    @property
    def bill(self):
        """What a book says of it."""
        return {"account": self.account, "paid": self.paid, "before": self.before, "after": self.after}


# Of each operation of a book the columns, from x1 on, that have a decimal.
DECIMALS = {"opening": [0], "credit": [0], "reserve": [4, 6], "settle": [0, 2], "return": []}


@dataclass(frozen=True, slots=True)
class Entry:
    """A row of a book."""

    account: int
    op: str
    call: int | None
    terms: tuple  # x1 to x7, or to x9
    reply: str
    figure: int | None  # y1: the units of a grant, or what a call has paid
    available: int

    @classmethod
    def read(cls, account, _seat, op, call, *rest):
        *terms, reply, figure, _, available = rest
        for place in DECIMALS[op]:
            whole(terms[place])
        is_of_call = op not in ("opening", "credit")
        told = is_of_call and reply != "denied"
        return cls(whole(account), op, whole(call) if is_of_call else None, tuple(terms), reply,
                   whole(figure) if told else None, whole(terms[0] if op == "opening" else available))

    @property
    def times(self):
        """The times that a settle states, before the switch and after it."""
        time = whole(self.terms[2])
        return (time, 0) if self.terms[1] == "n" else (maybe(self.terms[3]) or 0, time)

    @property
    def until(self):
        """The last moment of an opening or a credit, if it has one."""
        return maybe(self.terms[1])


@dataclass(frozen=True, slots=True)
class Message:
    """A row of a trace."""

    moment: int
    number: int
    call: int | None
    sender: str
    what: str
    terms: tuple  # x1 to x4

    @classmethod
    def read(cls, moment, number, call, sender, what, *terms):
        if sender == "operator":
            whole(terms[0])
        elif sender != "service" or what not in ("stray", "refused"):
            whole(call)
        return cls(whole(moment), whole(number), maybe(call), sender, what, terms)


def whole(text):
    """A decimal as the tables have it."""
    if not (text.isascii() and text.isdecimal()):
        raise ValueError(text)
    return int(text)


def maybe(text):
    return whole(text) if text else None


def digits(text):
    if text:
        whole(text)
    return text


def lines_of(folder, name):
    with open(os.path.join(folder, name), encoding="latin-1", newline="\n") as file:
        for number, line in enumerate(file, 1):
            if not line.endswith("\n"):
                raise Wrong(f"{name} row {number}: cut short")
            yield line


def rows_of(folder, name, read):
    """What `read` makes of each row of a table."""
    lines = lines_of(folder, name)
    header = next(lines, "").removesuffix("\n")
    if header not in HEADERS[name]:
        raise Wrong(f"{name} row 1: the header isn't {HEADERS[name][0]}")
    for row, line in enumerate(lines, 2):
        fields = line[:-1].split(",")
        try:
            if len(fields) != header.count(",") + 1:
                raise ValueError(line)
            yield read(*fields)
        except (KeyError, ValueError):
            clock = "; write the tables without --clock" if DATE.search(line) else ""
            raise Wrong(f"{name} row {row}: no row of this table{clock}") from None
