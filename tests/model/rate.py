"""What each record of a real system should have cost: its row again, with six columns more."""
import itertools
import re

from .account import DAY, MAX_MONEY, price
from .tables import MAX_MOMENT, Fault, decimal, digits, first_section, moment, read_tariff, records, route

MAX_ROW = 65_536
MAX_SHOWN = 131_072
ADDED = [b"prefix", b"before", b"after", b"price", b"difference", b"fault"]
NO_HEADER = Fault("prepaid: records row 1: Header")


class Wrong(Exception):
    """What is wrong with a row."""


def quoted(field):
    return b'"' + field.replace(b'"', b'""') + b'"' if re.search(rb'[",\r\n]', field) else field


def line(fields):
    return b",".join(map(quoted, fields)) + b"\n"


def size(fields):
    """The bytes of a row as it is printed."""
    return len(line(fields))


def shown(fields):
    """What is printed of a row: its first bytes, where each field has one behind it."""
    starts = itertools.accumulate((len(it) + 1 for it in fields), initial=0)
    return [field[: MAX_SHOWN - start] for field, start in zip(fields, starts) if start <= MAX_SHOWN]


def sought(header, name):
    """The place of a name, or None; there is no second one."""
    if header.count(name) > 1:
        raise NO_HEADER
    return header.index(name) if name in header else None


def needed(header, name):
    place = sought(header, name)
    if place is None:
        raise NO_HEADER
    return place


def columns(header, given):
    """The places of the number called, the answer, the times by their kind, and what was charged, if there is one."""
    names = {word: given[f"--{word}"].encode() for word in ("called", "answer", "time", "end", "paid", "before", "after") if f"--{word}" in given}
    called, answer = needed(header, names.get("called", b"called")), needed(header, names.get("answer", b"answer"))
    if "before" in names:
        times = "split", needed(header, names["before"]), needed(header, names["after"])
    elif "time" in names or "end" in names:
        word = "time" if "time" in names else "end"
        times = word, needed(header, names[word])
    else:
        before, after = sought(header, b"before"), sought(header, b"after")
        if before is not None and after is not None:
            times = "split", before, after
        elif (time := sought(header, b"time")) is not None:
            times = "time", time
        else:
            times = "end", needed(header, b"end")
    paid = needed(header, names["paid"]) if "paid" in names else sought(header, b"paid")
    return called, answer, times, paid


def number(field, most, read=decimal):
    found = read(field, most)
    if found is None:
        raise Wrong("Number")
    return found


def optional(field, most, read=decimal):
    return None if field == b"" else number(field, most, read)


def said(fields, width, places):
    """The number called, the answer, the times (the whole, or before and after the switch), and what was charged."""
    if size(fields) > MAX_ROW:
        raise Wrong("TooLong")
    if len(fields) != width:
        raise Wrong("Csv")
    called, answer, (kind, *of_times), paid = places
    number_called = digits(fields[called])
    if number_called is None:
        raise Wrong("Number")
    at, times = optional(fields[answer], MAX_MOMENT, moment), None
    if at is not None:
        times = [number(fields[it], *((MAX_MOMENT, moment) if kind == "end" else (DAY,))) for it in of_times]
        if kind == "split" and sum(times) > DAY:
            raise Wrong("Number")
    charged = None if paid is None else optional(fields[paid], MAX_MONEY)
    if at is not None and kind == "end":
        times = [times[0] - at]
        if not 0 <= times[0] <= DAY:
            raise Wrong("Order")
    return number_called, at, times, charged


def rated(tariff, called, at, times):
    """The prefix that counts, the times before the switch and after it, and their price."""
    if at is None:
        return "", 0, 0, 0
    found = route(tariff, called, at)
    if found is None:
        raise Wrong("noroute")
    plan, switch = found
    before = times[0] if len(times) == 2 or switch is None else min(times[0], switch - at)
    after = times[1] if len(times) == 2 else times[0] - before
    return max((it for it in tariff if called.startswith(it)), key=len), before, after, price(plan, before, after)


def rate(given, text):
    """The status, the rows, and the line of the summary."""
    first, second = first_section(text)
    tariff = read_tariff(first)
    header, *rows = records(second) or [None]
    if header is None or size(header) > MAX_SHOWN:
        raise NO_HEADER
    places = columns(header, given)
    lines, differing, faults = [line([*header, *ADDED])], 0, 0
    for fields in rows:
        try:
            called, at, times, paid = said(fields, len(header), places)
            *numbers, cost = rated(tariff, called, at, times)
            difference = "" if paid is None else cost - paid
            more, is_right = [*numbers, cost, difference, ""], not difference
            differing += not is_right
        except Wrong as wrong:
            more, is_right = ["", "", "", "", "", wrong], False
            faults += 1
        if not is_right or "--differing" not in given:
            lines.append(line([*shown(fields), *(str(it).encode() for it in more)]))
    return 3 if differing or faults else 0, b"".join(lines).decode("latin-1")
