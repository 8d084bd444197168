"""Tables as bytes: records, fields, the rows of each table, and their faults."""
import datetime
import re

from .account import DAY, MAX_MONEY, Plan, Times, lawful

MAX_RATE = 10**9
# The most bytes of a section that is read as it comes, its divider counted.
MAX_SECTION = 16_777_216
MAX_MOMENT = 10**12
HORIZON = 2 * 10**12
EPOCH, UNIT = datetime.datetime(1970, 1, 1), datetime.timedelta(milliseconds=100)
# The headers that a table may have, the oldest first.
OPS = [["seat", "op", "call", "x1", "x2", "x3", "x4", "x5", *more] for more in ([], ["x6"], ["x6", "x7"], ["x6", "x7", "x8", "x9"])]
BOOK = [["account", *ops, "reply", "y1", "y2", "y3"] for ops in OPS]
TARIFF = [["prefix", "from", "fee", "rate", *more] for more in ([], ["free"], ["free", "first", "step"], ["free", "first", "step", "days"])]
SETUP = [["kind", "key", "value", *more] for more in ([], ["until"])]
SCRIPT = [["moment", "call", "what", "x", "y", *more] for more in ([], ["z"])]


class Fault(Exception):
    """A fault's line and the status that goes with it."""

    def __init__(self, line, status=1):
        super().__init__(line)
        self.line, self.status = line, status


def records(text):
    """The records of a text: fields may be quoted, and a row ends with LF, CR or CR LF."""
    text = text.removeprefix(b"\xef\xbb\xbf")
    if b'"' not in text:
        return [row.split(b",") for row in re.split(rb"[\r\n]+", text) if row]
    found, fields, field, state, at = [], [], bytearray(), "start", 0
    while True:
        if state == "start":
            at, state = re.compile(rb"[\r\n]*").match(text, at).end(), "field"
            if at == len(text):
                return found
        if at == len(text):
            return [*found, [*fields, bytes(field)]]
        byte, at = text[at], at + 1
        ends = byte in b"\r\n"
        if state == "quoted":
            if byte == ord('"'):
                state = "quote in quoted"
            else:
                field.append(byte)
        elif state == "quote in quoted" and byte == ord('"'):
            field.append(byte)
            state = "quoted"
        elif byte == ord(",") or ends:
            fields.append(bytes(field))
            field, state = bytearray(), "field"
            if ends:
                found.append(fields)
                fields, state = [], "start"
        elif state == "field" and byte == ord('"'):
            state = "quoted"
        else:
            field.append(byte)
            state = "inside"


def decimal(field, most, least=0):
    """A decimal of 1 to 20 digits within its range, or None."""
    if not re.fullmatch(rb"[0-9]{1,20}", field):
        return None
    return int(field) if least <= int(field) <= most else None


def moment(field, most):
    """A decimal, or a date and a time of day from 1970 on, within its range, or None."""
    said = re.fullmatch(rb"([0-9]{4}-[0-9]{2}-[0-9]{2})[T ]([0-9]{2}:[0-9]{2}:[0-9]{2})(?:\.([0-9]))?", field)
    if not said:
        return decimal(field, most)
    try:
        units = (datetime.datetime.strptime(f"{said[1].decode()} {said[2].decode()}", "%Y-%m-%d %H:%M:%S") - EPOCH) // UNIT + int(said[3] or 0)
    except ValueError:
        return None
    return units if 0 <= units <= most else None


def dated(at, mark="T"):
    """A moment as a date and a time, up to the year 9999."""
    return f"{(EPOCH + at * UNIT).isoformat(mark, 'seconds')}.{at % 10}"


def digits(field):
    return field.decode() if re.fullmatch(rb"[0-9]{1,15}", field) else None


def rows_of(name, text, headers, most):
    """Gives (row, fields, fail) of each row after one of the headers, `fail` raising the first of its kinds that holds."""
    found = records(text)
    if not found or found[0] not in [[it.encode() for it in header] for header in headers]:
        raise Fault(f"prepaid: {name} row 1: Header")
    width = len(found[0])
    for row, fields in enumerate(found[1:], 2):

        def fail(*kinds, row=row):
            for kind, holds in kinds:
                if holds:
                    raise Fault(f"prepaid: {name} row {row}: {kind}")

        fail(("Csv", len(fields) != width), ("TooManyRows", row > most + 1))
        yield row, fields, fail


def read_reports(text, plan):
    """The times of each row, each lawful after the one before with a day granted."""
    read, last = [], Times()
    for _, fields, fail in rows_of("reports", text, [["before", "after"]], 10_000):
        before, after = (decimal(it, DAY) for it in fields)
        fail(("Number", before is None or after is None))
        times = Times(before, after, after > 0)
        fail(("Order", not lawful(plan, last, times, DAY)))
        read.append(times)
        last = times
    return read


def last_moment(x):
    """The last moment of an opening or a credit, whether it is a number, and the fields behind: x2 beside x7, and nothing before."""
    if len(x) < 7:
        return None, True, x[1:]
    until = decimal(x[1], HORIZON)
    return until, until is not None or x[1] == b"", x[2:]


def operation(op, call, x):
    """Whether the words of an operation are known, its numbers, the fields that must be empty, and what is asked.

    x is x1 to x5, or to x6, where a reserve has its free units, or to x7, where it has its moment, or to x9, where it has
    its billing steps.
    """
    word = op.decode("latin-1")
    if word == "credit":
        amount = decimal(x[0], MAX_MONEY)
        until, is_right, behind = last_moment(x)
        return True, [amount, 0 if is_right else None], [call, *behind], ("credit", amount, until)
    number = decimal(call, 2**64 - 1)
    if word == "reserve":
        second = None if x[2] == b"" else decimal(x[2], MAX_RATE)
        rates = decimal(x[0], MAX_RATE), decimal(x[1], MAX_RATE), second
        times, free = (decimal(x[3], DAY), decimal(x[4], DAY)), decimal(x[5], DAY) if len(x) > 5 else 0
        at = decimal(x[6], HORIZON) if len(x) > 6 else 0
        steps = (decimal(x[7], DAY), decimal(x[8], DAY, 1)) if len(x) > 8 else (0, 1)
        numbers = [number, *rates[:2], 0 if x[2] == b"" else second, *times, free, at, *steps]
        return True, numbers, [], ("reserve", number, Plan(*rates, free, *steps), *times, at)
    if word == "settle" and x[1] in (b"n", b"s"):
        mail, time = decimal(x[0], 2**64 - 1), decimal(x[2], DAY)
        if x[1] == b"n":
            return True, [number, mail, time], x[3:], ("settle", number, mail, ("n", time))
        interval = None if x[3] == b"" else decimal(x[3], DAY, 1)
        return True, [number, mail, time, 0 if x[3] == b"" else interval], x[4:], ("settle", number, mail, ("s", time, interval))
    return word == "return", [number], x, ("return", number)


def read_ops(text):
    """The seat and the operation of each row."""
    read = []
    for _, fields, fail in rows_of("ops", text, OPS, 10_000):
        seat, op, call, *x = fields
        known, numbers, empty, asked = operation(op, call, x)
        numbers.append(decimal(seat, 15))
        fail(("What", not known), ("Number", None in numbers), ("Empty", any(empty)))
        read.append((numbers[-1], asked))
    return read


def answer(reply, y):
    """Whether the words of a reply are known, its numbers, the fields that must be empty, and the reply."""
    word, available = reply.decode("latin-1"), decimal(y[2], MAX_MONEY)
    if word in ("credited", "over", "denied"):
        return True, [available], y[:2], (word, available)
    if word == "granted" and y[1] in (b"last", b"more"):
        units = decimal(y[0], DAY)
        return True, [units, available], [], (word, units, y[1] == b"last", available)
    paid = decimal(y[0], MAX_MONEY)
    return word in ("settled", "forfeit", "returned"), [paid, available], y[1:2], (word, paid, available)


def read_book(text, most):
    """The opening of each account, its last moment, and its entries as (row, seat, operation, reply)."""
    books = {}
    for row, fields, fail in rows_of("book", text, BOOK, most):
        account, seat, op, call, *x = fields[:-4]
        reply, *y = fields[-4:]
        number = decimal(account, 2**32 - 1)
        if op == b"opening":
            opening = decimal(x[0], MAX_MONEY)
            until, is_right, behind = last_moment(x)
            fail(("Number", None in (number, opening) or not is_right), ("Empty", any([seat, call, *behind, reply, *y])))
            fail(("Repeated", number in books))
            books[number] = opening, until, []
            continue
        asked, answered = operation(op, call, x), answer(reply, y)
        numbers = [number, decimal(seat, 15), *asked[1], *answered[1]]
        fail(("What", not asked[0] or not answered[0]), ("Number", None in numbers), ("Empty", any([*asked[2], *answered[2]])))
        fail(("Unknown", number not in books))
        books[number][2].append((row, numbers[1], asked[3], answered[3]))
    return books


def read_tariff(text):
    """The bands of each prefix on each weekday, 0 for Monday, by rising start, in units of 100 ms.

    A band is its start, its row, its fee, its rate, its free units and its steps.
    """
    weeks, rows = {}, {}
    for row, (prefix, start, fee, rate, *more), fail in rows_of("tariff", text, TARIFF, 10_000):
        at = re.fullmatch(rb"([01][0-9]|2[0-3]):([0-5][0-9])", start)
        money = decimal(fee, MAX_RATE), decimal(rate, MAX_RATE)
        free = decimal(more[0], DAY) if more else 0
        first, step = (decimal(more[1], DAY), decimal(more[2], DAY, 1)) if more[1:] else (0, 1)
        days = re.fullmatch(rb"1?2?3?4?5?6?7?", more[3]) if more[3:] else True
        fail(("Digits", not re.fullmatch(rb"[0-9]{0,15}", prefix)), ("From", not at), ("Money", None in money))
        fail(("Free", free is None), ("First", first is None), ("Step", step is None), ("Days", not days))
        moment = (int(at[1]) * 60 + int(at[2])) * 600
        week = weeks.setdefault(prefix.decode(), [{} for _ in range(7)])
        of_days = [week[day - ord("1")] for day in (more[3] if more[3:] else b"") or b"1234567"]
        fail(("Repeated", any(moment in day for day in of_days)))
        rows.setdefault(prefix.decode(), row)
        for day in of_days:
            day[moment] = row, *money, free, first, step
    for prefix, row in rows.items():
        if not all(0 in day for day in weeks[prefix]):
            raise Fault(f"prepaid: tariff row {row}: NoMidnightBand")
    return {prefix: [sorted((start, *band) for start, band in day.items()) for day in week] for prefix, week in weeks.items()}


def has_steps(tariff):
    """Whether any band bills in steps."""
    return any(band[5:] != (0, 1) for week in tariff.values() for day in week for band in day)


def bands_on(week, day):
    """The bands of a prefix on a day, which is a number of days since moment 0, a Thursday."""
    return week[(day + 3) % 7]


def band_at(week, now):
    """The band of a prefix that counts at a moment: the latest that has begun on this day."""
    return max(band for band in bands_on(week, now // DAY) if band[0] <= now % DAY)


def route(tariff, called, now):
    """The plan and the moment of the switch, or None: the longest prefix, its band now, the rate of the next within a day."""
    prefix = max((it for it in tariff if called.startswith(it)), key=len, default=None)
    if prefix is None:
        return None
    week, today = tariff[prefix], now // DAY
    _, row, fee, rate, *more = band_at(week, now)
    starts = [day * DAY + start for day in (today, today + 1) for start, *_ in bands_on(week, day)]
    for at in sorted(it for it in starts if now < it <= now + DAY):
        _, other, _, second, *_ = band_at(week, at)
        if other != row:
            return Plan(fee, rate, second, *more), at
    return Plan(fee, rate, None, *more), None


def read_setup(text):
    """The opening of each account with its last moment, and the account of each subscriber."""
    accounts, subscribers = {}, {}
    for _, (kind, key, value, *until), fail in rows_of("setup", text, SETUP, 10_000):
        fail(("TooManyRows", kind == b"account" and len(accounts) == 1000), ("What", kind not in (b"account", b"subscriber")))
        if kind == b"account":
            number, opening = decimal(key, 2**32 - 1), decimal(value, MAX_MONEY)
            last = moment(until[0], MAX_MOMENT) if any(until) else None
            fail(("Number", number is None or opening is None or any(until) and last is None), ("Repeated", number in accounts))
            accounts[number] = opening, last
        else:
            number, account = digits(key), decimal(value, 2**32 - 1)
            fail(("Number", number is None or account is None), ("Empty", any(until)))
            fail(("Repeated", number in subscribers), ("Unknown", account not in accounts))
            subscribers[number] = account
    return accounts, subscribers


WORDS = ("start", "answer", "busy", "noanswer", "routefail", "abandon", "disconnect", "recharge")


def read_script(text, accounts):
    """What happens: (moment, call, word, x, y) of each row, and z of a recharge."""
    read, started, last = [], set(), 0
    for _, (at, call, what, x, y, *z), fail in rows_of("script", text, SCRIPT, 1_000_000):
        word = what.decode("latin-1")
        fail(("What", word not in WORDS))
        numbers, empty, until = [moment(at, MAX_MOMENT)], [], None
        numbers += [] if word == "recharge" else [decimal(call, 2**64 - 1)]
        empty += [call] if word == "recharge" else []
        if word == "start":
            numbers += [digits(x), digits(y)]
        elif word == "recharge":
            until = moment(z[0], MAX_MOMENT) if any(z) else None
            numbers += [decimal(x, 2**32 - 1), decimal(y, MAX_MONEY), None if any(z) and until is None else 0]
        elif word == "disconnect":
            numbers.append(decimal(x, 2, 1))
            empty.append(y)
        else:
            empty += [x, y]
        empty += z if word != "recharge" else []
        fail(("Number", None in numbers), ("Empty", any(empty)))
        fail(("Order", numbers[0] < last), ("Repeated", word == "start" and numbers[1] in started))
        fail(("Unknown", word != "start" and numbers[1] not in (accounts if word == "recharge" else started)))
        last = numbers[0]
        if word == "start":
            started.add(numbers[1])
        read.append((last, None, word, *numbers[1:3], until) if word == "recharge" else (last, numbers[1], word, *numbers[2:]))
    return read


def dividers(text):
    """Where each line that is %% alone begins, and where it ends. A CR before the end of the input is none of a line's end."""
    return [it.span() for it in re.finditer(rb"(?m)^%%(?:\r?\n|\Z)", text)]


def first_section(text):
    """What stands before the first line that is %% alone, and what stands behind it."""
    found = dividers(text)
    start, end = found[0] if found else (len(text), len(text))
    if end > MAX_SECTION:
        raise Fault("prepaid: input: TooLong")
    if not found:
        raise Fault("prepaid: input: Parts")
    return text[: max(start - 1, 0)], text[end:]


def divide(text):
    """The three sections of the input of a run."""
    found = dividers(text)
    if len(found) != 2:
        raise Fault("prepaid: input: Parts")
    (first, second), (third, fourth) = found
    return [text[: max(first - 1, 0)], text[second : max(third - 1, second)], text[fourth:]]
