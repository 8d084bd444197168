"""Words and inputs made at random from a seed: right ones, and ones with faults of every kind."""
import random

from .account import DAY, MAX_MONEY
from .command import FLAGS, TABLES, command
from .rate import Wrong, line, rated
from .tables import BOOK, OPS, SCRIPT, SETUP, TARIFF, Fault, dated, read_tariff
from .trace import HEADER

# Fields that are wrong in most places, and right at an end of a range in some.
FIELDS = (
    "|0|1|-1|+1| 1|1.0|x|00|007|n|s|start|answer|leave|credit|return|opening|reserve|settle|granted|last|more|over|account|subscriber|%%|\"5\"|\"|15|16|2|3|864000|864001|1000000000|1000000001"
    "|1000000000000|1000000000001|1000000000000000|1000000000000001|4294967295|4294967296|18446744073709551615|18446744073709551616"
    "|99999999999999999999|000000000000000000001|123456789012345|1234567890123456|24:00|23:59|23:60|8:00|00:00"
    "|1970-01-01T00:00:00|1970-01-01 00:00:00.0|1970-01-01|1970-01-01T00:00|1970-01-01T00:00:00.|1970-01-01T00:00:00.00|1970-01-01t00:00:00|1969-12-31T23:59:59.9"
    "|1972-02-29T00:00:00|1973-02-29T00:00:00|2100-02-29T00:00:00|1970-04-31T00:00:00|1970-13-01T00:00:00|1970-01-01T24:00:00|1970-01-01T00:00:60"
    "|5138-11-16T09:46:40|5138-11-16T09:46:40.1|9999-12-31T23:59:59.9"
).split("|")
# What is in the place of the path of a log.
LOG = "LOG"
BYTES = b'",\r\n%0a\x00\xff\xef'
OPERATIONS = ["opening", "credit", "reserve", "settle", "return"]
REPLIES = ["credited", "over", "granted", "denied", "settled", "forfeit", "returned"]
NUMBERS = ["491700001", "491700002", "4930", "44", "123456789012345", "5"]
PREFIXES = ["", "4", "49", "493", "44", "4930"]


def make(seed):
    """The words and the input of this seed."""
    it = random.Random(seed)
    if seed % 1000 == 511:
        # it takes the model a minute and more, so none is among the first 500
        return full_run(it)
    kind = "quote" if seed % 10 == 9 else "rate" if seed % 10 == 4 else "serve" if seed % 10 == 2 else it.choices(["price", "replay", "run", "audit"], [2, 3, 9, 5])[0]
    words, text = {"price": prices, "replay": operations, "run": runs, "audit": books, "quote": quotes, "rate": ratings, "serve": messages}[kind](it)
    if it.random() < 0.12:
        words = other_words(it, words)
    elif it.random() < 0.15:
        words = joined(it, words)
    if it.random() < 0.35:
        text = broken(it, text)
    elif it.random() < 0.2:
        text = in_other_form(it, text)
    if seed % 500 in (7, 8) and text:
        # as long as an input may be, and a byte longer
        text += b"\n" * (16_777_216 + seed % 500 - 7 - len(text))
    front = {1: ["--explain"], 3: ["--explain"], 5: ["--plain"]}.get(seed % 7, [])
    return [*front, *words], text


def table(rows):
    return "".join(",".join(map(str, it)) + "\n" for it in rows).encode()


def rate(it):
    return it.choice([0, 1, 7, 400, 600, 1000, 2400, it.randrange(5000), 10**9])


def free_units(it):
    return it.choice([0, 0, 1, 100, 300, 599, 600, it.randrange(1300), DAY - 1, DAY])


def steps(it):
    """A first step and the further ones, now and then out of range."""
    if it.random() < 0.01:
        return it.choice([(DAY + 1, 1), (0, 0), (0, DAY + 1), ("", 1), (0, "")])
    return it.choice([0, 0, 1, 300, 600, it.randrange(1300), DAY - 1, DAY]), it.choice([1, 1, 6, 60, 600, it.randrange(1, 1300), DAY])


def prices(it):
    words = ["price", "--fee", it.choice([0, 50, it.randrange(1000), 10**9]), "--before", rate(it)]
    has_after = it.random() < 0.7
    words += ["--after", rate(it)] if has_after else []
    words += ["--free", DAY + 1 if it.random() < 0.05 else free_units(it)] if it.random() < 0.6 else []
    for name, units in zip(("--first", "--step"), steps(it)):
        words += [name, units] if it.random() < 0.4 else []
    before = after = 0
    rows = [("before", "after")]
    for _ in range(it.randrange(9)):
        before += it.randrange(700) if not after or it.random() < 0.05 else 0
        after += it.choice([0, 0, it.randrange(500)]) if has_after or it.random() < 0.05 else 0
        rows.append((before, after) if it.random() < 0.9 else (it.choice([0, DAY, before]), it.choice([0, 1, after])))
    return list(map(str, words)), table(rows)


def written(it, at):
    """A moment, if there is one: its units, or a date and a time in one of their forms."""
    if at == "" or it.random() < 0.7:
        return at
    text = dated(at, it.choice("T "))
    return text.removesuffix(".0") if it.random() < 0.5 else text


def quotes(it):
    text, starts = tariff(it)
    day = it.choice([0, 0, 1, 10**6]) * DAY
    at = it.choice([f"{it.randrange(1440) // 60:02}:{it.randrange(60):02}", day + it.choice(starts) + it.choice([-1, 0, 1, 300]), 10**12, 10**12 + 1])
    words = ["quote", "--called", it.choice(NUMBERS), "--at", written(it, max(0, at)) if isinstance(at, int) else at]
    words += ["--for", it.choice([0, 1, 600, it.randrange(3000), DAY])] if it.random() < 0.6 else []
    words += ["--credit", it.choice([0, 50, 1500, it.randrange(10_000), MAX_MONEY])] if it.random() < 0.6 else []
    words += ["--clock"] if it.random() < 0.4 else []
    return list(map(str, words)), text


def ratings(it):
    """Records of calls, of which many were charged what the tariff says; columns in any order, with others between them."""
    text, starts = tariff(it)
    kind = it.choice(["time", "time", "end", "split", "both"])
    times = {"time": ["time"], "end": ["end"], "split": ["before", "after"], "both": ["time", "end", "before", "after"]}[kind]
    usual = ["called", "answer", *times, *["paid"][: it.random() < 0.8]]
    names = {name: it.choice([name] * 5 + ["c " + name]) for name in usual}
    options = [name for name in usual if names[name] != name]
    if kind == "both" and it.random() < 0.7:
        options += it.choice([["time"], ["end"], ["before", "after"]])
    if {"before", "after"} & set(options):
        options += ["before", "after"]
    words = ["rate", *(["--differing"] if it.random() < 0.3 else [])]
    for name in it.sample(sorted(set(options)), len(set(options))):
        words += ["--" + name, names[name]]
    header = [*usual, *it.sample(["id", "calling", "note"], it.randrange(4))]
    it.shuffle(header)
    lines = [line([names.get(name, name).encode() for name in header])]
    for _ in range(it.randrange(12)):
        row = record(it, text, starts, kind)
        lines.append(line([row[name] for name in header]))
    if it.random() < 0.2:
        lines.insert(it.randrange(len(lines) + 1), long_row(it))
    return words, text + b"%%\n" + b"".join(lines)


def long_row(it):
    """A row of about the most bytes that are looked at or printed, or of far more; at times in quotes, which may stay open."""
    first, end = it.choice([b"4930,0,600,", b"", b"1,"]), it.choice([b"\n", b"\r\n", b"\r", b""])
    piece = it.choice([b"x", b"x", b",", b'""', b'"', b"a\n", b'a"b,', b'4930,0,600,"x"\n'])
    left = it.choice([65_536, 131_072, 131_072, 400_000]) + it.randrange(-30, 30)
    opened, closed = it.choice([(b"", b""), (b'"', b'"'), (b'"', b'"'), (b'"', b""), (b"x", b"")])
    return first + opened + piece * (left // it.choice([1, len(piece)])) + closed + end


def record(it, text, starts, kind):
    """What the columns of a call have: often what it should have cost."""
    called, at = it.choice(NUMBERS), it.choice([0, 1, 10**6]) * DAY + max(0, it.choice(starts) + it.choice([-600, -1, 0, 1, 300]))
    talk = it.choice([0, 1, 600, it.randrange(3000), DAY - 1, DAY])
    before = it.randrange(talk + 1)
    try:
        paid = rated(read_tariff(text), called, at, [before, talk - before] if kind in ("split", "both") else [talk])[3]
    except (Fault, Wrong):
        paid = 0
    paid = it.choice(["", paid, paid, paid, paid, paid + 1, max(0, paid - 1), MAX_MONEY])
    end = at + it.choice([talk, talk, talk, talk, talk, -1, DAY + 1])
    answer, end = written(it, it.choice(["", at, at, at, at])), written(it, max(0, end))
    found = {"called": called, "answer": answer, "time": talk, "end": end, "before": before, "after": talk - before, "paid": paid}
    notes = {"id": it.randrange(100), "calling": it.choice(NUMBERS), "note": it.choice(["", "a,b", 'say "x"', "two\nlines", " "])}
    return {name: str(value).encode() for name, value in {**found, **notes}.items()}


def operations(it):
    opening = it.choice([0, 1500, it.randrange(10_000), MAX_MONEY, MAX_MONEY - it.randrange(2000)])
    words = ["replay", "--opening", opening] + (["--limit", it.choice([3, it.randrange(3, 12), it.randrange(3, 12), 10**6])] if it.random() < 0.5 else [])
    header = it.choice(OPS)
    rows, more = [header], len(header) - len(OPS[0])
    first = it.choice([0, 0, 10**12, 2 * 10**12 - 11])
    plans = [(it.choice([it.randrange(100), it.randrange(100), 10**9]), rate(it), it.choice(["", rate(it)]), (free_units(it), *steps(it))) for _ in range(2)]
    for _ in range(it.randrange(25)):
        seat, call = it.choice([0, 1, 15]), it.choice([1, 1, 2, 3, 2**64 - 1])
        what = it.choice(["credit", "reserve", "reserve", "settle", "settle", "return"])
        time = it.choice([0, 100, 300, 600, 601, it.randrange(1300), DAY])
        if what == "credit":
            x = "", it.choice([0, 1, 600, it.randrange(3000), MAX_MONEY]), *[it.choice(["", "", *(first + at for at in (0, 5, 10))])][: more >= 2]
        elif what == "reserve":
            *rates, (free, *billed) = it.choice(plans)
            times = it.choice([0, 1, 600, it.randrange(700), DAY]), it.choice([0, 1, 50, DAY])
            x = call, *rates, *times, *[free, first + it.choice([0, 4, 5, 6, 11]), *billed][:more]
        elif what == "settle" and it.random() < 0.5:
            x = call, it.randrange(9), "n", time
        elif what == "settle":
            x = call, it.randrange(9), "s", time, it.choice(["", 1, 200, it.randrange(1, 700)])
        else:
            x = (call,)
        row = [seat, what, *x]
        rows.append(row + [""] * (len(header) - len(row)))
    return list(map(str, words)), table(rows)


def runs(it, few=False):
    """A run of small times, so that rows, deliveries and timers often come at one moment; with few reservations a call."""
    delay = it.choice([1, 2, 3, 5, 12, 40])
    tccd = delay + it.choice([0, 0, 1, 3, 10])
    least = tccd + it.choice([0, 1, 10, 40])
    wanted = least + (500 if few else it.choice([0, 5, 40, 500]))
    tssf = it.choice([1, delay, delay + 1, 10, 30, 100])
    workers = it.choice([1, 1, 1, 2, 2, 3, 4, 16])
    given = {"workers": workers, "wanted": wanted, "least": least, "tssf": tssf, "tccd": tccd, "delay": delay}
    given["default"] = it.choice(["release", "proceed"])
    defaults = {"workers": 2, "wanted": 600, "least": 50, "tssf": 100, "tccd": 50, "delay": 2, "default": "release"}
    if it.random() < 0.25:
        given = {**defaults, "workers": workers}
    words = ["run"]
    for name in it.sample(sorted(given), len(given)):
        if given[name] != defaults[name] or it.random() < 0.2:
            words += [f"--{name}", str(given[name])]
    # where several workers meet at an account, only a book tells in which order
    table_of = it.choices(["--book", "--calls", "--trace", ""], [1, 1, 1, 1] if given["workers"] == 1 else [8, 1, 1, 1])[0]
    words += [table_of] if table_of else []
    words += ["--clock"] if it.random() < (0.5 if table_of in ("--calls", "--trace") else 0.03) else []
    first, starts = tariff(it)
    # the last of these days is the last but one before the greatest moment
    day, start = it.choice([0, 0, 1, 3, 10**12 // DAY - 1]), it.choice(starts)
    base = max(0, day * DAY + (start if day < 4 else start % DAY) - it.choice([0, 5, 10, 100, 305]))
    second, accounts, subscribers = setup(it, base, wanted)
    third = script(it, given, base, accounts, subscribers)
    if given["workers"] == 1 and it.random() < (0.02 if table_of == "--trace" else 0.3):
        words += ["--parts", str(it.choice([1, 2, 3, 16, 16, 5000, 0, 2**32]) if it.random() < 0.1 else it.choice([1, 2, 3, 16]))]
        words += it.choice([[], ["--threads", "1"], ["--threads", "3"]])
    if it.random() < 0.01:
        words += ["--threads", it.choice(["0", "1", "64", "65"])]
    return words, first + b"%%\n" + second + b"%%\n" + third


def full_run(it):
    """A run that fills an account's history: recharges, as many as a script has rows, and calls of short periods."""
    words = ["run", "--workers", str(it.choice([1, 1, 2])), "--wanted", "20", "--least", "10", "--tccd", "5", *it.choice([[], ["--calls"], ["--trace"], ["--trace", "--clock"]])]
    rows = [(0, 1, "start", "1", "49"), (3, 1, "answer", "", ""), (60, 2, "start", "1", "49"), (64, 2, "answer", "", "")]
    rows += [(at, call, "disconnect", it.choice([1, 2]), "") for at, call in [(it.randrange(70, 90), 2), (it.randrange(90, 400), 1)]]
    late = it.randrange(20)
    recharges = 1_000_000 - len(rows) - it.randrange(8)
    moments = [it.randrange(1, 9) for _ in range(recharges - late)] + [it.randrange(9, 400) for _ in range(late)]
    rows += [(at, "", "recharge", 7, 1) for at in moments]
    rows = [row for _, row in sorted(enumerate(rows), key=lambda row: (row[1][0], row[0]))]
    text = b"prefix,from,fee,rate\n49,00:00,0,600\n%%\nkind,key,value\naccount,7,1500\nsubscriber,1,7\n%%\n"
    return words, text + table([SCRIPT[0], *rows])


def tariff(it):
    """A tariff, and the moments of the first week at which a band starts."""
    header = it.choice(TARIFF)
    rows, starts = [header], [0]
    for prefix in it.sample(PREFIXES, it.randrange(1, 4)):
        for days in weeks(it) if "days" in header else [""]:
            for start in sorted({0, *(it.randrange(1440) for _ in range(it.choice([0, 0, 1, 2])))}):
                free = free_units(it) if it.random() < 0.98 else DAY + 1
                row = prefix, f"{start // 60:02}:{start % 60:02}", it.choice([0, 50, it.randrange(300), it.randrange(300), 10**9]), rate(it), free
                rows.append([*row, *steps(it), days][: len(header)])
                # day 0 is a Thursday
                starts += [(int(day) + 3) % 7 * DAY + start * 600 for day in days or "4" if day in "1234567"]
    if "days" in header and it.random() < 0.3:
        it.shuffle(rows)
        rows.remove(header)
        rows.insert(0, header)
    return table(rows), starts


def weeks(it):
    """The days of a week in a few sets, and now and then in some that overlap, leave a day out, or are no sets of days."""
    if it.random() < 0.08:
        return it.choice([["8"], ["0"], ["11"], ["21"], ["67", "7"], ["12345"], ["", "7"], ["1234567", ""], ["12345", "6 7"]])
    sets = it.choice([1, 2, 2, 2, 3, 7])
    sets_of = [it.randrange(sets) for _ in range(7)]
    split = ["".join(str(day + 1) for day in range(7) if sets_of[day] == number) for number in range(sets)]
    return [it.choice(["", "1234567"])] if "1234567" in split else [days for days in split if days]


def until(it, base, wanted):
    """The last moment of an account: mostly none, or one among the moments of the run."""
    return it.choice(["", "", "", 0, base, base + it.randrange(1 + wanted), base + it.randrange(1 + 3 * wanted), 10**12])


def setup(it, base, wanted):
    header = it.choice(SETUP)
    rows, accounts, subscribers = [header], [], []
    for number in it.sample([1, 2, 7, 8, 4294967295], it.randrange(1, 4)):
        opening = it.choice([0, 300, 1500, it.randrange(5000), it.randrange(50_000), MAX_MONEY - it.randrange(900)])
        rows.append(("account", number, opening, written(it, until(it, base, wanted)))[: len(header)])
        accounts.append(number)
    for number in it.sample(NUMBERS, it.randrange(1, 5)):
        rows.append(("subscriber", number, it.choice(accounts), "")[: len(header)])
        subscribers.append(number)
    return table(rows), accounts, subscribers


def script(it, given, base, accounts, subscribers):
    """Calls that begin about the start of a band, each with what it meets at moments that matter to its timers."""
    header = it.choice(SCRIPT)
    delay, tccd, tssf, wanted = (given[it] for it in ("delay", "tccd", "tssf", "wanted"))
    rows, moment, calls = [], base, it.sample([*range(1, 12), 2**64 - 1], it.randrange(1, 9))
    for call in calls:
        moment += it.choice([0, 0, 0, 1, delay, 2 * delay, tssf, it.randrange(60)])
        calling = it.choice(subscribers) if it.random() < 0.9 else it.choice(NUMBERS)
        rows.append((moment, call, "start", calling, it.choice(NUMBERS)))
        at = moment + it.choice([0, delay, delay + 1, 2 * delay, tssf, tssf + delay, it.randrange(60)])
        word = it.choice(["answer"] * 8 + ["busy", "noanswer", "routefail", "abandon", "disconnect"] * 2)
        rows.append((at, call, word, it.choice([1, 2]) if word == "disconnect" else "", ""))
        # what ends a call unanswered is mostly the last that it meets, or a later event would end it as well
        for _ in range(it.choice([0, 1, 1, 2] if word == "answer" else [0, 0, 1])):
            at += it.choice([0, 1, delay, tccd, wanted, wanted + delay, wanted + tccd, 2 * wanted, it.randrange(1 + 3 * wanted)])
            word = it.choice(["disconnect"] * 6 + ["answer", "busy", "abandon"])
            rows.append((at, call, word, it.choice([1, 2]) if word == "disconnect" else "", ""))
    for _ in range(it.choice([0, 0, 1, 3])):
        at = it.choice(rows)[0] + it.choice([0, 0, delay, it.randrange(1 + wanted)])
        rows.append((at, "", "recharge", it.choice(accounts), it.choice([0, 1, 600, it.randrange(3000), MAX_MONEY]), written(it, until(it, base, wanted))))
    # a start stays before what its call meets: sorting keeps the order of one moment
    rows = [row for _, row in sorted(enumerate(rows), key=lambda row: (row[1][0], row[0]))]
    return table([header, *([written(it, row[0]), *row[1:], ""][: len(header)] for row in rows)])


def played(it):
    """The options of a run that `serve` has too, the head of its input, and the messages of its trace."""
    words, text = runs(it)
    options = dict(zip(words[1::2], words[2::2]))
    given = {name: value for name, value in options.items() if name not in TABLES and name not in ("--workers", "--parts", "--threads")}
    _, table_of, _, _ = command(["run", "--workers", "1", "--trace", *(word for pair in given.items() for word in pair)], text)
    rows = [row for row in table_of.encode().split(b"\n") if row.split(b",")[3:4] in ([b"switch"], [b"operator"])]
    options = [it for name in ("--wanted", "--least", "--tccd") if name in given for it in (name, given[name])]
    return options, b"%%\n".join(text.split(b"%%\n")[:2]) + b"%%\n", rows


def messages(it):
    """The messages of a run for `serve`: some are dropped, altered, sent again or exchanged, with bad lines among them."""
    options, head, rows = played(it)
    numbered = it.choice([0, 0.3, 1])
    lines = [row if it.random() < numbered else without_number(row) for row in rows]
    for _ in range(it.choice([0, 1, 2, 4, 8])):
        disturb(it, rows, lines)
    behind = it.choice([b"\n"] * 4 + [b"\r\n"])
    body = behind.join([HEADER.encode() if it.random() < 0.97 else it.choice([b"", b"moment", HEADER.encode() + b" "]), *lines, b""])
    words = ["serve", *options, *it.choice([[], ["--lines"], ["--book"], ["--calls"]])]
    return words, head + (body if it.random() < 0.9 else body[: -len(behind)])


def starts(seed):
    """The starts of a service with one log: the words, with LOG for its path, the input, and what the log holds then,
    or nothing where there is none. What it holds afterwards is sent to this generator."""
    it = random.Random(seed)
    options, head, rows = played(it)
    head += HEADER.encode() + it.choice([b"\n"] * 9 + [b"\r\n"])
    log = it.choice([None] * 9 + [b""])
    for _ in range(it.choice([1, 2, 3, 3, 4, 5])):
        logged = max(0, (log or b"").count(b"\n") - head.count(b"\n") - 1)
        first = max(0, logged + it.choice([0, 0, 0, 0, -1, -3, 1, -logged]))
        last = first + it.choice([0, 1, 3, 9, 99])
        lines = [row if it.random() < 0.6 else without_number(row) for row in rows[first:last]]
        for _ in range(it.choice([0, 0, 1, 3])):
            disturb(it, rows, lines)
        text = head + b"".join(line + it.choice([b"\n"] * 9 + [b"\r\n"]) for line in lines)
        if it.random() < 0.06:
            text = broken(it, head) + text[len(head) :]
        elif it.random() < 0.1:
            text = text[: it.randrange(len(head) - 2, len(text) + 1)]
        words = ["serve", *options, "--log", LOG, *it.choice([[], ["--lines"], ["--book"], ["--calls"]])]
        again = it.choice([0, 1, logged, max(0, logged - 2), logged + 2, it.randrange(20), it.choice(FIELDS)])
        words += ["--again", str(again)] if it.random() < 0.6 else []
        if it.random() < 0.04:
            words = [word for word in words if word not in ("--log", LOG)]
        others = other_words(it, words) if it.random() < 0.06 else words
        # a path is never another word
        are_paths = all(others[at + 1 : at + 2] == [LOG] for at, word in enumerate(others) if word == "--log")
        log = yield others if are_paths else words, text, log
        log = changed(it, log) if it.random() < 0.5 else log


def changed(it, log):
    """What a log may hold after a crash, or once somebody has altered it."""
    if not log:
        return log
    what = it.randrange(11)
    if what < 3:
        return log[: it.randrange(max(0, len(log) - 200), len(log) + 1)]
    if what == 10:
        lines = log.split(b"\n")
        lines.insert(it.randrange(len(lines) // 2, len(lines)), it.choice([b"", b"", b"\r", it.choice(lines)]))
        return b"\n".join(lines)
    if what == 3:
        return log[: it.randrange(len(log) + 1)]
    if what == 4:
        return log + it.choice([b"\n", b"x", b"\x00" * 9, b"\x00\n", b"\r", b"x" * 5000, b"0,,1,switch,Ended,,,,"])
    if what == 5:
        return it.choice([None, b"", b"\n", b"log", b"log,1,", log.split(b"\n")[0], log.split(b"\n", 1)[-1]])
    at = it.randrange(len(log)) if it.random() < 0.4 else len(log) - 1 - it.randrange(min(len(log), 99))
    if what < 8:
        return log[:at] + bytes([it.choice(BYTES)]) + log[at + 1 :]
    return broken(it, log)


def without_number(row):
    fields = row.split(b",")
    return b",".join([fields[0], b"", *fields[2:]])


def disturb(it, rows, lines):
    """Puts a line among the others that isn't accepted there, or changes one."""
    at = it.randrange(len(lines) + 1)
    what = it.randrange(9)
    if what == 0:
        lines.insert(at, it.choice([b"", b"x", b"%%", b'"', b",,,,,,,,", b"\x00", b"0,,1,service,Continue,,,,", b"0,,1,switch,EventReportBCSM,collectedInfo,,notify,"]))
    elif what == 1:
        lines.insert(at, b"x" * it.choice([4094, 4095, 4096, 4097, 9000]))
    elif not lines or not rows:
        return
    elif what == 2:
        lines.insert(at, it.choice(rows))
    elif what == 3:
        del lines[at - 1]
    elif what == 4:
        other = it.randrange(len(lines))
        lines[at - 1], lines[other] = lines[other], lines[at - 1]
    elif what == 5:
        lines.insert(at, without_number(it.choice(rows)))
    else:
        fields = lines[at - 1].split(b",")
        place = it.randrange(len(fields))
        fields[place] = it.choice([*FIELDS, "switch", "Ended", "notify", "interrupted", "transparent", "active", "inactive", "busy", "answer", "abandon"]).encode()
        lines.insert(at, b",".join(fields))


def books(it):
    """The book of a run, in which a part was altered, or which was told otherwise or by the older header."""
    words, text = runs(it, few=True)
    status, book, _, _ = command([*(word for word in words if word not in (*TABLES, "--clock")), "--book"], text)
    rows = [line.split(",") for line in book.split("\n")[:-1]] if status == 0 else [list(BOOK[2])]
    more = len(rows[0]) - len(BOOK[2])
    less = it.choice([0, 0, 0, 0, more, more + 1, more + 2])
    if less:
        # without x8 and x9, and then without x7, or x6 and x7, which are in front of the reply and its three columns
        rows = [row[: -4 - less] + row[-4:] for row in rows]
    if less > more:
        # there x2 is of a reserve or a settle alone
        rows = [[*row[:5], "", *row[6:]] if row[2] in ("opening", "credit") and it.random() < 0.95 else row for row in rows]
    for _ in range(it.choice([0, 1, 1, 1, 2])):
        at = it.randrange(1, len(rows)) if len(rows) > 1 else 0
        what = it.randrange(8)
        if what < 4:
            place = it.choice([i for i, field in enumerate(rows[at]) if field] if it.random() < 0.9 else range(len(rows[at])))
            rows[at][place] = altered(it, rows[at][place])
        elif what == 4 and at:
            other = it.randrange(1, len(rows))
            rows[at], rows[other] = rows[other], rows[at]
        elif what == 5 and at:
            del rows[at]
        elif what == 6 and at:
            rows.insert(it.randrange(1, len(rows) + 1), list(rows[at]))
        elif at:
            other = it.choice(rows[1:])
            rows[at][-4:], other[-4:] = other[-4:], rows[at][-4:]
    if it.random() < 0.3:
        # accounts by turns, each in its own order
        left = {}
        for row in rows[1:]:
            left.setdefault(row[0], []).append(row)
        order = [row[0] for row in rows[1:]]
        it.shuffle(order)
        rows[1:] = [left[account].pop(0) for account in order]
    words = ["audit", *it.choices([[], ["--long"]], [3, 1])[0]]
    return [*words, *it.choice([[], ["--rows"]]), *it.choice([[], ["--lines"]])], table(rows)


def altered(it, field):
    """Another text for a field of a book: mostly one that it might have had."""
    if field.isdigit() and it.random() < 0.8:
        return str(it.choice([int(field) + 1, max(0, int(field) - 1), int(field) + 50, it.randrange(700), 0, DAY, DAY + 1, 10**12 + 1, 2 * 10**12, MAX_MONEY, MAX_MONEY + 1]))
    for words in (["last", "more"], ["n", "s"], OPERATIONS, REPLIES):
        if field in words and it.random() < 0.8:
            return it.choice(words)
    return it.choice(FIELDS)


def joined(it, words):
    """An option and its value in one word, now and then one that takes no value."""
    places = [at for at, word in enumerate(words) if word.startswith("--") and (it.random() < 0.05 or word not in FLAGS and at + 1 < len(words))]
    if not places:
        return words
    at = it.choice(places)
    return [*words[:at], "=".join(words[at : at + 2]), *words[at + 2 :]]


def other_words(it, words):
    """Words with another value of an option, an option too many, or one too few."""
    words = list(words)
    options = [at for at, word in enumerate(words) if word.startswith("--") and word not in FLAGS]
    what = it.choice(["value", "value", "value", "value", "twice", "less", "unknown", "none", "more"])
    if what == "value" and words[0] == "run" and it.random() < 0.7:
        name = it.choice(["workers", "parts", "threads", "wanted", "least", "tssf", "tccd", "delay", "default"])
        if f"--{name}" in words:
            at = words.index(f"--{name}")
            del words[at : at + 2]
        return [*words, f"--{name}", it.choice(["0", "1", "2", "17", "49", "51", "99", "100", "600", "601", "864000", "864001", *FIELDS])]
    if what == "value" and options:
        words[it.choice(options) + 1] = it.choice(["0", "2", "3", "1000000", "1000001", *FIELDS])
    elif what == "twice" and options:
        at = it.choice(options)
        words += words[at : at + 2]
    elif what == "less":
        del words[it.randrange(len(words))]
    elif what == "unknown":
        words += [it.choice(["--until", "-x", "now"]), "1"]
    elif what == "none":
        words = []
    elif what == "more":
        words.append(it.choice(FLAGS))
    return words


def broken(it, text):
    """The text with up to three changes, most of which are faults."""
    for _ in range(it.choice([1, 1, 2, 3])):
        lines = text.split(b"\n")
        at = it.randrange(len(lines))
        fields = lines[at].split(b",")
        place = it.randrange(len(fields))
        what = it.randrange(12)
        if what < 5:
            fields[place] = it.choice(FIELDS).encode()
            lines[at] = b",".join(fields)
        elif what == 5:
            lines[at] = b",".join(fields[:-1] if it.random() < 0.5 else [*fields, b""])
        elif what == 6:
            del lines[at]
        elif what == 7:
            lines.insert(it.randrange(len(lines)), lines[at])
        elif what == 8:
            other = it.randrange(len(lines))
            lines[at], lines[other] = lines[other], lines[at]
        elif what == 9 and it.random() < 0.1 and len(lines) > 2:
            lines[at:at] = [lines[at]] * 10_001
        elif what == 9:
            # a section without its rows, or a table
            start = it.choice([0, *(place + 1 for place, line in enumerate(lines) if line == b"%%")])
            rest = lines[start:]
            del lines[start : start + (rest.index(b"%%") if b"%%" in rest else len(rest))]
        text = b"\n".join(lines)
        if what == 10 and text:
            at = it.randrange(len(text))
            text = text[:at] + bytes([it.choice(BYTES)]) + text[at + it.randrange(2) :]
        elif what == 11:
            text = text[: it.randrange(len(text) + 1)]
    return text


def in_other_form(it, text):
    """The same tables in other words: quotes, line ends, empty lines, zeros, a byte order mark."""
    lines = text.split(b"\n")
    what = it.randrange(5)
    if what == 0:
        return b"\r\n".join(lines)
    if what == 1:
        at = it.randrange(len(lines))
        lines[at] = b",".join(b'"' + it + b'"' if it else it for it in lines[at].split(b",")) if lines[at] != b"%%" else lines[at]
    elif what == 2:
        lines.insert(it.randrange(len(lines)), b"")
    elif what == 3:
        at = it.randrange(len(lines))
        lines[at] = b",".join(b"00" + it if it.isdigit() and len(it) < 9 else it for it in lines[at].split(b","))
    else:
        return b"\xef\xbb\xbf" + text
    return b"\n".join(lines)
