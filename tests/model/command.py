"""The commands: words and an input to a status, an output and a line of fault."""
import io
import re

from .account import DAY, MAX_MONEY, Account, Plan, Times, account_line, afford, call_lines, price
from .rate import rate
from .run import Options, Run, divided
from .serve import serve
from .tables import (
    MAX_MOMENT,
    MAX_RATE,
    Fault,
    band_at,
    dated,
    divide,
    dividers,
    moment,
    read_book,
    read_ops,
    read_reports,
    read_script,
    read_setup,
    read_tariff,
    route,
)

MAX_INPUT = 16_777_216
# What `run` may print in place of its lines.
TABLES = ("--book", "--calls", "--trace")
# What `serve` may print at its end.
ENDS = ("--lines", "--book", "--calls")
# Options without a value.
FLAGS = (*TABLES, "--lines", "--clock", "--long", "--rows", "--differing")
# How many rows a book may have, and a long one.
MOST_ROWS, MOST_LONG_ROWS = 1_000_000, 4_294_967_293
# More entries than an input has room for.
NO_LIMIT = 2**32
ARGUMENTS = Fault("prepaid: arguments")
TAKEN = {
    "price": {"--fee", "--before", "--after", "--free", "--first", "--step"},
    "replay": {"--opening", "--limit"},
    "audit": {"--long", "--rows", "--lines"},
    "rate": {"--called", "--answer", "--time", "--end", "--paid", "--before", "--after", "--differing"},
    "quote": {"--called", "--at", "--for", "--credit", "--clock"},
    "run": {"--workers", "--parts", "--threads", "--wanted", "--least", "--tssf", "--tccd", "--delay", "--default", "--clock", *TABLES},
    "serve": {"--wanted", "--least", "--tccd", "--log", "--again", *ENDS},
}


def command(words, text, book=None, write=None, without_memory=frozenset()):
    """Returns status, output, the line on standard error, and whether no other output is right as well.

    Of `serve` the text may be a file, and what is printed goes to `write` as it comes. In `run` and `serve` accounts have no
    memory for the messages and recharges of some numbers.
    """
    printed = []
    explains = bool(words) and words[0] == "--explain"
    words = words[1:] if words[:1] in (["--explain"], ["--plain"]) else words
    try:
        if not words or words[0] not in TAKEN:
            raise ARGUMENTS
        given = options_in(words[0], words[1:])
        if words[0] == "run":
            run, script = do_run(given, text, book, without_memory)
            table = next((it for it in TABLES if it in given), None)
            text = {None: run.lines, "--book": run.book, "--calls": run.calls, "--trace": run.trace}[table]()
            # where workers have met at an account, which events had no place is open
            notes = run.notes(script) if explains and not run.is_contended else ""
            return 0, text, run.refusals() + notes, not run.is_contended
        if words[0] in ("audit", "rate"):
            return *{"audit": do_audit, "rate": rate}[words[0]](given, text), "", True
        if words[0] == "serve":
            source = io.BytesIO(text) if isinstance(text, bytes) else text
            do_serve(given, source, write or printed.append, without_memory)
            return 0, "".join(printed), "", True
        return 0, {"price": do_price, "replay": do_replay, "quote": do_quote}[words[0]](given, text), "", True
    except Fault as fault:
        said = explained(words, text, fault.line) if explains else ""
        return fault.status, "".join(printed), fault.line + "\n" + said, True


def explained(words, text, line):
    """The line of the input in which the row of a fault begins. What is said behind it isn't compared."""
    found = re.fullmatch(r"prepaid: (\w+) row (\d+): \w+", line)
    if not found or words[0] in ("rate", "serve") or "--long" in words:
        return ""
    place = {"tariff": 0, "setup": 1, "script": 2}[found[1]] if words[0] == "run" else 0
    spans = dividers(text) if words[0] == "run" else []
    start = [0, *(end for _, end in spans)][place]
    end = [*(begins for begins, _ in spans), len(text)][place]
    begins = row_starts(text[start:end], int(found[2]))
    if begins is None:
        return ""
    shown = re.split(rb"[\r\n]", text[start + begins :], maxsplit=1)[0]
    return f"line {text[: start + begins].count(10) + 1} of the input: {as_shown(shown)}\n"


def as_shown(line):
    """The bytes of a line, as far as 200 columns reach."""
    shown = ""
    for byte in line:
        piece = chr(byte) if 32 <= byte < 127 else f"\\x{byte:02x}"
        if len(shown) + len(piece) > 200:
            break
        shown += piece
    return shown


def row_starts(table, number):
    """Where the row of a number begins in a table, by the quotes and the ends of lines in front of it."""
    at, row = (3 if table.startswith(b"\xef\xbb\xbf") else 0), 0
    while True:
        while table[at : at + 1] in (b"\r", b"\n"):
            at += 1
        if at >= len(table):
            return None
        row += 1
        if row == number:
            return at
        # a field is quoted text and then plain text, or plain text alone
        field = re.compile(rb'(?:"(?:[^"]|"")*(?:"|\Z))?[^,\r\n]*')
        while True:
            at = field.match(table, at).end()
            if table[at : at + 1] != b",":
                break
            at += 1


def options_in(name, words):
    given, left = {}, list(words)
    while left:
        word, is_joined, value = left.pop(0).partition("=")
        left = [value, *left] if is_joined else left
        if is_joined and word in FLAGS:
            raise ARGUMENTS
        if word not in TAKEN[name] or word in given or word not in FLAGS and not left:
            raise ARGUMENTS
        # a word that begins with - is an option, where more is behind that
        if word not in FLAGS and not is_joined and re.match("-.", left[0]):
            raise ARGUMENTS
        given[word] = True if word in FLAGS else left.pop(0)
    if max(sum(it in given for it in words) for words in (TABLES, ENDS)) > 1 or name == "rate" and not are_times(given):
        raise ARGUMENTS
    if name == "run" and "--clock" in given and not {"--calls", "--trace"} & set(given):
        raise ARGUMENTS
    if name == "serve" and "--again" in given and "--log" not in given:
        raise ARGUMENTS
    return given


def are_times(given):
    """Whether the columns of the times are named in one way at most: a time, an end, or two times."""
    ways = [it in given for it in ("--time", "--end", "--before", "--after")]
    return ways[2] == ways[3] and sum(ways[:3]) < 2


def number(given, word, default=None, most=None, least=0):
    """A number of 1 to 20 digits, within a range where one is given."""
    if word not in given and default is not None:
        return default
    if not re.fullmatch("[0-9]{1,20}", given.get(word, "")):
        raise ARGUMENTS
    found = int(given[word])
    if most is not None and not least <= found <= most:
        raise ARGUMENTS
    return found


def clock_of(given):
    """How moments are printed."""
    return dated if "--clock" in given else str


def whole(text):
    if len(text) > MAX_INPUT:
        raise Fault("prepaid: input: TooLong")
    return text


def do_price(given, text):
    after = number(given, "--after", most=MAX_RATE) if "--after" in given else None
    fee, before, free = number(given, "--fee", most=MAX_RATE), number(given, "--before", most=MAX_RATE), number(given, "--free", 0, DAY)
    first, step = number(given, "--first", 0, DAY), number(given, "--step", 1, DAY, 1)
    plan = Plan(fee, before, after, free, first, step)
    lines, total = [], 0
    for times in read_reports(whole(text), plan):
        now = price(plan, times.before, times.after)
        lines.append(f"debit {now - total} total {now}\n")
        total = now
    return "".join([*lines, f"total {total}\n"])


def do_quote(given, text):
    called, at = given.get("--called", ""), given.get("--at", "")
    if not re.fullmatch("[0-9]{1,15}", called):
        raise ARGUMENTS
    if time := re.fullmatch("([01][0-9]|2[0-3]):([0-5][0-9])", at):
        now = (int(time[1]) * 60 + int(time[2])) * 600
    else:
        now = moment(at.encode(), MAX_MOMENT)
    if now is None:
        raise ARGUMENTS
    talk = number(given, "--for", most=DAY) if "--for" in given else None
    credit = number(given, "--credit", most=MAX_MONEY) if "--credit" in given else None
    tariff = read_tariff(whole(text))
    found = route(tariff, called, now)
    if found is None:
        return "no route\n"
    plan, switch = found
    prefix = max((it for it in tariff if called.startswith(it)), key=len)
    start, *_ = band_at(tariff[prefix], now)
    steps = f" first {plan.first} step {plan.step}" if plan.has_steps() else ""
    lines = [f"prefix {prefix or '-'} from {start // 36000:02}:{start // 600 % 60:02} fee {plan.fee} rate {plan.before} free {plan.free}{steps}\n"]
    if switch is not None:
        lines.append(f"switch {clock_of(given)(switch)} rate {plan.after}\n")
    if talk is not None:
        before = talk if switch is None else min(talk, switch - now)
        lines.append(f"price {price(plan, before, talk - before)}\n")
    if credit is not None:
        lines.append(f"afford {afford(plan, Times(0, 0, False), DAY, credit)}\n")
    return "".join(lines)


def do_replay(given, text):
    account = Account(number(given, "--opening", most=MAX_MONEY), limit=number(given, "--limit", 1_000_000, 1_000_000, 3))
    lines = []
    for seat, op in read_ops(whole(text)):
        lines.append(told(account.apply(seat, op)) + "\n")
    return "".join(lines)


def told(reply):
    """The answer of an account, in words: its reply, or the fault that refuses the operation."""
    if isinstance(reply, str):
        return f"refused {reply}"
    kind, *rest, available = reply
    if kind == "granted":
        kind += f" {rest[0]} {'last' if rest[1] else 'more'}"
    elif rest:
        kind += f" paid {rest[0]}"
    return f"{kind} available {available}"


def do_audit(given, text):
    """Whether each account's entries are those of an account: their operations are taken, and answered so."""
    book = read_book(text, MOST_LONG_ROWS) if "--long" in given else read_book(whole(text), MOST_ROWS)
    lines, legal, status = [], {}, 0
    for number, (opening, until, entries) in sorted(book.items()):
        account = Account(opening, until, NO_LIMIT)
        answered = (
            (row, op[0], reply, account.apply(seat, op))
            for row, seat, op, reply in entries
        )
        wrong = next((it for it in answered if it[2] != it[3]), None)
        if not wrong:
            legal[number] = account
            lines.append(account_line(number, account) if "--lines" in given else f"account {number} yes\n")
            continue
        lines.append(f"account {number} no\n")
        status, (row, op, reply, right) = 3, wrong
        if "--rows" in given:
            lines.append(f"account {number} row {row}: {op}: {told(reply)}, is {told(right)}\n")
    return status, "".join(lines) + (call_lines(legal) if "--lines" in given else "")


def do_serve(given, source, write, without_memory):
    wanted, least, tccd = number(given, "--wanted", 600), number(given, "--least", 50), number(given, "--tccd", 50)
    again = number(given, "--again", most=2**64 - 1) if "--again" in given else None
    if not 1 <= tccd <= least <= wanted <= DAY:
        raise Fault("prepaid: input: Config")

    def say(rows):
        if rows:
            write("".join(f"{it}\n" for it in rows))

    options = {"wanted": wanted, "least": least, "tccd": tccd, "without_memory": without_memory}
    serve(given, source, say, options, given.get("--log"), again)


def do_run(given, text, book, without_memory=frozenset()):
    parts = number(given, "--parts", most=2**32 - 1) if "--parts" in given else None
    threads = number(given, "--threads", 1, 64)
    workers = number(given, "--workers", 2 if parts is None else 1, 99)
    if parts is None and "--threads" in given or parts is not None and (parts < 1 or threads < 1 or workers > 1 or "--trace" in given):
        raise ARGUMENTS
    wanted, least = number(given, "--wanted", 600), number(given, "--least", 50)
    tssf, tccd, delay = number(given, "--tssf", 100), number(given, "--tccd", 50), number(given, "--delay", 2)
    if given.get("--default", "release") not in ("release", "proceed"):
        raise ARGUMENTS
    if not 1 <= delay <= tccd <= least <= wanted <= DAY or not 1 <= tssf <= DAY:
        raise Fault("prepaid: input: Config")
    first, second, third = divide(whole(text))
    tariff = read_tariff(first)
    setup = read_setup(second)
    script = read_script(third, setup[0])
    if not 1 <= workers <= 16:
        raise Fault("prepaid: run: Workers", 2)
    options = Options(workers, wanted, least, tssf, tccd, delay, given.get("--default") != "proceed", without_memory)
    run = Run(tariff, setup, options, book, clock_of(given))
    if parts is None or "--book" not in given:
        # the parts print the lines and the calls of one run
        run.play(script)
    else:
        # but the numbers of settles count the messages of a part
        for own, rows in divided(script, setup, parts):
            part = Run(tariff, setup, options, book, clock_of(given))
            part.play(rows)
            run.accounts.update({it: part.accounts[it] for it in own})
            run.refused.update(part.refused)
            run.unplaced += part.unplaced
    return run, script
