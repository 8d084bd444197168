"""The live service: rows of messages, each a line, answered one after the other, and what is printed behind them."""
from . import calls, trace
from .account import DAY, MAX_MONEY
from .log import Log
from .run import Options, Run
from .tables import HORIZON, MAX_MOMENT, MAX_SECTION, Fault, decimal, digits, moment, read_setup, read_tariff, records

MAX_LINE = 4096
# The events of a row, in the words of a script.
EVENTS = {
    b"collectedInfo": "collectedinfo",
    b"routeSelectFailure": "routefail",
    b"busy": "busy",
    b"noAnswer": "noanswer",
    b"answer": "answer",
    b"disconnect": "disconnect",
    b"abandon": "abandon",
}
NEVER = 2**64
MODES = (b"notify", b"interrupted", b"transparent")


class Bad(Exception):
    """What is wrong with a line."""


def needed(found):
    if found is None:
        raise Bad("Number")
    return found


def number(field, most, least=0):
    return needed(decimal(field, most, least))


def optional(field, most, least=0):
    return None if field == b"" else number(field, most, least)


def is_known(sender, what, x):
    """Whether the words of a row are those of a message."""
    if (sender, what) == (b"switch", b"EventReportBCSM"):
        return x[0] in EVENTS and x[2] in MODES
    if (sender, what) == (b"switch", b"ApplyChargingReport"):
        return x[0] in (b"active", b"inactive") and x[1] in (b"n", b"s")
    return sender == b"switch" and what in (b"InitialDP", b"Ended") or (sender, what) == (b"operator", b"Recharge")


def message(fields):
    """The moment of a row, its number, its call, what is said, and its fields from what on, as they are printed."""
    if len(fields) != 9:
        raise Bad("Csv")
    at, place, call, sender, what, *x = fields
    if not is_known(sender, what, x):
        raise Bad("What")
    at, place = needed(moment(at, HORIZON)), optional(place, 2**64 - 1)
    empty, word = [], what.decode()
    call = None if word == "Recharge" else number(call, 2**64 - 1)
    if word == "Recharge":
        until = None if x[2] == b"" else needed(moment(x[2], MAX_MOMENT))
        rest = number(x[0], 2**32 - 1), number(x[1], MAX_MONEY), until
        said, empty = ("recharge", *rest), [fields[2], x[3]]
    elif word == "InitialDP":
        rest = needed(digits(x[0])), needed(digits(x[1]))
        said, empty = ("initial dp", *rest), x[2:]
    elif word == "EventReportBCSM":
        leg, mode = optional(x[1], 2, 1), x[2].decode()
        rest, empty = (x[0].decode(), leg, mode), x[3:]
        said = "event", EVENTS[x[0]], mode
    elif word == "ApplyChargingReport":
        times = ("n", number(x[2], DAY)) if x[1] == b"n" else ("s", number(x[2], DAY), optional(x[3], DAY, 1))
        rest, empty = (x[0].decode(), *times), x[3:] if x[1] == b"n" else []
        said = "charging report", x[0] == b"active", times
    else:
        rest, said, empty = (), ("ended",), x
    if any(empty):
        raise Bad("Empty")
    return at, place, call, said, [word, *rest]


class Service:
    """A run of one worker, to which each line goes."""

    def __init__(self, run):
        self.run, self.closed = run, set()
        # how many messages were accepted, of which the last ones may wait for their log, and the moment of the last one
        self.next, self.last = 0, 0

    def judge(self, line):
        """Accepts the message of a line, if it has one; Bad where it isn't accepted."""
        if len(line) > MAX_LINE:
            raise Bad("TooLong")
        found = records(line)
        if not found:
            return None
        if len(found) > 1:
            raise Bad("Csv")
        at, place, *rest = message(found[0])
        if place is not None and place < self.next:
            raise Bad("Repeated")
        if at < self.last or place is not None and place > self.next:
            raise Bad("Order")
        self.next, self.last = self.next + 1, at
        return at, *rest

    def rows(self, at, call, said, fields):
        """What is printed of a message."""
        head = [at, self.run.number, call]
        answer = self.answer(at, call, said)
        sender = "operator" if call is None else "switch"
        return [trace.row([*head, sender, *fields]), *(trace.row([*head, "service", *it]) for it in answer.said())]

    def answer(self, at, call, said):
        if call is None and said[1] not in self.run.accounts or call in self.closed:
            self.run.number += 1
            answer = trace.Answer(is_stray=True)
        else:
            was_open = call in self.run.talks
            (answer,) = self.run.answered(at, [(call, said)]).values()
            if call is not None and said[0] == "ended" and was_open:
                self.closed.add(call)
        if call is not None:
            calls.hear(self.run.told, at, call, said)
        return answer


def read_section(source):
    """What is in front of the next line that is %% alone, and the same with that line."""
    lines, left = [], MAX_SECTION
    while line := source.readline(left + 1):
        left -= len(line)
        if left < 0:
            raise Fault("prepaid: input: TooLong")
        lines.append(line)
        if line in (b"%%\n", b"%%\r\n", b"%%"):
            return b"".join(lines[:-1]).removesuffix(b"\n"), b"".join(lines)
    raise Fault("prepaid: input: Parts")


def groups(source):
    """The whole lines that are there, each time that some are, with their LF; of a line too long its first bytes."""
    begun = b""
    while text := source.read1(MAX_SECTION):
        *lines, begun = (begun + text).split(b"\n")
        begun = begun[: MAX_LINE + 1]
        if lines:
            yield [line + b"\n" for line in lines]
    if begun:
        yield [begun + b"\n"]


def replay(service, lines, again):
    """The rows of the messages of a log from a number on; each of its lines has to be one."""
    printed = []
    for row, line in enumerate(lines, 2):
        try:
            found = service.judge(line)
        except Bad as why:
            raise Fault(f"prepaid: log row {row}: {why}", 2) from why
        if not found:
            raise Fault(f"prepaid: log row {row}: Csv", 2)
        number, rows = service.run.number, service.rows(*found)
        printed += rows if number >= again else []
    return printed


def answer(service, source, log, say):
    """Answers each line of an input before more is read, and gives the fault of the log that ends the run, if one does.
    Lines that come together are logged together, where they are accepted, and then answered in their order."""
    place = 1
    for lines in groups(source):
        said, accepted = [], []
        for line in lines:
            place += 1
            try:
                found = service.judge(line)
            except Bad as why:
                said.append(f",,,service,fault,{why},{place},,")
                continue
            if found:
                accepted.append(line)
                said.append(found)
        try:
            log.append(b"".join(accepted))
        except Fault as fault:
            return fault
        for it in said:
            say([it] if isinstance(it, str) else service.rows(*it))
    return None


def serve(given, source, say, options, path=None, again=None):
    """Prints the answer to an input as it comes, and behind it what is asked for. With a path there is a log."""
    (first, tariff), (second, setup) = read_section(source), read_section(source)
    service = Service(Run(read_tariff(first), read_setup(second), Options(1, **options)))
    header = source.readline(len(trace.HEADER) + 3)
    if header not in [trace.HEADER.encode() + it for it in (b"\n", b"\r\n", b"")]:
        raise Fault("prepaid: messages row 1: Header")
    begins = "log,1,{wanted},{least},{tccd}\n".format(**options).encode()
    log = Log(path, begins + tariff + setup + header)
    try:
        printed = replay(service, log.lines, NEVER if again is None else again)
        say([trace.HEADER])
        say(printed)
        fault = answer(service, source, log, say)
    finally:
        log.close()
    run = service.run
    ends = {"--lines": run.lines, "--book": run.book, "--calls": run.calls}
    for name, end in ends.items():
        if name in given:
            say(["%%", *end().splitlines()])
    if fault:
        raise fault
