"""Lines of the service that come together, and its input, its output or its log that fails or is interrupted among them."""
import errno
import sys
from itertools import accumulate

from program_test import FOLDER
from serve_trial import DEVICE, HEAD, HEADER, SECONDS, Talk, read, same, speak

sys.path.insert(0, FOLDER)
from talks import TALK

LINES, ROWS = [line.encode() for line, _ in TALK], [rows.encode() for _, rows in TALK]
# Which lines are accepted, and what is logged of them: the last one has no LF.
ACCEPTED = [0, 3, 8, 10, 11, 12, 13]
LOGGED = [
    b"0,,1,switch,InitialDP,491700001,4930,,\n",
    b"100,1,1,switch,EventReportBCSM,answer,,notify,\r\n",
    b"400,2,1,switch,ApplyChargingReport,inactive,n,300,\n",
    b"400,,1,switch,EventReportBCSM,disconnect,1,interrupted,\n",
    b"402,,2,switch,Ended,,,,\n",
    b"402,,,operator,Recharge,7,500,,\n",
    b"402,,1,switch,Ended,,,,\n",
]
MESSAGES = Talk(HEAD, LOGGED)
WHOLE = HEADER + b"".join(ROWS) + MESSAGES.end_of(len(LOGGED))
# How many lines of the talk come at once: the second time none of them is logged, the third time it is one alone, and
# so it is the last time, which has no LF.
SIZES = [5, 3, 1, 4, 1]
SINGLE = [1] * len(TALK)
# How many lines come at once, how many bytes the log takes in a call, and how many calls it takes behind its head; and
# how many lines are answered where so many messages were synced, and no others.
FAILING = [
    (SIZES, 40, 13, {0: 0, 2: 8, 3: 9, 6: 13}),
    (SINGLE, None, 14, dict(enumerate(ACCEPTED))),
]
# The most lines that are taken at once; a recharge, and how often it comes.
MOST, RECHARGE, RECHARGES = 2048, b"5,,,operator,Recharge,7,1,,\n", 4097
RECHARGED = b"%%\naccount 7 opening 1500 available 5597 entries 4097\n"


class Bursts:
    """The talk, so many lines of it at once each time: what comes, what is logged of it, and what is printed."""

    def __init__(self, sizes):
        pieces = [range(end - size, end) for size, end in zip(sizes, accumulate(sizes))]
        self.rows = [b"".join(LINES[at] for at in piece) for piece in pieces]
        self.logged = [b"".join(LOGGED[ACCEPTED.index(at)] for at in piece if at in ACCEPTED) for piece in pieces]
        self.answers = [b"".join(ROWS[at] for at in piece) for piece in pieces]
        # The last burst ends the input.
        self.head, self.last = HEAD, self.rows.pop()


class Served:
    """What a service says to bursts, each of which is sent once the answer to the one before has come; its log, and the
    calls in front of the header and from there on."""

    def __init__(self, trial, sizes, **limits):
        bursts, path, told = Bursts(sizes), trial.new(), trial.new()
        with trial.start(path, "--book", env=trial.failing(told_to=told, **limits)) as it:
            heard = speak(it, bursts)
            output, line = it.communicate(bursts.last, timeout=SECONDS)
        self.said, self.log = (it.returncode, heard + output, line), read(path)
        self.opening, self.calls = calls_in(told)

    def synced(self):
        """How many messages the log had when it was synced for the last time."""
        written = synced = 0
        for device, what, size in self.opening + self.calls:
            written += size if device == "LOG" else 0
            synced = written if what == "sync" else synced
        return MESSAGES.count_in(self.log[:synced])


def calls_in(path):
    """The calls that were told, those in front of the header and the others: of which device, whether it was a write or
    a sync, and how many bytes it took."""
    told = map(str.split, read(path).decode().splitlines())
    calls = [(device, what, int(size)) for device, what, size in told]
    first = next((place for place, call in enumerate(calls) if call[0] == "OUTPUT"), len(calls))
    return calls[:first], calls[first:]


def in_groups(where, calls, groups):
    """Lines that are taken at once are logged by one write and one sync, and then answered by one write. `groups` says
    of each what is logged and what is printed. Behind the last one nothing is logged."""
    wanted = [("OUTPUT", "write", len(HEADER))]
    for logged, rows in groups:
        wanted += [("LOG", "write", len(logged)), ("LOG", "sync", 0)] if logged else []
        wanted += [("OUTPUT", "write", len(rows))] if rows else []
    same(where, calls[: len(wanted)], wanted)
    same(where, [call for call in calls[len(wanted) :] if call[0] == "LOG"], [])


def come_together(trial):
    """Lines that come together are logged together and answered together. Log and output are the same where their calls
    are interrupted and take little at once."""
    narrow = {"log_step": 40, "output_step": 7, "interrupted": 1}
    for sizes, limits in [(SIZES, {}), (SINGLE, {}), (SIZES, narrow)]:
        it, bursts, where = Served(trial, sizes, **limits), Bursts(sizes), f"{sizes} lines at once with {limits}"
        same(where, it.said, (0, WHOLE, b""))
        same(where, it.log, MESSAGES.logged())
        if not limits:
            in_groups(where, it.calls, zip(bursts.logged, bursts.answers))
    return 3


def log_fails(trial):
    """A log that fails after each of its calls: of the lines that came together then, none is answered, and all that
    came before are, with their book. Where it fails before the header, nothing is printed."""
    runs = 0
    for sizes, step, count, answered in FAILING:
        whole = Served(trial, sizes, log_step=step)
        same("calls of the log", sum(call[0] == "LOG" for call in whole.calls), count)

        def do(calls):
            where = f"{sizes} lines at once, the log fails after {calls} calls"
            it = Served(trial, sizes, log_step=step, log_calls=calls)
            logged, output = it.synced(), b""
            if calls >= len(whole.opening):
                same(f"{where}: {logged} messages are synced", logged in answered, True)
                output = HEADER + b"".join(ROWS[: answered[logged]]) + MESSAGES.end_of(logged)
            same(where, it.said, (2, output, DEVICE[2]))
            MESSAGES.count_in(it.log)

        runs += trial.each(do, range(len(whole.opening) + count))
    return runs


def output_fails(trial):
    """An output that fails after each of its calls: it has what was printed before, and no line is said. The log has
    what was accepted up to the line whose answer failed."""
    whole, answered = Served(trial, SINGLE), [at for at, rows in enumerate(ROWS) if rows]
    sizes = [size for device, _, size in whole.calls if device == "OUTPUT"]

    def do(calls):
        it, where = Served(trial, SINGLE, output_calls=calls), f"the output fails after {calls} calls"
        same(where, it.said, (2, WHOLE[: sum(sizes[:calls])], b""))
        last = [-1, *answered][min(calls, len(answered))]
        same(where, it.log, MESSAGES.logged(sum(at <= last for at in ACCEPTED)))

    return trial.each(do, range(len(sizes)))


def input_fails(trial):
    """An input that fails behind lines that come together, or behind the first byte of a further one: they are logged
    and answered together."""

    def do(case):
        count, more = case
        where, path, told = f"the input fails {more} bytes behind {count} lines", trial.new(), trial.new()
        room, text = len(HEAD + b"".join(LINES[:count])) + more, HEAD + b"".join(LINES)
        limits = {"input_room": room, "input_error": errno.EIO, "told_to": told}
        said = trial.run(path, text, "--book", env=trial.failing(**limits))
        logged, rows = LOGGED[: sum(at < count for at in ACCEPTED)], b"".join(ROWS[:count])
        output = HEADER + rows + MESSAGES.end_of(len(logged))
        same(where, said, (2, output, b"prepaid: run: Device\n"))
        same(where, read(path), MESSAGES.logged(len(logged)))
        in_groups(where, calls_in(told)[1], [(b"".join(logged), rows)])

    return trial.each(do, [(count, more) for count in range(len(LINES)) for more in (0, 1)])


def input_is_interrupted(trial):
    """An input that is interrupted once, behind each of its bytes, is logged and answered as one that isn't."""
    text = HEAD + b"".join(LINES)

    def do(room):
        where, path = f"the input is interrupted behind {room} bytes", trial.new()
        said = trial.run(path, text, "--book", env=trial.failing(input_room=room, input_error=errno.EINTR))
        same(where, said, (0, WHOLE, b""))
        same(where, read(path), MESSAGES.logged())

    return trial.each(do, range(len(text)))


def takes_no_more_lines_at_once(trial):
    """Of many lines that come together no more are logged and answered together than may be, and as many are."""
    path, told = trial.new(), trial.new()
    text = HEAD + RECHARGE * RECHARGES
    said, _ = trial.over(trial.new(text), ["serve", "--lines", "--log", path], told_to=told)
    rows = [b"5,%d,,operator,Recharge,7,1,,\n" % number for number in range(RECHARGES)]
    same("many lines", said, (0, HEADER + b"".join(rows) + RECHARGED, b""))
    same("many lines", read(path), MESSAGES.logged(0) + RECHARGE * RECHARGES)
    calls = calls_in(told)[1]
    sizes = [size // len(RECHARGE) for device, what, size in calls if (device, what) == ("LOG", "write")]
    pieces = [(end - size, end) for size, end in zip(sizes, accumulate(sizes))]
    in_groups("many lines", calls, [(RECHARGE * (end - at), b"".join(rows[at:end])) for at, end in pieces])
    same("the most lines at once", max(sizes), MOST)
    return 1


GROUPED = [come_together, log_fails, output_fails, input_fails, input_is_interrupted, takes_no_more_lines_at_once]
