#!/usr/bin/env python3
"""Tries the program where its devices fail: tests/devices_test.py [--program FILE]

tests/failing_devices.c is loaded before the C library. An input fails behind each of its bytes, or is longer than it
may be; an output and an error writer have room for each front of what goes to them, take a few bytes at once, and are
interrupted; input, output and log of `serve` fail where lines come together, and the calls show what is written and
synced when; each call by which a log is opened fails, and the last thread that a run starts. A device
fails once and takes all from then on, so a program that goes on behind a failure is seen.
"""
import argparse
import errno
import itertools
import os
import subprocess
import sys
import tempfile

from devices_groups import GROUPED
from explain_test import EACH, FIRST, on_terminal
from pipe_test import ROOT, SECONDS
from program_test import FOLDER, difference
from serve_trial import HEAD, HEADER, Talk, Trial, Wrong, read, same

sys.path.insert(0, FOLDER)
from broken import INPUTS
from rows import PRICE, Row, run_input
from served import ANSWERED, CALL, ENDS

DEVICE = b"prepaid: run: Device\n"
TOO_LONG = b"prepaid: input: TooLong\n"
SWITCHED, OPERATIONS, RUN, BOOK = INPUTS

# What an input gives in some trials.
REPORTS = "before,after\n1,0\n9"
OPENING = "account,seat,op,call,x1,x2,x3,x4,x5,reply,y1,y2,y3\n1,,opening,,1,,,,,,,,\n"
# Words, an input that fails behind each of its bytes, how it fails, the status and the line.
FAILED = [
    (PRICE, REPORTS, errno.EIO, 2, DEVICE),
    (PRICE, REPORTS, errno.ENOMEM, 2, b"prepaid: run: OutOfMemory\n"),
    ("run --delay 51", "", errno.EIO, 1, b"prepaid: input: Config\n"),
    ("run", "", errno.EIO, 2, DEVICE),
    ("audit --long", OPENING, errno.EIO, 2, DEVICE),
    ("audit --long", OPENING, errno.ENOMEM, 2, DEVICE),
    *((*given, errno.EIO, 2, DEVICE) for given in INPUTS),
]

# Books that are read row by row, and the fault of their last row: it comes once that row is read whole.
REFUSED = [
    ("account,seat\n", b"prepaid: book row 1: Header\n"),
    (OPENING + "1,0,credit\n", b"prepaid: book row 3: Csv\n"),
    (OPENING + "1,0,credit,,x,,,,,credited,,,1\n", b"prepaid: book row 3: Number\n"),
]

# A tariff and records, and what is printed of them.
RECORDS = ("prefix,from,fee,rate,free\n49,00:00,50,1000,0\n49,08:00,50,400,0\n4915,00:00,0,1900,600\n%%\n"
           "called,answer,time,paid\n4930,0,600,1000\n")
RATED = ("called,answer,time,paid,prefix,before,after,price,difference,fault\n"
         "4930,0,600,1000,49,600,0,1050,50,\n")
SUMMARY = "prepaid: rated: 1 rows, 1 differ, 0 faults, charged 1000, by the tariff 1050, over 0, under 50\n"
PRINTED = [
    Row(PRICE, "before,after\n3,0\n", "debit 55 total 55\ntotal 55\n"),
    Row(PRICE, "before,after\n3,0\n1,0\n", faults="prepaid: reports row 3: Order\n", status=1),
    Row(*SWITCHED, "debit 0 total 0\ndebit 52 total 52\ndebit 998 total 1050\ndebit 200 total 1250\ntotal 1250\n"),
    Row(*OPERATIONS, "granted 600 more available 450\nsettled paid 550 available 450\n"
        "returned paid 550 available 950\n"),
    Row(*RUN, "account 7 opening 1500 available 950 entries 3\ncall 1 account 7 paid 550 returned\n"),
    Row("run", run_input("", "account,7,5\n", "0,,recharge,7,0\n"), "account 7 opening 5 available 5 entries 0\n",
        "prepaid: refused: 1 OutOfRange\n"),
    Row(*BOOK, "account 1 yes\n"),
    Row("rate --summary", RECORDS, RATED, SUMMARY, 3),
]
SERVED = Row("serve --lines", HEAD.decode() + CALL, HEADER.decode() + ANSWERED + dict(ENDS)["serve --lines"])

# A run of eleven accounts without calls, and what is printed of it.
ACCOUNTS = run_input("", "".join(f"account,{it},5\n" for it in range(1, 12)), "").encode()
CLOSED = "".join(f"account {it} opening 5 available 5 entries 0\n" for it in range(1, 12)).encode()
# How many threads are started beside the main one, and whether a run fails for which the last of them can't be: one for
# each further worker, which it does; or for each further group of neighbouring parts, which another thread plays then.
STARTED = [
    ("run", 1, True),
    ("run --workers 1", 0, True),
    ("run --workers 3", 2, True),
    ("run --workers 16", 15, True),
    ("run --parts 8", 0, False),
    ("run --parts 8 --threads 1", 0, False),
    ("run --parts 8 --threads 4", 3, False),
    ("run --parts 8 --threads 5", 3, False),
    ("run --parts 8 --threads 8", 7, False),
    ("run --parts 3 --threads 64", 2, False),
    ("run --parts 64 --threads 64", 10, False),
]

# How many bytes a writer takes at once. Where that is said, it is interrupted before it takes any.
STEPS = [None, 7, 5, 1]

# How many bytes an input has, the fewest and the most of them that may be taken, and the line. The limit is 16777216,
# and what a pipe holds may be read ahead.
LENGTHS = [
    (16_777_216, 16_777_216, 16_777_216, b"prepaid: reports row 1: Header\n"),
    (16_777_217, 16_777_217, 16_777_217, TOO_LONG),
    (20_000_000, 16_777_217, 16_777_216 + 65_536, TOO_LONG),
]


class Devices(Trial):
    """A program whose devices fail."""

    def __init__(self, program, folder):
        super().__init__(program, folder)
        self.library = self.new()
        words = ["cc", "-shared", "-fPIC", "-O2", "-o", self.library, f"{ROOT}/tests/failing_devices.c"]
        subprocess.run(words, check=True)

    def failing(self, **limits):
        """The environment of a process whose devices have these limits; what is None has none."""
        said = {name.upper(): str(limit) for name, limit in limits.items() if limit is not None}
        return {**os.environ, "LD_PRELOAD": self.library, **said}

    def over(self, path, words, **limits):
        """What comes of words and an input, a file: status, output, line; and how many of its bytes were taken."""
        with open(path, "rb") as file:
            ran = subprocess.run([self.program, *words], stdin=file, capture_output=True, timeout=SECONDS,
                                 env=self.failing(**limits))
            return (ran.returncode, ran.stdout, ran.stderr), os.lseek(file.fileno(), 0, os.SEEK_CUR)

    def rows(self, cases):
        """Tries rows, each with the limits of its devices."""
        cases = list(cases)
        paths = {text: self.new(text.encode()) for text in {row.input for row, _ in cases}}

        def do(case):
            row, limits = case
            (status, output, faults), _ = self.over(paths[row.input], row.words.split(), **limits)
            if said := difference((faults, output, status), row):
                raise Wrong(f"{row.words!r} over {row.input!r:.300} with {limits}: {said}")

        return self.each(do, cases)


def read_inputs():
    """An input that fails behind each of its bytes is a fault of its own, but where a row that was read whole has another.
    Nothing is printed but the records that were rated before."""
    for words, text, error, status, line in FAILED:
        for room in range(len(text) + 1):
            yield Row(words, text, "", line, status), {"input_room": room, "input_error": error}
    for text, line in REFUSED:
        for room in range(len(text)):
            yield Row("audit --long", text, "", DEVICE, 2), {"input_room": room, "input_error": errno.EIO}
        yield Row("audit --long", text, "", line, 1), {"input_room": len(text), "input_error": errno.EIO}
    text, rows = RECORDS + "4930", RATED.splitlines(keepends=True)
    begin = text.index("%%\n") + len("%%\n")
    for room in range(len(text) + 1):
        output = "".join(rows[: text[begin:room].count("\n")])
        yield Row("rate", text, output, DEVICE, 2), {"input_room": room, "input_error": errno.EIO}


def served_inputs():
    """A service whose input fails has answered the messages that came whole, and prints their book; nothing in front of
    the first message."""
    text, talk = HEAD + CALL.encode(), Talk(HEAD, CALL.encode().splitlines(keepends=True))
    for room in range(len(text) + 1):
        count = text[len(HEAD) : room].count(b"\n")
        output = HEADER + talk.answered(0, count) + talk.end_of(count) if room >= len(HEAD) else b""
        row = Row("serve --book", text.decode(), output, DEVICE, 2)
        yield row, {"input_room": room, "input_error": errno.EIO}


def byte_by_byte():
    """An input that gives a byte at once is read to its end, also lines that are too long."""
    rated = RECORDS + "4930,0,600,1000\n" * 9 + "x" * 70_000 + "\n"
    long = RATED.splitlines(keepends=True)[1]
    output = RATED + long * 9 + "x" * 70_000 + ",,,,,,TooLong\n"
    for row in (Row("serve", HEAD.decode() + "x" * 5_000 + "\n0,,1,switch,Ended,,,,\n",
                    HEADER.decode() + ",,,service,fault,TooLong,2,,\n0,0,1,switch,Ended,,,,\n0,0,1,service,stray,,,,\n"),
                Row("rate", rated, output, "", 3)):
        yield row, {"input_step": 1}


def narrow(device, room, step):
    """The limits of a device that has room for so many bytes, and takes so many at once."""
    return {f"{device}_room": room, f"{device}_step": step, "interrupted": 1 if step else None}


def outputs():
    """An output has a front of what is printed, and the line is behind a whole output alone."""
    for row in [*PRINTED, SERVED]:
        for step in STEPS:
            for room in range(len(row.output)):
                yield row._replace(output=row.output[:room], faults="", status=2), narrow("output", room, step)
            yield row, narrow("output", len(row.output), step)


def error_writers():
    """An error writer has a front of the line, and the output and the status are as they are without a failure."""
    for row in PRINTED:
        for step in STEPS:
            for room in range(len(row.faults) + 2):
                yield row._replace(faults=row.faults[:room]), narrow("faults", room, step)


def bounds_the_input(trial):
    """An input that is longer than it may be is a fault, and no more of it is taken than shows that."""
    for size, least, most, line in LENGTHS:
        path = trial.new(b"")
        os.truncate(path, size)
        said, taken = trial.over(path, PRICE.split())
        same(f"an input of {size} bytes", said, (1, b"", line))
        same(f"an input of {size} bytes, of which {taken} are taken", least <= taken <= most, True)
    return len(LENGTHS)


def writes_seldom(trial):
    """Records that are rated are gathered, and go to the output some 64 KiB at once."""
    count, calls = 20_000, trial.new(b"")
    (status, output, _), _ = trial.over(trial.new((RECORDS + "4930,0,600,1000\n" * count).encode()), ["rate"], told_to=calls)
    same("rows", (status, output.count(b"\n")), (3, count + 2))
    same("writes", read(calls).count(b"OUTPUT write") <= len(output) // 65_536 + 1, True)
    return 1


def opens_a_log(trial):
    """Each call by which a log is opened fails once: that there is none, one that ends with a torn line, or a whole one.
    Nothing is printed then, what the log has stays there but for the torn line, and the next start goes on. The folder of
    the log is opened and synced at the end, whatever the log has: a start that was killed may not have come to that."""
    talk, count, tried = trial.numbered, 0, ("open", "statx", "flock", "read", "ftruncate", "fsync")
    failed, logs = set(), [None, talk.logged(3), talk.logged(3) + talk.rows[3][:5]]
    for log, call in itertools.product(logs, tried):
        for number in itertools.count(1):
            path, calls = trial.new(log), trial.new(b"")
            failing = trial.failing(failed_call=call, failed_number=number, told_to=calls)
            said = trial.run(path, talk.text(3 if log else 0), "--book", env=failing)
            if read(calls).find(b"FAILED") < 0:
                break
            where, count = f"{call} {number} fails over {log}", count + 1
            same(where, said, (2, b"", b"prepaid: log: Device\n"))
            if log:
                same(where, read(path), talk.logged(3) if call == "fsync" or (call, number) == ("open", 2) else log)
            trial.goes_on(where, path, talk, 0)
            failed.add((logs.index(log), call, number))
    same("calls that failed", {*tried}, {call for _, call, _ in failed})
    same("the folder", {(it, call, 2) for it in range(len(logs)) for call in ("open", "fsync")} - failed, set())
    return count


def starts_threads(trial):
    """As many threads are started as a run is to have, and no more: the last of them can't be, or one more couldn't."""
    path = trial.new(ACCOUNTS)
    for (words, count, fails), more in itertools.product(STARTED, (0, 1)):
        calls = trial.new(b"")
        said, _ = trial.over(path, words.split(), failed_call="pthread_create", failed_number=count + more, told_to=calls)
        last = count > 0 and not more
        same(f"{words}: thread {count + more} is started", b"FAILED pthread_create" in read(calls), last)
        same(f"{words}: thread {count + more} fails", said, (2, b"", b"prepaid: run: Thread\n") if last and fails else (0, CLOSED, b""))
    return 2 * len(STARTED)


def shows_how_far(trial):
    """By the clock it is shown on a terminal how far a run is once that takes two seconds, and then each fifth of one."""
    words, step = [sys.executable, f"{ROOT}/examples/generate.py", "--calls", "4000"], 30
    text = subprocess.run(words, capture_output=True, check=True).stdout.decode()
    calls, now, shown = trial.new(b""), 0, {}
    failing = trial.failing(clock_step=step, told_to=calls)
    _, output, status = on_terminal(trial.program, "run --workers 1", text, environment=failing)
    same("a run on a terminal", (output != "", status), (True, 0))
    for device, what, *_ in map(str.split, read(calls).decode().splitlines()):
        now = int(what) if device == "CLOCK" else now
        shown |= {now: None} if device == "FAULTS" else {}
    first, each = (-(-int(1000 * it) // step) * step for it in (FIRST, EACH))
    same("when it is shown", list(shown)[:20], [first + each * it for it in range(20)])
    return 1


ROWS = [read_inputs, served_inputs, byte_by_byte, outputs, error_writers]
TRIES = [bounds_the_input, writes_seldom, opens_a_log, starts_threads, shows_how_far, *GROUPED]


def main():
    asked = argparse.ArgumentParser(description=__doc__, formatter_class=argparse.RawDescriptionHelpFormatter)
    asked.add_argument("--program", default=f"{ROOT}/bin/prepaid")
    program, runs, wrong = os.path.abspath(asked.parse_args().program), 0, []
    with tempfile.TemporaryDirectory() as folder:
        trial = Devices(program, folder)
        for it in [*ROWS, *TRIES]:
            try:
                runs += trial.rows(it()) if it in ROWS else it(trial)
            except (Wrong, OSError, subprocess.TimeoutExpired) as why:
                wrong.append(f"devices: {it.__name__}: {why!s:.2000}")
    print("\n".join(wrong) or f"devices: {runs} runs whose input, output, error writer, log or thread fails")
    return 1 if wrong else 0


if __name__ == "__main__":
    sys.exit(main())
