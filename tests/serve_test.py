#!/usr/bin/env python3
"""Tries the log of `prepaid serve`: tests/serve_test.py [--program FILE] [--seed N] [--kills N] [PART..]

A log is cut and altered at each byte; the service is killed at random moments and started again; its disk is full, a
sync fails, its log is none or is another's; the reader of its output goes away. What it has to print then, and what its
log has to hold, are worked rows, or what the model says. Without a PART all are tried. The seed of the random moments
is printed: with --seed they are the same again.
"""
import argparse
import os
import random
import resource
import signal
import subprocess
import sys
import tempfile
import time

from model.command import MAX_INPUT
from model.tables import Fault
from serve_days import days, next_day, other_days
from serve_kills import kills
from serve_trial import (
    DEVICE,
    HEAD,
    HEADER,
    OTHER,
    SECONDS,
    Talk,
    Trial,
    Wrong,
    can_trace,
    close,
    fault,
    hear,
    modelled,
    read,
    repeated,
    same,
    send,
    speak,
    traced,
)

# A folder in memory for the many small logs, where there is one.
MEMORY = "/dev/shm" if os.path.isdir("/dev/shm") else None


def cut_at_each_byte(trial):
    """A log that ends anywhere: whole lines are heard again in silence, one that was cut in its head is begun anew, and
    with the rest of the rows all is as in one run."""
    talk = trial.talk

    def do(size):
        path = trial.new(talk.logged()[:size])
        logged = talk.count_in(read(path))
        same(f"{size} bytes", trial.run(path, talk.text(logged), "--book"), talk.served(logged))
        same(f"{size} bytes", read(path), talk.logged())

    return f"{trial.each(do, range(len(talk.logged()) + 1))} logs"


def altered_at_each_byte(trial):
    """A log in which a byte is another: in its head it is another's, and stays as it is; behind it the model says which
    row is wrong, if one is."""
    talk, whole = trial.talk, trial.talk.logged()

    def do(at):
        byte = whole[at] ^ 1 if at % 3 else 0
        text = whole[:at] + bytes([byte]) + whole[at + 1 :]
        path, other = trial.new(text), trial.new(text)
        wanted = modelled(["--log", other, "--lines", "--again", "2"], talk.head)
        if at < len(talk.log):
            same(f"the model: byte {at}", wanted, OTHER)
        same(f"byte {at}", trial.run(path, talk.head, "--lines", "--again", "2"), wanted)
        same(f"byte {at}", read(path), read(other))

    return f"{trial.each(do, range(len(whole)))} logs"


def altered_in_a_row(trial):
    """A whole line that isn't accepted there is named, and nothing is printed. The first that is wrong counts."""
    log, rows = trial.talk.log, trial.talk.rows
    cases = [
        ([b"\n"], 2, "Csv"),
        ([rows[0], b"\r\n"], 3, "Csv"),
        ([rows[0], rows[0][:-1], rows[1]], 3, "Csv"),
        ([rows[0], b"\x00\n"], 3, "Csv"),
        ([rows[0], b"\x00" * 4096 + b"\n"], 3, "TooLong"),
        ([b"0,0,1,service,Continue,,,,\n"], 2, "What"),
        ([rows[0].replace(b"4930", b"49\x0030")], 2, "Number"),
        ([b"0,,1,switch,Ended,1,,,\n"], 2, "Empty"),
        ([rows[0], rows[2], rows[1]], 4, "Repeated"),
        ([rows[0], rows[2].replace(b",,", b",2,", 1)], 3, "Order"),
        ([*rows[:5], rows[0], b"x\n"], 7, "Order"),
        ([b"0,,2,switch,Ended,,,,\n", b"\n"], 3, "Csv"),
        ([b"0,,2,switch,Ended,,,,\n", b"0,,1,service,Continue,,,,\n"], 3, "What"),
        ([b"0,1,2,switch,Ended,,,,\n"], 2, "Order"),
        ([b"5,,2,switch,Ended,,,,\n", b"4,,2,switch,Ended,,,,\n", b"x\n"], 3, "Order"),
        ([b"5,,2,switch,Ended,,,,\n", b"5,0,2,switch,Ended,,,,\n"], 3, "Repeated"),
    ]
    for lines, row, kind in cases:
        path = trial.new(log + b"".join(lines))
        wanted = 2, b"", f"prepaid: log row {row}: {kind}\n".encode()
        same(f"{lines}", trial.run(path, HEAD + rows[1], "--book", "--again", "0"), wanted)
        same(f"{lines}", read(path), log + b"".join(lines))
    return f"{len(cases)} logs"


def begun_otherwise(trial):
    """A log of another tariff, another setup, another header or other options stays as it is. The options in force
    count, said or left out."""
    talk = trial.talk
    altered = [(b"1000", b"1001"), (b"49,", b"049,"), (b"7,1500", b"7,1501"), (b"x4\n", b"x4\r\n")]
    cases = [(talk.text().replace(*it, 1), []) for it in altered]
    cases += [(talk.text(), it) for it in (["--wanted", "601"], ["--least", "51"], ["--tccd", "49"])]
    begins = [b"x", b"\n", b"\x00", b"log,1,600,50,50\r\n", b"log,2,600,50,50\n", b"log,1,600,50,500\n", HEAD]
    begins += [b"log,1,601,50,50\n", b"log,1,600,50,50\nprefix,from,rate,fee\n"]
    tries = [(log, *it) for log in (talk.logged(4), talk.log) for it in cases]
    tries += [(log, talk.text(), []) for log in (*begins, talk.log[:-1] + b",")]
    for log, text, words in tries:
        path = trial.new(log)
        same(f"{words} {text} and the log {log}", trial.run(path, text, "--book", *words), OTHER)
        same(f"{words}", read(path), log)
    words = ["--tccd", "50", "--least", "050", "--wanted", "600", "--book"]
    same("the same options", trial.run(trial.new(talk.logged(4)), talk.text(4), *words), talk.served(4))
    path = trial.new()
    trial.run(path, HEAD, "--wanted", "900", "--least", "45", "--tccd", "040")
    same("other options", read(path), b"log,1,900,45,40\n" + HEAD)
    return f"{len(tries)} logs"


def long_head(trial):
    """A log has the whole head of an input, of whatever length, and one of another head is another's, however late the two
    differ."""
    more = b"".join(b"subscriber,49180%06d,7\n" % it for it in range(9000)) + b"account,8,5\n"
    talk = Talk(HEAD.replace(b"%%\nmoment", more + b"%%\nmoment"), trial.talk.rows)
    path = trial.new()
    same("a long head", trial.run(path, talk.text(), "--book"), talk.served())
    same("a long head", read(path), talk.logged())
    same("the same again", trial.run(path, talk.head, "--book"), (0, HEADER + talk.end, b""))
    same("another end", trial.run(path, talk.head.replace(b"account,8,5\n", b"account,8,6\n"), "--book"), OTHER)
    same("a long head", read(path), talk.logged())
    return f"{len(talk.head)} bytes"


def why_device(trial, path):
    """What is said of a log that is `Device`, where that is asked for."""
    words = [trial.program, "--explain", "serve", "--log", path]
    ran = subprocess.run(words, input=trial.numbered.text(), capture_output=True, timeout=SECONDS)
    same(path, (ran.returncode, ran.stdout, ran.stderr[: len(DEVICE[2])]), DEVICE)
    return ran.stderr[len(DEVICE[2]) :]


def no_log(trial):
    """What is no file of its own is `Device`, and nothing is printed: a folder, a pipe, a device, no folder for it, and
    a log that another process has, which goes on. Why is said where that is asked for."""
    talk, folder, pipe = trial.numbered, trial.new(), trial.new()
    os.mkdir(folder)
    os.mkfifo(pipe)
    no_file, none = b"the log: it is no plain file\n", b"the log: No such file or directory (os error 2)\n"
    paths = {folder: b"the log: Is a directory (os error 21)\n", pipe: no_file, "/dev/full": no_file, "/dev/null": no_file,
             os.path.join(folder, "none", "log"): none, "": none}
    for path, why in paths.items():
        same(path, trial.run(path, talk.text(), "--book"), DEVICE)
        same(path, why_device(trial, path), why)
    path = trial.new()
    with trial.start(path, "--book") as first:
        send(first, talk.head + talk.rows[0])
        hear("the first", first, HEADER + talk.answers[0])
        same("in use", trial.run(path, talk.text(), "--book"), DEVICE)
        same("in use", why_device(trial, path), b"the log: another process has it\n")
        # a line that is under way isn't cut off by another process
        with open(path, "ab") as file:
            file.write(talk.rows[1][:9])
        same("in use", trial.run(path, talk.text(), "--book"), DEVICE)
        same("in use", read(path), talk.logged(1) + talk.rows[1][:9])
        os.truncate(path, len(talk.logged(1)))
        send(first, b"".join(talk.rows[1:]))
        close("the first", first, (0, talk.answered(1) + talk.end, b""))
    same("in use", read(path), talk.logged())
    trial.goes_on("no longer in use", path, talk, 0)
    return f"{len(paths) + 1} paths"


def unreadable(trial):
    """A log that may not be read, or not be written."""
    who = {"user": "nobody", "group": "nogroup", "extra_groups": []} if os.geteuid() == 0 else {}
    os.chmod(trial.folder, 0o755)
    try:
        subprocess.run([trial.program, "--version"], capture_output=True, check=True, **who)
    except (subprocess.CalledProcessError, OSError, LookupError) as why:
        return f"passed over: nobody can't run the program: {why}"
    for mode in (0o000, 0o222, 0o444):
        path = trial.new(trial.talk.logged(3))
        os.chmod(path, mode)
        same(f"mode {mode:o}", trial.run(path, HEAD, "--book", **who), DEVICE)
        os.chmod(path, 0o600)
        same(f"mode {mode:o}", read(path), trial.talk.logged(3))
    return f"3 logs, by {who.get('user', 'this user')}"


def disk_is_full(trial):
    """A file that may not grow: the row that has no room isn't answered, and the run ends with the books of those
    before it. The next start finds whole lines or a torn one, and goes on."""
    talk = trial.numbered
    whole = len(talk.logged())
    ends = [len(talk.logged(it)) for it in range(len(talk.rows) + 1)]
    sizes = sorted({*range(0, whole, 9), *(it + more for it in ends for more in (-1, 0, 1))})
    for place, size in enumerate(sizes):

        def limit(size=size):
            signal.signal(signal.SIGXFSZ, signal.SIG_IGN)
            resource.setrlimit(resource.RLIMIT_FSIZE, (size, size))

        path = trial.new()
        if place % 2:
            said = trial.run(path, talk.text(), "--book", preexec_fn=limit)
        else:
            said = trial.spoken(path, talk, "--book", preexec_fn=limit)
        if size >= whole:
            same(f"{size} bytes", said, talk.served())
            continue
        same(f"{size} bytes", said[::2], DEVICE[::2])
        same(f"{size} bytes: has a header", said[1] != b"", size >= len(talk.log))
        answered, log = talk.answers_in(said[1]), read(path)
        if answered > talk.count_in(log):
            raise Wrong(f"{size} bytes: {answered} rows are answered, and the log is {log}")
        trial.goes_on(f"after {size} bytes", path, talk, answered)
    return f"{len(sizes)} sizes"


def bad_lines(trial):
    """Lines that aren't accepted leave no trace in the log, those with NUL bytes among them. A torn end may be NUL."""
    talk = trial.talk
    bad = [
        (b"\x00\n", b"Csv"),
        (b"\x00" * 4095 + b"\n", b"Csv"),
        (b"\x00" * 4096 + b"\n", b"TooLong"),
        (b"\n", b""),
        (b"%%\n", b"Csv"),
        (b"402,,1,switch,En\x00ed,,,,\n", b"What"),
        (b"402,\x00,1,switch,Ended,,,,\n", b"Number"),
        (b"402,,1,switch,Ended,,,,\x00\n", b"Empty"),
        (b'"402,,1,switch,Ended,,,,\n', b"Csv"),
        (b"402,99,1,switch,Ended,,,,\n", b"Order"),
        (b"\xff\n", b"Csv"),
    ]
    output, text = HEADER, talk.head
    for number, (row, (line, kind)) in enumerate(zip(talk.rows, bad)):
        text += row + line
        output += talk.answers[number] + (fault(kind, 2 * number + 3) if kind else b"")
    path = trial.new()
    same("bad lines", trial.run(path, text, "--book"), (0, output + talk.end, b""))
    same("bad lines", read(path), talk.logged())
    torn = [b"\x00", b"\x00" * 5000, b"\x00" + talk.rows[3][:-1], talk.rows[3][:-1], b"x"]
    for end in torn:
        path = trial.new(talk.logged(3) + end)
        same("torn", trial.run(path, talk.text(3), "--book"), talk.served(3))
        same("torn", read(path), talk.logged())
    return f"{len(bad)} lines, {len(torn)} torn ends"


def longer_than_an_input(trial):
    """A log may be longer than an input that is read whole, and have more than a million lines: its last one is heard, and
    stays in the file."""
    stray = b"0,,9,switch,Ended,,,,\n"
    recharge, count = b"0,,,operator,Recharge,7,1,,\n", max(MAX_INPUT // len(stray), 1_000_000) + 1
    log = trial.talk.log + stray * count + recharge
    path = trial.new(log)
    rows = b"".join(b"0,%d,,operator,Recharge,7,1,,\n" % number for number in (count, count + 1))
    end = b"%%\naccount 7 opening 1500 available 1502 entries 2\n"
    same("the last lines", trial.run(path, HEAD + recharge, "--again", str(count), "--lines"), (0, HEADER + rows + end, b""))
    same("bytes", len(read(path)), len(log + recharge))
    return f"{len(log)} bytes"


def again(trial):
    """--again N prints the rows from number N on once more, whatever N is, and the rows that are new in any case."""
    talk, count = trial.talk, 0
    for logged in range(len(talk.rows) + 1):
        for first in [*range(logged + 2), 99, 2**64 - 1]:
            path, count = trial.new(talk.logged(logged)), count + 1
            said = trial.run(path, talk.text(logged), "--again", str(first), "--book")
            same(f"{logged} logged, again {first}", said, talk.served(min(first, logged)))
            same(f"{logged} logged, again {first}", read(path), talk.logged())
    for words in (["--again", "x"], ["--again", "-1"], ["--again"], ["--again", str(2**64)], ["--again", "1" * 21]):
        path = trial.new()
        same(f"{words}", trial.run(path, HEAD, *words), (1, b"", b"prepaid: arguments\n"))
        same(f"{words}", os.path.exists(path), False)
    ran = subprocess.run([trial.program, "serve", "--again", "0"], input=HEAD, capture_output=True)
    same("--again alone", (ran.returncode, ran.stdout, ran.stderr), (1, b"", b"prepaid: arguments\n"))
    return f"{count} starts"


def sent_again(trial):
    """Rows that are sent again, one or several at once, in the same run or after a start, are said to be repeated, and
    change nothing. After a start, too, a row may not lie before the last one, and none may be left out."""
    talk = trial.numbered
    path = trial.new()
    with trial.start(path, "--book") as it:
        send(it, talk.head + b"".join(talk.rows[:4]))
        hear("the rows", it, HEADER + talk.answered(0, 4))
        send(it, talk.rows[3])
        hear("one again", it, fault(b"Repeated", 6))
        send(it, b"".join(talk.rows[1:5]))
        hear("several", it, b"".join(fault(b"Repeated", line) for line in (7, 8, 9)) + talk.answers[4])
        close("the end", it, (0, talk.end_of(5), b""))
    same("the log", read(path), talk.logged(5))
    before = b"299,,1,switch,Ended,,,,\n"
    text = talk.head + b"".join([before, talk.rows[6], *talk.rows[:7], before])
    faults = [fault(b"Order", 2), fault(b"Order", 3), *(fault(b"Repeated", line) for line in range(4, 9))]
    output = HEADER + b"".join(faults) + talk.answered(5, 7) + fault(b"Order", 11)
    same("after a start", trial.run(path, text), (0, output, b""))
    same("the log", read(path), talk.logged(7))
    trial.goes_on("the rest", path, talk, 6)
    return "14 rows"


def reader_is_gone(trial):
    """Where nobody reads the output any more, what was accepted is in the log, and the next start goes on behind it."""
    talk = trial.numbered
    for pieces in (talk.rows[1:], [b"".join(talk.rows[1:])]):
        path = trial.new()
        it = trial.start(path, "--book")
        send(it, talk.head + talk.rows[0])
        hear("before", it, HEADER + talk.answers[0])
        it.stdout.close()
        try:
            for text in pieces:
                send(it, text)
            it.stdin.close()
        except BrokenPipeError:
            pass
        with it.stderr:
            same("the end", (it.wait(timeout=SECONDS), it.stderr.read()), (2, b""))
        if talk.count_in(read(path)) < 2:
            raise Wrong("the row that was accepted isn't in the log")
        trial.goes_on("the rest", path, talk, 1)
    return "2 readers"


def one_by_one(trial):
    """All rows at once, one by one, and by pieces of lines: the answer to each whole line comes before more is sent,
    and output and log are the same."""
    talk, at = trial.talk, random.Random(trial.seed)
    text = b"".join(talk.rows)
    cuts = [sorted(at.sample(range(1, len(text)), at.randrange(1, 12))) for _ in range(20)]
    ways = [[text[a:b] for a, b in zip([0, *it], [*it, len(text)])] for it in cuts]
    ways += [[text], talk.rows, [text[it : it + 1] for it in range(len(text))]]
    for way in ways:
        path, sent = trial.new(), b""
        with trial.start(path, "--book") as it:
            send(it, talk.head)
            hear("the header", it, HEADER)
            for piece in way:
                first, sent = sent.count(b"\n"), sent + piece
                send(it, piece)
                hear(f"seed {trial.seed}: {piece}", it, talk.answered(first, sent.count(b"\n")))
            close("the end", it, (0, talk.end, b""))
        same("the log", read(path), talk.logged())
    path = trial.new()
    same("without a last LF", trial.run(path, talk.text()[:-1], "--book"), talk.served())
    same("without a last LF", read(path), talk.logged())
    return f"{len(ways) + 1} ways"


def synced_first(trial):
    """By the calls to the system: a row is written to the log, and synced, before its answer is written; the head and
    the folder of a new log are synced before the header is printed, and so is what a log holds already. Where a sync
    fails, nothing of its rows is printed."""
    if not can_trace():
        return "passed over: strace doesn't run here: apt-get install strace"
    talk = trial.numbered
    for how, near in ((None, False), (speak, False), (None, True)):
        said, calls = traced(trial, trial.new(), talk, speak=how, near=near)
        same("the answer", said, talk.served())
        same("what is synced", prints_what_is_synced(talk, calls)[0], talk.logged())
    for end in (b"", b"x"):
        said, calls = traced(trial, trial.new(talk.logged(3) + end), talk)
        same("the answer", said, (0, HEADER + repeated(3) + talk.answered(3) + talk.end, b""))
        begun = [(name, of) for name, of, *_ in calls if of in ("log", "output")]
        same(f"a log that ends with {end}", begun[:2], [("fsync", "log"), ("write", "output")])
    failed = [sync_fails(trial, call, number) for call in ("fdatasync", "fsync") for number in range(1, 8)]
    return f"{len(talk.rows)} rows, at once and one by one, and {sum(failed)} syncs that failed"


def synced_together(trial):
    """By the calls to the system: rows that come together are synced together, and one that comes alone by itself."""
    if not can_trace():
        return "passed over: strace doesn't run here: apt-get install strace"
    talk, rows = trial.numbered, len(trial.numbered.rows)
    for how, wanted in [(None, 1), (speak, rows)]:
        _, calls = traced(trial, trial.new(), talk, speak=how)
        same("syncs", prints_what_is_synced(talk, calls)[1] - 1, wanted)
    return f"{rows} rows by one sync, and by {rows}"


def prints_what_is_synced(talk, calls):
    """Sees to it that only such rows are answered, in the order of the calls, as are synced; returns what is synced at
    last, and by how many syncs, that of the head among them."""
    logged, synced, printed, count, folders = b"", b"", b"", 0, 0
    for name, of, text, rest in calls:
        is_synced = name in ("fsync", "fdatasync") and "= 0" in rest
        folders += of == "folder" and is_synced
        if of == "log":
            logged += text
            count += is_synced and synced != logged
            synced = logged if is_synced else synced
        elif of == "output":
            printed += text
            is_ready = folders and synced.startswith(talk.log)
            allowed = HEADER + talk.answered(0, talk.count_in(synced)) if is_ready else b""
            if not allowed.startswith(printed.partition(b"%%")[0]):
                raise Wrong(f"printed {printed[-100:]}, and synced {synced[-100:]}, and {folders} folders")
    return synced, count


def sync_fails(trial, call, number):
    """Lets a call fail for the so manyth time; whether there was one. The next start goes on."""
    talk, path = trial.numbered, trial.new()
    said, calls = traced(trial, path, talk, "-e", f"inject={call}:error=EIO:when={number}", speak=speak)
    if not any("INJECTED" in rest for *_, rest in calls):
        return False
    same(f"{call} {number} fails", said[::2], DEVICE[::2])
    prints_what_is_synced(talk, calls)
    trial.goes_on(f"{call} {number} failed", path, talk, talk.answers_in(said[1]))
    return True


TRIES = [cut_at_each_byte, altered_at_each_byte, altered_in_a_row, begun_otherwise, long_head, no_log, unreadable, disk_is_full]
TRIES += [bad_lines, longer_than_an_input, again, sent_again, reader_is_gone, one_by_one, synced_first, synced_together]
TRIES += [next_day, days, other_days, kills]
# Those whose logs lie on a disk, where a row takes the time of a sync.
ON_DISK = [kills]


def main():
    asked = argparse.ArgumentParser(description=__doc__, formatter_class=argparse.RawDescriptionHelpFormatter)
    asked.add_argument("--program", default="bin/prepaid")
    asked.add_argument("--seed", type=int, default=random.SystemRandom().randrange(10**6))
    asked.add_argument("--kills", type=int, default=200)
    asked.add_argument("parts", nargs="*", choices=[[], *(it.__name__ for it in TRIES)], metavar="PART")
    words = asked.parse_args()
    wrong = 0
    for it in [it for it in TRIES if not words.parts or it.__name__ in words.parts]:
        begun = time.monotonic()
        with tempfile.TemporaryDirectory(dir=None if it in ON_DISK else MEMORY) as folder:
            try:
                said = it(Trial(os.path.abspath(words.program), folder, words.seed, words.kills))
            except (Wrong, Fault, subprocess.TimeoutExpired, OSError) as why:
                said, wrong = f"wrong: {why}", wrong + 1
        print(f"serve: {it.__name__.replace('_', ' ')}: {said} ({time.monotonic() - begun:.1f} s)", flush=True)
    return 1 if wrong else 0


if __name__ == "__main__":
    sys.exit(main())
