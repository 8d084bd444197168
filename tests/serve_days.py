"""A service day after day: the setup of the next day, and the script that makes it."""
import glob
import os
import random
import re
import subprocess
import time

from model.command import MAX_INPUT, do_run
from model.inputs import runs
from model.tables import Fault, read_setup
from pipe_test import ROOT, SECONDS
from serve_trial import HEAD, HEADER, OTHER, modelled, read, same

# The commands of day.sh that may be the last before it is cut off.
COMMANDS = ["awk", "cat", "date", "mkdir", "mktemp", "mv", "sed", "sync", "tail"]
# An account that a setup got behind the beginning of its day.
ADDED = 4294967294
# A call that talks for 85 seconds, of which its first grant covers all where 90 are wanted.
LONG_CALL = b"".join(b"%d,,1,switch,%s,\n" % it for it in [
    (0, b"InitialDP,491700001,4930,"), (100, b"EventReportBCSM,answer,,notify"), (950, b"ApplyChargingReport,inactive,n,850"),
    (950, b"EventReportBCSM,disconnect,1,interrupted"), (952, b"Ended,,,")])
SHIM = """#!/bin/sh
echo "NAME" >> "$CALLS"
if [ "$(wc -l < "$CALLS")" -eq "$CUT" ]; then kill -9 "$PPID"; exit 1; fi
PATH=${PATH#*:} exec NAME "$@"
"""
# Programs: the one that is tried, one whose audit finds an account wrong, and one that ends as it prints a book.
PLAIN = '#!/bin/sh\nexec PROGRAM "$@"\n'
SAYS_NO = '#!/bin/sh\n[ "$1" != audit ] || { echo account 7 no; exit 3; }\nexec PROGRAM "$@"\n'
IS_CUT = '#!/bin/sh\ncase "$*" in *--book) PROGRAM "$@" | head -n -1; exit 9 ;; esac\nexec PROGRAM "$@"\n'
# What is kept of a day.
KEPT = ["audit.txt", "book.csv", "day.log", "next.csv", "setup.csv"]
# A recharge that is over what an account may have, and its row in a book.
OVER = b"0,,,operator,Recharge,7,1000000000000000,1000000000000,\n"
OVER_ENTRY = b"7,0,credit,,1000000000000000,1000000000000,,,,,,over,,,1500\n"


def next_day(trial):
    """By the setup of the next day each account opens with what was available to it, so that the sums are the same, and
    with its last moment, and one that the book hasn't as the setup says. A call that holds money keeps such a setup from being
    made. Lines of a setup end with LF or CR LF."""
    days, held, seed, texts = 0, 0, 0, [read(f"{ROOT}/examples/{it}.txt") for it in ("evening", "expiring", "call")]
    texts[-1] = texts[-1].replace(b"account,7", b"account,04294967295").replace(b"0001,7", b"0001,4294967295")
    while days < 20:
        seed += 1
        text = texts.pop() if texts else runs(random.Random(seed))[1]
        try:
            run, _ = do_run({"--workers": "1"}, text, None)
        except Fault:
            continue
        tariff, setup, _ = text.split(b"%%\n")
        rows = b"".join(it.encode() + b"\n" for it in run.traced if it.split(",")[3] != "service")
        status, output, line = trial.run(trial.new(), b"%%\n".join([tariff, setup, HEADER + rows]), "--book")
        same(f"seed {seed}: the book", (status, output.partition(b"%%\n")[2], line), (0, run.book().encode(), b""))
        setup += b"account,%d,50\n" % ADDED
        paths = trial.new(setup.replace(b"\n", b"\r\n") if seed % 2 else setup), trial.new(run.book().encode())
        ran = subprocess.run(["awk", "-f", f"{ROOT}/examples/next_setup.awk", *paths], capture_output=True, check=False)
        calls = ((account, call, it) for account, of in run.accounts.items() for call, it in of.calls.items())
        named = sorted(f"call {call} of account {account} holds money" for account, call, it in calls if it.is_open)
        same(f"seed {seed}", (ran.returncode, sorted(ran.stderr.decode().splitlines())), (bool(named), named))
        if named:
            held += 1
            continue
        accounts, subscribers = read_setup(ran.stdout)
        left = {number: it.available() for number, it in run.accounts.items()} | {ADDED: 50}
        same(f"seed {seed}: the sum", sum(it[0] for it in accounts.values()), sum(left.values()))
        kept = {number: it.until for number, it in run.accounts.items()}
        same(f"seed {seed}", accounts, {number: (left[number], kept.get(number)) for number in left})
        same(f"seed {seed}", subscribers, run.subscribers)
        lines = "".join(f"account {it} opening {left[it]} available {left[it]} entries 0\n" for it in sorted(left))
        said = trial.run(trial.new(), b"%%\n".join([tariff, ran.stdout, HEADER]), "--lines")
        same(f"seed {seed}: the next day", said, (0, HEADER + b"%%\n" + lines.encode(), b""))
        days += 1
    return f"{days} days, and {held} with calls that hold money"


def days(trial):
    """examples/day.sh, which is cut off at each of its commands and called again: its messages count once, and the next
    day opens with what this one left."""
    talk, shims = trial.numbered, trial.new()
    os.mkdir(shims)
    for name in COMMANDS:
        put_shim(f"{shims}/{name}", SHIM.replace("NAME", name))
    left = modelled(["--lines"], talk.text())[1].split(b" available ")[1].split()[0]
    setup = b"kind,key,value,until\naccount,7,%s,1000\nsubscriber,491700001,7,\n" % left
    head = b"%%\n".join([HEAD.split(b"%%\n")[0], setup, HEADER])
    cut = calls = 0
    while calls >= cut:
        cut, folder = cut + 1, new_day(trial)
        called = day(trial, shims, folder, b"".join(talk.rows), cut)[1]
        calls = len(called)
        if read(f"{folder}/head.txt") != head:
            rows = [] if kept_in(folder) else talk.rows
            same(f"cut at {cut}, again", day(trial, shims, folder, b"".join(rows), 0)[0], 0)
        same(f"cut at {cut}", read(f"{folder}/head.txt"), head)
        # a day without messages may follow
        same(f"cut at {cut}", [it for it in kept_in(folder) if not it.endswith(HEADER)], [talk.logged()])
    # all is on the disk before a name is changed
    same("the last commands", called[called.index(b"sync") - 2 :], b"cat awk sync mkdir date mktemp mv mv".split())
    (kept,) = os.listdir(f"{folder}/kept")
    same("what is there", (sorted(os.listdir(folder)), sorted(os.listdir(f"{folder}/kept/{kept}"))), (["head.txt", "kept"], KEPT))
    same("when it was kept", is_now(kept.rpartition(".")[0]), True)
    return f"{cut - 1} cuts"


def other_days(trial):
    """A day that goes on behind its log, has other options, or is long; and one that can't be ended, which goes on: its
    head is another, an account is wrong by the audit, or a call holds money."""
    talk, shims, folder = trial.numbered, trial.new(), new_day(trial)
    text = b"".join(talk.rows[3:])
    put(f"{folder}/day.log", talk.logged(3))
    same("from message 1 on", day(trial, shims, folder, text, 0, "1")[2], HEADER + talk.answered(1))
    folder, examples = new_day(trial), trial.new()
    os.mkdir(examples)
    for name in ("day.sh", "next_setup.awk"):
        script = read(f"{ROOT}/examples/{name}").replace(b"serve --log", b"serve --wanted 900 --least 45 --tccd 40 --log")
        put(f"{examples}/{name}", script)
    same("with other options", day(trial, shims, folder, LONG_CALL, 0, examples=examples)[0], 0)
    same("with other options", re.findall(b"^account,.*", read(f"{folder}/head.txt"), re.M), [b"account,7,33,"])
    same("with other options", b",900,45,0,0,granted," in kept_in(folder, "book.csv")[0], True)
    folder = new_day(trial)
    same("a long day", day(trial, shims, folder, OVER * (MAX_INPUT // len(OVER_ENTRY) + 1), 0)[0], 0)
    same("a long day", len(kept_in(folder, "book.csv")[0]) > MAX_INPUT, True)
    same("a long day", kept_in(folder, "audit.txt"), [b"account 7 yes\n"])
    other_head = HEAD.replace(b"1000", b"1001")
    for what, head, count, script, status in [
        ("another head", other_head, 3, PLAIN, OTHER[0]),
        ("an account is wrong", HEAD, len(talk.rows), SAYS_NO, 3),
        ("a book is cut", HEAD, len(talk.rows), IS_CUT, 9),
        ("a call holds money", HEAD, 4, PLAIN, 1),
    ]:
        folder, program = new_day(trial, head), trial.new()
        put(f"{folder}/day.log", talk.logged(3))
        put_shim(program, script.replace("PROGRAM", trial.program))
        ended = day(trial, shims, folder, b"".join(talk.rows[3:count]), 0, program=program)[0]
        same(what, (ended, read(f"{folder}/head.txt"), kept_in(folder)), (status, head, []))
        same(what, read(f"{folder}/day.log"), talk.logged(count))
    return "7 days"


def is_now(text):
    """Whether a date and a time are those of now, by a clock that may have been put back or forward."""
    return abs(time.time() - time.mktime(time.strptime(text, "%Y-%m-%dT%H:%M:%S"))) < 2 * 3600


def new_day(trial, head=HEAD):
    """A folder with the head of a day."""
    folder = trial.new()
    os.mkdir(folder)
    put(f"{folder}/head.txt", head)
    return folder


def put(path, text):
    with open(path, "wb") as file:
        file.write(text)


def put_shim(path, text):
    with open(path, "w", encoding="ascii") as file:
        file.write(text)
    os.chmod(path, 0o755)


def kept_in(folder, name="day.log"):
    """The logs of the days that are over, or what else is kept of them."""
    return list(filter(None, (read(it) for it in sorted(glob.glob(f"{folder}/kept/*/{name}")))))


def day(trial, shims, folder, text, cut, *first, examples=f"{ROOT}/examples", program=None):
    """Lets a day pass, cut off at its so manyth command: its status, the commands that it called, what it printed."""
    path, calls = f"{shims}:{os.environ['PATH']}", trial.new(b"")
    more = {"PATH": path, "PREPAID": program or trial.program, "CALLS": calls, "CUT": str(cut)}
    words, environment = ["bash", f"{examples}/day.sh", folder, *first], {**os.environ, **more}
    ran = subprocess.run(words, input=text, capture_output=True, env=environment, timeout=SECONDS)
    return ran.returncode, read(calls).split(), ran.stdout
