#!/usr/bin/env python3
"""Divides inputs by account, runs the parts, and compares the merged lines with those of the whole run.

tests/divide_test.py [--program FILE] [COUNT] takes the examples, COUNT random inputs that run, and one that is larger
than one run takes. An input that the program refuses must be refused as well when it is divided. merge.py must refuse what is
no line of a run, and a run in parts must take less memory.
"""
import argparse
import csv
import os
import re
import subprocess
import sys
import tempfile

TOP = os.path.join(os.path.dirname(os.path.abspath(__file__)), "..")
sys.path.insert(0, os.path.join(TOP, "examples"))
import divide as dividing
from divide import RUN, Limits, Wrong, divide
from merge import merge
from model.command import TABLES
from model.inputs import make
from pipe_test import most_memory

# The limits of a run, and smaller ones that divide small inputs into many parts.
SMALL = [Limits(RUN.bytes, 1, 10, 1_000), Limits(RUN.bytes, 2, 5, 1_000), Limits(2_000, 3, 100, 60)]
# Rows that are wrong only beside rows of another account: of a setup, and of a script.
WRONG = {
    "Order": ([], ["5,1,start,491,4930", "4,2,start,492,4930"]),
    "Repeated": ([], ["5,1,start,491,4930", "5,1,start,492,4930"]),
    "Unknown": ([], ["5,1,start,491,4930", "5,2,answer,,"]),
    "Repeated subscriber": (["subscriber,491,8"], []),
    "Repeated account": (["account,8,5"], []),
    "Unknown account": (["subscriber,493,9"], []),
    "What": (["accounts,9,5"], []),
}
# Two accounts whose subscribers' numbers are the same but for a zero, in tables with marks, quotes and each end of a line.
FORMS = ('prefix,from,fee,rate\r49,00:00,50,1000\n%%\r\n\ufeffkind,key,value\raccount,7,1500\r\n"subscriber",491,7\r\r'
         'account,8,1500\nsubscriber,0491,8\n%%\n\ufeff"moment",call,what,x,y\r0,1,start,491,4930\r0,2,start,0491,4930\n'
         '100,1,answer,,\r\n100,2,"answer",,\n\n400,1,disconnect,1,\r500,2,disconnect,1,\r').encode()
# How many threads play the parts inside the program.
THREADS = ["1", "2", "4", "64"]
# Files with lines of parts, and what is merged of them, or the beginning of what refuses them behind `merge: FILE: `.
ACCOUNT = "account {} opening 5 available 5 entries 0\n"
CALL = "call {} account {} paid 1 returned\n"
OF_CALL = "call 9 account 7 paid 1 {}\n"
MERGED = [
    (["", ACCOUNT.format(7)], ACCOUNT.format(7)),
    (
        [ACCOUNT.format(10) + CALL.format(11, 10) + CALL.format(9, 10), ACCOUNT.format(9) + CALL.format(11, 9) + CALL.format(100, 9)],
        ACCOUNT.format(9) + ACCOUNT.format(10) + CALL.format(9, 10) + CALL.format(11, 9) + CALL.format(11, 10) + CALL.format(100, 9),
    ),
    ([OF_CALL.format("holding"), OF_CALL.format("forfeit")], OF_CALL.format("forfeit") + OF_CALL.format("holding")),
    ([ACCOUNT.format(7), ACCOUNT.format(8) + ACCOUNT.format(7)], "account 7 is in two parts"),
    ([ACCOUNT.format(7)[:-1]], "no whole line of a run"),
    ([CALL.format(1, 7)[:-1]], "no whole line of a run"),
    ([ACCOUNT.format(7) + "\n"], "no whole line of a run"),
    ([ACCOUNT.format(7), "account 8 yes\n"], "no whole line of a run"),
    ([ACCOUNT.format(7), CALL.format(1, 7).replace("returned", "cut")], "no whole line of a run"),
]
# Faults that a part needn't have: the input is only too long for one run.
TOO_LARGE = ["TooLong", "TooManyRows"]


def run(program, words, path):
    with open(path, "rb") as file:
        ran = subprocess.run([program, *words], stdin=file, capture_output=True, timeout=60)
    return ran.returncode, ran.stdout.decode(), ran.stderr.decode()


def in_parts(program, words, path, folder, count, limits):
    """The merged lines of the parts, or why there are none."""
    paths = divide(path, folder, count, limits)
    for part in paths:
        status, printed, fault = run(program, words, part)
        if status:
            raise Wrong(fault)
        with open(part + ".out", "w") as file:
            file.write(printed)
        exceeds(part, limits)
    return "".join(merge([it + ".out" for it in paths])), len(paths)


def exceeds(path, limits):
    with open(path, "rb") as file:
        text = file.read()
    _, setup, script = text.split(b"%%\n")
    rows = setup.splitlines()[1:]
    takes = len(text), sum(it.startswith(b"account,") for it in rows), len(rows), len(script.splitlines()) - 1
    if any(it > most for it, most in zip(takes, limits)):
        raise SystemExit(f"{path}: {takes} is more than {limits}")


class Trial:
    def __init__(self, program, folder):
        self.program, self.folder, self.made, self.compared, self.parts, self.refused = program, folder, 0, 0, 0, 0

    def new(self, text=None):
        self.made += 1
        path = os.path.join(self.folder, str(self.made))
        if text is not None:
            with open(path, "wb") as file:
                file.write(text)
        return path

    def same(self, name, words, path, count=None, limits=RUN, wanted=None):
        """Compares the merged lines with the whole run's."""
        wanted = wanted or run(self.program, words, path)[1]
        found, parts = in_parts(self.program, words, path, self.new(), count, limits)
        if found != wanted or count not in (None, parts):
            raise SystemExit(f"{name}: {parts} parts, merged:\n{found}the whole:\n{wanted}")
        self.compared += 1
        self.parts += parts

    def inside(self, name, words, path, count, wanted):
        """Compares the lines of runs that are in parts inside the program, by some threads, with those of one that isn't."""
        for threads in THREADS:
            _, found, fault = run(self.program, [*words, "--parts", str(count), "--threads", threads], path)
            if found != wanted:
                raise SystemExit(f"{name}: {count} parts inside the program, {threads} threads:\n{found}{fault}the whole:\n{wanted}")

    def threaded(self, name, words, path):
        """Compares what runs in parts print by different threads, books too."""
        for table in ([], ["--book"], ["--calls"]):
            printed = {run(self.program, [*words, *table, "--parts", "16", "--threads", it], path)[1] for it in THREADS}
            if len(printed) != 1 or not printed.pop():
                raise SystemExit(f"{name} {table}: not the same by {THREADS} threads")

    def refuses(self, name, words, path, fault):
        """Looks whether an input is refused, and says why, once it is divided."""
        try:
            found, _ = in_parts(self.program, words, path, self.new(), 2, RUN)
        except (Wrong, csv.Error) as why:
            self.refused += 1
            return str(why)
        else:
            raise SystemExit(f"{name}: the whole is refused, {fault}and its parts are not:\n{found}")

    def random(self, seed):
        """Whether the seed's input is a run that ends."""
        words, text = make(seed)
        # the same worker serves all calls, or their order at a shared account is open
        if words[:1] != ["run"]:
            return False
        words = ["run", *(it for it in words[1:] if it not in TABLES and not it.startswith("--parts=")), "--workers", "1"]
        for name in ("--workers", "--parts", "--threads"):
            for at in reversed([at for at, it in enumerate(words[:-2]) if it == name]):
                del words[at : at + 2]
        path = self.new(text)
        status, wanted, fault = run(self.program, words, path)
        if status == 0:
            self.same(f"seed {seed}", words, path, 1 + seed % 4, wanted=wanted)
            self.inside(f"seed {seed}", words, path, 1 + seed % 4, wanted)
            try:
                self.same(f"seed {seed}", words, path, limits=SMALL[seed % 2], wanted=wanted)
            except Wrong as small:
                if "is more than one run takes" not in str(small):
                    raise
        elif not any(it in fault for it in ["arguments", "Config", *TOO_LARGE]):
            self.refuses(f"seed {seed}", words, path, fault)
        return status == 0


def merges(trial):
    """Tries what merge.py prints of files, and what it refuses."""
    for texts, wanted in MERGED:
        paths = [trial.new(it.encode()) for it in texts]
        ran = subprocess.run([sys.executable, f"{TOP}/examples/merge.py", *paths], capture_output=True, text=True)
        if wanted.endswith("\n"):
            is_right = (ran.returncode, ran.stdout, ran.stderr) == (0, wanted, "")
        else:
            is_right = (ran.returncode, ran.stdout) == (1, "") and ran.stderr.startswith(f"merge: {paths[-1]}: {wanted}")
        if not is_right:
            raise SystemExit(f"merge.py over {texts}: {ran.returncode} {ran.stdout!r} {ran.stderr!r}, and not {wanted!r}")


def undivided(trial, path):
    """Tries what divide.py refuses of an input that runs, of its folder and of the parts that are asked for."""
    full, missing = trial.new(), trial.new()
    os.mkdir(full)
    with open(os.path.join(full, "part"), "wb"):
        pass
    tries = [
        (path, full, 2, RUN, f"{full} is not empty"),
        (path, trial.new(), 2, SMALL[0], "2 parts are too few"),
        (trial.new(b"a\n%%\nb\n"), trial.new(), 2, RUN, "input: Parts"),
        (trial.new(wrong([], []).replace(b"kind,", b"kinds,")), trial.new(), 2, RUN, "setup row 1: Header"),
        (trial.new(wrong([], []).replace(b"moment,", b"moments,")), trial.new(), 2, RUN, "script row 1: Header"),
    ]
    for *given, wanted in tries:
        try:
            said = divide(*given)
        except Wrong as why:
            said = str(why)
        if said != wanted:
            raise SystemExit(f"divide.py: {said}, and not {wanted}")
    for words, status, wanted in [
        ([tries[2][0], trial.new()], 1, "divide: input: Parts\n"),
        ([missing, trial.new()], 1, f"divide: [Errno 2] No such file or directory: '{missing}'\n"),
        (["--parts", "0", path, trial.new()], 2, "error: --parts is at least 1\n"),
    ]:
        ran = subprocess.run([sys.executable, f"{TOP}/examples/divide.py", *words], capture_output=True, text=True)
        if (ran.returncode, ran.stdout) != (status, "") or not ran.stderr.endswith(wanted):
            raise SystemExit(f"divide.py {words}: {ran.returncode} {ran.stdout!r} {ran.stderr!r}, and not {wanted!r}")


def limits_said():
    """What a run takes, as the formats say it."""
    with open(f"{TOP}/docs/FORMATS.md", encoding="utf-8") as file:
        text = file.read()
    size, = re.search(r"An input has at most (\d+) bytes", text).groups()
    rows = r"A setup has at most (\d+) rows and (\d+) accounts, a script at most (\d+) rows"
    setup, accounts, script = re.search(rows, text).groups()
    return Limits(*map(int, (size, accounts, setup, script)))


def memory(program, words, path):
    """The most memory that a run has taken by the time it prints, in KiB."""
    with open(path, "rb") as file, subprocess.Popen([program, *words], stdin=file, stdout=subprocess.PIPE) as it:
        # more is printed than a pipe holds
        it.stdout.read(1)
        most = most_memory(it.pid)
        it.stdout.read()
    return most


def takes_less(trial):
    """Once a part is played, only what is printed of it is kept."""
    text = subprocess.run([sys.executable, f"{TOP}/examples/generate.py", "--calls", "20000"], capture_output=True, check=True).stdout
    path = trial.new(text)
    whole, parts = (memory(trial.program, ["run", *words], path) for words in (["--workers", "1"], ["--parts", "16"]))
    if 2 * parts > whole:
        raise SystemExit(f"a run in parts takes {parts} KiB, and one in a piece {whole}")


def wrong(setup, script):
    """An input of two accounts with more rows."""
    setup = ["kind,key,value", "account,7,1500", "subscriber,491,7", "account,8,1500", "subscriber,492,8", *setup]
    script = ["moment,call,what,x,y", *script]
    return "\n".join(["prefix,from,fee,rate", "49,00:00,50,1000", "%%", *setup, "%%", *script, ""]).encode()


def large(accounts):
    """An input of one call for each account, and the lines of its run: each call is that of the README."""
    numbers = range(1, accounts + 1)
    setup = "".join(f"account,{it},1500\n" for it in numbers) + "".join(f"subscriber,49{it:08},{it}\n" for it in numbers)
    script = "".join(f"0,{it},start,49{it:08},4930\n" for it in numbers)
    script += "".join(f"100,{it},answer,,\n" for it in numbers) + "".join(f"400,{it},disconnect,1,\n" for it in numbers)
    text = "prefix,from,fee,rate\n49,00:00,50,1000\n%%\nkind,key,value\n" + setup + "%%\nmoment,call,what,x,y\n" + script
    lines = [f"account {it} opening 1500 available 950 entries 3\n" for it in numbers]
    lines += [f"call {it} account {it} paid 550 returned\n" for it in numbers]
    return text.encode(), "".join(lines)


def main():
    asked = argparse.ArgumentParser(description=__doc__)
    asked.add_argument("--program", default="bin/prepaid")
    asked.add_argument("count", nargs="?", type=int, default=60)
    words = asked.parse_args()
    with tempfile.TemporaryDirectory() as folder:
        trial = Trial(os.path.abspath(words.program), folder)
        if RUN != limits_said():
            raise SystemExit(f"divide.py: a run takes {RUN}, and by the formats {limits_said()}")
        merges(trial)
        takes_less(trial)
        one = ["run", "--workers", "1"]
        for name in ("evening", "call", "free_minute", "expiring"):
            path = os.path.join(TOP, "examples", f"{name}.txt")
            wanted = run(trial.program, one, path)[1]
            for count in (1, 2, 3, 9):
                trial.same(name, one, path, count)
                trial.inside(name, one, path, count, wanted)
            trial.threaded(name, one, path)
        trial.same("marks, quotes and ends of lines", one, trial.new(FORMS), 2)
        for limits in SMALL:
            trial.same(f"evening {limits}", one, os.path.join(TOP, "examples", "evening.txt"), limits=limits)
        # parts that are written piece by piece
        held, dividing.HELD = dividing.HELD, 1_000
        trial.same("evening, piece by piece", one, os.path.join(TOP, "examples", "evening.txt"), 3)
        dividing.HELD = held
        for name, rows in WRONG.items():
            path = trial.new(wrong(*rows))
            fault = run(trial.program, one, path)[2]
            if name.split()[0] not in fault:
                raise SystemExit(f"{name}: {fault}")
            if (said := trial.refuses(name, one, path, fault)) != fault.removeprefix("prepaid: ").strip():
                raise SystemExit(f"{name}: {said}, and not {fault}")
        evening = os.path.join(TOP, "examples", "evening.txt")
        undivided(trial, evening)
        records = {run(trial.program, ["run", "--calls", "--workers", it], evening) for it in ("1", "2", "16")}
        if len(records) != 1:
            raise SystemExit("the records of the evening aren't the same with 1, 2 and 16 workers")
        with open(evening, "rb") as file:
            text = file.read().replace(b"%%", b"".join(b"7%03d,00:00,0,0\n" % it for it in range(100)) + b"%%", 1)
        trial.same("a long tariff", one, trial.new(text), limits=Limits(3_300, 9, 99, 999))
        text, lines = large(2_500)
        path = trial.new(text)
        if run(trial.program, one, path)[2] != "prepaid: setup row 1002: TooManyRows\n":
            raise SystemExit("a run takes more than 1000 accounts")
        trial.same("2500 accounts", one, path, 3, wanted=lines)
        trial.same("2500 accounts", one, path, wanted=lines)
        # the first seeds have inputs of 16 MiB, which say nothing here
        seed, ran = 8, 0
        while ran < words.count:
            seed += 1
            ran += trial.random(seed)
    print(f"divide: {trial.compared} inputs in {trial.parts} parts as in one run, {trial.refused} refused as by one run ({seed} seeds)")


if __name__ == "__main__":
    main()
