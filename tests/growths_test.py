#!/usr/bin/env python3
"""Refuses growths of memory: tests/growths_test.py [--program FILE] [NAME ..]

It refuses the Nth growth alone, and all growths from the Nth on, for N = 1, 2, 3 and so on until none is refused: to each
command (growths_commands.py), and to the public calls of crates/refused_growths, which no command makes or shows enough of.
A refused growth ends in its fault, or the run goes on, and its trace says for which messages an account had no memory. Then
all that the run comes to is what the model says of accounts that have none for just these. What a call of the crate comes
to, its status says. A fault is explained wholly or not at all. Where a long run on a terminal runs out of memory, what was
shown of it is taken away before the fault is said. Prints how many growths each has, and for how many messages an account
had no memory in some try.
"""
import argparse
import os
import subprocess
import sys
import tempfile
from concurrent.futures import ThreadPoolExecutor

from explain_test import SHOWN, TAKEN, long_input, on_terminal
from growths_commands import OUT_OF_MEMORY, ROOT, Ended, commands, write

CALLS = f"{ROOT}/crates/refused_growths/out/refused_growths"
SECONDS = 20
# The run on a terminal, and its name among the tries.
LONG_RUN, ON_TERMINAL = "run --workers 1", "run-on-terminal"
# Growths of threads come in any order, so it ends only where so many tries in turn had none refused.
IDLE = 3


class Wrong(Exception):
    """What is wrong with an end."""


class Call:
    """A call of the crate, which says by its status whether all was right."""

    kinds, refused = frozenset(), {}

    def __init__(self, name):
        self.name = name

    def begin(self, folder):
        write(f"{folder}/input", b"")
        return [self.name]

    def is_right(self, ended, _folder):
        """Whether it was answered, or refused and right; and refused again only where a second growth was refused."""
        return ended.status == 0 or ended.status in (2, 3) and ended.refused >= ended.status - 1


def calls():
    """The calls of the crate by their names. It is proved and built where that hasn't been done."""
    if not os.path.exists(CALLS):
        subprocess.run(["rt", "run"], cwd=f"{ROOT}/crates/refused_growths", stdout=subprocess.DEVNULL, check=True)
    printed = subprocess.run([CALLS], capture_output=True, check=True, encoding="utf-8").stdout
    return {name: Call(name) for name in printed.split()}


def refusing(shim, folder, form, number):
    """The environment of a program to which growths are refused."""
    return {**os.environ, f"REFUSE_{form}": str(number), "REFUSED_TO": f"{folder}/refused", "LD_PRELOAD": shim}


def run(shim, program, words, folder, form, number):
    """Runs a program with growths refused."""
    environment = refusing(shim, folder, form, number)
    write(environment["REFUSED_TO"], b"0")
    with open(f"{folder}/input", "rb") as text:
        ended = subprocess.run([program, *words], stdin=text, capture_output=True, env=environment, timeout=SECONDS)
    with open(environment["REFUSED_TO"], encoding="utf-8") as file:
        return Ended(ended.returncode, ended.stdout, ended.stderr, int(file.read()))


def try_form(shim, program, name, it, form):
    """Refuses each growth of a call or a command, and returns how many it has."""
    most, number, idle = 0, 1, 0
    with tempfile.TemporaryDirectory() as folder:
        while idle < IDLE:
            try:
                ended = run(shim, program, it.begin(folder), folder, form, number)
            except subprocess.TimeoutExpired as why:
                raise Wrong(f"{name}: hangs with growth {number} refused ({form})") from why
            if not it.is_right(ended, folder):
                raise Wrong(f"{name}: wrong with growth {number} refused ({form}): {ended}")
            most, idle = (number, 0) if ended.refused else (most, idle + 1)
            number += 1
    return most


def try_both(shim, program, name, it):
    """What is found of a call or a command in both forms."""
    most = max(try_form(shim, program, name, it, form) for form in ("ONE", "FROM"))
    if not most or it.kinds - set(it.refused.values()):
        raise Wrong(f"{name}: {most} growths, and an account had no memory for {it.refused} alone")
    return f"{name}: {most} growths" + f"; messages without memory: {len(it.refused)}" * bool(it.refused)


def try_terminal(shim, program):
    """What is found of a long run on a terminal to which all growths are refused from one on, late in the run."""
    text, number = long_input(program)[0], 1
    with tempfile.TemporaryDirectory() as folder:
        write(f"{folder}/input", text.encode())
        while run(shim, program, LONG_RUN.split(), folder, "FROM", 2 * number).status:
            number *= 2
        # There are as many growths as this and at most as many again, so this one is neither early nor at the end.
        number = number * 3 // 4
        shown, output, status = on_terminal(program, LONG_RUN, text, True, refusing(shim, folder, "FROM", number))
    steps, taken, said = shown.partition(TAKEN)
    if not steps or SHOWN.sub("", steps) or (taken + said, output, status) != (TAKEN + OUT_OF_MEMORY.decode(), "", 2):
        raise Wrong(f"{ON_TERMINAL}: wrong with all growths from {number} on refused: {shown[-200:]!r} {status}")
    return f"{ON_TERMINAL}: more than {number} growths"


def main():
    asked = argparse.ArgumentParser(description=__doc__, formatter_class=argparse.RawDescriptionHelpFormatter)
    asked.add_argument("--program", default=f"{ROOT}/bin/prepaid")
    asked.add_argument("name", nargs="*")
    words = asked.parse_args()
    program, wrong = os.path.abspath(words.program), 0
    tries = {name: (try_both, program, name, it) for name, it in commands(program).items()} | {ON_TERMINAL: (try_terminal, program)}
    if not words.name or set(words.name) - set(tries):
        tries |= {name: (try_both, CALLS, name, it) for name, it in calls().items()}
    with tempfile.NamedTemporaryFile() as shim, ThreadPoolExecutor(len(os.sched_getaffinity(0))) as pool:
        source = f"{ROOT}/tests/refuse_growths.c"
        subprocess.run(["cc", "-shared", "-fPIC", "-O2", "-o", shim.name, source, "-ldl"], check=True)
        for found in [pool.submit(it, shim.name, *of) for it, *of in (tries[name] for name in words.name or tries)]:
            try:
                print(found.result(), flush=True)
            except Wrong as why:
                print(f"growths: {why!s:.2000}")
                wrong += 1
    return 1 if wrong else 0


if __name__ == "__main__":
    sys.exit(main())
