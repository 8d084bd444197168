#!/usr/bin/env python3
"""Runs the program over worked rows: tests/program_test.py [--program FILE] [NAME ...]

Each module of tests/program but `rows` has a function `rows`, which gives the words of a command line, an input, and the
status, the output and the text on the error writer that must come of them; or a list of such rows of the same words and
input, of which one must be right. NAME is such a module, as `prices`; without one all are run. A process has 60 seconds. In
the version that a program whose name ends in -unproved prints, ` (unproved)` is passed over.
"""
import argparse
import importlib
import os
import re
import subprocess
import sys
from concurrent.futures import ThreadPoolExecutor

ROOT = os.path.dirname(os.path.dirname(os.path.abspath(__file__)))
FOLDER = f"{ROOT}/tests/program"
SECONDS = 60


def bytes_of(text):
    return text.encode() if isinstance(text, str) else text


def is_as_wanted(is_there, wanted):
    """Whether this is what is wanted, or fits it as a whole, where that is a pattern."""
    return bool(wanted.fullmatch(is_there)) if isinstance(wanted, re.Pattern) else is_there == bytes_of(wanted)


def difference(found, row):
    """What differs of a row, None where nothing does."""
    for what, is_there, wanted in zip(("faults", "output", "status"), found, (row.faults, row.output, row.status)):
        if not is_as_wanted(is_there, wanted):
            return f"{what} {is_there!r:.2000}, not {wanted!r:.2000}"
    return None


def wrong(program, row):
    """What differs of a row, or of each row of a list; None where nothing does."""
    rows = row if isinstance(row, list) else [row]
    line, text = rows[0].words, rows[0].input
    # An empty word is between two blanks, and an empty line has no word.
    words = line.split(" ") if line else []
    ran = subprocess.run([program, *words], input=bytes_of(text), capture_output=True, timeout=SECONDS, check=False)
    output = ran.stdout.replace(b" (unproved)", b"") if program.endswith("-unproved") else ran.stdout
    differences = [difference((ran.stderr, output, ran.returncode), row) for row in rows]
    return None if None in differences else f"{line!r} over {text!r:.2000}: {'; or '.join(differences)}"


def main():
    sys.path.insert(0, FOLDER)
    modules = sorted(name[:-3] for name in os.listdir(FOLDER) if name.endswith(".py") and name != "rows.py")
    parser = argparse.ArgumentParser(description=__doc__.split("\n")[0])
    parser.add_argument("--program", default=f"{ROOT}/bin/prepaid")
    parser.add_argument("names", nargs="*", metavar="NAME", help=f"one of {', '.join(modules)}")
    given = parser.parse_args()
    program, count, failed = os.path.abspath(given.program), 0, 0
    with ThreadPoolExecutor(os.cpu_count()) as pool:
        for name in given.names or modules:
            rows = list(importlib.import_module(name).rows())
            count += len(rows)
            for said in filter(None, pool.map(lambda row: wrong(program, row), rows)):
                print(f"program: {name}: {said}")
                failed += 1
    print(f"program: {count - failed} rows as wanted, {failed} not")
    return 1 if failed or not count else 0


if __name__ == "__main__":
    sys.exit(main())
