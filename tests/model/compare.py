"""Compares the program with the model: tests/random.sh [--program FILE] [FIRST [COUNT]]."""
import argparse
import collections
import functools
import os
import random
import subprocess
import sys
import tempfile
import time
from concurrent.futures import ProcessPoolExecutor

from .command import command
from .inputs import LOG, make, starts

# A folder in memory for logs, where there is one.
MEMORY = "/dev/shm" if os.path.isdir("/dev/shm") else None


def run(program, words, text):
    ran = subprocess.run([program, *words], input=text, stdout=subprocess.PIPE, stderr=subprocess.PIPE, timeout=120)
    return ran.returncode, ran.stdout, ran.stderr


def compare(program, seed):
    """Returns what was found, and how the two differ where they do."""
    if seed % 10 == 6:
        return compare_starts(program, seed)
    words, text = make(seed)
    try:
        said = run(program, words, text)
    except subprocess.TimeoutExpired:
        return "hangs", f"the program had not ended after 120 seconds: {words}"
    # where several workers meet at an account, the order of their operations is the book's
    book = said[1].decode("latin-1") if said[0] == 0 and "--book" in words else None
    status, output, fault, is_ordered = command(words, text, book)
    wanted = status, output.encode("latin-1"), fault.encode()
    if words[:1] == ["--explain"]:
        # the lines behind the one of the row have words of their own
        lines = said[2].splitlines(keepends=True)
        said = *said[:2], b"".join(lines[: fault.count("\n")])
        words = words[1:]
    if said == wanted and words[:1] == ["rate"] and (apart := in_two_parts(program, seed, words, text, said)):
        return "differs", apart
    if said == wanted or not is_ordered and (said[0], said[2]) == (status, fault.encode()):
        return f"{(words or ['none'])[0]} status {status}", None
    return "differs", difference(f"seed {seed}: {words}", said, wanted)


def compare_starts(program, seed):
    """The same of a service that is started several times with a log: the log, too, has to be the same each time."""
    given, found = starts(seed), []
    with tempfile.TemporaryDirectory(dir=MEMORY) as folder:
        paths = [os.path.join(folder, name) for name in ("program", "model")]
        words, text, log = next(given)
        while True:
            for path in paths:
                put(path, log)
            of_program, of_model = ([path if it == LOG else it for it in words] for path in paths)
            try:
                said = run(program, of_program, text)
            except subprocess.TimeoutExpired:
                return "hangs", f"the program had not ended after 120 seconds: {words}"
            status, output, fault, _ = command(of_model, text)
            wanted = status, output.encode("latin-1"), fault.encode()
            where = f"seed {seed}, start {len(found) + 1}: {words}"
            if said != wanted:
                return "differs", difference(where, said, wanted)
            logs = [taken(path) for path in paths]
            if logs[0] != logs[1]:
                return "differs", difference(f"{where}: the log", *((status, it or b"", it is None) for it in logs))
            found.append(fault.split(" row")[0].strip() or f"status {status}")
            try:
                words, text, log = given.send(logs[1])
            except StopIteration:
                return f"serve with a log, {found[-1]}", None


def put(path, text):
    """Makes a file with this text, or sees to it that there is none."""
    if os.path.exists(path):
        os.remove(path)
    if text is not None:
        with open(path, "wb") as file:
            file.write(text)


def taken(path):
    """What a file holds, or nothing where there is none."""
    if not os.path.exists(path):
        return None
    with open(path, "rb") as file:
        return file.read()


def difference(where, said, wanted):
    """The first lines in which two answers differ, with their statuses and their faults."""
    at = next((i for i, (a, b) in enumerate(zip(said[1], wanted[1])) if a != b), min(len(said[1]), len(wanted[1])))
    lines = [it[1][:at].count(b"\n") for it in (said, wanted)]
    shown = [(it[0], it[1].split(b"\n")[line : line + 1], it[2]) for it, line in zip((said, wanted), lines)]
    return f"{where}\n  program: {shown[0]}\n  model:   {shown[1]}"


def in_two_parts(program, seed, words, text, said):
    """How the rows of a file that is cut in two, each part with the header, differ from those of the whole file, if they do."""
    if said[0] not in (0, 3) or b'"' in text or b"\r" in text or b"\xef" in text:
        return None
    lines = text.split(b"\n")
    above = lines.index(b"%%") + 1
    header = next((it for it in range(above, len(lines)) if lines[it]), None)
    if header is None:
        return None
    cut = random.Random(seed).randrange(header + 1, len(lines) + 1)
    parts = b"\n".join(lines[:cut]) + b"\n", b"\n".join([*lines[: header + 1], *lines[cut:]])
    statuses, (first, second), _ = zip(*(run(program, words, it) for it in parts))
    if (max(statuses), first + second.split(b"\n", 1)[1]) != said[:2]:
        return f"seed {seed}: {words}: in two parts, cut before line {cut + 1}, other rows"
    return None


def main():
    asked = argparse.ArgumentParser(description=__doc__)
    asked.add_argument("--program", default="bin/prepaid")
    asked.add_argument("first", nargs="?", type=int, default=0)
    asked.add_argument("count", nargs="?", type=int, default=500)
    words = asked.parse_args()
    start, found, differences = time.monotonic(), collections.Counter(), []
    tried = functools.partial(compare, os.path.abspath(words.program))
    with ProcessPoolExecutor(len(os.sched_getaffinity(0))) as pool:
        for kind, text in pool.map(tried, range(words.first, words.first + words.count), chunksize=10):
            found[kind] += 1
            if text:
                differences.append(text)
                print(text, flush=True)
    print(", ".join(f"{kind}: {count}" for kind, count in sorted(found.items())), f"({time.monotonic() - start:.0f} s)")
    print(f"random inputs: {words.count - len(differences)} as the model says, {len(differences)} not")
    return 1 if differences else 0


if __name__ == "__main__":
    sys.exit(main())
