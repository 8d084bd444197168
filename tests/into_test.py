#!/usr/bin/env python3
"""Tries `run --into`: tests/into_test.py [--program FILE]

The four files of a folder are what the same run prints with one worker, and of one and the same run with two. Where the
words, the input, a file or the folder has a fault, each file is as it was, byte for byte, and no other file is left. By the
calls to the system all four are on the disk before the first gets its name.
"""
import argparse
import itertools
import os
import re
import resource
import subprocess
import sys
import tempfile

ROOT = os.path.dirname(os.path.dirname(os.path.abspath(__file__)))
sys.path.insert(0, f"{ROOT}/examples")
from devices_test import Devices
from run_rows import Wrong
from run_tables import read_run
from serve_trial import can_trace

SECONDS = 60
OUTPUTS = {"lines.txt": [], "book.csv": ["--book"], "calls.csv": ["--calls"], "trace.csv": ["--trace"]}
WORDS = b"prepaid: arguments\n"
FAILED = b"prepaid: into: Device\n"
# A run of two workers in which calls of an account meet in another order each time.
DENSE = ["--calls", "2000", "--rate", "60000"]


def run(program, words, text, **more):
    done = subprocess.run([program, *words], input=text, capture_output=True, timeout=SECONDS, **more)
    return done.returncode, done.stdout, done.stderr


def example(name):
    with open(f"{ROOT}/examples/{name}.txt", "rb") as file:
        return file.read()


def files_in(folder):
    """The text of each file of a folder, and None for a folder in it."""
    found = {}
    for name in os.listdir(folder):
        if os.path.isdir(f"{folder}/{name}"):
            found[name] = None
            continue
        with open(f"{folder}/{name}", "rb") as file:
            found[name] = file.read()
    return found


def printed(program, text, *more):
    """What one worker prints of each output."""
    tables = {"lines.txt", "book.csv"}
    return {name: run(program, ["run", "--workers", "1", *words, *([] if name in tables else more)], text)[1]
            for name, words in OUTPUTS.items()}


def same(what, found, wanted):
    if found != wanted:
        raise SystemExit(f"into: {what}: {str(found)[:600]} in place of {str(wanted)[:600]}")


def right(program, folder):
    """The files of several runs, each in the place of those of the run before."""
    for name in OUTPUTS:
        # as of a run that was killed, longer than what is written now
        with open(f"{folder}/.{name}.new", "wb") as file:
            file.write(b"x" * 1_000_000)
    for name in ["evening", "call", "eight", "expiring", "free_minute"]:
        text = example(name)
        for clock in [[], ["--clock"]]:
            words = ["run", "--into", folder, "--workers", "1", *clock]
            same(f"{name}", run(program, words, text), (0, b"", b""))
            same(f"the files of {name}", files_in(folder), printed(program, text, *clock))


def one_run(program, folder):
    """With two workers the files are of one run."""
    made = subprocess.run([sys.executable, f"{ROOT}/examples/generate.py", *DENSE], capture_output=True, check=True).stdout
    seen = set()
    for _ in range(6):
        same("two workers", run(program, ["run", f"--into={folder}"], made), (0, b"", b""))
        try:
            read_run(folder)
        except Wrong as why:
            raise SystemExit(f"into: two workers: {why}")
        seen.add(files_in(folder)["book.csv"])
    return len(seen)


def refused(program, folder):
    """What an account refuses is said as of a run that is printed."""
    text = example("call") + b"500,,recharge,7,0\n"
    line = b"prepaid: refused: 1 OutOfRange\n"
    same("a recharge of 0", run(program, ["run", "--into", folder], text), (0, b"", line))
    same("a recharge of 0, printed", run(program, ["run"], text)[2], line)


def no_more(size):
    """No file may have more bytes than these; what is beyond fails as it is written."""
    return lambda: resource.setrlimit(resource.RLIMIT_FSIZE, (size, size))


def faults(program, folder):
    """Nothing is changed by a fault."""
    text, old = example("evening"), {name: f"old {name}\n".encode() for name in [*OUTPUTS, "other.txt"]}
    for name, kept in old.items():
        with open(f"{folder}/{name}", "wb") as file:
            file.write(kept)
    wrong = text.replace(b"answer", b"reply", 1)
    into = ["--into", folder]
    trials = [([*into, *words], text, 1, WORDS) for words in (["--book"], ["--calls"], ["--trace"], ["--parts", "1"], into)]
    trials += [(["--into"], text, 1, WORDS), ([*into, "--wanted", "1"], text, 1, b"prepaid: input: Config\n"),
               (into, wrong, 1, b"prepaid: script row"), (into, b"", 1, b"prepaid: input: Parts\n"),
               ([*into, "--workers", "0"], text, 2, b"prepaid: run: Workers\n")]
    trials += [(["--into", it], text, 2, FAILED) for it in ("", f"{folder}/none", f"{folder}/lines.txt", f"{folder}/lines.txt/x")]
    for words, given, status, line in trials:
        code, output, said = run(program, ["run", *words], given)
        same(words, (code, output, said[: len(line)]), (status, b"", line))
        same(f"the files behind {words}", files_in(folder), old)
    whole = printed(program, text)
    for size in sorted({0, 1, *(len(it) - 1 for it in whole.values())}):
        ended = run(program, ["run", *into], text, preexec_fn=no_more(size), restore_signals=False)
        same(f"files of {size} bytes at most", ended, (2, b"", FAILED))
        same(f"the files behind {size} bytes at most", files_in(folder), old)
    if os.geteuid():
        os.chmod(folder, 0o555)
        same("a folder that may not be written", run(program, ["run", *into], text), (2, b"", FAILED))
        os.chmod(folder, 0o755)
        same("the files of a folder that may not be written", files_in(folder), old)


def no_name(program, folder):
    """A file that can't have its name: it and those behind it stay as they were, and those in front are new."""
    text = example("evening")
    os.mkdir(f"{folder}/calls.csv")
    with open(f"{folder}/trace.csv", "wb") as file:
        file.write(b"old\n")
    same("a folder in the place of a file", run(program, ["run", "--workers", "1", "--into", folder], text), (2, b"", FAILED))
    whole = printed(program, text)
    wanted = {"lines.txt": whole["lines.txt"], "book.csv": whole["book.csv"], "calls.csv": None, "trace.csv": b"old\n"}
    same("the files beside it", files_in(folder), wanted)


def devices_fail(program, folder):
    """Where a file can't be synced, all files are as they were. Where one can't have its name, it and those behind it are,
    and those in front of it are new. No other name is left."""
    text, old = example("evening"), {name: f"old {name}\n".encode() for name in OUTPUTS}
    whole = printed(program, text)
    with tempfile.TemporaryDirectory() as other:
        devices = Devices(program, other)
        for call, number in itertools.product(("fsync", "rename"), range(1, len(OUTPUTS) + 1)):
            for name, kept in old.items():
                with open(f"{folder}/{name}", "wb") as file:
                    file.write(kept)
            failing = devices.failing(failed_call=call, failed_number=number)
            ended = run(program, ["run", "--workers", "1", "--into", folder], text, env=failing)
            same(f"{call} {number} fails", ended, (2, b"", FAILED))
            new = list(OUTPUTS)[: number - 1] if call == "rename" else []
            same(f"the files behind {call} {number}", files_in(folder), {it: (whole if it in new else old)[it] for it in OUTPUTS})


def synced_first(program, folder):
    """By the calls to the system: each file is synced before the first gets its name."""
    if not can_trace():
        print("into: no call was looked at: strace doesn't run here: apt-get install strace")
        return
    words = ["strace", "-f", "-y", "-o", f"{folder}/calls", "-e", "trace=fsync,fdatasync,rename,renameat,renameat2", program]
    same("a traced run", run(words[0], [*words[1:], "run", "--into", folder], example("call")), (0, b"", b""))
    calls = files_in(folder)["calls"].decode()
    done = re.findall(r"/([^/>\"]+)[>\"][^/]*\) += 0$", calls, re.M)
    same("the calls", done, [*(f".{name}.new" for name in OUTPUTS), *OUTPUTS])


def main():
    asked = argparse.ArgumentParser(description=__doc__.split("\n")[0])
    asked.add_argument("--program", default=f"{ROOT}/bin/prepaid")
    program = os.path.abspath(asked.parse_args().program)
    for trial in (right, one_run, refused, faults, no_name, devices_fail, synced_first):
        with tempfile.TemporaryDirectory() as folder:
            told = trial(program, folder)
        if trial is one_run:
            orders = told
    print(f"into: the four files are of one run, in {orders} of 6 orders with two workers, and no fault changes a file")
    return 0


if __name__ == "__main__":
    sys.exit(main())
