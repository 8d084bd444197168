#!/usr/bin/env python3
"""Times programs side by side over one input.

usage: bench/beside.py TURNS INPUT PROGRAM [WORD..] [-- PROGRAM [WORD..]]..

Runs the programs in turn, so many times over, and prints for each the least processor time of a run and the most memory,
and both as ratios to those of the last, which is the plain one. All must print the same. Memory below the 14 MiB or so
that this program has itself isn't seen.
"""
import os
import subprocess
import sys
import tempfile


def parts(words):
    """The command lines between the words --."""
    lines = [[]]
    for it in words:
        if it == "--":
            lines.append([])
        else:
            lines[-1].append(it)
    return lines


def once(words, path, out):
    """Runs a command line: its processor time in milliseconds, and its most memory in MiB."""
    with open(path, "rb") as text, open(out, "wb") as printed:
        started = subprocess.Popen(words, stdin=text, stdout=printed)
        _, status, used = os.wait4(started.pid, 0)
        started.returncode = os.waitstatus_to_exitcode(status)
    if started.returncode:
        sys.exit(f"{' '.join(words)}: status {started.returncode}")
    return 1000 * (used.ru_utime + used.ru_stime), used.ru_maxrss / 1024


def main():
    turns, path, lines = int(sys.argv[1]), sys.argv[2], parts(sys.argv[3:])
    least, most = [float("inf")] * len(lines), [0.0] * len(lines)
    with tempfile.TemporaryDirectory() as folder:
        for _ in range(turns):
            for at, words in enumerate(lines):
                time, memory = once(words, path, f"{folder}/{at}")
                least[at], most[at] = min(least[at], time), max(most[at], memory)
            for at, words in enumerate(lines):
                if subprocess.run(["cmp", "-s", f"{folder}/{at}", f"{folder}/{len(lines) - 1}"]).returncode:
                    sys.exit(f"{' '.join(words)}: prints something else")
    for words, time, memory in zip(lines, least, most):
        name = " ".join([os.path.basename(words[0]), *words[1:]])
        print(f"  {name}: {time:.2f} ms, {time / least[-1]:.2f} of the plain program's; {memory:.1f} MiB, {memory / most[-1]:.2f}")


if __name__ == "__main__":
    main()
