#!/usr/bin/env python3
"""The model of prepaid, by the same words and input: tests/model.py price --fee 50 --before 1000 < examples/reports.csv

`serve` answers each line as it comes, as the program does, so it may stand at the other end of a pipe too.
"""
import os
import sys

from model.command import command


def write(text):
    """Prints a text at once."""
    left = text.encode("latin-1")
    while left:
        left = left[os.write(1, left) :]


if __name__ == "__main__":
    is_live = sys.argv[1:2] == ["serve"]
    try:
        text = sys.stdin.buffer if is_live else sys.stdin.buffer.read()
        status, output, fault, _ = command(sys.argv[1:], text, write=write)
        write(output)
    except BrokenPipeError:
        sys.exit(2)
    sys.stderr.write(fault)
    sys.exit(status)
