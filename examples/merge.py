#!/usr/bin/env python3
"""Merges what `prepaid run` printed of the parts of an input: examples/merge.py FILE..

The lines are those that one run of the whole input prints: accounts ascending, then calls by rising number, and a call
of several accounts in the order of the accounts. The lines of the parts are taken, no books.
"""
import re
import sys

ACCOUNT = re.compile(r"account (\d+) opening (\d+) available (\d+) entries (\d+)\n")
CALL = re.compile(r"call (\d+) account (\d+) paid (\d+) (?:returned|forfeit|holding)\n")


class Wrong(Exception):
    """Why files are not merged."""


def merge(paths):
    """The lines of the parts in the order of one run."""
    accounts, calls = {}, []
    for path in paths:
        with open(path) as file:
            for line in file:
                if found := ACCOUNT.fullmatch(line):
                    number = int(found[1])
                    if number in accounts:
                        raise Wrong(f"{path}: account {number} is in two parts")
                    accounts[number] = line
                elif found := CALL.fullmatch(line):
                    calls.append((int(found[1]), int(found[2]), line))
                else:
                    raise Wrong(f"{path}: no whole line of a run: {line!r}")
    yield from (accounts[it] for it in sorted(accounts))
    yield from (line for _, _, line in sorted(calls))


def main():
    try:
        sys.stdout.writelines(merge(sys.argv[1:]))
    except (Wrong, OSError) as fault:
        print(f"merge: {fault}", file=sys.stderr)
        return 1
    return 0


if __name__ == "__main__":
    sys.exit(main())
