#!/usr/bin/env python3
"""Tries the edits of crates/NAME/edits/gate, right behind `rt ci`: tests/gate_edits.py [--root FOLDER] [CRATE..]

`rt ci` has proved each crate, and leaves the libraries in out/rlib. So a check is of the functions that some edits
change, and of those that these call, over these libraries and over what the check before kept. What is refused, and
what is printed, is as in edits.py, which tries all edits and takes nothing for proved. Where out/rlib holds libraries
that `make` has proved, these are brought up to date first (prove.py).
"""
import argparse
import os
import subprocess
import sys
import tempfile
from concurrent.futures import ThreadPoolExecutor

import edits
import prove
from prove import rtlib

# The memory that a check takes at most, in bytes.
NEED = 3 << 30


class Crate(edits.Crate):
    """A crate with the edits that the gate tries."""

    def __init__(self, library, root, room):
        super().__init__(root, library.name, room, edits.FOLDERS[:1])
        self.library = library

    def check(self, tried):
        """Checks the functions that these edits change; all of the crate for an edit that changes none."""
        self.checks += 1
        paths = sorted({it.path() for edit in tried for it in self.functions[edit.name]})
        words = [*self.library.words(["--jobs", "1"], keeps=False), "--incremental", f"{self.room}/kept", *(f"--only={it}" for it in paths)]
        os.makedirs(f"{self.room}/kept", exist_ok=True)
        how = {"stdin": subprocess.DEVNULL, "stdout": subprocess.PIPE, "stderr": subprocess.STDOUT, "errors": "replace"}
        folder = self.lay(tried, edits.PARTS)
        return edits.Verdicts(subprocess.run([*rtlib.guarded(), rtlib.RATTLE, "check", *words], cwd=folder, **how).stdout)


def are_proved(libraries):
    """Whether these libraries are proved: as `rt ci` leaves them, which writes no stamp, or once prove.py has been there."""
    return not any(os.path.exists(prove.stamp_of(it)) for it in libraries) or prove.prove_all(libraries)


def lanes():
    """How many checks there are processors and memory for."""
    return max((it for it in range(1, rtlib.cores() + 1) if rtlib.fits(*[NEED] * it)), default=1)


def try_crate(library, root):
    with tempfile.TemporaryDirectory(prefix="edits-") as room:
        return edits.told(Crate(library, root, room), root)


def main():
    asked = argparse.ArgumentParser(description=__doc__, formatter_class=argparse.RawDescriptionHelpFormatter)
    asked.add_argument("--root", default=prove.ROOT)
    asked.add_argument("names", nargs="*")
    words = asked.parse_args()
    rtlib.guarded()
    listed = [it for it in edits.lists(words.root) if os.path.isdir(f"{words.root}/crates/{it}/edits/gate")]
    unknown = [it for it in words.names if it not in listed]
    if unknown:
        asked.error(f"the gate has no edits of {', '.join(unknown)}")
    known = {}
    crates = [rtlib.Crate(f"{words.root}/crates/{it}", words.root, known) for it in words.names or listed]
    libraries = list(dict.fromkeys(below for it in crates for below in it.below()))
    if not are_proved(libraries):
        return 1
    # Those that take longest first.
    crates.sort(key=prove.size_of, reverse=True)
    with ThreadPoolExecutor(lanes()) as pool:
        return edits.ended(list(pool.map(lambda it: try_crate(it, words.root), crates)))


if __name__ == "__main__":
    sys.exit(main())
