#!/usr/bin/env python3
"""Tries prove.py on a repository of three libraries: it proves those that changed and those above them, and no other.

A library of which a body, or that of a library below, has changed isn't taken for proved; nor is one without a stamp, or
one that was proved before a library below it. One that the prover refuses has none, and the status is 1. What tries the
edits of the gate proves the same. What the toolchain says is tried of two libraries; else a program is in its place, which
refuses the false clause alone. So it is of a program over a library: where that isn't proved the status is 1, and the one
that was built before stays. What the toolchain writes beside is where TMPDIR says, and is removed.
"""
import os
import re
import shutil
import subprocess
import sys
import tempfile

from quick import link_all, write_script

TESTS = os.path.dirname(os.path.abspath(__file__))
LIBRARY = """//! A sample.
#![tactic(auto)]

ghost use Rattle.std.specs.Prelude.{{◌+◌, ◌≡◌, ◌≤◌}};

/// More.
pub fn {name}(x: u32) -> u32
    requires small {{ x ≤ 1000 }}
    ensures value {{ result ≡ x + {more} }}
{{
    x + 1
}}
"""
OPPOSITE = ("    x + 1", "    1 + x")
# In place of the toolchain: it refuses a false clause, and makes the folder that it is to write. It leaves a file where it
# is told to write what is removed, and refuses another place than was asked for.
PLAYED = """#!/usr/bin/env python3
import glob, os, sys
folder = os.environ["TMPDIR"]
open(f"{folder}/left", "w").close()
if not folder.startswith(os.environ["ASKED"]):
    sys.exit("logic=not-proved")
for path in glob.glob("src/*.rt"):
    with open(path, encoding="utf-8") as it:
        if "x + 2" in it.read():
            sys.exit("logic=not-proved")
os.makedirs(sys.argv[sys.argv.index("-o") + 1], exist_ok=True)
print("logic=proved functions=1")
"""
# In place of the linker: the program says when it was linked.
LINKER = '#!/bin/sh\nwhile [ "$1" != -o ]; do shift; done\ncp src/main.rt "$2"\n'
# Calls prove.py with the toolchain that the last word names.
CALL = "import sys, prove; prove.rtlib.RATTLE = sys.argv.pop() or prove.rtlib.RATTLE; sys.exit(prove.main())"
# The same with the linker beside it.
PROGRAM_CALL = "import os, sys, prove; prove.rtlib.KIT = os.path.dirname(sys.argv[-1]); " + CALL
# The same of what tries the edits of the gate, up to where it tries them.
GATE_CALL = """
import sys, gate_edits
gate_edits.rtlib.RATTLE = sys.argv.pop() or gate_edits.rtlib.RATTLE
top = gate_edits.rtlib.Crate(f"{gate_edits.prove.ROOT}/crates/top", gate_edits.prove.ROOT, {})
sys.exit(not gate_edits.are_proved(top.below()))
"""


def write(path, text):
    os.makedirs(os.path.dirname(path), exist_ok=True)
    with open(path, "w", encoding="utf-8") as it:
        it.write(text)


def read(path):
    with open(path, encoding="utf-8") as it:
        return it.read()


class Sample:
    """A repository of these libraries, and of `top` above them."""

    def __init__(self, root, libraries, toolchain="", top="lib.rt"):
        self.root, self.toolchain, self.top = root, toolchain, top
        listed = "".join(f"{name}: {below}\n" for name, below in libraries.items())
        write(f"{root}/crates.txt", f"{listed}top: {' '.join(libraries)}\n")
        write(f"{root}/HANDLES", "Handles allowed: none.\n")
        for name in (*libraries, "top"):
            self.lay(name)
        os.mkdir(f"{root}/tests")
        for name in ("prove.py", "gate_edits.py", "edits.py", "functions.py"):
            shutil.copy(f"{TESTS}/{name}", f"{root}/tests")

    def source(self, name):
        return f"{self.root}/crates/{name}/src/{self.top if name == 'top' else 'lib.rt'}"

    def stamp(self, name):
        return f"{self.root}/crates/{name}/out/rlib/stamp"

    def lay(self, name, more=1, change=("", "")):
        write(self.source(name), LIBRARY.format(name=f"of_{name}", more=more).replace(*change))

    def proved(self, call=CALL):
        """Runs prove.py, and returns the libraries that it has proved, in order of their names, and its status."""
        how = {"cwd": f"{self.root}/tests", "stdout": subprocess.PIPE, "stderr": subprocess.STDOUT, "text": True}
        with tempfile.TemporaryDirectory() as folder:
            how["env"] = {**os.environ, "TMPDIR": folder, "ASKED": folder}
            ran = subprocess.run([sys.executable, "-c", call, "top", self.toolchain], **how)
            if call != GATE_CALL and os.listdir(folder):
                sys.exit(f"prove: FAILED: what the toolchain writes beside is left: {os.listdir(folder)}")
        return sorted(re.findall(r"^(\w+): logic=proved ", ran.stdout, re.M)), ran.returncode


def later(sample):
    """Makes the stamp of `low` newer than that of `middle`."""
    at = os.stat(sample.stamp("middle")).st_mtime_ns + 1
    os.utime(sample.stamp("low"), ns=(at, at))


# What is done to a sample, one after the other, and what prove.py proves then, with which status.
STEPS = [
    ("all is new", lambda it: None, ["low", "middle", "side"], 0),
    ("nothing has changed", lambda it: None, [], 0),
    ("a body of low has changed", lambda it: it.lay("low", change=OPPOSITE), ["low", "middle"], 0),
    ("middle has no stamp", lambda it: os.remove(it.stamp("middle")), ["middle"], 0),
    ("low was proved later than middle", later, ["middle"], 0),
    ("side has a false clause", lambda it: it.lay("side", more=2), [], 1),
    ("it has it still", lambda it: None, [], 1),
    ("side is as it was", lambda it: it.lay("side"), ["side"], 0),
]
# The same of a program, `top`.
PROGRAM_STEPS = [
    ("all is new", lambda it: None, ["side", "top"], 0),
    ("top has a false clause", lambda it: it.lay("top", more=2), [], 1),
    ("side has one too", lambda it: it.lay("side", more=2), [], 1),
    ("both are as they were", lambda it: (it.lay("side"), it.lay("top")), ["side", "top"], 0),
]
# The same of the toolchain itself.
PROVED_STEPS = [
    ("all is new", lambda it: None, ["low", "side"], 0),
    ("side has a false clause", lambda it: it.lay("side", more=2), [], 1),
]


# The same of what tries the edits of the gate: where no library has a stamp, all are as rt ci left them.
GATE_STEPS = [
    ("a body of low has changed", lambda it: it.lay("low"), ["low", "middle"], 0),
    ("side has a false clause", lambda it: it.lay("side", more=2), [], 1),
    ("side is as it was", lambda it: it.lay("side"), ["side"], 0),
]


def tried(sample, steps, call=CALL):
    """Does all this to a sample."""
    for what, change, libraries, status in steps:
        change(sample)
        if (found := sample.proved(call)) != (libraries, status):
            sys.exit(f"prove: FAILED: where {what}: {found}, and not {(libraries, status)}")
        if os.path.exists(sample.stamp("side")) != (status == 0):
            sys.exit(f"prove: FAILED: where {what}: the stamp of side")


def tried_program(sample):
    """Does to a program what its steps have. What is linked and its stamp are always of the sources that are proved."""
    linked = None
    for what, change, proved, status in PROGRAM_STEPS:
        change(sample)
        if (found := sample.proved(PROGRAM_CALL)) != (proved, status):
            sys.exit(f"prove: FAILED: where {what}: {found}, and not {(proved, status)}")
        built = [read(f"{sample.root}/crates/top/out/{it}") for it in ("top", "top.stamp")]
        linked = linked or built
        if built != linked:
            sys.exit(f"prove: FAILED: where {what}: another program, or another stamp")


def main():
    with tempfile.TemporaryDirectory(prefix="prove-test-") as root:
        write_script(f"{root}/played", PLAYED)
        large = Sample(f"{root}/large", {"low": "", "middle": "low", "side": ""}, f"{root}/played")
        tried(large, STEPS)
        tried(large, GATE_STEPS, GATE_CALL)
        link_all(os.path.dirname(os.path.dirname(os.path.realpath(shutil.which("rt")))), f"{root}/kit", ["bin"])
        for path, text in ((f"{root}/kit/played", PLAYED), (f"{root}/kit/bin/rattle-link", LINKER)):
            os.makedirs(os.path.dirname(path), exist_ok=True)
            write_script(path, text)
        tried_program(Sample(f"{root}/program", {"side": ""}, f"{root}/kit/played", "main.rt"))
        tried(Sample(f"{root}/small", {"low": "", "side": "low"}), PROVED_STEPS)
    count = len(STEPS) + len(GATE_STEPS) + len(PROGRAM_STEPS)
    print(f"prove: what is proved where {count} things have happened, and {len(PROVED_STEPS)} by the toolchain: ok")


if __name__ == "__main__":
    main()
