#!/usr/bin/env python3
"""Names edits that went stale, and tries the programs that try edits: tests/edits_test.py [--stale]

Each edit of edits/ and edits/gate/, in each crate, names files that are there, and each of its old texts is in its file
once; no two edits of a crate have the same name; edits/gate/ has one edit of a function, and the wrong bodies that
CONTRIBUTING.md names; and each row of docs/edits is of an edit that is there, and names the functions that it changes.
Then the programs are tried on a crate with edits of each kind: they name those that the prover lets through. With
--stale they aren't.
"""
import glob
import os
import re
import shutil
import subprocess
import sys
import tempfile

import edits

TESTS = os.path.dirname(os.path.abspath(__file__))
LIBRARY = """//! A sample.
#![tactic(auto)]

ghost use Rattle.std.specs.Prelude.{◌+◌, ◌≡◌, ◌≤◌};

/// The most that is halved.
pub const MOST: u32 = 1000;

/// One more.
pub fn after(x: u32) -> u32
    requires small { x ≤ 1000 }
    ensures value { result ≡ x + 1 }
{
    x + 1
}

/// Two more.
pub fn second_after(x: u32) -> u32
    requires small { x ≤ 999 }
    ensures value { result ≡ x + 2 }
{
    after(after(x))
}

/// A number of which nothing is said.
pub fn any() -> u32 {
    MOST
}
"""
# Of each edit: its name, its old and new text, and what is printed of it.
EDITS = [
    ("adds_nothing", "    x + 1", "    x", "refused"),
    ("adds_one", "after(after(x))", "after(x)", "refused"),
    ("adds_three", "{\n    x + 1\n}", "{\n    x + 3\n}", "refused"),
    ("answers_another", "    MOST", "    MOST - 1", "NOT REFUSED: what was checked is still proved with it"),
    ("has_another_most", "u32 = 1000", "u32 = 999", "NOT REFUSED: what was checked is still proved with it"),
    ("names_what_is_not_there", "after(after(x))", "before(x)", "NOT REFUSED: BAD EDIT: the prover can't read"),
    ("fits_no_longer", "    x + 3", "    x", "NOT REFUSED: BAD EDIT: src/lib.rt has its old text 0 times and not once: x + 3"),
    ("fits_twice", "after(", "any(", "NOT REFUSED: BAD EDIT: src/lib.rt has its old text 4 times and not once: after("),
    ("has_a_bare_line", "    x + 1\r    y", "    x", "NOT REFUSED: BAD EDIT: a line begins with none of file:, old: and new:"),
    ("changes_nothing", "    x + 1", "    x + 1", "NOT REFUSED: BAD EDIT: an old text is its new one"),
]
# That of edits/gate/: those that are refused the gate has itself.
GATE = [("answers_half", "    MOST", "    MOST / 2", "NOT REFUSED: what was checked is still proved with it")]
# A page of three rows.
PAGE = """| Edit | Changes | Refused by |
|---|---|---|
| `adds_one` | `after` | clause `value` |
| `adds_three` | `after` | clause `value` |
| `is_gone` | `after` | clause `value` |
"""
# What the gate is said to try.
SAID = "- the edits of clauses (`adds_four`): `after`.\n- eleven wrong bodies, which cost most: `adds_three` and `adds_five`.\n"
# What is said of these edits before any is tried.
STALE = [
    "sample/changes_nothing: an old text is its new one",
    "sample/fits_no_longer: src/lib.rt has its old text 0 times and not once: x + 3",
    "sample/fits_twice: src/lib.rt has its old text 4 times and not once: after(",
    "sample/has_a_bare_line: a line begins with none of file:, old: and new:     y",
    "sample/is_in_no_file: the crate has no src/gone.rt",
    "sample/adds_three: two edits have this name",
    "sample: edits/gate/ has two edits of after",
    "docs/edits/sample.md: no edit is named is_gone",
    "docs/edits/sample.md: adds_four has no row",
    "docs/edits/sample.md: adds_nothing has no row",
    "docs/edits/sample.md: answers_another has no row",
    "docs/edits/sample.md: answers_half has no row",
    "docs/edits/sample.md: has_another_most has no row",
    "docs/edits/sample.md: names_what_is_not_there has no row",
    "docs/edits/sample.md: adds_one changes `second_after`",
    "CONTRIBUTING.md: edits/gate/ has no adds_five",
]
LAST = """not refused: sample/answers_another
not refused: sample/changes_nothing
not refused: sample/fits_no_longer
not refused: sample/fits_twice
not refused: sample/has_a_bare_line
not refused: sample/has_another_most
not refused: sample/names_what_is_not_there
3 refused, 7 not refused
"""
GATE_LAST = "not refused: sample/answers_half\nnot refused: second/is_in_no_file\n0 refused, 2 not refused\n"
# An edit that is tried without a check.
NOWHERE = "file: src/gone.rt\nold: x\nnew: y\n"


def write(path, text):
    os.makedirs(os.path.dirname(path), exist_ok=True)
    with open(path, "w", encoding="utf-8") as it:
        it.write(text)


def stale(root):
    """Returns what no longer fits among the edits of a repository and their pages, a line each."""
    said = []
    for name in sorted(os.listdir(f"{root}/crates")):
        crate = edits.Crate(root, name, "", edits.FOLDERS)
        said += [f"{name}/{it.name}: {it.fault}" for it in crate.edits if it.fault]
        names = [it.name for it in crate.edits]
        said += [f"{name}/{it}: two edits have this name" for it in sorted(set(names)) if names.count(it) > 1]
        said += twins(root, crate)
        page = f"docs/edits/{name}.md"
        rows = edits.rows_of(f"{root}/{page}")
        said += [f"{page}: no edit is named {it}" for it in rows if it not in names]
        said += [f"{page}: {it.name} has no row" for it in crate.edits if not it.fault and it.name not in rows]
        changed = {it: edits.changed(crate, it) for it in rows if it in names}
        said += [f"{page}: {it} changes {changed[it]}" for it in changed if rows[it].split(" | ")[1] != changed[it]]
    return said + untried(root)


def untried(root):
    """Returns the edits that the gate is said to try, a line each where edits/gate/ hasn't one."""
    with open(f"{root}/CONTRIBUTING.md", encoding="utf-8") as it:
        text = it.read()
    listed = (re.search(f"^- {it}(.*)", text, re.M)[1] for it in (r"the edits of clauses [^(]*(?=\()", "eleven wrong bodies, [^:]*"))
    names = [name for it in listed for name in re.findall(r"`(\w+)`", it.partition(")")[0])]
    there = {os.path.basename(it) for it in glob.glob(f"{root}/crates/*/edits/gate/*.edit")}
    return [f"CONTRIBUTING.md: edits/gate/ has no {it}" for it in names if f"{it}.edit" not in there]


def twins(root, crate):
    """Returns the functions of which edits/gate/ has two edits."""
    tried = edits.Crate(root, crate.name, "", edits.FOLDERS[:1])
    functions = [function for it in tried.functions.values() for function in it]
    return [f"{crate.name}: edits/gate/ has two edits of {it}" for it in sorted({it.name for it in functions if functions.count(it) > 1})]


def lay(root):
    """Makes the repository of the sample, and of a second crate, of which only the gate has an edit."""
    write(f"{root}/crates.txt", "sample:\nsecond:\n")
    write(f"{root}/crates/second/src/lib.rt", "//! A second sample.\n")
    write(f"{root}/crates/second/edits/gate/is_in_no_file.edit", NOWHERE)
    write(f"{root}/HANDLES", "Handles allowed: none.\n")
    write(f"{root}/crates/sample/src/lib.rt", LIBRARY)


def lay_edits(root, folder, of_folder):
    """Adds edits to a folder of the sample."""
    for name, old, new, _ in of_folder:
        texts = [f"{word}: {line}\n" for word, text in (("old", old), ("new", new)) for line in text.split("\n")]
        write(f"{root}/crates/sample/{folder}/{name}.edit", "".join(["file: src/lib.rt\n", *texts]).replace("\r", "\n"))


def lay_stale(root):
    """Adds edits that the program doesn't try, and a page."""
    write(f"{root}/crates/sample/edits/is_in_no_file.edit", NOWHERE)
    for name in ("adds_three", "adds_four"):
        write(f"{root}/crates/sample/edits/gate/{name}.edit", "file: src/lib.rt\nold:     x + 1\nnew:     x + 4\n")
    write(f"{root}/docs/edits/sample.md", PAGE)
    write(f"{root}/CONTRIBUTING.md", SAID)


def tries(root, *names, program="edits.py"):
    """Runs a program that tries edits on a repository."""
    command = [sys.executable, f"{TESTS}/{program}", "--root", root, *names]
    return subprocess.run(command, stdout=subprocess.PIPE, stderr=subprocess.STDOUT, text=True)


def main():
    said = stale(os.path.dirname(TESTS))
    if said:
        sys.exit("\n".join([*said, f"edits: FAILED: {len(said)} no longer fit"]))
    if sys.argv[1:] == ["--stale"]:
        print("edits: all fit")
        return
    with tempfile.TemporaryDirectory(prefix="edits-test-") as root:
        lay(root)
        lay_edits(root, "edits/gate", GATE)
        gate, unknown = (tries(root, *names, program="gate_edits.py") for names in ((), ("sample", "other")))
        for name in ("sample", "second"):
            shutil.rmtree(f"{root}/crates/{name}/edits")
        lay_edits(root, "edits", EDITS)
        # one that doesn't fit is tried without a check
        ran, few = tries(root), tries(root, "sample", "fits_no_longer").stdout
        lay_edits(root, "edits/gate", GATE)
        lay_stale(root)
        said = stale(root)
    for tried, of_folder, last in ((gate, GATE, GATE_LAST), (ran, EDITS, LAST)):
        lost = [name for name, _, _, told in of_folder if f"sample/{name}: {told}" not in tried.stdout]
        if lost or not tried.stdout.endswith(last) or tried.returncode != 1:
            sys.exit(f"{tried.stdout}edits: FAILED: {' '.join(lost) or 'its last lines or its status'}")
    if unknown.returncode != 2 or not unknown.stdout.endswith("error: the gate has no edits of other\n"):
        sys.exit(f"{unknown.stdout}edits: FAILED: takes a crate without edits for one with them")
    if not few.endswith("\nnot refused: sample/fits_no_longer\n0 refused, 1 not refused\n"):
        sys.exit(f"{few}edits: FAILED: tries more than the edit that it was given")
    if said != STALE:
        sys.exit("\n".join([*said, "edits: FAILED: says this of edits that no longer fit"]))
    print("edits: all fit; what the prover lets through is named, and what can't be tried: ok")


if __name__ == "__main__":
    main()
