#!/usr/bin/env python3
"""Tries the edits of crates/NAME/edits: wrong bodies that the prover must refuse.

usage: tests/edits.py [--root FOLDER] [--lanes N] [--pages] [CRATE [EDIT..]]..

One check tries many: it changes different functions of a copy of the crate at once. The prover judges each function
by itself, so an edit is refused where the function that it changes has an open goal of its own, or
an error of its own in its proof files. It isn't refused by what a caller of it lacks, nor where the
function itself waits for another that isn't proved, nor where a proof file only lacks a name. What
a check leaves undecided is tried in the next one, and at last alone.

With --pages what refuses each edit is written to docs/edits/NAME.md. Where names of edits are behind a crate, no others
are tried, and the other rows of its page stay as they are.

The checks go over what `rt check` keeps in out/. The last line is 'N refused, M not refused', and
the names of the M are above it. The status is 0 where M is 0.
"""
import argparse
import dataclasses
import os
import re
import shutil
import subprocess
import sys
import tempfile
import threading
import time
from concurrent.futures import ThreadPoolExecutor

from functions import functions_of

PARTS = ("src", "specs", "proofs")
# The gate tries those of the first (gate_edits.py).
FOLDERS = ("edits/gate", "edits")
# An error in a proof file that only says that a name is gone.
LACKS_A_NAME = re.compile(r"has no field|is not in scope|has no `|was not admitted")
# A text that the prover can't read says nothing of a contract.
UNREAD = re.compile(r"is not in scope|has no field|is no name|operand is missing|expected the end|cannot continue")
# How many groups an edit is tried in before it is tried alone.
GROUPS = 3
PRINTING = threading.Lock()


@dataclasses.dataclass
class Edit:
    """An edit: its name, and its changes, each a file, an old text and a new one."""

    name: str
    changes: list
    fault: str = ""
    groups: int = 0

    def apply(self, texts):
        """Returns the texts with its changes; or nothing and the fault, where an old text isn't in its file once."""
        texts = dict(texts)
        for file, old, new in self.changes:
            if file not in texts:
                return None, f"the crate has no {file}"
            times = texts[file].count(old)
            if times != 1:
                return None, f"{file} has its old text {times} times and not once: {old.strip()}"
            texts[file] = texts[file].replace(old, new)
        return texts, ""

    def functions(self, texts, table):
        """Returns the functions that it changes, and nothing where it changes what is in none."""
        found = set()
        for file, old, _ in self.changes:
            line = texts[file][: texts[file].index(old)].count("\n") + 1
            inside = [it for it in table if it.file == file and it.first <= line <= it.last]
            if not inside:
                return set()
            found.add(max(inside, key=lambda it: it.first))
        return found


def read_edit(path, texts):
    """Reads an edit. Lines 'old:' that follow one another are one text of several lines, and so are lines 'new:'."""
    edit, file, olds, news = Edit(os.path.basename(path)[: -len(".edit")], []), "", [], []
    with open(path, encoding="utf-8") as it:
        for line in it.read().split("\n") + ["file: "]:
            word, _, text = line.partition(":")
            if news and word in ("file", "old"):
                edit.changes.append((file, "\n".join(olds), "\n".join(news)))
                olds, news = [], []
            if word == "file":
                file = text.strip()
            elif word == "old":
                olds.append(text.removeprefix(" "))
            elif word == "new":
                news.append(text.removeprefix(" "))
            elif line:
                edit.fault = f"a line begins with none of file:, old: and new: {line}"
    if edit.fault:
        return edit
    if not edit.changes:
        edit.fault = "it has no 'old:' and 'new:' pair"
    elif any(old == new for _, old, new in edit.changes):
        edit.fault = "an old text is its new one"
    else:
        edit.fault = edit.apply(texts)[1]
    return edit


class Verdicts:
    """What one check said of each function."""

    def __init__(self, said):
        self.said = said
        self.of = dict(re.findall(r"^fn (\S+): (.*)$", said, re.M))
        self.notes = [(at[1], int(at[2]), at[0]) for at in re.finditer(r"^note: (src/\S+?):(\d+):\d+: it is not proved.*$", said, re.M)]
        self.errors = re.findall(r"^\./proofs/(\S+)/\w+\.antt:\d+:\d+: error: (.*)$", said, re.M)
        # The last line is of the whole crate, or of the functions that were asked for.
        self.is_proved = bool(re.search(r"^logic=proved|^only=(\d+) proved=\1$", said, re.M))
        self.is_refused = bool(re.search(r"^logic=not-proved|^only=(\d+) proved=(?!\1$)", said, re.M))

    def unreadable(self):
        at = re.search(r"^(?:\./)?(?:src|specs)/\S+?:\d+:\d+: error: (?!`)(.*)$", self.said, re.M)
        named = re.search(r"^(?:\./)?(?:src|specs)/\S+?:\d+:\d+: error: `[^`]*`: (.*)$", self.said, re.M)
        return at[0] if at else named[0] if named and UNREAD.search(named[1]) else ""

    def refusal(self, function, crate):
        """Returns why the function itself is refused, nothing where it is proved, and None where that isn't told."""
        paths = [it for it in self.of if function.is_called(it, crate)]
        if len(paths) != 1:
            return None
        told = self.of[paths[0]]
        if told == "proved":
            return ""
        folder = "/".join(paths[0].split("::")[1:])
        own = [text for at, text in self.errors if at == folder]
        if any(LACKS_A_NAME.search(it) for it in own):
            return None
        goal = [text for file, line, text in self.notes if file == function.file and function.first <= line <= function.last]
        return (goal + own + [told] * ("did not prove" in told) + [None])[0]


class Crate:
    """A crate with its edits, in a copy of it and of the crates below, over what its checks keep."""

    def __init__(self, root, name, room, folders, only=()):
        self.name, self.folder, self.room = name, f"{root}/crates/{name}", room
        self.texts = {}
        for part in PARTS:
            for at, _, files in os.walk(f"{self.folder}/{part}"):
                for it in files:
                    path = f"{at}/{it}"
                    with open(path, encoding="utf-8") as text:
                        self.texts[os.path.relpath(path, self.folder)] = text.read()
        self.table = [it for file, text in self.texts.items() if file.startswith("src/") for it in functions_of(file, text)]
        paths = [f"{self.folder}/{it}/{name}" for it in folders if os.path.isdir(f"{self.folder}/{it}") for name in os.listdir(f"{self.folder}/{it}")]
        self.edits = [read_edit(it, self.texts) for it in sorted(paths, key=os.path.basename) if it.endswith(".edit")]
        self.edits = [it for it in self.edits if not only or it.name in only]
        self.functions = {it.name: it.functions(self.texts, self.table) for it in self.edits if not it.fault}
        self.checks = 0

    def lay(self, edits, parts):
        """Makes a fresh copy of these parts of the crate with these edits, and returns its folder."""
        texts, to = self.texts, f"{self.room}/crates/{self.name}"
        for it in edits:
            texts, _ = it.apply(texts)
        for part in parts:
            shutil.rmtree(f"{to}/{part}", ignore_errors=True)
            if os.path.isdir(f"{self.folder}/{part}"):
                shutil.copytree(f"{self.folder}/{part}", f"{to}/{part}")
        for file, text in texts.items():
            if text != self.texts[file]:
                with open(f"{to}/{file}", "w", encoding="utf-8") as it:
                    it.write(text)
        return to

    def check(self, edits):
        """Checks the crate with these edits."""
        self.checks += 1
        return Verdicts(rt_check(self.lay(edits, (*PARTS, "out/incremental")), "--jobs", "1").stdout)

    def group(self, left):
        """Returns edits of different functions, each of which fits beside those before it."""
        chosen, texts, taken = [], self.texts, set()
        for edit in left:
            own = self.functions[edit.name]
            changed, _ = edit.apply(texts)
            if own and not own & taken and changed is not None:
                chosen, texts, taken = [*chosen, edit], changed, taken | own
        return chosen

    def in_groups(self, left):
        """Tries edits in groups and returns why each was refused, by name; what none decides is left out."""
        refused, size = {}, len(left)
        while True:
            tried = self.group(left)[:size]
            if len(tried) < 2:
                return refused
            verdicts = self.check(tried)
            if not verdicts.of:
                # one of them can't be read: half of them at a time
                size = len(tried) // 2
                continue
            size = len(left)
            for edit in tried:
                why = [verdicts.refusal(it, self.name) for it in self.functions[edit.name]]
                if any(why):
                    refused[edit.name] = next(it for it in why if it)
                edit.groups += 1
            left = [it for it in left if it.name not in refused and it.groups < GROUPS]

    def alone(self, edit):
        """Tries one edit and returns whether it was refused, and why."""
        verdicts = self.check([edit])
        unread = verdicts.unreadable()
        if unread or not verdicts.is_proved and not verdicts.is_refused:
            return False, f"BAD EDIT: the prover can't read the edited text: {unread[:160]}"
        if verdicts.is_proved:
            return False, "what was checked is still proved with it"
        own = [it for it in (verdicts.refusal(function, self.name) for function in self.functions[edit.name]) if it]
        goals = own + [text for _, _, text in verdicts.notes] + [text for _, text in verdicts.errors if not LACKS_A_NAME.search(text)]
        return True, goals[0] if goals else "only since a proof file names what the edit took away"

    def tried(self):
        """Returns whether each edit was refused, and why, by the edit's name."""
        given = {it.name: (False, f"BAD EDIT: {it.fault}") for it in self.edits if it.fault}
        fits = [it for it in self.edits if not it.fault]
        given.update((name, (True, why)) for name, why in self.in_groups(fits).items())
        for it in fits:
            if it.name not in given:
                given[it.name] = self.alone(it)
        return given


def lists(root):
    """Returns the crates of crates.txt, each with those that it names."""
    with open(f"{root}/crates.txt", encoding="utf-8") as it:
        lines = [line.partition("#")[0].partition(":") for line in it.read().splitlines()]
    return {name.split()[0]: deps.split() for name, _, deps in lines if name.strip()}


def below(name, listed):
    found = []
    for it in listed[name]:
        if it in listed:
            found += [deeper for deeper in [*below(it, listed), it] if deeper not in found]
    return found


def lay(root, name, listed, room):
    """Makes a repository of the crate and those below it, with what is built of them."""
    needed = below(name, listed)
    with open(f"{room}/crates.txt", "w", encoding="utf-8") as it:
        it.writelines(f"{crate}: {' '.join(listed[crate])}\n" for crate in [*needed, name])
    shutil.copy(f"{root}/HANDLES", room)
    for crate in needed:
        for part in (*PARTS, "out/rlib"):
            if os.path.isdir(f"{root}/crates/{crate}/{part}"):
                shutil.copytree(f"{root}/crates/{crate}/{part}", f"{room}/crates/{crate}/{part}", copy_function=link)


def rt_check(folder, *flags):
    how = {"stdin": subprocess.DEVNULL, "stdout": subprocess.PIPE, "stderr": subprocess.STDOUT, "errors": "replace"}
    return subprocess.run(["rt", "check", *flags], cwd=folder, **how)


def link(source, to):
    try:
        os.link(source, to)
    except OSError:
        shutil.copy2(source, to)


def rows_of(path):
    """Returns the rows of a page by the name of their edit, and none where there is no such page."""
    if not os.path.isfile(path):
        return {}
    with open(path, encoding="utf-8") as it:
        return {row[1]: row[0] for row in re.finditer(r"^\| `(\w+)` \|.*\n", it.read(), re.M)}


def changed(crate, name):
    """Returns the functions that an edit changes, as its row on the page of its crate has them."""
    return ", ".join(sorted(f"`{it.name}`" for it in crate.functions.get(name, ())))


def page(crate, given, rows):
    """The page of a crate: these rows, and for each edit that was refused, the functions that it changes and the goal that stays open."""
    for name, (_, why) in (it for it in given.items() if it[1][0]):
        goal = re.search(r"`(\w+(?:-\w+)+)`", why)
        clause = goal and re.search(r"-clause-(\w+)$", goal[1])
        rows[name] = f"| `{name}` | {changed(crate, name)} | {f'clause `{clause[1]}`' if clause else f'goal `{goal[1]}`' if goal else 'its proof'} |\n"
    head = f"# What refuses the edits of {crate.name}\n\n`tests/edits.py --pages {crate.name}` has tried them and written this page. "
    head += "A goal that is no clause is on the way to one.\n\n"
    return head + "| Edit | Changes | Refused by |\n|---|---|---|\n" + "".join(rows[it] for it in sorted(rows))


def try_crate(root, name, listed, pages, only):
    """Tries a crate's edits, all or these alone, and returns how many were refused and the names of the others."""
    with tempfile.TemporaryDirectory(prefix="edits-") as room:
        lay(root, name, listed, room)
        return told(Crate(root, name, room, FOLDERS, only), root, pages, only)


def told(crate, root, pages=False, only=()):
    """Tries a crate's edits and says what became of them. How many were refused, and the names of the others."""
    start, name, given = time.monotonic(), crate.name, crate.tried()
    if pages:
        path = f"{root}/docs/edits/{name}.md"
        os.makedirs(os.path.dirname(path), exist_ok=True)
        kept = {it: row for it, row in rows_of(path).items() if only and it not in given}
        with open(path, "w", encoding="utf-8") as it:
            it.write(page(crate, given, kept))
    refused = [it for it, (well, _) in given.items() if well]
    with PRINTING:
        for it in sorted(given):
            print(f"{name}/{it}: {'refused' if given[it][0] else 'NOT REFUSED'}: {given[it][1][:200]}")
        print(f"{name}: {len(refused)} of {len(given)} refused, in {crate.checks} checks and {time.monotonic() - start:.0f} s", flush=True)
    return len(refused), [f"{name}/{it}" for it in sorted(given) if not given[it][0]]


def chosen(words, listed, root):
    """Returns the crates that the words name, each with its edits that they name behind it."""
    crates = {}
    for word in words:
        if word in listed:
            name = word
            crates[name] = []
        elif crates and any(os.path.isfile(f"{root}/crates/{name}/{it}/{word}.edit") for it in FOLDERS):
            crates[name].append(word)
        else:
            sys.exit(f"edits: {word} is no crate of crates.txt" + (f", and no edit of {name}" if crates else ""))
    return crates


def main():
    asked = argparse.ArgumentParser(description=__doc__, formatter_class=argparse.RawDescriptionHelpFormatter)
    asked.add_argument("--root", default=os.path.dirname(os.path.dirname(os.path.abspath(__file__))))
    asked.add_argument("--lanes", type=int, default=len(os.sched_getaffinity(0)))
    asked.add_argument("--pages", action="store_true")
    asked.add_argument("names", nargs="*")
    words = asked.parse_args()
    listed = lists(words.root)
    only = chosen(words.names, listed, words.root)
    names = [it for it in listed if os.path.isdir(f"{words.root}/crates/{it}/edits") and (not only or it in only)]
    # each crate must be proved as it is, and its check brings out/ up to date, the crates below included
    for it in names:
        ran = rt_check(f"{words.root}/crates/{it}")
        if ran.returncode:
            sys.exit(f"{ran.stdout}edits: {it} isn't proved as it is")
    with ThreadPoolExecutor(words.lanes) as pool:
        tried = list(pool.map(lambda it: try_crate(words.root, it, listed, words.pages, only.get(it, ())), names))
    return ended(tried)


def ended(tried):
    """Prints the last lines of all that was tried, and returns the status."""
    refused, others = sum(it for it, _ in tried), [it for _, names in tried for it in names]
    for it in others:
        print(f"not refused: {it}")
    print(f"{refused} refused, {len(others)} not refused")
    return 1 if others else 0


if __name__ == "__main__":
    sys.exit(main())
