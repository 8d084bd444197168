#!/usr/bin/env python3
"""Looks whether docs/PROOFS.md names what there is, and whether each lemma is used: tests/proofs_test.py

Each name in backquotes is a name of the code, of specs, proofs or tests. Where a function, a type or a record is in
front of a colon, what is behind it are its own clauses or fields; where a clause is, they are definitions.

A lemma or a definition is used where its name is outside its own type, its equations, comments and `use` lines.
"""
import glob
import os
import re
import sys
from collections import Counter

from definitions import DEFINED, lines_of

PAGE = "docs/PROOFS.md"
SECTION = re.compile(r"\*\*`(\w+)`\*\*")
QUOTED = re.compile(r"`([^`]+)`")
NAMED = re.compile(r"`([\w:]+)`: ((?:`\w+`(?:, | and )?)+)")
WORD = re.compile(r"[A-Za-z_]\w*")
OWNER = re.compile(r"(?:pub(?:\(crate\))? )?(?:impl(?:<.*?>)? (?:[\w<>:', ]+ for )?|trait |struct |enum )(\w+)")
FUNCTION = re.compile(r"\s*(?:pub(?:\(crate\))? )?fn (\w+)")
CLAUSE = re.compile(r"\s*(?:ensures|requires) (\w+) \{|\s*(?:pub )?ghost (\w+)(?: =|:)")
# Comments and `use` lines, which use no lemma.
BROUGHT = re.compile(r"--.*|^ *(?:pub )?use .*|^ *ghost use [^;]*;", re.MULTILINE)
LEMMA = re.compile(r"^((?:  (?=pub))?)(?:abbrev )?(?:pub )?([A-Za-z_][\w'-]*) :(?: |$)", re.MULTILINE)
LEMMA_NAME = re.compile(r"[A-Za-z_][\w'-]*")


def files(crate, folder):
    return [it for it in glob.glob(f"crates/{crate}/{folder}/**/*.*", recursive=True) if os.path.isfile(it)]


def clauses(crate):
    """The clauses of each function, by its name with and without its type, and the ghost names of each type."""
    found = {}
    for path in files(crate, "src"):
        owner = function = ""
        for line in lines_of(path):
            if it := OWNER.match(line):
                owner, function = it[1], ""
            if line == "}":
                owner = ""
            if it := FUNCTION.match(line):
                function = it[1]
                found.setdefault(function, set())
            if it := CLAUSE.match(line):
                name = it[1] or it[2]
                for key in [function, f"{owner}::{function}"] if it[1] else [owner]:
                    found.setdefault(key, set()).add(name)
    return found


def definitions(crate):
    """The definitions of a crate, each with the fields that it has where it is a record."""
    found = {}
    for path in files(crate, "specs"):
        name = ""
        for line in lines_of(path):
            if it := DEFINED.match(line):
                name = it[1]
                found[name] = set()
            elif it := re.match(r"  pub (\w+) :", line):
                found[name].add(it[1])
    return found


def names_there_are(crates):
    """Each word of a name in the files of the crates, the tests and the pages, and in their paths."""
    paths = [it for crate in crates for folder in ("src", "specs", "proofs") for it in files(crate, folder)]
    paths += [it for it in glob.glob("tests/**/*", recursive=True) if os.path.isfile(it)]
    names = {"strace", *crates}
    for path in [*paths, *glob.glob("docs/*.md"), "README.md", "Makefile"]:
        names.update(WORD.findall(path))
        if not path.endswith((".md", ".pyc")):
            names.update(WORD.findall("\n".join(lines_of(path))))
    return names


def wrong_clauses(line, crate, of_crate, defined):
    """What a line of a crate names behind a colon that isn't of what is named in front of it."""
    functions, records = of_crate[crate]
    for name, others in NAMED.findall(line):
        own = records.get(name) or functions.get(name) or functions.get(name.split("::")[-1], set())
        is_clause = any(name in clause_names for clause_names in functions.values())
        for other in QUOTED.findall(others):
            if other not in own and not (is_clause and other in defined):
                yield f"{name} of {crate} has no {other}"


def unused_lemmas(crates):
    """The lemmas and definitions that nothing names but their own types and equations."""
    paths = [it for crate in crates for folder in ("src", "specs", "proofs") for it in files(crate, folder)]
    texts = {path: BROUGHT.sub("", "\n".join(lines_of(path))) for path in paths}
    named = Counter(name for text in texts.values() for name in LEMMA_NAME.findall(text))
    for path, text in texts.items():
        for it in LEMMA.finditer(text) if path.endswith(".antt") else []:
            indent, name = it.groups()
            equation = rf"{indent}{re.escape(name)} (?!:).*\n"
            # Its type, its equations, and what is further in than they are.
            own = re.compile(rf".*\n(?:{indent} +.*\n|{equation}|{indent}unfolding .*\n| *\n)*")
            lemma = own.match(text + "\n", it.start())[0]
            # The prover asks for answers to goals. A field of a record has no equation, and may be there to be read.
            is_asked_for = f"goal.{name}" in lemma or not re.search(rf"^{equation}", lemma, re.MULTILINE)
            if not is_asked_for and named[name] == LEMMA_NAME.findall(lemma).count(name):
                yield f"{path}: nothing uses {name}"


def main():
    crates = sorted(os.listdir("crates"))
    of_crate = {crate: (clauses(crate), definitions(crate)) for crate in crates}
    defined = {name for _, records in of_crate.values() for name in records}
    names = names_there_are(crates)
    faults, count, crate = [*unused_lemmas(crates)], 0, ""
    for number, line in enumerate(lines_of(PAGE), 1):
        if section := SECTION.match(line):
            crate = section[1]
        elif line.startswith("#"):
            crate = ""
        found = [word for quoted in QUOTED.findall(line) for word in WORD.findall(quoted)]
        count += len(found)
        wrong = [f"nothing is named {word}" for word in found if word not in names]
        wrong += wrong_clauses(line, crate, of_crate, defined) if crate else []
        faults += [f"{PAGE}:{number}: {it}" for it in wrong]
    print("\n".join(faults) if faults else f"proofs: {count} names, all there")
    return 1 if faults else 0


if __name__ == "__main__":
    sys.exit(main())
