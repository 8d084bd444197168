#!/usr/bin/env python3
"""Makes docs/DEFINITIONS.md from the comments of the definitions: tests/definitions.py [--write]

The page has each definition that a public clause names, of a public function, a trait or a public type, and the
definition before it where its comment goes on from that one's. Without --write the page is compared with what would be
written, and the status is 1 where they differ, where a definition of the page has no comment, or where two files define
the same name.
"""
import argparse
import difflib
import glob
import os
import re
import sys

PAGE = "docs/DEFINITIONS.md"
HEAD = """# Definitions in plain words

The definitions that the clauses of public functions, traits and types name, crate by crate, each with the file of the \
crate's `specs/` that has it. The sentences are the comments there, and `tests/definitions.py --write` makes this page of \
them. Numbers are natural numbers without bounds; times are in units of 100 ms.
"""
CITED = re.compile(r"ghost use Rattle\.(\w+)\.specs\.([\w.]+)\.\{([^}]*)\}")
DEFINED = re.compile(r"(?:abbrev |unfoldable )?pub (?:record |data |abbrev )?([^\s:]+)")
BINDERS = re.compile(r"\(([^():]+) :")
# How a comment begins that goes on from that of the definition before it.
GOES_ON = re.compile(r"(the same|whether there is one|and|so|its?|they|such|or)\b")


def lines_of(path):
    with open(path, encoding="utf-8") as it:
        return it.read().split("\n")


def parameters(lines, start, name):
    """What a definition is applied to, where it has a name for each: of a record, or of its first equation."""
    if " record " in lines[start]:
        return " ".join(BINDERS.findall(lines[start].rsplit(":", 1)[0])).split()
    for line in lines[start + 1:]:
        if equation := re.match(rf"{re.escape(name)}((?: \w+)*) =", line):
            return [it for it in equation[1].split() if it[0].islower()]
        if line.startswith(f"{name} ") or not line:
            break
    return []


def definitions(crate):
    """The definitions of a crate, by file and name: with what each is applied to, and its comment."""
    found = {}
    for path in sorted(glob.glob(f"crates/{crate}/specs/**/*.antt", recursive=True)):
        file, lines, comment = path.split("/specs/")[1][:-5], lines_of(path), []
        for place, line in enumerate(lines):
            if line.startswith("-- "):
                comment.append(line[3:].strip())
                continue
            if (it := DEFINED.match(line)) and it[1] != "mod":
                found[file, it[1]] = (parameters(lines, place, it[1]), " ".join(comment))
            comment = []
    return found


def public_words(path):
    """The words of the public clauses of a source file."""
    inside = in_trait = in_type = False
    for line in lines_of(path):
        if line == "}":
            in_trait = in_type = False
        in_trait = in_trait or line.startswith("pub trait ")
        in_type = in_type or bool(re.match(r"pub (struct|enum) ", line))
        if start := re.match(r"\s*(pub )?(const )?fn ", line):
            inside = bool(start[1]) or in_trait
        if inside or (in_type or in_trait) and "ghost " in line and "ghost use" not in line:
            yield from re.findall(r"[^\s(){},.:;λ]+", line)
        if line.strip() == "{" or line.endswith(";"):
            inside = False


def named():
    """The definitions that public clauses name, as crate, file and name."""
    found = set()
    for path in glob.glob("crates/*/src/**/*.rt", recursive=True):
        text = "\n".join(lines_of(path))
        cited = {
            name.strip(): (crate, file.replace(".", "/"))
            for crate, file, names in CITED.findall(text) for name in names.split(",")
        }
        found |= {(*cited[word], word) for word in public_words(path) if word in cited}
    return found


def subject(crate):
    """What a crate is about: the first paragraph of its documentation."""
    words, (root,) = [], glob.glob(f"crates/{crate}/src/lib.rt") or glob.glob(f"crates/{crate}/src/main.rt")
    for line in lines_of(root):
        if not line.startswith("//! "):
            break
        words.append(line[4:])
    return " ".join(words)


def shown(crate, wanted):
    """The definitions of a crate that the page has: those wanted, and those that their comments go on from."""
    found, leads = [], False
    for (file, name), (applied, comment) in reversed(definitions(crate).items()):
        if leads or (crate, file, name) in wanted:
            found.append((file, name, applied, comment))
            leads = bool(GOES_ON.match(comment))
    return reversed(found)


def section(crate, wanted):
    """The section of a crate, and the names in it that have no comment."""
    rows, bare = [], []
    for file, name, applied, comment in shown(crate, wanted):
        if not comment:
            bare.append(f"{crate}.{file}.{name}")
        says = comment.replace("|", "\\|")
        rows.append(f"| `{' '.join([name, *applied])}` | `{file}` | {says} |\n")
    if not rows:
        return "", bare
    return f"\n## `{crate}`\n\n{subject(crate)}\n\n| Name | In | Says |\n|---|---|---|\n{''.join(rows)}", bare


def defined_twice(crates):
    """The names that more than one file of specs/ defines, each with these files."""
    files = {}
    for crate in crates:
        for file, name in definitions(crate):
            files.setdefault(name, []).append(f"{crate}/specs/{file}.antt")
    return {name: where for name, where in files.items() if len(where) > 1}


def main():
    asked = argparse.ArgumentParser(description=__doc__, formatter_class=argparse.RawDescriptionHelpFormatter)
    asked.add_argument("--write", action="store_true")
    writes = asked.parse_args().write
    os.chdir(os.path.dirname(os.path.dirname(os.path.abspath(__file__))))
    crates = [found[1] for line in lines_of("crates.txt") if (found := re.match(r"(\w+):", line))]
    wanted = named()
    sections, bare = zip(*(section(crate, wanted) for crate in crates))
    page = HEAD + "".join(sections)
    if writes:
        with open(PAGE, "w", encoding="utf-8") as it:
            it.write(page)
    is_there = "\n".join(lines_of(PAGE))
    for line in difflib.unified_diff(is_there.split("\n"), page.split("\n"), PAGE, "of the comments", lineterm="", n=0):
        print(line)
    for name in sum(bare, []):
        print(f"{name} has no comment")
    twice = defined_twice(crates)
    for name, where in twice.items():
        print(f"{name} is defined in {', '.join(where)}")
    rows = sum(len(re.findall(r"(?m)^\| `", text)) for text in sections)
    print(f"definitions: {rows} in {PAGE}")
    return 1 if page != is_there or any(bare) or twice or not rows else 0


if __name__ == "__main__":
    sys.exit(main())
