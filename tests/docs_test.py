#!/usr/bin/env python3
"""Runs the commands of the pages as they stand: tests/docs_test.py [--program FILE] [--all] [PAGE..]

A block ```console has commands, a line `$ WORDS` each, and below each what it prints. They run in a folder of their own
for each page, which has `bin/prepaid` and `examples`, and what they print, errors too, must be what is there, byte
for byte. A command has 60 seconds. One that wants a program that isn't here is passed over, and told; with --all that is a
failure. Of `cd crates/NAME && rt run` the text is compared with crates/NAME/stdout, since the gate compares the program
with that. In a table with the columns Command and Audit each command makes a book: its audit says yes for each account, or for one
of them no, as the table says, with the status that goes with it. Without a PAGE these are README.md and docs/*.md.
"""
import argparse
import glob
import os
import re
import shutil
import signal
import subprocess
import sys
import tempfile

# A command that takes longer has failed.
SECONDS = 60
# Programs that a page may want beside a shell and what every system has, and the package of each.
WANTED = {"sqlite3": "sqlite3"}


def blocks(page):
    """The commands of a page, each with the number of its line and what it prints."""
    with open(page, encoding="utf-8") as it:
        lines = it.read().split("\n")
    found, inside = [], False
    for number, line in enumerate(lines, 1):
        if line.startswith("$ ") and not inside:
            raise SystemExit(f"{page}:{number}: a command that is in no block ```console: {line}")
        if line.startswith("```"):
            inside = line == "```console"
        elif inside and line.startswith("$ "):
            found.append((number, line[2:], []))
        elif inside:
            found[-1][2].append(line + "\n")
    return [(number, words, "".join(told)) for number, words, told in found]


def altered_books(page):
    """The commands of a page's tables that make a book, each with the number of its line and the word of its audit."""
    found, inside = [], False
    with open(page, encoding="utf-8") as it:
        for number, line in enumerate(it, 1):
            cells = [cell.strip() for cell in re.split(r"(?<!\\)\|", line)[1:-1]]
            if cells[-2:] == ["Command", "Audit"]:
                inside = True
            elif not cells:
                inside = False
            elif inside and not line.startswith("|---"):
                found.append((number, cells[-2].strip("`").replace("\\|", "|"), cells[-1]))
    return found


def audit_word(words, folder):
    """What the audit of the book that a command makes says: yes, no, or what else comes of it."""
    status, output = ran_in(folder, f"set -o pipefail; {words} | bin/prepaid audit")
    refused = [line for line in output.splitlines() if not re.fullmatch(r"account \d+ yes", line)]
    said = {(0, 0): "yes", (3, 1): "no"}.get((status, len(refused)))
    return said if output and said else f"status {status}: {refused}"


def ran_in(folder, words):
    """What comes of a command: its status, and what it prints, errors too. What it has started ends with it in any case."""
    how = {"cwd": folder, "text": True, "stdout": subprocess.PIPE, "stderr": subprocess.STDOUT, "start_new_session": True}
    with subprocess.Popen(["bash", "-c", words], **how) as it:
        try:
            output = it.communicate(timeout=SECONDS)[0]
        except subprocess.TimeoutExpired:
            os.killpg(it.pid, signal.SIGKILL)
            output = f"{it.communicate()[0]}It hadn't ended after {SECONDS} seconds.\n"
    return it.returncode, output


def lacks(words):
    """The program that a command wants and that isn't here, if there is one."""
    return next((it for it in WANTED if re.search(rf"(^|\| ){it}\b", words) and not shutil.which(it)), None)


def printed(words, folder):
    """What a command prints."""
    if crate := re.fullmatch(r"cd (crates/\w+) && rt run", words):
        with open(f"{crate[1]}/stdout", encoding="utf-8") as it:
            return it.read()
    return ran_in(folder, words)[1]


def try_page(page, program, takes_all):
    """Runs a page's commands, and returns how many ran, how many were passed over, and how many failed."""
    ran = passed = failed = 0
    with tempfile.TemporaryDirectory() as folder:
        os.mkdir(f"{folder}/bin")
        os.symlink(program, f"{folder}/bin/prepaid")
        os.symlink(os.path.abspath("examples"), f"{folder}/examples")
        for number, words, told in blocks(page):
            lacking = lacks(words)
            if lacking:
                passed += 1
                failed += takes_all
                print(f"{page}:{number}: {lacking} isn't here: apt-get install {WANTED[lacking]}")
                continue
            said = printed(words, folder)
            ran += 1
            if said != told:
                failed += 1
                print(f"{page}:{number}: {words}\nprints\n{said}where the page has\n{told}")
        for number, words, told in altered_books(page):
            said = audit_word(words, folder)
            ran += 1
            if said != told:
                failed += 1
                print(f"{page}:{number}: {words}\nan audit says {said} where the page has {told}")
    return ran, passed, failed


def main():
    asked = argparse.ArgumentParser(description=__doc__, formatter_class=argparse.RawDescriptionHelpFormatter)
    asked.add_argument("--program", default="bin/prepaid")
    asked.add_argument("--all", action="store_true")
    asked.add_argument("pages", nargs="*")
    words = asked.parse_args()
    os.chdir(os.path.dirname(os.path.dirname(os.path.abspath(__file__))))
    pages = words.pages or ["README.md", *sorted(glob.glob("docs/*.md"))]
    told = [try_page(page, os.path.abspath(words.program), words.all) for page in pages]
    ran, passed, failed = (sum(it) for it in zip(*told))
    print(f"commands of the pages: {ran} ran, {passed} passed over, {failed} failed")
    return 1 if failed or not ran else 0


if __name__ == "__main__":
    sys.exit(main())
