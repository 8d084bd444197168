#!/usr/bin/env python3
"""Holds the words together: the man page, the completions and the help against docs/FORMATS.md.

tests/words_test.py [--program FILE] compares commands, options, ranges, what is left out, and the lines and kinds of
faults, how each command is called, what is said of figures and of options, and what the shells complete (words_shells.py),
and runs the examples of the man page and of the help. It tries each number at the ends of its range, one past them and far
above them, with the status and the line of its fault, and each option that may be left out beside what it is then. The
version that is printed is the day of the changelog's newest section.
"""
import argparse
import os
import re
import subprocess
import sys
import tempfile

import quick
from words_shells import HELP, VERSION, ZSH, completion_faults, said_in_bash, said_in_zsh

# Kinds of a tariff's faults that the program says as those of a run.
OF_RUN = {"Device", "OutOfMemory"}
TABLES_NAMED = r"(reports|ops|setup|script|book|records|messages) row"

TARIFF = "prefix,from,fee,rate\n49,00:00,50,1000\n"


def call(answer):
    """The input of a run with one call, which is answered at this moment."""
    return (f"{TARIFF}%%\nkind,key,value\naccount,7,5000\nsubscriber,491700001,7\n%%\nmoment,call,what,x,y\n"
            f"0,1,start,491700001,4930\n{answer},1,answer,,\n900,1,disconnect,1,\n")


def served(answer):
    """The input of the service with the same call."""
    return call(0).split("moment,")[0] + ("moment,number,call,from,what,x1,x2,x3,x4\n0,,1,switch,InitialDP,491700001,4930,,\n"
            f"{answer},,1,switch,EventReportBCSM,answer,,notify,\n900,,1,switch,EventReportBCSM,disconnect,1,interrupted,\n")


# Of each command the words that it needs, and an input.
NEEDS = {
    "price": ({"--fee": "50", "--before": "1000"}, "before,after\n600,0\n"),
    "replay": ({"--opening": "5000"}, "seat,op,call,x1,x2,x3,x4,x5\n" + "0,reserve,1,50,1000,,600,50\n0,settle,1,0,n,600,,\n" * 2),
    "quote": ({"--called": "4930", "--at": "0"}, TARIFF),
    "run": ({}, call(10)),
    "serve": ({}, served(10)),
}
# What the example in a help is given besides: that of price has a switch.
AS_IN_HELP = {"price": ["--after", "400"]}
# Options that may be left out: words beside one, an input, and a word that gives another answer than what the option is
# then.
LEFT_OUT = [
    ("price", "--free", [], NEEDS["price"][1], "1"),
    ("price", "--first", [], NEEDS["price"][1], "601"),
    ("price", "--step", [], NEEDS["price"][1], "601"),
    ("replay", "--limit", [], NEEDS["replay"][1], "3"),
    ("run", "--wanted", ["--book"], call(10), "601"),
    ("run", "--least", ["--book"], call(10), "51"),
    ("run", "--tssf", ["--delay", "100", "--tccd", "100", "--least", "100"], call(200), "101"),
    ("run", "--tssf", ["--delay", "99", "--tccd", "99", "--least", "99"], call(200), "99"),
    ("run", "--tccd", ["--least", "49"], call(10), "49"),
    ("run", "--delay", [], call(2), "3"),
    ("run", "--delay", [], call(1), "1"),
    ("serve", "--wanted", [], served(10), "601"),
    ("serve", "--least", ["--book"], served(10), "51"),
    ("serve", "--tccd", ["--least", "49"], served(10), "49"),
]


def cells(line):
    return [it.strip().replace("\\|", "|") for it in line.strip().strip("|").split("|")]


def tables_of(text):
    """The rows of each table of a page, by the first cell of its header."""
    found, rows = {}, None
    for line in text.split("\n"):
        if not line.startswith("|"):
            rows = None
        elif rows is None:
            rows = found.setdefault(cells(line)[0], [])
        elif not line.startswith("|---"):
            rows.append(cells(line))
    return found


def said_in_formats(text):
    """Commands with their options, (range, left out) of each option that takes a value, the lines of faults with the
    status of each, and the kinds of faults."""
    tables = tables_of(text)
    commands, values = {"help": set()}, {}
    for name, options, *_ in tables["Command"]:
        name, found = name.strip("`"), re.findall(r"(--[a-z]+) [A-Z]+", options)
        commands[name] = set(found) | set(re.findall(r"\[(--[a-z]+)\]", options)) | HELP
        for option in found:
            behind = options[options.index(option) :]
            if f"{option} NAME" in options:
                continue  # the name of a column
            values[name, option] = re.search(r"\d+ to (\d+\^)?\d+", behind)[0], None
            if re.match(rf"{option} N\]` [^`]*it is where it is left out", behind):
                values[name, option] = values[name, option][0], values[name, option][0].split()[-1]
            elif left := re.match(rf"{option} N\]` [^`]*which is (\d+) where it is left out", behind):
                values[name, option] = values[name, option][0], left[1]
    for name in ("run", "serve"):
        for option, left, allowed, _ in tables[f"Option of `{name}`"]:
            option, *takes = option.strip("`").split()
            commands[name].add(option)
            if takes and takes[0] not in ("FILE", "FOLDER"):
                values[name, option] = allowed.replace("`", ""), left.strip("`") or None
    lines = {it: int(row[1]) for row in tables["Line"] if row[0] != "none" for it in fault_lines(row[0])}
    lines |= {f"prepaid: run: {it}": int(row[1]) for row in tables["Line"] for it in re.findall(r"`(\w+)` is a name too", row[2])}
    kinds = {row[0].strip("`") for row in tables["KIND"]}
    return commands, values, lines, kinds


def fault_lines(cell):
    first, *more = re.findall("`([^`]*)`", cell)
    return [first, *(first.rsplit(" ", 1)[0] + " " + it for it in more)]


def plain(line):
    """The words of a line of the man page, without what is for its looks."""
    if re.match(r"\.(B|I|BI|BR|RB|RI) ", line):
        pieces = re.findall(r'"([^"]*)"|(\S+)', line.split(" ", 1)[1])
        glue = " " if line.startswith((".B ", ".I ")) else ""
        line = glue.join(a or b for a, b in pieces)
    return re.sub(r"\\f[RBI]", "", line).replace("\\-", "-")


def entries_of(text):
    """What the man page says of each term: (section, sub-section, term, text)."""
    section = below = None
    entries, lines = [], text.split("\n")
    for at, line in enumerate(lines):
        word, _, rest = line.partition(" ")
        if word == ".SH":
            section, below = rest, None
        elif word == ".SS":
            below = rest
            entries.append([section, below, None, ""])
        elif word == ".TP":
            entries.append([section, below, plain(lines[at + 1]), ""])
        elif entries and not (at and lines[at - 1] == ".TP"):
            entries[-1][3] += plain(line) + " "
    return entries


def usages_in_man(text):
    """How each command is called: the lines of the synopsis, each ended by the name of its input."""
    lines = text.split(".SH SYNOPSIS\n")[1].split(".SH")[0].split(".br\n")
    usages = [" ".join(" ".join(map(plain, it.strip().split("\n"))).split()) for it in lines]
    return {it.split()[1]: re.sub(r"< [A-Z]+$", "< FILE", it) for it in usages}


def usages_in_help(program, names):
    """The same, as the help of each command says it."""
    told = {it: subprocess.run([program, "help", it], capture_output=True, text=True, check=True).stdout for it in names}
    return {it: re.sub(r"<(\w+)>", r"\1", re.search(r"^Usage: (.*)$", text, re.M)[1]) for it, text in told.items()}


def said_in_man(text):
    commands, values, lines, kinds = {}, {}, set(), set()
    for section, below, term, said in entries_of(text):
        if section == "COMMANDS" and term is None:
            commands[below] = set()
        elif section == "COMMANDS":
            option, *takes = term.replace(",", "").split()
            commands[below] |= {it for it in term.replace(",", " ").split() if it.startswith("-")}
            if takes and takes[0] not in ("NAME", "FILE", "FOLDER") and not takes[0].startswith("-"):
                allowed = re.search(r"Range: ([^.]*)\.", said)[1]
                left = re.search(r"Left out: ([^.]*)\.", said)
                values[below, option] = allowed, left and left[1]
        elif section == "DIAGNOSTICS" and below is None:
            lines.add(term)
        elif section == "DIAGNOSTICS" and term:
            kinds.add(term)
    return commands, values, lines, kinds


def said_in_help(program):
    """The commands and options of the help, what it says in brackets, and the lines and kinds of faults."""

    def told(*words):
        return subprocess.run([program, *words], capture_output=True, text=True, check=True).stdout

    names = re.findall(r"^  ([a-z]+)  ", told("--help").split("Options:")[0], re.M)
    commands, left, lines, kinds = {}, {}, set(), set()
    for name in names:
        text, _, faults = told("help", name).partition("\nA fault is")
        lines |= {it for line in re.findall(r"^  (prepaid: .*)$", faults, re.M) for it in continued(line)}
        kinds |= set(re.findall(r"^  ([A-Z]\w+)  ", faults.partition("\nKinds:")[2].partition("\n\n")[0], re.M))
        text = text.split("Input, ")[0]
        commands[name] = set(re.findall(r"^ +(?:-h, )?(--[a-z]+)", text, re.M))
        commands[name] |= HELP if "-h, --help" in text else set()
        for option, value in re.findall(r"^ +(--[a-z]+) <.*\[(?:default: )?(\w+)\]$", text, re.M):
            left[name, option] = value
    if not VERSION <= set(told("--help").replace(",", " ").split()):
        raise SystemExit("help: no version")
    return commands, left, {re.sub(TABLES_NAMED, "TABLE row", it) for it in lines}, kinds


def options_in_help(program, names):
    """Of each option of a command what its value is called, if it takes one, and what its help says of it."""
    found = {}
    for name in names:
        text = told_of(name, program).partition("\nOptions:\n")[2].partition("\n\n")[0]
        rows = re.findall(r"^ +(--[a-z]+)(?: <(\w+)>)? +(.*?)(?: \[[^]]*\])?$", text, re.M)
        found |= {(name, option): (value, said) for option, value, said in rows}
    return found


def sentences_of(formats):
    """What helps and the man page say in the words of the formats: which of them, and these words."""

    def found(pattern):
        return re.search(pattern, formats.replace("`", "")).groups()

    (difference,), (over,) = found(r"\| difference \| (.*?),"), found(r"Over is (.*?), over the rows")
    (times,), (monday, sunday) = found(r"Without one they are (.*)\. So the table"), found(r"(\d) is Monday and (\d) is Sunday")
    (again,) = found(r"with --again N so that their rows (.*?) behind the header")
    (files,) = found(r"(once all four are) on the disk they get their names")
    torn, cut = found(r"(What is behind the last LF of) a log was (cut off)")
    days = f"digits from {monday} (Monday) to {sunday}"
    return [
        (["rate", "man"], f"The difference is {difference}"),
        (["rate"], f"over: {over}, under: how much less"),
        (["rate", "man"], times.replace(" where it has that", "")),
        (["run", "quote", "rate", "serve", "man"], days),
        (["run", "quote", "rate", "serve"], f"{days} (Sunday)"),
        (["price", "replay", "run", "quote", "rate", "serve", "man"], "a rate is money a minute"),
        (["serve"], f"with --again N the rows of those {again} again"),
        (["serve"], f"{torn} FILE is {cut}"),
        (["run", "man"], f"{files} written"),
    ]


def sentence_faults(program, formats, manual, options):
    """Where a help or the man page says something else of what a figure or an option is than the formats, or than the other."""
    entries = entries_of(manual)
    pages = {"man": " ".join(map(plain, manual.split("\n")))}
    pages |= {name: " ".join(told_of(name, program).split()) for name in (*NEEDS, "audit", "rate")}
    wrong = [f"{it}: doesn't say: {said}" for names, said in sentences_of(formats) for it in names if said not in pages[it]]
    for name in ("run", "serve"):
        of_man = {term.split()[0]: said for section, below, term, said in entries
                  if section == "COMMANDS" and below == name and term}
        for option, _, _, said in tables_of(formats)[f"Option of `{name}`"]:
            option, said = option.strip("`").split()[0], said.replace("gsmSSF", "switch").partition(";")[0]
            if re.match("how |the (time|least) ", said) and not of_man[option].lower().startswith(said):
                wrong.append(f"man: {name} {option}: {of_man[option]} in place of {said}")
    for section, name, term, said in entries:
        if section == "COMMANDS" and name not in ("run", "serve", "help") and term and not term.startswith("-h"):
            clause = options[name, term.split()[0]][1].partition(",")[0]
            if not said.startswith(clause):
                wrong.append(f"man: {name} {term}: {said} in place of {clause}")
    return wrong


def faults_of(what, name, program):
    """The faults that a row or a line of a command may have, in the order of the help."""
    text = subprocess.run([program, "help", name], capture_output=True, text=True, check=True).stdout
    return re.findall(r"^  (\w+)  ", text.partition(f"\nFaults of a {what}")[2], re.M)


def told_of(name, program):
    """The help of a command."""
    return subprocess.run([program, "help", name], capture_output=True, text=True, check=True).stdout


def statuses_in_help(program):
    """The exit statuses that the help of each command has, in order, and whether something is refused or failed then."""
    texts = {it: told_of(it, program).partition("\nExit status:\n")[2].partition("\n\n")[0] for it in {*NEEDS, "audit", "rate"}}
    return {it: [(status, *re.findall("refused|failed", said)[:1]) for status, said in re.findall(r"^  (\d)  (.*)", text, re.M)]
            for it, text in texts.items()}


def units_in_help(program):
    """How many milliseconds the helps say that a unit has."""
    return {unit for it in {*NEEDS, "audit", "rate"} for unit in re.findall(r"(\d+) ms", told_of(it, program))}


def lengths_in_help(program):
    """How long a row of `rate` and a line of `serve` may be, as their help says it."""
    return {it: re.search(r"^  TooLong +More than (\d+) bytes$", told_of(it, program), re.M)[1] for it in ("rate", "serve")}


def lengths_in_formats(text):
    """The same, as the formats say it."""
    line = {it[0]: it[1] for it in tables_of(text)["Fault of a line"]}["`TooLong`"]
    return {"rate": re.search(r"A row of more than (\d+) bytes", text)[1], "serve": re.search(r"more than (\d+) bytes", line)[1]}


def example_faults(program):
    """What the example in the help of each command comes to, where it isn't taken as right."""
    faults = []
    for name in sorted({*NEEDS, "audit", "rate"}):
        text = re.search(r"for example:\n\n((?:  .*\n)+)", told_of(name, program))[1].replace("\n  ", "\n")[2:]
        needed = [it for pair in NEEDS.get(name, ({},))[0].items() for it in pair] + AS_IN_HELP.get(name, [])
        ran = subprocess.run([program, name, *needed], input=text, capture_output=True, text=True)
        if ran.returncode or ran.stderr or not ran.stdout:
            faults.append(f"help: the example of {name}: {ran.returncode} {ran.stdout!r} {ran.stderr!r}")
    return faults


def ranges_in_help(program):
    """Of each command the ranges that its help has: of the options, of the kinds, and between the times of a run."""
    found = {}
    for name in NEEDS | {"audit": None}:
        text = subprocess.run([program, "help", name], capture_output=True, text=True, check=True).stdout
        above, _, kinds = text.partition("\nKinds:\n")
        told = {option: said for option, said in re.findall(r"^ +(--[a-z]+) <\w+> +(.*)$", above, re.M)}
        told |= {kind: said for kind, said in re.findall(r"^  ([A-Z]\w+)  +(.*(?:\n {5,}.*)*)", kinds, re.M)}
        found |= {(name, it): numbers_of(said) for it, said in told.items() if numbers_of(said)}
        found |= {(name, "TooLong"): re.findall(r"More than (\d+) bytes", above)}
        if related := re.search(r"1 <= .*?\.", above, re.S):
            found |= {(name, "times"): " ".join(related[0].split())}
    return found


def numbers_of(said):
    """The ranges and the limits that a text has, without its unit and what is left out."""
    return re.findall(r"[\d:]+ to \d+(?::\d+)?|\d{3,}", re.sub(r"\[.*|\d+ ms", "", said))


def ranges_in_formats(text, values):
    """The same, as the formats say it."""
    tables = tables_of(text)
    rows = {it[0]: it[2] for it in tables["Table"]}
    few, many = re.search(r"A table has at most (\d+) rows besides its header, a script and a book (\d+)", text).groups()
    accounts = re.search(r"also the (\d+)st account", text)[1]
    wanted = {(name, "TooManyRows"): [few] for name in ("price", "replay", "quote")}
    long = re.search(r"`audit --long` reads .* of at most (\d+) rows", text)[1]
    wanted |= {("audit", "TooManyRows"): [many, long], ("run", "TooManyRows"): [few, many, accounts], ("serve", "TooManyRows"): [few, accounts]}
    wanted |= {(it, "TooLong"): re.findall(r"input has at most (\d+) bytes", text) for it in (*NEEDS, "audit")}
    for name in ("run", "quote", "serve"):
        wanted |= {(name, kind): [it] for kind, it in zip(("Digits", "From", "Money", "Free", "First", "Step"), numbers_of(rows["tariff"]))}
    wanted["run", "Number"] = wanted["serve", "Number"] = re.findall(r"a party that isn't (\d+ to \d+) digits", text)
    wanted["price", "Number"] = numbers_of(rows["reports"])
    wanted["replay", "--limit"] = numbers_of(values["replay", "--limit"][0])
    wanted["price", "Order"] = [numbers_of(rows["reports"])[0].split()[-1]]
    wanted["run", "--workers"] = re.findall(r"takes (\d+ to \d+)", values["run", "--workers"][0])
    wanted["run", "--threads"] = numbers_of(values["run", "--threads"][0])
    wanted["run", "times"] = f"{relation_of('run', '--delay', values)}, and tssf is {values['run', '--tssf'][0]}."
    wanted["serve", "times"] = f"{relation_of('serve', '--tccd', values)}."
    return wanted


def relation_of(name, first, values):
    """The relation between the times of a command, from the least one on, as their ranges say it."""
    times, above = [], first
    while (name, above) in values:
        least, most = values[name, above][0].split(" to ")
        times, above = times + ([least] if not times else []) + [above[2:]], "--" + most
    return f"{' <= '.join(times)} <= {most}"


def long_books(program):
    """How `audit --long` judges a book of more rows and bytes than `audit` takes: a full account refuses money in each row."""
    wrong, row = [], "1,0,credit,,1,,,,,over,,,1000000000000000\n"
    header = "account,seat,op,call,x1,x2,x3,x4,x5,reply,y1,y2,y3\n1,,opening,,1000000000000000,,,,,,,,\n"
    book = header + row * 1_000_001
    for words, text, wanted in [
        (["--long"], book, (0, "account 1 yes\n", "")),
        (["--long"], book + row.replace("1000000000000000", "999999999999999"), (3, "account 1 no\n", "")),
        ([], book, (1, "", "prepaid: input: TooLong\n")),
    ]:
        ran = subprocess.run([program, "audit", *words], input=text, capture_output=True, text=True)
        if (ran.returncode, ran.stdout, ran.stderr) != wanted:
            wrong.append(f"audit {' '.join(words)} of {len(text)} bytes: {ran.returncode} {ran.stdout!r} {ran.stderr!r} in place of {wanted}")
    return wrong


def continued(line):
    """A line of a fault, and those whose last words stand behind it."""
    first, *more = line.split(", ")
    return [first, *(first.rsplit(" ", 1)[0] + " " + it for it in more)]


def version_faults(program):
    """How the version that is printed differs from the changelog's newest day, and that of the sources from which a program
    is built without proofs from this day with a word that says so."""
    told = subprocess.run([program, "--version"], capture_output=True, text=True, check=True).stdout
    with open("CHANGELOG.md") as file:
        day = re.search(r"^## (\S+)$", file.read(), re.M)[1]
    with tempfile.TemporaryDirectory() as folder:
        quick.copy_sources(folder)
        with open(f"{folder}/crates/table_commands/src/help.rt") as copy, open("crates/table_commands/src/help.rt") as file:
            is_marked = copy.read() == file.read().replace(f'VERSION: &str = "{day}"', f'VERSION: &str = "{day} (unproved)"')
    wanted = f"prepaid {day}\n"
    wrong = [] if told == wanted else [f"version: {told!r} in place of {wanted!r}"]
    return wrong if is_marked else [*wrong, "version: that of a program that is built without proofs doesn't say so"]


def answer(program, name, words, text, option=None, value=None):
    """What a command with the words that it needs says to an input: its status, what it prints, and its fault."""
    needed = [it for pair in NEEDS[name][0].items() if pair[0] != option for it in pair]
    with tempfile.NamedTemporaryFile() as log:
        beside = {"--again": ["--log", log.name], "--threads": ["--parts", "2"]}
        given = [] if value is None else [option, value, *beside.get(option, [])]
        ran = subprocess.run([program, name, *needed, *words, *given], input=text, capture_output=True, text=True)
    return ran.returncode, ran.stdout, ran.stderr


def ends_of(command, allowed, defaults):
    """The least and the greatest number of a range; the name of an option stands for what that is where it is left out."""
    least, most = re.search(r"(\S+) to (\S+)$", allowed.replace("`", "")).groups()

    def number(word):
        base, _, power = defaults.get((command, "--" + word), word).partition("^")
        return int(base) ** int(power or 1)

    return number(least), number(most)


def refusal(name, option, value, allowed, defaults):
    """The fault that a number of an option has by the formats, or nothing where it is in range."""
    least, most = ends_of(name, allowed, defaults)
    if least <= value <= most:
        return ""
    # a decimal has at most 20 digits; how many workers may be asked for comes first in their range
    asked = re.match(r"\d+ to (\d+);", allowed)
    is_ask = name not in ("run", "serve") or option in ("--again", "--parts", "--threads")
    if is_ask or value >= 10**20 or asked and value > int(asked[1]):
        return "prepaid: arguments"
    return "prepaid: run: Workers" if asked else "prepaid: input: Config"


def range_faults(program, values, lines):
    """Where the program takes other numbers than the formats say, or takes an option that is left out for another."""
    faults, defaults = [], {it: left for it, (_, left) in values.items() if left}
    for (name, option), (allowed, _) in values.items():
        if option == "--default":
            continue
        least, most = ends_of(name, allowed, defaults)
        tried = [most, most + 1] + [least, least - 1][: 1 + (least > 0)]
        if option != "--called":
            tried += [99, 100, 2**32, 2**32 + most, 2**64 - 1, 2**64 + least, 10**20 - 1, 10**20]
        for value in tried:
            word = "4" * value if option == "--called" else str(value)
            status, _, fault = answer(program, name, [], NEEDS[name][1], option, word)
            refused = refusal(name, option, value, allowed, defaults)
            wanted = (lines[refused], refused + "\n") if refused else (0, "")
            if (status, fault) != wanted:
                faults.append(f"{name} {option} {word}: {(status, fault)} in place of {wanted}")
    # how many workers and threads there are, and what becomes of a call without orders, change no answer
    alike = {("run", it) for it in ("--workers", "--parts", "--threads", "--default")}
    tried = {(name, option) for name, option, *_ in LEFT_OUT} | alike
    faults += [f"{it}: not tried" for it in defaults if it not in tried]
    for name, option, words, text, other in LEFT_OUT:
        is_left = defaults[name, option]
        left, same, changed = (answer(program, name, words, text, option, value) for value in (None, is_left, other))
        if left != same or left == changed:
            faults.append(f"{name} {option}: left out it isn't {is_left}, or is {other} as well")
    return faults


def examples_of(text):
    """Each example of the man page: its command line, and what it prints."""
    found = []
    for block in re.findall(r"^\.EX\n(.*?)^\.EE", text, re.M | re.S):
        for one in re.split(r"^\$ ", block.replace("\\-", "-"), flags=re.M)[1:]:
            line, _, printed = one.partition("\n")
            found.append((line, printed))
    return found


def main():
    asked = argparse.ArgumentParser(description=__doc__)
    asked.add_argument("--program", default="bin/prepaid")
    program = os.path.abspath(asked.parse_args().program)
    os.chdir(os.path.join(os.path.dirname(os.path.abspath(__file__)), ".."))
    with open("docs/FORMATS.md") as file:
        formats = file.read()
    commands, values, lines, kinds = said_in_formats(formats)
    with open("man/prepaid.1") as file:
        manual = file.read()
    of_man, of_help = said_in_man(manual), said_in_help(program)
    of_bash, of_zsh = said_in_bash(set(commands)), said_in_zsh(ZSH)
    defaults = {it: left for it, (_, left) in values.items() if left}
    words = {("run", "--default"): values["run", "--default"][0]}
    faults = version_faults(program) + range_faults(program, values, lines) + long_books(program) + example_faults(program)
    options = options_in_help(program, {*NEEDS, "audit", "rate"})
    faults += completion_faults(program, options, commands) + sentence_faults(program, formats, manual, options)

    def same(where, what, found, wanted):
        if found != wanted:
            more = [it for it in found if it not in wanted or isinstance(wanted, dict) and found[it] != wanted[it]]
            less = [it for it in wanted if it not in found or isinstance(wanted, dict) and found[it] != wanted[it]]
            faults.append(f"{where}: {what}: {[(it, found[it]) if isinstance(found, dict) else it for it in more]}"
                          f" in place of {[(it, wanted[it]) if isinstance(wanted, dict) else it for it in less]}")

    same("man page", "options", of_man[0], commands)
    same("man page", "ranges and what is left out", of_man[1], values)
    same("man page", "lines of faults", of_man[2], set(lines))
    same("man page", "kinds of faults", of_man[3], kinds)
    limits = set(re.findall(r"\d+", manual.split(".SH LIMITS")[1].split(".SH")[0]))
    same("man page", "limits", limits, limits & set(re.findall(r"\d+", formats)))
    same("help", "options", {**of_help[0], "help": set()}, commands)
    same("help", "lines of faults", of_help[2], set(lines))
    usages = usages_in_man(manual)
    same("help", "usage", usages_in_help(program, set(usages) - {"help"}), {it: usages[it] for it in usages if it != "help"})
    same("help", "kinds of faults", of_help[3], kinds - OF_RUN)
    same("help", "faults of a row", faults_of("row", "rate", program), re.findall(r"`(\w+)`", re.search(r"are: the first of (.*?) \|", formats)[1]))
    same("help", "faults of a line", faults_of("line", "serve", program), [it[0].strip("`") for it in tables_of(formats)["Fault of a line"]])
    same("help", "left out", of_help[1], {it: defaults[it] for it in defaults if it[0] == "run" or it in of_help[1]})
    same("help", "ranges", ranges_in_help(program), ranges_in_formats(formats, values))
    statuses = [("0",), ("1", "refused"), ("2", "failed")]
    same("help", "statuses", statuses_in_help(program), {it: statuses for it in NEEDS} | {it: [*statuses, ("3",)] for it in ("audit", "rate")})
    same("help", "milliseconds", units_in_help(program), {"100"})
    told = {term: re.findall("went to the output|are wrong|failed", said)[:1] for section, _, term, said in entries_of(manual) if section == "EXIT STATUS"}
    same("man page", "statuses", told, {"0": ["went to the output"], "1": ["are wrong"], "2": ["failed"], "3": ["went to the output"]})
    same("help", "lengths of a row and a line", lengths_in_help(program), lengths_in_formats(formats))
    for name, (found, told) in (("bash", of_bash), ("zsh", of_zsh)):
        same(name, "options", found, commands)
        same(name, "words", told, words)
    examples = examples_of(manual)
    for line, printed in examples:
        ran = subprocess.run(["bash", "-c", 'prepaid() { "$PROGRAM" "$@"; }\n' + line], capture_output=True, text=True, env={**os.environ, "PROGRAM": program})
        if ran.stdout != printed or ran.returncode not in (0, 3):
            faults.append(f"man page: {line} printed {ran.stdout!r} {ran.stderr!r}")
    print("\n".join(faults) or f"words: {sum(map(len, commands.values()))} options of {len(commands)} commands, {len(lines)} lines"
          f" and {len(kinds)} kinds of faults, {len(examples)} examples")
    return 1 if faults or not examples else 0


if __name__ == "__main__":
    sys.exit(main())
