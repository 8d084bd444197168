#!/usr/bin/env python3
"""Compares the reports of examples/report.py with the tables of their runs: tests/report_test.py [--program FILE]

Each figure of a report is asked of the tables by sqlite3, the paths of its pictures are read, and a parser goes through
its HTML. It must refuse tables that are missing, cut short or of another run, and leave no file then. Where Chromium is
installed, the report of the evening is looked at in it, wide and narrow, light and dark. The programs for awk beside it
are tried with numbers that awk can't tell apart.
"""
import argparse
import contextlib
import io
import os
import re
import resource
import shutil
import subprocess
import sys
import tempfile

TOP = os.path.dirname(os.path.dirname(os.path.abspath(__file__)))
EXAMPLES = os.path.join(TOP, "examples")
sys.path.insert(0, EXAMPLES)
import report as program_of_reports
from model.command import TABLES as OPTIONS
from model.inputs import make
from report_browser import look
from report_figures import Looked, compared, report, same
from report_tables import Page

TABLES = {"lines.txt": [], "book.csv": ["--book"], "calls.csv": ["--calls"], "trace.csv": ["--trace"]}
# An account without calls beside one with a call, and no call at all.
NONE = b"""prefix,from,fee,rate
49,00:00,50,1000
%%
kind,key,value
account,7,1500
subscriber,491,7
account,8,900
%%
moment,call,what,x,y
"""
# A call after the last moment of its account, which a recharge has left as it was, and one without credit at that of another.
EXPIRED = b"""prefix,from,fee,rate
49,00:00,50,1000
%%
kind,key,value,until
account,7,1500,1000
subscriber,491,7,
account,8,0,2000
subscriber,492,8,
%%
moment,call,what,x,y,z
500,,recharge,7,100,
2000,1,start,491,4930,
2000,2,start,492,4930,
"""
DIAGRAM = "sequenceDiagram\n    participant switch\n    participant service\n"
IDLE = NONE + b"5,1,start,491,4930\n100,1,answer,,\n400,1,disconnect,1,\n"


def example(name):
    with open(f"{EXAMPLES}/{name}.txt", "rb") as file:
        return file.read()


def play(program, text, folder, options=()):
    """The tables of a run, made by one worker."""
    os.makedirs(folder)
    for name, words in TABLES.items():
        with open(os.path.join(folder, name), "wb") as file:
            words = [program, "run", *options, "--workers", "1", *words]
            subprocess.run(words, input=text, stdout=file, stderr=subprocess.DEVNULL, check=True)
    return folder


def without(pattern):
    """Leaves the lines out that have a pattern."""
    return lambda text: "".join(it for it in text.splitlines(True) if not re.search(pattern, it))


def changed(old, new):
    return lambda text: re.sub(old, new, text, count=1, flags=re.M)


def twice(pattern):
    return lambda text: re.sub(rf"^{pattern}.*\n", lambda it: it[0] * 2, text, count=1, flags=re.M)


# What is refused of the evening: a table, what becomes of it, and words of the line that says so.
SEVERAL, NO_MESSAGE = "not of one run", "in book.csv answers no message of trace.csv"
WRONG = [
    *((name, lambda text: None, f"No such file or directory: '{{}}/{name}'") for name in TABLES),
    *((name, lambda text: text[:-5], f"{name} row {{rows}}: cut short") for name in TABLES),
    *((name, lambda text: "", f"{name} row 1: the header") for name in TABLES if name != "lines.txt"),
    *((name, changed("paid|x4", "y"), f"{name} row 1: the header") for name in ("calls.csv", "trace.csv", "book.csv")),
    ("lines.txt", lambda text: "", f"{SEVERAL}: account 101: lines.txt has none"),
    ("lines.txt", without("^account 107"), f"{SEVERAL}: account 107: lines.txt has none"),
    ("lines.txt", without("^call 51 "), f"{SEVERAL}: call 51: lines.txt has none"),
    ("lines.txt", changed("available 685", "available 686"), f"{SEVERAL}: account 101: lines.txt has opening 10000"),
    ("lines.txt", changed("paid 770", "paid 771"), f"{SEVERAL}: call 25: lines.txt has account 106, paid 771"),
    ("lines.txt", changed("returned", "gone"), "lines.txt row 8: no line of a run"),
    ("book.csv", without("^107,0,return,48"), "account 107: lines.txt has opening 12000, available 3710, entries"),
    ("book.csv", without("^107,"), "calls.csv: the account of call 2 is not in book.csv"),
    ("book.csv", without("^106,,opening"), "book.csv: account 106 has no opening"),
    ("book.csv", twice("106,,opening"), "book.csv: account 106 has no opening, or two"),
    ("book.csv", changed("^(101,0,settle,1,)(\\d+)", r"\g<1>9\2"), f"a settle of call 1 {NO_MESSAGE}"),
    ("book.csv", changed("^(101,0,settle,1,\\d+,n,)600", r"\g<1>599"), f"a settle of call 1 {NO_MESSAGE}"),
    ("book.csv", changed("^(101,0,reserve,1,.*,)648700", r"\g<1>648701"), f"a reserve of call 1 {NO_MESSAGE}"),
    ("book.csv", changed("^101,0,credit,,8000", "101,0,credit,,8001"), f"account 101: a credit {NO_MESSAGE}"),
    ("book.csv", changed("^(101,0,reserve,1,.*,)9050$", r"\g<1>10001"),
     "account 101: book.csv has more available than there is"),
    ("book.csv", changed("^101,0", "1o1,0"), "book.csv row 3: no row of this table"),
    ("calls.csv", without("^51,"), f"{SEVERAL}: call 51: calls.csv has none"),
    ("calls.csv", without("^20,"), f"{SEVERAL}: call 20: calls.csv has none"),
    ("calls.csv", twice("20,"), "calls.csv: call 20 isn't where it belongs"),
    ("calls.csv", changed(",106,4915,", ",108,4915,"), "calls.csv: the account of call 25 is not in book.csv"),
    ("calls.csv", changed(",106,4915,", ",107,4915,"), f"{SEVERAL}: call 25: calls.csv has account 107"),
    ("calls.csv", changed("49155566666", "49155566667"), f"{SEVERAL}: call 25: calls.csv has calling 4917160001"),
    ("calls.csv", changed("49155566666", "<b>"), "calls.csv row 26: no row of this table"),
    ("calls.csv", changed(",360,0,770,cut", ",359,0,770,cut"), f"{SEVERAL}: call 25: calls.csv has account 106"),
    ("calls.csv", changed("0,unknown", "5,unknown"), f"{SEVERAL}: call 20: calls.csv has account None, paid 5"),
    ("calls.csv", changed("0,noroute", "0,denied"), "call 18 is denied in calls.csv, and book.csv has no reserve"),
    ("calls.csv", changed("770,cut", "770"), "calls.csv row 26: no row of this table"),
    ("calls.csv", changed("770,cut", "-770,cut"), "calls.csv row 26: no row of this table"),
    ("trace.csv", changed("^648700", "1970-01-01T18:01:10.0"), "no row of this table; write the tables without --clock"),
    ("trace.csv", without(",Ended,"), "trace.csv: message"),
    ("trace.csv", without("^762994,"), f"{SEVERAL}: call 51: calls.csv has calling 4917140001"),
    ("trace.csv", without("^762[0-9]+,"), f"account 104: a reserve of call 51 {NO_MESSAGE}"),
    ("trace.csv", without(",Recharge,"), "trace.csv: message 126 is missing"),
    ("trace.csv", changed("^(.*,126,,)operator.*$", r"\g<0>" + r"\n\1service,stray,,,," * 2),
     "trace.csv: message 126 is no recharge"),
    ("trace.csv", changed("Recharge,101,8000", "Recharge,101,8001"), f"account 101: a credit {NO_MESSAGE}"),
]


def reported(output, *words):
    """What the program says and ends with, as it is called in this process."""
    with contextlib.redirect_stdout(io.StringIO()) as out, contextlib.redirect_stderr(io.StringIO()) as err:
        sys.argv = ["report", "--output", output, *words]
        status = program_of_reports.main()
    return subprocess.CompletedProcess(sys.argv, status, out.getvalue(), err.getvalue())


def refuses(evening, dearer, folder):
    """Tables that are refused: a line, a status, and no file, nor another in place of one that is there."""
    output, sample = os.path.join(folder, "refused.html"), os.path.join(folder, "sample")
    with open(output, "w") as file:
        file.write("an earlier report")
    others = [(name, None, "") for name in TABLES]
    for name, change, words in [*WRONG, *others]:
        shutil.rmtree(sample, ignore_errors=True)
        shutil.copytree(evening, sample)
        path = os.path.join(sample, name)
        with open(path, newline="") as file:
            text = file.read()
        words = words.format(sample, rows=text.count("\n"))
        text = change(text) if change else None
        if not change:  # a table of another run
            shutil.copy(os.path.join(dearer, name), path)
        elif text is None:
            os.unlink(path)
        else:
            with open(path, "w", newline="") as file:
                file.write(text)
        refused(f"{name}: {words}", reported(output, sample), words, output)
    refused("a file larger than there is room", report(output, evening, preexec_fn=small), "File too large", output)
    refused("an account that isn't there", report(output, "--picture", "9", evening), "there is no account 9", output)
    os.unlink(output)
    ran = report(output, evening, preexec_fn=small)
    same("a new file larger than there is room", (ran.returncode, os.path.exists(output)), (1, False))


def small():
    resource.setrlimit(resource.RLIMIT_FSIZE, (1_000, 1_000))


def refused(what, ran, words, output):
    told = re.fullmatch("report: .*\n", ran.stderr)
    if ran.returncode != 1 or ran.stdout or not told or words not in ran.stderr:
        raise SystemExit(f"{what}: status {ran.returncode}, {ran.stdout}{ran.stderr}")
    with open(output) as file:
        same(f"{what}: the file that was there", file.read(), "an earlier report")
    same(f"{what}: files", [it for it in os.listdir(os.path.dirname(output)) if "refused" in it], ["refused.html"])


def notes(program, folder):
    """An account without calls, and no call at all, are no faults: a line says so."""
    for name, text, note in (("idle", IDLE, "accounts without calls: 8"), ("none", NONE, "no call was started")):
        tables = play(program, text, os.path.join(folder, name))
        looked = Looked(os.path.join(folder, f"{name}.html"), [tables])
        looked.look()
        same(note, looked.noted, f"report: {tables}: {note}\n")


def random(program, folder, count):
    """Reports of runs whose inputs are made at random."""
    seed = 11  # the first seeds have inputs of 16 MiB, which say nothing here
    while count:
        seed += 1
        words, text = make(seed)
        if words[:1] != ["run"] or "--workers" in words or len(text) > 100_000:
            continue
        try:
            tables = play(program, text, f"{folder}/random{seed}", [it for it in words[1:] if it not in OPTIONS])
        except subprocess.CalledProcessError:  # an input that the program refuses
            continue
        Looked(f"{folder}/random{seed}.html", [tables]).look()
        count -= 1


def picture(evening, folder):
    """The picture of the README is what the program makes of the evening."""
    output, kept = os.path.join(folder, "balance.svg"), os.path.join(TOP, "docs", "balance.svg")
    report(output, "--picture", "101", evening)
    with open(output, encoding="utf-8") as made, open(kept, encoding="utf-8") as file:
        text = file.read()
        same("docs/balance.svg, which make picture writes", text, made.read())
    page = Page(text).root
    same("docs/balance.svg", (len(text) < 6_000, page.one("svg")["xmlns"], page.one("title").text),
         (True, "http://www.w3.org/2000/svg", "Balance of account 101 over time"))


def numbers_as_texts():
    """A bill and a diagram are of one number alone, also where awk takes another for the same. A bill has all of the time that
    was talked, and no call that wasn't answered; a diagram says what an account refused."""
    bill = ("call,calling\n1,491,4930,7,49,0,100,402,300,0,550,ended\n2,0491,4931,7,49,0,100,402,300,0,550,ended\n"
            "3,492,4930,7,49,0,100,702,300,300,850,ended\n4,492,4930,7,49,1000,,1200,0,0,0,noanswer\n")
    trace = ("moment,number,call\n0,0,18446744073709551615,switch,Ended\n0,1,18446744073709551614,switch,Stray\n"
             "0,2,7,switch,Ended,,,,\n0,2,7,service,refused,HistoryFull,,,\n0,2,7,service,stray,,,,\n")
    for words, text, wanted in (
        (["number=491", "bill"], bill, "00:00:00 4930 30.0 s 550\ntotal 550\n"),
        (["number=492", "bill"], bill, "00:00:00 4930 60.0 s 850\ntotal 850\n"),
        (["call=7", "sequence"], trace, f"{DIAGRAM}    switch->>service: Ended\n    Note right of service: refused HistoryFull\n"
         "    Note right of service: stray\n"),
        (["n=0", "units"], "1 01:02:03.4\n01:02:03.4\n901234\n", "901234\n37234\n1 01:02:03.4\n"),
        (["call=18446744073709551615", "sequence"], trace, f"{DIAGRAM}    switch->>service: Ended\n"),
    ):
        awk = ["awk", "-v", words[0], "-f", f"{EXAMPLES}/{words[1]}.awk"]
        said = subprocess.run(awk, input=text, capture_output=True, text=True, check=True).stdout
        same(f"{words[1]}.awk of {words[0]}", said, wanted)


def large(program, folder):
    """The report of 10,000 calls."""
    words = [sys.executable, f"{EXAMPLES}/generate.py", "--calls", "10000"]
    made = subprocess.run(words, capture_output=True, check=True)
    output = os.path.join(folder, "large.html")
    Looked(output, [play(program, made.stdout, os.path.join(folder, "large"))]).look()
    same("the size of a report of 10,000 calls", os.path.getsize(output) <= 5_000_000, True)
    return output


def main():
    asked = argparse.ArgumentParser(description=__doc__)
    asked.add_argument("--program", default="bin/prepaid")
    asked.add_argument("--screenshots", metavar="FOLDER", help="keeps what was seen in a browser")
    words = asked.parse_args()
    program = os.path.abspath(words.program)
    text = example("evening")
    with tempfile.TemporaryDirectory() as folder:
        evening = play(program, text, f"{folder}/evening")
        text = text.replace(b"49,06:00,50,900", b"49,06:00,50,1100").replace(b"00:00,50,1200", b"00:00,50,1900")
        dearer = play(program, text, f"{folder}/dearer")
        Looked(f"{folder}/evening.html", [evening]).look()
        Looked(f"{folder}/cents.html", [evening], 2).look()
        Looked(f"{folder}/two.html", [evening, dearer], 2).look()
        for name in ("expiring", "free_minute", "call"):
            Looked(f"{folder}/{name}.html", [play(program, example(name), f"{folder}/{name}")]).look()
        Looked(f"{folder}/expired.html", [play(program, EXPIRED, f"{folder}/expired")]).look()
        random(program, folder, 12)
        picture(evening, folder)
        refuses(evening, dearer, folder)
        notes(program, folder)
        numbers_as_texts()
        made = large(program, folder)
        seen = look(f"{folder}/evening.html", [f"{folder}/two.html"], made, words.screenshots or folder)
    print(f"report: {len(compared)} figures and pictures as in the tables; {seen}")


if __name__ == "__main__":
    main()
