#!/usr/bin/env python3
"""Tries what is said of a fault behind its line: tests/explain_test.py [--program FILE]

Each slip of a table is told by its line alone, and with `--explain` in front of the command by this line and the lines of
the table behind it; the output stays empty. The same holds with CR LF at the end of each line, without an LF at the end of
the input, and where the row is at the end of an input of 16 MB. Behind the answer of a run a line says which calls no
subscriber makes, and a further one which events had no place, in parts or not, with the word alone, and the output stays as
it is. Of an output that fails, nothing is said without the word, and with it why it failed, at each command. examples/line_of.awk
names the line of a row in each table.

On a pseudo-terminal a fault is explained without the word, but not behind `--plain`, and a command says that it waits for its
input. A run of more than two seconds shows there how far it is, each fifth of a second, and takes that away at its end; one that
is paused now and then takes as long with less work.
"""
import argparse
import os
import pty
import re
import signal
import socket
import subprocess
import sys
import tempfile
import threading
import time

ROOT = os.path.dirname(os.path.dirname(os.path.abspath(__file__)))
MAX_INPUT = 16_777_216
SECONDS = 300

BAND = "49,00:00,50,1000\n"
TARIFF = f"prefix,from,fee,rate\n{BAND}"
SETUP = "kind,key,value\naccount,7,5000\nsubscriber,491700001,7\n"
SCRIPT = "moment,call,what,x,y\n10,1,start,491700001,4930\n"
WORDS = "start, answer, busy, noanswer, routefail, abandon, disconnect, recharge"
RUN_HEADERS = "moment,call,what,x,y,z or moment,call,what,x,y"


def sections(tariff="", setup="", script=""):
    """The input of a run with these rows behind those that it always has."""
    return f"{TARIFF}{tariff}%%\n{SETUP}{setup}%%\n{SCRIPT}{script}"


# Of each slip the words, the input, the line of the fault behind `prepaid: `, the row as it is shown, if it is, and the lines
# behind it. The row is the last line of the input but for a Header.
SLIPS = [
    ("run", sections(script="20,1,hangup,,\n"), "script row 3: What", "20,1,hangup,,", f"column what: hangup; one of {WORDS}\n"),
    ("run", sections(script="20,1,disconnect,1\n"), "script row 3: Csv", "20,1,disconnect,1",
     "4 fields, and the header has 5: moment,call,what,x,y\n"),
    ("run", sections(script="20,1,answer,5,\n"), "script row 3: Empty", "20,1,answer,5,", "column x: 5, where answer takes nothing\n"),
    ("run", sections(script="5,1,answer,,\n"), "script row 3: Order", "5,1,answer,,", "moment 5 lies below 10 in row 2\n"),
    ("run", sections(script="20,1,start,491700001,4930\n"), "script row 3: Repeated", "20,1,start,491700001,4930",
     "call 1 is in row 2 already\n"),
    ("run", sections(script="20,7,answer,,\n"), "script row 3: Unknown", "20,7,answer,,", "call 7 isn't started in an earlier row\n"),
    ("run", sections(script="20,,recharge,8,1\n"), "script row 3: Unknown", "20,,recharge,8,1", "account 8 isn't in the setup\n"),
    ("run", sections(script="20,,recharge,7,1000000000000001\n"), "script row 3: Number", "20,,recharge,7,1000000000000001",
     "column y: 1000000000000001 is above 1000000000000000\n"),
    ("run", sections(script="20,1,\0\x7f,,\n"), "script row 3: What", r"20,1,\x00\x7f,,", rf"column what: \x00\x7f; one of {WORDS}" "\n"),
    ("run", sections(script='20,1,"answer,,\n'), "script row 3: Csv", '20,1,"answer,,', None),
    ("price --fee 50 --before 1000", "before,after\n600,0\n500,0\n", "reports row 3: Order", "500,0",
     "times 500,0 may not follow 600,0 in row 2\n"),
    ("price --fee 50 --before 1000", "before,after\n600,x\n", "reports row 2: Number", "600,x",
     "column after: x is no decimal of 1 to 20 digits\n"),
    ("replay --opening 5000", "seat,op,call,x1,x2,x3,x4,x5\n16,return,1,,,,,\n", "ops row 2: Number", "16,return,1,,,,,",
     "column seat: 16 is above 15\n"),
    ("replay --opening 5000", "seat,op,call,x1,x2,x3,x4,x5\n0,debit,1,,,,,\n", "ops row 2: What", "0,debit,1,,,,,", None),
    ("audit", "account,seat,op,call,x1,x2,x3,x4,x5,reply,y1,y2,y3\n1,,opening,,5,,,,,,,,\n1,,opening,,5,,,,,,,,\n",
     "book row 3: Repeated", "1,,opening,,5,,,,,,,,", "account 1 is in row 2 already\n"),
    ("audit", "account,seat,op,call,x1,x2,x3,x4,x5,reply,y1,y2,y3\n2,0,credit,,1,,,,,credited,,,1\n",
     "book row 2: Unknown", "2,0,credit,,1,,,,,credited,,,1", "account 2 isn't opened in an earlier row\n"),
    ("quote --called 4930 --at 0", f"{TARIFF}49,24:00,50,1000\n", "tariff row 3: From", "49,24:00,50,1000",
     "column from: 24:00 is no time of day from 00:00 to 23:59\n"),
    ("quote --called 4930 --at 0", f"{TARIFF}44,00:00,20.00,1000\n", "tariff row 3: Money", "44,00:00,20.00,1000",
     "column fee: 20.00 is no decimal of 1 to 20 digits\n"),
    ("quote --called 4930 --at 0", f"{TARIFF}{BAND}", "tariff row 3: Repeated", BAND.strip(), "prefix 49 from 00:00 is in row 2 already\n"),
]
# What is said of a column of records that isn't there.
MISSING = "the header doesn't have it; if it has another name, give"
COMMA = "the separator is a comma"
# Inputs whose fault isn't in their last line: the words, the input, and all that is said behind `prepaid: `.
OTHERS = [
    ("run", f"{TARIFF}%%\n{SETUP}%%\nmoment;call;what;x;y\n", "script row 1: Header\nline 8 of the input: moment;call;what;x;y\n"
     f"wanted: {RUN_HEADERS}\nfound: moment;call;what;x;y\nthe separator is a comma\n"),
    ("run", f"{TARIFF}%%\n{SETUP}", "input: Parts\n1 line that is %% alone, in line 3; wanted 2\n"),
    ("run", f"{TARIFF}%% \n{SETUP}%%\n{SCRIPT}", "input: Parts\n1 line that is %% alone, in line 7; wanted 2\n"
     "line 3 is %% with a blank at it\n"),
    ("quote --called 4930 --at 0", "prefix,from,fee,rate\n49,08:00,50,1000\n49,20:00,0,500\n",
     "tariff row 2: NoMidnightBand\nline 2 of the input: 49,08:00,50,1000\nprefix 49 counts from 08:00 and 20:00, and nothing from "
     "00:00: add 49,00:00,.. with what counts at midnight, mostly the row of 20:00\n"),
    ("run --wokers 3", "", "arguments\nerror: unexpected argument '--wokers' found\n  tip: a similar argument exists: '--workers'\n"
     "Usage: prepaid run [OPTIONS] < FILE\nFor more information, try '--help'.\n"),
    ("run --delay 51", "", "input: Config\ndelay 51 is above tccd 50\n"),
    ("run --delay 0", "", "input: Config\ndelay 0 is below 1\n"),
    ("run --wanted 49", "", "input: Config\nleast 50 is above wanted 49\n"),
    ("run --wanted 99999999999", "", "input: Config\nwanted 99999999999 is above 864000\n"),
    ("run --tssf 864001", "", "input: Config\ntssf 864001 is above 864000\n"),
    ("serve --tccd 51", "", "input: Config\ntccd 51 is above least 50\n"),
    ("serve --tccd 0", "", "input: Config\ntccd 0 is below 1\n"),
    ("serve --least 601", "", "input: Config\nleast 601 is above wanted 600\n"),
    ("serve --wanted 864001", "", "input: Config\nwanted 864001 is above 864000\n"),
    ("run", "x" * (MAX_INPUT + 1), f"input: TooLong\nat most {MAX_INPUT} bytes; docs/SCALING.md has larger loads\n"),
    ("price --fee 50 --before 1000", "before,after\n600,0\n600,300\n", "reports row 3: Order\nline 3 of the input: 600,300\n"
     "times 600,300 may not follow 600,0 in row 2; without --after no time is after the switch\n"),
    ("price --fee 50 --before 1000 --after 1", "before,after\n600,300\n600,200\n", "reports row 3: Order\n"
     "line 3 of the input: 600,200\ntimes 600,200 may not follow 600,300 in row 2\n"),
    *((words, "", f"arguments\nthe options don't go together, or one has a value that it doesn't take: see prepaid help "
       f"{words.split()[0]}\n") for words in ("run --workers x", "run --clock", "serve --again 2", "rate --before x")),
    *((words, f"{TARIFF}%%\n{header}", f"records row 1: Header\n{said}\n") for words, header, said in (
        ("rate", "", "nothing is behind the line %%"),
        ("rate", f"called,answer,{'x' * 131072}\n", "the header has more than 131072 bytes"),
        ("rate", "called;answer;time\n", f"column called: {MISSING} --called NAME; {COMMA}"),
        ("rate --called to --answer on", "to,answer,time\n", f"column on: {MISSING} --answer NAME; {COMMA}"),
        ("rate", "called,answer,paid,before\n", "columns before and after, time, end: the header has none of these; if they have other names, "
         f"give --before NAME --after NAME, --time NAME or --end NAME; {COMMA}"),
        ("rate --time talk", "called,answer,time\n", f"column talk: {MISSING} --time NAME; {COMMA}"),
        ("rate --end off", "called,answer,end\n", f"column off: {MISSING} --end NAME; {COMMA}"),
        ("rate --before day --after night", "called,answer,before,night\n", f"column day: {MISSING} --before NAME; {COMMA}"),
        ("rate --before day --after night", "called,answer,day,after\n", f"column night: {MISSING} --after NAME; {COMMA}"),
        ("rate --paid sum", "called,answer,time,paid\n", f"column sum: {MISSING} --paid NAME; {COMMA}"),
        ("rate", "called,answer,after,time,after\n", "column after: the header has it twice"),
        ("rate --called to", "to,called,answer,time,to,called\n", "column to: the header has it twice"),
    )),
    ("audti", "", "arguments\nerror: unrecognized subcommand 'audti'\n  tip: a similar subcommand exists: 'audit'\n"
     "Usage: prepaid [OPTIONS] <COMMAND>\nFor more information, try '--help'.\n"),
    ("price --fee 1", "", "arguments\nerror: the following required arguments were not provided:\n  --before <N>\n"
     "Usage: prepaid price [OPTIONS] --fee <N> --before <N> < FILE\nFor more information, try '--help'.\n"),
]


def run(program, words, text, **more):
    done = subprocess.run([program, *words.split()], input=text.encode("latin-1"), capture_output=True, timeout=SECONDS, **more)
    return done.stdout.decode(), done.stderr.decode(), done.returncode


def compare(program, words, text, said):
    """The faults of the input without the word and with it, beside what is wanted; `said` may be a front of it."""
    line = said.partition("\n")[0] + "\n"
    status = 1
    if (found := run(program, words, text)) != ("", f"prepaid: {line}", status):
        return f"{words}: {found} in place of {line!r}"
    output, faults, code = run(program, f"--explain {words}", text)
    wanted = f"prepaid: {said}"
    if (output, code) != ("", status) or faults != wanted and not (said.endswith("\n\n") and faults.startswith(wanted[:-1])):
        return f"--explain {words}: {(output, faults, code)} in place of {wanted!r}"
    return None


def said_of(slip, before):
    """What is said of a slip whose row has so many lines in front of it; where that is open, an empty line is at its end."""
    _, _, line, shown, more = slip
    return f"{line}\nline {before + 1} of the input: {shown}\n" + ("\n" if more is None else more)


def forms(slip):
    """The input of a slip in several forms, with the lines in front of its row, and which form it is."""
    text = slip[1]
    front, row = text[: text[:-1].rindex("\n") + 1], text[text[:-1].rindex("\n") + 1 :]
    before = front.count("\n")
    yield text, before, "as it is"
    yield text.replace("\n", "\r\n"), before, "with CR LF"
    yield text[:-1], before, "without LF at its end"
    filler = MAX_INPUT - len(text)
    yield front + "\n" * filler + row, before + filler, "at the end of 16 MB"


def slips(program):
    for slip in SLIPS:
        for text, before, form in forms(slip):
            if wrong := compare(program, slip[0], text, said_of(slip, before)):
                return f"{form}: {wrong[:600]}"
    for words, text, said in OTHERS:
        if wrong := compare(program, words, text, said):
            return wrong
    return None


def calls(numbers, calling="491700009"):
    """Rows of a script that start calls with these numbers."""
    return "".join(f"20,{number},start,{calling},4930\n" for number in numbers)


# Of answers of a run the rows of its script, and what is said behind them with `--explain`.
STRANGERS = [
    ("", ""),
    (calls([20]), "1 call of a number that no subscriber has: 20\n"),
    (calls([44, 20]) + calls([3], "491700001") + calls([31]), "3 calls of numbers that no subscriber has: 44, 20, 31\n"),
    (calls(range(2, 12)), f"10 calls of numbers that no subscriber has: {', '.join(map(str, range(2, 12)))}\n"),
    (calls(range(2, 15)), f"13 calls of numbers that no subscriber has: {', '.join(map(str, range(2, 12)))}, ..\n"),
    (calls([2]) + "21,2,abandon,,\n", "1 call of a number that no subscriber has: 2\n"),
    (calls([2]) + "60,2,answer,,\n70,2,disconnect,1,\n",
     "1 call of a number that no subscriber has: 2\n2 events that had no place: call 2 answer at 60, call 2 disconnect at 70\n"),
    (calls([2], "49170000") + calls([18446744073709551615], "4917000010"),
     "2 calls of numbers that no subscriber has: 2, 18446744073709551615\n"),
    (calls([2]) + "60,,recharge,7,0\n", "prepaid: refused: 1 OutOfRange\n1 call of a number that no subscriber has: 2\n"),
]


# The rows of events of call 1, which starts at 10. Its orders come at 12.
ANSWERED = "20,1,answer,,\n"
# Further accounts: 8 as rich as 7, 9 without money, and 10 with that of 300 units after the answer.
FURTHER = "account,8,5000\naccount,9,0\naccount,10,550\nsubscriber,491700002,8\nsubscriber,491700003,9\nsubscriber,491700004,10\n"
# Of answers of a run over these accounts the rows of its script, and which events had no place in it.
UNPLACED = [
    (ANSWERED + "50,1,disconnect,1,\n", []),
    ("12,1,answer,,\n50,1,disconnect,2,\n", []),
    ("11,1,answer,,\n", ["call 1 answer at 11"]),
    (ANSWERED + "30,1,answer,,\n40,1,busy,,\n41,1,noanswer,,\n42,1,routefail,,\n43,1,abandon,,\n50,1,disconnect,1,\n60,1,disconnect,2,\n",
     ["call 1 answer at 30", "call 1 busy at 40", "call 1 noanswer at 41", "call 1 routefail at 42", "call 1 abandon at 43",
      "call 1 disconnect at 60"]),
    ("20,1,busy,,\n20,1,answer,,\n20,1,answer,,\n", ["call 1 answer at 20", "call 1 answer at 20"]),
    (ANSWERED + "1970-01-01T00:00:03,1,answer,,\n", ["call 1 answer at 30"]),
    # by the calls, whichever part plays them, and of a call in the order of the script
    (calls([9], "491700001") + calls([3], "491700002") + "30,9,answer,,\n31,3,answer,,\n40,9,answer,,\n41,3,busy,,\n50,9,noanswer,,\n51,1,disconnect,1,\n",
     ["call 1 disconnect at 51", "call 3 busy at 41", "call 9 answer at 40", "call 9 noanswer at 50"]),
    # a call that is denied is released at 22
    (calls([5], "491700003") + "60,5,answer,,\n", ["call 5 answer at 60"]),
    # one whose credit lasts 300 units is cut at 330
    (calls([5], "491700004") + "30,5,answer,,\n329,5,disconnect,1,\n", []),
    (calls([5], "491700004") + "30,5,answer,,\n330,5,disconnect,1,\n", ["call 5 disconnect at 330"]),
    (calls([5], "491700004") + "30,5,answer,,\n400,5,disconnect,2,\n", ["call 5 disconnect at 400"]),
    (ANSWERED + "".join(f"{at},1,answer,,\n" for at in range(31, 41)), [f"call 1 answer at {at}" for at in range(31, 41)]),
    (ANSWERED + "".join(f"{at},1,answer,,\n" for at in range(31, 44)), [f"call 1 answer at {at}" for at in range(31, 44)]),
]


def unplaced_line(events):
    """The line about events that had no place."""
    many = "1 event" if len(events) == 1 else f"{len(events)} events"
    return f"{many} that had no place: {', '.join(events[:10])}{', ..' * (len(events) > 10)}\n" if events else ""


def answers(program):
    """What is said behind an answer: nothing without the word, and with it which calls no subscriber makes, and which events
    had no place. The answer is the same with the word and without."""
    inputs = [(rows, sections(script=rows), said) for rows, said in STRANGERS]
    inputs += [(rows, sections(setup=FURTHER, script=rows), unplaced_line(events)) for rows, events in UNPLACED]
    for rows, text, said in inputs:
        refused = said[: said.index("\n") + 1] if said.startswith("prepaid") else ""
        for words in ("run", "run --parts 1", "run --parts 2", "run --parts 16 --threads 3", "run --calls", "run --book", "run --trace --workers 1"):
            plain, explained = run(program, words, text), run(program, f"--explain {words}", text)
            if plain[1:] != (refused, 0) or not plain[0] or explained != (plain[0], said, 0):
                return f"{words} with {rows!r}: {plain} and {explained} in place of {said!r}"
        with tempfile.TemporaryDirectory() as folder:
            if (found := run(program, f"--explain run --into {folder}", text)) != ("", said, 0):
                return f"run --into with {rows!r}: {found} in place of {said!r}"
        if (found := on_terminal(program, "run", text)) != (said, run(program, "run", text)[0], 0):
            return f"run on a terminal with {rows!r}: {found}"
    audited = run(program, "--explain audit", run(program, "run --book", sections(script=calls([20])))[0])
    if audited != ("account 7 yes\n", "", 0):
        return f"an audit: {audited}"
    for path, why in (("none", "No such file or directory (os error 2)"), ("/dev/null", "Not a directory")):
        found = run(program, f"--explain run --into {path}", sections())
        if found[0] or found[2] != 2 or not found[1].lower().startswith(f"prepaid: into: device\nthe files: {why.lower()}"):
            return f"run --into {path}: {found}"
    return None


HELPS = ["help", "--version", "run --help"]
FULL = "the output: No space left on device (os error 28)\n"
CLOSED = "the output: Bad file descriptor (os error 9)\n"
UNCONNECTED = "the output: Transport endpoint is not connected (os error 107)\n"


def outputs(program):
    """What is said of an output that fails, at each command: nothing without the word, and with it why, as of a full device,
    of a closed file and of a socket that has no other end."""
    run_text = sections(script="20,,recharge,7,0\n")
    book = run(program, "run --book", sections())[0]
    texts = {
        "price --fee 50 --before 1000": "before,after\n600,0\n",
        "replay --opening 5000": "seat,op,call,x1,x2,x3,x4,x5\n0,return,1,,,,,\n",
        "run": run_text,
        "run --parts 1": run_text,
        "run --workers 2 --trace": run_text,
        "audit": book,
        "audit --long": book,
        "quote --called 4930 --at 0": TARIFF,
        "rate --called called --answer answer --end end": f"{TARIFF}%%\ncalled,answer,end\n4930,0,600\n",
        "serve": f"{TARIFF}%%\n{SETUP}%%\nmoment,number,call,from,what,x1,x2,x3,x4\n",
    }
    texts.update({words: "" for words in HELPS})
    for words, text in texts.items():
        if run(program, words, text)[2] != 0:
            return f"{words} has no answer: {run(program, words, text)}"
        for front, full, closed, unconnected in (("", "", "", ""), ("--explain ", FULL, CLOSED, UNCONNECTED)):
            with open("/dev/full", "wb") as output:
                found = failing(program, front + words, text, output)
            if found != (full, 2):
                return f"{front}{words} to a full device: {found} in place of {full!r}"
            with open("/dev/null", "rb") as output:
                found = failing(program, front + words, text, output)
            if found != (closed, 2):
                return f"{front}{words} to a file that is read: {found} in place of {closed!r}"
            with socket.socket(socket.AF_UNIX, socket.SOCK_DGRAM) as output:
                found = failing(program, front + words, text, output)
            if found != (unconnected, 2):
                return f"{front}{words} to a socket: {found} in place of {unconnected!r}"
    return None


def failing(program, words, text, output):
    """What is said where this is the output, and the status."""
    done = subprocess.run([program, *words.split()], input=text.encode(), stdout=output, stderr=subprocess.PIPE, timeout=SECONDS)
    return done.stderr.decode(), done.returncode


# How long a process that is paused now and then runs, and how long it doesn't, in seconds.
AT_WORK, PAUSED = 0.025, 0.4


def pause(process, threads):
    """Pauses a process now and then until it ends, so that a short run takes long, however many threads share it."""
    while process.poll() is None:
        time.sleep(AT_WORK / threads)
        process.send_signal(signal.SIGSTOP)
        time.sleep(PAUSED)
        process.send_signal(signal.SIGCONT)


def on_terminal(program, words, text=None, threads=0, environment=None):
    """What a terminal shows of the error writer, where the input is a text, or else what is typed there: one Ctrl-D. Where it is
    said how many threads the process has, it is paused now and then."""
    outer, inner = pty.openpty()
    shown = []

    def read():
        try:
            while more := os.read(outer, 4096):
                shown.append(more)
        except OSError:
            pass

    stdin = subprocess.PIPE if text is not None else inner
    with subprocess.Popen([program, *words.split()], stdin=stdin, stdout=subprocess.PIPE, stderr=inner, env=environment) as it:
        os.close(inner)
        reader = threading.Thread(target=read)
        reader.start()
        if threads:
            threading.Thread(target=pause, args=[it, threads]).start()
        if text is None:
            os.write(outer, b"\x04")
            output = it.stdout.read()
        else:
            output = it.communicate(text.encode(), timeout=SECONDS)[0]
        it.wait(timeout=SECONDS)
        reader.join(SECONDS)
    os.close(outer)
    return b"".join(shown).decode().replace("\r\n", "\n").replace("^D\b\b", ""), output.decode(), it.returncode


WAITING = "prepaid: the input comes from this terminal; Ctrl-D in a new line ends it\n"
# Words to which one Ctrl-D is typed, and their fault: one of each command, and words that lack something.
TYPED = [
    ("price --fee 50 --before 1000", "reports row 1: Header"),
    ("replay --opening 5000", "ops row 1: Header"),
    ("run", "input: Parts"),
    ("run --into help", "input: Parts"),
    ("audit", "book row 1: Header"),
    ("quote --called 4930 --at 0", "tariff row 1: Header"),
    ("rate", "input: Parts"),
    ("serve", "input: Parts"),
    ("quote", "arguments"),
]


def beside_terminal(program, words):
    """What comes of words where one Ctrl-D is typed and the error writer is no terminal: output, faults, status."""
    outer, inner = pty.openpty()
    with subprocess.Popen([program, *words.split()], stdin=inner, stdout=subprocess.PIPE, stderr=subprocess.PIPE) as it:
        os.write(outer, b"\x04")
        output, faults = it.communicate(timeout=SECONDS)
    os.close(inner)
    os.close(outer)
    return output.decode(), faults.decode(), it.returncode


def terminals(program):
    slip = SLIPS[0]
    words, text, line = slip[0], slip[1], f"prepaid: {slip[2]}\n"
    whole = f"prepaid: {said_of(slip, text.count(chr(10)) - 1)}"
    for front, wanted in [("", whole), ("--explain ", whole), ("--plain ", line)]:
        if (found := on_terminal(program, front + words, text)) != (wanted, "", 1):
            return f"{front}{words} on a terminal: {found}"
    for words, fault in TYPED:
        said = f"{WAITING}prepaid: {fault}\n"
        if (found := on_terminal(program, f"--plain {words}")) != (said, "", 1):
            return f"--plain {words} typed: {found}"
        for front in ("", "--explain "):
            found = on_terminal(program, front + words)
            if not found[0].startswith(said) or found[1:] != ("", 1):
                return f"{front}{words} typed: {found}"
    if (found := beside_terminal(program, "run")) != ("", "prepaid: input: Parts\n", 1):
        return f"run typed, with another error writer: {found}"
    for words in ["--version", "-V", "run --help", "run -h", "help", "help run"]:
        shown, output, status = on_terminal(program, words)
        if (shown, status) != ("", 0) or not output:
            return f"{words} on a terminal: {shown!r} {status}"
    return None


# What shows how far a run is, and what takes that away.
SHOWN = re.compile(r"\r(?:moment (\d+), row (\d+) of (\d+)|part (\d+) of (\d+), moment (\d+))\x1b\[K")
TAKEN = "\r\x1b[K"
# What is said of a long run: the call that no subscriber makes, and the events that had no place, if any had none.
SAID = re.compile(r"1 call of a number that no subscriber has: 1000000\n(?:\d+ events? that had no place: call [^\n]*\n)?")
# How many inputs are tried until a run takes long enough.
TRIES = 5
# The seconds before it is shown how far a run is, and until a thread shows anew how far its part is.
FIRST, EACH = 2, 0.2
# Runs, how many parts they have, and how many threads play these. All but those of two workers and
# those into a folder print the same.
LONG_RUNS = [("run --workers 1", 1, 1), ("run --parts 4", 4, 1), ("run --parts 16 --threads 2", 16, 2), ("run --workers 2", 1, 1),
             ("run --workers 1 --into .", 1, 1)]


def long_input(program):
    """An input whose run takes a processor 0.6 seconds or more, and with pauses some ten, so that half as much would do, with a
    call of a number that no subscriber has, its lines, and what is said of it."""
    calls = 4000
    for _ in range(TRIES):
        words = [sys.executable, f"{ROOT}/examples/generate.py", "--calls", str(calls), "--rate", "60000", "--hold", "1200"]
        text = subprocess.run(words, capture_output=True, check=True).stdout.decode()
        text += text[text.rindex("\n", 0, -1) + 1 :].split(",")[0] + ",1000000,start,1,4930\n"
        before = os.times()
        lines, said, status = run(program, "--explain run --workers 1", text)
        if status or not SAID.fullmatch(said):
            sys.exit(f"explain: a long run: {said[:300]!r} {status}")
        after = os.times()
        taken = after.children_user + after.children_system - before.children_user - before.children_system
        if taken > 0.6:
            return text, lines, said
        calls = int(calls * 0.75 / max(taken, 0.05))
    sys.exit("explain: no input takes 0.6 seconds")


def progress(program):
    """What a terminal shows of how far a run is: its rows and their moments, or its parts, and at the end only what is said of
    it. The output is what it is without a terminal."""
    text, lines, said = long_input(program)
    script = text.split("%%\n")[2].splitlines()
    for words, parts_of_all, threads in LONG_RUNS:
        begun = time.monotonic()
        with tempfile.TemporaryDirectory() as folder:
            shown, output, status = on_terminal(program, words.replace("--into .", f"--into {folder}"), text, threads)
        wanted = "" if "--into" in words else lines
        most = threads * (time.monotonic() - begun - FIRST) / EACH + parts_of_all
        if status or words != "run --workers 2" and output != wanted or wanted and not output:
            return f"{words} on a terminal: another output, status {status}"
        *steps, end = shown.split(TAKEN)
        if not SAID.fullmatch(end) or words != "run --workers 2" and end != said or not "".join(steps):
            return f"{words} on a terminal: {shown[-300:]!r}"
        if SHOWN.sub("", "".join(steps)):
            return f"{words} on a terminal: {SHOWN.sub('', ''.join(steps))[:300]!r}"
        rows = []
        for moment, row, last, part, of_parts, _ in SHOWN.findall("".join(steps)):
            if parts_of_all > 1 and not (1 <= int(part or 0) <= int(of_parts) == parts_of_all):
                return f"{words} shows part {part} of {of_parts}"
            if parts_of_all == 1 and (int(last or 0) != len(script) or script[int(row) - 1].split(",")[0] != moment):
                return f"{words} shows moment {moment}, row {row} of {last}"
            rows.append(int(part or row))
        # two threads play neighbours each, so what one shows lies among what the other does
        if (threads == 1) != (rows == sorted(rows)) or not 3 <= len(rows) <= most:
            return f"{words} shows {rows}, and may show {most:.1f}"
    with subprocess.Popen([program, "--explain", "run", "--workers", "1"], stdin=subprocess.PIPE, stdout=subprocess.PIPE,
                          stderr=subprocess.PIPE) as it:
        threading.Thread(target=pause, args=[it, 1]).start()
        found = it.communicate(text.encode(), timeout=SECONDS)
    if found != (lines.encode(), said.encode()):
        return f"a long run whose error writer is no terminal: {found[1][:300]!r}"
    begun = time.monotonic()
    if (found := on_terminal(program, "run --workers 1", text)) != (said, lines, 0) and time.monotonic() - begun < FIRST:
        return f"a short run on a terminal: {found[0]!r} {found[2]}"
    if (found := on_terminal(program, "--plain run --workers 1", text, threads=1)) != ("", lines, 0):
        return f"--plain run on a terminal: {found[0]!r} {found[2]}"
    return None


# An input of a run with empty lines, and of some of its rows the table, the number and the line; and a table by itself.
LINED = f"{TARIFF}\n44,00:00,1,1\n%%\nkind,key,value\naccount,7,5000\n\naccount,8,5000\n%%\n\n{SCRIPT}20,1,busy,,\n"
LINES = [("tariff", 1, 1), ("tariff", 3, 4), ("setup", 1, 6), ("setup", 3, 9), ("script", 1, 12), ("script", 3, 14)]
ALONE = "before,after\n\n600,0\n"


def lines_of_rows(_):
    """What line_of.awk says of a row, which is what an explanation shows of it."""
    tries = [(LINED, *it) for it in LINES] + [(ALONE, "reports", 2, 3), (LINED, "records", 2, 7), (LINED, "messages", 2, 13)]
    for text, section, row, line in tries:
        wanted = f"line {line}: {text.splitlines()[line - 1]}\n"
        words = ["awk", "-v", f"section={section}", "-v", f"row={row}", "-f", f"{ROOT}/examples/line_of.awk"]
        for end in ("\n", "\r\n"):
            found = subprocess.run(words, input=text.replace("\n", end).encode(), capture_output=True, check=True).stdout.decode()
            if found != wanted:
                return f"line_of.awk, {section} row {row}: {found!r} in place of {wanted!r}"
    return None


def main():
    parser = argparse.ArgumentParser(description=__doc__.split("\n")[0])
    parser.add_argument("--program", default=f"{ROOT}/bin/prepaid")
    program = os.path.abspath(parser.parse_args().program)
    for name, trial in {"slips": slips, "answers": answers, "outputs": outputs, "terminals": terminals, "progress": progress, "lines": lines_of_rows}.items():
        if wrong := trial(program):
            print(f"explain: {name}: {wrong}")
            return 1
    print(f"explain: {len(SLIPS)} slips in 4 forms, {len(OTHERS)} others, {len(STRANGERS) + len(UNPLACED)} answers, failed outputs, a terminal, and long runs on it: as the pages say")
    return 0


if __name__ == "__main__":
    sys.exit(main())
