"""What the tests of a log have in common: a talk with what answers it, a program with a folder for its logs, and a
client that is cut off and goes on."""
import concurrent.futures
import os
import re
import shutil
import subprocess
import threading

from model.command import command
from pipe_test import HEADER as HEADER_TEXT
from pipe_test import SECONDS, come

HEADER = HEADER_TEXT.encode()
HEAD = (b"prefix,from,fee,rate\n49,00:00,50,1000\n%%\n"
        b"kind,key,value\naccount,7,1500\nsubscriber,491700001,7\n%%\n" + HEADER)
# Two calls of an account that meet, recharges, a moment that is a date, a line with CR LF, a call that isn't there.
TALK = [
    b"0,,1,switch,InitialDP,491700001,4930,,\n",
    b"100,1,1,switch,EventReportBCSM,answer,,notify,\r\n",
    b"200,,2,switch,InitialDP,491700001,4930,,\n",
    b"250,3,,operator,Recharge,7,500,1000,\n",
    b"300,,2,switch,EventReportBCSM,busy,,notify,\n",
    b"302,5,2,switch,Ended,,,,\n",
    b'1970-01-01T00:00:40,,1,"switch",ApplyChargingReport,inactive,n,300,\n',
    b"400,7,1,switch,EventReportBCSM,disconnect,1,interrupted,\n",
    b"402,,1,switch,Ended,,,,\n",
    b"402,,9,switch,Ended,,,,\n",
    b"500,,,operator,Recharge,7,1,,\n",
]
DEVICE, OTHER = (2, b"", b"prepaid: log: Device\n"), (2, b"", b"prepaid: log: Other\n")


class Wrong(Exception):
    """What was wrong."""


def same(where, said, wanted):
    if said != wanted:
        raise Wrong(f"{where}: {said} in place of {wanted}")


def read(path):
    """What a file holds, nothing where there is none."""
    if not os.path.exists(path):
        return b""
    with open(path, "rb") as file:
        return file.read()


def fault(kind, line):
    return b",,,service,fault,%s,%d,,\n" % (kind, line)


def repeated(count):
    """What is said to so many rows that were accepted before, from line 2 on."""
    return b"".join(fault(b"Repeated", line) for line in range(2, 2 + count))


def numbered(rows):
    """Rows with their numbers, so that they may be sent again."""
    fields = [row.split(b",") for row in rows]
    return [b",".join([at, b"%d" % number, *rest]) for number, (at, _, *rest) in enumerate(fields)]


def modelled(words, text):
    """What the model says to an input: status, output, line."""
    status, output, line, _ = command(["serve", *words], text)
    return status, output.encode("latin-1"), line.encode()


class Talk:
    """A head and rows, the rows that answer each of them, and the end with the book."""

    def __init__(self, head, rows):
        self.head, self.rows, self.log = head, rows, b"log,1,600,50,50\n" + head
        self.answers = [b""] * len(rows)
        for row in modelled([], self.text())[1].splitlines(keepends=True)[1:]:
            self.answers[int(row.split(b",")[1])] += row
        self.end = self.end_of(None)

    def end_of(self, count):
        """The end with the book, of so many rows."""
        output = modelled(["--book"], self.head + b"".join(self.rows[:count]))[1]
        return b"%%\n" + output.partition(b"%%\n")[2]

    def text(self, first=0):
        """An input of the rows from a number on."""
        return self.head + b"".join(self.rows[first:])

    def logged(self, count=None):
        """The log of so many rows."""
        return self.log + b"".join(self.rows[:count])

    def answered(self, first, last=None):
        return b"".join(self.answers[first:last])

    def served(self, first=0):
        """What is said to an input of the rows from a number on, with --book: status, output, line."""
        return 0, HEADER + self.answered(first) + self.end, b""

    def answers_in(self, output):
        """How many rows an output answers that has its end, of these rows; none where it has no header."""
        count = sum(output.startswith(HEADER + self.answered(0, it)) for it in range(1, len(self.rows) + 1))
        if output:
            same("the output", output, HEADER + self.answered(0, count) + self.end_of(count))
        return count

    def count_in(self, log):
        """How many whole lines a log has; it has to be a front of that of all rows."""
        if not self.logged().startswith(log):
            raise Wrong(f"the log has {log[-200:]}")
        return log[len(self.log) :].count(b"\n")


class Trial:
    """A program, and a folder for its logs."""

    def __init__(self, program, folder, seed=None, kills=0):
        self.program, self.folder, self.seed, self.kills, self.made = program, folder, seed, kills, 0
        self.talk, self.numbered, self.lock = Talk(HEAD, TALK), Talk(HEAD, numbered(TALK)), threading.Lock()

    def new(self, text=None):
        """The path of a log with this text, or of none that is there."""
        with self.lock:
            self.made += 1
            path = os.path.join(self.folder, f"{self.made}.log")
        if text is not None:
            with open(path, "wb") as file:
                file.write(text)
        return path

    def run(self, path, text, *words, **more):
        """What a service with a log says to an input: status, output, line."""
        words = [self.program, "serve", "--log", path, *words]
        ran = subprocess.run(words, input=text, capture_output=True, timeout=SECONDS, **more)
        return ran.returncode, ran.stdout, ran.stderr

    def start(self, path, *words, **more):
        words, pipe = [self.program, "serve", "--log", path, *words], subprocess.PIPE
        return subprocess.Popen(words, stdin=pipe, stdout=pipe, stderr=pipe, **more)

    def spoken(self, path, talk, *words, **more):
        """The same as `run` says, where each row is sent once the answer to the one before has come."""
        with self.start(path, *words, **more) as it:
            heard = speak(it, talk)
            output, line = it.communicate(timeout=SECONDS)
        return it.returncode, heard + output, line

    def each(self, do, cases):
        """Tries cases side by side, and returns how many there were."""
        with concurrent.futures.ThreadPoolExecutor(len(os.sched_getaffinity(0))) as pool:
            return len(list(pool.map(do, cases)))

    def goes_on(self, where, path, talk, first):
        """A start after one that was cut off, by a client that has the answers before the first row, and that sends all
        others again: what the log has of them is printed once, and the rest is answered."""
        logged = talk.count_in(read(path))
        output = HEADER + talk.answered(first, logged) + repeated(logged - first) + talk.answered(logged) + talk.end
        same(where, self.run(path, talk.text(first), "--again", str(first), "--book"), (0, output, b""))
        same(where, read(path), talk.logged())


def send(it, text):
    it.stdin.write(text)
    it.stdin.flush()


def hear(where, it, wanted):
    """Waits for an answer."""
    same(where, come(it.stdout, len(wanted)).encode(), wanted)


def close(where, it, wanted):
    """Ends the input of a service, which has to end so."""
    output, line = it.communicate(timeout=SECONDS)
    same(where, (it.returncode, output, line), wanted)


def can_trace():
    """Whether the calls of a program to the system can be seen."""
    words = ["strace", "-o", "/dev/null", "true"]
    return shutil.which("strace") and subprocess.run(words, capture_output=True).returncode == 0


def traced(trial, path, talk, *options, speak=None, near=False):
    """What a service with a log says to a talk, which comes at once or is spoken, and its calls: their names, what they
    are of, what they write, and how they end. It may be started in the folder of its log, which it is told by name alone."""
    file = f"{path}.calls"
    words = ["strace", "-f", "-y", "-s", "9999", "-xx", "-e", "trace=write,writev,pwrite64,fsync,fdatasync", *options]
    folder, name = os.path.split(path)
    words += ["-o", file, trial.program, "serve", "--log", name if near else path, "--book"]
    pipes = {it: subprocess.PIPE for it in ("stdin", "stdout", "stderr")}
    with subprocess.Popen(words, cwd=folder if near else None, **pipes) as it:
        heard = speak(it, talk) if speak else b""
        output, line = it.communicate(None if speak else talk.text(), timeout=SECONDS)
    names, found = {path: "log", folder: "folder"}, []
    for name, number, of, rest in re.findall(r"^\d+ +(\w+)\((\d+)<([^>]*)>(.*)$", read(file).decode(), re.M):
        text = b"".join(map(hex_bytes, re.findall(r'"((?:\\x[0-9a-f]{2})*)"', rest)))
        of = hex_bytes(of).decode() if of.startswith("\\x") else of
        found.append((name, "output" if number == "1" else names.get(of, of), text, rest))
    return (it.returncode, heard + output, line), found


def speak(it, talk):
    """Sends each row once the answer to the one before has come, as long as one comes; returns what came."""
    heard = b""
    for row, answer in zip([talk.head, *talk.rows], [HEADER, *talk.answers]):
        try:
            send(it, row)
        except BrokenPipeError:
            return heard
        said = come(it.stdout, len(answer)).encode()
        heard += said
        if said != answer:
            return heard
    return heard


def hex_bytes(text):
    return bytes.fromhex(text.replace("\\x", ""))
