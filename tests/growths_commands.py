"""The commands to which growths of memory are refused: their inputs, and how each may end."""
import dataclasses
import functools
import itertools
import os
import re
import subprocess

from explain_test import OTHERS, SLIPS
from model import trace
from model.command import command, do_run
from model.tables import Fault

ROOT = os.path.dirname(os.path.dirname(os.path.abspath(__file__)))
OUT_OF_MEMORY, NO_THREAD = b"prepaid: run: OutOfMemory\n", b"prepaid: run: Thread\n"
TABLES = ("lines.txt", "book.csv", "calls.csv", "trace.csv")
# The messages at which an account is asked for something that takes memory.
ALL_KINDS = frozenset(["InitialDP", "ApplyChargingReport", "Recharge"])
# Calls of three accounts, by which two workers meet at each: they talk through several grants, are cut, denied and ended,
# and between them and behind them these accounts are recharged, and one without calls. The numbers of the calls of
# account 9 don't rise.
RUN = b"""prefix,from,fee,rate
49,00:00,50,1000
49,00:03,0,400
33,00:00,7,60
4930,00:00,20,600
%%
kind,key,value
account,9,300
subscriber,4915009,9
account,5,0
account,2,100
subscriber,4915002,2
account,7,4000
subscriber,4915007,7
subscriber,4915017,7
%%
moment,call,what,x,y
0,1,start,4915007,4930
0,2,start,4915017,4911
0,6,start,4915009,331
0,4,start,4915002,4911
50,,recharge,7,500
50,,recharge,2,900
50,,recharge,5,10
60,5,start,4915002,4930
60,3,start,4915009,332
100,1,answer,,
100,2,answer,,
100,6,answer,,
100,5,answer,,
100,3,answer,,
300,,recharge,9,1
400,3,disconnect,1,
450,5,disconnect,2,
500,,recharge,9,1
500,,recharge,2,1
500,,recharge,7,1
500,,recharge,5,10
2700,,recharge,7,3000
2700,,recharge,2,1
2700,,recharge,9,500
2800,8,start,4915007,4911
2800,7,start,4915017,331
2800,10,start,4915002,332
2800,11,start,4915009,4930
2850,8,busy,,
2850,7,answer,,
2850,10,answer,,
2850,11,answer,,
3000,7,disconnect,1,
3000,,recharge,7,1
3000,,recharge,7,1
3000,,recharge,2,1
3000,,recharge,9,1
9200,,recharge,2,300
9200,,recharge,9,300
9200,13,start,4915002,331
9200,12,start,4915009,4911
9250,13,answer,,
9250,12,answer,,
9300,13,disconnect,1,
9300,12,disconnect,2,
"""
# Two accounts, each with the call of examples/call.txt.
TWO_CALLS = b"""prefix,from,fee,rate
49,00:00,50,1000
%%
kind,key,value
account,7,1500
subscriber,491700001,7
account,8,1500
subscriber,491700002,8
%%
moment,call,what,x,y
0,1,start,491700001,4930
0,2,start,491700002,4930
100,1,answer,,
100,2,answer,,
400,1,disconnect,1,
400,2,disconnect,1,
"""
TARIFF, SETUP, _ = RUN.split(b"%%\n")
RECORDS = b"""called,answer,time,paid,note
4930,0,600,620,"a, b"
4930,0,600,600,
331,0,600,67,
4411,0,600,67,
"""


@dataclasses.dataclass
class Ended:
    """How a program ended, and how many growths were refused to it."""

    status: int
    output: bytes
    faults: bytes
    refused: int

    def said(self):
        return self.status, self.output, self.faults

    def ran_out(self, *others):
        """Whether growths were refused, and it says that memory ran out, or one of other lines."""
        return self.refused > 0 and self.status == 2 and self.faults in (OUT_OF_MEMORY, *others)


@functools.cache
def by_model(words, text, numbers=frozenset()):
    """What the model says of words and an input, where accounts have no memory for the messages of some numbers."""
    status, output, fault, _ = command(list(words), text, without_memory=numbers)
    return status, output.encode("latin-1"), fault.encode()


def rows_of(table):
    return [row.split(",") for row in table.decode().splitlines()]


def messages_in(table):
    """What each message of a trace is, by its number."""
    return {int(row[1]): row[4] for row in rows_of(table) if row[3:4] in (["switch"], ["operator"])}


def without_memory(table):
    """The numbers of the messages of a trace for which it says that an account had no memory."""
    return frozenset(int(row[1]) for row in rows_of(table) if row[3:6] == ["service", "refused", "OutOfMemory"])


def read(path):
    with open(path, "rb") as file:
        return file.read()


def write(path, text):
    with open(path, "wb") as file:
        file.write(text)


class Command:
    """A command that prints its answer at its end, and nothing where memory ran out."""

    # what messages there have to be for which an account had no memory in some try
    kinds = frozenset()

    def __init__(self, words, text):
        self.words, self.text = tuple(words.split()), text
        # the messages for which an account had no memory
        self.refused = {}

    def begin(self, folder):
        """Puts down what the program is given, and returns its words."""
        write(f"{folder}/input", self.text)
        return self.words

    def answer(self, numbers=frozenset()):
        return by_model(self.words, self.text, numbers)

    def is_right(self, ended, _folder):
        return ended.said() == self.answer() or ended.ran_out() and not ended.output

    def are_refused(self, numbers, messages, ended):
        """Notes for which messages an account had no memory. Whether so many growths were refused."""
        self.refused.update((it, messages[it]) for it in numbers)
        return len(numbers) <= ended.refused


class Explained(Command):
    """A command whose fault is explained: whole, or not at all where memory runs out for that."""

    def __init__(self, words, text, said):
        super().__init__(f"--explain {words}", text.encode())
        self.faults = f"prepaid: {said}".encode()

    def is_right(self, ended, _folder):
        line = self.faults.partition(b"\n")[0] + b"\n"
        is_line = ended.refused > 0 and ended.faults == line
        is_said = (ended.status, ended.output) == (1, b"") and (is_line or ended.faults == self.faults)
        return is_said or ended.ran_out() and not ended.output


class Help(Command):
    """The help, which the model doesn't print."""

    def __init__(self, program):
        super().__init__("--help", b"")
        self.help = subprocess.run([program, "--help"], capture_output=True, check=True).stdout

    def answer(self, numbers=frozenset()):
        return 0, self.help, b""


class Rows(Command):
    """A command that prints its rows as they come."""

    def is_right(self, ended, _folder):
        return ended.said() == self.answer() or ended.ran_out() and self.answer()[1].startswith(ended.output)


class Run(Command):
    """A run that says for how many messages an account had no memory."""

    kinds = frozenset(["InitialDP"])

    def is_right(self, ended, _folder):
        if ended.status:
            return ended.ran_out(NO_THREAD) and not ended.output
        found = re.fullmatch(rb"prepaid: refused: (\d+) OutOfMemory\n", ended.faults)
        messages = messages_in(by_model(("run", "--trace"), self.text)[1])
        choices = map(frozenset, itertools.combinations(messages, int(found[1]) if found else 0))
        numbers = next((it for it in choices if self.answer(it) == ended.said()), None)
        return numbers is not None and self.are_refused(numbers, messages, ended)


class Into(Command):
    """A run that writes all of its tables. In its book the model sees in which order workers met at an account."""

    def __init__(self, workers):
        super().__init__(f"run --workers {workers}", RUN)
        self.options = {"--workers": str(workers)}
        # with several workers another ask takes a growth each time, so that each kind is refused isn't sure
        self.kinds = ALL_KINDS if workers == 1 else Run.kinds

    def begin(self, folder):
        os.makedirs(f"{folder}/into", exist_ok=True)
        for name in TABLES:
            write(f"{folder}/into/{name}", b"old")
        return *super().begin(folder), "--into", f"{folder}/into"

    def is_right(self, ended, folder):
        found = {name: read(f"{folder}/into/{name}") for name in os.listdir(f"{folder}/into")}
        if ended.status:
            return ended.ran_out(NO_THREAD) and not ended.output and found == dict.fromkeys(TABLES, b"old")
        numbers = without_memory(found["trace.csv"])
        try:
            run, _ = do_run(self.options, self.text, found["book.csv"].decode(), numbers)
        except Fault:
            # no order of what the workers asked is the book's
            return False
        tables = dict(zip(TABLES, (it().encode() for it in (run.lines, run.book, run.calls, run.trace))))
        is_run = found == tables and ended.said() == (0, b"", run.refusals().encode())
        return is_run and self.are_refused(numbers, messages_in(found["trace.csv"]), ended)


class Serve(Command):
    """The live service. A log, and a new beginning with one that has all messages, change nothing of what is printed."""

    kinds = ALL_KINDS

    def begin(self, folder):
        super().begin(folder)
        log = f"{folder}/log"
        if os.path.exists(log):
            os.remove(log)
        if "--again" in self.words:
            write(log, self.logged())
            write(f"{folder}/input", self.text[: self.text.index(trace.HEADER.encode()) + len(trace.HEADER) + 1])
        return [log if it == "LOG" else it for it in self.words]

    def logged(self):
        return b"log,1,600,50,50\n" + self.text

    def answer(self, numbers=frozenset()):
        return by_model(self.words[:2], self.text, numbers)

    def is_log_right(self, status, path):
        """Whether the log has all messages, or where the service failed the first of them."""
        if not os.path.exists(path):
            return status != 0 or "--log" not in self.words
        log = read(path)
        return self.logged().startswith(log) and (status != 0 or log == self.logged())

    def is_right(self, ended, folder):
        numbers, messages = without_memory(ended.output), messages_in(ended.output)
        if not self.is_log_right(ended.status, f"{folder}/log") or not self.are_refused(numbers, messages, ended):
            return False
        if ended.status == 0:
            return ended.said() == self.answer(numbers)
        # the rows of the last message may end in front of the one that says that there was no memory for it
        fronts = [self.answer(it)[1] for it in (numbers, numbers.union(list(messages)[-1:]))]
        return ended.ran_out() and any(it.startswith(ended.output) for it in fronts)


def live_input():
    """What a live service is given where the switches send what they send in the run."""
    rows = rows_of(by_model(("run", "--workers", "1", "--trace"), RUN)[1])
    given = [",".join([row[0], "", *row[2:]]) for row in rows[1:] if row[3] != "service"]
    return b"%%\n".join([TARIFF, SETUP, "\n".join([trace.HEADER, *given, ""]).encode()])


def explained():
    """Faults whose explanation is made of several pieces: those of an input by what they are of, those of words by the words."""
    others, rows = {}, {}
    for words, text, said in OTHERS:
        if len(text) < 1000:
            others[said.partition("\n")[0] if text else words] = Explained(words, text, said)
    for words, text, fault, shown, more in SLIPS:
        if more is not None and fault not in rows:
            line = f"line {text.count(chr(10))} of the input: {shown}\n"
            rows[fault] = Explained(words, text, f"{fault}\n{line}{more}")
    return {f"explain/{name}": it for name, it in (others | rows).items()}


def commands(program):
    """The commands by their names, each with its words and its input."""
    call, reports, operations, altered = (
        read(f"{ROOT}/examples/{it}") for it in ("call.txt", "reports.csv", "ops.csv", "altered_book.csv")
    )
    live, book = live_input(), by_model(("run", "--workers", "1", "--book"), RUN)[1]
    return {
        "command/help": Help(program),
        "command/price": Command("price --fee 50 --before 1000 --after 400", reports),
        "command/quote": Command("quote --called 4911 --at 0 --for 3000 --credit 500", TARIFF),
        "command/replay": Command("replay --opening 1500", operations),
        "command/run": Run("run", call),
        "command/run_book": Run("run --book", call),
        "command/run_calls": Run("run --calls", call),
        "command/run_parts": Run("run --parts 2", TWO_CALLS),
        "command/run_threads": Run("run --parts 2 --threads 2", TWO_CALLS),
        "command/run_trace": Run("run --trace", call),
        "command/run_into": Into(1),
        "command/run_into_two": Into(2),
        "command/audit": Command("audit", book),
        "command/audit_long": Command("audit --long", book),
        "command/audit_altered": Command("audit --rows", altered),
        "command/audit_lines": Command("audit --lines", book),
        "command/rate": Rows("rate", TARIFF + b"%%\n" + RECORDS),
        "command/serve": Serve("serve --lines", live),
        "command/serve_log": Serve("serve --book --log LOG", live),
        "command/serve_again": Serve("serve --calls --log LOG --again 0", live),
    } | explained()
