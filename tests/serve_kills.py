"""A service that is killed at random moments, and its client."""
import os
import random
import time

from model.command import command
from pipe_test import ROOT
from serve_trial import HEADER, Talk, Wrong, hear, read, repeated, same, send


def evening():
    """The messages of the example's evening, with their numbers."""
    with open(f"{ROOT}/examples/evening.txt", "rb") as file:
        text = file.read()
    trace = command(["run", "--workers", "1", "--trace"], text)[1].encode()
    rows = [it for it in trace.splitlines(keepends=True) if it.split(b",")[3] in (b"switch", b"operator")]
    return Talk(b"%%\n".join([*text.split(b"%%\n")[:2], HEADER]), rows)


class Client:
    """The client of a killed service. It has the answers to the rows before `first`, and sends the others again."""

    def __init__(self, trial, talk):
        self.trial, self.talk, self.path, self.first, self.heard = trial, talk, trial.new(), 0, b""
        # how many bytes of the log are on the disk, as the output says
        self.kept = 0

    def logged(self):
        """How many rows the log has."""
        return self.talk.count_in(read(self.path))

    def wanted(self, count):
        """What a start prints to which so many rows are sent: what the log has of them is printed by --again."""
        first, logged = self.first, self.logged()
        behind = self.talk.answered(logged, max(logged, first + count))
        return HEADER + self.talk.answered(first, logged) + repeated(min(count, logged - first)) + behind

    def is_killed(self, count, is_early, delay):
        """Starts the service, sends it so many rows, in front of its header or behind it, and kills it. Returns what
        came of it."""
        wanted, rows = self.wanted(count), b"".join(self.talk.rows[self.first : self.first + count])
        before = len(self.talk.logged(self.logged()))
        it = self.trial.start(self.path, "--again", str(self.first), "--book")
        send(it, self.talk.head + (rows if is_early else b""))
        if not is_early:
            hear("the header", it, HEADER)
            send(it, rows)
        time.sleep(delay)
        it.kill()
        output, line = it.communicate()
        output = output if is_early else HEADER + output
        if line or not wanted.startswith(output):
            raise Wrong(f"row {self.first} and {count} more: {output} {line} is no front of {wanted}")
        self.kept = max(self.kept, before if output else 0)
        self.hear(output)
        return {"before the header": not output, "with rows logged and not read": self.logged() > self.first + 1}

    def hear(self, output):
        """Keeps the answers before that of the last row that came, which may not have come whole."""
        lines = [it for it in output.splitlines(keepends=True)[1:] if it.endswith(b"\n")]
        rows = [(int(it.split(b",")[1]), it) for it in lines if b",service,fault," not in it]
        if rows:
            last = rows[-1][0]
            if last >= self.logged():
                raise Wrong(f"row {last} was answered, and the log has {self.logged()} rows")
            self.heard += b"".join(it for number, it in rows if number < last)
            self.first, self.kept = last, max(self.kept, len(self.talk.logged(last + 1)))

    def loses(self, part):
        """Takes a part of what may not have been on the disk out of the log, as where the power fails."""
        size = len(read(self.path))
        if lost := int(part * max(0, size - self.kept)):
            os.truncate(self.path, size - lost)
        return {"and then its power failed": lost > 0}

    def ends(self):
        """Sends all that is left, and compares trace and book with those of one run."""
        self.trial.goes_on("the end", self.path, self.talk, self.first)
        same("the trace", self.heard + self.talk.answered(self.first), self.talk.answered(0))


def paces(trial, talk):
    """How long a start takes, and a row."""
    begun = time.monotonic()
    with trial.start(trial.new()) as it:
        send(it, talk.head)
        hear("the header", it, HEADER)
        ready = time.monotonic()
        for row, answer in zip(talk.rows[:20], talk.answers):
            send(it, row)
            hear("a row", it, answer)
        return ready - begun, (time.monotonic() - ready) / 20


def kills(trial):
    """A service that is killed at random moments, and whose log loses now and then what no answer has said to be there:
    no row that was answered is lost, none is there that wasn't sent, and trace and book are those of one run."""
    talk, at, killed, runs, found = evening(), random.Random(trial.seed), 0, 0, {}
    start, turn = paces(trial, talk)
    while killed < trial.kills:
        client, runs = Client(trial, talk), runs + 1
        while killed < trial.kills and client.first < len(talk.rows) - 1:
            count, is_early, part = at.choice([0, 1, 1, 2, 3, 5, 12]), at.random() < 0.4, at.uniform(0, 1.3)
            loss, killed = at.choice([0, 0, 0, at.random(), 1]), killed + 1
            try:
                said = client.is_killed(count, is_early, part * (count * turn + is_early * start))
                said |= client.loses(loss)
            except Wrong as why:
                raise Wrong(f"seed {trial.seed}, kill {killed}: {why}") from why
            found = {name: found.get(name, 0) + holds for name, holds in said.items()}
        client.ends()
    told = ", ".join(f"{count} {name}" for name, count in found.items())
    return f"seed {trial.seed}: {killed} kills in {runs} runs, {told}"
