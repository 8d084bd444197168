"""A run: the play of a script over accounts, round by round."""
import collections
import dataclasses

from . import calls, trace
from .account import Account, account_line, call_lines
from .service import is_stray, talk
from .switch import Refused, Switch
from .tables import BOOK, Fault, has_steps, route

# The faults of an account, in the order in which it judges them.
FAULTS = ("GateClosed", "OutOfRange", "NotOpen", "CallUsed", "HistoryFull", "OutOfMemory")


@dataclasses.dataclass
class Options:
    workers: int = 2
    wanted: int = 600
    least: int = 50
    tssf: int = 100
    tccd: int = 50
    delay: int = 2
    releases: bool = True
    # the numbers of the messages and recharges for which accounts have no memory
    without_memory: "frozenset[int]" = frozenset()


def shown(it):
    return "" if it is None else str(it)


def op_fields(op, columns):
    """The fields op to x7 of a row of a book, or to x9, where there are so many columns."""
    kind = op[0]
    if kind == "credit":
        x = ["", *op[1:]]
    elif kind == "reserve":
        x = [op[1], op[2].fee, op[2].before, op[2].after, op[3], op[4], op[2].free, op[5], *[op[2].first, op[2].step][: columns - 9]]
    elif kind == "settle":
        x = [op[1], op[2], *op[3]]
    else:
        x = [op[1]]
    return ",".join([kind, *map(shown, x + [None] * (columns - 1 - len(x)))])


def reply_fields(reply):
    """The fields reply to y3."""
    kind, *y, available = reply
    if kind == "granted":
        y = [y[0], "last" if y[1] else "more"]
    return ",".join([kind, *map(shown, [*y, None, None][:2]), str(available)])


def divided(script, setup, count):
    """The accounts and the rows of each part of a script."""
    accounts, subscribers = setup
    payers = {}
    for _, call, word, *rest in script:
        if word == "start" and rest[0] in subscribers:
            payers.setdefault(call, subscribers[rest[0]])
    owners = [rest[0] if word == "recharge" else payers.get(call) for _, call, word, *rest in script]
    weights, count = collections.Counter(owners), max(1, min(count, len(accounts)))
    share, firsts, taken = sum(weights[it] for it in accounts) // count, [], 0
    for place, account in enumerate(sorted(accounts)):
        missing = count - 1 - len(firsts)
        if missing and (len(accounts) - place <= missing or place and taken >= share * (1 + len(firsts))):
            firsts.append(account)
        taken += weights[account]
    parts = [([], []) for _ in range(count)]
    for account in accounts:
        parts[sum(it <= account for it in firsts)][0].append(account)
    for row, owner in zip(script, owners):
        parts[row[1] % count if owner is None else sum(it <= owner for it in firsts)][1].append(row)
    return parts


def listed(one, many, items):
    """A line that says how many there are, and which are the first ten."""
    if not items:
        return ""
    return f"{len(items)} {one if len(items) == 1 else many}: {', '.join(map(str, items[:10]))}{', ..' * (len(items) > 10)}\n"


class Run:
    """Accounts, dialogues and switches. With the text of a book, the operations of a round are taken in its order."""

    def __init__(self, tariff, setup, options, book=None, clock=str):
        accounts, self.subscribers = setup
        self.tariff, self.options, self.openings = tariff, options, accounts
        self.accounts = {it: Account(*accounts[it]) for it in sorted(accounts)}
        self.switches, self.talks, self.deliveries, self.number = {}, {}, [], 0
        self.told, self.traced, self.clock = {}, [], clock
        # the events that had no place, each with its call
        self.unplaced = []
        # the columns of an operation in the book
        self.columns = 11 if has_steps(tariff) else 9
        # whether workers met at an account in one round, so that the order of their operations is open
        self.is_contended, self.met, self.refused = False, {}, collections.Counter()
        self.orders = None if book is None else {it: [] for it in accounts}
        for line in book.splitlines()[1:] if book else []:
            account, seat, *fields = line.split(",")
            if fields and fields[0] != "opening" and account.isdigit() and int(account) in self.orders:
                self.orders[int(account)].append((seat, ",".join(fields[: self.columns])))

    def play(self, script):
        rows = collections.deque(script)
        while True:
            dues = [it.next_due() for it in self.switches.values()]
            moments = [rows[0][0]] if rows else []
            moments += [self.deliveries[0][0]] if self.deliveries else []
            moments += [it for it in dues if it is not None]
            if not moments:
                return
            self.round(min(moments), rows)

    def round(self, now, rows):
        posts = []
        while self.deliveries and self.deliveries[0][0] == now:
            _, call, op = self.deliveries.pop(0)
            self.give(call, posts, lambda switch: switch.operation(now, op))
        while rows and rows[0][0] == now:
            _, call, word, *rest = rows.popleft()
            if word == "start":
                self.switches[call] = Switch(self.options.tssf, self.options.tccd, self.options.releases, [])
                self.give(call, posts, lambda switch: switch.trigger(now, *rest))
            elif word == "recharge":
                posts.append((None, ("recharge", *rest)))
            else:
                point = f"disconnect {rest[0]}" if word == "disconnect" else word
                if not self.give(call, posts, lambda switch: switch.event(now, point)):
                    self.unplaced.append((call, f"call {call} {word} at {now}"))
        for call in sorted(self.switches):
            self.give(call, posts, lambda switch: switch.run_timers(now))
        for call, message in posts:
            if call is not None:
                calls.hear(self.told, now, call, message)
        answers = self.answered(now, posts)
        self.refused.update(it.refused for it in answers.values() if it.refused)
        for (call, message), (number, answer) in zip(posts, sorted(answers.items())):
            self.deliveries += [(now + self.options.delay, call, op) for op in answer.ops]
            self.traced += trace.rows(now, number, call, message, answer, self.clock)

    def give(self, call, posts, do):
        """Gives a call's switch an input, and puts what it sends to the posts. Says whether the input was taken."""
        switch, is_taken = self.switches[call], True
        try:
            do(switch)
        except Refused:
            is_taken = False
        posts += [(call, it) for it in switch.sent]
        switch.sent.clear()
        return is_taken

    def answered(self, now, posts):
        """The answer to each post, by its number. Each worker goes through its posts in order."""
        answers, queues, self.met = {}, {}, {}
        for call, message in posts:
            owner = message[1] if call is None else call
            queues.setdefault(owner % self.options.workers, []).append((self.number, call, message))
            self.number += 1
        if self.orders is None:
            in_turn = sorted((number, seat, call, message) for seat, queue in queues.items() for number, call, message in queue)
            for number, seat, call, message in in_turn:
                self.take_turns(now, [(seat, self.work(now, [(number, call, message)], answers))])
        else:
            self.take_turns(now, [(seat, self.work(now, queue, answers)) for seat, queue in sorted(queues.items())])
        return answers

    def take_turns(self, now, workers):
        """Answers what workers ask, each as soon as it's the next entry of its account's book."""
        asks = [next(it, None) for _, it in workers]
        while any(asks):
            before = list(asks)
            for at, (seat, worker) in enumerate(workers):
                while asks[at] and self.is_next(seat, *asks[at]):
                    account, *ask = asks[at]
                    reply = self.accounts[account].apply(seat, *ask)
                    asks[at] = send(worker, ("refused", reply) if isinstance(reply, str) else reply)
            if asks == before:
                raise Fault(f"model: at {now} no order of these is the book's: {[it for it in asks if it]}", 9)

    def is_next(self, seat, account, op, has_memory):
        if self.orders is None and self.met.setdefault(account, seat) != seat:
            self.is_contended = True
        if self.orders is None or self.accounts[account].fault(op, has_memory):
            return True
        order = self.orders[account]
        if not order or order[0] != (str(seat), op_fields(op, self.columns)):
            return False
        order.pop(0)
        return True

    def work(self, now, queue, answers):
        """What a worker asks as it goes through its posts: accounts, operations, and whether there is memory for them."""
        for number, call, message in queue:
            answers[number] = answer = trace.Answer()
            if call is None:
                note(answer, (yield message[1], ("credit", *message[2:]), number not in self.options.without_memory))
            else:
                yield from self.handle(now, number, call, message, answer)

    def handle(self, now, number, call, message, answer):
        """What is asked for a message, and what it is answered."""
        if call not in self.talks:
            if message[0] != "initial dp":
                answer.is_stray = True
                return
            if message[1] not in self.subscribers:
                answer.ops = [("release", 21)]
                return
            found = route(self.tariff, message[2], now)
            dialogue = talk(call, now, found, self.options.wanted, self.options.least)
            account, given = self.subscribers[message[1]], None
        else:
            dialogue, account, state = self.talks[call]
            if is_stray(state, message):
                answer.is_stray = True
                return
            given = number, now, message
        turn = send(dialogue, given)
        while turn and turn[0] == "ask":
            turn = send(dialogue, note(answer, (yield account, turn[1], number not in self.options.without_memory)))
        if turn is None:
            del self.talks[call]
            return
        self.talks[call] = dialogue, account, turn[0]
        answer.ops = turn[1]

    def refusals(self):
        """The line about how many messages and recharges an account refused, and why."""
        kinds = [f"{self.refused[it]} {it}" for it in FAULTS if self.refused[it]]
        return f"prepaid: refused: {', '.join(kinds)}\n" if kinds else ""

    def notes(self, script):
        """The lines about calls that no subscriber makes, and about events that had no place."""
        strangers = [call for _, call, word, *rest in script if word == "start" and rest[0] not in self.subscribers]
        events = [event for _, event in sorted(self.unplaced, key=lambda it: it[0])]
        calls_line = listed("call of a number that no subscriber has", "calls of numbers that no subscriber has", strangers)
        return calls_line + listed("event that had no place", "events that had no place", events)

    def lines(self):
        return "".join(account_line(number, it) for number, it in self.accounts.items()) + call_lines(self.accounts)

    def calls(self):
        return calls.table(self.told, self.tariff, self.subscribers, self.accounts, self.clock)

    def trace(self):
        return trace.table(self.traced)

    def book(self):
        rows = [",".join(BOOK[3 if self.columns == 11 else 2])]
        for number, account in self.accounts.items():
            rows.append(f"{number},,opening,,{account.opening},{shown(self.openings[number][1])}" + "," * self.columns)
            rows += [f"{number},{seat},{op_fields(op, self.columns)},{reply_fields(reply)}" for seat, op, reply in account.entries]
        return "".join(f"{it}\n" for it in rows)


def note(answer, reply):
    """Notes a fault in the answer, and gives the reply."""
    if reply[0] == "refused":
        answer.refused = reply[1]
    return reply


def send(generator, given):
    """What a generator gives next, or None where it ends."""
    try:
        return generator.send(given)
    except StopIteration:
        return None
