"""Prices and the sequential account, by their definitions."""
import dataclasses

DAY = 864_000
MAX_MONEY = 10**15


@dataclasses.dataclass(frozen=True)
class Plan:
    fee: int
    before: int
    after: "int | None" = None
    free: int = 0
    first: int = 0
    step: int = 1

    def has_steps(self):
        return (self.first, self.step) != (0, 1)


@dataclasses.dataclass(frozen=True)
class Times:
    before: int = 0
    after: int = 0
    switched: bool = False

    def total(self):
        return self.before + self.after


def billed(plan, charged):
    """What is billed of units that are charged for: the first ones whole, and those beyond in whole steps."""
    if charged == 0:
        return 0
    steps = -(-max(0, charged - plan.first) // plan.step)
    return plan.first + steps * plan.step


def price(plan, before, after):
    """Nothing for no time, else the fee and what is billed at both rates, rounded up once."""
    if before + after == 0:
        return 0
    # the time before the switch uses the free units up first
    charged, later = max(0, before - plan.free), max(0, after - max(0, plan.free - before))
    # and a step that begins before the switch is billed whole before it
    early = billed(plan, charged)
    late = billed(plan, charged + later) - early
    return plan.fee + -(-(early * plan.before + late * (plan.after or 0)) // 600)


def lawful(plan, old, new, granted):
    return (
        new.before >= old.before
        and new.after >= old.after
        and (not old.switched or new.switched and new.before == old.before)
        and (not new.switched or plan.after is not None)
        and new.total() <= granted
    )


def ceiling(plan, old, units):
    """The greatest price over all lawful times, which is at an end of the stretch: what is billed in all depends on
    the whole time alone, and the dearer rate is best had for all of it."""
    ends = [Times(old.before + units, old.after, old.switched), Times(old.before, old.after + units, True)]
    return max(price(plan, it.before, it.after) for it in ends if lawful(plan, old, it, old.total() + units))


def afford(plan, old, wanted, money):
    """The most units that the money covers."""
    least, most = 0, min(wanted, DAY - old.total())
    while least < most:
        middle = (least + most + 1) // 2
        if ceiling(plan, old, middle) <= money:
            least = middle
        else:
            most = middle - 1
    return least


def read_times(old, info):
    """What a report states: ('n', t) or ('s', since, interval or None); None where it can't be."""
    if info[0] == "n":
        return Times(info[1])
    before = info[2] if info[2] is not None else old.before if old.switched else 0
    return Times(before, info[1], True) if before + info[1] <= DAY else None


@dataclasses.dataclass
class Call:
    """What an account knows of a call that was granted something."""

    plan: Plan
    times: Times = Times()
    granted: int = 0
    top: int = 0
    is_open: bool = True
    has_forfeit: bool = False
    was_settled: bool = False

    def paid(self):
        return self.top if self.has_forfeit else price(self.plan, self.times.before, self.times.after)

    def taken(self):
        return self.top if self.is_open else self.paid()


@dataclasses.dataclass
class Account:
    """An account, its last moment now, its entries as (seat, operation, reply), and its calls by number."""

    opening: int
    until: "int | None" = None
    limit: int = 1_000_000
    credits: int = 0
    entries: list = dataclasses.field(default_factory=list)
    calls: dict = dataclasses.field(default_factory=dict)

    def available(self):
        return self.opening + self.credits - sum(it.taken() for it in self.calls.values())

    def fault(self, op, has_memory=True):
        """Why an operation is refused, or None. For closing a call memory is kept beside the places."""
        kind, call = op[0], self.calls.get(op[1])
        if kind == "credit" and not 1 <= op[1] <= MAX_MONEY:
            return "OutOfRange"
        if kind == "reserve" and (not 1 <= op[3] <= DAY or op[4] > DAY):
            return "OutOfRange"
        if kind in ("settle", "return") and not (call and call.is_open):
            return "NotOpen"
        if kind == "reserve" and call and not call.is_open:
            return "CallUsed"
        owed = sum(1 + (not it.was_settled) for it in self.calls.values() if it.is_open)
        needed = self.needed(op, call)
        if len(self.entries) + owed + needed > self.limit:
            return "HistoryFull"
        return None if has_memory or not needed else "OutOfMemory"

    def needed(self, op, call):
        """The places that the operation takes of the history, beside those that are kept for closing."""
        if op[0] == "credit":
            return 1
        if op[0] == "reserve":
            return 1 + call.was_settled if call else 3
        return int(op[0] == "settle" and call.was_settled)

    def apply(self, seat, op, has_memory=True):
        """Answers an operation and enters it; a fault is a text, and changes nothing."""
        fault = self.fault(op, has_memory)
        if fault:
            return fault
        reply = getattr(self, op[0])(*op[1:])
        reply = (*reply, self.available())
        self.entries.append((seat, op, reply))
        return reply

    def credit(self, amount, until):
        if self.opening + self.credits + amount > MAX_MONEY:
            return ("over",)
        self.credits += amount
        self.until = self.until if until is None else until
        return ("credited",)

    def reserve(self, number, plan, wanted, least, at):
        call = self.calls.get(number)
        known = call or Call(plan)
        money = self.available() + (call.taken() if call else 0)
        units = afford(known.plan, known.times, wanted, money)
        is_late = self.until is not None and at > self.until
        if units < least or units == 0 or known.has_forfeit or is_late:
            return ("denied",)
        known.granted = known.times.total() + units
        known.top = ceiling(known.plan, known.times, units)
        known.was_settled = False
        self.calls[number] = known
        return ("granted", units, units < wanted)

    def settle(self, number, _, info):
        call = self.calls[number]
        call.was_settled = True
        times = read_times(call.times, info)
        if times is None or call.has_forfeit or not lawful(call.plan, call.times, times, call.granted):
            call.has_forfeit = True
            return ("forfeit", call.top)
        call.times = times
        return ("settled", call.paid())

    def return_(self, number):
        call = self.calls[number]
        call.is_open = False
        return ("returned", call.paid())


setattr(Account, "return", Account.return_)


def account_line(number, account):
    left, count = account.available(), len(account.entries)
    return f"account {number} opening {account.opening} available {left} entries {count}\n"


def call_lines(accounts):
    """A line for each call that an account granted anything, by the calls' numbers and then the accounts'."""
    known = [(call, number, it) for number, account in accounts.items() for call, it in account.calls.items()]
    lines = []
    for call, number, it in sorted(known, key=lambda row: row[:2]):
        word = "forfeit" if it.has_forfeit else "holding" if it.is_open else "returned"
        lines.append(f"call {call} account {number} paid {it.paid()} {word}\n")
    return "".join(lines)
