"""The table of a run's calls: what the switch has told of each, and what its account knows of it."""
import dataclasses

HEADER = "call,calling,called,account,prefix,start,answer,end,before,after,paid,outcome"
# What a report of the switch makes of a call, the first that was sent.
REPORTED = {"busy": "busy", "noanswer": "noanswer", "routefail": "routefail", "abandon": "abandoned", "disconnect": "ended"}


@dataclasses.dataclass
class Told:
    """The numbers of a call, the moments of three of its messages, and the points that were reported."""

    calling: "str | None" = None
    called: "str | None" = None
    start: "int | None" = None
    answer: "int | None" = None
    end: "int | None" = None
    reported: set = dataclasses.field(default_factory=set)

    def hear(self, now, message):
        """Notes a message. Of its start, its answer and its end the first one counts."""
        if message[0] == "initial dp" and self.start is None:
            self.calling, self.called, self.start = *message[1:], now
        elif message[0] == "ended" and self.end is None:
            self.end = now
        elif message[0] == "event":
            self.reported.add(message[1].split()[0])
            if message[1] == "answer" and self.answer is None:
                self.answer = now


def hear(calls, now, call, message):
    """Notes a message of a call."""
    calls.setdefault(call, Told()).hear(now, message)


def outcome(told, account, prefix, replies, known):
    """The first word that fits, by the replies to the call's reserves and by what its account knows of it."""
    if account is None:
        return "unknown"
    if prefix is None:
        return "noroute"
    if known is None:
        return "denied" if any(it[0] == "denied" for it in replies) else "refused"
    if known.has_forfeit:
        return "forfeit"
    if told.end is None:
        return "open"
    for point, word in REPORTED.items():
        if point in told.reported:
            return word
    granted = [i for i, it in enumerate(replies) if it[0] == "granted"]
    was_denied = any(it[0] == "denied" for it in replies[granted[0] :])
    is_spent = replies[granted[-1]][2] and known.times.total() == known.granted
    return "cut" if was_denied or is_spent else "released"


def table(calls, tariff, subscribers, accounts, clock=str):
    """The table, by rising numbers of the calls, with moments as a clock prints them."""
    reserves = {}
    for number, it in accounts.items():
        for _, op, reply in it.entries:
            if op[0] == "reserve":
                reserves.setdefault((number, op[1]), []).append(reply)
    rows = [HEADER]
    for call, told in sorted((call, it) for call, it in calls.items() if it.start is not None):
        account = subscribers.get(told.calling)
        prefix = max((it for it in tariff if told.called.startswith(it)), key=len, default=None)
        known = accounts[account].calls.get(call) if account is not None else None
        times = (known.times.before, known.times.after, known.paid()) if known else (0, 0, 0)
        word = outcome(told, account, prefix, reserves.get((account, call), []), known)
        moments = (None if it is None else clock(it) for it in (told.start, told.answer, told.end))
        fields = [call, told.calling, told.called, account, prefix, *moments, *times, word]
        rows.append(",".join("" if it is None else str(it) for it in fields))
    return "".join(f"{it}\n" for it in rows)
