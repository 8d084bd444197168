"""The gsmSSF of one call, by docs/GSMSSF.md. Moments are in units of 100 ms."""
from .account import DAY

POINTS = ("routefail", "busy", "noanswer", "answer", "disconnect 1", "disconnect 2", "abandon")
TIMERS = ("tsw", "tcp", "tccd", "tssf")


class Refused(Exception):
    """An input that the gsmSSF takes no notice of."""


class Switch:
    """One gsmSSF. What it sends is put at the end of `sent`."""

    def __init__(self, tssf, tccd, releases, sent):
        self.tssf, self.tccd, self.releases, self.sent = tssf, tccd, releases, sent
        self.state = "requested"
        self.modes = dict.fromkeys(POINTS, "transparent")
        self.timers = {}
        self.granted, self.is_pending, self.is_last = 0, False, False
        self.answered = self.switched = None

    def next_due(self):
        return min(self.timers.values(), default=None)

    def run_timers(self, now):
        while self.timers and self.next_due() <= now:
            due = self.next_due()
            timer = next(it for it in TIMERS if self.timers.get(it) == due)
            del self.timers[timer]
            getattr(self, timer + "_expired")(due)

    def tsw_expired(self, due):
        self.switched = due

    def tcp_expired(self, due):
        self.report(due, not self.is_last)
        self.is_pending = False
        if self.is_last:
            self.end()
        else:
            self.timers["tccd"] = due + self.tccd

    def tccd_expired(self, _):
        self.end()

    def tssf_expired(self, _):
        self.end()

    def end(self):
        self.state, self.timers, self.is_pending = "ended", {}, False
        self.sent.append(("ended",))

    def report(self, now, is_active):
        """A ChargingReport of the time since the answer, split at the switch."""
        if self.switched is None:
            info = ("n", now - self.answered)
        else:
            interval = self.switched - self.answered if self.switched > self.answered else None
            info = ("s", now - max(self.switched, self.answered), interval)
        self.sent.append(("charging report", is_active, info))

    def last_report(self, now):
        if self.state == "active" and self.is_pending:
            self.report(now, False)

    def trigger(self, now, calling, called):
        self.state, self.timers["tssf"] = "initial", now + self.tssf
        self.sent.append(("initial dp", calling, called))

    def operation(self, now, op):
        self.run_timers(now)
        getattr(self, op[0])(now, *op[1:])

    def arm(self, now, modes):
        if self.state in ("initial", "down"):
            self.timers["tssf"] = now + self.tssf
        elif self.state not in ("setup", "active"):
            raise Refused
        self.modes.update(modes)

    def charge(self, now, period, interval, is_last):
        if self.state == "active":
            if "tccd" not in self.timers or self.granted + period > DAY or self.answered + self.granted + period <= now:
                raise Refused
            del self.timers["tccd"]
            self.granted += period
            self.timers["tcp"] = self.answered + self.granted
        elif self.state in ("initial", "setup") and not self.is_pending:
            self.granted = period
            if self.state == "initial":
                self.timers["tssf"] = now + self.tssf
        else:
            raise Refused
        self.is_pending, self.is_last = True, is_last
        if interval is not None and self.switched is None:
            self.timers["tsw"] = now + 10 * interval

    def go_on(self, _):
        if self.state == "initial" and (self.is_pending or set(self.modes.values()) != {"transparent"}):
            self.state = "setup"
            del self.timers["tssf"]
        elif self.state in ("initial", "down"):
            self.end()
        else:
            raise Refused

    def release(self, now, _):
        if self.state not in ("initial", "down", "setup", "active"):
            raise Refused
        self.last_report(now)
        self.end()

    def event(self, now, point):
        """What the call meets: a point of POINTS."""
        self.run_timers(now)
        mode = self.modes[point]
        if point == "answer" and self.state == "setup":
            self.answered, self.state = now, "active"
            if self.is_pending:
                self.timers["tcp"] = now + self.granted
            if mode == "notify":
                self.sent.append(("event", point, mode))
        elif point == "abandon" and self.state in ("initial", "setup"):
            if mode == "notify":
                self.sent.append(("event", point, mode))
            self.end()
        elif self.state == ("active" if point.startswith("disconnect") else "setup") and point not in ("answer", "abandon"):
            self.last_report(now)
            if mode != "transparent":
                self.sent.append(("event", point, mode))
            if mode == "interrupted":
                self.state, self.is_pending, self.timers = "down", False, {"tssf": now + self.tssf}
            else:
                self.end()
        else:
            raise Refused
