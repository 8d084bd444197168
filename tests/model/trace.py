"""The trace of a run: each message or recharge, and what the service said to it."""
import dataclasses

HEADER = "moment,number,call,from,what,x1,x2,x3,x4"
# The words of the events that a switch reports.
EVENTS = {"routefail": "routeSelectFailure", "busy": "busy", "noanswer": "noAnswer"}


@dataclasses.dataclass
class Answer:
    """The operations that answer a post, whether it had no place, and the last fault that an account told."""

    ops: list = dataclasses.field(default_factory=list)
    is_stray: bool = False
    refused: "str | None" = None

    def said(self):
        """The fields from what on of each row of the service."""
        stray = [["stray"]] if self.is_stray else []
        refused = [["refused", self.refused]] if self.refused else []
        return [*map(operation, self.ops), *stray, *refused]


def message(it):
    """The fields of a message, from what on."""
    kind, *rest = it
    if kind == "initial dp":
        return ["InitialDP", *rest]
    if kind == "event":
        event, _, leg = rest[0].partition(" ")
        return ["EventReportBCSM", EVENTS.get(event, event), leg, rest[1]]
    if kind == "charging report":
        return ["ApplyChargingReport", "active" if rest[0] else "inactive", *rest[1]]
    return ["Recharge" if kind == "recharge" else "Ended", *rest]


def operation(it):
    """The fields of an operation, from what on."""
    kind, *rest = it
    if kind == "charge":
        period, interval, is_last = rest
        return ["ApplyCharging", period, interval, "release" if is_last else None]
    if kind == "release":
        return ["ReleaseCall", *rest]
    return ["Continue" if kind == "go_on" else "RequestReportBCSMEvent"]


def rows(now, number, call, post, answer, clock=str):
    """The row of a post, and those of its answer, with moments as a clock prints them."""
    if post[0] == "recharge" and post[3] is not None:
        post = (*post[:3], clock(post[3]))
    said = [("operator" if call is None else "switch", message(post)), *(("service", it) for it in answer.said())]
    return [row([clock(now), number, call, sender, *fields]) for sender, fields in said]


def row(fields):
    return ",".join("" if it is None else str(it) for it in fields + [None] * (9 - len(fields)))


def table(traced):
    return "".join(f"{it}\n" for it in [HEADER, *traced])
