"""The service: the dialogue of one call, state by state."""

ARMS = {
    "routefail": "notify",
    "busy": "notify",
    "noanswer": "notify",
    "answer": "notify",
    "abandon": "notify",
    "disconnect 1": "interrupted",
    "disconnect 2": "interrupted",
}


def talk(call, now, found, wanted, least):
    """A dialogue as a generator.

    It gives ("ask", operation) and takes the account's reply, ("refused",) where there is none; it gives
    ("running", operations) or ("ending", operations) and takes the next message, with its number and its moment. It ends
    with the dialogue.
    """
    if found is None:
        yield from ending(("release", 1))
        return
    plan, switch_at = found
    reserve = ("reserve", call, plan, wanted, least)
    reply = yield "ask", (*reserve, now)
    if reply[0] != "granted":
        yield from ending(("release", 21 if reply[0] == "denied" else 41))
        return
    interval = None if switch_at is None else -(-(switch_at - now) // 10)
    number, at, message = yield "running", [("arm", ARMS), ("charge", reply[1], interval, reply[2]), ("go_on",)]
    while message[0] == "charging report" or message[:2] == ("event", "answer"):
        if message[0] == "event":
            number, at, message = yield "running", []
            continue
        reply = yield "ask", ("settle", call, number, message[2])
        if message[1] and reply[0] == "settled":
            reply = yield "ask", (*reserve, at)
        if not message[1] or reply[0] != "granted":
            yield "ask", ("return", call)
            cause = 16 if reply[0] == "denied" else 41
            yield from ending(*([("release", cause)] if message[1] else []))
            return
        number, at, message = yield "running", [("charge", reply[1], None, reply[2])]
    yield "ask", ("return", call)
    if message[0] != "ended":
        yield from ending(*watched(message))


def ending(*operations):
    """What is left of a dialogue: events are answered until the end."""
    _, _, message = yield "ending", [*operations]
    while message[0] != "ended":
        _, _, message = yield "ending", watched(message)


def watched(message):
    """An event at which the gsmSSF waits is answered by Continue."""
    return [("go_on",)] if message[2] == "interrupted" else []


def is_stray(state, message):
    """Whether a dialogue in this state, "running" or "ending", takes no notice of a message."""
    return message[0] == "initial dp" or state == "ending" and message[0] == "charging report"
