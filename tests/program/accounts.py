"""Worked accounts: what each is asked in turn, and what it answers."""
from rows import Row

HEADER = "seat,op,call,x1,x2,x3,x4,x5,x6,x7,x8,x9\n"


def reserve(call, wanted, at=0, second=400, free=0, first=0, step=1, before=1000, fee=50, least=50):
    """A call reserves time at a moment, at a rate and a second one, and takes so much at least."""
    return f"3,reserve,{call},{fee},{before},{second},{wanted},{least},{free},{at},{first},{step}\n"


def talked(call, time):
    """A call reports its time without a switch."""
    return f"3,settle,{call},7,n,{time},,,,,,\n"


def switched(call, since, before=""):
    """A call reports its time since a switch and before it."""
    return f"3,settle,{call},7,s,{since},{before},,,,,\n"


def returned(call):
    return f"3,return,{call},,,,,,,,,\n"


def credit(amount, until=""):
    return f"3,credit,,{amount},{until},,,,,,,\n"


# A call is granted the 600 units that it wants, for 1050 of 1500.
GRANTED = (reserve(1, 600), "granted 600 more available 450")
# It has talked 200 units before the switch and 100 after it.
SWITCHED = (switched(1, 100, 200), "settled paid 450 available 450")
NOT_OPEN = "refused NotOpen"
# A call that is over takes nothing more.
OVER = [(reserve(1, 600), "refused CallUsed"), (returned(1), NOT_OPEN)]

# What an account with 1500 is asked, and what it answers.
ANSWERED = [
    # a call that talks all of its grant, and one that talks half of it
    [GRANTED, (talked(1, 600), "settled paid 1050 available 450"), (returned(1), "returned paid 1050 available 450"), *OVER],
    [GRANTED, (talked(1, 300), "settled paid 550 available 450"), (returned(1), "returned paid 550 available 950"), *OVER],
    # a call after the switch alone, and one before and after it
    [GRANTED, (switched(1, 600), "settled paid 450 available 450"), (returned(1), "returned paid 450 available 1050"), *OVER],
    [GRANTED, SWITCHED, (returned(1), "returned paid 450 available 1050"), *OVER],
    # two calls, and the same with a credit between them
    [GRANTED, (reserve(2, 600), "granted 240 last available 0")],
    [GRANTED, (credit(600), "credited available 1050"), (reserve(2, 600), "granted 600 more available 0")],
    # a report past the grant, by one unit and by more
    [GRANTED, (talked(1, 601), "forfeit paid 1050 available 450")],
    [
        GRANTED,
        (talked(1, 700), "forfeit paid 1050 available 450"),
        (talked(1, 600), "forfeit paid 1050 available 450"),
        (reserve(1, 600), "denied available 450"),
        (returned(1), "returned paid 1050 available 450"),
    ],
    # a switch without a second rate
    [
        (reserve(1, 600, second="", fee=0), "granted 600 more available 500"),
        (switched(1, 100, 100), "forfeit paid 1000 available 500"),
    ],
    # reports that take back time, or the change of rates, or name another moment of it
    [GRANTED, (talked(1, 300), "settled paid 550 available 450"), (talked(1, 299), "forfeit paid 1050 available 450")],
    [GRANTED, SWITCHED, (talked(1, 400), "forfeit paid 1050 available 450")],
    [GRANTED, SWITCHED, (switched(1, 99, 200), "forfeit paid 1050 available 450")],
    [GRANTED, SWITCHED, (switched(1, 100, 201), "forfeit paid 1050 available 450")],
    # a change at the answer, of a call that has talked before it
    [GRANTED, (talked(1, 200), "settled paid 384 available 450"), (switched(1, 150), "forfeit paid 1050 available 450")],
    # the time before the change is said once; and a switch at the end of what was talked is said twice
    [GRANTED, SWITCHED, (switched(1, 150), "settled paid 484 available 450")],
    [GRANTED, (switched(1, 0, 200), "settled paid 384 available 450"), (switched(1, 0, 200), "settled paid 384 available 450")],
    # a switch behind all that was granted first
    [
        GRANTED,
        (talked(1, 600), "settled paid 1050 available 450"),
        (reserve(1, 270), "granted 270 more available 0"),
        (switched(1, 1, 600), "settled paid 1051 available 0"),
    ],
    # free units that were used up by the first grant
    [
        (reserve(1, 300, free=300), "granted 300 more available 1450"),
        (talked(1, 300), "settled paid 50 available 1450"),
        (reserve(1, 300, free=300), "granted 300 more available 950"),
        (talked(1, 600), "settled paid 550 available 950"),
        (returned(1), "returned paid 550 available 950"),
    ],
    # what is not admissible
    [
        (talked(1, 600), NOT_OPEN),
        (returned(1), NOT_OPEN),
        (credit(0), "refused OutOfRange"),
        (reserve(1, 0), "refused OutOfRange"),
        (reserve(1, 600), "granted 600 more available 450"),
    ],
    # the latest moment, where there is no last one; and the first one as the last
    [
        (reserve(1, 600, 2_000_000_000_000), "granted 600 more available 450"),
        (credit(1, 0), "credited available 451"),
        (reserve(2, 600, 1), "denied available 451"),
        (reserve(2, 600), "granted 240 last available 1"),
    ],
]

# The same where the credit has expired by 1001: it came with the last moment 1000.
EXPIRING = [
    [
        (reserve(1, 600, 1000), "granted 600 more available 450"),
        (reserve(2, 600, 1001), "denied available 450"),
        (talked(1, 300), "settled paid 550 available 450"),
        (credit(1, 2000), "credited available 451"),
        (reserve(2, 600, 1001), "granted 240 last available 1"),
        (returned(1), "returned paid 550 available 501"),
    ],
    # a call that is open past the last moment
    [
        (reserve(1, 600, 1000), "granted 600 more available 450"),
        (talked(1, 300), "settled paid 550 available 450"),
        (reserve(1, 600, 1001), "denied available 450"),
        (talked(1, 600), "settled paid 1050 available 450"),
        (returned(1), "returned paid 1050 available 450"),
    ],
    # a credit without a last moment leaves the one before, and one with an earlier moves it
    [(credit(600), "credited available 2100"), (reserve(1, 600, 1001), "denied available 2100")],
    [
        (credit(1, 500), "credited available 1501"),
        (reserve(1, 600, 501), "denied available 1501"),
        (reserve(1, 600, 500), "granted 600 more available 451"),
    ],
]

# Words, what is asked, and what is answered.
OTHERS = [
    (
        "replay --opening 2000000",
        [
            (reserve(1, 864_000, second="", fee=0), "granted 864000 more available 560000"),
            (talked(1, 864_000), "settled paid 1440000 available 560000"),
            (reserve(1, 600, second=""), "denied available 560000"),
        ],
    ),
    # ten units are left of a day
    (
        "replay --opening 1000000000",
        [
            (reserve(1, 864_000), "granted 864000 more available 998559950"),
            (switched(1, 863_970, 20), "settled paid 576064 available 998559950"),
            (reserve(1, 100, least=1), "granted 10 last available 999423930"),
        ],
    ),
    (
        "replay --opening 2000000",
        [
            (reserve(1, 864_000), "granted 864000 more available 559950"),
            (switched(1, 864_000, 1), "forfeit paid 1440050 available 559950"),
        ],
    ),
    # free units that reach past the switch
    (
        "replay --opening 550",
        [
            (reserve(1, 600, free=300), "granted 600 more available 0"),
            (switched(1, 300, 200), "settled paid 184 available 0"),
            (returned(1), "returned paid 184 available 366"),
        ],
    ),
    ("replay --opening 1000000000000000", [(credit(1), "over available 1000000000000000")]),
    # a credit above the most moves no last moment
    (
        "replay --opening 999999999999999",
        [
            (credit(1, 1000), "credited available 1000000000000000"),
            (credit(1, 2000), "over available 1000000000000000"),
            (reserve(1, 600, 1001), "denied available 1000000000000000"),
        ],
    ),
    # the last places, which are kept for closing
    (
        "replay --opening 1500 --limit 3",
        [
            GRANTED,
            (credit(1), "refused HistoryFull"),
            (talked(1, 300), "settled paid 550 available 450"),
            (talked(1, 300), "refused HistoryFull"),
            (returned(1), "returned paid 550 available 950"),
            (credit(1), "refused HistoryFull"),
        ],
    ),
]

# What calls are charged, the units that they want, and what they are granted for all of some money: the money, the units,
# and what is left.
FREE = {"free": 300}
DEARER = {"fee": 0, "before": 400, "second": 1000}
AFFORDED = [
    (FREE, 600, [(550, 600, 0), (549, 599, 0), (50, 300, 0), (49, 0, 49)]),
    ({**DEARER, "free": 300}, 600, [(500, 600, 0), (499, 599, 0)]),
    ({}, 600, [(1050, 600, 0), (1049, 599, 0), (52, 1, 0), (51, 0, 51)]),
    (DEARER, 600, [(1000, 600, 0), (999, 599, 0)]),
    (
        {"first": 600, "step": 600},
        2000,
        [(1049, 0, 1049), (1050, 600, 0), (1500, 600, 450), (2049, 600, 999), (2050, 1200, 0)],
    ),
]


def afforded():
    """What money grants."""
    for charged, wanted, grants in AFFORDED:
        asked = reserve(1, wanted, least=1, **charged)
        for money, units, left in grants:
            granted = f"granted {units} {'more' if units == wanted else 'last'}" if units else "denied"
            yield f"replay --opening {money}", [(asked, f"{granted} available {left}")]


def rows():
    expires = (credit(1, 1000), "credited available 1500")
    accounts = [("replay --opening 1500", it) for it in ANSWERED]
    accounts += [("replay --opening 1499", [expires, *it]) for it in EXPIRING]
    for words, asked in [*accounts, *OTHERS, *afforded()]:
        operations, answers = map("".join, zip(*((op, f"{answer}\n") for op, answer in asked)))
        yield Row(words, HEADER + operations, answers)
