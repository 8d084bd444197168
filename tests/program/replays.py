"""Worked operations on an account, and the first fault of their table."""
from rows import Row, refused

OPENED = "replay --opening 1500"

# Words, the rows of a table, and what they are answered.
ANSWERED = [
    (
        OPENED,
        "0,reserve,1,50,1000,400,600,50\n0,settle,1,0,n,700,,\n0,return,1,,,,,\n0,return,1,,,,,\n",
        "granted 600 more available 450\nforfeit paid 1050 available 450\nreturned paid 1050 available 450\nrefused NotOpen\n",
    ),
    (
        "replay --opening 1500 --limit 3",
        "0,reserve,1,50,1000,400,600,50\n0,credit,,1,,,,\n",
        "granted 600 more available 450\nrefused HistoryFull\n",
    ),
    (
        OPENED,
        "0,reserve,1,50,1000,400,600,50\n0,settle,1,0,n,300,,\n0,return,1,,,,,\n0,reserve,1,50,1000,400,600,50\n",
        "granted 600 more available 450\nsettled paid 550 available 450\nreturned paid 550 available 950\nrefused CallUsed\n",
    ),
    (
        OPENED,
        "0,reserve,1,50,1000,400,600,50\n0,settle,1,0,s,600,,\n0,return,1,,,,,\n",
        "granted 600 more available 450\nsettled paid 450 available 450\nreturned paid 450 available 1050\n",
    ),
    (
        OPENED,
        "0,reserve,1,50,1000,400,600,50\n0,settle,1,0,s,100,200,\n",
        "granted 600 more available 450\nsettled paid 450 available 450\n",
    ),
    (
        OPENED,
        "0,reserve,1,50,1000,400,600,50\n15,reserve,2,50,1000,400,600,50\n1,reserve,3,50,1000,400,600,50\n",
        "granted 600 more available 450\ngranted 240 last available 0\ndenied available 0\n",
    ),
    (
        OPENED,
        "1,reserve,1,50,1000,400,600,50\n0,credit,,600,,,,\n0,reserve,2,50,1000,400,600,50\n",
        "granted 600 more available 450\ncredited available 1050\ngranted 600 more available 0\n",
    ),
    (
        "replay --opening 1000000000000000",
        "0,credit,,1,,,,\n0,credit,,0,,,,\n",
        "over available 1000000000000000\nrefused OutOfRange\n",
    ),
    # the greatest of each: 864000 at 10^9 a minute are 1440 of these, and the fee
    (
        "replay --opening 1441000000000",
        "0,reserve,18446744073709551615,1000000000,1000000000,1000000000,864000,864000\n"
        "0,settle,18446744073709551615,18446744073709551615,n,864000,,\n0,return,18446744073709551615,,,,,\n",
        "granted 864000 more available 0\nsettled paid 1441000000000 available 0\nreturned paid 1441000000000 available 0\n",
    ),
    (
        "replay --opening 1441000000000",
        "0,reserve,1,1000000000,1000000000,1000000000,864000,864000\n0,settle,1,0,s,864000,,\n",
        "granted 864000 more available 0\nsettled paid 1441000000000 available 0\n",
    ),
    (OPENED, "", ""),
]

# The rows of tables that are refused, and their first fault.
REFUSED = [
    ("0,credit,,1,,,\n", "ops row 2: Csv"),
    ("0,credit,,1,,,,\n0,debit,,1,,,,\n", "ops row 3: What"),
    ("16,debit,,x,,,,1\n", "ops row 2: What"),
    ("0,settle,1,0,x,1,,\n", "ops row 2: What"),
    ("16,credit,,1,,,,\n", "ops row 2: Number"),
    ("0,credit,,1000000000000001,,,,\n", "ops row 2: Number"),
    ("0,credit,1,x,,,,\n", "ops row 2: Number"),
    ("0,reserve,,50,1000,400,600,50\n", "ops row 2: Number"),
    ("0,reserve,1,50,1000,1000000001,600,50\n", "ops row 2: Number"),
    ("0,reserve,1,50,1000,,864001,50\n", "ops row 2: Number"),
    ("0,settle,1,0,s,1,0,\n", "ops row 2: Number"),
    ("0,settle,1,0,n,864001,,\n", "ops row 2: Number"),
    ("0,settle,1,0,s,864001,,\n", "ops row 2: Number"),
    ("0,settle,1,0,s,1,864001,\n", "ops row 2: Number"),
    ("0,reserve,18446744073709551616,50,1000,400,600,50\n", "ops row 2: Number"),
    ("0,settle,18446744073709551616,0,n,1,,\n", "ops row 2: Number"),
    ("0,settle,1,18446744073709551616,n,1,,\n", "ops row 2: Number"),
    ("0,settle,18446744073709551616,0,s,1,,\n", "ops row 2: Number"),
    ("0,settle,1,18446744073709551616,s,1,,\n", "ops row 2: Number"),
    ("0,return,18446744073709551616,,,,,\n", "ops row 2: Number"),
    ("0,reserve,1,1000000001,1000,400,600,50\n", "ops row 2: Number"),
    ("0,reserve,1,50,1000000001,400,600,50\n", "ops row 2: Number"),
    ("0,reserve,1,50,1000,,600,864001\n", "ops row 2: Number"),
    ("0,credit,1,1,,,,\n", "ops row 2: Empty"),
    ("0,settle,1,0,n,1,1,\n", "ops row 2: Empty"),
    ("0,settle,1,0,s,1,1,1\n", "ops row 2: Empty"),
    ("0,return,1,,,,,1\n", "ops row 2: Empty"),
]

# Words, the rows of a table with free units, and what they are answered.
FREE_ANSWERED = [
    (
        "replay --opening 550",
        "0,reserve,1,50,1000,400,600,50,300\n0,settle,1,0,s,300,200,,\n0,return,1,,,,,,\n",
        "granted 600 more available 0\nsettled paid 184 available 0\nreturned paid 184 available 366\n",
    ),
    (
        OPENED,
        "0,reserve,1,50,1000,400,600,50,0\n0,settle,1,0,n,700,,,\n0,credit,,1,,,,,\n",
        "granted 600 more available 450\nforfeit paid 1050 available 450\ncredited available 451\n",
    ),
]

# The rows of such tables that are refused, and their first fault.
FREE_REFUSED = [
    ("0,reserve,1,50,1000,400,600,50,\n", "ops row 2: Number"),
    ("0,reserve,1,50,1000,400,600,50,864001\n", "ops row 2: Number"),
    ("0,reserve,1,50,1000,400,600,50\n", "ops row 2: Csv"),
    ("0,credit,,1,,,,,0\n", "ops row 2: Empty"),
    ("0,settle,1,0,n,1,,,0\n", "ops row 2: Empty"),
    ("0,settle,1,0,s,1,1,,0\n", "ops row 2: Empty"),
    ("0,return,1,,,,,,0\n", "ops row 2: Empty"),
]

HEADER = "seat,op,call,x1,x2,x3,x4,x5"
HEADER_WITH_X6 = "seat,op,call,x1,x2,x3,x4,x5,x6"


def rows():
    for header, answered, refusals in [(HEADER, ANSWERED, REFUSED), (HEADER_WITH_X6, FREE_ANSWERED, FREE_REFUSED)]:
        for words, asked, output in answered:
            yield Row(words, f"{header}\n{asked}", output)
        for asked, fault in refusals:
            yield refused("replay --opening 9", f"{header}\n{asked}", fault)
    yield refused("replay --opening 9", f"{HEADER}\n0,reserve,1,50,1000,400,600,50,300\n", "ops row 2: Csv")
    yield refused("replay --opening 9", "seat,op,call,x1,x2,x3,x4\n", "ops row 1: Header")
