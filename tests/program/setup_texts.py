"""Each fault of the table of a setup, and what a run says of accounts that it takes."""
from calls import HEADER as CALLS_HEADER
from lengths import numbered
from rows import BAND, Row, refused, run_input

# Rows that are taken, and the lines of their accounts.
TAKEN = [
    ("", ""),
    (
        "account,0,0\naccount,4294967295,1000000000000000\n",
        "account 0 opening 0 available 0 entries 0\n"
        "account 4294967295 opening 1000000000000000 available 1000000000000000 entries 0\n",
    ),
    ("account,07,1\r\nsubscriber,0,7\r\nsubscriber,00,7\r\n", "account 7 opening 1 available 1 entries 0\n"),
]

# Rows that are refused, and their first fault.
REFUSED = [
    ("account,7", "row 2: Csv"),
    ("account,7,1,", "row 2: Csv"),
    ("accounts,7,1", "row 2: What"),
    ("Account,7,1", "row 2: What"),
    (",,", "row 2: What"),
    ("account,7,", "row 2: Number"),
    ("account,4294967296,1", "row 2: Number"),
    ("account,7,1000000000000001", "row 2: Number"),
    ("account,7,+1", "row 2: Number"),
    ("account,7,1\nsubscriber,,7", "row 3: Number"),
    ("account,7,1\nsubscriber,49a,7", "row 3: Number"),
    ("account,7,1\nsubscriber,49 170,7", "row 3: Number"),
    ("account,7,1\nsubscriber,+49170,7", "row 3: Number"),
    ("account,7,1\nsubscriber,49é,7", "row 3: Number"),
    ("account,7,1\nsubscriber,1234567890123456,7", "row 3: Number"),
    ("account,7,1\nsubscriber,49,x", "row 3: Number"),
    ("account,7,1\naccount,7,1", "row 3: Repeated"),
    ("account,7,1\naccount,007,2", "row 3: Repeated"),
    ("account,7,1\naccount,7,1000000000000001", "row 3: Number"),
    ("account,7,5\naccount,8,5\naccount,7,6", "row 4: Repeated"),
    ("account,7,1\naccount,7,1\nsubscriber,49,8", "row 3: Repeated"),
    ("account,7,1\nsubscriber,49,7\nsubscriber,49,7", "row 4: Repeated"),
    ("account,7,1\nsubscriber,49,7\nsubscriber,49,8", "row 4: Repeated"),
    ("subscriber,49,7", "row 2: Unknown"),
    ("subscriber,49,7\naccount,7,1", "row 2: Unknown"),
    ("account,7,1\nsubscriber,49,8", "row 3: Unknown"),
    ("subscriber,49a,8", "row 2: Number"),
    ("account,7,x\naccount,7", "row 2: Number"),
    ("account,7,1\n\n\naccount,7,1", "row 3: Repeated"),
]

# Accounts in no order, one with a last moment, and their subscribers.
SET_UP = """\
kind,key,value,until
account,9,300,1000
subscriber,491700001,9,
account,2,100,
account,7,200,
subscriber,4917,2,
"""

# Calls of a subscriber, of one whose number begins that of the other, and of two between them; and one that no row charges.
SET_UP_CALLS = """\
moment,call,what,x,y
0,1,start,491700001,4930
0,2,start,4917,4930
0,3,start,49170,4930
0,4,start,49170000,4930
0,5,start,491700001,3317
"""

# Words, and what is printed of them.
SET_UP_SAID = [
    (
        "run",
        "account 2 opening 100 available 100 entries 1\n"
        "account 7 opening 200 available 200 entries 0\n"
        "account 9 opening 300 available 0 entries 1\ncall 1 account 9 paid 0 holding\n",
    ),
    (
        "run --calls",
        f"{CALLS_HEADER}1,491700001,4930,9,49,0,,,0,0,0,open\n2,4917,4930,2,49,0,,2,0,0,0,denied\n"
        "3,49170,4930,,49,0,,2,0,0,0,unknown\n4,49170000,4930,,49,0,,2,0,0,0,unknown\n"
        "5,491700001,3317,9,,0,,2,0,0,0,noroute\n",
    ),
    (
        "run --book",
        "account,seat,op,call,x1,x2,x3,x4,x5,x6,x7,reply,y1,y2,y3\n2,,opening,,100,,,,,,,,,,\n"
        "2,0,reserve,2,50,1000,,600,50,0,0,denied,,,100\n7,,opening,,200,,,,,,,,,,\n9,,opening,,300,1000,,,,,,,,,\n"
        "9,1,reserve,1,50,1000,,600,50,0,0,granted,150,last,0\n",
    ),
]

# Tables without their header.
NO_HEADERS = ["", "kind,key\n", "kind,key,Value\n", "account,7,1\n"]


def counted():
    """As many accounts and rows as a setup may have, and one more."""
    accounts, subscribers = numbered(1_000, "account,", ",1"), numbered(9_000, "subscriber,", ",999")
    lines = numbered(1_000, "account ", " opening 1 available 1 entries 0")
    yield Row("run", run_input("", accounts, ""), lines)
    yield refused("run", run_input("", f"{accounts}account,x\n", ""), "setup row 1002: Csv")
    yield refused("run", run_input("", f"{accounts}account,x,1\n", ""), "setup row 1002: TooManyRows")
    yield Row("run", run_input("", accounts + subscribers, ""), lines)
    yield refused("run", run_input("", f"{accounts}{subscribers}what,,\n", ""), "setup row 10002: TooManyRows")


def rows():
    for setup, lines in TAKEN:
        yield Row("run", run_input("", setup, ""), lines)
    for setup, fault in REFUSED:
        yield refused("run", run_input("", f"{setup}\n", ""), f"setup {fault}")
    for setup in NO_HEADERS:
        yield refused("run", f"prefix,from,fee,rate\n%%\n{setup}%%\n", "setup row 1: Header")
    for words, said in SET_UP_SAID:
        yield Row(words, f"prefix,from,fee,rate\n{BAND}%%\n{SET_UP}%%\n{SET_UP_CALLS}", said)
    yield from counted()
