"""Credit with a last moment: in setups, scripts, operations and books."""
from rows import BAND, Row, refused

# A call that is answered at 100 and never ended; its second reserve comes at 700.
CALL = "0,1,start,491700001,4930,\n100,1,answer,,,\n"

# The last moment of account 7, more rows of the script, and what is written.
PLAYED = [
    (
        "1000000000000",
        "1000000000000,,recharge,7,1,1000000000000\n",
        "account 7 opening 1500 available 1 entries 6\ncall 1 account 7 paid 1500 returned\n",
    ),
    ("", "", "account 7 opening 1500 available 0 entries 5\ncall 1 account 7 paid 1500 returned\n"),
    ("700", "", "account 7 opening 1500 available 0 entries 5\ncall 1 account 7 paid 1500 returned\n"),
    ("699", "", "account 7 opening 1500 available 450 entries 4\ncall 1 account 7 paid 1050 returned\n"),
    ("699", "650,,recharge,7,1,2000\n", "account 7 opening 1500 available 1 entries 6\ncall 1 account 7 paid 1500 returned\n"),
    (
        "1970-01-01T00:01:09.9",
        "650,,recharge,7,1,\n",
        "account 7 opening 1500 available 451 entries 5\ncall 1 account 7 paid 1050 returned\n",
    ),
    (
        "1970-01-01 00:01:09.9",
        "1970-01-01 00:01:05,,recharge,7,1,1970-01-01T00:03:20.0\n",
        "account 7 opening 1500 available 1 entries 6\ncall 1 account 7 paid 1500 returned\n",
    ),
    ("699", "650,,recharge,7,1,\n", "account 7 opening 1500 available 451 entries 5\ncall 1 account 7 paid 1050 returned\n"),
]

# The header of a book, and that of the call whose account has the last moment 699.
BOOK_HEADER = "account,seat,op,call,x1,x2,x3,x4,x5,x6,x7,reply,y1,y2,y3\n"
BOOK = f"""\
{BOOK_HEADER}\
7,,opening,,1500,699,,,,,,,,,
7,1,reserve,1,50,1000,,600,50,0,0,granted,600,more,450
7,1,settle,1,2,n,600,,,,,settled,1050,,450
7,1,reserve,1,50,1000,,600,50,0,700,denied,,,450
7,1,return,1,,,,,,,,returned,1050,,450
"""

# Rows of the setup and of the script, and the first fault.
REFUSED = [
    ("account,7,1500\n", "", "setup row 2: Csv"),
    ("account,7,1500,x\n", "", "setup row 2: Number"),
    ("account,7,1500,1000000000001\n", "", "setup row 2: Number"),
    ("account,7,1500,1970-02-30T00:00:00\n", "", "setup row 2: Number"),
    ("account,7,1500,9\nsubscriber,491700001,8,9\n", "", "setup row 3: Empty"),
    ("account,7,1500,\n", "0,,recharge,7,1\n", "script row 2: Csv"),
    ("account,7,1500,\n", "0,,recharge,7,1,1000000000001\n", "script row 2: Number"),
    ("account,7,1500,\n", "0,1,recharge,7,1,x\n", "script row 2: Number"),
    ("account,7,1500,\n", "0,1,start,491700001,4930,1\n", "script row 2: Empty"),
    ("account,7,1500,\n", "0,1,answer,,,1\n", "script row 2: Empty"),
    ("account,7,1500,\n", "0,1,disconnect,1,,1\n", "script row 2: Empty"),
]

# Words, operations with moments, and what they are answered.
ANSWERED = [
    (
        "replay --opening 0 --limit 1000000",
        "0,credit,,999999999999999,1000000000001,,,,,\n"
        "0,reserve,1,1000000000,1000000000,,864000,864000,0,1000000000001\n"
        "0,reserve,2,0,1,,600,50,0,1000000000002\n0,settle,1,0,n,864000,,,,\n0,return,1,,,,,,,\n"
        "0,credit,,1,2000000000000,,,,,\n0,reserve,2,0,1,,600,50,0,2000000000000\n"
        "0,credit,,1,,,,,,\n",
        "credited available 999999999999999\ngranted 864000 more available 998558999999999\n"
        "denied available 998558999999999\nsettled paid 1441000000000 available 998558999999999\n"
        "returned paid 1441000000000 available 998558999999999\n"
        "credited available 998559000000000\n"
        "granted 600 more available 998558999999999\n"
        "over available 998558999999999\n",
    ),
    (
        "replay --opening 1499",
        "0,credit,,1,1000,,,,,\n0,reserve,1,50,1000,400,600,50,0,1000\n"
        "0,reserve,2,50,1000,400,600,50,0,1001\n0,settle,1,0,n,300,,,,\n"
        "0,credit,,1,2000,,,,,\n0,reserve,2,50,1000,400,600,50,0,1001\n0,return,1,,,,,,,\n",
        "credited available 1500\ngranted 600 more available 450\ndenied available 450\n"
        "settled paid 550 available 450\ncredited available 451\n"
        "granted 240 last available 1\nreturned paid 550 available 501\n",
    ),
    (
        "replay --opening 1000000000000000",
        "0,credit,,1,5,,,,,\n0,reserve,1,50,1000,400,600,50,0,6\n",
        "over available 1000000000000000\ngranted 600 more available 999999999998950\n",
    ),
]

# A book whose account has the latest last moment, and whose reserve comes then.
LATEST = """\
account,seat,op,call,x1,x2,x3,x4,x5,x6,x7,reply,y1,y2,y3
7,,opening,,2000000000000,2000000000000,,,,,,,,,
7,1,reserve,1,1000000000,1000000000,,864000,864000,0,2000000000000,granted,864000,more,559000000000
7,1,settle,1,2,n,864000,,,,,settled,1441000000000,,559000000000
"""

# The history of an account: a call is denied past the last moment, and granted once a credit has moved it.
FIRST = "7,1,reserve,1,50,1000,400,600,50,0,1000,granted,600,more,450\n"
DENIED = "7,0,reserve,2,50,1000,400,600,50,0,1001,denied,,,450\n"
SETTLED = "7,1,settle,1,7,n,300,,,,,settled,550,,450\n"
PROLONGED = "7,0,credit,,1,2000,,,,,,credited,,,451\n"
LATER = "7,0,reserve,2,50,1000,400,600,50,0,1001,granted,240,last,1\n"
ENDED = "7,1,return,1,,,,,,,,returned,550,,501\n"
# Its second call at once, and what is left then.
SECOND = LATER.replace(",1\n", ",0\n")

# Entries of an account that was opened with 1500, and the last moments with which they are legal, and aren't.
EXPIRED = [
    ([FIRST, DENIED, SETTLED, PROLONGED, LATER, ENDED], ["1000"], ["999", "1001", ""]),
    # the two replies of the second call are exchanged
    ([FIRST, LATER, SETTLED, PROLONGED, DENIED, ENDED], [], ["1000"]),
    ([FIRST, SECOND], ["", "1001"], ["1000"]),
    ([FIRST, DENIED], ["1000"], [""]),
]

# Operations that are refused, and the fault.
REFUSED_OPERATIONS = [
    ("0,reserve,1,50,1000,400,600,50,0,\n", "ops row 2: Number"),
    ("0,reserve,1,50,1000,400,600,50,0,2000000000001\n", "ops row 2: Number"),
    ("0,credit,,1,2000000000001,,,,,\n", "ops row 2: Number"),
    ("0,credit,,1,,,,,,0\n", "ops row 2: Empty"),
    ("0,return,1,,5,,,,,\n", "ops row 2: Empty"),
    ("0,settle,1,0,n,1,,,,0\n", "ops row 2: Empty"),
    ("0,settle,1,0,s,1,1,,,0\n", "ops row 2: Empty"),
]

# Rows of a book that are refused, and the fault.
REFUSED_BOOKS = [
    ("7,,opening,,1500,,,,,,,,,\n", "book row 2: Csv"),
    ("7,,opening,,1500,x,,,,,,,,,\n", "book row 2: Number"),
    ("7,,opening,,1500,2000000000001,,,,,,,,,\n", "book row 2: Number"),
    ("7,,opening,,1500,,,,,,0,,,,\n", "book row 2: Empty"),
    ("7,1,reserve,1,50,1000,,600,50,0,,granted,600,more,450\n", "book row 2: Number"),
]


def input_of(setup, script):
    """An input whose accounts and recharges may have last moments."""
    return f"prefix,from,fee,rate\n{BAND}%%\nkind,key,value,until\n{setup}%%\nmoment,call,what,x,y,z\n{script}"


def setup_of(until):
    """An account with this last moment, and its subscriber."""
    return f"account,7,1500,{until}\nsubscriber,491700001,7,\n"


def operations(rows_below):
    """A table of operations with moments."""
    return f"seat,op,call,x1,x2,x3,x4,x5,x6,x7\n{rows_below}"


def rows():
    for until, more, output in PLAYED:
        yield Row("run", input_of(setup_of(until), CALL + more), output)
    yield Row("run --book", input_of(setup_of("699"), CALL), BOOK)
    for setup, script, fault in REFUSED:
        yield refused("run --workers 0", input_of(setup, script), fault)
    for words, asked, output in ANSWERED:
        yield Row(words, operations(asked), output)
    for asked, fault in REFUSED_OPERATIONS:
        yield refused("replay --opening 9", operations(asked), fault)
    for book in [BOOK, LATEST]:
        yield Row("audit", book, "account 7 yes\n")
    for entries, legal, illegal in EXPIRED:
        for until in legal + illegal:
            word, status = ("yes", 0) if until in legal else ("no", 3)
            book = f"{BOOK_HEADER}7,,opening,,1500,{until},,,,,,,,,\n{''.join(entries)}"
            yield Row("audit", book, f"account 7 {word}\n", status=status)
    for entries, fault in REFUSED_BOOKS:
        yield refused("audit", BOOK_HEADER + entries, fault)
