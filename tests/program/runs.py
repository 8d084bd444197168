"""Worked runs, and the first fault of an input."""
from rows import ACCOUNT, BAND, CALL, Row, refused, run_input

# The book of the call of most rows.
BOOK = """\
account,seat,op,call,x1,x2,x3,x4,x5,x6,x7,reply,y1,y2,y3
7,,opening,,1500,,,,,,,,,,
7,1,reserve,1,50,1000,,600,50,0,0,granted,600,more,450
7,1,settle,1,2,n,300,,,,,settled,550,,450
7,1,return,1,,,,,,,,returned,550,,950
"""

# A call that is answered before a delay of 50 is over, and ends 300 units later by its other leg.
EARLY = "0,1,start,491700001,4930\n20,1,answer,,\n320,1,disconnect,2,\n"
# A call that no party ends.
UNENDED = "0,1,start,491700001,4930\n100,1,answer,,\n"

# Its book, where 300 units are the least that the service takes: 450 pay for 270.
DELAYED_BOOK = """\
account,seat,op,call,x1,x2,x3,x4,x5,x6,x7,reply,y1,y2,y3
7,,opening,,1500,,,,,,,,,,
7,1,reserve,1,50,1000,,600,300,0,0,granted,600,more,450
7,1,settle,1,2,n,600,,,,,settled,1050,,450
7,1,reserve,1,50,1000,,600,300,0,700,denied,,,450
7,1,return,1,,,,,,,,returned,1050,,450
"""

# Two accounts, each with a subscriber.
TWO_SUBSCRIBERS = """\
account,7,1500
account,8,900
subscriber,491700001,7
subscriber,491700002,8
"""

# The book of a call that no party ends, and that is charged all that the account has.
UNENDED_BOOK = """\
account,seat,op,call,x1,x2,x3,x4,x5,x6,x7,reply,y1,y2,y3
7,,opening,,1500,,,,,,,,,,
7,1,reserve,1,50,1000,,600,50,0,0,granted,600,more,450
7,1,settle,1,2,n,600,,,,,settled,1050,,450
7,1,reserve,1,50,1000,,600,50,0,700,granted,270,last,0
7,1,settle,1,3,n,870,,,,,settled,1500,,0
7,1,return,1,,,,,,,,returned,1500,,0
"""

# A call of each, which start at one moment and talk at the same time.
TWO_CALLS = """\
0,2,start,491700002,4931
0,1,start,491700001,4930
100,1,answer,,
150,2,answer,,
400,2,disconnect,2,
500,1,disconnect,1,
"""

TWO_LINES = """\
account 7 opening 1500 available 783 entries 3
account 8 opening 900 available 433 entries 3
call 1 account 7 paid 717 returned
call 2 account 8 paid 467 returned
"""

# Two calls of one account, which start at one moment, and its books: whichever comes first, the other gets what is left.
AT_ONCE = "0,1,start,491700001,4930\n0,2,start,491700001,4931\n"
AT_ONCE_BOOKS = [
    """\
account,seat,op,call,x1,x2,x3,x4,x5,x6,x7,reply,y1,y2,y3
7,,opening,,1500,,,,,,,,,,
7,1,reserve,1,50,1000,,600,50,0,0,granted,600,more,450
7,0,reserve,2,50,1000,,600,50,0,0,granted,240,last,0
""",
    """\
account,seat,op,call,x1,x2,x3,x4,x5,x6,x7,reply,y1,y2,y3
7,,opening,,1500,,,,,,,,,,
7,0,reserve,2,50,1000,,600,50,0,0,granted,600,more,450
7,1,reserve,1,50,1000,,600,50,0,0,granted,240,last,0
""",
]

# Words, the rows of the tariff, the setup and the script, and what is written.
PLAYED = [
    ("run", BAND, ACCOUNT, CALL, "account 7 opening 1500 available 950 entries 3\ncall 1 account 7 paid 550 returned\n"),
    ("run --book", BAND, ACCOUNT, CALL, BOOK),
    (
        "run",
        BAND,
        ACCOUNT,
        "0,1,start,491700001,4930\n100,1,answer,,\n",
        "account 7 opening 1500 available 0 entries 5\ncall 1 account 7 paid 1500 returned\n",
    ),
    (
        "run --wanted 900",
        "49,00:00,50,1000\n49,00:01,0,400\n",
        "account,7,1600\nsubscriber,491700001,7\n",
        "0,1,start,491700001,4930\n100,1,answer,,\n802,1,disconnect,1,\n",
        "account 7 opening 1600 available 580 entries 3\ncall 1 account 7 paid 1020 returned\n",
    ),
    (
        "run",
        BAND,
        ACCOUNT,
        "0,1,start,491700001,4430\n100,1,answer,,\n400,1,disconnect,1,\n",
        "account 7 opening 1500 available 1500 entries 0\n",
    ),
    ("run", BAND, ACCOUNT, EARLY, "account 7 opening 1500 available 950 entries 3\ncall 1 account 7 paid 550 returned\n"),
    (
        "run --delay 50 --least 300",
        BAND,
        ACCOUNT,
        EARLY,
        "account 7 opening 1500 available 450 entries 1\ncall 1 account 7 paid 0 holding\n",
    ),
    ("run --delay 50 --least 300 --book", BAND, ACCOUNT, UNENDED, DELAYED_BOOK),
    ("run --book", BAND, ACCOUNT, UNENDED, UNENDED_BOOK),
    ("run", BAND, TWO_SUBSCRIBERS, TWO_CALLS, TWO_LINES),
    ("run --workers 16", "", "", "", ""),
    ("run --book", "", "", "", "account,seat,op,call,x1,x2,x3,x4,x5,x6,x7,reply,y1,y2,y3\n"),
]

# Words, the rows of a script, and the lines: what a run passes over in silence.
SILENT = [
    (
        "run",
        "0,1,start,491700009,4930\n10,1,answer,,\n20,1,disconnect,1,\n",
        "account 7 opening 1500 available 1500 entries 0\n",
    ),
    (
        "run --least 600 --workers 1",
        "0,1,start,491700001,4930\n0,2,start,491700001,4930\n",
        "account 7 opening 1500 available 450 entries 2\ncall 1 account 7 paid 0 holding\n",
    ),
    (
        "run",
        "0,1,start,491700001,4930\n1,1,answer,,\n400,1,disconnect,1,\n",
        "account 7 opening 1500 available 450 entries 1\ncall 1 account 7 paid 0 holding\n",
    ),
    ("run", "0,1,start,491700001,4930\n", "account 7 opening 1500 available 450 entries 1\ncall 1 account 7 paid 0 holding\n"),
    (
        "run",
        "0,1,start,491700001,4930\n10,1,answer,,\n20,1,busy,,\n400,1,disconnect,1,\n401,1,disconnect,2,\n",
        "account 7 opening 1500 available 800 entries 3\ncall 1 account 7 paid 700 returned\n",
    ),
    ("run --tssf 1", CALL, "account 7 opening 1500 available 1500 entries 2\ncall 1 account 7 paid 0 returned\n"),
]

# Words and a script in which the account refuses recharges, what is printed, and the line about them.
REFUSING = [
    ("run", "0,,recharge,7,0\n", "account 7 opening 1500 available 1500 entries 0\n", "prepaid: refused: 1 OutOfRange\n"),
    (
        "run --workers 1",
        "0,,recharge,7,0\n0,,recharge,7,5\n9,,recharge,7,0\n",
        "account 7 opening 1500 available 1505 entries 1\n",
        "prepaid: refused: 2 OutOfRange\n",
    ),
    (
        "run --book",
        "0,,recharge,7,0\n",
        "account,seat,op,call,x1,x2,x3,x4,x5,x6,x7,reply,y1,y2,y3\n7,,opening,,1500,,,,,,,,,,\n",
        "prepaid: refused: 1 OutOfRange\n",
    ),
]

# The rows of the tariff, the setup and the script, and the first fault. There is no worker, which would be a fault too, but a
# later one.
REFUSED = [
    ("49,00:00,50\n", "x\n", "x\n", "tariff row 2: Csv"),
    ("4x,00:00,50,1000\n", "", "", "tariff row 2: Digits"),
    ("49,24:00,50,1000\n", "", "", "tariff row 2: From"),
    ("49,00:00,50,1000000001\n", "", "", "tariff row 2: Money"),
    ("49,00:00,5,1\n49,00:00,5,1\n", "", "", "tariff row 3: Repeated"),
    ("49,00:01,50,1000\n", "x\n", "", "tariff row 2: NoMidnightBand"),
    (BAND, "account,7\n", "x\n", "setup row 2: Csv"),
    (BAND, "acount,x,1\n", "", "setup row 2: What"),
    (BAND, "account,4294967296,1\n", "", "setup row 2: Number"),
    (BAND, "account,7,1\naccount,7,1\n", "x\n", "setup row 3: Repeated"),
    (BAND, "account,7,1\nsubscriber,49,8\n", "", "setup row 3: Unknown"),
    (BAND, ACCOUNT, "0,1,answer,\n", "script row 2: Csv"),
    (BAND, ACCOUNT, "x,1,begin,,\n", "script row 2: What"),
    (BAND, ACCOUNT, "1000000000001,1,answer,,x\n", "script row 2: Number"),
    (BAND, ACCOUNT, "0,1,answer,,1\n", "script row 2: Empty"),
    (BAND, ACCOUNT, "0,2,answer,,\n", "script row 2: Unknown"),
    (BAND, ACCOUNT, "0,,recharge,8,1\n", "script row 2: Unknown"),
]

# The rows of the script of a call that begins well, and the first fault.
REFUSED_LATER = [
    ("0,1,start,491700001,4930\n400,1,disconnect,1,\n100,1,answer,,\n", "script row 4: Order"),
    ("0,1,start,491700001,4930\n0,1,start,491700001,4930\n", "script row 3: Repeated"),
    ("0,1,start,491700001,4930\n1,1,disconnect,3,\n", "script row 3: Number"),
]

# Inputs whose parts or headers aren't those of a run, and the fault.
NO_RUNS = [
    ("", "input: Parts"),
    ("x\n%%\ny\n", "input: Parts"),
    ("%%\n%%\n%%\n", "input: Parts"),
    ("%%\n%%\n", "tariff row 1: Header"),
    ("prefix,from,fee,rate\n%%\nkind,key\n%%\n", "setup row 1: Header"),
    ("prefix,from,fee,rate\r\n%%\r\nkind,key,value\n%%", "script row 1: Header"),
]

# What a call of each account says, which go on side by side: three rows.
BESIDE = [(0, "start,49{0},4930"), (100, "answer,,"), (400, "disconnect,1,")]

# In how many parts accounts are played, and of each account the number of its settle, which counts the messages of its part,
# or None where it has no call; what the script says besides, and its entries. Of four accounts two parts have two each, and
# three parts the first two, the third and the fourth.
PARTS = [
    (1, (8, 11, 14, 17), "", ""),
    (2, (4, 7, 4, 7), "", ""),
    (3, (4, 7, 2, 2), "", ""),
    (4, (2, 2, 2, 2), "", ""),
    (5, (2, 2, 2, 2), "", ""),
    # the second part ends where two parts have their share
    (3, (4, 7, 4, 7, 4, 7), "", ""),
    # of no rows for a part the first account is none before which a part ends
    (7, (None, None, None, None, None, 2, 2), "", ""),
    # recharges count, and a share is rounded down
    (2, (None, 4, 7), "0,,recharge,1,1\n" * 5, "".join(f"1,0,credit,,1,,,,,,,credited,,,{1501 + it}\n" for it in range(5))),
    # what is said of a call of nobody's counts for no part, and goes to one by its number
    (2, (6, 9, 4, 7), "0,8,start,33,4930\n" + "0,8,answer,,\n" * 3, ""),
    (2, (2, 4), "0,5,start,33,4930\n", ""),
]


def beside(settles, more):
    """The input of so many accounts, of which those with a settle have a call of their number."""
    numbers = range(1, len(settles) + 1)
    setup = "".join(f"account,{it},1500\n" for it in numbers) + "".join(f"subscriber,49{it},{it}\n" for it in numbers)
    calls = [(at, it, what) for at, what in BESIDE for it, settle in zip(numbers, settles) if settle]
    return run_input(BAND, setup, more + "".join(f"{at + 10 * it},{it},{what.format(it)}\n" for at, it, what in calls))


def beside_book(settles, more):
    """The book of these calls, by the numbers of their settles, with more entries of the first account."""
    of_call = (
        "{0},0,reserve,{0},50,1000,,600,50,0,{0}0,granted,600,more,450\n"
        "{0},0,settle,{0},{1},n,300,,,,,settled,550,,450\n"
        "{0},0,return,{0},,,,,,,,returned,550,,950\n"
    )
    books = ["{0},,opening,,1500,,,,,,,,,,\n" + (of_call if settle else "") for settle in settles]
    rows = [book.format(number, settle) for number, (book, settle) in enumerate(zip(books, settles), 1)]
    rows.insert(1, more)
    return f"account,seat,op,call,x1,x2,x3,x4,x5,x6,x7,reply,y1,y2,y3\n{''.join(rows)}"


def rows():
    for words, tariff, setup, script, output in PLAYED:
        yield Row(words, run_input(tariff, setup, script), output)
    yield [Row("run --book", run_input(BAND, ACCOUNT, AT_ONCE), book) for book in AT_ONCE_BOOKS]
    for count, settles, more, entries in PARTS:
        yield Row(f"run --parts {count} --book", beside(settles, more), beside_book(settles, entries))
    for words, script, output in SILENT:
        yield Row(words, run_input(BAND, ACCOUNT, script), output)
    for words, script, output, line in REFUSING:
        yield Row(words, run_input(BAND, ACCOUNT, script), output, line)
    for tariff, setup, script, fault in REFUSED:
        yield refused("run --workers 0", run_input(tariff, setup, script), fault)
    for script, fault in REFUSED_LATER:
        yield refused("run", run_input(BAND, ACCOUNT, script), fault)
    for text, fault in NO_RUNS:
        yield refused("run", text, fault)
