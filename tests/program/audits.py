"""Audits of books, and the first fault of their table."""
from rows import Row, refused

# The header of a table.
HEADER = "account,seat,op,call,x1,x2,x3,x4,x5,reply,y1,y2,y3\n"
# The opening of account 1, its first entry, and its second.
OPENING = "1,,opening,,1500,,,,,,,,\n"
FIRST = "1,1,reserve,1,50,1000,400,600,50,granted,600,more,450\n"
SECOND = "1,0,reserve,2,50,1000,400,600,50,granted,240,last,0\n"

# Rows behind the opening and the first entry of account 1, and whether it passes.
JUDGED = [
    ("", True),
    (SECOND, True),
    ("1,5,reserve,2,50,1000,400,600,50,granted,240,last,0\n", True),
    ("1,0,reserve,2,50,1000,400,600,50,granted,240,more,0\n", False),
    ("1,0,reserve,2,50,1000,400,600,50,granted,239,last,0\n", False),
    ("1,0,reserve,2,50,1000,400,600,50,granted,240,last,1\n", False),
    ("1,0,reserve,2,50,1000,400,600,50,credited,,,450\n", False),
    ("1,0,return,3,,,,,,returned,0,,450\n", False),
    ("1,0,return,1,,,,,,granted,600,more,450\n", False),
    ("1,0,reserve,2,50,1000,400,600,50,granted,600,more,450\n", False),
    ("1,0,reserve,2,50,1000,400,600,50,denied,,,450\n", False),
    ('1,0,settle,1,9,s,100,200,,settled,450,,450\n"1",0,return,01,,,,,,returned,450,,1050\n', True),
]

# Books, and what their audit says.
BOOKS = [
    ("", 0, ""),
    (
        "9,,opening,,0,,,,,,,,\n4294967295,,opening,,1000000000000000,,,,,,,,\n0,,opening,,1,,,,,,,,\n",
        0,
        "account 0 yes\naccount 9 yes\naccount 4294967295 yes\n",
    ),
    (
        "1,,opening,,1500,,,,,,,,\n"
        "1,1,reserve,1,50,1000,400,600,50,granted,240,last,0\n"
        "1,0,reserve,2,50,1000,400,600,50,granted,600,more,450\n",
        3,
        "account 1 no\n",
    ),
    (
        "2,,opening,,5,,,,,,,,\n1,,opening,,7,,,,,,,,\n2,0,credit,,1,,,,,credited,,,6\n"
        "1,0,credit,,1,,,,,credited,,,7\n2,0,credit,,1,,,,,credited,,,7\n",
        3,
        "account 1 no\naccount 2 yes\n",
    ),
    ("1,,opening,,5,,,,,,,,\n2,,opening,,7,,,,,,,,\n2,0,credit,,1,,,,,over,,,7\n", 3, "account 1 yes\naccount 2 no\n"),
]

# Books, and the lines of their audit with the first wrong row of each account.
WRONG = [
    ("1,,opening,,1500,,,,,,,,\n1,1,reserve,1,50,1000,400,600,50,granted,600,more,450\n", "account 1 yes\n"),
    (
        "1,,opening,,1500,,,,,,,,\n1,1,reserve,1,50,1000,400,600,50,granted,600,last,450\n",
        "account 1 no\naccount 1 row 3: reserve: granted 600 last available 450, is granted 600 more available 450\n",
    ),
    (
        "1,,opening,,1500,,,,,,,,\n1,0,return,3,,,,,,returned,0,,1500\n",
        "account 1 no\naccount 1 row 3: return: returned paid 0 available 1500, is refused NotOpen\n",
    ),
    (
        "1,,opening,,1500,,,,,,,,\n1,0,credit,,0,,,,,credited,,,1500\n",
        "account 1 no\naccount 1 row 3: credit: credited available 1500, is refused OutOfRange\n",
    ),
    (
        "1,,opening,,1500,,,,,,,,\n1,1,reserve,1,50,1000,400,600,50,granted,600,more,450\n"
        "1,0,settle,1,2,n,300,,,forfeit,1050,,450\n1,0,return,1,,,,,,returned,550,,950\n",
        "account 1 no\naccount 1 row 4: settle: forfeit paid 1050 available 450, is settled paid 550 available 450\n",
    ),
    (
        "9,,opening,,5,,,,,,,,\n2,,opening,,1,,,,,,,,\n7,,opening,,3,,,,,,,,\n"
        "7,0,credit,,1,,,,,credited,,,4\n9,0,credit,,1,,,,,over,,,5\n2,0,credit,,1,,,,,credited,,,3\n"
        "9,0,credit,,1,,,,,credited,,,9\n",
        "account 2 no\naccount 2 row 7: credit: credited available 3, is credited available 2\naccount 7 yes\n"
        "account 9 no\naccount 9 row 6: credit: over available 5, is credited available 6\n",
    ),
    (
        "1,,opening,,1500,,,,,,,,\n1,0,reserve,1,50,1000,,600,50,denied,,,1500\n",
        "account 1 no\naccount 1 row 3: reserve: denied available 1500, is granted 600 more available 450\n",
    ),
    (
        "1,,opening,,1500,,,,,,,,\n1,1,reserve,1,50,1000,400,600,50,granted,600,more,450\n"
        "1,0,return,1,,,,,,returned,0,,1500\n1,0,reserve,1,50,1000,400,600,50,granted,600,more,450\n",
        "account 1 no\naccount 1 row 5: reserve: granted 600 more available 450, is refused CallUsed\n",
    ),
]

# Rows of a table, and what an audit of it prints with `--lines`.
LINED = [
    ("", ""),
    (
        "1,,opening,,1500,,,,,,,,\n1,1,reserve,1,50,1000,400,600,50,granted,600,more,450\n"
        "1,0,settle,1,2,n,300,,,settled,550,,450\n1,0,return,1,,,,,,returned,550,,950\n",
        "account 1 opening 1500 available 950 entries 3\ncall 1 account 1 paid 550 returned\n",
    ),
    (
        "5,,opening,,1000,,,,,,,,\n3,,opening,,1000,,,,,,,,\n"
        "5,0,reserve,9,0,600,,100,50,granted,100,more,900\n"
        "3,0,reserve,9,0,600,,100,50,granted,100,more,900\n"
        "5,0,reserve,4,0,600,,100,50,granted,100,more,800\n",
        "account 3 opening 1000 available 900 entries 1\n"
        "account 5 opening 1000 available 800 entries 2\n"
        "call 4 account 5 paid 0 holding\n"
        "call 9 account 3 paid 0 holding\ncall 9 account 5 paid 0 holding\n",
    ),
    (
        "9,,opening,,500,,,,,,,,\n2,,opening,,1,,,,,,,,\n7,,opening,,3,,,,,,,,\n"
        "7,0,credit,,1,,,,,credited,,,4\n9,0,reserve,1,0,600,,100,50,granted,100,more,400\n"
        "2,0,credit,,1,,,,,credited,,,3\n9,0,return,1,,,,,,returned,1,,499\n",
        "account 2 no\naccount 7 opening 3 available 4 entries 1\naccount 9 no\n",
    ),
]

# Rows that are refused behind the opening of account 1, the kind of fault of the last.
REFUSED = [
    ("1,0,credit,,1,,,,,credited,,\n", "row 3: Csv"),
    ("1,0,debit,,1,,,,,credited,,,1\n", "row 3: What"),
    ("1,0,credit,,1,,,,,paid,,,1\n", "row 3: What"),
    ("x,99,settle,1,0,x,1,,,settled,0,,1\n", "row 3: What"),
    ("1,0,return,1,,,,,,granted,1,,1\n", "row 3: What"),
    ("4294967296,0,credit,,1,,,,,credited,,,1\n", "row 3: Number"),
    ("1,16,credit,,1,,,,,credited,,,1\n", "row 3: Number"),
    ("1,0,credit,,x,,,,,credited,,,1\n", "row 3: Number"),
    ("1,0,credit,,1,,,,,credited,,,1000000000000001\n", "row 3: Number"),
    ("1,0,return,1,,,,,,granted,864001,more,1\n", "row 3: Number"),
    ("1,0,return,1,,,,,,returned,1000000000000001,,1\n", "row 3: Number"),
    ("1,0,settle,1,0,s,1,0,,settled,0,,1\n", "row 3: Number"),
    ("2,,opening,,1000000000000001,,,,,,,,\n", "row 3: Number"),
    ("1,0,settle,18446744073709551616,0,n,1,,,settled,0,,1\n", "row 3: Number"),
    ("1,0,return,18446744073709551616,,,,,,returned,0,,1\n", "row 3: Number"),
    ("1,0,credit,,1,,,,,credited,x,,1\n", "row 3: Empty"),
    ("1,0,credit,,1,,,,,credited,,x,1\n", "row 3: Empty"),
    ("1,0,credit,1,1,,,,,credited,,,1\n", "row 3: Empty"),
    ("1,0,return,1,,,,,,settled,0,more,1\n", "row 3: Empty"),
    ("2,,opening,,1,,,,,credited,,,\n", "row 3: Empty"),
    ("2,0,opening,,1,,,,,,,,\n", "row 3: Empty"),
    ("2,,opening,1,1,,,,,,,,\n", "row 3: Empty"),
    ("2,,opening,,1,,,,1,,,,\n", "row 3: Empty"),
    ("2,,opening,,1,,,,,,1,,\n", "row 3: Empty"),
    ("2,,opening,,1,,,,,,,more,\n", "row 3: Empty"),
    ("2,,opening,,1,,,,,,,,1\n", "row 3: Empty"),
    ("1,,opening,,1500,,,,,,,,\n", "row 3: Repeated"),
    ("1,0,credit,,1,,,,,over,,,1\n1,,opening,,1,,,,,,,,\n", "row 4: Repeated"),
    ("2,0,credit,,1,,,,,credited,,,1\n", "row 3: Unknown"),
]

# Words, and what is said of a book whose last entry, which is wrong, is behind 17,000,000 empty lines.
LONG = [
    ("audit --long", 3, "account 1 no\n", ""),
    ("audit", 1, "", "prepaid: input: TooLong\n"),
]


def both(words, table, output, status):
    """What an audit prints of a table, and the long one."""
    for option in ["", " --long"]:
        yield Row(words + option, HEADER + table, output, status=status)


def judged():
    """Whether books pass, which of their rows are wrong, and what their lines are."""
    for more, passes in JUDGED:
        word, status = ("yes", 0) if passes else ("no", 3)
        yield from both("audit", OPENING + FIRST + more, f"account 1 {word}\n", status)
    for table, status, output in BOOKS:
        yield from both("audit", table, output, status)
    for words, tables in [("audit --rows", WRONG), ("audit --lines", LINED)]:
        for table, output in tables:
            yield from both(words, table, output, 3 if " no\n" in output else 0)
    table, output = WRONG[1]
    yield Row("audit --rows --lines", HEADER + table, output, status=3)


def rows():
    yield from judged()
    for more, fault in REFUSED:
        for words in ["audit", "audit --long"]:
            yield refused(words, HEADER + OPENING + more, f"book {fault}")
    yield refused("audit", HEADER + FIRST, "book row 2: Unknown")
    yield refused("audit", OPENING, "book row 1: Header")
    yield refused("audit", "", "book row 1: Header")
    long_book = HEADER + OPENING + FIRST + "\n" * 17_000_000 + "1,0,return,3,,,,,,returned,0,,450\n"
    for words, status, output, faults in LONG:
        yield Row(words, long_book, output, faults, status)
