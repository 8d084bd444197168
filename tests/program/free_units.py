"""Runs whose tariff has free units or billing steps, and books of each version."""
from rows import ACCOUNT, CALL, Row, refused
from runs import BOOK

# The book of a call, as it was printed before reserves had moments.
SECOND_BOOK = """\
account,seat,op,call,x1,x2,x3,x4,x5,x6,reply,y1,y2,y3
7,,opening,,1500,,,,,,,,,
7,1,reserve,1,50,1000,,600,50,0,granted,600,more,450
7,1,settle,1,2,n,300,,,,settled,550,,450
7,1,return,1,,,,,,,returned,550,,950
"""

# The same book, as it was printed before plans had free units.
FIRST_BOOK = """\
account,seat,op,call,x1,x2,x3,x4,x5,reply,y1,y2,y3
7,,opening,,1500,,,,,,,,
7,1,reserve,1,50,1000,,600,50,granted,600,more,450
7,1,settle,1,2,n,300,,,settled,550,,450
7,1,return,1,,,,,,returned,550,,950
"""

# The lines of a call whose first 300 units are free, and its book.
FREE_LINES = """\
account 7 opening 1500 available 1450 entries 3
call 1 account 7 paid 50 returned
"""

FREE_BOOK = """\
account,seat,op,call,x1,x2,x3,x4,x5,x6,x7,reply,y1,y2,y3
7,,opening,,1500,,,,,,,,,,
7,1,reserve,1,50,1000,,600,50,300,0,granted,600,more,950
7,1,settle,1,2,n,300,,,,,settled,50,,950
7,1,return,1,,,,,,,,returned,50,,1450
"""

# That book under the older header, where nothing is free.
FREE_BOOK_WITHOUT_X6 = """\
account,seat,op,call,x1,x2,x3,x4,x5,reply,y1,y2,y3
7,,opening,,1500,,,,,,,,
7,1,reserve,1,50,1000,,600,50,granted,600,more,950
"""

# Steps of a tariff, its first ones and the further ones, and the book of the call.
STEPS_HEADER = "account,seat,op,call,x1,x2,x3,x4,x5,x6,x7,x8,x9,reply,y1,y2,y3\n"
STEPS_BOOKS = [
    ("0,1", BOOK),
    (
        "600,1",
        f"{STEPS_HEADER}7,,opening,,1500,,,,,,,,,,,,\n7,1,reserve,1,50,1000,,600,50,0,0,600,1,granted,600,more,450\n"
        "7,1,settle,1,2,n,300,,,,,,,settled,1050,,450\n7,1,return,1,,,,,,,,,,returned,1050,,450\n",
    ),
    (
        "0,60",
        f"{STEPS_HEADER}7,,opening,,1500,,,,,,,,,,,,\n7,1,reserve,1,50,1000,,600,50,0,0,0,60,granted,600,more,450\n"
        "7,1,settle,1,2,n,300,,,,,,,settled,550,,450\n7,1,return,1,,,,,,,,,,returned,550,,950\n",
    ),
]

# Rows of a tariff with free units, and the first fault.
FREE_REFUSED = [
    ("49,00:00,50,1000,864001\n", "tariff row 2: Free"),
    ("49,00:00,50,1000,\n", "tariff row 2: Free"),
    ("49,00:00,50,1000\n", "tariff row 2: Csv"),
    ("49,00:00,50,1000,0,0\n", "tariff row 2: Csv"),
    ("49,00:00,50,1000000001,x\n", "tariff row 2: Money"),
    ("49,00:00,5,1,0\n49,00:00,5,1,-1\n", "tariff row 3: Free"),
    ("49,00:00,5,1,0\n49,00:00,5,1,300\n", "tariff row 3: Repeated"),
]

# Rows of a book with x6, and the first fault.
BOOK_REFUSED = [
    ("7,,opening,,1500,,,,,,,,\n", "book row 2: Csv"),
    ("7,,opening,,1500,,,,,0,,,,\n", "book row 2: Empty"),
    ("7,1,reserve,1,50,1000,,600,50,,granted,600,more,450\n", "book row 2: Number"),
    ("7,1,reserve,1,50,1000,,600,50,864001,granted,600,more,450\n", "book row 2: Number"),
    ("7,1,credit,,1,,,,,0,over,,,1\n", "book row 2: Empty"),
    ("7,1,settle,1,2,n,3,,,0,settled,5,,4\n", "book row 2: Empty"),
    ("7,1,settle,1,2,s,3,,,0,settled,5,,4\n", "book row 2: Empty"),
    ("7,1,return,1,,,,,,0,returned,5,,9\n", "book row 2: Empty"),
]


def free_input(tariff, columns=""):
    """An input whose tariff has free units, and more columns behind them."""
    return f"prefix,from,fee,rate,free{columns}\n{tariff}%%\nkind,key,value\n{ACCOUNT}%%\nmoment,call,what,x,y\n{CALL}"


def rows():
    text = free_input("49,00:00,50,1000,300\n")
    yield Row("run", text, FREE_LINES)
    yield Row("run --book", text, FREE_BOOK)
    for steps, book in STEPS_BOOKS:
        text = free_input(f"49,00:00,50,1000,0,{steps}\n", ",first,step")
        yield Row("run --book", text, book)
        # without the call
        yield Row("run --book", text.removesuffix(CALL), "".join(book.splitlines(keepends=True)[:2]))
    for tariff, fault in FREE_REFUSED:
        yield refused("run --workers 0", free_input(tariff), fault)
    for book in [FIRST_BOOK, SECOND_BOOK, BOOK, FREE_BOOK]:
        yield Row("audit", book, "account 7 yes\n")
    yield Row("audit", FREE_BOOK_WITHOUT_X6, "account 7 no\n", status=3)
    for more, fault in BOOK_REFUSED:
        yield refused("audit", f"account,seat,op,call,x1,x2,x3,x4,x5,x6,reply,y1,y2,y3\n{more}", fault)
