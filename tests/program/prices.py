"""Worked prices of reports, and the first fault of their table."""
from rows import PRICE, Row, refused

# A rate without a fee.
SINGLE = "price --fee 0 --before 1000"

# Words, reports, and what they cost.
PRICED = [
    (
        "price --fee 1000000000 --before 1000000000 --after 1000000000",
        "before,after\n1,0\n1,863999\n",
        "debit 1001666667 total 1001666667\ndebit 1439998333333 total 1441000000000\ntotal 1441000000000\n",
    ),
    (
        "price --fee 50 --before 1000 --after 400",
        "before,after\n0,0\n1,0\n600,0\n600,300\n",
        "debit 0 total 0\ndebit 52 total 52\ndebit 998 total 1050\ndebit 200 total 1250\ntotal 1250\n",
    ),
    (SINGLE, "before,after\n1,0\n2,0\n3,0\n", "debit 2 total 2\ndebit 2 total 4\ndebit 1 total 5\ntotal 5\n"),
    (SINGLE, "before,after\n3,0\n3,0\n", "debit 5 total 5\ndebit 0 total 5\ntotal 5\n"),
    (
        "price --fee 50 --before 1000 --after 400 --free 300",
        "before,after\n300,0\n600,0\n",
        "debit 50 total 50\ndebit 500 total 550\ntotal 550\n",
    ),
    (
        "price --fee 50 --before 1000 --after 400 --free 300",
        "before,after\n200,0\n200,300\n",
        "debit 50 total 50\ndebit 134 total 184\ntotal 184\n",
    ),
    ("price --free 864000 --fee 50 --before 1000", "before,after\n864000,0\n", "debit 50 total 50\ntotal 50\n"),
    (SINGLE, "before,after\n", "total 0\n"),
    (SINGLE, "\n\nbefore,after\n", "total 0\n"),
    (SINGLE, "before,after\r\n00000000000000000003,0\r\n\r\n3,000", "debit 5 total 5\ndebit 0 total 5\ntotal 5\n"),
    (SINGLE, '\ufeff"before",after\n"3",0', "debit 5 total 5\ntotal 5\n"),
    ("price --fee=0 --before=600", "before,after\n864000,0\n", "debit 864000 total 864000\ntotal 864000\n"),
]

# The highest fee and the highest rates; and two rates, the second cheaper.
DEAREST = "price --fee 1000000000 --before 1000000000 --after 1000000000"
CHEAPER = f"{PRICE} --after 400"

# Words, and what single reports cost: the time before the switch, the time after it, and the price.
SINGLES = [
    (f"{DEAREST} --first 863999 --step 864000", [(864_000, 0, 2_880_998_333_334), (863_999, 0, 1_440_998_333_334)]),
    (DEAREST, [(864_000, 0, 1_441_000_000_000)]),
    (
        f"{CHEAPER} --first 600 --step 600",
        [
            (0, 0, 0),
            (1, 0, 1050),
            (600, 0, 1050),
            (601, 0, 2050),
            (300, 300, 1050),
            (300, 301, 1450),
            (0, 1, 450),
            (600, 1, 1450),
            (601, 1, 2050),
        ],
    ),
    (
        f"{CHEAPER} --free 600 --first 300 --step 60",
        [
            (600, 0, 50),
            (601, 0, 550),
            (900, 0, 550),
            (901, 0, 650),
            (960, 1, 690),
            (300, 300, 50),
            (300, 301, 250),
            (300, 700, 330),
        ],
    ),
    (f"{CHEAPER} --free 300", [(1, 0, 50), (0, 300, 50), (200, 300, 184)]),
]

# Reports that are refused, and their first fault.
REFUSED = [
    ("", "reports row 1: Header"),
    ("before\n1,0\n", "reports row 1: Header"),
    ("after,before\n1,0\n", "reports row 1: Header"),
    ("before,after,more\n", "reports row 1: Header"),
    ("before,after \n", "reports row 1: Header"),
    ("1,0\n", "reports row 1: Header"),
    ("before,after\n1,0,0\n", "reports row 2: Csv"),
    ("before,after\n1,0\n1\n", "reports row 3: Csv"),
    ('before,after\n1,"0""\n-1,0\n', "reports row 2: Number"),
    ("before,after\n-1,0\n", "reports row 2: Number"),
    ("before,after\n+1,0\n", "reports row 2: Number"),
    ("before,after\n,0\n", "reports row 2: Number"),
    ("before,after\n864001,0\n", "reports row 2: Number"),
    ("before,after\n000000000000000000001,0\n", "reports row 2: Number"),
    ("before,after\n99999999999999999999,0\n", "reports row 2: Number"),
    ("before,after\n 1,0\n", "reports row 2: Number"),
    ("before,after\n1a,0\n", "reports row 2: Number"),
    ("before,after\nx,0\n1\n", "reports row 2: Number"),
    ("before,after\n600,0\n599,0\n", "reports row 3: Order"),
    ("before,after\n0,1\n", "reports row 2: Order"),
    ("before,after\n600,0\n599,0\nx\n", "reports row 3: Order"),
    ("before,after\n1,0\n\n\n0,0\n", "reports row 3: Order"),
    ("before,after\n600,0\n600,1\n", "reports row 3: Order"),
]

# Rows of reports under two rates that are refused: the switch takes back time, or is taken back, or a day is passed.
SWITCHED = [
    ("200,100\n200,99\n", "reports row 3: Order"),
    ("200,100\n201,100\n", "reports row 3: Order"),
    ("200,100\n400,0\n", "reports row 3: Order"),
    ("864000,1\n", "reports row 2: Order"),
]


def rows():
    for words, text, output in PRICED:
        yield Row(words, text, output)
    for words, reports in SINGLES:
        for before, after, price in reports:
            yield Row(words, f"before,after\n{before},{after}\n", f"debit {price} total {price}\ntotal {price}\n")
    for text, fault in REFUSED:
        yield refused(PRICE, text, fault)
    for reports, fault in SWITCHED:
        yield refused(CHEAPER, f"before,after\n{reports}", fault)
