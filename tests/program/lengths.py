"""Inputs of great length."""
from accounts import HEADER as OPERATIONS, credit, reserve, returned, talked
from audits import HEADER as BOOK
from rows import BAND, PRICE, Row, refused, run_input
from traces import HEADER as MESSAGES

# The most bytes of a section that is read as it comes, with its %%.
MAX_SECTION = 16_777_216
# Words, what is in front of such a section, the section, what is behind it, and what is printed.
SECTIONS = [
    (
        "rate",
        "",
        f"prefix,from,fee,rate\n{BAND}",
        "called,answer,time\n",
        "called,answer,time,prefix,before,after,price,difference,fault\n",
    ),
    ("serve", "", f"prefix,from,fee,rate\n{BAND}", f"kind,key,value\n%%\n{MESSAGES}", MESSAGES),
    ("serve", f"prefix,from,fee,rate\n{BAND}%%\n", "kind,key,value\n", MESSAGES, MESSAGES),
]

# A tariff whose rows end with CR, so that they are one line by LF, longer than any buffer; and records.
BY_CR = "prefix,from,fee,rate\n" + "".join(f"{number},00:00,50,1000\r" for number in range(1000, 9000)) + BAND
BY_CR += "%%\ncalled,answer,time\n4930,0,600\n"

# A tariff, the line that divides, and the header of records.
RECORDS = f"prefix,from,fee,rate\n{BAND}%%\ncalled,answer,time,note\n"
# A row of them, and what is printed of it.
RECORD = "4930,0,600,ok\n"
RATED = "4930,0,600,ok,49,600,0,1050,,\n"
# What is printed of the header.
RATED_HEADER = "called,answer,time,note,prefix,before,after,price,difference,fault\n"

# A call that is paid for, is granted 600 units and talks all of them.
CALL = """\
1,0,credit,,1050,,,,,credited,,,1050
1,0,reserve,{0},50,1000,400,600,50,granted,600,more,0
1,0,settle,{0},7,n,600,,,settled,1050,,0
1,0,return,{0},,,,,,returned,1050,,0
"""
# What an account without money answers to such a call.
ANSWERED = """\
credited available 1050
granted 600 more available 0
settled paid 1050 available 0
returned paid 1050 available 0
"""

# The notes of long rows, and what is printed of them: what comes first, a piece and how often it comes, and what comes last.
# The three fields before the note have 11 of the 131072 bytes.
LONG_NOTES = [
    [("", "x", 131_061, "\n"), ("", "x", 131_061, "")],
    [("", "x", 131_062, "\n"), ("", "x", 131_061, "")],
    [("", "x", 300_000, "\r\n"), ("", "x", 131_061, "")],
    [("", "x", 300_000, "\r"), ("", "x", 131_061, "")],
    [('"', "x", 300_000, '"\n'), ("", "x", 131_061, "")],
    [('"', "x", 131_061, '"y\n'), ("", "x", 131_061, "")],
    [('"', '""', 300_000, '"\n'), ('"', '""', 131_061, '"')],
    [('"', "a\n", 150_000, '"\n'), ('"', "a\n", 65_530, 'a"')],
    [("", ",", 300_000, "\n"), ("", ",", 131_061, "")],
]

# The same of notes behind which the input ends.
LAST_NOTES = [
    [("", "x", 300_000, ""), ("", "x", 131_061, "")],
    [('"', RECORD, 20_000, ""), ('"', RECORD, 9_361, '4930,0,"')],
]


def numbered(count, before, after):
    """A text of so many lines, each with its number, from 0 on, in the middle."""
    return "".join(f"{before}{number}{after}\n" for number in range(count))


def numbers_of_rows():
    """As many rows as a table may have, and one more."""
    reports = "before,after\n" + "0,0\n" * 10_000
    yield Row(PRICE, reports, "debit 0 total 0\n" * 10_000 + "total 0\n")
    for more, kind in [("x,0\n", "TooManyRows"), ("x,0\nx\n", "TooManyRows"), ("x\n", "Csv")]:
        yield refused(PRICE, reports + more, f"reports row 10002: {kind}")
    bands = "prefix,from,fee,rate\n" + "".join(f"{prefix},00:00,{prefix},1\n" for prefix in range(10_000, 20_000))
    yield Row("quote --called 123456 --at 5", bands, "prefix 12345 from 00:00 fee 12345 rate 1 free 0\n")
    yield refused("quote --called 123456 --at 5", f"{bands}1,00:00,0,0\n", "tariff row 10002: TooManyRows")
    accounts = numbered(1_000, "account,", ",0")
    yield Row("run", run_input("", accounts, ""), numbered(1_000, "account ", " opening 0 available 0 entries 0"))
    yield refused("run", run_input("", accounts + "account,7,0\n", ""), "setup row 1002: TooManyRows")
    recharges = run_input("", "account,7,0\n", "0,,recharge,7,1\n" * 100)
    yield Row("run --workers 1", recharges, "account 7 opening 0 available 100 entries 100\n")


def many_calls():
    """A book of 5000 calls, each with a credit for all that it costs, and half as many that are replayed: so many rows a table
    of operations may have. The model takes minutes for them."""
    entries = "".join(CALL.format(call) for call in range(1, 5001))
    lines = "".join(f"call {call} account 1 paid 1050 returned\n" for call in range(1, 5001))
    output = f"account 1 opening 0 available 0 entries 20000\n{lines}"
    yield Row("audit --lines", f"{BOOK}1,,opening,,0,,,,,,,,\n{entries}", output)
    asked = "".join(credit(1050) + reserve(call, 600) + talked(call, 600) + returned(call) for call in range(1, 2501))
    yield Row("replay --opening 0", OPERATIONS + asked, ANSWERED * 2500)
    yield refused("replay --opening 0", OPERATIONS + asked + credit(1), "ops row 10002: TooManyRows")


def noted(note):
    """A row with such a note, as far as it comes."""
    first, piece, times, last = note
    return f"4930,0,600,{first}{piece * times}{last}"


def long_rows():
    """A row that is too long is cut, and those behind it are rated."""
    for notes, more, printed in [(LONG_NOTES, RECORD, RATED), (LAST_NOTES, "", "")]:
        for given, shown in notes:
            output = f"{RATED_HEADER}{RATED}{noted(shown)},,,,,,TooLong\n{printed}"
            yield Row("rate", RECORDS + RECORD + noted(given) + more, output, status=3)


def long_headers():
    """As many bytes as a header may have, and more."""
    header = f"prefix,from,fee,rate\n{BAND}%%\ncalled,answer,time,"
    note = "x" * 131_052
    printed = f"called,answer,time,{note},prefix,before,after,price,difference,fault\n{RATED}"
    yield Row("rate", f"{header}{note}\n{RECORD}", printed)
    for more in ["x", "xx,called", ",called"]:
        yield refused("rate", f"{header}{note}{more}\n{RECORD}", "records row 1: Header")


def long_sections():
    """As many bytes as a section may have that is read as it comes, and one more."""
    for words, front, section, behind, printed in SECTIONS:
        filled = section + "\n" * (MAX_SECTION - len(f"{section}%%\n"))
        yield Row(words, f"{front}{filled}%%\n{behind}", printed)
        yield refused(words, f"{front}{filled}\n%%\n{behind}", "input: TooLong")


def line_without_its_end():
    """A tariff whose rows end with CR is one line by LF, of any length."""
    yield Row("rate", BY_CR, "called,answer,time,prefix,before,after,price,difference,fault\n4930,0,600,4930,600,0,1050,,\n")


def rows():
    yield from numbers_of_rows()
    yield from long_sections()
    yield from many_calls()
    yield from long_rows()
    yield from long_headers()
    yield from line_without_its_end()
