"""Moments as people write them: which texts write one, and what is printed of it."""
from rows import Row

# A tariff, and records of calls with the moments of their answer and of their end.
RATED = "prefix,from,fee,rate\n49,00:00,50,1000\n%%\ncalled,answer,end\n"
# What is printed of the header.
HEADER = "called,answer,end,prefix,before,after,price,difference,fault\n"

# Texts, and the moment that each writes.
MOMENTS = [
    ("0", 0),
    ("648080", 648_080),
    ("01000000000000", 1_000_000_000_000),
    ("1970-01-01T00:00:00", 0),
    ("1970-01-01T00:00:00.1", 1),
    ("1970-01-01T18:00:08", 648_080),
    ("1970-01-01 18:00:08.0", 648_080),
    ("1970-01-01 18:01:10", 648_700),
    ("1970-01-01T23:59:59.9", 863_999),
    ("1970-01-02 00:00:00", 864_000),
    ("1970-12-31T23:59:59.9", 315_359_999),
    ("1972-02-29T00:00:00", 681_696_000),
    ("1972-03-01T00:00:00", 682_560_000),
    ("2000-02-29 00:00:00.5", 9_517_824_005),
    ("2000-03-01T00:00:00", 9_518_688_000),
    ("2100-02-28T23:59:59.9", 41_075_423_999),
    ("2100-03-01T00:00:00", 41_075_424_000),
    ("5138-11-16T09:46:40.0", 1_000_000_000_000),
]

# Texts that write no moment, or one that is too late for an input.
NO_MOMENTS = [
    "-1",
    "1.0",
    "1000000000001",
    "5138-11-16T09:46:40.1",
    "9999-12-31T23:59:59.9",
    "1969-12-31T23:59:59.9",
    "0000-01-01T00:00:00",
    "1970-02-29T00:00:00",
    "1970-02-30T00:00:00",
    "1970-04-31T00:00:00",
    "1970-01-32T00:00:00",
    "1970-01-00T00:00:00",
    "1970-00-01T00:00:00",
    "1970-13-01T00:00:00",
    "2100-02-29T00:00:00",
    "1970-01-01T24:00:00",
    "1970-01-01T00:60:00",
    "1970-01-01T00:00:60",
    "1970-01-01",
    "1970-01-01T",
    "1970-01-01T00:00",
    "18:00:08",
    "18:00",
    "1970-01-01T00:00:0",
    "1970-01-01T00:00:00.",
    "1970-01-01T00:00:00.00",
    '"1970-01-01T00:00:00,0"',
    "1970-01-01T00:00:00Z",
    "1970-01-01t00:00:00",
    "1970-01-01  00:00:00",
    " 1970-01-01T00:00:00",
    "1970-1-01T00:00:00",
    "01970-01-01T00:00:00",
    "+970-01-01T00:00:00",
    "1970/01/01T00:00:00",
]

# Moments that rise, and what is printed of them as dates and times.
PRINTED = [
    (0, "1970-01-01T00:00:00.0"),
    (648_700, "1970-01-01T18:01:10.0"),
    (863_999, "1970-01-01T23:59:59.9"),
    (315_360_000, "1971-01-01T00:00:00.0"),
    (681_696_000, "1972-02-29T00:00:00.0"),
    (9_517_824_005, "2000-02-29T00:00:00.5"),
    (41_075_423_999, "2100-02-28T23:59:59.9"),
    (41_075_424_000, "2100-03-01T00:00:00.0"),
    (1_000_000_000_000, "5138-11-16T09:46:40.0"),
]


def read():
    """A call is answered at the moment that a text writes, and ends at that moment, or its row has a fault."""
    for text, at in MOMENTS:
        yield Row("rate", f"{RATED}4930,{text},{at}\n", f"{HEADER}4930,{text},{at},49,0,0,0,,\n")
    for text in NO_MOMENTS:
        yield Row("rate", f"{RATED}4930,{text},0\n", f"{HEADER}4930,{text},0,,,,,,Number\n", status=3)


def printed():
    """The moments of a trace, by either clock."""
    tables = "prefix,from,fee,rate\n%%\nkind,key,value\naccount,7,0\n%%\nmoment,call,what,x,y\n"
    script = "".join(f"{at},,recharge,7,1\n" for at, _ in PRINTED)
    for words, texts in [("run --trace", [at for at, _ in PRINTED]), ("run --trace --clock", [text for _, text in PRINTED])]:
        said = "".join(f"{text},{number},,operator,Recharge,7,1,,\n" for number, text in enumerate(texts))
        yield Row(words, tables + script, f"moment,number,call,from,what,x1,x2,x3,x4\n{said}")


def rows():
    yield from read()
    yield from printed()
