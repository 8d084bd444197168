"""Quotes: worked rows of a tariff, and what `quote` refuses."""
from rows import BAND, Row, refused

# One band, all day.
FLAT = f"prefix,from,fee,rate\n{BAND}"
# A band from midnight on and one from 08:00 on.
TWO_BANDS = "prefix,from,fee,rate\n49,00:00,50,1000\n49,08:00,60,400\n"
# A minute free, and calls to all other numbers.
FREE = "prefix,from,fee,rate,free\n49,00:00,50,1000,600\n,00:00,0,1,0\n,12:34,1,2,3\n"

# Dear by day, less at night, and at the weekend.
WEEKEND = (
    "prefix,from,fee,rate,free,first,step,days\n49,00:00,50,400,0,0,1,12345\n"
    "49,08:00,60,1000,0,0,1,12345\n49,00:00,70,300,0,0,1,67\n"
)

# Words, a tariff, and the lines of the quote.
QUOTED = [
    ("quote --called 49 --at 08:00", WEEKEND, "prefix 49 from 08:00 fee 60 rate 1000 free 0\nswitch 864000 rate 400\n"),
    (
        "quote --called 49 --at 1970-01-02T23:59:59 --for 610 --clock",
        WEEKEND,
        "prefix 49 from 08:00 fee 60 rate 1000 free 0\nswitch 1970-01-03T00:00:00.0 rate 300\nprice 377\n",
    ),
    (
        "quote --called 49 --at 1970-01-03T12:00:00 --for 864000",
        WEEKEND,
        "prefix 49 from 00:00 fee 70 rate 300 free 0\nprice 432070\n",
    ),
    (
        "quote --called 49 --at 1970-01-04T00:00:00 --for 864000 --clock",
        WEEKEND,
        "prefix 49 from 00:00 fee 70 rate 300 free 0\nswitch 1970-01-05T00:00:00.0 rate 400\nprice 432070\n",
    ),
    (
        "quote --called 49 --at 1970-01-05T00:00:00 --clock",
        WEEKEND,
        "prefix 49 from 00:00 fee 50 rate 400 free 0\nswitch 1970-01-05T08:00:00.0 rate 1000\n",
    ),
    ("quote --called 4930 --at 0", FLAT, "prefix 49 from 00:00 fee 50 rate 1000 free 0\n"),
    (
        "quote --called 4930 --at 1000000000000 --for 300 --credit 1500",
        FLAT,
        "prefix 49 from 00:00 fee 50 rate 1000 free 0\nprice 550\nafford 870\n",
    ),
    (
        "quote --called 4930 --at 07:59 --for 900 --credit 1500",
        TWO_BANDS,
        "prefix 49 from 00:00 fee 50 rate 1000 free 0\nswitch 288000 rate 400\nprice 1250\nafford 870\n",
    ),
    (
        "quote --called 49 --at 287400 --for 600",
        TWO_BANDS,
        "prefix 49 from 00:00 fee 50 rate 1000 free 0\nswitch 288000 rate 400\nprice 1050\n",
    ),
    (
        "quote --called 49 --at 1970-01-01T07:59:00 --for 600",
        TWO_BANDS,
        "prefix 49 from 00:00 fee 50 rate 1000 free 0\nswitch 288000 rate 400\nprice 1050\n",
    ),
    ("quote --called 49 --at 5138-11-16T09:46:40", FLAT, "prefix 49 from 00:00 fee 50 rate 1000 free 0\n"),
    (
        "quote --clock --called 4930 --at 07:59 --for 900 --credit 1500",
        TWO_BANDS,
        "prefix 49 from 00:00 fee 50 rate 1000 free 0\nswitch 1970-01-01T08:00:00.0 rate 400\nprice 1250\nafford 870\n",
    ),
    (
        "quote --called 4930 --at 2000-02-28T08:00:00.5 --clock",
        TWO_BANDS,
        "prefix 49 from 08:00 fee 60 rate 400 free 0\nswitch 2000-02-29T00:00:00.0 rate 1000\n",
    ),
    (
        "quote --called 49 --at 08:00 --credit 1500",
        TWO_BANDS,
        "prefix 49 from 08:00 fee 60 rate 400 free 0\nswitch 864000 rate 1000\nafford 864\n",
    ),
    (
        "quote --called 49 --at 863999 --for 601",
        TWO_BANDS,
        "prefix 49 from 08:00 fee 60 rate 400 free 0\nswitch 864000 rate 1000\nprice 1061\n",
    ),
    ("quote --called 491 --at 0 --for 0", FREE, "prefix 49 from 00:00 fee 50 rate 1000 free 600\nprice 0\n"),
    (
        "quote --called 491 --at 0 --for 300 --credit 49",
        FREE,
        "prefix 49 from 00:00 fee 50 rate 1000 free 600\nprice 50\nafford 0\n",
    ),
    ("quote --credit 50 --at 0 --called 491", FREE, "prefix 49 from 00:00 fee 50 rate 1000 free 600\nafford 600\n"),
    ("quote --called 33 --at 12:33", FREE, "prefix - from 00:00 fee 0 rate 1 free 0\nswitch 452400 rate 2\n"),
    ("quote --called 123456789012345 --at 23:59", FREE, "prefix - from 12:34 fee 1 rate 2 free 3\nswitch 864000 rate 1\n"),
    ("quote --called 33 --at 0 --for 300 --credit 1500", FLAT, "no route\n"),
    ("quote --called 33 --at 0", "prefix,from,fee,rate\n", "no route\n"),
]

# Words that ask for no quote.
REFUSED = [
    "quote",
    "quote --called 49",
    "quote --at 0",
    "quote --called  --at 0",
    "quote --called x --at 0",
    "quote --called 1234567890123456 --at 0",
    "quote --called 49 --at 24:00",
    "quote --called 49 --at 8:00",
    "quote --called 49 --at 1000000000001",
    "quote --called 49 --at 5138-11-16T09:46:40.1",
    "quote --called 49 --at 1970-02-30T00:00:00",
    "quote --called 49 --at 1970-01-01T24:00:00",
    "quote --called 49 --at 1970-01-01",
    "quote --called 49 --at 08:00:00",
    "quote --called 49 --at 0 --for 864001",
    "quote --called 49 --at 0 --credit 1000000000000001",
    "quote --called 49 --at 0 --at 0",
    "quote --called 49 --at 0 60s",
    "quote --called 49 --at 0 --clock --clock",
]

# Tariffs that are refused, and their first fault.
FAULTS = [
    ("prefix,from,fee,rate,free,first,step,days\n49,00:00,0,0,0,0,1,76\n", "tariff row 2: Days"),
    ("", "tariff row 1: Header"),
    ("prefix,from,fee,rate\n4x,00:00,0,0\n", "tariff row 2: Digits"),
    ("prefix,from,fee,rate\n49,00:01,0,0\n", "tariff row 2: NoMidnightBand"),
    ("prefix,from,fee,rate\n49,00:00,0\n", "tariff row 2: Csv"),
]


def rows():
    for words, tariff, lines in QUOTED:
        yield Row(words, tariff, lines)
    for words in REFUSED:
        yield refused(words, FLAT, "arguments")
    for tariff, fault in FAULTS:
        yield refused("quote --called 49 --at 0", tariff, fault)
