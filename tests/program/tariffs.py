"""Tariffs: which row of one counts for a called number at a moment, and the first fault of its table."""
from rows import Row, refused

# The columns of each header behind `prefix,from,fee,rate`, the oldest first.
PLAIN, WITH_FREE, WITH_STEPS, WITH_DAYS = "", ",free", ",free,first,step", ",free,first,step,days"

# Two bands for 49, and one for 4930.
BANDS = "49,00:00,50,1000\n49,08:00,0,400\n4930,00:00,10,600\n"
DEAR = "prefix 49 from 00:00 fee 50 rate 1000 free 0\nswitch {} rate 400\n"
CHEAP = "prefix 49 from 08:00 fee 0 rate 400 free 0\nswitch {} rate 1000\n"
LONGER = "prefix 4930 from 00:00 fee 10 rate 600 free 0\n"
# The columns behind, the rows of a table, and called numbers with a moment and the lines of its quote.
ROUTES = [
    (
        PLAIN,
        BANDS,
        [
            ("491", 0, DEAR.format(288_000)),
            ("491", 287_999, DEAR.format(288_000)),
            ("491", 288_000, CHEAP.format(864_000)),
            ("491", 863_999, CHEAP.format(864_000)),
            ("491", 864_000, DEAR.format(1_152_000)),
            ("49", 0, DEAR.format(288_000)),
            ("493", 0, DEAR.format(288_000)),
            ("4930", 0, LONGER),
            ("49301", 0, LONGER),
            ("44", 0, "no route\n"),
            ("4", 0, "no route\n"),
        ],
    ),
    # one band for every number, and one for the longest prefix
    (
        PLAIN,
        ",00:00,1,2\n123456789012345,00:00,3,4\n",
        [
            ("1", 1_000_000_000_000, "prefix - from 00:00 fee 1 rate 2 free 0\n"),
            ("12345678901234", 1_000_000_000_000, "prefix - from 00:00 fee 1 rate 2 free 0\n"),
            ("123456789012345", 1_000_000_000_000, "prefix 123456789012345 from 00:00 fee 3 rate 4 free 0\n"),
        ],
    ),
    (
        WITH_FREE,
        "49,00:00,50,1000,300\n49,08:00,0,400,864000\n",
        [
            ("491", 0, "prefix 49 from 00:00 fee 50 rate 1000 free 300\nswitch 288000 rate 400\n"),
            ("491", 288_000, "prefix 49 from 08:00 fee 0 rate 400 free 864000\nswitch 864000 rate 1000\n"),
        ],
    ),
    # rows that bill in steps, and one that doesn't
    (
        WITH_STEPS,
        "49,00:00,50,1000,0,600,600\n49,08:00,0,400,0,0,1\n44,00:00,50,1000,600,300,60\n"
        "45,00:00,1,2,0,600,1\n46,00:00,1,2,0,0,60\n",
        [
            ("491", 0, "prefix 49 from 00:00 fee 50 rate 1000 free 0 first 600 step 600\nswitch 288000 rate 400\n"),
            ("491", 288_000, CHEAP.format(864_000)),
            ("491", 864_000, "prefix 49 from 00:00 fee 50 rate 1000 free 0 first 600 step 600\nswitch 1152000 rate 400\n"),
            ("44", 0, "prefix 44 from 00:00 fee 50 rate 1000 free 600 first 300 step 60\n"),
            ("45", 0, "prefix 45 from 00:00 fee 1 rate 2 free 0 first 600 step 1\n"),
            ("46", 0, "prefix 46 from 00:00 fee 1 rate 2 free 0 first 0 step 60\n"),
            ("4", 0, "no route\n"),
        ],
    ),
    # by day, in the evenings from Monday to Friday, and at weekends. Moment 0 begins a Thursday
    (
        WITH_DAYS,
        "49,00:00,50,1000,0,0,1,12345\n49,20:00,0,400,0,0,1,12345\n49,00:00,0,300,0,0,1,67\n",
        [
            # Thursday, 00:00; Friday, 12:00, and one unit before 20:00
            ("491", 0, DEAR.format(720_000)),
            ("491", 1_296_000, DEAR.format(1_584_000)),
            ("491", 1_583_999, DEAR.format(1_584_000)),
            # Friday, 20:00, and its last unit
            ("491", 1_584_000, "prefix 49 from 20:00 fee 0 rate 400 free 0\nswitch 1728000 rate 300\n"),
            ("491", 1_727_999, "prefix 49 from 20:00 fee 0 rate 400 free 0\nswitch 1728000 rate 300\n"),
            # Saturday, 12:00, when the row of Sunday is the same, and its last unit, a day and a unit before Monday
            ("491", 2_160_000, "prefix 49 from 00:00 fee 0 rate 300 free 0\n"),
            ("491", 2_591_999, "prefix 49 from 00:00 fee 0 rate 300 free 0\n"),
            # Sunday, 00:00, just a day before Monday; 12:00, and its last unit
            ("491", 2_592_000, "prefix 49 from 00:00 fee 0 rate 300 free 0\nswitch 3456000 rate 1000\n"),
            ("491", 3_024_000, "prefix 49 from 00:00 fee 0 rate 300 free 0\nswitch 3456000 rate 1000\n"),
            ("491", 3_455_999, "prefix 49 from 00:00 fee 0 rate 300 free 0\nswitch 3456000 rate 1000\n"),
            # Monday, 00:00 and 20:00
            ("491", 3_456_000, DEAR.format(4_176_000)),
            ("491", 4_176_000, "prefix 49 from 20:00 fee 0 rate 400 free 0\nswitch 4320000 rate 1000\n"),
        ],
    ),
    # two rows have one prefix and one start, and count on different days
    (
        WITH_DAYS,
        "49,00:00,1,10,0,0,1,1\n49,00:00,2,20,0,0,1,234567\n",
        [
            # Monday, 12:00, and Tuesday, 00:00
            ("491", 3_888_000, "prefix 49 from 00:00 fee 1 rate 10 free 0\nswitch 4320000 rate 20\n"),
            ("491", 4_320_000, "prefix 49 from 00:00 fee 2 rate 20 free 0\n"),
            # the last unit of Saturday; Sunday, 00:00 and 12:00
            ("491", 2_591_999, "prefix 49 from 00:00 fee 2 rate 20 free 0\n"),
            ("491", 2_592_000, "prefix 49 from 00:00 fee 2 rate 20 free 0\nswitch 3456000 rate 10\n"),
            ("491", 3_024_000, "prefix 49 from 00:00 fee 2 rate 20 free 0\nswitch 3456000 rate 10\n"),
        ],
    ),
    # the row of each day counts over midnight, until that of Saturday starts
    (
        WITH_DAYS,
        "49,00:00,1,10,0,0,1,\n49,08:00,2,20,0,0,1,6\n",
        [
            # Friday, 07:00, more than a day before; one unit before 08:00, and 08:00, just a day before; 12:00
            ("491", 1_116_000, "prefix 49 from 00:00 fee 1 rate 10 free 0\n"),
            ("491", 1_151_999, "prefix 49 from 00:00 fee 1 rate 10 free 0\n"),
            ("491", 1_152_000, "prefix 49 from 00:00 fee 1 rate 10 free 0\nswitch 2016000 rate 20\n"),
            ("491", 1_296_000, "prefix 49 from 00:00 fee 1 rate 10 free 0\nswitch 2016000 rate 20\n"),
            # Saturday, 00:00 and 09:00, and Sunday, 00:00
            ("491", 1_728_000, "prefix 49 from 00:00 fee 1 rate 10 free 0\nswitch 2016000 rate 20\n"),
            ("491", 2_052_000, "prefix 49 from 08:00 fee 2 rate 20 free 0\nswitch 2592000 rate 10\n"),
            ("491", 2_592_000, "prefix 49 from 00:00 fee 1 rate 10 free 0\n"),
        ],
    ),
    # all seven days, by name
    (
        WITH_DAYS,
        "49,00:00,5,6,0,0,1,1234567\n",
        [("491", 2_592_000, "prefix 49 from 00:00 fee 5 rate 6 free 0\n"), ("44", 2_592_000, "no route\n")],
    ),
]

# The columns behind, the rows of a table, and the row and the kind of its first fault.
REFUSED = [
    (
        PLAIN,
        [
            ('"44","00:0', "2: Csv"),
            ("44,00:00,1,1,1\n", "2: Csv"),
            ("4x,00:00,1,1\n", "2: Digits"),
            ("1234567890123456,0,x,1\n", "2: Digits"),
            ("44,24:00,1,1\n", "2: From"),
            ("44,00:60,1,1\n", "2: From"),
            ("44,0:000,1,1\n", "2: From"),
            ("44,00:0,x,1\n", "2: From"),
            ("44,00:00,1000000001,1\n", "2: Money"),
            ("44,00:00,1,\n", "2: Money"),
            ("44,00:00,50,1000\n44,00:00,50,1000\n", "3: Repeated"),
            ("44,08:00,1,1\n44,08:00,2,2\n", "3: Repeated"),
            ("44,00:00,1,1\n44,00:00,x,1\n", "3: Money"),
            ("44,08:00,50,1000\n", "2: NoMidnightBand"),
            ("44,00:00,1,1\n45,08:00,1,1\n46,08:00,1,1\n", "3: NoMidnightBand"),
            ("44,08:00,1,1\n44,00:00,1,1\n4,00:01,1,1\n", "4: NoMidnightBand"),
            ("44,08:00,1,1\n45\n", "3: Csv"),
            ("\n44,08:00,1,1\n", "2: NoMidnightBand"),
        ],
    ),
    (
        WITH_FREE,
        [
            ("44,00:00,1,1\n", "2: Csv"),
            ("44,00:00,1,1,\n", "2: Free"),
            ("44,00:00,1,1,864001\n", "2: Free"),
            ("44,00:00,1,x,x\n", "2: Money"),
            ("44,00:00,1,1,0\n44,00:00,1,1,x\n", "3: Free"),
            ("44,00:00,1,1,0\n44,00:00,1,1,1\n", "3: Repeated"),
        ],
    ),
    (
        WITH_STEPS,
        [
            ("44,00:00,1,1,0,600\n", "2: Csv"),
            ("44,00:00,1,1,0,0,1,1\n", "2: Csv"),
            ("44,00:00,1,1,x,x,x\n", "2: Free"),
            ("44,00:00,1,1,0,864001,x\n", "2: First"),
            ("44,00:00,1,1,0,,1\n", "2: First"),
            ("44,00:00,1,1,0,0,0\n", "2: Step"),
            ("44,00:00,1,1,0,0,864001\n", "2: Step"),
            ("44,00:00,1,1,0,0,\n", "2: Step"),
            ("44,00:00,1,1,0,0,1\n44,00:00,1,1,0,0,0\n", "3: Step"),
            ("44,00:00,1,1,0,0,1\n44,00:00,1,1,0,600,600\n", "3: Repeated"),
        ],
    ),
    (
        WITH_DAYS,
        [
            ("44,00:00,1,1,0,0,1\n", "2: Csv"),
            ("44,00:00,1,1,0,0,1,1,2\n", "2: Csv"),
            ("44,00:00,1,1,0,0,1,8\n", "2: Days"),
            ("44,00:00,1,1,0,0,1,0\n", "2: Days"),
            ("44,00:00,1,1,0,0,1,11\n", "2: Days"),
            ("44,00:00,1,1,0,0,1,21\n", "2: Days"),
            ("44,00:00,1,1,0,0,1,12345678\n", "2: Days"),
            ("44,00:00,1,1,0,0,1,1-5\n", "2: Days"),
            ("44,00:00,1,1,0,0,1,Mo\n", "2: Days"),
            ("44,00:00,1,1,0,0,1, 1\n", "2: Days"),
            ("44,00:00,1,1,0,0,0,8\n", "2: Step"),
            ("44,00:00,1,1,0,0,1,\n44,00:00,1,1,0,0,1,8\n", "3: Days"),
            ("44,00:00,1,1,0,0,1,12\n44,00:00,1,1,0,0,1,23\n", "3: Repeated"),
            ("44,00:00,1,1,0,0,1,\n44,00:00,1,1,0,0,1,7\n", "3: Repeated"),
            ("44,08:00,1,1,0,0,1,7\n44,08:00,1,1,0,0,1,\n", "3: Repeated"),
            ("44,00:00,1,1,0,0,1,12345\n", "2: NoMidnightBand"),
            ("44,00:00,1,1,0,0,1,123456\n44,08:00,1,1,0,0,1,7\n", "2: NoMidnightBand"),
            ("45,00:00,1,1,0,0,1,\n44,08:00,1,1,0,0,1,\n44,00:00,1,1,0,0,1,234567\n", "3: NoMidnightBand"),
        ],
    ),
]

# Tables without their header.
NO_HEADERS = [
    "",
    "prefix,from,fee\n",
    "prefix,from,rate,fee\n",
    "prefix,from,fee,rate,fee\n",
    "prefix,from,fee,rate,free,first\n",
    "prefix,from,fee,rate,free,step,first\n",
    "prefix,from,fee,rate,free,first,days,step\n",
    "prefix,from,fee,rate,free,first,step,day\n",
]


def rows():
    for columns, bands, routes in ROUTES:
        for called, at, lines in routes:
            yield Row(f"quote --called {called} --at {at}", f"prefix,from,fee,rate{columns}\n{bands}", lines)
    for columns, tables in REFUSED:
        for bands, fault in tables:
            yield refused("quote --called 49 --at 0", f"prefix,from,fee,rate{columns}\n{bands}", f"tariff row {fault}")
    for table in NO_HEADERS:
        yield refused("quote --called 49 --at 0", table, "tariff row 1: Header")
