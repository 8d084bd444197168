"""Ratings: what records should have cost by a tariff, and what `rate` refuses."""
import re

from calls import HEADER as CALLS
from rows import ANYTHING, Row, refused

# Two bands, and a minute free to the numbers of another prefix.
TARIFF = "prefix,from,fee,rate,free\n49,00:00,50,1000,0\n49,08:00,50,400,0\n4915,00:00,0,1900,600\n"

# Words, records, the status and what is printed.
RATED = [
    (
        "rate --paid=-1",
        "called,answer,time,-1\n4930,0,600,1050\n",
        0,
        "called,answer,time,-1,prefix,before,after,price,difference,fault\n4930,0,600,1050,49,600,0,1050,0,\n",
    ),
    (
        "rate --paid -",
        "called,answer,time,-\n4930,0,600,1050\n",
        0,
        "called,answer,time,-,prefix,before,after,price,difference,fault\n4930,0,600,1050,49,600,0,1050,0,\n",
    ),
    (
        "rate",
        "called,answer,time,paid\n4930,0,600,1050\n",
        0,
        "called,answer,time,paid,prefix,before,after,price,difference,fault\n4930,0,600,1050,49,600,0,1050,0,\n",
    ),
    (
        "rate",
        "called,answer,time,paid\n4930,287700,600,750\n49,288000,600,450\n4930,287700,600,1050\n",
        3,
        "called,answer,time,paid,prefix,before,after,price,difference,fault\n"
        "4930,287700,600,750,49,300,300,750,0,\n"
        "49,288000,600,450,49,600,0,450,0,\n"
        "4930,287700,600,1050,49,300,300,750,-300,\n",
    ),
    (
        "rate",
        'id,paid,time,answer,called,note\n1,1050,600,0,4930,"a,b"\n2,1051,600,0,4930,"say ""no"""\n3,,600,0,4930,\n',
        3,
        "id,paid,time,answer,called,note,prefix,before,after,price,difference,fault\n"
        '1,1050,600,0,4930,"a,b",49,600,0,1050,0,\n'
        '2,1051,600,0,4930,"say ""no""",49,600,0,1050,-1,\n'
        "3,,600,0,4930,,49,600,0,1050,,\n",
    ),
    (
        "rate --differing",
        "called,answer,time,paid\n4930,0,600,1050\n4930,0,600,1000\n4930,0,600\n33,0,600,0\n4930,0,600,1050\n",
        3,
        "called,answer,time,paid,prefix,before,after,price,difference,fault\n"
        "4930,0,600,1000,49,600,0,1050,50,\n"
        "4930,0,600,,,,,,Csv\n"
        "33,0,600,0,,,,,,noroute\n",
    ),
    (
        "rate --differing",
        "called,answer,time\n4930,0,600\n4930,0,60 0\n",
        3,
        "called,answer,time,prefix,before,after,price,difference,fault\n4930,0,60 0,,,,,,Number\n",
    ),
    (
        "rate",
        "called,answer,end,paid\n4930,287700,288300,750\n4930,100,99,0\n4930,100,864101,0\n4930,100,99,x\n4930,100,864100,9\n",
        3,
        "called,answer,end,paid,prefix,before,after,price,difference,fault\n"
        "4930,287700,288300,750,49,300,300,750,0,\n"
        "4930,100,99,0,,,,,,Order\n"
        "4930,100,864101,0,,,,,,Order\n"
        "4930,100,99,x,,,,,,Number\n"
        "4930,100,864100,9,49,287900,576100,863950,863941,\n",
    ),
    (
        "rate",
        "called,answer,end,paid\n"
        "4930,1970-01-01T07:59:30,1970-01-01 08:00:30.0,750\n"
        "4930,1970-02-30T00:00:00,0,0\n"
        "4930,0,1970-01-01T24:00:00,0\n",
        3,
        "called,answer,end,paid,prefix,before,after,price,difference,fault\n"
        "4930,1970-01-01T07:59:30,1970-01-01 08:00:30.0,750,49,300,300,750,0,\n"
        "4930,1970-02-30T00:00:00,0,0,,,,,,Number\n"
        "4930,0,1970-01-01T24:00:00,0,,,,,,Number\n",
    ),
    (
        "rate",
        "called,answer,time,paid\n"
        "4930,,,0\n"
        "33,,nonsense,0\n"
        "4930,0,,5\n"
        "4930,0,864001,5\n"
        "4930,1000000000001,1,5\n"
        "1234567890123456,0,1,5\n"
        ",0,1,5\n"
        "49a,0,1,5\n"
        "4930,0,1,1000000000000001\n",
        3,
        "called,answer,time,paid,prefix,before,after,price,difference,fault\n"
        "4930,,,0,,0,0,0,0,\n"
        "33,,nonsense,0,,0,0,0,0,\n"
        "4930,0,,5,,,,,,Number\n"
        "4930,0,864001,5,,,,,,Number\n"
        "4930,1000000000001,1,5,,,,,,Number\n"
        "1234567890123456,0,1,5,,,,,,Number\n"
        ",0,1,5,,,,,,Number\n"
        "49a,0,1,5,,,,,,Number\n"
        "4930,0,1,1000000000000001,,,,,,Number\n",
    ),
    (
        "rate",
        "called,answer,before,after,time,paid\n"
        "4930,0,600,600,5,2450\n"
        "4930,0,432000,432001,5,0\n"
        "4915,0,600,0,5,0\n"
        "4915,0,600,1,5,0\n",
        3,
        "called,answer,before,after,time,paid,prefix,before,after,price,difference,fault\n"
        "4930,0,600,600,5,2450,49,600,600,1450,-1000,\n"
        "4930,0,432000,432001,5,0,,,,,,Number\n"
        "4915,0,600,0,5,0,4915,600,0,0,0,\n"
        "4915,0,600,1,5,0,4915,600,1,0,0,\n",
    ),
    (
        "rate --time time",
        "called,answer,before,after,time,paid\n4930,0,600,600,5,59\n",
        0,
        "called,answer,before,after,time,paid,prefix,before,after,price,difference,fault\n4930,0,600,600,5,59,49,5,0,59,0,\n",
    ),
    (
        "rate",
        "called,answer,before,time\n4930,0,5,600\n",
        0,
        "called,answer,before,time,prefix,before,after,price,difference,fault\n4930,0,5,600,49,600,0,1050,,\n",
    ),
    (
        "rate",
        "called,answer,after,end\n4930,0,5,600\n",
        0,
        "called,answer,after,end,prefix,before,after,price,difference,fault\n4930,0,5,600,49,600,0,1050,,\n",
    ),
    (
        "rate --called b --answer start --before x --after y --paid cost",
        "b,start,x,y,cost\n4930,0,600,600,1450\n",
        0,
        "b,start,x,y,cost,prefix,before,after,price,difference,fault\n4930,0,600,600,1450,49,600,600,1450,0,\n",
    ),
    (
        "rate --end stop",
        "called,answer,time,stop\n4930,0,9,600\n",
        0,
        "called,answer,time,stop,prefix,before,after,price,difference,fault\n4930,0,9,600,49,600,0,1050,,\n",
    ),
    (
        "rate",
        "called,answer,time,paid\n4930,0,600,1050",
        0,
        "called,answer,time,paid,prefix,before,after,price,difference,fault\n4930,0,600,1050,49,600,0,1050,0,\n",
    ),
    (
        "rate",
        'called,answer,time,note\n4930,0,600,"open\n4930,0,600,ok\n',
        0,
        "called,answer,time,note,prefix,before,after,price,difference,fault\n"
        '4930,0,600,"open\n'
        "4930,0,600,ok\n"
        '",49,600,0,1050,,\n',
    ),
    # a further line that is %% alone is a row, and a field is quoted again where it needs that
    (
        "rate",
        'called,answer,time,note\n4930,0,600,"a\rb"\n%%\n"4930",0,600," c "\n',
        3,
        "called,answer,time,note,prefix,before,after,price,difference,fault\n"
        '4930,0,600,"a\rb",49,600,0,1050,,\n%%,,,,,,Csv\n4930,0,600, c ,49,600,0,1050,,\n',
    ),
    # a byte order mark, which is passed over, empty lines, and each end of a line
    (
        "rate",
        '\ufeff"called",answer,time\r\n\r\n4930,0,600\r4930,0,600\n\n"4930",0,600\r\n4930,0,600\r',
        0,
        "called,answer,time,prefix,before,after,price,difference,fault\n" + "4930,0,600,49,600,0,1050,,\n" * 4,
    ),
    ("rate", "called,answer,time\n", 0, "called,answer,time,prefix,before,after,price,difference,fault\n"),
]

# Calls about eight, when the rate falls: the first is talking then, the third is answered after it, the last starts after it.
# The others are free for a minute, without a route, of nobody's and not answered.
AT_EIGHT = """\
kind,key,value
account,7,9000
subscriber,491700001,7
%%
moment,call,what,x,y
287400,1,start,491700001,4930
287500,1,answer,,
287900,2,start,491700001,4915
287950,3,start,491700001,4930
288000,2,answer,,
288010,4,start,491700001,33
288020,5,start,491700002,4930
288050,3,answer,,
288100,6,start,491700001,4930
288200,6,noanswer,,
288300,7,start,491700001,4930
288350,7,answer,,
288650,3,disconnect,1,
288700,1,disconnect,1,
288800,2,disconnect,1,
288900,7,disconnect,1,
"""

# The records of these calls, and what `rate --answer start` prints behind them. By their starts none differs.
RECORDS_AT_EIGHT = [
    ("1,491700001,4930,7,49,287400,287500,288702,502,698,1352,ended", "49,502,698,1352,0,"),
    ("2,491700001,4915,7,4915,287900,288000,288802,800,0,634,ended", "4915,800,0,634,0,"),
    ("3,491700001,4930,7,49,287950,288050,288652,0,600,450,ended", "49,0,600,450,0,"),
    ("4,491700001,33,7,,288010,,288012,0,0,0,noroute", ",,,,,noroute"),
    ("5,491700002,4930,,49,288020,,288022,0,0,0,unknown", "49,0,0,0,0,"),
    ("6,491700001,4930,7,49,288100,,288200,0,0,0,noanswer", "49,0,0,0,0,"),
    ("7,491700001,4930,7,49,288300,288350,288902,550,0,417,ended", "49,550,0,417,0,"),
]
# What is printed of them with `--differing`, below the header. By its answer the third would have had the rates of the later
# band.
DIFFERING_AT_EIGHT = [
    ("rate --differing --answer start", "4,491700001,33,7,,288010,,288012,0,0,0,noroute,,,,,,noroute\n"),
    ("rate --differing", "3,491700001,4930,7,49,287950,288050,288652,0,600,450,ended,49,0,600,1050,600,\n"),
]

# Words, records, and the line that says what was counted.
COUNTED = [
    (
        "rate --differing --summary",
        "called,answer,time,paid\n4930,0,600,1000\n4930,0,600,1060\n4930,0,600,\n33,0,1,7\n4930,0,600,1050\n",
        3,
        "prepaid: rated: 5 rows, 2 differ, 1 faults, charged 3110, by the tariff 4200, over 10, under 50\n",
    ),
    (
        "rate --summary",
        "called,answer,time,paid\n4930,0,600,1000000000000000\n4930,0,600,0\n",
        3,
        "prepaid: rated: 2 rows, 2 differ, 0 faults, charged 1000000000000000, by the tariff 2100, over 999999999998950, under 1050\n",
    ),
    # what rows with a fault were charged counts for nothing, and one that wasn't answered costs nothing
    (
        "rate --summary",
        "called,answer,time,paid\n4930,0,600,1050\n4930,,,7\n4930,,,\n33,0,1,7\n4930,0,x,9\n4930,0,600\n4930,0,600,\n",
        3,
        "prepaid: rated: 7 rows, 1 differ, 3 faults, charged 1057, by the tariff 2100, over 7, under 0\n",
    ),
    # more than 64 bits
    (
        "rate --summary",
        "called,answer,time,paid\n" + "4930,0,600,1000000000000000\n" * 20_000,
        3,
        "prepaid: rated: 20000 rows, 20000 differ, 0 faults, charged 20000000000000000000, by the tariff 21000000, "
        "over 19999999999979000000, under 0\n",
    ),
    (
        "rate --summary",
        "called,answer,time\n",
        0,
        "prepaid: rated: 0 rows, 0 differ, 0 faults, charged 0, by the tariff 0, over 0, under 0\n",
    ),
]

# Words and records whose header is refused.
NO_HEADERS = [
    ("rate", ""),
    ("rate", "answer,time\n4930,0\n"),
    ("rate", "called,time\n"),
    ("rate", "called,answer,paid\n"),
    ("rate", "called,called,answer,time\n"),
    ("rate", "called,answer,time,paid,paid\n"),
    ("rate --paid cost", "called,answer,time,paid\n"),
    ("rate --time end", "called,answer,time\n"),
    ("rate --before before --after later", "called,answer,before,after\n"),
]

# How many bytes that are no UTF-8 a row has, what is printed behind them, and the status.
BYTES = [(65_524, b"49,600,0,1050,,\n", 0), (65_525, b",,,,,TooLong\n", 3), (70_000, b",,,,,TooLong\n", 3)]

# Inputs without a line that divides.
NO_PARTS = ["", "prefix,from,fee,rate\n", "%%%\n", " %%\ncalled,answer,time\n"]

# Words that are refused whatever the input.
NO_WORDS = [
    "rate --time a --end b",
    "rate --before a",
    "rate --after a",
    "rate --called a --called b",
    "rate --paid -1",
    "rate --paid --",
]


def input_of(records):
    """The tariff, the line that divides, and records."""
    return f"{TARIFF}%%\n{records}"


def calls_of_a_run():
    """What `run` prints of its calls is rated by the tariff of the run."""
    records = "".join(f"{record}\n" for record, _ in RECORDS_AT_EIGHT)
    yield Row("run --calls", input_of(AT_EIGHT), CALLS + records)
    rated = "".join(f"{record},{behind}\n" for record, behind in RECORDS_AT_EIGHT)
    for words, printed in [("rate --answer start", rated), *DIFFERING_AT_EIGHT]:
        header = CALLS.replace("\n", ",prefix,before,after,price,difference,fault\n")
        yield Row(words, input_of(CALLS + records), header + printed, status=3)


def refusals():
    for words, records in NO_HEADERS:
        yield refused(words, input_of(records), "records row 1: Header")
    for text in NO_PARTS:
        yield refused("rate", text, "input: Parts")
    yield refused("rate", "%%\ncalled,answer,time\n", "tariff row 1: Header")
    yield refused("rate", "prefix,from,fee,rate\n49,01:00,1,1\n%%", "tariff row 2: NoMidnightBand")
    for words in NO_WORDS:
        yield refused(words, "", "arguments")


def rows_of_bytes():
    """Bytes that are no UTF-8 are passed through, and a row that is too long is refused."""
    for length, behind, status in BYTES:
        front = f"{TARIFF}%%\r\ncalled,answer,time,note\n".encode()
        text = front + b"4930,0,600," + b"\xff" * length + b"\n4930,0,600,\xff\xfe\n"
        printed = re.escape(behind + b"4930,0,600,\xff\xfe,49,600,0,1050,,\n")
        yield Row("rate", text, re.compile(b"(?s).*" + printed), status=status)


def dearest():
    """Rows whose sums have many digits: each call that is charged the most, and each of a day at the highest fee and rate."""
    count, most, fee = 12_345, 10**15, 10**9
    price = fee + 864_000 * fee // 600
    records = f"4930,0,0,{most}\n4930,0,864000,0\nx,0,0,0\n" * count
    line = (f"prepaid: rated: {3 * count} rows, {2 * count} differ, {count} faults, charged {count * most}, by the tariff "
            f"{count * price}, over {count * most}, under {count * price}\n")
    text = f"prefix,from,fee,rate\n49,00:00,{fee},{fee}\n%%\ncalled,answer,time,paid\n{records}"
    yield Row("rate --summary", text, ANYTHING, line, 3)


def rows():
    for words, records, status, printed in RATED:
        yield Row(words, input_of(records), printed, status=status)
    yield from calls_of_a_run()
    for words, records, status, line in COUNTED:
        yield Row(words, input_of(records), ANYTHING, line, status)
    yield from dearest()
    yield from refusals()
    yield from rows_of_bytes()
