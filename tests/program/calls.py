"""Worked records of calls."""
from rows import ACCOUNT, BAND, CALL, Row, refused, run_input
from runs import TWO_CALLS, TWO_SUBSCRIBERS

HEADER = "call,calling,called,account,prefix,start,answer,end,before,after,paid,outcome\n"

# Words, the rows of the tariff, the setup and the script, and the records.
RECORDED = [
    ("run --calls", "", "", "", ""),
    ("run --calls", BAND, ACCOUNT, CALL, "1,491700001,4930,7,49,0,100,402,300,0,550,ended\n"),
    (
        "run --calls --clock",
        BAND,
        ACCOUNT,
        CALL,
        "1,491700001,4930,7,49,1970-01-01T00:00:00.0,1970-01-01T00:00:10.0,1970-01-01T00:00:40.2,300,0,550,ended\n",
    ),
    (
        "run --clock --calls",
        BAND,
        ACCOUNT,
        "1972-02-28T23:59:59.9,1,start,491700001,4930\n1972-02-29 00:00:01,1,busy,,\n",
        "1,491700001,4930,7,49,1972-02-28T23:59:59.9,,1972-02-29T00:00:01.0,0,0,0,busy\n",
    ),
    (
        "run --calls",
        BAND,
        ACCOUNT,
        "0,1,start,491700001,4930\n100,1,answer,,\n",
        "1,491700001,4930,7,49,0,100,970,870,0,1500,cut\n",
    ),
    (
        "run --wanted 900 --calls",
        "49,00:00,50,1000\n49,00:01,0,400\n",
        "account,7,1600\nsubscriber,491700001,7\n",
        "0,1,start,491700001,4930\n100,1,answer,,\n802,1,disconnect,1,\n",
        "1,491700001,4930,7,49,0,100,804,502,200,1020,ended\n",
    ),
    (
        "run --calls",
        BAND,
        ACCOUNT,
        "0,1,start,491700001,4430\n100,1,answer,,\n400,1,disconnect,1,\n",
        "1,491700001,4430,7,,0,,2,0,0,0,noroute\n",
    ),
    ("run --calls", ",00:00,0,600\n", ACCOUNT, CALL, "1,491700001,4930,7,,0,100,402,300,0,300,ended\n"),
    ("run --calls", BAND, ACCOUNT, "5,3,start,491700009,4930\n10,3,answer,,\n", "3,491700009,4930,,49,5,,7,0,0,0,unknown\n"),
    ("run --calls", BAND, ACCOUNT, "5,3,start,491700009,30\n", "3,491700009,30,,,5,,7,0,0,0,unknown\n"),
    (
        "run --least 600 --workers 1 --calls",
        BAND,
        ACCOUNT,
        "0,9,start,491700001,4930\n0,2,start,491700001,4930\n",
        "2,491700001,4930,7,49,0,,2,0,0,0,denied\n9,491700001,4930,7,49,0,,,0,0,0,open\n",
    ),
    ("run --calls", BAND, ACCOUNT, "0,1,start,491700001,4930\n10,1,busy,,\n", "1,491700001,4930,7,49,0,,10,0,0,0,busy\n"),
    (
        "run --calls",
        BAND,
        ACCOUNT,
        "0,1,start,491700001,4930\n10,1,noanswer,,\n",
        "1,491700001,4930,7,49,0,,10,0,0,0,noanswer\n",
    ),
    (
        "run --calls",
        BAND,
        ACCOUNT,
        "0,1,start,491700001,4930\n10,1,routefail,,\n",
        "1,491700001,4930,7,49,0,,10,0,0,0,routefail\n",
    ),
    (
        "run --calls",
        BAND,
        ACCOUNT,
        "0,1,start,491700001,4930\n10,1,abandon,,\n",
        "1,491700001,4930,7,49,0,,10,0,0,0,abandoned\n",
    ),
    ("run --tssf 1 --calls", BAND, ACCOUNT, CALL, "1,491700001,4930,7,49,0,,1,0,0,0,released\n"),
    (
        "run --calls",
        BAND,
        ACCOUNT,
        "0,1,start,491700001,4930\n1,1,answer,,\n400,1,disconnect,1,\n",
        "1,491700001,4930,7,49,0,,,0,0,0,open\n",
    ),
    (
        "run --delay 50 --least 300 --calls",
        BAND,
        ACCOUNT,
        "0,1,start,491700001,4930\n100,1,answer,,\n",
        "1,491700001,4930,7,49,0,100,750,600,0,1050,cut\n",
    ),
    (
        "run --workers 16 --calls",
        BAND,
        TWO_SUBSCRIBERS,
        TWO_CALLS,
        "1,491700001,4930,7,49,0,100,502,400,0,717,ended\n2,491700002,4931,8,49,0,150,402,250,0,467,ended\n",
    ),
]

# Words of which only one may be there.
TWO_TABLES = ["run --book --calls", "run --calls --book --delay 0", "run --calls --calls"]


def rows():
    for words, tariff, setup, script, records in RECORDED:
        yield Row(words, run_input(tariff, setup, script), HEADER + records)
    for words in TWO_TABLES:
        yield refused(words, "", "arguments")
