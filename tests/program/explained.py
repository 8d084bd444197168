"""What is said of a fault behind its line, where that is asked for."""
from rows import PRICE, Row

# Reports, and what is said of their fault: its line, where it is, and what is wrong there.
PRICES = [
    ("before,after\n600\n", "reports row 2: Csv\nline 2 of the input: 600\n", "1 field, and the header has 2: before,after\n"),
    (
        "before;after\n",
        "reports row 1: Header\nline 1 of the input: before;after\n",
        "wanted: before,after\nfound: before;after\nthe separator is a comma\n",
    ),
    (
        "before\tafter\n",
        "reports row 1: Header\nline 1 of the input: before\\x09after\n",
        "wanted: before,after\nfound: before\\x09after\nthe separator is a comma\n",
    ),
    ("", "reports row 1: Header\n", "wanted: before,after\nfound: no row\n"),
    (
        "before,after\n600,x",
        "reports row 2: Number\nline 2 of the input: 600,x\n",
        "column after: x is no decimal of 1 to 20 digits\n",
    ),
    (
        "before,after\r\n\r\n864001,0\r\n",
        "reports row 2: Number\nline 3 of the input: 864001,0\n",
        "column before: 864001 is above 864000\n",
    ),
    (
        "before,after\n600,0\n500,0\n",
        "reports row 3: Order\nline 3 of the input: 500,0\n",
        "times 500,0 may not follow 600,0 in row 2\n",
    ),
    (
        "before,after\n600,5\n",
        "reports row 2: Order\nline 2 of the input: 600,5\n",
        "times 600,5 may not come first; without --after no time is after the switch\n",
    ),
    (
        "before,after\n1\0\x7f,0",
        "reports row 2: Number\nline 2 of the input: 1\\x00\\x7f,0\n",
        "column before: 1\\x00\\x7f is no decimal of 1 to 20 digits\n",
    ),
    (
        'before,after\n600,0\n"700,0\n800,0\n',
        'reports row 3: Csv\nline 3 of the input: "700,0\n',
        "1 field, and the header has 2: before,after\na quote is open since line 3\n",
    ),
]

# A setup of a run, from its third row on, with the tariff in front of it.
ACCOUNT = "prefix,from,fee,rate\n49,00:00,50,1000\n%%\nkind,key,value\naccount,7,5000\n"
# The rest of an input behind that setup, up to the second row of the script.
SCRIPT = "%%\nmoment,call,what,x,y\n10,1,start,491700001,4930\n"

# Rows of a setup or of a script, and what is said of the last.
RUNS = [
    (
        "",
        "20,1,hangup,,\n",
        "script row 3: What\n"
        "line 9 of the input: 20,1,hangup,,\n"
        "column what: hangup; one of start, answer, busy, noanswer, routefail, abandon, disconnect, recharge\n",
    ),
    (
        "",
        "20,1,answered,,\n",
        "script row 3: What\n"
        "line 9 of the input: 20,1,answered,,\n"
        "column what: answered; one of start, answer, busy, noanswer, routefail, abandon, disconnect, recharge\n"
        "the nearest is answer\n",
    ),
    (
        "",
        "20,1,apply,,\n",
        "script row 3: What\n"
        "line 9 of the input: 20,1,apply,,\n"
        "column what: apply; one of start, answer, busy, noanswer, routefail, abandon, disconnect, recharge\n",
    ),
    (
        "",
        "20,1,release,,\n",
        "script row 3: What\n"
        "line 9 of the input: 20,1,release,,\n"
        "column what: release; one of start, answer, busy, noanswer, routefail, abandon, disconnect, recharge\n"
        "the nearest is recharge\n",
    ),
    (
        "",
        "20,1, Busy,,\n",
        "script row 3: What\n"
        "line 9 of the input: 20,1, Busy,,\n"
        "column what:  Busy; one of start, answer, busy, noanswer, routefail, abandon, disconnect, recharge\n"
        "the nearest is busy\n",
    ),
    (
        "acount,8,5\n",
        "",
        "setup row 3: What\n"
        "line 6 of the input: acount,8,5\n"
        "column kind: acount; one of account, subscriber\n"
        "the nearest is account\n",
    ),
    (
        "",
        '20,1,"answer,,\n',
        "script row 3: Csv\n"
        'line 9 of the input: 20,1,"answer,,\n'
        "3 fields, and the header has 5: moment,call,what,x,y\n"
        "a quote is open since line 9\n",
    ),
    (
        "",
        '20,1,"an\n""swer,,\n',
        "script row 3: Csv\n"
        'line 9 of the input: 20,1,"an\n'
        "3 fields, and the header has 5: moment,call,what,x,y\n"
        "a quote is open since line 9\n",
    ),
    (
        "",
        '20,1,hangup,,\n30,1,"busy,,\n',
        "script row 3: What\n"
        "line 9 of the input: 20,1,hangup,,\n"
        "column what: hangup; one of start, answer, busy, noanswer, routefail, abandon, disconnect, recharge\n",
    ),
    (
        "",
        '"20\n",1,"answer,,\n30,1,busy,,\n',
        "script row 3: Csv\n"
        'line 9 of the input: "20\n'
        "3 fields, and the header has 5: moment,call,what,x,y\n"
        "a quote is open since line 10\n",
    ),
    (
        "",
        "20,1,answer,5,\n",
        "script row 3: Empty\nline 9 of the input: 20,1,answer,5,\ncolumn x: 5, where answer takes nothing\n",
    ),
    (
        "",
        "20,1,recharge,7,1\n",
        "script row 3: Empty\nline 9 of the input: 20,1,recharge,7,1\ncolumn call: 1, where recharge takes nothing\n",
    ),
    (
        "",
        "20,1,disconnect,1,5\n",
        "script row 3: Empty\nline 9 of the input: 20,1,disconnect,1,5\ncolumn y: 5, where disconnect takes nothing\n",
    ),
    (
        "",
        "20,1,disconnect,3,\n",
        "script row 3: Number\nline 9 of the input: 20,1,disconnect,3,\ncolumn x: 3 is above 2\n",
    ),
    (
        "",
        "20,1,disconnect,0,\n",
        "script row 3: Number\nline 9 of the input: 20,1,disconnect,0,\ncolumn x: 0 is below 1\n",
    ),
    (
        "",
        "1000000000001,1,answer,,\n",
        "script row 3: Number\n"
        "line 9 of the input: 1000000000001,1,answer,,\n"
        "column moment: 1000000000001 is above 1000000000000\n",
    ),
    (
        "",
        "1970-01-01,1,answer,,\n",
        "script row 3: Number\n"
        "line 9 of the input: 1970-01-01,1,answer,,\n"
        "column moment: 1970-01-01 is no moment: a decimal, or a date and a time like 1970-01-01T18:00:08\n",
    ),
    (
        "",
        "20,2,start,4917000012345678,4930\n",
        "script row 3: Number\n"
        "line 9 of the input: 20,2,start,4917000012345678,4930\n"
        "column x: 4917000012345678 is no 1 to 15 digits\n",
    ),
    (
        "",
        "20,2,start,491700001,\n",
        "script row 3: Number\n"
        "line 9 of the input: 20,2,start,491700001,\n"
        "column y: it is empty, and no 1 to 15 digits\n",
    ),
    (
        "",
        "20,,recharge,4294967296,1\n",
        "script row 3: Number\n"
        "line 9 of the input: 20,,recharge,4294967296,1\n"
        "column x: 4294967296 is above 4294967295\n",
    ),
    (
        "subscriber,x,7\n",
        "",
        "setup row 3: Number\nline 6 of the input: subscriber,x,7\ncolumn key: x is no 1 to 15 digits\n",
    ),
    (
        "account,4294967296,5\n",
        "",
        "setup row 3: Number\nline 6 of the input: account,4294967296,5\ncolumn key: 4294967296 is above 4294967295\n",
    ),
    (
        "subscriber,491,4294967296\n",
        "",
        "setup row 3: Number\nline 6 of the input: subscriber,491,4294967296\ncolumn value: 4294967296 is above 4294967295\n",
    ),
    ("", "5,1,answer,,\n", "script row 3: Order\nline 9 of the input: 5,1,answer,,\nmoment 5 lies below 10 in row 2\n"),
    (
        "",
        "20,1,start,491700001,4930\n",
        "script row 3: Repeated\nline 9 of the input: 20,1,start,491700001,4930\ncall 1 is in row 2 already\n",
    ),
    (
        "",
        "20,2,answer,,\n",
        "script row 3: Unknown\nline 9 of the input: 20,2,answer,,\ncall 2 isn't started in an earlier row\n",
    ),
    ("", "20,,recharge,8,1\n", "script row 3: Unknown\nline 9 of the input: 20,,recharge,8,1\naccount 8 isn't in the setup\n"),
    ("account,007,1\n", "", "setup row 3: Repeated\nline 6 of the input: account,007,1\naccount 007 is in row 2 already\n"),
    (
        "subscriber,9,7\naccount,9,0\naccount,9,0\n",
        "",
        "setup row 5: Repeated\nline 8 of the input: account,9,0\naccount 9 is in row 4 already\n",
    ),
    (
        "subscriber,491700001,7\nsubscriber,491700001,7\n",
        "",
        "setup row 4: Repeated\nline 7 of the input: subscriber,491700001,7\nsubscriber 491700001 is in row 3 already\n",
    ),
    (
        "subscriber,491700001,7\nsubscriber,0491700001,7\nsubscriber,0491700001,7\n",
        "",
        "setup row 5: Repeated\nline 8 of the input: subscriber,0491700001,7\nsubscriber 0491700001 is in row 4 already\n",
    ),
    (
        "subscriber,491700001,8\n",
        "",
        "setup row 3: Unknown\nline 6 of the input: subscriber,491700001,8\naccount 8 isn't above this row\n",
    ),
    (
        "account,8,1000000000000001\n",
        "",
        "setup row 3: Number\n"
        "line 6 of the input: account,8,1000000000000001\n"
        "column value: 1000000000000001 is above 1000000000000000\n",
    ),
]

# Inputs of a run of which a section has no row, and what is said of its header: no line of the input is shown.
EMPTY = [
    (
        "%%\nkind,key,value\n%%\n",
        "tariff row 1: Header\n"
        "wanted: prefix,from,fee,rate,free,first,step,days, or without days, first to days, or free to days\n"
        "found: no row\n",
    ),
    (
        "prefix,from,fee,rate\n49,00:00,50,1000\n%%\n\n%%\nmoment,call,what,x,y\n",
        "setup row 1: Header\nwanted: kind,key,value,until or kind,key,value\nfound: no row\n",
    ),
    (ACCOUNT + "%%\n", "script row 1: Header\nwanted: moment,call,what,x,y,z or moment,call,what,x,y\nfound: no row\n"),
]

# Headers of operations, the second with billing steps, and of books; the last has no column for a last moment.
OPS = "seat,op,call,x1,x2,x3,x4,x5,x6,x7\n"
STEPS = "seat,op,call,x1,x2,x3,x4,x5,x6,x7,x8,x9\n"
BOOK = "account,seat,op,call,x1,x2,x3,x4,x5,x6,x7,reply,y1,y2,y3\n"
OLD_BOOK = "account,seat,op,call,x1,x2,x3,x4,x5,reply,y1,y2,y3\n"
OPENED = "7,,opening,,5,,,,,,,,,,\n"
# A tariff, and a setup whose accounts may have a last moment.
DATED = "prefix,from,fee,rate\n49,00:00,50,1000\n%%\nkind,key,value,until\naccount,7,5000,\n"

# Inputs of a run with more or fewer than two lines that are %% alone, and what is said of these.
PARTS = [
    ("", "0 lines that are %% alone; wanted 2\n"),
    ("%%\n" * 6, "6 lines that are %% alone, in line 1, in line 2, in line 3, in line 4, in line 5; wanted 2\n"),
    ("x\r\n%%\r\n%%\n%%", "3 lines that are %% alone, in line 2, in line 3, in line 4; wanted 2\n"),
    (
        "%%\n%\n%%%\n x%%\n49,00:00,0,1%%\r\n",
        "1 line that is %% alone, in line 1; wanted 2\n"
        "line 4 ends with %%: the line in front of that has no line end\n",
    ),
    ("%%\n\n%%\r", "1 line that is %% alone, in line 1; wanted 2\nline 3 is %% with a blank at it\n"),
    ("%%\n%%\t\n", "1 line that is %% alone, in line 1; wanted 2\nline 2 is %% with a blank at it\n"),
    ("%%\n %%\n%%\t\n", "1 line that is %% alone, in line 1; wanted 2\nline 2 is %% with a blank at it\n"),
]

# Headers that operations and books haven't, and what is said of them.
HEADERS = [
    (
        "replay --opening 9",
        "seat,op,call,x1\n",
        "ops row 1: Header\n"
        "line 1 of the input: seat,op,call,x1\n"
        "wanted: seat,op,call,x1,x2,x3,x4,x5,x6,x7,x8,x9, or without x8 and x9, x7 to x9, or x6 to x9\n"
        "found: seat,op,call,x1\n",
    ),
    (
        "audit",
        "account,seat,op\n",
        "book row 1: Header\n"
        "line 1 of the input: account,seat,op\n"
        "wanted: account,seat,op,call,x1,x2,x3,x4,x5,x6,x7,x8,x9,reply,y1,y2,y3, or an older one\n"
        "found: account,seat,op\n",
    ),
]

# What is said of a word in the place of a moment.
NO_MOMENT = "column moment: x is no moment: a decimal, or a date and a time like 1970-01-01T18:00:08"

# Words, an input up to a row, that row with what is behind it, its fault, and what is said of it.
ENTRIES = [
    (
        "replay --opening 9",
        OPS,
        "0,Returned,1,,,,,,,",
        "ops row 2: What",
        "column op: Returned; one of credit, reserve, settle, return\nthe nearest is return",
    ),
    ("replay --opening 9", OPS, "0,settle,1,0,x,5,,,,", "ops row 2: What", "column x2: x; one of n, s"),
    ("replay --opening 9", OPS, "0,credit,1,5,,,,,,", "ops row 2: Empty", "column call: 1, where credit takes nothing"),
    ("replay --opening 9", OPS, "0,settle,1,0,n,5,7,,,", "ops row 2: Empty", "column x4: 7, where settle takes nothing"),
    ("replay --opening 9", OPS, "0,settle,1,0,s,5,7,,,1", "ops row 2: Empty", "column x7: 1, where settle takes nothing"),
    ("replay --opening 9", OPS, "0,return,1,,,,,,,5", "ops row 2: Empty", "column x7: 5, where return takes nothing"),
    ("replay --opening 9", OPS, "16,return,1,,,,,,,", "ops row 2: Number", "column seat: 16 is above 15"),
    *(
        (
            "replay --opening 9",
            OPS,
            f"0,reserve,1,{rates},,600,50,0,0",
            "ops row 2: Number",
            f"column {column}: 1000000001 is above 1000000000",
        )
        for column, rates in (("x1", "1000000001,9"), ("x2", "9,1000000001"))
    ),
    ("replay --opening 9", OPS, "0,reserve,1,9,9,,864001,,0,0", "ops row 2: Number", "column x4: 864001 is above 864000"),
    (
        "replay --opening 9",
        OPS,
        "0,settle,1,18446744073709551616,n,5,,,,",
        "ops row 2: Number",
        "column x1: 18446744073709551616 is above 18446744073709551615",
    ),
    (
        "replay --opening 9",
        OPS,
        "0,credit,,5,2000000000001,,,,,",
        "ops row 2: Number",
        "column x2: 2000000000001 is above 2000000000000",
    ),
    (
        "replay --opening 9",
        OPS,
        "0,reserve,1,9,9,1000000001,600,50,0,0",
        "ops row 2: Number",
        "column x3: 1000000001 is above 1000000000",
    ),
    ("replay --opening 9", OPS, "0,reserve,1,9,9,,600,864001,0,0", "ops row 2: Number", "column x5: 864001 is above 864000"),
    ("replay --opening 9", OPS, "0,reserve,1,9,9,,600,50,864001,0", "ops row 2: Number", "column x6: 864001 is above 864000"),
    (
        "replay --opening 9",
        OPS,
        "0,reserve,1,9,9,,600,50,0,2000000000001",
        "ops row 2: Number",
        "column x7: 2000000000001 is above 2000000000000",
    ),
    ("replay --opening 9", OPS, "0,settle,1,0,s,5,0,,,", "ops row 2: Number", "column x4: 0 is below 1"),
    (
        "replay --opening 9",
        STEPS,
        "0,reserve,1,9,9,,600,50,0,0,864001,1",
        "ops row 2: Number",
        "column x8: 864001 is above 864000",
    ),
    ("replay --opening 9", STEPS, "0,reserve,1,9,9,,600,50,0,0,0,0", "ops row 2: Number", "column x9: 0 is below 1"),
    (
        "audit",
        BOOK + OPENED,
        "7,0,debit,,1,,,,,,,credited,,,6",
        "book row 3: What",
        "column op: debit; one of opening, credit, reserve, settle, return",
    ),
    ("audit", BOOK + OPENED, "7,0,settle,1,0,x,5,,,,,settled,0,,5", "book row 3: What", "column x2: x; one of n, s"),
    (
        "audit",
        BOOK + OPENED,
        "7,0,credit,,1,,,,,,,given,,,6",
        "book row 3: What",
        "column reply: given; one of credited, over, denied, granted, settled, forfeit, returned",
    ),
    (
        "audit",
        BOOK + OPENED,
        "7,0,reserve,1,0,0,,600,50,0,0,granted,600,least,5",
        "book row 3: What",
        "column y2: least; one of more, last",
    ),
    ("audit", BOOK, "4294967296,,opening,,5,,,,,,,,,,", "book row 2: Number", "column account: 4294967296 is above 4294967295"),
    ("audit", BOOK + OPENED, "7,16,credit,,1,,,,,,,credited,,,6", "book row 3: Number", "column seat: 16 is above 15"),
    ("audit", BOOK, "7,0,opening,,5,,,,,,,,,,", "book row 2: Empty", "column seat: 0, where opening takes nothing"),
    ("audit", BOOK, "7,,opening,,5,,,,,,,over,,,", "book row 2: Empty", "column reply: over, where opening takes nothing"),
    (
        "audit",
        BOOK + OPENED,
        "7,0,credit,,1,,,,,,,credited,1,,6",
        "book row 3: Empty",
        "column y1: 1, where credited takes nothing",
    ),
    (
        "audit",
        BOOK + OPENED,
        "7,0,return,1,,,,,,,,returned,0,more,5",
        "book row 3: Empty",
        "column y2: more, where returned takes nothing",
    ),
    (
        "audit",
        BOOK + OPENED,
        "7,0,return,1,,,,,,,,returned,x,,5",
        "book row 3: Number",
        "column y1: x is no decimal of 1 to 20 digits",
    ),
    (
        "audit",
        BOOK + OPENED,
        "7,0,reserve,1,0,0,,600,50,0,0,granted,864001,more,5",
        "book row 3: Number",
        "column y1: 864001 is above 864000",
    ),
    (
        "audit",
        BOOK + OPENED,
        "7,0,reserve,1,0,0,,600,50,0,0,granted,600,more,1000000000000001",
        "book row 3: Number",
        "column y3: 1000000000000001 is above 1000000000000000",
    ),
    (
        "audit",
        BOOK + OPENED,
        "7,0,reserve,1,0,0,,600,50,0,0,granted,x,more,y",
        "book row 3: Number",
        "column y3: y is no decimal of 1 to 20 digits",
    ),
    (
        "audit",
        BOOK + OPENED,
        "7,0,reserve,1,0,0,,600,50,0,0,denied,,,x",
        "book row 3: Number",
        "column y3: x is no decimal of 1 to 20 digits",
    ),
    (
        "audit",
        BOOK + OPENED,
        "7,0,reserve,1,0,0,,600,50,0,0,denied,1,,5",
        "book row 3: Empty",
        "column y1: 1, where denied takes nothing",
    ),
    *(
        ("replay --opening 9", OPS, row, "ops row 2: Number", f"column {column}: x is no decimal of 1 to 20 digits")
        for column, row in (
            ("x1", "0,credit,,x,,,,,,"),
            ("x3", "0,settle,1,0,n,x,,,,"),
            ("x3", "0,settle,1,0,s,x,,,,"),
            ("call", "0,reserve,x,9,9,,600,50,0,0"),
        )
    ),
    *(
        ("run", DATED + "%%\nmoment,call,what,x,y,z\n", row, "script row 2: Number", said)
        for row, said in (
            ("20,x,answer,,,\n", "column call: x is no decimal of 1 to 20 digits"),
            ("x,2,start,491700001,4930,\n", NO_MOMENT),
            ("x,,recharge,7,1,\n", NO_MOMENT),
        )
    ),
    (
        "run",
        DATED,
        "account,8,5,1000000000001\n%%\n",
        "setup row 3: Number",
        "column until: 1000000000001 is above 1000000000000",
    ),
    (
        "run",
        DATED,
        "account,8,5,x\n%%\nmoment,call,what,x,y,z\n",
        "setup row 3: Number",
        "column until: x is no moment: a decimal, or a date and a time like 1970-01-01T18:00:08",
    ),
    (
        "run",
        DATED + "%%\nmoment,call,what,x,y,z\n",
        "20,,recharge,7,1,x\n",
        "script row 2: Number",
        "column z: x is no moment: a decimal, or a date and a time like 1970-01-01T18:00:08",
    ),
    (
        "run",
        DATED,
        "subscriber,491700001,7,9\n%%\nmoment,call,what,x,y,z\n",
        "setup row 3: Empty",
        "column until: 9, where subscriber takes nothing",
    ),
    (
        "run",
        DATED + "subscriber,491700001,7,\n%%\nmoment,call,what,x,y,z\n",
        "10,1,start,491700001,4930,1\n",
        "script row 2: Empty",
        "column z: 1, where start takes nothing",
    ),
    (
        "audit",
        OLD_BOOK,
        "7,0,credit,,1,n,,,,credited,,,x",
        "book row 2: Number",
        "column y3: x is no decimal of 1 to 20 digits",
    ),
]

# A header of a tariff with all of its columns.
FULL = "prefix,from,fee,rate,free,first,step,days\n"

# Tariffs, and what `quote` says of them.
TARIFFS = [
    (
        "prefix,from,fee,rate\n49,08:00,50,1000\n49,20:00,0,500\n",
        "tariff row 2: NoMidnightBand\nline 2 of the input: 49,08:00,50,1000\n",
        "prefix 49 counts from 08:00 and 20:00, and nothing from 00:00: add 49,00:00,.. with what counts at midnight, "
        "mostly the row of 20:00\n",
    ),
    (
        "prefix,from,fee,rate\n49,20:00,50,1000\n49,08:00,0,500\n",
        "tariff row 2: NoMidnightBand\nline 2 of the input: 49,20:00,50,1000\n",
        "prefix 49 counts from 20:00 and 08:00, and nothing from 00:00: add 49,00:00,.. with what counts at midnight, "
        "mostly the row of 20:00\n",
    ),
    (
        "prefix,from,fee,rate\n49,00:00,20.00,1000\n",
        "tariff row 2: Money\nline 2 of the input: 49,00:00,20.00,1000\n",
        "column fee: 20.00 is no decimal of 1 to 20 digits\n",
    ),
    (
        "prefix,from,fee,rate\n49,00:00,50,10.00\n",
        "tariff row 2: Money\nline 2 of the input: 49,00:00,50,10.00\n",
        "column rate: 10.00 is no decimal of 1 to 20 digits\n",
    ),
    (
        "prefix,from,fee,rate\n49,00:00,1000000001,1000\n",
        "tariff row 2: Money\nline 2 of the input: 49,00:00,1000000001,1000\n",
        "column fee: 1000000001 is above 1000000000\n",
    ),
    (
        "prefix,from,fee,rate\n49,00:00,50\n",
        "tariff row 2: Csv\nline 2 of the input: 49,00:00,50\n",
        "3 fields, and the header has 4: prefix,from,fee,rate\n",
    ),
    (
        "prefix,from,fee,rate\n49,24:00,50,1000\n",
        "tariff row 2: From\nline 2 of the input: 49,24:00,50,1000\n",
        "column from: 24:00 is no time of day from 00:00 to 23:59\n",
    ),
    (
        "prefix,from,fee,rate\n49,00:00,50,1000\n49,00:00,60,1000\n",
        "tariff row 3: Repeated\nline 3 of the input: 49,00:00,60,1000\n",
        "prefix 49 from 00:00 is in row 2 already\n",
    ),
    (
        f"{FULL}49x,00:00,50,1000,0,0,1,\n",
        "tariff row 2: Digits\nline 2 of the input: 49x,00:00,50,1000,0,0,1,\n",
        "column prefix: 49x is no 0 to 15 digits\n",
    ),
    (
        f"{FULL}49,00:00,50,1000,864001,0,1,\n",
        "tariff row 2: Free\nline 2 of the input: 49,00:00,50,1000,864001,0,1,\n",
        "column free: 864001 is above 864000\n",
    ),
    (
        f"{FULL}49,00:00,50,1000,0,864001,1,\n",
        "tariff row 2: First\nline 2 of the input: 49,00:00,50,1000,0,864001,1,\n",
        "column first: 864001 is above 864000\n",
    ),
    (
        f"{FULL}49,00:00,50,1000,0,0,0,\n",
        "tariff row 2: Step\nline 2 of the input: 49,00:00,50,1000,0,0,0,\n",
        "column step: 0 is below 1\n",
    ),
    (
        f"{FULL}49,00:00,50,1000,0,0,1,21\n",
        "tariff row 2: Days\nline 2 of the input: 49,00:00,50,1000,0,0,1,21\n",
        "column days: 21 is no days: digits from 1 to 7 in their order, each once\n",
    ),
    (
        f"{FULL}49,00:00,50,1000,0,0,1,12345\n49,00:00,50,1000,0,0,1,67\n49,00:00,0,500,0,0,1,7\n",
        "tariff row 4: Repeated\nline 4 of the input: 49,00:00,0,500,0,0,1,7\n",
        "prefix 49 from 00:00 is in row 3 already\n",
    ),
    (
        f"{FULL}49,00:00,50,1000,0,0,1,67\n49,08:00,50,1000,0,0,1,\n49,00:00,0,500,0,0,1,\n",
        "tariff row 4: Repeated\nline 4 of the input: 49,00:00,0,500,0,0,1,\n",
        "prefix 49 from 00:00 is in row 2 already\n",
    ),
    (
        f"{FULL}49,00:00,50,1000,0,0,1,12345\n49,08:00,0,500,0,0,1,67\n",
        "tariff row 2: NoMidnightBand\nline 2 of the input: 49,00:00,50,1000,0,0,1,12345\n",
        "prefix 49 counts from 00:00 and 08:00, and not from 00:00 on each day of the week\n",
    ),
    (
        "prefix,from,fee,rate\n,08:00,50,1000\n",
        "tariff row 2: NoMidnightBand\nline 2 of the input: ,08:00,50,1000\n",
        "the empty prefix counts from 08:00, and nothing from 00:00: add ,00:00,.. with what counts at midnight, "
        "mostly the row of 08:00\n",
    ),
]

# Inputs with too many rows, and what is said of the first of these.
MORE = "docs/SCALING.md has larger loads\n"
TOO_MANY = [
    (
        PRICE,
        "before,after\n" + "0,0\n" * 10_001,
        f"reports row 10002: TooManyRows\nline 10002 of the input: 0,0\nat most 10000 rows; {MORE}",
    ),
    (
        "replay --opening 9",
        OPS + "0,return,1,,,,,,,\n" * 10_001,
        f"ops row 10002: TooManyRows\nline 10002 of the input: 0,return,1,,,,,,,\nat most 10000 rows; {MORE}",
    ),
    (
        "quote --called 4930 --at 0",
        "prefix,from,fee,rate\n" + "".join(f"{number},00:00,50,1000\n" for number in range(10_001)),
        f"tariff row 10002: TooManyRows\nline 10002 of the input: 10000,00:00,50,1000\nat most 10000 rows; {MORE}",
    ),
    (
        "run",
        ACCOUNT + "".join(f"account,{number},0\n" for number in range(1001, 2001)) + SCRIPT,
        f"setup row 1002: TooManyRows\nline 1005 of the input: account,2000,0\nat most 10000 rows and 1000 accounts; {MORE}",
    ),
    (
        "run",
        ACCOUNT + SCRIPT + "10,1,busy,,\n" * 1_000_000,
        f"script row 1000002: TooManyRows\nline 1000008 of the input: 10,1,busy,,\nat most 1000000 rows; {MORE}",
    ),
]


def explained(words, text, faults):
    """A row whose fault is named as without the word in front of the command, and is explained behind that."""
    return Row(f"--explain {words}", text, faults=f"prepaid: {faults}", status=1)


def rows():
    for text, line, more in PRICES:
        yield explained(PRICE, text, line + more)
    for setup, script, slip in RUNS:
        yield explained("run", ACCOUNT + setup + SCRIPT + script, slip)
    for text, slip in EMPTY:
        yield explained("run", text, slip)
    for text, more in PARTS:
        yield explained("run", text, f"input: Parts\n{more}")
    for words, table, row, fault, more in ENTRIES:
        line, shown = table.count("\n") + 1, row.splitlines()[0]
        yield explained(words, table + row, f"{fault}\nline {line} of the input: {shown}\n{more}\n")
    for text, line, more in TARIFFS:
        yield explained("quote --called 4930 --at 0", text, line + more)
    for words, text, slip in [*HEADERS, *TOO_MANY]:
        yield explained(words, text, slip)
