"""The service on a pipe: what `serve` prints of messages, and what it refuses."""
import re

from rows import ACCOUNT, BAND, Row, refused
from traces import GRANTED, HEADER

# A tariff and a setup, each with its line `%%`.
HEAD = f"prefix,from,fee,rate\n{BAND}%%\nkind,key,value\n{ACCOUNT}%%\n"

# The messages of a call: a minute is granted, and half of it is talked.
CALL = """\
0,,1,switch,InitialDP,491700001,4930,,
100,,1,switch,EventReportBCSM,answer,,notify,
400,,1,switch,ApplyChargingReport,inactive,n,300,
400,,1,switch,EventReportBCSM,disconnect,1,interrupted,
402,,1,switch,Ended,,,,
"""

# What is printed of them.
ANSWERED = """\
0,0,1,switch,InitialDP,491700001,4930,,
0,0,1,service,RequestReportBCSMEvent,,,,
0,0,1,service,ApplyCharging,600,,,
0,0,1,service,Continue,,,,
100,1,1,switch,EventReportBCSM,answer,,notify,
400,2,1,switch,ApplyChargingReport,inactive,n,300,
400,3,1,switch,EventReportBCSM,disconnect,1,interrupted,
400,3,1,service,Continue,,,,
402,4,1,switch,Ended,,,,
"""

# Words, and what is printed behind the rows.
ENDS = [
    ("serve", ""),
    ("serve --lines", "%%\naccount 7 opening 1500 available 950 entries 3\ncall 1 account 7 paid 550 returned\n"),
    (
        "serve --book",
        "%%\naccount,seat,op,call,x1,x2,x3,x4,x5,x6,x7,reply,y1,y2,y3\n7,,opening,,1500,,,,,,,,,,\n"
        "7,0,reserve,1,50,1000,,600,50,0,0,granted,600,more,450\n"
        "7,0,settle,1,2,n,300,,,,,settled,550,,450\n7,0,return,1,,,,,,,,returned,550,,950\n",
    ),
    (
        "serve --calls",
        "%%\ncall,calling,called,account,prefix,start,answer,end,before,after,paid,outcome\n"
        "1,491700001,4930,7,49,0,100,402,300,0,550,ended\n",
    ),
]

# Of a call that is answered, how much it has asked for, what it says then, and what its record has behind its answer. A
# grant of 900 is cut to 870, which are the last.
TALKED = [
    (900, "970,,1,switch,ApplyChargingReport,inactive,n,870,\n970,,1,switch,Ended,,,,\n", "970,870,0,1500,cut"),
    (900, "200,,1,switch,ApplyChargingReport,inactive,n,100,\n200,,1,switch,Ended,,,,\n", "200,100,0,217,released"),
    (600, "700,,1,switch,ApplyChargingReport,inactive,n,600,\n700,,1,switch,Ended,,,,\n", "700,600,0,1050,released"),
    # the first message of each kind counts
    (
        600,
        "110,,1,switch,InitialDP,4917,33,,\n120,,1,switch,EventReportBCSM,answer,,notify,\n"
        "400,,1,switch,ApplyChargingReport,inactive,n,300,\n400,,1,switch,EventReportBCSM,disconnect,1,interrupted,\n"
        "402,,1,switch,Ended,,,,\n500,,1,switch,Ended,,,,\n",
        "402,300,0,550,ended",
    ),
    # an event that is a stray counts too
    (
        600,
        "400,,1,switch,ApplyChargingReport,inactive,n,300,\n400,,1,switch,EventReportBCSM,disconnect,1,interrupted,\n"
        "402,,1,switch,Ended,,,,\n500,,1,switch,EventReportBCSM,busy,,notify,\n",
        "402,300,0,550,busy",
    ),
]

# What a call meets before its answer, and the outcome of its record.
MET = [("busy", "busy"), ("noAnswer", "noanswer"), ("routeSelectFailure", "routefail"), ("abandon", "abandoned")]

# The first message without its LF.
FIRST = "0,,1,switch,InitialDP,491700001,4930,,"

# Lines that are no messages there, and their faults.
BAD = [
    ("x", "Csv"),
    ("%%", "Csv"),
    ("0,,1,switch,Ended,,,", "Csv"),
    ('0,,1,switch,Ended,,,,"', "Empty"),
    ("\0", "Csv"),
    ("0,,1,switch,Ringing,,,,", "What"),
    ("0,,1,service,Continue,,,,", "What"),
    ("0,,1,switch,EventReportBCSM,answer,,seen,", "What"),
    ("0,,1,switch,ApplyChargingReport,active,x,1,", "What"),
    ("-1,,1,switch,Ended,,,,", "Number"),
    ("0,,x,switch,Ended,,,,", "Number"),
    ("0,,1,switch,InitialDP,4917a,4930,,", "Number"),
    ("0,,1,switch,EventReportBCSM,disconnect,3,notify,", "Number"),
    ("0,,1,switch,Ended,,,,x", "Empty"),
    ("0,2,1,switch,Ended,,,,", "Order"),
    ("2000000000001,,1,switch,Ended,,,,", "Number"),
    ("0,0,1,switch,InitialDP,491700001,4930,,", "Repeated"),
]

# Ends of the header and of the first message.
LINE_ENDS = [
    ("\n", "\n"),
    ("\r\n", "\r\n"),
    ("\n", ""),
    ("\n", "\n\n\n"),
    ("\r\n", "\n\r\n"),
]

# What is behind the setup and isn't the header.
NO_HEADERS = [
    "",
    "\n",
    "0,,1,switch,Ended,,,,\n",
    "moment,call,what,x,y\n",
    "moment,number,call,from,what,x1,x2,x3,x4 \n",
    "moment,number,call,from,what,x1,x2,x3,x4\r",
    "\nmoment,number,call,from,what,x1,x2,x3,x4\n",
    '"moment",number,call,from,what,x1,x2,x3,x4\n',
]

# Inputs that are refused before their header, and their faults, which are those of `run`.
REFUSED = [
    ("", "input: Parts"),
    ("prefix,from,fee,rate\n", "input: Parts"),
    ("prefix,from,fee\n%%\nkind,key,value\n", "input: Parts"),
    ("%%\nkind,key,value\n%%\n", "tariff row 1: Header"),
    ("prefix,from,fee,rate\n49,01:00,1,1\n%%\n%%", "tariff row 2: NoMidnightBand"),
    ("prefix,from,fee,rate\n%%\n%%\nmoment", "setup row 1: Header"),
    ("prefix,from,fee,rate\n%%\r\nkind,key,value\naccount,7,x\n%%\n", "setup row 2: Number"),
    ("prefix,from,fee,rate\n%%\nkind,key,value\nsubscriber,49,7\n%%\nx\n", "setup row 2: Unknown"),
    ("prefix,from,fee,rate\n%%\nkind,key,value\n%%\nx\n", "messages row 1: Header"),
]

# Words that are refused whatever the input, and their faults.
WORDS = [
    ("serve --lines --book", "arguments"),
    ("serve --calls --book", "arguments"),
    ("serve --trace", "arguments"),
    ("serve --workers 1", "arguments"),
    ("serve --wanted 60s", "arguments"),
    ("serve --wanted 49", "input: Config"),
    ("serve --tccd 0", "input: Config"),
    ("serve --least 601", "input: Config"),
    ("serve --wanted 99999999999", "input: Config"),
]


def input_of(messages):
    """Behind the head, the header and these rows."""
    return HEAD + HEADER + messages


def answers():
    """What is printed of a call and behind it, and of a bad line: that changes nothing, and the messages round it are answered
    as if it weren't there."""
    for words, end in ENDS:
        yield Row(words, input_of(CALL), HEADER + ANSWERED + end)
    for line, kind in BAD:
        text = input_of(f"{FIRST}\n{line}\n9,1,1,switch,Ended,,,,\n")
        yield Row("serve", text, f"{HEADER}{GRANTED},,,service,fault,{kind},3,,\n9,1,1,switch,Ended,,,,\n")
    # an Ended of a call that hasn't begun changes nothing, and a call that is over begins no more
    early, late = "0,{},1,switch,Ended,,,,\n", "402,{},1,switch,InitialDP,491700001,4930,,\n"
    printed = f"{early}0,{{}},1,service,stray,,,,\n".format(0, 0) + GRANTED.replace("0,0,1,", "0,1,1,")
    yield Row("serve", input_of(f"{early.format('')}{FIRST}\n"), HEADER + printed)
    printed = f"{ANSWERED}{late}402,{{}},1,service,stray,,,,\n".format(5, 5)
    yield Row("serve", input_of(CALL + late.format("")), HEADER + printed)
    for wanted, more, record in TALKED:
        text = input_of(f"{FIRST}\n100,,1,switch,EventReportBCSM,answer,,notify,\n{more}")
        said = re.compile(f"(?s).*%%\n.*outcome\n1,491700001,4930,7,49,0,100,{record}\n".encode())
        yield Row(f"serve --wanted {wanted} --calls", text, said)
    for event, outcome in MET:
        text = input_of(f"{FIRST}\n50,,1,switch,EventReportBCSM,{event},,notify,\n50,,1,switch,Ended,,,,\n")
        yield Row("serve --calls", text, re.compile(f"(?s).*outcome\n1,491700001,4930,7,49,0,,50,0,0,0,{outcome}\n".encode()))
    asked = GRANTED.replace("ApplyCharging,600", "ApplyCharging,120")
    yield Row("serve --wanted 120 --least 60 --tccd 60", input_of(f"{FIRST}\n"), HEADER + asked)


def ends_of_lines():
    """A line is taken by each of its ends."""
    header = HEADER.removesuffix("\n")
    for behind, end in LINE_ENDS:
        yield Row("serve", HEAD + header + behind + FIRST + end, HEADER + GRANTED)
    for end in ["", "\n", "\r\n"]:
        yield Row("serve", HEAD + header + end, HEADER)


def rows():
    yield from answers()
    yield from ends_of_lines()
    for text, fault in REFUSED:
        yield refused("serve --lines", text, fault)
    for text in NO_HEADERS:
        yield refused("serve", HEAD + text, "messages row 1: Header")
    for words, fault in WORDS:
        yield refused(words, "", fault)
