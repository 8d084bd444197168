"""Talks with the service: lines that are answered and lines that aren't, a switch that lies, and what has no place."""
from rows import Row
from served import HEAD
from traces import GRANTED, HEADER

# Lines, and what is printed of each. tests/pipe_test.py sees to it that this comes before the next one is sent.
TALK = [
    ("0,,1,switch,InitialDP,491700001,4930,,\n", GRANTED),
    ("\n", ""),
    ("x\n", ",,,service,fault,Csv,4,,\n"),
    ("100,1,1,switch,EventReportBCSM,answer,,notify,\r\n", "100,1,1,switch,EventReportBCSM,answer,,notify,\n"),
    ("100,1,1,switch,EventReportBCSM,answer,,notify,\n", ",,,service,fault,Repeated,6,,\n"),
    ("0,0,1,switch,InitialDP,491700001,4930,,\n", ",,,service,fault,Repeated,7,,\n"),
    ("99,,1,switch,Ended,,,,\n", ",,,service,fault,Order,8,,\n"),
    ("400,3,1,switch,ApplyChargingReport,inactive,n,300,\n", ",,,service,fault,Order,9,,\n"),
    ("400,2,1,switch,ApplyChargingReport,inactive,n,300,\n", "400,2,1,switch,ApplyChargingReport,inactive,n,300,\n"),
    ("400,,1,service,Continue,,,,\n", ",,,service,fault,What,11,,\n"),
    (
        "400,,1,switch,EventReportBCSM,disconnect,1,interrupted,\n",
        "400,3,1,switch,EventReportBCSM,disconnect,1,interrupted,\n400,3,1,service,Continue,,,,\n",
    ),
    ("402,,2,switch,Ended,,,,\n", "402,4,2,switch,Ended,,,,\n402,4,2,service,stray,,,,\n"),
    ("402,,,operator,Recharge,7,500,,\n", "402,5,,operator,Recharge,7,500,,\n"),
    ("402,,1,switch,Ended,,,,", "402,6,1,switch,Ended,,,,\n"),
]

# A call whose switch reports more than was granted, and goes on as if nothing were; what is said to each message.
LIES = [
    ("0,,1,switch,InitialDP,491700001,4930,,\n", GRANTED),
    ("0,,1,switch,EventReportBCSM,answer,,notify,\n", "0,1,1,switch,EventReportBCSM,answer,,notify,\n"),
    (
        "0,,1,switch,ApplyChargingReport,active,n,700,\n",
        "0,2,1,switch,ApplyChargingReport,active,n,700,\n0,2,1,service,ReleaseCall,41,,,\n",
    ),
    (
        "0,,1,switch,ApplyChargingReport,active,n,700,\n",
        "0,3,1,switch,ApplyChargingReport,active,n,700,\n0,3,1,service,stray,,,,\n",
    ),
    (
        "0,,1,switch,EventReportBCSM,disconnect,1,interrupted,\n",
        "0,4,1,switch,EventReportBCSM,disconnect,1,interrupted,\n0,4,1,service,Continue,,,,\n",
    ),
    ("0,,1,switch,Ended,,,,\n", "0,5,1,switch,Ended,,,,\n"),
    ("0,,1,switch,Ended,,,,\n", "0,6,1,switch,Ended,,,,\n0,6,1,service,stray,,,,\n"),
    (
        "0,,1,switch,InitialDP,491700001,4930,,\n",
        "0,7,1,switch,InitialDP,491700001,4930,,\n0,7,1,service,stray,,,,\n",
    ),
]

# What the account knows of that call.
LIES_BOOK = """\
account,seat,op,call,x1,x2,x3,x4,x5,x6,x7,reply,y1,y2,y3
7,,opening,,1500,,,,,,,,,,
7,0,reserve,1,50,1000,,600,50,0,0,granted,600,more,450
7,0,settle,1,2,n,700,,,,,forfeit,1050,,450
7,0,return,1,,,,,,,,returned,1050,,450
"""

# Messages that have no place, of calls and of an account, and a recharge that the account refuses.
STRAYS = [
    ("0,,1,switch,InitialDP,491700001,4930,,\n", GRANTED),
    ("0,,1,switch,ApplyChargingReport,inactive,n,300,\n", "0,1,1,switch,ApplyChargingReport,inactive,n,300,\n"),
    (
        "0,,1,switch,ApplyChargingReport,inactive,n,300,\n",
        "0,2,1,switch,ApplyChargingReport,inactive,n,300,\n0,2,1,service,stray,,,,\n",
    ),
    (
        "0,,1,switch,EventReportBCSM,disconnect,1,interrupted,\n",
        "0,3,1,switch,EventReportBCSM,disconnect,1,interrupted,\n0,3,1,service,Continue,,,,\n",
    ),
    ("0,,1,switch,Ended,,,,\n", "0,4,1,switch,Ended,,,,\n"),
    ("0,,1,switch,Ended,,,,\n", "0,5,1,switch,Ended,,,,\n0,5,1,service,stray,,,,\n"),
    ("0,,3,switch,InitialDP,999,4930,,\n", "0,6,3,switch,InitialDP,999,4930,,\n0,6,3,service,ReleaseCall,21,,,\n"),
    ("0,,,operator,Recharge,9,5,,\n", "0,7,,operator,Recharge,9,5,,\n0,7,,service,stray,,,,\n"),
    ("0,,,operator,Recharge,7,0,,\n", "0,8,,operator,Recharge,7,0,,\n0,8,,service,refused,OutOfRange,,,\n"),
    ("0,,,operator,Recharge,7,5,,\n", "0,9,,operator,Recharge,7,5,,\n"),
]
STRAYS_BOOK = """\
account,seat,op,call,x1,x2,x3,x4,x5,x6,x7,reply,y1,y2,y3
7,,opening,,1500,,,,,,,,,,
7,0,reserve,1,50,1000,,600,50,0,0,granted,600,more,450
7,0,settle,1,1,n,300,,,,,settled,550,,450
7,0,return,1,,,,,,,,returned,550,,950
7,0,credit,,5,,,,,,,credited,,,955
"""

# A call whose line is busy, and a report that comes behind that.
BUSY = [
    ("0,,1,switch,InitialDP,491700001,4930,,\n", GRANTED),
    ("0,,1,switch,EventReportBCSM,busy,,notify,\n", "0,1,1,switch,EventReportBCSM,busy,,notify,\n"),
    (
        "0,,1,switch,ApplyChargingReport,inactive,n,300,\n",
        "0,2,1,switch,ApplyChargingReport,inactive,n,300,\n0,2,1,service,stray,,,,\n",
    ),
]
BUSY_BOOK = """\
account,seat,op,call,x1,x2,x3,x4,x5,x6,x7,reply,y1,y2,y3
7,,opening,,1500,,,,,,,,,,
7,0,reserve,1,50,1000,,600,50,0,0,granted,600,more,450
7,0,return,1,,,,,,,,returned,0,,1500
"""

# A call, a recharge, and a call that is granted a part of that.
RECHARGED = [
    ("0,,1,switch,InitialDP,491700001,4930,,\n", GRANTED),
    ("0,,,operator,Recharge,7,600,,\n", "0,1,,operator,Recharge,7,600,,\n"),
    ("0,,2,switch,InitialDP,491700001,4930,,\n", GRANTED.replace("0,0,1,", "0,2,2,")),
]
RECHARGED_BOOK = """\
account,seat,op,call,x1,x2,x3,x4,x5,x6,x7,reply,y1,y2,y3
7,,opening,,1500,,,,,,,,,,
7,0,reserve,1,50,1000,,600,50,0,0,granted,600,more,450
7,0,credit,,600,,,,,,,credited,,,1050
7,0,reserve,2,50,1000,,600,50,0,0,granted,600,more,0
"""

# A call whose last report passes what was granted, and the record of it.
FORFEITED = """\
0,,1,switch,InitialDP,491700001,4930,,
0,,1,switch,EventReportBCSM,answer,,notify,
0,,1,switch,ApplyChargingReport,inactive,n,700,
0,,1,switch,Ended,,,,
"""
FORFEITED_SAID = """\
0,1,1,switch,EventReportBCSM,answer,,notify,
0,2,1,switch,ApplyChargingReport,inactive,n,700,
0,3,1,switch,Ended,,,,
%%
call,calling,called,account,prefix,start,answer,end,before,after,paid,outcome
1,491700001,4930,7,49,0,0,0,0,0,1050,forfeit
"""


def talked(words, talk, end=""):
    """A talk as one input, and what is printed of it and at its end."""
    lines, printed = map("".join, zip(*talk))
    return Row(words, HEAD + HEADER + lines, HEADER + printed + end)


def rows():
    yield talked("serve", TALK)
    for talk, book in [(LIES, LIES_BOOK), (STRAYS, STRAYS_BOOK), (BUSY, BUSY_BOOK), (RECHARGED, RECHARGED_BOOK)]:
        yield talked("serve --book", talk, f"%%\n{book}")
    yield Row("serve --calls", HEAD + HEADER + FORFEITED, HEADER + GRANTED + FORFEITED_SAID)
