"""Each fault of the table of a script, and what a run makes of each of its words."""
from rows import ACCOUNT, BAND, Row, refused, run_input
from traces import HEADER

# The accounts of the scripts that are judged, and what is printed where no call is a subscriber's.
ACCOUNTS = "account,7,1500\naccount,9,0\n"
LINES = "account 7 opening 1500 available 1500 entries 0\naccount 9 opening 0 available 0 entries 0\n"

# Rows that are taken.
TAKEN = ["", "0,1,start,1,2\n0,1,answer,,\n0,2,start,1,2", "0,1,start,1,2\n5,1,busy,,\n5,1,busy,,"]

# Rows that are refused, and their first fault.
REFUSED = [
    ("0,1,start,1", "row 2: Csv"),
    ("0,1,start,1,2,", "row 2: Csv"),
    ("0,1,begin,1,2", "row 2: What"),
    ("x,x,,x,x", "row 2: What"),
    ("x,1,start,1,2", "row 2: Number"),
    ("1000000000001,1,start,1,2", "row 2: Number"),
    (",1,start,1,2", "row 2: Number"),
    ("0,,start,1,2", "row 2: Number"),
    ("0,18446744073709551616,start,1,2", "row 2: Number"),
    ("0,1,start,,2", "row 2: Number"),
    ("0,1,start,1,1234567890123456", "row 2: Number"),
    ("0,1,answer,x,", "row 2: Empty"),
    ("0,1,answer,,x", "row 2: Empty"),
    ("0,x,answer,x,", "row 2: Number"),
    ("0,1,disconnect,0,", "row 2: Number"),
    ("0,1,disconnect,3,", "row 2: Number"),
    ("0,1,disconnect,,", "row 2: Number"),
    ("0,1,disconnect,1,1", "row 2: Empty"),
    ("0,1,recharge,7,1", "row 2: Empty"),
    ("0,,recharge,7,", "row 2: Number"),
    ("0,,recharge,7,1000000000000001", "row 2: Number"),
    ("0,,recharge,4294967296,1", "row 2: Number"),
    ("5,1,start,1,2\n4,2,start,1,2", "row 3: Order"),
    ("5,1,start,1,2\n4,1,start,1,2", "row 3: Order"),
    ("1970-02-30T00:00:00,1,start,1,2", "row 2: Number"),
    ("1970-01-01T00:00:60,1,start,1,2", "row 2: Number"),
    ("00:00:05,1,start,1,2", "row 2: Number"),
    ("1970-01-01T00:00:05,1,start,1,2\n49,1,answer,,", "row 3: Order"),
    ("5,1,start,1,2\n4,2,answer,,", "row 3: Order"),
    ("5,1,start,1,2\n4,2,answer,1,", "row 3: Empty"),
    ("5,1,start,1,2\n5,1,start,3,4", "row 3: Repeated"),
    ("0,1,answer,,", "row 2: Unknown"),
    ("0,1,start,1,2\n0,2,disconnect,2,", "row 3: Unknown"),
    ("0,,recharge,8,1", "row 2: Unknown"),
    ("0,,recharge,8,x", "row 2: Number"),
    ("0,1,start,491700001,4930\n400,1,disconnect,1,\n100,1,answer,,\n", "row 4: Order"),
]

# Tables without their header.
NO_HEADERS = ["", "moment,call,what,x\n", "moment,call,what,x,Y\n"]

# The last moment that a script may have, and a call that is granted 600 units then.
LAST = 1_000_000_000_000
STARTED = """\
{at},0,3,switch,InitialDP,491700001,4930,,
{at},0,3,service,RequestReportBCSMEvent,,,,
{at},0,3,service,ApplyCharging,600,,,
{at},0,3,service,Continue,,,,
"""

# What a call meets before its answer, and how the trace says so.
BEFORE_AN_ANSWER = [("busy", "busy"), ("noanswer", "noAnswer"), ("routefail", "routeSelectFailure"), ("abandon", "abandon")]

# The greatest values of a script, and a number with zeros in front of it.
GREATEST = (
    "0,18446744073709551615,start,0,123456789012345,\n"
    "0,,recharge,4294967295,1000000000000000,1000000000000\n"
    "0,,recharge,007,0,\n"
)

# What is said of them: the calling number is no subscriber's, and an account refuses a recharge of 0.
GREATEST_SAID = (
    "0,0,18446744073709551615,switch,InitialDP,0,123456789012345,,\n"
    "0,0,18446744073709551615,service,ReleaseCall,21,,,\n"
    "0,1,,operator,Recharge,4294967295,1000000000000000,1000000000000,\n"
    "0,2,,operator,Recharge,7,0,,\n"
    "0,2,,service,refused,OutOfRange,,,\n"
    "2,3,18446744073709551615,switch,Ended,,,,\n"
    "2,3,18446744073709551615,service,stray,,,,\n"
)


def traced(script, said):
    """What is said of rows of a script whose lines end with CR LF, the last one with nothing."""
    script = script.replace("\n", "\r\n").removesuffix("\r\n")
    return Row("run --workers 1 --trace", run_input(BAND, ACCOUNT, script), HEADER + said)


def words():
    """Each word at the last moment."""
    at, talks = LAST - 400, LAST - 300
    start, started = "5,3,start,491700001,4930\n", STARTED.format(at=5)
    for word, event in BEFORE_AN_ANSWER:
        said = f"{LAST},1,3,switch,EventReportBCSM,{event},,notify,\n{LAST},2,3,switch,Ended,,,,\n"
        yield traced(f"{start}{LAST},3,{word},,\n", started + said)
    said = (
        f"{LAST},1,3,switch,EventReportBCSM,answer,,notify,\n"
        f"{LAST + 600},2,3,switch,ApplyChargingReport,active,n,600,\n"
        f"{LAST + 600},2,3,service,ApplyCharging,270,,release,\n"
        f"{LAST + 870},3,3,switch,ApplyChargingReport,inactive,n,870,\n"
        f"{LAST + 870},4,3,switch,Ended,,,,\n"
    )
    yield traced(f"{start}{LAST},3,answer,,\n", started + said)
    for leg in (1, 2):
        said = (
            f"{talks},1,3,switch,EventReportBCSM,answer,,notify,\n"
            f"{LAST},2,3,switch,ApplyChargingReport,inactive,n,300,\n"
            f"{LAST},3,3,switch,EventReportBCSM,disconnect,{leg},interrupted,\n"
            f"{LAST},3,3,service,Continue,,,,\n"
            f"{LAST + 2},4,3,switch,Ended,,,,\n"
        )
        script = f"{at},3,start,491700001,4930\n{talks},3,answer,,\n{LAST},3,disconnect,{leg},\n"
        yield traced(script, STARTED.format(at=at) + said)


def greatest():
    """The greatest values, with a last moment."""
    setup = "kind,key,value\naccount,7,0\naccount,4294967295,0\n"
    text = f"prefix,from,fee,rate\n%%\n{setup}%%\nmoment,call,what,x,y,z\n{GREATEST}"
    yield Row("run --workers 1 --trace", text, HEADER + GREATEST_SAID, "prepaid: refused: 1 OutOfRange\n")


def rows():
    for end in ("", "\n"):
        for script in TAKEN:
            yield Row("run", run_input("", ACCOUNTS, script + end), LINES)
        for script, fault in REFUSED:
            yield refused("run", run_input("", ACCOUNTS, script + end), f"script {fault}")
    for script in NO_HEADERS:
        yield refused("run", f"prefix,from,fee,rate\n%%\nkind,key,value\n%%\n{script}", "script row 1: Header")
    yield from words()
    yield from greatest()
