"""Scripts that are played: which messages their calls send, in what order, and when the orders of the service come."""
from rows import BAND, Row, run_input
from traces import HEADER

# One account with a subscriber, and credit for two periods of 600 units.
SETUP = "account,7,2100\nsubscriber,491700001,7\n"


def granted(at, number, call, called):
    """What is said where a call starts and is granted 600 units, which are not the last."""
    row = f"{at},{number},{call}"
    return (
        f"{row},switch,InitialDP,491700001,{called},,\n{row},service,RequestReportBCSMEvent,,,,\n"
        f"{row},service,ApplyCharging,600,,,\n{row},service,Continue,,,,\n"
    )


def hung_up(at, number, call, talked, leg):
    """What is said where a call that has talked so long is ended by the party of a leg."""
    return (
        f"{at},{number},{call},switch,ApplyChargingReport,inactive,n,{talked},\n"
        f"{at},{number + 1},{call},switch,EventReportBCSM,disconnect,{leg},interrupted,\n"
        f"{at},{number + 1},{call},service,Continue,,,,\n"
    )


def event(at, number, call, what):
    return f"{at},{number},{call},switch,EventReportBCSM,{what},,notify,\n"


def ended(at, number, call):
    return f"{at},{number},{call},switch,Ended,,,,\n"


def released(at, number, call, said):
    """What is said of a message whose call is then released, as its credit is used up."""
    return f"{at},{number},{call},switch,{said}\n{at},{number},{call},service,ReleaseCall,16,,,\n"


# One call, which the calling party ends.
ONE_CALL = "0,1,start,491700001,4930\n100,1,answer,,\n400,1,disconnect,1,\n"

# A call that talks on, a recharge, and two calls that start at one moment: their orders come once they are given up.
GIVEN_UP = "100,,recharge,7,25\n100,9,start,491700001,4931\n100,8,start,491700001,4932\n"
GIVEN_UP_SAID = (
    "100,0,,operator,Recharge,7,25,,\n"
    + granted(100, 1, 9, 4931)
    + granted(100, 2, 8, 4932)
    + ended(101, 3, 8)
    + ended(101, 4, 9)
)

# The orders come at 2, and so does the called party's answer.
AT_A_DELIVERY = "0,1,start,491700001,4930\n2,1,answer,,\n302,1,disconnect,2,\n"
# Before the orders came, the called party's answer is no event that the call can meet.
BEFORE_A_DELIVERY = "0,1,start,491700001,4930\n1,1,answer,,\n50,1,busy,,\n"
# A call that the service releases, as nobody subscribes its number, beside one that it doesn't.
RELEASED = "0,9,start,491700001,4931\n0,3,start,491700009,4930\n100,9,abandon,,\n"
RELEASED_SAID = (
    granted(0, 0, 9, 4931)
    + "0,1,3,switch,InitialDP,491700009,4930,,\n0,1,3,service,ReleaseCall,21,,,\n"
    + "2,2,3,switch,Ended,,,,\n2,2,3,service,stray,,,,\n"
    + event(100, 3, 9, "abandon")
    + ended(100, 4, 9)
)

# Two calls that start at one moment, are answered at one moment and end at one moment.
TOGETHER = "0,2,start,491700001,4931\n0,1,start,491700001,4930\n100,2,answer,,\n100,1,answer,,\n"
TOGETHER_SAID = (
    granted(0, 0, 2, 4931)
    + granted(0, 1, 1, 4930)
    + event(100, 2, 2, "answer")
    + event(100, 3, 1, "answer")
    + released(700, 4, 1, "ApplyChargingReport,active,n,600,")
    + released(700, 5, 2, "ApplyChargingReport,active,n,600,")
    + ended(702, 6, 1)
    + ended(702, 7, 2)
)

# Two calls whose periods overlap.
OVERLAPPING = (
    "0,1,start,491700001,4930\n10,2,start,491700001,4931\n100,1,answer,,\n150,2,answer,,\n"
    "400,2,disconnect,1,\n500,1,disconnect,2,\n"
)
OVERLAPPING_SAID = (
    granted(0, 0, 1, 4930)
    + granted(10, 1, 2, 4931)
    + event(100, 2, 1, "answer")
    + event(150, 3, 2, "answer")
    + hung_up(400, 4, 2, 250, 1)
    + ended(402, 6, 2)
    + hung_up(500, 7, 1, 400, 2)
    + ended(502, 9, 1)
)

# Options, scripts, and what is said.
PLAYED = [
    ("", ONE_CALL, granted(0, 0, 1, 4930) + event(100, 1, 1, "answer") + hung_up(400, 2, 1, 300, 1) + ended(402, 4, 1)),
    (" --tssf 1", GIVEN_UP, GIVEN_UP_SAID),
    ("", AT_A_DELIVERY, granted(0, 0, 1, 4930) + event(2, 1, 1, "answer") + hung_up(302, 2, 1, 300, 2) + ended(304, 4, 1)),
    ("", BEFORE_A_DELIVERY, granted(0, 0, 1, 4930) + event(50, 1, 1, "busy") + ended(50, 2, 1)),
    ("", RELEASED, RELEASED_SAID),
    ("", TOGETHER, TOGETHER_SAID),
    ("", OVERLAPPING, OVERLAPPING_SAID),
]

# What ends a call before an answer, and how the trace says so.
BEFORE_AN_ANSWER = [("abandon", "abandon"), ("busy", "busy"), ("noanswer", "noAnswer"), ("routefail", "routeSelectFailure")]

# How many workers a run can't have, and one that has as many as there may be.
NO_WORKERS = ["0", "17"]
ALL_WORKERS = "account 7 opening 1500 available 1500 entries 0\naccount 8 opening 1500 available 1500 entries 0\n"


def rows():
    for options, script, said in PLAYED:
        yield Row(f"run --workers 1 --trace{options}", run_input(BAND, SETUP, script), HEADER + said)
    for word, what in BEFORE_AN_ANSWER:
        said = granted(0, 0, 1, 4930) + event(50, 1, 1, what) + ended(50, 2, 1)
        script = f"0,1,start,491700001,4930\n50,1,{word},,\n"
        yield Row("run --workers 1 --trace", run_input(BAND, SETUP, script), HEADER + said)
    accounts = run_input("", "account,7,1500\naccount,8,1500\n", "")
    for workers in NO_WORKERS:
        yield Row(f"run --workers {workers}", accounts, faults="prepaid: run: Workers\n", status=2)
    yield Row("run --workers 16", accounts, ALL_WORKERS)
