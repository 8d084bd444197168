"""A history that is full: what the service says to calls that ask their account for more, the records of calls, and what
a run says."""
from calls import HEADER as CALLS_HEADER
from rows import BAND, Row, run_input
from served import HEAD
from traces import GRANTED, HEADER

# The most entries of a history, and how many recharges leave it the room for what two calls come to, of which one is
# granted a second period: three reserves, three settles and two returns.
MOST = 1_000_000
RECHARGES = MOST - 8
RECHARGE = "operator,Recharge,7,1,,"

# What comes behind these recharges, each with its call and what the service says to it.
BEHIND = [
    ("1", "switch,ApplyChargingReport,active,n,600,", ["ApplyCharging,600,,,"]),
    ("", RECHARGE, ["refused,HistoryFull,,,"]),
    ("3", "switch,ApplyChargingReport,active,n,600,", ["ReleaseCall,41,,,", "refused,HistoryFull,,,"]),
    ("2", "switch,InitialDP,491700001,4930,,", ["ReleaseCall,41,,,", "refused,HistoryFull,,,"]),
    ("1", "switch,ApplyChargingReport,inactive,n,900,", []),
    ("1", "switch,Ended,,,,", []),
    ("2", "switch,Ended,,,,", []),
    ("3", "switch,Ended,,,,", []),
    ("", RECHARGE, ["refused,HistoryFull,,,"]),
]

# The records: 900 units cost 1550, and 600 cost 1050.
CALLS = """\
1,491700001,4930,7,49,0,,0,900,0,1550,released
2,491700001,4930,7,49,0,,0,0,0,0,refused
3,491700001,4930,7,49,0,,0,600,0,1050,released
"""


def messages():
    """The messages, each with its call and what the service says to it."""
    granted = [row.split(",", 4)[4] for row in GRANTED.splitlines()[1:]]
    yield "1", "switch,InitialDP,491700001,4930,,", granted
    yield "", "operator,Recharge,7,600,,", []
    yield "3", "switch,InitialDP,491700001,4930,,", granted
    for _ in range(RECHARGES - 1):
        yield "", RECHARGE, []
    yield from BEHIND


def served():
    """The messages, and what is said to each."""
    lines, printed = [], []
    for number, (call, said, answered) in enumerate(messages()):
        lines.append(f"0,,{call},{said}\n")
        printed.append(f"0,{number},{call},{said}\n")
        printed.extend(f"0,{number},{call},service,{answer}\n" for answer in answered)
    return Row("serve --calls", HEAD + HEADER + "".join(lines), f"{HEADER}{''.join(printed)}%%\n{CALLS_HEADER}{CALLS}")


def played():
    """A call for whose three entries there is one place too few, and a recharge of nothing."""
    setup, recharges = "account,7,0\nsubscriber,491700001,7\n", "0,,recharge,7,1\n" * (MOST - 2)
    text = run_input(BAND, setup, f"{recharges}0,1,start,491700001,4930\n0,,recharge,7,0\n")
    line = f"account 7 opening 0 available {MOST - 2} entries {MOST - 2}\n"
    return Row("run --workers 1", text, line, "prepaid: refused: 1 OutOfRange, 1 HistoryFull\n")


def traced():
    """A call that is released, since its account has only room for what it owes the call, and one that has no room to
    begin. The script has as many rows as it may have."""
    setup, recharges = "account,7,2100\nsubscriber,491700001,7\n", MOST - 4
    behind = "100,1,answer,,\n800,,recharge,7,1\n900,2,start,491700001,4930\n"
    script = "0,1,start,491700001,4930\n" + "9,,recharge,7,1\n" * recharges + behind
    said = [f"9,{number},,{RECHARGE}\n" for number in range(1, recharges + 1)]
    number = recharges + 1
    late = f"""\
100,{number},1,switch,EventReportBCSM,answer,,notify,
700,{number + 1},1,switch,ApplyChargingReport,active,n,600,
700,{number + 1},1,service,ReleaseCall,41,,,
700,{number + 1},1,service,refused,HistoryFull,,,
702,{number + 2},1,switch,Ended,,,,
800,{number + 3},,{RECHARGE}
900,{number + 4},2,switch,InitialDP,491700001,4930,,
900,{number + 4},2,service,ReleaseCall,41,,,
900,{number + 4},2,service,refused,HistoryFull,,,
902,{number + 5},2,switch,Ended,,,,
"""
    trace = f"{HEADER}{GRANTED}{''.join(said)}{late}"
    return Row("run --workers 1 --trace", run_input(BAND, setup, script), trace, "prepaid: refused: 2 HistoryFull\n")


def rows():
    yield served()
    yield played()
    yield traced()
