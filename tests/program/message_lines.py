"""Lines of messages, each judged by itself: what `serve` prints of them."""
from rows import Row
from served import HEAD
from traces import GRANTED, HEADER

# Lines that say nothing, for what their row lacks.
BAD = [
    (b"0,0,1,switch,Ended,,,\n", "Csv"),
    (b"0,0,1,switch,Ended,,,,,\n", "Csv"),
    (b'0,0,1,switch,"Ended,,,,\n', "Csv"),
    (b"0,0,1,switch,Ended,,,,\r0,1,1,switch,Ended,,,,\n", "Csv"),
    (b"%%\n", "Csv"),
    (b"0,0,1,switch,Ended\x7f,,,,\n", "What"),
    (b"0,0,1,switch,Ended\xef,,,,\n", "What"),
    (b"0,0,1,service,Continue,,,,\n", "What"),
    (b"0,0,1,operator,Ended,,,,\n", "What"),
    (b"0,0,,switch,Recharge,7,1,,\n", "What"),
    (b"x,0,1,switch,EventReportBCSM,hangup,,notify,\n", "What"),
    (b"0,0,1,switch,EventReportBCSM,answer,,Notify,\n", "What"),
    (b"0,0,1,switch,ApplyChargingReport,over,n,1,\n", "What"),
    (b"0,0,1,switch,ApplyChargingReport,active,x,1,\n", "What"),
    (b",0,1,switch,Ended,,,,\n", "Number"),
    (b"2000000000001,0,1,switch,Ended,,,,\n", "Number"),
    (b"8307-10-01T19:33:20.1,0,1,switch,Ended,,,,\n", "Number"),
    (b"1970-02-30T00:00:00,0,1,switch,Ended,,,,\n", "Number"),
    (b"0,-1,1,switch,Ended,,,,\n", "Number"),
    (b"0,0,,switch,Ended,,,,\n", "Number"),
    (b"0,0,18446744073709551616,switch,Ended,,,,\n", "Number"),
    (b"0,0,1,switch,InitialDP,1234567890123456,4930,,\n", "Number"),
    (b"0,0,1,switch,InitialDP,491700001,1234567890123456,,\n", "Number"),
    (b"0,0,1,switch,InitialDP,,4930,,\n", "Number"),
    (b"0,0,1,switch,EventReportBCSM,disconnect,0,notify,\n", "Number"),
    (b"0,0,1,switch,EventReportBCSM,disconnect,3,notify,\n", "Number"),
    (b"0,0,1,switch,ApplyChargingReport,active,n,864001,\n", "Number"),
    (b"0,0,1,switch,ApplyChargingReport,active,s,864001,\n", "Number"),
    (b"0,0,1,switch,ApplyChargingReport,active,s,1,0\n", "Number"),
    (b"0,0,1,switch,ApplyChargingReport,active,s,1,864001\n", "Number"),
    (b"0,0,,operator,Recharge,4294967296,1,,\n", "Number"),
    (b"0,0,,operator,Recharge,7,1000000000000001,,\n", "Number"),
    (b"0,0,,operator,Recharge,7,1,1000000000001,\n", "Number"),
    (b"0,0,1,switch,InitialDP,491700001,4930,1,\n", "Empty"),
    (b"0,0,1,switch,InitialDP,491700001,4930,,1\n", "Empty"),
    (b"0,0,1,switch,EventReportBCSM,answer,,notify,1\n", "Empty"),
    (b"0,0,,operator,Recharge,7,1,,1\n", "Empty"),
    (b"0,0,1,switch,ApplyChargingReport,active,n,1,1\n", "Empty"),
    (b"0,0,1,operator,Recharge,7,1,,\n", "Empty"),
    # as a number it is read, and it isn't the next
    (b"1,18446744073709551615,,operator,Recharge,4294967295,1000000000000000,1000000000000,\n", "Order"),
    (b"1,18446744073709551616,,operator,Recharge,4294967295,1000000000000000,1000000000000,\n", "Number"),
]

# How many messages come before a line that is accepted, this line, and how it is printed again. No call is there, nor the
# account 4294967295, so each is a stray.
GOOD = [
    (0, b"2000000000000,,1,switch,Ended,,,,\r\n", "2000000000000,0,1,switch,Ended,,,,"),
    (2, b"1,2,1,switch,EventReportBCSM,answer,,notify,\n", "1,2,1,switch,EventReportBCSM,answer,,notify,"),
    (2, b"1,2,1,switch,EventReportBCSM,disconnect,2,interrupted,", "1,2,1,switch,EventReportBCSM,disconnect,2,interrupted,"),
    (2, b"1,2,1,switch,EventReportBCSM,noAnswer,1,transparent,\n", "1,2,1,switch,EventReportBCSM,noAnswer,1,transparent,"),
    (2, b"1,2,1,switch,EventReportBCSM,busy,,notify,\n", "1,2,1,switch,EventReportBCSM,busy,,notify,"),
    (
        2,
        b"1,2,1,switch,EventReportBCSM,routeSelectFailure,,notify,\n",
        "1,2,1,switch,EventReportBCSM,routeSelectFailure,,notify,",
    ),
    (2, b"1,2,1,switch,EventReportBCSM,abandon,,notify,\n", "1,2,1,switch,EventReportBCSM,abandon,,notify,"),
    (2, b"1,2,1,switch,EventReportBCSM,collectedInfo,,notify,\n", "1,2,1,switch,EventReportBCSM,collectedInfo,,notify,"),
    (2, b"1,2,1,switch,ApplyChargingReport,inactive,n,864000,\n", "1,2,1,switch,ApplyChargingReport,inactive,n,864000,"),
    (2, b"1,2,1,switch,ApplyChargingReport,active,s,0,864000\n", "1,2,1,switch,ApplyChargingReport,active,s,0,864000"),
    (2, b"1,2,1,switch,ApplyChargingReport,active,s,864000,1\n", "1,2,1,switch,ApplyChargingReport,active,s,864000,1"),
    (2, b"1,2,18446744073709551615,switch,Ended,,,,\n", "1,2,18446744073709551615,switch,Ended,,,,"),
    (
        0,
        b"1,,,operator,Recharge,4294967295,1000000000000000,1000000000000,\n",
        "1,0,,operator,Recharge,4294967295,1000000000000000,1000000000000,",
    ),
    (5, b'0,"5",1,"switch",Ended,,"",,\n', "0,5,1,switch,Ended,,,,"),
    (6, b"\xef\xbb\xbf0,6,1,switch,Ended,,,,\n", "0,6,1,switch,Ended,,,,"),
    (3, b"8307-10-01 19:33:20,3,1,switch,Ended,,,,\n", "2000000000000,3,1,switch,Ended,,,,"),
    (
        4,
        b"1970-01-01T00:00:00.1,4,,operator,Recharge,4294967295,1000000000000000,5138-11-16 09:46:40,\n",
        "1,4,,operator,Recharge,4294967295,1000000000000000,1000000000000,",
    ),
]

# A message that starts a call.
FIRST = b"0,0,1,switch,InitialDP,491700001,4930,,\n"

# The longest lines, of x alone without an LF, what is behind them, and their faults.
LONG = [
    (4095, "\n", "Csv"),
    (4096, "\n", "TooLong"),
    (8192, "\n", "TooLong"),
    (4095, "", "Csv"),
    (4096, "", "TooLong"),
]


def stray(row):
    """A row of a message, and the one that says it is a stray."""
    moment, number, call = row.split(",")[:3]
    return f"{row}\n{moment},{number},{call},service,stray,,,,\n"


def rows():
    front = HEAD + HEADER
    head = front.encode()
    for line, kind in BAD:
        yield Row("serve", head + line, f"{HEADER},,,service,fault,{kind},2,,\n")
    for count, line, printed in GOOD:
        before = "".join(stray(f"0,{number},9,switch,Ended,,,,") for number in range(count))
        yield Row("serve", head + b"0,,9,switch,Ended,,,,\n" * count + line, HEADER + before + stray(printed))
    yield Row("serve", head + FIRST, HEADER + GRANTED)
    last = "2000000000000,0,1,"
    first = f"{last}switch,InitialDP,491700001,4930,,\n"
    yield Row("serve", f"{front}{first}", HEADER + GRANTED.replace("0,0,1,", last))
    for size, end, kind in LONG:
        rest, said = ("5,,,operator,Recharge,7,500,,\n", "5,0,,operator,Recharge,7,500,,\n") if end else ("", "")
        yield Row("serve", f"{front}{'x' * size}{end}{rest}", f"{HEADER},,,service,fault,{kind},2,,\n{said}")
