"""Worked traces."""
from rows import ACCOUNT, BAND, Row, refused, run_input
from runs import TWO_SUBSCRIBERS

HEADER = "moment,number,call,from,what,x1,x2,x3,x4\n"
# What starts a call at 0, and what is said then where 600 units are granted and are not the last.
START = "0,1,start,491700001,4930\n"

GRANTED = """\
0,0,1,switch,InitialDP,491700001,4930,,
0,0,1,service,RequestReportBCSMEvent,,,,
0,0,1,service,ApplyCharging,600,,,
0,0,1,service,Continue,,,,
"""

# Words, rows of the script behind the start, and what is said after the grant.
GOING_ON = [
    (
        "run --trace",
        "100,1,answer,,\n400,1,disconnect,1,\n",
        "100,1,1,switch,EventReportBCSM,answer,,notify,\n"
        "400,2,1,switch,ApplyChargingReport,inactive,n,300,\n"
        "400,3,1,switch,EventReportBCSM,disconnect,1,interrupted,\n"
        "400,3,1,service,Continue,,,,\n"
        "402,4,1,switch,Ended,,,,\n",
    ),
    (
        "run --workers 1 --trace",
        "100,1,answer,,\n400,1,disconnect,2,\n",
        "100,1,1,switch,EventReportBCSM,answer,,notify,\n"
        "400,2,1,switch,ApplyChargingReport,inactive,n,300,\n"
        "400,3,1,switch,EventReportBCSM,disconnect,2,interrupted,\n"
        "400,3,1,service,Continue,,,,\n"
        "402,4,1,switch,Ended,,,,\n",
    ),
    (
        "run --trace",
        "100,1,answer,,\n",
        "100,1,1,switch,EventReportBCSM,answer,,notify,\n"
        "700,2,1,switch,ApplyChargingReport,active,n,600,\n"
        "700,2,1,service,ApplyCharging,270,,release,\n"
        "970,3,1,switch,ApplyChargingReport,inactive,n,870,\n"
        "970,4,1,switch,Ended,,,,\n",
    ),
    (
        "run --trace --least 300",
        "100,1,answer,,\n",
        "100,1,1,switch,EventReportBCSM,answer,,notify,\n"
        "700,2,1,switch,ApplyChargingReport,active,n,600,\n"
        "700,2,1,service,ReleaseCall,16,,,\n"
        "702,3,1,switch,Ended,,,,\n",
    ),
    ("run --trace", "10,1,busy,,\n", "10,1,1,switch,EventReportBCSM,busy,,notify,\n10,2,1,switch,Ended,,,,\n"),
    ("run --trace", "10,1,noanswer,,\n", "10,1,1,switch,EventReportBCSM,noAnswer,,notify,\n10,2,1,switch,Ended,,,,\n"),
    (
        "run --trace",
        "10,1,routefail,,\n",
        "10,1,1,switch,EventReportBCSM,routeSelectFailure,,notify,\n10,2,1,switch,Ended,,,,\n",
    ),
    ("run --trace", "10,1,abandon,,\n", "10,1,1,switch,EventReportBCSM,abandon,,notify,\n10,2,1,switch,Ended,,,,\n"),
    ("run --trace --tssf 1", "100,1,answer,,\n", "1,1,1,switch,Ended,,,,\n"),
    # the service isn't told what becomes of a call whose instructions don't come
    ("run --trace --tssf 1 --default proceed", "100,1,answer,,\n", "1,1,1,switch,Ended,,,,\n"),
    ("run --trace", "1,1,answer,,\n400,1,disconnect,1,\n", ""),
]

# Words, the rows of the tariff, the setup and the script, and what is said.
TRACED = [
    ("run --trace", "", "", "", ""),
    # the tariff switches while the call talks
    (
        "run --wanted 900 --trace",
        "49,00:00,50,1000\n49,00:01,0,400\n",
        "account,7,1600\nsubscriber,491700001,7\n",
        "0,1,start,491700001,4930\n100,1,answer,,\n802,1,disconnect,1,\n",
        "0,0,1,switch,InitialDP,491700001,4930,,\n"
        "0,0,1,service,RequestReportBCSMEvent,,,,\n"
        "0,0,1,service,ApplyCharging,900,60,,\n"
        "0,0,1,service,Continue,,,,\n"
        "100,1,1,switch,EventReportBCSM,answer,,notify,\n"
        "802,2,1,switch,ApplyChargingReport,inactive,s,200,502\n"
        "802,3,1,switch,EventReportBCSM,disconnect,1,interrupted,\n"
        "802,3,1,service,Continue,,,,\n"
        "804,4,1,switch,Ended,,,,\n",
    ),
    # it switches before the call is answered
    (
        "run --trace",
        "49,00:00,50,1000\n49,00:01,0,400\n",
        ACCOUNT,
        "500,1,start,491700001,4930\n700,1,answer,,\n1000,1,disconnect,1,\n",
        "500,0,1,switch,InitialDP,491700001,4930,,\n"
        "500,0,1,service,RequestReportBCSMEvent,,,,\n"
        "500,0,1,service,ApplyCharging,600,10,,\n"
        "500,0,1,service,Continue,,,,\n"
        "700,1,1,switch,EventReportBCSM,answer,,notify,\n"
        "1000,2,1,switch,ApplyChargingReport,inactive,s,300,\n"
        "1000,3,1,switch,EventReportBCSM,disconnect,1,interrupted,\n"
        "1000,3,1,service,Continue,,,,\n"
        "1002,4,1,switch,Ended,,,,\n",
    ),
    # no prefix fits
    (
        "run --trace",
        BAND,
        ACCOUNT,
        "0,1,start,491700001,4430\n100,1,answer,,\n",
        "0,0,1,switch,InitialDP,491700001,4430,,\n"
        "0,0,1,service,ReleaseCall,1,,,\n"
        "2,1,1,switch,Ended,,,,\n",
    ),
    # the calling number is no subscriber's, and the call has no dialogue
    (
        "run --trace",
        BAND,
        ACCOUNT,
        "5,3,start,491700009,4930\n",
        "5,0,3,switch,InitialDP,491700009,4930,,\n"
        "5,0,3,service,ReleaseCall,21,,,\n"
        "7,1,3,switch,Ended,,,,\n"
        "7,1,3,service,stray,,,,\n",
    ),
    # the account has too little
    (
        "run --trace",
        BAND,
        "account,7,100\nsubscriber,491700001,7\n",
        START,
        "0,0,1,switch,InitialDP,491700001,4930,,\n"
        "0,0,1,service,ReleaseCall,21,,,\n"
        "2,1,1,switch,Ended,,,,\n",
    ),
    # two calls of one moment, which two workers serve
    (
        "run --trace",
        BAND,
        TWO_SUBSCRIBERS,
        "0,2,start,491700002,4931\n0,1,start,491700001,4930\n9,1,busy,,\n9,2,noanswer,,\n",
        "0,0,2,switch,InitialDP,491700002,4931,,\n"
        "0,0,2,service,RequestReportBCSMEvent,,,,\n"
        "0,0,2,service,ApplyCharging,510,,release,\n"
        "0,0,2,service,Continue,,,,\n"
        "0,1,1,switch,InitialDP,491700001,4930,,\n"
        "0,1,1,service,RequestReportBCSMEvent,,,,\n"
        "0,1,1,service,ApplyCharging,600,,,\n"
        "0,1,1,service,Continue,,,,\n"
        "9,2,1,switch,EventReportBCSM,busy,,notify,\n"
        "9,3,1,switch,Ended,,,,\n"
        "9,4,2,switch,EventReportBCSM,noAnswer,,notify,\n"
        "9,5,2,switch,Ended,,,,\n",
    ),
    # a number of twenty digits, and parties of one digit and of fifteen
    (
        "run --workers 16 --trace",
        "4,00:00,50,1000\n",
        "account,4294967295,1500\nsubscriber,1,4294967295\n",
        "1000000000000,18446744073709551615,start,1,491701234567890\n",
        "1000000000000,0,18446744073709551615,switch,InitialDP,1,491701234567890,,\n"
        "1000000000000,0,18446744073709551615,service,RequestReportBCSMEvent,,,,\n"
        "1000000000000,0,18446744073709551615,service,ApplyCharging,600,,,\n"
        "1000000000000,0,18446744073709551615,service,Continue,,,,\n",
    ),
]

# A recharge, and one that the account refuses.
RECHARGES = "5,,recharge,7,300\n6,,recharge,7,0\n"

# What is said of them.
RECHARGED = (
    "5,0,,operator,Recharge,7,300,,\n"
    "6,1,,operator,Recharge,7,0,,\n"
    "6,1,,service,refused,OutOfRange,,,\n"
)

# A call and recharges, which two workers serve at one moment; two of them are refused.
BESIDE = "0,,recharge,7,5\n0,,recharge,8,0\n0,,recharge,7,0\n0,1,start,491700001,4930\n"

# What is said of them.
REFUSED_BESIDE = (
    "0,0,,operator,Recharge,7,5,,\n"
    "0,1,,operator,Recharge,8,0,,\n"
    "0,1,,service,refused,OutOfRange,,,\n"
    "0,2,,operator,Recharge,7,0,,\n"
    "0,2,,service,refused,OutOfRange,,,\n"
) + GRANTED.replace("0,0,1,", "0,3,1,")

# A recharge with a last moment.
EXPIRING = "prefix,from,fee,rate\n%%\nkind,key,value\naccount,7,1500\n%%\nmoment,call,what,x,y,z\n5,,recharge,7,300,9000\n"

# A call that is answered a unit before its tariff switch at 602, at it and behind it, and the times that it reports at 702.
ANSWERED_AT = [(601, "100,1"), (602, "100,"), (603, "99,")]

# Words of which only one may be there, and dates and times where there are no moments.
NO_TABLE = [
    "run --trace --calls",
    "run --book --trace",
    "run --book --calls --trace",
    "run --trace --trace",
    "run --clock",
    "run --book --clock",
    "run --trace --clock --clock",
]


def recharges():
    """What is said of recharges, and of their moments as dates and times."""
    yield Row("run --trace", run_input(BAND, ACCOUNT, RECHARGES), HEADER + RECHARGED, "prepaid: refused: 1 OutOfRange\n")
    text = run_input(BAND, TWO_SUBSCRIBERS, BESIDE)
    yield Row("run --trace", text, HEADER + REFUSED_BESIDE, "prepaid: refused: 2 OutOfRange\n")
    yield Row("run --trace", EXPIRING, f"{HEADER}5,0,,operator,Recharge,7,300,9000,\n")
    dates = "1970-01-01T00:00:00.5,0,,operator,Recharge,7,300,1970-01-01T00:15:00.0,\n"
    yield Row("run --trace --clock", EXPIRING, HEADER + dates)


def about_the_switch():
    """What is said of a call that is answered about its switch."""
    for answer, times in ANSWERED_AT:
        text = run_input(f"{BAND}49,00:01,0,400\n", ACCOUNT, f"{START}{answer},1,answer,,\n702,1,disconnect,1,\n")
        said = (
            f"{answer},1,1,switch,EventReportBCSM,answer,,notify,\n702,2,1,switch,ApplyChargingReport,inactive,s,{times}\n"
            "702,3,1,switch,EventReportBCSM,disconnect,1,interrupted,\n702,3,1,service,Continue,,,,\n704,4,1,switch,Ended,,,,\n"
        )
        yield Row("run --trace", text, HEADER + GRANTED.replace("ApplyCharging,600,", "ApplyCharging,600,60") + said)


def rows():
    yield from about_the_switch()
    for words, script, said in GOING_ON:
        yield Row(words, run_input(BAND, ACCOUNT, START + script), HEADER + GRANTED + said)
    for words, tariff, setup, script, said in TRACED:
        yield Row(words, run_input(tariff, setup, script), HEADER + said)
    yield from recharges()
    for words in NO_TABLE:
        yield refused(words, "", "arguments")
