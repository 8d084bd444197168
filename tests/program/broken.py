"""Inputs that break off, of each command."""
from rows import ACCOUNT, ANYTHING, BAND, CALL, SOMETHING, Row, refused, run_input

# Words, and an input that they take.
INPUTS = [
    ("price --fee 50 --before 1000 --after 400", "before,after\n0,0\n1,0\n600,0\n600,300\n"),
    (
        "replay --opening 1500",
        "seat,op,call,x1,x2,x3,x4,x5\n0,reserve,1,50,1000,400,600,50\n0,settle,1,0,n,300,,\n0,return,1,,,,,\n",
    ),
    ("run", run_input(BAND, ACCOUNT, CALL)),
    (
        "audit",
        "account,seat,op,call,x1,x2,x3,x4,x5,x6,reply,y1,y2,y3\n1,,opening,,1055,,,,,,,,,\n"
        "1,0,reserve,1,50,1000,400,600,50,0,granted,600,more,5\n"
        "1,0,settle,1,0,n,600,,,,settled,1050,,5\n1,0,return,1,,,,,,,returned,1050,,5\n",
    ),
]

# Inputs of `run` that break off, and their first fault.
CUT = [
    (
        "prefix,from,fee,rate\n49,00:00,50,1000\n%%\nkind,key,value\naccount,7,1500\nsubscriber,491700001,7\n",
        "input: Parts",
    ),
    (
        "prefix,from,fee,rate\n49,00:00,50,1000\n%%\nkind,key,value\naccount,7,1500\n"
        "subscriber,491700001,7\n%%\nmoment,call,what,x,y\n0,1,start,49170",
        "script row 2: Csv",
    ),
]


def taken_or_refused(words, text):
    """An input that breaks off is taken, or is named as one fault; nothing else is printed then."""
    return [Row(words, text, ANYTHING), Row(words, text, faults=SOMETHING, status=1)]


def rows():
    for text, fault in CUT:
        yield refused("run", text, fault)
    for words, text in INPUTS:
        for length in range(len(text) + 1):
            yield taken_or_refused(words, text[:length])
