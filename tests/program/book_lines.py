"""Worked books: the lines of their accounts and calls, and the table that is printed of each kind of entry."""
from rows import Row, run_input
from traces import HEADER

BOOK = "account,seat,op,call,x1,x2,x3,x4,x5,x6,x7,reply,y1,y2,y3\n"

# One account with a call.
ONE_ACCOUNT = """\
7,,opening,,1500,,,,,,,,,,
7,1,reserve,1,50,1000,,600,50,0,0,granted,600,more,450
7,1,settle,1,2,n,300,,,,,settled,550,,450
7,1,return,1,,,,,,,,returned,550,,950
"""
ONE_ACCOUNT_LINES = """\
account 7 opening 1500 available 950 entries 3
call 1 account 7 paid 550 returned
"""

# Several accounts, of which two have a call of the same number.
SEVERAL_ACCOUNTS = """\
1,,opening,,1500,,,,,,,,,,
1,1,reserve,1,50,1000,400,600,50,0,0,granted,600,more,450
1,0,reserve,2,50,1000,400,600,50,0,0,granted,240,last,0
3,,opening,,1500,,,,,,,,,,
3,0,credit,,600,,,,,,,credited,,,2100
3,0,reserve,2,50,1000,400,600,50,0,0,granted,600,more,1050
3,1,settle,2,4,s,600,,,,,settled,450,,1050
3,0,return,2,,,,,,,,returned,450,,1650
9,,opening,,1500,,,,,,,,,,
9,0,reserve,1,50,1000,400,600,50,0,0,granted,600,more,450
9,0,settle,1,0,n,700,,,,,forfeit,1050,,450
9,0,reserve,1,50,1000,400,600,50,0,0,denied,,,450
9,0,return,1,,,,,,,,returned,1050,,450
12,,opening,,1600,,,,,,,,,,
12,1,reserve,7,50,1000,400,900,50,0,0,granted,900,more,50
12,1,settle,7,2,s,200,502,,,,settled,1020,,50
12,1,return,7,,,,,,,,returned,1020,,580
13,,opening,,1000000000000000,,,,,,,,,,
13,0,credit,,1,,,,,,,over,,,1000000000000000
"""
SEVERAL_ACCOUNTS_LINES = """\
account 1 opening 1500 available 0 entries 2
account 3 opening 1500 available 1650 entries 4
account 9 opening 1500 available 450 entries 4
account 12 opening 1600 available 580 entries 3
account 13 opening 1000000000000000 available 1000000000000000 entries 1
call 1 account 1 paid 0 holding
call 1 account 9 paid 1050 forfeit
call 2 account 1 paid 0 holding
call 2 account 3 paid 450 returned
call 7 account 12 paid 1020 returned
"""

# Books, and the lines that are printed of them.
LINED = [("", ""), (ONE_ACCOUNT, ONE_ACCOUNT_LINES), (SEVERAL_ACCOUNTS, SEVERAL_ACCOUNTS_LINES)]

# A cheaper rate counts from a minute after midnight on.
TARIFF = "49,00:00,50,1000\n49,00:01,0,400\n"
# An account for each of the histories above, and one of 100; each with a subscriber.
SETUP = """\
account,1,1500
account,3,1500
account,9,1500
account,13,1000000000000000
account,14,100
subscriber,1,1
subscriber,3,3
subscriber,9,9
subscriber,14,14
"""
# Messages by which their histories come about once more, in one seat. The report of call 3 says that it was answered after
# the switch, that of call 4 says more than was granted.
MESSAGES = """\
0,,1,switch,InitialDP,1,4930,,
0,,2,switch,InitialDP,1,4930,,
0,,,operator,Recharge,3,600,,
0,,3,switch,InitialDP,3,4930,,
0,,3,switch,ApplyChargingReport,inactive,s,600,
0,,4,switch,InitialDP,9,4930,,
0,,4,switch,ApplyChargingReport,inactive,n,700,
0,,,operator,Recharge,13,1,,
0,,5,switch,InitialDP,14,4930,,
"""
MESSAGES_BOOK = """\
1,,opening,,1500,,,,,,,,,,
1,0,reserve,1,50,1000,400,600,50,0,0,granted,600,more,450
1,0,reserve,2,50,1000,400,600,50,0,0,granted,240,last,0
3,,opening,,1500,,,,,,,,,,
3,0,credit,,600,,,,,,,credited,,,2100
3,0,reserve,3,50,1000,400,600,50,0,0,granted,600,more,1050
3,0,settle,3,4,s,600,,,,,settled,450,,1050
3,0,return,3,,,,,,,,returned,450,,1650
9,,opening,,1500,,,,,,,,,,
9,0,reserve,4,50,1000,400,600,50,0,0,granted,600,more,450
9,0,settle,4,6,n,700,,,,,forfeit,1050,,450
9,0,return,4,,,,,,,,returned,1050,,450
13,,opening,,1000000000000000,,,,,,,,,,
13,0,credit,,1,,,,,,,over,,,1000000000000000
14,,opening,,100,,,,,,,,,,
14,0,reserve,5,50,1000,400,600,50,0,0,denied,,,100
"""
MESSAGES_LINES = """\
account 1 opening 1500 available 0 entries 2
account 3 opening 1500 available 1650 entries 4
account 9 opening 1500 available 450 entries 3
account 13 opening 1000000000000000 available 1000000000000000 entries 1
account 14 opening 100 available 100 entries 1
call 1 account 1 paid 0 holding
call 2 account 1 paid 0 holding
call 3 account 3 paid 450 returned
call 4 account 9 paid 1050 forfeit
"""

# The account 12 above, by a script.
SWITCHED_SETUP = "account,12,1600\nsubscriber,491700001,12\n"
SWITCHED = "0,7,start,491700001,4930\n100,7,answer,,\n802,7,disconnect,1,\n"
SWITCHED_BOOK = """\
12,,opening,,1600,,,,,,,,,,
12,1,reserve,7,50,1000,400,900,50,0,0,granted,900,more,50
12,1,settle,7,2,s,200,502,,,,settled,1020,,50
12,1,return,7,,,,,,,,returned,1020,,580
"""

# What the service says to those messages.
SAID = """\
0,0,1,switch,InitialDP,1,4930,,
0,0,1,service,RequestReportBCSMEvent,,,,
0,0,1,service,ApplyCharging,600,60,,
0,0,1,service,Continue,,,,
0,1,2,switch,InitialDP,1,4930,,
0,1,2,service,RequestReportBCSMEvent,,,,
0,1,2,service,ApplyCharging,240,60,release,
0,1,2,service,Continue,,,,
0,2,,operator,Recharge,3,600,,
0,3,3,switch,InitialDP,3,4930,,
0,3,3,service,RequestReportBCSMEvent,,,,
0,3,3,service,ApplyCharging,600,60,,
0,3,3,service,Continue,,,,
0,4,3,switch,ApplyChargingReport,inactive,s,600,
0,5,4,switch,InitialDP,9,4930,,
0,5,4,service,RequestReportBCSMEvent,,,,
0,5,4,service,ApplyCharging,600,60,,
0,5,4,service,Continue,,,,
0,6,4,switch,ApplyChargingReport,inactive,n,700,
0,7,,operator,Recharge,13,1,,
0,8,5,switch,InitialDP,14,4930,,
0,8,5,service,ReleaseCall,21,,,
%%
"""


def rows():
    for book, lines in LINED:
        yield Row("audit --lines", BOOK + book, lines)
    messages = f"prefix,from,fee,rate\n{TARIFF}%%\nkind,key,value\n{SETUP}%%\n{HEADER}{MESSAGES}"
    yield Row("serve --book", messages, HEADER + SAID + BOOK + MESSAGES_BOOK)
    yield Row("serve --lines", messages, HEADER + SAID + MESSAGES_LINES)
    switched = run_input(TARIFF, SWITCHED_SETUP, SWITCHED)
    yield Row("run --wanted 900 --book", switched, BOOK + SWITCHED_BOOK)
    yield Row("run --book", run_input("", "", ""), BOOK)
