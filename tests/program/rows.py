"""What a row of a test of the program is, and what several modules make rows of."""
import re
from typing import NamedTuple

# What `price` takes in most rows.
PRICE = "price --fee 50 --before 1000"
# One band for called numbers that begin with 49.
BAND = "49,00:00,50,1000\n"
# One account with a subscriber.
ACCOUNT = "account,7,1500\nsubscriber,491700001,7\n"
# A call that is answered after 100 units and lasts 300.
CALL = "0,1,start,491700001,4930\n100,1,answer,,\n400,1,disconnect,1,\n"

# A text of which a row says nothing, and one of which it says only that it isn't empty.
ANYTHING = re.compile(rb"(?s).*")
SOMETHING = re.compile(rb"(?s).+")


class Row(NamedTuple):
    """The words of a command line, the input, and what must come of them: the status, the output and what is on the error
    writer. A text may be bytes, where it isn't UTF-8, and what comes may be a pattern of bytes, which fits all of it."""

    words: str
    input: str | bytes
    output: str | bytes | re.Pattern = ""
    faults: str | bytes | re.Pattern = ""
    status: int = 0


def refused(words, text, fault):
    """A row whose input is refused with this fault of its own."""
    return Row(words, text, faults=f"prepaid: {fault}\n", status=1)


def run_input(tariff, setup, script):
    """An input of a run: tables with these rows below their headers; the tariff has no free units."""
    return f"prefix,from,fee,rate\n{tariff}%%\nkind,key,value\n{setup}%%\nmoment,call,what,x,y\n{script}"
