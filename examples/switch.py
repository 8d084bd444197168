#!/usr/bin/env python3
"""A switch whose service is killed in the middle of a call: examples/switch.py [PROGRAM [LOG]]

It sends the messages of live.txt one after the other, each with its number, and prints what the two say. When the
caller hangs up the service is killed, and its answer is lost. Started again with --again, it prints that answer once
more. The switch, which can't know whether its message came, sends it again, and goes on.
"""
import argparse
import os
import select
import subprocess

HUNG_UP = 3


def messages():
    """The head of live.txt, and its messages with their numbers."""
    with open(os.path.join(os.path.dirname(__file__), "live.txt"), encoding="ascii") as file:
        head, header, rows = file.read().partition("moment,number,call,from,what,x1,x2,x3,x4\n")
    fields = [row.split(",", 2) for row in rows.splitlines()]
    return head + header, [f"{at},{number},{rest}" for number, (at, _, rest) in enumerate(fields)]


def start(head, program, log, *words):
    """Starts the service. It is ready once it prints its header, whose fifth word is `what`."""
    words, pipe = [program, "serve", "--lines", "--log", log, *words], subprocess.PIPE
    print("start:   ", *words)
    service = subprocess.Popen(words, stdin=pipe, stdout=pipe, text=True, bufsize=1)
    service.stdin.write(head)
    hear(service, "what")
    return service


def say(service, row):
    print("switch:  ", row)
    service.stdin.write(row + "\n")


def hear(service, last):
    """Prints what the service says, up to a row that says this."""
    for row in service.stdout:
        print("service: ", row, end="")
        if row.split(",")[4] == last:
            return


def main():
    asked = argparse.ArgumentParser(description=__doc__, formatter_class=argparse.RawDescriptionHelpFormatter)
    asked.add_argument("program", nargs="?", default="prepaid")
    asked.add_argument("log", nargs="?", default="call.log")
    words = asked.parse_args()
    if os.path.exists(words.log):
        asked.error(f"{words.log} is there already")
    head, rows = messages()
    service = start(head, words.program, words.log)
    for number, row in enumerate(rows):
        say(service, row)
        if number == HUNG_UP:
            select.select([service.stdout], [], [])  # the answer is on its way
            service.kill()
            service.wait()
            service = start(head, words.program, words.log, "--again", str(number))
            hear(service, "Continue")
            say(service, row)
            hear(service, "fault")
        else:
            # a switch waits for instructions after an InitialDP
            hear(service, "Continue" if "InitialDP" in row else row.split(",")[4])
    print(service.communicate()[0], end="")


if __name__ == "__main__":
    main()
