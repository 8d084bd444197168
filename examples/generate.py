#!/usr/bin/env python3
"""Makes an input of `prepaid run` at random: examples/generate.py [--seed N] [--calls N] [--rate N] [--hold N]

So many calls begin at so many an hour, from six in the morning on, and those that are answered talk for so many seconds
on average; both are exponential. One in ten isn't answered. There is an account for each 20 calls, but no more than
1000, each with one subscriber and credit for about half of its calls. A seed makes the same input each time.

An input of more than some 180,000 calls is longer than `prepaid run` takes in one piece: divide.py divides it.
"""
import argparse
import math
import random

HOUR = 36_000
MOST_ACCOUNTS = 1000
PREFIXES = ["49", "4915", "44"]
TARIFF = "prefix,from,fee,rate\n49,00:00,0,200\n49,06:00,50,900\n49,20:00,20,400\n4915,00:00,50,1200\n44,00:00,100,2400\n"


def exponential(chance, mean):
    """A number of this mean. It asks for nothing but `random`, which is the same in each version of Python."""
    return -math.log(1 - chance.random()) * mean


def script(chance, calls, subscribers, rate, hold):
    """The rows of a script, by rising moments."""
    rows, start = [], 6 * HOUR
    for call in range(1, calls + 1):
        start += int(exponential(chance, HOUR / rate))
        calling = subscribers[int(chance.random() * len(subscribers))]
        prefix = PREFIXES[int(chance.random() * len(PREFIXES))]
        called = f"{prefix}{int(chance.random() * 10**7):07}"
        rows.append((start, call, "start", calling, called))
        answer = start + 30 + int(chance.random() * 100)
        if chance.random() < 0.1:
            rows.append((answer, call, "noanswer", "", ""))
        else:
            rows.append((answer, call, "answer", "", ""))
            rows.append((answer + 1 + int(exponential(chance, 10 * hold)), call, "disconnect", 1, ""))
    return sorted(rows, key=lambda row: row[0])


def main():
    asked = argparse.ArgumentParser(description=__doc__, formatter_class=argparse.RawDescriptionHelpFormatter)
    asked.add_argument("--seed", type=int, default=1)
    asked.add_argument("--calls", type=int, default=1000, help="1 to 10000000")
    asked.add_argument("--rate", type=float, default=600, help="calls an hour")
    asked.add_argument("--hold", type=float, default=120, help="seconds of a talk on average")
    words = asked.parse_args()
    if not 1 <= words.calls <= 10_000_000 or words.rate <= 0 or words.hold <= 0:
        asked.error("--calls is 1 to 10000000, --rate and --hold are above 0")
    count = min(words.calls // 20 + 1, MOST_ACCOUNTS)
    accounts, calls_each = range(1, count + 1), max(20, words.calls / count)
    subscribers = [f"4917{account:07}" for account in accounts]
    setup = ["kind,key,value"]
    setup += [f"account,{account},{int(12.5 * words.hold * calls_each)}" for account in accounts]
    setup += [f"subscriber,{digits},{account}" for digits, account in zip(subscribers, accounts)]
    rows = script(random.Random(words.seed), words.calls, subscribers, words.rate, words.hold)
    lines = ["moment,call,what,x,y", *(",".join(map(str, row)) for row in rows)]
    print(TARIFF + "%%\n" + "\n".join(setup) + "\n%%\n" + "\n".join(lines))


if __name__ == "__main__":
    main()
