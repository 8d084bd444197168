#!/usr/bin/env python3
"""Tries `serve`, `rate` and `audit --long` at the other end of a pipe: tests/pipe_test.py [--program FILE]

Each message is sent only once the answers to those before it have come, so a service that held anything back would stop
here. A line of 100 MB is answered in bounded memory, and so are records with a row of 100 MB, many records and a long book.
Where the reader of its output is gone the service ends without a line. socat's line of docs/RECIPES.md is tried on loopback,
where socat is installed.
"""
import argparse
import os
import re
import select
import shutil
import socket
import subprocess
import sys
import threading
import time

ROOT = os.path.dirname(os.path.dirname(os.path.abspath(__file__)))
# What may pass before an answer counts as held back.
SECONDS = 20
HEADER = "moment,number,call,from,what,x1,x2,x3,x4\n"
# The most memory of a service in KiB, whatever a line is: it takes some 3 MiB. That of a rating, whatever a row is.
MOST_MEMORY = 16 * 1024


def live():
    """The head of the example, its messages, and what is printed of each."""
    with open(f"{ROOT}/examples/live.txt", encoding="ascii") as it:
        head, _, rows = it.read().partition(HEADER)
    answers = ["0,0,1,switch,InitialDP,491700001,4930,,\n0,0,1,service,RequestReportBCSMEvent,,,,\n"
               "0,0,1,service,ApplyCharging,600,,,\n0,0,1,service,Continue,,,,\n",
               "100,1,1,switch,EventReportBCSM,answer,,notify,\n",
               "400,2,1,switch,ApplyChargingReport,inactive,n,300,\n",
               "400,3,1,switch,EventReportBCSM,disconnect,1,interrupted,\n400,3,1,service,Continue,,,,\n",
               "402,4,1,switch,Ended,,,,\n"]
    return head, list(zip(rows.splitlines(keepends=True), answers))


def start(program, *words, command="serve"):
    pipes = {it: subprocess.PIPE for it in ("stdin", "stdout", "stderr")}
    return subprocess.Popen([program, command, *words], **pipes)


def come(file, size):
    """So many bytes of a file, or those that came in time."""
    text, end = b"", time.monotonic() + SECONDS
    while len(text) < size and select.select([file], [], [], max(0, end - time.monotonic()))[0]:
        more = os.read(file if isinstance(file, int) else file.fileno(), size - len(text))
        if not more:
            break
        text += more
    return text.decode()


def send(file, text):
    file.write(text.encode())
    file.flush()


def answers_in_turn(program):
    """Each message is answered before the next one is sent, and so is a line that is none."""
    head, talk = live()
    bad = "bad\n", ",,,service,fault,Csv,{line},,\n"
    with start(program, "--lines") as it:
        send(it.stdin, head + HEADER)
        if (said := come(it.stdout, len(HEADER))) != HEADER:
            return f"no header: {said!r}"
        line = 1
        for row, answer in [both for pair in talk for both in (pair, bad)]:
            line += 1
            wanted = answer.format(line=line)
            send(it.stdin, row)
            if (said := come(it.stdout, len(wanted))) != wanted:
                return f"{said!r} in answer to {row!r}"
        text, faults = it.communicate(timeout=SECONDS)
    wanted = "%%\naccount 7 opening 1500 available 950 entries 3\ncall 1 account 7 paid 550 returned\n"
    return None if (text.decode(), faults, it.returncode) == (wanted, b"", 0) else f"{text} {faults} {it.returncode}"


def bounds_memory(program):
    """A line of 100 MB, in front of the header or behind it, is one fault, and memory stays bounded."""
    head, talk = live()
    wrong = []
    for text, wanted in [
        (head + HEADER, (0, HEADER + ",,,service,fault,TooLong,2,,\n" + talk[0][1], "")),
        (head, (1, "", "prepaid: messages row 1: Header\n")),
    ]:
        it = start(program)
        try:
            send(it.stdin, text)
            for _ in range(1000):
                it.stdin.write(b"x" * 100_000)
            send(it.stdin, "\n" + talk[0][0])
            it.stdin.close()
        except BrokenPipeError:
            pass
        said = it.stdout.read().decode(), it.stderr.read().decode()
        _, status, used = os.wait4(it.pid, 0)
        it.returncode = os.waitstatus_to_exitcode(status)
        if (it.returncode, *said) != wanted:
            wrong.append(f"{(it.returncode, *said)} in place of {wanted}")
        if used.ru_maxrss > MOST_MEMORY:
            wrong.append(f"{used.ru_maxrss} KiB of memory")
    return "; ".join(wrong) or None


def most_memory(pid):
    """The most memory that a process has taken so far, in KiB."""
    with open(f"/proc/{pid}/status", encoding="ascii") as it:
        return int(re.search(r"VmHWM:\s*(\d+) kB", it.read())[1])


def rates_long_rows(program):
    """A row of 100 MB is one fault, of which the first 131072 bytes are printed, and memory stays bounded."""
    head = b"prefix,from,fee,rate\n49,00:00,50,1000\n%%\n"
    names, more = b"called,answer,time,note", b",prefix,before,after,price,difference,fault\n"
    row, rated, fault = b"4930,0,600,ok\n", b"4930,0,600,ok,49,600,0,1050,,\n", b",,,,,,TooLong\n"
    # What the long row begins with, a piece of it of 1 MB, and its end; and what is printed of it.
    long_rows = {
        "a long field": (b"4930,0,600,", b"x" * 1_000_000, b"\n" + row, b"4930,0,600," + b"x" * 131_061 + fault + rated),
        "commas": (b"", b"," * 1_000_000, b"\r\n" + row, b"," * 131_072 + fault + rated),
        "quotes": (b'"', b'""' * 500_000, b'"\n' + row, b'"' + b'""' * 131_072 + b'"' + fault + rated),
        "an open quote": (b'"', row * 70_000, b"", b'"' + (row * 9363)[:131_072] + b'"' + fault),
        "empty lines": (b"", b"\n" * 1_000_000, row, rated),
    }
    wrong = []
    for name, (first, piece, last, printed) in long_rows.items():
        it = start(program, command="rate")
        parts = []
        reader = threading.Thread(target=lambda: parts.append(it.stdout.read()))
        reader.start()
        it.stdin.write(head + names + b"\n" + row + first)
        for _ in range(100):
            it.stdin.write(piece)
        # More than a pipe holds, so that all of the long row was read before memory is looked at.
        it.stdin.write(last + b"\n" * 200_000)
        it.stdin.flush()
        memory = most_memory(it.pid)
        it.stdin.close()
        reader.join()
        text, faults = parts[0], it.stderr.read()
        it.wait()
        if (it.returncode, faults) != (0 if name == "empty lines" else 3, b"") or text != names + more + rated + printed:
            wrong.append(f"{name}: status {it.returncode}, {len(text)} bytes, {faults}")
        if memory > MOST_MEMORY:
            wrong.append(f"{name}: {memory} KiB of memory")
    return "; ".join(wrong) or None


def keeps_no_rows(program):
    """Memory doesn't grow with the rows of records and of a long book."""
    rated = "called,answer,time", "4930,0,600\n"
    opened = "account,seat,op,call,x1,x2,x3,x4,x5,reply,y1,y2,y3\n7,,opening,,1000000000000000,,,,,,,,\n"
    tries = [
        (["--differing"], "rate", f"prefix,from,fee,rate\n49,00:00,50,1000\n%%\n{rated[0]}\n", rated[1],
         f"{rated[0]},prefix,before,after,price,difference,fault\n"),
        (["--long"], "audit", opened, "7,0,credit,,1,,,,,over,,,1000000000000000\n", "account 7 yes\n"),
    ]
    wrong = []
    for words, name, head, row, wanted in tries:
        with start(program, *words, command=name) as it:
            memory = 0
            try:
                send(it.stdin, head)
                for _ in range(1000):
                    it.stdin.write(row.encode() * 2000)
                it.stdin.flush()
                memory = most_memory(it.pid)
            except BrokenPipeError:
                pass
            text, faults = it.communicate(timeout=SECONDS)
        if (text.decode(), faults, it.returncode) != (wanted, b"", 0):
            wrong.append(f"{name}: {it.returncode}, {text[-200:]}, {faults}")
        if memory > MOST_MEMORY:
            wrong.append(f"{name}: {memory} KiB of memory")
    return "; ".join(wrong) or None


def rates_as_they_come(program):
    """Rows are printed before more are waited for, once there are enough of them for one write."""
    count, row, rated = 6000, "4930,0,600,ok\n", "4930,0,600,ok,49,600,0,1050,,\n"
    wanted = "called,answer,time,note,prefix,before,after,price,difference,fault\n" + rated * count
    with start(program, command="rate") as it:
        send(it.stdin, "prefix,from,fee,rate\n49,00:00,50,1000\n%%\ncalled,answer,time,note\n" + row * count)
        first = come(it.stdout, 65_536)
        rest, faults = it.communicate(timeout=SECONDS)
    if first != wanted[:65_536]:
        return f"{len(first)} bytes of {count} rows, before the input ends: {first[:200]!r}"
    return None if (first + rest.decode(), faults, it.returncode) == (wanted, b"", 0) else f"{faults} {it.returncode}"


def ends_with_its_reader(program):
    """Where nobody reads its output any more, the service ends with status 2 and says nothing."""
    head, talk = live()
    it = start(program)
    send(it.stdin, head + HEADER)
    come(it.stdout, len(HEADER))
    it.stdout.close()
    try:
        for row, _ in talk:
            send(it.stdin, row)
        it.stdin.close()
    except BrokenPipeError:
        pass
    faults, status = it.stderr.read(), it.wait(timeout=SECONDS)
    return None if (faults, status) == (b"", 2) else f"{faults} {status}"


def serves_a_port(program):
    """The line of the recipe, with another port and this program."""
    with open(f"{ROOT}/docs/RECIPES.md", encoding="utf-8") as page:
        line = re.search(r"^socat .*$", page.read(), re.M)[0]
    with socket.socket() as free:
        free.bind(("127.0.0.1", 0))
        port = free.getsockname()[1]
    line = line.replace("TCP-LISTEN:7000", f"TCP-LISTEN:{port}").replace("'prepaid ", f"'{program} ")
    listening = subprocess.Popen(["bash", "-c", f"exec {line}"])
    head, talk = live()
    text = "".join([head, HEADER, *(row for row, _ in talk)])
    try:
        for _ in range(SECONDS * 10):
            try:
                connection = socket.create_connection(("127.0.0.1", port))
                break
            except ConnectionRefusedError:
                time.sleep(0.1)
        with connection:
            connection.sendall(text.encode())
            wanted = HEADER + "".join(answer for _, answer in talk)
            said = come(connection.fileno(), len(wanted))
    finally:
        listening.terminate()
        listening.wait()
    return None if said == wanted else f"{said!r}"


def main():
    asked = argparse.ArgumentParser(description=__doc__, formatter_class=argparse.RawDescriptionHelpFormatter)
    asked.add_argument("--program", default="bin/prepaid")
    program = os.path.abspath(asked.parse_args().program)
    tries = [answers_in_turn, bounds_memory, rates_long_rows, keeps_no_rows, rates_as_they_come, ends_with_its_reader]
    if shutil.which("socat"):
        tries.append(serves_a_port)
    else:
        print("pipe: socat isn't here, so no port was tried: apt-get install socat")
    wrong = [f"{it.__name__}: {said}" for it in tries if (said := it(program))]
    print("\n".join(wrong) or f"pipe: {len(tries)} tries of a service on a pipe")
    return 1 if wrong else 0


if __name__ == "__main__":
    sys.exit(main())
