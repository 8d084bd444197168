"""Words that are refused, each option at the ends of its range, and help."""
import re

from rows import BAND, Row, refused, run_input

ARGUMENTS = "prepaid: arguments\n"
CONFIG = "prepaid: input: Config\n"
WORKERS = "prepaid: run: Workers\n"

# Words that are no request. Between two spaces is an empty word; `\udcff` is the byte 255, which no UTF-8 has.
REFUSED = [
    "",
    "prices",
    "price",
    "price --fee 50",
    "price --before 50",
    "price --fee 50 --before",
    "price --fee -1 --before 1",
    "price --fee +1 --before 1",
    "price --fee  --before 1",
    "price --fee 1000000001 --before 1",
    "price --fee 000000000000000000001 --before 1",
    "price --fee 1 --before 1 --after 1000000001",
    "price --fee 1 --before 1 --free 864001",
    "price --fee 1 --fee 1 --before 1",
    "price --fee 1 --before 1 more",
    "price --version",
    "replay",
    "replay --opening 1000000000000001",
    "replay --opening 1 --limit 2",
    "replay --opening 1 --limit 1000001",
    "audit --long --long",
    "audit --long yes",
    "audit --Long",
    "audit more",
    "audit \udcff",
    "run --into \udcff",
    "--explain quote --to \udcff",
]

# Words after `run`, the status, and the fault. An empty word is after a space at the end.
OPTIONS = [
    ("run --workers 0", 2, WORKERS),
    ("run --workers 1", 0, ""),
    ("run --workers 17", 2, WORKERS),
    ("run --workers 99", 2, WORKERS),
    ("run --workers 100", 1, ARGUMENTS),
    ("run --parts 0", 1, ARGUMENTS),
    ("run --parts 1", 0, ""),
    ("run --parts 16", 0, ""),
    ("run --parts 4294967295 --workers 1", 0, ""),
    ("run --parts 4294967296", 1, ARGUMENTS),
    ("run --parts 2 --threads 0", 1, ARGUMENTS),
    ("run --parts 2 --threads 64", 0, ""),
    ("run --parts 2 --threads 65", 1, ARGUMENTS),
    ("run --threads 1", 1, ARGUMENTS),
    ("run --parts 2 --workers 0", 2, WORKERS),
    ("run --parts 2 --workers 2", 1, ARGUMENTS),
    ("run --parts 2 --trace", 1, ARGUMENTS),
    ("run --parts 2 --calls --book", 1, ARGUMENTS),
    ("run --wanted 49", 1, CONFIG),
    ("run --wanted 50", 0, ""),
    ("run --wanted 864000", 0, ""),
    ("run --wanted 864001", 1, CONFIG),
    ("run --wanted 99999999999999999999", 1, CONFIG),
    ("run --wanted 18446744073709552216", 1, CONFIG),
    ("run --wanted 000000000000000000600", 1, ARGUMENTS),
    ("run --wanted ", 1, ARGUMENTS),
    ("run --wanted +600", 1, ARGUMENTS),
    ("run --wanted 864000 --least 1 --tccd 1 --delay 1", 0, ""),
    ("run --wanted 864000 --least 864000 --tccd 864000", 0, ""),
    ("run --least 49", 1, CONFIG),
    ("run --least 600", 0, ""),
    ("run --least 601", 1, CONFIG),
    ("run --least 4294967346", 1, CONFIG),
    ("run --tssf 0", 1, CONFIG),
    ("run --tssf 1", 0, ""),
    ("run --tssf 864000", 0, ""),
    ("run --tssf 864001", 1, CONFIG),
    ("run --tccd 0", 1, CONFIG),
    ("run --tccd 1", 1, CONFIG),
    ("run --tccd 2", 0, ""),
    ("run --tccd 51", 1, CONFIG),
    ("run --delay 0", 1, CONFIG),
    ("run --delay 1", 0, ""),
    ("run --delay 50", 0, ""),
    ("run --delay 51", 1, CONFIG),
    ("run --delay 4294967296", 1, CONFIG),
    ("run --default proceed", 0, ""),
    ("run --default release", 0, ""),
    ("run --default Release", 1, ARGUMENTS),
    ("run --delay 51 --workers 100", 1, ARGUMENTS),
    ("run --delay 51 --default ", 1, ARGUMENTS),
    ("run --book --book", 1, ARGUMENTS),
    ("run more", 1, ARGUMENTS),
    ("run --delay 2 --delay 2", 1, ARGUMENTS),
]

# Words that ask for a help.
HELPS = ["--help", "help", "price --help", "replay --help", "run --help", "audit --help", "quote --help", "help run"]

# A text of more than 50 bytes, which ends with a line end.
HELP = re.compile(rb"(?s).{50,}\n")


def rows():
    for words in REFUSED:
        yield refused(words, "before,after\n", "arguments")
    for words, status, fault in OPTIONS:
        yield Row(words, run_input(BAND, "", ""), "", fault, status)
    for words in HELPS:
        yield Row(words, "", HELP)
    for words in ["--version", "-V"]:
        yield Row(words, "", "prepaid 2026-11-26\n")
