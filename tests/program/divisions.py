"""Inputs of a run that are divided, and inputs that aren't."""
from rows import Row, refused

TARIFF, SETUP, SCRIPT = "prefix,from,fee,rate", "kind,key,value", "moment,call,what,x,y"

# Inputs of three tables without rows.
DIVIDED = [
    f"{TARIFF}\n%%\n{SETUP}\n%%\n{SCRIPT}\n",
    f"{TARIFF}\r\n%%\r\n{SETUP}\r\n%%\r\n{SCRIPT}",
    f"\ufeff{TARIFF}\n%%\n\ufeff{SETUP}\n%%\n\ufeff{SCRIPT}\n",
]

# Inputs with the first fault of what their tables are then.
JUDGED = [
    ("a\n%%\nb\n%%\nc\n", "tariff row 1: Header"),
    (f"{TARIFF}\n%%\nb\n%%\nc\n", "setup row 1: Header"),
    (f"{TARIFF}\n%%\n{SETUP}\n%%\nc\n", "script row 1: Header"),
    (f"{TARIFF}\r\n%%\r\nb\r\n%%\r\nc", "setup row 1: Header"),
    (f"{TARIFF}\r\n%%\r\n{SETUP}\r\n%%\r\nc", "script row 1: Header"),
    ("%%\n%%\n", "tariff row 1: Header"),
    ("%%\n%%", "tariff row 1: Header"),
    (f"{TARIFF}\n%%\n\n%%", "setup row 1: Header"),
    (f"{TARIFF}\n%%\n{SETUP}\n%%", "script row 1: Header"),
    # a quote keeps no line from dividing
    (f'{TARIFF}\n"a\n%%\n"b\n%%\nc', "tariff row 2: Csv"),
    (f'{TARIFF}\n%%\n{SETUP}\n"b\n%%\nc', "setup row 2: Csv"),
    # more than %% in a line
    ("%%,\n%%\n %%\n%%\n", "tariff row 1: Header"),
    (f"{TARIFF}\n%%,,,\n%%\n{SETUP}\n%%\n{SCRIPT}\n", "tariff row 2: Digits"),
    (f"{TARIFF}\n%%\n %%\n%%\n{SCRIPT}\n", "setup row 1: Header"),
    (f"{TARIFF}\n%%\n{SETUP}\n %%,7,1\n%%\n{SCRIPT}\n", "setup row 2: What"),
]

# Inputs that haven't three tables.
UNDIVIDED = [
    "",
    "a\nb\n",
    "%%",
    "a\n%%\nb\n",
    "a\n%%\nb\n%%\r",
    "a%%\nb\n%%\nc\n",
    "a\n%%%\nb\n%%\nc\n",
    "a\r%%\nb\n%%\nc\n",
    "a\n%%\rb\n%%\nc\n",
    "a\n%%\nb\n%%\nc\n%%\n",
    "a\n\ufeff%%\nb\n%%\nc\n",
    "%%\n%%\n%%",
]


def rows():
    for text in DIVIDED:
        yield Row("run", text)
    for text, fault in JUDGED:
        yield refused("run", text, fault)
    for text in UNDIVIDED:
        yield refused("run", text, "input: Parts")
