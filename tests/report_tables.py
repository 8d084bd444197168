"""What tests/report_test.py compares a report with: its pages as a parser sees them, and its tables as sqlite3 does.

Nothing here is of examples/report.py: each figure is asked anew of the tables that `prepaid run` printed.
"""
import sqlite3
from datetime import datetime, timedelta
from html.parser import HTMLParser

TABLES = ("book", "calls", "trace")
# These aren't numbers to sqlite3, which has no whole numbers of 64 bits without a sign.
DIGITS = {"call", "calling", "called", "prefix"}
# A call gives back what it holds with the first message that ends it, or as it is denied further time.
VIEWS = """
CREATE INDEX book_account ON book (account);
CREATE INDEX book_call ON book (call);
CREATE INDEX calls_account ON calls (account);
CREATE INDEX calls_call ON calls (call);
CREATE INDEX trace_number ON trace (number);
CREATE TABLE gives (call PRIMARY KEY, moment);
INSERT INTO gives SELECT call, MIN(moment) FROM (
    SELECT call, moment FROM trace WHERE sender = 'switch'
        AND (what = 'Ended' OR what = 'EventReportBCSM' AND x1 <> 'answer'
            OR what = 'ApplyChargingReport' AND x1 = 'inactive')
    UNION ALL SELECT call, x7 FROM book WHERE op = 'reserve' AND reply = 'denied')
    GROUP BY call;
CREATE TABLE recharges AS
    SELECT x1 AS account, moment, ROW_NUMBER() OVER (PARTITION BY x1 ORDER BY number) AS place FROM trace
    WHERE what = 'Recharge'
        AND number NOT IN (SELECT number FROM trace WHERE what IN ('refused', 'stray') AND call = '');
CREATE TABLE credits AS
    SELECT rowid AS entry, account, ROW_NUMBER() OVER (PARTITION BY account ORDER BY rowid) AS place FROM book
    WHERE op = 'credit';
CREATE TABLE payments AS
    SELECT rowid AS entry, y1 - COALESCE(LAG(y1) OVER (PARTITION BY account, call ORDER BY rowid), 0) AS paying
    FROM book WHERE op IN ('settle', 'return');
CREATE INDEX payments_entry ON payments (entry);
CREATE TABLE dated AS SELECT rowid AS entry, account, op, call,
    CASE op WHEN 'opening' THEN (SELECT COALESCE(MIN(moment), 0) FROM trace) WHEN 'reserve' THEN x7
        WHEN 'settle' THEN (SELECT moment FROM trace WHERE trace.number = book.x1 LIMIT 1)
        WHEN 'return' THEN (SELECT moment FROM gives WHERE gives.call = book.call)
        ELSE (SELECT moment FROM credits JOIN recharges USING (account, place) WHERE entry = book.rowid) END AS moment,
    CASE op WHEN 'opening' THEN x1 ELSE y3 END AS available,
    CASE WHEN op = 'opening' OR reply = 'credited' THEN x1 ELSE 0 END AS added,
    COALESCE((SELECT paying FROM payments WHERE entry = book.rowid), 0) AS paying
    FROM book;
CREATE TABLE steps AS SELECT entry, account, op, moment, available, added,
    SUM(paying) OVER (PARTITION BY account ORDER BY entry) AS paid,
    SUM(added - paying) OVER (PARTITION BY account ORDER BY entry) - available AS held
    FROM dated;
CREATE INDEX steps_account ON steps (account, entry);
CREATE VIEW asked AS SELECT call, account, reply, y1, y3, x5, x7, (
        SELECT x2 FROM book u WHERE u.account = b.account AND u.rowid < b.rowid
        AND (u.op = 'opening' OR u.op = 'credit' AND u.reply = 'credited' AND u.x2 <> '')
        ORDER BY u.rowid DESC LIMIT 1) AS until
    FROM book b
    WHERE op = 'reserve' AND rowid = (SELECT MAX(rowid) FROM book c WHERE c.call = b.call AND c.op = 'reserve');
"""


def database(folder):
    """The tables of a run, and views of them."""
    found = sqlite3.connect(":memory:")
    for name in TABLES:
        with open(f"{folder}/{name}.csv", encoding="ascii") as file:
            header, *rows = (line.rstrip("\n").split(",") for line in file)
        # what a message is from is called its sender, since `from` is a word of SQL
        names = ["sender" if it == "from" else it for it in header]
        typed = ", ".join(f"{it} TEXT" if it in DIGITS else f"{it} NUMERIC" for it in names)
        found.execute(f"CREATE TABLE {name} ({typed})")
        found.executemany(f"INSERT INTO {name} VALUES ({', '.join('?' * len(names))})", rows)
    found.executescript(VIEWS)
    return found


def clock(moment):
    day = f"{moment // 864_000} " if moment >= 864_000 else ""
    return day + (datetime.min + timedelta(milliseconds=100 * (moment % 864_000))).strftime("%H:%M:%S.%f")[:10]


class Node:
    def __init__(self, name, attributes):
        self.name, self.attributes, self.children = name, dict(attributes), []

    def __getitem__(self, name):
        return self.attributes.get(name)

    @property
    def text(self):
        return "".join(it if isinstance(it, str) else it.text for it in self.children)

    def all(self, *names):
        """The elements of these names in it, in order."""
        rest = self.children[::-1]
        while rest:
            it = rest.pop()
            if not isinstance(it, str):
                if not names or it.name in names:
                    yield it
                rest += reversed(it.children)

    def one(self, name):
        return next(self.all(name))


class Page(HTMLParser):
    """A page as a tree. An element that isn't ended where it must be, or was never begun, is refused. Rows and cells of
    a table are ended by what follows them, as in HTML."""

    VOID = {"meta"}
    ENDED_BY = {"td": {"td", "th", "tr"}, "th": {"td", "th", "tr"}, "tr": {"tr"}}

    def __init__(self, text):
        super().__init__(convert_charrefs=True)
        self.root = Node("root", [])
        self.open = [self.root]
        self.feed(text)
        self.close()
        if len(self.open) > 1:
            raise SystemExit(f"{self.open[-1].name} is not ended")

    def add(self, name, attributes):
        if len({it for it, _ in attributes}) != len(attributes):
            raise SystemExit(f"{name} has an attribute twice")
        self.open[-1].children.append(Node(name, attributes))
        return self.open[-1].children[-1]

    def handle_starttag(self, name, attributes):
        while name in self.ENDED_BY.get(self.open[-1].name, ()):
            self.open.pop()
        node = self.add(name, attributes)
        if name not in self.VOID:
            self.open.append(node)

    def handle_startendtag(self, name, attributes):
        if not any(it.name == "svg" for it in self.open):
            raise SystemExit(f"<{name}/> outside of a picture")
        self.add(name, attributes)

    def handle_endtag(self, name):
        while self.open[-1].name in self.ENDED_BY and self.open[-1].name != name:
            self.open.pop()
        if self.open[-1].name != name:
            raise SystemExit(f"</{name}> ends {self.open[-1].name}, line {self.getpos()[0]}")
        self.open.pop()

    def handle_data(self, text):
        self.open[-1].children.append(text)

    def tables(self, name):
        """The tables whose caption is this one: the head, and the texts of each row."""
        found = []
        for it in self.root.all("table"):
            if it.one("caption").text == name:
                head = [cell.text for cell in it.one("thead").all("th")]
                found.append((head, [[cell.text for cell in row.all("th", "td")] for row in it.one("tbody").all("tr")]))
        return found
