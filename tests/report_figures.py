"""Compares the figures and the pictures of a report with the tables of its runs, each asked of them by sqlite3."""
import os
import re
import subprocess
import sys
from collections import defaultdict

from report_tables import Page, clock, database

REPORT = os.path.join(os.path.dirname(os.path.abspath(__file__)), "..", "examples", "report.py")
NOT_TAKEN = "('unknown', 'noroute', 'denied', 'refused')"
LISTED = "('cut', 'denied', 'noroute', 'refused', 'forfeit', 'unknown')"
WHY = {
    "unknown": "the calling number is no subscriber's", "noroute": "no prefix of the tariff fits",
    "refused": "the history of its account was full", "forfeit": "a report of it was not lawful",
}
MARKS = {"cut": "cut", "denied": "denied", "noroute": "other", "refused": "other", "forfeit": "other"}
CALL = re.compile(r"call (\d+): (\d+) to (\d+), ([\d: .]+?)(?:, ring ([\d.]+) s)?(?:, talk ([\d.]+) s)?"
                  r"(?:, after the switch ([\d.]+) s)?(?:, paid ([\d.]+))?, (\w+)")
# What the colours of the accounts' pictures stand for, by the classes of what is drawn.
LEGEND = {
    "available": "available", "held": "held by open calls", "recharge": "recharge", "ring": "ring", "talk": "talk",
    "late": "talk after the switch", "cut": "cut", "denied": "denied", "other": "no route, refused or forfeit",
}
# The heads of the tables behind the pictures of an account.
OF_BALANCE = ["from", "lowest", "highest", "most held", "recharged", "paid", "available at its end"]
OF_CALLS = ["call", "calling", "called", "start", "ring, s", "talk, s", "after the switch, s", "paid", "outcome"]
# What was compared.
compared = []


def same(what, found, wanted):
    compared.append(what)
    if found != wanted:
        raise SystemExit(f"{what}: the report has\n{found}\nand its tables\n{wanted}")


def money(amount, decimals):
    return f"{amount / 10 ** decimals:.{decimals}f}"


def signed(amount, decimals):
    return ("+" if amount > 0 else "") + money(amount, decimals)


def seconds(units):
    return f"{units / 10:.1f}"


def moment_of(text):
    """The moment of a time of day, with tenths or without seconds, which is behind the number of its day or in the first."""
    day, hour = text.split() if " " in text else ("0", text)
    hours, minutes, seconds = [*map(float, hour.split(":")), 0][:3]
    return round(int(day) * 864_000 + hours * 36_000 + minutes * 600 + seconds * 10)


def report(output, *words, **more):
    return subprocess.run([sys.executable, REPORT, "--output", output, *words], capture_output=True, text=True, **more)


class Looked:
    """A report of one run or two, beside the tables."""

    def __init__(self, output, folders, decimals=0):
        self.names, self.decimals = [os.path.basename(it) for it in folders], decimals
        ran = report(output, "--decimals", str(decimals), *folders)
        if ran.returncode or ran.stdout != f"{output}\n":
            raise SystemExit(f"{folders}: {ran.stdout}{ran.stderr}")
        with open(output, encoding="utf-8") as file:
            self.text = file.read()
        self.page, self.runs = Page(self.text), [database(it) for it in folders]
        self.noted, self.figures = ran.stderr, defaultdict(list)
        for it in self.page.root.all("figure"):
            self.figures[it.one("caption").text].append(it)

    def ask(self, query, *values):
        return [run.execute(query, values).fetchall() for run in self.runs]

    def beside(self, amounts, is_money=True):
        """The cells of one measure in each run, and the difference of two."""
        decimals = self.decimals if is_money else 0
        shown = [money(it, decimals) for it in amounts]
        return shown + [signed(amounts[1] - amounts[0], decimals)] if len(amounts) > 1 else shown

    def heads(self, names):
        """The heads of the columns of these measures."""
        if len(self.runs) == 1:
            return names
        return [f"{name}, {of}" for name in names for of in [*self.names, "difference"]]

    def look(self):
        self.structure()
        self.top()
        self.legends()
        self.cards()
        self.split("hour", "start / 36000 % 24", lambda key: f"{key:02}:00")
        self.split("prefix", "prefix", lambda key: key or "none")
        self.accounts()
        self.listed()
        for at, (name, run) in enumerate(zip(self.names, self.runs)):
            self.pictures(at, run)

    def structure(self):
        """The HTML alone: titles, tables, identities, and that no other file is asked for."""
        root = self.page.root
        ids = [it["id"] for it in root.all() if it["id"]]
        same("identities", len(ids), len(set(ids)))
        links = [it["href"] for it in root.all() if it["href"]]
        same("links", [it for it in links if it[:1] != "#" or it[1:] not in ids], [])
        same("other files", re.findall(r"<script|\bsrc=|<link|url\(|@import|https?:", self.text), [])
        same("language and title", (root.one("html")["lang"], bool(root.one("title").text)), ("en", True))
        levels = [int(it.name[1]) for it in root.all("h1", "h2", "h3", "h4")]
        same("headings", [b for a, b in zip([0, *levels], levels) if b > a + 1], [])
        pictures = [it for it in root.all("svg") if it["role"] == "img"]
        figures = list(root.all("figure"))
        same("pictures in figures", len(pictures), len(figures))
        for it in figures:
            behind = it.one("details").one("table")
            first = it.one("svg").children[0]
            texts = [it.one("figcaption").text, first.text, it.one("summary").text, behind.one("caption").text]
            if first.name != "title" or not all(texts) or not list(behind.one("tbody").all("td")):
                raise SystemExit(f"a picture without title or table: {texts}")

    def top(self):
        """The title, and from when to when the runs last."""
        root, ends = self.page.root, self.ask("SELECT MIN(moment), MAX(moment) FROM trace")
        title = f"Calls and balances: {' and '.join(self.names)}"
        same("titles", (root.one("title").text, root.one("h1").text), (title, title))
        first, last = (pick(at or 0 for (row,) in ends for at in [row[place]]) for place, pick in ((0, min), (1, max)))
        same("first and last moment", root.one("header").one("p").text, f"From {clock(first)} to {clock(last)}.")

    def legends(self):
        """What each colour stands for, which is the colour of what is drawn."""
        drawn = [it for it in self.page.root.all("p") if it["class"] == "legend"]
        found = [[(it.one("i")["class"], it.text) for it in legend.all("span")] for legend in drawn]
        runs = [(f"run{at}", name) for at, name in enumerate(self.names)]
        same("legends", found, [runs, [*LEGEND.items()]] if len(runs) > 1 else [[*LEGEND.items()]])
        styles = self.text.partition("<style>")[2].partition("</style>")[0]
        colours = defaultdict(set)
        for names, rule in re.findall(r"([^{}]+){([^{}]*)}", styles):
            for name in names.split(","):
                colours[name.strip().removeprefix(".picture ")] |= {*re.findall(r"--\w+", rule)}
        for kind in [*LEGEND, "run0", "run1"]:
            same(f"colours of {kind}", (colours[f".{kind}"], len(colours[f".{kind}"]) > 0), (colours[f"i.{kind}"], True))

    def cards(self):
        queries = {
            "accounts": "COUNT(*) FROM book WHERE op = 'opening'",
            "calls": "COUNT(*) FROM calls",
            "paid": "COALESCE(SUM(paid), 0) FROM calls",
            "cut": "COUNT(*) FROM calls WHERE outcome = 'cut'",
            "denied": "COUNT(*) FROM calls WHERE outcome = 'denied'",
            "unknown": "COUNT(*) FROM calls WHERE outcome = 'unknown'",
        }
        found = [(it.one("dt").text, [dd.text for dd in it.all("dd")]) for it in self.page.root.one("dl").all("div")]
        wanted, names = [], [*self.names, "difference"]
        for name, query in queries.items():
            shown = self.beside([rows[0][0] for rows in self.ask("SELECT " + query)], name == "paid")
            wanted.append((name, [f"{it} {of}" for it, of in zip(shown, names)] if len(shown) > 1 else shown))
        same("the figures at the top", found, wanted)

    def split(self, name, key, label):
        """Calls and money by hour or prefix: the table, and the bars."""
        rows = self.ask(f"SELECT {key}, COUNT(*), SUM(paid) FROM calls GROUP BY 1")
        asked = [{key: figures for key, *figures in each} for each in rows]
        keys = {key for it in asked for key in it}
        if name == "hour" and keys:
            ends = self.ask("SELECT MIN(start) / 36000, MAX(start) / 36000 FROM calls")
            hours = [hour for (row,) in ends for hour in row]
            order = [it % 24 for it in range(min(hours), min(min(hours) + 24, max(hours) + 1))]
        else:
            order = sorted(keys, key=lambda it: (-sum(run.get(it, (0, 0))[1] for run in asked), it))
        wanted = []
        for it in order:
            counts, paid = zip(*(run.get(it, (0, 0)) for run in asked))
            wanted.append([label(it), *self.beside(counts, False), *self.beside(paid)])
        head = [name, *self.heads(["calls", "paid"])]
        same(f"by {name}", self.page.tables(f"Paid by {name}"), [(head, wanted)] if keys else [])
        for figure in self.figures[f"Paid by {name}"]:
            labels = [it.text for it in figure.one("svg").all("text") if not it["text-anchor"]]
            same(f"the labels of bars by {name}", labels, [label(it) or "none" for it in order][:24])
            self.bars(name, figure, [[run.get(it, (0, 0))[1] for run in asked] for it in order][:24])

    def bars(self, name, figure, wanted):
        sizes = [float(it["width"][:-1]) for it in figure.all("rect")]
        classes = [f"run{at}" for row in wanted for at in range(len(row))]
        same(f"whose the bars by {name} are", [it["class"] for it in figure.all("rect")], classes)
        most = max(max(it) for it in wanted) or 1
        same(f"bars by {name}", sizes, [round(80 * it / most, 2) for row in wanted for it in row])
        told = [it.text for it in figure.one("svg").all("text") if it["text-anchor"] == "end"]
        same(f"the text of bars by {name}", told, [money(it, self.decimals) for row in wanted for it in row])

    def accounts(self):
        columns = {
            "calls": "(SELECT COUNT(*) FROM calls WHERE account = a.account)",
            "cut": "(SELECT COUNT(*) FROM calls WHERE account = a.account AND outcome = 'cut')",
            "denied": "(SELECT COUNT(*) FROM calls WHERE account = a.account AND outcome = 'denied')",
            "opening": "x1",
            "recharged": "(SELECT COALESCE(SUM(x1), 0) FROM book WHERE account = a.account AND reply = 'credited')",
            "paid": "(SELECT COALESCE(SUM(paid), 0) FROM calls WHERE account = a.account)",
            "held": "(SELECT held FROM steps WHERE account = a.account ORDER BY entry DESC LIMIT 1)",
            "available": "(SELECT available FROM steps WHERE account = a.account ORDER BY entry DESC LIMIT 1)",
            "lowest": "MIN(x1, COALESCE((SELECT MIN(y3) FROM book WHERE account = a.account AND reply <> ''), x1))",
        }
        names = list(columns) if len(self.runs) == 1 else ["paid", "cut", "denied", "lowest"]
        asked = ", ".join(columns[it] for it in names)
        wanted = []
        for rows in zip(*self.ask(f"SELECT account, {asked} FROM book a WHERE op = 'opening' ORDER BY account")):
            wanted.append([str(rows[0][0])])
            for at, name in enumerate(names, 1):
                wanted[-1] += self.beside([row[at] for row in rows], name not in ("calls", "cut", "denied"))
        same("accounts", self.page.tables("Accounts"), [(["account", *self.heads(names)], wanted)])

    def why(self, run, call, outcome):
        if outcome not in ("cut", "denied"):
            return f"{outcome}: {WHY[outcome]}" if outcome in WHY else outcome
        query = "SELECT reply, y1, y3, x5, x7, until FROM asked WHERE call = ?"
        (reply, units, available, least, moment, until), = run.execute(query, [call])
        available = f"{money(available, self.decimals)} available"
        if reply == "granted":
            return f"{outcome}: its last grant of {seconds(units)} s is talked, {available}"
        if until != "" and moment > until:
            return f"{outcome}: the credit expired at {clock(until)}"
        return f"{outcome}: {available}, too little for {seconds(least)} s"

    def listed(self):
        found = self.ask(f"SELECT call FROM calls WHERE outcome IN {LISTED}")
        numbers = sorted({call for rows in found for call, in rows}, key=int)
        wanted = []
        for number in numbers:
            query = "SELECT paid, outcome, calling, called, account, start FROM calls WHERE call = ?"
            rows = [row for (row,) in self.ask(query, number)]
            whys = [self.why(run, number, it[1]) for run, it in zip(self.runs, rows)]
            *_, calling, called, account, start = rows[0]
            paid = self.beside([it[0] for it in rows])
            wanted.append([number, clock(start), str(account), *whys, *paid, calling, called])
        outcomes = ["outcome"] if len(self.runs) == 1 else [f"outcome, {name}" for name in self.names]
        head = ["call", "start", "account", *outcomes, *self.heads(["paid"]), "calling", "called"]
        found = self.page.tables("Calls that were cut, denied or not taken")
        same("calls that were not taken", found, [(head, wanted)] if wanted else [])

    # the pictures of one run

    def pictures(self, at, run):
        axis = self.axis()
        (last,), = run.execute("SELECT MAX(moment) FROM trace")
        for number, in run.execute("SELECT account FROM book WHERE op = 'opening' ORDER BY account").fetchall():
            balance, timeline = (self.figures[f"{it} of account {number}"] for it in ("Balance", "Calls"))
            query = "SELECT moment, available, held, paid, added, op FROM steps WHERE account = ? ORDER BY entry"
            steps = run.execute(query, [number]).fetchall()
            self.balance(number, balance[at], steps, *axis)
            calls = run.execute(f"""SELECT call, calling, called, start, CASE WHEN outcome IN {NOT_TAKEN} THEN 0
                ELSE COALESCE(NULLIF(answer, ''), NULLIF(end, ''), ?) - start END, before, after, paid, outcome
                FROM calls WHERE account = ? ORDER BY start, rowid""", [last, number]).fetchall()
            if calls:
                self.calls(number, timeline[at], calls, axis[0])
            else:
                same(f"account {number} without calls", timeline, [])

    def axis(self):
        """The start of the time axis, its span, and its parts."""
        ticks = [it.text for it in next(it for it in self.page.root.all("g") if it["id"] == "time").all("text")]
        span = next(int(it["viewbox"].split()[2]) for it in self.page.root.all("svg") if it["viewbox"])
        start, parts = moment_of(ticks[0]), len(ticks) - 1
        same("the labels of the time axis", [*map(moment_of, ticks)], [start + span // parts * it for it in range(parts + 1)])
        return start, span, parts

    def balance(self, number, figure, steps, start, span, parts):
        amount = lambda it: money(it, self.decimals)
        low = min(steps, key=lambda it: it[1])
        wanted = (f"Balance of account {number}: opened with {amount(steps[0][1])}, "
                  f"lowest {amount(low[1])} at {clock(low[0])}, at last {amount(steps[-1][1])}")
        same(f"balance of account {number}", figure.one("figcaption").text, wanted)
        drawn = {it["class"]: it["d"] for it in figure.all("path")}
        self.curve(f"available of account {number}", drawn["available"], [(it[0] - start, it[1]) for it in steps], span)
        self.curve(f"held of account {number}", drawn["held"], [(it[0] - start, it[1] + it[2]) for it in steps], span)
        marks = [(it.one("title").text, it["d"]) for it in figure.all("path") if it["class"] == "recharge"]
        same(f"recharges of account {number}", marks, self.recharges(steps, start, -(-span // 1000), amount))
        found = [(moment_of(at), *row) for at, *row in self.rows(figure, OF_BALANCE)]
        same(f"table of the balance of account {number}", found, self.parts(steps, start, span // parts, parts, amount))

    def recharges(self, steps, start, width, amount):
        columns = {}
        for it in steps:
            if it[5] == "credit" and it[4]:
                columns.setdefault((it[0] - start) // width, []).append(it)
        return [(f"{clock(it[0][0])} recharge {amount(it[0][4])}" if len(it) == 1 else
                 f"{clock(it[0][0])} {len(it)} recharges {amount(sum(each[4] for each in it))}",
                 f"M{it[0][0] - start} {-it[0][1] - it[0][2]}h.1") for it in columns.values()]

    def parts(self, steps, start, step, parts, amount):
        wanted = []
        for a in range(start, start + step * parts, step):
            inside = [it for it in steps if a <= it[0] < a + step]
            earlier = [it for it in steps if it[0] < a][-1:] or steps[:1]
            if inside:
                seen = inside + (earlier if inside[0][0] > a else [])
                wanted.append((a, *(amount(it) for it in (
                    min(it[1] for it in seen), max(it[1] for it in seen), max(it[2] for it in seen),
                    sum(it[4] for it in inside if it[5] == "credit"), inside[-1][3] - earlier[0][3], inside[-1][1]))))
        return wanted

    def rows(self, figure, head):
        """The rows of the table behind a picture, whose head has to be this one."""
        same("the head of a table", [it.text for it in figure.one("thead").all("th")], head)
        return [[cell.text for cell in row.all("th", "td")] for row in figure.one("tbody").all("tr")]

    def curve(self, what, path, steps, span):
        """The path has only points of the curve, in order, and of each column the first, lowest, highest and last."""
        found = re.fullmatch(r"M-\d+ 0V-?(\d+)((?:H\d+V-?\d+)*)H(\d+)V0", path)
        whole = [it for it, before in zip(steps, [(0, None), *steps]) if it[1] != before[1]]
        points = [(whole[0][0], int(found[1])), *((int(x), int(y)) for x, y in re.findall(r"H(\d+)V-?(\d+)", found[2]))]
        rest, width = iter(whole), -(-span // 1000)
        same(f"points of {what}", [it for it in points if it not in rest], [])
        columns = [{}, {}]
        for each, column in zip((whole, points), columns):
            for moment, value in each:
                column.setdefault(moment // width, []).append(value)
        told = [{key: (it[0], min(it), max(it), it[-1]) for key, it in column.items()} for column in columns]
        same(what, told[1], told[0])
        same(f"end of {what}", int(found[3]) > span, True)

    def calls(self, number, figure, calls, start):
        amount = lambda it: money(it, self.decimals)
        wanted = [[*it[:3], clock(it[3]), *map(seconds, it[4:7]), amount(it[7]), it[8]] for it in calls]
        same(f"calls of account {number}", self.rows(figure, OF_CALLS), wanted)
        lanes = {}
        for group, row in zip(figure.one("svg").one("svg").all("g"), calls, strict=True):
            call, calling, called, at, ring, before, after, paid, outcome = row
            times = [seconds(it) if it else None for it in (ring, before, after)]
            told = [call, calling, called, clock(at), *times, amount(paid) if paid else None, outcome]
            same(f"call {call} on hover", list(CALL.fullmatch(group.one("title").text).groups()), told)
            drawn, x = [], at - start
            for kind, units in (("ring", ring), ("talk", before), ("late", after)):
                drawn += [(kind, x, units)] if units else []
                x += units
            drawn += [(MARKS[outcome], x, 0.1)] if outcome in MARKS else []
            place = re.compile(r"M(\d+) (\d+)\.5h([\d.]+)")
            paths = [(it["class"], *place.fullmatch(it["d"]).groups()) for it in group.all("path")]
            same(f"call {call} over time", [(kind, int(x), float(units)) for kind, x, _, units in paths], drawn)
            for kind, begin, lane, units in paths[:1]:
                same(f"the lane of call {call}", lanes.get(lane, -1) < int(begin), True)
                lanes[lane] = x
