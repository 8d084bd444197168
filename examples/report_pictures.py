"""The pictures of a report, as SVG: the balance of an account, the calls of an account over time, and bars.

A picture is as wide as there is room, and its text doesn't grow with it: places are percents, and what is drawn over
time is in an inner picture whose units are those of the tables, 100 ms across and money, or lanes, upwards. So a
path has moments (from the start of the axis) and amounts as they are.
"""
import heapq
from dataclasses import dataclass
from html import escape
from itertools import groupby

DAY = 864_000
# Units between two lines of a time axis: from a second to twelve hours.
STEPS = [10, 50, 100, 300, 600, 1_200, 3_000, 6_000, 9_000, 18_000, 36_000, 72_000, 108_000, 216_000, 432_000]
# A time axis has at most so many parts, and so many columns.
PARTS, COLUMNS = 8, 1_000
# Pixels: the height of a time axis's labels, of a curve, of a lane of calls, of all lanes, of a bar and its text.
LABELS, CURVE, LANE, LANES, BAR, TEXT = 18, 132, 14, 560, 9, 18
# The outcomes of calls that were not taken, and the marks of those that were not, or not to their end.
NOT_TAKEN = {"unknown", "noroute", "denied", "refused"}
MARKS = {"cut": "cut", "denied": "denied", "noroute": "other", "refused": "other", "forfeit": "other"}


def tag(name, *content, **attributes):
    """An element around markup. A name of an attribute may end with _ where it is a word of Python."""
    words = "".join(f' {key.rstrip("_").replace("_", "-")}="{escape(str(it))}"' for key, it in attributes.items())
    return f"<{name}{words}>{''.join(content)}</{name}>"


def shape(name, **attributes):
    """An element without content."""
    return tag(name, **attributes).replace(f"></{name}>", "/>")


def clock(moment, tenths=True):
    """A moment as a time of day, behind the number of its day unless that is 0."""
    day, units = divmod(moment, DAY)
    text = f"{units // 36_000:02}:{units // 600 % 60:02}"
    if tenths:
        text += f":{units // 10 % 60:02}.{units % 10}"
    return f"{day} {text}" if day else text


@dataclass(frozen=True)
class Axis:
    """A time axis from a moment on: so many parts of so many units each."""

    start: int
    step: int
    parts: int

    @classmethod
    def over(cls, first, last):
        step = next((it for it in STEPS if it * (PARTS - 1) >= last - first), DAY)
        while step * (PARTS - 1) < last - first:
            step *= 2
        start = first // step * step
        return cls(start, step, max(1, -(-(last - start) // step)))

    @property
    def span(self):
        return self.step * self.parts

    @property
    def column(self):
        """The units of a column, of which a curve keeps no more than four points."""
        return -(-self.span // COLUMNS)

    @property
    def ticks(self):
        return [self.start + self.step * it for it in range(self.parts + 1)]

    def lines(self):
        """Its lines and labels, which pictures use by the name `time`."""
        drawn = []
        for at, tick in enumerate(self.ticks):
            place = f"{100 * at / self.parts:.2f}%"
            label = clock(tick, tenths=self.step < 600).removesuffix(".0")
            anchor = "start" if at == 0 else "end" if at == self.parts else "middle"
            drawn.append(shape("line", x1=place, x2=place, y1=LABELS, y2="100%"))
            kind = {"class_": "odd"} if at % 2 else {}
            drawn.append(tag("text", label, x=place, y=LABELS - 6, text_anchor=anchor, **kind))
        return tag("defs", tag("g", *drawn, id="time", class_="axis"))


def picture(title, height, *content):
    size = {"width": "100%", "height": height}
    return tag("svg", tag("title", escape(title)), *content, class_="picture", role="img", **size)


def alone(drawn, axis, style):
    """A curve as a file of its own."""
    ground = shape("rect", class_="ground", width="100%", height="100%")
    size = {"width": 720, "height": LABELS + CURVE}
    return tag("svg", tag("style", style), axis.lines(), ground, drawn, xmlns="http://www.w3.org/2000/svg", **size)


def over_time(title, axis, height, low, high, drawn, *above):
    """A picture over a time axis: the inner one goes from `low` to `high`, downwards."""
    box = {"viewBox": f"0 {low} {axis.span} {high - low}", "preserveAspectRatio": "none"}
    inner = tag("svg", *drawn, y=LABELS, width="100%", height=height, **box)
    return picture(title, height + LABELS, inner, shape("use", href="#time"), *above)


def changes(points):
    """The points (moment, value) of a curve at which it changes, and its first."""
    return [next(same) for _, same in groupby(points, key=lambda point: point[1])]


def thinned(points, width):
    """The points of a curve without those that nobody sees where a column is so many units wide: of each column its
    first, its lowest, its highest and its last point stay."""
    kept = []
    for _, column in groupby(points, key=lambda point: point[0] // width):
        column = list(column)
        values = [value for _, value in column]
        places = {0, values.index(min(values)), values.index(max(values)), len(column) - 1}
        kept += [column[it] for it in sorted(places)]
    return kept


def stairs(axis, points):
    """A path along the steps of a curve; its two ends lie outside of the picture."""
    margin = axis.span // 50 + 1
    points = [(moment - axis.start, value) for moment, value in changes(points)]
    (_, first), *points = thinned(points, axis.column)
    steps = "".join(f"H{moment}V{-value}" for moment, value in points)
    return f"M{-margin} 0V{-first}{steps}H{axis.span + margin}V0"


def unit_of(top):
    """The distance of the lines of an axis of money: 1, 2 or 5 before zeros, for two to five lines below the top."""
    power = 10 ** max(0, len(str(top)) - 2)
    return next(it * power for it in (1, 2, 5, 10, 20, 50) if it * power * 5 >= top)


def levels(top, high, money):
    """The lines of an axis of money and their labels."""
    drawn = []
    for value in range(0, top + 1, unit_of(top)):
        y = LABELS + CURVE * (high - value) / high
        drawn.append(shape("line", x2="100%", y1=f"{y:.1f}", y2=f"{y:.1f}"))
        if value:
            drawn.append(tag("text", money(value), x="100%", y=f"{y - 4:.1f}", text_anchor="end"))
    return tag("g", *drawn, class_="axis")


def balance(title, axis, account, top, money):
    """What an account has left over time, what is held above it, and its recharges."""
    high = top + top // 6 + 1
    drawn = [
        shape("path", class_="held", d=stairs(axis, [(it.moment, it.available + it.held) for it in account.steps])),
        shape("path", class_="available", d=stairs(axis, [(it.moment, it.available) for it in account.steps])),
    ]
    drawn += recharges(axis, [it for it in account.steps if it.recharge], money)
    return over_time(title, axis, CURVE, -high, 0, drawn, levels(top, high, money))


def recharges(axis, steps, money):
    """A mark for the recharges of each column, at the first of them."""
    for _, column in groupby(steps, key=lambda it: (it.moment - axis.start) // axis.column):
        first, *more = column
        amount = money(first.recharge + sum(it.recharge for it in more))
        told = f"{clock(first.moment)} {f'{1 + len(more)} recharges' if more else 'recharge'} {amount}"
        mark = f"M{first.moment - axis.start} {-first.available - first.held}h.1"
        yield tag("path", tag("title", told), class_="recharge", d=mark)


def lanes_of(axis, calls, last):
    """The lane of each call, the uppermost that is free, and how many lanes there are."""
    lanes, free, busy, gap = [], [], [], axis.span // 100 + 1
    for call in calls:
        while busy and busy[0][0] <= call.start:
            heapq.heappush(free, heapq.heappop(busy)[1])
        lane = heapq.heappop(free) if free else len(busy)
        heapq.heappush(busy, (ends(call, last) + gap, lane))
        lanes.append(lane)
    return lanes, max(lanes) + 1


def ends(call, last):
    return last if call.end is None else call.end


def rings(call, last):
    """How long a call rang: from its start to its answer, or to its end; one that wasn't taken never rang."""
    if call.outcome in NOT_TAKEN:
        return 0
    return (ends(call, last) if call.answer is None else call.answer) - call.start


def timeline(title, axis, calls, last, told):
    """The calls of an account over time, which are given by rising start; `told` says what is seen on hover."""
    lanes, count = lanes_of(axis, calls, last)
    drawn = []
    for call, lane in zip(calls, lanes):
        at, parts = call.start - axis.start, [tag("title", escape(told(call)))]
        for kind, units in (("ring", rings(call, last)), ("talk", call.before), ("late", call.after)):
            if units:
                parts.append(shape("path", class_=kind, d=f"M{at} {lane}.5h{units}"))
            at += units
        if mark := MARKS.get(call.outcome):
            parts.append(shape("path", class_=mark, d=f"M{at} {lane}.5h.1"))
        drawn.append(tag("g", *parts))
    return over_time(title, axis, min(LANE * count, LANES), 0, count, drawn)


def bars(title, rows):
    """Bars below one another: of each row its label, and the size and the text of the bar of each run."""
    most = max(size for _, sizes in rows for size, _ in sizes) or 1
    drawn, y = [], 0
    for label, sizes in rows:
        drawn.append(tag("text", escape(label), y=y + 12))
        y += TEXT
        for run, (size, text) in enumerate(sizes):
            drawn.append(shape("rect", class_=f"run{run}", y=y, width=f"{80 * size / most:.2f}%", height=BAR, rx=2))
            drawn.append(tag("text", escape(text), class_="figure", x="100%", y=y + BAR - 1, text_anchor="end"))
            y += BAR + 5
        y += 4
    return picture(title, y, *drawn)
