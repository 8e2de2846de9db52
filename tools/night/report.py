"""report.json and report.txt: what the results say, for programs and for a terminal. report.html is page.py's."""
import collections
import decimal
import json
from typing import NamedTuple

VERDICTS = ("failed", "broken", "passed")  # in the order in which they are shown
WIDE = decimal.Context(prec=400)
IN_JSON = ("cabin", "name", "day", "verdict", "reason", "records", "marks", "worst")
COLUMNS = ("cabin", "day", "session", "verdict", "reason", "records", "marks", "worst m", "local time")
LARGE = 2.0 ** 43  # metres that the lines of a replay show as `large`


class Told(NamedTuple):
    """What the reports are made of."""
    results: list
    cabins: list
    closed: list  # cabins that could not be looked into
    left: int  # sessions without a result
    terms: str


def by_day(day):
    """Days in order, those without one behind them."""
    return (day is None, day or 0)


def in_order(results):
    return sorted(results, key=lambda one: (one["cabin"], by_day(one["day"]), one["name"]))


def failed_first(results):
    """What did not pass ahead of what did; the newest day first."""
    return sorted(in_order(results), key=lambda one: (VERDICTS.index(one["verdict"]), one["day"] is None, -(one["day"] or 0)))


def counts(results):
    return collections.Counter(one["verdict"] for one in results)


def counted(results):
    """The counts in words."""
    got = counts(results)
    return ", ".join(f"{got[verdict]} {verdict}" for verdict in ("passed", "failed", "broken"))


def by_cabin(told):
    """(cabin, its results) for every cabin, those with no session too."""
    return [(name, [one for one in told.results if one["cabin"] == name]) for name in sorted(set(told.cabins))]


def as_json(told):
    sessions = [{field: one[field] for field in IN_JSON} for one in in_order(told.results)]
    summed = [{"cabin": name, **{verdict: counts(own)[verdict] for verdict in ("passed", "failed", "broken")}} for name, own in by_cabin(told)]
    return json.dumps({"sessions": sessions, "cabins": summed}, indent=1, ensure_ascii=False, allow_nan=False) + "\n"


# ---- words that the text and the page share

def clock(cs, short=False):
    """The clock of a day's cs."""
    seconds, hundredths = divmod(cs, 100)
    text = f"{seconds // 3600:02}:{seconds // 60 % 60:02}"
    return text if short else f"{text}:{seconds % 60:02}.{hundredths:02}"


def places(metres):
    """Six places, cut and not rounded, or `large`, as in the lines."""
    return "large" if abs(metres) >= LARGE else str(decimal.Decimal(metres).quantize(decimal.Decimal("0.000001"), decimal.ROUND_DOWN, WIDE))


def local_time(one):
    """From when to when a session goes, by the cabin's own clock."""
    if not one["first"]:
        return ""
    (day, cs), (end, last) = one["first"], one["last"]
    return f"{clock(cs, True)} to {clock(last, True)}" + ("" if day == end else f" of day {end}")


def cells(one):
    """A session's row, in words."""
    return (one["cabin"], "none" if one["day"] is None else str(one["day"]), one["name"], one["verdict"], one["reason"],
            str(one["records"]), str(one["marks"]), "" if one["worst"] is None else places(one["worst"]), local_time(one))


def many(count, word):
    return f"{count} {word}" + ("" if count == 1 else "s")


def headline(told):
    text = f"{many(len(by_cabin(told)), 'cabin')}, {many(len(told.results), 'session')}: {counted(told.results)}"
    text += f"; {told.left} not run yet" if told.left else ""
    return text + (f"; {many(len(told.closed), 'cabin')} could not be looked into" if told.closed else "")


def below(told):
    """The lines below the headline."""
    return [f"could not be looked into: {', '.join(told.closed)}"] * bool(told.closed) + [told.terms]


def days_of(results):
    """day -> cabin -> its results, the newest day first."""
    days = collections.defaultdict(lambda: collections.defaultdict(list))
    for one in results:
        days[one["day"]][one["cabin"]].append(one)
    return sorted(days.items(), key=lambda item: (item[0] is None, -(item[0] or 0)))


# ---- the text

def lined_up(rows):
    """Rows as columns."""
    widths = [max(map(len, column)) for column in zip(*rows)]
    return ["  ".join(cell.ljust(width) for cell, width in zip(row, widths)).rstrip() for row in rows]


def table(results):
    return lined_up([COLUMNS, *map(cells, failed_first(results))])


def as_text(told):
    lines = [headline(told), *below(told), ""]
    lines += lined_up([("cabin", "passed", "failed", "broken"), *((name, *(str(counts(own)[v]) for v in ("passed", "failed", "broken"))) for name, own in by_cabin(told))])
    lines += ["", "sessions, what failed first:", *table(told.results), "", "which cabins were run on which local day:"]
    rows = [("none" if day is None else str(day), cabin, counted(own)) for day, own_of in days_of(told.results) for cabin, own in sorted(own_of.items())]
    lines += lined_up([("day", "cabin", "sessions"), *rows])
    return "".join(line + "\n" for line in lines)
