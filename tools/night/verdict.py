"""What the lines of a replay say: the session's day, how many records and marks, the worst mark, and the verdict. Days
and numbers are read off the lines; nothing about them is worked out here."""
import math
import struct
from typing import NamedTuple

HEADING = "day cs vehicle kind result"
DAY = 8_640_000


class Broken(Exception):
    """A session that could not be run, in words."""


class Mark(NamedTuple):
    record: int
    day: int
    cs: int
    off: float

    def time(self):
        return self.day * DAY + self.cs


class Event(NamedTuple):
    day: int
    cs: int
    what: str  # burn or state, or refused

    def time(self):
        return self.day * DAY + self.cs


class Account(NamedTuple):
    records: int
    marks: list
    events: list  # of the records that are no marks with a result
    first: tuple  # day and cs of the first record that gets a line, or None
    last: tuple
    reason: str  # of the first that is not as it must be, or nothing
    vehicles: list  # the words of the two last lines


def number(bits):
    """The number of a word of bits."""
    return struct.unpack(">d", bytes.fromhex(bits[1:]))[0]


def whole_lines(text):
    """The lines of a replay that was not cut."""
    lines = text.split("\n")
    whole = lines.pop() == "" and len(lines) >= 3 and lines[0] == HEADING
    if not (whole and lines[-2].startswith("vehicle 0 ") and lines[-1].startswith("vehicle 1 ")):
        raise Broken("the program's answer was cut short")
    return lines


def account(text, limit):
    """What a replay's text says, with marks over the limit as a reason."""
    *lines, zero, one = whole_lines(text)
    marks, events, first, last, reason, records = [], [], None, None, "", 0
    for line in lines[1:]:
        words = line.split(" ")
        if words[0] == "refused":
            reason = reason or line
            continue
        records += 1
        last = int(words[0]), int(words[1])
        first = first or last
        if words[4] == "refused":
            reason = reason or f"record {records} refused {words[5]}"
            events.append(Event(*last, "refused"))
        elif words[4] != "off":
            events.append(Event(*last, words[3]))
        else:
            marks.append(Mark(records, *last, number(words[7])))
            if not abs(marks[-1].off) <= limit:
                reason = reason or f"record {records} off {words[5]}"
    return Account(records, marks, events, first, last, reason, [zero.split(" "), one.split(" ")])


def parsed(text, limit):
    """The account of a text that a program wrote, whatever it is."""
    try:
        return account(text, limit)
    except (ValueError, IndexError, struct.error) as error:
        raise Broken("the program's answer cannot be read") from error


def worst_of(marks):
    """The mark with the greatest |off|, or None."""
    return max((mark for mark in marks if math.isfinite(mark.off)), key=lambda mark: abs(mark.off), default=None)


def judged(got):
    """What the reports have of a session that was run."""
    worst = worst_of(got.marks)
    return {
        "day": got.first[0] if got.first else None,
        "verdict": "failed" if got.reason else "passed",
        "reason": got.reason,
        "records": got.records,
        "marks": len(got.marks),
        "worst": abs(worst.off) if worst else None,
        "first": got.first and list(got.first),
        "last": got.last and list(got.last),
    }


def not_run(words, day=None):
    """What the reports have of a session that could not be run."""
    return {"day": day, "verdict": "broken", "reason": words, "records": 0, "marks": 0, "worst": None, "first": None, "last": None}


def verdict_line(result):
    return " ".join(["verdict", result["verdict"], *filter(None, [result["reason"]])]) + "\n"
