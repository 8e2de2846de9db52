#!/usr/bin/env python3
"""why: which reasons a run of requests with `why` in front is told (02, T-07).

  tools/why.py [--all] REQUESTS ANSWERS

Counts the different lines, with the numbers taken out, and holds each to what a solve can say: the test's number, its name and what it
must be. Exits 1 where a reason is told that a solve cannot give; with --all also where one that it can give is not told, which requests
by chance cannot promise."""
import collections
import pathlib
import re
import sys

AMOUNT = re.compile(r"(?<= )(?:-?\d+(?:\.\d+)?|nan|large|x[0-9A-F]{16})(?= |$)")
TIME = re.compile(r"(?<=low:|igh:)x[0-9A-F]{16}")
XYZ = "xyz"


def tests(number, names, limit):
    return [f"{number} {name} must be {limit}" for name in names.split()]


def finite(names):
    return tests(1, names, "finite")


def position(name):
    return [*tests(3, " ".join(name + c for c in XYZ), "under 2^29 in size"), *tests(3, f"|{name}|", "at least 2^18"), *tests(3, f"|{name}|", "under 2^29")]


def run_behind(most, judgements):
    """What a run to go on from may be told."""
    judged = [f"6 {end} must be {j}" for end in ("lo", "hi") for j in judgements.split()]
    return [*finite("lo hi"), *tests(6, "lo hi", "on the grid"), *tests(6, "lo", "under hi"), *judged, *tests(6, "lo", "low or under"), *tests(6, "hi", "high or over"), *tests(6, "count", f"at most {most}"), "29"]


MU = [*tests(2, "mu", "at least 2^28"), *tests(2, "mu", "under 2^36")]
STATE = [*finite("mu rx ry rz vx vy vz"), *MU, *position("r"), *tests(4, "vx vy vz", "at most 2^7 in size"), *tests(19, "p", "at least 2^-20")]
TIMED = tests(5, "t", "at most 2^28 in size")
TURN = tests(6, "sin/(1-cos)", "at most 2^5 in size")
C2 = tests(6, "c2", "under 2^6 in size")
SLOW = ["7 because " + stop for stop in ("W must be over 0", "radicand must be at least 0", "x must be under 2^17", "time must be at most 2^28 in size")]
FAST = ["8 because xi must be at least -50"]

# the reasons, each solve's; what no request was found for is in second/README.md
REASONS = {
    "kepler": [*STATE, *finite("t"), *TIMED, *tests(6, "c1", "under 2^17 in size"), *C2, *run_behind(74, "low:N high:N over"), *tests(9, "rx ry rz", "under 2^29 in size"), *tests(9, "vx vy vz", "at most 2^7 in size"),
               "7 because end of grid", "7 because xi must be at least -50", "7 because time must be at most 2^28 in size", "23", "solved"],
    "lambert": [*finite("mu ax ay az bx by bz t nx ny nz"), *MU, *position("a"), *position("b"), *TIMED, *tests(5, "t", "over 0"), *tests(10, "|u1xu2|", "at least 2^-10"), *tests(10, "1-cos", "at least 2^-20"), *tests(10, "|n|", "1 within 2^-40"),
                *tests(6, "r1/r2", "under 2^7"), *TURN, *run_behind(52, "under low:N high:N over"), *tests(9, "vx vy vz", "at most 2^7 in size"), *SLOW[2:], *FAST,
                "7 because end of grid", "8 because end of grid", "8 because den must be over 0", "8 because p must be at most 2^4", "23", "solved"],
    "theta": [*STATE, *finite("sin cos"), *tests(10, "cos2+sin2-1", "at most 2^-40 in size"), *tests(10, "1-cos", "at least 2^-20"), *C2, *tests(6, "cot", "at most 2^5 in size"), *tests(6, "p", "at most 2^4"), *TURN, *SLOW, *FAST, "solved"],
    "apsides": [*STATE, *C2, *tests(6, "p", "at most 2^4"), *tests(6, "e", "under 2^3"), "solved"],
}


def line_of(answer):
    """An answer with its numbers taken out, but for the refusal's and the limits'."""
    head, _, rest = answer.partition(" must be ")
    word, _, amounts = head.partition(" ")
    number, _, amounts = amounts.partition(" ") if word == "refused" else ("", "", amounts)
    taken = AMOUNT.sub("N", TIME.sub("N", f" {amounts}"))
    limit = re.sub(r" bits x[0-9A-F]{16}$", "", TIME.sub("N", f" {rest}")) if rest else ""
    return " ".join(f"{word} {number}{taken}{' must be' if rest else ''}{limit}".split())


def reason_of(line):
    """The test of a line: its number, its name and what it must be."""
    words = line.removeprefix("refused ")
    number = words.split()[0]
    if number in ("solved", "29"):
        return number
    if " because " in words:
        words = f"{number} because {words.split(' because ')[1]}"
    return words.replace(" N must be ", " must be ")


def asked(requests, answers):
    """(routine, line) of each request with `why` in front that was read."""
    given = [line for line in requests.split("\n") if not line.startswith("#") and (len(line) > 1000 or line.strip(" \t\r"))]
    for request, answer in zip(given, answers.splitlines(), strict=True):
        words = re.split(r"[ \t\r]+", request.strip(" \t\r"))
        if words[0] == "why" and not answer.startswith("unread "):
            yield words[1], line_of(answer)


def main(requests, answers, every):
    texts = [pathlib.Path(name).read_bytes().decode("latin-1") for name in (requests, answers)]
    lines = collections.Counter(asked(*texts))
    told = {(routine, reason_of(line)) for routine, line in lines}
    all_of_them = {(routine, reason) for routine, reasons in REASONS.items() for reason in reasons}
    for what, some in (("not told", all_of_them - told), ("not a reason of its solve", told - all_of_them)):
        for routine, reason in sorted(some):
            print(f"{what}: {routine}: {reason}")
    print(f"{sum(lines.values())} requests with why, {len(lines)} different lines, {len(told & all_of_them)} of {len(all_of_them)} reasons told")
    return 1 if told - all_of_them or (every and all_of_them - told) else 0


if __name__ == "__main__":
    every = sys.argv[1:2] == ["--all"]
    files = sys.argv[2:] if every else sys.argv[1:]
    if len(files) != 2:
        sys.exit(__doc__)
    sys.exit(main(*files, every))
