#!/usr/bin/env python3
"""The stored requests of the desk, and the table of what each reaches (docs/TESTS.md, between its two marks).

  tools/stored.py           write the table from crates/desk/stdin and crates/desk/stdout
  tools/stored.py --check   say whether the table is theirs, and whether every answer of every routine is reached
"""
import pathlib
import re
import sys

ROOT = pathlib.Path(__file__).resolve().parent.parent
PAGE = ROOT / "docs" / "TESTS.md"
MARKS = ("<!-- stored -->", "<!-- /stored -->")
GRADES = ["closed", "fair", "rough"]

# what each routine can answer; an advance has no 8 (T-06)
ANSWERS = {
    "root": ["value", "refused 1"],
    "c": ["value", "refused 1", "refused 6"],
    "s": ["value", "refused 1", "refused 6"],
    "trial": ["point", "none", "refused 1", "refused 6"],
    "kepler": GRADES + [f"refused {n}" for n in (23, 1, 2, 3, 4, 5, 6, 19, 29, 7, 9)],
    "lambert": GRADES + [f"refused {n}" for n in (23, 1, 2, 3, 5, 10, 6, 29, 7, 8, 9)],
    "theta": ["time"] + [f"refused {n}" for n in (1, 2, 3, 4, 10, 6, 19, 7, 8)],
    "apsides": ["closed", "open"] + [f"refused {n}" for n in (1, 2, 3, 4, 6, 19)],
    "wheel": ["sine", "refused 16"],
    "sight": ["points"] + [f"refused {n}" for n in (1, 3, 16, 17, 18)],
    "cdh": ["closed", "open"] + [f"refused {n}" for n in (14, 22, 25, 5, 1, 2, 3, 4, 10, 6, 19, 7, 8, 9, 26, 27, 28)],
    "a line that cannot be read": [f"unread {n}" for n in range(26)],
}
for routine in ("kepler", "lambert", "theta", "apsides"):
    ANSWERS["why " + routine] = ["solved"] + [a for a in ANSWERS[routine] if a.startswith("refused")]


def kind_of(request, answer):
    """(routine, answer) of a request, as in the table."""
    words = answer.split()
    if words[0] == "unread":
        return "a line that cannot be read", answer
    routine = " ".join(request.split()[: 2 if request.split()[0] == "why" else 1])
    if words[0] == "refused":
        return routine, " ".join(words[:2])
    return routine, words[words.index("grade") + 1] if words[0] == "done" else words[4] if words[0] == "change" else words[0]


def reached():
    """(routine, answer) -> the numbers of the lines of crates/desk/stdin that reach it."""
    answers = (ROOT / "crates" / "desk" / "stdout").read_text().splitlines()
    found = {}
    for number, line in enumerate((ROOT / "crates" / "desk" / "stdin").read_text().split("\n"), 1):
        if line.startswith("#") or not line.strip(" \t\r"):
            continue
        found.setdefault(kind_of(line, answers.pop(0)), []).append(number)
    return found


def table(found):
    rows = ["| routine | answer | lines |", "|---|---|---|"]
    for routine, answers in ANSWERS.items():
        for answer in answers:
            lines = found.get((routine, answer), [])
            rows.append(f"| {routine} | {answer} | {', '.join(map(str, lines))} |")
    return "\n".join(rows)


def main():
    found = reached()
    missing = [f"no stored request reaches {r}: {a}" for r, answers in ANSWERS.items() for a in answers if (r, a) not in found]
    strange = [f"the table has no row for {r}: {a}" for r, a in found if a not in ANSWERS[r]]
    text = PAGE.read_text()
    head, rest = text.split(MARKS[0])
    tail = rest.split(MARKS[1])[1]
    wanted = f"{head}{MARKS[0]}\n{table(found)}\n{MARKS[1]}{tail}"
    if sys.argv[1:] != ["--check"]:
        PAGE.write_text(wanted)
    elif wanted != text:
        missing.append("the table of docs/TESTS.md is not that of the stored requests: run tools/stored.py")
    print("\n".join(missing + strange + [f"{sum(map(len, found.values()))} stored requests, {len(found)} kinds of answer, {len(missing + strange)} faults"]))
    return 1 if missing + strange else 0


sys.exit(main())
