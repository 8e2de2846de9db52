#!/usr/bin/env python3
"""The pages are true: each block of a page is run and gives what stands there, and the refusal numbers of a page are
those that its routine's definitions can give.

  tools/pages.py           say what is not true
  tools/pages.py --write   put what the programs give into the blocks, then say what is left

A block is ```desk (requests after `> `), ```list FILE, or ```shell (commands after `$ `, run in the project's root;
what they say on standard error is not shown).
"""
import pathlib
import re
import subprocess
import sys

ROOT = pathlib.Path(__file__).resolve().parent.parent
PAGES = ROOT / "docs" / "pages"
CABIN = ROOT / "cabin"

# page: where its definitions give a refusal its number, and how it is written there; TESTS is a routine's list of tests
TESTS = r"\w+_tests"
REFUSED = r"\b(?:Refused|Err) (\d+)"
LOOKED = ("settings/specs/History", REFUSED, "look_up")  # where a version is named: of that definition alone
CASES = {
    "advance": [LOOKED, ("kepler/specs/Kepler", TESTS), ("kepler/specs/Kepler", r"^result_row .*= position_components (9)"), ("solve/specs/Answers", r"^advanced_number .*= (7|8|29)$")],
    "transfer-velocity": [LOOKED, ("lambert/specs/Lambert", TESTS), ("lambert/specs/Lambert", r"^result_row .*= velocity_components (9)"), ("solve/specs/Answers", r"^transferred_number .*= (7|8|29)$")],
    "transfer-time": [("theta/specs/Theta", TESTS), ("theta/specs/Theta", r"^transfer_time_number Too\w+ = ([78])")],
    "apsides": [("apsides/specs/Apsides", TESTS)],
    # an advance without a limit is always finished, so that 29 does not come up
    "burn": [("burn/specs/Burn", r"\bErr (?!29)(\d+)"), ("kepler/specs/Kepler", TESTS), ("kepler/specs/Kepler", r"^result_row .*= position_components (9)"), ("theta/specs/Theta", TESTS), ("apsides/specs/Apsides", TESTS)],
    "sight": [("sight/specs/Sight", TESTS), ("wheel/specs/Wheel", REFUSED)],
    "settings": [("settings/specs/Allowed", TESTS), ("settings/specs/Allowed", r"^refusal_by .*\(Some (\d+)\)"), ("settings/specs/History", REFUSED)],
    "root": [("root/specs/Root", REFUSED)],
    "series": [("series/specs/Series", REFUSED)],
    "trial": [("iterator/specs/Single", REFUSED)],
    "writer": [("writer/specs/Write", REFUSED)],
    "replay": [("replay/specs/Replay", REFUSED), ("flight/specs/Flight", REFUSED), ("flight/specs/Flight", r"velocity_components (4)"), ("solve/specs/Answers", r"^advanced_number .*= (7|29)$")],
    "reader": [("session/specs/Decode", REFUSED), ("session/specs/Offset", REFUSED), ("session/specs/Read", REFUSED)],
    "listing": [("session/specs/Decode", REFUSED), ("session/specs/Offset", REFUSED), ("session/specs/Read", REFUSED), ("text/specs/Text", REFUSED)],
    "stream": [("session/specs/Decode", REFUSED), ("session/specs/Offset", REFUSED), ("stream/specs/Stream", REFUSED)],
}


def specs(name):
    """A file of specs/ with each refusal's number in place of its case."""
    numbers = dict(re.findall(r"^number_of Refusal\.(\w+) = (\d+)$", (ROOT / "crates" / "refusal" / "specs" / "Refusals.antt").read_text(), re.M))
    return re.sub(r"\bRefusal\.(\w+)", lambda m: numbers.get(m[1], m[0]), (ROOT / "crates" / f"{name}.antt").read_text())


def definitions_in(name):
    """name -> text, of each list of tests that a file of specs/ defines."""
    text = specs(name)
    return {m[1]: m[2] for m in re.finditer(r"^abbrev pub (\w+) : [^\n]*List Entry\n(.*?)(?=\n\n|\Z)", text, re.M | re.S)}


def rows_of(name):
    """The rows of a routine's list of tests, and of the lists that it is joined of."""
    own = definitions_in(name)
    known = {**definitions_in("rows/specs/Rows"), **definitions_in("conic/specs/Conic"), **definitions_in("reach/specs/Reach"), **own}
    left, seen, rows = [n for n in own if re.fullmatch(TESTS, n)], set(), set()
    while left:
        one = left.pop()
        seen.add(one)
        rows.update(re.findall(r"\b(?:entry|\w+_components) (\d+)", known[one]))
        left += [n for n in re.findall(r"\w+", known[one]) if n in known and n not in seen]
    return rows


def numbers_defined(page):
    found = set()
    for name, pattern, *definition in CASES[page]:
        if pattern is TESTS:
            found |= rows_of(name)
        else:
            text = specs(name)
            for word in definition:
                text = re.search(rf"^{word} .*?(?=\n\n|\Z)", text, re.M | re.S)[0]
            found.update(re.findall(pattern, text, re.M))
    return found


def numbers_on(text):
    table = text.split("## Refusals", 1)[1]
    cells = re.findall(r"^\| ([\d, ]+) \|", table, re.M)
    return {number for cell in cells for number in re.findall(r"\d+", cell)}


# ---- blocks

BLOCK = re.compile(r"^```(desk|list \S+|shell)\n(.*?)^```$", re.M | re.S)


def ran(*words, given=""):
    return subprocess.run(words, input=given, capture_output=True, text=True, cwd=ROOT).stdout


def replies(bodies):
    """request -> the desk's answer, of every request of the desk's blocks, asked in one run. A line that asks for
    nothing gets no answer."""
    asked = [line for body in bodies for line in re.findall(r"^> (.*)\n", body, re.M) if line.strip() and line[0] != "#"]
    got = ran(CABIN, "run", "desk", given="".join(line + "\n" for line in asked)).split("\n")[:-1]
    return dict(zip(asked, got + ["(no answer)"] * len(asked)))


def answered(body, prompt, answer):
    """A block's questions, each with its answer after it."""
    asked = re.findall(rf"^{re.escape(prompt)} (.*)\n", body, re.M)
    return "".join(f"{prompt} {line}\n{answer(line)}" for line in asked)


def renewed(head, body, desk):
    """What a block must hold."""
    if head == "desk":
        return answered(body, ">", lambda line: f"{desk[line]}\n" if line in desk else "")
    if head == "shell":
        return answered(body, "$", lambda line: ran("bash", "-c", line))
    return ran(CABIN, "run", "listing", head.split()[1])


def faults_of(page, text, whole):
    for (head, body), (_, wanted) in zip(BLOCK.findall(text), BLOCK.findall(whole)):
        if body != wanted:
            yield f"{page}: a block shows\n{body}and the program gives\n{wanted}"
    if page in CASES and numbers_on(text) != numbers_defined(page):
        yield f"{page}: the page has {sorted(numbers_on(text), key=int)}, the definitions {sorted(numbers_defined(page), key=int)}"


def main():
    write = sys.argv[1:] == ["--write"]
    paths = sorted(PAGES.glob("*.md")) + [ROOT / "README.md"]
    texts = {path: path.read_text() for path in paths}
    blocks = [block for text in texts.values() for block in BLOCK.findall(text)]
    desk = replies([body for head, body in blocks if head == "desk"])
    faults = []
    for path, text in texts.items():
        whole = BLOCK.sub(lambda found: f"```{found[1]}\n{renewed(found[1], found[2], desk)}```", text)
        if write and whole != text:
            path.write_text(whole)
            print(f"{path.relative_to(ROOT)} written anew")
        faults += faults_of(path.stem, whole if write else text, whole)
    print("\n".join(faults + [f"{len(CASES)} pages with refusals, {len(blocks)} blocks, {len(faults)} faults"]))
    return 1 if faults else 0


sys.exit(main())
