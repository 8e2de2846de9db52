#!/usr/bin/env python3
"""What the pages say of crates/ is so: every name that a row of docs/RULES.md cites is defined in the file that it names,
what docs/FORMS.md shows stands where it says, and the picture of docs/ARCHITECTURE.md has each crate once, above all that
it stands on."""
import pathlib
import re
import sys

ROOT = pathlib.Path(__file__).resolve().parent.parent
PAGE = ROOT / "docs" / "RULES.md"
CRATES_WIDTH = 44  # in the picture: the crates, then what they are for
CITED = re.compile(r"((?:`[^`]+`(?:, )?)+) in `(\w+/(?:src|specs|proofs)/[\w.]+)`")


def defines(text, name):
    """Whether a file defines a name: a definition or a law with its type, a record, or a type of the code."""
    word = re.escape(name)
    return re.search(rf"^\s*(?:(?:abbrev|unfoldable) )?(?:pub )?(?:record {word} |(?:enum|struct) {word} |{word} :)", text, re.M)


def faults_of_forms():
    """What a row's last cell names and crates/ does not have there: a file, what a file has, a routine of a crate. Where that
    cell is the specs/ of crates, each definition that the row names is one of them and has a law."""
    for shown, row in re.findall(r"^\| .* \| (.*) \| (.*) \|$", (ROOT / "docs" / "FORMS.md").read_text(), re.M):
        named = [(path, name) for path, names in re.findall(r"(crates/[\w/.]*\w)((?:, `\w+`)*)", row) for name in re.findall(r"\w+", names) or [""]]
        named += [(f"crates/{crate}/src/lib.rt", name) for crate, name in re.findall(r"`(\w+)::(\w+)`", row)]
        for path, name in named:
            text = (ROOT / path).read_text() if (ROOT / path).is_file() else ""
            if not re.search(rf"\b(?:fn|const|enum|struct) {name}\b" if name else ".", text):
                yield f"docs/FORMS.md: {path} is not there, or does not have {name}"
        if of := re.match(r"specs/ of ((?:\w+, )*\w+)", row):
            written = {part: text_under(of[1].split(", "), part) for part in ("specs", "proofs")}
            for name in re.findall(r"`(\w+)`", shown):
                if not re.search(rf"^\S+ pub {name} :", written["specs"], re.M) or name not in written["proofs"]:
                    yield f"docs/FORMS.md: {name} is no definition of {of[1]}, or no law has it"


def text_under(crates, part):
    return "".join(path.read_text() for crate in crates for path in sorted((ROOT / "crates" / crate / part).rglob("*.antt")))


def faults_of_picture():
    """Where the picture differs from crates.txt."""
    picture = re.search(r"^```\n(.*?)^```$", (ROOT / "docs" / "ARCHITECTURE.md").read_text(), re.M | re.S)[1]
    lines = [line[:CRATES_WIDTH].split() for line in picture.split("\n")]
    known = dict(re.findall(r"^(\w+)[^:\n]*:(.*)$", (ROOT / "crates.txt").read_text(), re.M))
    height = {}
    for number, line in enumerate(lines):
        for crate in line:
            if crate in known and crate in height:
                yield f"docs/ARCHITECTURE.md: the picture has {crate} twice"
            height[crate] = -number
    for crate, below in known.items():
        if crate not in height:
            yield f"docs/ARCHITECTURE.md: the picture does not have {crate}"
        for other in below.split():
            if other in known and height.get(other, -99) >= height.get(crate, 99):
                yield f"docs/ARCHITECTURE.md: {crate} stands on {other}, and the picture does not have it above that"


def main():
    faults, names, files = [*faults_of_picture(), *faults_of_forms()], 0, set()
    for number, line in enumerate(PAGE.read_text().split("\n"), 1):
        for cited, file in CITED.findall(line):
            path = ROOT / "crates" / (file if file.endswith(".rt") else f"{file}.antt")
            files.add(file)
            text = path.read_text() if path.exists() else ""
            for name in re.findall(r"`([^`]+)`", cited):
                names += 1
                if not defines(text, name):
                    faults.append(f"docs/RULES.md:{number}: {file} does not define {name}")
        if re.match(r"\| .* \|$", line) and "`" in line.rsplit(" | ", 1)[-1] and not CITED.search(line):
            faults.append(f"docs/RULES.md:{number}: the row cites a name without its file")
    print("\n".join(faults + [f"{names} names of docs/RULES.md in {len(files)} files, {len(faults)} faults"]))
    return 1 if faults else 0


sys.exit(main())
