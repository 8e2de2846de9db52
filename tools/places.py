#!/usr/bin/env python3
"""Places of src/ that have an older form of Rattle, point by point of docs/DESIGN-PASS.md.

usage: places.py [--list POINT] [ROOT]      counts, or the places of one point (1a .. 7)
"""
import collections
import glob
import os
import pathlib
import re
import sys

from edits import code_of

POINTS = {
    "1a": "own enums of two cases, one of them with a value: the shape of Option or Result",
    "1b": "own enums of three or more cases with one for a refusal or an unread word",
    "1c": "a flag beside the value that it speaks of: a `bool` field, a function that answers 0 for 'none'",
    "1d": "a refusal as a number, outside the C interface: a literal, a field or a parameter",
    "1e": "a kind as a number: body, vehicle, kind, way, judgement, case",
    "2": "twins: functions of one crate that differ only in names, types and constants",
    "3": "`while` and `loop`, and functions that count by calling themselves",
    "4": "equality, conversion and tests of a case by hand: `=> true`, `=> false`, `=> NUMBER` arms of a match",
    "5a": "functions of six parameters or more",
    "5b": "a fact that stands in the contracts of three or more functions of a crate",
    "6": "a lent buffer with a place or a length beside it",
    "7": "a match on which step or which problem comes next",
    "8": "answers in proofs/",
}
INTERFACE = ("library", "cabin", "cases", "lent", "held_replay")


def functions(text):
    """(line, name, signature, body) of each function."""
    out = []
    for m in re.finditer(r"^( *)(?:pub )?(?:extern \"C\" )?fn (\w+)", text, re.M):
        end = re.compile(r"^" + m[1] + r"\}", re.M).search(text, m.end())
        whole = text[m.start() : end.end() if end else len(text)]
        head, _, body = whole.partition("\n" + m[1] + "{\n")
        out.append((text.count("\n", 0, m.start()) + 1, m[2], head, body))
    return out


def enums(text):
    for m in re.finditer(r"^(?:pub )?enum (\w+)(?:<[^>]*>)? \{\n(.*?)^\}", text, re.M | re.S):
        cases = re.findall(r"^    (\w+)(\(| \{|,)", m[2], re.M)
        yield text.count("\n", 0, m.start()) + 1, m[1], cases


def shape(head, body):
    words = re.sub(r"//[^\n]*", "", head.split("ensures")[0].split("requires")[0] + body)
    words = re.sub(r"\bb?\"[^\"]*\"|b'.'", "TEXT", words)
    keep = {"if", "else", "while", "return", "let", "mut", "match", "for", "in", "fn", "self"}
    return re.sub(r"[A-Za-z_]\w*|\d[\w.]*", lambda m: m[0] if m[0] in keep else "_", words)


def places(root):
    found = collections.defaultdict(list)
    for crate in sorted(os.listdir(f"{root}/crates")):
        clauses = collections.Counter()
        shapes = collections.defaultdict(list)
        outer = crate.startswith(INTERFACE)
        for path in sorted(glob.glob(f"{root}/crates/{crate}/src/*.rt")):
            text = code_of(pathlib.Path(path))
            name = f"{crate}/{os.path.basename(path)}"

            def add(point, line, what):
                found[point].append(f"{name}:{line} {what}")

            for line, enum, cases in enums(text):
                unit = [c for c, end in cases if end == ","]
                if len(cases) == 2 and len(unit) < 2:
                    add("1a", line, enum)
                elif len(cases) > 2 and any(c in ("Refused", "Unread", "Settings") for c, _ in cases):
                    add("1b", line, enum)
            for m in re.finditer(r"^    (?:pub )?(\w+): bool,", text, re.M):
                add("1c", text.count("\n", 0, m.start()) + 1, m[1])
            for n, line in enumerate(text.split("\n"), 1):
                code = line.split("//")[0]
                if not outer and not re.match(r"\s*(ghost|requires|ensures)", code):
                    if re.search(r"\b(Refused|Err|Bad)\(\d", code) or re.search(r"\b(number|no): u(8|32)\b", code) \
                            or re.search(r"\b(Refused|Bad|Settings)\((\w+, )?u(8|32)", code) \
                            or re.search(r"table::\w+\(\w+, \d", code):
                        add("1d", n, code.strip())
                if re.search(r"\b(body|vehicle|kind|way|jlo|jhi|case): u(8|64)\b", code):
                    add("1e", n, code.strip())
                if re.match(r"\s*(while|loop)\b", code):
                    add("3", n, code.strip())
                if re.search(r"=> (true|false|\d+),?$", code):
                    add("4", n, code.strip())
                if re.search(r"\bmatch (next|problem|bench|state|order|given|request)\b", code):
                    add("7", n, code.strip())
            for line, fn, head, body in functions(text):
                params = re.split(r"[({]", head, maxsplit=1)[1] if "(" in head else ""
                count = len(re.findall(r"\b\w+: ", params.split(")\n")[0].split(") ->")[0]))
                if count >= 6 and not outer:
                    add("5a", line, f"{fn}, {count}")
                if re.search(r"buf: &mut \[u8\], (at|used): usize|buf: &\[u8\], length", head) or (
                    re.search(r"&mut \[u8\]", head) and re.search(r"\b(at|kept|used|length): usize", head)
                ):
                    add("6", line, fn)
                if re.search(r"-> u(32|64)\b", head) and re.search(r"^    0$", body, re.M) and not outer:
                    if re.search(r"return \w+;|=> \w+\.number", body):
                        add("1c", line, fn)
                if re.search(r"\b" + fn + r"\(\w+[^;]* - 1\b", body):
                    add("3", line, f"{fn} calls itself")
                for c in re.findall(r"requires (?:\w+ )?\{ (.*) \}$", head, re.M):
                    for fact in c.split(" × "):
                        clauses[fact.strip("() ")] += 1
                if body.count("\n") > 2:
                    shapes[shape(head, body)].append(f"{name}:{line} {fn}")
        for fact, n in clauses.items():
            if n >= 3 and not outer:
                found["5b"].append(f"{crate}: {fact}, {n} times")
        for same in shapes.values():
            if len(same) > 1 and not crate.startswith(("cabin", "bench")):
                found["2"].append(" = ".join(same))
        for path in glob.glob(f"{root}/crates/{crate}/proofs/**/Answers.antt", recursive=True):
            found["8"] += re.findall(r"^pub ([\w-]+) : goal\.", open(path).read(), re.M)
    return found


def main():
    args = sys.argv[1:]
    point = None
    if args[:1] == ["--list"]:
        point, args = args[1], args[2:]
    found = places(args[0] if args else ".")
    if point:
        print("\n".join(found[point]))
    else:
        for p, says in POINTS.items():
            print(f"{p:3} {len(found[p]):5}  {says}")


if __name__ == "__main__":
    main()
