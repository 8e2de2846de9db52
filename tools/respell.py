#!/usr/bin/env python3
"""Spells the repository's own definitions and lemmas as the newer Rattle does: a word in snake case, where port.py left it
in camel case; a lemma that would then have its definition's name, but for a dash, ends in _lem.

usage: respell.py [--check]      at the top of the repository, once, right behind port.py

It goes by whole words. A word counts where the file declares it or imports it from a module of this repository, in a
path of such a module, in a wrong build, and in a page. A new spelling that some file has already is named and not taken.
"""

import collections
import pathlib
import re
import sys

WORD = r"[^\s(){}\[\];,.@\"`:|]+"
DECLARED = re.compile(rf"^ *(?:(?:unfoldable|abbrev|pub|mutual) )*({WORD}) :(?: |$)")
CAMEL = re.compile(r"[a-z][A-Za-z0-9']*[A-Z]")
# Lemmas to which port.py gave the name that a definition now has, and where they are cited.
LEMMAS = {
    "allowed_at": ["session/proofs/Allowed.antt"],
    "bytes_le": ["field/proofs/Bytes.antt", "session/proofs/WriteBack.antt"],
    "by_number": ["forms/proofs/Steps.antt", "single/proofs/*/Proof.antt"],
    "by_whole": ["forms/proofs/Steps.antt", "courses/proofs/*/Proof.antt", "looks/proofs/*/Proof.antt"],
    "moved_by": ["burn/proofs/NotZero.antt"],
    "room_open": ["stream/proofs/Calls.antt"],
}


def snake(name):
    name = re.sub(r"([a-z0-9])([A-Z])", r"\1_\2", name)
    return re.sub(r"([A-Z])([A-Z][a-z])", r"\1_\2", name).lower()


def words(text):
    return set(re.findall(WORD, text))


def declared(path):
    found = set()
    for line in path.read_text(encoding="utf-8").split("\n"):
        match = DECLARED.match(line)
        if match and not line.lstrip().startswith("--"):
            found.add(match.group(1))
    return found


def main():
    top = pathlib.Path(".")
    antt = [p for p in sorted(top.glob("crates/*/*/**/*.antt")) if "/out/" not in str(p)]
    lemmas = [p for p in antt if p.name != "Proof.antt"]
    rust = sorted(top.glob("crates/*/src/**/*.rt"))
    edits = sorted(top.glob("crates/*/must-fail/*.edit"))
    pages = sorted([*top.glob("README.md"), *top.glob("docs/**/*.md")])

    for name, places in LEMMAS.items():
        for path in [q for place in places for q in top.glob(f"crates/{place}")]:
            text = path.read_text(encoding="utf-8")
            turned = re.sub(rf"(?<![\w.'-]){name}(?![\w'-])", f"{name}_lem", text)
            if turned != text and "--check" not in sys.argv:
                path.write_text(turned, encoding="utf-8")

    own = set().union(*map(declared, lemmas))
    new = {}
    for name in sorted(own):
        if CAMEL.match(name) and "-" not in name:
            new[name] = snake(name)
    taken = set(new.values())
    for name in sorted(own):
        if "-" in name and "◌" not in name and name.replace("-", "_") in taken:
            new[name] = name.replace("-", "_") + "_lem"

    clashes = collections.defaultdict(set)
    texts = {p: p.read_text(encoding="utf-8") for p in [*antt, *rust]}
    for path, text in texts.items():
        here = words(text)
        for name in here & set(new):
            if new[name] in here and path.suffix == ".antt":
                clashes[name].add(str(path))
    for name, files in sorted(clashes.items()):
        print(f"look: {name}: {new[name]} stands already in {', '.join(sorted(files))}")

    pattern = re.compile(rf"(?<![^\s(){{}}\[\];,.@\"`:|])({'|'.join(re.escape(n) for n in sorted(new, key=len, reverse=True))})(?![^\s(){{}}\[\];,.@\"`:|])")
    dashed = {n for n in new if "-" in n}
    for path in [*antt, *rust, *edits, *pages]:
        text = path.read_text(encoding="utf-8")
        is_page = path.suffix in (".md", ".edit", ".rt")
        turned = pattern.sub(lambda m: m.group(1) if is_page and m.group(1) in dashed else new[m.group(1)], text)
        if turned != text and "--check" not in sys.argv:
            path.write_text(turned, encoding="utf-8")
    print(f"{len(new)} names")


if __name__ == "__main__":
    main()
