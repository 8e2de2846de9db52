#!/usr/bin/env python3
"""Every routine that others call keeps its promise on paper: it has no `requires`, it has an `ensures`, and
docs/PROMISES.md has a row for it, whose definition and must-fail edits are there. The library for C exports what cabin.h
declares, and each export has the clauses of the routine of its name and calls that. An edit alters what the routine runs,
every routine has one but those that the page excepts, and every edit has a row. Each law of that page stands in the proofs
that its row names. Prints each that does not, and ends with 1 if there is one."""
import functools
import pathlib
import re
import sys

from edits import FUNCTION, Edit, code_of

ROOT = pathlib.Path(__file__).resolve().parent.parent
PAGE = ROOT / "docs" / "PROMISES.md"
EXPORTS = ROOT / "crates" / "cabin"  # the library for C


def contract(lines, start):
    """The text of a function's head: from `fn` to the line that opens its body, or that ends it in a trait."""
    head = []
    for line in lines[start:]:
        head.append(line)
        if line.rstrip() == "{" or line.rstrip().endswith(";") or (len(head) == 1 and line.rstrip().endswith("{")):
            break
    return "\n".join(head)


def called_from_outside(crate):
    """(file, line, name, head) of each function that another crate can call."""
    face = (crate / "src" / "lib.rt").read_text()
    handed_on = {f"{inner}::{name}" for inner, names in re.findall(r"^pub use (\S+)::(\w+|\{[^}]*\});", face, re.M) for name in re.findall(r"\w+", names)}
    for source in sorted(crate.glob("src/**/*.rt")):
        inner = "::".join(source.relative_to(crate / "src").with_suffix("").parts)
        open_module = inner == "lib" or re.search(rf"^pub mod {re.escape(inner)};", face, re.M)
        lines = source.read_text().split("\n")
        operator = None  # of an impl of a trait of std: what its ghost member says that the method gives
        trait = False  # in a public trait, whose methods have their contracts there
        for number, line in enumerate(lines):
            if line.startswith("}"):
                operator, trait = None, False
            elif line.startswith("pub trait "):
                trait = bool(open_module)
            elif trait and (found := re.match(r"    fn (\w+)", line)):
                yield source, number + 1, found.group(1), contract(lines, number)
            elif said := re.match(r"    ghost \w+_gives = (\{.*\});", line):
                operator = said.group(1)
            elif operator and (found := re.match(r"    fn (\w+)", line)):
                yield source, number + 1, found.group(1), f"{line}\n        ensures {operator}"
            found = re.match(r"\s*pub (?:extern \"C\" )?fn (\w+)", line)
            if not found:
                continue
            name = found.group(1)
            if open_module or f"{inner}::{name}" in handed_on:
                yield source, number + 1, name, contract(lines, number)


def routines():
    """(crate, what it hands out) of each library."""
    for crate in sorted((ROOT / "crates").iterdir()):
        if (crate / "src" / "lib.rt").exists() and crate != EXPORTS:
            yield from ((crate, *one) for one in called_from_outside(crate))


def bare(text):
    """The words of a text, however it is laid out."""
    return re.sub(r"[\s,]+", " ", text).replace("( ", "(").replace(" )", ")").strip()


def faults_of_exports():
    """What the library for C exports otherwise than a crate has it, or cabin.h declares."""
    code = (EXPORTS / "src" / "lib.rt").read_text()
    given = {f"{crate.name}::{name}": bare(head.split("fn", 1)[1]) for crate, _, _, name, head in routines()}
    exports = re.findall(r'^#\[unsafe\(no_mangle\)\]\npub extern "C" fn ((\w+)\((.*?)\) -> u32\n[^{}]*\{.*?)^\{\n(.*?)^\}', code, re.M | re.S)
    for head, name, parameters, body in exports:
        words = bare(" ".join(re.findall(r"(\w+):", parameters)))
        call = re.fullmatch(r"(\w+::\w+)\((.*)\)", bare(body))
        if not call or call[1].split("::")[1] != name or bare(call[2]) != words:
            yield f"the library for C: {name} does more than to call the routine of its name with its own words"
        elif given.get(call[1]) != bare(head + "{"):
            yield f"the library for C: {name} has other words or clauses than {call[1]}"
    declared = re.findall(r"^uint32_t (\w+)\(", (ROOT / "library" / "cabin.h").read_text(), re.M)
    if sorted(declared) != sorted(name for _, name, _, _ in exports):
        yield f"the library for C exports {len(exports)} routines, and cabin.h declares {len(declared)}, or others"


def names_cited(page):
    """(routine, its definitions, its edits) of each row."""
    for row in re.findall(r"^\| `\w+::\w+` \|.*\|$", page, re.M):
        cells = row.strip("|").split(" | ")
        yield cells[0].strip(" `"), re.findall(r"`([^`]+)`", cells[2]), re.findall(r"`([^`]+)`", cells[-1])


def edit_of(crate, name):
    return ROOT / "crates" / crate / "must-fail" / f"{name}.edit"


def faults_of_names(page):
    """What the page cites and the crates do not have."""
    written = "".join(path.read_text() for path in ROOT.glob("crates/*/specs/*.antt"))
    for routine, definitions, edits in names_cited(page):
        for name in definitions:
            if not re.search(rf"(?:^| ){re.escape(name)}(?: |$)", written, re.M):
                yield f"docs/PROMISES.md: {routine} cites the definition {name}, which no specs/ has"
        for name in edits:
            if not edit_of(routine.split("::")[0], name).exists():
                yield f"docs/PROMISES.md: {routine} cites the edit {name}, which its crate does not have"
    for crate, name in re.findall(r"`(\w+)/(\w+)`", page):
        if not edit_of(crate, name).exists():
            yield f"docs/PROMISES.md cites the edit {crate}/{name}, which is not there"


@functools.cache
def bodies(crate):
    """{name: the text of the functions of this name} of a crate."""
    found = {}
    for source in sorted((ROOT / "crates" / crate / "src").rglob("*.rt")):
        for function in FUNCTION.finditer(code_of(source)):
            found[function[2]] = found.get(function[2], "") + function[3]
    return found


def runs(crate, routine):
    """The functions of its crate that a routine runs, by their names."""
    seen, left = set(), {routine}
    while left:
        seen |= left
        left = {word for name in left for word in re.findall(r"\w+", bodies(crate).get(name, ""))} & bodies(crate).keys() - seen
    return seen


def faults_of_edits(page):
    """Rows without an edit, edits of what the row's routine does not run, and edits without a row."""
    excepted = re.findall(r"`(\w+::\w+)`", re.search(r"every routine below has one but (.*)", page)[1])
    cited = set(re.findall(r"`(\w+)/(\w+)`", page))
    for routine, _, edits in names_cited(page):
        crate, name = routine.split("::")
        cited |= {(crate, edit) for edit in edits}
        if bool(edits) == (routine in excepted):
            yield f"docs/PROMISES.md: {routine} has no edit, or is excepted and has one"
        for edit in (edit for edit in edits if edit_of(crate, edit).exists()):
            altered = {function for _, function in Edit(edit_of(crate, edit)).functions}
            if altered and not altered & runs(crate, name):
                yield f"docs/PROMISES.md: {routine} cites the edit {edit}, which alters {', '.join(altered)}, and it does not run that"
    for path in sorted(ROOT.glob("crates/*/must-fail/*.edit")):
        crate = path.parent.parent
        if (crate / "src" / "lib.rt").exists() and (crate.name, path.stem) not in cited:
            yield f"{path.relative_to(ROOT)} has no row in docs/PROMISES.md"


def faults_of_laws(page):
    """The laws of a row that none of its files has: CRATE/proofs/FILE, and further files of the same crate by their names."""
    for laws, where in re.findall(r"^\| (`[\w-]+`.*?) \| .* \| ([^|]*/proofs/[^|]*) \|$", page, re.M):
        written, crate = "", ""
        for place in re.split(r"[;,] ", where):
            crate, _, file = place.rpartition("/proofs/") if "/proofs/" in place else (crate, "", place)
            path = ROOT / "crates" / crate / "proofs" / f"{file}.antt"
            if not path.exists():
                yield f"docs/PROMISES.md: a row of laws names {crate}/proofs/{file}, which is not there"
            written += path.read_text() if path.exists() else ""
        for law in re.findall(r"`([^`]*[^-`])`", laws):  # a name that ends in a dash stands for several
            if not re.search(rf"^\s*(?:(?:abbrev|unfoldable) )?(?:pub )?(?:record )?{re.escape(law)}[ :]", written, re.M):
                yield f"docs/PROMISES.md: {where} does not have the law {law}"


def main():
    page = PAGE.read_text()
    rows = re.findall(r"^\| `(\w+)::(\w+)`", page, re.M)
    faults, seen = [*faults_of_names(page), *faults_of_edits(page), *faults_of_laws(page), *faults_of_exports()], set()
    for crate, source, number, name, head in routines():
        place = f"{source.relative_to(ROOT)}:{number} {crate.name}::{name}"
        seen.add((crate.name, name))
        if re.search(r"^\s*requires\b", head, re.M):
            faults.append(f"{place} has a requires: a caller could break it")
        if not re.search(r"^\s*ensures\b", head, re.M):
            faults.append(f"{place} has no ensures: it promises nothing")
        if (crate.name, name) not in rows:
            faults.append(f"{place} has no row in docs/PROMISES.md")
    for crate, name in rows:
        if (crate, name) not in seen:
            faults.append(f"docs/PROMISES.md has a row for {crate}::{name}, and no such routine is public")
    print("\n".join(faults + [f"{len(seen)} routines that others call, {len(faults)} without their promise"]))
    return 1 if faults else 0


sys.exit(main())
