#!/usr/bin/env python3
"""mutants.py SEED [CRATE..]: in the body of every function of a crate one operator, comparison, constant or field becomes
another of its kind, and the prover must refuse every function. All functions of a crate are altered in one copy, so that a
crate is one check: a function's proof rests on its own code and on the contracts of what it calls, so that what the prover
says of a function there it says of that function alone. One that it refuses only since another is not proved is tried
again without that. A copy begins with what `rt check` kept of its crate, which must be proved. RT_JOBS run side by side.

A line for each function that is still proved: its contract has a hole, or the two programs do the same. Functions with
nothing to alter, and those where the compiler refuses what comes out, are counted apart. Ends with 1 where one is proved."""
import concurrent.futures
import pathlib
import random
import re
import shutil
import sys
import tempfile

from edits import FUNCTION, code_of
from prover import JOBS, ROOT, Prover

OTHERS = {" + ": [" - "], " - ": [" + "], " * ": [" + "], " / ": [" * "], " % ": [" / "], " <= ": [" < ", " >= "], " < ": [" <= ", " > "],
          " >= ": [" > "], " > ": [" >= ", " < "], " == ": [" != "], " != ": [" == "], ".x": [".y"], ".y": [".z"], ".z": [".x"],
          ".lo": [".hi"], ".hi": [".lo"], ".below": [".above"], ".above": [".below"], "true": ["false"], "false": ["true"]}
SITE = re.compile(r" [-+*/%] | [<>]=? | [!=]= |\.(?:x|y|z|lo|hi|below|above)\b|\b(?:true|false)\b|(?<![\w.])\d[\d_]*(?=\.\d|(?![\w.]))")


def mutations(body):
    """(from, to, new) of each single mutation of a body's code."""
    for line in re.finditer(r".*\n", body):
        code = line[0].split("//")[0]
        for site in [] if 'b"' in code else SITE.finditer(code):
            old = site[0]
            news = OTHERS.get(old) or [str(n) for n in (int(old) + 1, int(old) - 1) if n >= 0]
            yield from ((line.start() + site.start(), line.start() + site.end(), new) for new in news)


def modules_of(file):
    """The modules of what stands in a file of src/."""
    module = file.removeprefix("src/").removesuffix(".rt").removesuffix("/mod")
    return [] if module in ("lib", "main") else module.split("/")


class Mutant:
    """One function with one mutation."""

    def __init__(self, crate, file, function, mutation):
        begin, end, self.new = mutation
        self.file, self.begin, self.end = file, function.start(3) + begin, function.start(3) + end
        self.line = function.string.count("\n", 0, self.begin) + 1
        self.was = function.string.split("\n")[self.line - 1].strip()
        self.symbol = "::".join([crate, *modules_of(file), function[2]])


def chosen(crate, dice):
    """A mutant of each function that has one, and how many functions have none."""
    mutants, none = [], 0
    for path in sorted((ROOT / "crates" / crate / "src").rglob("*.rt")):
        for function in FUNCTION.finditer(code_of(path)):
            ways = list(mutations(function[3]))
            none += not ways
            mutants += [Mutant(crate, str(path.relative_to(ROOT / "crates" / crate)), function, dice.choice(ways))] if ways else []
    return mutants, none


def put(mutants, room):
    for file in {mutant.file for mutant in mutants}:
        text = (room / file).read_text()
        for mutant in sorted((m for m in mutants if m.file == file), key=lambda m: -m.begin):
            text = text[:mutant.begin] + mutant.new + text[mutant.end:]
        (room / file).write_text(text)


def copy(crate, room):
    """The crate's files, and what `rt check` kept of it."""
    for part in ("src", "specs", "proofs"):
        if (ROOT / "crates" / crate / part).is_dir():
            shutil.copytree(ROOT / "crates" / crate / part, room / part)
    shutil.copytree(ROOT / "crates" / crate / "out" / "incremental", room / "kept")


def check(prover, crate, mutants):
    """The mutants that compile, and what the prover said of the copy with all of them in it."""
    while True:
        with tempfile.TemporaryDirectory() as room:
            room = pathlib.Path(room)
            copy(crate, room)
            put(mutants, room)
            _, said = prover.ask("check", crate, room, "--jobs", "1", "--incremental", room / "kept")
        if not mutants or re.search(r"^logic=", said, re.M):
            return mutants, said
        wrong = {(place[1], int(place[2])) for place in re.finditer(r"^(?:\./)?(src/\S+?\.rt):(\d+):\d+: error", said, re.M)}
        typed = [m for m in mutants if (m.file, m.line) not in wrong]
        if len(typed) == len(mutants):
            raise SystemExit(f"{crate}: neither proved nor refused\n{said[-2000:]}")
        mutants = typed


def refused(mutant, said):
    """Whether the prover refuses the function; None where it says only that it calls one that is refused."""
    line = re.search(rf"^fn {mutant.symbol}: (.*)", said, re.M)[1]
    return None if "which " in line else line != "proved"


def try_crate(prover, crate, seed):
    """(refused, not typed, with nothing to alter, those still proved)."""
    left, none = chosen(crate, random.Random(f"{seed} {crate}"))
    count, untyped, proved, alone = 0, 0, [], False
    while left:
        mutants, said = check(prover, crate, left[:1] if alone else left)
        untyped += (1 if alone else len(left)) - len(mutants)
        told = {m: True if alone and refused(m, said) is None else refused(m, said) for m in mutants}
        count += sum(answer is True for answer in told.values())
        proved += [m for m, answer in told.items() if answer is False]
        rest = [m for m, answer in told.items() if answer is None]
        alone, left = alone or len(rest) == len(left), rest + (left[1:] if alone else [])
    return count, untyped, none, proved


def main():
    if len(sys.argv) < 2:
        print(__doc__, file=sys.stderr)
        return 2
    seed, crates = sys.argv[1], sys.argv[2:]
    prover, total, holes = Prover(), [0, 0, 0], 0
    crates = crates or [crate for crate in prover.over if (ROOT / "crates" / crate / "out" / "incremental").is_dir()]
    with concurrent.futures.ThreadPoolExecutor(JOBS) as pool:
        for crate, (*counts, proved) in zip(crates, pool.map(lambda one: try_crate(prover, one, seed), crates)):
            total, holes = [a + b for a, b in zip(total, counts)], holes + len(proved)
            print(f"{crate}: {counts[0]} refused, {counts[1]} not typed, {counts[2]} with nothing to alter, {len(proved)} still proved", flush=True)
            for m in proved:
                print(f"    {m.symbol}, {m.file}:{m.line}: {m.was}    with{' ' if m.new[0] != ' ' else ''}{m.new}", flush=True)
    print(f"{total[0]} functions refused, {total[1]} not typed, {total[2]} with nothing to alter, {holes} still proved")
    return 1 if holes else 0


if __name__ == "__main__":
    sys.exit(main())
