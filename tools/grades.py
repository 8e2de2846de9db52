#!/usr/bin/env python3
"""grades: solves graded by a version of the settings, our desk against the second program's (02, T-11).

  tools/grades.py OURS SECOND [COUNT [SEED]]

OURS and SECOND start a program: `OURS desk FILE`. COUNT advances and transfers of `second requests` are taken (1,000 unless
said), most with a version named behind them, and each is asked with each of several files: none, one that is not there, an
empty one, a folder, whole ones and damaged ones. Some versions have the fraction at which a solve's err is its limit, to the bit. The
answers and the exit status must agree. Exits 1 at a difference, and where no solve shows a grade, 30, 23, or a grade other than
by 01's fractions."""
import collections
import math
import pathlib
import random
import shlex
import struct
import subprocess
import sys
import tempfile
import time

sys.path.insert(0, str(pathlib.Path(__file__).parent))
from settings import WRONG, record, whole

SHOWN = 10
LONGEST = 900  # with a version behind it, a line stays within the desk's 1,000 bytes
FRACTIONS = [(2.0**-20, 2.0**-10), (0.0, 0.0), (0.0, 1.0), (1.0, 1.0), (2.0**-40, 2.0**-40), (2.0**-52, 2.0**-10), (2.0**-40, 2.0**-30),
             (2.0**-30, 2.0**-25), (2.0**-60, 2.0**-52), (5e-324, 0.5), (2.0**-20, 2.0**-20), (2.0**-10, 1.0)]
FOLDER = "a folder"
KINDS = ["closed", "fair", "rough", "refused 30", "refused 23", "graded otherwise than by 01's fractions"]


def asked(program, words, lines):
    """Whether all is well with it, and a desk's answers, one a line; where it gives none, as many that are empty."""
    given = "".join(line + "\n" for line in lines).encode()
    ran = subprocess.run([*shlex.split(program), "desk", *words], input=given, capture_output=True)
    got = ran.stdout.decode("latin-1").splitlines() or [""] * len(lines)
    if len(got) != len(lines):
        sys.exit(f"{program} desk {' '.join(words)}: {len(got)} answers to {len(lines)} requests")
    return [f"status {ran.returncode}, {'a word' if ran.returncode and ran.stderr else 'no word'} on standard error", *got]


def fresh(second, count, seed):
    """Advances and transfers, with all that stands behind them."""
    made = subprocess.run([*shlex.split(second), "requests", str(seed), str(4 * count + 8000)], stdout=subprocess.PIPE, check=True)
    lines = (" ".join(line.split()) for line in made.stdout.decode("latin-1").split("\n") if line.isprintable())
    return [line for line in lines if line.removeprefix("why ").startswith(("kepler ", "lambert ")) and len(line) <= LONGEST][-count:]


def number(word):
    return struct.unpack(">d", bytes.fromhex(word[1:]))[0] if word.startswith("x") else float(word)


def limit_of(request, answer):
    """The fraction of the time asked at which a solve's err is the limit, to the bit, and the next that is under it."""
    words = answer.split()
    if words[0] != "done":
        return None
    size, err = abs(number(request.split()[8])), number(words[words.index("bits") + 2])
    if not (size > 1 and err > 2.0**-60):
        return None
    about = [err / size]
    for _ in range(3):
        about = [math.nextafter(about[0], 0), *about, math.nextafter(about[-1], 2)]
    at = [fraction for fraction in about if size * fraction == err and fraction <= 1]
    return (at[0], math.nextafter(at[0], 0)) if at else None


def at_limits(second, alone):
    """A full file's fractions, and the solves that are at their limit with one of them, or just beyond."""
    fractions, lines = list(FRACTIONS), []
    for request, answer in zip(alone, asked(second, [], alone)[1:]):
        limit = limit_of(request, answer)
        if limit is None or len(fractions) > 61:
            continue
        at, under = limit
        for pair in ((at, 1.0), (under, at), (under, under)):
            fractions.append(pair)
            lines.append(f"{request} version {len(fractions)}")
    return fractions, lines


def some_version(dice):
    kind = dice.randrange(8)
    return dice.choice((0, 64, 65, 2**32 + 1, 2**64 - 1)) if kind == 0 else dice.randint(1, 3) if kind < 4 else dice.randint(1, 64)


def some_files(dice, full):
    """What each file holds; None where it is not there, and FOLDER."""
    by_chance = [sorted(2.0**-dice.uniform(0, 60) for _ in range(2)) for _ in range(64)]
    holds = [whole(dice.sample(FRACTIONS, 1)), whole(dice.sample(FRACTIONS, 3)), whole(FRACTIONS[::-1]), whole(by_chance), full]
    cut = full[:44 * dice.randrange(len(full) // 44) + dice.randint(1, 43)]
    damaged = [record(1) + record(**({"number": 2} | wrong)) + record(3) for wrong in dice.sample(WRONG, 2)]
    return [None, b"", FOLDER, *holds, whole(by_chance) + record(65), cut, *damaged]


def in_room(room, files):
    """The words behind `desk`: none, then each file."""
    yield []
    for k, holds in enumerate(files):
        path = room / str(k)
        if holds == FOLDER:
            path.mkdir(exist_ok=True)
        elif holds is not None:
            path.write_bytes(holds)
        yield [str(path)]


def made(second, count, seed):
    """Requests, and what the files hold that they are asked with."""
    dice = random.Random(seed)
    solves = fresh(second, count, seed)
    alone = [line for line in solves if "version" not in line]
    fractions, lines = at_limits(second, alone)
    lines += [line if "version" in line or dice.randrange(8) == 0 else f"{line} version {some_version(dice)}" for line in solves]
    return lines, some_files(dice, whole(fractions))


def grade_of(answer):
    words = answer.split()
    return words[words.index("grade") + 1] if words and words[0] == "done" else None


def kinds(lines, without, answers):
    """What the answers to lines that name a version show."""
    shown = collections.Counter()
    for line, one, other in zip(lines, answers, without):
        if "version" not in line:
            continue
        grade = grade_of(one)
        shown[grade or one] += 1
        shown[KINDS[-1]] += grade is not None and grade != grade_of(other)
    return shown


def main(ours, second, count=1000, seed=None):
    seed = int(time.time()) if seed is None else int(seed)
    lines, files = made(second, int(count), seed)
    without = asked(second, [], [line.split(" version")[0] for line in lines])[1:]
    different, shown = 0, collections.Counter()
    with tempfile.TemporaryDirectory() as folder:
        for words in in_room(pathlib.Path(folder), files):
            by_ours, by_second = (asked(program, words, lines) for program in (ours, second))
            shown += kinds(lines, without, by_second[1:])
            for line, one, other in zip(["the desk itself", *lines], by_ours, by_second, strict=True):
                if one == other:
                    continue
                different += 1
                if different <= SHOWN:
                    print(f"desk {' '.join(words)}: {line}\n  ours:   {one}\n  second: {other}")
    print(f"{len(lines)} solves by {len(files)} files of settings, seed {seed}: " + ", ".join(f"{shown[kind]} {kind}" for kind in KINDS))
    print(f"{different} differences")
    return 1 if different or not all(shown[kind] for kind in KINDS) else 0


if __name__ == "__main__":
    if not 3 <= len(sys.argv) <= 5:
        sys.exit(__doc__)
    sys.exit(main(*sys.argv[1:]))
