#!/usr/bin/env python3
"""settings: our settings program against the second program's, on fresh files, whole and damaged (02, T-11).

  tools/settings.py OURS SECOND [COUNT [SEED]]

OURS and SECOND start a program: `OURS settings FILE list`. To files at each limit come COUNT by chance (20 unless
said), each in two copies; on each a few commands are given to both. What is printed, the exit status and
every byte of the file must agree. Exits 1 at a difference."""
import pathlib
import random
import shlex
import struct
import subprocess
import sys
import tempfile
import time

from differences import Differences

NUMBERS = ["x7FF0000000000000", "xFFF0000000000000", "x7FF8000000000000", "0", "-0", "1", "0.5", "x3EB0000000000000", "x3FF0000000000001",
           "-0.5", "x8000000000000001", "268435456", "x41AFFFFFFFFFFFFF", "68719476736", "x422FFFFFFFFFFFFF", "536870912", "x41BFFFFFFFFFFFFF",
           "x0000000000000001", "6378165", "1738090", "39860120000", "490277800"]
UNREAD = ["", "x", "1e5", "1.", "nan", "-1", "18446744073709551616", "0x10", "1 2"]


def record(number, body=0, mu=3.986012e10, radius=6378165.0, closed=2.0**-20, fair=2.0**-10, length=44, kind=5, zero=0):
    return struct.pack("<HHIBBHdddd", length, kind, number, body, zero & 255, zero >> 8, mu, radius, closed, fair)


def whole(fractions):
    """A file with a version for each pair of fractions."""
    return b"".join(record(k, body=k % 2, closed=closed, fair=fair) for k, (closed, fair) in enumerate(fractions, 1))


GOOD = ["store", "1", "490277800", "1738090", "0.25", "0.5"]
INFINITE, NONE = float("inf"), float("nan")

# what may be wrong with a version that is stored; its number is 2
WRONG = [
    *({"number": n} for n in (0, 1, 3, 258, 65538)), *({"body": n} for n in (2, 255)), *({"zero": n} for n in (1, 256, 65536)),
    *({"kind": n} for n in (4, 6, 261)), *({"length": n} for n in (43, 45, 300)), *({"mu": x} for x in (2.0**28 - 1, 2.0**36, NONE, INFINITE)),
    *({"radius": x} for x in (0.0, -1.0, 2.0**29, NONE)), *({"closed": x} for x in (-0.25, NONE, 0.5)), *({"fair": x} for x in (1.5, NONE))]

# a word of `store` at its limits, and two faults at once
EDGES = [
    *((1, w) for w in ("0", "2", "256", "18446744073709551615")), *((2, w) for w in ("268435456", "x41AFFFFFFFFFFFFF", "68719476736", "x422FFFFFFFFFFFFF", "x7FF8000000000000")),
    *((3, w) for w in ("0", "-0", "x0000000000000001", "536870912", "x41BFFFFFFFFFFFFF", "x7FF0000000000000")),
    *((4, w) for w in ("0", "-0", "x8000000000000001", "0.5", "x3FE0000000000001", "xFFF0000000000000")), *((5, w) for w in ("1", "x3FF0000000000001", "0.25", "x7FF8000000000000"))]


def with_words(*changes):
    words = list(GOOD)
    for place, word in changes:
        words[place] = word
    return words


def edges():
    """Files that are wrong in one thing, and words of `store` at their limits, one at a time and two at once."""
    for wrong in WRONG:
        yield record(1) + record(**({"number": 2} | wrong)) + record(3), [["list"], GOOD]
    yield None, [with_words(edge) for edge in EDGES]
    yield record(1), [with_words((1, "2"), (3, "0")), with_words((2, "1"), (5, "x7FF0000000000000")), with_words((2, "1"), (3, "0")), with_words((1, "2"), (2, "0"))]
    full = b"".join(record(k) for k in range(1, 65))
    yield full, [GOOD, with_words((1, "2")), ["back", "65"], ["back", "64"], ["show", "64"]]
    yield full + record(65), [["list"], GOOD, ["back", "1"]]
    yield full[:-1], [["list"], with_words((1, "2")), ["show", "65"]]


def beginning(dice):
    """The file at first: none, whole, full, over-full, cut or damaged."""
    count = dice.choice((0, 1, 2, 3, 5, 62, 63, 64))
    whole = b"".join(record(k, body=k % 2, closed=k / 256, fair=k / 128) for k in range(1, count + 1))
    kind = dice.randrange(10)
    if kind == 0:
        return None
    if kind < 4 and count:
        place = 44 * dice.randrange(count)
        return whole[:place] + record(**({"number": place // 44 + 1} | dice.choice(WRONG))) + whole[place + 44:]
    if kind == 4:
        return whole + dice.choice((b"\0", record(count + 1)[:43], record(65) if count == 64 else record(count + 1) + b",", record(count + 2)))
    if kind == 5 and whole:
        place = dice.randrange(len(whole))
        return whole[:place] + bytes([dice.randrange(256)]) + whole[place + 1:]
    return whole


def some_command(dice):
    number = str(dice.choice((0, 1, 1, 2, 2, 3, 4, 63, 64, 65, 2**64 - 1)))
    kind = dice.randrange(8)
    if kind == 0:
        return ["list"]
    if kind == 1:
        return ["show", dice.choice((number, dice.choice(UNREAD)))]
    if kind < 4:
        return ["back", number if dice.randrange(8) else dice.choice(UNREAD)]
    words = [str(dice.randrange(2)), dice.choice(("39860120000", "490277800", "4294967296")), dice.choice(("6378165", "1738090")), *dice.choice((("0.25", "0.5"), ("x3EB0000000000000", "0.0009765625"), ("0", "1"), ("1", "1")))]
    for _ in range(dice.choice((0, 0, 0, 1, 1, 2))):
        place = dice.randrange(5)
        words[place] = dice.choice(("2", "255", "256", "-0", "18446744073709551615")) if place == 0 else dice.choice(NUMBERS)
    if dice.randrange(12) == 0:
        words[dice.randrange(5)] = dice.choice(UNREAD)
    return ["store", *words]


def sequences(count, seed):
    """Files at first, with the commands that are given on each."""
    dice = random.Random(seed)
    return [*edges(), *((beginning(dice), [some_command(dice) for _ in range(dice.randint(2, 6))]) for _ in range(count))]


def run(command, *words, given=b""):
    ran = subprocess.run([*shlex.split(command), *map(str, words)], input=given, capture_output=True)
    return ran.returncode, ran.stdout


def contents(path):
    return path.read_bytes() if path.exists() else None


def outcomes(command, sequence, room):
    """What each command prints and ends with, and the file then."""
    path = room / "settings"
    path.unlink(missing_ok=True)
    first, commands = sequence
    if first is not None:
        path.write_bytes(first)
    for words in commands:
        yield words, (*run(command, "settings", path, *words), contents(path))


def main(ours, second, count=20, seed=None):
    seed = int(time.time()) if seed is None else int(seed)
    found, files = Differences(), sequences(int(count), seed)
    with tempfile.TemporaryDirectory() as folder:
        room = pathlib.Path(folder)
        for sequence in files:
            by_ours, by_second = list(outcomes(ours, sequence, room)), list(outcomes(second, sequence, room))
            for (words, one), (_, other) in zip(by_ours, by_second, strict=True):
                found.look(" ".join(words), one, other)
    return found.told(f"{len(files)} files of settings, {found.looked} commands, seed {seed}")


if __name__ == "__main__":
    if not 3 <= len(sys.argv) <= 5:
        sys.exit(__doc__)
    sys.exit(main(*sys.argv[1:]))
