#!/usr/bin/env python3
"""replay: our replay against the second program's, on fresh sessions (02, T-10).

  tools/replay.py OURS SECOND [COUNT [SEED]]

OURS and SECOND start a program: `OURS replay FILE`. COUNT flights are made (60 unless said), and half as many of the sessions that the
listing gets; each is flown with the constants that stand, with two numbers, or by settings, some of them damaged. What is printed and
the exit status must agree. Exits 1 at a difference."""
import pathlib
import random
import shlex
import subprocess
import sys
import tempfile
import time

sys.path.insert(0, str(pathlib.Path(__file__).parent))
from differences import Differences
from settings import record

NUMBERS = ["39860120000", "490277800", "4294967296", "x41AFFFFFFFFFFFFF", "268435456", "68719476736", "0", "-1", "x7FF8000000000000"]
UNREAD = ["x", "1e5", "", "-"]


def run(command, *words):
    """The exit status and the lines."""
    ran = subprocess.run([*shlex.split(command), *map(str, words)], capture_output=True)
    return [f"exit {ran.returncode}", *ran.stdout.split(b"\n")]


def some_settings(dice):
    """Versions of either body, whole or not."""
    parts = [record(k, body=dice.randrange(2), mu=dice.choice((3.986012e10, 490277800.0, 2.0**32))) for k in range(1, 6)]
    if dice.randrange(6) == 0:
        parts[dice.randrange(5)] = record(9)
    return b"".join(parts)


def some_words(dice, room):
    """What stands behind FILE."""
    kind = dice.randrange(6)
    if kind < 3:
        return []
    if kind == 3:
        return [dice.choice(NUMBERS + UNREAD[:1]), dice.choice(NUMBERS)] if dice.randrange(2) else [dice.choice(NUMBERS[:3]) for _ in range(2)]
    path = room / "settings"
    path.write_bytes(some_settings(dice))
    numbers = [str(dice.randrange(7)) if dice.randrange(8) else dice.choice(("18446744073709551615", *UNREAD)) for _ in range(2)]
    return ["--settings", str(path), *numbers]


def flights(second, count, seed, room):
    """Sessions, each with the words that it is flown by."""
    dice = random.Random(seed)
    for what, number in (("flights", count), ("sessions", count // 2)):
        folder = room / what
        folder.mkdir()
        subprocess.run([*shlex.split(second), what, str(seed), str(number), folder], check=True)
        for path in sorted(folder.iterdir()):
            yield path, some_words(dice, room)


def main(ours, second, count=60, seed=None):
    seed = int(time.time()) if seed is None else int(seed)
    found = Differences()
    with tempfile.TemporaryDirectory() as folder:
        for path, words in flights(second, int(count), seed, pathlib.Path(folder)):
            found.look(" ".join([path.parent.name, path.name, *words]), *(run(command, "replay", path, *words) for command in (ours, second)))
    return found.told(f"{found.looked} sessions flown again, seed {seed}")


if __name__ == "__main__":
    if not 3 <= len(sys.argv) <= 5:
        sys.exit(__doc__)
    sys.exit(main(*sys.argv[1:]))
