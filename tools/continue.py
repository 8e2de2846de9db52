#!/usr/bin/env python3
"""continue: solves stopped by a limit and gone on with, against the same solves run through (02, T-14).

  tools/continue.py OURS SECOND [COUNT [SEED]]   each a command that starts a desk, in one word

Takes COUNT advances and transfers of `second requests` (2,000 unless said), puts a limit behind each, and what stands
behind `refused 29` behind it again with a higher limit, until no run is stopped. Both desks must give the same answers
all the way, and the last must be that of the request without a limit. Exits 1 at a difference."""
import random
import shlex
import subprocess
import sys
import time

from differences import Differences

LONGEST = 800  # with what is put behind it, a line stays within the desk's 1,000 bytes


def answers(desk, lines):
    """A desk's answers, one a line."""
    given = "".join(line + "\n" for line in lines).encode()
    ran = subprocess.run(shlex.split(desk), input=given, stdout=subprocess.PIPE, check=True)
    got = ran.stdout.decode().splitlines()
    if len(got) != len(lines):
        sys.exit(f"{desk}: {len(got)} answers to {len(lines)} requests")
    return got


def fresh(second, count, seed):
    """Advances and transfers that stand alone on their lines."""
    program = shlex.split(second)[0]
    made = subprocess.run([program, "requests", str(seed), str(8 * count + 8000)], stdout=subprocess.PIPE, check=True)
    lines = made.stdout.decode("latin-1").split("\n")
    solves = [" ".join(line.split()) for line in lines if line.startswith(("kepler ", "lambert ")) and line.isprintable()]
    alone = [line for line in solves if len(line) <= LONGEST and not {"from", "limit", "version"} & set(line.split())]
    return alone[-count:]


def asked_of_both(found, desks, lines):
    ours, second = (answers(desk, lines) for desk in desks)
    for line, one, other in zip(lines, ours, second):
        found.look(line, one, other)
    return second


def run_by_parts(found, desks, requests, dice):
    """The last answer to each request, and how often its run was stopped."""
    ends, stops = {}, 0
    behind = {request: "" for request in requests}
    count = {request: 0 for request in requests}
    while behind:
        lines = [f"{r}{tail} limit {count[r] + dice.choice((0, 1, 2, 3, 7, 20))}" for r, tail in behind.items()]
        left = {}
        for request, answer in zip(behind, asked_of_both(found, desks, lines)):
            if answer.startswith("refused 29 "):
                stops += 1
                left[request] = answer.removeprefix("refused 29")
                count[request] = int(answer.split()[-1]) + dice.choice((0, 1))
            else:
                ends[request] = answer
        behind = left
    return ends, stops


def main(ours, second, count=2000, seed=None):
    seed = int(time.time()) if seed is None else int(seed)
    desks, found, dice = (ours, second), Differences(), random.Random(seed)
    requests = list(dict.fromkeys(fresh(second, int(count), seed)))
    ends, stops = run_by_parts(found, desks, requests, dice)
    for request, through in zip(requests, asked_of_both(found, desks, requests)):
        found.look(request, ends[request], through, ("by parts", "run through"))
    return found.told(f"{len(requests)} solves, stopped {stops} times and gone on with, seed {seed}")


if __name__ == "__main__":
    if not 3 <= len(sys.argv) <= 5:
        sys.exit(__doc__)
    sys.exit(main(*sys.argv[1:]))
