#!/usr/bin/env python3
"""sight_miss: how near the points of the sight line come to the passive vehicle's distance from the body.

  tools/sight_miss.py [COUNT] PROGRAM [WORD..]     as  tools/sight_miss.py 1000000 ./cabin run desk

The two points of a sight line should lie as far out as the passive vehicle. COUNT lines (100,000 unless said) from vehicles about
earth and moon, up to a tenth of the radius below or above the other, at any E, are asked of the desk program. Printed: the worst of
| |point| − |P| | / |P|, for the nearer point and for the farther one. (Most of it comes of the table: its sines have 30 places.)"""
import math
import random
import struct
import subprocess
import sys

RADII = (6.6e6, 1.8e6)


def unit(a):
    size = math.hypot(*a)
    return [x / size for x in a]


def across(up):
    """A unit vector upright on another."""
    other = [random.gauss(0, 1) for _ in range(3)]
    level = sum(x * y for x, y in zip(up, other))
    return unit([y - level * x for x, y in zip(up, other)])


def some_line():
    """(|P|, the request)"""
    up = unit([random.gauss(0, 1) for _ in range(3)])
    along = across(up)
    r = random.choice(RADII) * random.uniform(1, 1.2)
    passive = [r * (1 + random.uniform(-0.1, 0.1)) * x for x in unit([random.gauss(0, 1) for _ in range(3)])]
    numbers = ["x%016X" % struct.unpack("<Q", struct.pack("<d", x)) for x in [*(r * x for x in up), *passive, *along, *up]]
    return math.hypot(*passive), " ".join(["sight", *numbers[:6], str(random.randrange(3600)), *numbers[6:]])


def main(words):
    count = int(words.pop(0)) if words and words[0].isdigit() else 100_000
    if not words:
        sys.exit(__doc__)
    random.seed(1)
    lines = [some_line() for _ in range(count)]
    asked = "".join(request + "\n" for _, request in lines)
    answers = subprocess.run(words, input=asked, capture_output=True, text=True, check=True).stdout.splitlines()
    worst, met = [0.0, 0.0], 0
    for (distance, _), answer in zip(lines, answers, strict=True):
        if answer == "refused 18":
            continue  # the line misses the sphere
        met += 1
        bits = answer.split(" bits ")[1].split()
        numbers = [struct.unpack("<d", struct.pack("<Q", int(word[1:], 16)))[0] for word in bits]
        near_first = abs(numbers[0]) <= abs(numbers[1])
        for place, point in enumerate((numbers[2:5], numbers[5:8])):
            farther = (place == 0) != near_first
            worst[farther] = max(worst[farther], abs(math.hypot(*point) - distance) / distance)
    print(f"{count} lines, {met} that meet; worst miss {worst[0]:.1e} of the distance at the nearer point, {worst[1]:.1e} at the farther")


main(sys.argv[1:])
