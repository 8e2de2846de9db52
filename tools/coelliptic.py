#!/usr/bin/env python3
"""coelliptic: is the height between the two orbits constant behind the burn of 02, T-12?

  tools/coelliptic.py DESK [COUNT [SEED]]   a command that starts a desk, in one word; 1,000 cases unless said

Asks a desk for COUNT burns about the earth and the moon. The two orbits are then gone along by this script's own conics: at each of 72
angles over a turn, counted from where the vehicles are in line, the active one's height over the passive one. Its spread is the
greatest less the least. Prints a table by the height asked for and the passive orbit's eccentricity, with the spread behind the burn
and ahead of it. Exits 1 if a spread behind the burn is more than 4·e²·|height| + 1 m, e the passive orbit's: what the burn leaves over
is of the second order in e."""
import math
import random
import shlex
import struct
import subprocess
import sys
import time

BODIES = [("0", "6378165", "39860120000"), ("1", "1738090", "490277800")]
HEIGHTS, SHAPES = (20e3, 60e3, 150e3), (0.002, 0.01, 0.03)
ANGLES = 72


def spelled(x):
    return "x%016X" % struct.unpack("<Q", struct.pack("<d", x))[0]


def number(word):
    return struct.unpack("<d", struct.pack("<Q", int(word[1:], 16)))[0]


def dot(a, b):
    return sum(x * y for x, y in zip(a, b))


def cross(a, b):
    return (a[1] * b[2] - a[2] * b[1], a[2] * b[0] - a[0] * b[2], a[0] * b[1] - a[1] * b[0])


def length(a):
    return math.sqrt(dot(a, a))


def unit(a):
    return tuple(x / length(a) for x in a)


def mix(f, a, g, b):
    return tuple(f * x + g * y for x, y in zip(a, b))


class Conic:
    """An orbit by its normal, parameter and eccentricity vector."""

    def __init__(self, mu, r, v):
        h = cross(r, v)
        self.normal, self.p = unit(h), dot(h, h) / mu
        self.e = mix(1 / mu, cross(v, h), -1, unit(r))

    def radius(self, direction):
        return self.p / (1 + dot(self.e, direction))

    def radii(self, direction):
        """At equal angles over a turn, from a direction in its plane on."""
        ahead = cross(self.normal, direction)
        turns = (2 * math.pi * k / ANGLES for k in range(ANGLES))
        return [self.radius(mix(math.cos(t), direction, math.sin(t), ahead)) for t in turns]

    def projected(self, r):
        return unit(mix(1, r, -dot(r, self.normal), self.normal))


def spread(mu, active, passive):
    """Of the active orbit's height over the passive one's, over a turn; and the height where they are in line."""
    above, below = Conic(mu, *active), Conic(mu, *passive)
    heights = [a - b for a, b in zip(above.radii(unit(active[0])), below.radii(below.projected(active[0])))]
    return max(heights) - min(heights), heights[0]


def state(mu, r, angle, tilt, speed, climb):
    """In the plane x, y tilted about x: a point and a velocity."""
    up = (math.cos(angle), math.sin(angle) * math.cos(tilt), math.sin(angle) * math.sin(tilt))
    along = (-math.sin(angle), math.cos(angle) * math.cos(tilt), math.cos(angle) * math.sin(tilt))
    return [r * x for x in up] + [math.sqrt(mu / r) * (climb * x + speed * y) for x, y in zip(up, along)]


def case(dice):
    """A passive vehicle on an orbit of small eccentricity, an active one 5 to 60 degrees away and some way lower or higher."""
    body, radius, mu = dice.choice(BODIES)
    r = float(radius) * dice.uniform(1.12, 1.3)
    height = dice.choice((-1, 1)) * dice.uniform(2e3, max(HEIGHTS))
    e = dice.choice((0.001, *SHAPES)) * dice.random()
    turned = dice.uniform(0, 2 * math.pi)
    passive = state(float(mu), r, 0, 0, math.sqrt(1 + e * math.cos(turned)), e * math.sin(turned))
    angle = dice.choice((-1, 1)) * math.radians(dice.uniform(5, 60))
    active = state(float(mu), r + height, angle, dice.uniform(-0.01, 0.01), dice.uniform(0.99, 1.01), dice.uniform(-0.01, 0.01))
    return body, radius, mu, active, dice.randrange(-200000, 200000), passive, dice.randrange(-200000, 200000)


def lines_of(body, radius, mu, active, ta, passive, tp):
    """Both vehicles at t2 = 0, and the burn then."""
    a, p = " ".join(map(spelled, active)), " ".join(map(spelled, passive))
    return [f"kepler {mu} {a} {-ta}", f"kepler {mu} {p} {-tp}", f"cdh {body} {radius} {mu} {a} {ta} {p} {tp} 0 600000"]


def asked(desk, lines):
    ran = subprocess.run(shlex.split(desk), input="".join(line + "\n" for line in lines).encode(), stdout=subprocess.PIPE, check=True)
    return ran.stdout.decode().splitlines()


def numbers(answer):
    return [number(word) for word in answer.split(" bits ")[1].split()]


def measured(mu, answers):
    """Spread and height ahead of the burn and behind it, and the passive eccentricity; None where it is refused."""
    if any(answer.startswith("refused") for answer in answers):
        return None
    active, passive, change = numbers(answers[0])[2:], numbers(answers[1])[2:], numbers(answers[2])[:3]
    active, passive = (active[:3], active[3:]), (passive[:3], passive[3:])
    ahead, _ = spread(mu, active, passive)
    behind, height = spread(mu, (active[0], mix(1, active[1], 1, change)), passive)
    return ahead, behind, height, length(Conic(mu, *passive).e)


def band(limits, x):
    return next((limit for limit in limits if x <= limit), limits[-1])


def table(found):
    print("| height up to, km | passive e up to | cases | spread ahead, m: median | spread behind, m: median | greatest | greatest, of the height |")
    print("|---|---|---|---|---|---|---|")
    for height in HEIGHTS:
        for shape in SHAPES:
            some = [f for f in found if (band(HEIGHTS, abs(f[2])), band(SHAPES, f[3])) == (height, shape)]
            if some:
                ahead, behind = (sorted(f[k] for f in some) for k in (0, 1))
                share = max(f[1] / abs(f[2]) for f in some)
                print(f"| {height / 1e3:.0f} | {shape} | {len(some)} | {ahead[len(some) // 2]:.1f} | {behind[len(some) // 2]:.1f} | {behind[-1]:.1f} | {share:.5f} |")


def main(desk, count=1000, seed=None):
    seed = int(time.time()) if seed is None else int(seed)
    dice = random.Random(seed)
    cases = [case(dice) for _ in range(int(count))]
    answers = asked(desk, [line for one in cases for line in lines_of(*one)])
    found = [measured(float(one[2]), answers[3 * k:3 * k + 3]) for k, one in enumerate(cases)]
    solved = [f for f in found if f]
    table(solved)
    wide = [f for f in solved if f[1] > 4 * f[3] * f[3] * abs(f[2]) + 1]
    print(f"{len(solved)} burns of {len(cases)}, {len(cases) - len(solved)} refused, seed {seed}: {len(wide)} whose height is not constant")
    return 1 if wide or not solved else 0


if __name__ == "__main__":
    if not 2 <= len(sys.argv) <= 4:
        sys.exit(__doc__)
    sys.exit(main(*sys.argv[1:]))
