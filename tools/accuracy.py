#!/usr/bin/env python3
"""accuracy: how far the advance lands from the true place, in low orbit, over up to thirty days.

  tools/accuracy.py [COUNT] PROGRAM [WORD..]     as  tools/accuracy.py 500 ./cabin run desk

COUNT states (2,000 unless said) in low orbits about earth and moon are advanced by the desk program, by up to thirty days
forward and back. Each answer is held against the same motion in 60 digits (python's decimal, the numbers of the request
taken as exact). Printed: the worst miss of the position, and the worst part of it that the answer's own err does not
account for (err is the time by which the grid point falls short; times the speed it is a distance along the orbit)."""
import random
import struct
import subprocess
import sys
from decimal import Decimal, getcontext

getcontext().prec = 60
THIRTY_DAYS = 259_200_000  # cs
BODIES = {"earth": (39860120000.0, 6.5e6, 8.4e6), "moon": (490277800.0, 1.76e6, 2.2e6)}


def sine_and_cosine(x):
    """By the series, after halving x to a small size and doubling back."""
    halvings = 20
    y = x / 2**halvings
    sine, cosine, term, k = Decimal(0), Decimal(0), Decimal(1), 0
    while abs(term) > Decimal(10) ** -75:
        if k % 2 == 0:
            cosine += term if k % 4 == 0 else -term
        else:
            sine += term if k % 4 == 1 else -term
        k += 1
        term = term * y / k
    for _ in range(halvings):
        sine, cosine = 2 * sine * cosine, cosine * cosine - sine * sine
    return sine, cosine


def pi():
    """Machin's: 16·arctan(1/5) − 4·arctan(1/239)."""
    def arctan_of_inverse(n):
        total, power, k = Decimal(0), Decimal(1) / n, 0
        while power > Decimal(10) ** -75:
            total += (power if k % 2 == 0 else -power) / (2 * k + 1)
            power, k = power / (n * n), k + 1
        return total
    return 16 * arctan_of_inverse(5) - 4 * arctan_of_inverse(239)


PI = pi()


def dot(a, b):
    return sum(x * y for x, y in zip(a, b))


def true_position(mu, r, v, t):
    """Of a closed orbit after t, by the change of eccentric anomaly E: √(mu/a³)·t = E − (1 − r/a)·sin E + s·(1 − cos E)."""
    length, root_mu = dot(r, r).sqrt(), mu.sqrt()
    a = 1 / (2 / length - dot(v, v) / mu)
    along = dot(r, v) / (root_mu * a.sqrt())
    mean = (root_mu / (a * a.sqrt()) * t) % (2 * PI)
    inward = 1 - length / a
    anomaly = mean
    for _ in range(60):
        sine, cosine = sine_and_cosine(anomaly)
        step = (anomaly - inward * sine + along * (1 - cosine) - mean) / (1 - inward * cosine + along * sine)
        anomaly -= step
        if abs(step) < Decimal(10) ** -50:
            break
    else:
        raise ArithmeticError("no convergence")
    sine, cosine = sine_and_cosine(anomaly)
    f = 1 - a / length * (1 - cosine)
    g = a * a.sqrt() / root_mu * (length / a * sine + along * (1 - cosine))
    return [f * x + g * y for x, y in zip(r, v)]


def bits(x):
    return f"x{struct.unpack('<Q', struct.pack('<d', x))[0]:016X}"


def of_bits(word):
    return struct.unpack("<d", struct.pack("<Q", int(word[1:], 16)))[0]


def low_orbit(body):
    """A state near the circle of its height, in any plane."""
    mu, least, most = BODIES[body]
    up = [random.gauss(0, 1) for _ in range(3)]
    size = sum(x * x for x in up) ** 0.5
    up = [x / size for x in up]
    side = [random.gauss(0, 1) for _ in range(3)]
    level = sum(x * y for x, y in zip(up, side))
    side = [y - level * x for x, y in zip(up, side)]
    size = sum(x * x for x in side) ** 0.5
    radius = random.uniform(least, most)
    speed = (mu / radius) ** 0.5 * random.uniform(0.99, 1.01)
    climb = random.uniform(-0.02, 0.02)
    return mu, [radius * x for x in up], [speed * (y / size + climb * x) for x, y in zip(up, side)]


def requests(count):
    random.seed(1)
    for k in range(count):
        body = "moon" if k % 2 else "earth"
        mu, r, v = low_orbit(body)
        t = random.choice([1, -1]) * (THIRTY_DAYS if k % 8 < 2 else random.uniform(0, THIRTY_DAYS))
        yield body, mu, r, v, t


def report(body, misses):
    worst, beyond, turns = (max(column) for column in zip(*misses))
    print(f"{body}: {len(misses)} advances of up to {turns} turns; worst miss {worst:.3e} m, beyond what err says {beyond:.3e} m")


def main(words):
    count = int(words.pop(0)) if words and words[0].isdigit() else 2000
    if not words:
        sys.exit(__doc__)
    asked = list(requests(count))
    lines = "".join(f"kepler {' '.join(map(bits, [mu, *r, *v, t]))}\n" for _, mu, r, v, t in asked)
    answers = subprocess.run(words, input=lines, capture_output=True, text=True, check=True).stdout.splitlines()
    misses = {body: [] for body in BODIES}
    for (body, mu, r, v, t), answer in zip(asked, answers, strict=True):
        part = answer.split()
        if part[0] != "done":
            sys.exit(f"not solved: {answer}")
        numbers = [of_bits(word) for word in part[part.index("bits") + 1:]]
        true = true_position(Decimal(mu), *([Decimal(x) for x in a] for a in (r, v)), Decimal(t))
        off = [Decimal(x) - y for x, y in zip(numbers[2:5], true)]
        speed = dot(numbers[5:8], numbers[5:8]) ** 0.5
        miss = float(dot(off, off).sqrt())
        misses[body].append((miss, max(0.0, miss - abs(numbers[1]) * speed), int(part[part.index("turns") + 1])))
    for body, found in misses.items():
        report(body, found)


main(sys.argv[1:])
