#!/usr/bin/env python3
"""published: textbook orbits at the desk, held to the digits that the books print.

  tools/published.py           ask the desk, hold its answers to the print, and docs/PUBLISHED.md to its answers
  tools/published.py --write   write docs/PUBLISHED.md

Each case is also worked out here, by other formulas and to 30 digits, so that a misprint or a slip of memory would show:
both numbers must be within one unit of the last digit printed, since the books round on the way. A velocity of a transfer
lies on the grid of cot γ: one step of it, a 2^20th of the speed, is allowed besides.
"""
import math
import pathlib
import struct
import subprocess
import sys
from decimal import Decimal, getcontext

getcontext().prec = 30
ROOT = pathlib.Path(__file__).resolve().parent.parent
PAGE = ROOT / "docs" / "PUBLISHED.md"


# ---- a second way: universal variables in decimals, with the series summed and the equations solved by halving

def dot(a, b):
    return sum(x * y for x, y in zip(a, b))


def cross(a, b):
    return [a[1] * b[2] - a[2] * b[1], a[2] * b[0] - a[0] * b[2], a[0] * b[1] - a[1] * b[0]]


def length(a):
    return dot(a, a).sqrt()


def combined(k, a, m, b):
    return [k * x + m * y for x, y in zip(a, b)]


def series(z):
    """The sums of (-z)^k/(2k+2)! and (-z)^k/(2k+3)!."""
    c = s = Decimal(0)
    one, two, k = Decimal(1) / 2, Decimal(1) / 6, 0
    while k < 6 or max(abs(one), abs(two)) > Decimal("1e-32"):
        c, s, k = c + one, s + two, k + 1
        one *= -z / ((2 * k + 1) * (2 * k + 2))
        two *= -z / ((2 * k + 2) * (2 * k + 3))
    return c, s


def zero_of(f, lo, hi):
    """Where f goes from at most 0 to above 0."""
    for _ in range(110):
        middle = (lo + hi) / 2
        lo, hi = (middle, hi) if f(middle) <= 0 else (lo, middle)
    return lo


def kepler(mu, r, v, t):
    size, root = length(r), mu.sqrt()
    alpha, radial = 2 / size - dot(v, v) / mu, dot(r, v) / root

    def late(x):
        c, s = series(alpha * x * x)
        return radial * x * x * c + (1 - alpha * size) * x**3 * s + size * x - root * t
    top = Decimal(1)
    while late(top) <= 0:
        top *= 2
    x = zero_of(late, Decimal(0), top)
    c, s = series(alpha * x * x)
    end = combined(1 - x * x * c / size, r, t - x**3 * s / root, v)
    there = length(end)
    return {"x": x, "r": end, "v": combined(root / (size * there) * (alpha * x**3 * s - x), r, 1 - x * x * c / there, v)}


def lambert(mu, a, b, t, way):
    r1, r2 = length(a), length(b)
    cos = dot(a, b) / (r1 * r2)
    sin = (1 - cos * cos).sqrt() * (1 if way == "short" else -1)
    k = sin * (r1 * r2 / (1 - cos)).sqrt()

    def y(z):
        c, s = series(z)
        return r1 + r2 + k * (z * s - 1) / c.sqrt()

    def late(z):
        c, s = series(z)
        return -1 if y(z) <= 0 else (y(z) / c) ** Decimal("1.5") * s + k * y(z).sqrt() - mu.sqrt() * t
    found = y(zero_of(late, Decimal(-40), Decimal(39)))
    g = k * (found / mu).sqrt()
    return {"v": combined(1 / g, b, -(1 - found / r1) / g, a)}


def theta(mu, r, v, sin, cos):
    """The time by halving: angles up to half a turn, from a state that is an apsis or goes outward."""
    def ahead(t):
        to = kepler(mu, r, v, t)["r"]
        normal = cross(r, v)
        return dot(cross(r, to), normal) / length(normal) * cos - dot(r, to) * sin
    top = Decimal(1024)
    while ahead(top) <= 0:
        top *= Decimal("1.5")
    return {"time": zero_of(ahead, Decimal(1), top)}


def apsides(mu, r, v):
    normal = cross(r, v)
    p, alpha = dot(normal, normal) / mu, 2 / length(r) - dot(v, v) / mu
    e = (1 - p * alpha).sqrt()
    return {"near": p / (1 + e), "far": p / (1 - e) if alpha > 0 else None}


def number(word):
    return Decimal(struct.unpack(">d", bytes.fromhex(word[1:]))[0]) if word.startswith("x") else Decimal(word)


def worked_out(request):
    name, *words = request.split()
    if name == "lambert":
        *words, way = words
    n = [number(word) for word in words]
    rest = (n[7], way) if name == "lambert" else n[7:]
    return globals()[name](n[0], n[1:4], n[4:7], *rest)


# ---- the desk

def answers(requests):
    """The desk's lines to requests."""
    given = "".join(line + "\n" for line in requests)
    ran = subprocess.run([ROOT / "cabin", "run", "desk"], input=given, capture_output=True, text=True, check=True)
    return ran.stdout.split("\n")[:-1]


def told(request, line):
    """The numbers of an answer, by their bits."""
    bits = line.split(" bits ")
    n = [number(word) for word in bits[1].split()] if len(bits) == 2 else []
    if line.startswith("done") and request.startswith("kepler"):
        words = line.split()
        return {"x": Decimal(int(words[words.index("n") + 1])) / 2**20, "r": n[-6:-3], "v": n[-3:]}
    if line.startswith("done"):
        return {"v": n[-3:]}
    if line.startswith("time"):
        return {"time": n[0]}
    assert line.startswith(("closed", "open")), (request, line)
    return {"near": n[0], "far": n[1] if len(n) == 2 else None}


# ---- what the books print, from an answer in metres and cs

def position(k):
    return lambda a: a["r"][k] / 1000


def velocity(k):
    return lambda a: a["v"][k] / 10


def degrees(start):
    """The angle of the position from the x axis, behind a start."""
    return lambda a: Decimal(math.degrees(math.atan2(a["r"][1], a["r"][0])) % 360) + start


def eccentricity(a):
    return (a["far"] - a["near"]) / (a["far"] + a["near"])


VALLADO = "Vallado, Fundamentals of Astrodynamics and Applications"
CURTIS = "Curtis, Orbital Mechanics for Engineering Students"
NASA = "NASA, mission and fact sheets"
EARTH, CURTIS_EARTH, MOON = "39860044180", "39860000000", "490277800"

# (source, what it is, requests, [(what, unit, printed, its number from the last answer)]); {v} is the velocity of the
# answer before, in bits
CASES = [
    (f"{VALLADO}, example 2.4", "An ellipse, 40 minutes on.",
     [f"kepler {EARTH} 1131340 -2282343 6672423 -56.4305 43.0333 24.2879 240000"],
     [("x", "km", "-4219.7527", position(0)), ("y", "km", "4363.0292", position(1)), ("z", "km", "-3958.7666", position(2)),
      ("x'", "km/s", "3.689866", velocity(0)), ("y'", "km/s", "-1.916735", velocity(1)), ("z'", "km/s", "-6.112511", velocity(2))]),
    (f"{CURTIS}, example 3.7", "An ellipse, 60 minutes on.",
     [f"kepler {CURTIS_EARTH} 7000000 -12124000 0 26.679 46.21 0 360000"],
     [("x", "km", "-3297.8", position(0)), ("y", "km", "7413.4", position(1)),
      ("x'", "km/s", "-8.2976", velocity(0)), ("y'", "km/s", "-0.96404", velocity(1))]),
    (f"{CURTIS}, example 3.2", "Three hours behind the perigee of the orbit of example 3.1 (9,600 by 21,000 km): the true anomaly.",
     [f"kepler {CURTIS_EARTH} 9600000 0 0 0 75.4913101522071 0 1080000"],
     [("true anomaly", "degrees", "193.2", degrees(0))]),
    (f"{VALLADO}, example 2.1", "Kepler's equation: M = 235.4 degrees, e = 0.4 (here with a = 200,000 km). The book prints 220.512074767522; the desk's grid has the first ten digits.",
     [f"kepler {EARTH} 120000000 0 0 0 21.5646434880493 0 58204951.5056204"],
     [("E", "degrees", "220.5120748", lambda a: 360 - Decimal(math.degrees(math.acos(a["r"][0] / 200000000 + Decimal("0.4")))))]),
    (f"{VALLADO}, example 2.2", "A parabola, p = 25,512 km, 53.7874 minutes behind perigee: B = tan(ν/2).",
     [f"kepler {EARTH} 12756000 0 0 0 79.0545062253329 0 322724.4"],
     [("B", "", "0.817751", lambda a: a["r"][1] / (length(a["r"]) + a["r"][0]))]),
    (f"{CURTIS}, example 3.4", "A parabola with 10 km/s at perigee, six hours on: the true anomaly.",
     [f"kepler {CURTIS_EARTH} 7972000 0 0 0 100 0 2160000"],
     [("true anomaly", "degrees", "144.75", degrees(0))]),
    (f"{VALLADO}, example 2.3", "Kepler's equation for a hyperbola: M = 235.4 degrees, e = 2.4 (here with a = -10,000 km).",
     [f"kepler {EARTH} 14000000 0 0 0 98.3884975173129 0 650751.140968229"],
     [("H", "", "1.601376144", lambda a: Decimal(math.acosh((length(a["r"]) / 10000000 + 1) / Decimal("2.4"))))]),
    (f"{CURTIS}, example 3.6", "A hyperbola at a true anomaly of 30 degrees, 10,000 km and 10 km/s, an hour on: χ, and the true anomaly.",
     [f"kepler {CURTIS_EARTH} 10000000 0 0 30.7520990419543 95.1541297291601 0 360000"],
     [("χ", "km^½", "128.51", lambda a: a["x"] / Decimal(1000).sqrt()), ("true anomaly", "degrees", "100.04", degrees(30))]),
    (f"{VALLADO}, example 7.5", "A transfer in 76 minutes: the velocity at the start.",
     [f"lambert {EARTH} 15945340 0 0 12214838.99 10249467.31 0 456000 short"],
     [("x'", "km/s", "2.058913", velocity(0)), ("y'", "km/s", "2.915965", velocity(1))]),
    (f"{VALLADO}, example 7.5, its end", "The same transfer, flown: the velocity at the end.",
     [f"lambert {EARTH} 15945340 0 0 12214838.99 10249467.31 0 456000 short", f"kepler {EARTH} 15945340 0 0 {{v}} 456000"],
     [("x'", "km/s", "-3.451565", velocity(0)), ("y'", "km/s", "0.910315", velocity(1))]),
    (f"{CURTIS}, example 5.2", "A transfer in an hour: the velocity at the start.",
     [f"lambert {CURTIS_EARTH} 5000000 10000000 2100000 -14600000 2500000 7000000 360000 short"],
     [("x'", "km/s", "-5.9925", velocity(0)), ("y'", "km/s", "1.9254", velocity(1)), ("z'", "km/s", "3.2456", velocity(2))]),
    (f"{CURTIS}, example 5.2, its end", "The same transfer, flown: the velocity at the end.",
     [f"lambert {CURTIS_EARTH} 5000000 10000000 2100000 -14600000 2500000 7000000 360000 short", f"kepler {CURTIS_EARTH} 5000000 10000000 2100000 {{v}} 360000"],
     [("x'", "km/s", "-3.3125", velocity(0)), ("y'", "km/s", "-4.1966", velocity(1)), ("z'", "km/s", "-0.38529", velocity(2))]),
    (f"{CURTIS}, example 5.2, its orbit", "The same transfer: e and h of its orbit, from the apsides.",
     [f"lambert {CURTIS_EARTH} 5000000 10000000 2100000 -14600000 2500000 7000000 360000 short", f"apsides {CURTIS_EARTH} 5000000 10000000 2100000 {{v}}"],
     [("e", "", "0.4335", eccentricity), ("h", "10,000 km²/s", "8.047", lambda a: (398600 * a["near"] / 1000 * (1 + eccentricity(a))).sqrt() / 10000)]),
    (f"{CURTIS}, example 3.1", "9,600 by 21,000 km, from perigee to a true anomaly of 120 degrees.",
     [f"theta {CURTIS_EARTH} 9600000 0 0 0 75.4913101522071 0 0.86602540378444 -0.5"],
     [("time", "s", "4077", lambda a: a["time"] / 100)]),
    (f"{VALLADO}, example 6.1", "The Hohmann transfer from 6,569.4781 to 42,159.48625 km: half a turn.",
     [f"theta {EARTH} 6569478.1 0 0 0 102.46428536672 0 0 -1"],
     [("time", "min", "315.403", lambda a: a["time"] / 6000), ("time", "h", "5.256713", lambda a: a["time"] / 360000)]),
    (f"{CURTIS}, example 4.3", "The orbit of a state: a and e, from the apsides.",
     [f"apsides {CURTIS_EARTH} -6045000 -3490000 2500000 -34.57 66.18 25.33"],
     [("a", "km", "8788", lambda a: (a["near"] + a["far"]) / 2000), ("e", "", "0.1712", eccentricity)]),
    (f"{VALLADO}, example 2.5", "The orbit of a state: e, from the apsides.",
     [f"apsides {EARTH} 6524834 6862875 6448296 49.01327 55.33756 -19.76341"],
     [("e", "", "0.832853", eccentricity)]),
    (f"{NASA}: Lunar Prospector", "A circular orbit 100 km above the moon: twice the time of half a turn.",
     [f"theta {MOON} 1837400 0 0 0 16.3350044943293 0 0 -1"],
     [("a turn", "min", "118", lambda a: a["time"] / 3000)]),
    (f"{NASA}: Lunar Reconnaissance Orbiter", "A circular orbit 50 km above the moon, likewise.",
     [f"theta {MOON} 1787400 0 0 0 16.5619030301295 0 0 -1"],
     [("a turn", "min", "113", lambda a: a["time"] / 3000)]),
    (f"{NASA}: the moon's escape velocity, 2.38 km/s", "From the surface (1,737.4 km) at 2.37 km/s: an orbit that comes back.",
     [f"apsides {MOON} 1737400 0 0 0 23.7 0"],
     [("orbits that come back", "", "1", lambda a: Decimal(a["far"] is not None))]),
    (f"{NASA}: the moon's escape velocity, 2.38 km/s", "And at 2.38 km/s: one that does not.",
     [f"apsides {MOON} 1737400 0 0 0 23.8 0"],
     [("orbits that come back", "", "0", lambda a: Decimal(a["far"] is not None))]),
]

HEAD = """# Published cases

Orbits from the books, asked at the desk and held to the digits that the books print. `tools/published.py` asks them, and works each out once more by other formulas (universal variables in decimals of 30 digits, solved by halving); both numbers must be within one unit of the last digit printed, since the books round on the way. A transfer's velocity lies on the grid of cot γ, and one step of that, a millionth of the speed, is allowed besides: the desk's err says what is left of the time. It is a part of `./cabin test`, and writes this page (`tools/published.py --write`).

The books count in km and s, the desk in m and cs: a mu of 398,600.4418 km³/s² is typed as 39860044180, 1 km/s as 10.
"""


def unit_of(printed):
    return Decimal(1).scaleb(Decimal(printed).as_tuple().exponent)


def shown(value, printed):
    """Three digits more than are printed."""
    return str(value.quantize(unit_of(printed) / 1000))


def allowed(unit, printed, request, answer):
    """How far a number may be from the print."""
    step = length(answer["v"]) / 10 / 2**20 if unit == "km/s" and "lambert" in request else 0
    return unit_of(printed) + step


def dialogues():
    """The requests of each case with the desk's lines, a {v} filled in from the line before."""
    found = [[] for _case in CASES]
    for turn in range(2):
        asked = [(k, case[2][turn]) for k, case in enumerate(CASES) if len(case[2]) > turn]
        asked = [(k, line.replace("{v}", " ".join(found[k][-1][1].split()[-3:]) if turn else "")) for k, line in asked]
        for (k, line), answer in zip(asked, answers([line for _k, line in asked])):
            found[k].append((line, answer))
    return found


def main():
    faults, page, count = [], [HEAD], 0
    for (source, what, requests, values), said in zip(CASES, dialogues()):
        desk, exact = told(*said[-1]), worked_out(said[-1][0])
        page.append(f"## {source}\n\n{what}\n\n```desk\n" + "".join(f"> {line}\n{answer}\n" for line, answer in said) + "```\n")
        rows = ["| what | printed | the desk | in 30 digits |", "|---|---|---|---|"]
        for name, unit, printed, read in values:
            count += 1
            for who, value in (("the desk", read(desk)), ("the other formulas", read(exact))):
                if abs(value - Decimal(printed)) > allowed(unit, printed, requests[0], desk):
                    faults.append(f"{source}: {name} is printed as {printed} {unit}, and by {who} it is {shown(value, printed)}")
            rows.append(f"| {name}{', ' + unit if unit else ''} | {printed} | {shown(read(desk), printed)} | {shown(read(exact), printed)} |")
        page.append("\n".join(rows) + "\n")
    text = "\n".join(page)
    if sys.argv[1:] == ["--write"]:
        PAGE.write_text(text)
    elif PAGE.read_text() != text:
        faults.append("docs/PUBLISHED.md is not what the desk answers: run tools/published.py --write")
    print("\n".join(faults + [f"{len(CASES)} published cases, {count} numbers, {len(faults)} faults"]))
    return 1 if faults else 0


sys.exit(main())
