#!/usr/bin/env python3
"""rendezvous: the flight of samples/rendezvous.bin about the moon, in the order of the guidance plans (source documents 001, 5.4, and
002, 5.4.2): launch window, phasing, height adjustment, constant-height burn, intercept, braking.

  tools/rendezvous.py   the plan, a line a manoeuvre

Every orbit and every burn is what the cabin's own desk answers. make_sample.py makes the session of it, with marks. Run it from the
project's root."""
import math
import pathlib
import struct
import subprocess
import sys
from typing import NamedTuple

ROOT = pathlib.Path(__file__).resolve().parent.parent
BODY, RADIUS, MU = 1, 1_738_090.0, 490_277_800.0
SECOND, MINUTE, HOUR, DAY = 100, 6_000, 360_000, 8_640_000

OFFSET = -300  # minutes: the cabin's clock
START = 200 * DAY + 18 * HOUR - OFFSET * MINUTE  # six in the evening of day 200 by it
PASSIVE = (1_452_895.0, -1_125_096.0, -239_147.0), (10.0846, 12.4614, 2.6488)  # vehicle 0 at START, 107 to 115 km up

LATITUDE, LONGITUDE = math.radians(8.0), math.radians(39.8)  # of the launch site; the longitude at START from the x axis
TURNING = 2.6617e-8  # of the moon, radians a cs
ASCENT, ARC = 435 * SECOND, math.radians(10.0)  # how long the ascent takes, and how far round the moon it goes
LOW, HIGH = 18_520.0, 55_560.0  # the heights of the orbit that it ends in, m
LEADS = 340, 430  # by how many tenths of a degree vehicle 0 may be ahead then

TO_INTERCEPT = 270 * MINUTE  # from the insertion
BELOW = 27_780.0  # the constant height under vehicle 0, m
ELEVATION, TRAVEL = 266, 1300  # tenths of a degree: the line of sight at the intercept burn; how far vehicle 0 goes from there to the end
SHORT = 20 * SECOND  # the braking is so much ahead of the intercept


# ---- vectors

def dot(a, b):
    return a[0] * b[0] + a[1] * b[1] + a[2] * b[2]


def cross(a, b):
    return a[1] * b[2] - a[2] * b[1], a[2] * b[0] - a[0] * b[2], a[0] * b[1] - a[1] * b[0]


def length(a):
    return math.sqrt(dot(a, a))


def mixed(f, a, g, b):
    return tuple(f * x + g * y for x, y in zip(a, b))


def less(a, b):
    return mixed(1.0, a, -1.0, b)


def unit(a):
    return tuple(x / length(a) for x in a)


def turned(frm, to, normal):
    """Sine and cosine of the angle from one direction to another, in the plane of a normal."""
    one, other = (unit(mixed(1.0, a, -dot(a, normal), normal)) for a in (frm, to))
    return dot(cross(one, other), normal), dot(one, other)


def apart(one, other):
    """The sine of the angle between two planes."""
    return length(cross(one.normal(), other.normal()))


class Craft(NamedTuple):
    """A vehicle's state at a time."""
    time: int
    r: tuple
    v: tuple

    def normal(self):
        return unit(cross(self.r, self.v))

    def ahead(self):
        """The horizontal, in the direction of travel."""
        return unit(cross(self.normal(), self.r))

    def burnt(self, change):
        return self._replace(v=mixed(1.0, self.v, 1.0, change))


# ---- the desk

def spelled(word):
    return "x%016X" % struct.unpack("<Q", struct.pack("<d", word)) if isinstance(word, float) else str(word)


class Desk:
    """`./cabin desk`, with numbers as bits both ways."""

    def __init__(self):
        self.program = subprocess.Popen([ROOT / "cabin", "desk"], stdin=subprocess.PIPE, stdout=subprocess.PIPE, text=True)

    def __enter__(self):
        return self

    def __exit__(self, *_):
        self.program.communicate()

    def ask(self, *words):
        request = " ".join(map(spelled, words))
        self.program.stdin.write(f"{request}\n")
        self.program.stdin.flush()
        answer = self.program.stdout.readline()
        if " bits " not in answer:
            sys.exit(f"rendezvous: {request}: {answer}")
        return [struct.unpack(">d", bytes.fromhex(word[1:]))[0] for word in answer.split(" bits ")[1].split()]

    def angle(self, tenths):
        """Sine and cosine of an angle, brought to length 1."""
        sine, cosine = self.ask("wheel", tenths)
        size = math.sqrt(sine * sine + cosine * cosine)
        return sine / size, cosine / size

    def flown(self, craft, time):
        got = self.ask("kepler", MU, *craft.r, *craft.v, float(time - craft.time))
        return Craft(time, tuple(got[2:5]), tuple(got[5:8]))

    def apsides(self, craft):
        return self.ask("apsides", MU, *craft.r, *craft.v)

    def half_turn(self, craft):
        """The time when it has gone half round."""
        near, far = self.apsides(craft)
        return craft.time + round(math.pi * math.sqrt(((near + far) / 2)**3 / MU))

    def in_line(self, passive, active):
        """The passive vehicle at the point of its orbit that is in line with the active one."""
        passive = self.flown(passive, active.time)
        for _ in range(4):
            sine, cosine = turned(passive.r, active.r, passive.normal())
            rate = length(cross(passive.r, passive.v)) / dot(passive.r, passive.r)
            passive = self.flown(passive, passive.time + round(math.atan2(sine, cosine) / rate))
        return passive

    def out_of_place(self, active, passive):
        """The sine of the angle by which the passive vehicle is ahead of where the line of sight has its elevation."""
        k, other, *points = self.ask("sight", *active.r, *passive.r, ELEVATION, *active.ahead(), *unit(active.r))
        return turned(points[:3] if abs(k) <= abs(other) else points[3:], passive.r, active.normal())[0]


# ---- the launch window

def ascended(time, normal):
    """The active vehicle, where an ascent ends at a time. The site has turned with the moon; the plane is the one through the site that is
    nearest to the passive vehicle's, whose normal is given."""
    angle = LONGITUDE + TURNING * (time - ASCENT - START)
    site = math.cos(LATITUDE) * math.cos(angle), math.cos(LATITUDE) * math.sin(angle), math.sin(LATITUDE)
    along = unit(cross(normal, site))
    up, ahead = mixed(math.cos(ARC), site, math.sin(ARC), along), mixed(-math.sin(ARC), site, math.cos(ARC), along)
    near, far = RADIUS + LOW, RADIUS + HIGH
    speed = math.sqrt(2 * MU * far / (near * (near + far)))
    return Craft(time, tuple(round(near * x, 1) for x in up), tuple(round(speed * x, 6) for x in ahead))


def moments(desk, passive, tenths):
    """The seconds, within eight hours, in which the passive vehicle comes to be ahead of an ascent's end by an angle."""
    normal, (sine, cosine) = passive.normal(), desk.angle(tenths)

    def too_far(time):
        """Sine and cosine of how much too far ahead it is."""
        s, c = turned(ascended(time, normal).r, desk.flown(passive, time).r, normal)
        return s * cosine - c * sine, c * cosine + s * sine

    before = too_far(START)
    for time in range(START, START + 8 * HOUR, MINUTE):
        now = too_far(time + MINUTE)
        if before[0] < 0 <= now[0] and now[1] > 0:
            yield next(second for second in range(time, time + MINUTE + SECOND, SECOND) if too_far(second)[0] >= 0)
        before = now


def window(desk, passive):
    """When the launch window opens and closes by the lead angle: that of the turn in which the planes are nearest."""
    opens, closes = (list(moments(desk, passive, lead)) for lead in LEADS)
    times = [(start, end) for start in opens for end in closes if start < end < start + HOUR]
    return min(times, key=lambda pair: apart(ascended(sum(pair) // 2, passive.normal()), passive))


# ---- the burns

def root_of(wrong, one, other, enough):
    """Where a function is 0, by the secant, in at most 15 steps."""
    a, b = wrong(one), wrong(other)
    for _ in range(15):
        if abs(b) <= enough:
            return other
        one, a, other = other, b, other - b * (other - one) / (b - a)
        b = wrong(other)
    sys.exit("rendezvous: a burn was not found")


class Burn(NamedTuple):
    name: str
    time: int
    change: tuple
    after: Craft


class Plan:
    """The burns behind an insertion, each on what the ones ahead of it came to."""

    def __init__(self, desk, passive, active):
        self.desk, self.passive, self.active, self.burns = desk, passive, active, []

    def burn(self, name, craft, change):
        self.burns.append(Burn(name, craft.time, change, craft.burnt(change)))
        self.active = self.burns[-1].after

    def push(self, name, craft, speed):
        """A horizontal burn."""
        self.burn(name, craft, mixed(speed, craft.ahead(), 0.0, craft.r))

    def to_constant_height(self, phasing, intercept):
        """Phasing and height adjustment a turn apart, and the constant-height burn half a turn behind them."""
        desk = self.desk
        self.push("phasing", desk.flown(self.active, desk.half_turn(self.active)), phasing)
        there = desk.flown(self.active, 2 * desk.half_turn(self.active) - self.active.time)

        def too_high(speed):
            after = there.burnt(mixed(speed, there.ahead(), 0.0, there.r))
            end = desk.flown(after, desk.half_turn(after))
            return BELOW - length(desk.in_line(self.passive, end).r) + length(end.r)

        self.push("height adjustment", there, root_of(too_high, 0.08, 0.09, 0.1))
        time = desk.half_turn(self.active)
        change = desk.ask("cdh", BODY, RADIUS, MU, *self.active.r, *self.active.v, self.active.time, *self.passive.r, *self.passive.v, self.passive.time, time, intercept)
        self.burn("constant height", desk.flown(self.active, time), tuple(change[:3]))
        return self

    def out_of_place(self, time):
        return self.desk.out_of_place(self.desk.flown(self.active, time), self.desk.flown(self.passive, time))

    def to_the_end(self, time):
        """The intercept, and the braking a little ahead of where the vehicles would meet."""
        desk = self.desk
        active, passive = desk.flown(self.active, time), desk.flown(self.passive, time)
        end = time + round(desk.ask("theta", MU, *passive.r, *passive.v, *desk.angle(TRAVEL))[0])
        velocity = desk.ask("lambert", MU, *active.r, *desk.flown(passive, end).r, float(end - time), "short")[2:5]
        self.burn("intercept", active, less(velocity, active.v))
        active, passive = desk.flown(self.active, end - SHORT), desk.flown(passive, end - SHORT)
        self.burn("braking", active, less(passive.v, active.v))
        return self


def planned(desk):
    """The window, the passive vehicle at START, the active one at its insertion, and the burns."""
    passive = Craft(START, *PASSIVE)
    opens, closes = window(desk, passive)
    active = ascended((opens + closes) // (2 * SECOND) * SECOND, passive.normal())
    intercept = active.time + TO_INTERCEPT
    phasing = root_of(lambda speed: Plan(desk, passive, active).to_constant_height(speed, intercept).out_of_place(intercept), 0.06, 0.07, 1e-7)
    plan = Plan(desk, passive, active).to_constant_height(phasing, intercept).to_the_end(intercept)
    return (opens, closes), passive, active, plan.burns


# ---- the plan in words

def clock(time):
    day, cs = divmod(time + OFFSET * MINUTE, DAY)
    return f"day {day} {cs // HOUR:02}:{cs // MINUTE % 60:02}:{cs // SECOND % 60:02}"


def told(desk, name, craft, passive, words):
    near, far = (round((x - RADIUS) / 1000, 1) for x in desk.apsides(craft))
    there = desk.flown(passive, craft.time)
    lead = math.degrees(math.atan2(*turned(craft.r, there.r, passive.normal())))
    return f"{name:<18}{clock(craft.time)}  {words:<9}  {near} to {far} km up, vehicle 0 {round(lead, 2) + 0.0:.2f} degrees ahead, range {length(less(craft.r, there.r)) / 1000:.1f} km"


def main():
    with Desk() as desk:
        (opens, closes), passive, active, burns = planned(desk)
        print(f"{'launch window':<18}{clock(opens)} to {clock(closes)}, planes {math.degrees(math.asin(apart(active, passive))):.2f} degrees apart")
        print(told(desk, "insertion", active, passive, ""))
        for burn in burns:
            print(told(desk, burn.name, burn.after, passive, f"{100 * length(burn.change):.2f} m/s"))


if __name__ == "__main__":
    main()
