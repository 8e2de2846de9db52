#!/usr/bin/env python3
"""make_sample: writes the sample sessions, and what the programs listing, show and write are run on and must write. The burns of
samples/rendezvous.bin are the desk's answers (rendezvous.py).

  tools/make_sample.py           write the files
  tools/make_sample.py --check   say which differ from what would be written, and exit 1 if one does

The listings and the texts come from a reader of this script's own, so that the programs are held to a second reading
of the rules.
Run it from the project's root.
"""
import fractions
import math
import operator
import pathlib
import struct
import sys

import rendezvous as plan

STATE, BURN, MARK, OFFSET = 1, 2, 3, 4
LENGTH = {STATE: 62, BURN: 38, MARK: 30, OFFSET: 8}
NAME = {STATE: 'state', BURN: 'burn', MARK: 'mark'}
DAY = 8_640_000
HOUR = 360_000
MINUTE = 6_000


def record(kind, vehicle, byte, time, *numbers):
    packed = struct.pack('<HHBBq%dd' % len(numbers), LENGTH[kind], kind, vehicle, byte, time, *numbers)
    assert len(packed) == LENGTH[kind]
    return packed


def offset(minutes, zero=0):
    return struct.pack('<HHhH', LENGTH[OFFSET], OFFSET, minutes, zero)


def decode(s, first):
    """What the record at the front of s is, the first of its session or not: its minutes, or its time, vehicle and kind;
    and its length. Or the number of the refusal."""
    if len(s) < 4:
        return 11
    length, kind = struct.unpack_from('<HH', s)
    if length < 4:
        return 12
    if kind not in LENGTH:
        return 13
    if length != LENGTH[kind]:
        return 12
    if len(s) < length:
        return 11
    if kind == OFFSET:
        minutes, zero = struct.unpack_from('<hH', s, 4)
        return (minutes, length) if first and zero == 0 and abs(minutes) <= 840 else 14
    vehicle, byte, time = struct.unpack_from('<BBq', s, 4)
    numbers = struct.unpack_from('<%dd' % ((length - 14) // 8), s, 14)
    if vehicle > 1 or byte > (1 if kind == STATE else 0) or abs(time) > 2**53 or not all(map(math.isfinite, numbers)):
        return 14
    return (time, vehicle, kind), length


def listing(s, limit=65536):
    """The listing of a session; without a limit (None) that of a session as it comes."""
    lines, at, minutes = ['day cs vehicle kind'], 0, 0
    if limit is not None and len(s) > limit:
        lines.append('refused 12 at 0')
        at = len(s)
    while at < len(s):
        got = decode(s[at:at + 62], at == 0)
        if isinstance(got, int):
            lines.append('refused %d at %d' % (got, at))
            break
        what, length = got
        if isinstance(what, int):
            minutes = what
        else:
            time, vehicle, kind = what
            local = time + MINUTE * minutes
            lines.append('%d %d %d %s' % (local // DAY, local % DAY, vehicle, NAME[kind]))
        at += length
    return ''.join(line + '\n' for line in lines).encode()


def places(x):
    """x to six places, cut towards zero."""
    millionths = abs(fractions.Fraction(x)) * 10**6 // 1
    if abs(x) >= 2**43:
        return 'large'
    return '%s%d.%06d' % ('-' if math.copysign(1, x) < 0 else '', millionths // 10**6, millionths % 10**6)


def text(s):
    """The session as text: what `show` must write."""
    lines, at, minutes = [], 0, 0
    if len(s) > 65536:
        lines.append('# refused 12 at 0')
        at = len(s)
    while at < len(s):
        got = decode(s[at:], at == 0)
        if isinstance(got, int):
            lines.append('# refused %d at %d' % (got, at))
            break
        what, length = got
        if isinstance(what, int):
            minutes = what
            lines += ['# offset %d minutes' % minutes, 'offset %d' % minutes]
        else:
            time, vehicle, kind = what
            local = time + MINUTE * minutes
            words = struct.unpack_from('<%dQ' % ((length - 14) // 8), s, at + 14)
            numbers = struct.unpack_from('<%dd' % len(words), s, at + 14)
            lines.append(' '.join(['# day %d cs %d: %s of vehicle %d' % (local // DAY, local % DAY, NAME[kind], vehicle), *map(places, numbers)]))
            body = [str(s[at + 5])] if kind == STATE else []
            lines.append(' '.join([NAME[kind], str(time), str(vehicle), *body, *('x%016X' % word for word in words)]))
        at += length
    return ''.join(line + '\n' for line in lines).encode()


def sample():
    """A rendezvous of two vehicles about the moon, begun on the evening before day 0."""
    return b''.join([
        record(STATE, 0, 0, -2 * DAY - 1, 6.7e6, 0.0, 0.0, 0.0, 77.1, 0.0),
        record(BURN, 0, 0, -DAY, 30.5, 0.0, 0.0),
        record(STATE, 0, 1, -360_000, 1.85e6, 0.0, 0.0, 0.0, 16.28, 0.0),
        record(STATE, 1, 1, -1, 1.83e6, -4.0e4, 0.0, 0.35, 16.37, 0.0),
        record(MARK, 0, 0, 0, 44_721.4, -0.36),
        record(BURN, 1, 0, 64, 1.0, 0.0, 0.0),
        record(MARK, 1, 0, 720_000, 21_300.0, -0.29),
        record(BURN, 1, 0, DAY - 1, 0.0, -0.125, 0.0),
        record(MARK, 0, 0, DAY, 1_510.0, -0.05),
        record(STATE, 1, 1, 3 * DAY + 4_321_000, 1.85e6, 12.0, 0.5, -0.001, 16.28, 0.0),
    ])


def damaged():
    """Two states, and at byte 124 a mark whose kind is 9."""
    mark = record(MARK, 0, 0, 0, 44_721.4, -0.36)
    return b''.join([
        record(STATE, 0, 1, -360_000, 1.85e6, 0.0, 0.0, 0.0, 16.28, 0.0),
        record(STATE, 1, 1, -1, 1.83e6, -4.0e4, 0.0, 0.35, 16.37, 0.0),
        mark[:2] + struct.pack('<H', 9) + mark[4:],
    ])


def night():
    """A night shift two hours ahead of UTC, on day 4 from ten minutes to midnight on."""
    def at(hours, minutes, cs=0):
        return 4 * DAY + hours * HOUR + minutes * MINUTE + cs - 120 * MINUTE
    return b''.join([
        offset(120),
        record(STATE, 0, 1, at(23, 50), 1.85e6, 0.0, 0.0, 0.0, 16.28, 0.0),
        record(STATE, 1, 1, at(23, 50), 1.83e6, -4.0e4, 0.0, 0.35, 16.37, 0.0),
        record(MARK, 1, 0, at(23, 55), 43_110.0, -0.31),
        record(BURN, 1, 0, at(23, 59, MINUTE - 1), 0.0, 0.125, 0.0),
        record(MARK, 1, 0, at(24, 0), 41_020.5, -0.33),
        record(BURN, 0, 0, at(24, 10), 0.0, -0.0625, 0.0),
        record(MARK, 0, 0, at(26, 0), 9_870.0, -0.12),
        record(STATE, 1, 1, at(26, 5), -1.7e6, 6.1e5, 0.0, -5.4, -15.4, 0.0),
    ])


MU_MOON = 490_277_800.0
MOON = 1_738_090.0


def circling(radius, angle):
    """A state on a circle about the moon, at an angle from the x axis."""
    speed = math.sqrt(MU_MOON / radius)
    return radius * math.cos(angle), radius * math.sin(angle), 0.0, -speed * math.sin(angle), speed * math.cos(angle), 0.0


def flown(state, cs):
    """A state about the moon some cs later: the universal variable by Newton's rule."""
    if cs == 0:
        return state
    at, speed, root = state[:3], state[3:], math.sqrt(MU_MOON)
    r, sigma = math.hypot(*at), sum(map(operator.mul, at, speed)) / root
    alpha = 2 / r - sum(u * u for u in speed) / MU_MOON
    chi = root * cs * alpha
    for _ in range(60):
        psi = chi * chi * alpha
        c, s = (1 - math.cos(math.sqrt(psi))) / psi, (math.sqrt(psi) - math.sin(math.sqrt(psi))) / math.sqrt(psi)**3
        now = chi * chi * c + sigma * chi * (1 - psi * s) + r * (1 - psi * c)
        chi += (root * cs - chi**3 * s - sigma * chi * chi * c - r * chi * (1 - psi * s)) / now
    f, g = 1 - chi * chi / r * c, cs - chi**3 / root * s
    there = [f * x + g * u for x, u in zip(at, speed)]
    far = math.hypot(*there)
    df, dg = root / (far * r) * chi * (psi * s - 1), 1 - chi * chi / far * c
    return *there, *(df * x + dg * u for x, u in zip(at, speed))


# behind which burn and how many minutes, and by how many metres the range is then measured wrongly
MARKS = (0, 80, 3.0), (0, 100, -5.0), (1, 20, 2.5), (1, 40, -1.5), (2, 15, 4.0), (2, 30, -3.5), (3, 12, 2.0), (3, 24, -1.0), (3, 36, 0.75), (4, 10, -0.5)


def rendezvous():
    """The flight of rendezvous.py, with marks where the moon does not stand between the two: the range, to a centimetre, and its rate by the
    orbits of this script, which knows nothing of the desk's."""
    with plan.Desk() as desk:
        _, passive, active, burns = plan.planned(desk)
    parts = [offset(plan.OFFSET), record(STATE, 0, 1, passive.time, *passive.r, *passive.v), record(STATE, 1, 1, active.time, *active.r, *active.v)]
    target, chaser, since = (*passive.r, *passive.v), (*active.r, *active.v), active.time
    for k, burn in enumerate(burns):
        here = flown(chaser, burn.time - since)
        chaser, since = (*here[:3], *map(operator.add, here[3:], burn.change)), burn.time
        parts.append(record(BURN, 1, 0, burn.time, *burn.change))
        for time, noise in ((burn.time + minutes * MINUTE, noise) for behind, minutes, noise in MARKS if behind == k):
            way = list(map(operator.sub, flown(chaser, time - since), flown(target, time - passive.time)))
            far = math.hypot(*way[:3])
            rate = sum(map(operator.mul, way[:3], way[3:])) / far
            parts.append(record(MARK, 1, 0, time, round(far + noise, 2), round(rate, 6)))
    return b''.join(parts)


def slips():
    """What a replay refuses, and goes on behind: a burn of a vehicle that is not set, one that is too large, a mark with a range that is far off,
    ten minutes back in time; vehicle 0 set about the earth, so that the next mark has no range, and a burn 32 days later."""
    high, low = circling(MOON + 111_120.0, 0.02), circling(MOON + 83_340.0, 0.0)
    far = math.dist(flown(high, 20 * MINUTE)[:3], flown(low, 20 * MINUTE)[:3])
    return b''.join([
        record(BURN, 1, 0, 0, 0.0, 0.125, 0.0),
        record(STATE, 0, 1, 0, *high),
        record(STATE, 1, 1, 0, *low),
        record(BURN, 1, 0, 20 * MINUTE, 0.0, 130.0, 0.0),
        record(MARK, 1, 0, 20 * MINUTE, round(far - 1.5, 2), 0.0),
        record(MARK, 0, 0, 10 * MINUTE, 9_000.0, 0.0),
        record(STATE, 0, 0, 20 * MINUTE, 6_700_000.0, 0.0, 0.0, 0.0, 77.1, 0.0),
        record(MARK, 0, 0, 20 * MINUTE, 0.0, 0.0),
        record(BURN, 1, 0, 32 * DAY, 0.0, 0.125, 0.0),
    ])


def low():
    """A vehicle that falls past the moon's centre: within row 9's range where the first burn comes, and under row 3's there."""
    return b''.join([
        record(STATE, 0, 1, 0, 1.85e6, 0.0, 0.0, 0.0, 2.0, 0.0),
        record(BURN, 0, 0, 124_500, 0.0, 0.0, 0.0),
        record(BURN, 0, 0, 124_600, 0.0, 0.0, 0.0),
    ])


def files():
    """The files that this script writes, with their contents."""
    whole = sample()
    ends = record(BURN, 0, 0, -2**53, 0.0, 0.0, 0.0) + record(MARK, 1, 0, 2**53, 0.0, -0.0)
    refused = offset(-840) + whole + ends + struct.pack('<HH', 38, 5)
    return {
        'samples/session.bin': whole,
        'samples/damaged.bin': damaged(),
        'samples/night.bin': night(),
        'samples/rendezvous.bin': rendezvous(),
        'samples/slips.bin': slips(),
        'samples/low.bin': low(),
        'crates/refly/data/session': refused,
        'crates/listing/data/session': refused,
        'crates/listing/stdout': listing(refused),
        'crates/show/stdin': refused,
        'crates/show/stdout': text(refused),
        'crates/write/stdin': text(offset(-840) + whole + ends),
        'crates/write/stdout': offset(-840) + whole + ends,
        'crates/watch/stdin': refused,
        'crates/watch/stdout': listing(refused, None),
    }


def main():
    wrong = 0
    for name, content in files().items():
        path = pathlib.Path(name)
        if sys.argv[1:] == ['--check']:
            if not path.exists() or path.read_bytes() != content:
                print('differs:', name)
                wrong = 1
        else:
            path.parent.mkdir(parents=True, exist_ok=True)
            path.write_bytes(content)
    return wrong


if __name__ == '__main__':
    sys.exit(main())
