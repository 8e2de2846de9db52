#!/usr/bin/env python3
"""Hard roots, as requests for the desk on standard output; tools/compare.sh asks them of both programs.

  squares of whole numbers and the f64 on either side of each
  subnormals of every length: the least, the greatest, and some between
  roots that lie as near as can be below and above an f64, and below and above the middle of two
  roots for which crates/root goes to the digits: its guess lies above a root just below a whole number, and its test says so

How many there are of each is said on standard error. The last kind is found by a copy of the steps (second/bench.c has them in C):
about 7 in 10,000 roots that lie just below an f64 are of it, and none of 199 million roots of random numbers was.
"""
import os
import random
import re
import struct
import sys

HERE = os.path.dirname(os.path.abspath(__file__))
SEED = 4
WORD = (1 << 64) - 1


def bits(x):
    return struct.unpack('<Q', struct.pack('<d', x))[0]


def squares(dice):
    for _ in range(2000):
        b = bits(float(dice.randrange(1, 1 << dice.randrange(1, 27)) ** 2))
        yield from (b - 1, b, b + 1)


def subnormals(dice):
    for length in range(1, 53):
        least, greatest = 1 << length - 1, (1 << length) - 1
        yield from {least, greatest, *(dice.randint(least, greatest) for _ in range(20))}


def roots_modulo(c, k):
    """The x below 2^k with x*x = c modulo 2^k, for a c that is 1 modulo 8."""
    x = 1
    for b in range(3, k):
        if (x * x - c) % (2 << b):
            x += 1 << (b - 1)
    half = 1 << (k - 1)
    return {y % (1 << k) for y in (x, -x, x + half, half - x)}


def near(places, side, count):
    """The a of 53 or 54 digits for which √(a * 2^places) lies just above (side 1) or below (-1) a whole number of 53 or 54 digits."""
    for k in range(count):
        v = side * (8 * k + (7 if side > 0 else 1))
        for x in roots_modulo(-v % (1 << places), places):
            for q in range(x, 1 << (places // 2 + 28), 1 << places):
                a = (q * q + v) >> places
                if 1 << 52 <= a < 1 << 54:
                    yield a


def number(a):
    """The bits of a number above 0 whose root has these digits, or none: of 54 digits the last is 0."""
    if a < 1 << 53:
        return (1023 << 52) + a - (1 << 52)
    return None if a % 2 else (1024 << 52) + a // 2 - (1 << 52)


def line():
    """The table of the guess, as crates/root has it."""
    with open(os.path.join(HERE, '../crates/root/src/lib.rt')) as source:
        table = re.search(r'fn line.*?\n}', source.read(), re.S).group()
    cases = {int(i): int(x, 16) for i, x in re.findall(r'(\d+) => 0x([0-9a-f]+)', table)}
    cases[127] = int(re.search(r'_ => 0x([0-9a-f]+)', table).group(1), 16)
    return cases


def to_the_digits(a, table):
    top = a >> 22
    piece = table[top >> 25]
    g = piece - ((piece >> 32) * (top % (1 << 25)) >> 25) & 0xFFFFFFFF
    u = top * g >> 32
    w = ((3 << 62) - u * g & WORD) >> 32
    r, s = g * w >> 32, u * w >> 32
    e = a * 64 - s * s & WORD
    t = (e & 0xFFFFFFFF) * r >> 38
    d = (e << 22) - s * t & WORD
    v = (d << 24) - t * t & WORD
    over = ((s << 23) + t) * 3 - v & WORD
    return (e >> 32) + (d >> 32) + (v >> 55) + (over >> 55) != 0


def main():
    dice, table = random.Random(SEED), line()
    close = [a for places in (52, 54) for side in (-1, 1) for a in near(places, side, 1000)]
    digits = [a for a in near(52, -1, 20000) if number(a) and to_the_digits(a, table)]
    kinds = {
        'squares and their neighbours': squares(dice),
        'subnormals': subnormals(dice),
        'close to an f64 or to the middle of two': (number(a) for a in close),
        'to the digits': (number(a) for a in digits),
    }
    for name, cases in kinds.items():
        lines = [b for b in cases if b]
        sys.stderr.write('%6d %s\n' % (len(lines), name))
        if not lines:
            sys.exit('no case of this kind was found: %s' % name)
        for b in lines:
            print('root x%016X' % b)


if __name__ == '__main__':
    main()
