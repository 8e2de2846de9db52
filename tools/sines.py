#!/usr/bin/env python3
"""The thumbwheel's table: the sine of 0 to 90.0 degrees in tenths, times 2^30, to nearest (the numbers of crates/wheel/src/table.rt).

  sines.py            print the 901 numbers, a line each
  sines.py --check    say whether they stand in crates/wheel/src/table.rt, and nothing else does; 1 if not
  sines.py --write    put them there

Whole numbers of 2^-400 alone, and no sine but this one: π by Machin's formula, the sine by its series, and for each entry the
test that what is left out cannot change how it rounds.
"""
import os
import re
import sys

TABLE = os.path.join(os.path.dirname(os.path.abspath(__file__)), '../crates/wheel/src/table.rt')
ONE = 1 << 400
LEFT_OUT = 1 << 20      # far more than the few hundred units that all the cut quotients can lose


def arctangent_of_inverse(n):
    term, total, k = ONE // n, 0, 0
    while term:
        total += (-1) ** k * (term // (2 * k + 1))
        term //= n * n
        k += 1
    return total


PI = 4 * (4 * arctangent_of_inverse(5) - arctangent_of_inverse(239))


def sine(tenths):
    x = PI * tenths // 1800
    term, total, k = x, 0, 1
    while term:
        total += term if k % 4 == 1 else -term
        term = term * x // ONE * x // ONE // ((k + 1) * (k + 2))
        k += 2
    return total


def entry(tenths):
    s = sine(tenths)
    low, high = ((s + off << 31) // ONE + 1 >> 1 for off in (-LEFT_OUT, LEFT_OUT))
    if low != high:
        sys.exit('the sine of %d tenths lies too near the middle of two whole numbers: more digits are needed' % tenths)
    return low


def main():
    numbers = [entry(k) for k in range(901)]
    what = sys.argv[1] if len(sys.argv) > 1 else ''
    if what == '':
        print('\n'.join(map(str, numbers)))
        return 0
    with open(TABLE) as file:
        text = file.read()
    array = re.search(r'(const SINES: \[u32; 901\] = \[\n)(.*?)(\];)', text, re.S)
    if what == '--write':
        body = ''.join('    %d,\n' % n for n in numbers)
        with open(TABLE, 'w') as file:
            file.write(text[:array.start(2)] + body + text[array.end(2):])
        return 0
    there = [int(n) for n in re.findall(r'\d+', array.group(2))]
    wrong = [k for k in range(max(len(there), 901)) if k >= len(there) or k > 900 or there[k] != numbers[k]]
    for k in wrong[:5]:
        print('entry %d is %s, and must be %s' % (k, there[k] if k < len(there) else 'missing', numbers[k] if k < 901 else 'left out'))
    worst = max(abs(numbers[k] ** 2 + numbers[900 - k] ** 2 - (1 << 60)) for k in range(901))
    print('%d entries, %d wrong; the squares of k and 900-k sum to within %.3f * 2^29 of 2^60' % (len(there), len(wrong), worst / (1 << 29)))
    return 1 if wrong else 0


if __name__ == '__main__':
    sys.exit(main())
