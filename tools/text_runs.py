#!/usr/bin/env python3
"""text_runs: runs `show` and `write`, the programs and the commands, on sessions that are whole, cut short, damaged or
over-long and on text with faults. What `show` writes is held to make_sample's own reading of the rules, and `write` of it
to the session's bytes; a fault names its line and leaves no file.

  tools/text_runs.py [SEED]
"""
import pathlib
import random
import struct
import subprocess
import sys
import tempfile

sys.path.insert(0, str(pathlib.Path(__file__).parent))
from make_sample import BURN, MARK, STATE, night, offset, record, sample, text

CABIN = pathlib.Path(__file__).resolve().parent.parent / 'cabin'
FRESH = 200


def program(name):
    return subprocess.run([CABIN, 'ready', name], stdout=subprocess.PIPE, text=True, check=True).stdout.split('\n')[:-1]


SHOW, WRITE = program('show'), program('write')


def run(words, given):
    ran = subprocess.run(words, input=given, capture_output=True)
    return ran.stdout, ran.stderr


def number(draw):
    """Any finite number, by its bits or of a size that a cabin meets."""
    while True:
        x = struct.unpack('<d', draw.randbytes(8))[0] if draw.random() < 0.5 else draw.uniform(-1e7, 1e7)
        if x - x == 0:
            return draw.choice([x, x, x, 0.0, -0.0, 5e-324])


def fresh(draw):
    """A whole session."""
    made = [offset(draw.randint(-840, 840))] if draw.random() < 0.5 else []
    for _ in range(draw.randint(0, 12)):
        kind, count = draw.choice([(STATE, 6), (BURN, 3), (MARK, 2)])
        time = draw.choice([draw.randint(-2**53, 2**53), draw.randint(-10**7, 10**7), -2**53, 2**53, -1, 0])
        made.append(record(kind, draw.randint(0, 1), draw.randint(0, kind == STATE), time, *(number(draw) for _ in range(count))))
    return b''.join(made)


MANY = record(MARK, 1, 0, -1, 1.0, 2.0) * 2184


def sessions(draw):
    """(what it is, its bytes, whether it is whole)"""
    burn = record(BURN, 1, 0, 64, 1.0, 0.0, 0.0)
    yield 'no record', b'', True
    yield 'the sample', sample(), True
    yield 'the night shift', night(), True
    yield '2,184 marks', MANY, True
    yield '65,536 bytes', offset(60) + burn * 8 + record(STATE, 0, 1, 0, 0.0, 0.0, 0.0, 0.0, 0.0, 0.0) * 2 + MANY[:30 * 2170], True
    yield '65,537 bytes', MANY + burn[:17], False
    yield 'a late offset', burn + offset(60), False
    for k in range(1, len(burn)):
        yield f'a record cut at byte {k}', burn[:k], False
    for k in range(FRESH):
        yield f'fresh session {k}', fresh(draw), True


BURN_LINE = 'burn 64 1 x3FF0000000000000 0 -0'
# text, and what `write` must say of it
FAULTS = [
    ('burns 64 1 1 0 0', 'line 1: unread 1'),
    ('# a comment\n\n  \nburn 64 1 1 0', 'line 4: unread 6'),
    (BURN_LINE + '\nburn 64 1 1 0 0 0', 'line 2: unread 7'),
    (BURN_LINE + '\n' + BURN_LINE + '\nburn 64 1 1e3 0 0', 'line 3: unread 4'),
    ('burn', 'line 1: unread 2'),
    ('mark 64', 'line 1: unread 3'),
    ('mark 9223372036854775808 1 1 0', 'line 1: unread 2'),
    ('mark -9223372036854775809 1 1 0', 'line 1: unread 2'),
    ('mark 9223372036854775807 1 1 0', 'line 1: refused 14'),
    ('mark 64 18446744073709551616 1 0', 'line 1: unread 3'),
    ('mark 64 18446744073709551615 1 0', 'line 1: refused 14'),
    ('mark 64 256 1 0', 'line 1: refused 14'),
    ('mark 64 2 1 0', 'line 1: refused 14'),
    ('mark 64 -1 1 0', 'line 1: unread 3'),
    ('mark 9007199254740993 1 1 0', 'line 1: refused 14'),
    ('mark 64 1 x7FF8000000000000 0', 'line 1: refused 14'),
    ('mark 64 1 0 x7FF0000000000000', 'line 1: refused 14'),
    ('state 64 1 2 1 0 0 0 0 0', 'line 1: refused 14'),
    ('state 64 1 257 1 0 0 0 0 0', 'line 1: refused 14'),
    ('state 64 1 x 1 0 0 0 0 0', 'line 1: unread 4'),
    ('state 64 1 1 1 0 0 0 0', 'line 1: unread 10'),
    ('state 64 1 1 1 0 0 0 0 0 0', 'line 1: unread 11'),
    ('offset 841', 'line 1: refused 14'),
    ('offset -65536', 'line 1: refused 14'),
    ('offset 60 0', 'line 1: unread 3'),
    ('offset', 'line 1: unread 2'),
    (BURN_LINE + '\noffset 60', 'line 2: refused 14'),
    ('offset 60\noffset 60', 'line 2: refused 14'),
    (' # no comment', 'line 1: unread 1'),
    ('burn 64 1 1 0 0' + ' ' * 1000, 'line 1: unread 0'),
    ('mark 0 0 0 0\n' * 2185, 'line 2185: refused 15'),
    ('mark 0 2 0 0\n' * 2185, 'line 1: refused 14'),
    ('mark 0 0 0 0\n' * 2184 + 'mark 0 2 0 0', 'line 2185: refused 14'),
]
# text, and the session that it is
GOOD = [
    ('', b''),
    ('# nothing\n\n \t \n', b''),
    (BURN_LINE, record(BURN, 1, 0, 64, 1.0, 0.0, -0.0)),
    ('\t burn  64 01 +1.0 0 -0\r\n', record(BURN, 1, 0, 64, 1.0, 0.0, -0.0)),
    ('#' * 5000 + '\nmark -0 0 0.1 -2.5\n', record(MARK, 0, 0, 0, 0.1, -2.5)),
    ('state -5 0 1 1 2 3 4 5 6' + ' ' * 976, record(STATE, 0, 1, -5, 1.0, 2.0, 3.0, 4.0, 5.0, 6.0)),
    ('mark 0 0 0 0\n' * 2184, record(MARK, 0, 0, 0, 0.0, 0.0) * 2184),
]


def main():
    seed = int(sys.argv[1]) if len(sys.argv) > 1 else random.randrange(10**9)
    runs, faults = 0, []

    def same(name, got, wanted):
        nonlocal runs
        runs += 1
        if got != wanted:
            faults.append(f'{name}: {got!r}, not {wanted!r}'[:600])
    for name, session, whole in sessions(random.Random(seed)):
        same(f'{name}, shown', run(SHOW, session), (text(session), b''))
        if whole:
            same(f'{name}, shown and written', run(WRITE, text(session)), (session, b''))
    for given, said in FAULTS:
        same(f'{given[:60]!r}', run(WRITE, given.encode()), (b'', (said + '\n').encode()))
    for given, session in GOOD:
        same(f'{given[:60]!r}', run(WRITE, given.encode()), (session, b''))
    with tempfile.TemporaryDirectory() as room:
        a, b = pathlib.Path(room) / 'a', pathlib.Path(room) / 'b'
        for session in (sample(), night(), MANY, b''):
            a.write_bytes(session)
            b.unlink(missing_ok=True)
            ran = subprocess.run(f'"{CABIN}" show "{a}" | "{CABIN}" write "{b}"', shell=True, capture_output=True)
            same('./cabin show | ./cabin write', (ran.returncode, ran.stderr, b.exists() and b.read_bytes()), (0, b'', session))
        for given, said in FAULTS:
            b.unlink(missing_ok=True)
            ran = subprocess.run([CABIN, 'write', b], input=given.encode(), capture_output=True)
            same(f'./cabin write of {given[:60]!r}', (ran.returncode, ran.stderr.decode().split('\n')[0], sorted(p.name for p in pathlib.Path(room).iterdir())), (1, said, ['a']))
    print('\n'.join([*faults, f'{runs} runs of show and write, seed {seed}, {len(faults)} wrong']))
    return 1 if faults else 0


sys.exit(main())
