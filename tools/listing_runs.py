#!/usr/bin/env python3
"""listing_runs: runs the listing program on sessions that are whole, cut short, damaged, over-long or not there, from
a file and from standard input, and holds what it writes to make_sample's own reading of the rules."""
import pathlib
import subprocess
import sys
import tempfile

sys.path.insert(0, str(pathlib.Path(__file__).parent))
from make_sample import BURN, MARK, listing, night, offset, record, sample

CABIN = pathlib.Path(__file__).resolve().parent.parent / 'cabin'


def ready(program):
    """What starts a program of this checkout."""
    return subprocess.run([CABIN, 'ready', program], stdout=subprocess.PIPE, text=True, check=True).stdout.split('\n')[:-1]


def run(*words, given=b''):
    ran = subprocess.run([*words], input=given, capture_output=True)
    return ran.stdout, ran.stderr


def sessions():
    """(what it is, its bytes)"""
    burn = record(BURN, 1, 0, 64, 1.0, 0.0, 0.0)
    many = record(MARK, 1, 0, -1, 1.0, 2.0) * 2184
    infinite = burn[:28] + b'\xf0\x7f' + burn[30:]
    yield 'the sample', sample()
    yield 'the night shift', night()
    for minutes in (-32768, -841, -840, -1, 0, 1, 840, 841, 32767):
        yield f'an offset of {minutes} minutes', offset(minutes) + burn
    for size in (2**53, 2**53 + 1, 2**63 - 1):
        for sign in (-1, 1):
            yield f'a time of {sign * size}', offset(60) + burn[:6] + (sign * size).to_bytes(8, 'little', signed=True) + burn[14:]
    yield 'an offset that is not first', burn + offset(60)
    yield 'two offsets', offset(60) + offset(60) + burn
    yield 'an offset whose last bytes are not zero', offset(60, 256) + burn
    yield 'an offset of another length', b'\x09' + offset(60)[1:] + burn
    for k in range(8):
        yield f'an offset cut at byte {k}', offset(60)[:k]
        yield f'a late offset cut at byte {k}', burn + offset(60)[:k]
    yield 'a burn record', burn
    yield 'a number that is infinite', infinite
    yield 'a number that is none', infinite[:22] + b'\x01' + infinite[23:]
    yield '65,536 bytes', many + burn[:16]
    yield '65,537 bytes', many + burn[:17]
    for k in range(len(burn)):
        yield f'a record cut at byte {k}', burn[:k]
        yield f'a record damaged at byte {k}', burn[:k] + bytes([255 - burn[k]]) + burn[k + 1:]


def main():
    runs = faults = 0
    start = ready('listing')
    with tempfile.TemporaryDirectory() as room:
        path = pathlib.Path(room) / 'session'
        for name, session in sessions():
            path.write_bytes(session)
            for way, got in (('file', run(*start, path)), ('standard input', run(*start, given=session))):
                runs += 1
                if got != (listing(session), b''):
                    faults += 1
                    print(f'{name}, from {way}: wrote {got[0]!r} and said {got[1]!r}, not {listing(session)!r}')
        for name, words in (('no such file', [path / 'none']), ('a folder', [room]), ('two files', [path, path])):
            runs += 1
            wrote, said = run(*start, *words)
            if wrote or not said:
                faults += 1
                print(f'{name}: wrote {wrote!r} and said {said!r}; nothing must be written and something said')
    print(f'{runs} runs of the listing, {faults} wrong')
    return 1 if faults else 0


if __name__ == '__main__':
    sys.exit(main())
