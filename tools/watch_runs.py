#!/usr/bin/env python3
"""watch_runs: runs the program that lists a session as it comes, and holds what it writes to make_sample's own reading of
the rules: sessions that are whole, cut short, damaged or long, all at once, in random parts and byte by byte; each line
and each refusal before the next byte is sent; and a long session in the memory of a short one.

The random parts are those of a seed, which is printed; CABIN_SEED=N repeats a run."""
import os
import pathlib
import random
import re
import select
import subprocess
import sys
import threading
import time

sys.path.insert(0, str(pathlib.Path(__file__).parent))
from listing_runs import ready, run, sessions
from make_sample import BURN, MARK, STATE, listing, night, offset, record, sample

START = ready('watch')
SOON = 20.0  # a line that is due comes within so many seconds, on a busy machine too
QUIET = 0.1  # and one that is not due has not come after so many


def in_parts(parts):
    """What the program writes and says when its input comes in these parts."""
    program = subprocess.Popen(START, stdin=subprocess.PIPE, stdout=subprocess.PIPE, stderr=subprocess.PIPE)

    def send():
        try:
            for part in parts:
                os.write(program.stdin.fileno(), part)
            program.stdin.close()
        except BrokenPipeError:
            pass  # a refusal ends it
    sender = threading.Thread(target=send)
    sender.start()
    got = program.stdout.read(), program.stderr.read()
    sender.join()
    program.wait()
    return got


def cut(session, draw):
    """The session in parts of random length."""
    at, parts = 0, []
    while at < len(session):
        length = draw.choice((1, 2, 3, 7, 29, 38, 61, 62, 63, 500))
        parts.append(session[at:at + length])
        at += length
    return parts


class Line:
    """A serial line that stays open: bytes go in, and what has come out is asked for."""

    def __init__(self):
        self.program = subprocess.Popen(START, stdin=subprocess.PIPE, stdout=subprocess.PIPE)
        self.came = b''

    def send(self, some):
        os.write(self.program.stdin.fileno(), some)

    def comes(self, text, seconds):
        """Whether just this has come in all, within so many seconds."""
        end = time.monotonic() + seconds
        while self.came != text and time.monotonic() < end:
            if select.select([self.program.stdout], [], [], end - time.monotonic())[0]:
                more = os.read(self.program.stdout.fileno(), 65536)
                if not more:
                    break
                self.came += more
        return self.came == text

    def ends(self):
        """Whether the program ends by itself, with its input open."""
        try:
            self.program.wait(SOON)
            return True
        except subprocess.TimeoutExpired:
            self.program.kill()
            return False


def prompt(name, session):
    """The faults of a session that is sent byte by byte, each after what was due has come."""
    line, told = Line(), len(listing(b'', None))
    if not line.comes(listing(b'', None), SOON):
        yield f'{name}: no heading'
    for at in range(1, len(session) + 1):
        line.send(session[at - 1:at])
        due = listing(session[:at], None)
        if b'refused 11' in due:  # more may come
            due = due[:due.rindex(b'refused')]
        if len(due) > told and not line.comes(due, SOON):
            yield f'{name}: {due[told:]!r} is due with byte {at}, and {line.came[told:]!r} came'
        told = len(due)
        if b'refused' in due:
            if not line.ends():
                yield f'{name}: it does not end with its refusal'
            return
    if not line.comes(due, QUIET):
        yield f'{name}: {line.came!r} came, not {due!r}'
    line.program.stdin.close()
    if not line.ends() or line.program.stdout.read() != listing(session, None)[len(due):]:
        yield f'{name}: another end'


def peak(session):
    """The greatest memory in KiB of a run on a session of whole records, and whether its listing is right."""
    program = subprocess.Popen(START, stdin=subprocess.PIPE, stdout=subprocess.PIPE)
    sender = threading.Thread(target=lambda: (program.stdin.write(session), program.stdin.flush()))
    sender.start()
    due = listing(session, None)
    wrote = program.stdout.read(len(due))
    sender.join()
    status = pathlib.Path(f'/proc/{program.pid}/status').read_text()
    program.stdin.close()
    more = program.stdout.read()
    program.wait()
    return int(re.search(r'VmHWM:\s*(\d+) kB', status)[1]), wrote + more == due


def main():
    seed = int(os.environ.get('CABIN_SEED', time.time()))
    draw, runs, faults = random.Random(seed), 0, []
    burn = record(BURN, 1, 0, 64, 1.0, 0.0, 0.0)
    for name, session in sessions():
        ways = {'all at once': run(*START, given=session), 'random parts': in_parts(cut(session, draw))}
        if len(session) < 1000:
            ways['byte by byte'] = in_parts([session[k:k + 1] for k in range(len(session))])
        for way, got in ways.items():
            runs += 1
            if got != (listing(session, None), b''):
                faults.append(f'{name}, {way}: wrote {got[0]!r} and said {got[1]!r}, not {listing(session, None)!r}')
    for name, session in (
        ('the sample', sample()), ('the night shift', night()), ('a wrong length', burn + b'\x25\x00\x02\x00'),
        ('a length under four', burn + b'\x03\x00\x02\x00'), ('an unknown kind', burn + b'\x26\x00\x09\x00'),
        ('a third vehicle', burn + record(MARK, 2, 0, 0, 1.0, 1.0)), ('a late offset', burn + offset(60)), ('a cut record', burn + burn[:37]),
    ):
        runs += 1
        faults += prompt(name, session)
    part = b''.join(record(STATE, k % 2, 1, k * 977, 1.85e6, k, 0.0, 0.0, 16.28, 0.0) + record(MARK, 1, 0, -k, 1.0, k) for k in range(1000))
    small, large = peak(part), peak(offset(-840) + part * 110)
    runs += 2
    if not (small[1] and large[1]):
        faults.append('a session of 10 MB is not listed as it should be')
    if large[0] > small[0] + 256:
        faults.append(f'10 MB take {large[0]} KiB, 92 KB {small[0]}')
    print('\n'.join(faults + [f'{runs} sessions as they come (seed {seed}), {len(faults)} wrong; a session of 10 MB in {large[0]} KiB, one of 92 KB in {small[0]}']))
    return 1 if faults else 0


if __name__ == '__main__':
    sys.exit(main())
