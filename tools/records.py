#!/usr/bin/env python3
"""records: our programs about records against the second program's, on fresh sessions and texts.

  tools/records.py --texts OURS SECOND [COUNT [SEED]]   show and write (02, T-01)
  tools/records.py --watch OURS SECOND [COUNT [SEED]]   watch, the session cut anywhere (02, T-08)

OURS and SECOND start a program: `OURS show FILE`. COUNT sessions and COUNT texts are made (60 unless said). Comments for
people are held to their fixed part and to their decimals. What `watch` writes must be there when the bytes that make it certain
are, and a refusal must end it though its input stays open. Exits 1 at a difference."""
import os
import pathlib
import random
import re
import select
import shlex
import subprocess
import sys
import tempfile
import time

sys.path.insert(0, str(pathlib.Path(__file__).parent))
from differences import SHOWN, Differences
from make_sample import listing

PATIENCE = 10  # seconds in which a line must come
COMMENT = re.compile(r"# (day \S+ cs \S+: \S+ of vehicle \d+|offset -?\d+|refused \d+ at \d+$)")
DECIMAL = re.compile(r"-?\d+\.\d{6}\b|\blarge\b")


def run(command, *words, given=b""):
    ran = subprocess.run([*shlex.split(command), *map(str, words)], input=given, capture_output=True)
    return ran.returncode, ran.stdout, ran.stderr.decode("latin-1")


def comparable(text):
    """The lines of a shown session, a comment as its fixed part and its decimals."""
    lines = []
    for line in text.decode("latin-1").split("\n"):
        fixed = COMMENT.match(line)
        lines.append((fixed.group(1), DECIMAL.findall(line)) if fixed else line)
    return lines


def written(command, text, room, *before):
    """What a text is written as: the exit status, the line of the one that cannot be written, the file."""
    path = room / "written"
    path.unlink(missing_ok=True)
    if before:
        path.write_bytes(b"what stood there")
    code, _, said = run(command, "write", *before, path, given=text)
    places = [line.removeprefix("cabin: ") for line in said.split("\n")]
    place = [line for line in places if re.fullmatch(r"line \d+: (unread|refused) \d+", line)]
    return code, place, path.read_bytes() if path.exists() else None


def made(second, what, count, seed, room):
    folder = room / what
    folder.mkdir()
    subprocess.run([*shlex.split(second), what, str(seed), str(count), folder], check=True)
    return sorted(folder.iterdir())


def texts(ours, second, count, seed, room):
    found = Differences()
    for path in made(second, "sessions", count, seed, room):
        (code, text, _), (wanted, other, _) = (run(command, "show", path) for command in (ours, second))
        found.look(f"show of session {path.name}", (code, comparable(text)), (wanted, comparable(other)))
        if code == 0:
            found.look(f"show and write of session {path.name}", written(ours, text, room), (0, [], path.read_bytes()))
    for path in made(second, "texts", count, seed, room):
        text = path.read_bytes()
        for before in ((), ("--replace",)):
            found.look(f"write {' '.join(before)} of text {path.name}", written(ours, text, room, *before), written(second, text, room, *before))
    for command in (ours, second):
        stands = room / "stands"
        stands.write_bytes(b"what stood there")
        code, _, _ = run(command, "write", stands, given=b"")
        found.look("write onto a file that stands", (code, stands.read_bytes()), (2, b"what stood there"))
    return found.told(f"{count} sessions shown and written again, {count} texts, seed {seed}")


def certain(prefix, whole):
    """What must be written when this much of a session has come."""
    lines = listing(prefix).decode().splitlines(True)
    if lines[-1].startswith("refused 11 ") and not whole:
        lines.pop()
    return "".join(lines).encode()


class Watch:
    """A program that watches its standard input, and what it wrote so far."""

    def __init__(self, command):
        self.program = subprocess.Popen([*shlex.split(command), "watch"], stdin=subprocess.PIPE, stdout=subprocess.PIPE, stderr=subprocess.DEVNULL)
        self.text, self.ended = b"", False

    def send(self, part):
        try:
            self.program.stdin.write(part)
            self.program.stdin.flush()
        except BrokenPipeError:
            pass

    def wait_for(self, enough):
        """Reads until enough has come; false if it does not."""
        until = time.monotonic() + PATIENCE
        while not self.ended and not enough(self.text):
            ready, _, _ = select.select([self.program.stdout], [], [], max(0, until - time.monotonic()))
            got = os.read(self.program.stdout.fileno(), 65536) if ready else None
            if got is None:
                return False
            self.ended = got == b""
            self.text += got
        return enough(self.text)

    def end(self):
        """The exit status and the whole text, its input open where a refusal must end it."""
        refused = b"\nrefused " in self.text
        if not refused:
            self.close()
        prompt = self.wait_for(lambda _: self.ended)
        self.close()
        if not prompt:
            self.program.kill()
        return self.program.wait(), self.text, prompt

    def close(self):
        try:
            self.program.stdin.close()
        except BrokenPipeError:
            pass


def starts(session):
    """Where its records start, as far as their lengths can be gone along."""
    at = 0
    while at + 2 <= len(session) and session[at] >= 4 and session[at + 1] == 0:
        yield at
        at += session[at]
    yield at


def parts(session, dice):
    """A session cut at some places, some of them twice, and some beside the start of a record or behind its kind."""
    anywhere = [dice.randrange(len(session) + 1) for _ in range(dice.choice((0, 1, 3, 10, 40)))]
    beside = [start + dice.choice((-1, 0, 1, 3, 4, 5)) for start in starts(session) if dice.randrange(2)][-40:]
    cuts = sorted(min(max(cut, 0), len(session)) for cut in anywhere + beside)
    return [session[a:b] for a, b in zip([0, *cuts], [*cuts, len(session)])]


def watched(command, pieces):
    """What is written of a session in parts, and how many of its lines came late."""
    watch, sent, late = Watch(command), b"", 0
    long = sum(map(len, pieces)) > 65536
    for piece in pieces:
        watch.send(piece)
        sent += piece
        wanted = b"" if long else certain(sent, False)
        late += not watch.wait_for(lambda text: text.startswith(wanted))
        if late:
            break
    code, text, prompt = watch.end()
    return code, text, late, prompt


def watch(ours, second, count, seed, room):
    found, dice = Differences(), random.Random(seed)
    for path in made(second, "sessions", count, seed, room):
        if found.count >= SHOWN:  # a line that does not come takes its time
            break
        session = path.read_bytes()
        pieces = parts(session, dice)
        got = watched(ours, pieces)
        found.look(f"watch of session {path.name} in {len(pieces)} parts", got, watched(second, pieces))
        if len(session) <= 65536:
            found.look(f"watch and list of session {path.name}", got[1], certain(session, True))
    return found.told(f"{count} sessions watched in parts, seed {seed}")


WAYS = {"--texts": texts, "--watch": watch}


def main(way, ours, second, count=60, seed=None):
    seed = int(time.time()) if seed is None else int(seed)
    with tempfile.TemporaryDirectory() as room:
        return WAYS[way](ours, second, int(count), seed, pathlib.Path(room))


if __name__ == "__main__":
    if not 4 <= len(sys.argv) <= 6 or sys.argv[1] not in WAYS:
        sys.exit(__doc__)
    sys.exit(main(*sys.argv[1:]))
