#!/usr/bin/env python3
"""front_runs: ./cabin where things go wrong. Every failure to read or write ends in 2 with a word on standard error, 1
means that something was refused, no listing is cut and called whole, and two uses at once do not disturb each other.

Where something has to be built, the front is copied to a room of its own with a stand-in for the kit, which 'builds' by
handing out a program that is proved already."""
import os
import pathlib
import pty
import re
import resource
import select
import shutil
import signal
import struct
import subprocess
import sys
import tempfile
import time
import tty

sys.path.insert(0, str(pathlib.Path(__file__).parent))
from make_sample import listing, night, sample, text

# A start in the background leaves SIGINT ignored, and a service may leave SIGTERM so; what is started here would inherit that.
signal.signal(signal.SIGINT, signal.default_int_handler)
signal.signal(signal.SIGTERM, signal.SIG_DFL)

ROOT = pathlib.Path(__file__).resolve().parent.parent
SAMPLE = ROOT / "samples" / "session.bin"
WHOLE = listing(sample())
REFUSED = sample() + b"\x26\x00\x09\x00"
NOBODY = 65534
NO_ROOM = "standard output could not be written: No space left on device\n"

# The kit's stand-in. STUB holds what its runs leave and find: `runs` (a line a start and an end), `hook` (run in the
# middle of a proof), `ci` (what `rt ci` does once it has built the program).
KIT = """#!/bin/sh
case $1 in
doc) echo @DOC@ ;;
version) echo stand-in ;;
ci)
    mkdir -p crates/listing/out && cp --remove-destination "$STUB/listing" crates/listing/out || exit 2
    . "$STUB/ci"
    ;;
run)
    echo "start $2" >>"$STUB/runs"
    cat >/dev/null
    [ ! -f "$STUB/hook" ] || . "$STUB/hook"
    mkdir -p out && ln -f "$STUB/$2" "out/$2" || exit 2
    echo "rt: running out/$2; to give it other input, run that file yourself" >&2
    echo "end $2" >>"$STUB/runs"
    ;;
esac
"""

CASES = []


def case(name):
    return lambda function: CASES.append((name, function)) or function


def front(*words, home=ROOT, given=b"", limit=None, nobody=False, closed=(), **more):
    """Runs ./cabin; the status, what it wrote and what it said."""
    def child():
        if limit is not None:
            resource.setrlimit(resource.RLIMIT_FSIZE, (limit, limit))
        if nobody and os.getuid() == 0:
            os.setgroups([])
            os.setgid(NOBODY)
            os.setuid(NOBODY)
        for stream in closed:
            os.close(stream)
    more.setdefault("stdout", subprocess.PIPE)
    if "stdin" not in more:
        more["input"] = given
    ran = subprocess.run([home / "cabin", *words], stderr=subprocess.PIPE, preexec_fn=child, timeout=60, **more)
    return ran.returncode, ran.stdout, ran.stderr.decode()


def hold(got, status, wrote=None, says=""):
    assert got[0] == status, f"status {got[0]}, not {status}; it said {got[2]!r}"
    assert wrote is None or got[1] == wrote, f"wrote {got[1]!r}, not {wrote!r}; it said {got[2]!r}"
    assert re.search(says, got[2]) and (says or status == 0 or got[2]), f"said {got[2]!r}, without {says!r}"


def program(name):
    """The path of a program of this checkout."""
    ran = subprocess.run([ROOT / "cabin", "ready", name], stdout=subprocess.PIPE, text=True, check=True)
    return ran.stdout.split("\n")[-2]


class Room:
    """A copy of the front over two small crates, with a stand-in for the kit."""

    def __enter__(self):
        self.top = pathlib.Path(tempfile.mkdtemp())
        self.home, self.stub = self.top / "home", self.top / "stub"
        (self.home / "tools").mkdir(parents=True)
        (self.home / "crates" / "listing" / "src").mkdir(parents=True)
        (self.home / "crates" / "listing" / "src" / "main.rt").write_text("fn main() {}\n")
        (self.home / "crates.txt").write_text("listing: io os libc\n")
        shutil.copy(ROOT / "cabin", self.home)
        for script in (ROOT / "tools").glob("*.sh"):
            shutil.copy(script, self.home / "tools")
        self.stub.mkdir()
        doc = subprocess.run(["rt", "doc"], capture_output=True, text=True, check=True).stdout.strip()
        (self.stub / "rt").write_text(KIT.replace("@DOC@", doc))
        (self.stub / "rt").chmod(0o755)
        shutil.copy(program("listing"), self.stub / "listing")
        for name in ("chromium", "parallel"):
            (self.stub / name).symlink_to("/bin/true")
        self.env = dict(os.environ, PATH=f"{self.stub}:{os.environ['PATH']}", STUB=str(self.stub), CABIN_BUILD="yes", CABIN_LOCKED="")
        self.top.chmod(0o755)
        return self

    def __exit__(self, *_):
        subprocess.run(["chmod", "-R", "u+w", self.top], check=True)
        shutil.rmtree(self.top)

    def front(self, *words, **more):
        return front(*words, home=self.home, env=self.env, **more)

    def start(self, *words):
        return subprocess.Popen([self.home / "cabin", *words], env=self.env, stdin=subprocess.DEVNULL,
                                stdout=subprocess.PIPE, stderr=subprocess.PIPE)

    def runs(self):
        path = self.stub / "runs"
        return path.read_text().split("\n")[:-1] if path.exists() else []

    def write(self, name, text):
        path = self.home / name
        path.parent.mkdir(exist_ok=True)
        path.write_text(text)
        return path


# ---- statuses

@case("a whole session is listed with 0, from a file and from standard input")
def _():
    hold(front("list", SAMPLE), 0, WHOLE)
    hold(front("list", given=sample()), 0, WHOLE)


@case("a refused record gives 1, and the lines ahead of it stand")
def _():
    hold(front("list", given=REFUSED), 1, listing(REFUSED), "refused")


@case("what cannot be read gives 2 and lists nothing")
def _():
    with tempfile.TemporaryDirectory() as room:
        hold(front("list", pathlib.Path(room) / "none"), 2, b"", "no file")
        hold(front("list", room), 2, b"", "cannot be read")
        hold(front("list", ""), 2, b"", "no file")
        folder = os.open(room, os.O_RDONLY)
        hold(front("list", stdin=folder), 2, b"", "standard input")
        hold(front("desk", stdin=folder), 2, b"", "standard input")
        hold(front("watch", stdin=folder), 2, None, "standard input")
        os.close(folder)
    with Room() as room:
        secret = room.write("secret", "")
        secret.chmod(0)
        room.front("list", SAMPLE)
        hold(room.front("list", secret, nobody=True), 2, b"", "cannot be read")


@case("a machine without the kit: 2")
def _():
    hold(front("list", SAMPLE, env={"PATH": "/usr/bin:/bin"}), 2, b"", "kit")


@case("a proof that fails: 2, not 1, and no listing")
def _():
    with Room() as room:
        (room.stub / "hook").write_text("echo 'logic=not-proved' >&2; exit 1\n")
        hold(room.front("list", SAMPLE), 2, b"", "could not be built")


@case("a program that dies: 2")
def _():
    with Room() as room:
        (room.stub / "listing").write_bytes(b"no program")
        hold(room.front("list", SAMPLE), 2, b"", "status")


@case("a word that no command takes: 2, for every command of the table")
def _():
    status, text, _said = front("help")
    usages = re.findall(r"^  (\S.*)$", text.decode(), re.M)
    assert status == 0 and len(usages) >= 9, text
    for usage in usages:
        name, *words = usage.split()
        for asked in (["help", name], [name, "--help"], [name, "-h"]):
            status, told, said = front(*asked)
            assert (status, said) == (0, "") and told.decode().startswith(f"usage: ./cabin {usage}\n      "), (asked, told, said)
        if ".." not in usage:
            hold(front(name, *("x" * (len(words) + 1))), 2, b"", f"usage: ./cabin {name}")
        for _missing in re.sub(r"\[[^]]*\]", "", usage).split()[1:]:
            hold(front(name), 2, b"", f"usage: ./cabin {name}")
    for word in ("lists", "", "#", "# sessions"):
        hold(front(word), 2, b"", f"no command '{word}'")
    assert front() == front("help") == front("--help")


@case("help of a command with options, and the command alone: a line an option")
def _():
    known = set(re.findall(r'"(--[a-z]+)"', (ROOT / "tools" / "night.py").read_text())) - {"--run"} | {"--settings"}
    for words, status in ((["help", "night"], 0), (["night", "--help"], 0), (["night"], 2)):
        got, wrote, said = front(*words)
        told = re.findall(r"^  (--[a-z]+)(?: [A-Z/]+)*  +\S", said if status else wrote.decode(), re.M)
        assert got == status and set(told) == known and len(told) == len(known) >= 9, (words, told, said)


@case("a crate that is no program: 2, and nothing is built")
def _():
    for words in (["ready", "lines"], ["run", "lines"], ["ready", "none"]):
        hold(front(*words), 2, b"", f"'{words[1]}' is no program of crates/: those are .*desk .*listing")


@case("a keyboard: what is waited for is said, where it is waited for")
def _():
    with Folder() as room:
        for words, says in ((["list"], "the session is read from"), (["show"], "the session is read from"), (["write", room.file], "the session's text is read from"), (["desk"], "a request a line"), (["list", SAMPLE], "")):
            end, keyboard = pty.openpty()
            os.write(end, b"\x04" * 4)
            status, _wrote, said = front(*words, stdin=keyboard)
            assert status == 0 and (re.fullmatch(f"cabin: {says}.*; end with Ctrl-D\n", said) if says else not said), (words, said)
            os.close(end)
            os.close(keyboard)
        room.holds(file=b"")


@case("show: 0 for a whole session, 1 for a refused one, 2 for one that cannot be read")
def _():
    hold(front("show", SAMPLE), 0, text(sample()))
    hold(front("show", given=night()), 0, text(night()))
    hold(front("show", given=REFUSED), 1, text(REFUSED), "refused")
    with tempfile.TemporaryDirectory() as room:
        hold(front("show", pathlib.Path(room) / "none"), 2, b"", "no file")
        hold(front("show", room), 2, b"", "cannot be read")
    hold(front("show", closed=[0]), 2, b"", "standard input is closed")
    with open("/dev/full", "wb") as full:
        hold(front("show", SAMPLE, stdout=full), 2, None, "No space left")


# ---- a file that appears whole or not at all

class Folder:
    """A folder with what stands there, of which nothing else may be left."""

    def __enter__(self):
        self.top = tempfile.TemporaryDirectory()
        self.path = pathlib.Path(self.top.name)
        self.file = self.path / "file"
        return self

    def __exit__(self, *_):
        self.path.chmod(0o755)
        self.top.cleanup()

    def holds(self, **wanted):
        got = {path.name: path.read_bytes() for path in self.path.iterdir()}
        assert got == wanted, f"the folder holds {sorted(got)}, not {sorted(wanted)} with their bytes"


TEXT = text(sample())


@case("write: FILE is made whole, and may be read by whom the umask lets")
def _():
    with Folder() as room:
        hold(front("write", room.file, given=TEXT), 0, b"")
        room.holds(file=sample())
        umask = os.umask(0)
        os.umask(umask)
        assert room.file.stat().st_mode & 0o777 == 0o666 & ~umask, oct(room.file.stat().st_mode)
        ran = subprocess.run([ROOT / "cabin", "write", "-a b"], input=TEXT, cwd=room.path, capture_output=True)
        assert (ran.returncode, ran.stderr) == (0, b""), ran
        room.holds(**{"file": sample(), "-a b": sample()})


@case("write: a FILE that exists stays, unless it is to be replaced")
def _():
    with Folder() as room:
        room.file.write_bytes(b"old")
        room.file.chmod(0o640)
        hold(front("write", room.file, given=TEXT), 2, b"", "exists")
        room.holds(file=b"old")
        hold(front("write", "--replace", room.file, given=b"mark 0 2 0 0\n"), 1, b"", "^line 1: refused 14\n")
        room.holds(file=b"old")
        hold(front("write", "--replace", room.file, given=TEXT), 0, b"")
        room.holds(file=sample())
        assert room.file.stat().st_mode & 0o777 == 0o640
        (room.path / "link").symlink_to("nowhere")
        hold(front("write", room.path / "link", given=TEXT), 2, b"", "exists")
        os.mkfifo(room.path / "pipe")
        hold(front("write", "--replace", room.path / "pipe", given=TEXT), 2, b"", "no plain file")
        hold(front("write", "--replace", room.path, given=TEXT), 2, b"", "no plain file")
        hold(front("write", "--renew", room.file, given=TEXT), 2, b"", "usage")
    with Folder() as room:
        hold(front("write", "--replace", given=TEXT, cwd=room.path), 2, b"", "usage: ./cabin write \\[--replace\\] FILE")
        room.holds()


@case("write: a folder that is not there or cannot be written, an empty name, closed input: 2")
def _():
    with Folder() as room:
        hold(front("write", room.path / "none" / "file", given=TEXT), 2, b"", "there is no folder .*/none: make it")
        hold(front("write", SAMPLE / "file", given=TEXT), 2, b"", "session.bin is no folder: give another path")
        hold(front("write", "", given=TEXT), 2, b"", "empty")
        hold(front("write", room.file, closed=[0]), 2, b"", "standard input is closed")
        room.path.chmod(0o555)
        hold(front("write", room.file, given=TEXT, nobody=True), 2, b"", "nothing can be written")
        room.holds()
        folder = os.open(room.path, os.O_RDONLY)
        room.path.chmod(0o755)
        hold(front("write", room.file, stdin=folder), 2, b"", "standard input")
        os.close(folder)
        room.holds()


@case("write: a disk that is full: 2, and what stood there stands")
def _():
    for limit in (0, 1, 100, len(sample()) - 1):
        with Folder() as room:
            hold(front("write", room.file, given=TEXT, limit=limit), 2, b"", "File too large")
            room.holds()
            room.file.write_bytes(b"old")
            hold(front("write", "--replace", room.file, given=TEXT, limit=limit), 2, b"", "File too large")
            room.holds(file=b"old")


@case("write: stopped or killed at any point, FILE is as it was or whole")
def _():
    for signal in ("TERM", "INT", "KILL"):
        for wait in (0, 0.05, 0.2, 0.5):
            with Folder() as room:
                room.file.write_bytes(b"old")
                use = subprocess.Popen([ROOT / "cabin", "write", "--replace", room.file], stdin=subprocess.PIPE, stderr=subprocess.DEVNULL, start_new_session=True)
                use.stdin.write(TEXT)
                use.stdin.flush()
                time.sleep(wait)
                subprocess.run(["kill", f"-{signal}", "--", f"-{use.pid}"], check=True)
                use.stdin.close()
                assert use.wait(timeout=60) != 0, "it was not stopped"
                assert room.file.read_bytes() == b"old", (signal, wait)


@case("write: killed while it takes its place, FILE is as it was or whole")
def _():
    for k in range(12):
        with Folder() as room:
            use = subprocess.Popen([ROOT / "cabin", "write", room.file], stdin=subprocess.PIPE, stderr=subprocess.DEVNULL, start_new_session=True)
            time.sleep(0.3)
            use.stdin.write(TEXT)
            use.stdin.close()
            time.sleep(0.01 * k)
            subprocess.run(["kill", "-KILL", "--", f"-{use.pid}"], stderr=subprocess.DEVNULL)
            use.wait(timeout=60)
            assert not room.file.exists() or room.file.read_bytes() == sample(), k


@case("write: two at once to one FILE: one makes it, the other is told")
def _():
    with Folder() as room:
        both = [subprocess.Popen([ROOT / "cabin", "write", room.file], stdin=subprocess.PIPE, stderr=subprocess.PIPE) for _ in range(2)]
        time.sleep(1)
        said = [one.communicate(given, timeout=60)[1] for one, given in zip(both, (TEXT, text(night())))]
        assert sorted(one.returncode for one in both) == [0, 2], said
        room.holds(file=[sample(), night()][both[0].returncode != 0])
# ---- settings

EARTH = (0, 39860120000.0, 6378166.0, 2.0 ** -20, 2.0 ** -10)
MOON = (1, 490277800.0, 1738090.0, 2.0 ** -20, 2.0 ** -10)


def bits(number):
    return "x" + struct.pack(">d", number).hex().upper()


def version(number, body, *constants):
    """The bytes of a version, and its line's end."""
    return struct.pack("<HHIB3x4d", 44, 5, number, body, *constants), (" bits " + " ".join(map(bits, constants)) + "\n").encode()


def store(file, body, *constants, **more):
    return front("settings", file, "store", str(body), *map(bits, constants), **more)


@case("replay: mu by the settings' versions; what they refuse is refused ahead of any record")
def _():
    with tempfile.TemporaryDirectory() as room:
        file = pathlib.Path(room) / "settings"
        file.write_bytes(version(1, *EARTH)[0] + version(2, *MOON)[0])
        flown = front("replay", SAMPLE)
        assert flown[0] == 0 and flown[1].startswith(b"day cs vehicle kind result\n"), flown
        hold(front("replay", SAMPLE, "--settings", file, "1", "2"), 0, flown[1])
        hold(front("replay", SAMPLE, "--settings", file, "2", "1"), 1, b"refused 14\n", "nothing was flown")
        hold(front("replay", SAMPLE, "--settings", file, "1", "3"), 1, b"refused 23\n", "nothing was flown")
        hold(front("replay", SAMPLE, "--settings", file, "3", "x"), 2, b"", "'x', the moon's version behind --settings, cannot be read: give a whole number")
        hold(front("replay", SAMPLE, "--settings", file, "1 2", "2"), 2, b"", "'1 2', the earth's version")
        for words, says in (([], "the path of the settings"), ([file], "the earth's version"), ([file, "1"], "the moon's version")):
            hold(front("replay", SAMPLE, "--settings", *words), 2, b"", f"{says} is missing behind --settings: give it as in '--settings SETTINGS 1 2'")
        hold(front("replay", SAMPLE, "--settings", room, "1", "2"), 2, b"", "cannot be read")
        hold(front("replay", SAMPLE, "--settings", f"{room}/none", "1", "2"), 2, b"", "there is no file .*/none")
        hold(front("replay", SAMPLE, "39860120000", "1e5"), 2, b"", "replay: '1e5' cannot be read as mu of the moon: give a decimal of at most 15 digits")
        hold(front("replay", SAMPLE, "x1", "490277800"), 2, b"", "replay: 'x1' cannot be read as mu of the earth: give a decimal of at most 15 digits")
        hold(front("replay", SAMPLE, "--sets", file, "1", "2"), 2, b"", "usage")
        hold(front("replay", SAMPLE, "1"), 2, b"", "usage")
        file.write_bytes(file.read_bytes()[1:])
        hold(front("replay", SAMPLE, "--settings", file, "1", "2"), 1, b"refused 30\n", "nothing was flown")


@case("settings: stored, listed, shown, gone back to; a file that is not there has no version")
def _():
    with tempfile.TemporaryDirectory() as room:
        file = pathlib.Path(room) / "settings"
        hold(front("settings", file, "list"), 0, b"", "settings: no such file: no version\n")
        hold(front("settings", file, "show", "1"), 1, b"refused 23\n", "as it was")
        hold(front("settings", file, "back", "1"), 1, b"refused 23\n", "as it was")
        assert not os.listdir(room)
        lines = []
        for number, (one, got) in enumerate([(EARTH, lambda: store(file, *EARTH)), (MOON, lambda: store(file, *MOON)), (EARTH, lambda: front("settings", file, "back", "1"))], 1):
            status, line, said = got()
            assert (status, said) == (0, "") and line.startswith(b"version %d body %d mu " % (number, one[0])) and line.endswith(version(number, *one)[1]), line
            lines.append(line)
        assert file.read_bytes() == version(1, *EARTH)[0] + version(2, *MOON)[0] + version(3, *EARTH)[0]
        hold(front("settings", file, "list"), 0, b"".join(lines))
        for number, line in enumerate(lines, 1):
            hold(front("settings", file, "show", str(number)), 0, line)
        assert os.listdir(room) == ["settings"]


@case("settings: what is refused gives 1 and its number, in the order of the table, and leaves every byte")
def _():
    with tempfile.TemporaryDirectory() as room:
        file = pathlib.Path(room) / "settings"
        whole = version(1, *EARTH)[0] + version(2, *MOON)[0]
        full = b"".join(version(k, *EARTH)[0] for k in range(1, 65))
        wrong = (2, float("nan"), -1.0, 2.0, 1.0)
        cases = [(whole, ["show", "0"], 23), (whole, ["show", "3"], 23), (whole, ["back", "18446744073709551615"], 23),
                 (full, ["back", "65"], 23), (full, ["back", "64"], 24), (full, ["store", "0", *map(bits, EARTH[1:])], 24),
                 (full, ["store", "2", *map(bits, EARTH[1:])], 14)]
        damaged = [whole[:-1], whole + b"\0", whole[44:], whole[:44] + whole[:44], full + version(65, *MOON)[0], full + full]
        damaged += [whole[:k] + bytes([whole[k] ^ 255]) + whole[k + 1:] for k in (44, 46, 48, 52, 53, 55, 63, 71, 79, 87)]
        for bytes_of in damaged:
            cases += [(bytes_of, words, 30) for words in (["list"], ["show", "0"], ["back", "99"], ["store", "2", *map(bits, wrong[1:])])]
        for number, change in ((1, wrong), (2, (2, 1.0, -1.0, 2.0, 1.0)), (22, (2, MOON[1], 0.0, 0.5, 0.5)), (22, (2, MOON[1], 1.0, 0.5, 0.25)),
                               (22, (2, MOON[1], 2.0 ** 29, 0.0, 1.0)), (22, (2, MOON[1], 1.0, 0.5, 1.5)), (14, (2, MOON[1], 1.0, 0.5, 0.5))):
            cases.append((whole, ["store", str(change[0]), *map(bits, change[1:])], number))
        for bytes_of, words, number in cases:
            file.write_bytes(bytes_of)
            hold(front("settings", file, *words), 1, b"refused %d\n" % number, "docs/pages/settings.md")
            assert file.read_bytes() == bytes_of and os.listdir(room) == ["settings"], words


@case("settings: what is refused gives 1 also where nothing can be written")
def _():
    with Folder() as room:
        room.file.write_bytes(version(1, *EARTH)[0])
        room.file.chmod(0o644)
        for mode in (0o555, 0o111):
            room.path.chmod(mode)
            for words, number in ((["back", "9"], 23), (["store", "2", *map(bits, EARTH[1:])], 14), (["store", "0", *map(bits, (1.0, *EARTH[2:]))], 2)):
                hold(front("settings", room.file, *words, nobody=True), 1, b"refused %d\n" % number, "as it was")
            hold(store(room.file, *EARTH, nobody=True), 2, b"", "give a path where you may (read and )?write")
        room.path.chmod(0o755)
        room.holds(file=version(1, *EARTH)[0])
        hold(front("settings", room.path / "none" / "settings", "back", "1"), 1, b"refused 23\n", "as it was")
        hold(front("settings", room.path / "none" / "settings", "store", "2", *map(bits, EARTH[1:])), 1, b"refused 14\n", "as it was")


@case("settings: a version that is stored and cannot be shown is told as stored, with 2")
def _():
    with Folder() as room, open("/dev/full", "wb") as full:
        for number, got in ((1, lambda: store(room.file, *EARTH, stdout=full)), (2, lambda: front("settings", room.file, "back", "1", stdout=full))):
            status, _wrote, said = got()
            assert (status, said) == (2, f"cabin: version {number} was stored in {room.file}, so do not store it again: {NO_ROOM}"), said
        room.holds(file=version(1, *EARTH)[0] + version(2, *EARTH)[0])
        for words in (["list"], ["back", "9"]):
            assert front("settings", room.file, *words, stdout=full)[::2] == (2, f"cabin: {NO_ROOM}"), words


@case("settings: words that cannot be read give 2, say which, and leave every byte")
def _():
    with tempfile.TemporaryDirectory() as room:
        file = pathlib.Path(room) / "settings"
        file.write_bytes(version(1, *EARTH)[0])
        for words, says in ((["lists"], "'lists', word 1"), (["show"], "word 2 .* missing"), (["show", "-1"], "'-1', word 2"), (["show", "1", "2"], "'2', word 3"),
                            (["back", "18446744073709551616"], "word 2"), (["store", "0", "1", "2", "3"], "word 6 .* missing"), (["store", "0", "1", "inf", "3", "4"], "'inf', word 4"), ([" "], "word 1")):
            hold(front("settings", file, *words), 2, b"", says)
        assert file.read_bytes() == version(1, *EARTH)[0] and os.listdir(room) == ["settings"]


@case("settings: eight stores at once keep eight versions, and a list meanwhile is whole")
def _():
    with tempfile.TemporaryDirectory() as room:
        file = pathlib.Path(room) / "settings"
        words = [ROOT / "cabin", "settings", file, "store", "0", *map(bits, EARTH[1:])]
        uses = [subprocess.Popen(words, stdout=subprocess.PIPE, stderr=subprocess.DEVNULL) for _ in range(8)]
        hold(front("settings", file, "list"), 0)
        numbers = sorted(int(use.communicate(timeout=60)[0].split()[1]) for use in uses)
        assert numbers == list(range(1, 9)), numbers
        assert file.read_bytes() == b"".join(version(k, *EARTH)[0] for k in range(1, 9)) and os.listdir(room) == ["settings"]


@case("settings: a store that is killed at any point has stored its version or has changed nothing")
def _():
    with tempfile.TemporaryDirectory() as room:
        file = pathlib.Path(room) / "settings"
        hold(store(file, *EARTH), 0)
        words = [ROOT / "cabin", "settings", file, "store", "0", *map(bits, EARTH[1:])]
        for k in range(24):
            before = file.read_bytes()
            use = subprocess.Popen(words, stdout=subprocess.DEVNULL, stderr=subprocess.DEVNULL, start_new_session=True)
            time.sleep(0.015 * k)
            os.killpg(use.pid, 9)
            use.wait()
            after = file.read_bytes()
            assert after in (before, before + version(len(before) // 44 + 1, *EARTH)[0]), (k, len(before), len(after))
        hold(store(file, *EARTH), 0)


@case("settings that cannot be read or replaced: 2, and they stay; a link stays a link, and the mode is kept")
def _():
    with tempfile.TemporaryDirectory() as room:
        room = pathlib.Path(room)
        file = room / "settings"
        hold(front("settings", room, "list"), 2, b"", "cannot be read")
        hold(front("settings", "", "list"), 2, b"", "name is empty")
        hold(store(room / "none" / "settings", *EARTH), 2, b"", "there is no folder .*/none: make it")
        hold(store(SAMPLE / "settings", *EARTH), 2, b"", "session.bin is no folder: give another path")
        (room / "lost").symlink_to("none/settings")
        hold(store(room / "lost", *EARTH), 2, b"", "lost is a link to where no file can be")
        (room / "lost").unlink()
        hold(front("settings", room / "none" / "settings", "list"), 0, b"")
        hold(store(file, *EARTH, limit=20), 2, b"", "File too large")
        assert not os.listdir(room)
        hold(store(file, *EARTH), 0)
        hold(store(file, *EARTH, limit=50), 2, b"", "File too large")
        with open("/dev/full", "wb") as full:
            hold(front("settings", file, "list", stdout=full), 2, None, "No space left")
        file.chmod(0o640)
        (room / "link").symlink_to("settings")
        hold(store(room / "link", *MOON), 0)
        assert (room / "link").is_symlink() and file.stat().st_mode & 0o777 == 0o640
        assert file.read_bytes() == version(1, *EARTH)[0] + version(2, *MOON)[0] and sorted(os.listdir(room)) == ["link", "settings"]


ASKED = b"kepler 39860120000 6678140 0 0 0 77.258 0 1"


@case("the desk: a version's grade; the settings are looked at only where a version is named")
def _():
    with tempfile.TemporaryDirectory() as room:
        room = pathlib.Path(room)
        file, none, body = room / "settings", room / "none", EARTH[:3]
        file.write_bytes(version(1, *body, 2.0 ** -20, 2.0 ** -10)[0] + version(2, *body, 0.5, 0.5)[0] + version(3, *body, 0.0, 0.0)[0])
        plain = front("desk", given=ASKED + b"\n")
        assert plain[0] == 0 and b" grade fair " in plain[1], plain
        grades = {1: plain[1], 2: plain[1].replace(b" fair ", b" closed "), 3: plain[1].replace(b" fair ", b" rough ")}
        grades.update((k, b"refused 23\n") for k in (0, 4, 2 ** 64 - 1))
        for k, line in grades.items():
            hold(front("desk", file, given=ASKED + b" version %d\n" % k), 0, line)
            hold(front("desk", given=ASKED + b" version %d\n" % k), 0, b"refused 23\n")
            hold(front("desk", none, given=ASKED + b" version %d\n" % k), 0, b"refused 23\n", "no such file: no version")
        hold(front("desk", file, given=ASKED + b"\n"), 0, plain[1])
        hold(front("desk", none, given=ASKED + b"\n"), 0, plain[1], "no such file: no version")
        assert os.listdir(room) == ["settings"]
        whole = file.read_bytes()
        full = b"".join(version(k, *EARTH)[0] for k in range(1, 65))
        file.write_bytes(full)
        hold(front("desk", file, given=ASKED + b" version 64\n"), 0, plain[1])
        for damaged in (whole[:-1], whole + b"\0", whole[44:], full + b"\0", full + version(65, *EARTH)[0], full + full):
            file.write_bytes(damaged)
            hold(front("desk", file, given=ASKED + b" version 1\nkepler 0 0 0 0 0 0 0 0 version 9\n" + ASKED + b"\n"), 0, b"refused 30\n" * 2 + plain[1])


@case("the desk reads the settings once: what is stored later does not alter a run")
def _():
    with tempfile.TemporaryDirectory() as room:
        file = pathlib.Path(room) / "settings"
        hold(store(file, *EARTH), 0)
        desk = subprocess.Popen([ROOT / "cabin", "desk", file], stdin=subprocess.PIPE, stdout=subprocess.PIPE)

        def ask(number):
            desk.stdin.write(ASKED + b" version %d\n" % number)
            desk.stdin.flush()
            return desk.stdout.readline()
        first = ask(1)
        assert b" grade fair " in first and ask(2) == b"refused 23\n"
        hold(front("settings", file, "back", "1"), 0)
        assert ask(2) == b"refused 23\n"
        file.unlink()
        assert ask(1) == first
        desk.communicate(timeout=60)
        assert desk.returncode == 0


@case("the desk by settings that cannot be read: 2, and nothing is answered; a pipe has settings as a file has")
def _():
    given = b"root 2\n"
    with tempfile.TemporaryDirectory() as room:
        hold(front("desk", room, given=given), 2, b"", "cannot be read")
        hold(front("desk", "", given=given), 2, b"", "name is empty")
        hold(front("desk", "one", "two", given=given), 2, b"", "usage: ./cabin desk \\[SETTINGS\\]")
        for words, says in (([room], "Is a directory"), ([f"{room}/none"], "No such file"), ([""], "the file name is empty"), (["a" * 5000], "File name too long"), (["one", "two"], "one file of settings")):
            hold(front("run", "desk", *words, given=given), 0, b"", says)
    with Room() as room:
        secret = room.write("secret", "")
        secret.chmod(0)
        hold(room.front("desk", secret, given=given, nobody=True), 2, b"", "cannot be read")
    ran = subprocess.run(["bash", "-c", '"$0" desk <(cat "$1") <<<"$2 version 1"', ROOT / "cabin", SAMPLE, ASKED], capture_output=True)
    assert (ran.returncode, ran.stdout) == (0, b"refused 30\n"), ran


# ---- output that does not get through

@case("a full device: 2 for all that writes, said once and in the front's own words")
def _():
    with open("/dev/full", "wb") as full:
        for words, given in ((["list", SAMPLE], b""), (["list"], REFUSED), (["show", SAMPLE], b""), (["watch"], REFUSED), (["desk"], b"root 2\n"), (["help"], b""), (["ready", "listing"], b""),
                             (["why", "apsides", *"4294967296 4194304 0 0 0 24 0".split()], b""), (["replay", ROOT / "samples" / "rendezvous.bin"], b"")):
            assert front(*words, stdout=full, given=given)[::2] == (2, f"cabin: {NO_ROOM}"), (words, front(*words, stdout=full, given=given))


@case("closed output: 2 for list, watch, desk and help")
def _():
    for words in (["list", SAMPLE], ["watch"], ["desk"], ["help"]):
        hold(front(*words, given=b"root 2\n", closed=[1]), 2, b"", "standard output is closed")


@case("closed standard error: the statuses stand")
def _():
    hold(front("list", SAMPLE, closed=[2]), 0, WHOLE)
    assert front("list", given=REFUSED, closed=[2])[:2] == (1, listing(REFUSED))
    assert front("list", SAMPLE, closed=[1, 2])[0] == 2


@case("closed input: 2 where it is read, and no matter where it is not")
def _():
    hold(front("list", closed=[0]), 2, b"", "standard input is closed")
    hold(front("watch", closed=[0]), 2, b"", "standard input is closed")
    hold(front("desk", closed=[0]), 2, b"", "standard input is closed")
    hold(front("list", SAMPLE, closed=[0]), 0, WHOLE)


@case("a reader that has gone: 2 for list, watch and desk")
def _():
    for words in (["list", SAMPLE], ["watch"], ["desk"]):
        gone, end = os.pipe()
        os.close(gone)
        hold(front(*words, stdout=end, given=b"root 2\n"), 2, None, "Broken pipe")
        os.close(end)


@case("a disk that is full in the middle of a line: 2")
def _():
    with tempfile.TemporaryFile() as cut:
        hold(front("list", SAMPLE, stdout=cut, limit=50), 2, None, "File too large")
        assert os.fstat(cut.fileno()).st_size < len(WHOLE)


@case("output is added to a file, which stays")
def _():
    with tempfile.NamedTemporaryFile() as file:
        file.write(b"ahead\n")
        file.flush()
        with open(file.name, "ab") as more:
            hold(front("list", SAMPLE, stdout=more), 0)
        assert pathlib.Path(file.name).read_bytes() == b"ahead\n" + WHOLE


# ---- a session as it comes

class Coming:
    """./cabin watch on an input that stays open."""

    def __init__(self):
        self.front = subprocess.Popen([ROOT / "cabin", "watch"], stdin=subprocess.PIPE, stdout=subprocess.PIPE, stderr=subprocess.PIPE)

    def __enter__(self):
        return self

    def __exit__(self, *_):
        for stream in (self.front.stdin, self.front.stdout, self.front.stderr):
            stream.close()
        self.front.wait(60)

    def send(self, some):
        os.write(self.front.stdin.fileno(), some)

    def line(self):
        """The next line; a time-out where none comes."""
        if not select.select([self.front.stdout], [], [], 30)[0]:
            raise AssertionError("a line is due and does not come")
        return os.read(self.front.stdout.fileno(), 4096)


@case("a session as it comes: 0, and 1 with the lines ahead where a record is refused or cut")
def _():
    hold(front("watch", given=sample()), 0, WHOLE)
    hold(front("watch"), 0, listing(b""))
    hold(front("watch", given=REFUSED), 1, listing(REFUSED), "counted from the start of the session")
    for cut in (1, 3, 4, 61):
        hold(front("watch", given=sample()[:452 + cut - 62]), 1, listing(sample()[:452 + cut - 62]), "refused")


@case("an input that stays open: each line comes before the next byte is sent, and a refusal ends it")
def _():
    with Coming() as coming:
        assert coming.line() == listing(b"")
        at, told = 0, listing(b"")
        for length in (62, 38, 62):
            for _byte in range(length):
                coming.send(sample()[at:at + 1])
                at += 1
            told += coming.line()
            assert told == listing(sample()[:at]), (at, told)
        coming.send(b"\x26\x00\x09\x00")
        assert coming.line() == b"refused 13 at 162\n"
        assert coming.front.wait(30) == 1, coming.front.stderr.read()


@case("a serial line is listed as it comes; where it hangs up, the input ends or cannot be read, as the system has it")
def _():
    end, line = pty.openpty()
    tty.setraw(line)
    ran = subprocess.Popen([ROOT / "cabin", "watch"], stdin=line, stdout=subprocess.PIPE, stderr=subprocess.PIPE)
    os.close(line)
    assert ran.stdout.readline() == listing(b"")
    os.write(end, night()[:8 + 62])
    assert ran.stdout.readline() == b"4 8580000 0 state\n"
    os.write(end, night()[8 + 62:8 + 62 + 62])
    assert ran.stdout.readline() == b"4 8580000 1 state\n"
    os.close(end)
    wrote, said = ran.communicate(timeout=60)
    assert wrote == b"" and (ran.returncode, said) in ((0, b""), (2, b"cabin: standard input: Input/output error\n")), (ran.returncode, wrote, said)


@case("a session as it comes is added to a file, which stays")
def _():
    with tempfile.NamedTemporaryFile() as file:
        file.write(b"ahead\n")
        file.flush()
        with open(file.name, "ab") as more:
            hold(front("watch", given=sample(), stdout=more), 0)
        assert pathlib.Path(file.name).read_bytes() == b"ahead\n" + WHOLE


@case("a long session as it comes takes no more memory than a short one")
def _():
    def peak(times):
        ran = subprocess.Popen(["bash", "-c", f'for k in $(seq {times}); do cat "$1"; done | "$0" watch', ROOT / "cabin", LONG], stdout=subprocess.PIPE)
        size = len(ran.stdout.read())
        _pid, status, used = os.wait4(ran.pid, 0)
        assert status == 0 and size == len(listing(b"")) + times * (len(listing(LONG.read_bytes())) - len(listing(b""))), (status, size)
        return used.ru_maxrss
    with tempfile.NamedTemporaryFile() as file:
        LONG = pathlib.Path(file.name)
        LONG.write_bytes(sample() * 140)
        short, long = peak(1), peak(100)
        assert long < short + 1024, (short, long)


# ---- folders that cannot be used

@case("a temporary folder that is full, or is not there: the listing is whole")
def _():
    hold(front("list", SAMPLE, limit=0), 0, WHOLE)
    hold(front("list", SAMPLE, env=dict(os.environ, TMPDIR="/nowhere")), 0, WHOLE)


@case("a read-only checkout: what is built runs, what is not gives 2")
def _():
    with Room() as room:
        subprocess.run(["chmod", "-R", "a-w", room.home], check=True)
        hold(room.front("list", SAMPLE, nobody=True), 2, b"", "cannot be written")
    with Room() as room:
        hold(room.front("list", SAMPLE), 0, WHOLE)
        subprocess.run(["chmod", "-R", "a-w", room.home], check=True)
        hold(room.front("list", SAMPLE, nobody=True), 0, WHOLE)
        subprocess.run(["chmod", "-R", "u+w", room.home / "crates"], check=True)
        room.write("crates/listing/src/more.rt", "")
        hold(room.front("list", SAMPLE, nobody=True), 2, b"", "cannot be written")


@case("a disk that is full while a program is built: 2, and whole later")
def _():
    for limit in (0, 1000):
        with Room() as room:
            hold(room.front("list", SAMPLE, limit=limit), 2, b"")
            hold(room.front("list", SAMPLE), 0, WHOLE)


# ---- ways to call it

@case("a link to ./cabin, and a link to the link, from another folder")
def _():
    with tempfile.TemporaryDirectory() as room:
        first, second = pathlib.Path(room) / "first", pathlib.Path(room) / "a second"
        first.symlink_to(ROOT / "cabin")
        second.symlink_to("first")
        for link in (first, second):
            ran = subprocess.run([link, "list", SAMPLE], capture_output=True, cwd=room)
            assert (ran.returncode, ran.stdout) == (0, WHOLE), (link.name, ran)


@case("a pipe, <(..) and a named pipe can be listed")
def _():
    for words in ('<(cat "$1")', '/dev/fd/3 3<"$1"', '/dev/stdin <"$1"'):
        ran = subprocess.run(["bash", "-c", f'"$0" list {words}', ROOT / "cabin", SAMPLE], capture_output=True)
        assert (ran.returncode, ran.stdout) == (0, WHOLE), (words, ran)
    with tempfile.TemporaryDirectory() as room:
        pipe = pathlib.Path(room) / "pipe"
        os.mkfifo(pipe)
        writer = subprocess.Popen(["cp", SAMPLE, pipe])
        hold(front("list", pipe), 0, WHOLE)
        writer.wait()


# ---- building

@case("a first use from standard input: what builds does not read the session")
def _():
    with Room() as room:
        hold(room.front("list", given=sample()), 0, WHOLE)


@case("two first uses at once: one builds, the other waits, both list")
def _():
    with Room() as room:
        (room.stub / "hook").write_text("sleep 2\n")
        first = room.start("list", SAMPLE)
        while not room.runs():
            time.sleep(0.05)
        second = room.start("list", SAMPLE)
        for one in (first, second):
            wrote, said = one.communicate(timeout=60)
            assert (one.returncode, wrote) == (0, WHOLE), said
        assert b"waiting" in said, said
        assert room.runs() == ["start listing", "end listing"], room.runs()


@case("a file that is changed while it is proved is proved again")
def _():
    with Room() as room:
        main = room.home / "crates" / "listing" / "src" / "main.rt"
        (room.stub / "hook").write_text(f'[ -f "$STUB/once" ] || {{ : >"$STUB/once"; echo "// more" >>"{main}"; }}\n')
        hold(room.front("list", SAMPLE), 0, WHOLE, "changed meanwhile")
        assert room.runs() == ["start listing", "end listing"] * 2, room.runs()
        hold(room.front("list", SAMPLE), 0, WHOLE)
        assert len(room.runs()) == 4, "it was proved once more, and nothing had changed"


@case("a file that is changed, added or removed later is proved again, and nothing else")
def _():
    with Room() as room:
        main = room.home / "crates" / "listing" / "src" / "main.rt"
        old = main.stat().st_mtime

        def proofs():
            hold(room.front("list", SAMPLE), 0, WHOLE)
            return len(room.runs()) // 2
        assert proofs() == 1
        main.write_text("fn main() { }\n")
        os.utime(main, (old, old))
        assert proofs() == 2, "a change that keeps the file's time"
        more = room.write("crates/listing/src/more.rt", "")
        assert proofs() == 3, "a file more"
        more.unlink()
        room.write("README.md", "new")
        assert proofs() == 3, "as it was two proofs ago, and a page"


@case("./cabin test does not pull a program away from under a use")
def _():
    with Room() as room:
        hold(room.front("list", SAMPLE), 0, WHOLE)
        (room.stub / "ci").write_text(': >"$STUB/in-ci"; sleep 4; echo "1 passed, 0 failed"\n')
        gate = room.start("test")
        while not (room.stub / "in-ci").exists():
            assert gate.poll() is None, gate.communicate()
            time.sleep(0.05)
        hold(room.front("list", SAMPLE), 0, WHOLE)
        assert gate.poll() is None, "the listing waited for the gate"
        gate.communicate(timeout=60)


@case("two gates at once: the second waits for the first")
def _():
    with Room() as room:
        (room.stub / "ci").write_text('echo in >>"$STUB/runs"; sleep 1; echo out >>"$STUB/runs"; echo "1 passed, 0 failed"\n')
        both = [room.start("test"), room.start("test")]
        said = b"".join(one.communicate(timeout=60)[1] for one in both)
        order = [line for line in room.runs() if line in ("in", "out")]
        assert b"waiting" in said and order == ["in", "out"] * 2, (order, said)


@case("nothing is installed without a word, and what cannot be installed gives 2")
def _():
    with Room() as room:
        use = ["bash", "-c", 'home=$1; . "$1/tools/front.sh"; need no-such-command some-package', "-", room.home]
        installer = room.stub / "apt-get"
        installer.write_text('#!/bin/sh\necho "$@" >>"$STUB/installed"\n')
        installer.chmod(0o755)
        ran = subprocess.run(use, env=room.env, capture_output=True, text=True)
        assert ran.returncode == 0 and "installing some-package" in ran.stderr, ran
        assert (room.stub / "installed").read_text() == "update\ninstall -y some-package\n"
        installer.write_text("#!/bin/sh\nexit 100\n")
        ran = subprocess.run(use, env=room.env, capture_output=True, text=True)
        assert ran.returncode == 2 and "by hand" in ran.stderr, ran
    for script in [ROOT / "cabin", *(ROOT / "tools").glob("*.sh")]:
        assert len(re.findall(r"apt-get (?:\S+ )*install", script.read_text())) == (script.name == "front.sh"), script


@case("under CABIN_BUILD=no what is not built gives 2, at once")
def _():
    with Room() as room:
        room.env["CABIN_BUILD"] = "no"
        hold(room.front("list", SAMPLE), 2, b"", "is not built")
        assert not room.runs(), "it was built all the same"


# ---- the gate

# What `rt ci` says where all is well, and of a wrong build that it refuses for no fact.
OK = "rt: ok; handles allowed: none; must-fail edits: 30 refused"
NAMED = "rt: must-fail low/edit: refused, as it must be (only because a proof file names what the edit took away, so this says little)"


def gate(room, ci, fails=(), lacks=(), **more):
    """The status and the lines of ./cabin test over parts that pass, but for those that fail or are not run."""
    (room.stub / "ci").write_text(ci)
    for name in re.findall(r"python3 tools/(\w+\.py)", (ROOT / "tools" / "test.sh").read_text()):
        room.write(f"tools/{name}", f"import sys; print('{name} was made'); sys.exit(77 if sys.argv[-1] in {lacks!r} else {int(name in fails)})\n")
    room.write("tools/compare.sh", f'echo "compare $1 was made, build $CABIN_BUILD"; case " {" ".join(fails)} " in *" $1 "*) exit 1 ;; esac\n')
    room.write("tools/library.sh", 'echo "library $1 was made"\n')
    status, wrote, _said = room.front("test", **more)
    return status, (wrote or b"").decode().split("\n")[:-1]


def left_out(room, made):
    """A part that is not run is named, and counts neither as passed nor as failed."""
    status, lines = gate(room, 'echo "40 passed, 0 failed"\n', lacks=("chromium",))
    assert (status, lines[-1]) == (0, f"{40 + made} passed, 0 failed") and "NOT RUN: the night run, with chromium" in lines, lines
    status, lines = gate(room, 'echo "40 passed, 0 failed"\n', fails=("pages.py",), lacks=("chromium", "parallel"))
    assert (status, lines[-1]) == (2, f"{38 + made} passed, 1 failed") and sum(line.startswith("NOT RUN: ") for line in lines) == 2, lines


def parts(lines):
    return sum(" was made" in line for line in lines)


@case("the gate's last line is its count, also where a part fails, and every part is made")
def _():
    with Room() as room:
        status, lines = gate(room, 'echo "rt: ok"; echo "40 passed, 0 failed"\n')
        made = parts(lines)
        assert made >= 8 and status == 0 and lines[-1] == f"{41 + made} passed, 0 failed", lines
        assert sum("passed" in line for line in lines) == 1, lines
        room.env["CABIN_BUILD"] = "no"
        hold(room.front("list", SAMPLE), 0, WHOLE)
        room.env["CABIN_BUILD"] = "yes"
        assert not room.runs(), "a program is built once more"
        assert "compare sessions was made, build no" in lines, lines
        for ci, fails, count in (
            ('echo "38 passed, 2 failed"; exit 1\n', (), f"{39 + made} passed, 2 failed"),
            ('echo "the toolchain died"; exit 2\n', (), f"{1 + made} passed, 1 failed"),
            ('echo "40 passed, 0 failed"; exit 1\n', (), f"{41 + made} passed, 1 failed"),
            (f'echo "{OK}, 1 bad; every proof"; echo "40 passed, 0 failed"\n', (), f"{40 + made} passed, 1 failed"),
            (f'echo "{NAMED}"; echo "{OK}; every proof"; echo "40 passed, 0 failed"\n', (), f"{40 + made} passed, 1 failed"),
            ('echo "40 passed, 0 failed"\n', ("requests",), f"{40 + made} passed, 1 failed"),
            ('echo "40 passed, 0 failed"\n', ("pages.py", "sessions"), f"{39 + made} passed, 2 failed"),
            ('echo "39 passed, 1 failed"; exit 1\n', ("promises.py", "stored"), f"{38 + made} passed, 3 failed"),
        ):
            status, lines = gate(room, ci, fails)
            assert (status, lines[-1], parts(lines)) == (2, count, made), (status, count, lines)
            assert any(line.startswith("FAILED: ") for line in lines), lines
        with open("/dev/full", "wb") as full:
            assert gate(room, 'echo "40 passed, 0 failed"\n', stdout=full)[0] == 2
        left_out(room, made)
        room.env["PATH"] = "/usr/bin:/bin"
        status, lines = gate(room, "")
        assert (status, lines[-1]) == (2, "0 passed, 1 failed"), (status, lines)


def main():
    faults = 0
    for name, function in CASES:
        try:
            function()
        except (AssertionError, subprocess.TimeoutExpired) as fault:
            faults += 1
            print(f"{name}: {fault}")
    print(f"{len(CASES)} cases of the front, {faults} wrong")
    return 1 if faults else 0


sys.exit(main())
