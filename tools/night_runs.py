#!/usr/bin/env python3
"""night_runs: the night run, on nine small cabins: what it says of good, failing, damaged, empty and unreadable sessions, under
which day it files them, and that it can be killed, started twice, starved of disk and time without losing or repeating anything.

  tools/night_runs.py                  every case
  tools/night_runs.py --with NEED      the cases that need something of the machine: nothing, chromium, parallel, systemd-analyze, mount
  tools/night_runs.py WORDS            the cases whose name has the words
  tools/night_runs.py --year [NIGHTS]  nine cabins, 365 nights, some sessions damaged, the run killed at random points
  tools/night_runs.py --load [COUNT]   nine cabins with 100 sessions of 2,000 records each, timed, and again with nothing left

What a session must get is stated by who makes it here; its lines are those of `./cabin replay`. A case whose need is not
there is not run, and counted as such. The seed is printed, and CABIN_SEED=N repeats a run. Ends with 0 where all passed, 1 where one
failed, 77 where none failed and one was not run. Run it from the project's root."""
import contextlib
import functools
import html.parser
import json
import math
import os
import pathlib
import random
import re
import resource
import shutil
import signal
import struct
import subprocess
import sys
import tempfile
import time

sys.path.insert(0, str(pathlib.Path(__file__).parent))
from browser import Browser
from night import plots
from night.verdict import Event, Mark
from make_sample import BURN, DAY, HOUR, MARK, MINUTE, MOON, STATE, circling, flown, offset, record
from settings import record as version

# A start in the background leaves SIGINT ignored, and a service may leave SIGTERM so; what is started here would inherit that.
signal.signal(signal.SIGINT, signal.default_int_handler)
signal.signal(signal.SIGTERM, signal.SIG_DFL)

ROOT = pathlib.Path(__file__).resolve().parent.parent
NIGHT = ROOT / "tools" / "night.py"
SEED = int(os.environ.get("CABIN_SEED", time.time()))
DICE = random.Random(SEED)
NOBODY = 65534
CASES = []


class NotRun(Exception):
    """Why a case cannot be run on this machine."""


def starts(*words):
    return shutil.which(words[0]) and subprocess.run(words, stdin=subprocess.DEVNULL, capture_output=True).returncode == 0


NEEDS = {  # what a case may need of the machine: whether it is there
    "nothing": lambda: True,
    "chromium": lambda: starts("chromium", "--version"),
    "parallel": lambda: starts("parallel", "--version"),
    "systemd-analyze": lambda: starts("systemd-analyze", "--version"),
    "mount": lambda: os.getuid() == 0 and starts("unshare", "-m", "true"),
}


def case(name, need="nothing"):
    return lambda function: CASES.append((name, need, function)) or function


# ---- sessions

TARGET, CHASER = circling(MOON + 111_120.0, 0.02), circling(MOON + 83_340.0, 0.0)


@functools.cache
def distance(cs):
    return math.dist(flown(TARGET, cs)[:3], flown(CHASER, cs)[:3])


def session(day, cs, minutes=None, noises=(3.0, -5.0, 2.5), tail=b""):
    """Two states at a local day and cs, then a mark a minute, each off by a noise; and what stands behind them."""
    start = day * DAY + cs - (minutes or 0) * MINUTE
    parts = [offset(minutes)] if minutes is not None else []
    parts += [record(STATE, 0, 1, start, *TARGET), record(STATE, 1, 1, start, *CHASER)]
    parts += [record(MARK, 1, 0, start + k * MINUTE, distance(k * MINUTE) - noise, 0.0) for k, noise in enumerate(noises, 1)]
    return b"".join(parts) + tail


def made(folder, sessions):
    """Writes CABIN/NAME -> bytes."""
    for name, data in sessions.items():
        path = folder / f"{name}.bin"
        path.parent.mkdir(parents=True, exist_ok=True)
        path.write_bytes(data)


LATE = 23 * HOUR + 50 * MINUTE

# CABIN/NAME: the session, and what it must get: its day, the verdict, a pattern of the reason, records, marks
NINE = {
    "cabin-1/good": (session(4, LATE), (4, "passed", "", 5, 3)),
    "cabin-1/night shift": (session(4, LATE, 120, (1.0,) * 30), (4, "passed", "", 32, 30)),
    "cabin-2/after midnight": (session(5, 10 * MINUTE, 120), (5, "passed", "", 5, 3)),
    "cabin-2/far east": (session(5, 13 * HOUR, 840), (5, "passed", "", 5, 3)),
    "cabin-2/far west": (session(4, 12 * HOUR, -840), (4, "passed", "", 5, 3)),
    "cabin-3/off": (session(4, LATE, 120, (3.0, 150.0, -200.0)), (4, "failed", r"record 4 off (149\.9|150\.0)\d*", 5, 3)),
    "cabin-3/good": (session(4, 0), (4, "passed", "", 5, 3)),
    "cabin-4/refused": (session(4, 0, None, (1.0,), record(BURN, 1, 0, 4 * DAY, 130.0, 0.0, 0.0)), (4, "failed", "record 4 refused 4", 4, 1)),
    "cabin-4/not set": (record(BURN, 1, 0, -1, 1.0, 0.0, 0.0), (-1, "failed", "record 1 refused 20", 1, 0)),
    "cabin-5/damaged": (session(4, 0, 60, (1.0,), struct.pack("<HH", 30, 9)), (4, "failed", "refused 13 at 162", 3, 1)),
    "cabin-5/cut": (session(4, 0)[:-1], (4, "failed", "refused 11 at 184", 4, 2)),
    "cabin-5/off, then damaged": (session(4, 0, None, (500.0,), b"\0\0\0\0"), (4, "failed", r"record 3 off (499\.9|500\.0)\d*", 3, 1)),
    "cabin-6/empty": (b"", (None, "passed", "", 0, 0)),
    "cabin-6/offset alone": (offset(-60), (None, "passed", "", 0, 0)),
    "cabin-6/rubbish": (b"no session at all", (None, "failed", "refused 13 at 0", 0, 0)),
    "cabin-7/too long": (session(4, 0) * 400, (None, "failed", "refused 12 at 0", 0, 0)),
    "cabin-7/bad offset": (offset(841) + session(4, 0), (None, "failed", "refused 14 at 0", 0, 0)),
    "cabin-8/good": (session(-3, 0, -1, (99.0,)), (-3, "passed", "", 3, 1)),
    "cabin-8/<b>&\"'é": (session(4, 0), (4, "passed", "", 5, 3)),
}
UNREAD = {"cabin-9/a folder": "Is a directory", "cabin-9/a pipe": "no plain file", "cabin-9/nowhere": "No such file or directory"}


def nine(folder):
    """The nine cabins."""
    made(folder, {name: data for name, (data, _) in NINE.items()})
    cabin = folder / "cabin-9"
    cabin.mkdir()
    (cabin / "a folder.bin").mkdir()
    os.mkfifo(cabin / "a pipe.bin")
    (cabin / "nowhere.bin").symlink_to("none")


# ---- runs

@functools.cache
def command(name):
    ran = subprocess.run([ROOT / "cabin", "ready", name], stdout=subprocess.PIPE, text=True, check=True)
    return ran.stdout.strip("\n").split("\n")


def environment(refly=None, mu=()):
    return dict(os.environ, CABIN_REFLY="\n".join(refly or command("refly")), CABIN_LISTING="\n".join(command("listing")), CABIN_MU=" ".join(mu), TZ="Pacific/Kiritimati")


def start(*words, refly=None, **more):
    more.setdefault("preexec_fn", lambda: signal.signal(signal.SIGINT, signal.SIG_IGN))  # as the front starts it
    more.setdefault("stderr", subprocess.PIPE)
    return subprocess.Popen([sys.executable, NIGHT, *map(str, words)], stdout=subprocess.PIPE, text=True, env=environment(refly), **more)


def night(*words, refly=None, **more):
    """The status, what it wrote and what it said."""
    run = start(*words, refly=refly, **more)
    wrote, said = run.communicate(timeout=900)
    return run.returncode, wrote, said


def front(*words):
    ran = subprocess.run([ROOT / "cabin", "night", *map(str, words)], capture_output=True, text=True, timeout=300)
    return ran.returncode, ran.stdout, ran.stderr


def hold(got, status, wrote="", says=""):
    assert got[0] == status, f"status {got[0]}, not {status}: {got}"
    assert re.search(wrote, got[1]), f"wrote {got[1]!r}, without {wrote!r}"
    assert re.search(says, got[2]), f"said {got[2]!r}, without {says!r}"


@contextlib.contextmanager
def room():
    """A folder for sessions and one for results."""
    with tempfile.TemporaryDirectory() as top:
        top = pathlib.Path(top)
        (top / "folder").mkdir()
        yield top / "folder", top / "results"
        subprocess.run(["chmod", "-R", "u+rwX", top], check=True)


def told(results):
    return json.loads((results / "report.json").read_text())


def verdicts(results):
    return {f"{one['cabin']}/{one['name']}": one for one in told(results)["sessions"]}


def texts(results):
    """Every result and report but the notes."""
    return {str(path.relative_to(results)): path.read_bytes() for path in results.rglob("*") if path.is_file() and ".night" not in path.parts}


class Counter:
    """A program that notes each start and then does as the real one, or as it is told for sessions of some size."""

    def __init__(self, top, behaviours=()):
        self.log = top / "log"
        self.log.touch()
        self.path = top / "stand-in"
        cases = "".join(f"{size}) {what} ;;\n" for size, what in dict(behaviours).items())
        real = " ".join(f"'{word}'" for word in command("refly"))
        self.path.write_text(f"""#!/bin/bash
given=$(mktemp {top}/given-XXXXXX); cat >"$given"; exec <"$given"; rm "$given"
echo "$(sha256sum </dev/stdin | cut -c 1-64)" >>{self.log}
case $(stat -L -c %s /dev/fd/0) in
{cases}esac
exec {real} "$@"
""")
        self.path.chmod(0o755)
        self.words = [str(self.path)]

    def starts(self):
        """How many programs were started since this was asked last."""
        lines = self.log.read_text().split("\n")[:-1]
        self.log.write_text("")
        return len(lines)


# ---- what it says

def check_results(folder, results):
    """Every session's place, lines, verdict and counts, and report.json held to them."""
    got = verdicts(results)
    assert set(got) == {*NINE, *UNREAD}, set(got) ^ {*NINE, *UNREAD}
    for name, (data, (day, verdict, reason, records, marks)) in NINE.items():
        one = got[name]
        assert (one["day"], one["verdict"], one["records"], one["marks"]) == (day, verdict, records, marks), (name, one)
        assert re.fullmatch(reason, one["reason"]), (name, one)
        lines = subprocess.run([*command("refly"), folder / f"{name}.bin"], capture_output=True, text=True, check=True).stdout
        cabin, stem = name.split("/")
        text = (results / cabin / f"day-{'none' if day is None else day}" / f"{stem}.txt").read_text()
        assert text == lines + f"verdict {verdict}" + (f" {one['reason']}" if one["reason"] else "") + "\n", name
        offs = [abs(struct.unpack(">d", bytes.fromhex(bits))[0]) for bits in re.findall(r" off \S+ bits x(\w+)", lines)]
        assert one["worst"] == max(offs, default=None), name
    for name, words in UNREAD.items():
        assert (got[name]["day"], got[name]["verdict"], got[name]["worst"]) == (None, "broken", None) and words in got[name]["reason"], got[name]
        assert (results / "cabin-9" / "day-none" / f"{name[8:]}.txt").read_text() == f"verdict broken {got[name]['reason']}\n"
    assert len(list(results.glob("*/day-*/*"))) == len(got), "a result too many"


@case("nine cabins: every verdict, day, reason and count; exit 1")
def _():
    with room() as (folder, results):
        nine(folder)
        (folder / "stray.bin").touch()
        (folder / ".hidden").mkdir()
        hold(night(folder, "--out", results), 1, "^9 cabins, 22 sessions: 10 passed, 9 failed, 3 broken: ", "1 of what is in the folder")
        check_results(folder, results)
        sums = {one.pop("cabin"): one for one in told(results)["cabins"]}
        assert sums["cabin-5"] == {"passed": 0, "failed": 3, "broken": 0} and sums["cabin-9"] == {"passed": 0, "failed": 0, "broken": 3}, sums
        keys = [(one["cabin"], one["day"] is None, one["day"] or 0, one["name"]) for one in told(results)["sessions"]]
        assert keys == sorted(keys) and len(sums) == 9
        assert all(list(one) == ["cabin", "name", "day", "verdict", "reason", "records", "marks", "worst"] for one in told(results)["sessions"])
        check_text(results)
        check_page(results)
        for path in results.rglob("*"):
            assert not path.name.startswith(".night-"), path


def check_text(results):
    """report.txt has every session's words, what failed first."""
    text = (results / "report.txt").read_text().split("sessions, what failed first:\n")[1].split("\n\n")[0].split("\n")[1:]
    wanted = verdicts(results)
    assert len(text) == len(wanted)
    order = [re.search(r"  (failed|broken|passed)(?:  |$)", line)[1] for line in text]
    assert order == sorted(order, key=["failed", "broken", "passed"].index), order
    for one in wanted.values():
        parts = [one["cabin"], "none" if one["day"] is None else str(one["day"]), one["name"], one["verdict"], *filter(None, [one["reason"]]), str(one["records"]), str(one["marks"])]
        assert any(re.match(r"\s+".join(map(re.escape, parts)) + r"(\s|$)", line) for line in text), parts


class Page(html.parser.HTMLParser):
    """The cells of the sessions' table, the ids, where links lead, the pictures, and whatever could fetch something."""

    def __init__(self):
        super().__init__()
        self.rows, self.ids, self.links, self.outside, self.pictures, self.open = [], [], [], [], 0, []
        self.inside = self.cell = False

    def handle_starttag(self, tag, attributes):
        given = dict(attributes)
        self.ids += [given["id"]] if "id" in given else []
        self.inside = given.get("id") == "sessions" if tag == "section" else self.inside
        self.pictures += tag == "svg"
        self.links += [given["href"]] if tag == "a" else []
        self.outside += [tag] if tag in ("script", "link", "img", "image", "iframe", "object", "embed", "base", "use", "audio", "video", "source") else []
        self.outside += [name for name, value in attributes if name in ("src", "srcset", "action", "data", "poster", "background") or name.startswith("on") or (name.endswith("href") and not value.startswith("#"))]
        if tag not in ("meta", "path", "circle"):
            self.open.append(tag)
        if self.inside and tag == "tr":
            self.rows.append([])
        if self.inside and tag == "td":
            self.cell = True
            self.rows[-1].append("")

    def handle_endtag(self, tag):
        if tag not in ("path", "circle"):
            assert self.open.pop() == tag, f"{tag} is closed out of its place"
        self.cell = self.cell and tag != "td"

    def handle_data(self, data):
        if self.cell:
            self.rows[-1][-1] += data


def check_page(results):
    """report.html is whole and alone, and its table is report.json's, what failed first."""
    text = (results / "report.html").read_text()
    page = Page()
    page.feed(text)
    page.close()
    assert not page.open and not page.outside and not re.search(r"url\(|@import|https?:", text), page.outside
    assert len(set(page.ids)) == len(page.ids) and all(link[1:] in page.ids for link in page.links), "a link that leads nowhere"
    rows = [row for row in page.rows if row]
    got = {f"{row[0]}/{row[2]}": row for row in rows}
    wanted = verdicts(results)
    assert len(rows) == len(wanted) and set(got) == set(wanted), set(got) ^ set(wanted)
    for name, one in wanted.items():
        row = got[name]
        assert row[1:7] == ["none" if one["day"] is None else str(one["day"]), one["name"], one["verdict"], one["reason"], str(one["records"]), str(one["marks"])], row
        assert row[7] == "" if one["worst"] is None else row[7] == "large" if one["worst"] >= 2.0**43 else abs(float(row[7]) - one["worst"]) <= 1e-6, row
    order = [row[3] for row in rows]
    assert order == sorted(order, key=["failed", "broken", "passed"].index), order
    assert page.pictures >= sum(row[6] != "0" for row in rows[:1000]), "a session with marks has no picture"


@case("all passed: 0; a folder with no session: 0, and empty reports; a cabin with none is shown")
def _():
    with room() as (folder, results):
        hold(front(folder, "--out", results), 0, "^0 cabins, 0 sessions", f"no session {folder}/CABIN/NAME.bin was found\n")
        made(folder, {"a/x": session(1, 0), "b/y": session(2, 0)})
        hold(night(folder / "a", "--out", results), 0, "^0 cabins, 0 sessions", "was found: .* itself has .bin files, so perhaps the folder above it is meant")
        for way in ("--list", "--status", "--report"):
            hold(night(folder / "a", "--out", results, way), 0, "", "no session .* was found")
        (folder / "c").mkdir()
        hold(front(folder, "--out", results), 0, "^3 cabins, 2 sessions: 2 passed, 0 failed, 0 broken", "2 of 2 done")
        assert told(results)["cabins"][2] == {"cabin": "c", "passed": 0, "failed": 0, "broken": 0}
        check_page(results)


@case("the limit: at it passed, over it failed; by another limit all is run again")
def _():
    with room() as (folder, results):
        made(folder, {"a/x": session(1, 0)})
        hold(night(folder, "--out", results), 0)
        worst = verdicts(results)["a/x"]["worst"]
        hold(night(folder, "--out", results, "--limit", repr(worst)), 0)
        hold(night(folder, "--out", results, "--limit", repr(math.nextafter(worst, 0))), 1)
        assert re.fullmatch(r"record 4 off -?\d+\.\d{6}", verdicts(results)["a/x"]["reason"])
        for limit in ("0100.50", "1234567.5", "1e2"):
            hold(night(folder, "--out", results, "--limit", limit), 0)
            assert f"\nlimit {limit} m, the usual mu;" in (results / "report.txt").read_text() and f"limit {limit} m" in (results / "report.html").read_text(), limit
        hold(night(folder, "--out", results, "--limit", "0"), 1)
        assert re.fullmatch(r"record 3 off -?\d+\.\d{6}", verdicts(results)["a/x"]["reason"])


@case("by settings: the lines are those of replay by them, though it was run without; settings that refuse: 2")
def _():
    with room() as (folder, results):
        made(folder, {"a/x": session(1, 0)})
        path = folder.parent / "settings"
        path.write_bytes(version(1, body=0, mu=3.986012e10) + version(2, body=1, mu=490_000_000.0))
        hold(front(folder, "--out", results), 0)
        got = front(folder, "--out", results, "--settings", path, 1, 2)
        lines = subprocess.run([ROOT / "cabin", "replay", folder / "a" / "x.bin", "--settings", path, "1", "2"], capture_output=True, text=True).stdout
        assert (results / "a" / "day-1" / "x.txt").read_text().startswith(lines) and len(lines) > 100, got
        for name in ("report.txt", "report.html"):
            assert f"limit 100 m, mu x42228FB253800000 and x41BD34CE80000000 by versions 1 and 2 of the settings {path};" in (results / name).read_text(), name
        hold(front(folder, "--out", results, "--settings", path, 1, 3), 2, "^$", "refused 23")
        hold(front(folder, "--out", results, "--settings", path, 2, 1), 2, "^$", "refused 14")
        hold(front(folder, "--out", results, "--settings"), 2, "^$", "the path of the settings is missing behind --settings")
        hold(front(folder, "--out", results, "--settings", path), 2, "^$", "the earth's version is missing")
        hold(front(folder, "--out", results, "--settings", path, 1), 2, "^$", "the moon's version is missing")
        hold(front(folder, "--settings", path, 1, "--out", results), 2, "^$", "'--out', the moon's version behind --settings, cannot be read: give a whole number")
        hold(front(folder, "--settings", path, 1, 2, "--settings", path, 1, 2), 2, "^$", "--settings stands there twice")
        hold(front(folder, "--out", results, "--settings", folder.parent / "none", 1, 2), 2, "^$", "there is no file")
        hold(front(folder, "--out", results, "--settings", folder.parent, 1, 2), 2, "^$", "cannot be read")


@case("words that cannot be read, no such folder, results that cannot be written: 2")
def _():
    with room() as (folder, results):
        made(folder, {"a/x": session(1, 0)})
        limit, jobs, patience = "--limit: give metres, at least 0, as 100", "--jobs: give a whole number from 1 to 1000", "--patience: give seconds, over 0 and at most 1000000"
        for words, says in (((), "0 folders"), ((folder, folder), "2 folders"), ((folder, "--limit"), f"nothing stands behind {limit}"), *(((folder, "--limit", word), f"'{word}' cannot stand behind {limit}") for word in ("x", "-1", "nan", "inf", "1_0", " 1", "", "1e999")),
                            *(((folder, "--jobs", word), f"'{word}' cannot stand behind {jobs}") for word in ("0", "1001", "2.5", "-1")), *(((folder, "--patience", word), f"'{word}' cannot stand behind {patience}") for word in ("0", "1000001")),
                            ((folder, "--lists"), "there is no option '--lists'"), ((folder, "--list", "--status"), "--list and --status do not go together"), ((folder, "--one", ""), "give CABIN/NAME"), ((folder, "--jobs", "1", "--jobs", "1"), "--jobs stands there twice")):
            hold(night("--out", results, *words), 2, "^$", says)
        hold(night(folder, "--out", ""), 2, "^$", "give the path of a folder")
        hold(night(folder / "none", "--out", results), 2, "^$", "there is no folder")
        hold(night(folder, "--out", folder / "a" / "x.bin" / "results"), 2, "^$", "Not a directory: a file is where a folder must be: give other results")
        hold(night(folder, "--out", folder / "a" / "x.bin"), 2, "^$", "Not a directory: a file is where a folder must be: give other results")
        hold(front(folder / "none", "--out", results), 2, "^$", "there is no folder")
        hold(night(folder / "a" / "x.bin", "--out", results), 2, "^$", "x.bin is no folder: give the folder that has a folder for each cabin")
        assert not results.exists()
        (results / "report.txt").mkdir(parents=True)
        hold(night(folder, "--out", results), 2, "^$", "Is a directory: a folder is where a file must be: move it away")
        shutil.rmtree(results)
        with open("/dev/full", "w") as full:
            run = subprocess.run([sys.executable, NIGHT, folder, "--out", results], stdout=full, stderr=subprocess.PIPE, text=True, env=environment())
        assert run.returncode == 2 and "standard output could not be written: No space left" in run.stderr, run


@case("numbers at their ends: each gets its picture or none, and the page stands")
def _():
    spreads = (0.0,), (-0.0, 5e-324), (1.7e308, -1.7e308), (1e-9, 3.0), (99.9, -100.1), tuple(range(-700, 700))
    for offs in spreads:
        for limit in (0.0, 5e-324, 100.0, 1.7e308):
            for step in (0, 1, 6_000, 8_640_000 * 10**6):
                marks = [Mark(k, *divmod(k * step - 5, DAY), float(off)) for k, off in enumerate(offs)]
                drawn = plots.off_plot(marks, [Event(0, 7, "burn"), Event(10**8, 3, "refused")], limit)
                assert not re.search(r"nan|inf|\de", re.sub(r"<text.*?</text>|aria-label=\".*?\"", "", drawn)), drawn
    with room() as (folder, results):
        far = [record(STATE, k, 1, 0, *(x * sign for sign in (1.0, -1.0, 1.0, 0.5, 1.0, 1.0))) for k, x in enumerate((1.7e308, 5e-324))]
        made(folder, {"a/far": b"".join(far), "a/still": record(STATE, 0, 0, 0, *[0.0] * 6) + record(STATE, 1, 1, 2**53, 3e6, 0.0, 0.0, 0.0, 1e-300, 0.0), "a/mark": session(1, 0, None, (), record(MARK, 0, 0, DAY, 1.7e308, 0.0) + record(MARK, 0, 0, DAY, -1.7e308, 0.0))})
        hold(night(folder, "--out", results), 1, "2 passed, 1 failed")
        check_page(results)
        lines = (results / "a" / "day-1" / "mark.txt").read_text()
        shown = (results / "report.txt").read_text(), (results / "report.html").read_text()
        assert verdicts(results)["a/mark"]["reason"] == "record 3 off large" and " off large bits " in lines, lines
        assert re.search("  large  ", shown[0]) and "worst (in the circle) large m" in shown[1] and not any(re.search(r"\d{16}\.", text) for text in shown)


@case("names: newlines and bytes that are no text are run and reported; a results folder inside the folder is no cabin")
def _():
    with room() as (folder, _results):
        made(folder, {"a/two\nlines": session(1, 0), "a b/ x ": session(1, 0)})
        with open(os.fsencode(folder) + b"/a/\xff\xfe.bin", "wb") as file:
            file.write(session(2, 0))
        hold(night(folder, "--out", folder / "results"), 0, "^2 cabins, 3 sessions: 3 passed")
        hold(night(folder, "--out", folder / "results"), 0, "^2 cabins, 3 sessions: 3 passed", "no session is left")
        assert all(one["name"].isprintable() for one in told(folder / "results")["sessions"])
        check_page(folder / "results")


# ---- going on

@case("what is finished is not run again: only new bytes, another program; a session that moves to another day leaves the old one")
def _():
    with room() as (folder, results):
        counter = Counter(folder.parent)
        made(folder, {f"a/{k}": session(1, k) for k in range(4)})
        hold(night(folder, "--out", results, refly=counter.words), 0)
        assert counter.starts() == 4
        before = texts(results)
        hold(night(folder, "--out", results, refly=counter.words), 0, "4 passed", "no session is left")
        assert counter.starts() == 0 and texts(results) == before
        made(folder, {"a/2": session(7, 0)})
        hold(night(folder, "--out", results, "--list", refly=counter.words), 0, "^a/2\n$")
        hold(night(folder, "--out", results, "--status", refly=counter.words), 0, "^3 done, 1 left, 0 failed, 0 broken, no run is going\n$")
        hold(night(folder, "--out", results, refly=counter.words), 0)
        assert counter.starts() == 1 and not (results / "a" / "day-1" / "2.txt").exists() and (results / "a" / "day-7" / "2.txt").exists()
        made(folder, {"a/2": session(1, 2)})
        hold(night(folder, "--out", results, refly=counter.words), 0)
        assert counter.starts() == 1 and texts(results) == before and not (results / "a" / "day-7").exists(), "an empty day stays"
        with open(counter.path, "a") as file:
            file.write("# another program\n")
        hold(night(folder, "--out", results, refly=counter.words), 0)
        assert counter.starts() == 4


@case("the reports and the status are of the sessions of the folder, by what is asked for; results of others stay and are in none of them")
def _():
    with room() as (folder, results):
        counter = Counter(folder.parent)
        made(folder, {"a/good": session(1, 0), "b/off": session(1, 0, None, (150.0,)), "c/off": session(2, 0, None, (150.0,))})
        (folder / "c").rename(folder.parent / "c")
        hold(night(folder, "--out", results, "--limit", "1000", refly=counter.words), 0, "^2 cabins, 2 sessions: 2 passed, 0 failed, 0 broken: ")
        (folder / "b" / "off.bin").unlink()
        (folder / "b").rmdir()
        (folder.parent / "c").rename(folder / "c")
        counter.starts()
        results_of_b = {name: data for name, data in texts(results).items() if name.startswith("b/")}
        for words, status, counted in (((), 1, "1 passed, 1 failed"), (("--limit", "1000"), 0, "2 passed, 0 failed"), (("--report", "--limit", "1000"), 0, "2 passed, 0 failed"), (("--report",), 1, "0 passed, 0 failed, 0 broken; 2 not run yet")):
            hold(night(folder, "--out", results, *words, refly=counter.words), status, f"^2 cabins, [02] sessions: {counted}")
            assert {one["cabin"] for one in told(results)["cabins"]} == {"a", "c"} and "b/off" not in verdicts(results)
            assert not re.search(r"^b\b", (results / "report.txt").read_text(), re.M) and "b/off" not in (results / "report.html").read_text()
        assert results_of_b and results_of_b.items() <= texts(results).items(), "the result of a session that has gone is altered"
        shutil.rmtree(folder / "c")
        hold(night(folder, "--out", results, refly=counter.words), 0, "^1 cabin, 1 session: 1 passed, 0 failed, 0 broken: ")
        made(folder, {"b/off": session(1, 0, None, (150.0,))})
        counter.starts()
        hold(night(folder, "--out", results, "--limit", "1000", refly=counter.words), 0, "^2 cabins, 2 sessions: 2 passed")
        assert counter.starts() == 1, "what comes back is not run again"


@case("left is what a run would do, to --status and to --list: a broken session too")
def _():
    with room() as (folder, results):
        made(folder, {"a/good": session(1, 0), "a/off": session(1, 0, None, (150.0,)), "a/new": session(1, 0, None, (1.0,))})
        (folder / "a" / "new.bin").rename(folder.parent / "new.bin")
        (folder / "a" / "broken.bin").mkdir()
        hold(night(folder, "--out", results), 1, "1 passed, 1 failed, 1 broken")
        (folder.parent / "new.bin").rename(folder / "a" / "new.bin")
        hold(night(folder, "--out", results, "--status"), 0, "^2 done, 2 left, 1 failed, 1 broken, no run is going\n$")
        hold(night(folder, "--out", results, "--list"), 0, "^a/broken\na/new\n$")


@case("half a result, half a note, a result without its note: run again")
def _():
    with room() as (folder, results):
        counter = Counter(folder.parent)
        made(folder, {f"a/{k}": session(1, k) for k in range(5)})
        hold(night(folder, "--out", results, refly=counter.words), 0)
        before, day, notes = texts(results), results / "a" / "day-1", results / ".night" / "a"
        counter.starts()
        (day / "0.txt").write_bytes((day / "0.txt").read_bytes()[:-20])
        (day / "1.txt").unlink()
        (notes / "2.key").write_bytes((notes / "2.key").read_bytes()[:-5])
        (notes / "3.key").unlink()
        (day / ".night-1-half").write_bytes(b"half")
        hold(night(folder, "--out", results, "--report", refly=counter.words), 1, "1 passed, 0 failed, 0 broken; 4 not run yet")
        hold(night(folder, "--out", results, refly=counter.words), 0)
        assert counter.starts() == 4 and texts(results) == before


def finished(results):
    """The results that have their note and are not broken."""
    for path in results.glob(".night/*/*.key"):
        note = json.loads(path.read_text())
        if note["verdict"] != "broken":
            yield results / note["cabin"] / f"day-{'none' if note['day'] is None else note['day']}" / f"{note['name']}.txt"


def killed_and_resumed(folder, results, refly, most, seconds):
    """Kills a run at random points within so many seconds, some of its kin with it, until one ends; what was finished at a
    kill must not be run again. The kills, the status, and the seconds of the run that ended."""
    kills = 0
    while True:
        stamps, began = {path: path.stat().st_mtime_ns for path in finished(results)}, time.monotonic()
        run = start(folder, "--out", results, refly=refly, start_new_session=True)
        try:
            run.wait(timeout=DICE.uniform(0, seconds) if kills < most else None)
        except subprocess.TimeoutExpired:
            if DICE.randrange(2):
                os.killpg(run.pid, DICE.choice((signal.SIGKILL, signal.SIGTERM, signal.SIGINT, signal.SIGHUP)))
            else:
                run.kill()
        run.communicate(timeout=60)
        assert all(path.stat().st_mtime_ns == stamp for path, stamp in stamps.items()), "a finished session was run again"
        if run.returncode in (0, 1):
            return kills, run.returncode, time.monotonic() - began
        assert run.returncode in (2, -signal.SIGKILL, -signal.SIGTERM, -signal.SIGINT, -signal.SIGHUP), run.returncode
        kills += 1


@case("killed at random points and started again, it ends as one that was not")
def _():
    with room() as (folder, results):
        nine(folder)
        made(folder, {f"cabin-{k % 9 + 1}/more {k}": session(6, k * HOUR % DAY, 60) for k in range(18)})
        other, kills, began = folder.parent / "other", 0, time.monotonic()
        hold(night(folder, "--out", other), 1)
        seconds = time.monotonic() - began
        while not kills:  # a run may end ahead of its kill: then once more, with half the time
            shutil.rmtree(results, ignore_errors=True)
            kills, status, _ = killed_and_resumed(folder, results, None, 8, seconds)
            assert status == 1, status
            seconds /= 2
        assert texts(results) == texts(other), "it ends as another"
        assert not list(results.rglob(".night-*")), "half a file is left"


@case("told to end: 2, no verdict of what was running, and no program is left behind")
def _():
    with room() as (folder, results):
        counter = Counter(folder.parent, {len(session(1, 0)): f"echo $$ >>{folder.parent}/pids; sleep 77"})
        made(folder, {"a/x": session(1, 0), "a/y": session(1, 1)})
        run = start(folder, "--out", results, refly=counter.words)
        pids = folder.parent / "pids"
        wait_for(lambda: pids.exists() and len(pids.read_text().split()) == 2)
        run.send_signal(signal.SIGTERM)
        _, said = run.communicate(timeout=20)
        assert run.returncode == 2 and "it was stopped" in said, (run.returncode, said)
        assert not list(results.glob("a/*/*")), "a verdict of what was ended"
        wait_for(lambda: not any(map(alive, pids.read_text().split())))


@case("interrupted at any point: 0 or 1 only where the report was made")
def _():
    with room() as (folder, results):
        made(folder, {f"a/{k}": session(1, k) for k in range(100)})
        ends = []
        for k in range(11):
            shutil.rmtree(results, ignore_errors=True)
            run = subprocess.Popen([ROOT / "cabin", "night", folder, "--out", results], stdout=subprocess.PIPE, stderr=subprocess.PIPE, text=True, start_new_session=True)
            if k < 10:
                time.sleep(0.06 * k)
            else:  # while its sessions run
                wait_for(lambda: any(results.rglob("*.txt")))
            with contextlib.suppress(ProcessLookupError):
                os.killpg(run.pid, signal.SIGINT)
            wrote, said = run.communicate(timeout=60)
            assert run.returncode not in (0, 1) or "100 passed" in wrote, (run.returncode, said)
            ends.append(run.returncode)
        assert ends[-1] == 2, ends


def alive(pid):
    """Whether a process is there and goes on."""
    try:
        return pathlib.Path(f"/proc/{pid}/stat").read_text().rsplit(")", 1)[1].split()[0] not in "ZX"
    except OSError:
        return False


def wait_for(ready):
    until = time.monotonic() + 20
    while not ready():
        assert time.monotonic() < until, "it did not come"
        time.sleep(0.02)


@case("twice at once: the second says so and ends with 2, so does a single session; --status tells how far the first is")
def _():
    with room() as (folder, results):
        counter = Counter(folder.parent, {len(session(1, 0)): f"while [ ! -e {folder.parent}/go ]; do sleep 0.05; done"})
        made(folder, {"a/x": session(1, 0), "a/y": session(1, 0, None, (1.0,)), "a/z": session(1, 0, None, (1000.0,))})
        first = start(folder, "--out", results, refly=counter.words)
        wait_for(lambda: len(list(results.glob(".night/a/*.key"))) == 2)
        hold(night(folder, "--out", results, refly=counter.words), 2, "^$", "another run has")
        hold(night(folder, "--out", results, "--one", "a/x", refly=counter.words), 2, "^$", "another run has")
        hold(night(folder, "--out", results, "--report", refly=counter.words), 2, "^$", "another run has")
        hold(night(folder, "--out", results, "--status", refly=counter.words), 0, r"^2 done, 1 left, 1 failed, 0 broken, .* left\n$|^2 done, 1 left, 1 failed, 0 broken\n$")
        (folder.parent / "go").touch()
        wrote, said = first.communicate(timeout=20)
        hold((first.returncode, wrote, said), 1, "2 passed, 1 failed")


@case("single sessions go side by side, and no whole run with them")
def _():
    with room() as (folder, results):
        slow, quick = session(1, 0), session(1, 0, None, (1.0,))
        counter = Counter(folder.parent, {len(slow): f"touch {folder.parent}/begun; while [ ! -e {folder.parent}/go ]; do sleep 0.05; done"})
        made(folder, {"a/slow": slow, "a/quick": quick})
        first = start(folder, "--out", results, "--one", "a/slow", refly=counter.words)
        wait_for((folder.parent / "begun").exists)
        hold(night(folder, "--out", results, "--one", "a/quick", refly=counter.words), 0, "^a/quick: passed\n$")
        hold(night(folder, "--out", results, refly=counter.words), 2, "^$", "another run has")
        (folder.parent / "go").touch()
        wrote, said = first.communicate(timeout=20)
        hold((first.returncode, wrote, said), 0, "^a/slow: passed\n$")
        assert counter.starts() == 2


# ---- what can break

BROKEN = {  # by how many marks: what the program does, and the words
    4: ("sleep 77 & echo $$ $! >>@/pids; sleep 78", r"no answer in 1 s"),
    5: ("kill -SEGV $$", r"the program died of signal 11"),
    6: ("echo 'no such thing' >&2; exit 3", r"the program ended with status 3: no such thing"),
    7: ("echo 'standard output: it is late' >&2; exit 0", r"the program says: standard output: it is late"),
    8: ("echo 'day cs vehicle kind result'; printf '1 0 0 sta'; exit 0", r"the program's answer was cut short"),
    9: ("printf 'day cs vehicle kind result\\n1 x 0 state set\\nvehicle 0 unset\\nvehicle 1 unset\\n'; exit 0", r"the program's answer cannot be read"),
    10: ("printf '\\377'; exit 0", r"the program's answer cannot be read"),
    11: ("exit 0", r"the program's answer was cut short"),
}


@case("a program that hangs, dies, complains, or is cut: broken, under the day of its listing, the others run; tried again next time")
def _():
    with room() as (folder, results):
        sizes = {count: session(3, 0, 60, (1.0,) * count) for count in BROKEN}
        counter = Counter(folder.parent, {len(sizes[count]): what.replace("@", str(folder.parent)) for count, (what, _) in BROKEN.items()})
        made(folder, {f"a/{count}": data for count, data in sizes.items()})
        made(folder, {"b/good": session(3, 0), "b/bad": b"bad"})
        hold(night(folder, "--out", results, "--patience", "1", refly=counter.words), 1, f"1 passed, 1 failed, {len(BROKEN)} broken")
        got = verdicts(results)
        for count, (_, words) in BROKEN.items():
            one = got[f"a/{count}"]
            assert one["verdict"] == "broken" and one["day"] == 3 and re.fullmatch(words, one["reason"]), one
            assert (results / "a" / "day-3" / f"{count}.txt").read_text() == f"verdict broken {one['reason']}\n"
        check_page(results)
        pids = (folder.parent / "pids").read_text().split()
        assert len(pids) == 2, pids
        wait_for(lambda: not any(map(alive, pids)))
        counter.starts()
        (folder / "a" / "4.bin").unlink()
        hold(night(folder, "--out", results, refly=counter.words), 1)
        assert counter.starts() == len(BROKEN) - 1, "what was broken is tried again, and nothing else"


@case("a disk that is full: 2, nothing by halves, and a rerun goes on")
def _():
    def small():
        resource.setrlimit(resource.RLIMIT_FSIZE, (1500, 1500))
    with room() as (folder, results):
        made(folder, {"a/small": session(1, 0, None, (1.0,)), "a/tall": session(1, 0, None, (1.0,) * 40), "b/small": session(2, 0, None, (1.0,))})
        hold(night(folder, "--out", results, "--jobs", "1", preexec_fn=small), 2, "^$", "File too large: nothing is lost")
        assert not list(results.rglob("tall.*")) and not list(results.rglob(".night-*")) and not (results / "report.json").exists()
        hold(night(folder, "--out", results), 0, "3 passed")
        before = {name: data for name, data in texts(results).items() if name.startswith("report.")}
        made(folder, {"b/more": session(2, 0, None, (2.0,))})
        hold(night(folder, "--out", results, preexec_fn=small), 2, "^$", "report.html: File too large")
        after = texts(results)
        assert "b/day-2/more.txt" in after and all(after[name] == data for name, data in before.items() if name != "report.txt"), "a report by halves"
        hold(night(folder, "--out", results), 0, "4 passed", "no session is left")


@case("a disk of its own with too little room, then enough: 2, and a rerun goes on", "mount")
def _():
    with room() as (folder, results):
        made(folder, {f"c/{k}": session(1, k, None, (1.0,) * 300) for k in range(12)})
        results.mkdir()
        script = ('mount -t tmpfs -o size=200k none "$1" || exit 77; "$2" "$3" "$4" --out "$1/results"; echo "first $?"; '
                  'ls "$1/results/c/day-1" | wc -l; find "$1" -name ".night-*"; mount -o remount,size=20m "$1"; "$2" "$3" "$4" --out "$1/results"; echo "then $?"')
        ran = subprocess.run(["unshare", "-m", "bash", "-c", script, "x", results, sys.executable, NIGHT, folder], capture_output=True, text=True, env=environment())
        if ran.returncode == 77:
            raise NotRun("no file system can be mounted here")
        lines = ran.stdout.split("\n")
        assert lines[0] == "first 2" and 0 < int(lines[1]) < 12 and "12 passed" in lines[2] and lines[3] == "then 0", ran
        assert "No space left" in ran.stderr, ran


@case("a session and a cabin that may not be read: broken, and 2 for the cabin, with the others run")
def _():
    python = "/usr/bin/python3"
    if os.getuid() == 0 and not os.path.exists(python):
        raise NotRun("there is no python3 that all may use")
    with room() as (folder, results):
        made(folder, {"a/secret": session(1, 0), "a/good": session(1, 0), "b/x": session(1, 0)})
        (folder / "a" / "secret.bin").chmod(0)
        tools = folder.parent / "tools"
        shutil.copytree(ROOT / "tools" / "night", tools / "night", ignore=shutil.ignore_patterns("__pycache__"))
        shutil.copy(NIGHT, tools)
        for name in ("refly", "listing"):
            shutil.copy(command(name)[-1], tools / name)
        results.mkdir()
        results.chmod(0o777)
        folder.parent.chmod(0o755)
        env = environment()
        for name in ("refly", "listing"):
            env[f"CABIN_{name.upper()}"] = "\n".join([*command(name)[:-1], str(tools / name)])
        mine = {"user": NOBODY, "group": NOBODY, "extra_groups": []} if os.getuid() == 0 else {}
        run = lambda: subprocess.run([python, tools / "night.py", folder, "--out", results], capture_output=True, text=True, env=env, cwd="/", **mine)
        ran = run()
        hold((ran.returncode, ran.stdout, ran.stderr), 1, "2 passed, 0 failed, 1 broken")
        assert verdicts(results)["a/secret"]["reason"] == "it cannot be read: Permission denied"
        (folder / "b").chmod(0)
        ran = run()
        hold((ran.returncode, ran.stdout, ran.stderr), 2, "2 sessions: 1 passed, 0 failed, 1 broken; 1 cabin could not be looked into: ", "b cannot be read: its sessions are not run\n(.*\n)*cabin: 1 cabin could not be looked into: make")
        text, page = ((results / name).read_text() for name in ("report.txt", "report.html"))
        for words in ("; 1 cabin could not be looked into", "could not be looked into: b"):
            assert words in text and words in re.sub("<.*?>", "", page), words
        assert [list(one) for one in told(results)["cabins"]] == [["cabin", "passed", "failed", "broken"]] * 2 and list(told(results)) == ["sessions", "cabins"]
        check_page(results)
        results.chmod(0o555)
        ran = run()
        hold((ran.returncode, ran.stdout, ran.stderr), 2, "^$", "Permission denied: make it writable for you, or give other results by --out")


# ---- one by one

def spread(folder, results, script):
    """The page's lines for more machines, on this one, make what a plain run makes."""
    nine(folder)
    hold(night(folder, "--out", results), 1)
    other = folder.parent / "other"
    ran = subprocess.run(["bash", "-c", here(script, folder, other)], capture_output=True, text=True)
    assert ran.returncode == 1 and "cabin-5/cut: failed refused 11 at 184" in ran.stdout, ran
    assert len(re.findall(r"^cabin-\d/.*: (?:passed|failed|broken)", ran.stdout, re.M)) == len(NINE) + len(UNREAD), ran
    assert texts(other) == texts(results)


def here(text, folder, results):
    """A page's text with the paths of this place."""
    return text.replace("/srv/cabin", str(ROOT)).replace("/srv/sessions", str(folder)).replace("/srv/results", str(results))


@case("the page's line with GNU parallel, two jobs on this machine, and --report: what a plain run makes", "parallel")
def _():
    with room() as (folder, results):
        lines = on_page("With GNU parallel")
        assert "parallel --jobs 2 --sshlogin :,bench-2,bench-3 " in lines, lines
        spread(folder, results, lines.replace(":,bench-2,bench-3", ":"))


@case("--list, --one and --report, two at once, make what a whole run makes")
def _():
    with room() as (folder, results):
        spread(folder, results, re.sub(r"parallel .* --workdir \S+", "xargs -d '\\\\n' -P 2 -I {}", on_page("With GNU parallel")))
        hold(night(folder, "--out", results, "--one", "cabin-1/good"), 0, "^cabin-1/good: passed\n$")
        hold(night(folder, "--out", results, "--one", "cabin-3/off"), 1, "^cabin-3/off: failed record 4 off")
        hold(night(folder, "--out", results, "--one", "cabin-9/a pipe"), 1, "broken it cannot be read")
        hold(night(folder, "--out", results, "--one", "cabin-3/none"), 2, "^$", "there is no session")


def on_page(ahead):
    """The indented block of the night's page behind some words."""
    text = (ROOT / "docs" / "pages" / "night.md").read_text().split(ahead, 1)[1]
    block = re.search(r"\n\n((?:    .*\n|\n(?=    ))+)", text)[1]
    return re.sub(r"^    ", "", block, flags=re.M)


@case("the page's cron line does its work")
def _():
    with room() as (folder, results):
        made(folder, {"a/x": session(1, 0)})
        path, line = here(on_page("With cron,"), folder, results).strip("\n").split("\n")
        fields = line.split(" ", 5)
        assert fields[:5] == ["0", "20-23,0-5", "*", "*", "*"]
        ran = subprocess.run(["env", "-i", path, f"HOME={folder.parent}", "/bin/sh", "-c", fields[5]], capture_output=True, text=True)
        assert ran.returncode == 0 and "1 passed" in pathlib.Path(f"{results}.log").read_text(), ran


@case("the page's units are well-formed", "systemd-analyze")
def _():
    with room() as (folder, results):
        units = [folder.parent / "cabin-night.service", folder.parent / "cabin-night.timer"]
        for unit in units:
            unit.write_text(here(on_page(f"{unit.name}`:"), folder, results).replace("User=cabin", "User=root"))
        ran = subprocess.run(["systemd-analyze", "verify", "--man=no", *units], capture_output=True, text=True)
        wrong = [line for line in ran.stderr.split("\n") if "cabin-night" in line]
        assert ran.returncode == 0 and not wrong, ran


# ---- the page in a browser

SEEN = """(() => {
    const box = one => { const r = one.getBoundingClientRect(); return {left: r.left, right: r.right, top: r.top + scrollY, shown: one.checkVisibility() && r.width > 0 && r.height > 0}; };
    const cells = row => [...row.cells].map(cell => ({text: cell.innerText.trim(), ...box(cell)}));
    const counts = cell => Object.fromEntries([...cell.querySelectorAll('span')].map(one => [one.className, parseInt(one.innerText.replace(/[^0-9]/g, ''))]));
    return {
        wide: document.documentElement.scrollWidth,
        headline: document.querySelector('.big').innerText,
        heads: [...document.querySelectorAll('#sessions thead th')].map(one => one.textContent).join(', '),
        sessions: [...document.querySelectorAll('#sessions tbody tr')].map(cells),
        cabins: [...document.querySelectorAll('#days table')].map(table => [...table.tHead.rows[0].cells].slice(1).map(cell => cell.textContent)),
        days: [...document.querySelectorAll('#days tbody tr')].map(row => ({day: row.cells[0].innerText, counts: [...row.cells].slice(1).map(counts)})),
        plots: [...document.querySelectorAll('#pictures figure:not(.o) svg')].map(plot => ({...box(plot), name: plot.closest('details').querySelector('h3').innerText,
            zero: plot.querySelector('.axis').getPointAtLength(0).y, dots: plot.querySelector('.marks')?.getAttribute('d') ?? '', blocks: plot.querySelector('.over')?.getAttribute('d') ?? '',
            inside: [...plot.querySelectorAll('path, circle')].every(one => { const b = one.getBBox(), v = plot.viewBox.baseVal; return b.x >= 0 && b.y >= 0 && b.x + b.width <= v.width && b.y + b.height <= v.height; })})),
        orbits: [...document.querySelectorAll('#pictures figure.o svg')].map(box),
    };
})()"""


def check_seen(results, seen, width):
    """What a browser shows is report.json's: every session's row, what failed first, the counts a cabin and a day, and the pictures of what failed."""
    wanted, rows = told(results), seen["sessions"]
    assert seen["wide"] <= width, f"the page is {seen['wide']} wide in a window of {width}"
    assert seen["heads"] == "cabin, day, session, verdict, reason, records, marks, worst m, local time", seen["heads"]
    assert [row[0]["top"] for row in rows] == sorted(row[0]["top"] for row in rows)
    order = {"failed": 0, "broken": 1, "passed": 2}
    expected = sorted(wanted["sessions"], key=lambda one: (order[one["verdict"]], one["day"] is None, -(one["day"] or 0), one["cabin"], one["name"]))
    for row, one in zip(rows, expected, strict=True):
        cabin, day, name, verdict, reason, records, marks, worst, _time = (cell["text"] for cell in row)
        assert [cabin, day, name, verdict, reason, records, marks] == [one["cabin"], "none" if one["day"] is None else str(one["day"]), one["name"], one["verdict"], one["reason"], str(one["records"]), str(one["marks"])], (row, one)
        assert worst == "" if one["worst"] is None else abs(float(worst) - one["worst"]) <= 1e-6, (row, one)
        assert all(not cell["text"] or cell["shown"] and 0 <= cell["left"] and cell["right"] <= width for cell in row), row
    sums = {verdict: sum(one["verdict"] == verdict for one in expected) for verdict in order}
    assert seen["headline"] == f"{len(wanted['cabins'])} cabins, {len(expected)} sessions: {sums['passed']} passed, {sums['failed']} failed, {sums['broken']} broken", seen["headline"]
    assert all(names == [one["cabin"] for one in wanted["cabins"]] for names in seen["cabins"]) and seen["cabins"]
    days = {"all": [{verdict: one[verdict] for verdict in order if one[verdict]} for one in wanted["cabins"]]}
    for one in expected:
        row = days.setdefault("none" if one["day"] is None else str(one["day"]), [{} for _ in wanted["cabins"]])
        own = row[seen["cabins"][0].index(one["cabin"])]
        own[one["verdict"]] = own.get(one["verdict"], 0) + 1
    assert {row["day"]: row["counts"] for row in seen["days"]} == days and len(seen["days"]) == len(days), seen["days"]
    drawn = {f"{one['cabin']}/{one['name']}": one for one in expected if one["marks"]}
    assert {plot["name"] for plot in seen["plots"]} == set(drawn)
    for plot in seen["plots"]:
        one = drawn[plot["name"]]
        failed = one["verdict"] == "failed"
        assert plot["shown"] == failed and plot["inside"] and (not failed or 0 <= plot["left"] and plot["right"] <= width), plot
        check_points(plot, (results / one["cabin"] / f"day-{one['day']}" / f"{one['name']}.txt").read_text())


def check_points(plot, text):
    """Every mark of a result is a point, its place by its time and its off, a square where it is over the limit."""
    wanted = sorted((int(day) * DAY + int(cs), float(off)) for day, cs, off in re.findall(r"^(\S+) (\S+) \S mark off (\S+) bits", text, re.M))
    dots = [(float(x), float(y)) for x, y in re.findall(r"M([\d.]+) ([\d.]+)v", plot["dots"])]
    blocks = [(float(x) + 3, float(y) + 3) for x, y in re.findall(r"M([\d.]+) ([\d.]+)h", plot["blocks"])]
    points = sorted(dots + blocks)
    assert len(blocks) == sum(abs(off) > 100 for _, off in wanted), plot
    worst = max(range(len(wanted)), key=lambda k: abs(wanted[k][1]))
    slope, span = (points[worst][1] - plot["zero"]) / wanted[worst][1], wanted[-1][0] - wanted[0][0]
    assert slope < 0, "what is too far is below"
    for (x, y), (time, off) in zip(points, wanted, strict=True):
        assert abs(y - plot["zero"] - slope * off) < 0.2, (plot, off)
        assert not span or abs(x - points[0][0] - (points[-1][0] - points[0][0]) * (time - wanted[0][0]) / span) < 0.2, (plot, time)


def refused(check, *words):
    try:
        check(*words)
    except AssertionError:
        return True
    return False


@case("report.html in a real browser, on a phone, a desk and paper: what it shows is report.json's, and nothing is fetched", "chromium")
def _():
    with room() as (folder, results), tempfile.TemporaryDirectory() as profile, Browser(profile) as browser:
        nine(folder)
        made(folder, {"cabin-1/rendezvous": (ROOT / "samples" / "rendezvous.bin").read_bytes(), "cabin-2/slips": (ROOT / "samples" / "slips.bin").read_bytes()})
        hold(night(folder, "--out", results), 1)
        page = results / "report.html"
        for width, media in ((390, "screen"), (1280, "screen"), (718, "print")):
            browser.ask("Emulation.setEmulatedMedia", media=media)
            browser.open(page.as_uri(), width, phone=width == 390)
            seen = browser.value(SEEN)
            check_seen(results, seen, width)
            assert sum(orbit["shown"] for orbit in seen["orbits"]) >= 3, seen["orbits"]
            assert browser.asked_for() == [page.as_uri()] and not browser.faults(), (browser.asked_for(), browser.faults())
        assert browser.printed().startswith(b"%PDF-")
        browser.ask("Emulation.setEmulatedMedia", media="screen")
        check_way(browser, page)
        check_checks(browser, results, page)


def check_way(browser, page):
    """A session's name leads to its pictures, though they are folded."""
    browser.open(page.as_uri(), 390, phone=True)
    last = "document.querySelector('#sessions tbody tr:last-child a')"
    there = f"document.querySelector({last}.getAttribute('href')).checkVisibility()"
    assert not browser.value(there), "it is not folded"
    browser.value(f"{last}.click()")
    wait_for(lambda: browser.value(there))


def check_checks(browser, results, page):
    """A page that says something else is noticed, and so is one that fetches something."""
    whole, other = page.read_text(), page.with_name("other.html")
    for one, instead in ((r'("worst m">\d*)\.\d', r"\g<1>."), (">failed</td>", ">passed</td>"), ('"reason">refused 11', '"reason">refused 12'), (r">\?3<", ">?2<"), (r"<td[^>]*>cabin-1</td>", '<td hidden>cabin-1</td>')):
        changed, count = re.subn(one, instead, whole, count=1)
        other.write_text(changed)
        browser.open(other.as_uri(), 1280)
        assert count and refused(check_seen, results, browser.value(SEEN), 1280), f"{instead} was not noticed"
    outside = "http://outside.invalid/picture.png"
    other.write_text(whole.replace("<h1>", f'<img src="{outside}"><h1>', 1))
    browser.open(other.as_uri(), 1280)
    assert browser.asked_for() == [other.as_uri(), outside], "what is fetched was not noticed"


# ---- a year

def year(nights=365):
    """Nine cabins; every night each has up to two sessions more, one in ten damaged; the run is killed at random points."""
    with room() as (folder, results):
        wanted, kills, began, took = {}, 0, time.monotonic(), 1.0
        for day in range(nights):
            fresh = {}
            for cabin in range(1, 10):
                for k in range(DICE.randrange(3)):
                    name, tail = f"cabin-{cabin}/night-{day}-{k}", DICE.choice([b""] * 9 + [b"\0\0\0\0"])
                    fresh[name] = session(day, DICE.randrange(DAY), DICE.choice((None, 120, -840, 840)), (1.0,) * DICE.randrange(1, 6), tail)
                    wanted[name] = day, "failed" if tail else "passed"
            made(folder, fresh)
            more, _, took = killed_and_resumed(folder, results, None, DICE.randrange(3), took)
            kills += more
            if day % 30 == 29 or day == nights - 1:
                got = {name: (one["day"], one["verdict"]) for name, one in verdicts(results).items()}
                assert got == wanted, set(got.items()) ^ set(wanted.items())
                assert len(list(results.glob("*/day-*/*"))) == len(wanted)
                check_page(results)
                print(f"night {day + 1}: {len(wanted)} sessions, {kills} kills, {time.monotonic() - began:.0f} s, report.html {(results / 'report.html').stat().st_size:,} bytes", flush=True)
    print(f"{nights} nights, {len(wanted)} sessions, {kills} kills, seed {SEED}: nothing lost, nothing run twice")
    return 0


# ---- a load

def load(count=100):
    """Nine cabins with so many sessions of 2,000 records each, two at once."""
    with room() as (folder, results):
        noises = [DICE.gauss(0.0, 5.0) for _ in range(1998)]
        for k in range(count):
            made(folder, {f"cabin-{cabin}/{k}": session(k, cabin * HOUR, 120, DICE.sample(noises, 1998)) for cabin in range(1, 10)})
        for words in ("all of them", "nothing left"):
            began = time.monotonic()
            hold(night(folder, "--out", results, "--jobs", 2), 0, f"{9 * count} passed, 0 failed")
            print(f"{9 * count} sessions of 2,000 records, {words}: {time.monotonic() - began:.1f} s, load {os.getloadavg()[0]:.1f}", flush=True)
        size = sum(path.stat().st_size for path in results.rglob("*") if path.is_file())
        print(f"results {size:,} bytes, report.html {(results / 'report.html').stat().st_size:,}")
    return 0


@case("a few nights, the run killed at random points: nothing is lost, nothing run twice")
def _():
    year(5)


def outcome(need, function):
    """What comes of a case: `passed`, `failed` or `not run`, and why."""
    try:
        if not NEEDS[need]():
            raise NotRun(f"there is no {need} here")
        function()
    except NotRun as why:
        return "not run", str(why)
    except Exception as error:  # a case that fails in any way
        return "failed", f"{type(error).__name__}: {error}"
    return "passed", ""


def main(chosen):
    ends = dict.fromkeys(("passed", "failed", "not run"), 0)
    for name, need, function in chosen:
        began = time.monotonic()
        end, why = outcome(need, function)
        ends[end] += 1
        if why:
            print(f"{end.upper()}: {name}: {why}")
        if os.environ.get("CABIN_TIMES"):
            print(f"{time.monotonic() - began:5.1f} s {name}", flush=True)
    print(f"{len(chosen)} cases of the night run, seed {SEED}: " + ", ".join(f"{count} {end}" for end, count in ends.items()))
    return 1 if ends["failed"] else 77 if ends["not run"] else 0


if __name__ == "__main__":
    if sys.argv[1:2] in (["--year"], ["--load"]):
        sys.exit({"--year": year, "--load": load}[sys.argv[1]](*map(int, sys.argv[2:])))
    if sys.argv[1:2] == ["--with"]:
        sys.exit(main([one for one in CASES if one[1] == sys.argv[2]]))
    sys.exit(main([one for one in CASES if "".join(sys.argv[1:]) in one[0]]))
