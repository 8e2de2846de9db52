#!/usr/bin/env python3
"""night: runs every recorded session of a folder through the proved programs, files each result under the session's own
local day, and reports. `./cabin night` starts it; docs/pages/night.md is its page.

`./cabin help night` has its options. From the front come the programs' commands in CABIN_REFLY and CABIN_LISTING, a word
a line, and where the settings are used mu in CABIN_MU, the file and the two versions, a line each, in CABIN_SETTINGS."""
import concurrent.futures
import contextlib
import errno
import math
import os
import pathlib
import re
import signal
import sys
import time
import traceback

sys.path.insert(0, str(pathlib.Path(__file__).resolve().parent))
from night import page, report
from night.runner import Runner, Stopped, looked_through, shown
from night.store import Store, Taken, put

REMEDIES = {  # what to do about results that cannot be written
    **dict.fromkeys((errno.EACCES, errno.EPERM, errno.EROFS), "make it writable for you, or give other results by --out"),
    **dict.fromkeys((errno.ENOTDIR, errno.EEXIST), "a file is where a folder must be: give other results by --out"),
    errno.EISDIR: "a folder is where a file must be: move it away, or give other results by --out",
}


class Fault(Exception):
    """Why the run cannot do its work, and what to do."""


def say(words):
    with contextlib.suppress(OSError):
        print(f"cabin: {words}", file=sys.stderr, flush=True)


def show(line):
    """A line on standard output, at once."""
    data = f"{line}\n".encode()
    try:
        while data:
            data = data[os.write(1, data):]
    except OSError as error:
        raise Fault(f"standard output could not be written: {error.strerror}") from error


# ---- words of the command

class Amount(float):
    """A number of at least 0 that is shown as it was typed."""

    def __new__(cls, word):
        made = super().__new__(cls, word)
        if not re.fullmatch(r"[0-9]+(\.[0-9]+)?([eE][-+]?[0-9]+)?", word) or not math.isfinite(made):
            raise ValueError
        made.word = word
        return made

    def __str__(self):
        return self.word


def duration(word):
    if not 0 < Amount(word) <= 1_000_000:
        raise ValueError
    return Amount(word)


def whole(word):
    if not re.fullmatch("[0-9]+", word) or not 1 <= int(word) <= 1000:
        raise ValueError
    return int(word)


def name(word):
    if not word:
        raise ValueError
    return word


VALUED = {  # how what stands behind an option is read, and what may stand there
    "--out": (name, "the path of a folder"),
    "--limit": (Amount, "metres, at least 0, as 100 or 2.5"),
    "--jobs": (whole, "a whole number from 1 to 1000"),
    "--patience": (duration, "seconds, over 0 and at most 1000000"),
    "--one": (name, "CABIN/NAME of a session"),
}
WAYS = ("--status", "--list", "--one", "--report")


def value(option, words):
    """What stands behind an option, taken off the words."""
    read, may = VALUED[option]
    if not words:
        raise Fault(f"nothing stands behind {option}: give {may}")
    word = words.pop(0)
    try:
        return read(word)
    except ValueError:
        raise Fault(f"'{word}' cannot stand behind {option}: give {may}") from None


def understood(words):
    """FOLDER and the options."""
    given = {"--out": "results", "--limit": Amount("100"), "--jobs": 2, "--patience": Amount("60")}
    folders, seen = [], []
    words = list(words)
    while words:
        word = words.pop(0)
        if word in seen:
            raise Fault(f"{word} stands there twice: give it once")
        if not word.startswith("--"):
            folders.append(word)
            continue
        if word not in VALUED and word not in WAYS:
            raise Fault(f"there is no option '{word}': './cabin help night' shows them all")
        seen.append(word)
        if word in VALUED:
            given[word] = value(word, words)
    ways = [word for word in seen if word in WAYS]
    if len(folders) != 1:
        raise Fault(f"{len(folders)} folders are given: give the one that has a folder for each cabin")
    if len(ways) > 1:
        raise Fault(f"{' and '.join(ways)} do not go together: give one of them")
    return folders[0], given, ways[0] if ways else "--run"


def programs():
    """The commands of the two programs, mu, and the settings that it is by."""
    try:
        refly, listing = (os.environ[name].split("\n") for name in ("CABIN_REFLY", "CABIN_LISTING"))
    except KeyError:
        raise Fault("start it as './cabin night FOLDER'") from None
    return refly, listing, os.environ.get("CABIN_MU", "").split(), os.environ.get("CABIN_SETTINGS", "").rsplit("\n", 2)


# ---- how far it is

def in_words(seconds):
    seconds = math.ceil(seconds)
    if seconds < 60:
        return f"{seconds} s"
    if seconds < 3600:
        return f"{seconds // 60} min {seconds % 60:02} s"
    return f"{seconds // 3600} h {seconds // 60 % 60:02} min"


class Progress:
    """Told on standard error: on a terminal in one line that is written over, else a line every ten seconds."""

    def __init__(self, store, total):
        self.store, self.total, self.began = store, total, time.monotonic()
        self.done = self.failed = self.broken = 0
        self.live = sys.stderr.isatty()
        self.told_at = self.kept_at = -math.inf
        self.tell()

    def add(self, verdict):
        self.done += 1
        self.failed += verdict == "failed"
        self.broken += verdict == "broken"
        self.tell()

    def left(self):
        return (time.monotonic() - self.began) / self.done * (self.total - self.done) if self.done else None

    def tell(self):
        now, last = time.monotonic(), self.done == self.total
        if now - self.kept_at >= 1 or last:
            self.kept_at = now
            self.store.progress({"total": self.total, "done": self.done, "left": self.left()})
        if now - self.told_at >= (0.2 if self.live else 10) or last:
            self.told_at = now
            words = f"{self.done} of {self.total} done, {self.failed} failed, {self.broken} broken" if self.total else "no session is left to be run"
            words += f", {in_words(self.left())} left" if self.done and not last else ""
            if not self.live:
                return say(words)
            with contextlib.suppress(OSError):
                print(f"\rcabin: {words}\x1b[K", end="\n" if last else "", file=sys.stderr, flush=True)


# ---- the ways

class Night:
    def __init__(self, folder, given):
        refly, listing, mu, self.settings = programs()
        if not os.path.isdir(folder):
            raise Fault((f"{folder} is no folder" if os.path.exists(folder) else f"there is no folder {folder}") + ": give the folder that has a folder for each cabin")
        self.folder, self.jobs, self.store, self.mu = folder, given["--jobs"], Store(given["--out"]), mu
        try:
            self.runner = Runner(refly, listing, mu, given["--limit"], given["--patience"])
            self.found = looked_through(folder, given["--out"])
        except OSError as error:
            raise Fault(f"{error.filename} cannot be read: {error.strerror}: make it readable for you, and start it again") from error

    def terms(self):
        mu = "the usual mu"
        if self.mu:
            file, earth, moon = map(shown, self.settings)
            mu = f"mu {self.mu[0]} and {self.mu[1]} by versions {earth} and {moon} of the settings {file}"
        return f"limit {self.runner.limit} m, {mu}; days and times are the cabins' own"

    def now(self, session):
        """A session's result, if it has one that is made of what is there now."""
        result = self.store.load(session.cabin, session.name)
        return result if result and result["key"] == self.runner.key_of(session) else None

    def sorted_out(self):
        """The results that hold, and the sessions that are left. One that was broken is tried again."""
        pairs = [(session, self.now(session)) for session in self.found.sessions]
        return {session: result for session, result in pairs if result}, [session for session, result in pairs if not result or result["verdict"] == "broken"]

    def kept(self, session):
        """Runs a session and puts its result in place."""
        result, text = self.runner.done(session)
        self.store.keep(result, text)
        return result

    def run(self):
        with self.store.lock():
            self.store.sweep()
            results, left = self.sorted_out()
            self.warn()
            results.update(self.run_all(left))
            return self.report(results)

    def warn_of_none(self):
        if not self.found.sessions:
            inside = any(path.endswith(".bin") for path in self.found.strays)
            say(f"no session {self.folder}/CABIN/NAME.bin was found" + (f": {self.folder} itself has .bin files, so perhaps the folder above it is meant" if inside else ""))

    def warn(self):
        if self.found.strays:
            say(f"{len(self.found.strays)} of what is in the folder are no sessions CABIN/NAME.bin and are left alone; the first is {ascii(self.found.strays[0])[1:-1]}")
        for cabin in self.found.closed:
            say(f"the folder of {cabin} cannot be read: its sessions are not run")

    def run_all(self, left):
        progress, results = Progress(self.store, len(left)), {}
        workers = concurrent.futures.ThreadPoolExecutor(self.jobs)
        waiting = {workers.submit(self.kept, session): session for session in left}
        try:
            for future in concurrent.futures.as_completed(waiting):
                results[waiting[future]] = future.result()
                progress.add(results[waiting[future]]["verdict"])
        finally:
            workers.shutdown(wait=False, cancel_futures=True)
            if len(results) < len(left):
                self.runner.stop()
                concurrent.futures.wait([one for one in waiting if not one.cancelled()], timeout=5)
        return results

    def report(self, results):
        """Writes the reports of the sessions of the folder, and says how it stands with them."""
        self.store.sweep()
        told = report.Told([*results.values()], self.found.cabins, self.found.closed, len(self.found.sessions) - len(results), self.terms())
        put(self.store.top / "report.txt", report.as_text(told).encode())
        put(self.store.top / "report.html", page.as_html(told, self.store, self.runner.limit, self.mu).encode())
        put(self.store.top / "report.json", report.as_json(told).encode())
        show(f"{report.headline(told)}: {self.store.top / 'report.html'}")
        if told.closed:
            raise Fault(f"{report.many(len(told.closed), 'cabin')} could not be looked into: make every cabin's folder readable, and start it again")
        passed = not told.left and all(one["verdict"] == "passed" for one in told.results)
        return 0 if passed else 1

    def remake(self):
        with self.store.lock():
            return self.report(self.sorted_out()[0])

    def list_left(self):
        for session in self.sorted_out()[1]:
            show(f"{session.cabin}/{session.name}")
        return 0

    def one(self, name):
        named = [session for session in self.found.sessions if f"{session.cabin}/{session.name}" == name]
        if not named:
            raise Fault(f"there is no session {name} in the folder: --list prints those that are left")
        with self.store.lock(shared=True):
            result = self.now(named[0])
            if not result or result["verdict"] == "broken":
                result = self.kept(named[0])
        show(f"{name}: {' '.join(filter(None, [result['verdict'], result['reason']]))}")
        return 0 if result["verdict"] == "passed" else 1

    def status(self):
        results, left = self.sorted_out()
        got, told = report.counts(results.values()), self.store.progress()
        words = f"{len(self.found.sessions) - len(left)} done, {len(left)} left, {got['failed']} failed, {got['broken']} broken"
        if not self.store.is_taken():
            words += ", no run is going"
        elif told and told["left"] is not None:
            words += f", {in_words(told['left'])} left"
        show(words)
        return 0


def stopped(*_):
    raise Stopped


def main(words):
    for number in (signal.SIGINT, signal.SIGTERM, signal.SIGHUP):
        signal.signal(number, stopped)
    try:
        folder, given, way = understood(words)
        night = Night(folder, given)
        night.warn_of_none()
        ways = {"--run": night.run, "--list": night.list_left, "--report": night.remake, "--status": night.status, "--one": lambda: night.one(given["--one"])}
        return ways[way]()
    except Fault as fault:
        say(fault)
    except Taken:
        say(f"another run has {given['--out']}: wait for its end ('--status' says how far it is), or give other results by --out")
    except Stopped:
        say("it was stopped; start it again and it goes on where it was")
    except OSError as error:
        remedy = REMEDIES.get(error.errno, "nothing is lost; make room or give other results by --out, and start it again")
        say(f"{error.filename or 'the results'}: {error.strerror}: {remedy}")
    except Exception:  # whatever was not foreseen: 1 would say that a session did not pass
        traceback.print_exc()
    return 2


if __name__ == "__main__":
    end = main(sys.argv[1:])
    with contextlib.suppress(OSError):
        sys.stderr.flush()
    os._exit(end)  # though a session's disk does not answer: whatever is to be kept is on the disk by now
