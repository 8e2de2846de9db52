"""The sessions of a folder, and one of them run by the proved programs: its bytes are read once, and what they are is
what is flown and what the result is kept for."""
import os
import pathlib
import signal
import stat
import subprocess
import threading
from typing import NamedTuple

from .store import digest
from .verdict import Broken, judged, not_run, parsed, verdict_line

LONGEST = 65_537  # the reader refuses any session of over 65,536 bytes for its length alone
RULES = "1"  # goes up when verdicts are given by other rules, so that all is run again


class Stopped(Exception):
    """The run was told to end."""


class Session(NamedTuple):
    cabin: str
    name: str
    path: pathlib.Path


class Folder(NamedTuple):
    cabins: list
    sessions: list
    strays: list  # what is no session
    closed: list  # of the cabins, those that cannot be looked into


def shown(name):
    """A name as it stands in lines and on the page: one with bytes that cannot be shown is told by its digest."""
    if name.isprintable():
        return name
    return "".join(c for c in name if c.isascii() and c.isprintable())[:60] + "~" + digest(os.fsencode(name))[:12]


def looked_through(folder, results):
    """The cabins and sessions of a folder; what begins with a point is hidden."""
    found = Folder([], [], [], [])
    for cabin in entries(folder):
        if os.path.realpath(cabin.path) == os.path.realpath(results):
            continue
        if not cabin.is_dir():
            found.strays.append(cabin.path)
            continue
        found.cabins.append(shown(cabin.name))
        try:
            inside = entries(cabin.path)
        except OSError:
            found.closed.append(shown(cabin.name))
            continue
        for one in inside:
            if one.name.endswith(".bin"):
                found.sessions.append(Session(shown(cabin.name), shown(one.name[:-4]), pathlib.Path(one.path)))
            else:
                found.strays.append(one.path)
    return found


def entries(folder):
    return sorted((one for one in os.scandir(folder) if not one.name.startswith(".")), key=lambda one: os.fsencode(one.name))


def bytes_of(path):
    """As much of a session as the reader looks at."""
    try:
        opened = os.open(path, os.O_RDONLY | os.O_NONBLOCK)
        with open(opened, "rb") as file:
            if not stat.S_ISREG(os.fstat(opened).st_mode):
                raise Broken("it cannot be read: no plain file")
            return file.read(LONGEST)
    except OSError as error:
        raise Broken(f"it cannot be read: {error.strerror}") from error


class Runner:
    """Runs sessions with the programs' commands, mu of the bodies (or none) and a limit."""

    def __init__(self, refly, listing, mu, limit, patience):
        self.refly, self.listing, self.mu, self.limit, self.patience = refly, listing, mu, limit, patience
        program = pathlib.Path(refly[-1]).read_bytes()
        self.made_of = [RULES, digest(program), " ".join(mu), repr(limit)]
        self.guard = threading.Lock()
        self.living, self.stopped = set(), False

    def key(self, data):
        """What a result is made of: the session's bytes, the program, the settings and the limit."""
        return digest("\n".join([*self.made_of, digest(data)]).encode())

    def key_of(self, session):
        """The same for a session as it is now; one that cannot be read has the words for it."""
        try:
            return self.key(bytes_of(session.path))
        except Broken as broken:
            return self.key(str(broken).encode())

    def done(self, session):
        """A session's result, and its text."""
        try:
            data = bytes_of(session.path)
        except Broken as broken:
            data, text, result = str(broken).encode(), "", not_run(str(broken))
        else:
            text, result = self.flown(data)
        result = {"cabin": session.cabin, "name": session.name, **result, "key": self.key(data)}
        return result, text + verdict_line(result)

    def flown(self, data):
        """The replay of a session's bytes, and what it says. A replay that is not whole is left out."""
        try:
            text = self.answer([*self.refly, "/dev/stdin", *self.mu], data)
            return text, judged(parsed(text, self.limit))
        except Broken as broken:
            return "", not_run(str(broken), self.day_of(data))

    def day_of(self, data):
        """The day of a session that could not be flown, off its listing, if that can be had."""
        try:
            return int(self.answer([*self.listing, "/dev/stdin"], data).split("\n")[1].split(" ")[0])
        except (Broken, ValueError, IndexError):
            return None

    def answer(self, command, given):
        """What a program writes. One that outlives this run is ended by `timeout`, a little later than it would be here."""
        command = ["timeout", "-s", "KILL", str(self.patience + 5), *command]
        try:
            with self.guard:
                if self.stopped:
                    raise Stopped
                program = subprocess.Popen(command, stdin=subprocess.PIPE, stdout=subprocess.PIPE, stderr=subprocess.PIPE, start_new_session=True)
                self.living.add(program)
        except OSError as error:
            raise Broken(f"it could not be started: {error.strerror}") from error
        try:
            wrote, said = program.communicate(given, timeout=self.patience)
        except subprocess.TimeoutExpired as late:
            raise Broken(f"no answer in {self.patience:g} s") from late
        finally:
            self.end(program)
        if self.stopped:
            raise Stopped
        return told(program.returncode, wrote, said)

    def end(self, program):
        """Ends a program that goes on, with all that it started."""
        if program.returncode is None:
            os.killpg(program.pid, signal.SIGKILL)
            program.communicate()
        with self.guard:
            self.living.discard(program)

    def stop(self):
        """Ends every program; none is started from now on, and no verdict is given of one that was ended here."""
        with self.guard:
            self.stopped = True
            for program in self.living:
                if program.poll() is None:
                    os.killpg(program.pid, signal.SIGKILL)


def told(status, wrote, said):
    """A program's text, unless it died or said that something is wrong: it has no status of its own for that."""
    said = " ".join(said.decode(errors="replace").split())
    if status > 128 or status < 0:
        raise Broken(f"the program died of signal {status - 128 if status > 0 else -status}")
    if status:
        raise Broken(f"the program ended with status {status}" + (f": {said[:200]}" if said else ""))
    if said:
        raise Broken(f"the program says: {said[:200]}")
    try:
        return wrote.decode("ascii")
    except UnicodeDecodeError as error:
        raise Broken("the program's answer cannot be read") from error
