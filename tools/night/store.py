"""The results on the disk. A result is RESULTS/CABIN/day-DAY/NAME.txt; beside all of them, in RESULTS/.night, each has a
note of what it was made of and what it must be, written last: a result without its note, or not as its note says, counts
as none. Every file appears whole or not at all."""
import contextlib
import fcntl
import hashlib
import json
import os
import pathlib
import time

TEMPORARY = ".night-"
FIELDS = ("cabin", "name", "day", "verdict", "reason", "records", "marks", "worst", "first", "last", "key", "text")


class Taken(Exception):
    """Another run has the results."""


def digest(data):
    return hashlib.sha256(data).hexdigest()


def put(path, data):
    """The file appears whole, with its bytes on the disk, or not at all."""
    made = path.with_name(f"{TEMPORARY}{os.getpid()}-{os.urandom(6).hex()}")
    try:
        with open(made, "xb") as file:
            file.write(data)
            file.flush()
            os.fsync(file.fileno())
        os.replace(made, path)
    except BaseException as error:
        made.unlink(missing_ok=True)
        if isinstance(error, OSError):
            error.filename = str(path)
        raise
    settle(path.parent)


def settle(folder):
    """A folder's names on the disk."""
    opened = os.open(folder, os.O_RDONLY | os.O_DIRECTORY)
    try:
        os.fsync(opened)
    finally:
        os.close(opened)


class Store:
    def __init__(self, results):
        self.top = pathlib.Path(results)
        self.notes = self.top / ".night"

    def place(self, result):
        day = "none" if result["day"] is None else result["day"]
        return self.top / result["cabin"] / f"day-{day}" / f"{result['name']}.txt"

    def note(self, cabin, name):
        return self.notes / cabin / f"{name}.key"

    @contextlib.contextmanager
    def lock(self, shared=False):
        """Held while results are written: by one run alone, or by any number of single sessions. Who looks may hold it
        for a moment, so it is tried for half a second."""
        self.notes.mkdir(parents=True, exist_ok=True)
        opened = os.open(self.top, os.O_RDONLY | os.O_DIRECTORY)
        try:
            take(opened, fcntl.LOCK_SH if shared else fcntl.LOCK_EX, 5)
            yield
        finally:
            os.close(opened)

    def is_taken(self):
        """Whether a run is going."""
        try:
            opened = os.open(self.top, os.O_RDONLY | os.O_DIRECTORY)
        except FileNotFoundError:
            return False
        try:
            take(opened, fcntl.LOCK_SH, 1)
        except Taken:
            return True
        finally:
            os.close(opened)
        return False

    def sweep(self):
        """Removes what a run that was killed had not finished writing, and days without a result."""
        for path in self.top.rglob(TEMPORARY + "*"):
            path.unlink(missing_ok=True)
        for folder in self.top.glob("*/day-*"):
            with contextlib.suppress(OSError):
                folder.rmdir()

    def keep(self, result, text):
        """Puts a result in the place of the one that the session had, which may lie under another day."""
        note, data = self.note(result["cabin"], result["name"]), text.encode()
        self.drop(result["cabin"], result["name"])
        place = self.place(result)
        for path in (place, note):
            path.parent.mkdir(parents=True, exist_ok=True)
        put(place, data)
        put(note, json.dumps({**result, "text": digest(data)}).encode())

    def drop(self, cabin, name):
        """Takes a session's result away, its note first."""
        self.note(cabin, name).unlink(missing_ok=True)
        for old in (self.top / cabin).glob("day-*"):
            (old / f"{name}.txt").unlink(missing_ok=True)

    def load(self, cabin, name):
        """The result of a session, if it is there whole."""
        try:
            result = json.loads(self.note(cabin, name).read_bytes())
            whole = set(result) == set(FIELDS) and (result["cabin"], result["name"]) == (cabin, name)
            return result if whole and digest(self.place(result).read_bytes()) == result["text"] else None
        except (OSError, ValueError, TypeError):
            return None

    def progress(self, told=None):
        """How far the run that is going has come: kept for who asks from another terminal."""
        path = self.notes / "run"
        if told is None:
            try:
                return json.loads(path.read_bytes())
            except (OSError, ValueError):
                return None
        made = path.with_name(f"{TEMPORARY}run")
        made.write_bytes(json.dumps(told).encode())
        os.replace(made, path)
        return told


def take(opened, way, tries):
    for left in reversed(range(tries)):
        try:
            return fcntl.flock(opened, way | fcntl.LOCK_NB)
        except BlockingIOError:
            if left:
                time.sleep(0.1)
    raise Taken
