"""The code of a crate, and a must-fail edit as its file has it: what it alters, and in which functions. `rt must-fail` and
`rt ci` try them."""
import re

# a function or a method: its indent, its name and its body
FUNCTION = re.compile(r'^( *)(?:pub )?(?:extern "C" )?fn (\w+)(?:[^\n]*\{|(?:(?!^\1\}).)*?^\1\{)\n(.*?)^\1\}\n', re.M | re.S)


def code_of(path):
    """What a file of src/ has before its tests, which stand last."""
    return path.read_text().partition("\n#[cfg(test)]\n")[0] + "\n"


class Edit:
    """A wrong build: what it alters, and the functions in whose bodies all of that stands; none if some of it does not."""

    def __init__(self, path):
        self.folder = path.parent.parent
        self.pairs = list(self.read(path))
        self.functions = self.altered_functions()

    @staticmethod
    def read(path):
        """(file, old, new) of each replacement: a `file:` line holds for the pairs behind it."""
        file = old = None
        for line in path.read_text().splitlines():
            if line.startswith("file: "):
                file = line[6:]
            elif line.startswith("old: "):
                old = line[5:]
            elif line.startswith("new:"):
                yield file, old, line[4:].removeprefix(" ")
                old = None

    def altered_functions(self):
        found = []
        for file, old, _ in self.pairs:
            text = (self.folder / file).read_text() if file and (self.folder / file).is_file() else ""
            at = text.find(old or "\0")
            found.append({(file, f[2]) for f in FUNCTION.finditer(text) if f.start(3) <= at < f.end(3)})
        return set().union(*found) if all(found) else set()
