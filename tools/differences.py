"""What two programs make of the same, held against each other: counted, and the first ten differences shown. The tools that
compare our programs with the second one stand on it."""
import itertools

SHOWN = 10
LONGEST = 400  # characters that are shown of either


def where(one, other):
    """The part of two that is shown: of two lists the first items that differ."""
    if not (isinstance(one, list) and isinstance(other, list)):
        return one, other
    return next(pair for pair in itertools.zip_longest(one, other, fillvalue="(no more)") if pair[0] != pair[1])


class Differences:
    def __init__(self):
        self.looked = self.count = 0

    def look(self, what, one, other, names=("ours", "the second program's")):
        self.looked += 1
        if one == other:
            return
        self.count += 1
        if self.count <= SHOWN:
            print(what, *(f"  {name}: {str(part)[:LONGEST]}" for name, part in zip(names, where(one, other))), sep="\n")

    def told(self, words):
        """Prints the count behind some words, and gives the exit status."""
        print(f"{words}: {self.count} differences")
        return 1 if self.count else 0
