"""The prover's own words, for what `rt` has no command for."""
import os
import pathlib
import subprocess

ROOT = pathlib.Path(__file__).resolve().parent.parent
JOBS = int(os.environ.get("RT_JOBS") or min(4, os.cpu_count() or 1))


class Prover:
    """Where the kit and the crates' libraries are, and what stands on what."""

    def __init__(self):
        ran = subprocess.run(["rt", "doc"], capture_output=True, text=True, check=True)
        self.kit = pathlib.Path(ran.stdout.strip()).parent
        lines = (line.split("#")[0] for line in (ROOT / "crates.txt").read_text().splitlines())
        self.over = {name.split()[0]: rest.split() for name, colon, rest in (line.partition(":") for line in lines) if colon}

    def library(self, name):
        """What a crate, or a library of the kit, was built as."""
        return (ROOT / "crates" / name / "out" / "rlib" if name in self.over else self.kit / "rlibs") / f"{name}.rlib"

    def beneath(self, name):
        """The crates that a crate stands on, and those that they stand on."""
        return set().union(*({one} | self.beneath(one) for one in self.over.get(name, []) if one in self.over))

    def ask(self, verb, crate, folder, *more):
        """The prover's status, and what it said of the crate that lies in a folder, over what the crate of this name stands on."""
        root = next(path for path in ("src/lib.rt", "src/main.rt") if (folder / path).exists())
        words = [self.kit / "bin" / "rattle", verb, "--crate-name", crate, root]
        for name in ["std", *self.over[crate]]:
            words += ["--extern", f"{name}={self.library(name)}"]
        for path in [self.kit / "rlibs", *sorted(self.library(name).parent for name in self.beneath(crate))]:
            words += ["-L", f"dependency={path}"]
        words += ["--antt-project", self.kit / "rattle" / "logic" / "antt-project.json", "--logic-built", self.kit / "logic_built", *more]
        ran = subprocess.run(words, capture_output=True, text=True, cwd=folder)
        return ran.returncode, ran.stdout + ran.stderr
