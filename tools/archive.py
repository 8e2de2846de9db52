#!/usr/bin/env python3
"""archive.py CRATE: the static library out/libCRATE.a of a crate, over the libraries that `rt ci` has left in out/, which `rt lib`
does not take: it would prove them again. They must be those of the files as they are now. Ends with 1 where it is not proved."""
import sys

from prover import ROOT, Prover


def main():
    prover, crate = Prover(), sys.argv[1]
    folder = ROOT / "crates" / crate
    (folder / "out").mkdir(exist_ok=True)
    status, said = prover.ask("build", crate, folder, "--crate-type", "staticlib", "--toolchain", prover.kit / "toolchain",
                              "--backend", "llvm", "-o", f"out/lib{crate}.a")
    print(said, end="")
    return status


sys.exit(main())
