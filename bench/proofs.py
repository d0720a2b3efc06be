#!/usr/bin/env python3
"""Shows which parts of a crate's proof took longest.

    bench/proofs.py CRATE .. [--most N]

`rt check CRATE` keeps each module that it has checked in a file of its own (`out/incremental`). How long after the one before a
file was written is how long that module took; a pause between two checks counts for the first module behind it. `NAME.Lts` is
what the body of a function means, which grows with how many values wait to be dropped at how many faults, and `NAME.Proof` the
goals that no proof file answers.
"""
import argparse
import os

from measure import ROOT


def written(crate):
    """Each module that is kept, with the time at which it was written."""
    top = os.path.join(ROOT, "crates", crate, "out", "incremental")
    for folder in os.scandir(top):
        if folder.is_dir() and folder.name.startswith("antt-checked"):
            for file in os.scandir(folder.path):
                if file.name.endswith(".oantt"):
                    yield file.stat().st_mtime, file.name[:-len(".oantt")].replace("Rattle-%s-" % crate, "")


def main():
    parser = argparse.ArgumentParser(description=__doc__.split("\n")[0])
    parser.add_argument("crates", nargs="+", metavar="CRATE")
    parser.add_argument("--most", type=int, default=15)
    options = parser.parse_args()
    for crate in options.crates:
        modules = sorted(written(crate))
        took = sorted(((after[0] - before[0], after[1]) for before, after in zip(modules, modules[1:])), reverse=True)
        print("%s: %d modules" % (crate, len(modules)))
        for seconds, name in took[:options.most]:
            print("%8.1f s  %s" % (seconds, name))


if __name__ == "__main__":
    main()
