#!/usr/bin/env python3
"""Refuses each allocation in calls that can answer want of memory, each call by itself.

    tests/memory_sweep.py PATH      (`tests/units memory_sweep` builds the program `memory_sweep` and gives its path)

`memory_sweep sweep` makes one call a run, once it has made what the call is given. With each allocation of such a run refused in turn, and
each start of a thread, it has to print one of these:

- `memory`: the call answered want of memory, and the state is as it has to be;
- `allowed`: the call gave another answer that may come of it (docs/PROVED.md), and the state is as it has to be;
- `ample`: the call's answer with all memory, as what was refused wasn't needed;
- `outside`: what was refused was asked for before the call, or behind it.

The jobs `recon`, `plan` and `check` aren't among these calls: `tests/sweep.py` refuses each allocation of theirs in the built program.

The program is one that `rt try --fail-alloc` built: it counts its allocations, and refuses the one whose number stands twice in its
code. Each run gets a program with another number in that place. It needs a C compiler, for the library that refuses starts
(`starts.c`).
"""
import concurrent.futures
import os
import queue
import shutil
import struct
import subprocess
import sys
import tempfile
import threading

from sweep import built, in_turn, need
from told import ROOT

# The number that `tests/units` builds the program with.
BUILT = struct.pack("<Q", 1_234_567_890_123_456_789)


class Copies:
    """Copies of the program, one for each run at a time, whose numbers are set."""

    def __init__(self, path, folder, count):
        with open(path, "rb") as file:
            code = file.read()
        self.places = [at for at in range(len(code)) if code.startswith(BUILT, at)] if code.count(BUILT) == 2 else []
        if not self.places:
            raise SystemExit("%s: no build by `rt try --fail-alloc` with the number of tests/units" % path)
        self.free, self.writing = queue.Queue(), threading.Lock()
        for number in range(count):
            copy = os.path.join(folder, "calls-%d" % number)
            shutil.copy(path, copy)
            self.free.put(copy)
        symbols = subprocess.run(["nm", path], capture_output=True, text=True, check=True).stdout.splitlines()
        self.counter = next(line.split()[0] for line in symbols if line.endswith(" calls"))
        self.library = built("starts.c", folder)

    def run(self, words, allocation=0, start=0):
        """Status, output and errors of a run with that allocation or that start refused; and how many there were of each, where
        none is."""
        copy = self.free.get()
        env = dict(os.environ, LD_PRELOAD=self.library, START_AT=str(start))
        if not allocation and not start:
            env["COUNT"] = self.counter
        # A process that begins while a file is open for writing has it open too, and no such file can be run.
        with self.writing:
            with open(copy, "r+b") as file:
                for place in self.places:
                    file.seek(place)
                    file.write(struct.pack("<Q", allocation))
            child = subprocess.Popen([copy, *words], stdout=subprocess.PIPE, stderr=subprocess.PIPE, text=True, env=env)
        out, errors = child.communicate(timeout=120)
        self.free.put(copy)
        return child.returncode, out, errors


def told(name, status, out, errors):
    """What a run of that call came to."""
    if status == 1 and not out and errors == "Error: Kind(OutOfMemory)\n":
        return "outside"  # Its words weren't read.
    need(status == 0 and not errors, status, out, errors)
    word = out.removeprefix(name + ": ")
    need(word in ("ample\n", "memory\n", "allowed\n", "outside\n"), status, out, errors)
    return word.strip()


def sweep(copies, pool, name):
    words = ["sweep", name]
    status, out, errors = copies.run(words)
    errors, counts = errors.rsplit("counted ", 1)
    allocations, starts = map(int, counts.split())
    if told(name, status, out, errors) != "ample":
        raise SystemExit("%s: %s" % (name, out))
    ends = in_turn(pool, name, range(1, allocations + 2), lambda at: told(name, *copies.run(words, allocation=at)))
    # What tokens of a text are read as is read another way where there was no memory for it.
    if bool(ends["memory"]) == name.endswith(", tokens"):
        raise SystemExit("%s answered want of memory %d times" % (name, ends["memory"]))
    if starts:
        in_turn(pool, name + ", starts", range(1, starts + 1), lambda at: told(name, *copies.run(words, start=at)))


def main():
    if len(sys.argv) != 2:
        raise SystemExit(__doc__)
    workers = os.cpu_count()
    with tempfile.TemporaryDirectory() as folder, concurrent.futures.ThreadPoolExecutor(workers) as pool:
        copies = Copies(os.path.abspath(sys.argv[1]), folder, workers)
        status, out, errors = copies.run(["sweep"])
        if status:
            raise SystemExit(out + errors)
        for line in out.splitlines():
            sweep(copies, pool, line.rsplit(":", 1)[0])


if __name__ == "__main__":
    main()
