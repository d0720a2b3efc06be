#!/usr/bin/env python3
"""Refuses each allocation of `measures store` in turn, over the events of a file.

    bench/refuse.py EVENTS [EVENTS..]

An insert that is refused is made once more by the program, which prints fewer events where that fails or where the refused
one had left a trace. Shown is how often it ended with which status and output.
"""
import collections
import os
import subprocess
import sys
import tempfile

from measure import ROOT, program_of


def run(library, at, events):
    """Status, output and errors with that allocation refused."""
    env = dict(os.environ, LD_PRELOAD=library, FAIL_AT=str(at), COUNT="1")
    with open(events, "rb") as stdin:
        done = subprocess.run([program_of("measures"), "store"], stdin=stdin, capture_output=True, env=env, check=False)
    return done.returncode, done.stdout.decode().strip(), done.stderr.decode()


def main():
    with tempfile.TemporaryDirectory() as folder:
        library = os.path.join(folder, "refuse.so")
        subprocess.run(["gcc", "-O1", "-shared", "-fPIC", "-o", library, os.path.join(ROOT, "bench", "refuse.c")], check=True)
        for events in sys.argv[1:]:
            total = int(run(library, 0, events)[2].split("allocations ")[1])
            ends = collections.Counter(run(library, at, events)[:2] for at in range(1, total + 1))
            print("%s: %d allocations" % (events, total))
            for (status, output), times in ends.items():
                print("  %6d times status %d, %s" % (times, status, output or "nothing"))


if __name__ == "__main__":
    sys.exit(main())
