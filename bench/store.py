#!/usr/bin/env python3
"""Measures the store: inserts, pins and choices.

    bench/store.py [--baseline PATH] [--measures PATH] [--events N,N,..] [--runs R]

The inputs are events as JSON, one a line, with right ids (`inputs.py`). `measures store reads` makes the events, inserts them
into a store, pins all of them, those of 100 ids, of a day and of a kind, and chooses the newest 100; it tells its
processor time for each. Each size runs R times; the least times and the greatest peak of resident memory are shown.

With `--baseline`, a plain program whose command `serve` reads a file of events at its start into its store, its memory is
shown beside, after one connection that is closed at once, and its processor time for reading, keeping and writing them.
"""
import argparse
import os
import subprocess
import sys
import tempfile
import time

from events import served
from inputs import events as write_events
from inputs import made
from measure import ended, numbers, program_of


def repeated(calls, source):
    """One run: what it cost, and for each thing measured how many events it gave, how often, and its time."""
    with open(source, "rb") as stdin:
        start = time.perf_counter()
        child = subprocess.Popen([calls, "store", "reads"], stdin=stdin, stdout=subprocess.PIPE, stderr=subprocess.PIPE)
        found = child.stdout.read().decode().splitlines()
        taken = child.stderr.read()
        child.stdout.close()
        child.stderr.close()
        cost = ended(child, [calls], start, taken)
    rows = {}
    for gave, told in zip(found, taken.decode().splitlines()):
        name, events = gave.rsplit(" ", 1)
        _, times, micros = told.rsplit(" ", 2)
        rows[name] = (int(events), int(times), int(micros))
    return cost, rows


def main():
    parser = argparse.ArgumentParser(description=__doc__.split("\n")[0])
    parser.add_argument("--baseline", help="a plain program to compare with")
    parser.add_argument("--measures", default=program_of("measures"))
    parser.add_argument("--events", type=numbers, default=[200000, 1000000])
    parser.add_argument("--runs", type=int, default=2)
    options = parser.parse_args()
    with tempfile.TemporaryDirectory() as folder:
        source, written = (os.path.join(folder, name) for name in ("events", "written"))
        for events in options.events:
            made(write_events, source, events)
            runs = [repeated(options.measures, source) for _ in range(options.runs)]
            memory = max(cost[2] for cost, _ in runs) / 1024
            print("%d events of %.0f bytes" % (events, os.path.getsize(source) / events))
            print("  %-18s %10.2f us an event, %.0f MiB, %.0f bytes an event" % (
                "whole program", 1e6 * min(cost[1] for cost, _ in runs) / events, memory, memory * 2 ** 20 / events))
            for name, (found, times, _) in runs[0][1].items():
                print("  %-18s %10.2f us each, %d events" % (
                    name, min(rows[name][2] for _, rows in runs) / max(times, 1), found), flush=True)
            if options.baseline:
                _, taken, peak = served(options.baseline, folder, source, written)
                print("  %-18s %10.2f us an event, %.0f MiB: ours %.2f times that" % (
                    "plain program", 1e6 * taken / events, peak / 1024, memory / (peak / 1024)), flush=True)


if __name__ == "__main__":
    sys.exit(main())
