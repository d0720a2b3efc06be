#!/usr/bin/env python3
"""Measures reading, checking and writing events.

    bench/events.py [--baseline PATH] [--measures PATH] [--events N,N,..] [--runs R]

The inputs are events as JSON, one a line, with right ids (`inputs.py`). `measures events read` reads each line as JSON, makes
the event and checks its id; `measures events copy` also writes each as compact JSON, which has to be the line again. Each runs R
times; the least times and the greatest peak of resident memory are shown.

With `--baseline`, a plain program whose command `serve` reads a file of events at its start and writes it at its end,
both run in turn. Here it serves one connection that is closed at once. It also keeps the events in its store, and reads
the file in several threads, so compare processor times. The texts that are written are compared.
"""
import argparse
import os
import re
import socket
import subprocess
import sys
import tempfile
import time

from inputs import events as write_events
from inputs import made
from measure import ended, numbers, once, program_of, same


def served(baseline, folder, source, target):
    """One run of the baseline's server over a copy of the file, which it writes again at its end."""
    with open(source, "rb") as given, open(target, "wb") as copy:
        copy.write(given.read())
    settings = os.path.join(folder, "settings.toml")
    with open(settings, "w") as text:
        text.write('events = "%s"\nlisten = "127.0.0.1:0"\nconns = 1\n' % target)
    start = time.perf_counter()
    words = [baseline, "serve", settings]
    child = subprocess.Popen(words, stdout=subprocess.PIPE)
    port = int(re.match(rb"listening .*:(\d+)\s*$", child.stdout.readline()).group(1))
    socket.create_connection(("127.0.0.1", port)).close()
    child.stdout.read()
    child.stdout.close()
    return ended(child, words, start)


def lines(path):
    with open(path, "rb") as text:
        return sorted(text)


def main():
    parser = argparse.ArgumentParser(description=__doc__.split("\n")[0])
    parser.add_argument("--baseline", help="a plain program to compare with")
    parser.add_argument("--measures", default=program_of("measures"))
    parser.add_argument("--events", type=numbers, default=[10000, 100000])
    parser.add_argument("--runs", type=int, default=3)
    options = parser.parse_args()
    print("%8s %8s | %-14s | %9s %12s %9s | %s" % (
        "events", "bytes", "", "wall ms", "processor us", "MiB", "outputs"))
    print("%8s %8s | %-14s | %9s %12s %9s |" % ("", "an event", "", "", "an event", ""))
    wrong = False
    with tempfile.TemporaryDirectory() as folder:
        source, ours, theirs = (os.path.join(folder, name) for name in ("events", "ours", "theirs"))
        for events in options.events:
            made(write_events, source, events)
            size = os.path.getsize(source) / events
            runs = {"read": [], "read and write": []}
            if options.baseline:
                runs["plain"] = []
            for _ in range(options.runs):
                runs["read"].append(once([options.measures, "events", "read"], source, ours))
                runs["read and write"].append(once([options.measures, "events", "copy"], source, ours))
                if options.baseline:
                    runs["plain"].append(served(options.baseline, folder, source, theirs))
            equal = same(source, ours) and (not options.baseline or lines(ours) == lines(theirs))
            wrong = wrong or not equal
            for name, taken in runs.items():
                print("%8d %8.0f | %-14s | %9.0f %12.2f %9.1f | %s" % (
                    events, size, name, 1000 * min(r[0] for r in taken),
                    1e6 * min(r[1] for r in taken) / events, max(r[2] for r in taken) / 1024,
                    "" if name == "read" else "equal" if equal else "DIFFERENT"), flush=True)
    return 1 if wrong else 0


if __name__ == "__main__":
    sys.exit(main())
