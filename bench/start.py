#!/usr/bin/env python3
"""Measures how long `serve` takes until it listens.

    bench/start.py [--baseline PATH] [--mirror PATH] [--events N,N,..] [--runs R]

The inputs are files of so many events with right ids (`inputs.py`). Shown are the time by the clock and the processor time until then,
and the greatest peak of resident memory. With `--baseline`, a plain program with the same commands, both run in turn, R times each;
the least times are shown, and the ratios of ours to its.
"""
import argparse
import os
import subprocess
import tempfile
import time

from inputs import events as write_events
from inputs import made
from measure import numbers, program_of
from relay import peak, settings, spent


def begun(program, folder, file):
    """Wall time, processor time and peak memory in MiB of a relay that has just begun."""
    conf = settings(os.path.join(folder, "start.toml"), events=file, listen="127.0.0.1:0", conns=2)
    start = time.perf_counter()
    with subprocess.Popen([program, "serve", conf], stdout=subprocess.PIPE) as child:
        try:
            line = child.stdout.readline()
            wall = time.perf_counter() - start
            if not line.startswith(b"listening "):
                raise SystemExit("%s said %r" % (program, line))
            return wall, spent(child.pid), peak(child.pid)
        finally:
            child.kill()


def main():
    parser = argparse.ArgumentParser(description=__doc__.split("\n")[0])
    parser.add_argument("--baseline", help="a plain program to compare with")
    parser.add_argument("--mirror", default=program_of("mirror_app"))
    parser.add_argument("--events", default="200000,300000")
    parser.add_argument("--runs", type=int, default=3)
    options = parser.parse_args()
    programs = [program for program in (options.mirror, options.baseline) if program]
    with tempfile.TemporaryDirectory() as folder:
        for count in numbers(options.events):
            source = os.path.join(folder, "events.jsonl")
            made(write_events, source, count)
            runs = [[] for _ in programs]
            for _ in range(options.runs):
                for its, program in zip(runs, programs):
                    its.append(begun(program, folder, source))
            best = [(min(run[0] for run in its), min(run[1] for run in its), max(run[2] for run in its)) for its in runs]
            shown = "%9d %6.2f s by the clock  %6.2f s of a processor  %5.0f MiB" % (count, *best[0])
            if len(best) > 1:
                shown += "   plain %6.2f s (%4.2f) %6.2f s (%4.2f) %5.0f MiB" % (
                    best[1][0], best[0][0] / best[1][0], best[1][1], best[0][1] / best[1][1], best[1][2])
            print(shown, flush=True)


if __name__ == "__main__":
    main()
