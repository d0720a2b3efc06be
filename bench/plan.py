#!/usr/bin/env python3
"""Measures `plan`, and `check` of the plan that it makes.

    bench/plan.py [--baseline PATH] [--mirror PATH] [--ids IDS] [--relays RELAYS] [--shapes SHAPE,SHAPE,..]
                  [--runs RUNS] [--seconds SECONDS]

The inputs are offers of ids by relays in several shapes (`inputs.py`). Each job runs RUNS times; the least wall time,
the least processor time and the greatest peak of resident memory are shown. A run that takes longer than SECONDS is
ended, and its job is not run again in that shape.

With `--baseline`, a plain program that takes the same inputs, both run in turn and are compared. Several sharings may
be least, so a plan is compared by what each program's `check` answers on the other's.
"""
import argparse
import os
import subprocess
import sys
import tempfile

from inputs import SHAPES, made, offers
from measure import Refused, compared, once, program_of


def answer(program, plan):
    """What a program's `check` prints of a plan."""
    with open(plan, "rb") as stdin:
        done = subprocess.run([program, "check"], stdin=stdin, capture_output=True, check=False)
    return (done.stdout or done.stderr).decode(errors="replace").strip()


def main():
    parser = argparse.ArgumentParser(description=__doc__.split("\n")[0])
    parser.add_argument("--baseline", help="a plain program to compare with")
    parser.add_argument("--mirror", default=program_of("mirror_app"))
    parser.add_argument("--ids", type=int, default=200000)
    parser.add_argument("--relays", type=int, default=64)
    parser.add_argument("--shapes", type=lambda text: text.split(","), default=SHAPES)
    parser.add_argument("--runs", type=int, default=5)
    parser.add_argument("--seconds", type=float, default=300)
    options = parser.parse_args()
    programs = [options.mirror] + [options.baseline] * bool(options.baseline)
    row = "%-6s %-7s | %21s | %21s | %21s | %s"
    print(row % ("job", "shape", "wall ms (ratio)", "processor ms (ratio)", "memory MiB (ratio)", "answers"))
    limited = ["timeout", str(options.seconds)]
    wrong = False
    with tempfile.TemporaryDirectory() as folder:
        source = os.path.join(folder, "offers")
        plans = [os.path.join(folder, "plan%d" % k) for k in range(len(programs))]
        told = os.path.join(folder, "told")
        for shape in options.shapes:
            made(offers, source, options.ids, options.relays, shape)
            for job in ("plan", "check"):
                runs = [[] for _ in programs]
                try:
                    for _ in range(options.runs):
                        for program, plan, taken in zip(programs, plans, runs):
                            files = (source, plan) if job == "plan" else (plans[0], told)
                            taken.append(once(limited + [program, job], *files))
                except Refused as refused:
                    print("%-6s %-7s | %s" % (job, shape, refused), flush=True)
                    break
                answers = {answer(program, plan) for program in programs for plan in plans}
                right = len(answers) == 1 and min(answers).startswith("least ")
                wrong = wrong or not right
                told_of = min(answers) if right else "DIFFER: " + ", ".join(sorted(answers))
                print(row % (job, shape, *compared(*runs), told_of), flush=True)
    sys.exit(1 if wrong else 0)


if __name__ == "__main__":
    main()
