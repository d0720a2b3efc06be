#!/usr/bin/env python3
"""Measures `recon`, and rolls alone; `recon` beside a plain program that does the same, where one is named.

    bench/recon.py [--baseline PATH] [--mirror PATH] [--items N,N,..] [--ppm P,P,..] [--limit L,L,..] [--runs R]
    bench/recon.py --shapes [--baseline PATH] ..      lists of which much differs, with the first L alone
    bench/recon.py --rolls [--measures PATH]             inserts and shares, by `measures rolls`

Both sides have N items, of which P in a million differ, and messages have at most L bytes: with no lists given, nine rows
for 60,000 bytes and nine for 1,048,576. Programs run in turn, R times each; the least wall time, the least processor time
and the greatest peak of resident memory are shown, and whether the outputs are equal. The plain program takes the same
words and input, and prints the same. The status is 1 where a program fails or the outputs of a row differ.
"""
import argparse
import hashlib
import os
import sys
import tempfile

from inputs import items as write_items
from inputs import made
from measure import Refused, compared, numbers, once, program_of, same


def item(number, time=None):
    """The line of an item: its id is a hash of its number, at a time that grows with the number."""
    text = hashlib.sha256(b"%d" % number).hexdigest()
    return "%d %s" % (1_600_000_000 + number if time is None else time, text)


def near(number):
    """One of 65,536 items at one time, whose ids differ in their last two bytes."""
    return "1700000000 %s%04x" % ("5a" * 30, number)


def write(path, mine, theirs):
    """An input of `recon`."""
    with open(path, "w", encoding="ascii") as text:
        for name, lines in (("mine", mine), ("theirs", theirs)):
            text.write(name + "\n")
            text.writelines(line + "\n" for line in lines)


def table(options):
    """The rows of the table: a name, what writes the input with its arguments, and the limit."""
    for limit in options.limit:
        for items in options.items:
            for ppm in options.ppm:
                yield "%d items, %d ppm, %d bytes" % (items, ppm, limit), write_items, (items, ppm), limit


def write_shape(path, name):
    """One of the inputs of which much differs."""
    few, many = range(190_000), range(400_000)
    write(path, *{
        "nothing in common": lambda: ((item(2 * n) for n in few), (item(2 * n + 1) for n in few)),
        "each 32nd is lacking": lambda: ((item(n) for n in many), (item(n) for n in many if n % 32)),
        "nothing beside 190,000": lambda: ((), (item(n) for n in few)),
        "ids differ at their ends": lambda: ((near(n) for n in range(65_536)), (near(n) for n in range(65_536) if n % 32)),
    }[name]())


def shapes(options):
    """Lists of which much differs; messages of the first are short, those of the others have the first limit."""
    for name in ("nothing in common", "each 32nd is lacking", "nothing beside 190,000", "ids differ at their ends"):
        yield name, write_shape, (name,), 4096 if name == "nothing in common" else options.limit[0]


def measure(options, name, source, limit, folder):
    """One row. Whether the programs ended well and the outputs are equal."""
    ours, theirs = (os.path.join(folder, name) for name in ("ours", "theirs"))
    words = ["recon", "--limit", str(limit)]
    a, b = [], []
    try:
        for _ in range(options.runs):
            a.append(once([options.mirror] + words, source, ours))
            if options.baseline:
                b.append(once([options.baseline] + words, source, theirs))
    except Refused as refused:
        print("%39s | %s" % (name, refused), flush=True)
        return False
    equal = not b or same(ours, theirs)
    print("%39s | %21s | %21s | %21s | %s" % (
        name, *compared(a, b), "" if not b else "equal" if equal else "DIFFER"), flush=True)
    return equal


def rolls(options):
    """Inserts and shares: processor time in all, and for one."""
    shared = None
    for what, times in (("scattered", 440_000), ("ascending", 440_000), ("shares", 0), ("shares", 10_000)):
        cost = min(once([options.measures, "rolls", what, str(times)], os.devnull, os.devnull)[1] for _ in range(options.runs))
        if times == 0:
            shared = cost
            continue
        each = (cost - shared if what == "shares" else cost) / times
        print("%9s %7d: %7.1f ms in all, %6.2f us each" % (what, times, cost * 1e3, each * 1e6), flush=True)


def main():
    parser = argparse.ArgumentParser(description=__doc__.split("\n")[0])
    parser.add_argument("--baseline", help="the plain program")
    parser.add_argument("--mirror", default=program_of("mirror_app"))
    parser.add_argument("--measures", default=program_of("measures"))
    parser.add_argument("--shapes", action="store_true")
    parser.add_argument("--rolls", action="store_true")
    parser.add_argument("--items", type=numbers, default=[10_000, 100_000, 440_000])
    parser.add_argument("--ppm", type=numbers, default=[1000, 10_000, 100_000])
    parser.add_argument("--limit", type=numbers, default=[60_000, 1_048_576])
    parser.add_argument("--runs", type=int, default=5)
    options = parser.parse_args()
    if options.rolls:
        rolls(options)
        return
    print("%39s | %21s | %21s | %21s | outputs" % ("lists", "wall ms", "processor ms", "memory MiB"))
    wrong = False
    with tempfile.TemporaryDirectory() as folder:
        source = os.path.join(folder, "items")
        for name, maker, words, limit in (shapes if options.shapes else table)(options):
            made(maker, source, *words)
            wrong = not measure(options, name, source, limit, folder) or wrong
    sys.exit(1 if wrong else 0)


if __name__ == "__main__":
    main()
