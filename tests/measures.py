#!/usr/bin/env python3
"""Runs what `measures` does for measuring, on a few events and items.

    tests/measures.py [PATH]      (PATH of `measures`; else the proved build)
"""
import json
import subprocess

from told import event, program, same


def gave(path, words, lines=()):
    """What a run prints that has these lines as its input."""
    done = subprocess.run([path, *words], input="".join(line + "\n" for line in lines), capture_output=True, text=True,
                          check=True)
    return done.stdout


def main():
    path = program(name="measures")
    events = [event(1650000000 + n, "event \u00e9\n") for n in range(3)]
    lines = [json.dumps(it) for it in events]
    same(gave(path, ["events", "read"], lines), "3\n")
    same([json.loads(line) for line in gave(path, ["events", "copy"], lines).splitlines()], events)
    for what, items in (("scattered", 3), ("ascending", 3), ("shares", 440_003)):
        same(gave(path, ["rolls", what, "3"]), "%d\n" % items)
    same(gave(path, ["store"], lines), "insert 3\n")
    same(gave(path, ["store", "reads"], lines), "insert 3\npin all 3\npin a day 3\npin a kind 0\npin 100 ids 3\n"
                                                "choose newest 3\nchoose of a kind 0\n")
    print("measures does what it tells")


if __name__ == "__main__":
    main()
