#!/usr/bin/env python3
"""Measures `mirror`: a pass from nothing, and passes that need nothing.

    bench/mirror.py [--baseline PATH] [--mirror PATH] [--relays K] [--held N] [--events M] [--workers W] [--passes P] [--fsync WORD]

The inputs are M events as JSON with right ids (`inputs.py`). Each of K relays of the same program holds N of them, one behind
another from its own place on, so that each event is held by one relay or by several. The mirror fetches all in one pass, with W
connections to each relay. Then it is started again, and goes over these relays, each of which has a part of its events by then, in P
passes more than one; the same over as many that have just its events; and over as many that this script plays, which have these too
and compare any number of them at once. Shown are the wall time, the processor time of the mirror and of all relays that aren't
played, and the mirror's greatest peak of resident memory; of the later passes what one of them took.

With `--baseline`, a plain program, `sync` of both is measured before, from nothing, of as many relays with a fifth of the events.

As large as a store can be, it is `bench/mirror.py --held 300000 --events 1000000`: that takes some 12 GB of memory, and 3 GB on the
disk.
"""
import argparse
import itertools
import os
import re
import sys
import tempfile

from inputs import events as write_events
from inputs import made
from measure import ROOT, apart, program_of
from relay import Serving, settings

sys.path.insert(0, os.path.join(ROOT, "tests"))
from played import Played

PASS = re.compile(r"\S+ pass \d+ relays (\d+)/(\d+) need (\d+) given (\d+) missed (\d+) left (\d+) ms (\d+)")


def held_by(source, events, first, count):
    """So many of the events, from the first one on, and behind the last from the beginning."""
    with open(source, encoding="utf-8") as text:
        for place, line in enumerate(itertools.islice(text, events)):
            if (place - first) % events < count:
                yield line


def mirrored(program, folder, ports, options, passes):
    """One run: the passes that it tells, its wall time, its processor time and its peak of memory in MiB."""
    besides = {"fsync": options.fsync} if options.fsync else {}
    conf = settings(os.path.join(folder, "mirror.toml"), events=os.path.join(folder, "mirror.jsonl"), passes=passes, every_ms=1,
                    workers=options.workers, relays=["127.0.0.1:%d" % port for port in ports], live=False, **besides)
    said, wall, seconds, peak = apart([program, "mirror", conf])
    told = [tuple(map(int, found.groups())) for found in map(PASS.match, said.splitlines()) if found]
    return told, wall, seconds, peak / 1024


def same(found, wanted):
    if found != wanted:
        raise SystemExit("wanted %r, found %r" % (wanted, found))


def told_row(name, wall, seconds, theirs, peak):
    print("%-35s %9.3f s wall %9.3f s processor %9.3f s of all relays %6.0f MiB" % (name, wall, seconds, theirs, peak), flush=True)


def served(options, folder, source, events, held):
    """The relays, each of which has so many of the events from its own place on."""
    firsts = [relay * events // options.relays for relay in range(options.relays)]
    return [Serving(options.mirror, folder, "relay%d" % relay, 1000000, held_by(source, events, first, held))
            for relay, first in enumerate(firsts)]


def synced(options, folder):
    """One `sync` of each program, from nothing."""
    events, held = options.events // 5, min(options.held, options.events) // 5
    source = os.path.join(folder, "few")
    made(write_events, source, events)
    serving = served(options, folder, source, events, held)
    for name, program in (("sync", options.mirror), ("the plain program's", options.baseline)):
        file = os.path.join(folder, "sync.jsonl")
        open(file, "w", encoding="utf-8").close()
        conf = settings(os.path.join(folder, "sync.toml"), events=file, relays=["127.0.0.1:%d" % relay.port for relay in serving])
        before = cost(serving)
        said, wall, seconds, peak = apart([program, "sync", conf])
        told_row("%s, %s events" % (name, re.search(r"given (\d+)", said).group(1)), wall, seconds, cost(serving) - before, peak / 1024)
    ended(serving)


def cost(serving):
    return sum(relay.cost()[0] for relay in serving)


def from_nothing(folder, serving, count, options):
    """The relays' events come in one pass, each once."""
    ports = [relay.port for relay in serving]
    told, wall, seconds, peak = mirrored(options.mirror, folder, ports, options, 1)
    same([it[:-1] for it in told], [(len(ports), len(ports), count, count, 0, 0)])
    with open(os.path.join(folder, "mirror.jsonl"), "rb") as text:
        same(sum(1 for _ in text), count)
    told_row("from nothing", wall, seconds, cost(serving), peak)


def level(folder, name, ports, serving, options):
    """Nothing is needed of these relays. What a first pass takes, with reading the file, is left out."""
    _, _, once, _ = mirrored(options.mirror, folder, ports, options, 1)
    before = cost(serving)
    told, _, seconds, peak = mirrored(options.mirror, folder, ports, options, 1 + options.passes)
    same({it[:-1] for it in told}, {(len(ports), len(ports), 0, 0, 0, 0)})
    took = sorted(it[-1] for it in told[1:])
    told_row(name, took[len(took) // 2] / 1e3, (seconds - once) / options.passes, (cost(serving) - before) / len(told), peak)


def has_the_same(connection, asked):
    """A relay that has just what the mirror has: to its fingerprint it answers that nothing differs."""
    if asked[0] == "NEG-OPEN":
        connection.say(["NEG-MSG", asked[1], "61"])


def ended(serving):
    for relay in serving:
        relay.child.kill()
        relay.child.wait()


def main():
    parser = argparse.ArgumentParser(description=__doc__.split("\n")[0])
    parser.add_argument("--baseline", help="a plain program to compare with")
    parser.add_argument("--mirror", default=program_of("mirror_app"))
    parser.add_argument("--relays", type=int, default=5)
    parser.add_argument("--held", type=int, default=30000)
    parser.add_argument("--events", type=int, default=100000)
    parser.add_argument("--workers", type=int, default=1)
    parser.add_argument("--passes", type=int, default=10)
    parser.add_argument("--fsync", choices=["always", "everysec", "no"])
    options = parser.parse_args()
    relays, held, events = options.relays, min(options.held, options.events), options.events
    firsts = [relay * events // relays for relay in range(relays)]
    count = sum(any((place - first) % events < held for first in firsts) for place in range(events))
    with tempfile.TemporaryDirectory() as folder:
        if options.baseline:
            synced(options, folder)
        source = os.path.join(folder, "events")
        made(write_events, source, events)
        serving = served(options, folder, source, events, held)
        print("%d relays of %d events, %d in all, %.0f MB" % (relays, held, count, os.path.getsize(source) / 1e6), flush=True)
        from_nothing(folder, serving, count, options)
        level(folder, "nothing is needed", [relay.port for relay in serving], serving, options)
        ended(serving)
        with open(os.path.join(folder, "mirror.jsonl"), encoding="utf-8") as text:
            one = [Serving(options.mirror, folder, "same", 1000000, text)]
        level(folder, "nothing differs", [one[0].port] * relays, one, options)
        ended(one)
        with Played(has_the_same) as relay:
            level(folder, "the same, all at once", [relay.port] * relays, [], options)


if __name__ == "__main__":
    sys.exit(main())
