#!/usr/bin/env python3
"""Measures `serve` and `sync`.

    bench/relay.py [--baseline PATH] [--mirror PATH] [--events N] [--held N] [--only WORD,WORD,..] [--runs R] [--fsync WORD]

Each row starts the program anew. `serve` reads a file of events with right ids (`inputs.py`), and is then asked by clients that cost
little themselves (`load.c`): it takes all events from one client, from eight, and in the order of their times, and answers 1,000
requests, ten times over. It is connected to 200 times. Of `feed`, which asks what one in twenty authors wrote of a kind, 100
are asked. `sync` brings a store that has a part of the events level with four relays that have half of them each. The relays
are the same program's, or the plain program's. Shown are the wall time and the processor time that the work took, of requests what
one time took, without the reading and writing of the file but for `sync`, and the greatest peak of resident memory.

With `--baseline`, a plain program with the same commands, both run in turn, R times each; the least times are shown, and
the ratio of ours to its. With `--fsync`, the settings of all have it. With `--held`, a relay that takes events has so many of them
as it starts, and takes the others.
"""
import argparse
import json
import os
import random
import socket
import subprocess
import sys
import tempfile
import threading
import time

from inputs import events as write_events
from inputs import made
from measure import apart, built, program_of
from wire import Client

# What the settings of every run have besides.
BESIDES = {}


def spent(pid):
    """The processor time that a process has taken so far, with that of its threads, in seconds. It is read from the process's
    clock (clock_getcpuclockid), since /proc tells it in steps of 10 ms."""
    return time.clock_gettime(~pid << 3 | 2)


def peak(pid):
    """The greatest resident memory of a process so far, in MiB."""
    with open("/proc/%d/status" % pid) as text:
        return next(int(line.split()[1]) / 1024 for line in text if line.startswith("VmHWM"))


def settings(path, **keys):
    with open(path, "w") as text:
        for key, value in keys.items():
            text.write("%s = %s\n" % (key, json.dumps(value)))
    return path


class Serving:
    """A relay that serves so many connections, over a copy of a file of events or over none."""

    def __init__(self, program, folder, name, connections, lines=()):
        file = os.path.join(folder, name + ".jsonl")
        with open(file, "w", encoding="utf-8") as text:
            text.writelines(lines)
        conf = settings(os.path.join(folder, name + ".toml"), events=file, listen="127.0.0.1:0", conns=connections, **BESIDES)
        self.child = subprocess.Popen([program, "serve", conf], stdout=subprocess.PIPE)
        line = self.child.stdout.readline().decode()
        if not line.startswith("listening "):
            raise SystemExit("%s said %r" % (program, line))
        self.port = int(line.rsplit(":", 1)[1])
        self.before = spent(self.child.pid)

    def cost(self):
        return spent(self.child.pid) - self.before, peak(self.child.pid)

    def end(self):
        said = self.child.stdout.read().decode()
        self.child.stdout.close()
        if self.child.wait() != 0:
            raise SystemExit("a relay ended with status %d" % self.child.returncode)
        return said


class Cutting:
    """A way to a relay's port. The second connection is closed once so many bytes came from the relay."""

    def __init__(self, port, most):
        self.server = socket.create_server(("127.0.0.1", 0))
        self.port = self.server.getsockname()[1]
        threading.Thread(target=self.pass_on, args=(port, most), daemon=True).start()

    def pass_on(self, port, most):
        for limit in (None, most):
            here, _from = self.server.accept()
            there = socket.create_connection(("127.0.0.1", port))
            for end in (here, there):
                end.setsockopt(socket.IPPROTO_TCP, socket.TCP_NODELAY, 1)
            for one, other, end in ((here, there, None), (there, here, limit)):
                threading.Thread(target=self.copy, args=(one, other, end), daemon=True).start()

    @staticmethod
    def copy(one, other, most):
        came = 0
        try:
            while most is None or came < most:
                text = one.recv(65536)
                if not text:
                    break
                came += len(text)
                other.sendall(text)
        except OSError:
            pass
        for end in (one, other):
            try:
                end.shutdown(socket.SHUT_RDWR)
            except OSError:
                pass


class Load:
    """Clients in C (`load.c`) that have done their work: how much of it there was, and the wall time. They stay until they are let go."""

    def __init__(self, folder, kind, port, lines, clients=()):
        path = os.path.join(folder, "load.jsonl")
        with open(path, "w", encoding="utf-8") as text:
            text.writelines(lines)
        self.child = subprocess.Popen([os.path.join(folder, "load"), kind, str(port), *map(str, clients), path],
                                      stdin=subprocess.PIPE, stdout=subprocess.PIPE, text=True)
        came, wall = self.child.stdout.readline().split()
        self.came, self.wall = int(came), float(wall)

    def end(self):
        self.child.stdin.close()
        if self.child.wait() != 0:
            raise SystemExit("clients ended with status %d" % self.child.returncode)


def row_of_putting(program, folder, lines, clients, held):
    relay = Serving(program, folder, "put", clients, lines[:held])
    # The connections stay until the time is read, since the file is written once they have ended.
    load = Load(folder, "put", relay.port, lines[held:], [clients])
    found = relay.cost()
    load.end()
    relay.end()
    return (load.wall, *found), load.came


def row_of_asking(program, folder, lines, filters, times=10):
    """Asks for the same several times over, and shows what one time took."""
    relay = Serving(program, folder, "ask", 1, lines)
    load = Load(folder, "ask", relay.port, ["%s\n" % json.dumps(filter) for filter in filters] * times)
    seconds, peak = relay.cost()
    load.end()
    relay.end()
    return (load.wall / times, seconds / times, peak), load.came


def row_of_connecting(program, folder, times):
    relay = Serving(program, folder, "connect", times + 1)
    holder = Client(relay.port)
    start = time.perf_counter()
    for _ in range(times):
        Client(relay.port).close()
    wall = time.perf_counter() - start
    found = relay.cost()
    holder.close()
    relay.end()
    return (wall, *found), times


def row_of_syncing(program, folder, lines, relays, share, partner, cut=None):
    rng = random.Random(3)
    held = [[line for line in lines if rng.random() < 0.5] for _ in range(relays)]
    # A session, and a connection that fetches.
    serving = [Serving(partner, folder, "relay%d" % i, 2, part) for i, part in enumerate(held)]
    ports = [it.port for it in serving]
    if cut is not None:
        ports[0] = Cutting(ports[0], cut).port
    mine = os.path.join(folder, "mine.jsonl")
    own = [line for line in lines if rng.random() < share]
    with open(mine, "w", encoding="utf-8") as text:
        text.writelines(own)
    conf = settings(os.path.join(folder, "sync.toml"), events=mine, relays=["127.0.0.1:%d" % port for port in ports], **BESIDES)
    said, wall, seconds, peak = apart([program, "sync", conf])
    for relay in serving:
        relay.child.kill()
        relay.child.wait()
    told = dict(line.rsplit(" ", 1) for line in said.splitlines() if line.startswith(("given", "missed", "left", "least")))
    if cut is not None:
        # How far the relay comes before it closes isn't the same each time.
        told = {"least": told["least"], "planned": int(told["given"]) + int(told["left"])}
    return (wall, seconds, peak / 1024), str(told)


def time_of(line):
    return json.loads(line)["created_at"]


def filters_of(lines, rng):
    events = [json.loads(line) for line in lines]
    pick = lambda: rng.choice(events)
    authors = sorted({event["pubkey"] for event in events})
    tagged = [(tag[0], tag[1]) for event in events for tag in event["tags"] if len(tag[0]) == 1]
    return {
        "ids": [{"ids": [pick()["id"] for _ in range(100)]} for _ in range(1000)],
        "kind": [{"kinds": [pick()["kind"]], "limit": 100} for _ in range(1000)],
        "author": [{"authors": [pick()["pubkey"]]} for _ in range(1000)],
        "tag": [{"#" + name: [value], "limit": 100} for name, value in (rng.choice(tagged) for _ in range(1000))],
        "newest": [{"limit": 100}] * 1000,
        "feed": [{"authors": rng.sample(authors, len(authors) // 20), "kinds": [pick()["kind"]], "limit": 500}
                 for _ in range(100)],
    }


def main():
    parser = argparse.ArgumentParser(description=__doc__.split("\n")[0])
    parser.add_argument("--baseline", help="a plain program to compare with")
    parser.add_argument("--mirror", default=program_of("mirror_app"))
    parser.add_argument("--events", type=int, default=50000)
    parser.add_argument("--held", type=int, default=0)
    parser.add_argument("--only", default="put1,put8,rising,ids,kind,author,tag,newest,feed,connect,sync,sync16,cut")
    parser.add_argument("--runs", type=int, default=2)
    parser.add_argument("--fsync", choices=["always", "everysec", "no"])
    options = parser.parse_args()
    if options.fsync:
        BESIDES["fsync"] = options.fsync
    programs = [options.mirror] + ([options.baseline] if options.baseline else [])
    with tempfile.TemporaryDirectory() as folder:
        built(folder, "load", "-pthread")
        source = os.path.join(folder, "events")
        made(write_events, source, options.events)
        with open(source, encoding="utf-8") as text:
            lines = text.readlines()
        filters = filters_of(lines, random.Random(2))
        rows = {
            "put1": lambda it: row_of_putting(it, folder, lines, 1, options.held),
            "put8": lambda it: row_of_putting(it, folder, lines, 8, options.held),
            "rising": lambda it: row_of_putting(it, folder, sorted(lines, key=time_of), 1, options.held),
            "connect": lambda it: row_of_connecting(it, folder, 200),
            "sync": lambda it: row_of_syncing(it, folder, lines, 4, 0.6, programs[-1]),
            "sync16": lambda it: row_of_syncing(it, folder, lines, 16, 0.6, programs[-1]),
            "cut": lambda it: row_of_syncing(it, folder, lines, 4, 0.6, programs[-1], 1000000),
        }
        for name, asked in filters.items():
            rows[name] = lambda it, asked=asked: row_of_asking(it, folder, lines, asked)
        print("%d events, %.0f MB" % (len(lines), os.path.getsize(source) / 1e6))
        for name in options.only.split(","):
            runs = [[] for _ in programs]
            for _ in range(options.runs):
                for program, its in zip(programs, runs):
                    its.append(rows[name](program))
            best = [[pick(cost[k] for cost, _ in its) for k, pick in enumerate((min, min, max))] for its in runs]
            line = "%-8s %8.4f s wall %8.4f s processor %6.0f MiB" % (name, *best[0])
            if len(best) == 2:
                ratios = [ours / max(theirs, 0.001) for ours, theirs in zip(*best)]
                line += "   plain %8.4f s (%5.2f) %8.4f s (%5.2f) %6.0f MiB (%5.2f)%s" % (
                    *[cell for pair in zip(best[1], ratios) for cell in pair],
                    "" if runs[0][0][1] == runs[1][0][1] else "   THE ANSWERS DIFFER: %s, %s" % (runs[0][0][1], runs[1][0][1]))
            print(line, flush=True)


if __name__ == "__main__":
    sys.exit(main())
