#!/usr/bin/env python3
"""Measures how `serve` holds many subscribers.

    bench/hall.py [--mirror PATH] [--subscribers N] [--events N] [--stored N]

First it is shown what the system takes to send something to so many clients, by a program that does nothing else (`send.c`). Then
so many clients (`crowd.c`) are connected to a relay side by side, each with one filter, on this machine. Then events come one by
one from another client. Shown are how long it took until all were served; how long it took until an event was with half of the
clients, with 99 % of them and with all, in ms, the median of all events; the share of a processor that the relay takes while
nothing happens; and the memory that each connection takes at rest. Both programs are shown twice: with clients that read at once, and
so share the processors with who sends, and with such that read later, as if they were on other machines; then it counts when an
event was at a client's socket. Last, over a store of its own, how long a client waits for an event by its id, the median of 200
requests, with no other client and beside others that ask without a pause for what takes long to be found.
"""
import argparse
import json
import os
import resource
import statistics
import subprocess
import tempfile
import threading
import time

from measure import built, program_of
from relay import spent
from strangers import compact, event
from wire import Client


def resident(pid):
    """The resident memory of a process, in KiB."""
    with open("/proc/%d/status" % pid) as text:
        return next(int(line.split()[1]) for line in text if line.startswith("VmRSS"))


def conf_of(folder, **keys):
    path = os.path.join(folder, "conf.toml")
    with open(path, "w") as text:
        for key, value in {"events": folder + "/events.jsonl", "listen": "127.0.0.1:0", "conns": 1_000_000, "fsync": "no", **keys}.items():
            text.write("%s = %s\n" % (key, json.dumps(value)))
    return path


def begun(program, conf):
    relay = subprocess.Popen([program, "serve", conf], stdout=subprocess.PIPE, text=True)
    return relay, int(relay.stdout.readline().rsplit(":", 1)[1])


# What many events meet one by one, and none all.
SLOW = [{"kinds": [1, number + 2], "#t": ["a"], "#e": ["b"]} for number in range(16)]


def stored(path, count):
    """So many events, half of which have one tag and half another."""
    with open(path, "wb") as text:
        for number in range(count):
            text.write(compact(event(number, [["t", "a"] if number % 2 else ["e", "b"]])) + b"\n")


def waited(port, ids):
    """The median time in ms until an event came that was asked for."""
    client, times = Client(port), []
    for wanted in ids:
        start = time.perf_counter()
        client.send(compact(["REQ", "a", {"ids": [wanted]}]))
        while b"EOSE" not in client.read():
            pass
        times.append((time.perf_counter() - start) * 1e3)
        time.sleep(0.01)
    return statistics.median(times)


def ask_slowly(port, times, until):
    client = Client(port)
    while time.time() < until:
        start = time.perf_counter()
        client.send(compact(["REQ", "a", *SLOW]))
        while b"EOSE" not in client.read():
            pass
        times.append(time.perf_counter() - start)


def fairness(program, count):
    with tempfile.TemporaryDirectory() as folder:
        stored(folder + "/events.jsonl", count)
        relay, port = begun(program, conf_of(folder, clients=100))
        try:
            ids = [event(number, [["t", "a"] if number % 2 else ["e", "b"]])["id"] for number in range(0, 400, 2)]
            alone = waited(port, ids)
            for many in (1, 3, 20):
                times = []
                asking = [threading.Thread(target=ask_slowly, args=(port, times, time.time() + 6)) for _ in range(many)]
                for one in asking:
                    one.start()
                time.sleep(1)
                beside = waited(port, ids)
                for one in asking:
                    one.join()
                print("an event by its id: %.1f ms alone, %.1f ms beside %d clients whose requests take %.2f s each" % (
                    alone, beside, many, statistics.median(times)), flush=True)
        finally:
            relay.kill()
            relay.wait()


# After how many milliseconds clients read that don't read at once.
LATER = "300"


def least(program, count, *wait):
    """What it takes to send something to so many clients, by one to four threads: the median times until half have it, and all."""
    for threads in (1, 2, 3, 4):
        said = subprocess.run([program, str(count), str(threads), *wait], stdout=subprocess.PIPE, text=True, check=True, timeout=60).stdout
        rows = [[float(word) for word in line.split()] for line in said.splitlines()]
        print("a program of %d threads that does nothing but send%s: ms until half and all have it: %s" % (
            threads, ", clients that read later" if wait else "", ", ".join("%.1f" % statistics.median(row[k] for row in rows) for k in (0, 1))), flush=True)


def pushed(clients, relay, events, name):
    """How long events take to so many clients."""
    taken, rows = spent(relay.pid), []
    for number in events:
        clients.stdin.write(compact(["EVENT", event(number)]).decode() + "\n")
        clients.stdin.flush()
        rows.append([float(word) for word in clients.stdout.readline().split()[1:]])
    print("an event was %s %d of them; ms until half, 99 %% and all have it: %s; processor time %.1f ms" % (
        name, min(row[0] for row in rows), ", ".join("%.1f" % statistics.median(row[k] for row in rows) for k in (1, 2, 3)),
        (spent(relay.pid) - taken) / len(rows) * 1e3), flush=True)


def crowded(crowd, port, count, *wait):
    """So many clients, each of which has been served."""
    clients = subprocess.Popen([crowd, str(port), str(count), *wait], stdin=subprocess.PIPE, stdout=subprocess.PIPE, text=True)
    return clients, float(clients.stdout.readline().split()[1])


def ended(clients):
    clients.stdin.close()
    clients.wait()
    time.sleep(2)


def main():
    parser = argparse.ArgumentParser(description=__doc__, formatter_class=argparse.RawDescriptionHelpFormatter)
    parser.add_argument("--mirror", default=program_of("mirror_app"))
    parser.add_argument("--subscribers", type=int, default=10_000)
    parser.add_argument("--events", type=int, default=20)
    parser.add_argument("--stored", type=int, default=200_000)
    args = parser.parse_args()
    many = args.subscribers + 200
    resource.setrlimit(resource.RLIMIT_NOFILE, (many, many))
    with tempfile.TemporaryDirectory() as folder:
        crowd, send = built(folder, "crowd"), built(folder, "send", "-pthread")
        least(send, args.subscribers)
        least(send, args.subscribers, LATER)
        relay, port = begun(args.mirror, conf_of(folder, clients=many))
        try:
            before = resident(relay.pid)
            clients, seconds = crowded(crowd, port, args.subscribers)
            print("all served after %.3f s" % seconds, flush=True)
            time.sleep(1)
            start, taken = time.time(), spent(relay.pid)
            time.sleep(5)
            print("at rest %.2f %% of a processor" % ((spent(relay.pid) - taken) / (time.time() - start) * 100))
            print("memory of a connection %.1f KiB" % ((resident(relay.pid) - before) / args.subscribers), flush=True)
            pushed(clients, relay, range(args.events), "with")
            print("memory of a connection %.1f KiB" % ((resident(relay.pid) - before) / args.subscribers), flush=True)
            ended(clients)
            clients, _ = crowded(crowd, port, args.subscribers, LATER)
            time.sleep(1)
            pushed(clients, relay, range(args.events, 2 * args.events), "at the sockets of")
            ended(clients)
        finally:
            relay.kill()
            relay.wait()
    fairness(args.mirror, args.stored)


if __name__ == "__main__":
    main()
