#!/usr/bin/env python3
"""Measures what it takes to keep events before they are acknowledged.

    bench/log.py [--mirror PATH] [--folder PATH] [--seconds S] [--events N]

Eight clients put events into `serve`, and each waits for its answers after 20 of them: how many events a second are acknowledged,
with each word of the setting `fsync`. Then a relay over a file of N events is given one event a second for S seconds: how many
bytes a minute are written. The files are in the folder (else one of the system's temporary ones), whose disk is what is measured.
"""
import argparse
import os
import subprocess
import tempfile
import threading
import time

from inputs import events as write_events
from inputs import made
from measure import program_of
from relay import BESIDES, Serving
from wire import Client

# How many events are sent before their answers are waited for.
TOGETHER = 20


def put(client, lines):
    """Sends events, and waits for their answers."""
    client.send(*[b'["EVENT",%s]' % line.strip().encode() for line in lines])
    for _ in lines:
        if b",true," not in client.read():
            raise SystemExit("an event was refused")


def in_twenties(client, lines):
    for at in range(0, len(lines), TOGETHER):
        put(client, lines[at:at + TOGETHER])


def acknowledged(program, folder, lines, fsync, clients=8):
    """How many events a second are acknowledged."""
    BESIDES["fsync"] = fsync
    relay = Serving(program, folder, "log-" + fsync, clients)
    connections = [Client(relay.port) for _ in range(clients)]
    threads = [threading.Thread(target=in_twenties, args=(connections[i], lines[i::clients])) for i in range(clients)]
    began = time.monotonic()
    for thread in threads:
        thread.start()
    for thread in threads:
        thread.join()
    took = time.monotonic() - began
    for client in connections:
        client.close()
    relay.end()
    return len(lines) / took


def bytes_written(relay):
    with open("/proc/%d/io" % relay.child.pid) as text:
        return next(int(line.split()[1]) for line in text if line.startswith("write_bytes"))


def a_minute(program, folder, lines, more):
    """How many bytes a minute are written where one event a second comes in."""
    BESIDES["fsync"] = "always"
    relay = Serving(program, folder, "slow", 1, lines)
    client = Client(relay.port)
    before, began = bytes_written(relay), time.monotonic()
    for at, line in enumerate(more):
        time.sleep(max(0, began + at - time.monotonic()))
        put(client, [line])
    time.sleep(1)
    written = bytes_written(relay) - before
    client.close()
    relay.end()
    return written * 60 / len(more)


def main():
    parser = argparse.ArgumentParser(description=__doc__.split("\n")[0])
    parser.add_argument("--mirror", default=program_of("mirror_app"))
    parser.add_argument("--folder")
    parser.add_argument("--seconds", type=int, default=20)
    parser.add_argument("--events", type=int, default=1000000)
    options = parser.parse_args()
    with tempfile.TemporaryDirectory(dir=options.folder) as folder:
        disk = subprocess.run(["df", "--output=fstype,source", folder], capture_output=True, text=True, check=True).stdout.splitlines()[1]
        print("disk: " + " ".join(disk.split()))
        source = os.path.join(folder, "events")
        made(write_events, source, options.events)
        with open(source, encoding="utf-8") as text:
            lines = text.readlines()
        few = lines[:40000]
        for fsync in ("always", "everysec", "no"):
            best = max(acknowledged(options.mirror, folder, few, fsync) for _ in range(3))
            print("%-8s %8.0f events a second" % (fsync, best), flush=True)
        minute = a_minute(options.mirror, folder, lines[:-options.seconds], lines[-options.seconds:])
        print("one event a second, over %d events: %.0f bytes written a minute" % (len(lines), minute))


if __name__ == "__main__":
    main()
