#!/usr/bin/env python3
"""Kills `nostr-mirror` at random moments, and takes its disk away: nothing that was acknowledged is lost.

    tests/kills.py [PATH] [--kills N] [--seed S]      (PATH of the program; else the proved build)

Eight clients put events into a relay, which is killed again and again by SIGKILL, SIGTERM or SIGINT: each event that was answered
`OK true` is in its file, once, and the next relay reads what the last one left. A `sync` that is killed in the middle of its
fetching has kept what came, and the next needs only the rest. A file is cut at each length within its last two lines. A file may
grow no further, or its disk is full: that is told once and answered, and made good once there is room. Where descriptors have run
out once, events are kept all the same. Nobody opens a file that another run has, by whatever name.
"""
import argparse
import json
import os
import random
import resource
import signal
import socket
import subprocess
import tempfile
import threading
import time
from concurrent.futures import ThreadPoolExecutor

from told import ROOT, by_id, done, event, port_of, read, same, settings, start, written
from wire import Client, Gone

KILLS = (signal.SIGKILL, signal.SIGTERM, signal.SIGINT)

# A shell's background jobs ignore SIGINT, and so would the relays that they start.
signal.signal(signal.SIGINT, signal.default_int_handler)


def puts_in(port, name, number, counts, told):
    """Puts events in, as many at once as one of the counts says, and adds the ids that were acknowledged to `told`."""
    dice = random.Random("%s %d" % (name, number))
    made = 0
    try:
        client = Client(port)
        while True:
            fresh = [event(1700000000 + made + n, "%s %d" % (name, number)) for n in range(dice.choice(counts))]
            made += len(fresh)
            client.send(*(json.dumps(["EVENT", it]).encode() for it in fresh))
            for it in fresh:
                _, id, taken, _ = json.loads(client.read())
                if taken:
                    told.append(id)
    except (Gone, OSError):
        return


def whole_lines(path):
    """The events of the lines that end, and the bytes behind them."""
    with open(path, "rb") as text:
        found = text.read()
    cut = found.rfind(b"\n") + 1
    return [json.loads(line) for line in found[:cut].splitlines()], found[cut:]


def nothing_acknowledged_is_lost(path, folder, kills, dice):
    """Ten kills to a file, since each of them reads all that the ones before have left."""
    counts = [killed(path, folder, "killed%d" % first, min(10, kills - first), dice) for first in range(0, kills, 10)]
    if not sum(counts):
        raise SystemExit("no event was acknowledged")
    return sum(counts)


def killed(path, folder, name, kills, dice):
    """How many events were acknowledged, of which none is missing."""
    kept, acknowledged = os.path.join(folder, name + ".jsonl"), []
    for number in range(kills):
        relay, port = start(path, "serve", settings(folder, name, listen="127.0.0.1:0", conns=1000, fsync=dice.choice(["always", "everysec", "no"])))
        told = [[] for _ in range(8)]
        clients = [threading.Thread(target=puts_in, args=(port, "%s %d" % (name, number), n, [1, 1, 20, 100], told[n])) for n in range(8)]
        for client in clients:
            client.start()
        time.sleep(dice.uniform(0.02, 0.5))
        relay.send_signal(dice.choice(KILLS))
        relay.communicate()
        for client in clients:
            client.join()
        acknowledged += sum(told, [])
        events, _torn = whole_lines(kept)
        ids = [it["id"] for it in events]
        same(len(ids), len(set(ids)))
        same(sorted(set(acknowledged) - set(ids)), [])
    return len(acknowledged)


class Dripping:
    """Passes bytes on between clients and a relay: so many of the relay's at once, and then 1,000 a second."""

    def __init__(self, port, at_once):
        self.left, self.port = at_once, port
        self.listener = socket.create_server(("127.0.0.1", 0))
        threading.Thread(target=self.accept, daemon=True).start()

    def accept(self):
        while True:
            client, _ = self.listener.accept()
            relay = socket.create_connection(("127.0.0.1", self.port))
            threading.Thread(target=self.passes, args=(client, relay, False), daemon=True).start()
            threading.Thread(target=self.passes, args=(relay, client, True), daemon=True).start()

    def passes(self, source, target, drips):
        try:
            while True:
                found = source.recv(10_000)
                if not found:
                    target.shutdown(socket.SHUT_WR)
                    return
                if drips:
                    self.left -= len(found)
                    if self.left < 0:
                        time.sleep(len(found) / 1000)
                target.sendall(found)
        except OSError:
            return


def a_killed_sync_keeps_what_came(path, folder):
    theirs = [event(1700000000 + n, "theirs " + "x" * 1000) for n in range(6000)]
    written(os.path.join(folder, "relay.jsonl"), theirs)
    relay, port = start(path, "serve", settings(folder, "relay", listen="127.0.0.1:0", conns=100))
    dripping = Dripping(port, 4_000_000)
    conf = settings(folder, "mirror", relays=["127.0.0.1:%d" % dripping.listener.getsockname()[1]])
    child = subprocess.Popen([path, "sync", conf], stdout=subprocess.PIPE, stderr=subprocess.PIPE, text=True)
    kept, until = os.path.join(folder, "mirror.jsonl"), time.monotonic() + 60
    # Some of what came is there before all has come, and stays.
    while len(whole_lines(kept)[0] if os.path.exists(kept) else []) < 1000:
        if time.monotonic() > until:
            raise SystemExit("what came isn't kept")
        time.sleep(0.05)
    child.kill()
    child.communicate()
    came = whole_lines(kept)[0]
    if len(came) >= len(theirs):
        raise SystemExit("all had come")
    rest = len(theirs) - len(came)
    conf = settings(folder, "mirror", relays=["127.0.0.1:%d" % port])
    status, out, _ = done(path, "sync", conf)
    same((status, out), (0, "relay 0 need %d\nleast %d\ngroup 0\ngiven %d\nmissed 0\nleft 0\n" % (rest, rest, rest)))
    same(by_id(read(kept)), by_id(theirs))
    relay.kill()
    relay.communicate()


def plain_lines(path, folder, events):
    """The lines as the program writes them."""
    written(os.path.join(folder, "plain.jsonl"), events)
    with socket.create_server(("127.0.0.1", 0)) as gone:
        away = "127.0.0.1:%d" % gone.getsockname()[1]
    same(done(path, "sync", settings(folder, "plain", relays=[away]))[:2], (0, "relay 0 failed 1\nleast 0\ngroup\ngiven 0\nmissed 0\nleft 0\n"))
    with open(os.path.join(folder, "plain.jsonl"), "rb") as text:
        return text.readlines(), away


def a_file_cut_anywhere_goes_on(path, folder):
    events = [event(1700000000 + n, "cut %d" % n) for n in range(3)]
    lines, away = plain_lines(path, folder, events)
    whole = b"".join(lines)

    def cut(length):
        name = "cut%d" % length
        at = os.path.join(folder, name + ".jsonl")
        with open(at, "wb") as text:
            text.write(whole[:length])
        status, _, errors = done(path, "sync", settings(folder, name, relays=[away]))
        same(status, 0)
        with open(at, "rb") as text:
            found = text.read()
        feeds = whole[:length].rfind(b"\n") + 1
        torn = whole[feeds:length]
        if torn + b"\n" in lines:
            # An event whose line feed alone is missing.
            same((found.decode(), errors, os.path.exists(at + ".torn")), (whole[:length].decode() + "\n", "", False))
        elif torn:
            with open(at + ".torn", "rb") as text:
                same(text.read().decode(), torn.decode())
            same((found.decode(), errors), (whole[:feeds].decode(), "events file: %d bytes torn, set aside\n" % len(torn)))
        else:
            same((found.decode(), errors, os.path.exists(at + ".torn")), (whole[:length].decode(), "", False))

    first = len(lines[0])
    with ThreadPoolExecutor(4) as pool:
        list(pool.map(cut, range(first, len(whole) + 1)))


def nobodys_letter_is_cut(path, folder):
    """A file whose only text holds no event and no line feed is refused, and stays."""
    at = os.path.join(folder, "letter.jsonl")
    with open(at, "w") as text:
        text.write("Dear Alice")
    same(done(path, "sync", settings(folder, "letter", relays=["127.0.0.1:9"])), (1, "", "refused: file line 1\n"))
    with open(at) as text:
        same(text.read(), "Dear Alice")


def put(client, new):
    client.send(json.dumps(["EVENT", new]).encode())
    return json.loads(client.read())[2:]


def put_until_it_is_full(relay, at, events, make_room):
    """Puts events into a relay whose file finds no room for all of them, until there is some."""
    client = Client(port_of(relay))
    answers = [put(client, it) for it in events]
    taken = [it for it in answers if it[0]]
    if not 0 < len(taken) < len(events):
        raise SystemExit("%d of %d were taken" % (len(taken), len(events)))
    for answer in answers[len(taken):]:
        same(answer, [False, "error: the events file can't be written"])
    # Reading goes on, and what was acknowledged is there, whole.
    client.send(b'["REQ","all",{}]')
    while json.loads(client.read())[0] != "EOSE":
        pass
    found, _torn = whole_lines(at)
    same([it["id"] for it in found][:len(taken)], [it["id"] for it in events[:len(taken)]])
    # Once there is room all is made good, without a word of a client.
    make_room()
    until = time.monotonic() + 30
    while [it["id"] for it in whole_lines(at)[0]] != [it["id"] for it in events]:
        if time.monotonic() > until:
            raise SystemExit("it was never made good")
        time.sleep(0.1)
    same(put(client, events[-1]), [True, "duplicate: already have this event"])
    same(put(client, event(1, "more")), [True, ""])
    client.close()
    relay.kill()
    _, errors = relay.communicate()
    lines = errors.splitlines()
    same([line.split(":")[0] for line in lines], ["events file", "events file"])
    same(lines[1], "events file: is written again")


def a_file_that_may_not_grow_is_told(path, folder):
    conf = settings(folder, "full", listen="127.0.0.1:0", conns=2)
    # Beyond its limit a write fails, and no signal comes: it is ignored here, and so by the program.
    signal.signal(signal.SIGXFSZ, signal.SIG_IGN)
    limits = lambda: resource.setrlimit(resource.RLIMIT_FSIZE, (2000, resource.RLIM_INFINITY))
    relay = subprocess.Popen([path, "serve", conf], stdout=subprocess.PIPE, stderr=subprocess.PIPE, text=True,
                             restore_signals=False, preexec_fn=limits)
    room = lambda: resource.prlimit(relay.pid, resource.RLIMIT_FSIZE, (resource.RLIM_INFINITY, resource.RLIM_INFINITY))
    put_until_it_is_full(relay, os.path.join(folder, "full.jsonl"), [event(1700000000 + n, "full %d" % n) for n in range(40)], room)


def a_full_disk_is_told(path, folder):
    """A file system of 64 KiB, where it may be mounted."""
    small = os.path.join(folder, "small")
    os.mkdir(small)
    if subprocess.run(["mount", "-t", "tmpfs", "-o", "size=64k", "tmpfs", small], stderr=subprocess.DEVNULL, check=False).returncode:
        print("no file system may be mounted", flush=True)
        return
    try:
        conf = settings(small, "full", listen="127.0.0.1:0", conns=2)
        relay = subprocess.Popen([path, "serve", conf], stdout=subprocess.PIPE, stderr=subprocess.PIPE, text=True)
        room = lambda: subprocess.run(["mount", "-o", "remount,size=1m", small], check=True)
        put_until_it_is_full(relay, os.path.join(small, "full.jsonl"), [event(1700000000 + n, "full " + "x" * 1000) for n in range(80)], room)
    finally:
        subprocess.run(["umount", small], check=True)


def descriptors_may_run_out(path, folder):
    conf = settings(folder, "few", listen="127.0.0.1:0", conns=1000)
    limits = lambda: resource.setrlimit(resource.RLIMIT_NOFILE, (64, 64))
    relay = subprocess.Popen([path, "serve", conf], stdout=subprocess.PIPE, stderr=subprocess.PIPE, text=True, preexec_fn=limits)
    port = port_of(relay)
    client = Client(port)
    others = [socket.create_connection(("127.0.0.1", port)) for _ in range(80)]
    time.sleep(0.5)
    events = [event(1700000000 + n, "few %d" % n) for n in range(10)]
    for it in events[:5]:
        same(put(client, it), [True, ""])
    for other in others:
        other.close()
    for it in events[5:]:
        same(put(client, it), [True, ""])
    relay.kill()
    same(relay.communicate()[1], "")
    same(read(os.path.join(folder, "few.jsonl")), events)


def one_run_has_a_file(path, folder):
    at = os.path.join(folder, "held.jsonl")
    written(at, [event(1, "held")])
    os.link(at, os.path.join(folder, "other.jsonl"))
    os.symlink(at, os.path.join(folder, "linked.jsonl"))
    relay, port = start(path, "serve", settings(folder, "held", listen="127.0.0.1:0", conns=1))
    for name in ("held", "other", "linked"):
        same(done(path, "sync", settings(folder, name, relays=["127.0.0.1:9"])), (1, "", "refused: events busy\n"))
    Client(port).close()
    same(relay.communicate(timeout=60), ("served 1\nevents 1\n", ""))


def main():
    parser = argparse.ArgumentParser(description=__doc__.split("\n")[0])
    parser.add_argument("path", nargs="?", default=os.path.join(ROOT, "crates", "mirror_app", "out", "mirror_app"))
    parser.add_argument("--kills", type=int, default=50)
    parser.add_argument("--seed", type=int, default=int(time.time()))
    options = parser.parse_args()
    path, dice = os.path.abspath(options.path), random.Random(options.seed)
    with tempfile.TemporaryDirectory() as folder:
        for part in (one_run_has_a_file, nobodys_letter_is_cut, a_file_cut_anywhere_goes_on, a_file_that_may_not_grow_is_told, a_full_disk_is_told,
                     descriptors_may_run_out, a_killed_sync_keeps_what_came):
            began = time.monotonic()
            part(path, folder)
            print("%s: as wanted, %.1f s" % (part.__name__.replace("_", " "), time.monotonic() - began), flush=True)
        count = nothing_acknowledged_is_lost(path, folder, options.kills, dice)
        print("%d kills (seed %d): all of %d acknowledged events are kept" % (options.kills, options.seed, count))


if __name__ == "__main__":
    main()
