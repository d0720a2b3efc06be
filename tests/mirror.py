#!/usr/bin/env python3
"""Runs `nostr-mirror sync` as a relay that fetches from another, and drives it with a client meanwhile.

    tests/mirror.py [PATH]      (PATH of the program; else the proved build)

A relay serves 300 events. A mirror with `listen` compares and fetches them, with `--progress`, while a client of the mirror puts
an event in and is sent what comes. Then a mirror whose reader leaves is refused while it serves: it has to end at once, with
the client's event in its file. A relay that is killed has kept what its clients put in. A client takes a second over its handshake. Relays that say
nothing have failed after `timeout_ms`, and a client that reads nothing is let go. Last, `--progress` tells how far a mirror of two
relays is while the answers of one of them are held back. The job `mirror` takes clients' events where it may, and else refuses them.
"""
import json
import os
import re
import socket
import tempfile
import threading
import time

from told import begin, by_id, comes_to_have, done, event, program, read, same, settings, start, written
from wire import Client


def run(path, folder, job, name, *words, **values):
    """Starts a job, which listens, and gives its process and its port."""
    return start(path, job, settings(folder, name, listen="127.0.0.1:0", **values), *words)


def put(client, new):
    client.send(json.dumps(["EVENT", new]).encode())
    same(json.loads(client.read()), ["OK", new["id"], True, ""])


def serves_meanwhile(path, folder):
    theirs, mine, put_in = [event(1700000000 + n, "theirs") for n in range(300)], event(1, "mine"), event(2, "put in")
    written(os.path.join(folder, "relay.jsonl"), theirs)
    written(os.path.join(folder, "mirror.jsonl"), [mine])
    relay, port = run(path, folder, "serve", "relay", conns=2)
    mirror, own = run(path, folder, "sync", "mirror", "--progress", conns=1,
                      relays=["127.0.0.1:%d" % port])
    client = Client(own)
    put(client, put_in)
    client.send(b'["REQ","all",{}]')
    got = []
    while len(got) < 302:
        text = json.loads(client.read())
        if text[0] == "EVENT":
            got.append(text[2])
    same(by_id(got), by_id(theirs + [mine, put_in]))
    # It is written behind the rounds, and not only once the client has left.
    comes_to_have(os.path.join(folder, "mirror.jsonl"), theirs + [mine, put_in])
    client.close()
    out, progress = mirror.communicate(timeout=60)
    same(out, "relay 0 need 300\nleast 300\ngroup 0\ngiven 300\nmissed 0\nleft 0\n")
    lines = progress.splitlines()
    same(lines[0], "1 events are loaded")
    same(lines[2:4], ["1 relays are asked", "relay 0 need 300"])
    same(lines[-2:], ["300 ids given, 0 missed, 0 left", "302 events are kept"])
    same(mirror.wait(), 0)
    same(by_id(read(os.path.join(folder, "mirror.jsonl"))), by_id(theirs + [mine, put_in]))
    relay.communicate(timeout=60)


def keeps_what_came_in(path, folder):
    """What clients put in is in the file before the relay ends, and a relay that is killed has lost nothing that is."""
    kept, first, second = os.path.join(folder, "kept.jsonl"), event(1, "first"), event(2, "second")
    relay, port = run(path, folder, "serve", "kept", conns=2)
    client = Client(port)
    put(client, first)
    comes_to_have(kept, [first])
    os.chmod(kept, 0o600)
    put(client, second)
    comes_to_have(kept, [first, second])
    relay.kill()
    relay.communicate()
    same((read(kept), os.stat(kept).st_mode & 0o777), ([first, second], 0o600))
    # What a kill in the middle of writing it anew leaves is in nobody's way.
    written(kept + ".new", [event(3, "left")])
    relay, port = run(path, folder, "serve", "kept", conns=1)
    client = Client(port)
    third = event(4, "third")
    put(client, third)
    comes_to_have(kept, [first, second, third])
    client.close()
    same(relay.communicate(timeout=60), ("served 1\nevents 3\n", ""))
    same(sorted(os.listdir(folder)), ["kept.jsonl", "kept.jsonl.new", "kept.toml"])


def ends_when_refused(path, folder):
    new = event(3, "put in")
    # Its address takes connections and says nothing: the session goes on until it is closed.
    with socket.create_server(("127.0.0.1", 0)) as silent:
        mirror, own = run(path, folder, "sync", "refused", conns=1000000,
                          relays=["127.0.0.1:%d" % silent.getsockname()[1]])
        client = Client(own)
        put(client, new)
        mirror.stdout.close()
        relay, _from = silent.accept()
        relay.close()
        time.sleep(0.5)
        # A refusal doesn't end a connection that is open.
        client.send(b'["REQ","all",{}]')
        same(json.loads(client.read()), ["EVENT", "all", new])
        same(json.loads(client.read()), ["EOSE", "all"])
        client.close()
        same(mirror.stderr.read(), "refused: write\n")
        same(mirror.wait(10), 1)
    same(read(os.path.join(folder, "refused.jsonl")), [new])


def waits_for_handshakes(path, folder):
    relay, port = run(path, folder, "serve", "slow", conns=1)
    stream = socket.create_connection(("127.0.0.1", port))
    stream.settimeout(10)
    time.sleep(1)
    stream.sendall(b"GET / HTTP/1.1\r\nHost: a\r\nUpgrade: websocket\r\nConnection: Upgrade\r\n"
                   b"Sec-WebSocket-Key: dGhlIHNhbXBsZSBub25jZQ==\r\n")
    time.sleep(1)
    stream.sendall(b"Sec-WebSocket-Version: 13\r\n\r\n")
    same(stream.recv(12), b"HTTP/1.1 101")
    stream.close()
    same(relay.communicate(timeout=60)[0], "served 1\nevents 0\n")


def gives_up_on_silence(path, folder):
    theirs = [event(1000 + n, "theirs") for n in range(20)]
    written(os.path.join(folder, "relay.jsonl"), theirs)
    relay, port = run(path, folder, "serve", "relay", conns=2)
    with socket.create_server(("127.0.0.1", 0)) as silent:
        ports = [silent.getsockname()[1]] * 8 + [port]
        ended = done(path, "sync", settings(folder, "mirror", timeout_ms=500, relays=["127.0.0.1:%d" % it for it in ports]))
    told = ["relay %d failed 1" % it for it in range(8)] + ["relay 8 need 20", "least 20", "group 8", "given 20", "missed 0", "left 0"]
    same(ended, (0, "".join(line + "\n" for line in told), ""))
    same(relay.communicate(timeout=60)[0], "served 2\nevents 20\n")


def lets_go_who_reads_nothing(path, folder):
    written(os.path.join(folder, "full.jsonl"), [event(1000 + n, "x" * 10_000) for n in range(300)])
    relay, port = run(path, folder, "serve", "full", conns=1, timeout_ms=500)
    client = Client(port)
    # Far more than the system holds for it.
    client.send(*[b'["REQ","all",{}]'] * 40)
    same(relay.communicate(timeout=60)[0], "served 1\nevents 300\n")
    client.close()


def pass_on(source, sink, door):
    """Passes on what comes, and what comes behind the head of a handshake once the door is open."""
    passed = b""
    try:
        while found := source.recv(1 << 16):
            if b"\r\n\r\n" in passed:
                door.wait()
            passed += found
            sink.sendall(found)
        sink.shutdown(socket.SHUT_WR)
    except OSError:
        pass


def held_back(server, port, doors):
    """Passes the connections of a server on to a port, and the answers to each once its door is open."""
    opened = threading.Event()
    opened.set()
    for door in doors:
        client, _from = server.accept()
        relay = socket.create_connection(("127.0.0.1", port))
        for ends in ((client, relay, opened), (relay, client, door)):
            threading.Thread(target=pass_on, args=ends, daemon=True).start()


def tells_progress(path, folder):
    slow, fast = [event(1000 + n, "slow") for n in range(30)], [event(2000 + n, "fast") for n in range(20)]
    relays = []
    for name, events in (("slow", slow), ("fast", fast)):
        written(os.path.join(folder, name + ".jsonl"), events)
        relays.append(run(path, folder, "serve", name, conns=2))
    written(os.path.join(folder, "mirror.jsonl"), [event(1, "mine")])
    doors = threading.Event(), threading.Event()
    # A mirror that waits for a relay where it has to tell something ends the test by this.
    late = threading.Timer(60, lambda: [door.set() for door in doors])
    late.start()
    with socket.create_server(("127.0.0.1", 0)) as server:
        threading.Thread(target=held_back, args=(server, relays[0][1], doors), daemon=True).start()
        ports = server.getsockname()[1], relays[1][1]
        mirror = begin(path, "sync", settings(folder, "mirror", relays=["127.0.0.1:%d" % port for port in ports]),
                       "--progress")
        lines = [mirror.stderr.readline() for _line in range(4)]
        same(lines, ["1 events are loaded\n", "1 events are compared\n", "2 relays are asked\n", "relay 1 need 20\n"])
        same(doors[0].is_set(), False)
        doors[0].set()
        lines = [mirror.stderr.readline() for _line in range(3)]
        same(lines, ["relay 0 need 30\n", "50 ids are planned\n", "2 connections fetch\n"])
        time.sleep(1.1)
        doors[1].set()
        lines = mirror.stderr.read().splitlines()
    late.cancel()
    out = mirror.stdout.read()
    same(out, "relay 0 need 30\nrelay 1 need 20\nleast 30\ngroup 0\ngiven 50\nmissed 0\nleft 0\n")
    same(lines[-2:], ["50 ids given, 0 missed, 0 left", "51 events are kept"])
    same([bool(re.fullmatch("[0-9]+ ids given, [0-9]+ missed, [0-9]+ left so far", line)) for line in lines[:-2]],
         [True] * max(1, len(lines) - 2))
    same(mirror.wait(), 0)
    for relay, _port in relays:
        relay.communicate(timeout=60)


def takes_events_where_it_may(path, folder):
    """The job `mirror` refuses clients' events unless its settings say otherwise."""
    new = event(1, "new")
    for values, answer in (({}, [False, "blocked: this relay takes no events"]), ({"read_only": False}, [True, ""])):
        mirror, port = run(path, folder, "mirror", "taking", **values)
        client = Client(port)
        client.send(json.dumps(["EVENT", new]).encode())
        same(json.loads(client.read()), ["OK", new["id"], *answer])
        client.close()
        mirror.kill()
        mirror.communicate()


def main():
    path = program()
    for part in (serves_meanwhile, keeps_what_came_in, ends_when_refused, waits_for_handshakes, gives_up_on_silence, lets_go_who_reads_nothing,
                 tells_progress, takes_events_where_it_may):
        with tempfile.TemporaryDirectory() as folder:
            part(path, folder)
        print(part.__name__.replace("_", " "))


if __name__ == "__main__":
    main()
