#!/usr/bin/env python3
"""Many clients of `nostr-mirror serve` side by side, and clients that behave badly beside them.

    tests/hall.py [PATH]      (PATH of the program; else the proved build)

Two thousand subscribers are sent each event once, and so are those that subscribe meanwhile. One that takes nothing of
what it asked for keeps nobody waiting, costs little memory, and goes after `timeout_ms`; long answers wait as messages,
and long texts are read in turn. Frames may come byte by byte, in fragments, with pings between. Once the last
connection has come in nobody gets through to a relay that won't serve him, and the job ends though a client stays that
says nothing.
"""
import contextlib
import json
import os
import resource
import socket
import tempfile
import time

from conns import EVENTS, Talker, eose, gives, req, shown
from told import event, program, same, settings, start, written
from wire import Client, Gone

# As many as the system gives descriptors for, on each side.
MOST = resource.getrlimit(resource.RLIMIT_NOFILE)[1]
SUBSCRIBERS = 2_000 if MOST == resource.RLIM_INFINITY else min(2_000, MOST - 100)


def peak(pid):
    """The greatest resident memory of a process so far, in MiB."""
    with open("/proc/%d/status" % pid) as text:
        return next(int(line.split()[1]) / 1024 for line in text if line.startswith("VmHWM"))


@contextlib.contextmanager
def serving(path, folder, **values):
    """A relay with these settings, and its port. It is gone in the end."""
    relay, port = start(path, "serve", settings(folder, "relay", listen="127.0.0.1:0", **values))
    try:
        yield relay, port
    finally:
        relay.kill()
        relay.communicate()


def two_thousand_are_served(path, folder):
    resource.setrlimit(resource.RLIMIT_NOFILE, (SUBSCRIBERS + 100, MOST))
    with serving(path, folder, conns=SUBSCRIBERS, clients=SUBSCRIBERS) as (relay, port):
        clients = [Talker(port) for _ in range(SUBSCRIBERS)]
        for client in clients:
            client.send(req("s").encode())
        for client in clients:
            same(shown(client.read()), eose("s"))
        giver = clients[0]
        for number in range(1, 4):
            giver.send(gives(number).encode())
            same(sorted(shown(giver.read()) for _ in range(2)), ["%d true " % number, "s %d" % number])
        for client in clients[1:]:
            same([shown(client.read()) for _ in range(3)], ["s 1", "s 2", "s 3"])
        # Nothing comes twice.
        for client in clients:
            same(client.sent_until_pong(), [])
            client.close()
        same(relay.communicate(timeout=60), ("served %d\nevents 3\n" % SUBSCRIBERS, ""))


def nobody_misses_news(path, folder):
    """Sixty clients subscribe one after another while another gives six hundred events: each is sent each event once."""
    events = [event(1_700_000_000 + number, str(number)) for number in range(600)]
    with serving(path, folder, conns=61, clients=61, fsync="no") as (relay, port):
        giver, clients = Talker(port), [Talker(port) for _ in range(60)]
        for number, it in enumerate(events):
            giver.send(json.dumps(["EVENT", it]).encode())
            if number % 10 == 0:
                clients[number // 10].send(req("s").encode())
        for _ in events:
            giver.read()
        for client in clients:
            texts = [json.loads(client.read()) for _ in range(len(events) + 1)]
            same(sorted(int(it[2]["content"]) for it in texts if it[0] == "EVENT"), list(range(600)))
            same(client.sent_until_pong(), [])
            client.close()
        giver.close()
        same(relay.communicate(timeout=60), ("served 61\nevents 600\n", ""))


def one_takes_nothing(path, folder):
    """It asks for 20 MB again and again."""
    events = [dict(EVENTS["1"])]
    lines = os.path.join(folder, "relay.jsonl")
    written(lines, events)
    with serving(path, folder, conns=3, timeout_ms=1_500) as (relay, port):
        deaf, other = Client(port), Talker(port)
        deaf.socket.setsockopt(socket.SOL_SOCKET, socket.SO_RCVBUF, 4_096)
        large = json.dumps(["REQ", "a", *[{}] * 16]).encode()
        deaf.socket.setblocking(False)
        sent, frame = 0, Client.frame(large) * 200
        until = time.time() + 1
        while time.time() < until:
            try:
                sent += deaf.socket.send(frame)
            except BlockingIOError:
                time.sleep(0.01)
                same(other.answers(req("b")), ["b 1", eose("b")])
        same(sent > 0, True)
        same(other.answers(gives(2)), ["2 true ", "b 2"])
        same(peak(relay.pid) < 60, True)
        # It has lost its place.
        time.sleep(3)
        deaf.socket.setblocking(True)
        deaf.socket.settimeout(30)
        try:
            while deaf.socket.recv(1 << 20):
                pass
        except ConnectionError:
            pass
        same(other.answers(req("c", '{"limit":1}')), ["c 2", eose("c")])
        other.close()
        Client(port).socket.close()
        same(relay.communicate(timeout=60), ("served 3\nevents 2\n", ""))


def long_answers_wait_as_messages(path, folder):
    """Twenty clients ask for 20 MB each and read nothing until all have asked. What waits shares its events with the store."""
    held = [event(1_700_000_000 + number, "%d " % number + "a" * 1_000_000) for number in range(20)]
    written(os.path.join(folder, "relay.jsonl"), held)
    with serving(path, folder, conns=20) as (relay, port):
        clients = [Talker(port) for _ in range(20)]
        for client in clients:
            client.send(req("a").encode())
            client.socket.sendall(Client.frame(b"beat", 9))
        clients[0].send(json.dumps(["EVENT", event(1_800_000_000, "last")]).encode())
        time.sleep(1)
        same(peak(relay.pid) < 200, True)
        wanted = [it["content"] for it in reversed(held)]
        for client in clients:
            for content in wanted:
                message = json.loads(client.read())
                same([message[1], message[2]["content"]], ["a", content])
            same(client.read().decode(), eose("a"))
            same(client.next(), (10, b"beat"))
            texts = [json.loads(client.read()) for _ in range(2 if client is clients[0] else 1)]
            same(sorted(it[0] for it in texts), ["EVENT", "OK"][:len(texts)])
            same(client.sent_until_pong(), [])
            client.close()
        same(relay.communicate(timeout=60), ("served 20\nevents 21\n", ""))


def long_texts_are_read_in_turn(path, folder):
    """Each of sixteen clients sends texts of a megabyte between short ones, in pieces and at once. All are answered in their order."""
    with serving(path, folder, conns=17) as (relay, port):
        clients, other = [Talker(port) for _ in range(16)], Talker(port)
        long = req("l", '{"#t":["%s"]}' % ("v" * 1_000_000)).encode()
        frames = b"".join(Client.frame(text) for text in (req("a").encode(), long, req("b").encode(), long, req("c").encode()))
        for start_at in range(0, len(frames), 300_000):
            for client in clients:
                client.socket.sendall(frames[start_at:start_at + 300_000])
            same(other.answers(req("o")), [eose("o")])
        for client in clients:
            same([shown(client.read()) for _ in range(5)], [eose(sub) for sub in "alblc"])
            same(client.sent_until_pong(), [])
        same(peak(relay.pid) < 200, True)
        for client in [other, *clients]:
            client.close()
        same(relay.communicate(timeout=60), ("served 17\nevents 0\n", ""))


def frames_come_in_pieces(path, folder):
    """Byte by byte, in fragments, with pings between, and in a message of four megabytes."""
    with serving(path, folder, conns=1) as (relay, port):
        client = Talker(port)
        for byte in Client.frame(gives(1).encode()) + Client.frame(b"", 9):
            client.socket.sendall(bytes([byte]))
        same([client.next(), client.next()], [(1, json.dumps(["OK", EVENTS["1"]["id"], True, ""], separators=(",", ":")).encode()), (10, b"")])
        text = req("a").encode()
        parts = [client.frame(text[:3], 1), client.frame(b"x", 9), client.frame(text[3:9], 0), client.frame(b"y", 9), client.frame(text[9:], 0)]
        # All but the last are no last fragments.
        for place in (0, 2):
            parts[place] = bytes([parts[place][0] & 0x7F]) + parts[place][1:]
        client.socket.sendall(b"".join(parts))
        same(client.next(), (10, b"x"))
        same(client.next(), (10, b"y"))
        same([shown(client.read()) for _ in range(2)], ["a 1", eose("a")])
        client.send(b'["' + b"a" * 4_190_000 + b'"]')
        same(shown(client.read()), '["NOTICE","invalid: message too long"]')
        client.close()
        same(relay.communicate(timeout=60), ("served 1\nevents 1\n", ""))


def the_last_bytes_are_read(path, folder):
    """Messages of each length around the sizes of buffers are answered at once, and so is one behind which the client's side ends."""
    with serving(path, folder, conns=2) as (relay, port):
        client = Talker(port)
        for power in range(10, 18):
            for length in range(2**power - 24, 2**power + 4):
                client.send(b'["' + b"a" * (length - 4) + b'"]')
                same(shown(client.read()), '["NOTICE","invalid: bad message"]')
        client.close()
        last = Talker(port)
        last.socket.sendall(Client.frame(req("a").encode()))
        last.socket.shutdown(socket.SHUT_WR)
        same(shown(last.read()), eose("a"))
        same(relay.communicate(timeout=20), ("served 2\nevents 0\n", ""))


def nobody_comes_to_a_deaf_relay(path, folder):
    """Behind the last connection the relay doesn't listen any more, and it ends once that client has said nothing for `timeout_ms`."""
    with serving(path, folder, conns=2, timeout_ms=1_000) as (relay, port):
        first, last = Talker(port), Talker(port)
        same(first.answers(req("a")), [eose("a")])
        same(last.answers(req("a")), [eose("a")])
        time.sleep(0.5)
        try:
            socket.create_connection(("127.0.0.1", port), timeout=5)
            raise AssertionError("it still listens")
        except ConnectionRefusedError:
            pass
        first.close()
        same(relay.communicate(timeout=30), ("served 2\nevents 0\n", ""))
        try:
            last.read()
            raise AssertionError("it is still connected")
        except (Gone, ConnectionError):
            pass


def main():
    path = program()
    for part in (two_thousand_are_served, nobody_misses_news, one_takes_nothing, long_answers_wait_as_messages,
                 long_texts_are_read_in_turn, frames_come_in_pieces, the_last_bytes_are_read, nobody_comes_to_a_deaf_relay):
        with tempfile.TemporaryDirectory() as folder:
            part(path, folder)
        print(part.__name__.replace("_", " "))


if __name__ == "__main__":
    main()
