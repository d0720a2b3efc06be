#!/usr/bin/env python3
"""Sends a relay what no honest client sends, and looks whether it still answers.

    tests/hostile.py [PATH] [--messages N] [--seed S]     (PATH of the program; else the proved build)

Random and mutated texts, binary messages, frames that break RFC 6455, texts at and above the limit, connections that are left
half-open or cut off, readers that never read. After each kind an honest client asks for an event and gets it. At the end
the relay's file has to be whole, and its memory within the bound that docs/SECURITY.md states.
"""
import argparse
import json
import os
import random
import socket
import struct
import subprocess
import tempfile

from told import ROOT, event, same
from wire import Client, Gone

# Connections that a relay serves side by side.
READERS = 64
# The bytes of a text that is still read, and of a message that is still taken.
TEXT, MESSAGE = 2_200_000, 1 << 22


def mutated(rng, texts):
    """A text with some bytes changed, cut out or doubled."""
    text = bytearray(rng.choice(texts))
    for _ in range(rng.randrange(4)):
        at = rng.randrange(len(text) + 1)
        kind = rng.randrange(4)
        if kind == 0:
            text[at:at + rng.randrange(8)] = b""
        elif kind == 1:
            text[at:at] = bytes(rng.choice(b'[]{}",:\\u0123456789abcdef\x00\xff') for _ in range(rng.randrange(8)))
        elif kind == 2:
            text[at:at] = text[:rng.randrange(len(text) + 1)][:64]
        elif at < len(text):
            text[at] = rng.randrange(256)
    return bytes(text)


class Relay:
    def __init__(self, program, folder, connections):
        self.file = os.path.join(folder, "events.jsonl")
        self.one = event(1700000000, "honest")
        with open(self.file, "w", encoding="utf-8") as text:
            text.write(json.dumps(self.one) + "\n")
        conf = os.path.join(folder, "relay.toml")
        with open(conf, "w") as text:
            text.write('events = "%s"\nlisten = "127.0.0.1:0"\nconns = %d\n' % (self.file, connections))
        self.child = subprocess.Popen([program, "serve", conf], stdout=subprocess.PIPE, text=True)
        self.port = int(self.child.stdout.readline().rsplit(":", 1)[1])
        self.left = connections

    def client(self):
        self.left -= 1
        return Client(self.port)

    def raw(self):
        self.left -= 1
        return socket.create_connection(("127.0.0.1", self.port))

    def memory(self):
        with open("/proc/%d/status" % self.child.pid) as text:
            return next(int(line.split()[1]) / 1024 for line in text if line.startswith("VmHWM"))

    def answers(self, what):
        """An honest client asks, and is answered."""
        client = self.client()
        client.send(json.dumps(["REQ", "h", {"ids": [self.one["id"]]}]).encode())
        same(json.loads(client.read()), ["EVENT", "h", self.one])
        same(json.loads(client.read()), ["EOSE", "h"])
        client.close()
        print("%-44s %5.0f MiB" % (what, self.memory()), flush=True)

    def end(self):
        while self.left:
            self.client().close()
        said = self.child.stdout.read()
        same(self.child.wait(60), 0)
        with open(self.file, encoding="utf-8") as text:
            events = [json.loads(line) for line in text]
        same(events[0], self.one)
        same(said.splitlines()[1], "events %d" % len(events))


def honest_texts(relay):
    new = event(1700000001, "new \u00e9")
    return [json.dumps(it, ensure_ascii=False).encode() for it in (
        ["EVENT", new], ["REQ", "a", {"kinds": [1], "#t": ["x"], "limit": 3}, {"ids": [relay.one["id"]]}], ["CLOSE", "a"],
        ["NEG-OPEN", "n", {}, "6100000200"], ["NEG-MSG", "n", "6100000201" + "ab" * 32], ["NEG-CLOSE", "n"],
        ["NEG-OPEN", "n", {"since": 1, "until": 2}, "61" + "8100" * 9], ["REQ", "b", {"search": "x"}], ["COUNT", "c", {}])]


def send_random(relay, rng, count):
    """Texts of all sorts over a few connections; what comes back is thrown away."""
    texts = honest_texts(relay)
    for start in range(0, count, 20000):
        client = relay.client()
        client.socket.settimeout(120)
        for _ in range(min(count - start, 20000) // 50):
            batch = [mutated(rng, texts) for _ in range(49)]
            frames = [Client.frame(text, 1 if is_text(text) else 2) for text in batch]
            # A request of a name of its own ends the batch.
            frames.append(Client.frame(b'["REQ","end of batch",{"limit":0}]'))
            client.socket.sendall(b"".join(frames))
            while client.read() != b'["EOSE","end of batch"]':
                pass
        client.close()


def is_text(text):
    try:
        text.decode()
        return True
    except UnicodeDecodeError:
        return False


def break_frames(relay, rng):
    """Frames that RFC 6455 doesn't allow: each costs its own connection."""
    unmasked = struct.pack("!BB", 0x81, 2) + b"[]"
    for frame in (unmasked, b"\xf1\x80\0\0\0\0", b"\x83\x80\0\0\0\0", b"\x89\xfe\x01\x00" + bytes(4) + bytes(256),
                  b"\x81\xff" + b"\xff" * 8 + bytes(4), Client.frame(b"\xff\xfe", 1), b"\x80\x80\0\0\0\0"):
        client = relay.client()
        client.socket.settimeout(20)
        client.socket.sendall(frame)
        try:
            while True:
                client.read()
        except (Gone, OSError):
            pass
        client.socket.close()
    for _ in range(20):
        other = relay.raw()
        other.sendall(bytes(rng.randrange(256) for _ in range(rng.randrange(200))) + b"\r\n\r\n")
        other.close()


def send_long(relay):
    """Texts at the limit, just above it, and far above it."""
    too_long = b'["NOTICE","invalid: message too long"]'
    for size, wanted in ((TEXT, b'["NOTICE","invalid: bad message"]'), (TEXT + 1, too_long), (MESSAGE + 1, None), (10_000_000, None)):
        client = relay.client()
        client.socket.settimeout(60)
        try:
            client.send(b" " * size)
            found = client.read()
        except (Gone, OSError):
            found = None
        if wanted and found != wanted:
            raise SystemExit("a text of %d bytes: %r" % (size, found))
        client.socket.close()


def crowd(relay):
    """Requests of very many filters, events of very many tags, and subscriptions with very many values."""
    closed = lambda name: b'["CLOSED","%s","blocked: too many filters"]' % name
    ends = lambda name: b'["EOSE","%s"]' % name
    bad = b'["NOTICE","invalid: bad message"]'
    many = 500_000
    texts = [(b'["REQ","a"' + b",{}" * many + b"]", closed(b"a")), (b'["REQ","a"' + b",{}" * many + b",{]", bad),
             (b'["REQ","a"' + b",{}" * many + b',{"ids":[1]}]', bad), (b'["REQ","a"' + b",{}" * many + b",1]", bad),
             (b'["REQ",""' + b",{}" * many + b"]", bad), (b'["REQ","a"' + b",{}" * many + b"]]", bad),
             (b'["REQ","a"' + b",{}" * many + b",1e999]", bad), (b'["REQ"' + b",{}" * many + b"]", bad),
             (b' [ "\\u0052EQ" , "a" ' + b', {"a":1}' * 200_000 + b" ] ", closed(b"a")),
             (b'["REQ","a"' + b',{"a":[]}' * 200_000 + b',{"limit":-1}]', bad)]
    # Each value counts 57 bytes, and 4,000,000 are the most.
    held = [(b'["REQ","%d",{"limit":0,"#t":[%s]}]' % (at, b",".join([b'"%d"' % at] * count)), wanted(b"%d" % at))
            for at, count, wanted in ((0, many, closed), (1, 70_000, ends), (2, 175, ends), (3, 1, closed))]
    clients = [relay.client() for _ in range(2)]
    for text, wanted in texts + held:
        for client in clients:
            client.socket.settimeout(120)
            client.send(text)
        for client in clients:
            same(client.read().decode(), wanted.decode())
    for client in clients:
        client.close()


def never_end(relay):
    """Fragments without an end: the message that they make passes the limit."""
    client = relay.client()
    client.socket.settimeout(60)
    try:
        client.socket.sendall(Client.frame(b'["REQ","' + b"x" * 60000, 1).replace(b"\x81", b"\x01", 1))
        for _ in range(2000):
            frame = bytearray(Client.frame(b"x" * 60000, 0))
            frame[0] = 0
            client.socket.sendall(bytes(frame))
    except OSError:
        pass
    client.socket.close()


def never_read(relay, count):
    """Clients that ask for much and read nothing, and then go."""
    clients = [relay.client() for _ in range(count)]
    for client in clients:
        client.socket.setblocking(False)
        try:
            for _ in range(2000):
                client.socket.sendall(Client.frame(b'["REQ","a",{}]') * 50)
        except OSError:
            pass
    relay.answers("%d clients that never read" % count)
    for client in clients:
        client.socket.close()


def stay_silent(relay, count):
    """Connections that are opened, or begun, and left."""
    held = [relay.client() if i % 2 else relay.raw() for i in range(count)]
    relay.answers("%d silent connections" % count)
    for it in held:
        (it.socket if isinstance(it, Client) else it).close()


def main():
    parser = argparse.ArgumentParser(description=__doc__.split("\n")[0])
    parser.add_argument("program", nargs="?", default=os.path.join(ROOT, "crates/mirror_app/out/mirror_app"))
    parser.add_argument("--messages", type=int, default=100_000)
    parser.add_argument("--seed", type=int, default=1)
    options = parser.parse_args()
    rng = random.Random(options.seed)
    with tempfile.TemporaryDirectory() as folder:
        relay = Relay(options.program, folder, 400 + options.messages // 20000)
        try:
            relay.answers("at the start")
            send_random(relay, rng, options.messages)
            relay.answers("%d mutated messages" % options.messages)
            break_frames(relay, rng)
            relay.answers("broken frames and handshakes")
            send_long(relay)
            relay.answers("long texts")
            crowd(relay)
            relay.answers("very many filters and values")
            never_end(relay)
            relay.answers("a message without an end")
            never_read(relay, READERS - 1)
            relay.answers("once they are gone")
            stay_silent(relay, READERS - 1)
            relay.answers("once they are gone")
            relay.end()
        finally:
            relay.child.kill()
            relay.child.wait()
    print("the relay ended well, and its file is whole")


if __name__ == "__main__":
    main()
