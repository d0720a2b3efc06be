#!/usr/bin/env python3
"""Says texts to `nostr-mirror serve`, one after another, and compares all that a client is sent for each.

    tests/conns.py [PATH]      (PATH of the program; else the proved build)

Each play is one of a client with a relay that has no events yet, beside another client that only gives events. Behind each text
goes a ping: what comes before its pong was sent for that text. The wanted answers are those of docs/FORMATS.md, "A relay's
answers".
"""
import concurrent.futures
import hashlib
import http.client
import json
import os
import socket
import struct
import subprocess
import tempfile
import threading
import time

from told import program, read, same, settings, start
from wire import Client, Gone

# The limits of a connection.
SUBS, FILTERS, TEXT, SESSIONS = 32, 16, 2_200_000, 16
# For how many seconds it is watched that nothing more comes.
WATCHED = 0.1


def small(number):
    """The event of that number, its content. Number 1 has the time 9 and every other one the time 10; of the ids of 1, 2 and 3 that of
    3 is the lowest."""
    draft = [0, "01" * 32, 9 if number == 1 else 10, 1, [], str(number)]
    text = json.dumps(draft, separators=(",", ":"))
    return {"id": hashlib.sha256(text.encode()).hexdigest(), "pubkey": draft[1], "created_at": draft[2], "kind": 1, "tags": [],
            "content": draft[5], "sig": "5a" * 64}


EVENTS = {str(number): small(number) for number in range(1, 41)}
NUMBERS = {event["id"]: number for number, event in EVENTS.items()}


def shown(text):
    """A message in short: an event is told by the subscription and its number, which stands for its id too."""
    message = json.loads(text)
    if message[0] == "EVENT":
        same(message[2], EVENTS[message[2]["content"]])
        return "%s %s" % (message[1], message[2]["content"])
    if message[0] == "OK":
        return "%s %s %s" % (NUMBERS[message[1]], json.dumps(message[2]), message[3])
    return text.decode()


class Talker(Client):
    """A client that tells what it is sent for each text."""

    def __init__(self, port):
        super().__init__(port)
        self.socket.settimeout(30)
        self.pings = 0

    def sent_until_pong(self):
        """The texts that come before the pong of a new ping."""
        self.pings += 1
        beat = b"%d" % self.pings
        self.socket.sendall(self.frame(beat, 9))
        texts = []
        while (found := self.next()) != (10, beat):
            same(found[0], 1)
            texts.append(shown(found[1]))
        return texts

    def answers(self, text):
        self.send(text.encode())
        return self.sent_until_pong()

    def sent_for(self, text, opcode, payload):
        """The texts that come for a text and a control frame in one write, before the answer to the latter."""
        self.socket.sendall(self.frame(text.encode()) + self.frame(payload, opcode))
        texts = []
        try:
            while (found := self.next())[0] == 1:
                texts.append(shown(found[1]))
            same(found, (10, payload))
        except Gone:
            same(opcode, 8)
        return texts

    def pushed(self, count):
        """The texts that come by themselves, where there are to be so many."""
        texts = [shown(self.read()) for _text in range(count)]
        time.sleep(WATCHED)
        return texts + self.sent_until_pong()


def gives(number):
    return json.dumps(["EVENT", EVENTS[str(number)]])


def other(number, *pushed):
    """A step: the other client gives the event of that number, of which this one is sent so much."""
    return number, list(pushed)


def step(client, beside, what, count):
    """All that the client is sent for a step, which is to be so many texts."""
    if isinstance(what, int):
        same(beside.answers(gives(what)), ["%d true " % what])
        return client.pushed(count)
    return client.answers(what)


def given_in(steps):
    """The events that are given, each once."""
    numbers = [what if isinstance(what, int) else wanted[0].split()[0]
               for what, wanted in steps if isinstance(what, int) or wanted and wanted[0].endswith(" true ")]
    return [EVENTS[str(number)] for number in numbers]


def play(path, steps, **values):
    """Does each step, and compares what the client is sent for it. The relay's file then has the events that were given."""
    with tempfile.TemporaryDirectory() as folder:
        conf = settings(folder, "relay", listen="127.0.0.1:0", conns=2, **values)
        relay, port = start(path, "serve", conf)
        try:
            client, beside = Talker(port), Talker(port)
            for number, (what, wanted) in enumerate(steps):
                at = [number, str(what)[:200]]
                same(at + step(client, beside, what, len(wanted)), at + wanted)
            client.close()
            beside.close()
            given = given_in(steps)
            same(relay.communicate(timeout=60), ("served 2\nevents %d\n" % len(given), ""))
            if given:
                same(read(os.path.join(folder, "relay.jsonl")), given)
        finally:
            relay.kill()
            relay.communicate()


# How many clients there are at once, of the 64 that a relay serves side by side.
CROWD = 40


def met(client, number, all_here):
    """The numbers of the events that come to a client which gives its own once all are there."""
    client.answers(req("s"))
    all_here.wait(30)
    client.send(gives(number).encode())
    come, is_taken = set(), False
    while len(come) < CROWD or not is_taken:
        text = shown(client.read())
        if text.startswith("s "):
            same([text, text in come], [text, False])
            come.add(text)
        else:
            same(text, "%d true " % number)
            is_taken = True
    # Nothing comes twice.
    same(client.sent_until_pong(), [])
    client.close()
    return come


def a_crowd_meets(path):
    """Many clients at once: each gives an event, and gets that of each other once, by itself."""
    with tempfile.TemporaryDirectory() as folder, concurrent.futures.ThreadPoolExecutor(CROWD) as pool:
        relay, port = start(path, "serve", settings(folder, "relay", listen="127.0.0.1:0", conns=CROWD))
        try:
            all_here, clients = threading.Barrier(CROWD), [Talker(port) for _ in range(CROWD)]
            runs = [pool.submit(met, client, number, all_here) for number, client in enumerate(clients, 1)]
            wanted = {"s %d" % number for number in range(1, CROWD + 1)}
            for run in runs:
                same(sorted(run.result()), sorted(wanted))
            same(relay.communicate(timeout=60), ("served %d\nevents %d\n" % (CROWD, CROWD), ""))
            same(sorted(it["content"] for it in read(os.path.join(folder, "relay.jsonl"))),
                 sorted(EVENTS[str(number)]["content"] for number in range(1, CROWD + 1)))
        finally:
            relay.kill()
            relay.communicate()


# After how many milliseconds silent clients are sent a ping.
PING_MS = 1_000


def the_silent_go(path):
    """A client that brings nothing and answers no ping loses its place, and so does one that comes no further in its handshake. One that
    answers keeps its own."""
    with tempfile.TemporaryDirectory() as folder, concurrent.futures.ThreadPoolExecutor(2) as pool:
        relay, port = start(path, "serve", settings(folder, "relay", listen="127.0.0.1:0", conns=4, clients=2, ping_ms=PING_MS))
        try:
            listening, silent = Talker(port), Talker(port)
            same(listening.answers(req("a")), [eose("a")])
            # It answers pings until that comes.
            told = pool.submit(listening.read)
            same(silent.take(2), b"\x89\0")
            same(silent.socket.recv(4096), b"")
            half = socket.create_connection(("127.0.0.1", port), 30)
            pool.submit(drip, half)
            honest = Talker(port)
            same(honest.answers(gives(1)), ["1 true "])
            same(shown(told.result(30)), "a 1")
            honest.close()
            listening.close()
            same(relay.communicate(timeout=60), ("served 4\nevents 1\n", ""))
        finally:
            relay.kill()
            relay.communicate()


def drip(half):
    """Begins a handshake, and goes on with it by a byte now and then."""
    half.sendall(b"GET / HTTP/1.1\r\nHost: a\r\nA: ")
    try:
        while True:
            half.sendall(b"x")
            time.sleep(0.05)
    except OSError:
        pass


def no_document_is_given(path):
    """A browser or a health check is told what this is; what is no HTTP at all too. What breaks off isn't."""
    with tempfile.TemporaryDirectory() as folder:
        relay, port = start(path, "serve", settings(folder, "relay", listen="127.0.0.1:0", conns=4))
        try:
            page = http.client.HTTPConnection("127.0.0.1", port, timeout=30)
            page.request("GET", "/")
            answer = page.getresponse()
            same([answer.status, answer.reason, answer.getheader("Upgrade"), answer.read()],
                 [426, "Upgrade Required", "websocket", b"This is a Nostr relay: it speaks WebSocket (NIP-01, NIP-77).\n"])
            for said, wanted in ((b"\x16\x03\x01\r\n\r\n", b"HTTP/1.1 426 "), (b"GET / HTTP/1.1\r\n", b"")):
                with socket.create_connection(("127.0.0.1", port), 30) as stranger:
                    stranger.sendall(said)
                    stranger.shutdown(socket.SHUT_WR)
                    same(stranger.recv(13), wanted)
            client = Talker(port)
            same(client.answers(gives(1)), ["1 true "])
            client.close()
            same(relay.communicate(timeout=60), ("served 4\nevents 1\n", ""))
        finally:
            relay.kill()
            relay.communicate()


# So many clients there are at once where `clients` allows it.
THRONG = 200


def a_throng_is_served(path):
    """More clients than 64 are served side by side where `clients` says so: each gets what is published while all are there."""
    with tempfile.TemporaryDirectory() as folder:
        relay, port = start(path, "serve",
                            settings(folder, "relay", listen="127.0.0.1:0", conns=THRONG, clients=THRONG))
        try:
            clients = [Talker(port) for _ in range(THRONG)]
            for client in clients:
                same(client.answers(req("s")), [eose("s")])
            clients[0].send(gives(1).encode())
            same(sorted(shown(clients[0].read()) for _ in range(2)), ["1 true ", "s 1"])
            for client in clients[1:]:
                same(shown(client.read()), "s 1")
            for client in clients:
                client.close()
            same(relay.communicate(timeout=60), ("served %d\nevents 1\n" % THRONG, ""))
        finally:
            relay.kill()
            relay.communicate()


def eose(sub):
    return json.dumps(["EOSE", sub], ensure_ascii=False, separators=(",", ":"))


def req(sub, *filters):
    return '["REQ","%s",%s]' % (sub, ",".join(filters or ("{}",)))


def neg_err(sub, text):
    return '["NEG-ERR","%s","%s"]' % (sub, text)


def closed(sub, text):
    return '["CLOSED","%s","%s"]' % (sub, text)


def neg_open(sub, message, about="{}"):
    return '["NEG-OPEN","%s",%s,"%s"]' % (sub, about, message)


def neg_msg(sub, message):
    return '["NEG-MSG","%s","%s"]' % (sub, message)


def the_newest_are_chosen(path):
    """And of one time the lowest id first."""
    play(path, [
        (gives(1), ["1 true "]),
        (gives(2), ["2 true "]),
        (gives(3), ["3 true "]),
        (req("a", '{"limit":2}'), ["a 3", "a 2", eose("a")]),
        (req("a", '{"limit":1}'), ["a 3", eose("a")]),
        (req("a", '{"limit":0}'), [eose("a")]),
        (req("a", '{"until":9}', '{"limit":1}'), ["a 3", "a 1", eose("a")]),
    ])


def events_are_sent_once(path):
    play(path, [
        (req("a"), [eose("a")]),
        (gives(1), ["1 true ", "a 1"]),
        (req("b"), ["b 1", eose("b")]),
        (gives(1), ["1 true duplicate: already have this event"]),
        other(2, "a 2", "b 2"),
        ('["CLOSE","c"]', []),
        other(3, "a 3", "b 3"),
        (req("aa"), ["aa 3", "aa 2", "aa 1", eose("aa")]),
        ('["CLOSE","c"]', []),
    ])


DUPLICATE = "%d true duplicate: already have this event"
TAKES_NONE = "blocked: this relay takes no events"


def events_that_come_together(path):
    """Texts in one write: each is answered in turn, and a request finds all that came before it."""
    with tempfile.TemporaryDirectory() as folder:
        relay, port = start(path, "serve", settings(folder, "relay", listen="127.0.0.1:0", conns=1))
        try:
            client = Talker(port)
            texts = [gives(1), gives(2), gives(1), '["EVENT",{}]', '["EVENT",{"id":"%s"}]' % EVENTS["4"]["id"], gives(3), req("a"),
                     gives(4)] + [gives(5)] * 130
            client.send(*(text.encode() for text in texts))
            wanted = ["1 true ", "2 true ", DUPLICATE % 1, '["NOTICE","invalid: bad message"]', "4 false invalid: bad event", "3 true ",
                      "a 3", "a 2", "a 1", eose("a"), "4 true ", "5 true "] + [DUPLICATE % 5] * 129
            told = [shown(client.read()) for _text in range(len(wanted) + 2)]
            # What was published comes behind some of the answers.
            same([text for text in told if text not in ("a 4", "a 5")], wanted)
            same([text for text in told if text in ("a 4", "a 5")], ["a 4", "a 5"])
            # Events wait no longer than for a ping or a close, and their answers leave before the pong and the other close.
            same(client.sent_for(gives(6), 9, b"beat"), ["6 true ", "a 6"])
            same(client.sent_for(gives(7), 8, struct.pack("!H", 1000)), ["7 true ", "a 7"])
            same(relay.communicate(timeout=60), ("served 1\nevents 7\n", ""))
            same(read(os.path.join(folder, "relay.jsonl")), [EVENTS[str(number)] for number in range(1, 8)])
        finally:
            relay.kill()
            relay.communicate()


def events_are_refused(path):
    """Where the settings say so. All else is as before, and a bad event is told as such."""
    play(path, [
        (gives(1), ["1 false " + TAKES_NONE]),
        (gives(1), ["1 false " + TAKES_NONE]),
        ('["EVENT",{"id":"%s"}]' % EVENTS["4"]["id"], ["4 false invalid: bad event"]),
        (req("a"), [eose("a")]),
        (neg_open("s", "6100000200"), [neg_msg("s", "6100000200")]),
    ], read_only=True)
    play(path, [(gives(1), ["1 true "])], read_only=False)


def events_come_by_themselves(path):
    play(path, [
        (req("a"), [eose("a")]),
        other(1, "a 1"),
        (req("b"), ["b 1", eose("b")]),
        other(2, "a 2", "b 2"),
        ('["CLOSE","a"]', []),
        other(3, "b 3"),
    ], push_ms=60_000)


def names_in_byte_order(path):
    """Each event once to each, with its own filters and its own mark."""
    play(path, [
        (req("b"), [eose("b")]),
        (req("é", '{"until":9}', "{}"), [eose("é")]),
        (req("B", '{"until":9}'), [eose("B")]),
        other(2, "b 2", "é 2"),
        (req("a"), ["a 2", eose("a")]),
        other(1, "B 1", "a 1", "b 1", "é 1"),
        (req("aa", '{"since":10}'), ["aa 2", eose("aa")]),
        other(3, "a 3", "aa 3", "b 3", "é 3"),
        ('["CLOSE","b"]', []),
        ('["CLOSE","c"]', []),
    ])
    # In the order in which events were published, and not by time or by id.
    play(path, [
        (req("b"), [eose("b")]),
        (req("é", '{"until":9}', "{}"), [eose("é")]),
        (req("B", '{"until":9}'), [eose("B")]),
        other(2, "b 2", "é 2"),
        other(1, "B 1", "b 1", "é 1"),
        other(3, "b 3", "é 3"),
        (req("a"), ["a 3", "a 2", "a 1", eose("a")]),
        ('["CLOSE","b"]', []),
        other(4, "a 4", "é 4"),
        (req("aa", '{"limit":0}'), [eose("aa")]),
        other(5, "a 5", "aa 5", "é 5"),
    ])


def subscriptions_end(path):
    """A subscription is replaced, closed, or refused, which ends it too."""
    names = ["s%02d" % number for number in range(SUBS)]
    too_many = "blocked: too many subscriptions"
    play(path, [(req(name), [eose(name)]) for name in names] + [
        (req("t"), [closed("t", too_many)]),
        other(1, *(name + " 1" for name in names)),
        (req("s00", '{"until":9}'), ["s00 1", eose("s00")]),
        other(2, *(name + " 2" for name in names[1:])),
        (req("s00"), ["s00 2", "s00 1", eose("s00")]),
        (req("s00", *["{}"] * FILTERS), ["s00 2", "s00 1", eose("s00")]),
        (req("t", *["{}"] * (FILTERS + 1)), [closed("t", "blocked: too many filters")]),
        (req("s00", *["{}"] * (FILTERS + 1)), [closed("s00", "blocked: too many filters")]),
        other(3, *(name + " 3" for name in names[1:])),
        (req("t", '{"limit":0}'), [eose("t")]),
        (req("s00"), [closed("s00", too_many)]),
        ('["CLOSE","t"]', []),
        (req("s00", '{"limit":0}'), [eose("s00")]),
    ])


def texts_that_are_no_messages(path):
    """And sessions about no events."""
    bad = '["NOTICE","invalid: bad message"]'
    play(path, [
        ("hello", [bad]),
        (neg_msg("zz", "61"), [neg_err("zz", "closed: no such session")]),
        (neg_open("s", "6100000200"), [neg_msg("s", "6100000200")]),
        (neg_open("s", "6200000200"), [neg_msg("s", "61")]),
        (neg_msg("s", "6100000200"), [neg_msg("s", "6100000200")]),
        (neg_open("s", "6105"), [neg_err("s", "invalid: bad message")]),
        (neg_msg("s", "61"), [neg_err("s", "closed: no such session")]),
        ('["CLOSE","s"]', []),
        ('["NEG-CLOSE","s"]', []),
        ('["EVENT",{}]', [bad]),
        ('["EVENT",{"id":"%s"}]' % EVENTS["1"]["id"], ["1 false invalid: bad event"]),
        ('["REQ","a"]', [bad]),
    ])


ONE = "6100000201" + EVENTS["1"]["id"]
TWO = "6100000202" + EVENTS["1"]["id"] + EVENTS["2"]["id"]


def sessions_keep_what_they_found(path):
    """A filter's limit has no part in it."""
    play(path, [
        (gives(1), ["1 true "]),
        (neg_open("s", "6100000200", '{"limit":0}'), [neg_msg("s", ONE)]),
        (gives(2), ["2 true "]),
        (neg_msg("s", "6100000200"), [neg_msg("s", ONE)]),
        (req("s", '{"until":9}'), ["s 1", eose("s")]),
        ('["CLOSE","s"]', []),
        (neg_msg("s", "6100000200"), [neg_msg("s", ONE)]),
        (neg_open("s", "6100000200"), [neg_msg("s", TWO)]),
        ('["NEG-CLOSE","t"]', []),
        ('["NEG-CLOSE","s"]', []),
        (neg_msg("s", "6100000200"), [neg_err("s", "closed: no such session")]),
    ])


def sessions_end(path):
    """A session is replaced, closed, or refused, which ends it too."""
    names = ["s%02d" % number for number in range(SESSIONS)]
    too_many, none = "blocked: too many sessions", "closed: no such session"
    play(path, [(gives(1), ["1 true "])] + [(neg_open(name, "6100000200"), [neg_msg(name, ONE)]) for name in names] + [
        (neg_open("t", "61"), [neg_err("t", too_many)]),
        # That comes before a bad message.
        (neg_open("t", "6105"), [neg_err("t", too_many)]),
        (neg_msg("t", "61"), [neg_err("t", none)]),
        (neg_msg("s00", "61"), [neg_msg("s00", "61")]),
        (gives(2), ["2 true "]),
        (neg_open("s00", "6100000200"), [neg_msg("s00", TWO)]),
        (neg_open("s00", "6105"), [neg_err("s00", "invalid: bad message")]),
        (neg_msg("s00", "61"), [neg_err("s00", none)]),
        (neg_open("t", "6100000200", '{"until":9}'), [neg_msg("t", ONE)]),
        (neg_open("s00", "61"), [neg_err("s00", too_many)]),
        (neg_msg("s01", "6105"), [neg_err("s01", "invalid: bad message")]),
        (neg_open("s00", "61"), [neg_msg("s00", "61")]),
        ('["NEG-CLOSE","s02"]', []),
        (neg_open("s01", "61"), [neg_msg("s01", "61")]),
        (neg_open("s02", "61"), [neg_err("s02", too_many)]),
    ])


def long_texts(path):
    """Bytes are counted, and not characters."""
    most = '["CLOSE","s","%s"]' % ("é" * ((TEXT - 16) // 2))
    same(len(most.encode()), TEXT)
    play(path, [
        (most, []),
        (most.replace("CLOSE", "CLOSED"), ['["NOTICE","invalid: message too long"]']),
        (most, []),
    ])


class Bad(Exception):
    """Bytes that are no message."""


def number_at(data, at):
    """The number that stands at a place, and the place behind it."""
    if data[at:at + 1] == b"\x80":
        raise Bad
    value = 0
    for place in range(at, len(data)):
        value = value << 7 | data[place] & 127
        if value >> 64:
            raise Bad
        if data[place] < 128:
            return value, place + 1
    raise Bad


def behind(data, at, count):
    """The place so many bytes further on."""
    if at + count > len(data):
        raise Bad
    return at + count


def range_at(data, at, bound):
    """The bound of the range that stands at a place, none at infinity, and the place behind it."""
    code, at = number_at(data, at)
    size, at = number_at(data, at)
    end = behind(data, at, size)
    found = (bound[0] + code - 1, data[at:end].ljust(32, b"\0")) if code else None
    mode, at = number_at(data, end)
    if size > 32 or mode > 2 or code and (found[0] >= (1 << 64) - 1 or found < bound):
        raise Bad
    if mode == 1:
        at = behind(data, at, 16)
    if mode == 2:
        count, at = number_at(data, at)
        at = behind(data, at, 32 * count)
    return found, at


def is_answered(data):
    """Whether bytes are a message, or one of another version (docs/FORMATS.md, "Messages")."""
    if data[:1] != b"\x61":
        return bool(data)
    at, bound = 1, (0, bytes(32))
    try:
        while at < len(data):
            if bound is None:
                return False
            bound, at = range_at(data, at, bound)
    except Bad:
        return False
    return True


def session_of(client, data):
    """Compares how a session is answered and goes on, or is ended, where its first message is this one, and where its second is."""
    plain, text = neg_msg("s", "61"), data.hex()
    client.send(*(said.encode() for said in (neg_open("s", text), plain, neg_open("s", "61"), neg_msg("s", text), plain)))
    found = [json.loads(client.read()) for _answer in range(5)]
    bad, none = json.loads(neg_err("s", "invalid: bad message")), json.loads(neg_err("s", "closed: no such session"))
    good = is_answered(data)
    same([data.hex(), [it if it[0] == "NEG-ERR" else it[:2] for it in found]],
         [data.hex(), [["NEG-MSG", "s"]] * 5 if good else [bad, none, ["NEG-MSG", "s"], bad, none]])


# Messages of which some are bad, and some have bad beginnings.
MESSAGES = ["6100000000", "610600020101" + "01" * 31, "610601020001010100", "610601020001010200", "610001ff00", "6200000200"]


def beginnings_of_messages(path):
    """Of those, and of the reply to a mirror without items about 400 at the times from 0 on."""
    items = "".join("%d %02x%02x%s\n" % (at, at % 256, at // 256, "07" * 30) for at in range(400))
    ran = subprocess.run([path, "recon", "--limit", "4096"], input="mine\ntheirs\n" + items, capture_output=True, text=True,
                         timeout=60, check=True)
    reply = bytes.fromhex(ran.stdout.splitlines()[1].removeprefix("reply "))
    same(len(reply), 3_992)
    with tempfile.TemporaryDirectory() as folder:
        relay, port = start(path, "serve", settings(folder, "relay", listen="127.0.0.1:0", conns=1))
        try:
            client = Client(port)
            client.socket.settimeout(30)
            for whole in [bytes.fromhex(text) for text in MESSAGES] + [reply]:
                for size in range(len(whole) + 1):
                    session_of(client, whole[:size])
            client.close()
            same(relay.communicate(timeout=60), ("served 1\nevents 0\n", ""))
        finally:
            relay.kill()
            relay.communicate()


def main():
    path = program()
    for part in (the_newest_are_chosen, events_are_sent_once, events_that_come_together, events_are_refused, events_come_by_themselves,
                 a_crowd_meets, a_throng_is_served, the_silent_go, no_document_is_given,
                 names_in_byte_order, subscriptions_end, texts_that_are_no_messages, sessions_keep_what_they_found,
                 sessions_end, long_texts, beginnings_of_messages):
        part(path)
        print(part.__name__.replace("_", " "))


if __name__ == "__main__":
    main()
