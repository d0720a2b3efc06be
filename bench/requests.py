#!/usr/bin/env python3
"""Measures what requests and texts of the costliest shapes take of `serve`.

    bench/requests.py [--mirror PATH] [--only WORD,WORD,..]

Each row sends texts of a shape in growing sizes, one at a time over one connection, and shows the relay's processor time and
its peak of resident memory, of which the events of the store are a part. Time that grows with the size, or a little faster, is
as it should be.
"""
import argparse
import hashlib
import json
import os
import random
import sys
import tempfile

from inputs import compact, identity
from measure import program_of
from relay import Serving, peak, spent
from wire import Client

# The bytes of a text that is still read.
TEXT = 2_200_000


def event(kind, tags, content, time=1_700_000_000):
    """An event with a right id."""
    draft = [0, "11" * 32, time, kind, tags, content]
    return {"content": content, "created_at": time, "id": hashlib.sha256(compact(draft).encode()).hexdigest(),
            "kind": kind, "pubkey": draft[1], "sig": "22" * 64, "tags": tags}


def stored(count, tags=0):
    """Small events, each with so many tags `t`."""
    return [event(1, [["t", "tag %d" % k] for k in range(tags)], str(i), 1_700_000_000 + i) for i in range(count)]


class Relay:
    """A relay that holds some events, and a client of it."""

    def __init__(self, program, folder, events, connections=1):
        self.relay = Serving(program, folder, "asked", connections, [compact(it) + "\n" for it in events])
        self.client = Client(self.relay.port)

    def took(self, *texts):
        """The processor time that the relay takes for the texts, and what it answers."""
        pid = self.relay.child.pid
        before = spent(pid)
        answers = self.asked(*texts)
        return spent(pid) - before, answers

    def asked(self, *texts):
        # A request for nothing ends them; its name is no other's.
        self.client.send(*texts, b'["REQ","end of row",{"ids":[]}]')
        answers = []
        while not answers or answers[-1] != b'["EOSE","end of row"]':
            answers.append(self.client.read())
        return answers[:-1]

    def end(self):
        found = peak(self.relay.child.pid)
        self.client.close()
        self.relay.end()
        return found


def request(*filters):
    return compact(["REQ", "q", *filters]).encode()


def row(program, folder, name, events, texts):
    """One row: for each size the time that its text takes."""
    relay = Relay(program, folder, events)
    cells = []
    for size, text in texts:
        time, answers = relay.took(text)
        cells.append("%9s %6.2f s (%d)" % (size, time, len(answers)))
    print("%-52s %s   %5.0f MiB" % (name, " ".join(cells), relay.end()), flush=True)


def requests(program, folder):
    """Requests for many values."""
    events = stored(20000)
    ids = [it["id"] for it in events]
    others = [identity(random.Random(i)) for i in range(12000)]
    sizes = (5000, 10000, 20000, 32000)
    row(program, folder, "ids, 20,000 events", events, [(n, request({"ids": (ids + others)[:n]})) for n in sizes])
    row(program, folder, "ids that none has, 20,000 events", events, [
        (n, request({"ids": [it[::-1] for it in (ids + others)[:n]]})) for n in sizes])
    row(program, folder, "authors that none has, 20,000 events", events, [
        (n, request({"authors": (ids + others)[:n]})) for n in sizes])
    row(program, folder, "kinds that none has, 20,000 events", events, [
        (n, request({"kinds": list(range(2, n + 2))})) for n in sizes])
    row(program, folder, "16 filters of so many ids each, 20,000 events", events, [
        (n, request(*({"ids": ids[k * 1000:][:n]} for k in range(16)))) for n in (500, 1000, 2000)])
    row(program, folder, "16 filters of so many authors each, 20,000 events", events, [
        (n, request(*({"authors": ids[k * 1000:][:n]} for k in range(16)))) for n in (500, 1000, 2000)])
    row(program, folder, "values of #t that none has, 100 events of 1,000 tags", stored(100, 1000), [
        (n, request({"#t": ["other %d" % k for k in range(n)]})) for n in (1250, 2500, 5000, 100000)])


def tags(program, folder):
    """An event with many tags, which subscriptions with many values look at."""
    for values in (10, 1000):
        relay = Relay(program, folder, [])
        filters = [{"#t": ["other %d" % k for k in range(values)]}] * 16
        for i in range(31):
            relay.asked(compact(["REQ", "s%d" % i, *filters]).encode())
        cells = []
        for n in (5000, 10000, 20000):
            text = compact(["EVENT", event(1, [["t", "tag %d" % k] for k in range(n)], "x")]).encode()
            cells.append("%9d %6.2f s" % (n, relay.took(text)[0]))
        print("%-52s %s   %5.0f MiB" % ("tags, 496 filters of %d values" % values, " ".join(cells), relay.end()), flush=True)


def catching(program, folder):
    """Subscriptions that catch up with what another client gave."""
    for name, filters in (("nothing", [{"kinds": [2]}]), ("nothing by 16 filters", [{"authors": ["11" * 31 + "12"] * 64}] * 16)):
        cells = []
        for n in (5000, 10000, 20000):
            relay = Relay(program, folder, [], 2)
            for i in range(31):
                relay.asked(compact(["REQ", "s%d" % i, *filters]).encode())
            giver = Client(relay.relay.port)
            texts = [b'["EVENT",%s]' % compact(it).encode() for it in stored(n)]
            for at in range(0, n, 100):
                giver.send(*texts[at:at + 100])
                for _ in texts[at:at + 100]:
                    giver.read()
            giver.close()
            cells.append("%9d %6.2f s" % (n, relay.took(b'["CLOSE","none"]')[0]))
            last = relay.end()
        print("%-52s %s   %5.0f MiB" % ("events that 31 subscriptions pass, " + name, " ".join(cells), last), flush=True)


def filled(begin, part, end, size):
    """A text of at most so many bytes: a beginning, a part as often as it fits, and an end."""
    return (begin + part * ((size - len(begin) - len(end)) // len(part)) + end).encode()


def numbered(begin, part, end, size):
    """The same with the number of each part in it."""
    parts = []
    left = size - len(begin) - len(end)
    while left > 0:
        parts.append(part % len(parts))
        left -= len(parts[-1].encode())
    return (begin + "".join(parts[:-1])[:-1] + end).encode()


def event_text(tags, content):
    return compact(["EVENT", event(1, tags, content)]).encode()


def shapes():
    """Texts by their bytes, in each shape that the reader knows."""
    return {
        "a name of a subscription": lambda n: filled('["REQ","', "a", '",{}]', n),
        "an id of so many digits": lambda n: filled('["REQ","q",{"ids":["', "a", '"]}]', n),
        "ids": lambda n: numbered('["REQ","q",{"ids":[', '"%064x",', ']}]', n),
        "one id again and again": lambda n: filled('["REQ","q",{"ids":["' + "0" * 64 + '"', ',"' + "0" * 64 + '"', "]}]", n),
        "kinds": lambda n: filled('["REQ","q",{"kinds":[1', ",1", "]}]", n),
        "values of #t": lambda n: numbered('["REQ","q",{"#t":[', '"%d",', "]}]", n),
        "empty values of #t": lambda n: filled('["REQ","q",{"#t":[""', ',""', "]}]", n),
        "one value of #t": lambda n: filled('["REQ","q",{"#t":["', "a", '"]}]', n),
        "filters": lambda n: filled('["REQ","q",{}', ",{}", "]", n),
        "members of a filter": lambda n: numbered('["REQ","q",{', '"%d":0,', "}]", n),
        "one member again and again": lambda n: filled('["REQ","q",{"a":0', ',"a":0', "}]", n),
        "digits of a limit": lambda n: filled('["REQ","q",{"limit":', "1", "}]", n),
        "digits of a fraction": lambda n: filled('["REQ","q",{"limit":0.', "1", "}]", n),
        "an event's content": lambda n: event_text([], "a" * (n - 500)),
        "an event's content, all escapes": lambda n: event_text([], "\x01" * ((n - 500) // 6)),
        "an event's content, all quotes": lambda n: event_text([], '"' * ((n - 500) // 2)),
        "an event's content, all emoji": lambda n: event_text([], "\U0001f980" * ((n - 500) // 4)),
        "an event's tags": lambda n: event_text([["t", "a"]] * ((n - 500) // 10), ""),
        "an event's empty tags": lambda n: event_text([[]] * ((n - 500) // 3), ""),
        "a tag's values": lambda n: event_text([["a"] * ((n - 500) // 4)], ""),
        "members of an event": lambda n: numbered('["EVENT",{', '"%d":0,', "}]", n),
        "a message of NEG-OPEN": lambda n: filled('["NEG-OPEN","n",{},"', "61", '"]', n),
        "ids in a message of NEG-OPEN": neg_open,
        "skips in a message of NEG-OPEN": lambda n: filled('["NEG-OPEN","n",{},"61', "000000", '"]', n),
        "a message of NEG-MSG": lambda n: filled('["NEG-MSG","n","', "61", '"]', n),
        "brackets": lambda n: b"[" * n,
        "empty lists": lambda n: filled("[[]", ",[]", "]", n),
        "white space": lambda n: filled("[", " ", "]", n),
        "escapes of a text": lambda n: filled('["', "\\ud83e\\udd80", '"]', n),
        "zeros": lambda n: filled("[0", ",0", "]", n),
    }


def neg_open(size):
    """A message that lists ids in one range."""
    count = (size - 40) // 64
    digits = [count & 127]
    while count >> 7 * len(digits):
        digits.insert(0, 0x80 | count >> 7 * len(digits) & 127)
    ids = "".join("%064x" % i for i in range(count))
    return ('["NEG-OPEN","n",{},"61000002' + bytes(digits).hex() + ids + '"]').encode()


def texts(program, folder):
    """Texts of every shape."""
    for name, shape in shapes().items():
        row(program, folder, name, stored(10), [(n, shape(n)) for n in (TEXT // 4, TEXT // 2, TEXT)])


def in_frames(text, part):
    """A text in frames of so many bytes each, at most 125."""
    whole = []
    for at in range(0, len(text), part):
        piece = text[at:at + part]
        first = (0 if at else 1) | (0x80 if at + part >= len(text) else 0)
        whole.append(bytes((first, 0x80 | len(piece), 0, 0, 0, 0)) + piece)
    return b"".join(whole)


def frames(program, folder):
    """One text in many frames."""
    shape = shapes()["an id of so many digits"]
    for part in (1, 100):
        relay = Relay(program, folder, [])
        cells = []
        for n in (TEXT // 4, TEXT // 2, TEXT):
            before = spent(relay.relay.child.pid)
            relay.client.socket.sendall(in_frames(shape(n), part))
            relay.asked()
            cells.append("%9d %6.2f s" % (n, spent(relay.relay.child.pid) - before))
        print("%-52s %s   %5.0f MiB" % ("a text in frames of %d bytes" % part, " ".join(cells), relay.end()), flush=True)


ROWS = {"requests": requests, "tags": tags, "catching": catching, "texts": texts, "frames": frames}


def main():
    parser = argparse.ArgumentParser(description=__doc__.split("\n")[0])
    parser.add_argument("--mirror", default=program_of("mirror_app"))
    parser.add_argument("--only", default=",".join(ROWS))
    options = parser.parse_args()
    print("size of the text or the list, processor time of the relay, (answers)")
    with tempfile.TemporaryDirectory() as folder:
        for name in options.only.split(","):
            ROWS[name](options.mirror, folder)


if __name__ == "__main__":
    sys.exit(main())
