#!/usr/bin/env python3
"""Measures what strangers can make `serve` hold and burn.

    bench/strangers.py [--mirror PATH] [--only WORD,WORD,..]

Each row starts a relay anew over an empty file, lets one or several clients of this script (`wire.py`) do the worst of a kind that
its limits leave, and asks as an honest client whether it still answers. Shown are the greatest peak of resident memory, the
processor time that it took, and what the row may take, where docs/SECURITY.md names a bound.
"""
import argparse
import hashlib
import json
import os
import string
import tempfile
import threading

from measure import program_of
from relay import Serving, peak, spent
from wire import Client, Gone

# What a text may have.
TEXT = 2_200_000
# A name of 64 characters of four bytes each, but for the number at its end.
WIDE = "\U0001f30d" * 62


def compact(value):
    return json.dumps(value, ensure_ascii=False, separators=(",", ":")).encode()


def event(number, tags=(), content=""):
    """An event with a right id. Nobody checks its signature."""
    draft = [0, "11" * 32, 1_700_000_000 + number, 1, list(tags), content]
    return {"id": hashlib.sha256(compact(draft)).hexdigest(), "pubkey": draft[1], "created_at": draft[2], "kind": 1, "tags": draft[4],
            "content": content, "sig": "22" * 64}


def req(name, *filters):
    return compact(["REQ", name, *filters])


def several(text, count, before, after):
    """A text of many parts, up to so many bytes."""
    count = min(count, (TEXT - len(before) - len(after)) // (len(text) + 1))
    return before + b",".join([text] * count) + after


def read_until(client, prefix):
    while not client.read().startswith(prefix):
        pass


def asks(client, *texts):
    """Sends texts, each of which has an answer that ends with EOSE or a refusal, and reads these."""
    for text in texts:
        client.send(text)
        while not client.read().startswith((b'["EOSE"', b'["CLOSED"', b'["NOTICE"', b'["NEG-', b'["OK"')):
            pass


def puts(client, events, batch=64):
    for start in range(0, len(events), batch):
        part = events[start:start + batch]
        client.send(*[compact(["EVENT", it]) for it in part])
        for _ in part:
            read_until(client, b'["OK"')


def side_by_side(count, work, port):
    """Does it with so many clients at once."""
    clients = [Client(port) for _ in range(count)]
    threads = [threading.Thread(target=work, args=(client,)) for client in clients]
    for it in threads:
        it.start()
    for it in threads:
        it.join()
    return clients


# ---- the rows: each does its worst on a port, and gives what is to stay open meanwhile

def tag_values(port):
    client = Client(port)
    value = lambda at: b'"%s"' % string.printable[at % 90].replace('"', "'").replace("\\", "/").encode()
    values = b",".join(value(at) for at in range(545_000))
    for at in range(32):
        asks(client, b'["REQ","%d",{"limit":0,"#t":[%s]}]' % (at, values))
    return client


def listed(port, element, most, begin):
    """32 subscriptions of one filter each, whose list has so many elements, or as many as a text has room for."""
    client = Client(port)
    for at in range(32):
        asks(client, several(element, most, b'["REQ","%d",{%s[' % (at, begin), b"]}]"))
    return client


def held_values(port):
    return listed(port, b'"v"', 2_190, b'"limit":0,"#t":')


def no_values(port):
    return listed(port, b'""', 1 << 30, b'"limit":0,"#t":')


def listed_ids(port):
    return listed(port, b'"%s"' % (b"ab" * 32), 1 << 30, b'"ids":')


def listed_kinds(port):
    return listed(port, b"1", 1 << 30, b'"limit":0,"kinds":')


def wide_names(port):
    listener = Client(port)
    for at in range(32):
        asks(listener, req(WIDE + "%02d" % at, {}))
    taken = threading.Thread(target=take_all, args=(listener, 32 * 20_000))
    taken.start()
    writer = Client(port)
    puts(writer, [event(at) for at in range(20_000)])
    # The listener is looked at again with its next message.
    listener.send(req("z", {"limit": 0}))
    taken.join()
    return listener, writer


def take_all(client, count):
    for _ in range(count):
        client.read()


def many_tags(port):
    listener = Client(port)
    letters = {"#" + letter: ["v"] for letter in string.ascii_letters}
    for at in range(32):
        asks(listener, req(str(at), *[dict(letters, limit=0)] * 16))
    writer = Client(port)
    puts(writer, [event(0, [[string.ascii_letters[at % 52], "w%d" % (at % 10)] for at in range(150_000)])])
    asks(listener, req("31", {"limit": 0}))
    return listener, writer


def many_tags_asked(port):
    """The same tags, looked at for a request."""
    client = Client(port)
    puts(client, [event(at, [[string.ascii_letters[at % 52], "w%d" % (at % 10)] for at in range(150_000)]) for at in range(4)])
    letters = {"#" + letter: [letter + str(at) for at in range(300)] for letter in string.ascii_letters}
    asks(client, req("a", *[dict(letters, since=at) for at in range(16)]))
    return client


def empty_filters(port):
    text = several(b"{}", 733_000, b'["REQ","a",', b"]")
    return side_by_side(16, lambda client: asks(client, text), port)


def small_filters(port):
    text = several(b'{"a":1}', 1 << 30, b'["REQ","a",', b"]")
    return side_by_side(16, lambda client: asks(client, text), port)


def small_objects(port):
    """Small objects where none is looked for."""
    text = several(b'{"a":1}', 1 << 30, b'["EVENT",{"a":[', b"]}]")
    return side_by_side(16, lambda client: asks(client, text), port)


def objects_taken(port):
    """The same in events that are taken."""
    def say(client, number):
        asks(client, several(b'{"a":1}', 1 << 30, b'["EVENT",{"a":[', b"]," + compact(event(number))[1:] + b"]"))
    clients = [Client(port) for _ in range(16)]
    for number, client in enumerate(clients):
        say(client, number)
    return clients


def empty_tags(port):
    draft = event(0)
    text = compact(["EVENT", dict(draft, tags=[])])
    at = text.index(b'"tags":[') + len(b'"tags":[')
    text = several(b"[]", 1 << 30, text[:at], text[at:])
    return side_by_side(16, lambda client: asks(client, text), port)


def nested(port):
    text = b"[" * TEXT
    return side_by_side(16, lambda client: asks(client, text), port)


def sessions(port):
    client = Client(port)
    puts(client, [event(at) for at in range(50_000)])
    for at in range(16):
        client.send(compact(["NEG-OPEN", str(at), {"kinds": [1]}, "6100000200"]))
        read_until(client, b'["NEG-')
    return client


def no_times(port):
    client = Client(port)
    puts(client, [event(at) for at in range(20_000)])
    for at in range(1_000):
        client.send(compact(["NEG-OPEN", "a", {"since": 2, "until": 1}, "6100000200"]))
        read_until(client, b'["NEG-')
    return client


def fragments(port):
    client = Client(port)
    text = req("a", {"limit": 0})
    frames = [Client.frame(text[:1], 1)] + [Client.frame(b"", 0)] * 200_000 + [Client.frame(text[1:], 0)]
    client.socket.sendall(b"".join(bytes([frame[0] & 0x7f]) + frame[1:] for frame in frames[:-1]) + frames[-1])
    read_until(client, b'["EOSE"')
    return client


def pings(port):
    client = Client(port)
    for _ in range(20):
        client.socket.sendall(Client.frame(b"x" * 125, 9) * 10_000)
        asks(client, req("a", {"limit": 0}))
    return client


def announced(port):
    """Frames of 4 MB that are announced, and none of which comes."""
    clients = [Client(port) for _ in range(62)]
    for client in clients:
        client.socket.sendall(Client.frame(b" " * 4_000_000)[:20])
    return clients


def half_sent(port):
    """The same, each come but for its last byte."""
    clients = [Client(port) for _ in range(62)]
    for client in clients:
        client.socket.sendall(Client.frame(b" " * 4_000_000)[:-1])
    return clients


def unread(port):
    """Requests for all events, whose answers are never read."""
    client = Client(port)
    puts(client, [event(at, content="x" * 20_000) for at in range(1_000)])
    others = [Client(port) for _ in range(61)]
    for other in others:
        other.send(req("a", {}))
    return client, others


def wide_unread(port):
    """Answers whose messages each have a wide name, of which only the first is read."""
    writer = Client(port)
    puts(writer, [event(at) for at in range(80_000)])
    filters = [{"since": 1_700_000_000 + at, "until": 1_700_004_999 + at} for at in range(0, 80_000, 5_000)]
    clients = [Client(port) for _ in range(8)]
    for at, client in enumerate(clients):
        client.send(req(WIDE + "%02d" % at, *filters))
        client.read()
    return writer, clients


def filters_asked(port):
    client = Client(port)
    puts(client, [event(at) for at in range(20_000)])
    one = {"kinds": [1], "authors": ["11" * 32], "#t": ["x"]}
    for _ in range(20):
        asks(client, req("a", *[dict(one, since=at) for at in range(16)]))
    return client


ROWS = [
    ("values", "32 subscriptions of 545,000 values of a tag each", tag_values, 80, None),
    ("held", "32 subscriptions of 2,190 values of a tag each", held_values, 20, None),
    ("empty", "32 subscriptions of 730,000 empty values each", no_values, 80, None),
    ("ids", "32 subscriptions of 32,000 ids each", listed_ids, 80, None),
    ("kinds", "32 subscriptions of 1,090,000 kinds each", listed_kinds, 80, None),
    ("names", "32 subscriptions of everything with wide names, and 20,000 events", wide_names, 60, None),
    ("tags", "512 filters of 52 letters each, and an event of 150,000 tags", many_tags, None, 0.5),
    ("asked", "16 filters of 52 letters each, asked of 4 events of 150,000 tags", many_tags_asked, None, None),
    ("filters", "16 clients, 733,000 empty filters each", empty_filters, 400, 3),
    ("small", "16 clients, 275,000 small filters each", small_filters, 400, None),
    ("objects", "16 clients, an event with 275,000 small objects in it each", small_objects, None, None),
    ("taken", "16 clients, an event that is taken with 275,000 of them each", objects_taken, None, None),
    ("lists", "16 clients, an event of 730,000 empty tags each", empty_tags, 400, None),
    ("nested", "16 clients, 2,200,000 brackets each", nested, 400, None),
    ("sessions", "16 sessions over 50,000 events, picked by a kind", sessions, None, None),
    ("times", "1,000 sessions from a time on up to an earlier one", no_times, None, None),
    ("fragments", "a text in 200,000 fragments", fragments, None, None),
    ("pings", "200,000 pings", pings, None, None),
    ("announced", "62 clients, 4 MB announced and not sent", announced, None, None),
    ("half", "62 clients, 4 MB sent but for the last byte", half_sent, None, None),
    ("unread", "62 clients, 20 MB asked for and not read", unread, None, None),
    ("wide", "8 clients, 80,000 events asked for by wide names and not read", wide_unread, None, None),
    ("choosing", "20 requests of 16 filters that few of 20,000 events meet", filters_asked, None, None),
]


def measured(program, row):
    """The peak in MiB and the seconds of a processor that a row takes."""
    with tempfile.TemporaryDirectory() as folder:
        serving = Serving(program, folder, "relay", 1_000)
        try:
            held = row(serving.port)
            honest = Client(serving.port)
            asks(honest, req("honest", {"limit": 1}))
            seconds, memory = serving.cost()
            del held
        except Gone as gone:
            raise SystemExit("the relay hung up: %s" % gone)
        finally:
            serving.child.kill()
            serving.child.wait()
            serving.child.stdout.close()
    return memory, seconds


def main():
    parser = argparse.ArgumentParser(description=__doc__, formatter_class=argparse.RawDescriptionHelpFormatter)
    parser.add_argument("--mirror", default=program_of("mirror_app"))
    parser.add_argument("--only", default="")
    args = parser.parse_args()
    only = set(args.only.split(",")) - {""}
    over = 0
    print("| %-66s | %9s | %9s | %14s |" % ("what strangers do", "MiB", "seconds", "may take"))
    print("|%s|%s|%s|%s|" % ("-" * 68, "-" * 10 + ":", "-" * 10 + ":", "-" * 16))
    for word, what, row, most_memory, most_seconds in ROWS:
        if only and word not in only:
            continue
        memory, seconds = measured(os.path.abspath(args.mirror), row)
        bounds = ["%d MiB" % it for it in [most_memory] if it] + ["%g s" % it for it in [most_seconds] if it]
        is_over = (most_memory and memory > most_memory) or (most_seconds and seconds > most_seconds)
        over += bool(is_over)
        print("| %-66s | %9.0f | %9.2f | %14s |%s" % (what, memory, seconds, ", ".join(bounds), " OVER" if is_over else ""), flush=True)
    if over:
        raise SystemExit("%d rows took more than they may" % over)


if __name__ == "__main__":
    main()
