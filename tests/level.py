#!/usr/bin/env python3
"""Runs `nostr-mirror mirror`, which keeps a store level with relays.

    tests/level.py [PATH] [--small]      (PATH of the program; else the proved build)

A relay that is down comes back, and is level a pass later. From nothing, 250,000 events come from one relay, and 550,000 from
three, each of them once. A relay lists 300,000 ids that don't exist, beside two honest ones, from which all comes. One refuses to
compare more than a part of its events. A mirror is killed in the middle of a pass, and the next needs only the rest. One has 256
relays. Relays that are level are subscribed to: what they get is here at once; one that ends its subscription is subscribed to again
behind the next pass, one that is silent is pinged, and what nobody asked for, what is no event, and what never ends does no harm.
`--small` has a hundredth of the events.
"""
import argparse
import json
import os
import queue
import re
import signal
import socket
import struct
import subprocess
import tempfile
import threading
import time

from played import Connection, Played, Server, gives_of, holds, listing, varint
from told import (STAMP, begin, by_id, comes_to_have, event, line_of, passes, program, read, same, settings, start, written)
from wire import Client, Gone


def plain(line):
    """A line without the time in front."""
    if not re.match(STAMP, line):
        raise SystemExit("no time stands in front of %r" % line)
    return line.split(" ", 1)[1].rstrip("\n")


def mirrored(path, conf, *words, timeout=600):
    """Runs a mirror to its end: its status, its lines and what it told on standard error."""
    child = begin(path, "mirror", conf, *words)
    out, errors = child.communicate(timeout=timeout)
    return child.returncode, out.splitlines(keepends=True), errors


def serving(path, folder, name, events, **values):
    written(os.path.join(folder, name + ".jsonl"), events)
    return start(path, "serve", settings(folder, name, **{"listen": "127.0.0.1:0", "conns": 1_000_000, "clients": 1000, **values}))


def killed(*children):
    for child in children:
        child.kill()
        child.communicate()


def free_port():
    with socket.create_server(("127.0.0.1", 0)) as gone:
        return gone.getsockname()[1]


def many(count, first=1_600_000_000, step=37, mark="one of many"):
    return [event(first + n * step, "%s %d" % (mark, n)) for n in range(count)]


def lines_until(child, wanted, seconds=60):
    """The lines that a mirror tells, up to one that is wanted."""
    lines, until = [], time.monotonic() + seconds
    while time.monotonic() < until:
        line = line_of(child)
        if line is None:
            break
        lines.append(line)
        if wanted in line:
            return lines
    raise SystemExit("wanted %r in %r" % (wanted, lines))


def a_relay_comes_back(path, folder):
    """It is told that it failed, and that it is level once it is back; the other is told once."""
    here, there = many(30, mark="here"), many(20, mark="there")
    one, port = serving(path, folder, "one", here)
    away = free_port()
    conf = settings(folder, "mirror", relays=["127.0.0.1:%d" % port, "127.0.0.1:%d" % away], every_ms=300, timeout_ms=2000)
    mirror = begin(path, "mirror", conf)
    first = lines_until(mirror, " pass 1 ")
    same([plain(line) for line in first[:-1]], ["relay 1 failed 1", "relay 0 level"])
    same(passes(first), [(1, 2, 30, 30, 0, 0)])
    two, _ = serving(path, folder, "two", there, listen="127.0.0.1:%d" % away)
    told = lines_until(mirror, "relay 1 level")
    same([plain(line) for line in told if " pass " not in line], ["relay 1 level"])
    last = lines_until(mirror, " pass ")
    same(passes(last), [(2, 2, 20, 20, 0, 0)])
    comes_to_have(os.path.join(folder, "mirror.jsonl"), here + there)
    killed(mirror, one, two)


def level_relays_need_nothing(path, folder):
    """And a clean end, which tells by its status whether all is well."""
    theirs = many(50)
    one, port = serving(path, folder, "one", theirs)
    relays = ["127.0.0.1:%d" % port]
    conf = settings(folder, "mirror", relays=relays, every_ms=1, passes=3)
    status, lines, errors = mirrored(path, conf)
    same((status, errors, passes(lines)), (0, "", [(1, 1, 50, 50, 0, 0), (1, 1, 0, 0, 0, 0), (1, 1, 0, 0, 0, 0)]))
    same([plain(line) for line in lines if " pass " not in line], ["relay 0 level"])
    conf = settings(folder, "mirror", relays=relays + ["127.0.0.1:%d" % free_port()], every_ms=1, passes=1)
    status, lines, _ = mirrored(path, conf)
    same((status, passes(lines)), (3, [(1, 2, 0, 0, 0, 0)]))
    killed(one)


def all_comes_once(path, folder, held):
    """More than one table takes, from nothing: each relay's events come, each of them once, in one pass."""
    everything = list({it["id"]: it for events in held for it in events}.values())
    relays = [serving(path, folder, "relay%d" % n, events) for n, events in enumerate(held)]
    conf = settings(folder, "mirror", relays=["127.0.0.1:%d" % port for _, port in relays], passes=1, workers=2)
    status, lines, errors = mirrored(path, conf)
    count = len(everything)
    same((status, errors, passes(lines)), (0, "", [(len(held), len(held), count, count, 0, 0)]))
    found = read(os.path.join(folder, "mirror.jsonl"))
    same(len(found), count)
    same(sorted(it["id"] for it in found), sorted(it["id"] for it in everything))
    killed(*(relay for relay, _ in relays))


def bound(time_and_id):
    """A bound of a Negentropy message, of an absolute time: each message here has its times in full."""
    at, prefix = time_and_id
    return varint(at) + varint(len(prefix)) + prefix


class Endless:
    """A relay that lists so many ids that don't exist, whatever it is asked, a part in each answer."""

    def __init__(self, count, a_part):
        ids = [os.urandom(32) for _ in range(count)]
        self.answers = []
        for at in range(0, count, a_part):
            part = ids[at:at + a_part]
            skipped = varint(at + 1) + b"\0\0" if at else b""
            upto = varint(a_part + 1) + b"\0"
            text = b"\x61" + skipped + upto + b"\x02" + varint(len(part)) + b"".join(part) + b"\0\0\x01" + os.urandom(16)
            self.answers.append(text.hex())
        self.sessions = 0

    def __call__(self, stream):
        try:
            connection, at = Connection(stream), 0
            self.sessions += 1
            while True:
                asked = json.loads(connection.read())
                if asked[0] in ("NEG-OPEN", "NEG-MSG"):
                    connection.send(b'["NEG-MSG","%s","%s"]' % (asked[1].encode(), self.answers[at % len(self.answers)].encode()))
                    at += 1
                elif asked[0] == "REQ":
                    connection.say(["EOSE", asked[1]])
        except (Gone, OSError):
            pass
        stream.close()


def a_liar_spoils_nothing(path, folder, count):
    """It is told of the relay that lists what doesn't exist, and what the others have comes whole."""
    one, two = many(1000, mark="one"), many(1500, mark="two")
    relays = [serving(path, folder, name, events) for name, events in (("one", one), ("two", two))]
    with Server(Endless(count, 30_000)) as liar:
        at = ["127.0.0.1:%d" % port for _, port in relays]
        conf = settings(folder, "mirror", relays=[at[0], liar.at, at[1]], passes=1)
        status, lines, _ = mirrored(path, conf)
    told = [plain(line) for line in lines if " pass " not in line]
    same((status, [line.split(" left out ")[0] for line in told[:3]], told[3:]),
         (3, ["relay 1"] * 3, ["relay 1 failed 4", "relay 0 level", "relay 2 level"]))
    same(passes(lines), [(2, 3, 2500, 2500, 0, 0)])
    same(by_id(read(os.path.join(folder, "mirror.jsonl"))), by_id(one + two))
    killed(*(relay for relay, _ in relays))


def refuses_more_than(events, most):
    """A relay that compares no more than so many events at once."""
    def answer(connection, asked):
        if asked[0] == "NEG-OPEN":
            since, until = asked[2].get("since", 0), asked[2].get("until", 1 << 64)
            found = [it["id"] for it in events if since <= it["created_at"] <= until]
            if len(found) > most:
                connection.say(["NEG-ERR", asked[1], "blocked: this query is too big"])
            else:
                connection.say(["NEG-MSG", asked[1], listing(found)])
        elif asked[0] == "REQ":
            gives_of(events)(connection, asked[1], asked[2]["ids"])
    return answer


def slices_get_past_a_refusal(path, folder):
    theirs = many(1000)
    with Played(refuses_more_than(theirs, 100)) as relay:
        conf = settings(folder, "mirror", relays=[relay.at], passes=1)
        status, lines, errors = mirrored(path, conf)
    same((status, errors, passes(lines)), (0, "", [(1, 1, 1000, 1000, 0, 0)]))
    same([plain(line) for line in lines if " pass " not in line], ["relay 0 level"])
    same(by_id(read(os.path.join(folder, "mirror.jsonl"))), by_id(theirs))


def filters_bound_the_slices(path, folder):
    """No time before `since` and behind `until` is asked for, also where the slices are small."""
    theirs = many(1000)
    since, until = theirs[300]["created_at"], theirs[699]["created_at"]
    with Played(refuses_more_than(theirs, 30)) as relay:
        conf = settings(folder, "mirror", relays=[relay.at], passes=1, filter='{"since":%d,"until":%d}' % (since, until))
        status, lines, errors = mirrored(path, conf)
        opened = [text[2] for asked in relay.asked for text in asked if text[0] == "NEG-OPEN"]
    same((status, errors, passes(lines)), (0, "", [(1, 1, 400, 400, 0, 0)]))
    same(by_id(read(os.path.join(folder, "mirror.jsonl"))), by_id(theirs[300:700]))
    same([min(it["since"] for it in opened), max(it["until"] for it in opened)], [since, until])


def a_kill_loses_nothing(path, folder, kills):
    """What a mirror that is killed in the middle of a pass has fetched is there, and the next needs the rest alone."""
    theirs = [event(1_600_000_000 + n * 37, "one of many %d " % n + "x" * 500) for n in range(30_000)]
    one, port = serving(path, folder, "one", theirs)
    kept = os.path.join(folder, "mirror.jsonl")
    conf = settings(folder, "mirror", relays=["127.0.0.1:%d" % port], passes=1)
    came = 0
    for _ in range(kills):
        mirror, until = begin(path, "mirror", conf), time.monotonic() + 60
        size = os.path.getsize(kept) if os.path.exists(kept) else 0
        while not os.path.exists(kept) or os.path.getsize(kept) < size + 500_000:
            if time.monotonic() > until or mirror.poll() is not None:
                raise SystemExit("nothing comes")
            time.sleep(0.005)
        mirror.send_signal(signal.SIGKILL)
        mirror.communicate()
        with open(kept, "rb") as text:
            came = text.read().count(b"\n")
    if not 0 < came < len(theirs):
        raise SystemExit("%d came before the last kill" % came)
    status, lines, _ = mirrored(path, conf)
    rest = len(theirs) - came
    same((status, passes(lines)), (0, [(1, 1, rest, rest, 0, 0)]))
    same(by_id(read(kept)), by_id(theirs))
    killed(one)


def put(client, new):
    client.send(json.dumps(["EVENT", new]).encode())
    same(json.loads(client.read()), ["OK", new["id"], True, ""])


def soon(began):
    if time.monotonic() > began + 2:
        raise SystemExit("it took %.1f seconds" % (time.monotonic() - began))


def follows(port):
    """A client that is sent what is new."""
    client = Client(port)
    client.socket.settimeout(20)
    client.send(b'["REQ","new",{"limit":0}]')
    same(json.loads(client.read()), ["EOSE", "new"])
    return client


def level_relays_are_subscribed_to(path, folder, entries):
    """A new event is here at once, once, and so it is at a client of the mirror. A relay stands in so many entries."""
    theirs = many(10)
    one, port = serving(path, folder, "one", theirs, push_ms=100)
    conf = settings(folder, "mirror", relays=["127.0.0.1:%d" % port] * entries, every_ms=3_600_000, listen="127.0.0.1:0", push_ms=100)
    mirror, own = start(path, "mirror", conf)
    lines_until(mirror, " pass 1 ")
    client, giver = follows(own), Client(port)
    fresh = [event(int(time.time()) + n, "fresh") for n in range(5)]
    for it in fresh:
        began = time.monotonic()
        put(giver, it)
        same(json.loads(client.read()), ["EVENT", "new", it])
        soon(began)
    comes_to_have(os.path.join(folder, "mirror.jsonl"), theirs + fresh)
    soon(began)
    giver.close()
    client.close()
    killed(mirror, one)


class Level(Server):
    """A relay that holds these events, and hands the connections that subscribe to a test, with what they ask for."""

    def __init__(self, events):
        self.answer, self.live = holds(events), queue.Queue()
        super().__init__(self.serve)

    def serve(self, stream):
        try:
            connection = Connection(stream)
            while True:
                asked = json.loads(connection.read())
                if asked[:2] == ["REQ", "live"]:
                    self.live.put((connection, asked))
                    return
                self.answer(connection, asked)
        except (Gone, OSError):
            stream.close()

    def subscriber(self):
        return self.live.get(timeout=20)


def frame_of(connection):
    """The opcode and the masked payload of a short frame of a mirror."""
    first, second = connection.take(2)
    mask = connection.take(4)
    return first & 15, bytes(byte ^ mask[i % 4] for i, byte in enumerate(connection.take(second & 127)))


def a_subscription_is_made_again(path, folder):
    """It asks for what the filter matches from the pass's begin on. Once it has ended, the next pass makes one."""
    theirs, began = many(10), int(time.time())
    kept = os.path.join(folder, "mirror.jsonl")
    with Level(theirs) as relay:
        conf = settings(folder, "mirror", relays=[relay.at], every_ms=1000, filter='{"kinds":[1],"until":%d}' % (began + 1000))
        mirror = begin(path, "mirror", conf)
        fresh = []
        for turn in range(3):
            connection, asked = relay.subscriber()
            same([asked[2].pop("since") in range(began, int(time.time()) + 1), asked[2:]], [True, [{"kinds": [1], "until": began + 1000}]])
            fresh.append(event(int(time.time()), "turn %d" % turn))
            connection.say(["EVENT", "live", fresh[-1]])
            comes_to_have(kept, theirs + fresh)
            connection.socket.close()
        killed(mirror)


def live_is_left_out(path, folder):
    with Level(many(10)) as relay:
        status, lines, _ = mirrored(path, settings(folder, "mirror", relays=[relay.at], every_ms=500, passes=2, live=False))
        same((status, [it[:2] for it in passes(lines)], relay.live.qsize()), (0, [(1, 1), (1, 1)], 0))


def says(*values):
    """Says so, and then nothing more."""
    return lambda connection: connection.say(*values)


def odd(wanted, now):
    """What a relay sends that is subscribed to, and what is told of it then."""
    others = [dict(event(now, "wrong"), id=wanted["id"]), {"id": wanted["id"]}, event(5, "old"), event(now, "a reaction", 7)]
    unasked = [["EVENT", "live", it] for it in others] + [["EVENT", "else", wanted], ["EOSE", "else"], ["EOSE", "live"]]
    return [(says(*unasked, ["EVENT", "live", wanted]), "1 live events, 6 messages dropped: closed"),
            (says(*[["EVENT", "live", others[2]]] * 1500), "0 live events, 1000 messages dropped: too many other messages"),
            (lambda connection: connection.send(b"hello"), "0 live events, 0 messages dropped: no valid message"),
            (lambda connection: connection.socket.sendall(connection.frame(b"[]", 0x71)),
             "0 live events, 0 messages dropped: no valid message"),
            (lambda connection: connection.send(b" " * 10_000_000), "0 live events, 0 messages dropped: message too long"),
            (says(["CLOSED", "live", "who are you?"]), "0 live events, 0 messages dropped: CLOSED who are you?"),
            (lambda connection: connection.socket.close(), "0 live events, 0 messages dropped: closed"),
            (drips_on, "0 live events, 0 messages dropped: closed")]


def drips_on(connection):
    """A message that never ends, a byte now and then."""
    connection.socket.sendall(b"\x81\x7e\xff\xff")
    while True:
        connection.socket.sendall(b"x")
        time.sleep(0.05)


def sent(does, connection):
    try:
        does(connection)
    except (Gone, OSError):
        pass


def odd_relays_do_no_harm(path, folder):
    """What an honest relay gets comes all the same, nothing else is taken, and the mirror ends."""
    now = int(time.time()) + 2
    theirs, wanted, fresh = many(10), event(now, "wanted"), event(now, "fresh")
    one, port = serving(path, folder, "one", theirs, push_ms=100)
    oddities = odd(wanted, now)
    relays = [Level([]) for _ in oddities]
    at = [it.at for it in relays] + ["127.0.0.1:%d" % port]
    conf = settings(folder, "mirror", relays=at, every_ms=4000, passes=2, filter='{"kinds":[1]}', timeout_ms=20_000)
    mirror = begin(path, "mirror", conf, "--progress")
    for relay, (does, _why) in zip(relays, oddities):
        threading.Thread(target=sent, args=(does, relay.subscriber()[0]), daemon=True).start()
    giver = Client(port)
    put(giver, fresh)
    giver.close()
    comes_to_have(os.path.join(folder, "mirror.jsonl"), theirs + [wanted, fresh])
    lines_until(mirror, " pass 2 ")
    began = time.monotonic()
    _, told = mirror.communicate(timeout=20)
    soon(began)
    told = told.splitlines()
    same([line for line in ("relay %d %s: %s" % (n, relays[n].at, why) for n, (_, why) in enumerate(oddities)) if line not in told], [])
    same(mirror.returncode, 0)
    same(by_id(read(os.path.join(folder, "mirror.jsonl"))), by_id(theirs + [wanted, fresh]))
    killed(one)


def silence_is_no_fault(path, folder):
    """A relay that answers pings is waited for, and its pings are answered. One that is gone is let go."""
    kept, now = os.path.join(folder, "mirror.jsonl"), int(time.time()) + 10
    with Level([]) as relay:
        conf = settings(folder, "mirror", relays=[relay.at], every_ms=20_000, passes=2, timeout_ms=700)
        mirror = begin(path, "mirror", conf, "--progress")
        connection, _ = relay.subscriber()
        connection.socket.settimeout(20)
        for _ in range(3):
            same(frame_of(connection), (9, b""))
            connection.socket.sendall(connection.frame(b"", 10))
        connection.socket.sendall(connection.frame(b"there?", 9))
        same(frame_of(connection), (10, b"there?"))
        fresh = event(now, "fresh")
        connection.say(["EVENT", "live", fresh])
        comes_to_have(kept, [fresh])
        same(frame_of(connection), (9, b""))
        began = time.monotonic()
        try:
            frame_of(connection)
            raise SystemExit("it waits for a relay that is gone")
        except (Gone, OSError):
            soon(began)
        killed(mirror)


def serves_without_relays(path, folder):
    mirror, own = start(path, "mirror", settings(folder, "mirror", listen="127.0.0.1:0"))
    client = Client(own)
    client.send(b'["REQ","all",{}]')
    same(json.loads(client.read()), ["EOSE", "all"])
    client.close()
    killed(mirror)


def many_relays_are_level(path, folder):
    theirs = many(1000)
    one, port = serving(path, folder, "one", theirs)
    conf = settings(folder, "mirror", relays=["127.0.0.1:%d" % port] * 256, passes=1, live=False)
    status, lines, errors = mirrored(path, conf)
    same((status, errors, passes(lines)), (0, "", [(256, 256, 1000, 1000, 0, 0)]))
    same(by_id(read(os.path.join(folder, "mirror.jsonl"))), by_id(theirs))
    killed(one)


def three_of(count):
    """Three lists, of which each has so many parts in eleven of all: two are in two lists, and one in all."""
    everything = many(count)
    part = count // 11
    return [everything[:5 * part], everything[3 * part:8 * part], everything[:part] + everything[7 * part:]]


def main():
    words = argparse.ArgumentParser(description=__doc__, formatter_class=argparse.RawDescriptionHelpFormatter)
    words.add_argument("path", nargs="?")
    words.add_argument("--small", action="store_true")
    given = words.parse_args()
    path = program([given.path] if given.path else [])
    scale = 100 if given.small else 1
    tests = [serves_without_relays, a_relay_comes_back, level_relays_need_nothing, slices_get_past_a_refusal, filters_bound_the_slices,
             lambda *at: a_liar_spoils_nothing(*at, 300_000), lambda *at: a_kill_loses_nothing(*at, 3),
             lambda *at: level_relays_are_subscribed_to(*at, 1), lambda *at: level_relays_are_subscribed_to(*at, 256),
             a_subscription_is_made_again, live_is_left_out, odd_relays_do_no_harm, silence_is_no_fault,
             many_relays_are_level, lambda *at: all_comes_once(*at, [many(250_000 // scale)]),
             lambda *at: all_comes_once(*at, three_of(550_000 // scale))]
    for test in tests:
        began = time.monotonic()
        with tempfile.TemporaryDirectory() as folder:
            test(path, folder)
        if os.environ.get("TOLD"):
            print("%6.1f s" % (time.monotonic() - began), getattr(test, "__name__", "?"), flush=True)
    print("level: %d tests passed" % len(tests))


if __name__ == "__main__":
    main()
