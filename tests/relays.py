#!/usr/bin/env python3
"""Runs `nostr-mirror sync` and `nostr-mirror mirror` over relays that do what no honest relay does, and one that is honest.

    tests/relays.py [PATH] [--runs N]      (PATH of the program; else the proved build)

One says something else for ever, one answers each question by a fingerprint that equals none, one lists ids that it never gives,
one gives other events and events whose ids are wrong, one closes in the middle of what it gives; one sends a text of 10 MB,
one a frame and one a message that never ends; one doesn't shake hands. The honest relay's events have to come all the same, and no
others but those that were asked for with right ids; the mirror's file has to be whole, and its memory within a bound. That is tried
of `sync`, and the rest of both, of `mirror` in one pass.

A relay gives 600 events of 1 MB that nobody asked for.

Then two relays have the same events, and one of them, the first or the second, refuses to give any, is cut after a megabyte, drips
or says nothing: what it was to give comes from the other in the next round, and `--progress` says why it failed. An id that only
the one that fails has stays with it. One that drips as fast as `slow_bytes` asks is waited for. Where a session fails, where all
relays are down, and where one can't be reached, the reason is told too, and `sync --strict` ends with status 3, as `mirror` does
without it. Last, a handshake names the host and the path that the settings name.
"""
import argparse
import json
import os
import random
import struct
import tempfile
import threading
import time
from concurrent.futures import ThreadPoolExecutor
from functools import partial

from played import (Played, Server, answered, closes, cut_after, drips, gives_none, gives_of, holds, listing, lists, unavailable)
from told import ROOT, begin, by_id, event, passes, read, same, settings, start, written
from wire import Gone

# No run takes more MiB than this.
MEMORY = 64
# Nor this many where a relay gives what nobody asked for.
UNASKED = 60
# What each relay comes to, and all of them. The session with the one that answers by fingerprints ends at its 4,096th question.
TOLD = """relay 0 need 2000
relay 1 need 1050
relay 2 need 2
relay 3 failed 1
relay 4 failed 3
relay 5 failed 1
relay 6 failed 1
relay 7 failed 1
relay 8 failed 1
relay 9 need 150
least 2000
group 0
given 150
missed 3000
left 2
"""


def gives_others(connection, sub, ids):
    wrong = [dict(event(4, "wrong"), id=id) for id in ids]
    connection.say(*(["EVENT", sub, it] for it in [event(5, "not asked for"), *wrong, {"id": ids[0]}]), ["EOSE", sub])


def says_else(connection, _asked):
    while True:
        connection.say(*[["NOTICE", "wait"]] * 100)


def compares(connection, asked):
    if asked[0] in ("NEG-OPEN", "NEG-MSG"):
        connection.say(["NEG-MSG", asked[1], "61000001" + os.urandom(16).hex()])


def sends_long(connection, _asked):
    connection.send(b" " * 10_000_000)


def frame_without_end(connection, _asked):
    connection.socket.sendall(b"\x81\x7f" + struct.pack("!Q", 1 << 62))
    while True:
        connection.socket.sendall(b"x" * 60_000)


def message_without_end(connection, _asked):
    connection.socket.sendall(connection.frame(b"x" * 60_000, 1, False))
    while True:
        connection.socket.sendall(connection.frame(b"x" * 60_000, 0, False))


def shakes_no_hands(stream):
    stream.recv(1)
    stream.sendall(random.randbytes(1000) + b"\r\n\r\n")
    stream.close()


def waited(child):
    """What a process writes, its status, and its greatest resident memory in MiB, as far as it is seen each hundredth of a second."""
    peaks = [0]

    def watch():
        try:
            while True:
                with open("/proc/%d/status" % child.pid) as text:
                    peaks.append(next(int(line.split()[1]) / 1024 for line in text if line.startswith("VmHWM")))
                time.sleep(0.01)
        except (OSError, StopIteration):
            pass

    watching = threading.Thread(target=watch)
    watching.start()
    out, errors = child.communicate(timeout=120)
    watching.join()
    return out, errors, child.returncode, max(peaks)


def meet(rng, path, folder):
    theirs = [event(1000 + n, "honest") for n in range(150)]
    partly = [event(2000 + n, "given in part") for n in range(2)]
    unknown = ["%064x" % rng.getrandbits(256) for _ in range(3000)]
    mine = event(1, "mine")
    written(os.path.join(folder, "relay.jsonl"), theirs)
    written(os.path.join(folder, "mirror.jsonl"), [mine])
    relay, port = start(path, "serve", settings(folder, "relay", listen="127.0.0.1:0", conns=2))
    odd = [lists(unknown[:2000], gives_none), lists([it["id"] for it in theirs[:50]] + unknown[2000:], gives_others),
           lists([it["id"] for it in partly], closes(partly)), says_else, compares, sends_long, frame_without_end,
           message_without_end]
    serves = [lambda stream, answer=answer: answered(stream, answer) for answer in odd] + [shakes_no_hands]
    servers = [Server(serve) for serve in serves]
    relays = [server.at for server in servers] + ["127.0.0.1:%d" % port]
    out, errors, status, memory = waited(begin(path, "sync", settings(folder, "mirror", relays=relays)))
    same(out, TOLD)
    same([errors, status], ["", 0])
    same(by_id(read(os.path.join(folder, "mirror.jsonl"))), by_id([mine, *theirs]))
    same(relay.communicate(timeout=60)[0], "served 2\nevents 150\n")
    if memory > MEMORY:
        raise SystemExit("sync took %.0f MiB" % memory)
    return memory


class Job:
    """A job that a test runs over relays. It has no events before, and ends by itself."""

    def __init__(self, name, *words, **values):
        self.name, self.words, self.values = name, words, values

    def begun(self, folder, relays, path, *words, **values):
        conf = settings(folder, "mirror", relays=relays, **self.values, **values)
        kept = os.path.join(folder, "mirror.jsonl")
        if os.path.exists(kept):
            os.remove(kept)
        return begin(path, self.name, conf, *self.words, *words), kept

    def counts(self, out):
        """How many ids were given, how many missed and how many are left, by what the job tells."""
        if self.name == "mirror":
            return passes(out.splitlines(keepends=True))[-1][-3:]
        return tuple(int(line.split()[1]) for line in out.splitlines()[-3:])

    def ran(self, folder, relays, path, **values):
        """What became of ids, what was told of relays, the status and the events that came."""
        child, kept = self.begun(folder, relays, path, "--progress", **values)
        out, told = child.communicate(timeout=120)
        return self.counts(out), told.splitlines(), child.returncode, read(kept)


JOBS = (Job("sync", "--strict"), Job("mirror", passes=1))


def gives_unasked(job, path, folder):
    wanted = event(6000, "asked for")
    others = [json.dumps(event(7000 + n, "x" * 1_000_000)).encode() for n in range(60)] * 10

    def gives(connection, sub, _ids):
        for other in others:
            connection.send(b'["EVENT","' + sub.encode() + b'",' + other + b"]")
        connection.say(["EVENT", sub, wanted], ["EOSE", sub])
    child, kept = job.begun(folder, [Played(lists([wanted["id"]], gives)).at], path)
    out, errors, status, memory = waited(child)
    same([job.counts(out), errors, status], [(1, 0, 0), "", 0])
    same(read(kept), [wanted])
    if memory > UNASKED:
        raise SystemExit("%s took %.0f MiB for events that nobody asked for" % (job.name, memory))
    return memory


def closes_at_once(connection, *_asked):
    connection.socket.close()
    raise Gone("closed")


def says_nothing(connection, *_asked):
    connection.read()


def says_goodbye(connection, *_asked):
    connection.socket.sendall(connection.frame(b"\x03\xe8", 8))
    says_nothing(connection)


def no_json(connection, *_asked):
    connection.send(b"hello")


def no_frame(connection, *_asked):
    # A text whose reserved bits are set.
    connection.socket.sendall(connection.frame(b"[]", 0x71))


def says_closed(connection, sub, _ids):
    connection.say(["CLOSED", sub, "auth-required: \u001b[31mwho are you?"])


def says_others(connection, sub, _ids):
    connection.say(*[["EVENT", sub, event(5, "not asked for")]] * 1000)


def behind_notice(then):
    """Says what isn't asked for before it does so."""
    def does(connection, *asked):
        connection.say(["NOTICE", "not now"], ["NOTICE", "not today"])
        then(connection, *asked)
    return does


# How a relay refuses to give, and what is told of it. The last takes no connection but the session's.
REFUSALS = [(closes_at_once, "closed"), (says_closed, "CLOSED auth-required:  [31mwho are you?"),
            (behind_notice(closes_at_once), "closed after NOTICE not today"),
            (behind_notice(says_nothing), "timed out after NOTICE not today"), (says_nothing, "timed out"),
            (says_others, "too many other messages"), (no_json, "no valid message"), (None, "status 503")]

# How a relay's session fails, and what is told of it.
FAULTS = [(closes_at_once, "closed"), (says_goodbye, "closed"), (says_nothing, "timed out"),
          (behind_notice(closes_at_once), "closed after NOTICE not today"),
          (behind_notice(says_nothing), "timed out after NOTICE not today"),
          (says_else, "too many other messages after NOTICE wait"),
          (lambda connection, asked: connection.say(["NEG-ERR", asked[1], "blocked: too big"]), "NEG-ERR blocked: too big"),
          (lambda connection, asked: connection.say(["CLOSED", asked[1], "x" * 300]), "CLOSED " + "x" * 200),
          (no_json, "no valid message"), (no_frame, "no valid message"), (sends_long, "message too long"),
          (lambda connection, asked: connection.say(["NEG-MSG", asked[1], "62"]), "bad answer: version byte 98"),
          (compares, "too many rounds")]

# How a connection isn't made, and what is told of it.
REFUSED = [(unavailable, "status 503"), (shakes_no_hands, "no WebSocket handshake"), (lambda stream: stream.close(), "closed"),
           (lambda stream: stream.recv(1 << 16) and stream.recv(1), "timed out")]


def twins_of(place, one, other):
    """Two relays, of which the one is at this place."""
    twins = [other, one] if place else [one, other]
    return twins, [it.at for it in twins]


def fails_over(refuses, why, place, alone, job, path, folder):
    both = [event(3000 + n, "of both") for n in range(40)]
    ids = [it["id"] for it in both]
    refusing = Played(lists(ids + [it["id"] for it in alone], refuses), refuses is None)
    _twins, at = twins_of(place, refusing, Played(lists(ids, gives_of(both))))
    counts, told, status, kept = job.ran(folder, at, path, rounds=2, timeout_ms=1000)
    same(counts, (40, 0, len(alone)))
    same(by_id(kept), by_id(both))
    same(["relay %d %s: %s" % (place, refusing.at, why) in told, status], [True, 3])
    # In the second round it is asked for no more than what it alone has, and isn't connected to where that is nothing.
    again = [[it["id"] for it in alone if refuses]]
    same(refusing.fetched()[1:], again if alone else [])


def is_cut(place, job, path, folder):
    both = [event(3000 + n, "of both" * 200) for n in range(2000)]
    ids = [it["id"] for it in both]
    cut = Played(lists(ids, cut_after(both, 1_000_000)))
    _twins, at = twins_of(place, cut, Played(lists(ids, gives_of(both))))
    counts, told, status, kept = job.ran(folder, at, path, rounds=2)
    same(counts, (2000, 0, 0))
    same(by_id(kept), by_id(both))
    same(["relay %d %s: closed" % (place, cut.at) in told, status], [True, 3])
    same(len(cut.asked), 2)


def is_too_slow(is_silent, place, job, path, folder):
    both = [event(3000 + n, "x" * 1000) for n in range(60)]
    ids = [it["id"] for it in both]
    slow = Played(lists(ids, says_nothing if is_silent else drips(both, 1000)))
    _twins, at = twins_of(place, slow, Played(lists(ids, gives_of(both))))
    begun = time.monotonic()
    counts, told, status, kept = job.ran(folder, at, path, rounds=2)
    took = time.monotonic() - begun
    same(counts, (60, 0, 0))
    same(by_id(kept), by_id(both))
    same(["relay %d %s: too slow" % (place, slow.at) in told, status], [True, 3])
    if not 9.5 < took < 20:
        raise SystemExit("a relay that brings too little was waited for %.1f seconds" % took)


def is_slow_enough(job, path, folder):
    some = [event(3000 + n, "x" * 1000) for n in range(10)]
    slow = Played(lists([it["id"] for it in some], drips(some, 1000)))
    begun = time.monotonic()
    counts, _told, status, kept = job.ran(folder, [slow.at], path, slow_bytes=500)
    same([counts, status, by_id(kept)], [(10, 0, 0), 0, by_id(some)])
    if time.monotonic() - begun < 11:
        raise SystemExit("the relay that drips took too little time to show anything")


def tells_reasons(job, path, folder):
    some = [event(5000, "of one that is up")]
    up = Played(holds(some))
    nobody = Server(None)
    nobody.__exit__()
    relays = [Server(serve) for serve, _why in REFUSED] + [Played(answer) for answer, _why in FAULTS] + [nobody]
    # No name has so many letters, and no stream goes to all.
    at = [it.at for it in relays] + ["x" * 64 + ":80", "255.255.255.255:80", up.at]
    whys = [why for _does, why in REFUSED + FAULTS] + ["connection refused", "no such host", "host unreachable"]
    counts, told, status, kept = job.ran(folder, at, path, timeout_ms=2000)
    wanted = ["relay %d %s: %s" % it for it in zip(range(len(whys)), at, whys)]
    same([line for line in wanted if line not in told], [])
    same([counts, status, kept], [(1, 0, 0), 3, some])
    told = [line for line in told if ": " in line]
    if job.name == "mirror":
        # Those that refuse too much are asked for less and less.
        told = set(told)
    same(len(told), len(wanted))


def is_named(job, path, folder):
    some, named = event(5000, "of one that is named"), []
    answer = lists([some["id"]], gives_of([some]))

    def answers(connection, asked):
        if asked[0] in ("NEG-OPEN", "REQ"):
            named.append(connection.named)
        answer(connection, asked)
    at = Played(answers).at
    for entry, wanted in ((at, ("/", at)), ("ws://" + at, ("/", at)), ("ws://%s/a/b?c=d" % at, ("/a/b?c=d", at)),
                          ({"host": "relay.example.com", "path": "/a?b", "via": at}, ("/a?b", "relay.example.com")),
                          ({"host": "relay.example.com:8080", "via": at}, ("/", "relay.example.com:8080"))):
        same(job.ran(folder, [entry], path)[2:], (0, [some]))
        # Of the session and of the fetching.
        same(named, [wanted] * 2)
        named.clear()


def all_are_down(job, path, folder):
    up, nobody = Played(lists([], gives_none)), Server(None)
    nobody.__exit__()
    for relays, wanted in (([nobody], 3), ([nobody, nobody], 3), ([nobody, up], 3), ([up], 0)):
        counts, told, status, kept = job.ran(folder, [it.at for it in relays], path, rounds=3)
        same([counts, "relay 0 failed 1" in told, status, kept], [(0, 0, 0), nobody in relays, wanted, []])


def is_not_strict(path, folder):
    """Without that word `sync` ends with status 0, whatever relays failed."""
    up, nobody = Played(lists([], gives_none)), Server(None)
    nobody.__exit__()
    for relays in ([nobody], [nobody, up]):
        counts, told, status, _kept = Job("sync").ran(folder, [it.at for it in relays], path)
        same([counts, "relay 0 failed 1" in told, status], [(0, 0, 0), True, 0])


def in_folder(meets, path):
    with tempfile.TemporaryDirectory() as folder:
        return meets(path, folder)


def side_by_side(parts, path):
    """Runs parts in threads, the long ones first."""
    with ThreadPoolExecutor(8) as pool:
        for ran in [pool.submit(in_folder, part, path) for part in parts]:
            ran.result()


def main():
    parser = argparse.ArgumentParser(description=__doc__.split("\n")[0])
    parser.add_argument("program", nargs="?", default=os.path.join(ROOT, "crates/mirror_app/out/mirror_app"))
    parser.add_argument("--runs", type=int, default=1)
    options = parser.parse_args()
    path, rng = os.path.abspath(options.program), random.Random(1)
    alone = event(4000, "of one alone")
    parts = [is_slow_enough] + [partial(is_too_slow, silent, place) for silent in (0, 1) for place in (0, 1)]
    parts += [tells_reasons, all_are_down, is_named] + [partial(is_cut, place) for place in (0, 1)]
    parts += [partial(fails_over, *refusal, place, it) for refusal in REFUSALS for place in (0, 1) for it in ([], [alone])]
    parts = [partial(part, job) for part in parts for job in JOBS] + [is_not_strict]
    for _ in range(options.runs):
        memory = in_folder(partial(meet, rng), path)
        took = max(in_folder(partial(gives_unasked, job), path) for job in JOBS)
        side_by_side(parts, path)
        print("as wanted, %.0f MiB, and %.0f MiB for what nobody asked for" % (memory, took), flush=True)


if __name__ == "__main__":
    main()
