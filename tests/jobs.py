#!/usr/bin/env python3
"""Runs `nostr-mirror serve` and `sync` on this machine, and compares all that they print and write.

    tests/jobs.py [PATH]      (PATH of the program; else the proved build)
"""
import contextlib
import json
import os
import random
import resource
import select
import socket
import subprocess
import tempfile
import threading
import time

from played import Played, closes, gives_none, gives_of, listing, lists
from told import begin, by_id, done, event, line_of, program, read, same, settings, start, written
from wire import Client

E = [event(1700000000 + n, "event %d" % n) for n in range(4)]

FRONT = "events = 'it.jsonl'\nrelays = ['a:1', 'b:2']\n"

# Lines behind the front, and the key that is told of them, where the run synchronises.
WRONG = [
    ("listen = 'a'", "listen"),
    ("listen = ':1'", "listen"),
    ("listen = 'a:'", "listen"),
    ("listen = 'a:65536'", "listen"),
    ("listen = 'a:01'", "listen"),
    ("listen = 'a:+1'", "listen"),
    ("listen = 'a: 1'", "listen"),
    ("listen = 1", "listen"),
    ("listen = 'a:1'", "conns"),
    ("listen = 'a:1'\nconns = 0", "conns"),
    ("conns = 1000001", "conns"),
    ("conns = -1", "conns"),
    ("conns = '1'", "conns"),
    ("conns = 1.0", "conns"),
    ("filter = '['", "filter"),
    ("filter = '[]'", "filter"),
    ("filter = '{\"kinds\":[65536]}'", "filter"),
    ("filter = '{\"ids\":[\"AA\"]}'", "filter"),
    ("filter = {}", "filter"),
    ("workers = 0", "workers"),
    ("workers = 5", "workers"),
    ("workers = [1]", "workers"),
    ("bases = [1]", "bases"),
    ("bases = [1, 2, 3]", "bases"),
    ("bases = [1, 1000000001]", "bases"),
    ("bases = [-1, 1]", "bases"),
    ("bases = 1", "bases"),
    ("rounds = 0", "rounds"),
    ("rounds = 17", "rounds"),
    ("push_ms = 0", "push_ms"),
    ("push_ms = 60001", "push_ms"),
    ("timeout_ms = 0", "timeout_ms"),
    ("timeout_ms = 3600001", "timeout_ms"),
    ("slow_bytes = 0", "slow_bytes"),
    ("slow_bytes = 1000000001", "slow_bytes"),
    ("slow_bytes = 0\nfsync = 1", "fsync"),
    ("clients = 0", "clients"),
    ("clients = 100001", "clients"),
    ("ping_ms = 0", "ping_ms"),
    ("ping_ms = 3600001", "ping_ms"),
    ("ping_ms = 0\nclients = 0\nslow_bytes = 0", "slow_bytes"),
    ("ping_ms = 0\nclients = 0", "clients"),
    ("fsync = 1", "fsync"),
    ("fsync = 'Always'", "fsync"),
    ("fsync = 'every'\ntimeout_ms = 0", "timeout_ms"),
    ("timeout_ms = '1'\npush_ms = 0", "push_ms"),
    ("push_ms = 0\nbases = []\nworkers = 9", "workers"),
    ("push_ms = 0\nrounds = 0\nbases = []", "bases"),
]

# Whole settings, and what is told of them.
REFUSED = [
    ("sync", "events", ""),
    ("sync", "events = 'e'\nevents = 'e'\n", ""),
    # Bytes that are no UTF-8, wherever they stand and whatever else is wrong.
    ("serve", "\udcff", ""),
    ("sync", "events = 'e\udcff'\nrelays = ['a:1']\n", ""),
    ("sync", "events = 1\n# \udcff\n", ""),
    ("serve", "", " events"),
    ("serve", "events = 1", " events"),
    ("serve", "events = 'e'", " listen"),
    ("serve", "events = 'e'\nlisten = 'a:1'", " conns"),
    ("serve", "events = 'e'\nlisten = 'a:1'\nconns = 1\npush_ms = 0", " push_ms"),
    ("sync", "events = 'e'", " relays"),
    ("sync", "events = 'e'\nrelays = []", " relays"),
    ("sync", "events = 'e'\nrelays = ['a:1', 'b']", " relays"),
    ("sync", "events = 'e'\nrelays = 'a:1'", " relays"),
    ("sync", "events = 'e'\nrelays = [['a:1']]", " relays"),
    ("sync", "events = 'e'\nrelays = ['wss://a:1']", " relays"),
    ("sync", "events = 'e'\nrelays = ['a:1', { host = 'a' }]", " relays"),
    ("sync", "events = 'e'\nrelays = [{ host = 'a', path = 'b', via = 'a:1' }]", " relays"),
    ("sync", "events = 'e'\nrelays = [%s]" % ", ".join(["'a:1'"] * 257), " relays"),
]


def relays_of(path, folder, *held, conns=2):
    """A relay for each list of events, and their addresses. Each serves two connections where nothing else is said: a session,
    and one that fetches."""
    relays = []
    for number, events in enumerate(held):
        name = "relay%d" % number
        written(os.path.join(folder, name + ".jsonl"), events)
        relays.append(start(path, "serve", settings(folder, name, listen="127.0.0.1:0", conns=conns)))
    return relays, ["127.0.0.1:%d" % port for _, port in relays]


def two_relays_are_mirrored(path, folder):
    relays, at = relays_of(path, folder, E[:2], E[1:3])
    written(os.path.join(folder, "mirror.jsonl"), E[:1])
    told = "relay 0 need 1\nrelay 1 need 2\nleast 1\ngroup 0 1\ngiven 2\nmissed 0\nleft 0\n"
    same(done(path, "sync", settings(folder, "mirror", relays=at)), (0, told, ""))
    same(by_id(read(os.path.join(folder, "mirror.jsonl"))), by_id(E[:3]))
    for relay, _ in relays:
        same(relay.communicate(timeout=60), ("served 2\nevents 2\n", ""))
        same(relay.returncode, 0)


def a_relay_that_is_away_touches_no_other(path, folder):
    relays, at = relays_of(path, folder, E[:2])
    with socket.create_server(("127.0.0.1", 0)) as gone:
        away = "127.0.0.1:%d" % gone.getsockname()[1]
    told = "relay 0 failed 1\nrelay 1 need 2\nleast 2\ngroup 1\ngiven 2\nmissed 0\nleft 0\n"
    same(done(path, "sync", settings(folder, "mirror", relays=[away] + at)), (0, told, ""))
    same(by_id(read(os.path.join(folder, "mirror.jsonl"))), by_id(E[:2]))
    same(relays[0][0].communicate(timeout=60)[0], "served 2\nevents 2\n")


def a_level_mirror_fetches_nothing(path, folder):
    relays, at = relays_of(path, folder, E)
    written(os.path.join(folder, "mirror.jsonl"), E)
    told = "relay 0 need 0\nleast 0\ngroup\ngiven 0\nmissed 0\nleft 0\n"
    same(done(path, "sync", settings(folder, "mirror", relays=at)), (0, told, ""))
    same(read(os.path.join(folder, "mirror.jsonl")), E)
    relays[0][0].kill()
    relays[0][0].communicate()


def a_filter_and_bases_are_kept(path, folder):
    relays, at = relays_of(path, folder, E, E)
    conf = settings(folder, "mirror", relays=at, bases=[5, 0], filter='{"until":%d}' % E[2]["created_at"])
    told = "relay 0 need 3\nrelay 1 need 3\nleast 5\ngroup 0\ngiven 3\nmissed 0\nleft 0\n"
    same(done(path, "sync", conf), (0, told, ""))
    same(by_id(read(os.path.join(folder, "mirror.jsonl"))), by_id(E[:3]))
    # Nothing was to be asked of the first: no second connection came.
    for relay, _ in relays:
        relay.kill()
        relay.communicate()


def ids_of(events):
    return [it["id"] for it in events]


# Relay 0 has five events by itself and gives three of them, and nothing else; relay 1 has seven by itself and gives all; relay 2
# gives nothing. All three list the same six.
FIRST, SECOND, ALL = ([event(time + n, "one of some") for n in range(count)] for time, count in ((1000, 5), (2000, 7), (3000, 6)))

# What is printed of each round's plan where the loads begin with 12, 10 and 0, and of the counts where it is the last round.
# The loads can't be shared but as 17, 17 and 6, then as 20, 20 and 6, and then as 20, 23 and 6.
ROUNDS = [
    ("least 17\ngroup 0 1\n", "given 10\nmissed 8\nleft 0\n"),
    ("round 2\nleast 20\ngroup 0 1\n", "given 13\nmissed 11\nleft 0\n"),
    ("round 3\nleast 23\ngroup 1\n", "given 16\nmissed 11\nleft 0\n"),
]


def what_was_missed_is_planned_anew(path, folder):
    """Of other relays, over what each was asked for, up to so many rounds and until nothing is missed. Each round connects to
    all relays, also to those that it asks nothing."""
    for rounds in (1, 2, 3, 16):
        ran = min(rounds, 3)
        honest, [at] = relays_of(path, folder, SECOND + ALL, conns=1 + ran)
        written(os.path.join(folder, "mirror.jsonl"), E[:1])
        with Played(lists(ids_of(FIRST + ALL), gives_of(FIRST[:3]))) as first, Played(lists(ids_of(ALL), gives_none)) as none:
            conf = settings(folder, "mirror", relays=[first.at, at, none.at], bases=[12, 10, 0], rounds=rounds)
            told = "relay 0 need 11\nrelay 1 need 13\nrelay 2 need 6\n%s%s" % (
                "".join(plan for plan, _counts in ROUNDS[:ran]), ROUNDS[ran - 1][1])
            same(done(path, "sync", conf), (0, told, ""))
            same(first.names(), [["NEG-OPEN"], ["REQ"], ["REQ"], []][:1 + ran])
            same(none.names(), [["NEG-OPEN"], ["REQ"], [], []][:1 + ran])
            asked, asked_none = first.fetched(), none.fetched()
        same([[len(ids) for ids in asked], asked[0]], [[5, 3, 0][:ran], sorted(ids_of(FIRST))])
        same(asked_none[0], sorted(ids_of(ALL)))
        same(honest[0][0].communicate(timeout=60), ("served %d\nevents 13\n" % (1 + ran), ""))
        # Relay 1 was asked for those of all that relay 0 wasn't, and then for these.
        later = [[], [it for it in ALL if it["id"] not in asked[-1]], ALL][ran - 1]
        same(by_id(read(os.path.join(folder, "mirror.jsonl"))), by_id(E[:1] + FIRST[:3] + SECOND + later))


# What a relay does in each round with what it is asked for, and the counts that come of it.
LEFT = [
    ([closes(E[:2])], "given 0\nmissed 0\nleft 2\n", []),
    ([closes(E[:2]), closes(E[:2])], "given 0\nmissed 0\nleft 2\n", []),
    ([closes(E[:2]), gives_of(E[1:])], "given 1\nmissed 1\nleft 0\n", E[1:2]),
]


def what_was_left_is_asked_for_again(path, folder):
    """Where a relay closes while it is fetched from, its ids are left: that adds nothing to its load, and the next round plans
    them as this one did."""
    for steps, counts, came in LEFT:
        later = iter(steps)
        with Played(lists(ids_of(E[:2]), lambda *asked, later=later: next(later)(*asked))) as relay:
            written(os.path.join(folder, "mirror.jsonl"), E[3:])
            plans = "round 2\n".join(["least 2\ngroup 0\n"] * len(steps))
            same(done(path, "sync", settings(folder, "mirror", relays=[relay.at], rounds=len(steps))),
                 (0, "relay 0 need 2\n" + plans + counts, ""))
            same(relay.fetched(), [sorted(ids_of(E[:2]))] * len(steps))
        same(by_id(read(os.path.join(folder, "mirror.jsonl"))), by_id(E[3:] + came))


def two_workers_fetch_side_by_side(path, folder):
    """A relay gives nothing before both have asked it. One of them alone asks for 100 ids at the most."""
    theirs = [event(1000 + n, "theirs") for n in range(150)]
    both = threading.Barrier(2, timeout=30)

    def gives(*asked):
        with contextlib.suppress(threading.BrokenBarrierError):
            both.wait()
        gives_of(theirs)(*asked)

    with Played(lists(ids_of(theirs), gives)) as relay:
        told = "relay 0 need 150\nleast 150\ngroup 0\ngiven 150\nmissed 0\nleft 0\n"
        same(done(path, "sync", settings(folder, "mirror", relays=[relay.at], workers=2)), (0, told, ""))
        same(relay.names(), [["NEG-OPEN"], ["REQ"], ["REQ"]])
        same(sorted(sum(relay.fetched(), [])), sorted(ids_of(theirs)))
    same(by_id(read(os.path.join(folder, "mirror.jsonl"))), by_id(theirs))


def what_is_no_event_asked_for_is_missed(path, folder):
    """One whose id isn't that of its text, some that have no event's shape, and one that nobody asked for in the place of the
    last."""
    theirs = [event(1000 + n, "theirs") for n in range(7)]
    unsigned = {key: value for key, value in theirs[3].items() if key != "sig"}
    given = [event(999, "not asked for"), dict(theirs[1], content="else"), dict(theirs[2], kind="1"), unsigned,
             dict(theirs[4], id=theirs[4]["id"].upper()), {"id": theirs[5]["id"]}, theirs[0]]

    def gives(connection, sub, _ids):
        connection.say(*(["EVENT", sub, it] for it in given), ["EOSE", sub])

    written(os.path.join(folder, "mirror.jsonl"), E[:1])
    with Played(lists(ids_of(theirs), gives)) as relay:
        told = "relay 0 need 7\nleast 7\ngroup 0\ngiven 1\nmissed 6\nleft 0\n"
        same(done(path, "sync", settings(folder, "mirror", relays=[relay.at])), (0, told, ""))
        same(relay.fetched(), [sorted(ids_of(theirs))])
    same(by_id(read(os.path.join(folder, "mirror.jsonl"))), by_id([E[0], theirs[0]]))


def a_client_learns_what_it_lacks(path, folder):
    """Of a relay that serves it alone."""
    written(os.path.join(folder, "relay.jsonl"), E[:2])
    relay = begin(path, "serve", settings(folder, "relay", listen="127.0.0.1:0", conns=1))
    first = line_of(relay)
    port = int(first.rsplit(":", 1)[1])
    client = Client(port)
    client.socket.settimeout(60)
    client.send(json.dumps(["NEG-OPEN", "it", {}, listing(ids_of(E[:1]))]).encode())
    same(json.loads(client.read()), ["NEG-MSG", "it", listing(ids_of(E[:2]))])
    client.close()
    out, errors = relay.communicate(timeout=60)
    same((first + out, errors, relay.returncode),
         ("listening 127.0.0.1:%d\nserved 1\nevents 2\n" % port, "", 0))


def connections_wait_for_descriptors(path, folder):
    """Where the system gives a relay no more of them, none is lost that comes in meanwhile."""
    relay, port = start(path, "serve", settings(folder, "relay", listen="127.0.0.1:0", conns=4))
    # With room for two more.
    limit, room = 0, 2
    used = {int(name) for name in os.listdir("/proc/%d/fd" % relay.pid)}
    while room or limit <= max(used):
        room -= limit not in used
        limit += 1
    resource.prlimit(relay.pid, resource.RLIMIT_NOFILE, (limit, resource.prlimit(relay.pid, resource.RLIMIT_NOFILE)[1]))
    first = [Client(port), Client(port)]
    later = []
    waiting = [threading.Thread(target=lambda: later.append(Client(port)), daemon=True) for _one in range(2)]
    for one in waiting:
        one.start()
    # A system that takes a descriptor as soon as it waits for a connection has had them all.
    time.sleep(0.5)
    for client in first:
        client.close()
    for one in waiting:
        one.join(60)
    same(len(later), 2)
    for client in later:
        client.close()
    same(relay.communicate(timeout=60), ("served 4\nevents 0\n", ""))


def hosts_have_names(path, folder):
    written(os.path.join(folder, "relay.jsonl"), E)
    relay = begin(path, "serve", settings(folder, "relay", listen="localhost:0", conns=2))
    host, port = line_of(relay).rsplit(":", 1)
    same(host, "listening localhost")
    told = "relay 0 need 4\nleast 4\ngroup 0\ngiven 4\nmissed 0\nleft 0\n"
    same(done(path, "sync", settings(folder, "mirror", relays=["localhost:%d" % int(port)])), (0, told, ""))
    same(by_id(read(os.path.join(folder, "mirror.jsonl"))), by_id(E))
    same(relay.communicate(timeout=60), ("served 2\nevents 4\n", ""))


def refusals_say_what_and_where(path, folder):
    def refused(job, text, events="", **values):
        with open(os.path.join(folder, "it.jsonl"), "w") as file:
            file.write(events)
        same(done(path, job, settings(folder, "it", **values)), (1, "", "refused: %s\n" % text))
        same(open(os.path.join(folder, "it.jsonl")).read(), events)

    refused("serve", "settings listen", conns=1)
    refused("serve", "settings conns", listen="127.0.0.1:0", conns=0)
    refused("serve", "settings push_ms", listen="127.0.0.1:0", conns=1, push_ms=60001)
    refused("sync", "settings relays", relays=[])
    refused("sync", "settings relays", relays=["127.0.0.1:1"] * 257)
    refused("sync", "settings filter", relays=["127.0.0.1:1"], filter="{")
    refused("sync", "settings bases", relays=["127.0.0.1:1"], bases=[1, 2])
    refused("sync", "settings rounds", relays=["127.0.0.1:1"], rounds=17)
    refused("serve", "file line 2", events="\n{}\n", listen="127.0.0.1:0", conns=1)
    with socket.create_server(("127.0.0.1", 0)) as taken:
        refused("serve", "listen", listen="127.0.0.1:%d" % taken.getsockname()[1], conns=1)
    same(done(path, "sync", os.path.join(folder, "none.toml")), (1, "", "refused: read\n"))


def long_files_are_read_piece_by_piece(path, folder):
    """Some 2 MiB of lines at a time: of these events the first 40 are two pieces and a part of a third, which ends with the last
    line, longer than a piece by itself. An empty line stands among them, and no line feed at the end."""
    many = [event(1700000000 + n, "%d " % n * (40_000 if n < 40 else 800_000)) for n in range(41)]
    lines = [json.dumps(it) for it in many]
    kept = os.path.join(folder, "it.jsonl")
    with open(kept, "w") as file:
        file.write("\n".join(lines[:20] + [""] + lines[20:]))
    conf = settings(folder, "it", listen="127.0.0.1:0", conns=1)
    relay, port = start(path, "serve", conf)
    socket.create_connection(("127.0.0.1", port)).close()
    same(relay.communicate(timeout=60), ("served 1\nevents 41\n", ""))
    same(ids_of(read(kept)), ids_of(many))
    with open(kept, "a") as file:
        file.write("\n\n{}\n")
    # The file was written anew, without the empty line.
    same(done(path, "serve", conf), (1, "", "refused: file line 44\n"))


def the_first_wrong_line_is_told(path, folder):
    """Lines are read side by side in parts: whichever lines are wrong, the first of them is told, and an empty one is none."""
    lines = [json.dumps(event(1700000000 + n, "%d " % n * 30)) for n in range(40_000)]
    conf = settings(folder, "it", listen="127.0.0.1:0", conns=1)
    rng = random.Random(1)
    for wrong in [[0, 39_999], [39_998, 39_999]] + [sorted(rng.sample(range(40_000), 3)) for _ in range(8)]:
        put = list(lines)
        put[rng.randrange(40_000)] = ""
        for place in wrong:
            put[place] = lines[place][:-1]
        with open(os.path.join(folder, "it.jsonl"), "w") as file:
            file.writelines(line + "\n" for line in put)
        same(done(path, "serve", conf), (1, "", "refused: file line %d\n" % (wrong[0] + 1)))


def one_run_has_an_events_file(path, folder):
    """A second run is refused and leaves no trace; the first is kept from nothing, also where the file is a link."""
    kept = os.path.join(folder, "kept.jsonl")
    written(kept, E[:1])
    os.symlink("kept.jsonl", os.path.join(folder, "it.jsonl"))
    # What a killed run has left.
    written(kept + ".new", E)
    conf = settings(folder, "it", listen="127.0.0.1:0", conns=1)
    first, port = start(path, "serve", conf)
    same(done(path, "serve", conf), (1, "", "refused: events busy\n"))
    same(done(path, "sync", settings(folder, "kept", relays=["127.0.0.1:1"])), (1, "", "refused: events busy\n"))
    socket.create_connection(("127.0.0.1", port)).close()
    same(first.communicate(timeout=60), ("served 1\nevents 1\n", ""))
    same((read(kept), sorted(os.listdir(folder))), (E[:1], ["it.jsonl", "it.toml", "kept.jsonl", "kept.toml"]))
    same(os.readlink(os.path.join(folder, "it.jsonl")), "kept.jsonl")


def no_other_file_is_written(path, folder):
    """Neither what the file beside is a link to, nor the events file where a standard stream is closed."""
    written(os.path.join(folder, "it.jsonl"), E[:1])
    written(os.path.join(folder, "other"), E[1:])
    beside = os.path.join(folder, "it.jsonl.new")
    os.symlink("other", beside)
    conf = settings(folder, "it", listen="127.0.0.1:0", conns=1)
    same(done(path, "serve", conf), (1, "", "refused: write\n"))
    os.remove(beside)
    ran = subprocess.run(["sh", "-c", 'exec "$0" serve "$1" >&-', path, conf], capture_output=True, text=True, timeout=120)
    same((ran.returncode, ran.stdout, ran.stderr), (1, "", "refused: write\n"))
    same((read(os.path.join(folder, "it.jsonl")), read(os.path.join(folder, "other"))), (E[:1], E[1:]))
    with open(conf, "w") as file:
        file.write("events = ''\nlisten = '127.0.0.1:0'\nconns = 1\n")
    same(done(path, "serve", conf), (1, "", "refused: write\n"))


def what_may_have_no_end_is_not_read(path, folder):
    """A pipe that nobody writes into, a device that goes on for ever, and a folder, are refused at once."""
    pipe = os.path.join(folder, "it.jsonl")
    os.mkfifo(pipe)
    for events, told in [(pipe, "write"), ("/dev/zero", "write"), (folder, "read")]:
        conf = settings(folder, "it", events=events, listen="127.0.0.1:0", conns=1)
        same((events, *done(path, "serve", conf)), (events, 1, "", "refused: %s\n" % told))


def a_missing_folder_is_told_first(path, folder):
    """Nothing is listened on, since that would be refused, and no relay is connected to."""
    events = os.path.join(folder, "none", "it.jsonl")
    with socket.create_server(("127.0.0.1", 0)) as taken:
        at = "127.0.0.1:%d" % taken.getsockname()[1]
        for job, values in [("serve", dict(listen=at, conns=1)), ("sync", dict(relays=[at])),
                            ("sync", dict(relays=[at], listen=at, conns=1))]:
            same(done(path, job, settings(folder, "it", events=events, **values)), (1, "", "refused: write\n"))
        same(select.select([taken], [], [], 0)[0], [])
    same(os.listdir(folder), ["it.toml"])


def wrong_settings_are_told(path, folder):
    conf = os.path.join(folder, "it.toml")
    cases = [("sync", FRONT + lines + "\n", " " + key) for lines, key in WRONG] + REFUSED
    for job, text, told in cases + [("serve", "events = \n", "")]:
        with open(conf, "w", encoding="utf-8", errors="surrogateescape") as file:
            file.write(text)
        same((text, *done(path, job, conf)), (text, 1, "", "refused: settings%s\n" % told))


def main():
    path = program()
    for part in (two_relays_are_mirrored, a_relay_that_is_away_touches_no_other, a_level_mirror_fetches_nothing,
                 a_filter_and_bases_are_kept, what_was_missed_is_planned_anew, what_was_left_is_asked_for_again,
                 two_workers_fetch_side_by_side, what_is_no_event_asked_for_is_missed, a_client_learns_what_it_lacks,
                 connections_wait_for_descriptors, hosts_have_names, refusals_say_what_and_where,
                 long_files_are_read_piece_by_piece, the_first_wrong_line_is_told, one_run_has_an_events_file,
                 no_other_file_is_written, what_may_have_no_end_is_not_read, a_missing_folder_is_told_first,
                 wrong_settings_are_told):
        with tempfile.TemporaryDirectory() as folder:
            part(path, folder)
        print(part.__name__.replace("_", " "))


if __name__ == "__main__":
    main()
