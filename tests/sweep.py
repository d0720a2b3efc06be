#!/usr/bin/env python3
"""Refuses each allocation of the built program, and each start of a thread, in turn.

    tests/sweep.py [PATH]      (PATH of the program; else the proved build)

`recon`, `plan` and `check` have to end with status 0 and the ample output, or with status 1 and one line `refused: ..`.

`sync`: the same, with two relays that have all memory. The mirror's file has to be the old one or one of events that a relay
has, and one that a good end tells of.

`serve`: a client puts ten events in, asks for them and opens a Negentropy session. Whatever becomes of it, a later client has to
get what was acknowledged, and so has the file. Of `sync` and `serve` every so many allocations are taken, which is printed:
600 of each, or as many as the environment's RUNS says.

A file that can't be read to its end is refused by `serve`, each of its reads in turn, and stays as it is. A wrong line that was
read before is told in its place.

It needs a C compiler, for the libraries that refuse (`bench/refuse.c`, `tests/reads.c`).
"""
import collections
import concurrent.futures
import json
import os
import re
import subprocess
import sys
import tempfile

from told import ROOT, event, port_of, program, settings, written
from wire import Client, Gone

# How many runs there are of `sync` and of `serve` at most.
RUNS = int(os.environ.get("RUNS", "600"))
REFUSED = re.compile(r"refused: [^\n]+\n")


class Wrong(Exception):
    """What a run may not end with."""


def refusing(library, at):
    """The environment of a run with that allocation refused; none for 0, and then they are counted."""
    return dict(os.environ, LD_PRELOAD=library, FAIL_AT=str(at), **({} if at else {"COUNT": "1"}))


def counted(errors):
    """The count that a run tells on standard error, and what else it writes there."""
    rest, count = errors.rsplit("allocations ", 1)
    return int(count), rest


def run(library, words, at, stdin=""):
    """Status, output and errors of a run with that allocation refused."""
    done = subprocess.run(words, input=stdin, capture_output=True, text=True, timeout=60, env=refusing(library, at),
                          check=False)
    return done.returncode, done.stdout, done.stderr


def need(is_right, *found):
    if not is_right:
        raise Wrong(*found)


def in_turn(pool, name, places, one):
    """What each place came to, by how often. The first that is wrong ends the sweep."""
    ends = collections.Counter()
    for at, end in zip(places, pool.map(lambda at: tried(one, at), places)):
        if isinstance(end, Wrong):
            raise SystemExit("%s, allocation %d refused: %r" % (name, at, end.args))
        ends[end] += 1
    print("%s: %s" % (name, ", ".join("%d %s" % (times, end) for end, times in sorted(ends.items()))), flush=True)
    return ends


def bites(name, ends):
    """Fails where two refusals of three left no trace, or none was told as want of memory: then they may not have been made at
    all. An event for whose tokens there was no memory is read in another way, which leaves none."""
    if not ends["refused: memory"] or ends["ample"] * 3 > sum(ends.values()) * 2:
        raise SystemExit("%s: hardly anything was refused" % name)


def tried(one, at):
    try:
        return one(at)
    except Wrong as wrong:
        return wrong


def strided(total):
    """Every so many places up to one past the last."""
    return range(1, total + 2, total // RUNS + 1)


def ended(status, out, errors, ample):
    """How a job ended: well, or refused with nothing written."""
    if status == 0:
        need(out == ample and not errors, status, out, errors)
        return "ample"
    need(status == 1 and not out and REFUSED.fullmatch(errors), status, out, errors)
    return errors.strip()


def jobs(library, pool, _folder):
    app = program()
    for job, words, source in (("recon", ["--limit", "4096"], "nearly-the-same.txt"), ("recon", [], "two-lists.txt"),
                               ("plan", [], "bottleneck.txt"), ("plan", [], "bases.txt"), ("check", [], None)):
        if source:
            with open(os.path.join(ROOT, "examples", source), encoding="utf-8") as text:
                stdin = text.read()
        else:
            stdin = ample  # The plan that was made last.
        status, ample, errors = run(library, [app, job, *words], 0, stdin)
        total, rest = counted(errors)
        if status or rest:
            raise SystemExit("%s: status %d %s" % (job, status, rest))
        name = "%s %s" % (job, source or "of that plan")
        bites(name, in_turn(pool, name, range(1, total + 2),
                            lambda at: ended(*run(library, [app, job, *words], at, stdin), ample)))


def without_trouble(errors):
    """What is told beside a fault of the events file that passes, as it does where memory is there again."""
    return re.sub(r"^events file: .*\n", "", errors, flags=re.M)


def ids_in(path):
    """The ids of a file each of whose lines has to be an event."""
    with open(path, encoding="utf-8") as text:
        lines = text.readlines()
    need(all(line.endswith("\n") for line in lines), "a line that doesn't end", path)
    return [json.loads(line)["id"] for line in lines]


def start_relay(folder, name, events, env=None, **values):
    file = os.path.join(folder, name + ".jsonl")
    written(file, events)
    conf = settings(folder, name, listen="127.0.0.1:0", **values)
    child = subprocess.Popen([program(), "serve", conf], stdout=subprocess.PIPE, stderr=subprocess.PIPE, text=True,
                             env=env)
    return child, file


def mirrored(library, folder, ports, old, theirs, at):
    """How a mirror's run ended that has some of the events of two relays."""
    with tempfile.TemporaryDirectory(dir=folder) as own:
        file = os.path.join(own, "mirror.jsonl")
        written(file, old)
        conf = settings(own, "mirror", relays=["127.0.0.1:%d" % port for port in ports])
        status, out, errors = run(library, [program(), "sync", conf], at)
        count, errors = counted(errors) if at == 0 else (0, errors)
        errors = without_trouble(errors)
        found, kept = ids_in(file), [it["id"] for it in old]
        new = found[len(kept):]
        need(found[:len(kept)] == kept and len(set(found)) == len(found) and set(new) <= theirs, "the file", found)
        need(sorted(os.listdir(own)) == ["mirror.jsonl", "mirror.toml"], "files left", os.listdir(own))
        if status:
            # What was fetched before the refusal is kept.
            need(status == 1 and REFUSED.fullmatch(errors), status, out, errors, new)
            return errors.strip()
        told = dict(re.findall(r"^(given|missed|left) (\d+)$", out, re.M))
        need(not errors and len(told) == 3 and int(told["given"]) == len(new), status, out, errors, new)
        if at == 0:
            return count, new
        return "ample" if set(new) == theirs else "fewer"


def sync(library, pool, folder):
    events = [event(1700000000 + n, "event \u00e9") for n in range(40)]
    old, one, other = events[:4], events[2:25], events[20:]
    relays = [start_relay(folder, name, held, conns=1_000_000)[0] for name, held in (("one", one), ("other", other))]
    try:
        ports = [port_of(relay) for relay in relays]
        theirs = {it["id"] for it in events[4:]}
        total, new = mirrored(library, folder, ports, old, theirs, 0)
        if set(new) != theirs:
            raise SystemExit("sync: %d events came" % len(new))
        places = strided(total)
        ends = in_turn(pool, "sync, every %d of %d" % (places.step, total), places,
                       lambda at: mirrored(library, folder, ports, old, theirs, at))
        need(ends["ample"], "no good end")
        bites("sync", ends)
    finally:
        for relay in relays:
            relay.kill()
            relay.communicate()


def put_in(port, new):
    """The ids that are acknowledged to a client that puts events in and asks for them, whatever becomes of its connection."""
    taken = set()
    try:
        client = Client(port)
        client.socket.settimeout(20)
        client.send(b'["REQ","all",{}]')
        client.send(*(json.dumps(["EVENT", it]).encode() for it in new))
        client.send(b'["NEG-OPEN","n",{},"6100000200"]')
        while True:
            text = json.loads(client.read())
            if text[0] == "OK" and text[2]:
                taken.add(text[1])
            if text[0].startswith("NEG"):
                client.close()
                return taken
    except (Gone, OSError):
        return taken


def got(port):
    """The ids that a client gets, unless its connection ends."""
    try:
        client = Client(port)
        client.socket.settimeout(20)
        client.send(b'["REQ","all",{}]')
        ids = []
        while True:
            text = json.loads(client.read())
            if text[0] == "EOSE":
                client.close()
                return set(ids)
            ids.append(text[2]["id"])
    except (Gone, OSError):
        return None


def served(library, folder, old, new, at):
    """How a relay ended that three clients were served by, one after another."""
    with tempfile.TemporaryDirectory(dir=folder) as own:
        relay, file = start_relay(own, "relay", old, refusing(library, at), conns=3)
        try:
            port = port_of(relay)
            taken = put_in(port, new) if port else set()
            seen = [got(port) for _ in range(2)] if port else []
            out, errors = relay.communicate(timeout=60)
        finally:
            relay.kill()
        count, errors = counted(errors) if at == 0 else (0, errors)
        errors = without_trouble(errors)
        kept, all_ids = {it["id"] for it in old}, {it["id"] for it in old + new}
        found = ids_in(file)
        need(len(set(found)) == len(found) and set(found) <= all_ids, "the file", found)
        need(sorted(os.listdir(own)) == ["relay.jsonl", "relay.toml"], "files left", os.listdir(own))
        # One allocation is refused, so one of the later clients is served.
        if port and relay.returncode == 0 or any(it is not None for it in seen):
            need(any(it is not None for it in seen), "no client was served", out, errors)
            need(all(it is None or taken | kept <= it <= all_ids for it in seen), "a client lacks events", taken, seen)
        if relay.returncode:
            # What was acknowledged is in the file.
            need(relay.returncode == 1 and REFUSED.fullmatch(errors) and taken | kept <= set(found),
                 relay.returncode, out, errors, found)
            return errors.strip() + (" at the end" if seen else "")
        need(not errors and taken | kept <= set(found), relay.returncode, out, errors, found, taken)
        if at == 0:
            return count, taken
        return "ample" if len(taken) == len(new) and None not in seen else "a client less"


def serve(library, pool, folder):
    old, new = [event(1, "old")], [event(1700000000 + n, "event \u00e9") for n in range(10)]
    total, taken = served(library, folder, old, new, 0)
    if len(taken) != len(new):
        raise SystemExit("serve: %d events were taken" % len(taken))
    places = strided(total)
    ends = in_turn(pool, "serve, every %d of %d" % (places.step, total), places,
                   lambda at: served(library, folder, old, new, at))
    need(ends["ample"], "no good end")
    bites("serve", ends)


def unread(library, folder, lines):
    """How `serve` ended over a file of these lines, by the first of its reads that fails."""
    with tempfile.TemporaryDirectory(dir=folder) as own:
        file = os.path.join(own, "relay.jsonl")
        with open(file, "w", encoding="utf-8") as text:
            text.write("".join(lines))
        conf = settings(own, "relay", listen="127.0.0.1:0", conns=1)
        ends = []
        while len(ends) == 0 or ends[-1] == "refused: read\n":
            env = dict(os.environ, LD_PRELOAD=library, READ_AT=str(len(ends) + 1))
            child = subprocess.Popen([program(), "serve", conf], stdout=subprocess.PIPE, stderr=subprocess.PIPE, text=True, env=env)
            said = child.stdout.readline()
            child.kill()
            ends.append(said + child.communicate()[1])
            with open(file, encoding="utf-8") as text:
                need(text.readlines() == lines and len(os.listdir(own)) == 2, "a file that couldn't be read", len(ends))
        return ends


def files(library, _pool, folder):
    """Some seven parts of the file, those of which some are read while others are put in."""
    lines = [json.dumps(event(1700000000 + n, "%d " % n * 20_000), separators=(",", ":"), sort_keys=True) + "\n" for n in range(60)]
    ends = unread(library, folder, lines)
    need(ends[-1].startswith("listening ") and len(ends) > 20, "a file that could be read", ends[-1])
    lines[10] = "{}\n"
    wrong = unread(library, folder, lines)
    need(wrong[-1] == "refused: file line 11\n" and 5 < len(wrong) < len(ends), "a wrong line", wrong)
    print("serve: each of %d reads of a file, and of %d before a wrong line" % (len(ends) - 1, len(wrong) - 1), flush=True)


def built(source, folder):
    """The library of that C source, which is made in that folder."""
    library = os.path.join(folder, os.path.basename(source)[:-len(".c")] + ".so")
    subprocess.run([os.environ.get("CC", "cc"), "-O1", "-shared", "-fPIC", "-o", library, os.path.join(ROOT, "tests", source)],
                   check=True)
    return library


def main():
    with tempfile.TemporaryDirectory() as folder, concurrent.futures.ThreadPoolExecutor(os.cpu_count()) as pool:
        library = built("../bench/refuse.c", folder)
        for part in (jobs, sync, serve):
            part(library, pool, folder)
        files(built("reads.c", folder), pool, folder)


if __name__ == "__main__":
    main()
