"""What the measurements measure with, where no other program makes it: the same bytes at each run."""
import hashlib
import json
import multiprocessing
import random

SHAPES = ["random", "sparse", "few", "skewed", "chain", "nested", "single", "three", "wide", "halves", "bridge", "comb"]


def made(maker, path, *args):
    """Writes a file in a process of its own: what memory this one has taken would count for the programs."""
    making = multiprocessing.Process(target=maker, args=(path, *args))
    making.start()
    making.join()
    if making.exitcode != 0:
        raise SystemExit("an input could not be made")


def identity(rng):
    return "%064x" % rng.getrandbits(256)


def items(path, count, ppm):
    """Two lists of so many items, of which so many in a million differ, in no order."""
    rng = random.Random(1)
    line = lambda: "%d %s\n" % (1_600_000_000 + rng.randrange(100_000_000), identity(rng))
    differing = count * ppm // 1_000_000
    common = [line() for _ in range(count - differing)]
    with open(path, "w", encoding="ascii") as text:
        for word in ("mine\n", "theirs\n"):
            lines = common + [line() for _ in range(differing)]
            rng.shuffle(lines)
            text.write(word)
            text.writelines(lines)


def some(rng, count, pick):
    """At most so many relays, each picked."""
    return {pick() for _ in range(count)}


def offering(rng, shape, relays, sets, i, ids):
    """Which relays offer the id at a place, of so many. The last shapes, overlapping communities, want 64 relays or more."""
    any_one = lambda: rng.randrange(relays)
    popular = lambda: int(rng.random() ** 3 * relays)
    if shape == "random":
        return {r for r in range(relays) if rng.getrandbits(1)} or {any_one()}
    if shape == "sparse":
        return some(rng, 1 + rng.randrange(4), any_one)
    if shape == "few":
        return sets[int(rng.random() ** 3 * len(sets))]
    if shape == "skewed":
        return some(rng, 1 + rng.randrange(8), popular)
    if shape == "chain":
        first = int(rng.random() ** 4 * max(relays - 1, 1))
        return {first, min(first + 1, relays - 1)} if rng.randrange(10) < 7 else {first}
    if shape == "nested":
        return set(range(min(1 + int(rng.random() ** 2 * relays), relays)))
    if shape == "single":
        return {i % relays}
    # Of the relays from one 64th of them to another, some.
    part = lambda least, end: range(relays * least // 64, relays * end // 64)
    sample = lambda least, end, count: set(rng.sample(part(least, end), count))
    if shape == "wide":
        return sample(0, 48, 8) if i % 3 else sample(40, 60, 6)
    if shape == "halves":
        return sample(0, 36, 5) if i % 2 else sample(28, 64, 5)
    if shape == "bridge":
        return sample(0, 32, 5) if i % 2 else sample(26, 34, 4)
    if shape == "comb":
        few = {r for r in part(40, 57) if rng.getrandbits(1)}
        return few | set(part(0, 10) if i < ids // 2 else part(57, 58))
    # three: of eighteen ids ten by relays 0 and 1, five by 1 and 2, three by 2 alone
    return {0, 1} if i % 18 < 10 else {1, 2} if i % 18 < 15 else {2}


def offers(path, ids, relays, shape):
    """A plan text of offers in a shape."""
    rng = random.Random(1)
    sets = [some(rng, 1 + rng.randrange(6), lambda: rng.randrange(relays)) for _ in range(40)]
    lines = sorted(
        "offer %s %s\n" % (identity(rng), " ".join(map(str, sorted(offering(rng, shape, relays, sets, i, ids)))))
        for i in range(ids))
    with open(path, "w", encoding="ascii") as text:
        text.write("nostr-plan 1\n")
        text.writelines(lines)
        text.write("group\n")


WORDS = ("nostr relay the a note of and event keys signed good morning über größer señor 日本語 世界 Привет 🤙 ⚡ \"quoted\" "
         "back\\slash https://example.com/a/b?c=d&e=f #introductions simple open speech read write mirror").split(" ")


def compact(value):
    return json.dumps(value, ensure_ascii=False, separators=(",", ":"))


def event(rng, authors):
    """An event with a right id, as compact JSON with its keys in order."""
    kind = rng.choice([1, 1, 1, 1, 1, 1, 7, 7, 6, 0, 3, 9735, 30023])
    tags = [rng.choice([["e", identity(rng), "wss://relay.example.com", "reply"], ["p", rng.choice(authors)], ["t", "café"]])
            for _ in range(rng.randrange(5))]
    content = " ".join(rng.choice(WORDS) for _ in range(2 if kind == 7 else 4 + int(rng.random() ** 2 * 90)))
    draft = [0, rng.choice(authors), 1_600_000_000 + rng.randrange(100_000_000), kind, tags, content]
    return compact({
        "content": content, "created_at": draft[2], "id": hashlib.sha256(compact(draft).encode()).hexdigest(),
        "kind": kind, "pubkey": draft[1], "sig": identity(rng) + identity(rng), "tags": tags})


def events(path, count):
    """Events as JSON, one a line."""
    rng = random.Random(1)
    authors = [identity(rng) for _ in range(max(1, min(count // 25, 5000)))]
    with open(path, "w", encoding="utf-8") as text:
        for _ in range(count):
            text.write(event(rng, authors) + "\n")
