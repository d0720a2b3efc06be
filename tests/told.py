"""What the tests of the program share: events, settings, starting it, and comparing what it tells."""
import atexit
import hashlib
import json
import os
import re
import subprocess
import sys
import time

ROOT = os.path.dirname(os.path.dirname(os.path.abspath(__file__)))
sys.path.insert(0, os.path.join(ROOT, "bench"))


def program(words=None, name="mirror_app"):
    """The path that the first word names, else the proved build of the program of that name."""
    given = (sys.argv[1:] if words is None else words)[:1]
    return os.path.abspath(given[0] if given else os.path.join(ROOT, "crates", name, "out", name))


# A line of a mirror that tells what a pass came to.
STAMP = r"\d{4}-\d\d-\d\dT\d\d:\d\d:\d\dZ "
PASS = re.compile(STAMP + r"pass (\d+) relays (\d+)/(\d+) need (\d+) given (\d+) missed (\d+) left (\d+) ms \d+\n")


def passes(lines):
    """The numbers of the passes that lines tell: level relays, all relays, and what became of the ids."""
    return [tuple(map(int, found.groups()[1:])) for found in map(PASS.fullmatch, lines) if found]


def event(time, content, kind=1):
    """An event with a right id. Nobody checks its signature."""
    draft = [0, "11" * 32, time, kind, [["t", "test"]], content]
    text = json.dumps(draft, ensure_ascii=False, separators=(",", ":"))
    return {"id": hashlib.sha256(text.encode()).hexdigest(), "pubkey": draft[1], "created_at": time, "kind": kind,
            "tags": draft[4], "content": content, "sig": "22" * 64}


def same(found, wanted):
    if found != wanted:
        raise SystemExit("wanted %s\nfound  %s" % (json.dumps(wanted), json.dumps(found)))


def written(path, events):
    with open(path, "w", encoding="utf-8") as text:
        text.writelines(json.dumps(it, ensure_ascii=False) + "\n" for it in events)


def read(path):
    with open(path, encoding="utf-8") as text:
        return [json.loads(line) for line in text]


def comes_to_have(path, events):
    """Waits until a file has these events, in whatever order."""
    until = time.monotonic() + 60
    while not os.path.exists(path) or by_id(read(path)) != by_id(events):
        if time.monotonic() > until:
            same(read(path), events)
        time.sleep(0.05)


def by_id(events):
    return sorted(events, key=lambda it: it["id"])


def toml(value):
    """A value in TOML."""
    if isinstance(value, dict):
        return "{ %s }" % ", ".join("%s = %s" % (key, toml(it)) for key, it in value.items())
    if isinstance(value, (list, tuple)):
        return "[%s]" % ", ".join(map(toml, value))
    return json.dumps(value)


def settings(folder, name, **values):
    """Writes settings whose events stand in NAME.jsonl where nothing else is said, and gives their path."""
    path = os.path.join(folder, name + ".toml")
    with open(path, "w") as text:
        for key, value in {"events": os.path.join(folder, name + ".jsonl"), **values}.items():
            text.write("%s = %s\n" % (key, toml(value)))
    return path


def begin(path, job, conf, *words):
    """Starts a job, and gives its process. It doesn't outlive the test."""
    child = subprocess.Popen([path, job, conf, *words], stdout=subprocess.PIPE, stderr=subprocess.PIPE, text=True)
    atexit.register(child.kill)
    return child


def line_of(child):
    """The first line of a job, if it tells one. It is read byte by byte: what else a reader takes with it, `communicate` doesn't
    give."""
    line = b""
    while not line.endswith(b"\n"):
        byte = os.read(child.stdout.fileno(), 1)
        if not byte:
            return None
        line += byte
    return line.decode()


def port_of(child):
    """The port that a job tells in its first line, if it comes to listen."""
    line = line_of(child)
    return None if line is None else int(line.rsplit(":", 1)[1])


def start(path, job, conf, *words):
    """Starts a job, which listens, and gives its process and its port."""
    child = begin(path, job, conf, *words)
    return child, port_of(child)


def done(path, job, conf):
    """Runs a job to its end: its status and what it wrote."""
    ran = subprocess.run([path, job, conf], capture_output=True, text=True, timeout=120, check=False)
    return ran.returncode, ran.stdout, ran.stderr
