#!/usr/bin/env python3
"""Drives `nostr-mirror serve` with WebSocket clients of others: Debian's python3-websockets, python3-websocket and node-ws.

    tests/clients.py [PATH]      (PATH of the program; else the proved build)

It starts a relay over an empty file, puts an event in with one client, asks for it with both, listens with one while the
other puts another in, opens a Negentropy session, says goodbye, and reads the file that the relay has written. Where node-ws isn't
installed, it says so, and does the rest.
"""
import asyncio
import json
import os
import shutil
import subprocess
import sys
import tempfile

import websocket
import websockets

from told import event, program, read, same, settings, start

HERE = os.path.dirname(os.path.abspath(__file__))
# Where Debian's packages for Node are, beside where Node looks by itself.
NODE = dict(os.environ, NODE_PATH="/usr/share/nodejs")


async def by_websockets(port, first, second):
    """Asks for what is there, and is told of what comes."""
    async with websockets.connect("ws://127.0.0.1:%d/" % port) as link:
        hear = lambda: asyncio.wait_for(link.recv(), 20)
        await link.send(json.dumps(["REQ", "all", {"kinds": [1]}, {"#t": ["test"], "limit": 1}]))
        same(json.loads(await hear()), ["EVENT", "all", first])
        same(json.loads(await hear()), ["EOSE", "all"])
        await asyncio.to_thread(by_websocket, port, second)
        # Nothing is sent here: the event comes by itself.
        same(json.loads(await hear()), ["EVENT", "all", second])
        await link.send(json.dumps(["CLOSE", "all"]))
        await link.send("hello")
        same(json.loads(await hear()), ["NOTICE", "invalid: bad message"])
        await (await link.ping())
        await link.send(b"bytes")
        same(json.loads(await hear()), ["NOTICE", "invalid: bad message"])


def by_websocket(port, new):
    """Puts an event in, twice, and opens a Negentropy session."""
    link = websocket.create_connection("ws://127.0.0.1:%d/" % port, timeout=20)
    say = lambda *words: link.send(json.dumps(words))
    hear = lambda: json.loads(link.recv())
    say("EVENT", new)
    same(hear(), ["OK", new["id"], True, ""])
    say("EVENT", new)
    same(hear(), ["OK", new["id"], True, "duplicate: already have this event"])
    say("EVENT", dict(new, content="other"))
    same(hear(), ["OK", new["id"], False, "invalid: bad event"])
    say("REQ", "one", {"ids": [new["id"]]})
    same(hear(), ["EVENT", "one", new])
    same(hear(), ["EOSE", "one"])
    # One range up to infinity, with no ids: all are listed.
    say("NEG-OPEN", "n", {"ids": [new["id"]]}, "6100000200")
    same(hear(), ["NEG-MSG", "n", "6100000201" + new["id"]])
    say("NEG-CLOSE", "n")
    link.close()


def has_node_ws():
    """Whether Node's `ws` is there."""
    if shutil.which("node"):
        asked = subprocess.run(["node", "-e", "require('ws')"], env=NODE, stderr=subprocess.DEVNULL)
        if asked.returncode == 0:
            return True
    print("node-ws was left out: it isn't installed", file=sys.stderr)
    return False


def by_node_ws(port, first, second, third):
    """Asks for what is there, and is told of what comes."""
    node = subprocess.Popen(["node", os.path.join(HERE, "clients.js"), str(port)], env=NODE, stdout=subprocess.PIPE, text=True)
    hear = lambda: json.loads(node.stdout.readline())
    same([hear() for _ in range(3)], [["EVENT", "all", second], ["EVENT", "all", first], ["EOSE", "all"]])
    link = websocket.create_connection("ws://127.0.0.1:%d/" % port, timeout=20)
    link.send(json.dumps(["EVENT", third]))
    same(json.loads(link.recv()), ["OK", third["id"], True, ""])
    same(hear(), ["EVENT", "all", third])
    same([node.stdout.readline() for _ in range(3)], ["pong here\n", '["NOTICE","invalid: bad message"]\n', "closed 1000\n"])
    same(node.wait(20), 0)
    link.close()


def main():
    first, second = event(1700000000, "first \u00e9 \u4e16"), event(1700000001, "second")
    events, with_node = [first, second], has_node_ws()
    with tempfile.TemporaryDirectory() as folder:
        conf = settings(folder, "relay", listen="127.0.0.1:0", conns=5 if with_node else 3)
        relay, port = start(program(), "serve", conf)
        try:
            by_websocket(port, first)
            asyncio.run(asyncio.wait_for(by_websockets(port, first, second), 60))
            if with_node:
                events.append(event(1700000002, "third"))
                by_node_ws(port, *events)
            same(relay.stdout.read(), "served %d\nevents %d\n" % ((5, 3) if with_node else (3, 2)))
            same(relay.wait(20), 0)
        finally:
            relay.kill()
            relay.wait()
        same(read(os.path.join(folder, "relay.jsonl")), events)
    print("websockets %s and websocket-client %s: as wanted" % (websockets.__version__, websocket.__version__))


if __name__ == "__main__":
    main()
