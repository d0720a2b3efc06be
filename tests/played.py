"""Relays that a test plays: what is asked of them is answered by a function, which gets the connection and what was asked."""
import base64
import hashlib
import json
import re
import socket
import struct
import threading
import time

import told  # Its path leads to `wire`.
from wire import Client, Gone

GUID = b"258EAFA5-E914-47DA-95CA-C5AB0DC85B11"


class Connection(Client):
    """A mirror's connection, as its relay sees it."""

    def __init__(self, stream):
        self.socket, self.held = stream, b""
        # How many bytes of events it was given.
        self.given = 0
        while b"\r\n\r\n" not in self.held:
            self.fill()
        head, self.held = self.held.split(b"\r\n\r\n", 1)
        # The path and the host that the handshake names.
        self.named = head.split()[1].decode(), re.search(rb"\r\nHost: *(\S+)", head, re.I)[1].decode()
        key = re.search(rb"Sec-WebSocket-Key: *(\S+)", head, re.I)[1]
        accept = base64.b64encode(hashlib.sha1(key + GUID).digest())
        stream.sendall(b"HTTP/1.1 101 Switching Protocols\r\nUpgrade: websocket\r\nConnection: Upgrade\r\n"
                       b"Sec-WebSocket-Accept: " + accept + b"\r\n\r\n")

    @staticmethod
    def frame(text, opcode=1, last=True):
        size = len(text)
        sizes = bytes([size]) if size < 126 else struct.pack("!BH", 126, size) if size < 1 << 16 else struct.pack("!BQ", 127, size)
        return bytes([(0x80 if last else 0) | opcode]) + sizes + text

    def read(self):
        """The next text, which is masked."""
        first, second = self.take(2)
        if first & 15 == 8:
            raise Gone("the mirror said goodbye")
        size = second & 127
        if size == 126:
            size, = struct.unpack("!H", self.take(2))
        elif size == 127:
            size, = struct.unpack("!Q", self.take(8))
        mask = self.take(4)
        return bytes(byte ^ mask[i % 4] for i, byte in enumerate(self.take(size)))

    def say(self, *values):
        self.send(*(json.dumps(value).encode() for value in values))


def varint(number):
    digits = [number & 127]
    while number := number >> 7:
        digits.append(0x80 | number & 127)
    return bytes(reversed(digits))


def listing(ids):
    """A Negentropy message that lists ids as all that there is."""
    return (b"\x61\0\0\x02" + varint(len(ids)) + b"".join(map(bytes.fromhex, ids))).hex()


def lists(ids, gives):
    """A relay that lists these ids, and gives what it gives when it is asked for some."""
    def answer(connection, asked):
        if asked[0] == "NEG-OPEN":
            connection.say(["NEG-MSG", asked[1], listing(ids)])
        elif asked[0] == "REQ":
            gives(connection, asked[1], asked[2]["ids"])
    return answer


def holds(events):
    """A relay that lists those of these events that a filter's times take in, and gives those that it is asked for."""
    def answer(connection, asked):
        found = events
        if asked[0] == "NEG-OPEN":
            since, until = asked[2].get("since", 0), asked[2].get("until", 1 << 64)
            found = [it for it in events if since <= it["created_at"] <= until]
        lists([it["id"] for it in found], gives_of(events))(connection, asked)
    return answer


def gives_none(connection, sub, _ids):
    connection.say(["EOSE", sub])


def gives_of(events):
    """Those of these events that are asked for."""
    def gives(connection, sub, ids):
        connection.say(*(["EVENT", sub, it] for it in events if it["id"] in ids), ["EOSE", sub])
    return gives


def answer_of(events, sub, ids):
    """The bytes by which those of these events that are asked for are given."""
    texts = [["EVENT", sub, it] for it in events if it["id"] in ids] + [["EOSE", sub]]
    return b"".join(Connection.frame(json.dumps(it).encode()) for it in texts)


def drips(events, a_second):
    """Those of these events that are asked for, so many bytes a second."""
    def gives(connection, sub, ids):
        whole, step = answer_of(events, sub, ids), a_second // 10
        for at in range(0, len(whole), step):
            connection.socket.sendall(whole[at:at + step])
            time.sleep(0.1)
    return gives


def cut_after(events, most):
    """Those of these events that are asked for, until a connection has had so many bytes of them, in the middle of a frame."""
    def gives(connection, sub, ids):
        whole = answer_of(events, sub, ids)
        connection.socket.sendall(whole[:most - connection.given])
        connection.given += len(whole)
        if connection.given > most:
            connection.socket.close()
            raise Gone("closed")
    return gives


def closes(events):
    """The first of these events, and then no more."""
    def gives(connection, sub, _ids):
        connection.say(["EVENT", sub, events[0]])
        connection.socket.close()
        raise Gone("closed")
    return gives


def answered(stream, answer):
    """Answers what a mirror asks, until one of them leaves."""
    try:
        connection = Connection(stream)
        while True:
            answer(connection, json.loads(connection.read()))
    except (Gone, OSError):
        pass
    stream.close()


def unavailable(stream):
    """Answers a handshake by a status."""
    stream.recv(1 << 16)
    stream.sendall(b"HTTP/1.1 503 Service Unavailable\r\nContent-Length: 0\r\n\r\n")
    stream.close()


def accepting(server, serve):
    try:
        while True:
            stream, _from = server.accept()
            threading.Thread(target=serve, args=(stream,), daemon=True).start()
    except OSError:
        pass


class Server:
    """A server at a port of its own, which hands each connection to a function."""

    def __init__(self, serve):
        self.server = socket.create_server(("127.0.0.1", 0))
        self.port = self.server.getsockname()[1]
        self.at = "127.0.0.1:%d" % self.port
        threading.Thread(target=accepting, args=(self.server, serve), daemon=True).start()

    def __enter__(self):
        return self

    def __exit__(self, *_why):
        self.server.shutdown(socket.SHUT_RDWR)
        self.server.close()


class Played(Server):
    """A played relay, which notes for each connection what it is asked to compare or to give. Where it is busy, it takes no
    handshake but the first."""

    def __init__(self, answer, is_busy=False):
        self.answer, self.is_busy, self.asked = answer, is_busy, []
        super().__init__(self.serve)

    def serve(self, stream):
        # Before the handshake: a mirror that has made a connection is seen.
        asked = []
        self.asked.append(asked)
        if self.is_busy and len(self.asked) > 1:
            unavailable(stream)
            return

        def answer(connection, text):
            if text[0] not in ("CLOSE", "NEG-CLOSE"):
                asked.append(text)
            self.answer(connection, text)
        answered(stream, answer)

    def names(self):
        """The names of what it was asked on each connection, in the order in which they were made."""
        return [[text[0] for text in asked] for asked in self.asked]

    def fetched(self):
        """The ids that it was asked to give on each connection but the first, sorted."""
        return [sorted(id for text in asked for id in text[2]["ids"]) for asked in self.asked[1:]]
