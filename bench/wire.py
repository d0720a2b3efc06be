"""A client of a relay for measuring: texts over WebSocket (RFC 6455), without checks and without masks that hide anything."""
import base64
import os
import socket
import struct


class Gone(Exception):
    """The relay closed the connection."""


class Client:
    """A connection to a relay on this machine."""

    def __init__(self, port):
        self.socket = socket.create_connection(("127.0.0.1", port))
        self.socket.setsockopt(socket.IPPROTO_TCP, socket.TCP_NODELAY, 1)
        key = base64.b64encode(os.urandom(16)).decode()
        self.socket.sendall((
            "GET / HTTP/1.1\r\nHost: 127.0.0.1:%d\r\nUpgrade: websocket\r\nConnection: Upgrade\r\n"
            "Sec-WebSocket-Key: %s\r\nSec-WebSocket-Version: 13\r\n\r\n" % (port, key)).encode())
        self.held = b""
        while b"\r\n\r\n" not in self.held:
            self.fill()
        head, self.held = self.held.split(b"\r\n\r\n", 1)
        if b" 101 " not in head.split(b"\r\n")[0]:
            raise Gone(head.decode(errors="replace"))

    def fill(self):
        found = self.socket.recv(1 << 18)
        if not found:
            raise Gone("the connection ended")
        self.held += found

    def take(self, count):
        while len(self.held) < count:
            self.fill()
        found, self.held = self.held[:count], self.held[count:]
        return found

    @staticmethod
    def frame(text, opcode=1):
        """A frame whose mask is of zeros, so that its bytes stand as they are."""
        size = len(text)
        if size < 126:
            head = struct.pack("!BB", 0x80 | opcode, 0x80 | size)
        elif size < 1 << 16:
            head = struct.pack("!BBH", 0x80 | opcode, 0x80 | 126, size)
        else:
            head = struct.pack("!BBQ", 0x80 | opcode, 0x80 | 127, size)
        return head + b"\0\0\0\0" + text

    def send(self, *texts):
        self.socket.sendall(b"".join(self.frame(text) for text in texts))

    def next(self):
        """The opcode and the payload of the next frame that isn't a ping, and a text whole."""
        whole = b""
        while True:
            first, second = self.take(2)
            size = second & 127
            if size == 126:
                size, = struct.unpack("!H", self.take(2))
            elif size == 127:
                size, = struct.unpack("!Q", self.take(8))
            body = self.take(size)
            opcode = first & 15
            if opcode == 8:
                raise Gone("the relay said goodbye")
            if opcode == 9:
                self.socket.sendall(self.frame(body, 10))
            elif opcode == 10:
                return opcode, body
            elif opcode in (0, 1, 2):
                whole += body
                if first & 0x80:
                    return 1, whole

    def read(self):
        """The next text."""
        while True:
            opcode, whole = self.next()
            if opcode == 1:
                return whole

    def close(self):
        """Says goodbye and waits for the other's, so that the relay has ended its part."""
        self.socket.sendall(self.frame(struct.pack("!H", 1000), 8))
        try:
            while True:
                self.read()
        except (Gone, OSError):
            pass
        self.socket.close()
