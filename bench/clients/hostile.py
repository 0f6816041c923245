#!/usr/bin/env python3
"""hostile.py KIND PORT SECONDS: a client that behaves badly, until the server ends it or the time
is over; prints how it was ended.

silent sends nothing; slow an octet of a request each second; deaf asks for /large and reads
nothing; shut never opens its window; resets opens streams and resets them; pings, settings and
empty (DATA) send these; malformed sends requests without a path; again resets on one connection
after another."""
import select
import socket
import sys
import time

from frames import ACK, PREFACE, SETTINGS, endings, frame, head, reset


class Client:
    """A connection that doesn't wait, and what has come on it."""

    def __init__(self, port):
        self.sock = socket.create_connection(("127.0.0.1", port))
        self.sock.settimeout(20)
        self.seen = b""
        self.ended = False
        self.stream = 1
        self.sent = 0

    def send(self, octets):
        """Sends octets; what has come is read first, so that neither side waits for the other."""
        self.hear()
        try:
            self.sock.sendall(octets)
        except OSError:
            self.hear()
            self.ended = True

    def hear(self):
        """Reads what has come."""
        while not self.ended and select.select([self.sock], [], [], 0)[0]:
            try:
                piece = self.sock.recv(65536)
            except OSError:
                piece = b""
            self.seen += piece
            self.ended = not piece

    def wait(self, seconds):
        """Waits for octets, and reads them."""
        select.select([self.sock], [], [], seconds)
        self.hear()

    def take_streams(self, count):
        first = self.stream
        self.stream += 2 * count
        return range(first, self.stream, 2)


def step(kind, one):
    """What a client of this kind does next."""
    if kind == "slow":
        slow = head(1, b"/" + b"a" * 200)
        one.send(slow[one.sent : one.sent + 1])
        one.sent += 1
        one.wait(1)
        return
    if kind in ("silent", "shut"):
        one.wait(0.2)
        return
    if kind == "deaf":
        # What has come stays unread; that the server has closed is behind it.
        time.sleep(0.2)
        poll = select.poll()
        poll.register(one.sock, select.POLLRDHUP)
        one.ended = bool(poll.poll(0))
        return
    made = {
        "resets": lambda: b"".join(head(it) + reset(it) for it in one.take_streams(100)),
        "pings": lambda: frame(6, 0, 0, b"12345678") * 100,
        "settings": lambda: SETTINGS * 100,
        "empty": lambda: frame(0, 0, 1) * 100,
        "malformed": lambda: b"".join(head(it, b"") for it in one.take_streams(10)),
    }
    if kind == "empty" and one.sent == 0:
        one.send(head(1, method=3, end=False))
    one.sent += 10 if kind == "malformed" else 100
    one.send(made[kind]())


def misbehave(kind, port, seconds):
    one = Client(port)
    start = time.time()
    if kind != "silent":
        window = frame(4, 0, 0, b"\x00\x04\x00\x00\x00\x00")
        one.send(PREFACE + (window if kind == "shut" else SETTINGS) + ACK)
    if kind in ("deaf", "shut"):
        one.send(head(1, b"/large"))
    while not one.ended and time.time() - start < seconds:
        step(kind, one)
    how = "ended" if one.ended else "not ended"
    after = time.time() - start
    print(f"{how} after {after:.1f} s, {one.sent} sent, GOAWAY {endings(one.seen)}")


def again(port, seconds):
    """Resets on one connection after another."""
    pairs = b"".join(head(it) + reset(it) for it in range(1, 20001, 2))
    end, count = time.time() + seconds, 0
    while time.time() < end:
        try:
            with socket.create_connection(("127.0.0.1", port)) as sock:
                sock.settimeout(5)
                sock.sendall(PREFACE + SETTINGS + ACK + pairs)
                while time.time() < end and sock.recv(65536):
                    pass
        except OSError:
            pass
        count += 1
    print(f"{count} connections, 10,000 resets each where all were taken")


if sys.argv[1] == "again":
    again(int(sys.argv[2]), float(sys.argv[3]))
else:
    misbehave(sys.argv[1], int(sys.argv[2]), float(sys.argv[3]))
