#!/usr/bin/env python3
"""leaving.py PORT COUNT: asks on so many connections, ten requests at once on each, says `asking`
after a second, and goes on until the server has sent GOAWAY on all of them and closed them; says
how many requests were answered, and how many were lost: at or below the last stream of a GOAWAY,
and not answered, or on a connection that was closed without one. Its status is 1 where any were."""
import select
import socket
import struct
import sys
import time

from frames import ACK, PREFACE, SETTINGS, frame, head

AT_ONCE = 10


class Asking:
    """A connection with requests under way."""

    def __init__(self, port):
        self.sock = socket.create_connection(("127.0.0.1", port), timeout=20)
        window = frame(8, 0, 0, struct.pack(">I", 2**31 - 1 - 65_535))
        self.sock.sendall(PREFACE + SETTINGS + window)
        self.octets = b""
        self.stream, self.open, self.answered, self.last = 1, set(), 0, None
        self.ask(AT_ONCE)

    def ask(self, count):
        if self.last is not None or count == 0:
            return
        out = b""
        for _ in range(count):
            self.open.add(self.stream)
            out += head(self.stream)
            self.stream += 2
        try:
            self.sock.sendall(out)
        except OSError:
            pass  # what is lost is seen where it is read

    def read(self):
        """Reads once, and asks anew for each answer; whether the connection goes on."""
        try:
            piece = self.sock.recv(65536)
        except OSError:
            piece = b""
        self.octets += piece
        place, done = 0, 0
        while place + 9 <= len(self.octets):
            length = int.from_bytes(self.octets[place : place + 3], "big")
            if place + 9 + length > len(self.octets):
                break
            kind, flags = self.octets[place + 3], self.octets[place + 4]
            stream = int.from_bytes(self.octets[place + 5 : place + 9], "big")
            if kind == 0 and flags & 1 and stream in self.open:
                self.open.discard(stream)
                done += 1
            elif kind == 4 and not flags & 1:
                self.sock.sendall(ACK)
            elif kind == 7:
                self.last = int.from_bytes(self.octets[place + 9 : place + 13], "big")
            place += 9 + length
        self.octets = self.octets[place:]
        self.answered += done
        self.ask(done)
        return bool(piece)

    def lost(self):
        return len([it for it in self.open if self.last is None or it <= self.last])


def main():
    port, count = int(sys.argv[1]), int(sys.argv[2])
    asking = [Asking(port) for _ in range(count)]
    up = {it.sock.fileno(): it for it in asking}
    poll = select.poll()
    for number in up:
        poll.register(number, select.POLLIN)
    start, said = time.time(), False
    while up and time.time() - start < 60:
        for number, _ in poll.poll(1000):
            if not up[number].read():
                poll.unregister(number)
                del up[number]
        if not said and time.time() - start > 1:
            said = True
            print("asking", flush=True)
    lost = sum(it.lost() for it in asking)
    print("%d answered, %d lost" % (sum(it.answered for it in asking), lost))
    return 1 if lost or up else 0


sys.exit(main())
