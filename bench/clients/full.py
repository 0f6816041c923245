#!/usr/bin/env python3
"""full.py PORT COUNT: opens so many connections at once, asks on each, and closes those that were
answered, until all are: with 200 or 503. Its status is 1 where one is not."""
import socket
import sys
import time

from frames import ACK, PREFACE, SETTINGS, head


def text_of(one):
    """What has come on a connection; none where nothing has."""
    octets = b""
    try:
        while True:
            piece = one.recv(65536)
            if not piece:
                return octets + b"ended"
            octets += piece
    except BlockingIOError:
        return octets
    except OSError:
        return octets + b"ended"


def main():
    port, count = int(sys.argv[1]), int(sys.argv[2])
    left = []
    for _ in range(count):
        one = socket.create_connection(("127.0.0.1", port), timeout=20)
        one.sendall(PREFACE + SETTINGS + ACK + head(1))
        one.setblocking(False)
        left.append((one, b""))
    good, busy, end = 0, 0, time.time() + 60
    while left and time.time() < end:
        time.sleep(1)
        asked = [(one, before + text_of(one)) for one, before in left]
        good += sum(b"hello" in text for _, text in asked)
        busy += sum(b"503" in text for _, text in asked)
        left = [it for it in asked if b"hello" not in it[1] and b"503" not in it[1]]
    print("%d of %d answered, and %d with 503" % (good, count, busy))
    return 0 if good + busy == count else 1


sys.exit(main())
