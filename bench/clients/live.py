#!/usr/bin/env python3
"""live.py CONNECTIONS STREAMS PORT: opens so many connections, whose streams have windows without
octets, asks for /large on so many streams of each, says how many heads have come, and keeps all
until its standard input is closed."""
import socket
import struct
import sys

from frames import ACK, PREFACE, frame, head

# SETTINGS_INITIAL_WINDOW_SIZE is 0.
CLOSED = frame(4, 0, 0, struct.pack(">HI", 4, 0))


def heads_on(one, wanted):
    """How many heads of responses come, up to a number."""
    one.settimeout(10)
    octets, found, place = b"", 0, 0
    try:
        while found < wanted:
            piece = one.recv(65536)
            if not piece:
                return found
            octets += piece
            while place + 9 <= len(octets):
                length = int.from_bytes(octets[place : place + 3], "big")
                found += octets[place + 3] == 1
                place += 9 + length
    except OSError:
        pass
    return found


def main():
    connections, streams, port = (int(it) for it in sys.argv[1:4])
    kept, good = [], 0
    for _ in range(connections):
        one = socket.create_connection(("127.0.0.1", port), timeout=60)
        heads = b"".join(head(2 * at + 1, b"/large") for at in range(streams))
        one.sendall(PREFACE + CLOSED + ACK + heads)
        good += heads_on(one, streams)
        kept.append(one)
    print(good, flush=True)
    sys.stdin.read()


main()
