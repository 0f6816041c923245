#!/usr/bin/env python3
"""idle.py COUNT PORT: opens so many connections, asks once on each, says how many were answered,
and keeps them until its standard input is closed."""
import resource
import socket
import sys

from frames import ACK, PREFACE, SETTINGS, head


def answered(one):
    """Whether a whole answer comes: DATA with END_STREAM of stream 1."""
    one.settimeout(60)
    octets = b""
    try:
        while True:
            piece = one.recv(65536)
            if not piece:
                return False
            octets += piece
            place = 0
            while place + 9 <= len(octets):
                length = int.from_bytes(octets[place : place + 3], "big")
                if octets[place + 3] == 0 and octets[place + 4] & 1:
                    return True
                place += 9 + length
    except OSError:
        return False


def main():
    count, port = int(sys.argv[1]), int(sys.argv[2])
    resource.setrlimit(resource.RLIMIT_NOFILE, (count + 100, count + 100))
    kept, good = [], 0
    for _ in range(count):
        try:
            one = socket.create_connection(("127.0.0.1", port), timeout=60)
            one.sendall(PREFACE + SETTINGS + ACK + head(1))
        except OSError:
            break
        kept.append(one)
        if len(kept) % 100 == 0:
            good += sum(answered(it) for it in kept[-100:])
    good += sum(answered(it) for it in kept[len(kept) - len(kept) % 100 :])
    print(good, flush=True)
    sys.stdin.read()


main()
