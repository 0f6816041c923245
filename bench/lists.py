#!/usr/bin/env python3
"""lists.py FOLDER: writes the lists of fields that are measured, the same at every run.

A file is a row of lists: the count of the fields in 32 bits, most significant octet first, then of
each field the length of its name and the name, the length of its value and the value."""
import random
import struct
import sys

AGENT = b"Mozilla/5.0 (X11; Linux x86_64; rv:128.0) Gecko/20100101 Firefox/128.0"


def word(rng, count, letters=b"abcdefghijklmnopqrstuvwxyz0123456789-_"):
    return bytes(rng.choice(letters) for _ in range(count))


def requests(rng):
    """What a browser asks of three hosts: pages, and what belongs to them."""
    cookies = [b"session=" + word(rng, 32) + b"; theme=dark" for _ in range(3)]
    for n in range(250):
        host = rng.randrange(3)
        path = b"/" + word(rng, rng.randrange(4, 12)) + rng.choice([b"", b"/", b".css", b".png"])
        yield [
            (b":method", b"GET"),
            (b":scheme", b"http"),
            (b":authority", [b"www.example.com", b"cdn.example.com", b"api.example.org"][host]),
            (b":path", path if n % 3 else path + b"?page=" + str(n).encode()),
            (b"user-agent", AGENT),
            (b"accept", rng.choice([b"*/*", b"text/html,application/xhtml+xml", b"image/avif,*/*"])),
            (b"accept-language", b"en-US,en;q=0.5"),
            (b"accept-encoding", b"gzip, deflate"),
            (b"referer", b"http://www.example.com/" + word(rng, 6)),
            (b"cookie", cookies[host]),
        ]


def answers(rng):
    """What a server answers: dates that go on, lengths and tags that are new."""
    for n in range(250):
        yield [
            (b":status", rng.choice([b"200", b"200", b"200", b"304", b"404"])),
            (b"date", b"Sun, 22 Nov 2026 10:%02d:%02d GMT" % (n // 60, n % 60)),
            (b"server", b"example/1.4"),
            (b"content-type", rng.choice([b"text/html; charset=utf-8", b"image/png", b"text/css"])),
            (b"content-length", str(rng.randrange(100, 100000)).encode()),
            (b"etag", b'"' + word(rng, 16) + b'"'),
            (b"cache-control", b"max-age=3600"),
            (b"vary", b"accept-encoding"),
        ]


def repeated(rng):
    """One list over and over: all of it is in the table."""
    for _ in range(500):
        yield [
            (b":method", b"GET"),
            (b":scheme", b"http"),
            (b":path", b"/index.html"),
            (b":authority", b"www.example.com"),
            (b"cache-control", b"no-cache"),
            (b"custom-key", b"custom-value"),
        ]


def unrepeated(rng):
    """Names and values that never come twice: each is added, and the oldest leave."""
    for n in range(100):
        yield [(b"x-" + word(rng, 10), word(rng, 24)) for _ in range(10)]


def long_codes(rng):
    """Octets whose codes are long."""
    for n in range(100):
        yield [(b"x-key", bytes(rng.randrange(128, 256) for _ in range(40))) for _ in range(6)]


def tiny(rng):
    """Fields of one octet each."""
    for n in range(100):
        yield [(word(rng, 1), word(rng, 1)) for _ in range(20)]


def main():
    folder = sys.argv[1]
    for kind in (requests, answers, repeated, unrepeated, long_codes, tiny):
        rng = random.Random(kind.__name__)
        with open(f"{folder}/{kind.__name__}.lists", "wb") as file:
            for fields in kind(rng):
                file.write(struct.pack(">I", len(fields)))
                for text in (text for field in fields for text in field):
                    file.write(struct.pack(">I", len(text)) + text)


main()
