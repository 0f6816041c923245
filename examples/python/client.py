#!/usr/bin/env python3
"""A client: fetches a URL, writes the body to standard output and the status to standard error.

    client.py http://HOST[:PORT][/PATH]

It calls the shared library of belkjoef.h by ctypes: that which the environment variable
BELKJOEF_SHARED names, or else the one that is installed (`make install-shared`). It ends with 0
where the response is whole and its status is 2xx. Python 3.8 or later, and its standard library.
"""

import contextlib
import ctypes
import ctypes.util
import os
import socket
import sys
from ctypes import POINTER, byref, c_char_p, c_int, c_size_t, c_uint32, c_void_p
from urllib.parse import urlsplit

OK, FAILED = 0, -4
NOTHING, INTERIM, HEAD, BODY, TRAILERS, RESET, UNPROCESSED, GOAWAY, ACKED, PONG = range(10)
WAIT = 30  # seconds


class Config(ctypes.Structure):
    """bj_config"""

    _fields_ = [
        (name, c_uint32) for name in ("table_limit", "initial_window", "max_streams", "max_frame")
    ]


class End(ctypes.Structure):
    """bj_end"""

    _fields_ = [("at", c_void_p), ("state", ctypes.c_uint64)]


class Field(ctypes.Structure):
    """bj_field"""

    _fields_ = [
        ("name", c_void_p),
        ("name_length", c_size_t),
        ("value", c_void_p),
        ("value_length", c_size_t),
        ("sensitive", c_uint32),
    ]


class Event(ctypes.Structure):
    """bj_event"""

    _fields_ = [
        ("used", c_size_t),
        *((name, c_uint32) for name in ("kind", "stream", "code", "end", "ours")),
        ("ping", ctypes.c_uint8 * 8),
        ("fields", c_size_t),
        ("octets", c_void_p),
        ("length", c_size_t),
        ("user", ctypes.c_size_t),
    ]


def load():
    """The library, with what its functions take."""
    name = os.environ.get("BELKJOEF_SHARED") or ctypes.util.find_library("belkjoef")
    if name is None:
        sys.exit("client.py: libbelkjoef.so not found: set BELKJOEF_SHARED to its path")
    lib = ctypes.CDLL(name)
    end, size = POINTER(End), POINTER(c_size_t)
    takes = {
        "bj_config_default": [POINTER(Config)],
        "bj_error_text": [c_int, POINTER(c_char_p)],
        "bj_client_new": [POINTER(Config), end],
        "bj_free": [end],
        "bj_request": [end, POINTER(Field), c_size_t, c_char_p, c_size_t, POINTER(c_uint32)],
        "bj_take": [end, c_void_p, c_size_t, POINTER(Event)],
        "bj_field_value": [end, c_char_p, c_size_t, POINTER(c_void_p), size],
        "bj_release_all": [end],
        "bj_go_away": [end],
        "bj_put_out": [end, c_char_p, c_size_t, size],
    }
    for function, types in takes.items():
        getattr(lib, function).argtypes = types
        getattr(lib, function).restype = c_int
    lib.bj_config_default.restype = lib.bj_error_text.restype = None
    return lib


class Client:
    """An end of a connection, over a socket."""

    def __init__(self, lib, stream):
        self.lib, self.stream, self.end = lib, stream, End()
        config = Config()
        lib.bj_config_default(byref(config))
        self.check(lib.bj_client_new(byref(config), byref(self.end)))

    def close(self):
        """Frees the end."""
        self.lib.bj_free(byref(self.end))

    def check(self, answer):
        """Refuses an error."""
        if answer != OK:
            text = c_char_p()
            self.lib.bj_error_text(answer, byref(text))
            raise ConnectionError(text.value.decode())

    def request(self, pairs):
        """Gives a request without a body, and answers its stream."""
        fields, stream, kept = (Field * len(pairs))(), c_uint32(), []
        for field, (name, value) in zip(fields, pairs):
            kept += [ctypes.create_string_buffer(octets, len(octets)) for octets in (name, value)]
            field.name, field.name_length = ctypes.addressof(kept[-2]), len(name)
            field.value, field.value_length = ctypes.addressof(kept[-1]), len(value)
        self.check(
            self.lib.bj_request(byref(self.end), fields, len(pairs), b"", 0, byref(stream))
        )
        return stream.value

    def write_out(self):
        """Writes all that waits."""
        buffer, count = ctypes.create_string_buffer(65536), c_size_t(1)
        while count.value > 0:
            self.check(
                self.lib.bj_put_out(byref(self.end), buffer, len(buffer), byref(count))
            )
            self.stream.sendall(buffer.raw[: count.value])

    def value(self, name):
        """The value of a field of the list that was handed out last, or None."""
        value, length = c_void_p(), c_size_t()
        answer = self.lib.bj_field_value(
            byref(self.end), name, len(name), byref(value), byref(length)
        )
        return ctypes.string_at(value.value, length.value) if answer == OK else None

    def events(self):
        """Reads a piece, and answers each event of it with the octets that it lends."""
        piece = self.stream.recv(65536)
        if not piece:
            raise ConnectionError("the server closed the connection")
        buffer, at, event = ctypes.create_string_buffer(piece, len(piece)), 0, Event(kind=HEAD)
        while at < len(piece) or event.kind != NOTHING:
            event = Event()
            rest = ctypes.addressof(buffer) + at
            answer = self.lib.bj_take(byref(self.end), rest, len(piece) - at, byref(event))
            if answer == FAILED:
                raise ConnectionError(f"the connection failed with code {event.code}")
            self.check(answer)
            at += event.used
            if event.kind != NOTHING:
                octets = ctypes.string_at(event.octets, event.length) if event.length else b""
                yield event, octets
        self.check(self.lib.bj_release_all(byref(self.end)))

    def get(self, authority, path, write):
        """Gets a page, and answers its status, and whether it is whole."""
        pairs = [(b":method", b"GET"), (b":scheme", b"http")]
        stream = self.request([*pairs, (b":authority", authority), (b":path", path)])
        status = None
        while True:
            self.write_out()
            for event, octets in self.events():
                if event.stream != stream or event.kind == GOAWAY:
                    continue
                if event.kind == HEAD:
                    status = self.value(b":status")
                write(octets)
                if event.end or event.kind in (RESET, UNPROCESSED):
                    with contextlib.suppress(OSError):  # the response is over, written or not
                        self.check(self.lib.bj_go_away(byref(self.end)))
                        self.write_out()
                    return status, bool(event.end)


def main():
    if len(sys.argv) != 2:
        sys.exit(__doc__)
    url = urlsplit(sys.argv[1])
    path = (url.path or "/") + (f"?{url.query}" if url.query else "")
    lib = load()
    try:
        with socket.create_connection((url.hostname, url.port or 80), WAIT) as stream:
            client = Client(lib, stream)
            try:
                write = sys.stdout.buffer.write
                host = url.netloc.rpartition("@")[2]
                status, whole = client.get(host.encode(), path.encode(), write)
            finally:
                client.close()
    except OSError as error:
        sys.exit(f"client.py: {error}")
    print((status or b"").decode() + ("" if whole else ", incomplete"), file=sys.stderr)
    sys.exit(not whole or not status.startswith(b"2"))


if __name__ == "__main__":
    main()
