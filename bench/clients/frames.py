"""Frames of a client, as octets."""
import struct

PREFACE = b"PRI * HTTP/2.0\r\n\r\nSM\r\n\r\n"


def frame(kind, flags, stream, payload=b""):
    length = struct.pack(">I", len(payload))[1:]
    return length + bytes([kind, flags]) + struct.pack(">I", stream) + payload


SETTINGS = frame(4, 0, 0)
ACK = frame(4, 1, 0)


def block(path=b"/", method=2):
    """The fields of a GET (method 2) or a POST (3), without a path where it is empty."""
    named = b"\x04" + string(path) if path else b""
    return bytes([0x80 | method, 0x86]) + named + b"\x01\x01a"


def string(text):
    """A string of HPACK, shorter than 127 + 128 octets."""
    if len(text) < 127:
        return bytes([len(text)]) + text
    return bytes([127, len(text) - 127]) + text


def head(stream, path=b"/", method=2, end=True):
    return frame(1, 5 if end else 4, stream, block(path, method))


def reset(stream):
    return frame(3, 0, stream, struct.pack(">I", 8))


def endings(octets):
    """The codes of the GOAWAY frames among whole frames."""
    place, found = 0, []
    while place + 9 <= len(octets):
        length = int.from_bytes(octets[place : place + 3], "big")
        if octets[place + 3] == 7:
            found.append(int.from_bytes(octets[place + 13 : place + 17], "big"))
        place += 9 + length
    return found
