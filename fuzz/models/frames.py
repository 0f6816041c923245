"""Frames of RFC 9113, sections 4.1 and 6, and the octets that encode them."""

PREFACE = b"PRI * HTTP/2.0\r\n\r\nSM\r\n\r\n"
KINDS = {"data": 0, "headers": 1, "priority": 2, "reset": 3, "settings": 4, "ping": 6, "goaway": 7,
         "update": 8, "continuation": 9}
NAMES = {number: name for name, number in KINDS.items()}
END_STREAM, ACK, END_HEADERS, PADDED, PRIORITY = 0x01, 0x01, 0x04, 0x08, 0x20
GREATEST = 0x7FFFFFFF


def frame_octets(kind, flags, stream, payload=b""):
    return len(payload).to_bytes(3, "big") + bytes([kind, flags]) + stream.to_bytes(4, "big") + payload


def four(number):
    return number.to_bytes(4, "big")


class Frame:
    """A frame: the name of its type, its stream, and what else frames of that type have.

    data: body, end, pad (octets of padding, or None). headers: block, end, whole, padded.
    continuation: block, whole. reset: code. settings: pairs. ack. ping: octets, ack. goaway: last,
    code, debug. update: increment. unknown: type, payload. malformed: octets, code of the fault, its reason."""

    def __init__(self, kind, stream=0, **parts):
        self.kind, self.stream = kind, stream
        self.__dict__.update(parts)

    def flow(self):
        """What DATA takes of the windows: its whole payload (section 6.9.1)."""
        return len(self.body) + (0 if self.pad is None else 1 + self.pad)

    def says_nothing(self):
        """Whether it has no octets, but for padding, and ends nothing (section 10.5)."""
        match self.kind:
            case "data":
                return not self.body and not self.end
            case "headers" | "continuation":
                return not self.block and not self.whole
        return False

    def encoded(self):
        return getattr(self, "encode_" + self.kind)()

    def encode_data(self):
        flags = END_STREAM * self.end
        if self.pad is None:
            return frame_octets(0, flags, self.stream, self.body)
        return frame_octets(0, flags | PADDED, self.stream, bytes([self.pad]) + self.body + b"\1" * self.pad)

    def encode_headers(self):
        flags = END_STREAM * self.end | END_HEADERS * self.whole
        if not self.padded:
            return frame_octets(1, flags, self.stream, self.block)
        payload = b"\x03\x00\x00\x00\x05\x07" + self.block + b"pad"
        return frame_octets(1, flags | PADDED | PRIORITY, self.stream, payload)

    def encode_continuation(self):
        return frame_octets(9, END_HEADERS * self.whole, self.stream, self.block)

    def encode_priority(self):
        return frame_octets(2, 0, self.stream, b"\x00\x00\x00\x00\x0f")

    def encode_reset(self):
        return frame_octets(3, 0, self.stream, four(self.code))

    def encode_settings(self):
        return frame_octets(4, 0, 0, b"".join(name.to_bytes(2, "big") + four(value) for name, value in self.pairs))

    def encode_ack(self):
        return frame_octets(4, ACK, 0)

    def encode_ping(self):
        return frame_octets(6, ACK * self.ack, 0, self.octets)

    def encode_goaway(self):
        return frame_octets(7, 0, 0, four(self.last) + four(self.code) + self.debug)

    def encode_update(self):
        return frame_octets(8, 0, self.stream, four(self.increment))

    def encode_unknown(self):
        return frame_octets(self.type, 0xFF, self.stream, self.payload)

    def encode_malformed(self):
        return self.octets


def split_frame(octets):
    """The head and the payload of the frame with which octets begin, and what follows; or None."""
    if len(octets) < 9:
        return None
    end = 9 + int.from_bytes(octets[:3], "big")
    if len(octets) < end:
        return None
    return octets[:9], octets[9:end], octets[end:]


def read_frame(head, payload):
    """The frame of a head and a payload that an end has written: nothing is padded or malformed."""
    kind, flags = NAMES[head[3]], head[4]
    stream = int.from_bytes(head[5:], "big")
    number = int.from_bytes(payload[:4], "big")
    match kind:
        case "data":
            return Frame(kind, stream, body=payload, end=bool(flags & END_STREAM), pad=None)
        case "headers":
            whole = bool(flags & END_HEADERS)
            return Frame(kind, stream, block=payload, end=bool(flags & END_STREAM), whole=whole, padded=False)
        case "continuation":
            return Frame(kind, stream, block=payload, whole=bool(flags & END_HEADERS))
        case "reset":
            return Frame(kind, stream, code=number)
        case "settings" if flags & ACK:
            return Frame("ack")
        case "settings":
            pairs = [payload[place:place + 6] for place in range(0, len(payload), 6)]
            return Frame(kind, pairs=[(int.from_bytes(p[:2], "big"), int.from_bytes(p[2:], "big")) for p in pairs])
        case "ping":
            return Frame(kind, octets=payload, ack=bool(flags & ACK))
        case "goaway":
            return Frame(kind, last=number, code=int.from_bytes(payload[4:8], "big"), debug=b"")
        case "update":
            return Frame(kind, stream, increment=number)
    raise ValueError(kind)


def too_long(kind, length):
    """The head of a frame whose payload is longer than may be read: a fault at its ninth octet."""
    octets = length.to_bytes(3, "big") + bytes([kind, 0, 0, 0, 0, 1])
    return Frame("malformed", octets=octets, code=6, why="FrameTooLong", long=True)


def malformed(text, code, why):
    return Frame("malformed", octets=bytes.fromhex(text), code=code, why=why, long=False)


# Frames that no state allows: the first fault that holds of sections 4.2 and 6.
MALFORMED = [
    # PUSH_PROMISE, on a stream and on the connection.
    malformed("000000 05 00 00000001", 1, "PushPromise"),
    malformed("000004 05 04 00000000", 1, "PushPromise"),
    # DATA, HEADERS, PRIORITY, RST_STREAM and CONTINUATION on stream 0.
    malformed("000001 00 00 00000000", 1, "WrongStream"),
    malformed("000001 01 00 00000000", 1, "WrongStream"),
    malformed("000005 02 00 00000000", 1, "WrongStream"),
    malformed("000004 03 00 00000000", 1, "WrongStream"),
    malformed("000004 09 00 00000000", 1, "WrongStream"),
    # SETTINGS, PING and GOAWAY on a stream.
    malformed("000000 04 00 00000001", 1, "WrongStream"),
    malformed("000008 06 00 00000001", 1, "WrongStream"),
    malformed("000008 07 00 00000001", 1, "WrongStream"),
    # DATA and HEADERS without room for what their flags say.
    malformed("000000 00 08 00000001", 6, "WrongLength"),
    malformed("000005 01 28 00000001", 6, "WrongLength"),
    # Lengths of PRIORITY, RST_STREAM, SETTINGS, its acknowledgment, PING, GOAWAY and WINDOW_UPDATE.
    malformed("000004 02 00 00000001", 6, "WrongLength"),
    malformed("000005 03 00 00000001", 6, "WrongLength"),
    malformed("000005 04 00 00000000", 6, "WrongLength"),
    malformed("000006 04 01 00000000", 6, "WrongLength"),
    malformed("000007 06 00 00000000", 6, "WrongLength"),
    malformed("000007 07 00 00000000", 6, "WrongLength"),
    malformed("000005 08 00 00000000", 6, "WrongLength"),
    # Padding that is longer than what remains.
    malformed("000002 00 08 00000001 0200", 1, "PaddingTooLong"),
    malformed("000002 01 0c 00000001 0282", 1, "PaddingTooLong"),
]
