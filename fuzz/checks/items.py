"""What a log is made of: items, events, calls and their answers (h2_block Grouping, h2_spec_log Events and Acts),
and items read from octets. Lists of them have the newest first, as in the definitions.

Frames of no use here are `Other`. It shares no code with fuzz/models."""
from typing import NamedTuple

PREFACE_SIZE = 24
END_STREAM = ACK = 0x01
END_HEADERS, PADDED, PRIORITY = 0x04, 0x08, 0x20


class Block(NamedTuple):
    """A whole field block."""
    stream: int
    end: bool
    octets: bytes


class Data(NamedTuple):
    stream: int
    end: bool
    octets: bytes
    size: int  # octets of the payload, with padding


class Reset(NamedTuple):
    stream: int
    code: int


class Settings(NamedTuple):
    ack: bool
    pairs: list


class GoAway(NamedTuple):
    last: int


class WindowUpdate(NamedTuple):
    stream: int
    increment: int


class Other(NamedTuple):
    kind: int


class FieldsEvent(NamedTuple):
    id: int
    list: list
    end: bool


class DataEvent(NamedTuple):
    id: int
    octets: bytes
    flow: int
    end: bool


class ResetEvent(NamedTuple):
    id: int
    code: int
    ours: bool


class UnprocessedEvent(NamedTuple):
    id: int


class AckedEvent(NamedTuple):
    pass


class OtherEvent(NamedTuple):
    kind: str


class Open(NamedTuple):
    fields: list
    end: bool


class SendFields(NamedTuple):
    id: int
    fields: list
    end: bool


class SendData(NamedTuple):
    id: int
    octets: bytes
    end: bool


class Release(NamedTuple):
    id: int
    count: int


class OtherAct(NamedTuple):
    name: str


class Number(NamedTuple):
    id: int


class Count(NamedTuple):
    count: int


class Done(NamedTuple):
    pass


class Refused(NamedTuple):
    """The call is refused; of C7 the number is 7."""
    number: int


class InterimHanded(NamedTuple):
    id: int
    list: list


class HeadHanded(NamedTuple):
    id: int
    list: list
    end: bool


class BodyHanded(NamedTuple):
    id: int
    octets: bytes
    end: bool


class TrailersHanded(NamedTuple):
    id: int
    list: list


class Passed(NamedTuple):
    event: object


def unpadded(payload, flags):
    """A payload without its padding and the priority of HEADERS (sections 6.1 and 6.2)."""
    if flags & PADDED:
        payload = payload[1:len(payload) - payload[0]]
    return payload[5:] if flags & PRIORITY else payload


class Grouping:
    """Frames become items (section 4.3): a block is an item once it is whole."""

    def __init__(self):
        self.begun = None  # the stream, the end flag and the octets of a block that has begun

    def item(self, frame):
        """The item that a frame ends, or None."""
        kind, flags, payload = frame[3], frame[4], frame[9:]
        stream = int.from_bytes(frame[5:9], "big") & 0x7FFFFFFF
        number = int.from_bytes(payload[:4], "big") & 0x7FFFFFFF
        match kind:
            case 0:
                return Data(stream, bool(flags & END_STREAM), unpadded(payload, flags & PADDED), len(payload))
            case 1:
                self.begun = (stream, bool(flags & END_STREAM), unpadded(payload, flags))
                return self.ended(flags)
            case 9 if self.begun:
                self.begun = (*self.begun[:2], self.begun[2] + payload)
                return self.ended(flags)
            case 3:
                return Reset(stream, int.from_bytes(payload, "big"))
            case 4:
                pairs = [payload[place:place + 6] for place in range(0, len(payload), 6)]
                pairs = [(int.from_bytes(pair[:2], "big"), int.from_bytes(pair[2:], "big")) for pair in pairs]
                return Settings(bool(flags & ACK), pairs)
            case 7:
                return GoAway(number)
            case 8:
                return WindowUpdate(stream, number)
        return Other(kind)

    def ended(self, flags):
        if not flags & END_HEADERS:
            return None
        block, self.begun = Block(*self.begun), None
        return block
