"""The server of a served connection: an end of messages (joined.py) whose output lies in pieces,
and what it hands out of a frame (docs/MESSAGES.md)."""
import calls
from endpoint import Model
from joined import Half
from receive import Event, fault_event, reset_event, take

# Octets of a whole body, and of a frame of it, from which on they are sent from where they lie.
LEAST_LENT = 4_096
CONTENT_LENGTH = b"content-length"


class ServedEnd(Model):
    """An end that knows the pieces of its output: what is copied joins, what is lent does not."""

    def __init__(self, role, config, marks):
        self.pieces = []  # the lengths of the pieces, and whether octets may join one
        self.lends = False  # whether a body is sent that is lent
        super().__init__(role, config, marks)

    def append(self, octets):
        super().append(octets)
        if self.failed is None and self.pieces and self.pieces[-1][1]:
            self.pieces[-1][0] += len(octets)
        else:
            self.pieces.append([len(octets), self.failed is None])

    def write(self, kind, flags, stream, payload=b""):
        super().write(kind, flags, stream, payload)
        if kind == 0 and self.lends and len(payload) >= LEAST_LENT:
            self.pieces[-1][0] -= len(payload)
            self.pieces.append([len(payload), False])

    def take_out(self, count):
        octets = super().take_out(count)
        left = len(octets)
        while left:
            part = min(left, self.pieces[0][0])
            self.pieces[0][0] -= part
            left -= part
            if self.pieces[0][0] == 0:
                self.pieces.pop(0)
        return octets

    def first_pieces(self, most):
        """How many octets the first two pieces have, together so many at most."""
        return min(sum(length for length, _ in self.pieces[:2]), most)


class Server(Half):
    """A server of whole messages and of messages in parts."""

    def __init__(self, config, marks):
        super().__init__("server", config, marks)
        self.end = ServedEnd("server", config, marks)
        self.lengths = {}  # of each request how many octets its body still needs, or None
        self.place = self.held = 0  # octets that came, and those of an incomplete frame

    def note_octets(self, count, frame):
        """So many octets have come, which end a frame or none."""
        self.place += count
        self.held = 0 if frame else self.held + count

    def is_full(self):
        return self.end.waiting >= 65_536

    def is_drained(self):
        return self.end.waiting == 0 and (self.end.failed is not None or not self.end.streams)

    def unsent(self, number):
        return len(self.waiting[number][0]) if number in self.waiting else 0

    def share(self, number, most):
        self.end.lends = len(self.accepted[number].body) >= LEAST_LENT
        answer = super().share(number, most)
        self.end.lends = False
        return answer

    def take(self, frame):
        """What is handed out of a frame: an event, or None."""
        event = take(self.end, frame)
        self.forget_over()
        if event is not None and event.kind == "fields":
            return self.read_fields(event)
        if event is not None and event.kind == "data":
            return self.read_data(event)
        return event

    def read_fields(self, event):
        number, fields = event.stream, event.fields
        if number in self.heads:
            is_bad = any(name.startswith(b":") for name, _, _ in fields)
            if is_bad or self.lengths[number] or not event.end:
                return self.refuse(number)
            return Event("trailers", number, [])
        length = next((int(value) for name, value, _ in fields if name == CONTENT_LENGTH), None)
        if is_malformed(fields) or (event.end and length):
            return self.refuse(number)
        self.heads.add(number)
        self.requests[number], self.lengths[number] = fields, length
        return Event("head", number, [], fields=fields, end=event.end)

    def read_data(self, event):
        number, count = event.stream, len(event.body)
        left = self.lengths[number]
        if left is not None and (count > left or (event.end and count < left)):
            return self.refuse(number)
        if left is not None:
            self.lengths[number] = left - count
        return Event("body", number, [], count=count, end=event.end)

    def refuse(self, number):
        """A part that cannot be read is not handed out, and its stream is refused with
        PROTOCOL_ERROR (section 8.1.1)."""
        self.end.marks.reach("a malformed part")
        try:
            calls.make(self.end, "refuse", number, 1)
        except calls.Refused:
            self.end.marks.reach("a malformed part that closes its stream")
        self.forget_over()
        if self.end.failed is not None:
            return fault_event(self.end.failed)
        return reset_event(number, 1, "ours")


def is_malformed(fields):
    """Whether the head of a request breaks a rule that random heads break: M1, M6 or M8."""
    values = {name: value for name, value, _ in fields}
    path = values.get(b":path")
    return path is None or not path.startswith(b"/") or any(name != name.lower() for name in values)
