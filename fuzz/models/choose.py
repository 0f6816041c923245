"""What a connection is driven to: its mood, and random frames and calls."""
from frames import GREATEST, MALFORMED, Frame, too_long
from hpack import integer, raw
from endpoint import FIRST_FRAME, Config

# What each mood is: mostly what is allowed; all that a peer may do wrong; as many streams as are
# allowed; a thousand resets and more; replies that nobody takes away; DATA that nobody releases.
# The cycle has an odd length, so that the next one gives each mood to the other role.
CYCLE = ["calm", "wild", "wild", "greedy", "wild", "wild", "resets", "wild", "wild", "crowd", "wild", "wild",
         "flood", "wild", "calm", "wild", "wild", "greedy", "wild"]
STEPS = {"calm": 150, "wild": 120, "greedy": 120, "crowd": 200, "resets": 300, "flood": 120}

KINDS = "frame poll open fields data release reset refuse ping go_away change out fail".split()
KIND_WEIGHTS = {
    "calm": [500, 20, 80, 60, 100, 60, 20, 5, 20, 2, 10, 40, 0],
    "wild": [500, 20, 80, 40, 40, 20, 10, 10, 20, 5, 10, 100, 3],
    "crowd": [600, 10, 300, 10, 10, 10, 1, 1, 5, 0, 5, 60, 0],
    "resets": [600, 2, 250, 2, 2, 2, 160, 140, 2, 0, 2, 40, 0],
    "flood": [1_000, 1, 15, 1, 60, 1, 1, 1, 1, 0, 1, 0, 1],
    "greedy": [1_000, 10, 200, 10, 10, 0, 20, 5, 5, 2, 5, 20, 0],
}
FRAMES = ("data headers priority reset settings ack ping pong goaway update stream_update continuation unknown "
          "malformed").split()
FRAME_WEIGHTS = {
    "calm": [250, 200, 20, 30, 40, 30, 20, 20, 6, 40, 100, 0, 20, 0],
    "wild": [200, 250, 20, 60, 100, 60, 20, 20, 20, 90, 140, 8, 20, 30],
    "crowd": [0, 400, 5, 5, 10, 10, 5, 5, 0, 10, 30, 0, 5, 0],
    "resets": [0, 300, 5, 5, 5, 5, 5, 5, 0, 0, 300, 0, 5, 0],
    "flood": [0, 20, 1, 1, 40, 5, 900, 1, 0, 10, 10, 0, 1, 0],
    "greedy": [600, 200, 5, 5, 10, 20, 5, 5, 0, 10, 20, 0, 5, 0],
}
# In how many of a hundred cases the peer leaves out a frame on a stream that none may have.
PATIENCE = {"calm": 98, "wild": 50}
# Greatest frames that an end names: the first one most often, and both sides of what matters.
FRAME_SIZES = [16_384] * 5 + [16_385, 65_535, 65_536, 1_048_576]
METHOD_GET = b"\x82"  # RFC 7541, appendix A
NEWEST = b"\xbe"
GET = (b":method", b"GET", False)


class Chooser:
    """Chooses for one connection what is done next."""

    def __init__(self, mood, end, random):
        self.mood, self.end, self.random = mood, end, random
        self.planned = None  # octets that are left of a long block that has begun

    @property
    def is_steady(self):
        """Whether the peer does nothing that ends the connection, so that it lasts."""
        return self.mood not in ("calm", "wild")

    def kind(self):
        return self.random.weighted(dict(zip(KINDS, KIND_WEIGHTS[self.mood])))

    def stream(self):
        """A number of a stream: an active one, the next one, or any."""
        random, end = self.random, self.end
        closed = self.closed() if self.mood == "wild" else []
        if closed and random.percent(12):
            return random.one_of(closed)
        if random.percent(60 if self.mood == "wild" else 95) and end.streams:
            return random.one_of(list(end.streams))
        if self.is_steady or random.percent(40):
            return end.next_number()
        place = random.below(10)
        if place == 0:
            return (random.below(20) + 1) * 2
        if place < 5:
            return random.one_of(list(end.reset) or [1])
        if place == 5:
            return end.next_number() + random.below(5) * 2
        return random.one_of(self.closed() or [1])

    def closed(self):
        """The numbers of streams that are over."""
        end = self.end
        return [number for number in range(1, end.highest + 1, 2) if end.state(number) == "closed"]

    # Frames.

    def frame(self):
        random, end = self.random, self.end
        if not end.begun and (self.is_steady or random.percent(97)):
            return self.settings()
        if end.partial is not None and (self.mood != "wild" or random.percent(88)):
            return self.continuation()
        number = self.stream()
        weights = dict(zip(FRAMES, FRAME_WEIGHTS[self.mood]))
        weights["goaway"] *= 1 if end.is_server else 2
        name = random.weighted(weights)
        if self.is_harmful(name, number) and random.percent(PATIENCE.get(self.mood, 100)):
            return self.headers(end.next_number()) if end.is_server else self.ping()
        return self.frame_of(name, number)

    def is_harmful(self, name, number):
        """Whether a frame is a fault of the connection on a stream in its state."""
        state = self.end.state(number)
        if state == "idle":
            return name in ("data", "headers", "reset", "stream_update")
        return state == "closed" and name in ("data", "headers")

    def frame_of(self, name, number):
        random, end = self.random, self.end
        match name:
            case "priority":
                return Frame("priority", number)
            case "reset":
                return Frame("reset", number, code=random.below(16))
            case "ack":
                return Frame("ack")
            case "pong":
                octets = end.ping if end.ping and random.percent(80) else random.octets()
                return Frame("ping", ack=True, octets=octets)
            case "goaway":
                lasts = [GREATEST, 0, end.highest, random.below(end.highest + 2)]
                return Frame("goaway", last=random.one_of(lasts), code=random.below(20), debug=b"debug")
            case "update":
                return Frame("update", increment=self.increment(end.send))
            case "unknown":
                length = end.limit if random.percent(20) else 3
                return Frame("unknown", number, type=random.octets()[0] | 0x10, payload=b"a" * length)
            case "malformed":
                if random.percent(40):
                    return too_long(random.one_of([0, 1, 6, 0x20]), random.one_of([end.limit + 1, 0xFFFFFF]))
                return random.one_of(MALFORMED)
            case "continuation":
                return Frame(name, number, block=METHOD_GET * 3, whole=random.percent(50))
            case "stream_update":
                return Frame("update", number, increment=self.stream_increment(number))
        return {"data": self.data, "headers": self.headers, "settings": lambda _: self.settings(),
                "ping": lambda _: self.ping()}[name](number)

    def ping(self):
        return Frame("ping", ack=False, octets=self.random.octets())

    def data(self, number):
        random = self.random
        pad = random.octets()[0] if random.percent(20) else None
        lengths = [16_000] * 4 if self.mood == "greedy" else [9, 100, 200, 300, 16_000]
        length = random.one_of([0, 1, 9, 10, 100, 100, 1_000, 1_000, *lengths])
        if self.end.limit > FIRST_FRAME and random.percent(20):
            length = self.long_data(0 if pad is None else 1 + pad)
        return Frame("data", number, end=random.percent(15), body=b"x" * length, pad=pad)

    def long_data(self, padding):
        """As much as may be read, or as the connection's window has; in a wild mood one octet more too."""
        window = max(self.end.receive, 0) + (self.random.below(2) if self.mood == "wild" else 0)
        most = min(self.end.limit, window) if self.random.percent(70) else FIRST_FRAME + 1
        return max(min(most, self.end.limit) - padding, 0)

    def headers(self, number):
        random, end = self.random, self.end
        if end.is_server and end.state(number) != "closed" and random.percent(60):
            number = end.next_number()
        ends = random.percent(5 if self.mood == "crowd" else 30)
        table = end.decoder.table
        if random.percent(10) and table.maximum <= end.decoder.limit:
            part = self.first_part()
            return Frame("headers", number, end=ends, whole=False, block=part, padded=False)
        return Frame("headers", number, end=ends, whole=True, block=self.block(), padded=random.percent(20))

    def first_part(self):
        """The first part of a block: of one with a long field, or of many that are the same."""
        random = self.random
        if not self.is_steady and random.percent(20):
            value = b"y" * random.one_of([65_503, 65_504, 20_000])  # a list of 65,536 octets, or more
            block = b"\x00" + raw(b"a") + raw(value)
            most = random.one_of([FIRST_FRAME, self.end.limit])
            self.planned = block[most:]
            return block[:most]
        return METHOD_GET * (3 if self.is_steady else random.one_of([0, 3, 20, FIRST_FRAME]))

    def continuation(self):
        random = self.random
        number, _, octets = self.end.partial
        if self.planned is not None:
            count = random.one_of([FIRST_FRAME, self.end.limit, 9_000])
            part, self.planned = self.planned[:count], self.planned[count:]
            whole = not self.planned
            if whole:
                self.planned = None
            return Frame("continuation", number, block=part, whole=whole)
        is_long = len(octets) >= FIRST_FRAME
        if is_long and random.percent(80):
            return Frame("continuation", number, block=METHOD_GET * FIRST_FRAME, whole=False)
        count = random.one_of([0, 1, 200 if is_long else 5])
        return Frame("continuation", number, block=METHOD_GET * count, whole=random.percent(50))

    def block(self):
        """A block; one that does not decode is rare."""
        random, decoder = self.random, self.end.decoder
        if decoder.table.maximum > decoder.limit and self.mood != "wild":
            return integer(0x20, 5, min(decoder.limit, 34)) + METHOD_GET
        if self.mood == "wild" and random.percent(4):
            above = integer(0x20, 5, decoder.limit + 1) + METHOD_GET
            return random.one_of([b"\x80", METHOD_GET + b"\x20", NEWEST, above])
        place = random.below(20)
        if place == 0:
            return METHOD_GET * random.one_of([0, 30, 1_561, 2_000])
        if place < 3:
            size = decoder.limit if place == 2 else random.below(decoder.limit + 1)
            return integer(0x20, 5, size) + METHOD_GET
        if place < 7:
            return b"\x40\x01a\x01b"
        if place < 10 and decoder.table.entries:
            return NEWEST
        return METHOD_GET * 3

    def settings(self):
        end = self.end
        is_raised = any(stream.send > end.window for stream in end.streams.values())
        if self.mood == "wild" and self.random.percent(40 if is_raised else 3):
            return Frame("settings", pairs=[(4, self.random.one_of([GREATEST, GREATEST, GREATEST + 1]))])
        return Frame("settings", pairs=[self.setting() for _ in range(self.random.below(4))])

    def setting(self):
        random = self.random
        if self.mood in ("flood", "resets"):
            return 240, random.below(100)
        is_wrong = self.mood == "wild" and random.percent(20)
        name = random.below(6)
        if name == 0:
            return 1, random.one_of([0, 30, 31, 32, 158, 159, 4_095, 4_096, 65_536])
        if name == 1:
            return 2, random.one_of([1, 2] if is_wrong else [0])
        if name == 2:
            return 3, random.one_of([5, 50, 110] if self.mood == "crowd" else [0, 1, 10, 100, 2_000])
        if name == 3:
            greatest = [2_147_483_647, 2_147_483_647, 2_147_483_648]
            return 4, random.one_of(greatest if is_wrong else [0, 10, 65_535, 65_536, 100_000])
        if name == 4:
            good = [16_384, 16_385, 20_000, 65_536, 65_537, 16_777_215]
            return 5, random.one_of([16_383, 16_777_216] if is_wrong else good)
        return random.one_of([6, 7, 240, 65_535]), random.below(100)

    def increment(self, send):
        """To the greatest window, beyond it, by nothing, or by some."""
        random = self.random
        left = min(GREATEST - send, GREATEST)
        if random.percent({"wild": 30, "calm": 2}.get(self.mood, 0)):
            return random.one_of([min(left + 1, GREATEST), 0, left, left])
        return max(min(random.one_of([1, 10, 4_465, 65_536, 1_000_000]), left), 1)

    def stream_increment(self, number):
        if self.mood == "resets" and self.random.percent(80):
            return 0
        stream = self.end.streams.get(number)
        return self.increment(stream.send if stream else 0)

    # Calls.

    def call(self, kind):
        """The words of a call: its name, and what it is given."""
        random = self.random
        number = self.stream()
        ends = random.percent(20)
        match kind:
            case "open":
                return "open", self.fields(), ends
            case "fields":
                return "fields", number, self.fields(), ends
            case "data":
                return "data", number, b"x" * self.data_length(), ends
            case "release":
                return "release", number, self.release_count(number)
            case "reset":
                return "reset", number, random.below(16)
            case "refuse":
                codes = [1] if self.is_steady else [1, 1, 1, 2, 5, 7, 8, 11, 13]
                return "refuse", number, random.one_of(codes)
            case "ping":
                return "ping", random.octets()
            case "go_away":
                return ("go_away",)
            case "fail":
                return "fail", random.below(14)
        return "change", config(self.mood, random)

    def fields(self):
        """A short list mostly, and at times a great one, or one above the limit."""
        random = self.random
        place = random.below(20)
        if place > 1:
            return [GET]
        lengths = [0, 1, 126, 203, 204, 1_000, 40_000, 65_491, 65_492]
        length = random.one_of(lengths) if place == 0 else random.below(300)
        return [(b"authorization", b"0" * length, True)]

    def data_length(self):
        """In a flood, so much that little more than the full output waits after a further call."""
        if self.mood == "flood":
            left = 60_000 - self.end.waiting
            return left if left > 1_000 else 70_000
        return self.random.one_of([0, 0, 1, 10, 1_000, 16_384, 16_385, 30_000, 70_000, 70_000])

    def release_count(self, number):
        """All that is owed, a part, or more."""
        random, stream = self.random, self.end.streams.get(number)
        owed = stream.owed if stream else 0
        place = random.below(10)
        if place < 2:
            return 0 if place else owed + 1
        return random.below(owed) if place < 4 else owed

    def out_count(self):
        """All, none, or a part; what is left of a frame is mostly put out next."""
        end, random = self.end, self.random
        if end.is_cut and end.ends and random.percent(80):
            return end.ends[0]
        return random.one_of([0, 1, 100, 65_536, 1_000_000, 1_000_000])


def config(mood, random):
    table = random.one_of([0, 33, 34, 4_096, 65_536])
    windows = {"flood": [65_535], "resets": [65_535], "calm": [10_000, 65_535, 100_000],
               "greedy": [65_535, 100_000, GREATEST]}
    window = random.one_of(windows.get(mood, [1, 10, 65_535, 100_000, GREATEST]))
    return Config(table, window, random.one_of([100, 101, 105]), random.one_of(FRAME_SIZES))
