"""What is done to a served connection: its mood, and random requests, frames and calls."""
from endpoint import Config
from frames import GREATEST, Frame
from hpack import integer, raw
from served_watch import LIMITS

# What each mood is: a bit of all; a full output, for which responses, resets and 504s wait; whole
# bodies that wait for windows; responses in parts; bodies of requests; deferred responses and time;
# many streams; a limit that is exceeded.
MOODS = ("calm", "full", "bodies", "uploads", "wild", "full", "parts", "late", "full", "crowd",
         "uploads", "wild", "full")
STEPS = {"calm": 20, "full": 25, "bodies": 24, "parts": 20, "uploads": 36, "late": 24, "crowd": 12,
         "wild": 14}

ACTS = "requests frames takes respond reset calls second time turns leave ends close".split()
ACT_WEIGHTS = {
    "calm": [60, 70, 30, 20, 10, 4, 10, 12, 20, 3, 2, 2],
    "full": [28, 20, 80, 30, 12, 50, 6, 14, 12, 1, 1, 0],
    "bodies": [50, 90, 50, 6, 8, 4, 2, 4, 20, 1, 2, 0],
    "parts": [50, 80, 40, 16, 12, 4, 2, 12, 20, 1, 2, 0],
    "uploads": [40, 160, 20, 12, 8, 4, 8, 8, 20, 1, 2, 0],
    "late": [40, 20, 30, 20, 10, 10, 4, 70, 10, 1, 1, 0],
    "crowd": [80, 40, 40, 20, 20, 20, 4, 6, 20, 1, 0, 0],
    "wild": [100, 200, 60, 40, 20, 8, 16, 60, 32, 1, 2, 1],
}
PATHS = ("whole early refuses parts trailers stalls fails/ defers keeps holds later fails resets "
         "bad other user malformed").split()
PATH_WEIGHTS = {
    "calm": [20, 15, 8, 15, 8, 6, 4, 15, 4, 3, 4, 2, 3, 2, 2, 2, 2],
    "full": [10, 14, 8, 6, 4, 2, 2, 80, 1, 1, 10, 1, 2, 1, 1, 1, 1],
    "bodies": [50, 40, 10, 4, 2, 2, 0, 5, 1, 1, 1, 1, 1, 1, 1, 1, 1],
    "parts": [5, 5, 2, 40, 25, 15, 8, 15, 0, 0, 2, 0, 1, 0, 0, 0, 0],
    "uploads": [20, 10, 15, 8, 3, 2, 2, 10, 40, 10, 8, 2, 2, 1, 1, 2, 3],
    "late": [8, 8, 3, 5, 3, 5, 1, 80, 0, 0, 10, 0, 1, 0, 0, 0, 0],
    "crowd": [20, 20, 10, 10, 5, 3, 2, 40, 2, 2, 10, 2, 4, 2, 2, 2, 2],
    "wild": [15, 12, 8, 10, 6, 4, 4, 15, 6, 4, 6, 4, 6, 4, 4, 4, 8],
}
FRAMES = ("data trailers reset update stream_update settings ping ack priority unknown goaway "
          "fault").split()
FRAME_WEIGHTS = {
    "calm": [30, 6, 8, 15, 25, 10, 5, 10, 2, 2, 1, 0],
    "full": [5, 1, 20, 25, 20, 4, 4, 5, 1, 1, 0, 0],
    "bodies": [4, 1, 10, 30, 60, 15, 3, 4, 1, 1, 0, 0],
    "parts": [6, 2, 8, 25, 50, 12, 3, 4, 1, 1, 0, 0],
    "uploads": [200, 20, 6, 4, 8, 3, 3, 10, 1, 1, 1, 0],
    "late": [30, 6, 8, 15, 25, 10, 5, 10, 2, 2, 1, 0],
    "crowd": [20, 6, 15, 15, 25, 10, 5, 10, 2, 2, 1, 0],
    "wild": [80, 20, 50, 24, 40, 20, 60, 16, 6, 6, 4, 3],
}
COUNTS = {"full": [1, 4, 10, 20, 30], "bodies": [1, 2, 5, 10, 30], "late": [1, 3, 8, 20],
          "crowd": [10, 30, 40, 60]}
SIZES = {
    "calm": [0, 0, 1, 5, 100, 1_000, 4_096, 16_384, 20_000, 70_000],
    "full": [0, 0, 1, 5, 20, 100, 100, 1_000, 4_095, 4_096, 16_384, 30_000],
    "bodies": [1, 5, 100, 1_000, 4_095, 4_096, 5_000, 16_384, 16_385, 20_000, 40_000],
    "crowd": [0, 0, 1, 5, 10, 100, 100, 1_000, 5_000],
}
STATUSES = [200] * 8 + [404, 500, 204, 503, 103]
# Limits that are soon exceeded.
SMALL = {"frame": 1_500, "body": 2_500, "writing": 2_500, "answering": 2_500, "idle": 3_000,
         "resets": 1, "empty": 0, "refused": 1, "replies": 40, "closing": 1_500}
METHODS = {b"GET": b"\x82", b"POST": b"\x83", b"HEAD": b"\x02" + raw(b"HEAD")}


def config(random):
    window = random.one_of([65_535, 65_535, 65_535, 65_535, 100_000, 1_000_000, 10, 100])
    return Config(random.one_of([4_096, 65_536]), window, 100)


def limits(mood, number, random):
    """Limits that are set, by their names; in a wild mood one that is to be exceeded."""
    if mood == "late":
        times = {"deferred": random.one_of([1, 1_000, 1_500, 3_000])}
        return times | {"body": 0, "answering": 0, "writing": 0}
    if mood == "full":
        return {"deferred": random.one_of([0, 500, 2_000, 60_000]), "writing": 0, "answering": 0}
    if mood == "wild":
        name = list(SMALL)[number % len(SMALL)]
        return {name: SMALL[name]}
    return {}


class Chooser:
    """Chooses for one connection what is done next."""

    def __init__(self, mood, host, random):
        self.mood, self.host, self.random = mood, host, random
        self.next = 1  # the next stream that the client opens
        self.open = []  # streams whose requests are not complete
        self.octets = 0  # of whole bodies and bodies in parts that were asked for

    @property
    def end(self):
        return self.host.connection.end

    def kind(self):
        return self.random.weighted(dict(zip(ACTS, ACT_WEIGHTS[self.mood])))

    def size(self):
        """The length of a body of a response; long ones are few in one case."""
        size = self.random.one_of(SIZES.get(self.mood, SIZES["calm"]))
        if self.octets + size > 300_000:
            size = min(size, 50)
        self.octets += size
        return size

    # Requests.

    def requests(self, count=None, path=None):
        """Requests: each a stream, its method, its path, whether it is complete, whether `get` or
        `post` can say it, and its frames."""
        random = self.random
        count = count or random.one_of(COUNTS.get(self.mood, [1, 1, 2, 3, 6]))
        is_plain = random.percent(70)
        is_refused = path is not None and path.startswith("/refuses")
        is_posted = random.percent(90 if is_refused else {"uploads": 80}.get(self.mood, 20))
        paths = [path or self.path(is_plain) for _ in range(count)]
        return [self.request(is_plain, is_posted, one) for one in paths]

    def path(self, is_plain):
        random = self.random
        kind = random.weighted(dict(zip(PATHS, PATH_WEIGHTS[self.mood])))
        if is_plain and kind in ("user", "malformed"):
            kind = "defers"
        if kind == "resets":
            return f"/resets/{random.below(14)}"
        if kind in ("later", "fails", "bad", "other"):
            return "/" + kind
        if kind == "keeps":
            return f"/keeps/{random.one_of([0, 10, 1_000])}"
        if kind in ("user", "malformed"):
            return kind
        return f"/{kind.rstrip('/')}/{self.size()}"

    def request(self, is_plain, is_posted, path):
        random = self.random
        number, self.next = self.next, self.next + 2
        method, ends = (b"POST", False) if is_posted else (b"GET", True)
        if not is_plain and random.percent(25):
            method = b"HEAD"
        if not is_plain and random.percent(20):
            ends = not ends
        if not ends:
            self.open.append(number)
        block = METHODS[method] + b"\x86" + self.rest(number, path, ends, is_plain)
        frames = self.block_frames(number, ends, block, is_plain)
        return number, method, path, ends, is_plain, frames

    def rest(self, number, path, ends, is_plain):
        """The path of a request, and at times an authority or a length."""
        random = self.random
        if path == "malformed":
            return random.one_of([b"\x04" + raw(b"x"), b"\x84\x00" + raw(b"X") + raw(b"y"), b""])
        host = b"\x01" + raw(b"host") if not is_plain and random.percent(20) else b""
        if path == "user":
            host, path = b"\x01" + raw(b"me@host"), "/early/1"
        block = b"\x04" + raw(f"{path}?{number}".encode()) + host
        if not is_plain and random.percent(10):
            length = random.one_of([0, 1, 10]) if ends else random.one_of([1, 10, 100])
            block += integer(0, 4, 28) + raw(str(length).encode())
        return block

    def block_frames(self, number, ends, block, is_plain):
        random = self.random
        if is_plain or random.percent(85):
            is_padded = not is_plain and random.percent(10)
            return [Frame("headers", number, end=ends, whole=True, block=block, padded=is_padded)]
        return [Frame("headers", number, end=ends, whole=False, block=block[:2], padded=False),
                Frame("continuation", number, block=block[2:], whole=True)]

    # Frames.

    def frames(self):
        weights = dict(zip(FRAMES, FRAME_WEIGHTS[self.mood]))
        counts = [1, 1, 2, 3, 5, 8] if self.mood == "uploads" else [1, 1, 1, 2, 3]
        count = self.random.one_of(counts)
        made = [self.frame(self.random.weighted(weights)) for _ in range(count)]
        return [frame for frame in made if frame is not None]

    def frame(self, kind):
        random = self.random
        match kind:
            case "data" | "trailers":
                return getattr(self, kind)()
            case "reset":
                return self.reset()
            case "update":
                return Frame("update", increment=self.increment(self.end.send))
            case "stream_update":
                if (number := self.stream()) is None:
                    return None
                stream = self.end.streams.get(number)
                increment = self.increment(stream.send if stream else 0)
                return Frame("update", number, increment=increment)
            case "settings":
                return self.settings()
            case "ping":
                return Frame("ping", ack=False, octets=random.octets())
            case "ack":
                return Frame("ack")
            case "priority":
                return Frame("priority", self.next)
            case "unknown":
                payload = b"a" * random.below(30)
                return Frame("unknown", self.next, type=0x20 + random.below(100), payload=payload)
            case "goaway":
                return Frame("goaway", last=0, code=0, debug=b"")
        return self.fault()

    def stream(self):
        """An active stream mostly, and else one that is over; None where there is none."""
        random, end = self.random, self.end
        if end.streams and random.percent(90):
            return random.one_of(list(end.streams))
        return 1 + 2 * random.below((end.highest + 1) // 2) if end.highest else None

    def opened(self):
        """A stream whose request is not complete, or None; at times one that is over."""
        end, random = self.end, self.random
        self.open = [number for number in self.open
                     if number > end.highest or number in end.streams or random.percent(30)]
        return self.random.one_of(self.open) if self.open else None

    def data(self):
        random, number = self.random, self.opened()
        if number is None:
            return None
        room = self.room(number)
        length = random.one_of([0, 1, 9, 100, 1_000, 1_000, 5_000, 16_384, 16_384])
        length = min(length, max(room, 0)) if not random.percent(1) else length
        pad = None
        if room > length and length < 16_000 and random.percent(25):
            pad = random.below(min(256, room - length))
        ends = random.percent(30)
        if ends:
            self.open.remove(number)
        return Frame("data", number, end=ends, body=b"x" * length, pad=pad)

    def room(self, number):
        """What the client may send on a stream, less what is under way."""
        end, connection = self.end, self.host.connection
        stream = end.streams.get(number)
        window = stream.receive if stream else min(end.own_window, end.config.window)
        under_way = [frame for _, frame in [*self.host.unread.tokens, *connection.kept.tokens]
                     if frame is not None and frame.kind == "data"]
        on_stream = sum(frame.flow() for frame in under_way if frame.stream == number)
        return min(end.receive - sum(frame.flow() for frame in under_way), window - on_stream)

    def trailers(self):
        number = self.opened()
        if number is None:
            return None
        self.open.remove(number)
        block = b"\x84" if self.random.percent(10) else b"\x00" + raw(b"x") + raw(b"y")
        ends = self.random.percent(95)
        return Frame("headers", number, end=ends, whole=True, block=block, padded=False)

    def reset(self):
        if (number := self.stream()) is None:
            return None
        if number in self.open:
            self.open.remove(number)
        return Frame("reset", number, code=self.random.one_of([0, 2, 5, 8, 8, 8]))

    def settings(self):
        random = self.random
        kinds = {1: [0, 100, 4_096], 4: [0, 1, 100, 10_000, 65_535, 65_535, 200_000],
                 5: [16_384, 16_384, 20_000, 70_000], 3: [0, 100], 6: [1_000]}
        count = random.one_of([0, 1, 1, 1, 2])
        names = [random.one_of([4, 4, 4, 4, 1, 5, 3, 6]) for _ in range(count)]
        return Frame("settings", pairs=[(name, random.one_of(kinds[name])) for name in names])

    def increment(self, send):
        random = self.random
        left = max(min(GREATEST - send, GREATEST), 1)
        if self.mood == "wild" and random.percent(5):
            return random.one_of([0, min(left + 1, GREATEST)])
        return min(random.one_of([1, 3, 10, 100, 1_000, 10_000, 16_384, 70_000, 200_000]), left)

    def fault(self):
        random = self.random
        return random.one_of([
            Frame("update", increment=0),
            Frame("data", self.next + 20, end=False, body=b"x", pad=None),
            Frame("settings", pairs=[(2, 2)]),
            Frame("settings", pairs=[(4, GREATEST + 1)]),
            Frame("continuation", 1, block=b"", whole=True),
            Frame("headers", self.next, end=True, whole=True, block=b"\xff\xff", padded=False),
            Frame("headers", self.next + 1, end=True, whole=True, block=b"\x82", padded=False),
        ])

    # Calls, and what the client takes.

    def takes(self):
        """How many octets the client takes from now on; None is all."""
        random, waiting = self.random, self.end.waiting
        above = max(waiting - 65_536, 0)
        if self.mood == "full":
            few = [0, *(above + 1 + random.below(most) for most in (20, 60, 200))]
            others = [above + random.below(20_000), random.below(70_000), None]
            return random.one_of([*few, *few, *others])
        first = self.end.ends[0] if self.end.ends else 9
        counts = [0, first, random.below(100), random.below(70_000), above + 5]
        return random.one_of([None, None, None, *counts])

    def exchange(self):
        """A stream to respond on: mostly one whose response is still to be given."""
        random = self.random
        kept = self.host.connection.exchanges.kept
        asked = [number for number, one in kept.items() if one.stage == "asked"]
        if asked and random.percent(88):
            return random.one_of(asked)
        if kept and random.percent(70):
            return random.one_of(list(kept))
        return self.any_stream()

    def any_stream(self):
        return self.random.below(self.next // 2 + 1) * 2 + 1

    def response(self):
        random = self.random
        gives = random.weighted({"whole": 70, "parts": 25, "nothing": 5})
        return random.one_of(STATUSES), self.size() if gives == "whole" else gives

    def reset_stream(self):
        random, kept = self.random, list(self.host.connection.exchanges.kept)
        number = random.one_of(kept) if kept and random.percent(92) else self.any_stream()
        return number, random.one_of([0, 1, 2, 7, 8, 8, 8, 13])

    def frames_above(self, limit):
        """Frames that exceed a limit on floods, or that begin what is late then."""
        number, self.next = self.next, self.next + 2
        match limit:
            case "frame":
                part = Frame("headers", number, end=True, whole=False, block=b"\x82", padded=False)
                return [part]
            case "body" | "empty" | "closing":
                head = self.request(True, True, "/later")[-1]
                return head + [Frame("data", self.open[-1], end=False, body=b"", pad=None)]
            case "writing" | "answering":
                return self.request(True, False, "/stalls/5")[-1]
            case "resets":
                made = [self.request(True, False, "/defers/1") for _ in range(4)]
                resets = [Frame("reset", one[0], code=8) for one in made]
                return [part for one in made for part in one[-1]] + resets
            case "refused":
                made = [self.request(False, False, "malformed") for _ in range(3)]
                return [part for one in made for part in one[-1]]
            case "replies":
                return [self.frame("ping") for _ in range(5)]
        return []

    def time(self):
        steps = {"late": [1, 500, 999, 1_000, 1_000, 1_500, 4_000],
                 "wild": [100, 1_000, 2_500, 4_000, 12_000]}
        return self.random.one_of(steps.get(self.mood, [1, 100, 500, 1_000, 2_000, 6_000]))


assert all(len(weights) == len(PATHS) for weights in PATH_WEIGHTS.values())
assert SMALL.keys() <= LIMITS.keys()
