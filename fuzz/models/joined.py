"""A client and a server that are joined by two pipes, from the words of docs/MESSAGES.md and docs/PAIR.md.

Each is an end of a connection (endpoint.py), with the messages that it was given and has handed out."""
import calls
from frames import PREFACE, read_frame, split_frame
from endpoint import Model
from receive import end_word, take, take_unprocessed
from text import CODES, field_lines, last_text


class EndRefused(Exception):
    """A call of a client or a server is refused by this rule."""


class Half:
    """A client or a server, and the pipe to it."""

    def __init__(self, side, config, marks):
        self.side = side
        self.end = Model(side, config, marks)
        self.pipe = b""  # octets that the other end has put out and that were not delivered yet
        self.unparsed = b"" if side == "client" else None  # None until the preface has come
        self.came = b""
        self.accepted = {}  # messages that were accepted, by stream
        self.open = {}  # of those that more may follow of, how many octets their heads say are left, or None
        self.waiting = {}  # of these, the bodies and trailers that were not sent yet
        self.turn, self.rest = 0, 0  # with which stream the next pass of `pump_some` begins, and what its share has left
        self.handed = []  # lines of what was handed out and not shown yet
        self.count = 0  # how many events were handed out
        self.heads, self.whole = set(), set()  # streams whose head, or whose end, was handed out
        self.requests = {}
        self.unprocessed = set()
        self.reset_here = set()

    # Calls.

    def call(self, name, *words):
        try:
            answer = calls.make(self.end, name, *words)
        except calls.Refused as refused:
            raise EndRefused(f"E2 Conn: {refused}") from None
        self.forget_over()
        return answer

    def refuse_if_failed(self):
        """Nothing is sent of a connection that has failed, and nothing is given back."""
        if self.end.failed is not None:
            raise EndRefused(f"E2 Conn: {calls.REFUSALS[1]}")

    def forget_over(self):
        """What waits on a stream that is over is forgotten, and that a message is open there."""
        self.waiting = {number: left for number, left in self.waiting.items() if number in self.end.streams}
        self.open = {number: left for number, left in self.open.items() if number in self.end.streams}

    def keep(self, number, message):
        self.accepted[number] = message
        if not message.is_alone and number in self.end.streams:
            self.waiting[number] = [message.body, message.trailers]

    def request(self, message):
        if message.broken:
            raise EndRefused(f"E1 BadMessage: {message.broken}")
        number = self.call("open", message.head, message.is_alone)
        self.keep(number, message)
        return number

    def has_no_body(self, number, message):
        """Whether the response to the request on a stream has none, where one may be given now."""
        if number not in self.heads or number not in self.end.streams:
            raise EndRefused("E3 NotAsked")
        if number in self.accepted:
            raise EndRefused("E4 Answered")
        return message.is_bodiless or self.requests[number][0][1] == b"HEAD"

    def respond(self, number, message):
        is_bodiless = self.has_no_body(number, message)
        broken = message.broken or ("M11 BadLength" if message.body and is_bodiless else None)
        if broken:
            raise EndRefused(f"E1 BadMessage: {broken}")
        self.call("fields", number, message.head, message.is_alone)
        self.keep(number, message)

    # Messages that are given in parts.

    def begin(self, message):
        if message.broken:
            raise EndRefused(f"E1 BadMessage: {message.broken}")
        number = self.call("open", message.head, False)
        self.accepted[number], self.open[number] = message, message.length
        return number

    def begin_response(self, number, message):
        is_bodiless = self.has_no_body(number, message)
        if message.broken:
            raise EndRefused(f"E1 BadMessage: {message.broken}")
        self.call("fields", number, message.head, False)
        self.accepted[number], self.open[number] = message, 0 if is_bodiless else message.length

    def left_of(self, number):
        """How many octets are left of a body, or None where its head says nothing."""
        if number not in self.open:
            raise EndRefused("E3 NotAsked")
        return self.open[number]

    def body(self, number, octets, ends):
        """As many octets are sent as windows let through; the end counts where all of them are."""
        left = self.left_of(number)
        if left is not None and (len(octets) > left or (ends and len(octets) < left)):
            raise EndRefused("E1 BadMessage: M11 BadLength")
        count = self.call("data", number, octets, ends)
        message = self.accepted[number]
        message.body += octets[:count]
        if ends and count == len(octets):
            self.end_message(number)
        elif left is not None:
            self.open[number] = left - count
        return count

    def trailers(self, number, trailers, broken):
        left = self.left_of(number)
        broken = broken or ("M11 BadLength" if left else None)
        if broken:
            raise EndRefused(f"E1 BadMessage: {broken}")
        self.call("fields", number, trailers, True)
        self.accepted[number].trailers = trailers
        self.end_message(number)

    def end_message(self, number):
        self.accepted[number].form = "ended"
        self.open.pop(number, None)

    # What was given whole.

    def pump(self):
        """Sends what waits: streams in rising order, each as far as its windows go."""
        self.refuse_if_failed()
        count = 0
        for number in sorted(self.waiting):
            sent, is_full = self.pump_stream(number)
            count += sent
            if is_full:
                break
        self.forget_over()
        return count

    def pump_stream(self, number):
        """Sends what waits on a stream; how many octets of its body went, and whether the output is full."""
        left, count = self.waiting[number], 0
        try:
            while left[0]:
                sent = calls.make(self.end, "data", number, left[0], left[1] is None)
                if sent == 0:
                    return count, False
                left[0] = left[0][sent:]
                count += sent
            if left[1] is not None:
                calls.make(self.end, "fields", number, left[1], True)
        except calls.Refused as refused:
            assert refused.number == 7
            return count, True
        del self.waiting[number]
        return count, False

    def pump_some(self, most):
        """Sends shares, one pass: the streams from the turn up, and then those below it. That at which it ended comes
        first in the next one, with what is left of its share."""
        self.refuse_if_failed()
        most, count, first, rest, self.rest = max(min(most, 65_536), 1), 0, self.turn, self.rest, 0
        for number in sorted(self.waiting, key=lambda number: (number < first, number)):
            size = min(rest, most) if number == first and rest else most
            sent, halted = self.share(number, size)
            count += sent
            if halted is not None:
                self.end.marks.reach("a pass that is cut short")
                self.turn, self.rest = number, halted
                break
            if number == first and rest:
                self.end.marks.reach("the rest of a share")
            if number in self.waiting and number in self.end.streams:
                self.end.marks.reach("a share of what waits")
        self.forget_over()
        return count

    def share(self, number, most):
        """The next octets of a body, so many at most, and the trailers once none are left; how many octets went, and
        how many its share has left where the pass ends there, since no stream could send more."""
        left, count, end, rest = self.waiting[number], 0, self.end, most
        try:
            if left[0]:
                octets = left[0][:most]
                ends = left[1] is None and octets == left[0]
                count = calls.make(end, "data", number, octets, ends)
                left[0] = left[0][count:]
                if count < len(octets):
                    return count, most - count if end.waiting >= 65_536 or end.send <= 0 else None
                if left[0]:
                    return count, None
            rest = 0
            if left[1] is not None:
                calls.make(end, "fields", number, left[1], True)
        except calls.Refused as refused:
            assert refused.number == 7
            return count, rest
        del self.waiting[number]
        return count, None

    def release_all(self):
        self.refuse_if_failed()
        for number in list(self.end.streams):
            stream = self.end.streams.get(number)
            if stream and stream.owed:
                self.call("release", number, stream.owed)

    def put_out(self, count):
        """Output, so many octets at most: one call, before which what is due is returned."""
        return calls.put_out(self.end, count)

    # What comes.

    def deliver(self, count):
        """So many octets at most of the pipe; a connection that has failed takes none."""
        if self.end.failed is not None:
            self.end.marks.reach("a delivery to an end that has failed")
            return f"fault {CODES[self.end.failed]}"
        octets, self.pipe = self.pipe[:count], self.pipe[count:]
        self.came += octets
        if self.unparsed is None:
            if len(self.came) < len(PREFACE):
                return len(octets)
            assert self.came.startswith(PREFACE)
            self.came, self.unparsed = self.came[len(PREFACE):], b""
        while (parts := split_frame(self.came)):
            head, payload, self.came = parts
            self.hand_out(take(self.end, read_frame(head, payload)))
            while (number := self.end.unprocessed()) is not None:
                self.hand_out(take_unprocessed(self.end, number))
        self.forget_over()
        return len(octets)

    def hand_out(self, event):
        if event is None:
            return
        assert event.kind != "fault", event.lines
        self.count += 1
        number = event.stream
        match event.kind:
            case "fields":
                kind = "trailers" if number in self.heads else "head"
                if number not in self.heads:
                    self.requests[number] = event.fields
                self.heads.add(number)
                self.handed += [f"{kind} {number}{end_word(event.end)}", *field_lines(event.fields)]
                self.end.marks.reach(f"{kind} handed out")
            case "data":
                self.handed.append(f"body {number}{end_word(event.end)}{last_text(event.body)}")
                self.end.marks.reach("body handed out")
            case kind:
                assert kind != "reset" or event.whose == "theirs", event.lines
                self.handed += event.lines
                self.end.marks.reach(f"{kind} handed out")
        if event.kind in ("fields", "data") and event.end:
            self.whole.add(number)
        if event.kind == "unprocessed":
            self.unprocessed.add(number)

    def is_quiet(self):
        end = self.end
        if end.failed is not None:
            return False
        is_owed = end.due or any(stream.owed for stream in end.streams.values())
        return not end.waiting and not is_owed and not any(map(self.could_go, self.waiting))

    def could_go(self, number):
        body = self.waiting[number][0]
        return not body or min(self.end.streams[number].send, self.end.send) > 0


class Joined:
    """Both ends. An act answers a line."""

    def __init__(self, client, server, marks):
        self.halves = {"client": Half("client", client, marks), "server": Half("server", server, marks)}
        self.seen = set()

    def half(self, side):
        return self.halves[side]

    def other(self, side):
        return self.halves["server" if side == "client" else "client"]

    def act(self, name, side, *words):
        """Makes an act; EndRefused where it is refused."""
        half = self.half(side)
        match name:
            case ("request" | "respond" | "begin" | "begin_response" | "body" | "trailers" | "pump" | "pump_some"
                  | "release_all"):
                return getattr(half, name)(*words)
            case "move":
                octets = half.put_out(*words)
                self.other(side).pipe += octets
                return len(octets)
            case "deliver":
                return half.deliver(*words)
        answer = half.call(name, *words)
        if name == "reset":
            half.reset_here.add(words[0])
        return answer

    def is_quiet(self):
        return all(half.is_quiet() and not half.pipe for half in self.halves.values())

    def lines(self):
        """What the command `ends` answers (crates/h2_case_ends/src/pair.rt): what has changed."""
        lines, before = [], self.seen
        for side, half in self.halves.items():
            end = half.end
            piped = len(self.other(side).pipe)
            room = end.send if end.failed is None else "none"
            lines.append(f"{side} {len(half.accepted)} {half.count} {end.waiting} {piped} {room}")
        self.seen = set(lines)
        return [line for line in lines if line not in before] + (["quiet"] if self.is_quiet() else [])

    def was_disturbed(self, number):
        """Whether a stream was reset at either end, or not processed."""
        client, server = self.halves.values()
        return number in client.reset_here | server.reset_here | client.unprocessed
