"""What a served connection makes of requests, from the words of docs/api/h2_server.md
(`Connection`, `Handler`, `Reply`, `Part`).

Its exchanges are a request and a response each, by stream. A response is at a stage: `asked` (none
was given); `answers`, `status`, `begins`, `trails` and `resets`, which wait to be sent; `parts`, or
`later` where the handler had no part; `given`; and `gone`, a stream that was reset."""
from joined import EndRefused
from messages import Message
from served_end import Server
from served_handler import STATUS, TRAILERS, Failed, message

SHARE = 16_384  # octets of each whole body in a turn
MOST_PART = 65_536
WAITING = ("answers", "status", "begins", "trails", "resets")
FIRST_WINDOW = 65_535


class Stop(Exception):
    """The connection cannot go on: it has failed with this code."""


class Exchange:
    """A request and its response."""

    def __init__(self, whole, to_head):
        self.whole, self.to_head, self.refused = whole, to_head, False
        self.work = self.since = None
        self.stage, self.what = "asked", None
        self.given = 0  # octets of the body of a whole response
        self.has_waited = False  # for the marks

    def set(self, stage, what=None):
        self.stage, self.what = stage, what

    def second(self):
        """Another response, or a fault, once there is one."""
        if self.stage not in ("given", "gone"):
            self.set("resets", 2)

    def take(self, reply, marks):
        """A reply of the handler, or of a call."""
        kind, what = reply
        is_asked = self.stage == "asked"
        if kind == "later":
            if is_asked and self.whole:
                marks.reach("no response")
                self.set("status", 500)
        elif kind == "reset":
            if self.stage != "gone":
                self.set("resets", what)
        elif kind == "fault" and is_asked:
            self.set("status", 500)
        elif kind != "deferred" and not is_asked:
            marks.reach("a second response" + " is ignored" * (self.stage == "given"))
            self.second()
        elif kind != "deferred":
            self.refused = kind == "refuse"
            self.set("begins" if kind == "parts" else "answers", what)
            self.given = len(what.body)


class Exchanges:
    """The open exchanges of a server, with their handler."""

    def __init__(self, config, handler, marks):
        self.server, self.handler, self.marks = Server(config, marks), handler, marks
        self.kept = {}  # by stream, in rising order
        self.asked = 0  # the stream whose handler was asked last for a part
        self.more = False  # whether more may be sent of whole bodies
        self.requests = self.body = self.sent = self.faults = 0

    @property
    def held(self):
        return sum(one.given + (one.work.held if one.work else 0) for one in self.kept.values())

    def unused(self, number=None):
        """Octets of bodies that the handler has not used: of one stream, or of all."""
        return sum(one.work.unused for other, one in self.kept.items()
                   if one.work and number in (None, other))

    # What comes.

    def note(self, event):
        """Tells the handler of an event. Whether it was a part of a request."""
        number = event.stream
        match event.kind:
            case "head":
                self.begin(number, event)
            case "body":
                self.body += event.count
                tell = lambda work: self.handler.body(work, event.count, event.end)
                self.go_on(number, event.end, tell)
            case "trailers":
                self.go_on(number, True, self.handler.trailers)
            case "reset":
                self.faults += event.whose == "ours"
                self.end(number, f"reset {event.code} {event.whose}")
                return False
            case _:
                return False
        return True

    def begin(self, number, event):
        fields = event.fields
        exchange = self.kept[number] = Exchange(event.end, fields[0][1] == b"HEAD")
        self.requests += 1
        authority = next((value for name, value, _ in fields if name == b":authority"), b"")
        if b"@" in authority:
            self.marks.reach("an authority with a user")
            exchange.set("status", 400)
            return
        exchange.work, reply = self.handler.head(fields, event.end)
        exchange.take(reply, self.marks)

    def go_on(self, number, end, tell):
        exchange = self.kept.get(number)
        if exchange is None:
            return
        exchange.whole = exchange.whole or end
        if exchange.refused or exchange.work is None:
            self.marks.reach("a part that is dropped")
            return
        exchange.take(tell(exchange.work), self.marks)

    def take(self, tokens, most):
        """Takes octets, until the output is full or so many parts were told. `tokens` has them: how
        many, and the frame that they end."""
        told, self.more = 0, True
        while tokens.left() and told < most and not self.server.is_full():
            count, frame = tokens.next()
            self.server.note_octets(count, frame)
            event = self.server.take(frame) if frame else None
            if event is not None and event.kind == "fault":
                raise Stop(event.code)
            if event is not None and self.note(event):
                told += 1
                self.answer(event.stream)
        if tokens.left():
            self.marks.reach("input is kept" + self.server.is_full() * " since the output is full")

    # What is sent.

    def answer(self, number):
        """Sends the response as far as it can go now, and what follows if it breaks a rule."""
        self.more = True
        if number not in self.kept:
            return
        self.give(number)
        if self.kept[number].stage in ("status", "resets"):
            self.give(number)
        exchange = self.kept[number]
        if exchange.stage in WAITING:
            exchange.has_waited = True
            self.marks.reach(f"{exchange.stage} waits")
        self.end_if_over(number)

    def give(self, number):
        """Hands over what is next of a response; it stays where the output is full (C7)."""
        exchange = self.kept[number]
        stage, what = exchange.stage, exchange.what
        if stage not in WAITING:
            return
        try:
            self.hand_over(number, exchange, stage, what)
        except EndRefused as refused:
            rule = str(refused)
            if "C7" in rule:
                return
            if "E1" not in rule:  # the stream is over
                return exchange.set("given")
            self.marks.reach(f"{stage} {rule[3:]}")
            is_head = stage in ("answers", "begins")
            return exchange.set("status", 500) if is_head else exchange.set("resets", 2)
        if exchange.has_waited:
            self.marks.reach(f"{stage} goes that has waited")

    def hand_over(self, number, exchange, stage, what):
        server = self.server
        match stage:
            case "answers":
                body = b"" if exchange.to_head else what.body
                server.respond(number, Message(what.head, what.broken, body))
            case "status":
                server.respond(number, message(what, 0))
            case "begins" if exchange.to_head:
                server.respond(number, Message(what.head, what.broken))
            case "begins":
                server.begin_response(number, Message(what.head, what.broken, form="begun"))
                return exchange.set("parts")
            case "trails":
                server.trailers(number, TRAILERS, None)
            case "resets":
                server.call("reset", number, what)
                return exchange.set("gone", what)
        exchange.set("given")

    def send_some(self, waits):
        """Queues what can be sent, in the order that `Connection::advance` says."""
        if waits or self.is_credit_due():
            self.release()
        else:
            self.marks.reach("credit is held back for now")
        self.give_waiting()
        if self.more:
            count = self.server.pump_some(SHARE)
            self.sent += count
            self.more = count > 0 or self.server.is_full()
        self.ask()
        self.settle()
        if waits:
            self.release()

    def give_waiting(self):
        """The responses that wait, in the order of their streams, until the output is full."""
        numbers = [number for number, one in self.kept.items() if one.stage in WAITING]
        left = list(numbers)
        for number in numbers:
            if self.server.is_full():
                break
            left.pop(0)
            self.answer(number)
        if len(numbers) > 1 and not left:
            self.marks.reach("several that wait go in one turn")
        if left and left != numbers:
            self.marks.reach("some that wait go and the others wait again")
        if len(left) >= 8:
            self.marks.reach("eight or more wait for the output")
        if left and next(iter(self.kept)) < left[0]:
            self.marks.reach("one waits above one that does not")

    def is_credit_due(self):
        """Used octets are as many as may still be sent, or both together fewer than 65,535."""
        end = self.server.end
        used = sum(stream.owed for stream in end.streams.values()) - self.unused()
        return used > 0 and (used >= end.receive or used + end.receive < FIRST_WINDOW)

    def release(self):
        """Returns credit for what the handler has used."""
        end = self.server.end
        for number in list(end.streams):
            count = end.streams[number].owed - self.unused(number)
            if count > 0 and not self.server.is_full():
                self.marks.reach("credit for a body" + (self.unused(number) > 0) * " in part")
                self.server.call("release", number, count)

    def next_asked(self):
        """The stream whose handler is asked next for a part, and for how many octets."""
        end = self.server.end
        if self.server.is_full():
            return None
        rooms = [(number, min(end.streams[number].send, end.send))
                 for number, one in self.kept.items() if one.stage == "parts"]
        rooms = [(number, room) for number, room in rooms if room > 0]
        return min(rooms, key=lambda one: (one[0] <= self.asked, one[0]), default=None)

    def ask(self):
        """One part of one response."""
        if (asked := self.next_asked()) is None:
            return
        number, room = asked
        if number < self.asked:
            self.marks.reach("the first is asked again")
        self.asked = number
        exchange = self.kept[number]
        try:
            kind, what = self.handler.part(exchange.work, min(room, MOST_PART))
            self.send_part(number, exchange, kind, what)
        except Failed:
            exchange.set("resets", 2)
        self.answer(number)

    def send_part(self, number, exchange, kind, what):
        if kind == "later":
            return exchange.set("later")
        if kind == "trailers":
            return exchange.set("trails")
        try:
            self.sent += self.server.body(number, what, kind == "last")
        except EndRefused as refused:
            assert "E1" in str(refused), refused
            return exchange.set("resets", 2)
        exchange.set("given" if kind == "last" else "parts")

    def settle(self):
        """Asks clients to stop whose request was refused, and ends what is over."""
        before = len(self.kept)
        for number in list(self.kept):
            exchange = self.kept[number]
            is_sent = number in self.server.end.streams and not self.server.unsent(number)
            if exchange.stage == "given" and exchange.refused and is_sent:
                exchange.set("resets", 0)
                self.give(number)
                exchange.has_waited = exchange.stage == "resets"
                self.marks.reach("a client is asked to stop" + " later" * exchange.has_waited)
            self.end_if_over(number)
        for count in (1, 2, 5):
            if before - len(self.kept) >= count:
                self.marks.reach(f"{count} or more end once their bodies have gone")

    def end_if_over(self, number):
        exchange = self.kept[number]
        if exchange.stage == "gone":
            self.end(number, f"reset {exchange.what} ours")
        elif exchange.stage == "given" and number not in self.server.end.streams:
            self.end(number, "done")

    def end(self, number, cause):
        exchange = self.kept.pop(number, None)
        if exchange is None:
            return
        self.note_end(number, exchange, cause)
        if exchange.work is not None:
            self.handler.over(exchange.work, cause)

    def note_end(self, number, exchange, cause):
        """For the marks: which others are open, and what is dropped."""
        bodies = [other for other in self.kept if self.server.unsent(other)]
        if cause == "done" and any(other > number for other in bodies):
            self.marks.reach("one ends below one whose body waits")
        if cause == "done" and any(other < number for other in bodies):
            self.marks.reach("one ends above one whose body waits")
        if cause.endswith("theirs") and exchange.stage in WAITING:
            self.marks.reach("a client resets a stream whose response waits")
        if cause.endswith("theirs") and exchange.stage == "given":
            self.marks.reach("a client resets a stream whose response was given")

    def end_all(self):
        for number in list(self.kept):
            self.end(number, "closed")

    # Calls.

    def respond(self, number, reply):
        """Why the call is refused, or None."""
        if reply[0] == "deferred":
            return "no response"
        if number not in self.kept:
            return "over"
        exchange = self.kept[number]
        if exchange.stage != "asked":
            return "answered"
        self.more = True
        exchange.take(reply, self.marks)
        self.note_call("a response is given", number)
        return None

    def reset(self, number, code):
        if number not in self.kept:
            return "over"
        exchange = self.kept[number]
        self.more = True
        if exchange.stage in WAITING:
            self.marks.reach("a reset of a response that waits")
        if self.server.unsent(number):
            self.marks.reach("a reset of a body that waits")
        exchange.take(("reset", code), self.marks)
        exchange.given = 0  # what waits of a response is dropped
        self.note_call("a reset is asked for", number)
        return None

    def note_call(self, what, number):
        """For the marks: what comes while the output is full, and on which streams others wait."""
        if not self.server.is_full():
            return
        self.kept[number].has_waited = True
        self.marks.reach(f"{what} while the output is full")
        waiting = [other for other, one in self.kept.items()
                   if one.stage in WAITING and other != number]
        if waiting and number < min(waiting):
            self.marks.reach("it waits below all others that wait")
        if waiting and number > max(waiting):
            self.marks.reach("it waits above all others that wait")

    def expire(self, limit, now):
        """A response that was deferred for too long is a 504."""
        for number, exchange in self.kept.items():
            if not exchange.whole or exchange.stage != "asked":
                continue
            if exchange.since is None:
                exchange.since = now
            elif limit and now - exchange.since >= limit:
                exchange.set("status", 504)
                self.more = True
                self.handler.told.add(f"late {number}")
                self.note_call("a response is late", number)
