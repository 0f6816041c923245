"""A served connection with its phases, its times and its turns, and the host and the client of a
case (docs/api/h2_server.md; the head of crates/h2_case_server/src/server.rt)."""
import collections
from joined import EndRefused
from served import Exchanges, Stop
from served_handler import Handler
from served_watch import Watch

FRAME = 16_393  # octets of a frame whose payload has 16,384
FULL_READ = 16_384  # a read of fewer octets has read all that there is
MOST_TOLD = 16  # parts of requests of a turn
MOST_WRITTEN = 65_536  # octets of the writes of a turn
MOST_WRITES = 16
OPENING = 33  # octets of the preface and of the head of a frame
STEP = 1_000  # milliseconds of a step of time
CODES = {"opening": 4}  # codes with which what is late fails, and else 11


class Octets:
    """Octets that are under way: how many, and the frames that they end."""

    def __init__(self, tokens=()):
        self.tokens = collections.deque(tokens)

    def left(self):
        return len(self.tokens)

    def next(self):
        return self.tokens.popleft()

    def size(self):
        return sum(count for count, _ in self.tokens)

    def read(self, most):
        """The first octets, so many at most."""
        piece = Octets()
        while self.tokens and most:
            count, frame = self.tokens.popleft()
            part = min(count, most)
            most -= part
            if part < count:
                self.tokens.appendleft((count - part, frame))
            piece.tokens.append((part, frame if part == count else None))
        return piece


class Connection:
    """A served connection. Each call is followed by what `note` does."""

    def __init__(self, config, limits, marks):
        self.marks, self.handler = marks, Handler(marks)
        self.exchanges = Exchanges(config, self.handler, marks)
        self.server, self.end = self.exchanges.server, self.exchanges.server.end
        self.watch, self.limits = Watch(limits), limits
        self.kept = Octets()  # input that is kept
        self.used = 0  # octets before these that were kept too, and are counted until all are used
        self.reads, self.writes, self.has_ended, self.took = False, True, False, False
        self.phase, self.why, self.since = "open", None, 0
        self.went = self.moved = 0

    def is_down(self):
        return self.phase in ("failing", "over")

    def is_over(self):
        return self.phase == "over"

    def wants_read(self):
        return not (self.has_ended or self.kept.left() or self.is_down() or self.server.is_full())

    def read_size(self):
        return 2 * FRAME - min(self.server.held, FRAME)

    def wants_turn(self):
        if self.is_down() or self.server.is_full():
            return False
        return self.kept.left() > 0 or self.may_send()

    def may_send(self):
        return self.exchanges.more or self.exchanges.next_asked() is not None

    def is_ready(self):
        writes, reads = self.writes and self.end.waiting > 0, self.reads and self.wants_read()
        return self.is_over() or writes or reads or self.wants_turn()

    def held(self):
        if self.is_over():
            return 0
        part = self.server.held if self.end.failed is None else 0
        kept = self.used + self.kept.size()
        return self.end.waiting + part + self.exchanges.held + kept

    # Calls.

    def set_ready(self, reads, writes):
        self.reads, self.writes = self.reads or reads, self.writes or writes
        self.ask_again()
        self.note()

    def ask_again(self):
        for exchange in self.exchanges.kept.values():
            if exchange.stage == "later":
                exchange.set("parts")

    def receive(self, piece):
        self.took = self.took or not self.kept.left()
        self.reads = self.reads and piece.size() >= FULL_READ
        if not self.is_down():
            self.used = 0
            self.make(lambda: self.exchanges.take(piece, self.most_told()))
        if not self.is_down():
            self.kept = piece
        self.note()

    def receive_none(self):
        self.reads = False
        self.exchanges.more = True  # credit that was held back is returned in the next turn
        self.note()

    def receive_end(self):
        self.reads, self.has_ended = False, True
        self.note()

    def advance(self):
        """The turn: input that was kept, and what can be sent."""
        waits, self.took = self.kept.left() and not self.took, False
        if waits and not self.is_down():
            self.make(self.take_kept)
        if not self.is_down():
            self.make(lambda: self.exchanges.send_some(not self.reads))
            self.server.put_out(0)  # what is due is returned
        self.note()

    def take_kept(self):
        before = self.kept.size()
        self.exchanges.take(self.kept, self.most_told())
        self.used = self.used + before - self.kept.size() if self.kept.left() else 0

    def most_told(self):
        is_near = self.watch.is_near(self.counts())
        if is_near:
            self.marks.reach("one part a turn since a flood is near")
        return 1 if is_near else MOST_TOLD

    def make(self, step):
        try:
            step()
        except Stop as stop:
            self.fail(stop.args[0], f"failed {stop.args[0]}")

    def written(self, count):
        """So many octets of the output have gone."""
        if not self.is_over():
            self.went += len(self.server.put_out(count))
        self.note()

    def written_none(self):
        self.writes = False
        self.note()

    def lose(self):
        if not self.is_over():
            self.finish("lost")

    def tick(self, now):
        self.watch.pass_to(now, self.counts())
        self.ask_again()
        self.end_late()
        self.note()
        self.exchanges.expire(self.limits["deferred"], self.watch.time)

    def leave(self):
        self.go_away("asked")

    # The end.

    def fail(self, code, why):
        if self.end.failed is None:
            self.server.call("fail", code)
        self.exchanges.end_all()
        self.kept, self.used = Octets(), 0
        self.phase, self.why, self.since = "failing", why, self.watch.time
        self.marks.reach(f"ends: {why}")

    def finish(self, why):
        if self.exchanges.kept:
            self.marks.reach("closed with open exchanges")
        self.exchanges.end_all()
        self.kept, self.used = Octets(), 0
        self.phase, self.why = "over", why
        self.marks.reach(f"over: {why}")

    def go_away(self, why):
        if self.phase != "open":
            return
        try:
            self.server.call("go_away")
        except EndRefused:
            self.marks.reach("leaves while the output is full")
            return self.fail(0, why)
        self.phase, self.why, self.since = "ending", why, self.watch.time
        self.marks.reach(f"ends: {why}")

    def end_late(self):
        if self.phase in ("ending", "failing"):
            if self.watch.time - self.since >= self.limits["closing"]:
                self.marks.reach("its time to close is over")
                self.finish(self.why)
        elif self.phase == "open" and (late := self.watch.overdue()) is not None:
            if late == "idle":
                return self.go_away(late)
            self.fail(CODES.get(late, 11), late)

    def note(self):
        """What follows from each call."""
        if self.phase == "open":
            return self.note_open()
        if self.is_over():
            return
        moved = self.exchanges.sent + self.exchanges.body
        if moved - self.moved >= self.limits["least_closing"]:
            self.marks.reach("its time to close starts anew")
            self.moved, self.since = moved, self.watch.time
        if self.server.is_drained():
            self.finish(self.why)
        elif self.phase == "ending" and (flood := self.watch.flood(self.counts())) is not None:
            self.fail(11, flood)

    def note_open(self):
        self.watch.note(self.activity())
        if (flood := self.watch.flood(self.counts())) is not None:
            return self.fail(11, flood)
        waits = self.end.waiting or self.kept.left() or self.may_send()
        is_pending = any(one.stage == "later" or (one.whole and one.stage == "asked")
                         for one in self.exchanges.kept.values())
        if self.has_ended and is_pending and not waits:
            self.marks.reach("a client that has ended is answered later")
        if self.has_ended and not waits and not is_pending:
            self.finish("ended")

    def counts(self):
        end = self.end
        replies = 17 * end.pings_read + 9 * end.settings_read
        return {"resets": end.resets_read, "empty": end.empty_read,
                "refused": self.exchanges.faults, "replies": replies}

    def activity(self):
        server, exchanges = self.server, self.exchanges
        frames, in_block = server.place - server.held, self.end.partial is not None
        opened = frames >= OPENING
        kept = exchanges.kept.values()
        return {
            "opening": (not opened, 0),
            "frame": (opened and (server.held > 0 or in_block), 0 if in_block else frames),
            "body": (any(not one.whole for one in kept), exchanges.body),
            "writing": (self.end.waiting > 0, self.went),
            "answering": (any(one.stage != "asked" for one in kept), exchanges.sent),
            "idle": (not kept, exchanges.requests),
        }


class Host:
    """A host with one connection, and its client."""

    def __init__(self, config, limits, marks):
        self.connection = Connection(config, limits, marks)
        self.marks = marks
        self.unread, self.has_ended = Octets(), False
        self.takes = None  # how many octets it takes from now on; None is all
        self.taken = bytearray()
        self.now = 0
        self.over, self.is_gone = None, False  # why the connection is over

    def is_up(self):
        return self.over is None and not self.is_gone

    # What the client does.

    def queue(self, frames):
        self.unread.tokens.extend((size, frame) for size, frame in frames)
        if self.is_up():
            is_readable = self.has_ended or self.unread.left() > 0
            self.connection.set_ready(is_readable, self.takes is None or self.takes > 0)

    def send(self, frames):
        self.queue(frames)
        self.give_turns()

    def take(self, count):
        self.takes = count
        self.send([])

    def end(self):
        self.has_ended = True
        self.send([])

    def close(self):
        self.connection.lose()
        self.is_gone = True

    def ask(self, what, *words):
        """Something is asked of the connection; why it is refused is told."""
        if self.is_up():
            self.connection.tick(self.now)
            of = self.connection if what == "leave" else self.connection.exchanges
            refused = getattr(of, what)(*words)
            if refused:
                self.connection.handler.told.add(f"refused {refused}")
                self.marks.reach(f"refused {refused}")
        self.give_turns()

    def pass_to(self, to, at_once=False):
        while self.now < to:
            self.now = to if at_once else min(self.now + STEP, to)
            if self.is_up():
                self.connection.tick(self.now)
            self.give_turns()

    # Turns.

    def give_turns(self, most=1_000_000):
        """How many turns were given."""
        for count in range(most):
            if not self.is_up() or not self.connection.is_ready():
                return count
            self.give_turn()
            if self.connection.is_over():
                self.over = self.connection.why
        return most

    def give_turn(self):
        """A read, the act, and writes."""
        connection = self.connection
        if connection.wants_read():
            self.read()
        if not connection.is_over():
            connection.advance()
        self.write()

    def read(self):
        connection = self.connection
        if not self.unread.left():
            return connection.receive_end() if self.has_ended else connection.receive_none()
        connection.receive(self.unread.read(connection.read_size()))
        if self.has_ended and not connection.is_over():
            connection.set_ready(True, False)

    def write(self):
        connection, left = self.connection, MOST_WRITTEN
        for _ in range(MOST_WRITES):
            length = connection.end.first_pieces(left)
            count = length if self.takes is None else min(length, self.takes)
            if length == 0:
                return
            self.taken += connection.end.output[:count]
            if self.takes is not None:
                self.takes -= count
            if count:
                left -= count
                connection.written(count)
            if connection.is_over():
                return
            if count < length:
                return connection.written_none()

    def output(self):
        taken, self.taken = bytes(self.taken), bytearray()
        return taken

    def why(self):
        if self.is_gone:
            return "gone"
        if self.over is not None:
            return f"over {self.over}"
        return f"ending {self.connection.why}" if self.connection.why else "up"
