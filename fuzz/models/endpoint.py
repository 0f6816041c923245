"""What one end of a connection must do, from the words of RFC 9113 and docs/ENDPOINT.md.

Here are its numbers, and how they change; receive.py has what it makes of frames, and calls.py what it
makes of calls. It knows nothing of the library, and takes no value from it."""
from frames import GREATEST, PREFACE, four, frame_octets
from hpack import Decoder, Encoder

FIRST_WINDOW = 65_535  # section 6.9.2
FULL = 65_536  # waiting octets from which calls that write are refused, and credit is held back
MOST_WAITING = 262_144  # waiting octets that no reply may pass
MOST_RESETS = 1_000
MAX_LIST = 65_536
MAX_BLOCK = 65_552
FIRST_FRAME = 16_384  # octets of a payload that every end reads (section 6.5.2)
MAX_SENT = 65_536  # octets of a payload that an end sends at most
MAX_DATA = 65_536  # octets of a body that one call sends at most


class Fault(Exception):
    """The connection fails with this code, and for this reason."""

    def __init__(self, code, why):
        super().__init__(why)
        self.code, self.why = code, why


class Config:
    """An end's own values of SETTINGS."""

    def __init__(self, table, window, streams, frame=FIRST_FRAME):
        self.table, self.window, self.streams, self.frame = table, window, streams, frame

    def text(self):
        frame = "" if self.frame == FIRST_FRAME else f" frames {self.frame}"
        return f"{self.table} {self.window} {self.streams}{frame}"


class Stream:
    """An active stream: what each side may send, what is owed, and which sides have ended it."""

    def __init__(self, number, send, receive):
        self.number, self.send, self.receive = number, send, receive
        self.owed, self.ended_in, self.ended_out = 0, False, False


class Model:
    """An end of a connection."""

    def __init__(self, role, config, marks):
        self.role, self.config, self.marks = role, config, marks
        self.asked = config  # own settings that await their acknowledgment
        self.own_window = FIRST_WINDOW  # the own initial window in force
        self.own_frame = FIRST_FRAME  # the own greatest frame in force
        self.written_frame = FIRST_FRAME  # the one that was sent last
        self.peer_frame = FIRST_FRAME  # the peer's
        self.failed = self.why = None  # the code, and the reason as crates/h2_conn/src/why.rt names it
        self.output = bytearray()
        self.ends = []  # how many octets of output precede the end of each frame that waits
        self.is_cut = False  # whether the first frame that waits has lost octets already
        self.due = self.made_due = 0
        self.streams = {}  # active ones, by number, in rising order
        self.reset = {}  # numbers that this end has reset, in their order
        self.highest = 0  # the greatest number that was used
        self.processed = 0  # the greatest of the peer's that was processed
        self.goaway_sent = self.goaway_read = None
        self.send = self.receive = FIRST_WINDOW
        self.begun = False  # the peer's first SETTINGS have come
        self.ping = None
        self.window = FIRST_WINDOW  # the peer's initial window
        self.max_streams = None  # what the peer allows
        self.encoder, self.decoder = Encoder(), Decoder()
        self.partial = None  # the stream, the end flag and the octets of a block that has begun
        self.resets_read = self.empty_read = 0  # frames of the peer: RST_STREAM, and those that say nothing
        self.pings_read = self.settings_read = 0  # those that are to be answered
        self.last_flow = 0  # what the last DATA took of the windows
        self.open_connection()

    @property
    def is_server(self):
        return self.role == "server"

    @property
    def waiting(self):
        return len(self.output)

    @property
    def limit(self):
        """The greatest payload that is read: of what is in force, and of what awaits that (section 6.5.3)."""
        return max(self.own_frame, self.asked.frame if self.asked else 0)

    @property
    def most(self):
        """The greatest payload that is sent."""
        return min(MAX_SENT, self.peer_frame)

    def open_connection(self):
        """Section 3.4; the opening pairs are those of docs/ENDPOINT.md, "Settings"."""
        config = self.config
        second = (3, config.streams) if self.is_server else (2, 0)
        if not self.is_server:
            self.append(PREFACE)
        self.write_settings([(1, config.table), second, (4, config.window), (6, MAX_LIST)], config.frame)

    def append(self, octets):
        self.output += octets
        self.ends.append(len(self.output))

    def write(self, kind, flags, stream, payload=b""):
        self.append(frame_octets(kind, flags, stream, payload))

    def write_settings(self, pairs, frame):
        """The greatest frame is named where it differs from the one that was sent last."""
        if frame != self.written_frame:
            pairs, self.written_frame = [*pairs, (5, frame)], frame
            self.marks.reach("frame size named")
        payload = b"".join(name.to_bytes(2, "big") + four(value) for name, value in sorted(pairs))
        self.write(4, 0, 0, payload)

    def reply(self, kind, flags, stream, payload=b""):
        """Writes a frame that answers the peer, or fails where too much would wait (section 10.5)."""
        if self.waiting + 9 + len(payload) > MOST_WAITING:
            self.marks.reach("too much output")
            raise Fault(11, "TooMuchOutput")
        self.write(kind, flags, stream, payload)

    def take_out(self, count):
        """The first octets of the output."""
        octets = bytes(self.output[:count])
        del self.output[:count]
        if octets:
            self.is_cut = len(octets) not in self.ends
        self.ends = [end - len(octets) for end in self.ends if end > len(octets)]
        return octets

    def state(self, number):
        """Section 5.1: idle, active, ignored (closed by this end), closed."""
        if number in self.streams:
            return "active"
        if number % 2 == 0 or number > self.highest:
            return "idle"
        above = self.is_server and self.goaway_sent is not None and number > self.goaway_sent
        return "ignored" if above or number in self.reset else "closed"

    def open(self, number):
        self.streams[number] = Stream(number, self.window, self.own_window)
        return self.streams[number]

    def close(self, number):
        """What a stream owes is due once it is over."""
        stream = self.streams.pop(number, None)
        if stream:
            self.made_due += stream.owed

    def close_if_ended(self, stream):
        if stream.ended_in and stream.ended_out:
            self.close(stream.number)

    def stream_error(self, number, code):
        """This end resets a stream, for a fault of the peer (section 5.4.2)."""
        if len(self.reset) >= MOST_RESETS:
            raise Fault(11, "TooManyResets")
        self.reply(3, 0, number, four(code))
        self.count_reset(number)

    def count_reset(self, number):
        self.close(number)
        self.reset[number] = True

    def return_made_due(self):
        """Only a step that has made some due returns credit, where little enough waits."""
        if self.made_due:
            self.due += self.made_due
            self.made_due = 0
            self.marks.reach("credit returned" if self.return_due() else "credit held back")

    def return_due(self):
        if self.due == 0 or self.waiting >= FULL:
            return False
        self.receive += self.due
        self.write(8, 0, 0, four(self.due))
        self.due = 0
        return True

    def count(self, frame):
        """Frames that cost the peer little are counted (section 10.5), and what DATA takes is known (6.1)."""
        self.resets_read += frame.kind == "reset"
        self.empty_read += frame.says_nothing()
        self.pings_read += frame.kind == "ping" and not frame.ack
        self.settings_read += frame.kind == "settings"
        if frame.kind == "data":
            self.last_flow = frame.flow()

    def fail(self, code, why):
        """A fault of the peer, or a limit."""
        self.marks.fault(code)
        self.end_with(code, why)

    def end_with(self, code, why):
        """GOAWAY is written, and nothing after it (section 5.4.1)."""
        self.failed, self.why = code, why
        self.marks.why(why)
        self.write(7, 0, 0, four(self.processed) + four(code))
        self.due = self.made_due = 0

    def unprocessed(self):
        """The least active stream that the peer does not process (section 6.8)."""
        if self.is_server or self.goaway_read is None:
            return None
        return self.next_live(self.goaway_read)

    def next_live(self, above):
        return min((number for number in self.streams if number > above), default=None)

    def is_done(self):
        """No stream is active, and none will be."""
        return not self.streams and (self.goaway_sent is not None or self.goaway_read is not None)

    def next_number(self):
        return self.highest + 2 if self.highest else 1

    def numbers(self, held):
        """The lines that the command `changes` has of all numbers (crates/h2_case_conn/src/conn.rt)."""
        if self.failed is not None:
            return [f"waiting {self.waiting}", "held 0", "due 0", "room none", "live 0", "sum 0"]
        lines = [f"waiting {self.waiting}", f"held {held}", f"due {self.due}", f"room {self.send}"]
        for number, stream in self.streams.items():
            lines += [f"room {number} {stream.send}", f"owed {number} {stream.owed}"]
        return lines + [f"live {len(self.streams)}", f"sum {sum(self.streams)}"]


def exceeds(flow, window):
    """More octets than a window has; none never are."""
    return flow > 0 and flow > window


def is_too_great(window):
    return window > GREATEST
