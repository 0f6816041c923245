"""Connections that are driven at random, as cases of group `conn`.

Each step is a frame, or a part of one, or a call, with what the model expects of it; and after it come
all numbers that have changed."""
import calls
from choose import CYCLE, GET, STEPS, Chooser, config
from frames import PREFACE, Frame
from endpoint import MOST_RESETS, Model
from receive import end_word, fault_event, take, take_unprocessed
from text import CODES, command_octets, fields_text, frames_lines, last_text, runs

LONG = 400  # characters of output that are shown at most


class Drive:
    """A connection that is driven, and the lines of its case."""

    def __init__(self, name, mood, role, random, marks):
        self.mood, self.random, self.marks = mood, random, marks
        first = config(mood, random)
        self.end = Model(role, first, marks)
        self.chooser = Chooser(mood, self.end, random)
        self.lines = [f"case {name}: {mood}, {role}", f"> new {role} {first.text()}"]
        self.last_numbers = []
        self.frame = self.octets = None  # the frame that is under way
        self.held = 0
        marks.reach(f"{mood} {role}")

    def command(self, words, answer=()):
        self.lines += ["> " + words, *answer]

    def changes(self):
        """The numbers that have changed, as the command `changes` answers them."""
        numbers = self.end.numbers(self.held)
        before = set(self.last_numbers)
        self.command("changes", [line for line in numbers if line not in before])
        self.last_numbers = numbers

    # Octets.

    def events_of(self, frame, drains):
        """What is reported of a frame, and of no frame; of streams that are not processed too."""
        end, events = self.end, []
        if end.failed is not None:
            self.marks.reach("take after failure")
            return [fault_event(end.failed)]
        while (number := end.unprocessed()) is not None:
            events.append(take_unprocessed(end, number))
            if frame is None and not drains:
                return events
        if frame is not None:
            event = take(end, frame)
            events += [event] if event else []
        while drains and end.failed is None and (number := end.unprocessed()) is not None:
            events.append(take_unprocessed(end, number))
        return events

    def take(self, frame, octets, drains, text=None):
        words = "take" if drains else "take once"
        lines = [line for event in self.events_of(frame, drains) for line in event.lines]
        self.command(f"{words} {text or command_octets(octets)}".rstrip(), lines)

    def preface(self):
        """The preface of a client, cut in two, or one with a wrong octet."""
        random, end = self.random, self.end
        if not end.is_server:
            return
        if self.mood == "wild" and random.percent(10):
            self.marks.reach("bad preface")
            end.fail(1, "BadPreface")
            self.command(f"take {(PREFACE[:-5] + b'N').hex()}", fault_event(1).lines)
            return
        self.held = random.below(24)
        self.command(f"take {PREFACE[:self.held].hex()}".rstrip())
        self.changes()
        self.command(f"take {PREFACE[self.held:].hex()}")
        self.held = 0
        self.changes()

    def take_some(self):
        """Hands a frame over, or a part of one."""
        end, random = self.end, self.random
        if end.failed is not None or (end.unprocessed() is not None and random.percent(60)):
            return self.poll()
        if self.frame is None:
            self.frame = self.chooser.frame()
            self.octets = self.frame.encoded()
        if self.held == 0 and self.frame.kind != "malformed" and random.percent(10):
            if end.unprocessed() is None:
                self.marks.reach("partial frame")
                self.held = random.below(len(self.octets))
                words = " ".join(runs(self.octets[:self.held]))
                return self.command(f"take {words}".rstrip())
        frame, octets, held = self.frame, self.octets, self.held
        self.frame, self.held = None, 0
        drains = frame.kind != "goaway" or random.percent(30)
        self.take(frame, octets, drains, " ".join(runs(octets[held:])) if held else None)

    def poll(self):
        """Hands no octets over."""
        self.take(None, b"", self.random.percent(20))

    # Calls.

    def call(self, name, *words):
        try:
            answer = calls.make(self.end, name, *words)
        except calls.Refused as refused:
            return self.command(call_text(name, words), [str(refused)])
        self.command(call_text(name, words), ["done" if answer is None else str(answer)])

    def put_out(self, count):
        """Takes output away; a long one is shown at its beginning alone, with GOAWAY at its end."""
        end = self.end
        calls.put_out(end, 0)  # what is due is returned first
        octets = bytes(end.output[:count])
        shown = shown_prefix(octets)
        if len(shown) == len(octets):
            return self.command(f"out {count}", frames_lines(calls.put_out(end, count)))
        goaway = 17 if end.failed is not None and len(octets) == end.waiting else 0
        left = len(octets) - len(shown) - goaway
        if shown:
            self.command(f"out {len(shown)}", frames_lines(calls.put_out(end, len(shown))))
        if left > 0:
            self.command(f"drop out {left}")
            calls.put_out(end, left)
        if goaway:
            self.command(f"out {goaway}", frames_lines(calls.put_out(end, goaway)))

    # Many steps at once.

    def burst(self):
        """Many frames of one kind, or many streams that are opened and reset."""
        end = self.end
        if self.mood == "flood":
            return self.flood(1 + self.random.below(2_500))
        count = 1 + self.random.below(40 if self.mood == "crowd" else 90)
        count = min(count, MOST_RESETS - len(end.reset))
        number = end.next_number()
        frames = [] if self.mood == "crowd" else [("update", number)]
        if end.is_server:
            if end.decoder.table.maximum > end.decoder.limit:
                return self.take_some()
            frames.insert(0, ("headers", number))
        else:
            count = self.open_many(count)
        if count and frames:
            self.take_each(count, frames)

    def flood(self, count):
        """The same PING, or SETTINGS, so many times."""
        frame = Frame("settings", pairs=[]) if self.random.percent(10) else self.chooser.ping()
        lines = []
        for _ in range(count):
            if self.end.failed is not None:
                break
            event = take(self.end, frame)
            lines += event.lines if event else []
        self.command(f"take {frame.encoded().hex()}x{count}", lines)

    def open_many(self, count):
        """Opens so many streams; how many are open then."""
        for done in range(count):
            try:
                answer = calls.make(self.end, "open", [GET], False)
            except calls.Refused as refused:
                self.command(call_text("open", ([GET], False)), [str(refused)])
                return done
            self.command(call_text("open", ([GET], False)), [str(answer)])
        return count

    def take_each(self, count, frames):
        """Frames so many times, on streams whose numbers are 2 higher each time."""
        kinds, last = {}, []
        for place in range(count):
            for kind, first in frames:
                if self.end.failed is not None:
                    break
                event = take(self.end, frame_of_burst(kind, first + 2 * place))
                if event:
                    kinds[event.kind] = kinds.get(event.kind, 0) + 1
                    last = event.lines
        text = " ".join(command_octets(frame_of_burst(*frame).encoded()) for frame in frames)
        lines = [f"{kind}: {number}" for kind, number in kinds.items()]
        if last:
            lines += ["last: " + last[0], *last[1:]]
        self.command(f"take quietly each {count} {text}", lines)

    # The whole connection.

    def step(self):
        random, chooser = self.random, self.chooser
        is_free = self.end.begun and self.frame is None and self.end.partial is None
        share = {"flood": 20, "resets": 20, "crowd": 5}.get(self.mood, 0)
        if is_free and self.end.failed is None and self.end.unprocessed() is None and random.percent(share):
            self.burst()
        else:
            kind = chooser.kind()
            if kind == "frame":
                self.take_some()
            elif kind == "poll":
                self.poll()
            elif kind == "out":
                self.put_out(chooser.out_count())
            else:
                self.call(*chooser.call(kind))
        self.changes()
        if self.end.failed is None:
            self.read_stream(chooser.stream())
            if self.end.partial is not None:
                self.read_block()

    def read_stream(self, number):
        """What is answered of a stream that is not active; of active ones `changes` says it."""
        if number not in self.end.streams and self.random.percent(30):
            self.command(f"room {number}", ["none"])
            self.command(f"owed {number}", ["0"])
            self.command(f"is_active {number}", ["false"])

    def read_block(self):
        end = self.end
        is_open = end.failed is None and end.partial is not None
        self.command("block_stream", [str(end.partial[0]) if is_open else "none"])
        if is_open:
            self.marks.reach("open block")

    def read_counts(self):
        end = self.end
        self.command("last_flow", [str(end.last_flow)])
        self.command("resets_received", [str(end.resets_read)])
        self.command("empty_frames_received", [str(end.empty_read)])
        self.command("pings_received", [str(end.pings_read)])
        self.command("settings_received", [str(end.settings_read)])
        self.read_block()
        self.command("why", [end.why or "none"])
        if end.failed is None:
            self.command("peer_settings", [f"{end.window} {end.peer_frame}"])
        for count, mark in ((end.last_flow, "flow of the last data"), (end.resets_read, "resets counted"),
                            (end.empty_read, "empty frames counted"), (end.pings_read, "pings counted"),
                            (end.settings_read > 1, "settings counted")):
            if count:
                self.marks.reach(mark)

    def finish(self):
        """What came of the peer, and then all output; that of a failed connection ends with GOAWAY."""
        self.read_counts()
        self.put_out(1_000_000)
        self.changes()
        failed = self.end.failed
        self.command("failed", ["none" if failed is None else CODES[failed]])
        if failed is None:
            self.put_out(1_000_000)
            self.changes()
            return
        self.command("room 1", ["none"])
        self.command("owed 1", ["0"])
        for _ in range(5):
            self.step()

    def run(self, steps):
        """How many steps were made."""
        self.preface()
        done = 0
        while done < min(steps, STEPS[self.mood]):
            if self.end.failed is not None or (self.end.is_done() and self.random.percent(5)):
                break
            done += 1
            self.step()
        self.finish()
        return done


def frame_of_burst(kind, number):
    if kind == "update":
        return Frame("update", number, increment=0)
    return Frame("headers", number, block=b"\x82", end=False, whole=True, padded=False)


def shown_prefix(octets):
    """The octets, or the first frames of them, as far as they are shown."""
    if len("".join(frames_lines(octets[:4_000]))) <= LONG and len(octets) <= 100_000:
        if len("".join(frames_lines(octets))) <= LONG:
            return octets
    shown, left = 0, octets
    while len(left) >= 9:
        length = 9 + int.from_bytes(left[:3], "big")
        if length > len(left) or len("".join(frames_lines(octets[:shown + length]))) > LONG:
            break
        shown, left = shown + length, left[length:]
    return octets[:shown]


def call_text(name, words):
    """A call as crates/h2_case_conn/src/conn.rt reads it."""
    match name:
        case "open":
            fields, ends = words
            return f"open{end_word(ends)} {fields_text(fields)}"
        case "fields":
            number, fields, ends = words
            return f"fields {number}{end_word(ends)} {fields_text(fields)}"
        case "data":
            number, body, ends = words
            return f"data {number}{end_word(ends)}{last_text(body)}"
        case "ping":
            return f"ping {words[0].hex()}"
        case "change":
            return f"change {words[0].text()}"
    return " ".join([name, *map(str, words)])


def mood_and_role(number):
    """Of a connection, by its number: both roles in turn. Floods are long to take, so they are few."""
    mood = CYCLE[number % len(CYCLE)]
    if mood == "flood" and number // len(CYCLE) % 10 > 1:
        mood = "wild"
    return mood, ("server", "client")[number % 2]


def cases(seed, steps, random, marks):
    """The cases of connections for so many steps, one after another."""
    number, left = 0, steps
    while left > 0:
        mood, role = mood_and_role(number)
        drive = Drive(f"seed {seed}, connection {number}", mood, role, random, marks)
        left -= max(drive.run(left), 1)
        number += 1
        yield drive.lines
