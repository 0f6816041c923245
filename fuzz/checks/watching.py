"""Logs of ends that fuzz/drive drives: what they read, write, report and are asked.

The octets that an end reads and writes, its events and its calls are those of fuzz/models, which the cases
say and the gate holds the machine to; items are made of the octets here. A watcher is told of each step."""
import calls
import conn_cases
import hpack
import joined
import pair_cases
import receive
import scenes
from coverage import Marks
from items import (PREFACE_SIZE, AckedEvent, Block, BodyHanded, Count, Data, DataEvent, Done, FieldsEvent, GoAway,
                   Grouping, HeadHanded, InterimHanded, Number, Open, OtherAct, OtherEvent, Passed, Refused, Release,
                   Reset, ResetEvent, SendData, SendFields, Settings, TrailersHanded, UnprocessedEvent)
from endpoint import Model
from random_numbers import Random


class Items(list):
    """Items, newest first; and which streams have blocks, were ended and reset, the least GOAWAY, and all
    SETTINGS, since what is asked of these passes over the other items."""

    def __init__(self):
        super().__init__()
        self.blocks, self.ended, self.reset, self.least_goaway = set(), set(), set(), None
        self.settings = []

    def add(self, item):
        self.insert(0, item)
        match item:
            case Settings():
                self.settings.insert(0, item)
                return
            case Block(stream, end, _):
                self.blocks.add(stream)
            case Data(stream, end, _, _):
                pass
            case Reset(stream, _):
                self.reset.add(stream)
                return
            case GoAway(last):
                self.least_goaway = last if self.least_goaway is None else min(last, self.least_goaway)
                return
            case _:
                return
        if end:
            self.ended.add(stream)


class Log:
    """What has happened at one end, as h2_spec_log/specs/Log.antt has it, as far as the definitions look at it."""

    def __init__(self, role):
        self.role = role
        self.received, self.sent = Items(), Items()
        self.reported, self.calls = [], []
        self.unprocessed = set()
        self.failed = None
        self.written = self.given = 0
        self.gathered, self.written_frames = Grouping(), Grouping()
        self.decoder = hpack.Decoder()  # of what is received; its limit is set by the checks
        self.peer_decoder = hpack.Decoder()  # of what is sent
        self.peer_decoder.limit = 65_536
        self.sent_lists = []

    def wrote(self, octets):
        """Octets that an end appends to its output: its preface, or a frame."""
        self.written += len(octets)
        if octets.startswith(b"PRI"):
            assert len(octets) == PREFACE_SIZE
            return
        item = self.written_frames.item(octets)
        if item is None:
            return
        self.sent.add(item)
        if type(item) is Block:
            self.sent_lists.insert(0, self.peer_decoder.decode(item.octets))

    def report(self, event):
        self.reported.insert(0, event)
        if type(event) is UnprocessedEvent:
            self.unprocessed.add(event.id)


def event_of(event):
    """An event of fuzz/models as one of h2_spec_log."""
    match event.kind:
        case "fields":
            return FieldsEvent(event.stream, event.fields, event.end)
        case "data":
            flow = int(event.lines[0].split("flow=")[1].split()[0])
            return DataEvent(event.stream, event.body, flow, event.end)
        case "reset":
            return ResetEvent(event.stream, event.code, event.whose == "ours")
        case "unprocessed":
            return UnprocessedEvent(event.stream)
        case "acked":
            return AckedEvent()
    return OtherEvent(event.kind)


def act_of(name, words):
    """A call of fuzz/models as one of h2_spec_log."""
    match name:
        case "open":
            return Open(words[0], bool(words[1]))
        case "fields":
            return SendFields(words[0], words[1], bool(words[2]))
        case "data":
            return SendData(words[0], bytes(words[1]), bool(words[2]))
        case "release":
            return Release(*words)
    return OtherAct(name)


def answer_of(act, answer):
    if answer is None:
        return Done()
    return Number(answer) if type(act) is Open else Count(answer)


class Watched:
    """Puts watched ends in place of those of fuzz/models; what it makes is the same."""

    def __init__(self, watcher):
        self.watcher = watcher

    def model(self):
        class WatchedModel(Model):
            def __init__(self, role, *rest):
                self.log = Log(role)
                super().__init__(role, *rest)

            def append(self, octets):
                self.log.wrote(bytes(octets))
                super().append(octets)

            def end_with(self, code, why):
                self.log.failed = code
                super().end_with(code, why)

            def take_out(self, count):
                octets = super().take_out(count)
                self.log.given += len(octets)
                return octets
        return WatchedModel

    def new(self, role, config):
        return self.model()(role, config, Marks())

    def take(self, end, frame):
        log, octets = end.log, frame.encoded()
        is_sound = frame.kind != "malformed"
        item = log.gathered.item(octets) if is_sound else None
        expected = self.watcher.before_frame(log, octets, item, len(end.streams))
        event = receive.take(end, frame)
        if log.failed is None and item is not None:
            log.received.add(item)
        if event and event.kind != "fault":
            log.report(event_of(event))
        is_long = getattr(frame, "long", is_sound)
        self.watcher.after_frame(log, item, expected, event and event_of(event), is_long)
        return event

    def take_unprocessed(self, end, number):
        self.watcher.before_unprocessed(end.log, number)
        event = receive.take_unprocessed(end, number)
        end.log.report(UnprocessedEvent(number))
        return event

    def make(self, original):
        def make(end, name, *words):
            act = act_of(name, words)
            self.watcher.before_call(end.log, act)
            try:
                answer = original(end, name, *words)
            except calls.Refused as refused:
                end.log.calls.insert(0, (act, Refused(refused.number)))
                self.watcher.after_call(end.log, act, Refused(refused.number))
                raise
            answered = answer_of(act, answer)
            end.log.calls.insert(0, (act, answered))
            self.watcher.after_call(end.log, act, answered)
            return answer
        return make

    def drive(self):
        watcher = self.watcher

        class WatchedDrive(conn_cases.Drive):
            def __init__(self, *words):
                super().__init__(*words)
                watcher.case = self.lines[0]

            def changes(self):
                super().changes()
                if self.end.failed is None:
                    watcher.numbers(self.end.log, self.end.numbers(self.held))

            def run(self, steps):
                done = super().run(steps)
                watcher.ends_with(self.end.log)
                return done
        return WatchedDrive

    def half(self):
        watcher = self.watcher

        class WatchedHalf(joined.Half):
            """An end of a connection, with the messages that it was given and what it has handed out."""

            def __init__(self, *words):
                self.all_handed = []
                super().__init__(*words)
                self.end.log.half = self

            @property
            def log(self):
                return self.end.log

            def hand_out(self, event):
                before = len(self.handed)
                super().hand_out(event)
                if event is not None:
                    self.all_handed.insert(0, handed_of(self.handed[before].split()[0], event))

            def pump(self):
                watcher.begin_pump(self)
                count = super().pump()
                watcher.end_pump(self, count)
                return count
        return WatchedHalf

    def joined(self):
        watcher = self.watcher

        class WatchedJoined(joined.Joined):
            def act(self, *words):
                try:
                    return super().act(*words)
                finally:
                    watcher.acted(self)
        return WatchedJoined

    def play(self):
        watcher = self.watcher

        class WatchedPlay(pair_cases.Play):
            def __init__(self, *words):
                super().__init__(*words)
                watcher.case = self.lines[0]

            def finish(self):
                super().finish()
                if self.failed is None:
                    watcher.settled(self.joined)
        return WatchedPlay

    def cases(self, group, seed, count):
        """The texts of cases that fuzz/drive makes of a seed; of the group `scenes` their names."""
        if group == "scenes":
            for name, ends in scenes.play(self.new, self.take, self.take_unprocessed):
                for end in ends:
                    self.watcher.ends_with(end.log)
                yield name
            return
        cases = {"conn": conn_cases.cases, "pair": pair_cases.cases}[group]
        for lines in cases(seed, count, Random(seed), Marks()):
            yield "\n".join(lines) + "\n"

    def run(self, group, seed=1, count=0):
        """The same, watched."""
        watched = [
            (joined, "Model", self.model()), (conn_cases, "Model", self.model()), (joined, "Half", self.half()),
            (conn_cases, "Drive", self.drive()), (pair_cases, "Joined", self.joined()),
            (pair_cases, "Play", self.play()), (calls, "make", self.make(calls.make)),
            *((module, name, getattr(self, name)) for module in (joined, conn_cases)
              for name in ("take", "take_unprocessed"))]
        before = [(module, name, getattr(module, name)) for module, name, _ in watched]
        for place in watched:
            setattr(*place)
        try:
            yield from self.cases(group, seed, count)
        finally:
            for place in before:
                setattr(*place)


def handed_of(kind, event):
    """What is handed out, by the first word of its lines."""
    match kind:
        case "interim":
            return InterimHanded(event.stream, event.fields)
        case "head":
            return HeadHanded(event.stream, event.fields, event.end)
        case "body":
            return BodyHanded(event.stream, event.body, event.end)
        case "trailers":
            return TrailersHanded(event.stream, event.fields)
    return Passed(event_of(event))
