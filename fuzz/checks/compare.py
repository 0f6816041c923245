"""Compares what the definitions say with what the ends did, step by step."""
import collections
from typing import NamedTuple

import stated as said
from items import Block, Count, Data, DataEvent, FieldsEvent, OtherEvent, Passed, ResetEvent, SendData

FAULT = "fault"
FLOW_CONTROL_ERROR, FRAME_SIZE_ERROR, REFUSED_STREAM, COMPRESSION_ERROR = 3, 6, 7, 9
MANY, EACH = 300, 10  # with more items than MANY, numbers are looked at in each EACH-th step
MANY_STREAMS = 100  # of more streams, each EACH-th one's tokens are looked at


class End(NamedTuple):
    """A client or a server, as h2_ends/specs/Ends.antt has it."""
    log: object
    accepted: list
    handed: list


class Expected(NamedTuple):
    """What the definitions say of a frame before it is taken."""
    is_too_long: bool
    exceeds: bool
    fields: object  # of a block; None where it does not decode
    is_at_capacity: bool
    is_new: bool


class Own(NamedTuple):
    """What the definitions say of own settings."""
    limit: int
    table: int
    streams: int


class Noticed(Exception):
    """Something did not hold, and the first such thing is enough."""


def exceeds(count, window):
    return count > 0 and window < count


class Checker:
    """A watcher (watching.py) that counts what held and what did not."""

    def __init__(self, stops=False):
        self.stops = stops
        self.held, self.broken, self.faults = collections.Counter(), collections.Counter(), []
        self.case = ""
        self.step = 0
        self.pump = None  # the end that pumps, and the steps so far
        self.heard_of = {}
        self.own_of = None  # for what the own values were computed last, and they

    def check(self, name, holds, *what):
        if holds:
            self.held[name] += 1
            return
        self.broken[name] += 1
        self.faults.append(f"{name} did not hold in {self.case}: {' '.join(map(str, what))[:300]}")
        if self.stops:
            raise Noticed(name)

    # Frames.

    def own(self, log):
        """Anew where something was reported, or SETTINGS or an acknowledgment written."""
        state = (log, len(log.reported), len(log.sent.settings))
        if self.own_of is None or self.own_of[0] != state:
            count, sent = said.acked(log), log.sent.settings
            self.own_of = (state, Own(said.payload_limit(count, sent), said.own_value(1, 4096, count, sent),
                                      said.max_streams(log)))
        return self.own_of[1]

    def before_frame(self, log, octets, item, live):
        own = self.own(log)
        self.check("next_unprocessed, none", said.next_unprocessed(log) == 0, "before a frame")
        is_too_long = int.from_bytes(octets[:3], "big") > own.limit
        passes, fields = False, None
        if type(item) is Data:
            passes = (exceeds(item.size, said.connection_recv_window(log))
                      or exceeds(item.size, said.recv_window(log, item.stream)))
        if type(item) is Block:
            log.decoder.limit = own.table
            fields = decoded(log.decoder, item.octets)
        at_capacity = own.streams <= live
        is_new = type(item) is Block and item.stream not in log.received.blocks
        return Expected(is_too_long, passes, fields, at_capacity, is_new)

    def after_frame(self, log, item, expected, event, is_long):
        fault = log.failed
        is_fault = type(event) is OtherEvent and event.kind == FAULT
        self.check("payload_limit", expected.is_too_long == (is_fault and fault == FRAME_SIZE_ERROR and is_long),
                   expected.is_too_long, event)
        if type(item) is Data and (type(event) is DataEvent or (is_fault and fault == FLOW_CONTROL_ERROR)):
            self.check("own_value 4", expected.exceeds == is_fault, item.stream, item.size, event)
        if type(item) is not Block:
            return
        if not is_fault or fault == COMPRESSION_ERROR:
            self.check("own_value 1", (expected.fields is None) == is_fault, item.stream, event)
        if type(event) is FieldsEvent:
            self.check("own_value 1", expected.fields == event.list, item.stream, event)
            if expected.is_new and log.role == said.SERVER:
                self.check("own_value 3", not expected.is_at_capacity, item.stream, event)
        if type(event) is ResetEvent and event.code == REFUSED_STREAM:
            self.check("own_value 3", expected.is_at_capacity, item.stream, event)

    def before_unprocessed(self, log, number):
        self.check("next_unprocessed", said.next_unprocessed(log) == number, number)

    # Numbers.

    def numbers(self, log, lines):
        """The lines of `changes`: its streams are those that `next_live` answers, one after another."""
        self.step += 1
        if len(log.received) + len(log.sent) > MANY and self.step % EACH:
            return
        words = [line.split() for line in lines]
        rooms = {int(word[1]): int(word[2]) for word in words if word[0] == "room" and len(word) == 3}
        owed = {int(word[1]): int(word[2]) for word in words if word[0] == "owed"}
        connection = next(int(word[1]) for word in words if word[0] == "room" and len(word) == 2)
        chain, last = [], 0
        for _ in range(len(rooms) + 1):
            last = said.next_active(log, last)
            if last == 0:
                break
            chain.append(last)
        self.check("next_active", chain == list(rooms), chain, list(rooms))
        self.check("connection_send_window",
                   said.connection_send_window(log.received, log.sent) == connection, connection)
        for number, room in rooms.items():
            self.check("send_window_of", said.send_window_of(number, log.received, log.sent) == room, number, room)
            self.check("owed", said.owed(log, number) == owed[number], number)

    # A whole connection.

    def ends_with(self, log):
        self.check("KeepsWindows", said.keeps_windows(log), log.role)
        accepted = said.lists_accepted(log.calls)
        self.check("blocks are of the lists", log.sent_lists == accepted, log.role)
        numbers = sorted(log.sent.blocks | {item.stream for item in log.sent if type(item) is Data})
        for number in numbers[::EACH] if len(numbers) > MANY_STREAMS else numbers:
            self.check("tokens_written", said.tokens_written(number, log.sent, log.sent_lists)
                       == said.tokens_sent(number, log.calls), log.role, number)

    # Calls, of which those of a pump are looked at.

    def before_call(self, log, act):
        if self.pump and self.pump[0].log is log:
            self.pump[1].append(said.is_call_of_pump(end_of(self.pump[0]), act))

    def after_call(self, log, act, answer):
        """DATA that was just written is within the windows by all that has been read then."""
        if type(act) is SendData and type(answer) is Count and answer.count:
            place = next(place for place, item in enumerate(log.sent) if type(item) is Data)
            holds = said.is_within_windows(log.received, log.sent[place + 1:], act.id, log.sent[place])
            self.check("IsWithinWindows at once", holds, log.role, act.id)
            self.check("NewestFits", said.newest_fits(log), log.role, act.id)
        if self.pump and self.pump[0].log is log:
            self.pump[1][-1] = (self.pump[1][-1], answer)

    def begin_pump(self, half):
        self.pump = (half, [])

    def end_pump(self, half, count):
        steps, self.pump = self.pump[1], None
        holds = said.has_pumped_all(steps, count, end_of(half), half.accepted)
        self.check("HasPumpedAll, with calls" if steps else "HasPumpedAll, without", holds, half.side, count, steps)

    # Two joined ends.

    def acted(self, joined):
        for side, half in joined.halves.items():
            other = joined.other(side)
            seen = (half, len(half.all_handed), len(other.accepted))
            if self.heard_of.get(side) != seen:
                self.heard_of[side] = seen
                self.prefixes(half, other)
        if joined.is_quiet():
            self.quiet(joined)

    def prefixes(self, half, other):
        accepted = end_of(other).accepted
        numbers = set(other.accepted) | {one.id for one in half.all_handed if type(one) is not Passed}
        for number in numbers:
            parts = said.parts_heard(number, half.all_handed)
            whole = said.parts_said(said.said_for(number, accepted))
            self.check("IsPrefixOfParts", said.is_prefix_of_parts(parts, whole), half.side, number)

    def quiet(self, joined):
        for side, half in joined.halves.items():
            end, other = end_of(half), joined.other(side)
            numbers = end.log.sent.blocks | end.log.received.blocks
            self.check("HasSentAll", said.has_sent_all(end, numbers), side)
            # At a quiet pair a stream that was reset by either end may end early.
            self.check("HasSentWhole", said.has_sent_whole(end, joined.was_disturbed, half.accepted), side)
            for number in half.accepted:
                if not joined.was_disturbed(number):
                    parts = said.parts_heard(number, other.all_handed)
                    whole = said.parts_said(said.said_for(number, end.accepted))
                    self.check("parts_heard is whole", parts == whole, side, number)

    def settled(self, joined):
        self.quiet(joined)
        for half in joined.halves.values():
            self.ends_with(half.log)


def end_of(half):
    return End(half.log, list(half.accepted.items())[::-1], half.all_handed)


def decoded(decoder, block):
    """The fields of a block, or None; the decoder's table is after it then."""
    try:
        return decoder.decode(block)
    except Exception as bad:
        if type(bad).__name__ != "BadBlock":
            raise
        return None
