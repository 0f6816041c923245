"""What an end makes of a frame: RFC 9113, sections 4.3, 5.1 and 6.

docs/ENDPOINT.md has it under "What an end does with what it reads". The events are lines, as
crates/h2_case_conn/src/conn_events.rt has them."""
from hpack import BadBlock, size_of
from endpoint import FIRST_FRAME, MAX_BLOCK, MAX_LIST, MOST_RESETS, Fault, exceeds, is_too_great
from text import CODES, field_lines, last_text


class Event:
    """What is reported: its kind, its stream, what else it says, and its lines."""

    def __init__(self, kind, stream, lines, **parts):
        self.kind, self.stream, self.lines = kind, stream, lines
        self.__dict__.update(parts)


def end_word(end):
    return " end" if end else ""


def fields_event(number, fields, end):
    lines = [f"fields {number}{end_word(end)}", *field_lines(fields)]
    return Event("fields", number, lines, fields=fields, end=end)


def data_event(number, body, flow, end):
    line = f"data {number} flow={flow}{end_word(end)}{last_text(body)}"
    return Event("data", number, [line], body=body, end=end)


def reset_event(number, code, whose):
    return Event("reset", number, [f"reset {number} code={code} {whose}"], code=code, whose=whose)


def fault_event(code):
    return Event("fault", 0, [f"fault {CODES[code]}"], code=code)


def take(end, frame):
    """Takes a frame: what is reported, or None."""
    if frame.kind != "malformed":
        end.count(frame)
    try:
        event = take_frame(end, frame)
    except Fault as fault:
        end.fail(fault.code, fault.why)
        return fault_event(fault.code)
    end.return_made_due()
    return event


def take_unprocessed(end, number):
    """The peer does not process the stream, so it is over (section 6.8)."""
    end.marks.reach("unprocessed")
    end.close(number)
    end.return_made_due()
    return Event("unprocessed", number, [f"unprocessed {number}"])


def fails(end, mark, code, why):
    end.marks.reach(mark)
    raise Fault(code, why)


def take_frame(end, frame):
    assert frame.kind == "malformed" or len(frame.encoded()) <= 9 + end.limit
    if frame.kind == "malformed":
        fails(end, "frame too long" if frame.long else "malformed", frame.code, frame.why)
    if len(frame.encoded()) > 9 + FIRST_FRAME:
        end.marks.reach("long frame taken")
    if not end.begun:
        if frame.kind != "settings":
            fails(end, "first frame", 1, "FirstFrameNotSettings")
        end.begun = True
    if end.partial is None:
        return TAKERS[frame.kind](end, frame)
    number, ended, octets = end.partial
    if frame.kind != "continuation" or frame.stream != number:
        fails(end, "interrupted", 1, "BlockInterrupted")
    return take_part(end, number, ended, octets + frame.block, frame.whole)


def take_part(end, number, ended, octets, whole):
    """Section 6.10."""
    if len(octets) > MAX_BLOCK:
        fails(end, "block too long", 11, "BlockTooLong")
    if not whole:
        end.partial = (number, ended, octets)
        return None
    end.partial = None
    return take_block(end, number, ended, octets)


def take_headers(end, frame):
    return take_part(end, frame.stream, frame.end, frame.block, frame.whole)


def stray_continuation(end, frame):
    fails(end, "stray continuation", 1, "StrayContinuation")


def take_block(end, number, ended, block):
    """Wherever a block decodes its table holds, ignored or not."""
    try:
        fields = end.decoder.decode(block)
    except BadBlock:
        fails(end, "block undecodable", 9, "BlockNotDecoded")
    match end.state(number):
        case "idle" if end.is_server and number % 2:
            return take_first_block(end, number, ended, fields)
        case "idle":
            fails(end, "block on idle", 1, "BlockOnIdleNumber")
        case "closed":
            fails(end, "block on closed", 1, "BlockOnClosedStream")
        case "ignored":
            return end.marks.reach("block ignored")
    return take_list(end, end.streams[number], ended, fields)


def take_first_block(end, number, ended, fields):
    """A block on a number that no client has used."""
    if end.goaway_sent is not None:
        end.highest = number
        return end.marks.reach("block above goaway")
    if len(end.streams) >= end.config.streams:
        end.marks.reach("block refused")
        end.highest = number
        return reset_stream(end, number, 7)
    end.marks.reach("block opens")
    end.highest = end.processed = number
    return take_list(end, end.open(number), ended, fields)


def take_list(end, stream, ended, fields):
    if stream.ended_in:
        end.marks.reach("block on ended")
        return reset_stream(end, stream.number, 5)
    if size_of(fields) > MAX_LIST:
        end.marks.reach("block too large")
        return reset_stream(end, stream.number, 11)
    end.marks.reach("block reported")
    stream.ended_in = ended
    end.close_if_ended(stream)
    return fields_event(stream.number, fields, ended)


def reset_stream(end, number, code):
    """This end resets a stream, for a fault of the peer."""
    if len(end.reset) >= MOST_RESETS:
        end.marks.reach("too many resets")
    end.stream_error(number, code)
    end.marks.reset(code)
    return reset_event(number, code, "ours")


def take_data(end, frame):
    """Section 6.1."""
    state, flow = end.state(frame.stream), frame.flow()
    if state == "idle":
        fails(end, "data on idle", 1, "FrameOnIdleStream")
    if state == "closed":
        fails(end, "data on closed", 5, "DataOnClosedStream")
    if exceeds(flow, end.receive):
        fails(end, "data above connection", 3, "DataAboveConnectionWindow")
    end.receive -= flow
    if state == "ignored":
        end.made_due = flow
        return end.marks.reach("data ignored")
    stream = end.streams[frame.stream]
    if stream.ended_in:
        end.marks.reach("data on ended")
        end.made_due = flow
        return reset_stream(end, stream.number, 5)
    if exceeds(flow, stream.receive):
        fails(end, "data above stream", 3, "DataAboveStreamWindow")
    end.marks.reach("data reported")
    stream.receive -= flow
    stream.owed += flow
    stream.ended_in = frame.end
    end.close_if_ended(stream)
    return data_event(stream.number, frame.body, flow, frame.end)


def take_update(end, frame):
    """Section 6.9."""
    if frame.stream:
        return take_stream_update(end, frame)
    if frame.increment == 0:
        fails(end, "update by nothing", 1, "ZeroConnectionIncrement")
    if is_too_great(end.send + frame.increment):
        fails(end, "update overflow", 3, "ConnectionWindowTooLarge")
    end.send += frame.increment
    return end.marks.reach("update taken")


def take_stream_update(end, frame):
    state = end.state(frame.stream)
    if state == "idle":
        fails(end, "stream update on idle", 1, "FrameOnIdleStream")
    if state != "active":
        return end.marks.reach("stream update ignored")
    stream = end.streams[frame.stream]
    if frame.increment == 0:
        end.marks.reach("stream update by nothing")
        return reset_stream(end, stream.number, 1)
    if is_too_great(stream.send + frame.increment):
        end.marks.reach("stream update overflow")
        return reset_stream(end, stream.number, 3)
    stream.send += frame.increment
    return end.marks.reach("stream update taken")


def take_reset(end, frame):
    """Section 6.4."""
    state = end.state(frame.stream)
    if state == "idle":
        fails(end, "reset on idle", 1, "FrameOnIdleStream")
    if state != "active":
        return end.marks.reach("reset ignored")
    end.marks.reach("reset reported")
    end.close(frame.stream)
    return reset_event(frame.stream, frame.code, "theirs")


def take_settings(end, frame):
    """Section 6.5: the pairs in order, then the acknowledgment."""
    for name, value in frame.pairs:
        take_pair(end, name, value)
    end.reply(4, 1, 0)
    return end.marks.reach("settings taken")


def take_pair(end, name, value):
    if name == 1:
        end.encoder.set_limit(value)
    elif name == 2 and (value > 1 or (value == 1 and not end.is_server)):
        fails(end, "settings push", 1, "BadEnablePush")
    elif name == 3:
        end.max_streams = value
    elif name == 4:
        take_window(end, value)
    elif name == 5 and not 16_384 <= value <= 16_777_215:
        fails(end, "settings frame", 1, "BadMaxFrameSize")
    elif name == 5:
        end.peer_frame = value


def take_window(end, window):
    """The initial window: all streams' windows change with it (section 6.9.2)."""
    if is_too_great(window):
        fails(end, "settings window", 3, "BadInitialWindow")
    for stream in end.streams.values():
        stream.send += window - end.window
    end.window = window
    if any(is_too_great(stream.send) for stream in end.streams.values()):
        fails(end, "settings overflow", 3, "ShiftTooLarge")


def take_ack(end, frame):
    """The acknowledgment of the own SETTINGS: their values hold from now on."""
    if end.asked is None:
        return end.marks.reach("ack ignored")
    end.marks.reach("ack reported")
    if end.asked.frame < end.own_frame:
        end.marks.reach("frame size lowered")
    end.config, end.asked = end.asked, None
    end.own_frame = end.config.frame
    end.decoder.limit = end.config.table
    for stream in end.streams.values():
        stream.receive += end.config.window - end.own_window
    end.own_window = end.config.window
    return Event("acked", 0, ["acked"])


def take_ping(end, frame):
    """Section 6.7."""
    if not frame.ack:
        end.reply(6, 1, 0, frame.octets)
        return end.marks.reach("ping answered")
    if end.ping != frame.octets:
        return end.marks.reach("pong ignored")
    end.marks.reach("pong reported")
    end.ping = None
    return Event("pong", 0, [f"pong {frame.octets.hex()}"], octets=frame.octets)


def take_goaway(end, frame):
    """Section 6.8: the least last stream counts."""
    end.marks.reach("goaway reported")
    last = frame.last if end.goaway_read is None else min(end.goaway_read, frame.last)
    end.goaway_read = last
    return Event("goaway", 0, [f"goaway last={last} code={frame.code}"], code=frame.code)


TAKERS = {
    "data": take_data, "headers": take_headers, "continuation": stray_continuation, "reset": take_reset,
    "settings": take_settings, "ack": take_ack, "ping": take_ping, "goaway": take_goaway, "update": take_update,
    "priority": lambda end, frame: end.marks.reach("priority"),
    "unknown": lambda end, frame: end.marks.reach("unknown"),
}
