"""Wrong ends: what each does wrong some definition has to notice, so that none of them lets everything pass.

Each puts a wrong part in the place of one of fuzz/models."""
import calls
import receive
from joined import Half
from endpoint import Fault, Model

SEND_DATA, CHANGE, WRITE, NEXT_LIVE = calls.CALLS["data"], calls.CALLS["change"], Model.write, Model.next_live
HAND_OUT, PUMP_STREAM, TAKE_FRAME, BODY = Half.hand_out, Half.pump_stream, receive.take_frame, Half.body


def limit_of_newest(end, frame):
    """Frames are read up to the own size that was sent last, acknowledged or not."""
    newest = end.asked.frame if end.asked else end.own_frame
    if frame.kind != "malformed" and len(frame.encoded()) > 9 + newest:
        raise Fault(6)
    return TAKE_FRAME(end, frame)


def table_limit_at_once(end, config):
    """The limit of the own table holds before it is acknowledged."""
    CHANGE(end, config)
    end.decoder.limit = config.table


def unprocessed_newest_first(end, above):
    """The greatest stream that is not processed comes first."""
    return max((number for number in end.streams if number > above), default=None)


def window_of_new_streams(end, window):
    """An initial window changes no stream that is there."""
    end.window = window


def data_above_windows(end, number, body, ends):
    """Each call may send an octet more than the windows let through."""
    stream = end.streams.get(number)
    if stream is None:
        return SEND_DATA(end, number, body, ends)
    stream.send, end.send = stream.send + 1, end.send + 1
    try:
        return SEND_DATA(end, number, body, ends)
    finally:
        stream.send, end.send = stream.send - 1, end.send - 1


def data_reversed(end, kind, flags, stream, payload=b""):
    """DATA has its octets the other way round."""
    WRITE(end, kind, flags, stream, payload[::-1] if kind == 0 else payload)


def pump_from_the_highest(half):
    """Streams go in falling order."""
    count = sum(half.pump_stream(number)[0] for number in sorted(half.waiting, reverse=True))
    half.forget_over()
    return count


def pump_of_one_stream(half):
    """Only the lowest stream goes."""
    count = sum(half.pump_stream(number)[0] for number in sorted(half.waiting)[:1])
    half.forget_over()
    return count


def pump_of_first_octets(half, number):
    """The first octets of a body go in the place of those that wait."""
    left = half.waiting[number]
    left[0] = half.accepted[number].body[:len(left[0])]
    return PUMP_STREAM(half, number)


def all_of_a_part(half, number, octets, ends):
    """All octets of a part count as given, sent or not."""
    count = BODY(half, number, octets, ends)
    half.accepted[number].body += octets[count:]
    return count


def end_of_a_cut_part(half, number, octets, ends):
    """The end of a part counts as given where only some of its octets were sent."""
    count = BODY(half, number, octets, ends)
    if ends:
        half.end_message(number)
    return count


def trailers_as_head(half, event):
    """Each field block is handed out as a head."""
    if event is not None:
        half.heads.discard(event.stream)
    HAND_OUT(half, event)


def last_octet_lost(half, event):
    """A body is told to end without its last octet."""
    if event is not None and event.kind == "data" and event.end:
        event.body = event.body[:-1]
    HAND_OUT(half, event)


# The group of runs, where the wrong part stands, and it.
FAULTS = [
    ("conn", (receive, "take_frame"), limit_of_newest), ("conn", (calls.CALLS, "change"), table_limit_at_once),
    ("conn", (Model, "next_live"), unprocessed_newest_first),
    ("conn", (receive, "take_window"), window_of_new_streams),
    ("conn", (calls.CALLS, "data"), data_above_windows), ("pair", (Model, "write"), data_reversed),
    ("pair", (Half, "pump"), pump_from_the_highest), ("pair", (Half, "pump"), pump_of_one_stream),
    ("pair", (Half, "pump_stream"), pump_of_first_octets), ("pair", (Half, "body"), all_of_a_part),
    ("pair", (Half, "body"), end_of_a_cut_part), ("pair", (Half, "hand_out"), trailers_as_head),
    ("pair", (Half, "hand_out"), last_octet_lost),
]


def put(place, part):
    """Puts a part in its place; what was there."""
    owner, name = place
    if isinstance(owner, dict):
        before, owner[name] = owner[name], part
        return before
    before = vars(owner)[name]
    setattr(owner, name, part)
    return before


def what(part):
    """What a wrong part does wrong: the first words of its head."""
    return part.__doc__.rstrip(".")
