"""What an end makes of a call, and for what it is refused (docs/ENDPOINT.md, "Calls")."""
from frames import four
from hpack import size_of
from endpoint import FIRST_FRAME, FULL, MAX_DATA, MAX_LIST, MOST_RESETS, Fault
from text import CODES

REFUSALS = {
    1: "C1 Closed", 2: "C2 NoSuchStream", 3: "C3 Ended", 4: "C4 TooManyStreams", 5: "C5 StreamsExhausted",
    6: "C6 GoingAway", 7: "C7 OutputFull", 8: "C8 PingWaits", 9: "C9 TooManyResets", 10: "C10 ListTooLarge",
    11: "C11 NotOwed", 13: "C13 SettingsWait",
}


class Refused(Exception):
    """A call is refused by the rule of this number, and has changed nothing."""

    def __init__(self, number):
        super().__init__(REFUSALS[number])
        self.number = number


def refuse_if(holds, number):
    if holds:
        raise Refused(number)


def make(end, name, *words):
    """Makes a call; a number, octets that were put out, or None. Refused where a condition holds."""
    try:
        refuse_if(end.failed is not None, 1)
        answer = CALLS[name](end, *words)
    except Refused as refused:
        end.marks.refuse(refused.number)
        raise
    except Fault as fault:
        end.fail(fault.code, fault.why)
        return None
    if end.failed is None:
        end.return_made_due()
    return answer


def active(end, number):
    refuse_if(number not in end.streams, 2)
    return end.streams[number]


def output(end):
    refuse_if(end.waiting >= FULL, 7)


def most_streams(end):
    """A client keeps 100 streams active before the peer's SETTINGS, and 1,000 at most."""
    if not end.begun:
        return 100
    return min(1_000 if end.max_streams is None else end.max_streams, 1_000)


def open_stream(end, fields, ends):
    refuse_if(not end.is_server and len(end.streams) >= most_streams(end), 4)
    refuse_if(end.is_server, 5)
    refuse_if(end.goaway_sent is not None or end.goaway_read is not None, 6)
    output(end)
    refuse_if(size_of(fields) > MAX_LIST, 10)
    number = end.next_number()
    write_block(end, number, fields, ends)
    end.highest = number
    end.open(number).ended_out = ends
    return number


def sending(end, number):
    stream = active(end, number)
    refuse_if(stream.ended_out, 3)
    output(end)
    return stream


def send_fields(end, number, fields, ends):
    stream = sending(end, number)
    refuse_if(size_of(fields) > MAX_LIST, 10)
    write_block(end, number, fields, ends)
    end_own_side(end, stream, ends)


def write_block(end, number, fields, ends):
    """A block in frames that are filled (sections 6.2 and 6.10)."""
    block = end.encoder.encode(fields)
    most = end.most
    parts = [block[place:place + most] for place in range(0, len(block), most)] or [b""]
    for place, part in enumerate(parts):
        flags = 4 if place == len(parts) - 1 else 0
        if len(part) > FIRST_FRAME:
            end.marks.reach("long block sent")
        if place == 0:
            end.write(1, flags | ends, number, part)
        else:
            end.write(9, flags, number, part)


def end_own_side(end, stream, ends):
    stream.ended_out = stream.ended_out or ends
    end.close_if_ended(stream)


def send_data(end, number, body, ends):
    """Sends as much of a body as both windows let through."""
    stream = sending(end, number)
    count = min(len(body), max(0, min(stream.send, end.send, MAX_DATA)))
    if count == 0 and not (ends and not body):
        return 0
    all_go = ends and count == len(body)
    most = end.most
    for place in range(0, max(count, 1), most):
        part = body[place:min(place + most, count)]
        if len(part) > FIRST_FRAME:
            end.marks.reach("long frame sent")
        end.write(0, 1 if all_go and place + most >= count else 0, number, part)
    end.send -= count
    stream.send -= count
    end_own_side(end, stream, all_go)
    return count


def release(end, number, count):
    """Returns credit: the stream's, unless the peer has ended it, and the connection's."""
    stream = active(end, number)
    output(end)
    refuse_if(count == 0 or count > stream.owed, 11)
    if not stream.ended_in:
        end.write(8, 0, number, four(count))
        stream.receive += count
    end.write(8, 0, 0, four(count))
    end.receive += count
    stream.owed -= count


def reset(end, number, code):
    active(end, number)
    output(end)
    refuse_if(len(end.reset) >= MOST_RESETS, 9)
    end.write(3, 0, number, four(code))
    end.count_reset(number)


def refuse(end, number, code):
    """Resets a stream for a fault that the layer above has found; code 2 ends the connection."""
    if code == 2:
        end.marks.reach("refused with internal error")
        raise Fault(2, "OutOfMemory")
    active(end, number)
    if len(end.reset) >= MOST_RESETS:
        end.marks.reach("refused at a thousand")
    end.stream_error(number, code)


def ping(end, octets):
    output(end)
    refuse_if(end.ping is not None, 8)
    end.write(6, 0, 0, octets)
    end.ping = octets


def go_away(end):
    refuse_if(end.goaway_sent is not None, 6)
    output(end)
    end.write(7, 0, 0, four(end.processed) + four(0))
    end.goaway_sent = end.processed


def fail(end, code):
    end.marks.reach("ended by a call")
    end.end_with(code, f"EndedAbove({CODES[code]})")


def change(end, config):
    """Two values at a client, three at a server, and the greatest frame where it is another."""
    output(end)
    refuse_if(end.asked is not None, 13)
    end.marks.reach("settings changed")
    streams = [(3, config.streams)] if end.is_server else []
    end.write_settings([(1, config.table), (4, config.window), *streams], config.frame)
    end.asked = config


def put_out(end, count):
    """Output, of a failed connection too; what is due is returned first."""
    if end.failed is None and end.return_due():
        end.marks.reach("credit returned later")
    return end.take_out(count)


CALLS = {
    "open": open_stream, "fields": send_fields, "data": send_data, "release": release, "reset": reset,
    "refuse": refuse, "ping": ping, "go_away": go_away, "fail": fail, "change": change,
}
