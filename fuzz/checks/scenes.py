"""What random runs reach rarely, frame by frame.

`new` makes a watched end; `take` hands a frame over, or has the next stream reported that is not processed."""
import calls
from frames import Frame, too_long
from endpoint import Config

GET = (b":method", b"GET", False)


def settings():
    return Frame("settings", pairs=[])


def long(length):
    return Frame("unknown", 0, type=255, payload=b"\7" * length)


def lesser_frame(new, take):
    """Own sizes of frames rise and fall: as data/conn/frames.txt has it, "a greater frame is read from the
    SETTINGS on, a lesser one from its acknowledgment on"."""
    for last in (long(16_384), too_long(255, 16_385)):
        end = new("server", Config(4_096, 65_535, 100))
        for frame in (settings(), Frame("ack")):
            take(end, frame)
        for size in (20_000, 20_000, 16_384):
            calls.make(end, "change", Config(4_096, 65_535, 100, size))
            for frame in (long(20_000), Frame("ack")):
                take(end, frame)
        take(end, last)
    # While a greater one waits, what is above the one in force is read; while a lesser one waits, too.
    end = new("client", Config(4_096, 65_535, 100, 20_000))
    for frame in (long(20_000), settings(), long(20_000), Frame("ack"), too_long(255, 20_001)):
        take(end, frame)


def last_stream_that_falls(new, take):
    """The last stream of a second GOAWAY is less, and that of a third is greater (section 6.8)."""
    end = new("client", Config(4_096, 65_535, 100))
    take(end, settings())
    for _ in range(5):
        calls.make(end, "open", [GET], False)
    for last in (7, 3, 5):
        take(end, Frame("goaway", last=last, code=0, debug=b""))
        while (number := end.unprocessed()) is not None:
            take(end, number)  # a number: the stream that is reported
    take(end, settings())


def window_that_falls(new, take):
    """SETTINGS lower the initial window while a stream is active, below what was sent, and raise it again."""
    end = new("client", Config(4_096, 65_535, 100))
    take(end, settings())
    number = calls.make(end, "open", [GET], False)
    for window in (100_000, 10, 20, 1_000):
        take(end, Frame("settings", pairs=[(4, window)]))
        calls.make(end, "data", number, b"\7" * 15, False)


SCENES = [lesser_frame, last_stream_that_falls, window_that_falls]


def play(new, take, take_unprocessed):
    """Plays all scenes, one after another; of each its name, and its ends."""
    ends = []

    def made(role, config):
        ends.append(new(role, config))
        return ends[-1]

    def hand(end, frame):
        return take_unprocessed(end, frame) if isinstance(frame, int) else take(end, frame)

    for scene in SCENES:
        ends.clear()
        scene(made, hand)
        yield scene.__name__, ends
