"""What a drive has reached: marks, each of which is a rule that was decided."""
import collections

CONN_MARKS = """
bad preface, malformed, first frame, interrupted, stray continuation, block too long, block undecodable,
block above goaway, block refused, block opens, block on idle, block on closed, block ignored, block on ended,
block too large, block reported, data on idle, data on closed, data above connection, data ignored, data on ended,
data above stream, data reported, priority, reset on idle, reset reported, reset ignored, settings push,
settings window, settings frame, settings overflow, settings taken, ack reported, ack ignored, settings changed,
ping answered, pong reported, pong ignored, goaway reported, unprocessed, update by nothing, update overflow,
update taken, stream update on idle, stream update ignored, stream update by nothing, stream update overflow,
stream update taken, unknown, too many resets, too much output, credit returned, credit held back,
credit returned later, frame size named, frame size lowered, frame too long, long frame sent, long block sent,
long frame taken,
refused with internal error, refused at a thousand, take after failure, partial frame, ended by a call,
flow of the last data, resets counted, empty frames counted, pings counted, settings counted,
open block
"""


def names_of(text):
    return [name.strip() for name in text.replace("\n", " ").split(",")]

REASONS = """
BadPreface, FrameTooLong, PushPromise, WrongStream, WrongLength, PaddingTooLong, FirstFrameNotSettings,
BlockInterrupted, StrayContinuation, BlockTooLong, BlockNotDecoded, FrameOnIdleStream, DataOnClosedStream,
BlockOnClosedStream, BlockOnIdleNumber, DataAboveConnectionWindow, DataAboveStreamWindow, ZeroConnectionIncrement,
ConnectionWindowTooLarge, BadEnablePush, BadInitialWindow, BadMaxFrameSize, ShiftTooLarge, TooManyResets,
TooMuchOutput, OutOfMemory, EndedAbove
"""

# What connections are to reach: the rules; all refusals of calls but C12, since memory is ample;
# codes with which a connection fails and with which an end resets a stream, and reasons of a failure
# (OutOfMemory by `refuse` alone); moods and roles.
CONN_WANTED = (
    names_of(CONN_MARKS)
    + [f"C{number}" for number in (1, 2, 3, 4, 5, 6, 7, 8, 9, 10, 11, 13)]
    + [f"fault {code}" for code in (1, 2, 3, 5, 6, 9, 11)]
    + [f"reset with {code}" for code in (1, 3, 5, 7, 11)]
    + [f"why {reason}" for reason in names_of(REASONS)]
    + [f"{mood} {role}" for mood in ("calm", "wild", "crowd", "resets", "flood", "greedy")
       for role in ("client", "server")]
)

ACTS = ("request respond begin begin_response body trailers pump pump_some move deliver release_all release reset "
        "ping go_away fail change").split()

# What lists of acts are to reach. A move and a deliver are never refused; memory is ample (C12). Lists are
# too short for C4, C5 and C9; C3 is of calls that no act makes. M12 is of reading alone, and no end
# sends what is handed out as `interim`.
PAIR_WANTED = (
    [f"{act} done" for act in ACTS]
    + [f"{act} refused" for act in
       ("request", "respond", "begin", "begin_response", "body", "trailers", "pump", "pump_some", "release_all",
        "release", "reset", "ping", "go_away", "fail", "change")]
    + [f"body refused by {rule}" for rule in ("E3", "M11")]
    + [f"trailers refused by {rule}" for rule in ("E3", "M1", "M2", "M3", "M10", "M11")]
    + [f"E{number}" for number in (1, 2, 3, 4)]
    + [f"M{number}" for number in range(1, 12)]
    + [f"C{number}" for number in (1, 2, 6, 7, 8, 10, 11, 13)]
    + [f"{event} handed out" for event in
       ("head", "body", "trailers", "reset", "unprocessed", "goaway", "acked", "pong")]
    + ["rounds", "no round at quiet ends", "rounds where client failed", "rounds where server failed"]
    + ["a part that is cut", "an end alone", "a list with parts both ways", "a list with an open message at its end",
       "a list with bodies both ways", "a list with a reset", "a list with a go_away",
       "a list with changed settings", "a list with a connection that its end ends",
       "a delivery to an end that has failed", "a list with one octet delivered", "a list with a long frame", "light",
       "heavy", "shares", "a share of what waits", "a pass that is cut short", "the rest of a share"]
)

SERVE_MARKS = """
a full output, thirty exchanges at once, five bodies wait while the output is full,
eight or more wait for the output, several that wait go in one turn, some that wait go and the others wait again,
one waits above one that does not, it waits below all others that wait, it waits above all others that wait,
a response is given while the output is full, a reset is asked for while the output is full,
a response is late while the output is full, answers goes that has waited, begins goes that has waited,
status goes that has waited, resets goes that has waited, a reset of a response that waits, a reset of a body that waits,
a client resets a stream whose response waits, a client resets a stream whose response was given,
1 or more end once their bodies have gone, 2 or more end once their bodies have gone,
5 or more end once their bodies have gone, one ends below one whose body waits, one ends above one whose body waits,
a client is asked to stop, a client is asked to stop later, the first is asked again,
a pass that is cut short, the rest of a share, a share of what waits,
no response, a second response, a second response is ignored, a part that is dropped, an authority with a user,
a malformed part, answers BadMessage: M1 BadName, answers BadMessage: M9 BadStatus, answers BadMessage: M11 BadLength,
begins BadMessage: M9 BadStatus, refused over, refused answered, refused no response,
credit for a body, credit for a body in part, credit is held back for now, credit returned,
input is kept, input is kept since the output is full, octets that are cut, one part a turn since a flood is near,
a client that has ended is answered later, leaves while the output is full, closed with open exchanges,
its time to close starts anew, its time to close is over, block above goaway, block refused
"""
WORDS_OF_PATHS = ("whole/N early/N refuses/N parts/N trailers/N stalls/N fails/N defers/N keeps/N holds/N resets/N later "
                  "fails bad other").split()

# What served connections are to reach: situations of a full output and of bodies that wait; what handlers
# reply; how exchanges and connections end. No code of a failure is wanted but that of a fault of the peer.
SERVE_WANTED = (
    names_of(SERVE_MARKS)
    + ["/" + word for word in WORDS_OF_PATHS]
    + [f"over {cause}" for cause in ("done", "closed", "reset ours", "reset theirs")]
    + [f"over: {why}" for why in ("ended", "asked", "lost", "failed 1", "refused", "resets", "empty", "replies", "frame",
                                  "body", "writing", "answering", "idle")]
    + [f"mood {mood}" for mood in ("calm", "full", "bodies", "parts", "uploads", "late", "crowd", "wild")]
)


class Marks:
    """How often each mark was reached."""

    def __init__(self):
        self.counts = collections.Counter()

    def reach(self, mark):
        self.counts[mark] += 1

    def refuse(self, number):
        self.reach(f"C{number}")

    def fault(self, code):
        self.reach(f"fault {code}")

    def why(self, why):
        """The code that the layer above has chosen is left out."""
        self.reach("why " + why.partition("(")[0])

    def reset(self, code):
        self.reach(f"reset with {code}")

    def missing(self, wanted):
        return [mark for mark in wanted if not self.counts[mark]]

    def report(self, wanted):
        """A line for each mark that is wanted, with how often it was reached."""
        return [f"{self.counts[mark]:6} {mark}" for mark in wanted]
