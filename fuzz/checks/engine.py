"""What the stored cases of engines show of `HasSentAll` and `HasSentWhole` (h2_engines/specs/Serves.antt).

A case says what comes, how the engine ends, and what it has written, or the body of that. What it was asked
inside is not seen: a message waits where its head was written and no END_STREAM, and what was released is what
was returned."""
import stated as said
from items import PREFACE_SIZE, Data, DataEvent, Done, Grouping, Release
from watching import Log

PREFACE = b"PRI * HTTP/2.0\r\n\r\nSM\r\n\r\n"
SETTINGS = bytes.fromhex("000000040000000000")
LONGEST = 16_384


def octets_of(words):
    """Octets as crates/h2_case/src/octets.rt reads them."""
    octets = bytearray()
    for word in words:
        if word.startswith("count:"):
            count, _, first = word.removeprefix("count:").partition(":")
            octets += bytes((int(first or 0) + place) % 251 for place in range(int(count)))
        else:
            digits, _, times = word.partition("x")
            octets += bytes.fromhex(digits) * int(times or 1)
    return bytes(octets)


def data_of(stream, count, ends):
    """A body that counts on, in the longest frames."""
    body, frames = octets_of([f"count:{count}"]), b""
    for place in range(0, count, LONGEST):
        part = body[place:place + LONGEST]
        flags = int(ends and place + LONGEST >= count)
        frames += len(part).to_bytes(3, "big") + bytes([0, flags]) + stream.to_bytes(4, "big") + part
    return frames


def commands(path):
    """Of each case its name, and its commands with their answers."""
    for case in path.read_text().split("\ncase ")[1:]:
        lines = [line for line in case.split("\n") if line and not line.startswith("#")]
        answered = []
        for line in lines[1:]:
            if line.startswith("> "):
                answered.append((line[2:].split(), []))
            else:
                answered[-1][1].append(line)
        yield lines[0], answered


def body_of(message):
    """The body of a message, as crates/h2_case/src/messages.rt reads it."""
    parts = [part.split() for part in " ".join(message).split(" ; ")]
    return next((octets_of(part[1:]) for part in parts if part[0] == "body"), b"")


def written_of(stream, body, ends):
    """A head that says nothing, and a body: what is shown of a body alone."""
    head = bytes([0, 0, 0, 1, 4]) + stream.to_bytes(4, "big")
    return head + data_of(stream, len(body), ends)


def runs(path):
    """Each run whose output or body is shown: the case, the role, how it ended, what came, what was written, and
    whether that is all. Of a body that the client asks with it is known where it ends."""
    for case, answered in commands(path):
        came, ended, asked = b"", None, b""
        for words, lines in answered:
            match words:
                case ["request", *message]:
                    asked = body_of(message)
                case ["from_client", *octets]:
                    came = PREFACE + SETTINGS + octets_of(octets)
                case ["from_server", *octets]:
                    came = SETTINGS + octets_of(octets)
                case ["input", *octets]:
                    came = octets_of(octets)
                case ["add", *octets]:
                    came += octets_of(octets)
                case ["data" | "last_data" as name, stream, count]:
                    came += data_of(int(stream), int(count), name == "last_data")
                case ["malformed", *_]:
                    break
                case ["serve" | "fetch" as name] | ["serve" | "fetch" as name, "all", "all"]:
                    ended = (said.SERVER if name == "serve" else said.CLIENT, lines[0])
                case ["output"] if ended:
                    written = b"".join(PREFACE if line == "preface" else octets_of(line.removeprefix("part ").split())
                                       for line in lines)
                    yield case, *ended, came, written, True
                case ["body", stream] if ended:
                    role, answer = ended
                    body = octets_of(lines[0].split())
                    ends = answer.startswith("answered") or (role == said.CLIENT and body == asked)
                    yield case, *ended, came, written_of(int(stream), body, ends), False


def items_of(octets):
    """The items of octets, the oldest first."""
    grouping, place = Grouping(), PREFACE_SIZE if octets.startswith(PREFACE) else 0
    while place + 9 <= len(octets):
        end = place + 9 + int.from_bytes(octets[place:place + 3], "big")
        if end > len(octets):
            return
        item = grouping.item(octets[place:end])
        if item is not None:
            yield item
        place = end


def log_of(role, came, written):
    """A log of what came and was written. DATA is reported, and released as far as it is returned on its stream."""
    log = Log(role)
    for item in items_of(came):
        log.received.add(item)
        if type(item) is Data:
            log.report(DataEvent(item.stream, item.octets, item.size, item.end))
    for item in items_of(written):
        log.sent.add(item)
    for stream in log.received.blocks | log.sent.blocks:
        log.calls.append((Release(stream, said.total(said.increment_on(stream), log.sent)), Done()))
    return log


def check_engines(checker, folder):
    for path in sorted(folder.glob("*.txt")):
        for case, role, answer, came, written, is_all in runs(path):
            checker.case = f"engine/{path.name}, {case}"
            log = log_of(role, came, written)
            unsent = [i for i in log.sent.blocks if i not in log.sent.ended and said.active(log, i)]
            if answer.startswith("N4"):
                # Where the peer has ended its side, what is returned for the stream stands on the connection alone.
                open_streams = (log.received.blocks | log.sent.blocks) - log.received.ended
                checker.check("HasSentAll of engines", all(said.owed(log, i) == 0 for i in open_streams)
                              and not any(said.could_go(log, i, 0) for i in unsent), role, unsent)
            elif answer.startswith("answered"):
                over = log.received.reset | log.sent.reset
                checker.check("HasSentWhole of engines", log.sent.blocks - over <= log.sent.ended, role)
            if is_all and answer.startswith(("N4", "answered")):
                checker.check("credit of engines", said.total(said.increment_on(0), log.sent)
                              == said.total(said.data_of, log.received), role)
