"""The handler of the cases of served connections: what the path of a request says, and what the
handler is told (the head of crates/h2_case_server/src/server.rt)."""
from messages import Message
from text import counted

STATUS = b":status"
TRAILERS = [(b"x", b"y", False)]
PARTS = ("parts", "trailers", "stalls", "fails")  # with a number: octets in parts, and what follows
BAD = Message([(STATUS, b"200", False), (b"X", b"y", False)], "M1 BadName")


class Failed(Exception):
    """The handler has failed."""


class Work:
    """What is kept of an exchange."""

    def __init__(self, name, does, count):
        self.name, self.does, self.count = name, does, count
        self.given = self.came = 0

    @property
    def held(self):
        return self.count if self.does == "holds" else 0

    @property
    def unused(self):
        return max(self.came - self.count, 0) if self.does == "keeps" else 0


class Told:
    """Lines; those that are the same one after another are one line, with their number."""

    def __init__(self):
        self.lines = []

    def add(self, line):
        if self.lines and self.lines[-1][0] == line:
            self.lines[-1][1] += 1
        else:
            self.lines.append([line, 1])

    def take(self):
        lines, self.lines = self.lines, []
        return [line if count == 1 else f"{line} x{count}" for line, count in lines]


def message(status, count):
    """A whole response; one with a status below 200 or above 999 breaks M9."""
    broken = None if 200 <= status <= 999 else "M9 BadStatus"
    return Message([(STATUS, str(status).encode(), False)], broken, counted(count))


def head_of_parts(status):
    head = message(status, 0)
    return Message(head.head, head.broken, form="begun")


def read_path(path):
    """What a path says: a word, its number, and the name of the exchange."""
    text, _, name = path.decode().partition("?")
    word, _, number = text[1:].partition("/")
    return word, int(number) if number else None, int(name or 0)


class Handler:
    """The handler. A reply is its kind, and what comes with it."""

    def __init__(self, marks):
        self.marks, self.told = marks, Told()

    def head(self, fields, end):
        """What is kept of an exchange, and the reply."""
        does, count, name = read_path(dict(field[:2] for field in fields)[b":path"])
        self.told.add(f"head {name}" + " end" * end)
        self.marks.reach(f"/{does}" + "/N" * (count is not None))
        return self.work_and_reply(Work(name, does, count), end)

    def work_and_reply(self, work, end):
        count = work.count
        match work.does:
            case "early":
                return work, ("whole", message(200, count))
            case "refuses":
                return work, ("refuse", message(413, count))
            case "fails" if count is None:
                return None, ("fault", None)
            case "parts" | "trailers" | "stalls" | "fails":
                return work, ("parts", head_of_parts(200))
            case "resets":
                return work, ("reset", count)
            case "bad":
                return work, ("whole", BAD)
            case "whole" | "defers" | "keeps" | "holds" | "later":
                return work, self.reply_later(work, end)
        return work, ("whole", message(404, 0))

    def reply_later(self, work, end):
        if work.does == "whole" and end:
            return "whole", message(200, work.count)
        if work.does == "defers":
            return "deferred", None
        if work.does in ("keeps", "holds") and end:
            return "whole", message(200, 0)
        return "later", None

    def body(self, work, count, end):
        self.told.add(f"body {work.name} {count}" + " end" * end)
        work.came += count
        return self.reply_later(work, end)

    def trailers(self, work):
        self.told.add(f"trailers {work.name}")
        return self.reply_later(work, True)

    def part(self, work, room):
        """The next part: its kind, and its octets. Failed where the path has no parts."""
        self.told.add(f"part {work.name} {room}")
        is_in_parts = work.does in PARTS and work.count is not None
        if not is_in_parts and work.does != "defers":
            raise Failed
        left = work.count - work.given
        count = min(left, room)
        octets = counted(count, work.given % 251)
        work.given += count
        if work.does in ("parts", "defers") and left <= room:
            return "last", octets
        if left:
            return "octets", octets
        if work.does == "fails":
            raise Failed
        return ("trailers", b"") if work.does == "trailers" else ("later", b"")

    def over(self, work, cause):
        self.told.add(f"over {work.name} {cause}")
        self.marks.reach("over " + " ".join(word for word in cause.split() if not word.isdecimal()))
