"""Served connections that are driven at random, as cases of group `server`.

Each act is a command of the case; what the handler was told of it, and the frames that the client
has taken, come after it. At the end the client takes all, and opens its windows, so that all that
can be answered is."""
from choose_served import MOODS, STEPS, Chooser, config, limits
from frames import PREFACE, Frame, split_frame
from served_conn import Host, Octets
from served_handler import head_of_parts, message
from served_watch import LIMITS
from text import command_octets, frames_lines

NAME = "a"


class Drive:
    """A served connection that is driven, and the lines of its case."""

    def __init__(self, name, number, random, marks):
        self.mood = mood = MOODS[number % len(MOODS)]
        self.random, self.marks = random, marks
        first, changed = config(random), limits(mood, number, random)
        self.limit = next(iter(changed), None)
        self.host = Host(first, LIMITS | changed, marks)
        self.chooser = Chooser(mood, self.host, random)
        self.lines = [f"case {name}: {mood}", f"> config {first.text()}"]
        self.lines += [f"> limit {limit} {value}" for limit, value in changed.items()]
        self.last_why = "up"
        marks.reach(f"mood {mood}")

    def command(self, words, answer=()):
        self.lines += ["> " + words, *answer]

    # What has come of it.

    def look(self):
        """What the handler was told, and what the client has taken, if it is whole frames."""
        host = self.host
        if (lines := host.connection.handler.told.take()):
            self.command("told", lines)
        if host.taken and is_whole(bytes(host.taken)):
            self.command("out", frames_lines(host.output()))
        if (why := host.why()) != self.last_why or self.random.percent(5):
            self.command("why", [why])
            self.last_why = why
        if self.random.percent(20):
            self.command("holds", [str(0 if not host.is_up() else host.connection.held())])
        self.count_streams()

    def count_streams(self):
        kept = self.host.connection.exchanges.kept
        if len(kept) >= 30:
            self.marks.reach("thirty exchanges at once")
        if self.host.connection.server.is_full():
            self.marks.reach("a full output")
            if len([one for one in kept.values() if one.stage == "given"]) >= 5:
                self.marks.reach("five bodies wait while the output is full")

    # What the client does.

    def start(self):
        """The preface and SETTINGS come, and the output is dropped."""
        host = self.host
        host.give_turns()
        host.send([(len(PREFACE) + 9, Frame("settings", pairs=[]))])
        host.output()
        self.command(f"start {NAME}")

    def send(self, frames, text=None):
        """The client sends frames; at times nobody has a turn yet, and then some are given."""
        octets = [frame.encoded() for frame in frames]
        sized = [(len(part), frame) for part, frame in zip(octets, frames)]
        words = command_octets(b"".join(octets))
        if text is None and self.random.percent(8):
            return self.send_cut(b"".join(octets), Octets(sized))
        if self.random.percent(25):
            self.command(f"queue {words}")
            self.host.queue(sized)
            return self.turns() if self.random.percent(70) else None
        self.command(text or f"send {words}")
        self.host.send(sized)

    def send_cut(self, octets, tokens):
        """Octets come in two pieces, and at times it is later then."""
        cut = self.random.below(len(octets))
        for part, piece in ((octets[:cut], tokens.read(cut)), (octets[cut:], tokens)):
            self.command(f"send {command_octets(part)}".rstrip())
            self.host.send(piece.tokens)
            self.look()
            if part is not octets and self.random.percent(30):
                self.time()
                self.look()
        self.marks.reach("octets that are cut")

    def requests(self, count=None, path=None):
        made = self.chooser.requests(count, path)
        frames = [frame for *_, parts in made for frame in parts]
        is_plain = all(one[4] for one in made)
        methods = {(one[1], one[3]) for one in made}
        words = " ".join(f"{number} {path}" for number, _, path, *_ in made)
        text = None
        if is_plain and methods == {(b"GET", True)}:
            text = f"get {words}"
        if is_plain and methods == {(b"POST", False)}:
            text = f"post {words}"
        self.send(frames, text)

    def frames(self):
        if (frames := self.chooser.frames()):
            self.send(frames)

    def takes(self, count):
        self.command(f"takes {'all' if count is None else count}")
        self.host.take(count)

    def turns(self):
        """Some turns are given: how many there were is seen."""
        most = self.random.one_of([1, 1, 2, 3, 50])
        count = self.host.give_turns(most)
        self.command(f"turns {most}", [" ".join([NAME] * count) or "none"])

    # Calls, and time.

    def respond(self):
        self.answer(self.chooser.exchange(), *self.chooser.response())

    def answer(self, number, status, gives):
        self.command(f"respond {number} {status} {gives}")
        replies = {"parts": ("parts", head_of_parts(status)), "nothing": ("deferred", None)}
        reply = replies[gives] if gives in replies else ("whole", message(status, gives))
        self.host.ask("respond", number, reply)

    def second(self):
        """A response is given by a call just before the request ends, so that its handler may give
        another one, or before its stream is reset."""
        kept = self.host.connection.exchanges.kept
        numbers = [number for number, one in kept.items() if one.stage == "asked" and not one.whole]
        if not numbers:
            return
        number = self.random.one_of(numbers)
        frame = Frame("data", number, end=True, body=b"", pad=None)
        if self.random.percent(30):
            frame = Frame("reset", number, code=8)
        self.command(f"queue {command_octets(frame.encoded())}")
        self.host.queue([(len(frame.encoded()), frame)])
        self.answer(number, 200, self.random.below(100))

    def reset(self):
        number, code = self.chooser.reset_stream()
        self.command(f"reset {number} {code}")
        self.host.ask("reset", number, code)

    def calls(self):
        """Calls one after another."""
        for _ in range(2 + self.random.below(8)):
            self.respond() if self.random.percent(75) else self.reset()
            self.look()

    def time(self):
        to = self.host.now + self.chooser.time()
        at_once = self.random.percent(30)
        self.command(f"time {to}" + " at once" * at_once)
        self.host.pass_to(to, at_once)

    def leave(self):
        self.command("leave")
        self.host.ask("leave")

    def ends(self):
        self.command("ends")
        self.host.end()

    def close(self):
        self.command("close")
        self.host.close()

    # The whole connection.

    def step(self):
        kind = self.chooser.kind()
        if kind == "takes":
            self.takes(self.chooser.takes())
        else:
            getattr(self, kind)()
        self.look()

    def prepare(self):
        """In a mood of full outputs the windows are opened, and a body fills the output."""
        random = self.random
        if self.mood not in ("full", "crowd"):
            return
        pairs = [(4, random.one_of([65_535, 100_000, 1_000_000]))]
        self.send([Frame("settings", pairs=pairs), Frame("update", increment=1_000_000)])
        self.look()
        if self.mood == "full":
            count, path = random.one_of([5, 15, 25, 30]), random.one_of([None, None, "/defers/50"])
            self.requests(count, path)
            self.takes(0)
            word = random.one_of(["early", "parts", "whole", "refuses", "refuses"])
            self.requests(random.one_of([1, 1, 2]), f"/{word}/66000")
            self.look()

    def exceed(self):
        """In a wild mood a limit is exceeded, unless the connection is over before that."""
        host, end = self.host, self.host.connection.end
        if self.mood != "wild" or not host.is_up() or end.partial is not None:
            return
        self.takes(0 if self.limit == "writing" else None)
        if (frames := self.chooser.frames_above(self.limit)):
            self.send(frames)
            self.look()
        if self.limit == "closing":
            self.leave()
        to = host.now + 4_000
        self.command(f"time {to}")
        host.pass_to(to)
        self.look()

    def finish(self):
        """All windows are opened, and the client takes all."""
        host = self.host
        self.takes(None)
        self.look()
        if host.is_up():
            end = host.connection.end
            frames = [Frame("settings", pairs=[(4, 1_000_000)])] if end.partial is None else []
            if frames and end.send < 1_000_000:
                frames.append(Frame("update", increment=1_000_000))
            words = [command_octets(frame.encoded()) for frame in frames]
            self.command(" ".join(["send", *words]))
            host.send([(len(frame.encoded()), frame) for frame in frames])
        self.look()
        self.command("holds", [str(host.connection.held() if host.is_up() else 0)])
        self.command("why", [host.why()])

    def run(self):
        self.start()
        self.prepare()
        for _ in range(STEPS[self.mood]):
            if not self.host.is_up():
                break
            self.step()
        self.exceed()
        self.finish()


def is_whole(octets):
    """Whether octets are whole frames."""
    while (parts := split_frame(octets)):
        octets = parts[2]
    return not octets


def cases(seed, count, random, marks):
    """So many cases, one after another."""
    for number in range(count):
        drive = Drive(f"seed {seed}, served connection {number}", number, random, marks)
        drive.run()
        yield drive.lines
