"""Lists of acts on a client and a server that are joined by two pipes, as cases of group `pair`.

Each act has the answer that the model expects, what is handed out, and what is seen of both ends."""
from choose import FRAME_SIZES
from coverage import Marks
from joined import EndRefused, Joined
from messages import ENDINGS, GOOD_ENDINGS, REQUESTS, RESPONSES, TRAILERS, any_begun, any_list, any_message
from endpoint import FIRST_FRAME, Config
from settling import settle
from text import counted, fields_text, last_text

KINDS = {"request": 70, "respond": 80, "begin": 60, "begin_response": 70, "body": 170, "trailers": 30, "pump": 60,
         "pump_some": 60, "move": 270, "deliver": 270, "release_all": 45, "release": 25, "reset": 20, "ping": 30,
         "go_away": 12, "change": 34}
# Lists in which long bodies of several streams are sent in shares.
SHARED = {"request": 150, "respond": 200, "pump_some": 220, "move": 90, "deliver": 110, "release_all": 20,
          "release": 100, "reset": 20, "change": 10}
MOODS = {"light": 180, "heavy": 8, "shares": 12}
PARTS = ("body", "trailers")  # acts of a message that was begun
ALL = 1 << 40
SHARES = [0, 1, 1, 3, 10, 100]
LONG_SHARES = [1, 5_000, 16_384, 16_384, 60_000, 100_000]
ROUND_SHARES = [5_000, 16_384, 30_000, 60_000]
COUNTS = [0, 1, 1, 9, 50, 300, ALL, ALL, ALL, ALL, ALL, ALL]
# What both ends do in a round: each moves all, returns credit, sends what it can and moves that.
ROUND = [("move", "client"), ("release_all", "client"), ("pump", "client"), ("move", "client"),
         ("deliver", "server"), ("move", "server"), ("release_all", "server"), ("pump", "server"),
         ("move", "server"), ("deliver", "client")]
ROUNDS = 300
# The rule that the first case is to show on its page of docs/rules.
RULE = "joined (own) What one end has handed out is a prefix of what the other accepted"


def config(is_heavy, random):
    table = random.one_of([0, 33, 100, 4_096, 65_536])
    heavy = [20_000, 65_535, 65_535, 100_000, 2_147_483_647]
    window = random.one_of(heavy if is_heavy else [4, 10, 100, 65_535])
    sizes = [size for size in FRAME_SIZES if size > FIRST_FRAME] if is_heavy else FRAME_SIZES
    return Config(table, window, random.one_of([100, 101, 1_000]), random.one_of(sizes))


class Play:
    """A list of acts that is played, and the lines of its case."""

    def __init__(self, name, random, marks):
        self.random, self.marks = random, marks
        self.mood = random.weighted(MOODS)
        self.is_heavy = self.mood != "light"
        client, server = config(self.is_heavy, random), config(self.is_heavy, random)
        self.events = Marks()
        self.joined = Joined(client, server, self.events)
        pieces = " pieces 997" if self.is_heavy else ""
        self.lines = [f"case {name}: {self.mood}", f"> new client {client.text()} server {server.text()}{pieces}"]
        self.done = set()
        self.failed = None  # which end a call has ended
        marks.reach(self.mood)

    def command(self, words, answer=()):
        self.lines += ["> " + words, *answer]

    def stream(self):
        """The first that is to be answered, or that of a request, or any."""
        random, client, server = self.random, *self.joined.halves.values()
        if random.percent(50):
            for number in client.accepted:
                if number in server.heads and number not in server.accepted:
                    return number
        if client.accepted and random.percent(90):
            return random.one_of(list(client.accepted))
        return random.below(20)

    def part_stream(self, side):
        """One on which a message is open, or another one."""
        numbers = list(self.joined.half(side).open)
        return self.random.one_of(numbers) if numbers and self.random.percent(85) else self.stream()

    def any_part(self, side, number):
        """Octets of a body, often no more than its head says, and whether they end it."""
        random, half = self.random, self.joined.half(side)
        length = random.one_of([0, 4, 20_000, 66_000] if self.is_heavy else [0, 1, 4, 20, 20])
        left = half.open.get(number)
        if left is not None and random.percent(80):
            length = min(length, left)
        return self.next_octets(side, number, length), random.percent(70 if length == left else 25)

    def next_octets(self, side, number, count):
        """Octets that count on from those that a body has."""
        half = self.joined.half(side)
        before = half.accepted[number].body if number in half.open else b""
        return counted(count, (before[-1] + 1) % 251 if before else self.random.below(251))

    def any_name(self):
        """Where no message is open one is begun, mostly, in place of a part."""
        name = self.random.weighted(SHARED if self.mood == "shares" else KINDS)
        client, server = self.joined.halves.values()
        if name == "release" and not self.owing("client") + self.owing("server") and self.random.percent(80):
            return "deliver"
        if name not in PARTS or client.open or server.open or self.random.percent(10):
            return name
        return "begin_response" if server.heads - server.accepted.keys() else "begin"

    def any_act(self):
        """An act: its name, its end, and what else it has."""
        random = self.random
        name = self.any_name()
        side = self.side_of(name)
        match name:
            case "request":
                return name, side, any_message(REQUESTS, self.is_heavy, random)
            case "respond":
                return name, side, self.stream(), any_message(RESPONSES, self.is_heavy, random)
            case "begin":
                return name, side, any_begun(REQUESTS, self.is_heavy, random)
            case "begin_response":
                return name, side, self.stream(), any_begun(RESPONSES, self.is_heavy, random)
            case "body":
                number = self.part_stream(side)
                return name, side, number, *self.any_part(side, number)
            case "trailers":
                return name, side, self.part_stream(side), *any_list(ENDINGS, GOOD_ENDINGS, random)
            case "move" | "deliver":
                return name, side, random.one_of(COUNTS)
            case "pump_some":
                return name, side, random.one_of(LONG_SHARES if self.is_heavy else SHARES)
            case "release":
                return name, side, *self.any_release(side)
            case "reset":
                return name, side, self.stream(), random.below(16)
            case "ping":
                return name, side, random.octets()
            case "change":
                return name, side, config(self.is_heavy, random)
        return name, side

    def owing(self, side):
        """The streams of which something is owed."""
        return [number for number, stream in self.joined.half(side).end.streams.items() if stream.owed]

    def any_release(self, side):
        """A stream that owes something, mostly, and some of it or more."""
        random, streams, owing = self.random, self.joined.half(side).end.streams, self.owing(side)
        if not owing or random.percent(20):
            return self.stream(), random.below(3)
        number = random.one_of(owing)
        return number, random.one_of([1, streams[number].owed, streams[number].owed + 1])

    def side_of(self, name):
        random, joined = self.random, self.joined
        if name in ("request", "begin"):
            return "client"
        if name in ("respond", "begin_response"):
            return "server"
        open_at = [side for side, half in joined.halves.items() if half.open]
        if name in PARTS and open_at and random.percent(90):
            return random.one_of(open_at)
        if name == "release":
            owing = [side for side in joined.halves if self.owing(side)]
            if owing and random.percent(90):
                return random.one_of(owing)
        if name == "deliver":
            if len(joined.half("server").pipe) > len(joined.half("client").pipe):
                return "server"
            if random.percent(80):
                return "client"
        return "client" if random.percent(50) else "server"

    def make(self, name, side, *words):
        """Makes an act, and writes it down."""
        try:
            answer = self.joined.act(name, side, *words)
        except EndRefused as refused:
            self.note_refusal(name, str(refused))
            answer = str(refused)
        else:
            self.marks.reach(f"{name} done")
            self.done.add(name)
            if name == "deliver" and words == (1,) and answer == 1:
                self.marks.reach("a list with one octet delivered")
            if name == "body":
                self.note_part(*words[1:], answer)
            answer = "done" if answer is None else str(answer)
        self.command(act_text(name, side, words), [answer])
        self.show_handed()

    def note_refusal(self, name, refused):
        self.marks.reach(f"{name} refused")
        if name in PARTS:
            self.marks.reach(f"{name} refused by {refused.split()[-2]}")
        self.marks.reach(refused.split()[0])
        if ": " in refused:
            self.marks.reach(refused.split(": ")[1].split()[0])

    def note_part(self, octets, ends, count):
        if count < len(octets):
            self.marks.reach("a part that is cut")
        if ends and not octets:
            self.marks.reach("an end alone")

    def show_handed(self):
        for side, half in self.joined.halves.items():
            if half.handed:
                self.command(f"handed {side}", half.handed)
                half.handed = []

    def drain(self):
        """Both go on until they are quiet."""
        if not self.is_heavy:
            return self.settle()
        for _ in range(ROUNDS):
            if self.joined.is_quiet():
                return
            for name, side in ROUND:
                if name == "pump" and self.mood == "shares":
                    self.make("pump_some", side, self.random.one_of(ROUND_SHARES))
                else:
                    self.make(name, side, *([ALL] if name in ("move", "deliver") else []))
            self.command("ends", self.joined.lines())
        raise AssertionError("never quiet")

    def settle(self):
        """As the command `settle` does it: each end pumps, releases and moves all, which is delivered."""
        for _ in range(ROUNDS):
            if self.joined.is_quiet():
                self.command("settle", ["quiet"])
                return self.show_handed()
            for side, other in (("client", "server"), ("server", "client")):
                for act in (("pump", side), ("release_all", side), ("move", side, ALL), ("deliver", other, ALL)):
                    self.joined.act(*act)
        raise AssertionError("never quiet")

    def drive(self):
        """As the library's `settle` does it, which is given as many rounds as what waits needs at most."""
        count, most = settle(self.joined)
        self.command(f"rounds {most}", [f"{count} quiet"])
        self.show_handed()
        self.marks.reach("rounds" if count else "no round at quiet ends")

    def drive_failed(self):
        """The library makes no round where an end has failed; the client is named, if both have."""
        ends = [side for side, half in self.joined.halves.items() if half.end.failed is not None]
        self.command("rounds 100", [f"0 {ends[0]} failed"])
        self.marks.reach(f"rounds where {' and '.join(ends)} failed")

    def finish(self):
        """What was accepted was handed out whole, but for open messages, and streams that were reset or not
        processed."""
        joined = self.joined
        self.command("ends", joined.lines())
        for side, half in joined.halves.items():
            self.command(f"accepted {side}", [f"{number}: {one.text()}" for number, one in half.accepted.items()])
            other = joined.other(side)
            for number in half.accepted:
                is_whole = number in other.whole
                is_open = half.accepted[number].is_open
                assert not (is_whole and is_open), number
                assert is_whole or is_open or self.failed or joined.was_disturbed(number), number
                self.command(f"whole {other.side} {number}", ["yes" if is_whole else "no"])
        self.mark_list()

    def mark_list(self):
        halves = self.joined.halves.values()
        bodies = [any(one.body and number in self.joined.other(half.side).whole
                      for number, one in half.accepted.items()) for half in halves]
        if all(bodies):
            self.marks.reach("a list with bodies both ways")
        parts = [any(one.form == "ended" and one.body and number in self.joined.other(half.side).whole
                     for number, one in half.accepted.items()) for half in halves]
        if all(parts):
            self.marks.reach("a list with parts both ways")
        if any(half.open for half in halves):
            self.marks.reach("a list with an open message at its end")
        for act, what in (("reset", "a reset"), ("go_away", "a go_away"), ("change", "changed settings"),
                          ("fail", "a connection that its end ends")):
            if act in self.done:
                self.marks.reach(f"a list with {what}")
        for mark in ("a pass that is cut short", "a share of what waits", "the rest of a share",
                     "a delivery to an end that has failed"):
            self.marks.counts[mark] += self.events.counts[mark]
        if self.events.counts["long frame taken"]:
            self.marks.reach("a list with a long frame")
        for mark, count in self.events.counts.items():
            if mark.endswith(" handed out"):
                self.marks.counts[mark] += count

    def end_messages(self):
        """Each message that is open has an end now: with the rest of its body, or with trailers."""
        for side, half in self.joined.halves.items():
            for number, left in list(half.open.items()):
                if not left and self.random.percent(30):
                    self.make("trailers", side, number, TRAILERS, None)
                    continue
                count = self.random.one_of([0, 4, 20]) if left is None else left
                self.make("body", side, number, self.next_octets(side, number, count), True)

    def fail(self):
        """One end ends its connection with a code of its own, once."""
        self.failed = "client" if self.random.percent(50) else "server"
        for _ in range(1 + self.random.percent(30)):
            self.make("fail", self.failed, self.random.below(14))

    def hear(self):
        """The other end hears of it."""
        self.make("move", self.failed, ALL)
        self.make("deliver", self.joined.other(self.failed).side, ALL)

    def run(self):
        """Both ends are quiet in the midst of one list of two; open messages are ended in most; and in some a
        connection is ended before."""
        random = self.random
        count = random.below(56) + 5
        quiet = random.below(count) if random.percent(50) else count
        end = random.below(count) if random.percent(15) else count
        for place in range(count):
            if place == quiet and not self.failed:
                self.drain()
            if place == end:
                self.fail()
            self.make(*self.any_act())
            self.command("ends", self.joined.lines())
        if self.failed:
            self.hear()
            self.drive_failed()
        else:
            if self.is_heavy:
                self.drain()
            self.drive()
            if random.percent(70):
                self.end_messages()
                self.drive()
        self.finish()


def act_text(name, side, words):
    """An act as crates/h2_case_ends/src/pair.rt reads it."""
    match name:
        case "request":
            return f"request {words[0].text()}"
        case "respond":
            return f"respond {words[0]} {words[1].text()}"
        case "begin":
            return f"begin {fields_text(words[0].head)}"
        case "begin_response":
            return f"begin_response {words[0]} {fields_text(words[1].head)}"
        case "body":
            return f"body {side} {words[0]}{last_text(words[1])}{' end' if words[2] else ''}"
        case "trailers":
            return f"trailers {side} {words[0]} {fields_text(words[1])}".rstrip()
        case "move" | "deliver":
            return f"{name} {side} {'all' if words[0] == ALL else words[0]}"
        case "ping":
            return f"ping {side} {words[0].hex()}"
        case "change":
            return f"change {side} {words[0].text()}"
    return " ".join([name, side, *map(str, words)])


def cases(seed, lists, random, marks):
    """The cases of so many lists, one after another."""
    for number in range(lists):
        play = Play(f"seed {seed}, list {number}", random, marks)
        if number == 0:
            play.lines.insert(1, f"# rule: {RULE}")
        play.run()
        yield play.lines
