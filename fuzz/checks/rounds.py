"""How many rounds two joined ends need until they are quiet, beside what the specifications say of that."""
import copy

import pair_cases
import stated as said
from coverage import Marks
from joined import Joined
from messages import REQUESTS, Message
from endpoint import Config
from random_numbers import Random
from settling import make_round, most_rounds, waiting_at
from text import counted


def side_of(writer, reader):
    """What waits at the writer, and the initial window of the SETTINGS that the reader has sent last."""
    return waiting_at(writer), (reader.end.asked or reader.end.config).window


def check_rounds(checker, joined):
    """Makes rounds until the ends are quiet; says how many, and of how many."""
    client, server = joined.halves.values()
    most = said.most_rounds(side_of(client, server), side_of(server, client))
    checker.check("most_rounds", most_rounds(joined) == most, most_rounds(joined), "by fuzz/models, not", most)
    count = 0
    while not joined.is_quiet() and count <= most:
        make_round(joined)
        count += 1
    checker.check("most_rounds", joined.is_quiet() and count <= most, count, "rounds of", most)
    return count, most


# A window of the server, the requests that are made at once, each its body's length and that of a value in its
# trailers, where it has some; and how many rounds they take, of how many: windows hold back octets, and a full output
# trailers.
DIRECTED = [(1, [(300, None)], 600, 614), (65_535, [(1_310_700, None)], 40, 54),
            (2_147_483_647, [(1_310_700, None)], 40, 54), (65_535, [(0, 65_503)] * 20, 20, 90)]


def request_of(length, value):
    trailers = None if value is None else [(b"x", b"{" * value, False)]
    return Message(REQUESTS[2][0], None, counted(length, 0), trailers)


def check_directed(checker):
    """Pairs whose number of rounds is known, some near the bound."""
    for window, requests, needed, most in DIRECTED:
        joined = Joined(Config(4_096, 65_535, 100), Config(4_096, window, 100), Marks())
        checker.case = f"window {window}, {len(requests)} requests"
        check_rounds(checker, joined)
        for one in requests:
            joined.act("request", "client", request_of(*one))
        found = check_rounds(checker, joined)
        checker.check("rounds needed", found == (needed, most), found, "rounds, not", (needed, most))


def watch_rounds(checker, seed, count):
    """The lists of acts of fuzz/drive of a seed, each of whose pairs goes on until it is quiet."""
    class RoundedPlay(pair_cases.Play):
        def __init__(self, *words):
            super().__init__(*words)
            checker.case = self.lines[0]

        def drain(self):
            if self.failed is None:
                check_rounds(checker, copy.deepcopy(self.joined))
            super().drain()

        def drive(self):
            check_rounds(checker, copy.deepcopy(self.joined))
            super().drive()

    before = pair_cases.Play
    pair_cases.Play = RoundedPlay
    try:
        for _ in pair_cases.cases(seed, count, Random(seed), Marks()):
            pass
    finally:
        pair_cases.Play = before
