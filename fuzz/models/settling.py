"""Rounds of two joined ends, as `settle` of h2_settle makes them, and how many of them it takes at most."""
from joined import EndRefused

ALL = 1 << 40
# The acts of a round, the first one first: both release all that they owe, both pump, both outputs are put on the pipes,
# and what is there is delivered, to the server first.
ROUND = [("release_all", "client"), ("release_all", "server"), ("pump", "client"), ("pump", "server"),
         ("move", "client", ALL), ("move", "server", ALL), ("deliver", "server", ALL), ("deliver", "client", ALL)]


def make_round(joined):
    """A release that is refused since the output is full ends nothing."""
    for act in ROUND:
        try:
            joined.act(*act)
        except EndRefused as refused:
            if "C7" not in str(refused) or act[0] != "release_all":
                raise


def waiting_at(half):
    """Of each active stream how many octets of a body wait there, and how many tokens: of each octet one, of trailers
    one, and of the end of the message one."""
    return [(len(body), len(body) + (trailers is not None) + 1) for number, (body, trailers) in half.waiting.items()
            if number in half.end.streams]


def shares_of(writer, reader):
    """How many shares of a window wait at the writer, of 65,535 octets or the initial window of the SETTINGS that the
    reader has sent last; and how many bodies, lists of trailers and ends."""
    waiting = waiting_at(writer)
    share = min(65_535, (reader.end.asked or reader.end.config).window)
    octets = sum(count for count, _ in waiting)
    return -(-octets // share) + sum((1 if count else 0) + tokens - count for count, tokens in waiting)


def most_rounds(joined):
    """After so many rounds both ends are quiet."""
    client, server = joined.halves.values()
    return 10 + 2 * (shares_of(client, server) + shares_of(server, client))


def settle(joined):
    """Makes rounds until both ends are quiet; says how many, and how many docs/PAIR.md allows."""
    most, count = most_rounds(joined), 0
    while not joined.is_quiet():
        make_round(joined)
        count += 1
        assert count <= most, (count, most)
    return count, most
