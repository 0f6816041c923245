"""The definitions, each as it stands, under its own name; beside it is the place where it stands.

Lists of items, events and calls have the newest first. Of what the definitions rely on, states and windows
(h2_spec_log States, Windows, Log) are here too. A token is a number for an octet, a tuple for fields, and END.
Where a comment says "is kept", the log has what the definition finds by going over a list."""
from items import (AckedEvent, Block, BodyHanded, Count, Data, DataEvent, Done, HeadHanded, InterimHanded,
                   Number, Open, Refused, Release, SendData, SendFields, Settings, TrailersHanded, WindowUpdate)

CLIENT, SERVER = "client", "server"
GREATEST_NUMBER = 2 ** 31 - 1
FIRST_WINDOW = 65535
FULL_OUTPUT = 65536
END = "end"


def total(number, items):
    """h2_spec_log/specs/Items.antt"""
    return sum(map(number, items))


# h2_spec_log/specs/Settings.antt


def value_after(id, before, pairs):
    for name, value in pairs:
        before = value if name == id else before
    return before


def is_settings(item):
    return type(item) is Settings and not item.ack


def value_read(id, first, items):
    """The oldest SETTINGS count first."""
    for item in reversed(items):
        if is_settings(item):
            first = value_after(id, first, item.pairs)
    return first


def one_settings(item):
    return 1 if is_settings(item) else 0


def one_ack(item):
    return 1 if type(item) is Settings and item.ack else 0


def settings_count(items):
    return total(one_settings, items)


def settings_of(items):
    """The definition appends each to those of the older items: the oldest stands first."""
    return [item.pairs for item in reversed(items) if is_settings(item)]


def value_after_all(id, first, settings):
    for pairs in settings:
        first = value_after(id, first, pairs)
    return first


def own_value(id, first, count, sent):
    return value_after_all(id, first, settings_of(sent)[:count])


def greatest_from(value, first, more):
    return max(value(number) for number in range(first, first + more + 1))


def payload_limit(count, sent):
    more = max(settings_count(sent) - count, 0)
    return greatest_from(lambda number: own_value(5, 16384, number, sent), count, more)


# h2_spec_log/specs/States.antt and Log.antt


def acked(log):
    return sum(1 for event in log.reported if type(event) is AckedEvent)


def openings(role, received, sent):
    return sent if role == CLIENT else received


def active(log, i):
    """Which streams have blocks, were ended, reset or named unprocessed is kept, and the least own GOAWAY."""
    is_over = (i in log.received.ended and i in log.sent.ended) or i in log.received.reset or i in log.sent.reset
    is_above = log.role == SERVER and log.sent.least_goaway is not None and log.sent.least_goaway < i
    has_block = i in openings(log.role, log.received, log.sent).blocks
    return i % 2 == 1 and has_block and not is_above and not is_over and i not in log.unprocessed


def lesser_number(i, j):
    return i if j == 0 else min(i, j)


def least_block(test, items):
    """The definition goes from the newest item down, so the oldest one is compared first."""
    least = 0
    for item in reversed(items):
        if type(item) is Block and test(item.stream):
            least = lesser_number(item.stream, least)
    return least


def least_goaway(items):
    """It is kept."""
    return GREATEST_NUMBER if items.least_goaway is None else items.least_goaway


def next_unprocessed(log):
    if log.role == SERVER:
        return 0
    least = least_goaway(log.received)
    return least_block(lambda j: least < j and active(log, j), log.sent)


def next_active(log, id):
    return least_block(lambda j: id < j and active(log, j), openings(log.role, log.received, log.sent))


def max_streams(log):
    return own_value(3, 100, max(1, acked(log)), log.sent.settings)


def owed(log, i):
    if not active(log, i):
        return 0
    reported = sum(one.flow for one in log.reported if type(one) is DataEvent and one.id == i)
    released = sum(act.count for act, answer in log.calls
                   if type(act) is Release and type(answer) is Done and act.id == i)
    return max(reported - released, 0)


def waiting(log):
    return log.written - log.given


# h2_spec_log/specs/Windows.antt


def data_on(i):
    return lambda item: item.size if type(item) is Data and item.stream == i else 0


def data_of(item):
    return item.size if type(item) is Data else 0


def increment_on(i):
    return lambda item: item.increment if type(item) is WindowUpdate and item.stream == i else 0


def given_on(i, received):
    return value_read(4, FIRST_WINDOW, received) + total(increment_on(i), received)


def given_on_connection(received):
    return FIRST_WINDOW + total(increment_on(0), received)


def send_window_of(i, received, sent):
    return given_on(i, received) - total(data_on(i), sent)


def connection_send_window(received, sent):
    return given_on_connection(received) - total(data_of, sent)


def recv_window(log, i):
    granted = own_value(4, FIRST_WINDOW, acked(log), log.sent.settings) + total(increment_on(i), log.sent)
    return granted - total(data_on(i), log.received)


def connection_recv_window(log):
    return FIRST_WINDOW + total(increment_on(0), log.sent) - total(data_of, log.received)


# h2_laws_end/specs/WithinWindows.antt


def has_acknowledged(settings_read, acks_sent):
    """h2_spec_log/specs/Allowed.antt, of the two numbers."""
    return acks_sent == settings_read


def is_within_windows(received, before, i, item):
    """Searches a front of what was received: the definition wants one, and the longest comes first here."""
    settings_read, acks_sent = settings_count(received), total(one_ack, before)
    after = [item, *before]
    for place in range(len(received) + 1):
        read = received[place:]
        if (has_acknowledged(settings_read, acks_sent) and send_window_of(i, read, after) >= 0
                and connection_send_window(read, after) >= 0):
            return True
        settings_read -= sum(map(one_settings, received[place:place + 1]))
    return False


def no_data_passes_windows(log):
    return all(is_within_windows(log.received, log.sent[place + 1:], item.stream, item)
               for place, item in enumerate(log.sent) if type(item) is Data and item.size != 0)


def newest_fits(log):
    newest = log.sent[0] if len(log.sent) else None
    return type(newest) is not Data or newest.size == 0 or (
        send_window_of(newest.stream, log.received, log.sent) >= 0
        and connection_send_window(log.received, log.sent) >= 0)


def octets_by_calls(i, calls):
    return sum(answer.count for act, answer in calls
               if type(act) is SendData and type(answer) is Count and act.id == i)


def keeps_windows(log):
    """Of all numbers those count that DATA or calls name; of another one both sums are 0."""
    numbers = {item.stream for item in log.sent if type(item) is Data}
    numbers |= {act.id for act, _ in log.calls if type(act) is SendData}
    return no_data_passes_windows(log) and newest_fits(log) and all(
        total(data_on(i), log.sent) == octets_by_calls(i, log.calls) for i in numbers)


# h2_laws_end/specs/Sendings.antt and h2_laws_pair/specs/Tokens.antt


def lists_accepted(calls):
    return [act.fields for act, answer in calls
            if (type(act) is Open and type(answer) is Number) or (type(act) is SendFields and type(answer) is Done)]


def end_tokens(end):
    return [END] if end else []


def fields_token(fields, end):
    return ("fields", tuple(fields), end)


def tokens_of_call(i, act, answer):
    match act, answer:
        case Open(fields, end), Number(id):
            return [fields_token(fields, end), *end_tokens(end)] if id == i else []
        case SendFields(id, fields, end), Done():
            return [fields_token(fields, end), *end_tokens(end)] if id == i else []
        case SendData(id, octets, end), Count(count):
            return [*octets[:count], *end_tokens(end and count == len(octets))] if id == i else []
    return []


def tokens_sent(i, calls):
    tokens = []
    for act, answer in reversed(calls):
        tokens += tokens_of_call(i, act, answer)
    return tokens


def tokens_of_item(i, item, fields):
    """What one item says, in `tokens_written`; of a block these are its fields, or None where lists have ended."""
    match item:
        case Block(stream, end, _) if fields is not None:
            return [fields_token(fields, end), *end_tokens(end)] if stream == i else []
        case Data(stream, end, octets, _):
            return [*octets, *end_tokens(end)] if stream == i else []
    return []


def fields_of_items(items, lists):
    """Each item with the list of its block: the newest block has the newest list."""
    left = iter(lists)
    return [(item, next(left, None) if type(item) is Block else None) for item in items]


def tokens_written(i, items, lists):
    tokens = []
    for item, fields in reversed(fields_of_items(items, lists)):
        tokens += tokens_of_item(i, item, fields)
    return tokens


def is_head_alone(message):
    return len(message.body) == 0 and message.trailers is None


def trailers_tokens(trailers):
    return [] if trailers is None else [fields_token(trailers, True)]


def is_ended_by_head(message):
    return message.form == "whole" and is_head_alone(message)


def given_end(form):
    return [] if form == "begun" else [END]


def said_tokens(message):
    return [fields_token(message.head, is_ended_by_head(message)), *message.body, *trailers_tokens(message.trailers),
            *given_end(message.form)]


# h2_ends/specs/MessageTokens.antt


def last_tokens(end):
    return [END] if end else []


def list_token(place, fields):
    return ("list", place, tuple(fields))


def trailers_listed(trailers):
    return [] if trailers is None else [list_token("Trailers", trailers)]


def given_last(form):
    return [] if form == "begun" else [END]


def parts_of_said(message):
    return [list_token("Head", message.head), *message.body, *trailers_listed(message.trailers),
            *given_last(message.form)]


def parts_said(message):
    return [] if message is None else parts_of_said(message)


def parts_heard_in(i, handed):
    match handed:
        case InterimHanded(id, fields):
            return [list_token("Interim", fields)] if id == i else []
        case HeadHanded(id, fields, end):
            return [list_token("Head", fields), *last_tokens(end)] if id == i else []
        case BodyHanded(id, octets, end):
            return [*octets, *last_tokens(end)] if id == i else []
        case TrailersHanded(id, fields):
            return [list_token("Trailers", fields), END] if id == i else []
    return []


def parts_heard(i, handed):
    parts = []
    for one in reversed(handed):
        parts += parts_heard_in(i, one)
    return parts


def is_prefix_of_parts(parts, whole):
    return whole[:len(parts)] == parts


# h2_ends/specs/Ends.antt and EndCalls.antt, h2_laws_pair/specs/Quiet.antt. An end has `log`, `accepted` (pairs of a
# stream and a message, which knows how it was given) and `handed`.


def said_for(i, accepted):
    return next((message for id, message in accepted if id == i), None)


def tokens_waiting(end, i):
    message = said_for(i, end.accepted)
    said = [] if message is None else said_tokens(message)
    return said[len(tokens_sent(i, end.log.calls)):]


def could_go(log, i, token):
    if type(token) is not int:
        return True
    return 0 < send_window_of(i, log.received, log.sent) and 0 < connection_send_window(log.received, log.sent)


def none_could_go(log, i, tokens):
    return not tokens or not could_go(log, i, tokens[0])


def is_stuck_on(end, i):
    return not active(end.log, i) or none_could_go(end.log, i, tokens_waiting(end, i))


def is_next(end, id):
    return active(end.log, id) and all(is_stuck_on(end, j) for j in range(id))


def body_waits(end, id, octets, ends):
    """Which trailers there are what waits itself says: it is the octets, then perhaps a list, then the end."""
    tokens = tokens_waiting(end, id)
    rest = tokens[len(octets):]
    trailers = None if rest == [END] else rest[0][1] if rest and type(rest[0]) is tuple else None
    return (len(octets) != 0 and tokens == [*octets, *trailers_tokens(trailers), END]
            and ends == (trailers is None))


def trailers_wait(end, id, fields):
    return tokens_waiting(end, id) == [fields_token(fields, True), END]


def is_call_of_pump(end, act):
    """What a constructor of `Pumps` asks of its call, before it is made. That the answer is one that the
    connection may give is not looked at here."""
    match act:
        case SendData(id, octets, ends):
            return is_next(end, id) and body_waits(end, id, octets, ends)
        case SendFields(id, fields, True):
            return is_next(end, id) and trailers_wait(end, id, fields)
    return False


def pumps(calls):
    """The octets that were sent, and the refusal; or None where these are no calls of a pump.

    `calls`: of each whether it was one of a pump as it was made, and its answer."""
    count, refused = 0, None
    for is_good, answer in calls:
        if refused is not None or not is_good:
            return None
        match answer:
            case Count(sent):
                count += sent
            case Refused(number):
                refused = number
    return count, refused


def has_pumped_all(calls, count, after, numbers):
    """`numbers`: those of all streams; on any other nothing waits."""
    pumped = pumps(calls)
    if pumped == (count, 7):
        return FULL_OUTPUT <= waiting(after.log)
    return pumped == (count, None) and all(is_stuck_on(after, i) for i in numbers)


# h2_engines/specs/Serves.antt


def has_sent_all(end, numbers):
    return all(owed(end.log, i) == 0 and is_stuck_on(end, i) for i in numbers)


def has_sent_whole(end, was_told_reset, numbers):
    return all(was_told_reset(i) or tokens_waiting(end, i) == [] for i in numbers)


# Rounds (h2_laws_quiet/specs/MostRounds.antt).


def shares(octets, share):
    return -(-octets // share)


def pieces_on(octets, tokens):
    return min(1, octets) + tokens - octets


def shares_left(waiting, window):
    octets = sum(count for count, tokens in waiting)
    return shares(octets, min(65_535, window)) + sum(pieces_on(*one) for one in waiting)


def most_rounds(one, other):
    return 10 + 2 * (shares_left(*one) + shares_left(*other))
