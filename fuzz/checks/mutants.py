"""Wrong neighbours of the definitions: each puts one wrong function in the place of a right one.

The runs have to notice each. What is only weaker than a definition, no run of a right end can notice; so
wrong_ends.py has wrong ends too."""
import stated as said
from items import Block, Data, GoAway, Settings

RIGHT = dict(vars(said))


def right(name):
    """The right definition, whatever stands in its place now."""
    return RIGHT[name]


# Own settings.


def settings_newest_first(items):
    return right("settings_of")(items)[::-1]


def settings_with_acks(items):
    return [item.pairs for item in reversed(items) if type(item) is Settings]


def last_settings_alone(id, first, settings):
    return said.value_after(id, first, settings[-1]) if settings else first


def first_settings_that_name_it(id, first, settings):
    return right("value_after_all")(id, first, settings[::-1])


def own_value_before_its_ack(id, first, count, sent):
    return right("own_value")(id, first, count + 1, sent)


def own_value_an_ack_late(id, first, count, sent):
    return right("own_value")(id, first, max(count - 1, 0), sent)


def own_value_from_second(id, first, count, sent):
    return said.value_after_all(id, first, said.settings_of(sent)[1:count])


def limit_in_force(count, sent):
    return said.own_value(5, 16384, count, sent)


def limit_never_lowered(count, sent):
    return right("payload_limit")(0, sent)


def limit_newest(count, sent):
    return said.own_value(5, 16384, said.settings_count(sent), sent)


def greatest_but_the_last(value, first, more):
    return right("greatest_from")(value, first, max(more - 1, 0))


# States.


def lesser_of_none(i, j):
    return min(i, j)


def greater_number(i, j):
    return max(i, j)


def newest_block(test, items):
    return next((item.stream for item in items if type(item) is Block and test(item.stream)), 0)


def least_of_all_blocks(test, items):
    numbers = [item.stream for item in items if type(item) is Block]
    return min(numbers) if any(map(test, numbers)) else 0


def unprocessed_with_the_last(log):
    least = said.least_goaway(log.received)
    return 0 if log.role == said.SERVER else said.least_block(
        lambda j: least <= j and said.active(log, j), log.sent)


def unprocessed_by_the_greatest_goaway(log):
    lasts = [item.last for item in log.received if type(item) is GoAway]
    if log.role == said.SERVER or not lasts:
        return 0
    return said.least_block(lambda j: max(lasts) < j and said.active(log, j), log.sent)


def active_from_it_on(log, id):
    items = said.openings(log.role, log.received, log.sent)
    return said.least_block(lambda j: id <= j and said.active(log, j), items)


def active_of_the_other_side(log, id):
    items = said.openings(log.role, log.sent, log.received)
    return said.least_block(lambda j: id < j and said.active(log, j), items)


# Windows.


def given_without_initial_change(i, received):
    return said.FIRST_WINDOW + said.total(said.increment_on(i), received)


def connection_given_with_initial_change(received):
    return said.value_read(4, said.FIRST_WINDOW, received) + said.total(said.increment_on(0), received)


def acknowledged_one_behind(settings_read, acks_sent):
    return acks_sent + 1 == settings_read


def within_windows_of_the_newest(received, before, i, item):
    """The front is of the newest that were read."""
    after = [item, *before]
    reads = [received[:place] for place in range(len(received) + 1)]
    return any(said.has_acknowledged(said.settings_count(read), said.total(said.one_ack, before))
               and min(said.send_window_of(i, read, after), said.connection_send_window(read, after)) >= 0
               for read in reads)


def within_windows_of_nothing_read(received, before, i, item):
    return right("is_within_windows")([], before, i, item)


def no_data_passes_with_all_sent(log):
    return all(said.is_within_windows(log.received, log.sent, item.stream, item)
               for item in log.sent if type(item) is Data and item.size)


def data_on_any(i):
    return said.data_of


def octets_asked(i, calls):
    return sum(len(act.octets) for act, answer in calls
               if type(act) is said.SendData and type(answer) is said.Count and act.id == i)


def octets_of_newest_call(i, calls):
    return right("octets_by_calls")(i, calls[:1])


def keeps_windows_by_all_calls(log):
    return said.no_data_passes_windows(log) and all(
        said.total(said.data_of, log.sent) == said.octets_by_calls(item.stream, log.calls)
        for item in log.sent if type(item) is Data)


def keeps_windows_by_one_call_each(log):
    """Each DATA is of a call of its own."""
    count = sum(1 for act, answer in log.calls
                if type(act) is said.SendData and type(answer) is said.Count and answer.count)
    return said.no_data_passes_windows(log) and count == sum(
        1 for item in log.sent if type(item) is Data and item.size)


# Tokens.


def no_end_of_data(i, item, fields):
    tokens = right("tokens_of_item")(i, item, fields)
    return tokens[:-1] if type(item) is Data and tokens[-1:] == [said.END] else tokens


def data_of_any_stream(i, item, fields):
    return right("tokens_of_item")(item.stream if type(item) is Data else i, item, fields)


def lists_of_the_stream_alone(i, items, lists):
    left = iter(lists)
    tokens = []
    for item in items:
        fields = next(left, None) if type(item) is Block and item.stream == i else None
        tokens = said.tokens_of_item(i, item, fields) + tokens
    return tokens


def tokens_newest_first(i, items, lists):
    return right("tokens_written")(i, items[::-1], lists[::-1])


def all_octets_of_a_call(i, act, answer):
    if type(act) is said.SendData and type(answer) is said.Count:
        answer = said.Count(len(act.octets))
    return right("tokens_of_call")(i, act, answer)


def no_end_of_a_head_alone(i, act, answer):
    tokens = right("tokens_of_call")(i, act, answer)
    return tokens[:1] if type(act) is said.Open else tokens


# Parts.


def head_as_interim(i, handed):
    if type(handed) is said.HeadHanded and handed.id == i:
        return [said.list_token("Interim", handed.list), *said.last_tokens(handed.end)]
    return right("parts_heard_in")(i, handed)


def trailers_as_head(i, handed):
    if type(handed) is said.TrailersHanded and handed.id == i:
        return [said.list_token("Head", handed.list), said.END]
    return right("parts_heard_in")(i, handed)


def parts_without_an_end(i, handed):
    return [part for part in right("parts_heard_in")(i, handed) if part != said.END]


def parts_newest_first(i, handed):
    return right("parts_heard")(i, handed[::-1])


def parts_with_trailers_first(message):
    return [said.list_token("Head", message.head), *said.trailers_listed(message.trailers), *message.body,
            *said.given_last(message.form)]


def parts_of_two_ends(message):
    return [*right("parts_of_said")(message), said.END]


def parts_said_without_body(message):
    return [part for part in right("parts_said")(message) if type(part) is not int]


def parts_said_without_trailers(message):
    trailers = [] if message is None else said.trailers_listed(message.trailers)
    return [part for part in right("parts_said")(message) if part not in trailers]


def end_of_each(form):
    return [said.END]


def end_of_none(form):
    return []


def prefix_the_other_way(parts, whole):
    return right("is_prefix_of_parts")(whole, parts)


def prefix_that_is_whole(parts, whole):
    return parts == whole


# What waits, and a pump.


def message_of_newest(i, accepted):
    return accepted[0][1] if accepted else None


def waits_from_the_start(end, i):
    message = said.said_for(i, end.accepted)
    return [] if message is None else said.said_tokens(message)


def body_waits_from_the_start(end, id, octets, ends):
    message = said.said_for(id, end.accepted)
    return octets == message.body and ends == (message.trailers is None)


def body_waits_and_always_ends(end, id, octets, ends):
    return ends and right("body_waits")(end, id, octets, ends)


def trailers_wait_unended(end, id, fields):
    return said.tokens_waiting(end, id) == [said.fields_token(fields, False), said.END]


def trailers_wait_alone(end, id, fields):
    return said.tokens_waiting(end, id) == [said.fields_token(fields, True)]


def next_is_the_highest(end, id):
    higher = range(id + 1, max(end.log.sent.blocks | end.log.received.blocks) + 1)
    return said.active(end.log, id) and all(said.is_stuck_on(end, j) for j in higher)


def next_where_none_waits_below(end, id):
    return said.active(end.log, id) and all(
        said.tokens_waiting(end, j) == [] for j in range(id) if said.active(end.log, j))


def pumps_calls(calls):
    pumped = right("pumps")(calls)
    return pumped and (len(calls), pumped[1])


def pumps_one_call(calls):
    return right("pumps")(calls) if len(calls) < 2 else None


def pumped_until_none_waits(calls, count, after, numbers):
    return right("has_pumped_all")(calls, count, after, numbers) and all(
        said.tokens_waiting(after, i) == [] for i in numbers if said.active(after.log, i))


def pumped_until_all_is_put_out(calls, count, after, numbers):
    return right("has_pumped_all")(calls, count, after, numbers) and said.waiting(after.log) < said.FULL_OUTPUT


def stuck_where_nothing_waits(end, i):
    return said.tokens_waiting(end, i) == []


def could_always_go(log, i, token):
    return True


# What has been sent.


def owed_where_over(log, i):
    reported = sum(one.flow for one in log.reported if type(one) is said.DataEvent and one.id == i)
    released = sum(act.count for act, answer in log.calls if type(act) is said.Release and act.id == i)
    return reported - released


def owed_though_released(log, i):
    return sum(one.flow for one in log.reported if type(one) is said.DataEvent and one.id == i)


def sent_all_and_nothing_active(end, numbers):
    return right("has_sent_all")(end, numbers) and not list(numbers)


def sent_all_with_nothing_reported(end, numbers):
    return all(said.owed(end.log, i) == sum(one.flow for one in end.log.reported if type(one) is said.DataEvent
                                            and one.id == i) for i in numbers)


def sent_whole_though_reset(end, was_told_reset, numbers):
    return right("has_sent_whole")(end, lambda i: False, numbers)


def sent_nothing_where_reset(end, was_told_reset, numbers):
    return all(said.tokens_waiting(end, i) == [] or not was_told_reset(i) for i in numbers)


# Rounds.


def rounds_once_a_share(one, other):
    return 10 + said.shares_left(*one) + said.shares_left(*other)


def shares_of_any_window(octets, share):
    return right("shares")(octets, 65_535)


def shares_left_of_the_stream_alone(waiting, window):
    return right("shares_left")(waiting, window) if window <= 65_535 else len(waiting)


def pieces_of_none(octets, tokens):
    return 0


# The group of runs, the definition, and what stands in its place.
MUTANTS = [
    ("pair", "settings_of", settings_newest_first), ("pair", "settings_of", settings_with_acks),
    ("conn", "value_after_all", last_settings_alone), ("pair", "value_after_all", first_settings_that_name_it),
    ("conn", "own_value", own_value_before_its_ack), ("conn", "own_value", own_value_an_ack_late),
    ("conn", "own_value", own_value_from_second),
    ("conn", "payload_limit", limit_in_force), ("conn", "payload_limit", limit_never_lowered),
    ("conn", "payload_limit", limit_newest), ("conn", "greatest_from", greatest_but_the_last),
    ("conn", "lesser_number", lesser_of_none), ("conn", "lesser_number", greater_number),
    ("conn", "least_block", newest_block), ("conn", "least_block", least_of_all_blocks),
    ("conn", "next_unprocessed", unprocessed_with_the_last),
    ("conn", "next_unprocessed", unprocessed_by_the_greatest_goaway),
    ("conn", "next_active", active_from_it_on), ("conn", "next_active", active_of_the_other_side),
    ("pair", "given_on", given_without_initial_change),
    ("pair", "given_on_connection", connection_given_with_initial_change),
    ("pair", "has_acknowledged", acknowledged_one_behind),
    ("pair", "is_within_windows", within_windows_of_the_newest),
    ("pair", "is_within_windows", within_windows_of_nothing_read),
    ("pair", "no_data_passes_windows", no_data_passes_with_all_sent), ("pair", "data_on", data_on_any),
    ("pair", "octets_by_calls", octets_asked), ("pair", "octets_by_calls", octets_of_newest_call),
    ("pair", "keeps_windows", keeps_windows_by_all_calls), ("pair", "keeps_windows", keeps_windows_by_one_call_each),
    ("pair", "tokens_of_item", no_end_of_data), ("pair", "tokens_of_item", data_of_any_stream),
    ("pair", "tokens_written", lists_of_the_stream_alone), ("pair", "tokens_written", tokens_newest_first),
    ("pair", "tokens_of_call", all_octets_of_a_call), ("pair", "tokens_of_call", no_end_of_a_head_alone),
    ("pair", "parts_heard_in", head_as_interim), ("pair", "parts_heard_in", trailers_as_head),
    ("pair", "parts_heard_in", parts_without_an_end), ("pair", "parts_heard", parts_newest_first),
    ("pair", "parts_of_said", parts_with_trailers_first), ("pair", "parts_of_said", parts_of_two_ends),
    ("pair", "given_last", end_of_each), ("pair", "given_last", end_of_none), ("pair", "given_end", end_of_each),
    ("pair", "parts_said", parts_said_without_body), ("pair", "parts_said", parts_said_without_trailers),
    ("pair", "is_prefix_of_parts", prefix_the_other_way), ("pair", "is_prefix_of_parts", prefix_that_is_whole),
    ("pair", "said_for", message_of_newest), ("pair", "tokens_waiting", waits_from_the_start),
    ("pair", "body_waits", body_waits_from_the_start), ("pair", "body_waits", body_waits_and_always_ends),
    ("pair", "trailers_wait", trailers_wait_unended), ("pair", "trailers_wait", trailers_wait_alone),
    ("pair", "is_next", next_is_the_highest), ("pair", "is_next", next_where_none_waits_below),
    ("pair", "pumps", pumps_calls), ("pair", "pumps", pumps_one_call),
    ("pair", "has_pumped_all", pumped_until_none_waits), ("pair", "has_pumped_all", pumped_until_all_is_put_out),
    ("pair", "is_stuck_on", stuck_where_nothing_waits), ("pair", "could_go", could_always_go),
    ("pair", "owed", owed_where_over), ("pair", "has_sent_all", sent_all_and_nothing_active),
    ("pair", "has_sent_all", sent_all_with_nothing_reported),
    ("engine", "could_go", could_always_go), ("engine", "owed", owed_though_released),
    ("pair", "has_sent_whole", sent_whole_though_reset), ("pair", "has_sent_whole", sent_nothing_where_reset),
    ("rounds", "most_rounds", rounds_once_a_share), ("rounds", "shares", shares_of_any_window),
    ("rounds", "shares_left", shares_left_of_the_stream_alone), ("rounds", "pieces_on", pieces_of_none),
]
