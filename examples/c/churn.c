/* Joins a client and a server in memory, and frees both, many times; the heap is then where it was.
 *
 *     churn [TIMES]
 *
 * It ends with 0 where it is. Each client gives a request with a body, and the server answers with
 * the same octets; blocks of fields are encoded and decoded. In between places are used wrongly,
 * which they refuse. Before all that a client widens its window, and gets more at once. */
#include "belkjoef.h"
#include <malloc.h>
#include <stdio.h>
#include <stdlib.h>
#include <string.h>

enum { PIECE = 16384, BODY = 1000, START = 100, FIRST = 65535, MORE = 100000 };

static void check(const char *what, int error) {
  const char *text;
  if (error == BJ_OK)
    return;
  bj_error_text(error, &text);
  fprintf(stderr, "churn: %s: %s\n", what, text);
  exit(1);
}

static void want(const char *what, int answer, int wanted) {
  if (answer != wanted) {
    fprintf(stderr, "churn: %s: %d, and not %d\n", what, answer, wanted);
    exit(1);
  }
}

/* What has come of a message. */
struct message {
  uint32_t stream;
  uint8_t body[BODY];
  size_t length;
  bool whole;
};

/* Carries all that waits from one end to another. */
static void carry(bj_end *from, bj_end *to, struct message *message) {
  static uint8_t piece[PIECE];
  size_t count, sent;
  check("pump", bj_pump(from, &sent));
  for (;;) {
    bj_event event;
    size_t at = 0;
    check("put_out", bj_put_out(from, piece, sizeof(piece), &count));
    if (count == 0)
      return;
    do {
      check("take", bj_take(to, piece + at, count - at, &event));
      at += event.used;
      if (event.kind == BJ_HEAD)
        message->stream = event.stream;
      if (event.kind == BJ_BODY && message->length + event.length <= BODY) {
        memcpy(message->body + message->length, event.octets, event.length);
        message->length += event.length;
      }
      message->whole = message->whole || event.end;
    } while (at < count || event.kind != BJ_NOTHING);
    check("release_all", bj_release_all(to));
  }
}

/* A response in parts to a request that is then reset, twice; and what the ends say of each
 * other. */
static void in_parts(bj_end *client, bj_end *server, const bj_field *asks) {
  static const bj_field head[] = {BJ_FIELD(":status", "200"), BJ_FIELD("server", "churn")};
  static const bj_field trailers[] = {BJ_FIELD("x-sum", "0")};
  struct message request = {0}, response = {0};
  bj_settings settings;
  uint32_t stream, resets, empty, pings, asked;
  size_t sent;
  for (int i = 0; i < 2; i++) {
    check("begin_request", bj_begin_request(client, asks, 4, &stream));
    carry(client, server, &request);
    check("begin_response", bj_begin_response(server, stream, head, 2));
    check("send_body", bj_send_body(server, stream, BJ_NO_OCTETS, false, &sent));
    check("send_trailers", bj_send_trailers(server, stream, trailers, 1));
    carry(server, client, &response);
    check("reset", bj_reset(client, stream, 8));
    carry(client, server, &request);
  }
  want("the responses", response.whole, 1);
  check("resets_received", bj_resets_received(server, &resets));
  check("empty_frames_received", bj_empty_frames_received(server, &empty));
  check("pings_received", bj_pings_received(server, &pings));
  check("settings_received", bj_settings_received(server, &asked));
  check("peer_settings", bj_peer_settings(server, &settings));
  want("resets", (int)resets, 2);
  want("empty frames", (int)empty, 0);
  want("PINGs", (int)pings, 0);
  want("SETTINGS", (int)asked, 1);
  want("an open block", bj_block_stream(server, &stream), BJ_NONE);
  want("the peer's greatest frame", (int)settings.max_frame, 16384);
}

/* Carries all that may be sent from one end to another, which returns no credit. Returns how many
 * octets of bodies come. */
static size_t carry_kept(bj_end *from, bj_end *to) {
  static uint8_t piece[PIECE];
  size_t count, sent, all = 0;
  for (;;) {
    bj_event event;
    size_t at = 0;
    check("pump", bj_pump(from, &sent));
    check("put_out", bj_put_out(from, piece, sizeof(piece), &count));
    if (count == 0)
      return all;
    do {
      check("take", bj_take(to, piece + at, count - at, &event));
      at += event.used;
      if (event.kind == BJ_BODY)
        all += event.length;
    } while (at < count || event.kind != BJ_NOTHING);
  }
}

/* A client that widens its window: a server sends 65,535 octets and as many more before any credit
 * comes back, and the next one after that. */
static void widened(void) {
  static const bj_field asks[] = {BJ_FIELD(":method", "GET"), BJ_FIELD(":scheme", "http"),
                                  BJ_FIELD(":path", "/"), BJ_FIELD("user-agent", "churn")};
  static const bj_field answers[] = {BJ_FIELD(":status", "200"), BJ_FIELD("server", "churn")};
  static uint8_t body[FIRST + MORE + 1];
  bj_end client = BJ_EMPTY_PLACE, server = BJ_EMPTY_PLACE;
  bj_config config;
  uint32_t stream, granted;
  size_t unsent;
  bj_config_default(&config);
  config.initial_window = sizeof(body);
  check("client", bj_client_new(&config, &client));
  check("server", bj_server_new(&config, &server));
  want("a window of nothing more", bj_widen(&client, 0), BJ_WINDOW_TOO_LARGE);
  check("widen", bj_widen(&client, MORE));
  check("granted", bj_granted(&client, &granted));
  want("what is granted", (int)granted, FIRST + MORE);
  check("request", bj_request(&client, asks, 4, BJ_NO_OCTETS, &stream));
  carry_kept(&client, &server);
  check("respond", bj_respond(&server, stream, answers, 2, body, sizeof(body)));
  want("what comes at once", (int)carry_kept(&server, &client), FIRST + MORE);
  check("unsent", bj_unsent(&server, stream, &unsent));
  want("what waits", (int)unsent, 1);
  check("release_all", bj_release_all(&client));
  carry_kept(&client, &server);
  want("what comes then", (int)carry_kept(&server, &client), 1);
  check("free", bj_free(&client));
  check("free", bj_free(&server));
}

/* Blocks of fields, encoded and decoded. */
static void blocks(void) {
  static const bj_field list[] = {BJ_FIELD(":status", "200"), BJ_FIELD("server", "churn")};
  bj_encoder encoder = BJ_EMPTY_PLACE;
  bj_decoder decoder = BJ_EMPTY_PLACE;
  bj_field fields[3];
  bj_span block;
  size_t count, said;
  want("a block of no encoder", bj_encode(&encoder, list, 2, &block), BJ_EMPTY);
  check("encoder", bj_encoder_new(4096, &encoder));
  check("decoder", bj_decoder_new(4096, &decoder));
  for (int i = 0; i < 2; i++) {
    check("encode", bj_encode(&encoder, list, 2, &block));
    check("decode", bj_decode(&decoder, block.octets, block.length, 1000, &count));
    check("decoded", bj_decoded(&decoder, 0, fields, 3, &said));
    want("fields", (int)count, 2);
    want("fields that are lent", (int)said, 2);
    want("a value", memcmp(fields[1].value, "churn", fields[1].value_length), 0);
  }
  want("a third field", bj_decoded_at(&decoder, 2, fields), BJ_NO_FIELD);
  want("no block", bj_decode(&decoder, (const uint8_t *)"\x80", 1, 1000, &count), BJ_COMPRESSION);
  want("a block after it", bj_decode(&decoder, BJ_NO_OCTETS, 1000, &count), BJ_DECODER_FAILED);
  check("free", bj_encoder_free(&encoder));
  check("free", bj_decoder_free(&decoder));
}

/* Carries all that waits from one connection to another, and says what came of a stream last. */
static void carry_bare(bj_conn *from, bj_conn *to, bj_report *last) {
  bj_span one, two;
  size_t taken;
  check("ready", bj_conn_ready(from));
  check("waiting", bj_conn_waiting(from, &one, &two));
  for (int i = 0; i < 2; i++) {
    const bj_span *span = i == 0 ? &one : &two;
    bj_report report;
    size_t at = 0;
    do {
      check("take", bj_conn_take(to, span->octets + at, span->length - at, &report));
      at += report.used;
      if (report.stream != 0)
        *last = report;
    } while (at < span->length || report.kind != BJ_NOTHING);
  }
  check("consume", bj_conn_consume(from, one.length + two.length, &taken));
}

/* The same, copied in pieces that are short; all that was counted comes, and is used. */
static void copy_bare(bj_conn *from, bj_conn *to, bj_report *last) {
  uint64_t before, after;
  size_t waits, all = 0, count;
  check("ping", bj_conn_ping(from, (const uint8_t *)"12345678"));
  check("ready", bj_conn_ready(from));
  check("waiting_count", bj_conn_waiting_count(from, &waits));
  check("place", bj_conn_place(to, &before));
  do {
    uint8_t piece[7];
    size_t at = 0;
    check("put_out", bj_conn_put_out(from, piece, sizeof(piece), &count));
    all += count;
    while (at < count) {
      bj_report report;
      check("take", bj_conn_take(to, piece + at, count - at, &report));
      at += report.used;
      if (report.stream != 0)
        *last = report;
    }
  } while (count > 0);
  check("place", bj_conn_place(to, &after));
  want("all that waited", waits >= 17 && all == waits, 1);
  want("all that was used", after - before == all, 1);
  check("waiting_count", bj_conn_waiting_count(from, &waits));
  want("what waits still", waits == 0, 1);
}

/* A request and its response over connections that know no messages. */
static void bare(const bj_config *config) {
  static const bj_field list[] = {BJ_FIELD("no", "message")};
  bj_conn client = BJ_EMPTY_PLACE, server = BJ_EMPTY_PLACE;
  bj_report last = {0};
  bj_field field;
  uint32_t stream;
  size_t sent;
  check("client", bj_conn_client(config, &client));
  check("server", bj_conn_server(config, &server));
  want("a stream at a server", bj_conn_refusal_to_open(&server, list, 1), BJ_STREAMS_EXHAUSTED);
  check("refusal_to_open", bj_conn_refusal_to_open(&client, list, 1));
  check("open", bj_conn_open(&client, list, 1, false, &stream));
  carry_bare(&client, &server, &last);
  want("fields", (int)last.kind, BJ_FIELDS);
  check("field_at", bj_conn_field_at(&server, 0, &field));
  want("a value", memcmp(field.value, "message", field.value_length), 0);
  check("send_data", bj_conn_send_data(&client, stream, (const uint8_t *)"octets", 6, true, &sent));
  carry_bare(&client, &server, &last);
  want("data", last.kind == BJ_DATA && last.length == 6 && last.flow == 6 && last.end == 1, 1);
  check("send_fields", bj_conn_send_fields(&server, stream, list, 1, true));
  carry_bare(&server, &client, &last);
  want("the answer", last.kind == BJ_FIELDS && last.end == 1, 1);
  copy_bare(&client, &server, &last);
  want("a stream that is over", bj_conn_is_active(&client, stream), 0);
  check("free", bj_conn_free(&client));
  check("free", bj_conn_free(&server));
}

static void join(const bj_config *config, const uint8_t *body) {
  static const bj_field asks[] = {BJ_FIELD(":method", "POST"), BJ_FIELD(":scheme", "http"),
                                  BJ_FIELD(":path", "/"), BJ_FIELD("user-agent", "churn")};
  static const bj_field answers[] = {BJ_FIELD(":status", "200"), BJ_FIELD("server", "churn")};
  struct message request = {0}, response = {0};
  bj_end client = BJ_EMPTY_PLACE, server = BJ_EMPTY_PLACE, unset = {NULL, 0x7f5a12345678};
  uint32_t stream;
  size_t sent;
  check("client", bj_client_new(config, &client));
  check("server", bj_server_new(config, &server));
  want("a second end", bj_server_new(config, &server), BJ_HELD);
  want("half a request", bj_request(&client, asks, 2, BJ_NO_OCTETS, &stream), BJ_PSEUDO_MISSING);
  want("a request of a server", bj_request(&server, asks, 4, BJ_NO_OCTETS, &stream), BJ_ROLE);
  check("request", bj_request(&client, asks, 4, body, BODY, &stream));
  check("set_user", bj_set_user(&client, stream, 1));
  carry(&client, &server, &request);
  want("the request's length", (int)request.length, BODY);
  check("respond", bj_respond(&server, request.stream, answers, 2, request.body, BODY));
  carry(&server, &client, &response);
  want("the response's length", (int)response.length, BODY);
  want("the response", memcmp(response.body, body, BODY) == 0 && response.whole, 1);
  in_parts(&client, &server, asks);
  check("free", bj_free(&client));
  check("free", bj_free(&server));
  want("a second free", bj_free(&server), BJ_EMPTY);
  want("a call of an empty place", bj_pump(&server, &sent), BJ_EMPTY);
  want("a call of a place that was never set", bj_pump(&unset, &sent), BJ_EMPTY);
}

int main(int count, char **words) {
  long times = count > 1 ? atol(words[1]) : 10000;
  uint8_t body[BODY];
  bj_config config;
  bj_config_default(&config);
  memset(body, 'b', sizeof(body));
  widened();
  size_t before = 0;
  for (long i = 0; i < START + times; i++) {
    if (i == START)
      before = mallinfo2().uordblks;
    join(&config, body);
    blocks();
    bare(&config);
  }
  size_t after = mallinfo2().uordblks;
  printf("%ld connections: %zu octets of the heap before, %zu after\n", times, before, after);
  return after != before;
}
