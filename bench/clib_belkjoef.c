/* The loop over belkjoef.h. */
#include "belkjoef.h"
#include "clib.h"
#include <stdio.h>

enum { PIECE = 1500, MOST = 65536 };

static bj_end end;
static uint8_t body_octets[MOST];

static int answer(uint32_t stream, size_t body, int in_parts) {
  static const bj_field head[] = {BJ_FIELD(":status", "200"), BJ_FIELD("server", "belkjoef"),
                                  BJ_FIELD("content-type", "text/plain")};
  size_t sent;
  if (!in_parts) return bj_respond(&end, stream, head, 3, body_octets, body);
  if (bj_begin_response(&end, stream, head, 3)) return 1;
  return bj_send_body(&end, stream, body_octets, body, true, &sent) || sent != body;
}

/* Puts out until nothing waits: a call of bj_pump ends where 65,536 octets of output do. */
static int put_out(struct served *out) {
  bj_span first, second;
  size_t sent, taken;
  do {
    if (bj_pump(&end, &sent) || bj_ready(&end) || bj_waiting(&end, &first, &second)) return 1;
    out->octets += first.length + second.length;
    if (bj_consume(&end, first.length + second.length, &taken)) return 1;
  } while (first.length + second.length > 0);
  return 0;
}

int serve(const uint8_t *octets, size_t n, size_t body, int in_parts, struct served *out) {
  size_t at = 0, start = held_now();
  bj_config config;
  bj_config_default(&config);
  config.max_streams = 1000;
  if (bj_server_new(&config, &end)) return 1;
  while (at < n) {
    size_t size = n - at < PIECE ? n - at : PIECE, from = at;
    int owes = 0;
    bj_event event;
    at += size;
    do {
      if (bj_take(&end, octets + from, at - from, &event)) return 1;
      from += event.used;
      owes |= event.kind == BJ_BODY;
      if (event.kind == BJ_RESET) return 1;
      if (event.end) {
        if (bj_is_full(&end) == 1 && put_out(out)) return 1;
        if (answer(event.stream, body, in_parts)) return 1;
        out->answers++;
      }
    } while (from < at || event.kind != BJ_NOTHING);
    if ((owes && bj_release_all(&end)) || put_out(out)) return 1;
  }
  out->held = held_now() - start;
  return bj_free(&end);
}
