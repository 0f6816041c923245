/* The same over nghttp2. */
#include <nghttp2/nghttp2.h>
#include <stdlib.h>
#include <string.h>
#include "measure.h"

enum { MAX_FIELDS = 4096, MAX_BLOCK = 1 << 20 };

static uint32_t number(const uint8_t *octets) {
  return (uint32_t)octets[0] << 24 | (uint32_t)octets[1] << 16 | (uint32_t)octets[2] << 8 |
         octets[3];
}

int measure_encode(const uint8_t *lists, size_t n, uint32_t rounds, struct counts *out) {
  static nghttp2_nv fields[MAX_FIELDS];
  static uint8_t block[MAX_BLOCK];
  while (rounds--) {
    nghttp2_hd_deflater *encoder;
    size_t at = 0;
    if (nghttp2_hd_deflate_new(&encoder, 4096)) return 1;
    while (at + 4 <= n) {
      size_t k, count = number(lists + at);
      ssize_t size;
      at += 4;
      if (count > MAX_FIELDS) return 1;
      for (k = 0; k < count; k++) {
        fields[k].namelen = number(lists + at);
        fields[k].name = (uint8_t *)lists + at + 4;
        at += 4 + fields[k].namelen;
        fields[k].valuelen = number(lists + at);
        fields[k].value = (uint8_t *)lists + at + 4;
        at += 4 + fields[k].valuelen;
        fields[k].flags = NGHTTP2_NV_FLAG_NONE;
      }
      size = nghttp2_hd_deflate_hd(encoder, block, sizeof block, fields, count);
      if (size < 0) return 1;
      out->octets += (uint64_t)size;
      out->units += count;
    }
    nghttp2_hd_deflate_del(encoder);
  }
  return 0;
}

static int decode_block(nghttp2_hd_inflater *decoder, const uint8_t *block, size_t left,
                        struct counts *out) {
  for (;;) {
    nghttp2_nv field;
    int flags = 0;
    ssize_t used = nghttp2_hd_inflate_hd2(decoder, &field, &flags, block, left, 1);
    if (used < 0) return 1;
    block += used;
    left -= (size_t)used;
    if (flags & NGHTTP2_HD_INFLATE_EMIT) {
      out->units++;
      out->octets += field.namelen + field.valuelen;
    } else if ((flags & NGHTTP2_HD_INFLATE_FINAL) || left == 0) {
      nghttp2_hd_inflate_end_headers(decoder);
      return 0;
    }
  }
}

int measure_decode(const uint8_t *blocks, size_t n, uint32_t rounds, struct counts *out) {
  while (rounds--) {
    nghttp2_hd_inflater *decoder;
    size_t at = 0;
    if (nghttp2_hd_inflate_new(&decoder)) return 1;
    while (at + 4 <= n) {
      size_t size = number(blocks + at);
      if (decode_block(decoder, blocks + at + 4, size, out)) return 1;
      at += 4 + size;
    }
    nghttp2_hd_inflate_del(decoder);
  }
  return 0;
}

/* nghttp2 lends its fields one by one. */
int measure_decode_into(const uint8_t *blocks, size_t n, uint32_t rounds, struct counts *out) {
  return measure_decode(blocks, n, rounds, out);
}

static int on_frame(nghttp2_session *session, const nghttp2_frame *frame, void *counts) {
  (void)session;
  (void)frame;
  ((struct counts *)counts)->units++;
  return 0;
}

int measure_cut(const uint8_t *octets, size_t n, size_t piece, uint32_t rounds,
                struct counts *out) {
  nghttp2_session_callbacks *callbacks;
  nghttp2_option *option;
  if (nghttp2_session_callbacks_new(&callbacks) || nghttp2_option_new(&option)) return 1;
  nghttp2_session_callbacks_set_on_frame_recv_callback(callbacks, on_frame);
  nghttp2_option_set_no_auto_ping_ack(option, 1);
  while (rounds--) {
    nghttp2_session *session;
    size_t at = 0;
    if (nghttp2_session_server_new2(&session, callbacks, out, option)) return 1;
    nghttp2_submit_settings(session, NGHTTP2_FLAG_NONE, NULL, 0);
    while (at < n) {
      size_t size = n - at < piece ? n - at : piece;
      const uint8_t *output;
      if (nghttp2_session_mem_recv(session, octets + at, size) != (ssize_t)size) return 1;
      at += size;
      while (nghttp2_session_want_write(session) &&
             nghttp2_session_mem_send(session, &output) > 0) {
      }
    }
    nghttp2_session_del(session);
  }
  nghttp2_session_callbacks_del(callbacks);
  nghttp2_option_del(option);
  return 0;
}

static size_t body_length; /* of each answer */

static ssize_t frame_length(nghttp2_session *session, uint8_t type, int32_t stream,
                            int32_t session_window, int32_t stream_window, uint32_t most,
                            void *counts) {
  int32_t window = session_window < stream_window ? session_window : stream_window;
  (void)session;
  (void)type;
  (void)stream;
  (void)counts;
  if (most > 65536) most = 65536;
  return window < (int32_t)most ? window : (ssize_t)most;
}

static ssize_t read_answer(nghttp2_session *session, int32_t stream, uint8_t *octets, size_t room,
                           uint32_t *flags, nghttp2_data_source *source, void *counts) {
  size_t left = body_length - (size_t)(uintptr_t)nghttp2_session_get_stream_user_data(session, stream);
  size_t count = left < room ? left : room;
  (void)source;
  (void)counts;
  memset(octets, 'a', count);
  nghttp2_session_set_stream_user_data(session, stream,
                                       (void *)(uintptr_t)(body_length - left + count));
  if (count == left) *flags |= NGHTTP2_DATA_FLAG_EOF;
  return (ssize_t)count;
}

#define FIELD(name, value) \
  {(uint8_t *)name, (uint8_t *)value, sizeof name - 1, sizeof value - 1, NGHTTP2_NV_FLAG_NONE}

static int on_request(nghttp2_session *session, const nghttp2_frame *frame, void *counts) {
  static const nghttp2_nv fields[] = {FIELD(":status", "200"), FIELD("content-type", "text/plain"),
                                      FIELD("content-length", "1000")};
  static const nghttp2_nv long_fields[] = {FIELD(":status", "200"),
                                           FIELD("content-type", "text/plain"),
                                           FIELD("content-length", "65536")};
  nghttp2_data_provider provider = {{0}, read_answer};
  if (frame->hd.type != NGHTTP2_HEADERS && frame->hd.type != NGHTTP2_DATA) return 0;
  if (!(frame->hd.flags & NGHTTP2_FLAG_END_STREAM)) return 0;
  ((struct counts *)counts)->units++;
  return nghttp2_submit_response(session, frame->hd.stream_id,
                                 body_length == 1000 ? fields : long_fields, 3, &provider);
}

/* Output is put out after each piece alone: a callback can't. */
int measure_serve(const uint8_t *octets, size_t n, size_t piece, size_t body, struct counts *out) {
  nghttp2_settings_entry values[] = {{NGHTTP2_SETTINGS_MAX_CONCURRENT_STREAMS, 1000},
                                     {NGHTTP2_SETTINGS_MAX_FRAME_SIZE, 1048576}};
  nghttp2_session_callbacks *callbacks;
  nghttp2_session *session;
  size_t at = 0;
  body_length = body;
  free(malloc(MARK));
  if (nghttp2_session_callbacks_new(&callbacks)) return 1;
  nghttp2_session_callbacks_set_on_frame_recv_callback(callbacks, on_request);
  nghttp2_session_callbacks_set_data_source_read_length_callback(callbacks, frame_length);
  if (nghttp2_session_server_new(&session, callbacks, out)) return 1;
  nghttp2_submit_settings(session, NGHTTP2_FLAG_NONE, values, 2);
  while (at < n) {
    size_t size = n - at < piece ? n - at : piece;
    const uint8_t *output;
    ssize_t given;
    if (nghttp2_session_mem_recv(session, octets + at, size) != (ssize_t)size) return 1;
    at += size;
    while ((given = nghttp2_session_mem_send(session, &output)) > 0) out->octets += (uint64_t)given;
  }
  free(malloc(MARK));
  nghttp2_session_del(session);
  nghttp2_session_callbacks_del(callbacks);
  return 0;
}
