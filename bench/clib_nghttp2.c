/* The loop over nghttp2's library. */
#include "clib.h"
#include <nghttp2/nghttp2.h>
#include <string.h>

enum { PIECE = 1500, MOST = 65536 };

static uint8_t body_octets[MOST];
static size_t body_length;

static ssize_t read_body(nghttp2_session *session, int32_t stream, uint8_t *octets, size_t room,
                         uint32_t *flags, nghttp2_data_source *source, void *served) {
  size_t sent = (size_t)(uintptr_t)nghttp2_session_get_stream_user_data(session, stream);
  size_t count = body_length - sent < room ? body_length - sent : room;
  (void)source;
  (void)served;
  memcpy(octets, body_octets + sent, count);
  sent += count;
  nghttp2_session_set_stream_user_data(session, stream, (void *)(uintptr_t)sent);
  if (sent == body_length) *flags |= NGHTTP2_DATA_FLAG_EOF;
  return (ssize_t)count;
}

#define FIELD(name, value) \
  {(uint8_t *)name, (uint8_t *)value, sizeof name - 1, sizeof value - 1, NGHTTP2_NV_FLAG_NONE}

static int on_frame(nghttp2_session *session, const nghttp2_frame *frame, void *served) {
  static const nghttp2_nv head[] = {FIELD(":status", "200"), FIELD("server", "belkjoef"),
                                    FIELD("content-type", "text/plain")};
  nghttp2_data_provider provider = {{0}, read_body};
  if (frame->hd.type != NGHTTP2_HEADERS && frame->hd.type != NGHTTP2_DATA) return 0;
  if (!(frame->hd.flags & NGHTTP2_FLAG_END_STREAM)) return 0;
  ((struct served *)served)->answers++;
  return nghttp2_submit_response(session, frame->hd.stream_id, head, 3, &provider);
}

int serve(const uint8_t *octets, size_t n, size_t body, int in_parts, struct served *out) {
  nghttp2_settings_entry values[] = {{NGHTTP2_SETTINGS_MAX_CONCURRENT_STREAMS, 1000}};
  nghttp2_session_callbacks *callbacks;
  nghttp2_session *session;
  size_t at = 0, start = held_now();
  (void)in_parts;
  body_length = body;
  if (nghttp2_session_callbacks_new(&callbacks)) return 1;
  nghttp2_session_callbacks_set_on_frame_recv_callback(callbacks, on_frame);
  if (nghttp2_session_server_new(&session, callbacks, out)) return 1;
  nghttp2_submit_settings(session, NGHTTP2_FLAG_NONE, values, 1);
  while (at < n) {
    size_t size = n - at < PIECE ? n - at : PIECE;
    const uint8_t *output;
    ssize_t count;
    if (nghttp2_session_mem_recv(session, octets + at, size) != (ssize_t)size) return 1;
    at += size;
    while ((count = nghttp2_session_mem_send(session, &output)) > 0)
      out->octets += (uint64_t)count;
  }
  out->held = held_now() - start;
  nghttp2_session_del(session);
  nghttp2_session_callbacks_del(callbacks);
  return 0;
}
