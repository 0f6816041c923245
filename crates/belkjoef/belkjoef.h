/* Belkjoef: an HTTP/2 endpoint over cleartext that does no I/O itself (RFC 9113).
 *
 * An endpoint is the server or the client of one connection. It lives in a bj_end that the caller
 * owns and that holds one endpoint or is empty; a bj_end of zeros is empty. The caller reads and
 * writes: it passes what it has read to bj_take, piece by piece, and writes what bj_waiting lends.
 *
 * Return values. Every function that returns int returns 0 (BJ_OK), or a negative number if it is
 * refused or fails (bj_error_text has its text). Functions named bj_is_.. and bj_conn_is_.. return
 * 1 for yes and 0 for no, and BJ_EMPTY if the object is empty: compare with 1. All other results
 * are stored through the trailing pointers. They are stored if the function returns BJ_OK, and
 * otherwise only as documented; but counts of what was done (`sent`, `taken`, and `count` of
 * bj_fields, bj_put_out, bj_conn_fields, bj_conn_put_out, bj_decode and bj_decoded) and `user` are
 * 0 after any error. Results need not be initialized by the caller. Errors are listed in the order
 * in which they are checked: the first that applies is returned. Unless documented otherwise, an
 * error leaves everything unchanged. BJ_EMPTY comes first, in every function that takes an object,
 * except those that initialize it.
 *
 * Obligations of the caller. No pointer is null, and each is aligned for its type, even for zero
 * octets or fields: pass BJ_NO_OCTETS or BJ_NO_FIELDS then. A pointer followed by a length refers
 * to that many octets, or fields, which are readable, or writable if the pointer is not const, for
 * the duration of the call; what one call writes does not overlap with itself or with what it
 * reads. A bj_end is all zeros (BJ_EMPTY_PLACE) or as these functions left it; it is not copied and
 * then used twice. An object of one type (bj_end, bj_encoder, bj_decoder, bj_conn) is not passed as
 * another, which cannot be detected. An object is used by one thread at a time, and handing it to
 * another thread needs synchronization: a lock, or the start or join of a thread. No function is
 * called in a signal handler, or in the child of a fork of a multithreaded program. malloc, realloc
 * and free belong to one allocator, whose blocks are aligned to 16.
 *
 * Lifetimes. Pointers that are handed out are valid until the next call with the same object, and
 * not as arguments of that call: copy what an endpoint lends before passing it to the same
 * endpoint. Octets of a body that lie in the caller's piece may be passed. Lent memory is
 * read-only. What the caller passes is copied, unless it is written at once.
 *
 * The loop of an endpoint, for each piece that was read:
 *
 *   do {
 *     if (bj_take(&end, piece, length, &event) != BJ_OK) break; // write the output, and close
 *     piece += event.used, length -= event.used;
 *     // handle event.kind: bj_respond, ..
 *   } while (length > 0 || event.kind != BJ_NOTHING);
 *   bj_release_all(&end);
 *   do {
 *     bj_pump(&end, &sent);
 *     bj_ready(&end), bj_waiting(&end, &one, &two); // write some of both
 *     bj_consume(&end, written, &taken);
 *   } while (one.length + two.length > 0);
 */
#ifndef BELKJOEF_H
#define BELKJOEF_H

#include <stdbool.h>
#include <stddef.h>
#include <stdint.h>

#ifdef __cplusplus
extern "C" {
#endif

/* Lets compilers warn about null pointers. */
#if defined __GNUC__
#define BJ_CALL __attribute__((__nonnull__))
#else
#define BJ_CALL
#endif

/* The version of this header, and of the library: 0x00MMmmpp. */
#define BJ_VERSION UINT32_C(0x000100)
uint32_t bj_version(void);

/* ---- errors ---- */

enum {
  BJ_OK = 0,
  BJ_EMPTY = -1,    /* the object is empty */
  BJ_HELD = -2,     /* the object is already in use */
  BJ_ROLE = -3,     /* a server function called on a client, or a client function on a server */
  BJ_FAILED = -4,   /* the connection has failed */
  BJ_NO_FIELD = -5, /* no such field */
  BJ_NONE = -6,     /* no such value */
  BJ_BAD_CODE = -7, /* unknown error code */

  /* Values of a bj_config that are out of range. */
  BJ_TABLE_LIMIT = -11,    /* above 65,536 */
  BJ_INITIAL_WINDOW = -12, /* not from 1 to 2^31 - 1 */
  BJ_MAX_STREAMS = -13,    /* not from 100 to 1,000 */
  BJ_MAX_FRAME = -14,      /* not from 16,384 to 1,048,576 */

  /* Refusals of the connection. */
  BJ_CLOSED = -21,            /* the connection has failed */
  BJ_NO_SUCH_STREAM = -22,    /* the stream is idle or closed */
  BJ_ENDED = -23,             /* END_STREAM was already sent on the stream (bj_conn_send_.. only) */
  BJ_TOO_MANY_STREAMS = -24,  /* the peer allows no more concurrent streams (100 before its
                               * SETTINGS), or 1,000 are active */
  BJ_STREAMS_EXHAUSTED = -25, /* no stream number is left */
  BJ_GOING_AWAY = -26,        /* GOAWAY was sent or received */
  BJ_OUTPUT_FULL = -27,       /* 65,536 octets of output or more are waiting: write, and retry */
  BJ_PING_WAITS = -28,        /* the last PING is not answered yet */
  BJ_TOO_MANY_RESETS = -29,   /* 1,000 streams were already reset by this endpoint */
  BJ_LIST_TOO_LARGE = -30,    /* the field list is larger than allowed: 65,536 octets, except in
                               * bj_encode and bj_decode */
  BJ_NOT_OWED = -31,          /* the count is 0, or more than is owed on the stream */
  BJ_MEMORY = -32,            /* out of memory */
  BJ_SETTINGS_WAIT = -33,     /* the last SETTINGS are not acknowledged yet */
  BJ_WINDOW_TOO_LARGE = -34,  /* the count is 0, or would widen the window above 2^31 - 1 octets */

  /* Rules that a message breaks, the first of several. */
  BJ_BAD_NAME = -41,         /* a field name is empty or has a forbidden octet */
  BJ_BAD_VALUE = -42,        /* a field value has a forbidden octet, or a blank at either end */
  BJ_PSEUDO_PLACE = -43,     /* a pseudo-header field after a regular field, or in trailers */
  BJ_PSEUDO_UNKNOWN = -44,   /* a pseudo-header field that this message may not have */
  BJ_PSEUDO_TWICE = -45,     /* a pseudo-header field occurs twice */
  BJ_PSEUDO_MISSING = -46,   /* a required pseudo-header field is missing */
  BJ_BAD_METHOD = -47,       /* the method is not a token, or is CONNECT */
  BJ_BAD_PATH = -48,         /* the path neither begins with '/' nor is '*' with OPTIONS */
  BJ_BAD_STATUS = -49,       /* the status is not valid here */
  BJ_CONNECTION_FIELD = -50, /* a connection-specific field */
  BJ_BAD_LENGTH = -51,       /* content-length is invalid, or not the length of the body */
  BJ_BAD_ORDER = -52,        /* the parts of a received message are out of order */

  BJ_NOT_ASKED = -61, /* the stream has no request to answer, or no open message */
  BJ_ANSWERED = -62,  /* the request was answered already, or an answer was begun */

  BJ_COMPRESSION = -71,   /* the field block cannot be decoded */
  BJ_DECODER_FAILED = -72 /* an earlier block failed */
};

/* Stores the text of an error: a string that is never freed. */
BJ_CALL void bj_error_text(int error, const char **text);

/* ---- types ---- */

/* Settings of this endpoint (RFC 9113, section 6.5.2). */
typedef struct bj_config {
  uint32_t table_limit;    /* HEADER_TABLE_SIZE: 0 to 65,536 */
  uint32_t initial_window; /* INITIAL_WINDOW_SIZE: 1 to 2^31 - 1; above 65,535 used only as far as
                            * bj_widen has widened the connection's window */
  uint32_t max_streams;    /* MAX_CONCURRENT_STREAMS, of a server: 100 to 1,000 */
  uint32_t max_frame;      /* MAX_FRAME_SIZE: 16,384 to 1,048,576 */
} bj_config;

/* Holds an endpoint, or is empty. Its members are private. */
typedef struct bj_end {
  void *at;
  uint64_t state;
} bj_end;

/* A header or trailer field. */
typedef struct bj_field {
  const uint8_t *name;
  size_t name_length;
  const uint8_t *value;
  size_t value_length;
  uint32_t sensitive; /* nonzero: sent, or received, as a never-indexed field */
} bj_field;

/* A range of octets. */
typedef struct bj_span {
  const uint8_t *octets;
  size_t length;
} bj_span;

/* Events of bj_take. */
enum {
  BJ_NOTHING = 0,
  BJ_INTERIM = 1,     /* the head of an interim response (1xx): stream, fields */
  BJ_HEAD = 2,        /* the head of a message: stream, fields, end */
  BJ_BODY = 3,        /* octets of a body, possibly none: stream, octets, length, end */
  BJ_TRAILERS = 4,    /* trailers, which end a message: stream, fields, end (always 1) */
  BJ_RESET = 5,       /* a stream was reset before its messages were complete: stream, code, ours */
  BJ_UNPROCESSED = 6, /* the peer did not process this request, and will not: stream */
  BJ_GOAWAY = 7,      /* the peer processes no streams above this one: stream, code */
  BJ_ACKED = 8,       /* the peer acknowledged the settings of this endpoint */
  BJ_PONG = 9         /* the peer answered a PING: ping */
};

typedef struct bj_event {
  size_t used;     /* octets of the piece that were used */
  uint32_t kind;   /* one of the above */
  uint32_t stream; /* the stream number */
  uint32_t code;   /* an error code (RFC 9113, section 7) */
  uint32_t end;    /* 1 if the message is complete */
  uint32_t ours;   /* 1 if this endpoint reset the stream, 0 if the peer did */
  uint8_t ping[8];
  size_t fields; /* number of fields: see bj_field_at */
  const uint8_t *octets;
  size_t length;
  uintptr_t user; /* the user data of the stream (bj_set_user), or 0 */
} bj_event;

/* Initializer of an empty object. */
#define BJ_EMPTY_PLACE {NULL, 0}

/* Octets and fields from string literals, and empty arrays of both (aligned, never read). */
#ifdef __cplusplus
#define BJ_AT(type, place) (reinterpret_cast<const type *>(place))
#else
#define BJ_AT(type, place) ((const type *)(place))
#endif
#define BJ_TEXT(text) BJ_AT(uint8_t, "" text), (sizeof(text) - 1)
#define BJ_FIELD(name, value) {BJ_TEXT(name), BJ_TEXT(value), 0}
#define BJ_NO_OCTETS BJ_AT(uint8_t, ""), 0
#define BJ_NO_FIELDS BJ_AT(bj_field, sizeof(void *)), 0

/* ---- creating and freeing ---- */

/* Stores the default settings: 4,096, 65,535, 100 and 16,384. */
BJ_CALL void bj_config_default(bj_config *config);

/* Creates a server, or a client, in an empty bj_end. Its connection preface is queued as output.
 * BJ_HELD: the bj_end holds an endpoint, which is kept. BJ_TABLE_LIMIT, BJ_INITIAL_WINDOW,
 * BJ_MAX_STREAMS or BJ_MAX_FRAME: the value is out of range. BJ_MEMORY. */
BJ_CALL int bj_server_new(const bj_config *config, bj_end *end);
BJ_CALL int bj_client_new(const bj_config *config, bj_end *end);

/* Frees the endpoint and everything that it keeps; the bj_end is then empty. */
BJ_CALL int bj_free(bj_end *end);

/* ---- input ---- */

/* Takes octets that were read, up to the end of one frame, and stores at most one event. Call it
 * again with the unused octets until all are used and the event is BJ_NOTHING: an event need not
 * use any octets. The events of a stream are the parts of a message that has broken no rule so far.
 * The octets of a body are lent from the piece or from the endpoint, fields from the endpoint.
 * BJ_FAILED: the connection fails, or has failed, with the code in event->code. GOAWAY is queued as
 * output; write it, and close the transport. Code 2 (INTERNAL_ERROR) means out of memory, or that
 * bj_fail was called with it: see bj_why. Members that an event does not use are 0, except for
 * octets, which is the address that was passed, and user, which belongs to event->stream; after
 * BJ_EMPTY all others are 0. */
BJ_CALL int bj_take(bj_end *end, const uint8_t *octets, size_t length, bj_event *event);

/* Stores a field of the list that the last bj_take handed out, by its index, from 0. Call it before
 * the next bj_take: even one that hands out no fields replaces the list if it reads a field block
 * that is refused or ignored. BJ_NO_FIELD: the index is too large. */
BJ_CALL int bj_field_at(bj_end *end, size_t place, bj_field *field);

/* Stores the fields of that list, from an index on, and their count: as many as there are, and at
 * most `room`. */
BJ_CALL int bj_fields(bj_end *end, size_t from, bj_field *fields, size_t room, size_t *count);

/* Stores the value of the first field of that list with exactly this name.
 * BJ_NO_FIELD: there is none. */
BJ_CALL int bj_field_value(bj_end *end, const uint8_t *name, size_t name_length,
                           const uint8_t **value, size_t *length);

/* ---- complete messages ---- */

/* Responds to the request on a stream: the head, :status first, is queued as output, and the body
 * is kept for bj_pump. The request need not be complete.
 * BJ_ROLE: it is a client. BJ_MEMORY, for the copies. BJ_NOT_ASKED. BJ_ANSWERED. One of BJ_BAD_NAME
 * to BJ_BAD_LENGTH. BJ_CLOSED. BJ_OUTPUT_FULL. BJ_LIST_TOO_LARGE. BJ_MEMORY. */
BJ_CALL int bj_respond(bj_end *end, uint32_t stream, const bj_field *head, size_t head_count,
                       const uint8_t *body, size_t length);

/* Makes a request, and stores its stream: 1, 3, 5 and so on. The head, the four pseudo-header
 * fields first, is queued as output, and the body is kept for bj_pump.
 * BJ_ROLE: it is a server. BJ_MEMORY, for the copies. One of BJ_BAD_NAME to BJ_BAD_LENGTH.
 * BJ_CLOSED. BJ_TOO_MANY_STREAMS. BJ_STREAMS_EXHAUSTED. BJ_GOING_AWAY. BJ_OUTPUT_FULL.
 * BJ_LIST_TOO_LARGE. BJ_MEMORY. */
BJ_CALL int bj_request(bj_end *end, const bj_field *head, size_t head_count, const uint8_t *body,
                       size_t length, uint32_t *stream);

/* Queues DATA of the kept bodies as output, lower streams first, each as far as flow control
 * allows, until nothing more can be sent or 65,536 octets of output are waiting; stores how many
 * octets of bodies were queued.
 * BJ_CLOSED. BJ_MEMORY: what was queued stays queued. */
BJ_CALL int bj_pump(bj_end *end, size_t *sent);

/* As bj_pump, but in one round-robin pass that queues at most `most` octets of each stream (0
 * counts as 1, more than 65,536 as 65,536), so that no long body keeps the others waiting. If a
 * share is cut short because 65,536 octets of output are waiting or the window of the connection is
 * used up, the next pass begins with the remainder of that share.
 * BJ_CLOSED. BJ_MEMORY: what was queued stays queued. */
BJ_CALL int bj_pump_some(bj_end *end, size_t most, size_t *sent);

/* ---- messages in parts ---- */

/* Begins a response, or a request on a new stream: the head is sent without END_STREAM; the body
 * and its end, or trailers, follow. Errors as for bj_respond and bj_request. The copies are kept
 * for the next head, and only names and values that differ from those at the same index are
 * copied: repeating a head allocates nothing for them. Lists of at most 64 fields and 8,192 octets,
 * counting 32 extra for each field, are kept, larger ones are not. */
BJ_CALL int bj_begin_response(bj_end *end, uint32_t stream, const bj_field *head,
                              size_t head_count);
BJ_CALL int bj_begin_request(bj_end *end, const bj_field *head, size_t head_count,
                             uint32_t *stream);

/* Sends octets of the body of a message that was begun, and ends the message if `ends` is set and
 * all of them were sent; stores how many were sent: as many as flow control allows, at most 65,536,
 * possibly none. The others are not kept: pass them again once output was written and bj_room is
 * above 0.
 * BJ_NOT_ASKED. BJ_BAD_LENGTH: the body would be longer than content-length, or end before it.
 * BJ_CLOSED. BJ_OUTPUT_FULL. BJ_MEMORY. */
BJ_CALL int bj_send_body(bj_end *end, uint32_t stream, const uint8_t *octets, size_t length,
                         bool ends, size_t *sent);

/* Sends trailers, which end the message. Their copies are kept for the next trailers, as for a
 * head.
 * BJ_MEMORY, for the copies. BJ_NOT_ASKED. BJ_BAD_NAME, BJ_BAD_VALUE, BJ_PSEUDO_PLACE,
 * BJ_CONNECTION_FIELD or BJ_BAD_LENGTH. BJ_CLOSED. BJ_OUTPUT_FULL. BJ_LIST_TOO_LARGE.
 * BJ_MEMORY. */
BJ_CALL int bj_send_trailers(bj_end *end, uint32_t stream, const bj_field *trailers, size_t count);

/* ---- streams and the connection ---- */

/* Returns flow-control credit for `count` octets that were handed out on a stream (WINDOW_UPDATE).
 * BJ_CLOSED. BJ_NO_SUCH_STREAM. BJ_OUTPUT_FULL. BJ_NOT_OWED. BJ_MEMORY. */
BJ_CALL int bj_release(bj_end *end, uint32_t stream, uint32_t count);

/* Returns all credit that is owed, on all streams. BJ_CLOSED. BJ_OUTPUT_FULL or BJ_MEMORY: what was
 * released stays released. A peer stalls unless one of these two functions is called. */
BJ_CALL int bj_release_all(bj_end *end);

/* Lets the peer send `count` octets more on the connection, for good (WINDOW_UPDATE on stream 0). A
 * connection begins with 65,535 octets, whatever bj_config says of streams, so a peer can send that
 * much per round trip. BJ_CLOSED. BJ_OUTPUT_FULL. BJ_WINDOW_TOO_LARGE: `count` is 0, or above
 * 2^31 - 1 less what bj_granted stores. BJ_MEMORY. */
BJ_CALL int bj_widen(bj_end *end, uint32_t count);

/* Resets a stream with an error code, and discards what is kept for it.
 * BJ_CLOSED. BJ_NO_SUCH_STREAM. BJ_OUTPUT_FULL. BJ_TOO_MANY_RESETS. BJ_MEMORY. */
BJ_CALL int bj_reset(bj_end *end, uint32_t stream, uint32_t code);

/* Sends PING. BJ_CLOSED. BJ_OUTPUT_FULL. BJ_PING_WAITS. BJ_MEMORY. */
BJ_CALL int bj_ping(bj_end *end, const uint8_t octets[8]);

/* Sends GOAWAY, after which the peer opens no further streams. BJ_CLOSED. BJ_GOING_AWAY: it was
 * sent already. BJ_OUTPUT_FULL. BJ_MEMORY. */
BJ_CALL int bj_go_away(bj_end *end);

/* Fails the connection with an error code (RFC 9113, section 7): GOAWAY with that code is the last
 * frame of the output. BJ_BAD_CODE: the code is above 13. BJ_CLOSED. */
BJ_CALL int bj_fail(bj_end *end, uint32_t code);

/* Changes the settings of this endpoint. The first error of the bj_config; BJ_CLOSED.
 * BJ_OUTPUT_FULL. BJ_SETTINGS_WAIT. BJ_MEMORY. */
BJ_CALL int bj_change_settings(bj_end *end, const bj_config *config);

/* ---- output ---- */

/* Completes the output: call it before bj_waiting, which may otherwise lack frames. BJ_MEMORY. */
BJ_CALL int bj_ready(bj_end *end);

/* Lends the first two parts of the output, in order. Both are empty only if no output is waiting.
 * There may be more: call it again once these were consumed. */
BJ_CALL int bj_waiting(bj_end *end, bj_span *first, bj_span *second);

/* Removes up to `count` octets, which were written, from the output; stores how many were removed.
 * BJ_MEMORY, but not after bj_ready with no call in between that changes the endpoint. */
BJ_CALL int bj_consume(bj_end *end, size_t count, size_t *taken);

/* Moves up to `room` octets of the output to the buffer; stores how many. BJ_MEMORY. */
BJ_CALL int bj_put_out(bj_end *end, uint8_t *buffer, size_t room, size_t *count);

/* ---- queries: none of them allocates ---- */

/* Whether 65,536 octets of output or more are waiting, so that calls that send are refused. */
BJ_CALL int bj_is_full(bj_end *end);

/* Whether no output is waiting, and no stream is active or the connection has failed. */
BJ_CALL int bj_is_drained(bj_end *end);

/* Whether the connection has not failed, no output is waiting, no credit is owed, and nothing kept
 * can be sent. */
BJ_CALL int bj_is_quiet(bj_end *end);

/* Whether a stream is active: open or half-closed. A failed connection does not change that. */
BJ_CALL int bj_is_active(bj_end *end, uint32_t stream);

/* Stores the error code with which the connection failed. BJ_NONE: it has not failed. */
BJ_CALL int bj_failed(bj_end *end, uint32_t *code);

/* Why a connection has failed. */
enum {
  BJ_WHY_BAD_PREFACE = 1, /* the connection preface is wrong */
  BJ_WHY_FRAME_TOO_LONG = 2, /* a frame is longer than the limit */
  BJ_WHY_PUSH_PROMISE = 3, /* PUSH_PROMISE, though push is disabled */
  BJ_WHY_WRONG_STREAM = 4, /* a frame on a stream that its type does not allow */
  BJ_WHY_WRONG_LENGTH = 5, /* a frame of a length that its type and flags do not allow */
  BJ_WHY_PADDING_TOO_LONG = 6, /* padding longer than the payload leaves room for */
  BJ_WHY_FIRST_FRAME_NOT_SETTINGS = 7, /* the first frame is not SETTINGS */
  BJ_WHY_BLOCK_INTERRUPTED = 8, /* another frame interrupts a field block */
  BJ_WHY_STRAY_CONTINUATION = 9, /* CONTINUATION outside a field block */
  BJ_WHY_BLOCK_TOO_LONG = 10, /* a field block of more than 65,552 octets */
  BJ_WHY_BLOCK_NOT_DECODED = 11, /* a field block cannot be decoded */
  BJ_WHY_FRAME_ON_IDLE_STREAM = 12, /* a frame other than HEADERS or PRIORITY on an idle stream */
  BJ_WHY_DATA_ON_CLOSED_STREAM = 13, /* DATA on a closed stream */
  BJ_WHY_BLOCK_ON_CLOSED_STREAM = 14, /* HEADERS on a closed stream */
  BJ_WHY_BLOCK_ON_IDLE_NUMBER = 15, /* HEADERS on an idle stream that the peer may not open */
  BJ_WHY_DATA_ABOVE_CONNECTION_WINDOW = 16, /* DATA exceeds the connection's window */
  BJ_WHY_DATA_ABOVE_STREAM_WINDOW = 17, /* DATA exceeds the stream's window */
  BJ_WHY_ZERO_CONNECTION_INCREMENT = 18, /* WINDOW_UPDATE of 0 on the connection */
  BJ_WHY_CONNECTION_WINDOW_TOO_LARGE = 19, /* the connection's window exceeds 2^31 - 1 */
  BJ_WHY_BAD_ENABLE_PUSH = 20, /* ENABLE_PUSH is above 1, or 1 from a server */
  BJ_WHY_BAD_INITIAL_WINDOW = 21, /* INITIAL_WINDOW_SIZE is above 2^31 - 1 */
  BJ_WHY_BAD_MAX_FRAME_SIZE = 22, /* MAX_FRAME_SIZE is not from 16,384 to 2^24 - 1 */
  BJ_WHY_SHIFT_TOO_LARGE = 23, /* INITIAL_WINDOW_SIZE brings a stream's window above 2^31 - 1 */
  BJ_WHY_TOO_MANY_RESETS = 24, /* 1,001 streams would have been reset */
  BJ_WHY_TOO_MUCH_OUTPUT = 25, /* replies exceed 262,144 octets of waiting output */
  BJ_WHY_OUT_OF_MEMORY = 26, /* out of memory, or bj_conn_refuse was called with code 2 */
  BJ_WHY_ENDED_ABOVE = 27 /* bj_fail or bj_conn_fail was called */
};

/* Stores why the connection failed: one of the above (bj_failed has the error code). BJ_NONE: it
 * has not failed. */
BJ_CALL int bj_why(bj_end *end, uint32_t *why);

/* Stores the text of such a reason: a string that is never freed. */
BJ_CALL void bj_why_text(uint32_t why, const char **text);

/* Stores the stream of the last malformed message that was received, and the rule that it breaks:
 * one of BJ_BAD_NAME to BJ_BAD_ORDER. BJ_NONE: there was none. Works after a failure too. */
BJ_CALL int bj_last_malformed(bj_end *end, uint32_t *stream, int *error);

/* Stores the payload length of the last DATA frame, padding included; 0 before the first. After
 * BJ_BODY, pass it to bj_release once the octets are used, if it is not 0 and the stream is still
 * active. */
BJ_CALL int bj_last_flow(bj_end *end, uint32_t *flow);

/* Stores the number of valid RST_STREAM frames received from the peer, at most 2^32 - 1. There is
 * no limit on them: call bj_fail if the peer opens streams only to reset them at once. Works after
 * a failure too. */
BJ_CALL int bj_resets_received(bj_end *end, uint32_t *count);

/* Stores the number of empty frames received from the peer, at most 2^32 - 1: DATA without
 * END_STREAM, and HEADERS and CONTINUATION without END_HEADERS, that carry no octets besides
 * padding. Works after a failure too. */
BJ_CALL int bj_empty_frames_received(bj_end *end, uint32_t *count);

/* Store the number of PING, or SETTINGS, frames without ACK received from the peer, at most
 * 2^32 - 1. Waiting replies to them count toward the limit of the output; a peer that reads the
 * replies is not limited. Work after a failure too. */
BJ_CALL int bj_pings_received(bj_end *end, uint32_t *count);
BJ_CALL int bj_settings_received(bj_end *end, uint32_t *count);

/* Stores the stream of an incomplete field block: HEADERS without END_HEADERS was received, and
 * END_HEADERS was not. BJ_NONE: no block is incomplete, or the connection has failed. */
BJ_CALL int bj_block_stream(bj_end *end, uint32_t *stream);

/* Settings of the peer (RFC 9113, section 6.5.2). */
typedef struct bj_settings {
  uint32_t initial_window; /* INITIAL_WINDOW_SIZE */
  uint32_t max_frame;      /* MAX_FRAME_SIZE */
} bj_settings;

/* Stores the current settings of the peer: those received last, and 65,535 and 16,384 before any.
 * They are meaningless once the connection has failed. */
BJ_CALL int bj_peer_settings(bj_end *end, bj_settings *settings);

/* Stores the send window of a stream, or of the connection (stream 0), in octets; it is negative if
 * SETTINGS have reduced it so. BJ_NONE: the stream is not active, or the connection has failed. */
BJ_CALL int bj_room(bj_end *end, uint32_t stream, int64_t *room);

/* Stores how many octets of a stream were handed out and are not released yet; 0 once the
 * connection has failed. */
BJ_CALL int bj_owed(bj_end *end, uint32_t stream, uint32_t *owed);

/* Stores how many octets the peer may send on the connection before any of them is returned: 65,535,
 * and what bj_widen has added; 0 once the connection has failed. */
BJ_CALL int bj_granted(bj_end *end, uint32_t *granted);

/* Stores how many octets of the body given for a stream are kept for bj_pump, also once the
 * connection has failed. */
BJ_CALL int bj_unsent(bj_end *end, uint32_t stream, size_t *unsent);

/* Stores the lowest active stream above a number. BJ_NONE: there is none, or the connection has
 * failed. */
BJ_CALL int bj_next_live(bj_end *end, uint32_t above, uint32_t *stream);

/* ---- user data ---- */

/* Attaches a value of the caller's, such as a pointer, to a stream; 0 removes it. It stays until
 * then, or until the endpoint is freed, even after the stream is closed. Any stream number may be
 * used; the value of stream 0 comes with events that have no stream. The values cannot be
 * enumerated: keep a list of what must be freed when a connection fails. BJ_MEMORY: only if the
 * stream had no value. */
BJ_CALL int bj_set_user(bj_end *end, uint32_t stream, uintptr_t user);

/* Stores the value attached to a stream, or 0. */
BJ_CALL int bj_user(bj_end *end, uint32_t stream, uintptr_t *user);

/* ---- field blocks alone (HPACK, RFC 7541) ----
 *
 * An endpoint encodes and decodes by itself; these are for callers with a framing layer of their
 * own. The rules of a bj_end apply: all zeros or as these functions left it, one thread at a time,
 * and what is lent is valid until the next call with the same object. BJ_EMPTY: it is empty. */

/* Holds an encoder, or is empty. Its members are private. */
typedef struct bj_encoder {
  void *at;
  uint64_t state;
} bj_encoder;

/* Creates an encoder in an empty bj_encoder, with an empty dynamic table whose maximum size and
 * limit are `maximum` octets: 4,096 for a new connection. It allocates maximum / 32 entries.
 * BJ_HELD: the object holds one, which is kept. BJ_MEMORY. */
BJ_CALL int bj_encoder_new(uint32_t maximum, bj_encoder *encoder);

/* Frees the encoder; the bj_encoder is then empty. */
BJ_CALL int bj_encoder_free(bj_encoder *encoder);

/* Applies the peer's SETTINGS_HEADER_TABLE_SIZE; the next block signals the change. That block
 * allocates limit / 32 entries, so cap what a peer asks for. */
BJ_CALL int bj_encoder_set_limit(bj_encoder *encoder, uint32_t limit);

/* Encodes fields, and lends the block. The fields are copied, as those of bj_begin_request are. The
 * decoder must be given each block, in order, since the next one builds on it.
 * BJ_MEMORY, for the copies. BJ_LIST_TOO_LARGE: the fields have 2^35 octets or more, counting 32
 * extra for each. BJ_MEMORY. An error leaves *block and the encoder unchanged, but not the octets
 * that were lent before. */
BJ_CALL int bj_encode(bj_encoder *encoder, const bj_field *fields, size_t field_count,
                      bj_span *block);

/* Holds a decoder, or is empty. Its members are private. */
typedef struct bj_decoder {
  void *at;
  uint64_t state;
} bj_decoder;

/* Creates a decoder in an empty bj_decoder, with an empty dynamic table whose maximum size and
 * limit are `maximum` octets: 4,096 for a new connection. It allocates maximum / 32 entries.
 * BJ_HELD: the object holds one, which is kept. BJ_MEMORY. */
BJ_CALL int bj_decoder_new(uint32_t maximum, bj_decoder *decoder);

/* Frees the decoder; the bj_decoder is then empty. */
BJ_CALL int bj_decoder_free(bj_decoder *decoder);

/* Sets the limit of the table, which applies to size updates in later blocks: call it once the peer
 * has acknowledged the SETTINGS with this value. */
BJ_CALL int bj_decoder_set_limit(bj_decoder *decoder, uint32_t limit);

/* Decodes a complete block into the decoder's list, and stores the number of its fields.
 * BJ_DECODER_FAILED: an earlier block failed. BJ_COMPRESSION (the block cannot be decoded) or
 * BJ_MEMORY, whichever occurs first: the decoder has then failed for good. BJ_LIST_TOO_LARGE: the
 * fields have more than list_limit octets, counting 32 extra for each; the block has updated the
 * table, and the next one can be decoded.
 * The list is empty after any of the four. */
BJ_CALL int bj_decode(bj_decoder *decoder, const uint8_t *block, size_t length,
                      uint32_t list_limit, size_t *count);

/* Stores a field of the list that was decoded last, by its index, from 0.
 * BJ_NO_FIELD: the index is too large. */
BJ_CALL int bj_decoded_at(bj_decoder *decoder, size_t place, bj_field *field);

/* Stores the fields of the list that was decoded last, from an index on, and their count: as many
 * as there are, and at most `room`. */
BJ_CALL int bj_decoded(bj_decoder *decoder, size_t from, bj_field *fields, size_t room,
                       size_t *count);

/* ---- a connection without the rules of messages ----
 *
 * An endpoint that reports fields and DATA as they arrive and does not check messages (HTTP/2
 * without RFC 9113, section 8), for callers with rules of their own. Its functions are those of a
 * bj_end, with the same errors, results and lifetimes. BJ_EMPTY: it is empty. */

/* Holds a connection, or is empty. Its members are private. */
typedef struct bj_conn {
  void *at;
  uint64_t state;
} bj_conn;

/* Events of bj_conn_take, besides BJ_RESET, BJ_UNPROCESSED, BJ_GOAWAY, BJ_ACKED and BJ_PONG. */
enum {
  BJ_FIELDS = 10, /* a field section: stream, fields, end */
  BJ_DATA = 11    /* octets of a body: stream, octets, length, flow, end */
};

typedef struct bj_report {
  size_t used;     /* octets of the piece that were used */
  uint32_t kind;   /* one of the above */
  uint32_t stream; /* the stream number */
  uint32_t code;   /* an error code (RFC 9113, section 7) */
  uint32_t end;    /* 1 if the peer ended the stream */
  uint32_t ours;   /* 1 if this endpoint reset the stream, 0 if the peer did */
  uint8_t ping[8];
  size_t fields; /* number of fields: see bj_conn_field_at */
  const uint8_t *octets;
  size_t length;
  uint32_t flow; /* payload length, padding included: pass it to bj_conn_release once the octets
                  * are used, unless it is 0 or the stream is closed */
} bj_report;

/* Creates the connection of a server, or of a client, in an empty bj_conn. Its connection preface
 * is queued as output. BJ_HELD: the object holds one, which is kept. BJ_TABLE_LIMIT,
 * BJ_INITIAL_WINDOW, BJ_MAX_STREAMS or BJ_MAX_FRAME: the value is out of range. BJ_MEMORY. */
BJ_CALL int bj_conn_server(const bj_config *config, bj_conn *conn);
BJ_CALL int bj_conn_client(const bj_config *config, bj_conn *conn);

/* Frees the connection; the bj_conn is then empty. */
BJ_CALL int bj_conn_free(bj_conn *conn);

/* Takes octets that were read, as bj_take does, and stores at most one event.
 * BJ_FAILED: the connection fails, or has failed, with the code in report->code. Members that an
 * event does not use are 0, except for octets, which is the address that was passed. */
BJ_CALL int bj_conn_take(bj_conn *conn, const uint8_t *octets, size_t length, bj_report *report);

/* Store a field, or fields, of the list that the last bj_conn_take reported, as bj_field_at and
 * bj_fields do: call them before the next bj_conn_take.
 * BJ_NO_FIELD: the index is too large. */
BJ_CALL int bj_conn_field_at(bj_conn *conn, size_t place, bj_field *field);
BJ_CALL int bj_conn_fields(bj_conn *conn, size_t from, bj_field *fields, size_t room,
                           size_t *count);

/* Opens a stream with a field section, and stores the stream: 1, 3, 5 and so on. If `ends` is set,
 * END_STREAM is sent. The copies are kept, as those of bj_begin_request are.
 * BJ_MEMORY, for the copies. BJ_CLOSED. BJ_TOO_MANY_STREAMS. BJ_STREAMS_EXHAUSTED, always for a
 * server. BJ_GOING_AWAY. BJ_OUTPUT_FULL. BJ_LIST_TOO_LARGE. BJ_MEMORY. */
BJ_CALL int bj_conn_open(bj_conn *conn, const bj_field *fields, size_t field_count, bool ends,
                         uint32_t *stream);

/* Returns the error that bj_conn_open would return with these fields, except for its last
 * BJ_MEMORY, and BJ_OK if there is none. Nothing is opened or sent; the copies are kept as there.
 * BJ_MEMORY, for the copies. BJ_CLOSED. BJ_TOO_MANY_STREAMS. BJ_STREAMS_EXHAUSTED, always for a
 * server. BJ_GOING_AWAY. BJ_OUTPUT_FULL. BJ_LIST_TOO_LARGE. */
BJ_CALL int bj_conn_refusal_to_open(bj_conn *conn, const bj_field *fields, size_t field_count);

/* Sends a further field section on a stream: that of a response, or trailers.
 * BJ_MEMORY, for the copies. BJ_CLOSED. BJ_NO_SUCH_STREAM. BJ_ENDED. BJ_OUTPUT_FULL.
 * BJ_LIST_TOO_LARGE. BJ_MEMORY. */
BJ_CALL int bj_conn_send_fields(bj_conn *conn, uint32_t stream, const bj_field *fields,
                                size_t field_count, bool ends);

/* Sends as many octets as flow control allows, at most 65,536; stores how many. If all were sent
 * and `ends` is set, END_STREAM is sent with them.
 * BJ_CLOSED. BJ_NO_SUCH_STREAM. BJ_ENDED. BJ_OUTPUT_FULL. BJ_MEMORY. On error *sent is 0. */
BJ_CALL int bj_conn_send_data(bj_conn *conn, uint32_t stream, const uint8_t *octets,
                              size_t length, bool ends, size_t *sent);

/* Returns flow-control credit for `count` octets that were reported on a stream (WINDOW_UPDATE).
 * BJ_CLOSED. BJ_NO_SUCH_STREAM. BJ_OUTPUT_FULL. BJ_NOT_OWED. BJ_MEMORY. */
BJ_CALL int bj_conn_release(bj_conn *conn, uint32_t stream, uint32_t count);

/* As bj_widen, with the same errors. */
BJ_CALL int bj_conn_widen(bj_conn *conn, uint32_t count);

/* Resets a stream with an error code.
 * BJ_CLOSED. BJ_NO_SUCH_STREAM. BJ_OUTPUT_FULL. BJ_TOO_MANY_RESETS. BJ_MEMORY. */
BJ_CALL int bj_conn_reset(bj_conn *conn, uint32_t stream, uint32_t code);

/* Resets a stream for a stream error of the peer that the caller has found. Code 2 (INTERNAL_ERROR)
 * means that the caller is out of memory, and fails the connection. The connection also fails with
 * ENHANCE_YOUR_CALM if 1,000 streams were already reset or the output would exceed 262,144 octets,
 * and with INTERNAL_ERROR if out of memory. In these cases BJ_OK is returned, bj_conn_failed
 * reports the failure, and the next bj_conn_take returns BJ_FAILED. BJ_CLOSED. Unless the code is
 * 2: BJ_NO_SUCH_STREAM. */
BJ_CALL int bj_conn_refuse(bj_conn *conn, uint32_t stream, uint32_t code);

/* As bj_ping, bj_go_away, bj_fail and bj_change_settings, with the same errors. */
BJ_CALL int bj_conn_ping(bj_conn *conn, const uint8_t octets[8]);
BJ_CALL int bj_conn_go_away(bj_conn *conn);
BJ_CALL int bj_conn_fail(bj_conn *conn, uint32_t code);
BJ_CALL int bj_conn_change_settings(bj_conn *conn, const bj_config *config);

/* Output, as bj_ready, bj_waiting, bj_consume and bj_put_out. BJ_MEMORY, except from
 * bj_conn_waiting, and from bj_conn_consume after bj_conn_ready with no call in between that
 * changes the connection. If bj_conn_put_out fails, the buffer is unchanged. */
BJ_CALL int bj_conn_ready(bj_conn *conn);
BJ_CALL int bj_conn_waiting(bj_conn *conn, bj_span *first, bj_span *second);
BJ_CALL int bj_conn_consume(bj_conn *conn, size_t count, size_t *taken);
BJ_CALL int bj_conn_put_out(bj_conn *conn, uint8_t *buffer, size_t room, size_t *count);

/* Stores how many octets of output are waiting: at most 262,144, or 262,161 with the GOAWAY of a
 * failed connection. What bj_conn_ready would add is not counted. */
BJ_CALL int bj_conn_waiting_count(bj_conn *conn, size_t *count);

/* Queries, as those of a bj_end without conn_ in their names. BJ_NONE: there is none. */
BJ_CALL int bj_conn_is_active(bj_conn *conn, uint32_t stream);
BJ_CALL int bj_conn_failed(bj_conn *conn, uint32_t *code);
BJ_CALL int bj_conn_why(bj_conn *conn, uint32_t *why);
BJ_CALL int bj_conn_last_flow(bj_conn *conn, uint32_t *flow);
BJ_CALL int bj_conn_resets_received(bj_conn *conn, uint32_t *count);
BJ_CALL int bj_conn_empty_frames_received(bj_conn *conn, uint32_t *count);
BJ_CALL int bj_conn_pings_received(bj_conn *conn, uint32_t *count);
BJ_CALL int bj_conn_settings_received(bj_conn *conn, uint32_t *count);
BJ_CALL int bj_conn_block_stream(bj_conn *conn, uint32_t *stream);
BJ_CALL int bj_conn_peer_settings(bj_conn *conn, bj_settings *settings);
BJ_CALL int bj_conn_room(bj_conn *conn, uint32_t stream, int64_t *room);
BJ_CALL int bj_conn_owed(bj_conn *conn, uint32_t stream, uint32_t *owed);
BJ_CALL int bj_conn_next_live(bj_conn *conn, uint32_t above, uint32_t *stream);

/* Stores how many octets of the connection's window are still to be returned: those of discarded
 * DATA and of closed streams. 0 once the connection has failed. */
BJ_CALL int bj_conn_due(bj_conn *conn, uint32_t *due);

/* As bj_granted. */
BJ_CALL int bj_conn_granted(bj_conn *conn, uint32_t *granted);

/* Stores how many octets of an incomplete preface or frame are held: at most 1,048,585; 0 once the
 * connection has failed. */
BJ_CALL int bj_conn_held(bj_conn *conn, size_t *count);

/* Stores how many octets of input were used, at most 2^64 - 1. After a fault of the peer, the last
 * of them is the octet at fault. */
BJ_CALL int bj_conn_place(bj_conn *conn, uint64_t *place);

/* Stores the number of the next stream that a client opens, or 2^31 + 1 if none is left
 * (BJ_STREAMS_EXHAUSTED). BJ_NONE: it is a server, or the connection has failed. */
BJ_CALL int bj_conn_next_number(bj_conn *conn, uint32_t *stream);

#ifdef __cplusplus
}
#endif

#endif
