/* traffic KIND LIVE COUNT: writes what a client sends: the preface, SETTINGS, a WINDOW_UPDATE to the
 * connection's widest window, LIVE requests that it never ends, and then COUNT times:
 * get       a request without a body
 * post      one with a body of 1,000 octets
 * ping      PING
 * settings  SETTINGS of 2,730 pairs, whose initial windows alternate
 * setting   SETTINGS of one pair, an initial window
 * reset     a request that it resets
 * closed    DATA of 100 octets on a stream that the server has reset
 * upload    DATA of 16,384 octets on one stream
 * long      DATA of 65,535 octets on one stream
 * greatest  a frame of 1,048,576 octets, of an unknown type
 * answers   a request without a body, where the client reads frames of 16,384 octets
 * larger    one where it reads frames of 65,536; its streams' windows are wide in both */
#include <stdint.h>
#include <stdio.h>
#include <stdlib.h>
#include <string.h>

enum { DATA = 0, HEADERS = 1, RST_STREAM = 3, SETTINGS = 4, PING = 6, WINDOW_UPDATE = 8 };
enum { NONE = 0, END_STREAM = 1, ACK = 1, END_HEADERS = 4 };
enum { PAIRS = 2730, BODY = 1000, DISCARDED = 100, FULL = 16384, LONG = 65535 };
enum { GREATEST = 1048576, UNKNOWN = 0xf0 };

static uint32_t next_stream = 1;

static void put32(uint32_t number) {
  uint8_t octets[4] = {(uint8_t)(number >> 24), (uint8_t)(number >> 16), (uint8_t)(number >> 8),
                       (uint8_t)number};
  fwrite(octets, 1, sizeof octets, stdout);
}

static void head(uint32_t length, int kind, int flags, uint32_t stream) {
  put32(length << 8 | (uint32_t)kind);
  putchar(flags);
  put32(stream);
}

static void window_update(uint32_t stream, uint32_t increment) {
  head(4, WINDOW_UPDATE, NONE, stream);
  put32(increment);
}

static void data(uint32_t stream, int flags, uint32_t length) {
  head(length, DATA, flags, stream);
  while (length--) putchar('a');
}

/* A request of six fields: all of them are in the tables after the first one. */
static uint32_t request(int flags) {
  static const char first[] =
      "\x82\x86\x84\x41\x0ftest.example.gr\x7a\x0b" "curl/7.88.1\x53\x03*/*";
  static const char next[] = "\x82\x86\x84\xc0\xbf\xbe";
  const char *block = next_stream == 1 ? first : next;
  uint32_t length = (uint32_t)strlen(block);
  uint32_t stream = next_stream;
  next_stream += 2;
  head(length, HEADERS, flags | END_HEADERS, stream);
  fwrite(block, 1, length, stdout);
  return stream;
}

static void settings(uint32_t pairs) {
  uint32_t pair;
  head(6 * pairs, SETTINGS, NONE, 0);
  for (pair = 0; pair < pairs; pair++) {
    putchar(0);
    putchar(4);
    put32(pair % 2 ? 65535 : 70000);
  }
}

/* A wide window of streams, and the greatest frame that is read. */
static void first_settings(uint32_t frame) {
  head(12, SETTINGS, NONE, 0);
  fwrite("\0\4", 1, 2, stdout);
  put32(1048576);
  fwrite("\0\5", 1, 2, stdout);
  put32(frame);
}

static int put(const char *kind, uint32_t opened) {
  if (!strcmp(kind, "get") || !strcmp(kind, "answers") || !strcmp(kind, "larger")) {
    request(END_STREAM);
  } else if (!strcmp(kind, "post")) {
    data(request(NONE), END_STREAM, BODY);
  } else if (!strcmp(kind, "ping")) {
    head(8, PING, NONE, 0);
    fputs("belkjoef", stdout);
  } else if (!strcmp(kind, "settings")) {
    settings(PAIRS);
  } else if (!strcmp(kind, "setting")) {
    settings(1);
  } else if (!strcmp(kind, "reset")) {
    uint32_t stream = request(NONE);
    head(4, RST_STREAM, NONE, stream);
    put32(8);
  } else if (!strcmp(kind, "closed")) {
    data(opened, NONE, DISCARDED);
  } else if (!strcmp(kind, "upload")) {
    data(opened, NONE, FULL);
  } else if (!strcmp(kind, "long")) {
    data(opened, NONE, LONG);
  } else if (!strcmp(kind, "greatest")) {
    uint32_t left = GREATEST;
    head(left, UNKNOWN, NONE, 0);
    while (left--) putchar('a');
  } else {
    return 2;
  }
  return 0;
}

int main(int argc, char **argv) {
  uint32_t live, count, opened = 0;
  if (argc != 4) return 2;
  live = (uint32_t)atoi(argv[2]);
  count = (uint32_t)atoi(argv[3]);
  fputs("PRI * HTTP/2.0\r\n\r\nSM\r\n\r\n", stdout);
  if (!strcmp(argv[1], "answers"))
    first_settings(16384);
  else if (!strcmp(argv[1], "larger"))
    first_settings(65536);
  else
    head(0, SETTINGS, NONE, 0);
  head(0, SETTINGS, ACK, 0);
  window_update(0, 2147483647 - 65535);
  if (!strcmp(argv[1], "closed") || !strcmp(argv[1], "upload") || !strcmp(argv[1], "long"))
    opened = request(NONE);
  if (!strcmp(argv[1], "closed")) window_update(opened, 0); /* for which the server resets it */
  while (live--) request(NONE);
  while (count--)
    if (put(argv[1], opened)) return 2;
  return ferror(stdout);
}
