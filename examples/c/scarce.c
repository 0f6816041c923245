/* Refuses one allocation after another, each in a run of its own, of a client and a server that
 * are joined in memory: gcc .. -Wl,--wrap=malloc,--wrap=realloc.
 *
 * A call that was refused memory answers BJ_MEMORY, and does its work when it is made again; or a
 * connection fails with INTERNAL_ERROR. A whole body of 4,096 octets and more is shared with the
 * output: where memory for that is refused it is copied later, and no call answers BJ_MEMORY. After
 * each run the heap is where it was, as it can be seen where GLIBC_TUNABLES is
 * glibc.malloc.tcache_count=0:glibc.malloc.mxfast=0. */
#include "belkjoef.h"
#include <malloc.h>
#include <stdio.h>
#include <stdlib.h>

enum { PIECE = 4096, BODY = 30000, INTERNAL_ERROR = 2 };

/* What sharing the two whole bodies allocates: two allocations each. */
enum { SHARING = 2 * 2 };

static long left, calls, refused;
static int wrong;

void *__real_malloc(size_t size);
void *__real_realloc(void *octets, size_t size);
void *__wrap_malloc(size_t size);
void *__wrap_realloc(void *octets, size_t size);

static bool refuses(void) {
  calls++;
  return left-- == 0;
}

void *__wrap_malloc(size_t size) { return refuses() ? NULL : __real_malloc(size); }

void *__wrap_realloc(void *octets, size_t size) {
  return refuses() ? NULL : __real_realloc(octets, size);
}

static void want(const char *what, long answer, long wanted) {
  if (answer == wanted)
    return;
  printf("scarce: %s: %ld, and not %ld\n", what, answer, wanted);
  wrong++;
}

/* Makes a call, and once more where it was refused memory. */
#define TWICE(call) \
  do { \
    int answer_ = call; \
    if (answer_ == BJ_MEMORY) { \
      refused++; \
      answer_ = call; \
    } \
    want(#call, answer_, BJ_OK); \
  } while (0)

/* Carries all that waits from one end to another; false where that one fails. */
static bool carry(bj_end *from, bj_end *to, int *ended) {
  static uint8_t piece[PIECE];
  size_t count, sent;
  for (;;) {
    bj_event event;
    size_t at = 0;
    TWICE(bj_pump(from, &sent));
    TWICE(bj_put_out(from, piece, PIECE, &count));
    if (count == 0)
      return true;
    do {
      int error = bj_take(to, piece + at, count - at, &event);
      at += event.used;
      if (error != BJ_OK) {
        want("bj_take", error, BJ_FAILED);
        want("the code", event.code, INTERNAL_ERROR);
        refused++;
        return false;
      }
      if (event.kind == BJ_HEAD)
        TWICE(bj_set_user(to, event.stream, 1));
      *ended += event.end != 0;
    } while (at < count || event.kind != BJ_NOTHING);
    TWICE(bj_release_all(to));
  }
}

/* Two requests and their answers, whole and in parts. */
static void speak(bj_end *client, bj_end *server) {
  static const bj_field asks[] = {BJ_FIELD(":method", "POST"), BJ_FIELD(":scheme", "http"),
                                  BJ_FIELD(":path", "/"), BJ_FIELD("user-agent", "scarce")};
  static const bj_field answers[] = {BJ_FIELD(":status", "200"), BJ_FIELD("server", "scarce")};
  static const uint8_t body[BODY];
  uint32_t first, second;
  size_t sent;
  int asked = 0, answered = 0;
  TWICE(bj_request(client, asks, 4, body, BODY, &first));
  TWICE(bj_begin_request(client, asks, 4, &second));
  TWICE(bj_send_body(client, second, body, 100, false, &sent));
  TWICE(bj_send_trailers(client, second, answers + 1, 1));
  if (!carry(client, server, &asked))
    return;
  want("requests", asked, 2);
  TWICE(bj_respond(server, first, answers, 2, body, BODY));
  TWICE(bj_begin_response(server, second, answers, 2));
  TWICE(bj_send_body(server, second, body, 100, true, &sent));
  if (!carry(server, client, &answered) || !carry(client, server, &asked))
    return;
  want("responses", answered, 2);
  want("active streams", bj_next_live(client, 0, &first), BJ_NONE);
}

int main(void) {
  bj_config config;
  bj_end client = {0}, server = {0};
  long k = 0, unnoticed = 0;
  bj_config_default(&config);
  left = -1;
  want("the first end", bj_client_new(&config, &client), BJ_OK);
  bj_free(&client); /* the C library has taken what it keeps for itself */
  do {
    size_t before = mallinfo2().uordblks;
    left = k++;
    calls = refused = 0;
    TWICE(bj_client_new(&config, &client));
    TWICE(bj_server_new(&config, &server));
    speak(&client, &server);
    bj_free(&client);
    bj_free(&server);
    left = -1;
    if (calls >= k && refused == 0)
      unnoticed++;
    else
      want("refusals", refused, calls >= k);
    want("octets of the heap", (long)mallinfo2().uordblks, (long)before);
    if (wrong) {
      printf("scarce: so with allocation %ld refused\n", k);
      return 1;
    }
  } while (calls >= k);
  want("refusals that no call has answered", unnoticed, SHARING);
  printf("%ld allocations, each of them refused once\n", k - 1);
  return wrong != 0;
}
