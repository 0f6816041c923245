/* A client: gets a URL, writes the body to standard output, and says the status on standard error.
 *
 *     client http://HOST[:PORT][/PATH]
 *
 * It ends with 0 where the response is whole and its status is 2xx. Octets that were written are
 * released, so a reader that is slow slows the server; and one that is silent for WAIT seconds is
 * given up. */
#define _GNU_SOURCE
#include "common.h"
#include <poll.h>

enum { PIECE = 65536, WAIT = 30 };

struct url {
  char authority[256], host[256], port[8], path[4096];
};

/* What has come of the response. */
struct response {
  uint32_t stream;
  char status[4];
  bool whole, over;
};

static void check(const char *what, int error) {
  const char *text;
  if (error == BJ_OK)
    return;
  bj_error_text(error, &text);
  fprintf(stderr, "client: %s: %s\n", what, text);
  exit(1);
}

static void fail(const char *why) {
  fprintf(stderr, "client: %s\n", why);
  exit(1);
}

/* Takes a URL apart. */
static struct url parse(const char *text) {
  static const char scheme[] = "http://";
  struct url url = {.port = "80"};
  if (strncmp(text, scheme, sizeof(scheme) - 1) != 0)
    fail("the URL does not begin with http://");
  text += sizeof(scheme) - 1;
  size_t authority = strcspn(text, "/?#"), path = strcspn(text + authority, "#");
  bool is_v6 = text[0] == '[';
  size_t host = is_v6 ? strcspn(text, "]") + 1 : strcspn(text, ":/?#");
  size_t port = authority > host + 1 ? authority - host - 1 : 0;
  if (host > authority || (authority > host && text[host] != ':') || port >= sizeof(url.port) ||
      authority >= sizeof(url.authority) || path + 1 >= sizeof(url.path))
    fail("the URL is malformed");
  memcpy(url.authority, text, authority);
  memcpy(url.host, text + is_v6, host - 2 * is_v6);
  if (port > 0)
    snprintf(url.port, sizeof(url.port), "%.*s", (int)port, text + host + 1);
  bool has_slash = text[authority] == '/';
  url.path[0] = '/';
  memcpy(url.path + !has_slash, text + authority, path);
  return url;
}

/* Waits until the socket gives octets, or takes some. */
static void wait_for(int fd, short events) {
  struct pollfd wanted = {.fd = fd, .events = events};
  if (poll(&wanted, 1, WAIT * 1000) <= 0)
    fail("timed out");
}

/* Writes all that waits. */
static void write_out(bj_end *end, int fd) {
  for (;;) {
    bj_span one, two;
    size_t taken;
    check("ready", bj_ready(end));
    check("waiting", bj_waiting(end, &one, &two));
    const bj_span *span = one.length > 0 ? &one : &two;
    if (span->length == 0)
      return;
    wait_for(fd, POLLOUT);
    ssize_t count = send(fd, span->octets, span->length, MSG_NOSIGNAL);
    if (count < 0) {
      perror("client");
      exit(1);
    }
    check("consume", bj_consume(end, (size_t)count, &taken));
  }
}

/* Notes what is handed out, and writes what comes of the body. */
static void note(bj_end *end, const bj_event *event, struct response *response) {
  if (event->stream != response->stream)
    return;
  if (event->kind == BJ_HEAD)
    copy_field(end, ":status", response->status, sizeof(response->status));
  if (event->kind == BJ_BODY && fwrite(event->octets, 1, event->length, stdout) != event->length)
    fail("cannot write to standard output");
  response->whole = event->end;
  response->over = event->end || event->kind == BJ_RESET || event->kind == BJ_UNPROCESSED;
  if (event->kind == BJ_RESET)
    fprintf(stderr, "client: the stream was reset with code %u\n", event->code);
}

/* Takes a piece that was read. Where the connection fails, its GOAWAY is written. */
static void take_piece(bj_end *end, int fd, const uint8_t *piece, size_t length,
                       struct response *response) {
  bj_event event;
  do {
    int error = bj_take(end, piece, length, &event);
    if (error == BJ_FAILED) {
      fprintf(stderr, "client: the connection failed with code %u\n", event.code);
      write_out(end, fd);
    }
    check("take", error);
    piece += event.used;
    length -= event.used;
    if (!response->over)
      note(end, &event, response);
  } while (length > 0 || event.kind != BJ_NOTHING);
}

/* Asks for the URL, and takes what comes until the response is over or the server ends. */
static void get(bj_end *end, int fd, const struct url *url, struct response *response) {
  static uint8_t piece[PIECE];
  const bj_field head[] = {
      BJ_FIELD(":method", "GET"),
      BJ_FIELD(":scheme", "http"),
      {BJ_TEXT(":authority"), (const uint8_t *)url->authority, strlen(url->authority), 0},
      {BJ_TEXT(":path"), (const uint8_t *)url->path, strlen(url->path), 0},
  };
  check("request", bj_request(end, head, 4, BJ_NO_OCTETS, &response->stream));
  while (!response->over) {
    write_out(end, fd);
    wait_for(fd, POLLIN);
    ssize_t length = recv(fd, piece, sizeof(piece), 0);
    if (length <= 0)
      fail("the server closed the connection");
    take_piece(end, fd, piece, (size_t)length, response);
    check("release_all", bj_release_all(end));
  }
  bj_span one, two;
  if (bj_go_away(end) == BJ_OK && bj_ready(end) == BJ_OK && bj_waiting(end, &one, &two) == BJ_OK)
    send(fd, one.octets, one.length, MSG_NOSIGNAL); /* the response is over, written or not */
}

int main(int count, char **words) {
  if (count != 2)
    fail("usage: client http://HOST[:PORT][/PATH]");
  struct url url = parse(words[1]);
  struct response response = {0};
  bj_config config;
  bj_end end = {0};
  bj_config_default(&config);
  check("new", bj_client_new(&config, &end));
  int fd = open_socket(url.host, url.port, false);
  get(&end, fd, &url, &response);
  bj_free(&end);
  close(fd);
  fprintf(stderr, "%s%s\n", response.status, response.whole ? "" : ", incomplete");
  return fflush(stdout) != 0 || !response.whole || response.status[0] != '2';
}
