/* A server of many connections over epoll, for Linux.
 *
 *     server PORT [FOLDER]
 *
 * GET and HEAD are answered with the file of their path below FOLDER; any other request, and each
 * one where no folder is given, with its own body. Bodies go out in parts, as their windows let
 * through, and of one that is sent back no more is taken than was sent, so what a connection keeps
 * is bounded. One that does nothing for IDLE seconds is ended. */
#define _GNU_SOURCE
#include "common.h"
#include <errno.h>
#include <fcntl.h>
#include <signal.h>
#include <sys/epoll.h>
#include <sys/queue.h>
#include <sys/stat.h>
#include <sys/uio.h>
#include <time.h>

enum { PIECE = 16384, PART = 16384, NAME = 1024, EVENTS = 64, IDLE = 60, INTERNAL_ERROR = 2 };

/* An answer that is under way: the user of its stream. */
struct answer {
  TAILQ_ENTRY(answer) list;
  uint32_t stream;
  int file;          /* or -1, where the request's body is sent back */
  off_t place, size; /* octets of the file that are sent, and all of them, or -1 */
  uint8_t *kept;     /* octets of the request's body that aren't sent */
  size_t count;
  bool whole; /* the request's body has come whole */
};

struct conn {
  TAILQ_ENTRY(conn) list;
  TAILQ_HEAD(answers, answer) answers;
  bj_end end;
  int fd;
  bool failed;     /* what waits is written, a GOAWAY last, and what comes is dropped */
  bool blocked;    /* the socket takes no more */
  bool more;       /* there is more to take */
  size_t from, to; /* what was read and isn't taken */
  time_t seen;     /* when something last came or went */
  uint8_t piece[PIECE];
};

static TAILQ_HEAD(conns, conn) conns = TAILQ_HEAD_INITIALIZER(conns); /* the idlest first */
static int poll_fd, folder = -1;
static volatile sig_atomic_t stopped;

static void stop(int number) { stopped = number; }

/* Seconds of a clock that nobody sets. */
static time_t now(void) {
  struct timespec since;
  clock_gettime(CLOCK_MONOTONIC, &since);
  return since.tv_sec;
}

static void drop_answer(struct conn *c, struct answer *a) {
  bj_set_user(&c->end, a->stream, 0);
  TAILQ_REMOVE(&c->answers, a, list);
  if (a->file >= 0)
    close(a->file);
  free(a->kept);
  free(a);
}

/* Opens the file of a path, which is taken as it stands; its size stays -1 where there is none. */
static void open_file(struct answer *a, const char *path) {
  struct stat about;
  if (strstr(path, "..") == NULL)
    a->file = openat(folder, path + strspn(path, "/"), O_RDONLY | O_CLOEXEC | O_NONBLOCK);
  if (a->file >= 0 && fstat(a->file, &about) == 0 && S_ISREG(about.st_mode))
    a->size = about.st_size;
}

/* Answers a request whose head has come. */
static int answer_request(struct conn *c, const bj_event *event) {
  char method[8], path[NAME], digits[24];
  struct answer *a = calloc(1, sizeof(*a));
  if (a == NULL)
    return BJ_MEMORY;
  *a = (struct answer){.stream = event->stream, .file = -1, .size = -1};
  TAILQ_INSERT_TAIL(&c->answers, a, list);
  copy_field(&c->end, ":method", method, sizeof(method));
  copy_field(&c->end, ":path", path, sizeof(path));
  bool asks_head = strcmp(method, "HEAD") == 0;
  bool asks_file = folder >= 0 && (asks_head || strcmp(method, "GET") == 0);
  if (asks_file)
    open_file(a, path);
  const uint8_t *status = (const uint8_t *)(asks_file && a->size < 0 ? "404" : "200");
  int count = snprintf(digits, sizeof(digits), "%lld", (long long)a->size);
  const bj_field head[] = {{BJ_TEXT(":status"), status, 3, 0},
                           {BJ_TEXT("content-length"), (uint8_t *)digits, (size_t)count, 0}};
  size_t fields = a->size >= 0 ? 2 : 1; /* how long a body is that is sent back isn't known */
  bool is_empty = asks_head || (asks_file ? a->size <= 0 : event->end);
  int error = is_empty ? bj_respond(&c->end, event->stream, head, fields, BJ_NO_OCTETS)
                       : bj_begin_response(&c->end, event->stream, head, fields);
  if (error == BJ_OK && !is_empty)
    return bj_set_user(&c->end, event->stream, (uintptr_t)a);
  drop_answer(c, a);
  return error;
}

/* Lets the peer send as many octets more as have come on a stream and aren't kept. */
static int release(struct conn *c, uint32_t stream, size_t kept) {
  uint32_t owed;
  int error = bj_owed(&c->end, stream, &owed);
  if (error == BJ_OK && owed > kept)
    error = bj_release(&c->end, stream, owed - (uint32_t)kept);
  return error == BJ_OUTPUT_FULL ? BJ_OK : error; /* then it is tried again at the next part */
}

/* Keeps what has come of a body that is to be sent back. */
static int note_body(struct conn *c, const bj_event *event) {
  struct answer *a = (struct answer *)event->user;
  if (a == NULL || a->file >= 0) /* nobody asks for it */
    return release(c, event->stream, 0);
  a->whole = event->end;
  uint8_t *kept = realloc(a->kept, a->count + event->length + 1);
  if (kept == NULL)
    return BJ_MEMORY;
  memcpy(kept + a->count, event->octets, event->length);
  a->kept = kept;
  a->count += event->length;
  return BJ_OK;
}

/* Takes what was read, while the output isn't full. */
static int take_piece(struct conn *c) {
  bj_event event;
  int error;
  do {
    error = bj_take(&c->end, c->piece + c->from, c->to - c->from, &event);
    c->from += event.used;
    if (event.kind == BJ_HEAD)
      error = answer_request(c, &event);
    else if (event.kind == BJ_BODY || event.kind == BJ_TRAILERS)
      error = note_body(c, &event);
    else if (event.kind == BJ_RESET && event.user != 0)
      drop_answer(c, (struct answer *)event.user);
    c->more = c->from < c->to || event.kind != BJ_NOTHING;
  } while (error == BJ_OK && c->more && bj_is_full(&c->end) == 0);
  return error;
}

/* Sends a part of an answer, as much as its windows let through. */
static int send_part(struct conn *c, struct answer *a) {
  static uint8_t part[PART];
  int64_t room = 0;
  size_t length = a->count, sent;
  bool ends = a->whole;
  if (a->file >= 0 && bj_room(&c->end, a->stream, &room) == BJ_OK && room > 0) {
    off_t most = a->size - a->place < room ? a->size - a->place : room;
    ssize_t count = pread(a->file, part, most < PART ? (size_t)most : PART, a->place);
    if (count <= 0) { /* the file is shorter than it was */
      int error = bj_reset(&c->end, a->stream, INTERNAL_ERROR);
      drop_answer(c, a);
      return error;
    }
    length = (size_t)count;
    ends = a->place + count == a->size;
  }
  if (length == 0 && !ends)
    return release(c, a->stream, 0);
  int error = bj_send_body(&c->end, a->stream, a->kept ? a->kept : part, length, ends, &sent);
  if (error == BJ_NOT_ASKED || (error == BJ_OK && ends && sent == length)) { /* it is over */
    drop_answer(c, a);
    return BJ_OK;
  }
  a->place += (off_t)sent;
  if (error != BJ_OK || a->file >= 0)
    return error;
  a->count -= sent;
  memmove(a->kept, a->kept + sent, a->count);
  return release(c, a->stream, a->count);
}

/* Gives each answer a part in turn, until the output is full; false where the connection fails. */
static bool send_answers(struct conn *c) {
  struct answer *last = TAILQ_LAST(&c->answers, answers);
  for (bool is_over = last == NULL; !is_over && bj_is_full(&c->end) == 0;) {
    struct answer *a = TAILQ_FIRST(&c->answers);
    is_over = a == last;
    TAILQ_REMOVE(&c->answers, a, list);
    TAILQ_INSERT_TAIL(&c->answers, a, list);
    if (send_part(c, a) != BJ_OK)
      return false;
  }
  return true;
}

/* Ends a connection at which something went wrong: a GOAWAY is the last frame in any case. */
static void fail_conn(struct conn *c) {
  bj_fail(&c->end, INTERNAL_ERROR); /* refused where it has failed of itself */
  c->failed = true;
}

/* Writes until nothing waits or the socket takes no more; false where the connection is over. */
static bool write_out(struct conn *c) {
  for (c->blocked = false;;) {
    bj_span one, two;
    size_t taken;
    if (!c->failed && !send_answers(c))
      fail_conn(c);
    if (bj_ready(&c->end) != BJ_OK || bj_waiting(&c->end, &one, &two) != BJ_OK)
      return false;
    if (one.length + two.length == 0)
      return true;
    struct iovec spans[] = {{(void *)one.octets, one.length}, {(void *)two.octets, two.length}};
    ssize_t count = writev(c->fd, spans, 2);
    if (count < 0)
      return c->blocked = errno == EAGAIN;
    if (bj_consume(&c->end, (size_t)count, &taken) != BJ_OK)
      return false;
  }
}

/* Writes, takes what was read, and reads once where something has come; false where it is over. */
static bool go(struct conn *c, bool has_come) {
  while (write_out(c) && !c->blocked) {
    if (c->failed) { /* once all is written; a socket that is closed with octets unread resets */
      shutdown(c->fd, SHUT_WR);
      c->more = false;
    }
    if (!c->more) {
      ssize_t count = has_come ? read(c->fd, c->piece, PIECE) : -1;
      if (!has_come || count <= 0)
        return !has_come || (count < 0 && errno == EAGAIN);
      c->more = true;
      has_come = false;
      c->from = 0;
      c->to = (size_t)count;
    }
    if (!c->failed && take_piece(c) != BJ_OK)
      fail_conn(c);
  }
  return c->blocked;
}

static void close_conn(struct conn *c) {
  while (!TAILQ_EMPTY(&c->answers))
    drop_answer(c, TAILQ_FIRST(&c->answers));
  TAILQ_REMOVE(&conns, c, list);
  close(c->fd);
  bj_free(&c->end);
  free(c);
}

/* Makes a connection of a socket that was accepted. */
static void open_conn(int fd) {
  bj_config config;
  struct conn *c = calloc(1, sizeof(*c));
  struct epoll_event wanted = {.events = EPOLLIN, .data.ptr = c};
  bj_config_default(&config);
  if (c == NULL || bj_server_new(&config, &c->end) != BJ_OK) {
    free(c);
    close(fd);
    return;
  }
  TAILQ_INIT(&c->answers);
  TAILQ_INSERT_TAIL(&conns, c, list);
  c->fd = fd;
  c->seen = now();
  if (epoll_ctl(poll_fd, EPOLL_CTL_ADD, fd, &wanted) != 0)
    close_conn(c);
}

/* Goes on with a connection, and then waits for what comes, or for the socket to take more. */
static void turn(struct conn *c) {
  bool was_blocked = c->blocked, goes_on = go(c, !was_blocked);
  struct epoll_event wanted = {.events = c->blocked ? EPOLLOUT : EPOLLIN, .data.ptr = c};
  if (!c->failed) { /* one that has failed is kept for IDLE seconds at most, whatever comes */
    c->seen = now();
    TAILQ_REMOVE(&conns, c, list);
    TAILQ_INSERT_TAIL(&conns, c, list);
  }
  if (!goes_on)
    close_conn(c);
  else if (c->blocked != was_blocked)
    epoll_ctl(poll_fd, EPOLL_CTL_MOD, c->fd, &wanted);
}

/* Ends the connections that have done nothing for so many seconds. */
static void end_idle(time_t idle) {
  struct conn *c;
  while ((c = TAILQ_FIRST(&conns)) != NULL && now() - c->seen >= idle) {
    bj_go_away(&c->end);
    write_out(c);
    close_conn(c);
  }
}

/* Accepts all that wait, but where descriptors or memory are short. */
static void accept_all(int listener) {
  int fd;
  while ((fd = accept4(listener, NULL, NULL, SOCK_NONBLOCK | SOCK_CLOEXEC)) >= 0 ||
         errno == ECONNABORTED || errno == EINTR)
    if (fd >= 0)
      open_conn(fd);
}

int main(int count, char **words) {
  struct epoll_event events[EVENTS], wanted = {.events = EPOLLIN | EPOLLET};
  int listener = open_socket("127.0.0.1", count > 1 ? words[1] : "8080", true);
  if (count > 2 && (folder = open(words[2], O_RDONLY | O_DIRECTORY | O_CLOEXEC)) < 0)
    return perror(words[2]), 1;
  signal(SIGPIPE, SIG_IGN);
  signal(SIGTERM, stop);
  signal(SIGINT, stop);
  poll_fd = epoll_create1(EPOLL_CLOEXEC);
  if (poll_fd < 0 || epoll_ctl(poll_fd, EPOLL_CTL_ADD, listener, &wanted) != 0)
    return perror("server"), 1;
  while (!stopped) {
    int ready = epoll_wait(poll_fd, events, EVENTS, 1000);
    for (int i = 0; i < ready; i++)
      if (events[i].data.ptr != NULL)
        turn(events[i].data.ptr);
    end_idle(IDLE);
    accept_all(listener); /* in each turn: what had no descriptor is tried again */
  }
  end_idle(0);
  return 0;
}
