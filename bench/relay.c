/* relay LISTEN TARGET MS: a relay that is far away. It forwards TCP connections of 127.0.0.1:LISTEN
   to 127.0.0.1:TARGET, each octet MS milliseconds later, both ways, at any rate. The target is
   connected to MS milliseconds after the client: over a real way too a server accepts a connection
   just before the first octets come, when the handshake's last segment arrives. */
#define _GNU_SOURCE
#include <arpa/inet.h>
#include <errno.h>
#include <fcntl.h>
#include <netinet/tcp.h>
#include <poll.h>
#include <stdio.h>
#include <stdlib.h>
#include <string.h>
#include <sys/socket.h>
#include <time.h>
#include <unistd.h>
struct chunk {
  struct chunk *next;
  double due;
  size_t len, done;
  int fin;
  char data[];
};
struct way {
  int from, to, eof, shut;
  struct chunk *first, **last;
  size_t kept;
};
/* How long it is until `due`, in milliseconds: at least 0, and at most `wait`. */
static double least(double wait, double due, double now) {
  return due <= now ? 0 : due - now < wait ? due - now : wait;
}
static double now(void) {
  struct timespec t;
  clock_gettime(CLOCK_MONOTONIC, &t);
  return t.tv_sec * 1e3 + t.tv_nsec / 1e6;
}
static int nb(int fd) {
  int one = 1;
  fcntl(fd, F_SETFL, O_NONBLOCK);
  setsockopt(fd, IPPROTO_TCP, TCP_NODELAY, &one, sizeof one);
  return fd;
}
int main(int n, char **w) {
  if (n != 4)
    return 2;
  double ms = atof(w[3]);
  struct sockaddr_in a = {.sin_family = AF_INET,
                          .sin_port = htons(atoi(w[1])),
                          .sin_addr.s_addr = htonl(INADDR_LOOPBACK)};
  int l = socket(AF_INET, SOCK_STREAM, 0), one = 1;
  setsockopt(l, SOL_SOCKET, SO_REUSEADDR, &one, sizeof one);
  if (bind(l, (void *)&a, sizeof a) || listen(l, 64))
    return 3;
  static struct way ways[512];
  static double connects[512]; /* when the target of a way is connected to; 0: it is */
  int count = 0;
  static char buf[262144];
  for (;;) {
    struct pollfd p[1 + 1024];
    int k = 0;
    double t = now(), wait = 1000;
    p[k++] = (struct pollfd){l, POLLIN, 0};
    for (int i = 0; i < count; i++) {
      struct way *y = &ways[i];
      p[k++] = (struct pollfd){y->from >= 0 && !y->eof && y->kept < (64u << 20) ? y->from : -1,
                               POLLIN, 0};
      int due = y->first && y->first->due <= t;
      if (y->first && !due && y->first->due - t < wait)
        wait = y->first->due - t;
      p[k++] = (struct pollfd){due ? y->to : -1, POLLOUT, 0};
      if (connects[i])
        wait = least(wait, connects[i], t);
    }
    struct timespec ts = {(time_t)(wait / 1000),
                          (long)((wait - 1000 * (time_t)(wait / 1000)) * 1e6)};
    ppoll(p, k, &ts, NULL);
    t = now();
    for (int i = 0; i < count; i += 2)
      if (connects[i] && connects[i] <= t) {
        struct sockaddr_in b = a;
        b.sin_port = htons(atoi(w[2]));
        int s = socket(AF_INET, SOCK_STREAM, 0);
        connects[i] = 0;
        if (connect(s, (void *)&b, sizeof b) == 0)
          ways[i].to = ways[i + 1].from = nb(s);
        else {
          close(ways[i].from);
          ways[i].from = -1;
        }
      }
    for (int i = 0; i < count; i++) {
      struct way *y = &ways[i];
      if (y->from >= 0 && p[1 + 2 * i].revents) {
        ssize_t r = read(y->from, buf, sizeof buf);
        if (r > 0 || (r <= 0 && errno != EAGAIN)) {
          if (r < 0)
            r = 0;
          struct chunk *c = malloc(sizeof *c + r);
          *c = (struct chunk){0, t + ms, r, 0, r == 0};
          memcpy(c->data, buf, r);
          if (r == 0)
            y->eof = 1;
          *y->last = c;
          y->last = &c->next;
          y->kept += r;
        }
      }
      while (y->first && y->to >= 0 && y->first->due <= t) {
        struct chunk *c = y->first;
        if (c->fin) {
          shutdown(y->to, SHUT_WR);
          y->shut = 1;
        } else {
          ssize_t r = write(y->to, c->data + c->done, c->len - c->done);
          if (r < 0) {
            if (errno == EAGAIN)
              break;
            r = c->len - c->done;
            y->eof = 1;
          }
          c->done += r;
          if (c->done < c->len)
            break;
        }
        y->kept -= c->len;
        y->first = c->next;
        if (!y->first)
          y->last = &y->first;
        free(c);
      }
    }
    for (int i = 0; i + 1 < count; i += 2)
      if (ways[i].from >= 0 && ways[i].shut && ways[i + 1].shut) {
        close(ways[i].from);
        close(ways[i].to);
        ways[i].from = ways[i + 1].from = -1;
      }
    if (p[0].revents && count + 2 <= 512) {
      int c = accept(l, 0, 0);
      if (c >= 0) {
        nb(c);
        connects[count] = t + ms;
        ways[count] = (struct way){c, -1, 0, 0, 0, 0, 0};
        ways[count].last = &ways[count].first;
        count++;
        ways[count] = (struct way){-1, c, 0, 0, 0, 0, 0};
        ways[count].last = &ways[count].first;
        count++;
      }
    }
  }
}
