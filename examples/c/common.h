/* What server.c and client.c share: sockets, and copies of fields. */
#ifndef COMMON_H
#define COMMON_H

#include "belkjoef.h"
#include <netdb.h>
#include <netinet/tcp.h>
#include <stdio.h>
#include <stdlib.h>
#include <string.h>
#include <sys/socket.h>
#include <unistd.h>

/* Copies the first field with a name of the head that was handed out last; without one, or without
 * room for it, the copy is empty. What an end lends is good only until its next call, so no two
 * values are held at once. */
static inline void copy_field(bj_end *end, const char *name, char *to, size_t room) {
  const uint8_t *value;
  size_t length;
  to[0] = '\0';
  if (bj_field_value(end, (const uint8_t *)name, strlen(name), &value, &length) == BJ_OK &&
      length < room) {
    memcpy(to, value, length);
    to[length] = '\0';
  }
}

/* Opens a TCP socket at a port of a host: one that listens and does not block, or one that is
 * connected. Ends the program where it can't. */
static inline int open_socket(const char *host, const char *port, bool listens) {
  struct addrinfo hints = {.ai_family = AF_UNSPEC, .ai_socktype = SOCK_STREAM}, *found, *at;
  int one = 1, fd = -1, error = getaddrinfo(host, port, &hints, &found);
  if (error != 0) {
    fprintf(stderr, "%s:%s: %s\n", host, port, gai_strerror(error));
    exit(1);
  }
  for (at = found; at != NULL; at = at->ai_next) {
    fd = socket(at->ai_family, at->ai_socktype | (listens ? SOCK_NONBLOCK : 0), at->ai_protocol);
    if (fd >= 0 && listens)
      setsockopt(fd, SOL_SOCKET, SO_REUSEADDR, &one, sizeof(one));
    if (fd >= 0 && listens && bind(fd, at->ai_addr, at->ai_addrlen) == 0 && listen(fd, 1024) == 0)
      break;
    if (fd >= 0 && !listens && connect(fd, at->ai_addr, at->ai_addrlen) == 0)
      break;
    if (fd >= 0)
      close(fd);
    fd = -1;
  }
  freeaddrinfo(found);
  if (fd < 0) {
    perror(port);
    exit(1);
  }
  setsockopt(fd, IPPROTO_TCP, TCP_NODELAY, &one, sizeof(one)); /* accepted ones inherit it */
  return fd;
}

#endif
