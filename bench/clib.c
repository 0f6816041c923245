/* clib CLIENT BODY [parts]: serves what a client sends (traffic.c), each request with a body of so
 * many octets, and prints the answers, the octets of the output, the octets that are held at last
 * and the calls that allocate; the last two are 0 but where COUNTS is defined, and the program is
 * linked with --wrap=malloc, calloc, realloc and free. */
#include "clib.h"
#include <stdio.h>
#include <stdlib.h>
#include <string.h>

static size_t held, allocations;

#ifdef COUNTS
enum { BEFORE = 16 };

void *__real_malloc(size_t n);
void __real_free(void *block);
void *__wrap_malloc(size_t n);
void *__wrap_calloc(size_t count, size_t n);
void *__wrap_realloc(void *octets, size_t n);
void __wrap_free(void *octets);

void *__wrap_malloc(size_t n) {
  char *block = __real_malloc(n + BEFORE);
  if (!block) return NULL;
  memcpy(block, &n, sizeof n);
  held += n;
  allocations++;
  return block + BEFORE;
}

void *__wrap_calloc(size_t count, size_t n) {
  void *octets = __wrap_malloc(count * n);
  return octets ? memset(octets, 0, count * n) : NULL;
}

void __wrap_free(void *octets) {
  size_t n;
  if (!octets) return;
  memcpy(&n, (char *)octets - BEFORE, sizeof n);
  held -= n;
  __real_free((char *)octets - BEFORE);
}

void *__wrap_realloc(void *octets, size_t n) {
  void *block = __wrap_malloc(n);
  size_t old = 0;
  if (!block || !octets) return block;
  memcpy(&old, (char *)octets - BEFORE, sizeof old);
  memcpy(block, octets, old < n ? old : n);
  __wrap_free(octets);
  return block;
}
#endif

size_t held_now(void) { return held; }

int main(int argc, char **argv) {
  static uint8_t octets[1 << 24];
  struct served out = {0, 0, 0};
  FILE *file = argc > 2 ? fopen(argv[1], "rb") : NULL;
  size_t n, before;
  int failed;
  if (!file) return 2;
  n = fread(octets, 1, sizeof octets, file);
  fclose(file);
  before = allocations;
  failed = serve(octets, n, (size_t)atol(argv[2]), argc > 3, &out);
  printf("%llu %llu %zu %zu\n", (unsigned long long)out.answers, (unsigned long long)out.octets,
         out.held, allocations - before);
  return failed;
}
