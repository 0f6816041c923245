/* Counts what is allocated, by what was asked for, and prints what was added between the two marks
 * (measure.h): what a server's end holds at last, and the most that was held between them. Linked
 * with --wrap=malloc, realloc and free. */
#include <stdio.h>
#include <string.h>
#include "measure.h"

enum { BEFORE = 16 };

static size_t held, most, held_at_mark[2], marks;

void *__real_malloc(size_t n);
void __real_free(void *block);
void *__wrap_malloc(size_t n);
void *__wrap_realloc(void *octets, size_t n);
void __wrap_free(void *octets);

void *__wrap_malloc(size_t n) {
  char *block = __real_malloc(n + BEFORE);
  if (!block) return NULL;
  if (n == MARK && marks < 2) held_at_mark[marks++] = held;
  memcpy(block, &n, sizeof n);
  held += n;
  if (n != MARK && marks == 1 && held > most) most = held;
  return block + BEFORE;
}

static size_t size_of(void *octets) {
  size_t n = 0;
  if (octets) memcpy(&n, (char *)octets - BEFORE, sizeof n);
  return n;
}

void __wrap_free(void *octets) {
  if (!octets) return;
  held -= size_of(octets);
  __real_free((char *)octets - BEFORE);
}

void *__wrap_realloc(void *octets, size_t n) {
  void *block = __wrap_malloc(n);
  size_t old = size_of(octets);
  if (!block) return NULL;
  if (octets) memcpy(block, octets, old < n ? old : n);
  __wrap_free(octets);
  return block;
}

__attribute__((destructor)) static void print_held(void) {
  size_t start = held_at_mark[0];
  printf("%zu %zu\n", held_at_mark[1] - start, most > start ? most - start : 0);
}
