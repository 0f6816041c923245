/* Counts the calls that allocate, and the octets that are copied, and prints both at last. Linked
 * with --wrap=malloc, realloc, memcpy and memmove. */
#include <stddef.h>
#include <stdio.h>

static size_t allocations, copied;

void *__real_malloc(size_t n);
void *__real_realloc(void *octets, size_t n);
void *__real_memcpy(void *to, const void *from, size_t n);
void *__real_memmove(void *to, const void *from, size_t n);
void *__wrap_malloc(size_t n);
void *__wrap_realloc(void *octets, size_t n);
void *__wrap_memcpy(void *to, const void *from, size_t n);
void *__wrap_memmove(void *to, const void *from, size_t n);

void *__wrap_malloc(size_t n) {
  allocations++;
  return __real_malloc(n);
}

void *__wrap_realloc(void *octets, size_t n) {
  allocations++;
  return __real_realloc(octets, n);
}

void *__wrap_memcpy(void *to, const void *from, size_t n) {
  copied += n;
  return __real_memcpy(to, from, n);
}

void *__wrap_memmove(void *to, const void *from, size_t n) {
  copied += n;
  return __real_memmove(to, from, n);
}

__attribute__((destructor)) static void print_counts(void) {
  printf("%zu %zu\n", allocations, copied);
}
