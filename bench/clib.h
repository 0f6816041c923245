/* What bench/clib measures: the same loop over belkjoef.h (clib_belkjoef.c) and over nghttp2's
 * library (clib_nghttp2.c). */
#include <stddef.h>
#include <stdint.h>

struct served {
  uint64_t answers, octets; /* how many answers, and the octets of the output */
  size_t held;              /* octets that are held at last, before all is freed */
};

/* Octets that are held now of those that were asked of malloc; 0 where they aren't counted. */
size_t held_now(void);

/* Serves what a client sends, in pieces of 1,500 octets, as a server that allows 1,000 streams:
 * each request is answered, once it is whole, with three fields and a body of so many octets,
 * 65,536 at most. Where in_parts isn't 0 the body is given from where it lies, else whole; nghttp2
 * has one way alone. After each piece what came of bodies is released, and the output is put out. */
int serve(const uint8_t *octets, size_t n, size_t body, int in_parts, struct served *out);
