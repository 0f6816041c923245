/* What is measured: the same calls over Belkjoef's crates and over nghttp2. Each answers 0, or 1
 * where it failed. */
#include <stddef.h>
#include <stdint.h>

struct counts {
  uint64_t units;  /* fields, or frames */
  uint64_t octets; /* of names and values, or of blocks */
};

/* Encodes the lists into blocks, of each the length in 32 bits and the octets, and answers their
 * octets together, or 0 where they don't fit. Of Belkjoef's crates alone. */
size_t measure_blocks(const uint8_t *lists, size_t n, uint8_t *blocks, size_t room);
/* Encodes the lists, on a new encoder of 4,096 a round. */
int measure_encode(const uint8_t *lists, size_t n, uint32_t rounds, struct counts *out);
/* Decodes such blocks, on a new decoder of 4,096 a round, into lists that the caller owns. */
int measure_decode(const uint8_t *blocks, size_t n, uint32_t rounds, struct counts *out);
/* The same into a list that is kept. */
int measure_decode_into(const uint8_t *blocks, size_t n, uint32_t rounds, struct counts *out);
/* Cuts a client's octets into frames, in pieces of so many octets, and decodes the blocks. */
int measure_cut(const uint8_t *octets, size_t n, size_t piece, uint32_t rounds,
                struct counts *out);
/* Serves a client's octets, which come in pieces of so many, with an end that allows 1,000 streams:
 * and reads frames of 1,048,576 octets: each request is answered, as it ends, with three fields and a
 * body of so many octets, 65,536 at most, and output is put out after each answer and each piece; what
 * is owed is released at once. The units are the answers, and the octets those of the output. Allocations of MARK octets say that there is no end
 * yet, and that all octets were served. */
enum { MARK = 0xbe1c0e };
int measure_serve(const uint8_t *octets, size_t n, size_t piece, size_t body, struct counts *out);
/* Serves a client's octets with a server of messages: each request is answered with a body of so many
 * octets, whole, or, where parts isn't 0, in parts of 16,384. */
int measure_answers(const uint8_t *octets, size_t n, size_t body, uint32_t parts,
                    struct counts *out);
/* Serves a client's octets with the README's server, whose answers are smaller. No units. */
int measure_server(const uint8_t *octets, size_t n, struct counts *out);

/* Takes a server's octets with the README's client, which asks for one page. The octets that are
   counted are those of the response's body. */
int measure_client(const uint8_t *octets, size_t n, struct counts *out);

/* Serves a file of so many octets, which is made as it is read, with the file server of h2_uses to
 * a client in memory. The units are the bodies that have come whole, the octets those of them.
 * Allocations of MARK octets say that there is no end yet, and that all has come. */
int measure_stream(uint64_t length, struct counts *out);
