/* driver encode LISTS ROUNDS | decode BLOCKS ROUNDS | decode_into BLOCKS ROUNDS
 *        | cut WIRE PIECE ROUNDS
 * makes the rounds, and prints how many fields or frames they had.
 * driver serve CLIENT PIECE [BODY]
 * serves what a client sends, each answer with a body of BODY octets (1,000), and prints how many
 * answers it had and the octets of the output.
 * driver whole CLIENT [BODY] | parts CLIENT [BODY]
 * serves it with a server of messages, whose bodies are given whole or in parts.
 * driver stream OCTETS
 * serves a file of so many octets, in parts, to a client in memory, and prints how many bodies and
 * octets have come, and by how many octets that has raised the most memory that the process had.
 * driver server CLIENT
 * serves it with the README's server, and prints how many octets of output it had.
 * driver blocks LISTS | wire BLOCKS
 * writes the blocks of lists, and a client's octets with the blocks, each in a HEADERS frame. */
#include <stdio.h>
#include <stdlib.h>
#include <string.h>
#include "measure.h"

static uint8_t *read_all(const char *name, size_t *n) {
  FILE *file = fopen(name, "rb");
  uint8_t *octets;
  long size;
  if (!file || fseek(file, 0, SEEK_END) || (size = ftell(file)) < 0 || fseek(file, 0, SEEK_SET))
    exit(3);
  octets = malloc((size_t)size + 1);
  if (!octets || fread(octets, 1, (size_t)size, file) != (size_t)size) exit(3);
  fclose(file);
  *n = (size_t)size;
  return octets;
}

#ifdef MAKES_INPUT
static int write_blocks(const uint8_t *lists, size_t n) {
  size_t room = 4 * n + 65536;
  uint8_t *blocks = malloc(room);
  size_t size = blocks ? measure_blocks(lists, n, blocks, room) : 0;
  return size == 0 || fwrite(blocks, 1, size, stdout) != size;
}

static void write_head(size_t length, uint8_t kind, uint8_t flags, uint32_t stream) {
  uint8_t head[9] = {(uint8_t)(length >> 16), (uint8_t)(length >> 8), (uint8_t)length, kind, flags};
  head[5] = (uint8_t)(stream >> 24);
  head[6] = (uint8_t)(stream >> 16);
  head[7] = (uint8_t)(stream >> 8);
  head[8] = (uint8_t)stream;
  fwrite(head, 1, sizeof head, stdout);
}

static int write_wire(const uint8_t *blocks, size_t n) {
  uint32_t stream = 1;
  size_t at = 0;
  fputs("PRI * HTTP/2.0\r\n\r\nSM\r\n\r\n", stdout);
  write_head(0, 4, 0, 0);
  write_head(0, 4, 1, 0);
  while (at + 4 <= n) {
    size_t size = (size_t)blocks[at] << 24 | (size_t)blocks[at + 1] << 16 |
                  (size_t)blocks[at + 2] << 8 | blocks[at + 3];
    write_head(size, 1, 5, stream);
    fwrite(blocks + at + 4, 1, size, stdout);
    write_head(4, 8, 0, 0);
    fwrite("\0\0\0\1", 1, 4, stdout);
    write_head(5, 2, 0, stream);
    fwrite("\0\0\0\0\17", 1, 5, stdout);
    at += 4 + size;
    stream += 2;
  }
  return ferror(stdout);
}
#endif

#ifdef MAKES_INPUT
/* The most memory that the process has had (VmHWM), in octets. */
static size_t most_memory(void) {
  FILE *file = fopen("/proc/self/status", "r");
  char line[256];
  size_t kib = 0;
  if (!file) exit(3);
  while (fgets(line, sizeof line, file) && sscanf(line, "VmHWM: %zu kB", &kib) != 1) continue;
  fclose(file);
  return kib * 1024;
}

static int stream(uint64_t length) {
  struct counts counts = {0, 0};
  size_t before = most_memory();
  int failed = measure_stream(length, &counts);
  printf("%llu %llu %zu\n", (unsigned long long)counts.units, (unsigned long long)counts.octets,
         most_memory() - before);
  return failed || counts.units != 1 || counts.octets != length;
}
#endif

int main(int argc, char **argv) {
  struct counts counts = {0, 0};
  size_t n;
  uint8_t *octets;
  int failed;
  if (argc < 3) return 2;
#ifdef MAKES_INPUT
  if (!strcmp(argv[1], "stream")) return stream(strtoull(argv[2], NULL, 10));
#endif
  octets = read_all(argv[2], &n);
#ifdef MAKES_INPUT
  if (!strcmp(argv[1], "server")) {
    failed = measure_server(octets, n, &counts);
    printf("%llu\n", (unsigned long long)counts.octets);
    return failed;
  }
  if (!strcmp(argv[1], "whole") || !strcmp(argv[1], "parts")) {
    failed = measure_answers(octets, n, argc > 3 ? (size_t)atol(argv[3]) : 16384,
                             !strcmp(argv[1], "parts"), &counts);
    printf("%llu %llu\n", (unsigned long long)counts.units, (unsigned long long)counts.octets);
    return failed;
  }
  if (!strcmp(argv[1], "blocks")) return write_blocks(octets, n);
  if (!strcmp(argv[1], "wire")) return write_wire(octets, n);
#endif
  if (argc < 4) return 2;
  if (!strcmp(argv[1], "encode"))
    failed = measure_encode(octets, n, (uint32_t)atoi(argv[3]), &counts);
  else if (!strcmp(argv[1], "decode"))
    failed = measure_decode(octets, n, (uint32_t)atoi(argv[3]), &counts);
  else if (!strcmp(argv[1], "decode_into"))
    failed = measure_decode_into(octets, n, (uint32_t)atoi(argv[3]), &counts);
  else if (!strcmp(argv[1], "cut") && argc == 5)
    failed = measure_cut(octets, n, (size_t)atol(argv[3]), (uint32_t)atoi(argv[4]), &counts);
  else if (!strcmp(argv[1], "serve"))
    failed = measure_serve(octets, n, (size_t)atol(argv[3]),
                           argc > 4 ? (size_t)atol(argv[4]) : 1000, &counts);
  else
    return 2;
  printf("%llu %llu\n", (unsigned long long)counts.units, (unsigned long long)counts.octets);
  free(octets);
  return failed;
}
