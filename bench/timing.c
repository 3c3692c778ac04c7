// Checks and times one implementation of JH. Linked with ours.c or with a peer.
//   digests FILE..       for each file four lines: size, tab, digest
//   hash MIB SIZE..      MIB MiB in memory, hashed once for each size: ns per byte, tab, last digest
//   permutation COUNT    COUNT times forth, then COUNT times back: ns per forth, tab, ns per back,
//                        tab, the state between the two
#include "implementation.h"
#include <stdio.h>
#include <stdlib.h>
#include <string.h>
#include <time.h>

static double now(void) {
  struct timespec t;
  clock_gettime(CLOCK_MONOTONIC, &t);
  return t.tv_sec * 1e9 + t.tv_nsec;
}

static void fail(const char *why) {
  fprintf(stderr, "%s\n", why);
  exit(1);
}

static uint8_t *room(size_t n) {
  uint8_t *p = malloc(n + 1); // never null for an empty message
  if (!p) fail("out of memory");
  return p;
}

static void print_hex(const uint8_t *p, size_t n) {
  for (size_t i = 0; i < n; i++) printf("%02x", p[i]);
  printf("\n");
}

static void digests(const char *path) {
  static const unsigned sizes[4] = {224, 256, 384, 512};
  FILE *f = fopen(path, "rb");
  if (!f || fseek(f, 0, SEEK_END)) fail("cannot read the message");
  size_t n = ftell(f);
  uint8_t *message = room(n), out[64];
  rewind(f);
  if (fread(message, 1, n, f) != n) fail("cannot read the message");
  fclose(f);
  for (int i = 0; i < 4; i++) {
    digest(sizes[i], message, n, out);
    printf("%u\t", sizes[i]);
    print_hex(out, sizes[i] / 8);
  }
  free(message);
}

static void hash(size_t mib, char **sizes) {
  size_t n = mib << 20;
  uint8_t *message = room(n), out[64];
  for (size_t i = 0; i < n; i++) message[i] = (uint8_t)(i * 2654435761u >> 13);
  unsigned size = 0;
  double start = now();
  for (; *sizes; sizes++) digest(size = atoi(*sizes), message, n, out);
  printf("%.4f\t", (now() - start) / n);
  print_hex(out, size / 8);
}

static void permutation(long count) {
  uint8_t first[128], state[128], between[128];
  for (int i = 0; i < 128; i++) first[i] = state[i] = i;
  double start = now();
  for (long i = 0; i < count; i++) forth(state);
  double middle = now();
  memcpy(between, state, 128);
  double again = now();
  for (long i = 0; i < count; i++) back(state);
  double end = now();
  if (memcmp(first, state, 128)) fail("back does not undo forth");
  printf("%.2f\t%.2f\t", (middle - start) / count, (end - again) / count);
  print_hex(between, 128);
}

int main(int argc, char **argv) {
  if (argc > 2 && !strcmp(argv[1], "digests"))
    for (int i = 2; i < argc; i++) digests(argv[i]);
  else if (argc > 3 && !strcmp(argv[1], "hash"))
    hash(atol(argv[2]), argv + 3);
  else if (argc == 3 && !strcmp(argv[1], "permutation"))
    permutation(atol(argv[2]));
  else
    fail("usage: digests FILE.. | hash MIB SIZE.. | permutation COUNT");
  return 0;
}
