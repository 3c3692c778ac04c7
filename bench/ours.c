// Gobutlin's JH from the static library of the crate bench_interface; with -DGROUPED the digest
// goes over the grouped permutation. forth and back are the sliced ones in either case.
#include "implementation.h"
#include <stdio.h>
#include <stdlib.h>

// Answer 0, or the number of the refusal.
uint32_t gobutlin_jh(uint32_t size, const uint8_t *message, size_t message_len, uint8_t *out, size_t out_len);
uint32_t gobutlin_jh_grouped(uint32_t size, const uint8_t *message, size_t message_len, uint8_t *out, size_t out_len);
// The length must be 128.
void gobutlin_forth(uint8_t *state, size_t len);
void gobutlin_back(uint8_t *state, size_t len);

void digest(unsigned size, const uint8_t *message, size_t len, uint8_t *out) {
#ifdef GROUPED
  uint32_t refusal = gobutlin_jh_grouped(size, message, len, out, size / 8);
#else
  uint32_t refusal = gobutlin_jh(size, message, len, out, size / 8);
#endif
  if (refusal) {
    fprintf(stderr, "refused with number %u\n", refusal);
    exit(1);
  }
}

void forth(uint8_t state[128]) { gobutlin_forth(state, 128); }
void back(uint8_t state[128]) { gobutlin_back(state, 128); }
