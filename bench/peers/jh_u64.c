// JH with a word as two uint64_t: plain C, no intrinsics.
#include <stdint.h>
#include <string.h>

typedef struct {
  uint64_t a, b;
} Word;

static inline Word load(const uint8_t *p) {
  Word x;
  memcpy(&x, p, 16);
  return x;
}
static inline void store(uint8_t *p, Word x) { memcpy(p, &x, 16); }
static inline Word xor(Word x, Word y) { return (Word){x.a ^ y.a, x.b ^ y.b}; }
static inline Word and(Word x, Word y) { return (Word){x.a & y.a, x.b & y.b}; }
static inline Word and_not(Word x, Word y) { return (Word){~x.a & y.a, ~x.b & y.b}; }
static inline Word or(Word x, Word y) { return (Word){x.a | y.a, x.b | y.b}; }
static inline Word not(Word x) { return (Word){~x.a, ~x.b}; }

// mask has the lower run of each two.
static inline uint64_t exchanged(uint64_t x, int n, uint64_t mask) { return (x & mask) << n | (x >> n & mask); }

static inline Word exchange(Word x, int step) {
  static const uint64_t masks[6] = {0x5555555555555555, 0x3333333333333333, 0x0f0f0f0f0f0f0f0f,
                                    0x00ff00ff00ff00ff, 0x0000ffff0000ffff, 0x00000000ffffffff};
  if (step == 6) return (Word){x.b, x.a};
  return (Word){exchanged(x.a, 1 << step, masks[step]), exchanged(x.b, 1 << step, masks[step])};
}

#include "bitslice.h"
