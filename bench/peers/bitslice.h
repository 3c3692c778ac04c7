// JH in its bit-slice form over 128-bit words. The including file defines the type Word and
//   load, store         16 bytes as they lie in memory
//   xor, and, or, not   bit by bit; and_not(a, b) is ~a & b
//   exchange(x, step)   adjacent runs of 2^step bits change places, step < 7
// An exchange does not depend on the byte order within a machine word, so bytes are never turned.
#include "../implementation.h"
#include "constants.h" // ROUND_CONSTANTS[42][2][16], written by bench/run
#include <string.h>

#define INLINE static inline __attribute__((always_inline))

// S0 or S1 on 128 elements, chosen by the bits of c; x3 holds the low bits.
INLINE void substitute(Word *x0, Word *x1, Word *x2, Word *x3, Word c) {
  *x3 = not(*x3);
  *x0 = xor(*x0, and_not(*x2, c));
  Word t = xor(c, and(*x0, *x1));
  *x0 = xor(*x0, and(*x2, *x3));
  *x3 = xor(*x3, and_not(*x1, *x2));
  *x1 = xor(*x1, and(*x0, *x2));
  *x2 = xor(*x2, and_not(*x3, *x0));
  *x0 = xor(*x0, or(*x1, *x3));
  *x3 = xor(*x3, and(*x1, *x2));
  *x1 = xor(*x1, and(t, *x0));
  *x2 = xor(*x2, t);
}

// The steps of substitute undone from the last to the first; t comes from the outputs.
INLINE void unsubstitute(Word *x0, Word *x1, Word *x2, Word *x3, Word c) {
  Word y0 = *x0, y1 = *x1, y2 = *x2, n3 = not(*x3);
  Word t0 = xor(y0, *x3);
  Word t1 = and_not(y0, y1);
  Word t2 = xor(y2, c);
  Word t3 = xor(y1, and_not(c, y0));
  Word t4 = and(t0, t2);
  Word t5 = and(n3, t2);
  Word t6 = and(t0, xor(t3, t5));
  Word t7 = and_not(t3, xor(y0, t4));
  *x1 = xor(t6, t7);
  *x2 = xor(and(n3, t3), and_not(t1, t2));
  *x3 = xor(xor(and_not(t1, n3), t4), or(t2, t6));
  *x0 = xor(and_not(t7, or(t0, t5)), and_not(*x2, c));
}

// The linear transformation L; the even words hold the first elements of the pairs.
INLINE void mix(Word x[8]) {
  x[1] = xor(x[1], x[2]);
  x[3] = xor(x[3], x[4]);
  x[5] = xor(x[5], xor(x[6], x[0]));
  x[7] = xor(x[7], x[0]);
  x[0] = xor(x[0], x[3]);
  x[2] = xor(x[2], x[5]);
  x[4] = xor(x[4], xor(x[7], x[1]));
  x[6] = xor(x[6], x[1]);
}

INLINE void unmix(Word x[8]) {
  x[6] = xor(x[6], x[1]);
  x[4] = xor(x[4], xor(x[7], x[1]));
  x[2] = xor(x[2], x[5]);
  x[0] = xor(x[0], x[3]);
  x[7] = xor(x[7], x[0]);
  x[5] = xor(x[5], xor(x[6], x[0]));
  x[3] = xor(x[3], x[4]);
  x[1] = xor(x[1], x[2]);
}

INLINE void exchange_odd(Word x[8], int step) {
  for (int i = 1; i < 8; i += 2) x[i] = exchange(x[i], step);
}

INLINE void next(Word x[8], int round, int step) {
  substitute(&x[0], &x[2], &x[4], &x[6], load(ROUND_CONSTANTS[round][0]));
  substitute(&x[1], &x[3], &x[5], &x[7], load(ROUND_CONSTANTS[round][1]));
  mix(x);
  exchange_odd(x, step);
}

INLINE void previous(Word x[8], int round, int step) {
  exchange_odd(x, step);
  unmix(x);
  unsubstitute(&x[0], &x[2], &x[4], &x[6], load(ROUND_CONSTANTS[round][0]));
  unsubstitute(&x[1], &x[3], &x[5], &x[7], load(ROUND_CONSTANTS[round][1]));
}

INLINE void e8(Word state[8]) {
  Word x[8];
  memcpy(x, state, sizeof x);
  for (int r = 0; r < 42; r += 7) {
    next(x, r, 0);
    next(x, r + 1, 1);
    next(x, r + 2, 2);
    next(x, r + 3, 3);
    next(x, r + 4, 4);
    next(x, r + 5, 5);
    next(x, r + 6, 6);
  }
  memcpy(state, x, sizeof x);
}

INLINE void e8_inverse(Word state[8]) {
  Word x[8];
  memcpy(x, state, sizeof x);
  for (int r = 35; r >= 0; r -= 7) {
    previous(x, r + 6, 6);
    previous(x, r + 5, 5);
    previous(x, r + 4, 4);
    previous(x, r + 3, 3);
    previous(x, r + 2, 2);
    previous(x, r + 1, 1);
    previous(x, r, 0);
  }
  memcpy(state, x, sizeof x);
}

// One block into the chain value.
static void f8(Word x[8], const uint8_t block[64]) {
  for (int i = 0; i < 4; i++) x[i] = xor(x[i], load(block + 16 * i));
  e8(x);
  for (int i = 0; i < 4; i++) x[4 + i] = xor(x[4 + i], load(block + 16 * i));
}

static void load_state(Word x[8], const uint8_t state[128]) {
  for (int i = 0; i < 8; i++) x[i] = load(state + 16 * i);
}

static void store_state(const Word x[8], uint8_t state[128]) {
  for (int i = 0; i < 8; i++) store(state + 16 * i, x[i]);
}

void digest(unsigned size, const uint8_t *message, size_t len, uint8_t *out) {
  uint8_t state[128] = {size >> 8, size & 255}, block[64] = {0};
  Word x[8];
  load_state(x, state);
  f8(x, block);
  size_t done = 0, rest = len % 64;
  for (; done + 64 <= len; done += 64) f8(x, message + done);
  memcpy(block, message + done, rest);
  block[rest] = 0x80;
  if (rest) {
    f8(x, block);
    memset(block, 0, 64);
  }
  for (int i = 0; i < 8; i++) block[56 + i] = (uint64_t)len * 8 >> (56 - 8 * i);
  f8(x, block);
  store_state(x, state);
  memcpy(out, state + 128 - size / 8, size / 8);
}

void forth(uint8_t state[128]) {
  Word x[8];
  load_state(x, state);
  e8(x);
  store_state(x, state);
}

void back(uint8_t state[128]) {
  Word x[8];
  load_state(x, state);
  e8_inverse(x);
  store_state(x, state);
}
