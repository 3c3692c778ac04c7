// JH with a word as one SSE2 register.
#include <emmintrin.h>
#include <stdint.h>

typedef __m128i Word;

static inline Word load(const uint8_t *p) { return _mm_loadu_si128((const Word *)p); }
static inline void store(uint8_t *p, Word x) { _mm_storeu_si128((Word *)p, x); }
static inline Word xor(Word x, Word y) { return _mm_xor_si128(x, y); }
static inline Word and(Word x, Word y) { return _mm_and_si128(x, y); }
static inline Word and_not(Word x, Word y) { return _mm_andnot_si128(x, y); }
static inline Word or(Word x, Word y) { return _mm_or_si128(x, y); }
static inline Word not(Word x) { return xor(x, _mm_set1_epi32(-1)); }

// mask has the lower run of each two.
#define EXCHANGED(x, n, mask) or(_mm_slli_epi64(and(x, mask), n), and(_mm_srli_epi64(x, n), mask))

static inline Word exchange(Word x, int step) {
  switch (step) {
  case 0: return EXCHANGED(x, 1, _mm_set1_epi8(0x55));
  case 1: return EXCHANGED(x, 2, _mm_set1_epi8(0x33));
  case 2: return EXCHANGED(x, 4, _mm_set1_epi8(0x0f));
  case 3: return or(_mm_slli_epi16(x, 8), _mm_srli_epi16(x, 8));
  case 4: return or(_mm_slli_epi32(x, 16), _mm_srli_epi32(x, 16));
  case 5: return _mm_shuffle_epi32(x, 0xb1);
  default: return _mm_shuffle_epi32(x, 0x4e);
  }
}

#include "bitslice.h"
