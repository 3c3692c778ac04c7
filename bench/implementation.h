// What the timing program asks of an implementation of JH.
#include <stddef.h>
#include <stdint.h>

// Writes size / 8 bytes at out; size is 224, 256, 384 or 512.
void digest(unsigned size, const uint8_t *message, size_t len, uint8_t *out);

// E8 and its inverse.
void forth(uint8_t state[128]);
void back(uint8_t state[128]);
