// The two functions that are compared: each writes the SHA-256 of the n bytes at m.
#include <stddef.h>
#include <stdint.h>

// Ours, from the archive that `tools/archive sha256` writes.
void pingvratha_sha256(const uint8_t *m, size_t n, uint8_t out[32]);

// The opponent, in sha256.c.
void portable_sha256(const uint8_t *m, size_t n, uint8_t out[32]);
