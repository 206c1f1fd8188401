/* sha256.h: SHA-256 (FIPS 180-4), as text: of bytes in memory, and of bytes that
 * come piece by piece. */
#ifndef SHA256_H
#define SHA256_H

#include <stddef.h>
#include <stdint.h>

#define SHA256_TEXT 65 /* 64 digits and the end */
#define SHA256_BLOCK 64

typedef struct sha256 {
    uint32_t state[8];
    uint64_t length;             /* bytes that came */
    uint8_t block[SHA256_BLOCK]; /* those of a block that is not full yet */
} sha256;

sha256 sha256_start(void);
void sha256_add(sha256 *sum, const uint8_t *bytes, size_t length);
void sha256_end(sha256 *sum, char text[SHA256_TEXT]);

void sha256_text(const uint8_t *bytes, size_t length, char text[SHA256_TEXT]);

#endif
