/* SHA-256, by OpenSSL's libcrypto. */
#ifndef AFS_DIGEST_H
#define AFS_DIGEST_H

#include "files.h"

#include <stdio.h>

enum { DIGEST_BYTES = 32, DIGEST_DIGITS = 2 * DIGEST_BYTES };

typedef struct {
    uint8_t bytes[DIGEST_BYTES];
} Digest;

Digest digest_of(const void *bytes, size_t length);

bool is_same_digest(const Digest *one, const Digest *other);

/* In small hexadecimal digits, as sha256sum prints it. */
void print_digest(FILE *out, const Digest *digest);

/* From just such digits. Whether they are. */
bool read_digest(const char *digits, Digest *digest);

#endif
