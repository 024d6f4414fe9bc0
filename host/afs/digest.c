#include "digest.h"

#include "messages.h"

#include <openssl/evp.h>
#include <stdlib.h>
#include <string.h>

static EVP_MD *sha256;
static EVP_MD_CTX *context;

static void let_go(void) {
    EVP_MD_CTX_free(context);
    EVP_MD_free(sha256);
}

/* Fetched once: a record has a hundred parts, and to look for the algorithm takes longer than to digest a small one. */
static void have_sha256(void) {
    if (sha256 != NULL)
        return;
    sha256 = EVP_MD_fetch(NULL, "SHA256", NULL);
    context = EVP_MD_CTX_new();
    if (sha256 == NULL || context == NULL)
        fail("libcrypto gives no SHA-256");
    atexit(let_go);
}

Digest digest_of(const void *bytes, size_t length) {
    Digest digest;
    have_sha256();
    if (!EVP_DigestInit_ex2(context, sha256, NULL) || !EVP_DigestUpdate(context, bytes, length) || !EVP_DigestFinal_ex(context, digest.bytes, NULL))
        fail("libcrypto could not make a SHA-256");
    return digest;
}

bool is_same_digest(const Digest *one, const Digest *other) {
    return memcmp(one->bytes, other->bytes, DIGEST_BYTES) == 0;
}

static const char hexadecimal[] = "0123456789abcdef";

void print_digest(FILE *out, const Digest *digest) {
    char digits[DIGEST_DIGITS];
    for (size_t i = 0; i < DIGEST_BYTES; i++) {
        digits[2 * i] = hexadecimal[digest->bytes[i] >> 4];
        digits[2 * i + 1] = hexadecimal[digest->bytes[i] & 15];
    }
    fwrite(digits, 1, DIGEST_DIGITS, out);
}

bool read_digest(const char *digits, Digest *digest) {
    for (size_t i = 0; i < DIGEST_DIGITS; i++) {
        const char *found = digits[i] == '\0' ? NULL : strchr(hexadecimal, digits[i]);
        if (found == NULL)
            return false;
        unsigned value = (unsigned)(found - hexadecimal);
        digest->bytes[i / 2] = (uint8_t)(i % 2 == 0 ? value << 4 : digest->bytes[i / 2] | value);
    }
    return true;
}
