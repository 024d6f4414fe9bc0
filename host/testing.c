#include "testing.h"

#include <inttypes.h>
#include <stdio.h>
#include <stdlib.h>
#include <string.h>

static unsigned passed, failed;
static const char *label;
static bool holds_so_far;

void begin_case(const char *name) {
    label = name;
    holds_so_far = true;
}

void check(bool holds, const char *what) {
    if (holds_so_far && !holds)
        printf("FAILED: %s: %s\n", label, what);
    holds_so_far = holds_so_far && holds;
}

void end_case(void) {
    if (holds_so_far)
        passed++;
    else
        failed++;
}

int end_tests(void) {
    printf("%u passed, %u failed\n", passed, failed);
    return failed == 0 ? EXIT_SUCCESS : EXIT_FAILURE;
}

void *memory_of(size_t size) {
    void *memory = malloc(size > 0 ? size : 1);
    if (memory == NULL) {
        perror("malloc");
        exit(2);
    }
    return memory;
}

Bytes copy_of(const uint8_t *from, size_t length) {
    Bytes bytes = {memory_of(length), length};
    if (length > 0)
        memcpy(bytes.at, from, length);
    return bytes;
}

Pyramid pyramid_copy_of(const int32_t *from, size_t length) {
    Pyramid pyramid = {memory_of(length * sizeof *from), length};
    if (length > 0)
        memcpy(pyramid.at, from, length * sizeof *from);
    return pyramid;
}

static void expect_text(bool holds, const char *what, const char *text) {
    if (!holds) {
        fprintf(stderr, "not a row of %s: %s\n", what, text);
        exit(2);
    }
}

Bytes bytes_of(const char *text) {
    Bytes bytes = {memory_of(strlen(text) / 2), 0};
    char *end;
    for (; *text != '\0'; text = end + strspn(end, " ")) {
        bytes.at[bytes.length++] = (uint8_t)strtoul(text, &end, 16);
        expect_text(end == text + 2, "bytes", text);
    }
    Bytes exact = copy_of(bytes.at, bytes.length);
    free(bytes.at);
    return exact;
}

Pyramid pyramid_of(const char *text, size_t length) {
    Pyramid pyramid = {memory_of(length * sizeof(int32_t)), length};
    char *end;
    memset(pyramid.at, 0, length * sizeof(int32_t));
    for (size_t i = 0; *text != '\0'; i++, text = end + strspn(end, " ")) {
        expect_text(i < length, "so many coefficients", text);
        pyramid.at[i] = (int32_t)strtol(text, &end, 10);
        expect_text(end > text, "coefficients", text);
    }
    return pyramid;
}

enum { GUARD = 8, DIRT = 0xA5 };

static bool all_are(const uint8_t *bytes, size_t length, uint8_t value) {
    for (size_t i = 0; i < length; i++)
        if (bytes[i] != value)
            return false;
    return true;
}

Lent lend(size_t size) {
    uint8_t *memory = memory_of(size + 2 * GUARD);
    memset(memory, DIRT, size + 2 * GUARD);
    return (Lent){memory, memory + GUARD, size};
}

void check_zero_from(const Lent *lent, size_t offset, const char *what) {
    check(all_are((const uint8_t *)lent->at + offset, lent->size - offset, 0), what);
}

void take_back(Lent *lent, const char *what) {
    check(all_are(lent->memory, GUARD, DIRT) && all_are(lent->memory + GUARD + lent->size, GUARD, DIRT), what);
    free(lent->memory);
}

void check_answer(const Lent *answer, const uint64_t *numbers, size_t count) {
    const uint64_t *told = answer->at;
    size_t written = answer->size >= count * sizeof *told ? count : 0;
    for (size_t i = 0; i < written; i++) {
        char what[96];
        snprintf(what, sizeof what, "answer[%zu] is %" PRIu64 ", expected %" PRIu64, i, told[i], numbers[i]);
        check(told[i] == numbers[i], what);
    }
    check_zero_from(answer, written * sizeof *told, "rest of the answer not 0");
}
