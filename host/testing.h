/* What the tests of the exported calls share: counting of cases, bytes and coefficients told as text, and memory that is lent. */
#ifndef TESTING_H
#define TESTING_H

#include "afshtruni.h"

#include <stdbool.h>

#define LENGTH_OF(array) (sizeof(array) / sizeof *(array))

/* Each case is counted once, and tells the first thing that is wrong in it. */
void begin_case(const char *name);
void check(bool holds, const char *what);
void end_case(void);

/* Prints the count of cases; what main returns. */
int end_tests(void);

/* Bytes and coefficients stand in memory that ends with them, so that a read beyond is noticed under valgrind. */
typedef struct {
    uint8_t *at;
    size_t length;
} Bytes;

typedef struct {
    int32_t *at;
    size_t length;
} Pyramid;

void *memory_of(size_t size);
Bytes copy_of(const uint8_t *from, size_t length);
Pyramid pyramid_copy_of(const int32_t *from, size_t length);

/* Of text such as "01 7F". */
Bytes bytes_of(const char *text);

/* Of text such as "4 -1", which is followed by 0 up to the length. */
Pyramid pyramid_of(const char *text, size_t length);

/* What a call writes to is lent dirty, with a guard on both sides. */
typedef struct {
    uint8_t *memory;
    void *at;
    size_t size;
} Lent;

Lent lend(size_t size);
void check_zero_from(const Lent *lent, size_t offset, const char *what);
void take_back(Lent *lent, const char *what);

/* An answer begins with these numbers, or has no place for them; all else in it is 0. */
void check_answer(const Lent *answer, const uint64_t *numbers, size_t count);

#endif
