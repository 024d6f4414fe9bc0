/* Document 01's record in full, and pyramids with their records, worked out by hand from document 01. */
#ifndef EXAMPLES_H
#define EXAMPLES_H

#include <stddef.h>
#include <stdint.h>

#define HEADER "01 04 04 01 03 "
#define PART_2_2 "02 02 05 80 "
#define PART_2_1 "02 01 03 00 "
#define PART_1_2 "01 02 05 40 "
#define PART_1_1 "01 01 08 8C "
#define PART_0_2 "00 02 05 C0 "
#define PART_0_1 "00 01 0B 0C 20 "
#define EXAMPLE HEADER PART_2_2 PART_2_1 PART_1_2 PART_1_1 PART_0_2 PART_0_1
#define EXAMPLE_PYRAMID "4 -1 0 0  2 0 0 -3  0 0 1 0  0 0 0 0"

/* A body of 64 bits. */
#define EIGHT "FF 00 55 AA 01 80 7F FE "

/* The pyramid's first coefficients are told, the others are 0. */
typedef struct {
    const char *name;
    uint64_t width, height, decompositions;
    const char *pyramid, *record;
} Pair;

extern const Pair pairs[];
extern const size_t pair_count;

/* Records that the coder wrote once and writes no longer; they are read as ever. */
extern const Pair written_before[];
extern const size_t written_before_count;

#endif
