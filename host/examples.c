#include "examples.h"

#define ZEROS_4 "00 00 00 00 "
#define ZEROS_12 ZEROS_4 ZEROS_4 ZEROS_4
#define ZEROS_24 ZEROS_12 ZEROS_12

/* 4 x 4 with 65,535 or its opposite at (0, 0) and 0 elsewhere: found at plane 15, then a refinement bit of 1 in each plane. */
#define REFINED(plane) plane " 02 04 10 " plane " 01 03 00 "
#define REFINED_14_TO_0                                                                                                                   \
    REFINED("0E") REFINED("0D") REFINED("0C") REFINED("0B") REFINED("0A") REFINED("09") REFINED("08") REFINED("07") REFINED("06")         \
    REFINED("05") REFINED("04") REFINED("03") REFINED("02") REFINED("01") REFINED("00")
#define FOUND_AT_15(body) "0F 02 05 " body " 0F 01 03 00 " REFINED_14_TO_0
#define IN_16_PLANES(body) "01 04 04 01 10 " FOUND_AT_15(body)
#define IN_17_PLANES(body) "01 04 04 01 11 10 02 04 00 10 01 03 00 " FOUND_AT_15(body)

/* The same with 5 or -5. */
#define FOUND_AT_2(body) "02 02 05 " body " 02 01 03 00 01 02 04 00 01 01 03 00 00 02 04 10 00 01 03 00"
#define IN_3_PLANES(body) "01 04 04 01 03 " FOUND_AT_2(body)
#define IN_4_PLANES(body) "01 04 04 01 04 03 02 04 00 03 01 03 00 " FOUND_AT_2(body)

/* A part of 0 bits in each of the levels 4 to 1. */
#define NOTHING_IN_4_TO_1 "00 04 00 00 03 00 00 02 00 00 01 00"

const Pair pairs[] = {
    {"P6: the record in full", 4, 4, 1, EXAMPLE_PYRAMID, EXAMPLE},
    {"P7: all zero", 4, 4, 1, "", "01 04 04 01 00"},
    {"a magnitude of 1 has 1 plane", 4, 4, 1, "1", "01 04 04 01 01 00 02 05 80 00 01 03 00"},
    {"2 has 2 planes", 4, 4, 1, "2", "01 04 04 01 02 01 02 05 80 01 01 03 00 00 02 04 00 00 01 03 00"},
    {"3 has 2 planes", 4, 4, 1, "3", "01 04 04 01 02 01 02 05 80 01 01 03 00 00 02 04 10 00 01 03 00"},
    {"4 has 3 planes", 4, 4, 1, "4", "01 04 04 01 03 02 02 05 80 02 01 03 00 01 02 04 00 01 01 03 00 00 02 04 00 00 01 03 00"},
    {"5 has 3 planes", 4, 4, 1, "5", IN_3_PLANES("80")},
    {"-5", 4, 4, 1, "-5", IN_3_PLANES("C0")},
    {"7 has 3 planes", 4, 4, 1, "7", "01 04 04 01 03 02 02 05 80 02 01 03 00 01 02 04 10 01 01 03 00 00 02 04 10 00 01 03 00"},
    {"8 has 4 planes", 4, 4, 1, "8",
     "01 04 04 01 04 03 02 05 80 03 01 03 00 02 02 04 00 02 01 03 00 01 02 04 00 01 01 03 00 00 02 04 00 00 01 03 00"},
    {"65,535 has 16 planes", 4, 4, 1, "65535", IN_16_PLANES("80")},
    {"-65,535", 4, 4, 1, "-65535", IN_16_PLANES("C0")},

    {"P1: 127 bits", 4, 124, 1, "1 1 0 0  1 0", "01 04 7C 01 01 00 02 7F A8 " ZEROS_12 "00 00 00 00 01 5D " ZEROS_12},
    {"P2: 128 bits", 4, 124, 1, "1 1 0 0  1 1", "01 04 7C 01 01 00 02 80 01 AA " ZEROS_12 "00 00 00 00 01 5D " ZEROS_12},
    {"P2: 128 wide", 128, 4, 1, "", "01 80 01 04 01 00"},
    {"P3: 512 wide", 512, 4, 1, "", "01 80 04 04 01 00"},
    {"P3: 512 high", 4, 512, 1, "", "01 04 80 04 01 00"},

    {"P12: (0, 1) has the block at (0, 2)", 8, 8, 2, "0 0 1", "01 08 08 02 01 00 03 04 00 00 02 08 C0 00 01 01 00"},
    {"P12: (1, 2) has the block at (2, 4)", 8, 8, 2, "0 0 0 0 0 0 0 0  0 0 0 0 0 0 0 0  0 0 0 0 1",
     "01 08 08 02 01 00 03 04 00 00 02 07 80 00 01 0A 98 00"},

    {"8 x 8, N = 1", 8, 8, 1, "", "01 08 08 01 00"},
    {"64 x 64, N = 5", 64, 64, 5, "1", "01 40 40 05 01 00 06 05 80 00 05 03 00 " NOTHING_IN_4_TO_1},
    {"512 x 512, N = 5, all zero", 512, 512, 5, "", "01 80 04 80 04 05 00"},
    {"512 x 512, N = 5", 512, 512, 5, "1",
     "01 80 04 80 04 05 01 00 06 81 02 80 " ZEROS_24 ZEROS_4 ZEROS_4 "00 05 C0 01 " ZEROS_24 NOTHING_IN_4_TO_1},
};

const size_t pair_count = sizeof pairs / sizeof *pairs;

/* Until W5 the coder had a plane more where M is no power of two: log2 M rounded up. */
const Pair written_before[] = {
    {"5, written before: 4 planes", 4, 4, 1, "5", IN_4_PLANES("80")},
    {"-5, written before", 4, 4, 1, "-5", IN_4_PLANES("C0")},
    {"65,535, written before: 17 planes", 4, 4, 1, "65535", IN_17_PLANES("80")},
    {"-65,535, written before", 4, 4, 1, "-65535", IN_17_PLANES("C0")},
};

const size_t written_before_count = sizeof written_before / sizeof *written_before;
