/* Tests of afs_decode as a C program calls it: document 01's cases, each refusal with its place, and all memory lent, for every outcome.
   What was coded and served by the other exported calls is decoded too. */
#include "examples.h"
#include "testing.h"

#include <stdio.h>
#include <stdlib.h>
#include <string.h>

/* What an answer tells of a record that is accepted; of a refusal it is all 0. */
typedef struct {
    uint64_t tail, reached[AFS_LEVEL_PLACES], skipped[AFS_LEVEL_PLACES];
} Told;

/* A call and what must come of it; a refusal has no result. */
typedef struct {
    const Bytes *record;
    size_t out_length, work_length, answer_length;
    uint64_t number, place;
    Told told;
    const Pyramid *result;
} Call;

static void check_out(const Call *call, const Lent *out) {
    if (call->result == NULL)
        check_zero_from(out, 0, "output not all 0");
    else
        check(memcmp(out->at, call->result->at, out->size) == 0, "coefficients");
}

static void try_call(const Call *call) {
    uint64_t numbers[AFS_DECODED_NUMBERS] = {call->number, call->place, call->told.tail};
    memcpy(numbers + AFS_DECODED_REACHED, call->told.reached, sizeof call->told.reached);
    memcpy(numbers + AFS_DECODED_SKIPPED, call->told.skipped, sizeof call->told.skipped);
    Lent out = lend(call->out_length * sizeof(int32_t)), work = lend(call->work_length * sizeof(uint32_t));
    Lent answer = lend(call->answer_length * sizeof *numbers);
    Bytes before = copy_of(call->record->at, call->record->length);

    uint64_t returned = afs_decode(call->record->at, call->record->length, out.at, call->out_length, work.at, call->work_length, answer.at,
                                   call->answer_length);

    check(returned == call->number, "number returned");
    check_answer(&answer, numbers, AFS_DECODED_NUMBERS);
    check_out(call, &out);
    check_zero_from(&work, 0, "workspace not all 0");
    check(memcmp(before.at, call->record->at, before.length) == 0, "record written to");
    free(before.at);
    take_back(&answer, "written beside the answer");
    take_back(&work, "written beside the workspace");
    take_back(&out, "written beside the output");
}

/* The same with answers of other lengths: just as long as the answer, longer, and too short for it, as 9 to 14 numbers are since 0.2.0. */
static void try_answers(Call call) {
    for (call.answer_length = 15; call.answer_length <= 17; call.answer_length++)
        try_call(&call);
    call.number = AFS_ROOM;
    call.result = NULL;
    for (call.answer_length = 0; call.answer_length <= 14; call.answer_length++)
        try_call(&call);
}

/* Of a record whose header is in order: output of another length is refused whatever the workspace, then too little workspace, whatever
   the parts are. */
static void try_wrong_lengths(const Bytes *record, size_t area) {
    size_t lengths[] = {0, area - 1, area + 1, 4 * area}, works[] = {0, 4 * area - 1, 4 * area};
    for (size_t i = 0; i < LENGTH_OF(lengths); i++)
        for (size_t j = 0; j < LENGTH_OF(works); j++)
            try_answers((Call){.record = record, .out_length = lengths[i], .work_length = works[j], .number = AFS_LENGTH});
    for (size_t j = 0; j < 2; j++)
        try_answers((Call){.record = record, .out_length = area, .work_length = works[j], .number = AFS_WORK});
}

/* A header at fault is refused whatever is lent. */
static void try_refused_header(const Bytes *record, uint64_t number, uint64_t place) {
    static const size_t lengths[] = {0, 1, 16, 64}, works[] = {0, 63, 64, 256};
    for (size_t i = 0; i < LENGTH_OF(lengths); i++)
        for (size_t j = 0; j < LENGTH_OF(works); j++)
            try_answers(
                (Call){.record = record, .out_length = lengths[i], .work_length = works[j], .number = number, .place = place});
}

static void try_refused_part(const Bytes *record, size_t area, uint64_t number, uint64_t place) {
    static const size_t more[] = {0, 1, 9};
    for (size_t i = 0; i < LENGTH_OF(more); i++)
        try_answers((Call){.record = record, .out_length = area, .work_length = 4 * area + more[i], .number = number, .place = place});
    try_wrong_lengths(record, area);
}

/* As much as there is time for. */
static void try_once(const Bytes *record, const Pyramid *result, const Told *told) {
    try_call(&(Call){.record = record, .out_length = result->length, .work_length = 4 * result->length, .answer_length = AFS_DECODED_NUMBERS,
                     .told = *told, .result = result});
}

static void try_accepted(const Bytes *record, const Pyramid *result, const Told *told) {
    static const size_t more[] = {0, 1, 9};
    for (size_t i = 0; i < LENGTH_OF(more); i++)
        try_answers((Call){.record = record, .out_length = result->length, .work_length = 4 * result->length + more[i], .told = *told,
                           .result = result});
    try_wrong_lengths(record, result->length);
}

/* What the coder writes of a pyramid, or wrote before, decodes to it, exact at every level. */
static void test_pairs(const Pair *of, size_t count) {
    static const Told whole;
    for (size_t i = 0; i < count; i++) {
        const Pair *pair = &of[i];
        begin_case(pair->name);
        Bytes record = bytes_of(pair->record);
        Pyramid pyramid = pyramid_of(pair->pyramid, pair->width * pair->height);
        if (pyramid.length <= 4096)
            try_accepted(&record, &pyramid, &whole);
        else
            try_once(&record, &pyramid, &whole);
        free(pyramid.at);
        free(record.at);
        end_case();
    }
}

/* 17 planes with a bit of 1 in each at (0, 0), as no coder writes them. */
#define ONES(plane) plane " 02 04 10 " plane " 01 03 00 "
#define ALL_ONES                                                                                                                           \
    "01 04 04 01 11 10 02 05 80 10 01 03 00 " ONES("0F") ONES("0E") ONES("0D") ONES("0C") ONES("0B") ONES("0A") ONES("09") ONES("08")      \
        ONES("07") ONES("06") ONES("05") ONES("04") ONES("03") ONES("02") ONES("01") ONES("00")

/* 8 x 8, N = 2: the first plane of levels 3 and 2. */
#define WIDER "01 08 08 02 01 "

/* What stands before the fourth part of the example, and before its last one. */
#define THREE_PARTS HEADER PART_2_2 PART_2_1 PART_1_2
#define FIVE_PARTS THREE_PARTS PART_1_1 PART_0_2

typedef struct {
    const char *name, *record;
    size_t area;
    const char *pyramid;
    Told told; /* tail, reached planes, skipped parts */
} Accepted;

static const Accepted accepted[] = {
    {"P8: level 1 not served", HEADER PART_2_2 PART_1_2 PART_0_2, 16, "4 -1 0 0  2 0", {0, {3, 0}, {0}}},
    {"P9: plane 0 not served", HEADER PART_2_2 PART_2_1 PART_1_2 PART_1_1, 16, "4 0 0 0  2 0 0 -2", {0, {1, 1}, {0}}},
    {"P10: part (1, 2) lost", HEADER PART_2_2 PART_2_1 PART_1_1 PART_0_2 PART_0_1, 16, "4", {0, {2, 2}, {2, 1}}},
    {"P11: part (1, 1) lost", HEADER PART_2_2 PART_2_1 PART_1_2 PART_0_2 PART_0_1, 16, "4 -1 0 0  2 0", {0, {2, 0}, {1}}},
    {"first 29 bytes: a tail of 4, a 1 at (2, 2) with it", FIVE_PARTS "00 01 0B 0C", 16, "4 -1 0 0  2 0 0 -2  0 0 1", {4, {1, 0}, {0}}},
    {"first 28 bytes: a tail of 3, no bit of it there", FIVE_PARTS "00 01 0B", 16, "4 -1 0 0  2 0 0 -2", {3, {1, 0}, {0}}},
    {"header alone", HEADER, 16, "", {0, {3, 3}, {0}}},
    {"last part alone", HEADER PART_0_1, 16, "", {0, {3, 3}, {1}}},
    {"absent isn't 0 bits", HEADER PART_2_2 PART_1_2 PART_1_1 PART_0_2 PART_0_1, 16, "4 -1 0 0  2 0", {0, {3, 0}, {2}}},

    {"no planes", "01 04 04 01 00", 16, "", {0, {0}, {0}}},
    {"no planes, head cut", "01 04 04 01 00 00 01", 16, "", {2, {0}, {0}}},
    {"131,071: bits that no coder wrote", ALL_ONES, 16, "131071", {0, {0}, {0}}},
    {"four of -4", HEADER "02 02 08 FF", 16, "-4 -4 0 0  -4 -4", {0, {3, 2}, {0}}},
    {"17 planes, none there", "01 04 04 01 11", 16, "", {0, {17, 17}, {0}}},
    {"8 x 8: coarsest level alone", WIDER "00 03 05 80", 64, "1", {0, {1, 1, 0}, {0}}},
    {"8 x 8: middle level lost", WIDER "00 03 05 80 00 01 01 00", 64, "1", {0, {1, 1, 0}, {1}}},
    {"8 x 8: coarsest level lost", WIDER "00 02 08 C0 00 01 01 00", 64, "", {0, {1, 1, 1}, {1, 1}}},
    {"64 x 64, N = 5: six levels", "01 40 40 05 02 01 06 04 00 01 05 03 00 01 04 00 01 03 00 00 06 04 00", 4096, "", {0, {2, 2, 1, 1, 1, 0}, {0}}},

    {"bits of a part that isn't usable are not judged: too many", HEADER "02 01 40 " EIGHT, 16, "", {0, {3, 3}, {1}}},
    {"bits of a part that isn't usable are not judged: none", HEADER "01 02 00", 16, "", {0, {3, 3}, {0, 1}}},
    {"bits of a part that isn't usable are not judged: level 1", HEADER PART_2_2 "01 01 01 80", 16, "4", {0, {3, 2}, {1}}},
    {"bits of a part that isn't usable are not judged: plane 0", HEADER PART_2_2 PART_2_1 "00 02 00 00 01 40 " EIGHT, 16, "4", {0, {2, 2}, {1, 1}}},

    {"tail: plane cut", HEADER "80", 16, "", {1, {3, 3}, {0}}},
    {"tail: plane of three bytes cut", HEADER "80 80 80", 16, "", {3, {3, 3}, {0}}},
    {"tail: plane alone", HEADER "02", 16, "", {1, {3, 3}, {0}}},
    {"tail: level cut", HEADER "02 80 80 80", 16, "", {4, {3, 3}, {0}}},
    {"tail: plane and level", HEADER "02 02", 16, "", {2, {3, 3}, {0}}},
    {"tail: bit count cut", HEADER "02 02 80 80", 16, "", {4, {3, 3}, {0}}},
    {"tail: no value judged before the third number", HEADER "7F 7F", 16, "", {2, {3, 3}, {0}}},
    {"tail: level cut behind a part", HEADER PART_2_2 "02 80", 16, "4", {2, {3, 2}, {0}}},
    {"tail: no value judged where the third number is cut", HEADER "7F 7F FF FF FF", 16, "", {5, {3, 3}, {0}}},
    {"tail: out of order, but cut", HEADER PART_2_2 "02 02", 16, "4", {2, {3, 2}, {0}}},
    {"tail: body missing", HEADER "02 02 05", 16, "", {3, {3, 3}, {0}}},
    {"tail: 64 bits, a byte missing", HEADER "00 01 40 00 00 00 00 00 00 00", 16, "", {10, {3, 3}, {0}}},
    {"tail: four of -4, and a byte that may have padding missing", HEADER "02 02 0C FF", 16, "-4 -4 0 0  -4 -4", {4, {3, 3}, {0}}},
    {"tail: not counted behind a skipped part", HEADER PART_2_1 "00 01 0B 0C", 16, "", {4, {3, 3}, {1}}},
    {"tail: no bit of the cut part is there", THREE_PARTS "01 01 08", 16, "4 0 0 0  2", {3, {2, 1}, {0}}},
    {"tail: a significance bit without its sign", FIVE_PARTS "00 01 10 11", 16, "4 -1 0 0  2 0 0 -2", {4, {1, 0}, {0}}},
    {"with its sign", FIVE_PARTS "00 01 10 11 E1", 16, "4 -1 0 0  2 0 0 -3  0 0 1 0  0 -1", {0, {0}, {0}}},
    {"tail: a walk that ends with the bits there", THREE_PARTS "01 01 20 8C", 16, "4 0 0 0  2 0 0 -2", {4, {2, 1}, {0}}},
    {"tail: padding isn't looked at", THREE_PARTS "01 01 09 8C", 16, "4 0 0 0  2 0 0 -2", {4, {2, 1}, {0}}},
    {"tail: of a part that isn't usable, bits left over", HEADER PART_2_2 PART_2_1 "01 01 20 8C 00", 16, "4", {5, {2, 2}, {0}}},
    {"tail: of a part that isn't usable, with others lost", HEADER PART_2_2 "01 01 20 8C 00", 16, "4", {5, {3, 2}, {0}}},
};

/* `area` is 0 where the header is at fault. */
typedef struct {
    const char *name, *record;
    size_t area;
    uint64_t number, place;
} Refused;

static const Refused refused[] = {
    {"empty", "", 0, AFS_HEAD, 0},
    {"no width", "01", 0, AFS_HEAD, 1},
    {"no height", "01 04", 0, AFS_HEAD, 2},
    {"no decompositions", "01 04 04", 0, AFS_HEAD, 3},
    {"no planes number", "01 04 04 01", 0, AFS_HEAD, 4},
    {"no planes number after long ones", "01 80 04 80 04 05", 0, AFS_HEAD, 6},
    {"version cut", "80", 0, AFS_HEAD, 0},
    {"width cut", "01 80", 0, AFS_HEAD, 1},
    {"height cut", "01 04 80 80", 0, AFS_HEAD, 2},
    {"decompositions cut", "01 04 04 80 80 80", 0, AFS_HEAD, 3},
    {"planes cut", "01 80 04 80 04 05 83", 0, AFS_HEAD, 6},
    {"long form: version", "81 00 04 04 01 03", 0, AFS_LONGFORM, 0},
    {"long form: version, nothing after it", "81 00", 0, AFS_LONGFORM, 0},
    {"P4: version 80 00", "80 00 04 04 01 03", 0, AFS_LONGFORM, 0},
    {"P5: version 80 80 80 80", "80 80 80 80", 0, AFS_HEAD, 0},
    {"P4: width 80 00", "01 80 00 04 01 03", 0, AFS_LONGFORM, 1},
    {"P5: width 80 80 80 80", "01 80 80 80 80", 0, AFS_HEAD, 1},
    {"long form: height of four bytes", "01 04 84 80 80 00 01 03", 0, AFS_LONGFORM, 2},
    {"decompositions of more than four bytes", "01 04 04 FF FF FF FF 03", 0, AFS_HEAD, 3},
    {"P4: planes 80 00", "01 04 04 01 80 00", 0, AFS_LONGFORM, 4},
    {"long form: width", "01 84 00 04 01 03", 0, AFS_LONGFORM, 1},
    {"long form: height, nothing after it", "01 04 80 00", 0, AFS_LONGFORM, 2},
    {"long form: height, then a number", "01 04 80 00 04", 0, AFS_LONGFORM, 2},
    {"long form: decompositions of FF 00", "01 04 04 FF 00 03", 0, AFS_LONGFORM, 3},
    {"long form: planes of four bytes", "01 04 04 01 80 80 80 00", 0, AFS_LONGFORM, 4},
    {"planes of more than four bytes", "01 04 04 01 80 80 80 80", 0, AFS_HEAD, 4},
    {"planes of more than four bytes, then 0", "01 04 04 01 80 80 80 80 00", 0, AFS_HEAD, 4},
    {"long form before SIZE", "01 00 00 63 80 00", 0, AFS_LONGFORM, 4},
    {"long form before too many bytes", "01 80 00 80 80 80 80", 0, AFS_LONGFORM, 1},
    {"too many bytes before a long form", "01 80 80 80 80 80 00", 0, AFS_HEAD, 1},

    {"version 129", "81 01", 0, AFS_VERSION, 0},
    {"version 0", "00 04 04 01 03", 0, AFS_VERSION, 0},
    {"version 2", "02 04 04 01 03", 0, AFS_VERSION, 0},
    {"version of four bytes", "FF FF FF 7F 04 04 01 03", 0, AFS_VERSION, 0},
    {"version before a malformed width", "02 80 00", 0, AFS_VERSION, 0},
    {"version before the end", "02", 0, AFS_VERSION, 0},
    {"version before sizes", "02 00 00 00 63", 0, AFS_VERSION, 0},

    {"width 0", "01 00 04 01 03", 0, AFS_SIZE, 0},
    {"width 2", "01 02 04 01 03", 0, AFS_SIZE, 0},
    {"height 2", "01 04 02 01 03", 0, AFS_SIZE, 0},
    {"6 x 8, N = 1", "01 06 08 01 03", 0, AFS_SIZE, 0},
    {"8 x 6, N = 1", "01 08 06 01 03", 0, AFS_SIZE, 0},
    {"width 516", "01 84 04 04 01 03", 0, AFS_SIZE, 0},
    {"height 516", "01 04 84 04 01 03", 0, AFS_SIZE, 0},
    {"greatest width", "01 FF FF FF 7F 04 01 03", 0, AFS_SIZE, 0},
    {"greatest height", "01 04 FC FF FF 7F 01 03", 0, AFS_SIZE, 0},
    {"N = 0", "01 40 40 00 03", 0, AFS_SIZE, 0},
    {"N = 6", "01 80 01 80 01 06 03", 0, AFS_SIZE, 0},
    {"4 x 4, N = 2", "01 04 04 02 03", 0, AFS_SIZE, 0},
    {"greatest N", "01 04 04 FF FF FF 7F 03", 0, AFS_SIZE, 0},
    {"18 planes", "01 04 04 01 12", 0, AFS_SIZE, 0},
    {"most planes", "01 04 04 01 FF FF FF 7F", 0, AFS_SIZE, 0},
    {"HEAD before SIZE", "01 00 00 63", 0, AFS_HEAD, 4},
    {"SIZE before PART", "01 04 04 01 12 80 00", 0, AFS_SIZE, 0},

    {"P4: plane 80 00", HEADER "80 00", 16, AFS_LONGFORM, 5},
    {"P5: plane 80 80 80 80", HEADER "80 80 80 80", 16, AFS_PART, 5},
    {"long form: level", HEADER "02 82 00", 16, AFS_LONGFORM, 5},
    {"long form: bit count", HEADER "02 02 85 00", 16, AFS_LONGFORM, 5},
    {"bit count of more than four bytes", HEADER "02 02 FF FF FF FF", 16, AFS_PART, 5},
    {"long form: in a later part", HEADER PART_2_2 PART_2_1 "01 80 00", 16, AFS_LONGFORM, 13},
    {"long form: plane, then a head", HEADER "80 00 01 05", 16, AFS_LONGFORM, 5},
    {"long form: level, then a bit count", HEADER "02 80 00 05", 16, AFS_LONGFORM, 5},
    {"long form: bit count, then a byte", HEADER "02 02 80 00 80", 16, AFS_LONGFORM, 5},
    {"long form: bit count of four bytes", HEADER "02 02 85 80 80 00 80", 16, AFS_LONGFORM, 5},
    {"long form: level FF 00", HEADER "02 FF 00 05", 16, AFS_LONGFORM, 5},
    {"long form before an illegal plane", HEADER "7F 80 00", 16, AFS_LONGFORM, 5},
    {"level of more than four bytes", HEADER "02 80 80 80 80", 16, AFS_PART, 5},
    {"level of more than four bytes, then 0", HEADER "02 80 80 80 80 00", 16, AFS_PART, 5},
    {"long form before too many bytes of a part", HEADER "02 80 00 80 80 80 80", 16, AFS_LONGFORM, 5},
    {"too many bytes before a long form of a part", HEADER "02 80 80 80 80 80 00", 16, AFS_PART, 5},
    {"plane not under planes", HEADER "03 02 00", 16, AFS_PART, 5},
    {"greatest plane of a part", HEADER "FF FF FF 7F 02 00", 16, AFS_PART, 5},
    {"a part where there are no planes", "01 04 04 01 00 00 01 00", 16, AFS_PART, 5},
    {"level 0 of a part", HEADER "02 00 00", 16, AFS_PART, 5},
    {"level N + 2 of a part", HEADER "02 03 00", 16, AFS_PART, 5},
    {"greatest level of a part", HEADER "02 FF FF FF 7F 00", 16, AFS_PART, 5},
    {"level upward", HEADER PART_2_1 PART_2_2, 16, AFS_PART, 9},
    {"plane upward", HEADER PART_1_2 PART_2_1, 16, AFS_PART, 9},
    {"same part again", HEADER PART_2_2 PART_2_2, 16, AFS_PART, 9},
    {"same part again, 0 bits", HEADER "02 01 00 02 01 00", 16, AFS_PART, 8},
    {"last part again", EXAMPLE PART_0_1, 16, AFS_PART, 30},
    {"65 bits in 4 x 4", HEADER "00 01 41 " EIGHT "00", 16, AFS_PART, 5},
    {"65 bits in 4 x 4, body cut", HEADER "00 01 41", 16, AFS_PART, 5},
    {"most bits, body cut", HEADER "00 01 FF FF FF 7F", 16, AFS_PART, 5},
    {"257 bits in 8 x 8, body cut", WIDER "00 03 81 02", 64, AFS_PART, 5},
    {"body cut, out of order", HEADER PART_1_2 "02 02 05", 16, AFS_PART, 9},

    {"first padding bit", HEADER "02 02 05 84", 16, AFS_PAD, 5},
    {"last padding bit", HEADER "02 02 05 81", 16, AFS_PAD, 5},
    {"padding of a last byte", HEADER PART_2_2 PART_2_1 PART_1_2 PART_1_1 PART_0_2 "00 01 0B 0C 30", 16, AFS_PAD, 25},
    {"padding after one bit", HEADER "02 01 01 C0", 16, AFS_PAD, 5},
    {"padding after seven bits", HEADER "02 02 07 01", 16, AFS_PAD, 5},
    {"padding in a part that isn't usable", HEADER "02 01 03 10", 16, AFS_PAD, 5},

    {"a bit missing", HEADER "02 02 04 80", 16, AFS_FIT, 5},
    {"a sign missing", HEADER "02 02 01 80", 16, AFS_FIT, 5},
    {"a last sign missing", HEADER "02 02 07 FE", 16, AFS_FIT, 5},
    {"a bit left over", HEADER "02 02 06 80", 16, AFS_FIT, 5},
    {"bytes left over", HEADER "02 02 40 " EIGHT, 16, AFS_FIT, 5},
    {"no bits", HEADER "02 02 00", 16, AFS_FIT, 5},
    {"no bits in level 1", HEADER PART_2_2 "02 01 00", 16, AFS_FIT, 9},
    {"a refinement bit missing", HEADER PART_2_2 PART_2_1 "01 02 04 40", 16, AFS_FIT, 13},
    {"a bit missing in the last part", HEADER PART_2_2 PART_2_1 PART_1_2 PART_1_1 PART_0_2 "00 01 0A 0C 00", 16, AFS_FIT, 25},
    {"a bit left over in the last part", HEADER PART_2_2 PART_2_1 PART_1_2 PART_1_1 PART_0_2 "00 01 0C 0C 20", 16, AFS_FIT, 25},
    {"a bit where none is due", WIDER "00 03 04 00 00 02 03 00 00 01 01 00", 64, AFS_FIT, 13},

    {"a cut part: a byte left over", THREE_PARTS "01 01 20 8C 00", 16, AFS_FIT, 17},
    {"a cut part: a byte left over, whatever it is", THREE_PARTS "01 01 20 8C FF", 16, AFS_FIT, 17},
    {"a cut part: all but a byte left over", HEADER "02 02 40 80 00 00 00 00 00 00", 16, AFS_FIT, 5},
    {"a cut part: a part before it decides", HEADER PART_2_2 PART_2_1 "01 02 04 40 01 01 20 8C 00", 16, AFS_FIT, 13},
    {"a cut part: PART before FIT", THREE_PARTS "01 01 41 8C 00", 16, AFS_PART, 17},

    {"first fault is PART", HEADER PART_2_2 PART_2_2 "02 01 03 01", 16, AFS_PART, 9},
    {"first fault is PAD", HEADER PART_2_2 "02 01 03 01 " PART_2_2, 16, AFS_PAD, 9},
    {"first fault is FIT, then PART", HEADER "02 02 04 80 02 02 05 80", 16, AFS_FIT, 5},
    {"first fault is FIT, then PAD", HEADER "02 02 04 80 02 01 03 01", 16, AFS_FIT, 5},
    {"first fault is FIT, then a long form", HEADER "02 02 04 80 82 00 01 03 00", 16, AFS_FIT, 5},
    {"first fault is a long form, then FIT", HEADER PART_2_2 "82 00 01 03 00 01 02 04 40", 16, AFS_LONGFORM, 9},
    {"first fault is PART, then FIT", HEADER PART_2_2 "02 03 00 02 01 00", 16, AFS_PART, 9},
    {"first fault is PAD, then FIT", HEADER PART_2_2 "02 01 03 01 01 02 04 40", 16, AFS_PAD, 9},
    {"PART before PAD in a part", HEADER PART_1_2 "02 02 05 81", 16, AFS_PART, 9},
    {"PAD before FIT in a part", HEADER "02 02 04 81", 16, AFS_PAD, 5},
    {"PART before FIT in a part", HEADER "02 02 41 " EIGHT "00", 16, AFS_PART, 5},
    {"PAD behind a skipped part", HEADER PART_2_1 "00 01 0B 0C 21", 16, AFS_PAD, 9},
    {"PAD before a tail", HEADER "02 02 05 81 02", 16, AFS_PAD, 5},
    {"FIT before a tail", HEADER "02 02 04 80 02", 16, AFS_FIT, 5},
};

static void test_tables(void) {
    for (size_t i = 0; i < LENGTH_OF(accepted); i++) {
        const Accepted *row = &accepted[i];
        begin_case(row->name);
        Bytes record = bytes_of(row->record);
        Pyramid result = pyramid_of(row->pyramid, row->area);
        try_accepted(&record, &result, &row->told);
        free(result.at);
        free(record.at);
        end_case();
    }
    for (size_t i = 0; i < LENGTH_OF(refused); i++) {
        const Refused *row = &refused[i];
        begin_case(row->name);
        Bytes record = bytes_of(row->record);
        if (row->area == 0)
            try_refused_header(&record, row->number, row->place);
        else
            try_refused_part(&record, row->area, row->number, row->place);
        free(record.at);
        end_case();
    }
}

/* A pyramid and what its record has. */
typedef struct {
    Pyramid pyramid;
    uint64_t width, height, decompositions, planes;
} Coded;

static uint64_t level_of(const Coded *coded, size_t index) {
    size_t row = index / coded->width, column = index % coded->width;
    for (uint64_t level = 1; level <= coded->decompositions; level++)
        if (row >= coded->height >> level || column >= coded->width >> level)
            return level;
    return coded->decompositions + 1;
}

/* Each coefficient cut off at the plane that its level reached. */
static Pyramid cut_at(const Coded *coded, const uint64_t *reached) {
    Pyramid cut = pyramid_copy_of(coded->pyramid.at, coded->pyramid.length);
    for (size_t i = 0; i < cut.length; i++) {
        int32_t step = (int32_t)1 << reached[level_of(coded, i) - 1];
        cut.at[i] = cut.at[i] / step * step;
    }
    return cut;
}

/* The parts of the example, as they stand in it. */
typedef struct {
    uint64_t plane, level;
    const char *text;
} Part;

static const Part parts[] = {
    {2, 2, PART_2_2}, {2, 1, PART_2_1}, {1, 2, PART_1_2}, {1, 1, PART_1_1}, {0, 2, PART_0_2}, {0, 1, PART_0_1},
};

static bool is_usable(const Part *part, unsigned there) {
    for (size_t i = 0; i < LENGTH_OF(parts); i++)
        if (parts[i].plane >= part->plane && parts[i].level >= part->level && !(there >> i & 1))
            return false;
    return true;
}

/* Of a selection of the parts, from their names: they stand in the order of a record, so the last usable one of a level is the lowest. */
static Told told_of(unsigned there) {
    Told told = {.reached = {3, 3}};
    for (size_t i = 0; i < LENGTH_OF(parts); i++)
        if (is_usable(&parts[i], there))
            told.reached[parts[i].level - 1] = parts[i].plane;
        else if (there >> i & 1)
            told.skipped[parts[i].level - 1]++;
    return told;
}

/* Every selection of the example's parts, by "usable" and "reached plane" as document 01 defines them; P8 to P11 are among them. */
static void test_selections(void) {
    Coded example = {pyramid_of(EXAMPLE_PYRAMID, 16), 4, 4, 1, 3};
    for (unsigned there = 0; there < 1u << LENGTH_OF(parts); there++) {
        char name[32], text[128] = HEADER;
        snprintf(name, sizeof name, "selection %u of the parts", there);
        begin_case(name);
        for (size_t i = 0; i < LENGTH_OF(parts); i++)
            if (there >> i & 1)
                strcat(text, parts[i].text);
        Told told = told_of(there);
        Bytes record = bytes_of(text);
        Pyramid cut = cut_at(&example, told.reached);
        try_accepted(&record, &cut, &told);
        free(cut.at);
        free(record.at);
        end_case();
    }
    free(example.pyramid.at);
}

/* The example cut at each byte: HEAD within the header, then a tail from where the last whole part ends. */
static void test_cuts(void) {
    static const size_t ends[] = {5, 9, 13, 17, 21, 25, 30};
    Bytes example = bytes_of(EXAMPLE);
    Coded coded = {pyramid_of(EXAMPLE_PYRAMID, 16), 4, 4, 1, 3};
    for (size_t length = 0, whole = 0; length <= example.length; length++) {
        char name[32];
        snprintf(name, sizeof name, "first %zu bytes", length);
        begin_case(name);
        Bytes cut = copy_of(example.at, length);
        while (whole < LENGTH_OF(ends) && ends[whole] <= length)
            whole++;
        if (whole == 0)
            try_refused_header(&cut, AFS_HEAD, length);
        else {
            Told told = told_of((1u << (whole - 1)) - 1);
            told.tail = length - ends[whole - 1];
            Pyramid result = cut_at(&coded, told.reached);
            if (length == 29)
                result.at[10] = 1; /* with the only body byte of a part that isn't its last */
            try_accepted(&cut, &result, &told);
            free(result.at);
        }
        free(cut.at);
        end_case();
    }
    free(coded.pyramid.at);
    free(example.at);
}

/* Pyramids of many sorts: of each one the magnitudes are below another power of two, and most are 0 in every other one. */
static Coded make_pyramid(uint64_t width, uint64_t height, uint64_t decompositions, unsigned bits) {
    Coded coded = {pyramid_of("", width * height), width, height, decompositions, 0};
    uint64_t chance = 88172645463325252u + bits;
    for (size_t i = 0; i < coded.pyramid.length; i++) {
        chance ^= chance << 13;
        chance ^= chance >> 7;
        chance ^= chance << 17;
        int32_t magnitude = (int32_t)(chance >> 40 & ((1u << bits) - 1));
        bool zero = bits % 2 == 1 && chance >> 20 & 7;
        coded.pyramid.at[i] = zero ? 0 : chance >> 32 & 1 ? -magnitude : magnitude;
    }
    return coded;
}

/* Its record, made with the room that is always enough. */
static Bytes record_of(Coded *coded) {
    size_t area = coded->pyramid.length, room = 6 * area + 640, header = 4;
    Bytes out = {memory_of(room), room};
    uint32_t *work = memory_of(4 * area * sizeof *work);
    uint64_t answer[AFS_CODED_NUMBERS];
    check(afs_code(coded->pyramid.at, area, coded->width, coded->height, coded->decompositions, out.at, room, work, 4 * area, answer,
                   AFS_CODED_NUMBERS) == AFS_ACCEPTED,
          "coded");
    header += (coded->width > 127) + (coded->height > 127);
    coded->planes = out.at[header];
    Bytes record = copy_of(out.at, answer[AFS_CODED_LENGTH]);
    free(work);
    free(out.at);
    return record;
}

/* Decoded into its own memory, with number and place 0. */
static void decode_front(const Bytes *record, size_t length, const Pyramid *out, uint32_t *work) {
    uint64_t answer[AFS_DECODED_NUMBERS];
    check(afs_decode(record->at, length, out->at, out->length, work, 4 * out->length, answer, AFS_DECODED_NUMBERS) == AFS_ACCEPTED, "accepted");
}

/* No magnitude falls and no sign turns. */
static bool is_no_worse(const Pyramid *before, const Pyramid *after) {
    for (size_t i = 0; i < before->length; i++) {
        int32_t less = before->at[i], more = after->at[i];
        if (less != 0 && (less < 0 ? more > less : more < less))
            return false;
    }
    return true;
}

/* Each front of a record behind the header, and the one that is a byte longer. */
static void try_fronts(unsigned which) {
    static const struct { uint64_t width, height, decompositions; } sizes[] = {{4, 4, 1}, {8, 8, 1}, {8, 16, 2}, {16, 16, 3}, {20, 12, 1}};
    size_t of = which % LENGTH_OF(sizes);
    Coded coded = make_pyramid(sizes[of].width, sizes[of].height, sizes[of].decompositions, 1 + which % 16);
    Bytes record = record_of(&coded);
    size_t area = coded.pyramid.length;
    Pyramid before = pyramid_of("", area), after = pyramid_of("", area);
    uint32_t *work = memory_of(4 * area * sizeof *work);
    for (size_t length = 5; length <= record.length; length++) {
        decode_front(&record, length, &after, work);
        check(is_no_worse(&before, &after), "worse with a byte more");
        memcpy(before.at, after.at, area * sizeof *after.at);
    }
    check(memcmp(after.at, coded.pyramid.at, area * sizeof *after.at) == 0, "coefficients");
    free(work);
    free(after.at);
    free(before.at);
    free(record.at);
    free(coded.pyramid.at);
}

static void test_fronts(void) {
    for (unsigned which = 0; which < 200; which++) {
        char name[48];
        snprintf(name, sizeof name, "every front of record %u", which);
        begin_case(name);
        try_fronts(which);
        end_case();
    }
}

static void try_served(const Coded *coded, const Bytes *record, uint64_t level, uint64_t plane) {
    Bytes out = {memory_of(record->length), record->length};
    uint64_t answer[AFS_SERVED_NUMBERS];
    Told told = {.tail = 0};
    check(afs_serve(record->at, record->length, level, plane, out.at, out.length, answer, AFS_SERVED_NUMBERS) == AFS_ACCEPTED, "served");
    Bytes served = copy_of(out.at, answer[AFS_SERVED_LENGTH]);
    for (uint64_t k = 1; k <= coded->decompositions + 1; k++)
        told.reached[k - 1] = k >= level ? plane : coded->planes;
    Pyramid result = cut_at(coded, told.reached);
    try_once(&served, &result, &told);
    free(result.at);
    free(served.at);
    free(out.at);
}

/* Coded, served for every level and plane, and decoded; at 512 as much as there is time for. */
static void try_journey(const char *name, Coded *coded) {
    begin_case(name);
    Bytes record = record_of(coded);
    for (uint64_t level = 1; level <= coded->decompositions + 1; level++)
        for (uint64_t plane = 0; plane <= coded->planes; plane++)
            if (coded->width < 512 || plane == 0)
                try_served(coded, &record, level, plane);
    free(record.at);
    free(coded->pyramid.at);
    end_case();
}

static void try_made(uint64_t width, uint64_t height, uint64_t decompositions, unsigned bits) {
    char name[64];
    Coded coded = make_pyramid(width, height, decompositions, bits);
    snprintf(name, sizeof name, "%u x %u, N = %u, %u bits: coded, served, decoded", (unsigned)width, (unsigned)height,
             (unsigned)decompositions, bits);
    try_journey(name, &coded);
}

static void test_journeys(void) {
    Coded example = {pyramid_of(EXAMPLE_PYRAMID, 16), 4, 4, 1, 0};
    try_journey("P6, P8, P9: coded, served, decoded", &example);
    for (unsigned bits = 1; bits <= 16; bits++) {
        try_made(4, 4, 1, bits);
        try_made(8, 16, 2, bits);
        try_made(20, 12, 1, bits);
    }
    try_made(16, 48, 3, 16);
    try_made(96, 32, 4, 5);
    try_made(64, 64, 5, 16);
    try_made(512, 512, 5, 3);
}

/* The lengths of the example's memory, any of which may be 0 and its pointer NULL. */
typedef struct {
    const char *name;
    size_t record, out, work, answer;
    uint64_t number;
} Null;

static const Null nulls[] = {
    {"record NULL", 0, 16, 64, AFS_DECODED_NUMBERS, AFS_HEAD},
    {"output NULL", 30, 0, 64, AFS_DECODED_NUMBERS, AFS_LENGTH},
    {"workspace NULL", 30, 16, 0, AFS_DECODED_NUMBERS, AFS_WORK},
    {"answer NULL", 30, 16, 64, 0, AFS_ROOM},
    {"all but the answer NULL", 0, 0, 0, AFS_DECODED_NUMBERS, AFS_HEAD},
    {"all NULL", 0, 0, 0, 0, AFS_ROOM},
};

/* Where a length is 0 the pointer may be NULL. */
static void try_null(const Null *row) {
    const uint64_t numbers[AFS_DECODED_NUMBERS] = {row->number};
    Bytes record = bytes_of(EXAMPLE);
    Lent out = lend(row->out * sizeof(int32_t)), work = lend(row->work * sizeof(uint32_t)), answer = lend(row->answer * sizeof *numbers);
    begin_case(row->name);
    uint64_t returned = afs_decode(row->record > 0 ? record.at : NULL, row->record, row->out > 0 ? out.at : NULL, row->out,
                                   row->work > 0 ? work.at : NULL, row->work, row->answer > 0 ? answer.at : NULL, row->answer);
    check(returned == row->number, "number returned");
    check_answer(&answer, numbers, AFS_DECODED_NUMBERS);
    check_zero_from(&out, 0, "output not all 0");
    check_zero_from(&work, 0, "workspace not all 0");
    take_back(&answer, "written beside the answer");
    take_back(&work, "written beside the workspace");
    take_back(&out, "written beside the output");
    free(record.at);
    end_case();
}

int main(void) {
    setvbuf(stdout, NULL, _IOLBF, BUFSIZ);
    test_pairs(pairs, pair_count);
    test_pairs(written_before, written_before_count);
    test_tables();
    test_selections();
    test_cuts();
    test_fronts();
    test_journeys();
    for (size_t i = 0; i < LENGTH_OF(nulls); i++)
        try_null(&nulls[i]);
    return end_tests();
}
