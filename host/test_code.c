/* Tests of afs_code as a C program calls it: document 01's cases, each refusal with its place, and all memory lent, for every outcome. */
#include "examples.h"
#include "testing.h"

#include <stdio.h>
#include <stdlib.h>
#include <string.h>

/* A call and what must come of it; `result` is empty for a refusal. */
typedef struct {
    const Pyramid *pyramid;
    uint64_t width, height, decompositions;
    size_t room, work_length, answer_length;
    uint64_t number, place;
    Bytes result;
} Call;

static void check_out(const Call *call, const Lent *out) {
    const Bytes *result = &call->result;
    if (result->length > 0)
        check(memcmp(out->at, result->at, result->length) == 0, "bytes of the record");
    check_zero_from(out, result->length, "output not 0 after the record");
}

static void try_call(const Call *call) {
    const uint64_t numbers[AFS_CODED_NUMBERS] = {call->number, call->place, call->result.length};
    const Pyramid *pyramid = call->pyramid;
    Lent out = lend(call->room), work = lend(call->work_length * sizeof(uint32_t)), answer = lend(call->answer_length * sizeof *numbers);
    Pyramid before = pyramid_copy_of(pyramid->at, pyramid->length);

    uint64_t returned = afs_code(pyramid->at, pyramid->length, call->width, call->height, call->decompositions, out.at, call->room,
                                 work.at, call->work_length, answer.at, call->answer_length);

    check(returned == call->number, "number returned");
    check_answer(&answer, numbers, AFS_CODED_NUMBERS);
    check_out(call, &out);
    check_zero_from(&work, 0, "workspace not all 0");
    check(memcmp(before.at, pyramid->at, before.length * sizeof *before.at) == 0, "pyramid written to");
    free(before.at);
    take_back(&answer, "written beside the answer");
    take_back(&work, "written beside the workspace");
    take_back(&out, "written beside the output");
}

/* The same with answers of other lengths: too short for the answer, and longer than it. */
static void try_answers(Call call) {
    for (call.answer_length = AFS_CODED_NUMBERS; call.answer_length <= 5; call.answer_length++)
        try_call(&call);
    call.number = AFS_ROOM;
    call.result.length = 0;
    for (call.answer_length = 0; call.answer_length < AFS_CODED_NUMBERS; call.answer_length++)
        try_call(&call);
}

static size_t workspace_for(const Call *call) {
    return 4 * call->width * call->height;
}

/* A refusal is the same whatever is wrong with all that is judged after it: the workspace, where it isn't for that or for a magnitude, and
   the room. */
static void try_refused(Call call) {
    size_t least = call.number <= AFS_LENGTH ? 64 : workspace_for(&call);
    size_t works[] = {0, least - 1, least, least + 7}, rooms[] = {0, 29, 30, 720};
    size_t first = call.number == AFS_RANGE ? 2 : 0, end = call.number == AFS_WORK ? 2 : LENGTH_OF(works);
    for (size_t i = first; i < end; i++)
        for (size_t j = 0; j < LENGTH_OF(rooms); j++) {
            call.work_length = works[i];
            call.room = rooms[j];
            try_answers(call);
        }
}

/* A pyramid of the wrong length, or too little workspace. */
static void try_wrong_lengths(Call call) {
    size_t right = call.pyramid->length;
    Pyramid shorter = pyramid_of("", right - 1), longer = pyramid_of("", right + 1), none = pyramid_of("", 0);
    const Pyramid *wrong[] = {&shorter, &longer, &none};
    call.number = AFS_WORK;
    try_refused(call);
    call.number = AFS_LENGTH;
    for (size_t i = 0; i < LENGTH_OF(wrong); i++) {
        call.pyramid = wrong[i];
        try_refused(call);
    }
    free(none.at);
    free(longer.at);
    free(shorter.at);
}

/* A record is written where it has room, and refused where a byte is missing. */
static void try_accepted(Call call, const Bytes *record) {
    size_t least = workspace_for(&call), rooms[] = {record->length, record->length + 1, 720};
    call.result = *record;
    for (size_t i = 0; i < LENGTH_OF(rooms); i++) {
        call.room = rooms[i];
        call.work_length = least + 3 * i;
        try_answers(call);
    }
    call.result.length = 0;
    call.number = AFS_ROOM;
    for (call.room = 0; call.room < record->length; call.room++)
        try_answers(call);
}

/* As much as there is time for. */
static void try_large(Call call, const Bytes *record) {
    call.work_length = workspace_for(&call);
    call.answer_length = AFS_CODED_NUMBERS;
    call.room = record->length;
    call.result = *record;
    try_call(&call);
    call.room = record->length - 1;
    call.result.length = 0;
    call.number = AFS_ROOM;
    try_call(&call);
}

static void test_pairs(void) {
    for (size_t i = 0; i < pair_count; i++) {
        const Pair *pair = &pairs[i];
        begin_case(pair->name);
        Pyramid pyramid = pyramid_of(pair->pyramid, pair->width * pair->height);
        Bytes record = bytes_of(pair->record);
        Call call = {.pyramid = &pyramid, .width = pair->width, .height = pair->height, .decompositions = pair->decompositions};
        if (pyramid.length <= 4096) {
            try_accepted(call, &record);
            try_wrong_lengths(call);
        } else
            try_large(call, &record);
        free(record.at);
        free(pyramid.at);
        end_case();
    }
}

/* "Output of 29 bytes for the record above gives 5, of 30 none." */
static void test_room_of_example(void) {
    begin_case("30 bytes of room are enough, 29 are not");
    Pyramid pyramid = pyramid_of(EXAMPLE_PYRAMID, 16);
    uint8_t out[30];
    uint32_t work[64];
    uint64_t answer[AFS_CODED_NUMBERS];
    check(afs_code(pyramid.at, 16, 4, 4, 1, out, 30, work, 64, answer, AFS_CODED_NUMBERS) == AFS_ACCEPTED, "30 bytes");
    check(answer[AFS_CODED_LENGTH] == 30, "length");
    check(afs_code(pyramid.at, 16, 4, 4, 1, out, 29, work, 64, answer, AFS_CODED_NUMBERS) == AFS_ROOM, "29 bytes");
    check(answer[AFS_CODED_LENGTH] == 0, "length of nothing");
    free(pyramid.at);
    end_case();
}

#define TWO_TO_32 (UINT64_C(1) << 32)

/* Legal sizes with one number in them that is not. */
typedef struct {
    const char *name;
    uint64_t width, height, decompositions;
} BadSize;

static const BadSize bad_sizes[] = {
    {"N = 0", 64, 64, 0},
    {"N = 6", 128, 128, 6},
    {"N = 6 at 64", 64, 64, 6},
    {"N = 63", 64, 64, 63},
    {"N = 64", 64, 64, 64},
    {"N = 2^32 + 1", 4, 4, TWO_TO_32 + 1},
    {"N = 257", 4, 4, 257},
    {"greatest N", 4, 4, UINT64_MAX},
    {"4 x 4, N = 2", 4, 4, 2},
    {"6 x 8, N = 1", 6, 8, 1},
    {"8 x 6, N = 1", 8, 6, 1},
    {"12 x 8, N = 2", 12, 8, 2},
    {"8 x 12, N = 2", 8, 12, 2},
    {"32 x 64, N = 5", 32, 64, 5},
    {"64 x 32, N = 5", 64, 32, 5},
    {"width 0", 0, 4, 1},
    {"height 0", 4, 0, 1},
    {"width 2", 2, 4, 1},
    {"height 2", 4, 2, 1},
    {"width 5", 5, 4, 1},
    {"width 516", 516, 4, 1},
    {"height 516", 4, 516, 1},
    {"width 2^16 + 4", (1 << 16) + 4, 4, 1},
    {"width 2^32", TWO_TO_32, 4, 1},
    {"width 2^32 + 4", TWO_TO_32 + 4, 4, 1},
    {"height 2^32 + 4", 4, TWO_TO_32 + 4, 1},
    {"width and height 2^32", TWO_TO_32, TWO_TO_32, 1},
    {"width 2^63", UINT64_C(1) << 63, 4, 1},
    {"width 2^62 + 4, four times which is 16", (UINT64_C(1) << 62) + 4, 4, 1},
    {"greatest width", UINT64_MAX, 4, 1},
    {"greatest height", 4, UINT64_MAX, 1},
    {"greatest of all", UINT64_MAX, UINT64_MAX, UINT64_MAX},
};

/* A size is refused whatever the pyramid is. */
static void test_sizes(void) {
    Pyramid zero = pyramid_of("", 16), over = pyramid_of("65536", 16), longer = pyramid_of("", 17), none = pyramid_of("", 0);
    const Pyramid *given[] = {&zero, &over, &longer, &none};
    for (size_t i = 0; i < LENGTH_OF(bad_sizes); i++) {
        const BadSize *size = &bad_sizes[i];
        begin_case(size->name);
        for (size_t j = 0; j < LENGTH_OF(given); j++)
            try_refused((Call){.pyramid = given[j], .width = size->width, .height = size->height, .decompositions = size->decompositions,
                               .number = AFS_SIZE});
        end_case();
    }
    free(none.at);
    free(longer.at);
    free(over.at);
    free(zero.at);
}

typedef struct {
    const char *name, *pyramid;
    uint64_t number, place;
} Refused;

/* Of 4 x 4 with N = 1. */
static const Refused refused[] = {
    {"65,536", "65536", AFS_RANGE, 0},
    {"-65,536", "-65536", AFS_RANGE, 0},
    {"65,535 before 65,536", "65535 -65535 65536", AFS_RANGE, 2},
    {"least 32-bit number", "0 0 0 0  0 0 0 -2147483648", AFS_RANGE, 7},
    {"greatest 32-bit number", "0 0 0 0  0 0 0 0  2147483647", AFS_RANGE, 8},
    {"the first of two", "0 0 0 0  0 65536 0 0  0 -65536", AFS_RANGE, 5},
    {"the last one", "0 0 0 0  0 0 0 0  0 0 0 0  0 0 0 -2147483647", AFS_RANGE, 15},
    {"all of them", "65536 65536 65536 65536  65536 65536 65536 65536  65536 65536 65536 65536  65536 65536 65536 65536", AFS_RANGE, 0},
    {"WORK before RANGE", "0 65536", AFS_WORK, 0},
};

static void test_refused(void) {
    for (size_t i = 0; i < LENGTH_OF(refused); i++) {
        const Refused *row = &refused[i];
        begin_case(row->name);
        Pyramid pyramid = pyramid_of(row->pyramid, 16);
        try_refused((Call){.pyramid = &pyramid, .width = 4, .height = 4, .decompositions = 1, .number = row->number, .place = row->place});
        free(pyramid.at);
        end_case();
    }
    begin_case("LENGTH before WORK, RANGE and ROOM");
    Pyramid over = pyramid_of("65536", 17);
    try_refused((Call){.pyramid = &over, .width = 4, .height = 4, .decompositions = 1, .number = AFS_LENGTH});
    free(over.at);
    end_case();
}

/* The lengths of 4 x 4's memory, any of which may be 0 and its pointer NULL. */
typedef struct {
    const char *name;
    size_t pyramid, room, work, answer;
    uint64_t number;
} Null;

static const Null nulls[] = {
    {"pyramid NULL", 0, 30, 64, AFS_CODED_NUMBERS, AFS_LENGTH},
    {"output NULL", 16, 0, 64, AFS_CODED_NUMBERS, AFS_ROOM},
    {"workspace NULL", 16, 30, 0, AFS_CODED_NUMBERS, AFS_WORK},
    {"answer NULL", 16, 30, 64, 0, AFS_ROOM},
    {"all but the answer NULL", 0, 0, 0, AFS_CODED_NUMBERS, AFS_LENGTH},
    {"all NULL", 0, 0, 0, 0, AFS_ROOM},
};

/* Where a length is 0 the pointer may be NULL. */
static void try_null(const Null *row) {
    const uint64_t numbers[AFS_CODED_NUMBERS] = {row->number};
    Pyramid pyramid = pyramid_of("", row->pyramid);
    Lent out = lend(row->room), work = lend(row->work * sizeof(uint32_t)), answer = lend(row->answer * sizeof *numbers);
    begin_case(row->name);
    uint64_t returned = afs_code(row->pyramid > 0 ? pyramid.at : NULL, row->pyramid, 4, 4, 1, row->room > 0 ? out.at : NULL, row->room,
                                 row->work > 0 ? work.at : NULL, row->work, row->answer > 0 ? answer.at : NULL, row->answer);
    check(returned == row->number, "number returned");
    check_answer(&answer, numbers, AFS_CODED_NUMBERS);
    check_zero_from(&out, 0, "output not all 0");
    check_zero_from(&work, 0, "workspace not all 0");
    take_back(&answer, "written beside the answer");
    take_back(&work, "written beside the workspace");
    take_back(&out, "written beside the output");
    free(pyramid.at);
    end_case();
}

int main(void) {
    setvbuf(stdout, NULL, _IOLBF, BUFSIZ);
    test_pairs();
    test_room_of_example();
    test_sizes();
    test_refused();
    for (size_t i = 0; i < LENGTH_OF(nulls); i++)
        try_null(&nulls[i]);
    return end_tests();
}
