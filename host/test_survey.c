/* Tests of afs_survey as a C program calls it: document 01's cases, each refusal with its place, and all memory lent, for every outcome. */
#include "examples.h"
#include "testing.h"

#include <stdio.h>
#include <stdlib.h>
#include <string.h>

/* A record and the answer that must come of it. */
typedef struct {
    const Bytes *record;
    size_t answer_length;
    uint64_t numbers[AFS_SURVEYED_NUMBERS];
} Call;

static void try_call(const Call *call) {
    Lent answer = lend(call->answer_length * sizeof *call->numbers);
    Bytes before = copy_of(call->record->at, call->record->length);

    uint64_t returned = afs_survey(call->record->at, call->record->length, answer.at, call->answer_length);

    check(returned == call->numbers[AFS_SURVEYED_NUMBER], "number returned");
    check_answer(&answer, call->numbers, AFS_SURVEYED_NUMBERS);
    check(memcmp(before.at, call->record->at, before.length) == 0, "record written to");
    free(before.at);
    take_back(&answer, "written beside the answer");
}

/* The same with answers of other lengths: too short for the answer, and longer than it. */
static void try_answers(Call call) {
    for (call.answer_length = AFS_SURVEYED_NUMBERS; call.answer_length <= 12; call.answer_length++)
        try_call(&call);
    call.numbers[AFS_SURVEYED_NUMBER] = AFS_ROOM;
    for (call.answer_length = 0; call.answer_length < AFS_SURVEYED_NUMBERS; call.answer_length++)
        try_call(&call);
}

static void try_refused(const Bytes *record, uint64_t number, uint64_t place) {
    try_answers((Call){.record = record, .numbers = {number, place}});
}

/* What serving the record whole answers is told by the survey. */
static void check_as_serving(const Call *call) {
    size_t room = call->record->length;
    Lent out = lend(room), served = lend(AFS_SERVED_NUMBERS * sizeof(uint64_t));
    const uint64_t *numbers = served.at;
    uint64_t returned = afs_serve(call->record->at, room, 1, 0, out.at, room, served.at, AFS_SERVED_NUMBERS);
    check(returned == call->numbers[AFS_SURVEYED_NUMBER], "number that serving gives");
    check(numbers[AFS_SERVED_PLACE] == call->numbers[AFS_SURVEYED_PLACE], "place that serving gives");
    check(numbers[AFS_SERVED_TAIL] == call->numbers[AFS_SURVEYED_TAIL], "tail that serving gives");
    take_back(&served, "serving: written beside the answer");
    take_back(&out, "serving: written beside the output");
}

typedef struct {
    const char *name, *record;
    uint64_t width, height, decompositions, planes, parts, tail;
} Accepted;

/* 8 x 8, N = 2, so levels 1 to 3; the bit counts there may be up to 256. */
#define WIDER "01 08 08 02 02 "
#define BODY_256 EIGHT EIGHT EIGHT EIGHT

static const Accepted accepted[] = {
    {"P6: the record in full", EXAMPLE, 4, 4, 1, 3, 6, 0},
    {"P7: no planes", "01 04 04 01 00", 4, 4, 1, 0, 0, 0},
    {"P8: served for level 2", HEADER PART_2_2 PART_1_2 PART_0_2, 4, 4, 1, 3, 3, 0},
    {"P9: served for plane 1", HEADER PART_2_2 PART_2_1 PART_1_2 PART_1_1, 4, 4, 1, 3, 4, 0},
    {"P10: part (1, 2) lost", HEADER PART_2_2 PART_2_1 PART_1_1 PART_0_2 PART_0_1, 4, 4, 1, 3, 5, 0},
    {"P11: part (1, 1) lost", HEADER PART_2_2 PART_2_1 PART_1_2 PART_0_2 PART_0_1, 4, 4, 1, 3, 5, 0},
    {"last part alone", HEADER PART_0_1, 4, 4, 1, 3, 1, 0},
    {"header alone", HEADER, 4, 4, 1, 3, 0, 0},
    {"bits that no coder wrote are not judged", HEADER "02 02 04 F0 02 01 00 ", 4, 4, 1, 3, 2, 0},
    {"no planes, head cut", "01 04 04 01 00 00 01", 4, 4, 1, 0, 0, 2},
    {"17 planes", "01 04 04 01 11 10 02 00", 4, 4, 1, 17, 1, 0},
    {"128 wide: a number of two bytes", "01 80 01 04 01 00", 128, 4, 1, 0, 0, 0},
    {"4 x 512", "01 04 80 04 01 01", 4, 512, 1, 1, 0, 0},
    {"64 x 64, N = 5", "01 40 40 05 01 00 06 00", 64, 64, 5, 1, 1, 0},
    {"512 x 512, N = 5", "01 80 04 80 04 05 11 10 06 00 10 01 07 02", 512, 512, 5, 17, 2, 0},
    {"512 x 512, bit count of 4 x 512 x 512, body cut", "01 80 04 80 04 05 11 10 06 80 80 40 00", 512, 512, 5, 17, 0, 6},
    {"three levels", WIDER "01 03 02 40 01 02 00 01 01 80 02 " BODY_256 "00 03 01 80", 8, 8, 2, 2, 4, 0},
    {"0 bits have no body", HEADER "02 02 00 01 02 00", 4, 4, 1, 3, 2, 0},
    {"tail: plane cut", HEADER "80", 4, 4, 1, 3, 0, 1},
    {"tail: no value judged before the third number", HEADER "7F 7F", 4, 4, 1, 3, 0, 2},
    {"tail: out of order, but cut", HEADER PART_1_2 "02 02", 4, 4, 1, 3, 1, 2},
    {"tail: body missing", HEADER "02 02 05", 4, 4, 1, 3, 0, 3},
    {"tail: padding set, but a byte before it missing", HEADER "02 02 0C FF", 4, 4, 1, 3, 0, 4},
};

typedef struct {
    const char *name, *record;
    uint64_t number, place;
} Refused;

static const Refused refused[] = {
    {"empty", "", AFS_HEAD, 0},
    {"no width", "01", AFS_HEAD, 1},
    {"no height", "01 04", AFS_HEAD, 2},
    {"no decompositions", "01 04 04", AFS_HEAD, 3},
    {"no planes number after long ones", "01 80 04 80 04 05", AFS_HEAD, 6},
    {"P4: version 80 00", "80 00 04 04 01 03", AFS_LONGFORM, 0},
    {"P5: version 80 80 80 80", "80 80 80 80", AFS_HEAD, 0},
    {"long form: height of four bytes", "01 04 84 80 80 00 01 03", AFS_LONGFORM, 2},
    {"long form: width", "01 84 00 04 01 03", AFS_LONGFORM, 1},
    {"long form: height, nothing after it", "01 04 80 00", AFS_LONGFORM, 2},
    {"long form: height, then a number", "01 04 80 00 04", AFS_LONGFORM, 2},
    {"long form: decompositions of FF 00", "01 04 04 FF 00 03", AFS_LONGFORM, 3},
    {"long form: planes of four bytes", "01 04 04 01 80 80 80 00", AFS_LONGFORM, 4},
    {"planes of more than four bytes", "01 04 04 01 80 80 80 80", AFS_HEAD, 4},
    {"planes of more than four bytes, then 0", "01 04 04 01 80 80 80 80 00", AFS_HEAD, 4},
    {"long form before SIZE", "01 00 00 63 80 00", AFS_LONGFORM, 4},
    {"long form before too many bytes", "01 80 00 80 80 80 80", AFS_LONGFORM, 1},
    {"too many bytes before a long form", "01 80 80 80 80 80 00", AFS_HEAD, 1},
    {"planes cut", "01 80 04 80 04 05 83", AFS_HEAD, 6},
    {"version 2", "02 04 04 01 03", AFS_VERSION, 0},
    {"version before a malformed width", "02 80 00", AFS_VERSION, 0},
    {"6 x 8, N = 1", "01 06 08 01 03", AFS_SIZE, 0},
    {"width 516", "01 84 04 04 01 03", AFS_SIZE, 0},
    {"N = 0", "01 40 40 00 03", AFS_SIZE, 0},
    {"N = 6", "01 80 01 80 01 06 03", AFS_SIZE, 0},
    {"18 planes", "01 04 04 01 12", AFS_SIZE, 0},
    {"HEAD before SIZE", "01 00 00 63", AFS_HEAD, 4},
    {"SIZE before PART", "01 04 04 01 12 80 00", AFS_SIZE, 0},
    {"P4: plane 80 00", HEADER "80 00", AFS_LONGFORM, 5},
    {"P5: plane 80 80 80 80", HEADER "80 80 80 80", AFS_PART, 5},
    {"long form: in a later part", HEADER PART_2_2 PART_2_1 "01 80 00", AFS_LONGFORM, 13},
    {"long form: plane, then a head", HEADER "80 00 01 05", AFS_LONGFORM, 5},
    {"long form: level, then a bit count", HEADER "02 80 00 05", AFS_LONGFORM, 5},
    {"long form: bit count, then a byte", HEADER "02 02 80 00 80", AFS_LONGFORM, 5},
    {"long form: bit count of four bytes", HEADER "02 02 85 80 80 00 80", AFS_LONGFORM, 5},
    {"long form: level FF 00", HEADER "02 FF 00 05", AFS_LONGFORM, 5},
    {"long form before an illegal plane", HEADER "7F 80 00", AFS_LONGFORM, 5},
    {"level of more than four bytes", HEADER "02 80 80 80 80", AFS_PART, 5},
    {"level of more than four bytes, then 0", HEADER "02 80 80 80 80 00", AFS_PART, 5},
    {"long form before too many bytes of a part", HEADER "02 80 00 80 80 80 80", AFS_LONGFORM, 5},
    {"too many bytes before a long form of a part", HEADER "02 80 80 80 80 80 00", AFS_PART, 5},
    {"plane not under planes", HEADER "03 02 00", AFS_PART, 5},
    {"level N + 2 of a part", HEADER "02 03 00", AFS_PART, 5},
    {"level upward", HEADER PART_2_1 PART_2_2, AFS_PART, 9},
    {"last part again", EXAMPLE PART_0_1, AFS_PART, 30},
    {"65 bits in 4 x 4, body cut", HEADER "00 01 41", AFS_PART, 5},
    {"first padding bit", HEADER "02 02 05 84", AFS_PAD, 5},
    {"padding of a last byte", HEADER PART_2_2 PART_2_1 PART_1_2 PART_1_1 PART_0_2 "00 01 0B 0C 30", AFS_PAD, 25},
    {"first fault is PART", HEADER PART_2_2 PART_2_2 "02 01 03 01", AFS_PART, 9},
    {"first fault is PAD", HEADER PART_2_2 "02 01 03 01 " PART_2_2, AFS_PAD, 9},
    {"fault before a tail", HEADER "02 02 05 81 02", AFS_PAD, 5},
};

static void test_tables(void) {
    for (size_t i = 0; i < LENGTH_OF(accepted); i++) {
        const Accepted *row = &accepted[i];
        begin_case(row->name);
        Bytes record = bytes_of(row->record);
        Call call = {&record, 0, {0, 0, row->width, row->height, row->decompositions, row->planes, row->parts, row->tail}};
        try_answers(call);
        check_as_serving(&call);
        free(record.at);
        end_case();
    }
    for (size_t i = 0; i < LENGTH_OF(refused); i++) {
        const Refused *row = &refused[i];
        begin_case(row->name);
        Bytes record = bytes_of(row->record);
        try_refused(&record, row->number, row->place);
        check_as_serving(&(Call){.record = &record, .numbers = {row->number, row->place}});
        free(record.at);
        end_case();
    }
}

/* What the coder writes of a pyramid, or wrote before, has every part: P1 to P3, P6, P7 and P12 among them. */
static void test_pairs(const Pair *of, size_t count) {
    for (size_t i = 0; i < count; i++) {
        const Pair *pair = &of[i];
        begin_case(pair->name);
        Bytes record = bytes_of(pair->record);
        uint64_t told[AFS_SURVEYED_NUMBERS];
        afs_survey(record.at, record.length, told, AFS_SURVEYED_NUMBERS);
        uint64_t planes = told[AFS_SURVEYED_PLANES];
        try_answers((Call){&record, 0, {0, 0, pair->width, pair->height, pair->decompositions, planes, (pair->decompositions + 1) * planes, 0}});
        free(record.at);
        end_case();
    }
}

/* The example cut at each byte: HEAD within the header, then a tail from where the last whole part ends. */
static void test_cuts(void) {
    static const size_t ends[] = {5, 9, 13, 17, 21, 25, 30};
    Bytes example = bytes_of(EXAMPLE);
    for (size_t length = 0; length <= example.length; length++) {
        char name[32];
        snprintf(name, sizeof name, "first %zu bytes", length);
        begin_case(name);
        Bytes cut = copy_of(example.at, length);
        size_t parts = 0;
        while (parts + 1 < LENGTH_OF(ends) && ends[parts + 1] <= length)
            parts++;
        if (length < ends[0])
            try_refused(&cut, AFS_HEAD, length);
        else
            try_answers((Call){&cut, 0, {0, 0, 4, 4, 1, 3, parts, length - ends[parts]}});
        free(cut.at);
        end_case();
    }
    free(example.at);
}

/* Where a length is 0 the pointer may be NULL. */
static void test_null(void) {
    uint64_t told[AFS_SURVEYED_NUMBERS] = {9, 9, 9, 9, 9, 9, 9, 9};
    Bytes example = bytes_of(EXAMPLE);
    begin_case("NULL");
    check(afs_survey(NULL, 0, told, AFS_SURVEYED_NUMBERS) == AFS_HEAD && told[AFS_SURVEYED_NUMBER] == AFS_HEAD, "record NULL");
    check(afs_survey(example.at, example.length, NULL, 0) == AFS_ROOM, "answer NULL");
    check(afs_survey(NULL, 0, NULL, 0) == AFS_ROOM, "both NULL");
    end_case();
    free(example.at);
}

/* What a survey tells is what coding was told, and enough for decoding; the sizes to lend are constants. */
static void test_sizes_to_lend(void) {
    static uint8_t record[AFS_CODE_BOUND(4, 4)];
    static uint32_t work[AFS_WORK(4, 4)];
    uint64_t coded[AFS_CODED_NUMBERS], told[AFS_SURVEYED_NUMBERS], decoded[AFS_DECODED_NUMBERS];
    int32_t again[16];
    Pyramid pyramid = pyramid_of(EXAMPLE_PYRAMID, 16);
    begin_case("sizes to lend");
    check(sizeof record == 736 && LENGTH_OF(work) == 64, "bound and workspace");
    check(afs_code(pyramid.at, 16, 4, 4, 1, record, sizeof record, work, LENGTH_OF(work), coded, AFS_CODED_NUMBERS) == AFS_ACCEPTED, "coded");
    check(afs_survey(record, coded[AFS_CODED_LENGTH], told, AFS_SURVEYED_NUMBERS) == AFS_ACCEPTED, "surveyed");
    uint64_t width = told[AFS_SURVEYED_WIDTH], height = told[AFS_SURVEYED_HEIGHT];
    check(width * height == LENGTH_OF(again) && AFS_WORK(width, height) == LENGTH_OF(work), "what decoding is to be lent");
    check(afs_decode(record, coded[AFS_CODED_LENGTH], again, width * height, work, AFS_WORK(width, height), decoded, AFS_DECODED_NUMBERS) ==
              AFS_ACCEPTED,
          "decoded");
    check(memcmp(again, pyramid.at, sizeof again) == 0, "the pyramid");
    end_case();
    free(pyramid.at);
}

int main(void) {
    setvbuf(stdout, NULL, _IOLBF, BUFSIZ);
    test_tables();
    test_pairs(pairs, pair_count);
    test_pairs(written_before, written_before_count);
    test_cuts();
    test_null();
    test_sizes_to_lend();
    return end_tests();
}
