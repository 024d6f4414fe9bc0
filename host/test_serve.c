/* Tests of afs_serve as a C program calls it: document 01's cases, each refusal with its place, and all memory lent, for every outcome. */
#include "examples.h"
#include "testing.h"

#include <stdio.h>
#include <stdlib.h>
#include <string.h>

/* A call and what must come of it; `result` is empty for a refusal. */
typedef struct {
    const Bytes *record;
    uint64_t level, plane;
    size_t room, answer_length;
    uint64_t number, place, tail;
    Bytes result;
} Call;

static void check_out(const Call *call, const Lent *out) {
    const Bytes *result = &call->result;
    if (result->length > 0)
        check(memcmp(out->at, result->at, result->length) == 0, "bytes of the result");
    check_zero_from(out, result->length, "output not 0 after the result");
}

static void try_call(const Call *call) {
    const uint64_t numbers[AFS_SERVED_NUMBERS] = {call->number, call->place, call->result.length, call->tail};
    Lent out = lend(call->room), answer = lend(call->answer_length * sizeof *numbers);
    Bytes before = copy_of(call->record->at, call->record->length);

    uint64_t returned =
        afs_serve(call->record->at, call->record->length, call->level, call->plane, out.at, call->room, answer.at, call->answer_length);

    check(returned == call->number, "number returned");
    check_answer(&answer, numbers, AFS_SERVED_NUMBERS);
    check_out(call, &out);
    check(memcmp(before.at, call->record->at, before.length) == 0, "record written to");
    free(before.at);
    take_back(&answer, "written beside the answer");
    take_back(&out, "written beside the output");
}

/* The same with answers of other lengths: too short for the answer, and longer than it. */
static void try_answers(Call call) {
    for (call.answer_length = AFS_SERVED_NUMBERS; call.answer_length <= 7; call.answer_length++)
        try_call(&call);
    call.number = AFS_ROOM;
    call.result.length = 0;
    for (call.answer_length = 0; call.answer_length < AFS_SERVED_NUMBERS; call.answer_length++)
        try_call(&call);
}

/* A refusal is the same whatever room there is. */
static void try_refused(const Bytes *record, uint64_t level, uint64_t plane, uint64_t number, uint64_t place) {
    Call call = {.record = record, .level = level, .plane = plane, .number = number, .place = place};
    size_t rooms[] = {0, 1, record->length, record->length + 9};
    for (size_t i = 0; i < LENGTH_OF(rooms); i++) {
        call.room = rooms[i];
        try_answers(call);
    }
}

/* A result is written where it has room, and refused where a byte is missing; served again it is itself. */
static void try_accepted(const Bytes *record, uint64_t level, uint64_t plane, const Bytes *result, uint64_t tail) {
    Call call = {.record = record, .level = level, .plane = plane, .tail = tail, .result = *result};
    size_t rooms[] = {result->length, result->length + 1, record->length + 9};
    for (size_t i = 0; i < LENGTH_OF(rooms); i++) {
        call.room = rooms[i];
        try_answers(call);
    }
    Call again = call;
    again.record = result;
    again.tail = 0;
    try_answers(again);
    Call refused = {.record = record, .level = level, .plane = plane, .number = AFS_ROOM};
    for (refused.room = 0; refused.room < result->length; refused.room++)
        try_answers(refused);
}

/* What the coder writes of a pyramid, or wrote before, served whole, is itself: P1 to P3, P6, P7 and P12 among them. */
static void test_pairs(const Pair *of, size_t count) {
    for (size_t i = 0; i < count; i++) {
        begin_case(of[i].name);
        Bytes record = bytes_of(of[i].record);
        try_accepted(&record, 1, 0, &record, 0);
        free(record.at);
        end_case();
    }
}

/* 8 x 8, N = 2, so levels 1 to 3; the bit counts there may be up to 256. */
#define WIDER "01 08 08 02 02 "
#define BODY_256 EIGHT EIGHT EIGHT EIGHT

typedef struct {
    const char *name, *record;
    uint64_t level, plane;
    const char *result;
    uint64_t tail;
} Accepted;

static const Accepted accepted[] = {
    {"P8: 17 bytes", EXAMPLE, 2, 0, HEADER PART_2_2 PART_1_2 PART_0_2, 0},
    {"P9: 21 bytes", EXAMPLE, 1, 1, HEADER PART_2_2 PART_2_1 PART_1_2 PART_1_1, 0},
    {"whole", EXAMPLE, 1, 0, EXAMPLE, 0},
    {"level 2, plane 1", EXAMPLE, 2, 1, HEADER PART_2_2 PART_1_2, 0},
    {"level 2, plane 2", EXAMPLE, 2, 2, HEADER PART_2_2, 0},
    {"plane = planes: header alone", EXAMPLE, 1, 3, HEADER, 0},
    {"level N + 1, plane = planes", EXAMPLE, 2, 3, HEADER, 0},
    {"P10's selection", HEADER PART_2_2 PART_2_1 PART_1_1 PART_0_2 PART_0_1, 1, 0,
     HEADER PART_2_2 PART_2_1 PART_1_1 PART_0_2 PART_0_1, 0},
    {"P11's selection", HEADER PART_2_2 PART_2_1 PART_1_2 PART_0_2 PART_0_1, 2, 0, HEADER PART_2_2 PART_1_2 PART_0_2, 0},
    {"last part alone", HEADER PART_0_1, 1, 0, HEADER PART_0_1, 0},
    {"bits that no coder wrote are not judged", HEADER "02 02 04 F0 02 01 00 ", 1, 0, HEADER "02 02 04 F0 02 01 00 ", 0},

    {"P7: no planes", "01 04 04 01 00", 1, 0, "01 04 04 01 00", 0},
    {"no planes, level 2", "01 04 04 01 00", 2, 0, "01 04 04 01 00", 0},
    {"no planes, head cut", "01 04 04 01 00 00 01", 1, 0, "01 04 04 01 00", 2},
    {"17 planes", "01 04 04 01 11 10 02 00", 1, 17, "01 04 04 01 11", 0},
    {"plane 16 of 17", "01 04 04 01 11 10 02 00", 1, 16, "01 04 04 01 11 10 02 00", 0},
    {"8 x 8, N = 1", "01 08 08 01 01", 1, 0, "01 08 08 01 01", 0},
    {"4 x 512", "01 04 80 04 01 01", 1, 0, "01 04 80 04 01 01", 0},
    {"64 x 64, N = 5", "01 40 40 05 01 00 06 00", 6, 0, "01 40 40 05 01 00 06 00", 0},
    {"512 x 512, N = 5", "01 80 04 80 04 05 11 10 06 00 10 01 07 02", 6, 0, "01 80 04 80 04 05 11 10 06 00", 0},
    {"512 x 512, bit count of 4 x 512 x 512, body cut", "01 80 04 80 04 05 11 10 06 80 80 40 00", 1, 0, "01 80 04 80 04 05 11", 6},

    {"three levels, all", WIDER "01 03 02 40 01 02 00 01 01 80 02 " BODY_256 "00 03 01 80", 1, 0,
     WIDER "01 03 02 40 01 02 00 01 01 80 02 " BODY_256 "00 03 01 80", 0},
    {"three levels, two kept", WIDER "01 03 02 40 01 02 00 01 01 80 02 " BODY_256 "00 03 01 80", 2, 0,
     WIDER "01 03 02 40 01 02 00 00 03 01 80", 0},
    {"three levels, one kept", WIDER "01 03 02 40 01 02 00 01 01 80 02 " BODY_256 "00 03 01 80", 3, 1, WIDER "01 03 02 40", 0},

    {"64 bits in 4 x 4", HEADER "00 01 40 " EIGHT, 1, 0, HEADER "00 01 40 " EIGHT, 0},
    {"8 bits have no padding", HEADER "02 02 08 FF", 1, 0, HEADER "02 02 08 FF", 0},
    {"0 bits have no body", HEADER "02 02 00 01 02 00", 1, 0, HEADER "02 02 00 01 02 00", 0},

    {"tail: plane cut", HEADER "80", 1, 0, HEADER, 1},
    {"tail: plane of three bytes cut", HEADER "80 80 80", 1, 0, HEADER, 3},
    {"tail: plane alone", HEADER "02", 1, 0, HEADER, 1},
    {"tail: level cut", HEADER "02 80 80 80", 1, 0, HEADER, 4},
    {"tail: plane and level", HEADER "02 02", 1, 0, HEADER, 2},
    {"tail: bit count cut", HEADER "02 02 80 80", 1, 0, HEADER, 4},
    {"tail: no value judged before the third number", HEADER "7F 7F", 1, 0, HEADER, 2},
    {"tail: level cut behind a part", HEADER PART_2_2 "02 80", 1, 0, HEADER PART_2_2, 2},
    {"tail: no value judged where the third number is cut", HEADER "7F 7F FF FF FF", 1, 0, HEADER, 5},
    {"tail: out of order, but cut", HEADER PART_1_2 "02 02", 1, 0, HEADER PART_1_2, 2},
    {"tail: body missing", HEADER "02 02 05", 1, 0, HEADER, 3},
    {"tail: 64 bits, body missing", HEADER "00 01 40", 1, 0, HEADER, 3},
    {"tail: 64 bits, a byte missing", HEADER "00 01 40 00 00 00 00 00 00 00", 1, 0, HEADER, 10},
    {"tail: padding set, but a byte before it missing", HEADER "02 02 0C FF", 1, 0, HEADER, 4},
    {"tail: in a part that would be dropped", HEADER PART_2_2 "02 01 03", 2, 0, HEADER PART_2_2, 3},
    {"tail: first 29 bytes, level 2", HEADER PART_2_2 PART_2_1 PART_1_2 PART_1_1 PART_0_2 "00 01 0B 0C", 2, 0,
     HEADER PART_2_2 PART_1_2 PART_0_2, 4},
    {"tail: after dropped parts", HEADER PART_2_2 PART_2_1 "01 02", 2, 2, HEADER PART_2_2, 2},
};

typedef struct {
    const char *name, *record;
    uint64_t level, plane, number, place;
} Refused;

static const Refused refused[] = {
    {"empty", "", 1, 0, AFS_HEAD, 0},
    {"no width", "01", 1, 0, AFS_HEAD, 1},
    {"no height", "01 04", 1, 0, AFS_HEAD, 2},
    {"no decompositions", "01 04 04", 1, 0, AFS_HEAD, 3},
    {"no planes number", "01 04 04 01", 1, 0, AFS_HEAD, 4},
    {"no planes number after long ones", "01 80 04 80 04 05", 1, 0, AFS_HEAD, 6},
    {"version cut", "80", 1, 0, AFS_HEAD, 0},
    {"width cut", "01 80", 1, 0, AFS_HEAD, 1},
    {"height cut", "01 04 80 80", 1, 0, AFS_HEAD, 2},
    {"decompositions cut", "01 04 04 80 80 80", 1, 0, AFS_HEAD, 3},
    {"planes cut", "01 80 04 80 04 05 83", 1, 0, AFS_HEAD, 6},
    {"long form: version", "81 00 04 04 01 03", 1, 0, AFS_LONGFORM, 0},
    {"long form: version, nothing after it", "81 00", 1, 0, AFS_LONGFORM, 0},
    {"P4: version 80 00", "80 00 04 04 01 03", 1, 0, AFS_LONGFORM, 0},
    {"P5: version 80 80 80 80", "80 80 80 80", 1, 0, AFS_HEAD, 0},
    {"long form: width", "01 84 00 04 01 03", 1, 0, AFS_LONGFORM, 1},
    {"long form: height of four bytes", "01 04 84 80 80 00 01 03", 1, 0, AFS_LONGFORM, 2},
    {"decompositions of more than four bytes", "01 04 04 FF FF FF FF 03", 1, 0, AFS_HEAD, 3},
    {"P4: planes 80 00", "01 04 04 01 80 00", 1, 0, AFS_LONGFORM, 4},
    {"long form: height, nothing after it", "01 04 80 00", 1, 0, AFS_LONGFORM, 2},
    {"long form: height, then a number", "01 04 80 00 04", 1, 0, AFS_LONGFORM, 2},
    {"long form: decompositions of FF 00", "01 04 04 FF 00 03", 1, 0, AFS_LONGFORM, 3},
    {"long form: planes of four bytes", "01 04 04 01 80 80 80 00", 1, 0, AFS_LONGFORM, 4},
    {"planes of more than four bytes", "01 04 04 01 80 80 80 80", 1, 0, AFS_HEAD, 4},
    {"planes of more than four bytes, then 0", "01 04 04 01 80 80 80 80 00", 1, 0, AFS_HEAD, 4},
    {"long form before SIZE", "01 00 00 63 80 00", 1, 0, AFS_LONGFORM, 4},
    {"long form before too many bytes", "01 80 00 80 80 80 80", 1, 0, AFS_LONGFORM, 1},
    {"too many bytes before a long form", "01 80 80 80 80 80 00", 1, 0, AFS_HEAD, 1},

    {"version 129", "81 01", 1, 0, AFS_VERSION, 0},
    {"version 0", "00 04 04 01 03", 1, 0, AFS_VERSION, 0},
    {"version 2", "02 04 04 01 03", 1, 0, AFS_VERSION, 0},
    {"version of four bytes", "FF FF FF 7F 04 04 01 03", 1, 0, AFS_VERSION, 0},
    {"version before a malformed width", "02 80 00", 1, 0, AFS_VERSION, 0},
    {"version before the end", "02", 1, 0, AFS_VERSION, 0},
    {"version before sizes and ask", "02 00 00 00 63", 0, 99, AFS_VERSION, 0},

    {"width 0", "01 00 04 01 03", 1, 0, AFS_SIZE, 0},
    {"width 2", "01 02 04 01 03", 1, 0, AFS_SIZE, 0},
    {"height 2", "01 04 02 01 03", 1, 0, AFS_SIZE, 0},
    {"6 x 8, N = 1", "01 06 08 01 03", 1, 0, AFS_SIZE, 0},
    {"8 x 6, N = 1", "01 08 06 01 03", 1, 0, AFS_SIZE, 0},
    {"width 516", "01 84 04 04 01 03", 1, 0, AFS_SIZE, 0},
    {"height 516", "01 04 84 04 01 03", 1, 0, AFS_SIZE, 0},
    {"greatest width", "01 FF FF FF 7F 04 01 03", 1, 0, AFS_SIZE, 0},
    {"greatest height", "01 04 FC FF FF 7F 01 03", 1, 0, AFS_SIZE, 0},
    {"N = 0", "01 40 40 00 03", 1, 0, AFS_SIZE, 0},
    {"N = 6", "01 80 01 80 01 06 03", 1, 0, AFS_SIZE, 0},
    {"4 x 4, N = 2", "01 04 04 02 03", 1, 0, AFS_SIZE, 0},
    {"greatest N", "01 04 04 FF FF FF 7F 03", 1, 0, AFS_SIZE, 0},
    {"18 planes", "01 04 04 01 12", 1, 0, AFS_SIZE, 0},
    {"most planes", "01 04 04 01 FF FF FF 7F", 1, 0, AFS_SIZE, 0},
    {"HEAD before SIZE", "01 00 00 63", 1, 0, AFS_HEAD, 4},
    {"SIZE before ASK", "01 00 04 01 03", 9, 99, AFS_SIZE, 0},
    {"SIZE before PART", "01 04 04 01 12 80 00", 1, 0, AFS_SIZE, 0},

    {"level 0", EXAMPLE, 0, 0, AFS_ASK, 0},
    {"level N + 2", EXAMPLE, 3, 0, AFS_ASK, 0},
    {"level 2^32 + 1", EXAMPLE, (UINT64_C(1) << 32) + 1, 0, AFS_ASK, 0},
    {"level 257", EXAMPLE, 257, 0, AFS_ASK, 0},
    {"greatest level", EXAMPLE, UINT64_MAX, 0, AFS_ASK, 0},
    {"plane over planes", EXAMPLE, 1, 4, AFS_ASK, 0},
    {"plane 2^32", EXAMPLE, 1, UINT64_C(1) << 32, AFS_ASK, 0},
    {"greatest plane", EXAMPLE, 1, UINT64_MAX, AFS_ASK, 0},
    {"plane 1 of no planes", "01 04 04 01 00", 1, 1, AFS_ASK, 0},
    {"HEAD before ASK", "01 04 04 01", 0, 0, AFS_HEAD, 4},
    {"ASK before PART", HEADER "80 00", 0, 0, AFS_ASK, 0},
    {"ASK before PAD", HEADER "02 02 05 81", 1, 4, AFS_ASK, 0},
    {"long form before ASK", "01 04 04 81 00 03", 0, 0, AFS_LONGFORM, 3},

    {"P4: plane 80 00", HEADER "80 00", 1, 0, AFS_LONGFORM, 5},
    {"P5: plane 80 80 80 80", HEADER "80 80 80 80", 1, 0, AFS_PART, 5},
    {"long form: level", HEADER "02 82 00", 1, 0, AFS_LONGFORM, 5},
    {"long form: bit count", HEADER "02 02 85 00", 1, 0, AFS_LONGFORM, 5},
    {"bit count of more than four bytes", HEADER "02 02 FF FF FF FF", 1, 0, AFS_PART, 5},
    {"long form: in a later part", HEADER PART_2_2 PART_2_1 "01 80 00", 1, 0, AFS_LONGFORM, 13},
    {"long form: plane, then a head", HEADER "80 00 01 05", 1, 0, AFS_LONGFORM, 5},
    {"long form: level, then a bit count", HEADER "02 80 00 05", 1, 0, AFS_LONGFORM, 5},
    {"long form: bit count, then a byte", HEADER "02 02 80 00 80", 1, 0, AFS_LONGFORM, 5},
    {"long form: bit count of four bytes", HEADER "02 02 85 80 80 00 80", 1, 0, AFS_LONGFORM, 5},
    {"long form: level FF 00", HEADER "02 FF 00 05", 1, 0, AFS_LONGFORM, 5},
    {"long form before an illegal plane", HEADER "7F 80 00", 1, 0, AFS_LONGFORM, 5},
    {"level of more than four bytes", HEADER "02 80 80 80 80", 1, 0, AFS_PART, 5},
    {"level of more than four bytes, then 0", HEADER "02 80 80 80 80 00", 1, 0, AFS_PART, 5},
    {"long form before too many bytes of a part", HEADER "02 80 00 80 80 80 80", 1, 0, AFS_LONGFORM, 5},
    {"too many bytes before a long form of a part", HEADER "02 80 80 80 80 80 00", 1, 0, AFS_PART, 5},
    {"plane not under planes", HEADER "03 02 00", 1, 0, AFS_PART, 5},
    {"greatest plane of a part", HEADER "FF FF FF 7F 02 00", 1, 0, AFS_PART, 5},
    {"a part where there are no planes", "01 04 04 01 00 00 01 00", 1, 0, AFS_PART, 5},
    {"level 0 of a part", HEADER "02 00 00", 1, 0, AFS_PART, 5},
    {"level N + 2 of a part", HEADER "02 03 00", 1, 0, AFS_PART, 5},
    {"greatest level of a part", HEADER "02 FF FF FF 7F 00", 1, 0, AFS_PART, 5},
    {"level upward", HEADER PART_2_1 PART_2_2, 1, 0, AFS_PART, 9},
    {"plane upward", HEADER PART_1_2 PART_2_1, 1, 0, AFS_PART, 9},
    {"same part again", HEADER PART_2_2 PART_2_2, 1, 0, AFS_PART, 9},
    {"same part again, 0 bits", HEADER "02 02 00 02 02 00", 1, 0, AFS_PART, 8},
    {"last part again", EXAMPLE PART_0_1, 1, 0, AFS_PART, 30},
    {"65 bits in 4 x 4", HEADER "00 01 41 " EIGHT "00", 1, 0, AFS_PART, 5},
    {"65 bits in 4 x 4, body cut", HEADER "00 01 41", 1, 0, AFS_PART, 5},
    {"most bits, body cut", HEADER "00 01 FF FF FF 7F", 1, 0, AFS_PART, 5},
    {"257 bits in 8 x 8", WIDER "01 03 81 02 " BODY_256 "00", 1, 0, AFS_PART, 5},
    {"4 x 512 x 512 bits and one", "01 80 04 80 04 05 11 10 06 81 80 40", 1, 0, AFS_PART, 7},
    {"body cut, out of order", HEADER PART_1_2 "02 02 05", 1, 0, AFS_PART, 9},

    {"first padding bit", HEADER "02 02 05 84", 1, 0, AFS_PAD, 5},
    {"second padding bit", HEADER "02 02 05 82", 1, 0, AFS_PAD, 5},
    {"last padding bit", HEADER "02 02 05 81", 1, 0, AFS_PAD, 5},
    {"padding of a last byte", HEADER PART_2_2 PART_2_1 PART_1_2 PART_1_1 PART_0_2 "00 01 0B 0C 30", 1, 0, AFS_PAD, 25},
    {"padding after one bit", HEADER "02 02 01 C0", 1, 0, AFS_PAD, 5},
    {"padding after seven bits", HEADER "02 02 07 01", 1, 0, AFS_PAD, 5},
    {"padding in a part that isn't usable", HEADER "02 01 03 10", 1, 0, AFS_PAD, 5},

    {"first fault is PART", HEADER PART_2_2 PART_2_2 "02 01 03 01", 1, 0, AFS_PART, 9},
    {"first fault is PAD", HEADER PART_2_2 "02 01 03 01 " PART_2_2, 1, 0, AFS_PAD, 9},
    {"first fault is PAD, then a long form", HEADER PART_2_2 "02 01 03 01 80 00", 1, 0, AFS_PAD, 9},
    {"first fault is a long form, then PAD", HEADER PART_2_2 "82 00 01 03 00 01 02 05 41", 1, 0, AFS_LONGFORM, 9},
    {"PART before PAD in a part", HEADER PART_1_2 "02 02 05 81", 1, 0, AFS_PART, 9},
    {"fault before a tail", HEADER "02 02 05 81 02", 1, 0, AFS_PAD, 5},
    {"PAD in a part dropped by its level", HEADER PART_2_2 "02 01 03 01", 2, 0, AFS_PAD, 9},
    {"PAD in a part dropped by its plane", HEADER PART_2_2 "01 02 05 41", 1, 2, AFS_PAD, 9},
    {"PAD where all parts are dropped", HEADER PART_2_2 PART_2_1 "00 01 0B 0C 21", 2, 3, AFS_PAD, 13},
    {"PART in a part dropped by its level", HEADER PART_2_2 "02 01 41", 2, 0, AFS_PART, 9},
    {"PART in a part dropped by its plane", HEADER PART_2_2 PART_1_1 "01 02 00", 1, 2, AFS_PART, 13},
    {"long form in a part dropped by its level", HEADER PART_2_2 "02 81 00 03 00", 2, 0, AFS_LONGFORM, 9},
    {"long form in a part dropped by its plane", HEADER PART_2_2 "81 00 02 05 40", 1, 2, AFS_LONGFORM, 9},
};

static void test_tables(void) {
    for (size_t i = 0; i < LENGTH_OF(accepted); i++) {
        const Accepted *row = &accepted[i];
        begin_case(row->name);
        Bytes record = bytes_of(row->record), result = bytes_of(row->result);
        try_accepted(&record, row->level, row->plane, &result, row->tail);
        free(result.at);
        free(record.at);
        end_case();
    }
    for (size_t i = 0; i < LENGTH_OF(refused); i++) {
        const Refused *row = &refused[i];
        begin_case(row->name);
        Bytes record = bytes_of(row->record);
        try_refused(&record, row->level, row->plane, row->number, row->place);
        free(record.at);
        end_case();
    }
}

/* The example cut at each byte: HEAD within the header, then a tail from where the last whole part ends. */
static void test_cuts(void) {
    static const size_t ends[] = {5, 9, 13, 17, 21, 25, 30};
    Bytes example = bytes_of(EXAMPLE);
    for (size_t length = 0, whole = 0; length <= example.length; length++) {
        char name[32];
        snprintf(name, sizeof name, "first %zu bytes", length);
        begin_case(name);
        Bytes cut = copy_of(example.at, length);
        for (size_t i = 0; i < LENGTH_OF(ends); i++)
            if (ends[i] == length)
                whole = length;
        Bytes result = copy_of(example.at, whole);
        if (whole == 0)
            try_refused(&cut, 1, 0, AFS_HEAD, length);
        else
            try_accepted(&cut, 1, 0, &result, length - whole);
        free(result.at);
        free(cut.at);
        end_case();
    }
    free(example.at);
}

/* A record served for (r1, p1), and the result for (r2, p2), is the record served once for the larger level and the larger plane: the same
 * bytes where there is just room for them, 5 where a byte is missing. Only the first serving tells a tail. */
static Bytes served_of(const Bytes *record, uint64_t level, uint64_t plane, uint64_t *tail) {
    uint64_t answer[AFS_SERVED_NUMBERS];
    Bytes result = {memory_of(record->length), record->length};
    uint64_t number = afs_serve(record->at, record->length, level, plane, result.at, result.length, answer, AFS_SERVED_NUMBERS);
    check(number == 0, "served");
    result.length = answer[2];
    *tail = answer[3];
    return result;
}

/* With just the room for the result, and with one byte less. */
static void try_just_room(Call call) {
    call.room = call.result.length;
    call.answer_length = AFS_SERVED_NUMBERS;
    try_call(&call);
    call.room--;
    call.number = AFS_ROOM;
    call.tail = 0;
    call.result.length = 0;
    try_call(&call);
}

static void try_again(const Bytes *record, uint64_t r1, uint64_t p1, uint64_t r2, uint64_t p2) {
    uint64_t tail, level = r1 > r2 ? r1 : r2, plane = p1 > p2 ? p1 : p2;
    Bytes first = served_of(record, r1, p1, &tail), once = served_of(record, level, plane, &tail);
    try_just_room((Call){.record = record, .level = level, .plane = plane, .tail = tail, .result = once});
    try_just_room((Call){.record = &first, .level = r2, .plane = p2, .result = once});
    free(once.at);
    free(first.at);
}

/* All pairs of legal requests of the example: levels 1 and 2, planes 0 to 3. */
static void test_again(void) {
    static const char *const records[] = {EXAMPLE, HEADER PART_2_2 PART_2_1 PART_1_2 PART_1_1 PART_0_2 "00 01 0B 0C"};
    for (size_t i = 0; i < LENGTH_OF(records); i++) {
        Bytes record = bytes_of(records[i]);
        for (unsigned pair = 0; pair < 64; pair++) {
            unsigned r1 = 1 + pair % 2, p1 = pair / 2 % 4, r2 = 1 + pair / 8 % 2, p2 = pair / 16;
            char name[64];
            snprintf(name, sizeof name, "%zu bytes served for (%u, %u), then (%u, %u)", record.length, r1, p1, r2, p2);
            begin_case(name);
            try_again(&record, r1, p1, r2, p2);
            end_case();
        }
        free(record.at);
    }
}

/* Where a length is 0 the pointer may be NULL. */
static void try_null(const char *name, Bytes record, size_t room, size_t answer_length, uint64_t number) {
    const uint64_t numbers[AFS_SERVED_NUMBERS] = {number};
    begin_case(name);
    Lent out = lend(room), answer = lend(answer_length * sizeof *numbers);
    uint64_t returned = afs_serve(record.at, record.length, 1, 0, room > 0 ? out.at : NULL, room,
                                  answer_length > 0 ? answer.at : NULL, answer_length);
    check(returned == number, "number returned");
    check_answer(&answer, numbers, AFS_SERVED_NUMBERS);
    check_zero_from(&out, 0, "output not all 0");
    take_back(&answer, "written beside the answer");
    take_back(&out, "written beside the output");
    end_case();
}

static void test_null(void) {
    Bytes example = bytes_of(EXAMPLE), none = {NULL, 0};
    try_null("record NULL", none, 30, AFS_SERVED_NUMBERS, AFS_HEAD);
    try_null("output NULL", example, 0, AFS_SERVED_NUMBERS, AFS_ROOM);
    try_null("record and output NULL", none, 0, AFS_SERVED_NUMBERS, AFS_HEAD);
    try_null("answer NULL", example, 30, 0, AFS_ROOM);
    try_null("all NULL", none, 0, 0, AFS_ROOM);
    free(example.at);
}

int main(void) {
    setvbuf(stdout, NULL, _IOLBF, BUFSIZ);
    test_pairs(pairs, pair_count);
    test_pairs(written_before, written_before_count);
    test_tables();
    test_cuts();
    test_again();
    test_null();
    return end_tests();
}
