/* Tests of afs_join as a C program calls it: worked records, each refusal with its place, every pair of selections of document 01's record, and
   all memory lent, for every outcome. */
#include "examples.h"
#include "testing.h"

#include <stdio.h>
#include <stdlib.h>
#include <string.h>

/* A call and what must come of it; `result` is empty for a refusal. */
typedef struct {
    const Bytes *first, *second;
    size_t room, answer_length;
    uint64_t number, place;
    Bytes result;
} Call;

static void check_out(const Call *call, const Lent *out) {
    const Bytes *result = &call->result;
    if (result->length > 0)
        check(memcmp(out->at, result->at, result->length) == 0, "bytes of the result");
    check_zero_from(out, result->length, "output not 0 after the result");
}

static void try_call(const Call *call) {
    const uint64_t numbers[AFS_JOINED_NUMBERS] = {call->number, call->place, call->result.length};
    Lent out = lend(call->room), answer = lend(call->answer_length * sizeof *numbers);
    Bytes first = copy_of(call->first->at, call->first->length), second = copy_of(call->second->at, call->second->length);

    uint64_t returned =
        afs_join(call->first->at, first.length, call->second->at, second.length, out.at, call->room, answer.at, call->answer_length);

    check(returned == call->number, "number returned");
    check_answer(&answer, numbers, AFS_JOINED_NUMBERS);
    check_out(call, &out);
    check(memcmp(first.at, call->first->at, first.length) == 0, "first record written to");
    check(memcmp(second.at, call->second->at, second.length) == 0, "second record written to");
    free(second.at);
    free(first.at);
    take_back(&answer, "written beside the answer");
    take_back(&out, "written beside the output");
}

/* The same with answers of other lengths: too short for the answer, and longer than it. */
static void try_answers(Call call) {
    for (call.answer_length = AFS_JOINED_NUMBERS; call.answer_length <= 6; call.answer_length++)
        try_call(&call);
    call.number = AFS_ROOM;
    call.result.length = 0;
    for (call.answer_length = 0; call.answer_length < AFS_JOINED_NUMBERS; call.answer_length++)
        try_call(&call);
}

/* A refusal is the same whatever room there is. */
static void try_refused(const Bytes *first, const Bytes *second, uint64_t number, uint64_t place) {
    size_t rooms[] = {0, 1, first->length + second->length, first->length + second->length + 9};
    for (size_t i = 0; i < LENGTH_OF(rooms); i++)
        try_answers((Call){.first = first, .second = second, .room = rooms[i], .number = number, .place = place});
}

/* With just the room for the result, and with one byte less; as much as there is time for. */
static void try_just_room(const Bytes *first, const Bytes *second, const Bytes *result) {
    try_call(&(Call){.first = first, .second = second, .room = result->length, .answer_length = AFS_JOINED_NUMBERS, .result = *result});
    try_call(&(Call){.first = first, .second = second, .room = result->length - 1, .answer_length = AFS_JOINED_NUMBERS, .number = AFS_ROOM});
}

/* A result is written where it has room, and refused where a byte is missing; joined with either record, or itself, it is itself. */
static void try_order(const Bytes *first, const Bytes *second, const Bytes *result) {
    size_t both = first->length + second->length, rooms[] = {result->length, result->length + 1, both, both + 9};
    for (size_t i = 0; i < LENGTH_OF(rooms); i++)
        try_answers((Call){.first = first, .second = second, .room = rooms[i], .result = *result});
    for (size_t room = 0; room < result->length; room++)
        try_answers((Call){.first = first, .second = second, .room = room, .number = AFS_ROOM});
    try_just_room(result, first, result);
    try_just_room(second, result, result);
    try_just_room(result, result, result);
}

static void try_accepted(const Bytes *first, const Bytes *second, const Bytes *result) {
    try_order(first, second, result);
    try_order(second, first, result);
}

typedef struct {
    const char *name, *first, *second, *result;
} Accepted;

#define P8 HEADER PART_2_2 PART_1_2 PART_0_2
#define P9 HEADER PART_2_2 PART_2_1 PART_1_2 PART_1_1
#define P10 HEADER PART_2_2 PART_2_1 PART_1_1 PART_0_2 PART_0_1
#define P11 HEADER PART_2_2 PART_2_1 PART_1_2 PART_0_2 PART_0_1
#define WITHOUT_0_1 HEADER PART_2_2 PART_2_1 PART_1_2 PART_1_1 PART_0_2
#define FIRST_29 WITHOUT_0_1 "00 01 0B 0C"
#define FIRST_OTHER HEADER "02 02 05 40 " PART_2_1 PART_1_2 PART_1_1 PART_0_2 PART_0_1
#define LAST_OTHER HEADER PART_2_2 PART_2_1 PART_1_2 PART_1_1 PART_0_2 "00 01 0B 0D 20 "

/* 8 x 8, N = 2, one plane: levels 3 to 1. */
#define WIDER "01 08 08 02 01 "

static const Accepted accepted[] = {
    {"served for (2, 0) and for (1, 1): 25 bytes", P8, P9, WITHOUT_0_1},
    {"with itself", EXAMPLE, EXAMPLE, EXAMPLE},
    {"P8 and itself", P8, P8, P8},
    {"P8 and P10", P8, P10, EXAMPLE},
    {"P8 and P11", P8, P11, P11},
    {"P9 and itself", P9, P9, P9},
    {"P9 and P10", P9, P10, EXAMPLE},
    {"P9 and P11", P9, P11, EXAMPLE},
    {"P10 and itself", P10, P10, P10},
    {"P10 and P11", P10, P11, EXAMPLE},
    {"P11 and itself", P11, P11, P11},
    {"header alone, and the record", HEADER, EXAMPLE, EXAMPLE},
    {"headers alone", HEADER, HEADER, HEADER},
    {"the first half and the last", HEADER PART_2_2 PART_2_1 PART_1_2, HEADER PART_1_1 PART_0_2 PART_0_1, EXAMPLE},
    {"one part each", HEADER PART_0_1, HEADER PART_2_2, HEADER PART_2_2 PART_0_1},
    {"levels of one plane", HEADER PART_2_1, HEADER PART_2_2, HEADER PART_2_2 PART_2_1},
    {"no planes", "01 04 04 01 00", "01 04 04 01 00", "01 04 04 01 00"},
    {"three levels", WIDER "00 03 05 80 00 01 01 00", WIDER "00 02 08 C0 00 01 01 00", WIDER "00 03 05 80 00 02 08 C0 00 01 01 00"},
    {"parts of 0 bits", HEADER "01 02 00 00 01 00", HEADER "02 01 00 01 02 00", HEADER "02 01 00 01 02 00 00 01 00"},

    {"the first 29 bytes with themselves", FIRST_29, FIRST_29, WITHOUT_0_1},
    {"a part cut in one is taken from the other", FIRST_29, EXAMPLE, EXAMPLE},
    {"a cut part that the other hasn't is left out", FIRST_29, P8, WITHOUT_0_1},
    {"tails differ", FIRST_29, WITHOUT_0_1 "00 01 0B FF", WITHOUT_0_1},
    {"a tail whose plane isn't legal", HEADER "7F 7F", EXAMPLE, EXAMPLE},
    {"a cut part that differs isn't compared", FIRST_29, LAST_OTHER, LAST_OTHER},
    {"a part that one hasn't isn't compared", HEADER PART_2_2, LAST_OTHER, LAST_OTHER},
    {"bits that don't fit are not judged", HEADER "02 02 04 80", HEADER PART_0_1, HEADER "02 02 04 80 " PART_0_1},
};

typedef struct {
    const char *name, *first, *second;
    uint64_t number, place;
} Refused;

static const Refused refused[] = {
    {"the ninth byte 40", EXAMPLE, FIRST_OTHER, AFS_CLASH, 5},
    {"the ninth byte 40, of the first", FIRST_OTHER, EXAMPLE, AFS_CLASH, 5},
    {"CLASH: the place is in the first", P10, LAST_OTHER, AFS_CLASH, 21},
    {"CLASH: the place is in the first, other order", LAST_OTHER, P10, AFS_CLASH, 25},
    {"CLASH: the first of two", EXAMPLE, HEADER "02 02 05 40 02 01 03 20", AFS_CLASH, 5},
    {"CLASH: the first of two, in the first's order", HEADER PART_2_1 PART_1_2, HEADER "02 01 03 20 01 02 05 48", AFS_CLASH, 5},
    {"CLASH: another bit count, and body", EXAMPLE, HEADER PART_2_2 "02 01 04 00", AFS_CLASH, 9},
    {"CLASH: another bit count, the same body", EXAMPLE, HEADER "02 02 04 80", AFS_CLASH, 5},
    {"CLASH: 0 bits", EXAMPLE, HEADER "02 02 00", AFS_CLASH, 5},
    {"CLASH: a bit count of more bytes", "01 08 08 01 01 00 02 05 80", "01 08 08 01 01 00 02 81 01 " EIGHT EIGHT "00", AFS_CLASH, 5},
    {"CLASH: the last byte of a body", EXAMPLE, HEADER "00 01 0B 0C 40", AFS_CLASH, 25},

    {"MIXED: planes", EXAMPLE, "01 04 04 01 02", AFS_MIXED, 0},
    {"MIXED: planes, of the first", "01 04 04 01 02", EXAMPLE, AFS_MIXED, 0},
    {"MIXED: width", EXAMPLE, "01 08 04 01 03", AFS_MIXED, 0},
    {"MIXED: height", EXAMPLE, "01 04 08 01 03", AFS_MIXED, 0},
    {"MIXED: decompositions", "01 08 08 01 03", "01 08 08 02 03", AFS_MIXED, 0},
    {"MIXED: a header of more bytes", "01 80 04 04 01 03", "01 04 80 04 01 03", AFS_MIXED, 0},
    {"MIXED before CLASH", EXAMPLE, "01 04 04 01 04 02 02 05 40", AFS_MIXED, 0},

    {"empty, of the first", "", EXAMPLE, AFS_HEAD, 0},
    {"empty, of the second", EXAMPLE, "", AFS_HEAD, 0},
    {"both empty", "", "", AFS_HEAD, 0},
    {"no planes number, of the second", EXAMPLE, "01 04 04 01", AFS_HEAD, 4},
    {"version of the first before the second's end", "02", "", AFS_VERSION, 0},
    {"version of the second", EXAMPLE, "02 04 04 01 03", AFS_VERSION, 0},
    {"long form: version of the second", EXAMPLE, "81 00", AFS_LONGFORM, 0},
    {"long form: width of the first", "01 84 00 04 01 03", "", AFS_LONGFORM, 1},
    {"18 planes, of the second", EXAMPLE, "01 04 04 01 12", AFS_SIZE, 0},
    {"6 x 8 of both", "01 06 08 01 03", "01 06 08 01 03", AFS_SIZE, 0},
    {"same part again, of the first", HEADER PART_2_2 PART_2_2, EXAMPLE, AFS_PART, 9},
    {"same part again, of the second", EXAMPLE, HEADER PART_2_2 PART_2_2, AFS_PART, 9},
    {"65 bits in 4 x 4, body cut", EXAMPLE, HEADER "00 01 41", AFS_PART, 5},
    {"long form: in a later part of the second", P8, HEADER PART_2_2 PART_2_1 "01 80 00", AFS_LONGFORM, 13},
    {"padding of the first", HEADER "02 02 05 84", EXAMPLE, AFS_PAD, 5},
    {"padding of the second", EXAMPLE, HEADER PART_2_2 "02 01 03 01", AFS_PAD, 9},
    {"the first's part before the second's header", HEADER "02 02 05 81", "01 04 04 01", AFS_PAD, 5},
    {"the first's header before the second's part", "01 04 04 01", HEADER "02 02 05 81", AFS_HEAD, 4},
    {"the second's part before MIXED", "01 04 04 01 02", HEADER "02 02 05 81", AFS_PAD, 5},
    {"the second's later part before CLASH", EXAMPLE, HEADER "02 02 05 40 02 03 00", AFS_PART, 9},
    {"the second's header before CLASH", FIRST_OTHER, "01 04 04", AFS_HEAD, 3},
};

static void test_tables(void) {
    for (size_t i = 0; i < LENGTH_OF(accepted); i++) {
        const Accepted *row = &accepted[i];
        begin_case(row->name);
        Bytes first = bytes_of(row->first), second = bytes_of(row->second), result = bytes_of(row->result);
        try_accepted(&first, &second, &result);
        free(result.at);
        free(second.at);
        free(first.at);
        end_case();
    }
    for (size_t i = 0; i < LENGTH_OF(refused); i++) {
        const Refused *row = &refused[i];
        begin_case(row->name);
        Bytes first = bytes_of(row->first), second = bytes_of(row->second);
        try_refused(&first, &second, row->number, row->place);
        free(second.at);
        free(first.at);
        end_case();
    }
}

/* What the coder writes of a pyramid, or wrote before, joined with itself, is itself; so is the same memory lent twice. */
static void test_pairs(const Pair *of, size_t count) {
    for (size_t i = 0; i < count; i++) {
        begin_case(of[i].name);
        Bytes record = bytes_of(of[i].record), again = bytes_of(of[i].record);
        try_just_room(&record, &again, &record);
        try_just_room(&record, &record, &record);
        free(again.at);
        free(record.at);
        end_case();
    }
}

static const char *const parts[] = {PART_2_2, PART_2_1, PART_1_2, PART_1_1, PART_0_2, PART_0_1};
enum { SELECTIONS = 1 << LENGTH_OF(parts) };

static Bytes selection(unsigned there) {
    char text[128] = HEADER;
    for (size_t i = 0; i < LENGTH_OF(parts); i++)
        if (there >> i & 1)
            strcat(text, parts[i]);
    return bytes_of(text);
}

/* The pyramid of 4 x 4 that a record decodes to, and the answer. */
typedef struct {
    int32_t pyramid[16];
    uint64_t answer[AFS_DECODED_NUMBERS];
} Decoded;

static Decoded decoded_of(const Bytes *record) {
    Decoded decoded;
    uint32_t work[AFS_WORK(4, 4)];
    uint64_t number = afs_decode(record->at, record->length, decoded.pyramid, 16, work, AFS_WORK(4, 4), decoded.answer, AFS_DECODED_NUMBERS);
    check(number == AFS_ACCEPTED, "decoded");
    return decoded;
}

static Bytes joined_of(const Bytes *first, const Bytes *second) {
    uint64_t answer[AFS_JOINED_NUMBERS];
    Bytes result = {memory_of(first->length + second->length), first->length + second->length};
    uint64_t number =
        afs_join(first->at, first->length, second->at, second->length, result.at, result.length, answer, AFS_JOINED_NUMBERS);
    check(number == AFS_ACCEPTED, "joined");
    result.length = answer[AFS_JOINED_LENGTH];
    return result;
}

/* The selection by "or", and decoding it gives what decoding that selection gives. */
static void try_selections(const Bytes *first, const Bytes *second, const Bytes *either) {
    Bytes joined = joined_of(first, second);
    Decoded of_joined = decoded_of(&joined), of_either = decoded_of(either);
    check(memcmp(&of_joined, &of_either, sizeof of_joined) == 0, "decoded to the same");
    try_just_room(first, second, either);
    free(joined.at);
}

/* All 64 x 64 pairs, counted by the first of a pair. */
static void test_selections(void) {
    for (unsigned there = 0; there < SELECTIONS; there++) {
        char name[48];
        snprintf(name, sizeof name, "selection %u of the parts with each", there);
        begin_case(name);
        Bytes first = selection(there);
        for (unsigned others = 0; others < SELECTIONS; others++) {
            Bytes second = selection(others), either = selection(there | others);
            try_selections(&first, &second, &either);
            free(either.at);
            free(second.at);
        }
        free(first.at);
        end_case();
    }
}

/* Three in either grouping. */
static void try_groupings(const Bytes *a, const Bytes *b, const Bytes *c) {
    Bytes left = joined_of(a, b), right = joined_of(b, c), all = joined_of(&left, c);
    try_just_room(a, &right, &all);
    free(all.at);
    free(right.at);
    free(left.at);
}

static void test_groupings(void) {
    static const char *const records[] = {P8, P9, P10, P11, FIRST_29, HEADER PART_0_1};
    enum { COUNT = LENGTH_OF(records) };
    begin_case("three in either grouping");
    for (size_t i = 0; i < COUNT * COUNT * COUNT; i++) {
        Bytes a = bytes_of(records[i % COUNT]), b = bytes_of(records[i / COUNT % COUNT]), c = bytes_of(records[i / COUNT / COUNT]);
        try_groupings(&a, &b, &c);
        free(c.at);
        free(b.at);
        free(a.at);
    }
    end_case();
}

/* Where the last whole part ends in so many bytes of the example, or 0 where the header doesn't. */
static size_t whole_in(size_t length) {
    static const size_t ends[] = {5, 9, 13, 17, 21, 25, 30};
    size_t whole = 0;
    for (size_t i = 0; i < LENGTH_OF(ends); i++)
        if (ends[i] <= length)
            whole = ends[i];
    return whole;
}

static void try_cuts(const Bytes *first, const Bytes *second, const Bytes *example) {
    size_t of_first = whole_in(first->length), of_second = whole_in(second->length);
    Bytes longer = copy_of(example->at, of_first > of_second ? of_first : of_second);
    if (of_first == 0)
        try_refused(first, second, AFS_HEAD, first->length);
    else if (of_second == 0)
        try_refused(first, second, AFS_HEAD, second->length);
    else
        try_just_room(first, second, &longer);
    free(longer.at);
}

/* The example cut at each byte, with itself cut at each: in memory of their own, and in the same memory. */
static void test_cuts(void) {
    Bytes example = bytes_of(EXAMPLE);
    for (size_t length = 0; length <= example.length; length++) {
        char name[48];
        snprintf(name, sizeof name, "first %zu bytes, with each front", length);
        begin_case(name);
        Bytes first = copy_of(example.at, length), shared = {example.at, length};
        for (size_t other = 0; other <= example.length; other++) {
            Bytes second = copy_of(example.at, other);
            try_cuts(&first, &second, &example);
            try_cuts(&shared, &(Bytes){example.at, other}, &example);
            free(second.at);
        }
        free(first.at);
        end_case();
    }
    free(example.at);
}

/* Where a length is 0 the pointer may be NULL. */
static void try_null(const char *name, Bytes first, Bytes second, size_t room, size_t answer_length, uint64_t number) {
    const uint64_t numbers[AFS_JOINED_NUMBERS] = {number};
    begin_case(name);
    Lent out = lend(room), answer = lend(answer_length * sizeof *numbers);
    uint64_t returned = afs_join(first.at, first.length, second.at, second.length, room > 0 ? out.at : NULL, room,
                                 answer_length > 0 ? answer.at : NULL, answer_length);
    check(returned == number, "number returned");
    check_answer(&answer, numbers, AFS_JOINED_NUMBERS);
    check_zero_from(&out, 0, "output not all 0");
    take_back(&answer, "written beside the answer");
    take_back(&out, "written beside the output");
    end_case();
}

static void test_null(void) {
    Bytes example = bytes_of(EXAMPLE), none = {NULL, 0};
    try_null("first NULL", none, example, 30, AFS_JOINED_NUMBERS, AFS_HEAD);
    try_null("second NULL", example, none, 30, AFS_JOINED_NUMBERS, AFS_HEAD);
    try_null("output NULL", example, example, 0, AFS_JOINED_NUMBERS, AFS_ROOM);
    try_null("all but the answer NULL", none, none, 0, AFS_JOINED_NUMBERS, AFS_HEAD);
    try_null("answer NULL", example, example, 30, 0, AFS_ROOM);
    try_null("all NULL", none, none, 0, 0, AFS_ROOM);
    free(example.at);
}

int main(void) {
    setvbuf(stdout, NULL, _IOLBF, BUFSIZ);
    test_tables();
    test_pairs(pairs, pair_count);
    test_pairs(written_before, written_before_count);
    test_selections();
    test_groupings();
    test_cuts();
    test_null();
    return end_tests();
}
