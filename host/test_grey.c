/* Tests of afs_grey_size, afs_grey_in and afs_grey_out as a C program calls them: documents' cases, each refusal, and all memory lent, for every outcome. */
#include "testing.h"

#include <stdio.h>
#include <stdlib.h>
#include <string.h>

enum { COUNT = 16, WORK = 64, PLAIN_HEADER = 11, FILE_LENGTH = PLAIN_HEADER + COUNT, LONGEST_ANSWER = 7 };

#define PIXELS "00 0A 14 1E 28 32 3C 46 50 5A 64 6E FF 00 FF 00 "
#define PLAIN "50 35 0A 34 20 34 0A 32 35 35 0A "
#define SEVENS "07 07 07 07 07 07 07 07 "
#define PYRAMID "0 23 0 10  93 109 -63 -56  0 0 0 0  48 25 -255 -265"

/* A file read: what it is to give, which for a refusal is nothing. */
typedef struct {
    const Bytes *file;
    uint64_t decompositions;
    size_t out_length, work_length, answer_length;
    uint64_t number, width, height;
    const Pyramid *pyramid;
} Reading;

static void check_read(const Reading *reading, const Bytes *before, uint64_t returned, const Lent *answer) {
    bool is_told = reading->answer_length >= AFS_GREY_READ_NUMBERS;
    const uint64_t numbers[AFS_GREY_READ_NUMBERS] = {reading->number, 0, reading->width, reading->height};
    check(returned == (is_told ? reading->number : AFS_ROOM), "number returned");
    check_answer(answer, numbers, AFS_GREY_READ_NUMBERS);
    check(before->length == 0 || memcmp(before->at, reading->file->at, before->length) == 0, "file written to");
}

static void try_size(const Reading *reading) {
    Lent answer = lend(reading->answer_length * sizeof(uint64_t));
    Bytes before = copy_of(reading->file->at, reading->file->length);
    uint64_t returned = afs_grey_size(reading->file->at, reading->file->length, answer.at, reading->answer_length);
    check_read(reading, &before, returned, &answer);
    free(before.at);
    take_back(&answer, "written beside the answer");
}

static void try_in(const Reading *reading) {
    Lent out = lend(reading->out_length * sizeof(int32_t)), work = lend(reading->work_length * sizeof(uint32_t));
    Lent answer = lend(reading->answer_length * sizeof(uint64_t));
    Bytes before = copy_of(reading->file->at, reading->file->length);
    uint64_t returned = afs_grey_in(reading->file->at, reading->file->length, reading->decompositions, out.at, reading->out_length, work.at,
                                    reading->work_length, answer.at, reading->answer_length);
    check_read(reading, &before, returned, &answer);
    if (returned == AFS_ACCEPTED)
        check(memcmp(out.at, reading->pyramid->at, out.size) == 0, "the pyramid");
    else
        check_zero_from(&out, 0, "output not all 0");
    check_zero_from(&work, 0, "workspace not all 0");
    free(before.at);
    take_back(&answer, "written beside the answer");
    take_back(&work, "written beside the workspace");
    take_back(&out, "written beside the output");
}

static void for_answers(Reading reading, void (*try)(const Reading *)) {
    for (reading.answer_length = 0; reading.answer_length <= LONGEST_ANSWER; reading.answer_length++)
        try(&reading);
}

/* What a file is refused for whatever is lent, and what the size is told as; 0 x 0 where that is refused too. */
typedef struct {
    const char *name, *file;
    uint64_t decompositions, number, width, height;
} Refused;

static const Refused refused[] = {
    {"one pixel short", PLAIN "00 0A 14 1E 28 32 3C 46 50 5A 64 6E FF 00 FF", 1, AFS_GREY, 0, 0},
    {"P2", "50 32 0A 34 20 34 0A 32 35 35 0A " PIXELS, 1, AFS_GREY, 0, 0},
    {"p5", "70 35 0A 34 20 34 0A 32 35 35 0A " PIXELS, 1, AFS_GREY, 0, 0},
    {"P54", "50 35 34 20 34 20 32 35 35 0A " PIXELS, 1, AFS_GREY, 0, 0},
    {"maxval 254", "50 35 0A 34 20 34 0A 32 35 34 0A " PIXELS, 1, AFS_GREY, 0, 0},
    {"maxval 65535", "50 35 0A 34 20 34 0A 36 35 35 33 35 0A " PIXELS PIXELS, 1, AFS_GREY, 0, 0},
    {"nothing behind the maxval", "50 35 0A 34 20 34 0A 32 35 35", 1, AFS_GREY, 0, 0},
    {"a sign", "50 35 0A 34 20 2D 34 0A 32 35 35 0A " PIXELS, 1, AFS_GREY, 0, 0},
    {"a vertical tab", "50 35 0A 34 0B 34 0A 32 35 35 0A " PIXELS, 1, AFS_GREY, 0, 0},
    {"empty", "", 1, AFS_GREY, 0, 0},
    {"P", "50", 1, AFS_GREY, 0, 0},
    {"P5 alone", "50 35", 1, AFS_GREY, 0, 0},
    {"a comment without an end", "50 35 0A 23", 1, AFS_GREY, 0, 0},
    {"5 x 5 with 16 pixels: GREY before SIZE", "50 35 0A 35 20 35 0A 32 35 35 0A " PIXELS, 1, AFS_GREY, 0, 0},
    {"neither P5 nor a legal size", "50 36 0A 33 20 33 0A 32 35 35 0A " PIXELS, 9, AFS_GREY, 0, 0},
    {"a width of 20 digits", "50 35 0A 39 39 39 39 39 39 39 39 39 39 39 39 39 39 39 39 39 39 39 39 20 34 0A 32 35 35 0A " PIXELS, 1, AFS_GREY, 0, 0},
    {"3 x 5 with 16 pixels", "50 35 0A 33 20 35 0A 32 35 35 0A " PIXELS, 1, AFS_SIZE, 3, 5},
    {"0 x 5", "50 35 0A 30 20 35 0A 32 35 35 0A", 1, AFS_SIZE, 0, 5},
    {"20 digits x 0", "50 35 0A 39 39 39 39 39 39 39 39 39 39 39 39 39 39 39 39 39 39 39 39 20 30 0A 32 35 35 0A", 1, AFS_SIZE, UINT64_MAX, 0},
    {"N = 0", PLAIN PIXELS, 0, AFS_SIZE, 4, 4},
    {"N = 2 of 4 x 4", PLAIN PIXELS, 2, AFS_SIZE, 4, 4},
    {"N = 6", PLAIN PIXELS, 6, AFS_SIZE, 4, 4},
    {"N = 2^32 + 1", PLAIN PIXELS, (UINT64_C(1) << 32) + 1, AFS_SIZE, 4, 4},
    {"greatest N", PLAIN PIXELS, UINT64_MAX, AFS_SIZE, 4, 4},
};

static void test_refused(void) {
    static const size_t lengths[] = {0, 1, COUNT - 1, COUNT, WORK};
    for (size_t i = 0; i < LENGTH_OF(refused); i++) {
        const Refused *row = &refused[i];
        begin_case(row->name);
        Bytes file = bytes_of(row->file);
        Reading size = {.file = &file, .number = row->number == AFS_GREY ? AFS_GREY : AFS_ACCEPTED, .width = row->width, .height = row->height};
        for_answers(size, try_size);
        Reading reading = {.file = &file, .decompositions = row->decompositions, .number = row->number};
        for (size_t j = 0; j < LENGTH_OF(lengths); j++) {
            reading.out_length = lengths[j];
            reading.work_length = lengths[LENGTH_OF(lengths) - 1 - j];
            for_answers(reading, try_in);
        }
        free(file.at);
        end_case();
    }
}

/* Headers as Netpbm allows them, each with the example's pixels and something behind them. */
static const char *const headers[] = {
    PLAIN, "50 35 20 23 20 63 0A 34 09 34 20 30 32 35 35 0D ", "50 35 23 0A 23 31 32 20 31 32 0A 34 20 34 0A 32 35 35 20 ",
    "50 35 0D 0A 34 20 34 0D 0A 32 35 35 0D ", "50 35 23 63 0D 34 20 34 0A 32 35 35 0A ", "50 35 0A 34 23 63 0A 34 0A 32 35 35 23 63 0D ",
};

static void test_read(void) {
    Pyramid pyramid = pyramid_of(PYRAMID, COUNT);
    for (size_t i = 0; i < LENGTH_OF(headers); i++) {
        char text[256];
        snprintf(text, sizeof text, "%s%s 50 35", headers[i], PIXELS);
        begin_case("a header as Netpbm allows it");
        Bytes file = bytes_of(text);
        Reading reading = {.file = &file, .decompositions = 1, .out_length = COUNT, .work_length = WORK, .width = 4, .height = 4, .pyramid = &pyramid};
        for_answers(reading, try_size);
        for_answers(reading, try_in);
        reading.work_length = WORK + 5;
        for_answers(reading, try_in);
        reading = (Reading){.file = &file, .decompositions = 1, .out_length = COUNT - 1, .work_length = WORK - 1, .number = AFS_LENGTH};
        for_answers(reading, try_in);
        reading.out_length = COUNT + 1;
        for_answers(reading, try_in);
        reading = (Reading){.file = &file, .decompositions = 1, .out_length = COUNT, .work_length = WORK - 1, .number = AFS_WORK};
        for_answers(reading, try_in);
        free(file.at);
        end_case();
    }
    free(pyramid.at);
}

/* A pyramid printed: the file, which for a refusal is empty. */
typedef struct {
    const Pyramid *pyramid;
    uint64_t width, height, decompositions;
    size_t room, work_length, answer_length;
    uint64_t number, place, clipped;
    Bytes file;
} Writing;

static void try_out(const Writing *writing) {
    const uint64_t numbers[AFS_GREY_WRITTEN_NUMBERS] = {writing->number, writing->place, writing->file.length, writing->clipped};
    Lent out = lend(writing->room), work = lend(writing->work_length * sizeof(uint32_t)), answer = lend(writing->answer_length * sizeof *numbers);
    Pyramid before = pyramid_copy_of(writing->pyramid->at, writing->pyramid->length);
    uint64_t returned = afs_grey_out(writing->pyramid->at, writing->pyramid->length, writing->width, writing->height, writing->decompositions, out.at,
                                     writing->room, work.at, writing->work_length, answer.at, writing->answer_length);
    bool is_told = writing->answer_length >= AFS_GREY_WRITTEN_NUMBERS;
    size_t written = is_told ? writing->file.length : 0;
    check(returned == (is_told ? writing->number : AFS_ROOM), "number returned");
    check_answer(&answer, numbers, AFS_GREY_WRITTEN_NUMBERS);
    check(written == 0 || memcmp(out.at, writing->file.at, written) == 0, "the file");
    check_zero_from(&out, written, "output not 0 after the file");
    check_zero_from(&work, 0, "workspace not all 0");
    check(memcmp(before.at, writing->pyramid->at, before.length * sizeof *before.at) == 0, "pyramid written to");
    free(before.at);
    take_back(&answer, "written beside the answer");
    take_back(&work, "written beside the workspace");
    take_back(&out, "written beside the output");
}

static void for_answers_out(Writing writing) {
    for (writing.answer_length = 0; writing.answer_length <= LONGEST_ANSWER; writing.answer_length++)
        try_out(&writing);
}

/* Pyramids of 4 x 4 and N = 1, and their pictures. */
static const struct {
    const char *name, *pyramid, *pixels;
    uint64_t clipped;
} printed[] = {
    {"the example", PYRAMID, PIXELS, 0},
    {"document 01's pyramid: five under 0", "4 -1 0 0  2 0 0 -3  0 0 1 0  0 0 0 0", "04 01 00 00 02 01 00 00 02 01 01 00 02 01 01 00", 5},
    {"three under 0", "0 0 0 0  0 0 0 -4", "00 00 00 00 00 00 00 00 00 00 01 00 00 00 01 00", 3},
    {"three over 255", "200 200 0 0  200 200 0 0  0 201 0 0", "C8 96 63 63 C8 FF FF FF C8 AF 96 96 C8 AF 96 96", 3},
};

static void test_printed(void) {
    for (size_t i = 0; i < LENGTH_OF(printed); i++) {
        char text[128];
        snprintf(text, sizeof text, "%s%s", PLAIN, printed[i].pixels);
        begin_case(printed[i].name);
        Pyramid pyramid = pyramid_of(printed[i].pyramid, COUNT);
        Bytes file = bytes_of(text);
        Writing writing = {&pyramid, 4, 4, 1, FILE_LENGTH, WORK, 0, AFS_ACCEPTED, 0, printed[i].clipped, file};
        for (; writing.room < FILE_LENGTH + 3; writing.room++)
            for_answers_out(writing);
        writing = (Writing){&pyramid, 4, 4, 1, 0, WORK, 0, AFS_ROOM, 0, 0, {NULL, 0}};
        for (; writing.room < FILE_LENGTH; writing.room++)
            for_answers_out(writing);
        free(file.at);
        free(pyramid.at);
        end_case();
    }
}

static const struct {
    const char *name, *pyramid;
    uint64_t width, height, decompositions;
    size_t length, work_length, room;
    uint64_t number, place;
} not_printed[] = {
    {"N = 0", "0", 4, 4, 0, COUNT, WORK, FILE_LENGTH, AFS_SIZE, 0},
    {"N = 6", "0", 4, 4, 6, COUNT, WORK, FILE_LENGTH, AFS_SIZE, 0},
    {"N = 2^32 + 1", "0", 4, 4, (UINT64_C(1) << 32) + 1, COUNT, WORK, FILE_LENGTH, AFS_SIZE, 0},
    {"width 2^32 + 4", "0", (UINT64_C(1) << 32) + 4, 4, 1, COUNT, WORK, FILE_LENGTH, AFS_SIZE, 0},
    {"height 6", "0", 4, 6, 1, COUNT, WORK, FILE_LENGTH, AFS_SIZE, 0},
    {"SIZE before LENGTH", "0", 4, 4, 0, COUNT - 1, WORK, FILE_LENGTH, AFS_SIZE, 0},
    {"a pyramid of 15", "0", 4, 4, 1, COUNT - 1, WORK, FILE_LENGTH, AFS_LENGTH, 0},
    {"a pyramid of 17", "0", 4, 4, 1, COUNT + 1, WORK + 4, FILE_LENGTH, AFS_LENGTH, 0},
    {"LENGTH before WORK", "0", 4, 4, 1, COUNT - 1, 0, 0, AFS_LENGTH, 0},
    {"a workspace of 63", "0", 4, 4, 1, COUNT, WORK - 1, FILE_LENGTH, AFS_WORK, 0},
    {"WORK before RANGE", "131072", 4, 4, 1, COUNT, WORK - 1, 0, AFS_WORK, 0},
    {"131072", "131071 -131071 131072 131072", 4, 4, 1, COUNT, WORK, FILE_LENGTH, AFS_RANGE, 2},
    {"-131072", "0 0 0 0  0 -131072", 4, 4, 1, COUNT, WORK, FILE_LENGTH, AFS_RANGE, 5},
    {"the least number", "0 0 0 0  0 0 0 0  0 0 0 0  0 0 0 -2147483648", 4, 4, 1, COUNT, WORK, FILE_LENGTH, AFS_RANGE, 15},
    {"RANGE before ROOM", "131072", 4, 4, 1, COUNT, WORK, 0, AFS_RANGE, 0},
};

static void test_not_printed(void) {
    for (size_t i = 0; i < LENGTH_OF(not_printed); i++) {
        begin_case(not_printed[i].name);
        Pyramid pyramid = pyramid_of(not_printed[i].pyramid, not_printed[i].length);
        for_answers_out((Writing){&pyramid, not_printed[i].width, not_printed[i].height, not_printed[i].decompositions, not_printed[i].room,
                                  not_printed[i].work_length, 0, not_printed[i].number, not_printed[i].place, 0, {NULL, 0}});
        free(pyramid.at);
        end_case();
    }
}

/* Wider than high, and all of one grey, so that the coarsest level has that grey and all else is 0. */
static void test_oblong(void) {
    begin_case("8 x 4");
    Bytes file = bytes_of("50 35 0A 38 20 34 0A 32 35 35 0A " SEVENS SEVENS SEVENS SEVENS);
    Pyramid pyramid = pyramid_of("7 7 7 7 0 0 0 0  7 7 7 7 0 0 0 0", 2 * COUNT);
    Reading reading = {.file = &file, .decompositions = 1, .out_length = 2 * COUNT, .work_length = 2 * WORK, .width = 8, .height = 4, .pyramid = &pyramid};
    for_answers(reading, try_size);
    for_answers(reading, try_in);
    for_answers_out((Writing){&pyramid, 8, 4, 1, file.length, 2 * WORK, 0, AFS_ACCEPTED, 0, 0, file});
    for_answers_out((Writing){&pyramid, 8, 4, 1, file.length - 1, 2 * WORK, 0, AFS_ROOM, 0, 0, {NULL, 0}});
    free(pyramid.at);
    free(file.at);
    end_case();
}

/* Greatest magnitudes are taken, whatever they print as. */
static void test_greatest(void) {
    begin_case("131071 and -131071");
    Pyramid pyramid = pyramid_of("131071 -131071 131071 -131071  -131071 131071 131071 131071", COUNT);
    uint8_t out[FILE_LENGTH];
    uint32_t work[WORK];
    uint64_t answer[AFS_GREY_WRITTEN_NUMBERS];
    check(afs_grey_out(pyramid.at, COUNT, 4, 4, 1, out, FILE_LENGTH, work, WORK, answer, AFS_GREY_WRITTEN_NUMBERS) == AFS_ACCEPTED, "taken");
    check(answer[AFS_GREY_WRITTEN_LENGTH] == FILE_LENGTH && answer[AFS_GREY_WRITTEN_CLIPPED] > 0, "printed");
    free(pyramid.at);
    end_case();
}

/* Every picture of 4 x 4 in black and white. */
static void test_black_and_white(void) {
    begin_case("65536 pictures in black and white come back");
    Bytes file = bytes_of(PLAIN PIXELS);
    int32_t pyramid[COUNT];
    uint32_t work[WORK];
    uint8_t out[FILE_LENGTH];
    uint64_t answer[AFS_GREY_READ_NUMBERS];
    for (unsigned pattern = 0; pattern < 65536; pattern++) {
        for (unsigned i = 0; i < COUNT; i++)
            file.at[PLAIN_HEADER + i] = pattern >> i & 1 ? 255 : 0;
        check(afs_grey_in(file.at, file.length, 1, pyramid, COUNT, work, WORK, answer, AFS_GREY_READ_NUMBERS) == AFS_ACCEPTED, "taken");
        check(afs_grey_out(pyramid, COUNT, 4, 4, 1, out, FILE_LENGTH, work, WORK, answer, AFS_GREY_WRITTEN_NUMBERS) == AFS_ACCEPTED, "printed");
        check(memcmp(out, file.at, FILE_LENGTH) == 0 && answer[AFS_GREY_WRITTEN_CLIPPED] == 0, "the same picture");
    }
    free(file.at);
    end_case();
}

/* Where a length is 0 the pointer may be NULL. */
static void test_null(void) {
    begin_case("NULL");
    uint64_t answer[AFS_GREY_READ_NUMBERS];
    check(afs_grey_size(NULL, 0, answer, AFS_GREY_READ_NUMBERS) == AFS_GREY, "no file");
    check(afs_grey_size(NULL, 0, NULL, 0) == AFS_ROOM, "nothing at all");
    check(afs_grey_in(NULL, 0, 1, NULL, 0, NULL, 0, answer, AFS_GREY_READ_NUMBERS) == AFS_GREY, "no file to take");
    check(afs_grey_in(NULL, 0, 1, NULL, 0, NULL, 0, NULL, 0) == AFS_ROOM, "nothing at all to take");
    check(afs_grey_out(NULL, 0, 4, 4, 1, NULL, 0, NULL, 0, answer, AFS_GREY_WRITTEN_NUMBERS) == AFS_LENGTH, "no pyramid");
    check(afs_grey_out(NULL, 0, 4, 4, 1, NULL, 0, NULL, 0, NULL, 0) == AFS_ROOM, "nothing at all to print");
    end_case();
}

int main(void) {
    setvbuf(stdout, NULL, _IOLBF, BUFSIZ);
    test_read();
    test_refused();
    test_printed();
    test_not_printed();
    test_oblong();
    test_greatest();
    test_black_and_white();
    test_null();
    return end_tests();
}
