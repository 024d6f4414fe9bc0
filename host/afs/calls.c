#include "calls.h"

#include <stdlib.h>
#include <string.h>

enum { COEFFICIENT_BYTES = 4 };

/* What the description of afs_code() calls always enough. */
static size_t room_for_record(size_t coefficients) {
    return AFS_CODE_BOUND(coefficients, 1);
}

int32_t coefficient_at(const uint8_t *at) {
    uint32_t bits = (uint32_t)at[0] | (uint32_t)at[1] << 8 | (uint32_t)at[2] << 16 | (uint32_t)at[3] << 24;
    int32_t coefficient;
    memcpy(&coefficient, &bits, sizeof coefficient);
    return coefficient;
}

static void put_coefficient(uint8_t *at, int32_t coefficient) {
    uint32_t bits = (uint32_t)coefficient;
    for (int i = 0; i < COEFFICIENT_BYTES; i++)
        at[i] = (uint8_t)(bits >> (8 * i));
}

/* Bytes left over make it no pyramid of any size. It is then lent as an empty one, so that the call judges this in its own order. */
static size_t coefficients_in(Bytes pyramid) {
    return pyramid.length % COEFFICIENT_BYTES == 0 ? pyramid.length / COEFFICIENT_BYTES : 0;
}

Outcome code_numbers(const int32_t *pyramid, size_t count, uint64_t width, uint64_t height, uint64_t decompositions) {
    size_t room = room_for_record(count), work_count = WORK_PER_COEFFICIENT * count;
    uint32_t *work = memory_for(work_count, sizeof *work);
    uint8_t *out = memory_for(room, 1);
    uint64_t answer[AFS_CODED_NUMBERS];
    afs_code(pyramid, count, width, height, decompositions, out, room, work, work_count, answer, AFS_CODED_NUMBERS);
    free(work);
    return (Outcome){
        .number = answer[AFS_CODED_NUMBER],
        .place = answer[AFS_CODED_PLACE],
        .bytes = {out, answer[AFS_CODED_LENGTH]},
    };
}

Outcome code(Bytes pyramid, uint64_t width, uint64_t height, uint64_t decompositions) {
    size_t count = coefficients_in(pyramid);
    int32_t *coefficients = memory_for(count, sizeof *coefficients);
    for (size_t i = 0; i < count; i++)
        coefficients[i] = coefficient_at(pyramid.at + COEFFICIENT_BYTES * i);
    Outcome outcome = code_numbers(coefficients, count, width, height, decompositions);
    free(coefficients);
    return outcome;
}

Outcome serve(Bytes record, uint64_t level, uint64_t plane) {
    uint8_t *out = memory_for(record.length, 1);
    uint64_t answer[AFS_SERVED_NUMBERS];
    afs_serve(record.at, record.length, level, plane, out, record.length, answer, AFS_SERVED_NUMBERS);
    return (Outcome){
        .number = answer[AFS_SERVED_NUMBER],
        .place = answer[AFS_SERVED_PLACE],
        .bytes = {out, answer[AFS_SERVED_LENGTH]},
        .tail = answer[AFS_SERVED_TAIL],
    };
}

Outcome join(Bytes first, Bytes second) {
    size_t room = first.length + second.length;
    uint8_t *out = memory_for(room, 1);
    uint64_t answer[AFS_JOINED_NUMBERS];
    afs_join(first.at, first.length, second.at, second.length, out, room, answer, AFS_JOINED_NUMBERS);
    return (Outcome){
        .number = answer[AFS_JOINED_NUMBER],
        .place = answer[AFS_JOINED_PLACE],
        .bytes = {out, answer[AFS_JOINED_LENGTH]},
    };
}

bool is_record(Bytes record) {
    uint64_t answer[AFS_SURVEYED_NUMBERS];
    return afs_survey(record.at, record.length, answer, AFS_SURVEYED_NUMBERS) == AFS_ACCEPTED;
}

static Bytes bytes_of(const int32_t *pyramid, size_t count) {
    Bytes bytes = {memory_for(count, COEFFICIENT_BYTES), count * COEFFICIENT_BYTES};
    for (size_t i = 0; i < count; i++)
        put_coefficient(bytes.at + COEFFICIENT_BYTES * i, pyramid[i]);
    return bytes;
}

static Outcome decode_into(Bytes record, int32_t *pyramid, size_t count, uint32_t *work, size_t work_count) {
    uint64_t answer[AFS_DECODED_NUMBERS];
    afs_decode(record.at, record.length, pyramid, count, work, work_count, answer, AFS_DECODED_NUMBERS);
    Outcome outcome = {
        .number = answer[AFS_DECODED_NUMBER],
        .place = answer[AFS_DECODED_PLACE],
        .tail = answer[AFS_DECODED_TAIL],
    };
    memcpy(outcome.reached, answer + AFS_DECODED_REACHED, sizeof outcome.reached);
    memcpy(outcome.skipped, answer + AFS_DECODED_SKIPPED, sizeof outcome.skipped);
    return outcome;
}

/* What a good header tells, else all 0. Decoding may find a fault before the first one that a survey finds: what is before that is surveyed again, as it is
   a record too unless its header is at fault. */
static Header survey_header(Bytes record) {
    uint64_t answer[AFS_SURVEYED_NUMBERS];
    if (afs_survey(record.at, record.length, answer, AFS_SURVEYED_NUMBERS) != AFS_ACCEPTED)
        afs_survey(record.at, answer[AFS_SURVEYED_PLACE], answer, AFS_SURVEYED_NUMBERS);
    return (Header){
        .width = (uint32_t)answer[AFS_SURVEYED_WIDTH],
        .height = (uint32_t)answer[AFS_SURVEYED_HEIGHT],
        .decompositions = (uint32_t)answer[AFS_SURVEYED_DECOMPOSITIONS],
        .planes = (uint32_t)answer[AFS_SURVEYED_PLANES],
    };
}

bool is_legal_header(Header header) {
    uint8_t bytes[ROOM_FOR_HEADER];
    uint64_t answer[AFS_SURVEYED_NUMBERS];
    return afs_survey(bytes, put_header(bytes, header), answer, AFS_SURVEYED_NUMBERS) == AFS_ACCEPTED;
}

Outcome decode_numbers(Bytes record, int32_t **pyramid, Header *header) {
    *pyramid = NULL;
    *header = survey_header(record);
    size_t count = (size_t)header->width * header->height, work_count = WORK_PER_COEFFICIENT * count;
    int32_t *numbers = memory_for(count, sizeof *numbers);
    uint32_t *work = memory_for(work_count, sizeof *work);
    Outcome outcome = decode_into(record, numbers, count, work, work_count);
    free(work);
    if (outcome.number == AFS_ACCEPTED)
        *pyramid = numbers;
    else
        free(numbers);
    return outcome;
}

Outcome decode(Bytes record) {
    int32_t *pyramid;
    Header header;
    Outcome outcome = decode_numbers(record, &pyramid, &header);
    if (pyramid != NULL)
        outcome.bytes = bytes_of(pyramid, (size_t)header.width * header.height);
    free(pyramid);
    return outcome;
}

const char *name_of(uint64_t number) {
    static const char *const names[] = {
        [AFS_ACCEPTED] = "ACCEPTED", [AFS_SIZE] = "SIZE", [AFS_LENGTH] = "LENGTH",   [AFS_WORK] = "WORK", [AFS_RANGE] = "RANGE", [AFS_ROOM] = "ROOM",
        [AFS_HEAD] = "HEAD",         [AFS_VERSION] = "VERSION", [AFS_PART] = "PART", [AFS_PAD] = "PAD",   [AFS_FIT] = "FIT",     [AFS_ASK] = "ASK",
        [AFS_LONGFORM] = "LONGFORM", [AFS_GREY] = "GREY", [AFS_MIXED] = "MIXED",     [AFS_CLASH] = "CLASH",
    };
    return number < sizeof names / sizeof *names && names[number] != NULL ? names[number] : "UNKNOWN";
}
