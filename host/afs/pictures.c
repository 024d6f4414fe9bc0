#include "pictures.h"

#include "png_file.h"

#include <stdlib.h>
#include <string.h>

enum { LEAST_SIDE = 4, GREATEST_SIDE = 512, MOST_DECOMPOSITIONS = 5, LONGEST_HEADER = 15 };

static bool is_side(uint64_t side, uint64_t decompositions) {
    return side >= LEAST_SIDE && side <= GREATEST_SIDE && side % (UINT64_C(2) << decompositions) == 0;
}

PictureSizes sizes_of(Bytes file, const uint64_t *asked) {
    uint64_t answer[AFS_GREY_READ_NUMBERS];
    afs_grey_size(file.at, file.length, answer, AFS_GREY_READ_NUMBERS);
    PictureSizes sizes = {answer[AFS_GREY_READ_WIDTH], answer[AFS_GREY_READ_HEIGHT], asked == NULL ? MOST_DECOMPOSITIONS : *asked};
    if (asked == NULL)
        while (sizes.decompositions > 1 && !(is_side(sizes.width, sizes.decompositions) && is_side(sizes.height, sizes.decompositions)))
            sizes.decompositions--;
    return sizes;
}

void take_as_grey_file(Bytes *file) {
    PngFault fault;
    Bytes grey = is_png(*file) ? grey_file_of_png(*file, &fault) : (Bytes){NULL, 0};
    if (grey.at == NULL)
        return;
    free(file->at);
    *file = grey;
}

Outcome code_picture(Bytes file, const uint64_t *asked) {
    PictureSizes sizes = sizes_of(file, asked);
    /* Never more than the file has bytes: where it is no picture both are 0, and else all its pixels are there. */
    size_t count = sizes.width * sizes.height, work_count = WORK_PER_COEFFICIENT * count;
    int32_t *pyramid = memory_for(count, sizeof *pyramid);
    uint32_t *work = memory_for(work_count, sizeof *work);
    uint64_t answer[AFS_GREY_READ_NUMBERS];
    afs_grey_in(file.at, file.length, sizes.decompositions, pyramid, count, work, work_count, answer, AFS_GREY_READ_NUMBERS);
    free(work);
    Outcome outcome = {.number = answer[AFS_GREY_READ_NUMBER], .place = answer[AFS_GREY_READ_PLACE]};
    if (outcome.number == AFS_ACCEPTED)
        outcome = code_numbers(pyramid, count, sizes.width, sizes.height, sizes.decompositions);
    free(pyramid);
    return outcome;
}

/* The top left block of a pyramid, which is a pyramid too; empty where it is halved more often than can be. */
static int32_t *block_of(const int32_t *pyramid, Header header, Header block) {
    int32_t *numbers = memory_for((size_t)block.width * block.height, sizeof *numbers);
    for (size_t row = 0; row < block.height; row++)
        memcpy(numbers + row * block.width, pyramid + row * header.width, block.width * sizeof *numbers);
    return numbers;
}

static Header halved(Header header, uint64_t halvings) {
    if (halvings >= header.decompositions)
        return (Header){.decompositions = 0};
    return (Header){header.width >> halvings, header.height >> halvings, header.decompositions - (uint32_t)halvings, header.planes};
}

static void print_block(const int32_t *pyramid, Header header, Header block, Outcome *outcome) {
    size_t count = (size_t)block.width * block.height, room = LONGEST_HEADER + count, work_count = WORK_PER_COEFFICIENT * count;
    int32_t *numbers = block_of(pyramid, header, block);
    uint32_t *work = memory_for(work_count, sizeof *work);
    uint64_t answer[AFS_GREY_WRITTEN_NUMBERS];
    outcome->bytes.at = memory_for(room, 1);
    afs_grey_out(numbers, count, block.width, block.height, block.decompositions, outcome->bytes.at, room, work, work_count, answer,
                 AFS_GREY_WRITTEN_NUMBERS);
    free(work);
    free(numbers);
    outcome->number = answer[AFS_GREY_WRITTEN_NUMBER];
    outcome->place = answer[AFS_GREY_WRITTEN_PLACE];
    outcome->bytes.length = answer[AFS_GREY_WRITTEN_LENGTH];
    outcome->clipped = answer[AFS_GREY_WRITTEN_CLIPPED];
}

Outcome print_picture(Bytes record, uint64_t halvings) {
    int32_t *pyramid;
    Header header;
    Outcome outcome = decode_numbers(record, &pyramid, &header);
    if (pyramid != NULL)
        print_block(pyramid, header, halved(header, halvings), &outcome);
    free(pyramid);
    return outcome;
}
