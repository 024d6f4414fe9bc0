/*
 * A first program with Afshtruni: codes a pyramid, cuts off the end as a link may, asks what is left and decodes that.
 *
 *   cc waterfall.c $(pkg-config --cflags --libs afshtruni) -o waterfall
 *   cc waterfall.c $(pkg-config --cflags --libs afshtruni-static) -o waterfall
 */
#include <afshtruni.h>

#include <inttypes.h>
#include <stdio.h>
#include <stdlib.h>

enum { WIDTH = 4, HEIGHT = 4, DECOMPOSITIONS = 1 };

static const int32_t pyramid[WIDTH * HEIGHT] = {4, -1, 0, 0, 2, 0, 0, -3, 0, 0, 1, 0, 0, 0, 0, 0};

static void fail(const char *call, const uint64_t *answer) {
    fprintf(stderr, "%s: refused %" PRIu64 " at %" PRIu64 "\n", call, answer[0], answer[1]);
    exit(EXIT_FAILURE);
}

static void *lent(size_t count, size_t size) {
    void *memory = calloc(count, size);
    if (memory == NULL) {
        perror("memory");
        exit(EXIT_FAILURE);
    }
    return memory;
}

int main(void) {
    uint8_t record[AFS_CODE_BOUND(WIDTH, HEIGHT)];
    uint32_t work[AFS_WORK(WIDTH, HEIGHT)];
    uint64_t coded[AFS_CODED_NUMBERS], told[AFS_SURVEYED_NUMBERS], decoded[AFS_DECODED_NUMBERS];

    if (afs_code(pyramid, WIDTH * HEIGHT, WIDTH, HEIGHT, DECOMPOSITIONS, record, sizeof record, work, sizeof work / sizeof *work, coded,
                 AFS_CODED_NUMBERS) != AFS_ACCEPTED)
        fail("code", coded);
    printf("coded: %" PRIu64 " bytes\n", coded[AFS_CODED_LENGTH]);

    size_t arrived = (size_t)coded[AFS_CODED_LENGTH] - 1;
    if (afs_survey(record, arrived, told, AFS_SURVEYED_NUMBERS) != AFS_ACCEPTED)
        fail("survey", told);
    size_t width = (size_t)told[AFS_SURVEYED_WIDTH], height = (size_t)told[AFS_SURVEYED_HEIGHT];
    printf("arrived: %zu x %zu, %" PRIu64 " parts, tail %" PRIu64 "\n", width, height, told[AFS_SURVEYED_PARTS], told[AFS_SURVEYED_TAIL]);

    int32_t *out = lent(width * height, sizeof *out);
    uint32_t *room = lent(AFS_WORK(width, height), sizeof *room);
    if (afs_decode(record, arrived, out, width * height, room, AFS_WORK(width, height), decoded, AFS_DECODED_NUMBERS) != AFS_ACCEPTED)
        fail("decode", decoded);
    printf("decoded: level 2 to plane %" PRIu64 ", level 1 to plane %" PRIu64 "\n", decoded[AFS_DECODED_REACHED + 1],
           decoded[AFS_DECODED_REACHED]);
    for (size_t i = 0; i < width * height; i++)
        printf("%3" PRId32 "%s", out[i], (i + 1) % width == 0 ? "\n" : "");
    free(room);
    free(out);
    return EXIT_SUCCESS;
}
