#include "seals.h"

#include <stdlib.h>
#include <string.h>

Seal seal_of(const char *name, Bytes record) {
    const uint8_t *at = record.at, *end = record.at + record.length;
    Seal seal = {.name = strcpy(memory_for(strlen(name) + 1, 1), name), .header = read_header(&at)};
    seal.parts = memory_for(most_parts(seal.header), sizeof *seal.parts);
    while (at < end) {
        const uint8_t *begin = at;
        SealedPart *sealed = &seal.parts[seal.count++];
        sealed->part = read_part(&at);
        sealed->digest = digest_of(begin, (size_t)(at - begin));
    }
    return seal;
}

void free_seal(Seal *seal) {
    free(seal->name);
    free(seal->parts);
}

const SealedPart *part_of(const Seal *seal, uint32_t plane, uint32_t level) {
    for (size_t i = 0; i < seal->count; i++)
        if (seal->parts[i].part.plane == plane && seal->parts[i].part.level == level)
            return &seal->parts[i];
    return NULL;
}

void add_seal(Seals *seals, Seal seal) {
    if (seals->count == seals->room) {
        Seal *more = memory_for(seals->room = 2 * seals->room + 16, sizeof *more);
        if (seals->count > 0)
            memcpy(more, seals->of, seals->count * sizeof *more);
        free(seals->of);
        seals->of = more;
    }
    seals->of[seals->count++] = seal;
}

void free_seals(Seals *seals) {
    for (size_t i = 0; i < seals->count; i++)
        free_seal(&seals->of[i]);
    free(seals->of);
    *seals = (Seals){NULL, 0, 0};
}

static int by_name(const void *one, const void *other) {
    return strcmp(((const Seal *)one)->name, ((const Seal *)other)->name);
}

const char *sort_seals(Seals *seals) {
    if (seals->count > 0)
        qsort(seals->of, seals->count, sizeof *seals->of, by_name);
    for (size_t i = 1; i < seals->count; i++)
        if (strcmp(seals->of[i - 1].name, seals->of[i].name) == 0)
            return seals->of[i].name;
    return NULL;
}
