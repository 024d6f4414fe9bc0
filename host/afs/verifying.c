#include "verifying.h"

#include <stdlib.h>
#include <string.h>

/* Before a fault stand whole parts, unless it is in the header. */
Reading read_file(const char *name, Bytes file) {
    Reading reading = {.name = name, .file = file, .outcome = serve(file, 1, 0)};
    Outcome good = reading.outcome;
    if (good.number != AFS_ACCEPTED)
        good = serve((Bytes){file.at, good.place}, 1, 0);
    reading.has_header = good.number == AFS_ACCEPTED;
    if (reading.has_header)
        reading.found = seal_of(name, good.bytes);
    reading.behind = reading.has_header ? good.bytes.length : 0;
    if (good.bytes.at != reading.outcome.bytes.at)
        free(good.bytes.at);
    free(reading.outcome.bytes.at);
    reading.outcome.bytes = (Bytes){NULL, 0};
    return reading;
}

void free_reading(Reading *reading) {
    free_seal(&reading->found);
}

Standing standing_in_seal(const Comparison *comparison, const SealedPart *found) {
    if (has_same(comparison->seal, found))
        return AS_SEALED;
    return part_of(comparison->seal, found->part.plane, found->part.level) == NULL ? IS_FOREIGN : IS_OTHER;
}

/* Whether the part itself, head and body, stands anywhere in a file. */
static bool stands_in(Bytes file, const SealedPart *sealed) {
    uint8_t head[ROOM_FOR_HEAD];
    size_t of_head = put_head(head, sealed->part), length = of_head + length_of_body(sealed->part);
    for (size_t at = 0; at + length <= file.length; at++) {
        Digest digest;
        if (memcmp(file.at + at, head, of_head) != 0)
            continue;
        digest = digest_of(file.at + at, length);
        if (is_same_digest(&digest, &sealed->digest))
            return true;
    }
    return false;
}

Standing standing_of(const Comparison *comparison, const SealedPart *sealed) {
    const Seal *found = &comparison->reading->found;
    if (has_same(found, sealed))
        return AS_SEALED;
    if (part_of(found, sealed->part.plane, sealed->part.level) != NULL)
        return IS_OTHER;
    return comparison->is_changed && stands_in(comparison->reading->file, sealed) ? STANDS_ELSEWHERE : IS_MISSING;
}

static bool comes_behind(Part part, const Seal *found) {
    if (found->count == 0)
        return true;
    Part last = found->parts[found->count - 1].part;
    return part.plane < last.plane || (part.plane == last.plane && part.level < last.level);
}

/* A tail is of the record if it begins as one of the parts does that may follow. */
static bool is_tail_of(const Seal *seal, const Reading *reading) {
    size_t length = reading->file.length - reading->behind;
    for (size_t i = 0; i < seal->count; i++) {
        uint8_t head[ROOM_FOR_HEAD];
        size_t of_head = put_head(head, seal->parts[i].part), shorter = length < of_head ? length : of_head;
        if (comes_behind(seal->parts[i].part, &reading->found) && memcmp(reading->file.at + reading->behind, head, shorter) == 0)
            return true;
    }
    return false;
}

Comparison compare_with(const Seal *seal, const Reading *reading) {
    Comparison comparison = {.reading = reading, .seal = seal};
    bool has_more = reading->behind < reading->file.length;
    comparison.is_changed = reading->outcome.number != AFS_ACCEPTED || memcmp(&seal->header, &reading->found.header, sizeof seal->header) != 0;
    comparison.has_tail = !comparison.is_changed && has_more && is_tail_of(seal, reading);
    comparison.is_changed |= has_more && !comparison.has_tail;
    for (size_t i = 0; i < reading->found.count; i++)
        comparison.is_changed |= standing_in_seal(&comparison, &reading->found.parts[i]) != AS_SEALED;
    comparison.is_whole = !comparison.is_changed && !has_more && reading->found.count == seal->count;
    return comparison;
}
