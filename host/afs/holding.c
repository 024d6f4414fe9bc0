#include "holding.h"

const uint8_t *end_of_parts(Bytes record, const Outcome *outcome) {
    return record.at + (record.length - outcome->tail);
}

/* The head that a tail begins with, if it is whole. */
static void read_cut(Bytes record, Holding *holding) {
    size_t offset = record.length - holding->tail;
    Part *cut = &holding->cut;
    holding->has_cut = try_number(record, &offset, &cut->plane) == WELL_FORMED && try_number(record, &offset, &cut->level) == WELL_FORMED &&
                       try_number(record, &offset, &cut->bits) == WELL_FORMED;
    holding->there_of_cut = record.length - offset;
}

Holding holding_of(Bytes record, const Outcome *outcome) {
    const uint8_t *at = record.at, *end = end_of_parts(record, outcome);
    Header header = read_header(&at);
    Holding holding = {
        .header = header, .levels = coarsest(header), .reached = outcome->reached, .skipped = outcome->skipped, .tail = outcome->tail};
    while (at < end) {
        Part part = read_part(&at);
        holding.there[part.level - 1] |= UINT32_C(1) << part.plane;
    }
    read_cut(record, &holding);
    return holding;
}

bool is_there(const Holding *holding, uint32_t plane, uint32_t level) {
    return holding->there[level - 1] >> plane & 1;
}

bool is_used(const Holding *holding, uint32_t plane, uint32_t level) {
    return plane >= holding->reached[level - 1];
}

bool is_cut_used(const Holding *holding) {
    if (!holding->has_cut || holding->reached[holding->cut.level - 1] != holding->cut.plane + 1)
        return false;
    for (uint32_t level = holding->cut.level + 1; level <= holding->levels; level++)
        if (!is_used(holding, holding->cut.plane, level))
            return false;
    return true;
}

bool is_tail_used(const Holding *holding) {
    return is_cut_used(holding) && holding->there_of_cut > 0;
}

uint32_t count_parts(const Holding *holding, bool (*counts)(const Holding *, uint32_t, uint32_t)) {
    uint32_t count = 0;
    for (uint32_t level = 1; level <= holding->levels; level++)
        for (uint32_t plane = 0; plane < holding->header.planes; plane++)
            count += counts(holding, plane, level);
    return count;
}

uint32_t parts_of_whole(const Holding *holding) {
    return most_parts(holding->header);
}

bool is_whole(const Holding *holding) {
    return count_parts(holding, is_there) == parts_of_whole(holding);
}

uint64_t expected_plane(const Request *request, const Holding *holding, uint32_t level) {
    return level >= request->level ? request->plane : holding->header.planes;
}

bool lacks(const Request *request, const Holding *holding) {
    if (!request->has_expectation)
        return !is_whole(holding) || holding->tail > 0;
    for (uint32_t level = 1; level <= holding->levels; level++)
        if (holding->reached[level - 1] > expected_plane(request, holding, level))
            return true;
    return false;
}
