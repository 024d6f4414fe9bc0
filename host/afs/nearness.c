#include "nearness.h"

#include "pictures.h"

#include <stdlib.h>

enum { FARTHEST = 255 };

uint64_t added_by(const Holding *holding, uint32_t level) {
    uint64_t reached = holding->reached[level - 1];
    if (level == holding->levels)
        return (UINT64_C(1) << reached) - 1;
    return reached == 0 ? 0 : UINT64_C(3) << reached;
}

uint64_t farthest_pixel(const Holding *holding, uint32_t halvings) {
    uint64_t sum = 0;
    for (uint32_t level = halvings + 1; level <= holding->levels; level++)
        sum += added_by(holding, level);
    return sum < FARTHEST ? sum : FARTHEST;
}

uint64_t pixels_outside(Bytes record, const Holding *holding, const Outcome *printed, uint64_t halvings) {
    if (farthest_pixel(holding, 0) > 0)
        return 0;
    if (halvings == 0)
        return printed->clipped;
    Outcome itself = print_picture(record, 0);
    free(itself.bytes.at);
    return itself.clipped;
}

uint64_t plane_within(Header header, uint64_t most) {
    uint64_t reached[AFS_LEVEL_PLACES], plane = header.planes + UINT64_C(1);
    Holding holding = {.header = header, .levels = coarsest(header), .reached = reached};
    do {
        plane--;
        for (uint32_t level = 1; level <= holding.levels; level++)
            reached[level - 1] = plane;
    } while (plane > 0 && farthest_pixel(&holding, 0) > most);
    return plane;
}

/* Serves for a plane, and decodes what is served. */
static Outcome serve_for(Bytes record, uint64_t plane) {
    Outcome served = serve(record, 1, plane), decoded = decode(served.bytes);
    Holding holding = holding_of(served.bytes, &decoded);
    served.plane = plane;
    served.farthest = farthest_pixel(&holding, 0);
    free(decoded.bytes.at);
    return served;
}

Outcome serve_within(Bytes record, uint64_t most) {
    Outcome whole = decode(record);
    free(whole.bytes.at);
    whole.bytes = (Bytes){NULL, 0};
    if (whole.number != AFS_ACCEPTED)
        return whole;
    const uint8_t *at = record.at;
    Outcome served = serve_for(record, read_header(&at).planes);
    while (served.farthest > most && served.plane > 0) {
        free(served.bytes.at);
        served = serve_for(record, served.plane - 1);
    }
    return served;
}
