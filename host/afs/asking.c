#include "asking.h"

#include "nearness.h"

#include <inttypes.h>
#include <stdlib.h>

enum { LONGEST_DRAWN = 1024 };

Asked asked_for(const Request *request, Header header) {
    if (request->has_most)
        return (Asked){.is_said = true, .is_within = true, .level = 1, .plane = plane_within(header, request->most), .most = request->most};
    return (Asked){.is_said = request->asks, .level = request->has_level ? request->level : 1, .plane = request->plane};
}

bool was_asked_for(const Asked *asked, uint32_t plane, uint32_t level) {
    return level >= asked->level && plane >= asked->plane;
}

uint32_t count_asked(const Asked *asked, const Holding *holding) {
    return (uint32_t)((holding->header.planes - asked->plane) * (holding->levels + 1 - asked->level));
}

static uint32_t count_absent(const Asked *asked, const Holding *holding, bool of_asked) {
    uint32_t count = 0;
    for (uint32_t level = 1; level <= holding->levels; level++)
        for (uint32_t plane = 0; plane < holding->header.planes; plane++)
            count += !is_there(holding, plane, level) && was_asked_for(asked, plane, level) == of_asked;
    return count;
}

uint32_t count_lacking(const Asked *asked, const Holding *holding) {
    return count_absent(asked, holding, true);
}

uint32_t count_left_out(const Asked *asked, const Holding *holding) {
    return count_absent(asked, holding, false);
}

Sentence in_words(const Asked *asked, Header header) {
    if (asked->plane == header.planes)
        return say("the header alone");
    Sentence levels = asked->level == 1                  ? say("all levels")
                      : asked->level == coarsest(header) ? say("level %" PRIu64, asked->level)
                                                         : say("level %" PRIu64 " and coarser", asked->level);
    if (asked->plane == 0)
        return say("%s, all planes", levels.text);
    if (asked->plane + 1 == header.planes)
        return say("%s, plane %" PRIu64, levels.text, asked->plane);
    return say("%s, planes %" PRIu64 " and higher", levels.text, asked->plane);
}

bool is_as_served(const Holding *holding, Asked *served) {
    *served = (Asked){.is_said = true, .level = holding->levels, .plane = holding->header.planes};
    for (uint32_t level = holding->levels; level > 0; level--)
        for (uint32_t plane = 0; plane < holding->header.planes; plane++)
            if (is_there(holding, plane, level)) {
                served->level = level < served->level ? level : served->level;
                served->plane = plane < served->plane ? plane : served->plane;
            }
    return count_asked(served, holding) == count_parts(holding, is_there);
}

/* Of a record without planes nothing lacks. */
static uint32_t finest_there(const Holding *holding) {
    if (holding->header.planes == 0)
        return 1;
    for (uint32_t level = 1; level < holding->levels; level++)
        if (holding->there[level - 1] != 0)
            return level;
    return holding->levels;
}

static uint64_t level_to_draw(const Request *request, const Holding *holding) {
    if (request->has_level)
        return request->level;
    Header header = holding->header;
    uint32_t level = finest_there(holding), longer = header.width > header.height ? header.width : header.height;
    while (longer >> (level - 1) > LONGEST_DRAWN)
        level++;
    return level;
}

uint64_t halvings_to_draw(const Request *request, Bytes record) {
    Outcome served = serve(record, 1, 0);
    uint64_t halvings = 0;
    if (served.number == AFS_ACCEPTED) {
        Holding holding = holding_of(record, &served);
        uint64_t level = level_to_draw(request, &holding);
        halvings = level < holding.levels ? level - 1 : holding.levels - 2;
    }
    free(served.bytes.at);
    return halvings;
}
