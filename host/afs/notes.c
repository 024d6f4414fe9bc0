#include "notes.h"

#include "messages.h"
#include "nearness.h"
#include "text.h"

#include <inttypes.h>
#include <stdlib.h>

static const char if_picture[] = "if it was made of a picture, a printed pixel is at most";

static void tell_farthest(FILE *out, const Request *request, const Holding *holding) {
    if (request->grey)
        fprintf(out, "; %s %" PRIu64 " grey values from the recorded one", if_picture, farthest_pixel(holding, (uint32_t)request->halvings));
}

static void note(const char *name, Text *text) {
    Bytes said = end_text(text);
    complain("%s: %.*s", name, (int)said.length, (const char *)said.at);
    free(said.at);
}

/* All levels, where all of the record was to be expected. */
static void note_reached(const Request *request, const char *name, const Holding *holding) {
    Text text;
    begin_text(&text);
    fputs("reached planes", text.stream);
    for (uint32_t level = 1; level <= holding->levels; level++)
        fprintf(text.stream, " %" PRIu64, holding->reached[level - 1]);
    fputs(" (level 1 first), skipped parts", text.stream);
    for (uint32_t level = 1; level <= holding->levels; level++)
        fprintf(text.stream, " %" PRIu64, holding->skipped[level - 1]);
    fprintf(text.stream, ", tail %" PRIu64, holding->tail);
    tell_farthest(text.stream, request, holding);
    note(name, &text);
}

/* The levels that came less far than what was asked for. */
static void note_short(const Request *request, const char *name, const Holding *holding) {
    Text text;
    begin_text(&text);
    for (uint32_t level = 1; level <= holding->levels; level++) {
        uint64_t reached = holding->reached[level - 1], expected = expected_plane(request, holding, level);
        if (reached <= expected)
            continue;
        fprintf(text.stream, "level %" PRIu32 " reached ", level);
        if (reached < holding->header.planes)
            fprintf(text.stream, "plane %" PRIu64, reached);
        else
            fputs("no plane", text.stream);
        fprintf(text.stream, ", expected plane %" PRIu64 "; ", expected);
    }
    fprintf(text.stream, "tail %" PRIu64, holding->tail);
    tell_farthest(text.stream, request, holding);
    note(name, &text);
}

void note_decoded(const Request *request, const char *name, const Holding *holding) {
    if (request->quiet || request->json)
        return;
    if (request->has_expectation)
        note_short(request, name, holding);
    else
        note_reached(request, name, holding);
}

void note_clipped(const Request *request, const char *name, uint64_t clipped) {
    if (!request->quiet && !request->json)
        complain("%s: pixels under 0 or over 255, set to the nearer end: %" PRIu64, name, clipped);
}

void note_no_picture(const Request *request, const char *name) {
    if (!request->quiet && !request->json)
        complain("%s: was changed, or made of no picture: all of it is there, and of a picture no pixel comes out under 0 or over 255", name);
}

static void note_distance(const Request *request, const char *name, const Outcome *served) {
    complain("%s: served for plane %" PRIu64 "; %s %" PRIu64 " grey values from the recorded one%s", name, served->plane, if_picture, served->farthest,
             served->farthest > request->most ? ", and nothing nearer can be served, as parts are missing" : "");
}

void note_coded(const Request *request, const char *name, uint64_t decompositions) {
    enum { USUAL = 3 };
    if (!request->quiet && !request->has_decompositions && decompositions < USUAL)
        complain("%s: coded with N = %" PRIu64 ", as its sides allow no more; N = %d needs multiples of %d", name, decompositions, USUAL, 2 << USUAL);
}

void note_served(const Request *request, const char *name, const Outcome *served) {
    if (request->quiet)
        return;
    if (request->has_most)
        note_distance(request, name, served);
    Outcome without_tail = *served;
    without_tail.tail = 0;
    Holding kept = holding_of(served->bytes, &without_tail);
    uint64_t plane = request->has_most ? served->plane : request->plane;
    uint64_t asked = (kept.header.planes - plane) * (kept.levels + 1 - request->level), there = count_parts(&kept, is_there);
    if (there < asked)
        complain("%s: lacks %" PRIu64 " of the %" PRIu64 " parts asked for", name, asked - there, asked);
    if (served->tail > 0)
        complain("%s: tail %" PRIu64 " not served", name, served->tail);
}
