#include "telling.h"

#include "nearness.h"

#include <inttypes.h>

void list_parts(FILE *out, Bytes record, const Outcome *served) {
    const uint8_t *at = record.at, *end = end_of_parts(record, served);
    Header header = read_header(&at);
    fprintf(out, "record %" PRIu32 " %" PRIu32 " %" PRIu32 " %" PRIu32 "\n", header.width, header.height, header.decompositions, header.planes);
    while (at < end) {
        Part part = read_part(&at);
        fprintf(out, "part %" PRIu32 " %" PRIu32 " %" PRIu32 "\n", part.plane, part.level, part.bits);
    }
    fprintf(out, "tail %" PRIu64 "\n", served->tail);
}

static void tell_grid(FILE *out, const Holding *holding) {
    uint32_t planes = holding->header.planes;
    fputs("    plane  ", out);
    for (uint32_t plane = planes; plane-- > 0;)
        fprintf(out, "%3" PRIu32, plane);
    fputc('\n', out);
    for (uint32_t level = holding->levels; level > 0; level--) {
        fprintf(out, "    level %" PRIu32, level);
        for (uint32_t plane = planes; plane-- > 0;)
            fprintf(out, "  %c", is_used(holding, plane, level) ? '#' : is_there(holding, plane, level) ? 'o' : '.');
        fputc('\n', out);
    }
    fputs("    #  there and used   o  there, but not used, as a part that it builds on is missing   .  missing\n", out);
}

static void tell_skipped(FILE *out, const Holding *holding) {
    for (uint32_t level = holding->levels; level > 0; level--) {
        uint64_t count = holding->skipped[level - 1];
        if (count > 0)
            fprintf(out, "level %" PRIu32 ": %" PRIu64 " %s there that can't be used\n", level, count, count == 1 ? "part is" : "parts are");
    }
}

/* Nobody can tell whether it was so. */
static void tell_request(FILE *out, const Holding *holding) {
    Asked served;
    if (is_as_served(holding, &served))
        fprintf(out, "They are as many as 'afs serve -r %" PRIu64 " -p %" PRIu64 "' would keep of a whole record; the others may as well have been lost.\n",
                served.level, served.plane);
}

/* Before any figure, what the figures can't show. */
static void tell_what_shows(FILE *out, Header header) {
    fprintf(out, "A record of a pyramid of %" PRIu32 " x %" PRIu32 " coefficients. Levels: %" PRIu32 " (coarsest) to 1 (finest). Planes: %" PRIu32 ".\n",
            header.width, header.height, coarsest(header), header.planes);
    fputs("Parts that are missing, and an end that is cut off, show below.\n"
          "Bytes that were changed, or lost inside a part, do not: a record has no checksum. Keep a seal:\n"
          "'afs seal FILE >FILE.seals' where a record is made, 'afs verify FILE.seals FILE' where it arrives.\n",
          out);
}

static void tell_parts(FILE *out, const Holding *holding) {
    uint32_t there = count_parts(holding, is_there), used = count_parts(holding, is_used);
    fprintf(out, "\nParts: %" PRIu32 " of %" PRIu32 " %s there, %" PRIu32 " of them %s used.\n", there, parts_of_whole(holding),
            there == 1 ? "is" : "are", used, used == 1 ? "is" : "are");
    if (holding->header.planes == 0)
        fputs("Without planes there are no parts: every coefficient is 0.\n", out);
    else
        tell_grid(out, holding);
    tell_skipped(out, holding);
    if (!is_whole(holding))
        tell_request(out, holding);
}

static void tell_distance(FILE *out, const Holding *holding, uint32_t level) {
    uint64_t plane = holding->reached[level - 1];
    fprintf(out, "    level %" PRIu32 "  ", level);
    if (plane == 0)
        fputs("reached plane 0: it is the recorded one\n", out);
    else if (plane < holding->header.planes)
        fprintf(out, "reached plane %" PRIu64 ": less than 2^%" PRIu64 " = %" PRIu64 " away\n", plane, plane, UINT64_C(1) << plane);
    else
        fprintf(out, "reached no plane: less than 2^%" PRIu64 " = %" PRIu64 " away, and all are decoded as 0%s\n", plane, UINT64_C(1) << plane,
                is_tail_used(holding) && holding->cut.level == level ? " but those that the tail tells" : "");
}

static void tell_distances(FILE *out, const Holding *holding) {
    fputs("\nHow far a decoded coefficient may be from the recorded one:\n", out);
    for (uint32_t level = holding->levels; level > 0; level--)
        tell_distance(out, holding, level);
    fputs("It is never of greater magnitude, and it has the recorded sign unless it is 0.\n"
          "This is so for a record that our coder wrote, whatever whole parts were left out or lost since, and wherever it\n"
          "was cut off; not where a byte of it was changed, or lost inside a part. A record doesn't show who wrote it.\n",
          out);
}

/* The same in grey values, where anything lacks. */
static void tell_farthest_pixel(FILE *out, const Holding *holding) {
    if (farthest_pixel(holding, 0) == 0)
        return;
    fprintf(out, "\nIf this record was made of a picture, a printed pixel is at most %" PRIu64 " grey values from the recorded one.\n",
            farthest_pixel(holding, 0));
    for (uint32_t level = holding->levels; level > 0; level--)
        fprintf(out, "    level %" PRIu32 "  adds %" PRIu64 "\n", level, added_by(holding, level));
    for (uint32_t halvings = 1; halvings < holding->header.decompositions; halvings++)
        fprintf(out, "%sin the picture halved %" PRIu32 " time%s at most %" PRIu64, halvings == 1 ? "    " : ", ", halvings, halvings == 1 ? "" : "s",
                farthest_pixel(holding, halvings));
    if (holding->header.decompositions > 1)
        fputc('\n', out);
}

/* The bound is 0 there, and says nothing of such a record. */
static void tell_outside(FILE *out, Bytes record, const Holding *holding, const Outcome *printed) {
    uint64_t outside = pixels_outside(record, holding, printed, 0);
    if (outside > 0)
        fprintf(out,
                "\nThis record was changed, or made of no picture: all of it is there, and %" PRIu64 " %s out under 0 or over 255,\n"
                "as of no picture.\n",
                outside, outside == 1 ? "pixel comes" : "pixels come");
}

uint32_t lacking_planes(const Holding *holding, uint32_t level, const Asked *asked) {
    uint32_t lacking = 0;
    for (uint32_t plane = 0; plane < holding->header.planes; plane++)
        if (was_asked_for(asked, plane, level) && !is_there(holding, plane, level))
            lacking |= UINT32_C(1) << plane;
    return lacking;
}

void tell_missing_planes(FILE *out, const Holding *holding, uint32_t level, const Asked *asked) {
    uint32_t lacking = lacking_planes(holding, level, asked);
    const char *before = "";
    for (uint32_t plane = holding->header.planes; plane-- > 0;) {
        if (!(lacking >> plane & 1))
            continue;
        fprintf(out, "%s%" PRIu32, before, plane);
        uint32_t first = plane;
        while (plane > 0 && lacking >> (plane - 1) & 1)
            plane--;
        if (plane < first)
            fprintf(out, " to %" PRIu32, plane);
        before = ", ";
    }
}

static void tell_missing(FILE *out, const Holding *holding) {
    const Asked all = {.level = 1, .plane = 0};
    uint32_t whole = parts_of_whole(holding), missing = whole - count_parts(holding, is_there);
    if (missing == 0)
        fputs("\nMissing: nothing.\n", out);
    else
        fprintf(out, "\nMissing: %" PRIu32 " of %" PRIu32 " parts.\n", missing, whole);
    for (uint32_t level = holding->levels; level > 0; level--)
        if (lacking_planes(holding, level, &all) != 0) {
            fprintf(out, "    level %" PRIu32 "  plane ", level);
            tell_missing_planes(out, holding, level, &all);
            fputc('\n', out);
        }
}

static void tell_cut_used(FILE *out, const Holding *holding) {
    uint32_t plane = holding->cut.plane, level = holding->cut.level;
    fputs("and was used as far as its bits go.\n", out);
    fprintf(out, "So coefficients of level %" PRIu32 " may be nearer than told above: each is rounded at plane %" PRIu32 " or at plane %" PRIu32 ".\n", level,
            plane + 1, plane);
}

static void tell_tail(FILE *out, const Holding *holding) {
    if (holding->tail == 0) {
        fputs("\nTail: none.\n", out);
        return;
    }
    fprintf(out, "\nTail: length %" PRIu64 ". ", holding->tail);
    if (!holding->has_cut) {
        fputs("It is less than the head of a part, and was not used.\n", out);
        return;
    }
    fprintf(out, "It is the beginning of the part of level %" PRIu32 ", plane %" PRIu32 ", ", holding->cut.level, holding->cut.plane);
    if (!is_cut_used(holding))
        fputs("and was not used, as a part that it builds on is missing.\n", out);
    else if (!is_tail_used(holding))
        fputs("and was not used, as none of its bits is there.\n", out);
    else
        tell_cut_used(out, holding);
}

void explain(FILE *out, Bytes record, const Outcome *printed) {
    Holding holding = holding_of(record, printed);
    tell_what_shows(out, holding.header);
    tell_parts(out, &holding);
    tell_distances(out, &holding);
    tell_farthest_pixel(out, &holding);
    tell_outside(out, record, &holding, printed);
    tell_missing(out, &holding);
    tell_tail(out, &holding);
}
