#include "sheet.h"

#include <inttypes.h>

/* A level that isn't drawn at this size has no used parts. */
static bool is_drawn(const Sheet *sheet, uint32_t level) {
    return level > sheet->halvings;
}

/* Whether a part of a file that isn't as it was sealed is another than the sealed one. */
static bool is_other(const Sheet *sheet, uint32_t plane, uint32_t level) {
    const Comparison *comparison = sheet->held == NULL ? NULL : &sheet->held->verdict->comparison;
    if (comparison == NULL || comparison->seal == NULL)
        return false;
    const SealedPart *found = part_of(&comparison->reading->found, plane, level);
    return found != NULL && standing_in_seal(comparison, found) != AS_SEALED;
}

static const char *cell_of(const Sheet *sheet, uint32_t plane, uint32_t level) {
    if (!is_there(&sheet->holding, plane, level))
        return was_asked_for(&sheet->asked, plane, level) ? "<td class=\"missing\">&ndash;</td>" : "<td class=\"left\">&middot;</td>";
    if (is_other(sheet, plane, level))
        return "<td class=\"changed\">&#10005;</td>";
    if (is_drawn(sheet, level) && is_used(&sheet->holding, plane, level))
        return "<td class=\"used\">&#9679;</td>";
    return "<td class=\"there\">&#9675;</td>";
}

static void write_cells(FILE *out, const Sheet *sheet) {
    uint32_t planes = sheet->holding.header.planes;
    fputs("<table class=\"grid\">\n<tr><th class=\"level\" scope=\"col\">Plane</th>", out);
    for (uint32_t plane = planes; plane-- > 0;)
        fprintf(out, "<th scope=\"col\">%" PRIu32 "</th>", plane);
    fputs("</tr>\n", out);
    for (uint32_t level = sheet->holding.levels; level > 0; level--) {
        fprintf(out, "<tr><th class=\"level\" scope=\"row\">Level %" PRIu32 "</th>", level);
        for (uint32_t plane = planes; plane-- > 0;)
            fputs(cell_of(sheet, plane, level), out);
        fputs("</tr>\n", out);
    }
    fputs("</table>\n", out);
}

static void write_distance(FILE *out, const Sheet *sheet, uint32_t level) {
    uint64_t plane = sheet->holding.reached[level - 1];
    fprintf(out, "<tr><th class=\"level\" scope=\"row\">Level %" PRIu32 "</th>", level);
    if (plane < sheet->holding.header.planes)
        fprintf(out, "<td>%" PRIu64 "</td>", plane);
    else
        fputs("<td>none</td>", out);
    if (plane == 0)
        fputs("<td>the recorded one</td>", out);
    else
        fprintf(out, "<td>less than %" PRIu64 " off</td>", UINT64_C(1) << plane);
    if (is_drawn(sheet, level))
        fprintf(out, "<td>%" PRIu64 "</td></tr>\n", added_by(&sheet->holding, level));
    else
        fputs("<td>not drawn</td></tr>\n", out);
}

static void write_distances(FILE *out, const Sheet *sheet) {
    enum { FARTHEST = 255 };
    uint64_t farthest = farthest_pixel(&sheet->holding, sheet->halvings);
    fputs("<table class=\"distances\">\n<tr><th class=\"level\" scope=\"col\"></th><th scope=\"col\">Reached</th><th scope=\"col\">A coefficient is</th>"
          "<th scope=\"col\">A pixel: up to</th></tr>\n",
          out);
    for (uint32_t level = sheet->holding.levels; level > 0; level--)
        write_distance(out, sheet, level);
    fprintf(out, "<tr class=\"sum\"><th class=\"level\" scope=\"row\">Together</th><td colspan=\"3\">%s%" PRIu64 "</td></tr>\n</table>\n",
            farthest == FARTHEST ? "as far as can be: " : "", farthest);
}

static bool is_in_use(const Sheet *sheet, uint32_t plane, uint32_t level) {
    return is_drawn(sheet, level) && is_used(&sheet->holding, plane, level);
}

static uint32_t count_in_use(const Sheet *sheet) {
    uint32_t count = 0;
    for (uint32_t level = 1; level <= sheet->holding.levels; level++)
        for (uint32_t plane = 0; plane < sheet->holding.header.planes; plane++)
            count += is_in_use(sheet, plane, level);
    return count;
}

static uint32_t count_other(const Sheet *sheet) {
    uint32_t count = 0;
    for (uint32_t level = 1; level <= sheet->holding.levels; level++)
        for (uint32_t plane = 0; plane < sheet->holding.header.planes; plane++)
            count += is_there(&sheet->holding, plane, level) && is_other(sheet, plane, level);
    return count;
}

static void write_count(FILE *out, const char *id, uint32_t count, const char *what) {
    fprintf(out, ", <span id=\"%s\">%" PRIu32 "</span> %s", id, count, what);
}

static void write_counts(FILE *out, const Sheet *sheet) {
    const Holding *holding = &sheet->holding;
    uint32_t left_out = count_left_out(&sheet->asked, holding), other = count_other(sheet);
    fprintf(out, "<h2>Parts of the record: <span id=\"there\">%" PRIu32 "</span> of %" PRIu32 " there", count_parts(holding, is_there),
            parts_of_whole(holding));
    write_count(out, "used", count_in_use(sheet), "used");
    if (other > 0)
        write_count(out, "other", other, "not as sealed");
    if (left_out > 0)
        write_count(out, "unasked", left_out, "left out by request");
    write_count(out, "missing", count_lacking(&sheet->asked, holding), "missing");
    fputs("</h2>\n", out);
}

static void write_key(FILE *out, const Sheet *sheet) {
    fputs("<p class=\"key\"><b><span class=\"used\">&#9679;</span>there and used</b> <b><span class=\"there\">&#9675;</span>there, not used: ", out);
    fputs(sheet->halvings > 0 ? "not drawn, or " : "", out);
    fputs("a part that it builds on is missing</b>", out);
    if (count_other(sheet) > 0)
        fputs(" <b><span class=\"changed\">&#10005;</span>there, not as sealed</b>", out);
    if (count_left_out(&sheet->asked, &sheet->holding) > 0)
        fputs(" <b><span class=\"left\">&middot;</span>left out by request</b>", out);
    fputs(" <b><span class=\"missing\">&ndash;</span>missing</b></p>\n", out);
}

void write_grid(FILE *out, const Sheet *sheet) {
    fputs("<section class=\"parts\">\n", out);
    write_counts(out, sheet);
    write_cells(out, sheet);
    if (makes_claims(sheet))
        write_distances(out, sheet);
    write_key(out, sheet);
    fputs("</section>\n", out);
}
