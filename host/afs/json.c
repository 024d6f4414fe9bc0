#include "json.h"

#include "digest.h"
#include "nearness.h"
#include "seals.h"
#include "utf8.h"

#include <inttypes.h>

/* A byte that is no UTF-8 becomes \udcXX, from which Python's os.fsencode() makes it again. */
static void tell_string(FILE *out, const char *string) {
    fputc('"', out);
    for (const unsigned char *at = (const unsigned char *)string; *at != '\0';) {
        size_t length = length_of_character(at);
        if (length == 0)
            fprintf(out, "\\udc%02x", *at);
        else if (*at == '"' || *at == '\\')
            fprintf(out, "\\%c", *at);
        else if (*at < 0x20 || *at == 0x7F)
            fprintf(out, "\\u%04x", *at);
        else
            fwrite(at, 1, length, out);
        at += length == 0 ? 1 : length;
    }
    fputc('"', out);
}

static void tell_outcome(FILE *out, const char *name, size_t length, const Outcome *outcome, const char *why) {
    fputs("{\"file\": ", out);
    tell_string(out, name);
    fprintf(out, ", \"length\": %zu, \"number\": %" PRIu64 ", \"name\": \"%s\", \"place\": %" PRIu64 ", \"why\": ", length, outcome->number,
            name_of(outcome->number), outcome->place);
    if (why == NULL)
        fputs("null", out);
    else
        tell_string(out, why);
}

static void tell_sizes(FILE *out, Header header) {
    fprintf(out, ", \"width\": %" PRIu32 ", \"height\": %" PRIu32 ", \"decompositions\": %" PRIu32 ", \"planes\": %" PRIu32, header.width, header.height,
            header.decompositions, header.planes);
}

/* A number for each level, level 1 first. */
static void tell_levels(FILE *out, const char *what, const Holding *holding, const uint64_t *numbers) {
    fprintf(out, ", \"%s\": [", what);
    for (uint32_t level = 1; level <= holding->levels; level++)
        fprintf(out, "%s%" PRIu64, level > 1 ? ", " : "", numbers[level - 1]);
    fputc(']', out);
}

/* For the picture itself, and for each halving of it. */
static void tell_farthest_pixels(FILE *out, const Holding *holding) {
    fputs(", \"farthest_pixels\": [", out);
    for (uint32_t halvings = 0; halvings < holding->header.decompositions; halvings++)
        fprintf(out, "%s%" PRIu64, halvings > 0 ? ", " : "", farthest_pixel(holding, halvings));
    fputc(']', out);
}

/* Known where a picture is printed of all of the record. */
static void tell_pixels_outside(FILE *out, const Request *request, Bytes record, const Holding *holding, const Outcome *outcome) {
    bool is_printed = request->command == EXPLAIN || request->grey;
    if (is_printed && farthest_pixel(holding, 0) == 0)
        fprintf(out, ", \"pixels_outside\": %" PRIu64, pixels_outside(record, holding, outcome, request->halvings));
    else
        fputs(", \"pixels_outside\": null", out);
}

static void tell_digest(FILE *out, const char *what, Digest digest) {
    fprintf(out, ", \"%s\": \"", what);
    print_digest(out, &digest);
    fputc('"', out);
}

static void tell_place(FILE *out, const char *before, Part part) {
    fprintf(out, "%s{\"plane\": %" PRIu32 ", \"level\": %" PRIu32, before, part.plane, part.level);
}

/* Where each lies in the file, head and body; and its digest where they are sealed. */
static void tell_parts(FILE *out, Bytes record, const Outcome *outcome, bool are_sealed) {
    const uint8_t *at = record.at, *end = end_of_parts(record, outcome);
    const char *before = "";
    fputs(", \"parts\": [", out);
    for (read_header(&at); at < end; before = ", ") {
        const uint8_t *begin = at;
        Part part = read_part(&at);
        tell_place(out, before, part);
        fprintf(out, ", \"bits\": %" PRIu32 ", \"offset\": %td, \"length\": %td", part.bits, begin - record.at, at - begin);
        if (are_sealed)
            tell_digest(out, "sha256", digest_of(begin, (size_t)(at - begin)));
        fputc('}', out);
    }
    fputc(']', out);
}

/* In the order of a record: planes downward, and levels downward in a plane. */
static void tell_missing(FILE *out, const Holding *holding) {
    const char *before = "";
    fputs(", \"missing\": [", out);
    for (uint32_t plane = holding->header.planes; plane-- > 0;)
        for (uint32_t level = holding->levels; level > 0; level--) {
            if (is_there(holding, plane, level))
                continue;
            tell_place(out, before, (Part){plane, level, 0});
            fputc('}', out);
            before = ", ";
        }
    fputc(']', out);
}

/* None where there is a tail, which can't be sealed. */
static void tell_seal(FILE *out, Bytes record, const Outcome *served) {
    if (served->tail > 0) {
        fputs(", \"seal\": null", out);
        return;
    }
    Seal seal = seal_of("", record);
    tell_digest(out, "seal", digest_of_seal(&seal));
    free_seal(&seal);
}

void tell_accepted(FILE *out, const Request *request, const char *name, Bytes record, const Outcome *outcome) {
    Holding holding = holding_of(record, outcome);
    bool is_decoded = request->command != PARTS && request->command != SEAL;
    tell_outcome(out, name, record.length, outcome, NULL);
    tell_sizes(out, holding.header);
    if (is_decoded) {
        tell_levels(out, "reached", &holding, holding.reached);
        tell_levels(out, "skipped", &holding, holding.skipped);
        tell_farthest_pixels(out, &holding);
        tell_pixels_outside(out, request, record, &holding, outcome);
    } else {
        fputs(", \"reached\": null, \"skipped\": null, \"farthest_pixels\": null, \"pixels_outside\": null", out);
    }
    tell_parts(out, record, outcome, request->command == SEAL);
    tell_missing(out, &holding);
    fprintf(out, ", \"tail\": %" PRIu64 ", \"lacks\": %s", outcome->tail, lacks(request, &holding) ? "true" : "false");
    if (request->command == SEAL)
        tell_seal(out, record, outcome);
    fputs("}\n", out);
}

static const char no_sizes[] = ", \"width\": null, \"height\": null, \"decompositions\": null, \"planes\": null";

static void tell_nothing_known(FILE *out, const Request *request) {
    fputs(no_sizes, out);
    if (request->command == VERIFY)
        fputs(", \"wanted\": null, \"of\": null, \"verdict\": null, \"changed\": null, \"missing\": null, \"tail\": null}\n", out);
    else
        fprintf(out,
                ", \"reached\": null, \"skipped\": null, \"farthest_pixels\": null, \"pixels_outside\": null, \"parts\": null, \"missing\": null, "
                "\"tail\": null, \"lacks\": null%s}\n",
                request->command == SEAL ? ", \"seal\": null" : "");
}

void tell_refused(FILE *out, const Request *request, const char *name, Bytes record, const Outcome *outcome, const char *why) {
    tell_outcome(out, name, record.length, outcome, why);
    tell_nothing_known(out, request);
}

void tell_unread(FILE *out, const Request *request, const char *name, const char *why) {
    fputs("{\"file\": ", out);
    tell_string(out, name);
    fputs(", \"length\": null, \"number\": null, \"name\": null, \"place\": null, \"why\": ", out);
    tell_string(out, why);
    tell_nothing_known(out, request);
}

static void tell_name(FILE *out, const char *what, const Seal *seal) {
    fprintf(out, ", \"%s\": ", what);
    if (seal == NULL)
        fputs("null", out);
    else
        tell_string(out, seal->name);
}

/* Parts that aren't the sealed record's, and where they belong, if that is known. */
static void tell_changed_parts(FILE *out, Matcher *matcher, const Comparison *comparison) {
    const Seal *found = &comparison->reading->found;
    const char *before = "";
    fputs(", \"changed\": [", out);
    for (size_t i = 0; i < found->count; i++) {
        if (standing_in_seal(comparison, &found->parts[i]) == AS_SEALED)
            continue;
        tell_place(out, before, found->parts[i].part);
        tell_name(out, "of", other_with(matcher, comparison->seal, &found->parts[i]));
        fputc('}', out);
        before = ", ";
    }
    fputc(']', out);
}

static void tell_parts_not_there(FILE *out, const Comparison *comparison) {
    const char *before = "";
    fputs(", \"missing\": [", out);
    for (size_t i = 0; i < comparison->seal->count; i++) {
        if (standing_of(comparison, &comparison->seal->parts[i]) != IS_MISSING)
            continue;
        tell_place(out, before, comparison->seal->parts[i].part);
        fputc('}', out);
        before = ", ";
    }
    fputc(']', out);
}

void tell_verified(FILE *out, Matcher *matcher, const Verdict *verdict, const char *why) {
    const Comparison *comparison = &verdict->comparison;
    const Reading *reading = comparison->reading;
    tell_outcome(out, reading->name, reading->file.length, &reading->outcome, why);
    if (reading->has_header)
        tell_sizes(out, reading->found.header);
    else
        fputs(no_sizes, out);
    tell_name(out, "wanted", verdict->wanted);
    tell_name(out, "of", comparison->seal);
    fprintf(out, ", \"verdict\": \"%s\"", verdict_in_a_word(verdict));
    if (comparison->seal == NULL) {
        fputs(", \"changed\": null, \"missing\": null", out);
    } else {
        tell_changed_parts(out, matcher, comparison);
        tell_parts_not_there(out, comparison);
    }
    fprintf(out, ", \"tail\": %zu}\n", reading->file.length - reading->behind);
}
