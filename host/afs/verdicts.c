#include "verdicts.h"

#include "messages.h"
#include "paths.h"

#include <inttypes.h>
#include <stdlib.h>
#include <string.h>

bool is_another(const Verdict *verdict) {
    return verdict->wanted != NULL && verdict->wanted != verdict->comparison.seal;
}

bool is_as_sealed(const Verdict *verdict) {
    return verdict->comparison.seal != NULL && !verdict->comparison.is_changed && verdict->namesakes == 0 && !is_another(verdict);
}

const char *verdict_in_a_word(const Verdict *verdict) {
    if (verdict->comparison.seal == NULL)
        return "unknown";
    if (verdict->comparison.is_changed)
        return "changed";
    if (verdict->namesakes > 0)
        return "ambiguous";
    return is_another(verdict) ? "another" : verdict->comparison.is_whole ? "whole" : "selection";
}

/* By the file's name, unless one is asked for or there is one alone. */
static Namesakes candidates_for(const Matcher *matcher, const char *asked, const Reading *reading) {
    if (matcher->seals->count == 1 && asked == NULL)
        return (Namesakes){&matcher->seals->of[0], 1};
    char *path = asked != NULL ? plain_path(asked) : full_path(reading->name);
    Namesakes namesakes = namesakes_of(matcher, path);
    free(path);
    return namesakes;
}

static Comparison compare_with_like(Matcher *matcher, const Reading *reading) {
    const Seal *like = reading->has_header ? seal_like(matcher, &reading->found) : NULL;
    return like == NULL ? (Comparison){.reading = reading} : compare_with(like, reading);
}

static int status_of(const Verdict *verdict, bool wants_whole) {
    if (!is_as_sealed(verdict))
        return STATUS_CHANGED;
    if (verdict->comparison.has_tail)
        return STATUS_UNCHECKED;
    return wants_whole && !verdict->comparison.is_whole ? STATUS_LACKS : STATUS_DONE;
}

Verdict verdict_on(Matcher *matcher, const Request *request, const Reading *reading) {
    Namesakes candidates = candidates_for(matcher, request->of, reading);
    Verdict verdict = {.wanted = candidates.seal, .namesakes = candidates.count > 1 ? candidates.count : 0};
    if (verdict.wanted == NULL) {
        verdict.comparison = compare_with_like(matcher, reading);
    } else {
        verdict.comparison = compare_with(verdict.wanted, reading);
        Comparison like = verdict.comparison.is_changed ? compare_with_like(matcher, reading) : verdict.comparison;
        if (like.seal != NULL && !like.is_changed)
            verdict.comparison = like;
    }
    verdict.status = status_of(&verdict, request->whole);
    return verdict;
}

/* Lines about a file, with its name before each or without. */
typedef struct {
    FILE *out;
    Matcher *matcher;
    const Verdict *verdict;
    bool with_names;
} Report;

/* The file's name, and the sealed record's where that isn't the same. */
static void begin_line(const Report *report) {
    FILE *out = report->out;
    const Verdict *verdict = report->verdict;
    if (!report->with_names)
        return;
    const char *name = verdict->comparison.reading->name, *of = is_another(verdict) ? verdict->wanted->name : verdict->comparison.seal->name;
    char *path = plain_path(name), *of_seal = plain_path(of);
    fprintf(out, "%s: ", name);
    if (strcmp(path, of_seal) != 0)
        fprintf(out, "of %s: ", of);
    free(path);
    free(of_seal);
}

static void tell_range(FILE *out, const char *word, uint32_t from, uint32_t to) {
    if (from == to)
        fprintf(out, "%s %" PRIu32, word, from);
    else
        fprintf(out, "%ss %" PRIu32 " to %" PRIu32, word, from, to);
}

/* The least range of levels and planes that has all of them, and how many of the sealed parts are in it. */
static void tell_selection(FILE *out, const Comparison *comparison) {
    const Seal *found = &comparison->reading->found, *seal = comparison->seal;
    Part least = {.plane = UINT32_MAX, .level = UINT32_MAX}, most = {.plane = 0, .level = 0};
    size_t inside = 0;
    for (size_t i = 0; i < found->count; i++) {
        Part part = found->parts[i].part;
        least = (Part){part.plane < least.plane ? part.plane : least.plane, part.level < least.level ? part.level : least.level, 0};
        most = (Part){part.plane > most.plane ? part.plane : most.plane, part.level > most.level ? part.level : most.level, 0};
    }
    for (size_t i = 0; i < seal->count; i++) {
        Part part = seal->parts[i].part;
        inside += part.plane >= least.plane && part.plane <= most.plane && part.level >= least.level && part.level <= most.level;
    }
    fputs("a selection: ", out);
    if (found->count < inside)
        fprintf(out, "%zu of the %zu parts of ", found->count, inside);
    if (found->count == 0) {
        fputs("the header alone", out);
        return;
    }
    tell_range(out, "level", least.level, most.level);
    tell_range(out, ", plane", least.plane, most.plane);
}

void tell_unchanged(FILE *out, const Comparison *comparison) {
    if (comparison->is_whole)
        fputs("whole", out);
    else
        tell_selection(out, comparison);
    if (comparison->has_tail)
        fputs("; the tail isn't checked", out);
}

static void tell_header(const Report *report) {
    const Comparison *comparison = &report->verdict->comparison;
    Header is = comparison->reading->found.header, was = comparison->seal->header;
    if (!comparison->reading->has_header || memcmp(&is, &was, sizeof is) == 0)
        return;
    begin_line(report);
    fprintf(report->out, "the header changed: it tells %" PRIu32 " %" PRIu32 " %" PRIu32 " %" PRIu32, is.width, is.height, is.decompositions, is.planes);
    fprintf(report->out, ", and %" PRIu32 " %" PRIu32 " %" PRIu32 " %" PRIu32 " was sealed\n", was.width, was.height, was.decompositions, was.planes);
}

/* What became of a part that is there: it is as it was sealed, or it changed, or it isn't of this record, but maybe of another that is sealed. */
typedef struct {
    enum { UNCHANGED, CHANGED, NOT_OF_THIS } fate;
    const Seal *other;
} Origin;

static Origin origin_of(Matcher *matcher, const Comparison *comparison, const SealedPart *part) {
    Standing standing = standing_in_seal(comparison, part);
    if (standing == AS_SEALED)
        return (Origin){UNCHANGED, NULL};
    const Seal *other = other_with(matcher, comparison->seal, part);
    return (Origin){standing == IS_FOREIGN || other != NULL ? NOT_OF_THIS : CHANGED, other};
}

static bool is_same_origin(Origin one, Origin other) {
    return one.fate == other.fate && one.other == other.other;
}

/* One line for all parts from the first on that have its origin. */
static void tell_origin(const Report *report, const Origin *origins, size_t first) {
    const Seal *found = &report->verdict->comparison.reading->found;
    FILE *out = report->out;
    Text names;
    size_t count = 0;
    begin_text(&names);
    for (size_t i = first; i < found->count; i++)
        if (is_same_origin(origins[i], origins[first]))
            fprintf(names.stream, "%s(%" PRIu32 ", %" PRIu32 ")", count++ == 0 ? " " : ", ", found->parts[i].part.plane, found->parts[i].part.level);
    Bytes listed = end_text(&names);
    begin_line(report);
    fprintf(out, "part%s%.*s ", count == 1 ? "" : "s", (int)listed.length, (const char *)listed.at);
    free(listed.at);
    if (origins[first].fate == CHANGED)
        fputs("changed", out);
    else
        fputs(count == 1 ? "isn't of this record" : "aren't of this record", out);
    fprintf(out, "%s%s\n", origins[first].other != NULL ? ", but of " : "", origins[first].other != NULL ? origins[first].other->name : "");
}

static void tell_other_parts(const Report *report) {
    const Comparison *comparison = &report->verdict->comparison;
    const Seal *found = &comparison->reading->found;
    Origin *origins = memory_for(found->count, sizeof *origins);
    for (size_t i = 0; i < found->count; i++)
        origins[i] = origin_of(report->matcher, comparison, &found->parts[i]);
    for (size_t i = 0; i < found->count; i++) {
        size_t first = 0;
        while (!is_same_origin(origins[first], origins[i]))
            first++;
        if (first == i && origins[i].fate != UNCHANGED)
            tell_origin(report, origins, i);
    }
    free(origins);
}

static void tell_end(const Report *report) {
    const Reading *reading = report->verdict->comparison.reading;
    if (reading->behind == reading->file.length && reading->outcome.number == AFS_ACCEPTED)
        return;
    begin_line(report);
    if (reading->outcome.number != AFS_ACCEPTED)
        fprintf(report->out, "from byte %zu on it can't be read\n", reading->behind);
    else
        fputs("the tail isn't of this record\n", report->out);
}

/* What isn't found anywhere in a file that was changed. */
static void tell_missing(const Report *report) {
    const Seal *seal = report->verdict->comparison.seal;
    const char *before = "missing: part ";
    for (size_t i = 0; i < seal->count; i++) {
        const SealedPart *sealed = &seal->parts[i];
        if (standing_of(&report->verdict->comparison, sealed) != IS_MISSING)
            continue;
        if (before[0] == 'm')
            begin_line(report);
        fprintf(report->out, "%s(%" PRIu32 ", %" PRIu32 ")", before, sealed->part.plane, sealed->part.level);
        before = ", ";
    }
    if (before[0] != 'm')
        fputc('\n', report->out);
}

static void tell_changed(const Report *report) {
    tell_header(report);
    tell_other_parts(report);
    tell_end(report);
    tell_missing(report);
}

void tell_changes(FILE *out, Matcher *matcher, const Verdict *verdict) {
    tell_changed(&(Report){out, matcher, verdict, false});
}

/* Which record it is, where it isn't the one that it is to be, or its name doesn't tell that. */
static void tell_which(const Report *report) {
    FILE *out = report->out;
    const Verdict *verdict = report->verdict;
    if (is_another(verdict))
        begin_line(report);
    else
        fprintf(out, "%s: ", verdict->comparison.reading->name);
    if (!verdict->comparison.is_changed) {
        fprintf(out, "is %s, ", verdict->comparison.seal->name);
        tell_unchanged(out, &verdict->comparison);
        fputs(verdict->namesakes > 0 ? "; " : "", out);
    }
    if (verdict->namesakes > 0)
        fprintf(out, "by its name it may be any of %zu sealed records: --of tells which", verdict->namesakes);
    fputc('\n', out);
}

void tell_verdict(FILE *out, Matcher *matcher, const Verdict *verdict, bool quiet) {
    const Comparison *comparison = &verdict->comparison;
    const Report report = {out, matcher, verdict, true};
    if (quiet && verdict->status == STATUS_DONE)
        return;
    if (comparison->seal == NULL) {
        fprintf(out, "%s: isn't of any sealed record\n", comparison->reading->name);
        return;
    }
    if (is_another(verdict) || verdict->namesakes > 0)
        tell_which(&report);
    if (comparison->is_changed)
        tell_changed(&report);
    else if (is_as_sealed(verdict)) {
        begin_line(&report);
        tell_unchanged(out, comparison);
        fputc('\n', out);
    }
}
