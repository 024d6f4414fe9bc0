#include "matching.h"

#include "paths.h"

#include <stdlib.h>
#include <string.h>

/* Parts with fewer bits may well be the same in any two records. */
enum { BITS_OF_NO_CHANCE = 64 };

typedef struct KnownPart {
    const SealedPart *part;
    const Seal *seal;
} KnownPart;

typedef struct NamedSeal {
    const Seal *seal;
    char *path; /* its name, plain */
} NamedSeal;

/* Those of one path in the order of their names. */
static int compare_names(const void *one, const void *other) {
    const NamedSeal *of_one = one, *of_other = other;
    int order = compare_from_end(of_one->path, of_other->path);
    return order != 0 ? order : of_one->seal < of_other->seal ? -1 : of_one->seal > of_other->seal;
}

static int compare_digests(const void *one, const void *other) {
    return memcmp(&((const KnownPart *)one)->part->digest, &((const KnownPart *)other)->part->digest, sizeof(Digest));
}

/* Those that are just alike in the order of their records' names. */
static int compare_known(const void *one, const void *other) {
    const Seal *of_one = ((const KnownPart *)one)->seal, *of_other = ((const KnownPart *)other)->seal;
    int order = compare_digests(one, other);
    return order != 0 ? order : of_one < of_other ? -1 : of_one > of_other;
}

Matcher matcher_of(const Seals *seals) {
    Matcher matcher = {.seals = seals, .by_name = memory_for(seals->count, sizeof *matcher.by_name), .count = seals->count};
    for (size_t i = 0; i < matcher.count; i++)
        matcher.by_name[i] = (NamedSeal){&seals->of[i], plain_path(seals->of[i].name)};
    qsort(matcher.by_name, matcher.count, sizeof *matcher.by_name, compare_names);
    return matcher;
}

void free_matcher(Matcher *matcher) {
    for (size_t i = 0; i < matcher->count; i++)
        free(matcher->by_name[i].path);
    free(matcher->by_name);
    free(matcher->by_digest);
}

static size_t first_not_before(const Matcher *matcher, const char *path) {
    size_t from = 0, to = matcher->count;
    while (from < to) {
        size_t middle = from + (to - from) / 2;
        if (compare_from_end(matcher->by_name[middle].path, path) < 0)
            from = middle + 1;
        else
            to = middle;
    }
    return from;
}

/* In their order those that agree longest stand together, beside the place that the path would have; the shortest first. */
Namesakes namesakes_of(const Matcher *matcher, const char *path) {
    const NamedSeal *names = matcher->by_name;
    size_t from = first_not_before(matcher, path), to = from, end = matcher->count;
    size_t before = from > 0 ? same_at_end(names[from - 1].path, path) : 0, behind = to < end ? same_at_end(names[to].path, path) : 0;
    size_t most = before > behind ? before : behind;
    if (most == 0)
        return (Namesakes){NULL, 0};
    while (from > 0 && same_at_end(names[from - 1].path, path) == most)
        from--;
    while (to < end && same_at_end(names[to].path, path) == most)
        to++;
    bool is_told = to - from == 1 || count_components(names[from].path) == most;
    return (Namesakes){is_told ? names[from].seal : NULL, is_told ? 1 : to - from};
}

bool has_same(const Seal *seal, const SealedPart *part) {
    const SealedPart *sealed = part_of(seal, part->part.plane, part->part.level);
    return sealed != NULL && sealed->part.bits == part->part.bits && is_same_digest(&sealed->digest, &part->digest);
}

static void know_parts(Matcher *matcher) {
    for (size_t i = 0; i < matcher->seals->count; i++)
        matcher->parts += matcher->seals->of[i].count;
    KnownPart *next = matcher->by_digest = memory_for(matcher->parts, sizeof *next);
    for (size_t i = 0; i < matcher->seals->count; i++)
        for (size_t j = 0; j < matcher->seals->of[i].count; j++)
            *next++ = (KnownPart){&matcher->seals->of[i].parts[j], &matcher->seals->of[i]};
    qsort(matcher->by_digest, matcher->parts, sizeof *matcher->by_digest, compare_known);
}

/* The first of all parts that are just like this one, and how many they are. */
static const KnownPart *known_like(Matcher *matcher, const SealedPart *part, size_t *count) {
    if (matcher->by_digest == NULL)
        know_parts(matcher);
    const KnownPart key = {part, NULL}, *end = matcher->by_digest + matcher->parts;
    const KnownPart *found = bsearch(&key, matcher->by_digest, matcher->parts, sizeof key, compare_digests);
    *count = 0;
    if (found == NULL)
        return NULL;
    while (found > matcher->by_digest && compare_digests(found - 1, &key) == 0)
        found--;
    while (found + *count < end && compare_digests(found + *count, &key) == 0)
        ++*count;
    return found;
}

static size_t count_same(const Seal *seal, const Seal *found) {
    size_t count = 0;
    for (size_t i = 0; i < found->count; i++)
        count += has_same(seal, &found->parts[i]);
    return count;
}

static const SealedPart *longest_under(const Seal *found, const SealedPart *over) {
    const SealedPart *longest = NULL;
    for (const SealedPart *part = found->parts; part < found->parts + found->count; part++)
        if ((over == NULL || part->part.bits < over->part.bits || (part->part.bits == over->part.bits && part > over)) &&
            (longest == NULL || part->part.bits > longest->part.bits))
            longest = part;
    return longest;
}

static const Seal *seal_with_header(const Seals *seals, Header header) {
    for (size_t i = 0; i < seals->count; i++)
        if (memcmp(&seals->of[i].header, &header, sizeof header) == 0)
            return &seals->of[i];
    return NULL;
}

const Seal *seal_like(Matcher *matcher, const Seal *found) {
    for (const SealedPart *part = longest_under(found, NULL); part != NULL; part = longest_under(found, part)) {
        size_t count, most = 0;
        const KnownPart *known = known_like(matcher, part, &count);
        const Seal *best = NULL;
        for (size_t i = 0; i < count; i++) {
            size_t same = count_same(known[i].seal, found);
            best = same > most ? known[i].seal : best;
            most = same > most ? same : most;
        }
        if (best != NULL)
            return best;
    }
    return found->count == 0 ? seal_with_header(matcher->seals, found->header) : NULL;
}

const Seal *other_with(Matcher *matcher, const Seal *seal, const SealedPart *part) {
    size_t count;
    const KnownPart *known = known_like(matcher, part, &count);
    for (size_t i = 0; i < count; i++)
        if (known[i].seal != seal && part->part.bits >= BITS_OF_NO_CHANCE)
            return known[i].seal;
    return NULL;
}
