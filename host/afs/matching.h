/* Which of the sealed records a file is to be. */
#ifndef AFS_MATCHING_H
#define AFS_MATCHING_H

#include "seals.h"

typedef struct {
    const Seals *seals;          /* sorted by name */
    struct NamedSeal *by_name;   /* by their names as paths, the last components first */
    size_t count;                /* of those there were when it was made */
    struct KnownPart *by_digest; /* all their parts, made when first wanted */
    size_t parts;
} Matcher;

Matcher matcher_of(const Seals *seals);
void free_matcher(Matcher *matcher);

/* Which sealed records a path may stand for: those that agree with it in most components, from the last one on. */
typedef struct {
    const Seal *seal; /* the only one, or the one that agrees in all that its name has; else NULL */
    size_t count;     /* how many there are; 1 where one of them is told */
} Namesakes;

Namesakes namesakes_of(const Matcher *matcher, const char *plain_path);

/* The one that has most parts just like these, the longest among them; or NULL. */
const Seal *seal_like(Matcher *matcher, const Seal *found);

/* One other than this that has a part just like it, which is so long that this is no chance; or NULL. */
const Seal *other_with(Matcher *matcher, const Seal *seal, const SealedPart *part);

/* Whether a seal has a part just like this one. */
bool has_same(const Seal *seal, const SealedPart *part);

#endif
