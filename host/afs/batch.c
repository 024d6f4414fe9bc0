#include "batch.h"

#include "crew.h"
#include "files.h"
#include "messages.h"
#include "progress.h"

#include <errno.h>
#include <stdio.h>
#include <stdlib.h>
#include <string.h>
#include <sys/stat.h>

typedef struct {
    const char *file;
    char *target;
} Pair;

static const char *last_name(const char *path) {
    const char *slash = strrchr(path, '/');
    return slash == NULL ? path : slash + 1;
}

/* What is served keeps its whole name. */
static char *target_for(const Request *request, const char *file) {
    const char *name = last_name(file);
    bool is_served = request->command == SERVE;
    int length = (int)(is_served ? strlen(name) : length_without_suffix(request->command, name));
    Sentence suffix = is_served ? say("%s", "") : suffix_of(request->kind);
    size_t room = strlen(request->to) + strlen(name) + sizeof suffix;
    char *target = memory_for(room, 1);
    snprintf(target, room, "%s/%.*s%s", request->to, length, name, suffix.text);
    return target;
}

static bool have_one_target(const Pair *one, const Pair *other) {
    return strcmp(one->target, other->target) == 0;
}

/* Those of one target by their own names. */
static int by_target(const void *one, const void *other) {
    const Pair *first = one, *second = other;
    return have_one_target(first, second) ? strcmp(first->file, second->file) : strcmp(first->target, second->target);
}

static void judge_folder(const char *folder) {
    struct stat there;
    if (stat(folder, &there) != 0)
        fail("%s: %s", folder, strerror(errno));
    if (!S_ISDIR(there.st_mode))
        fail("%s: %s", folder, strerror(ENOTDIR));
}

static void judge_targets(const Pair *pairs, size_t count) {
    Pair *sorted = memory_for(count, sizeof *sorted);
    memcpy(sorted, pairs, count * sizeof *sorted);
    qsort(sorted, count, sizeof *sorted, by_target);
    for (size_t i = 1; i < count; i++)
        if (have_one_target(&sorted[i - 1], &sorted[i]))
            fail("%s and %s would both be written to %s; nothing is written", sorted[i - 1].file, sorted[i].file, sorted[i].target);
    free(sorted);
}

static Pair *pairs_of(const Request *request) {
    Pair *pairs = memory_for(request->count, sizeof *pairs);
    for (size_t i = 0; i < request->count; i++)
        pairs[i] = (Pair){request->files[i], target_for(request, request->files[i])};
    return pairs;
}

/* As if it had been asked for alone. */
static int do_one(const Request *request, size_t i, const char *target, Job *job, void *with) {
    Request one = *request;
    if (!request->quiet)
        share_progress_line();
    one.files = request->files + i;
    one.count = 1;
    one.to = NULL;
    one.out = target;
    return job(&one, with);
}

int run_batch(const Request *request, Job *job, void *with) {
    judge_folder(request->to);
    Pair *pairs = pairs_of(request);
    judge_targets(pairs, request->count);
    Crew crew = crew_of((size_t)request->jobs);
    for (size_t i = 0; i < request->count && !is_crew_ended(); i++) {
        while (!has_place(&crew))
            wait_for_one(&crew);
        if (!request->quiet)
            show_progress(crew.done, request->count, true);
        if (begin_in_crew(&crew, pairs[i].file))
            exit(do_one(request, i, pairs[i].target, job, with));
    }
    int status = end_crew(&crew);
    clear_progress();
    for (size_t i = 0; i < request->count; i++)
        free(pairs[i].target);
    free(pairs);
    return status;
}
