#include "progress.h"

#include <stdio.h>
#include <time.h>
#include <unistd.h>

static const double before_first = 1.0, between = 0.1; /* seconds */

static bool is_shown;

static double seconds_now(void) {
    struct timespec now;
    clock_gettime(CLOCK_MONOTONIC, &now);
    return (double)now.tv_sec + (double)now.tv_nsec / 1e9;
}

void show_progress(size_t done, size_t all, bool prints_nothing) {
    static double due;
    double now = seconds_now();
    if (due == 0)
        due = now + before_first;
    if (now < due || done == all || !isatty(STDERR_FILENO) || (!prints_nothing && isatty(STDOUT_FILENO)))
        return;
    fprintf(stderr, "\rafs: %zu of %zu files", done, all);
    fflush(stderr);
    is_shown = true;
    due = now + between;
}

void share_progress_line(void) {
    is_shown = isatty(STDERR_FILENO);
}

void clear_progress(void) {
    if (is_shown)
        fputs("\r\033[K", stderr);
    is_shown = false;
}
