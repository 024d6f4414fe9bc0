#include "output.h"

#include "messages.h"
#include "temporary.h"

#include <errno.h>
#include <fcntl.h>
#include <limits.h>
#include <stdlib.h>
#include <string.h>
#include <unistd.h>

enum { MOST_LINKS = 40 };

static _Noreturn void fail_output(const Output *output, int error) {
    if (error == EEXIST)
        fail("%s: is there already; -f replaces it", output->name);
    fail("%s: %s", output->name, strerror(error));
}

/* The descriptor that a path stands for, or -1. To open the path would begin the file behind it anew. */
static int descriptor_named(const char *path) {
    static const char *const folders[] = {"/dev/fd/", "/proc/self/fd/"};
    if (strcmp(path, "/dev/stdout") == 0)
        return STDOUT_FILENO;
    if (strcmp(path, "/dev/stderr") == 0)
        return STDERR_FILENO;
    for (size_t i = 0; i < sizeof folders / sizeof *folders; i++) {
        size_t length = strlen(folders[i]);
        if (strncmp(path, folders[i], length) == 0 && path[length] >= '0' && path[length] <= '9')
            return atoi(path + length);
    }
    return -1;
}

static char *copy_of(const char *from, size_t length, const char *and_then) {
    char *copy = memory_for(length + strlen(and_then) + 1, 1);
    memcpy(copy, from, length);
    strcpy(copy + length, and_then);
    return copy;
}

/* One link further, or NULL where the path is no link. */
static char *behind_link(const char *path) {
    char link[PATH_MAX];
    ssize_t length = readlink(path, link, sizeof link - 1);
    if (length == -1)
        return NULL;
    link[length] = '\0';
    const char *slash = link[0] == '/' ? NULL : strrchr(path, '/');
    return copy_of(path, slash == NULL ? 0 : (size_t)(slash - path) + 1, link);
}

/* Where the file stands that a path leads to, or is to stand. */
static void follow_links(Output *output, const char *path) {
    output->target = copy_of("", 0, path);
    for (int i = 0; i < MOST_LINKS; i++) {
        output->descriptor = descriptor_named(output->target);
        char *further = output->descriptor != -1 ? NULL : behind_link(output->target);
        if (further == NULL)
            return;
        free(output->target);
        output->target = further;
    }
    fail_output(output, ELOOP);
}

static void judge_target(Output *output) {
    output->is_there = stat(output->target, &output->replaced) == 0;
    if (!output->is_there && errno != ENOENT)
        fail_output(output, errno);
    if (!output->is_there)
        return;
    if (S_ISDIR(output->replaced.st_mode))
        fail_output(output, EISDIR);
    if (!S_ISREG(output->replaced.st_mode)) {
        output->way = TO_DEVICE;
        return;
    }
    if (!output->force)
        fail_output(output, EEXIST);
}

static void refuse_terminal(const Output *output, int descriptor) {
    if (!output->is_text && !output->force && isatty(descriptor))
        fail("%s: is a terminal, and this is no text: name a file with -o, or send it on by '>' or a pipe", output->name);
}

Output output_to(const char *path, bool is_text, bool force) {
    Output output = {.name = is_named(path) ? path : "standard output", .is_text = is_text, .force = force, .descriptor = STDOUT_FILENO};
    if (is_named(path))
        follow_links(&output, path);
    output.way = output.descriptor != -1 ? TO_DESCRIPTOR : TO_FILE;
    if (output.way == TO_DESCRIPTOR)
        refuse_terminal(&output, output.descriptor);
    else
        judge_target(&output);
    return output;
}

static int open_way(const Output *output) {
    switch (output->way) {
    case TO_DESCRIPTOR:
        return dup(output->descriptor);
    case TO_DEVICE:
        return open(output->target, O_WRONLY | O_NOCTTY);
    default:
        return begin_temporary(output->target, output->is_there ? &output->replaced : NULL);
    }
}

static void open_output(Output *output) {
    int file = open_way(output);
    if (file == -1 && output->way == TO_FILE && output->is_there)
        fail("%s: no file can be made beside it: %s", output->name, strerror(errno));
    if (file == -1)
        fail_output(output, errno);
    refuse_terminal(output, file);
    output->stream = fdopen(file, "wb");
    if (output->stream == NULL)
        fail_output(output, errno == EINVAL ? EBADF : errno); /* it is there, but not to be written to */
}

void put_out(Output *output, const void *from, size_t length) {
    if (output->stream == NULL)
        open_output(output);
    if (fwrite(from, 1, length, output->stream) != length)
        fail_output(output, errno);
}

void show_output(Output *output) {
    if (output->stream != NULL && output->way != TO_FILE && fflush(output->stream) != 0)
        fail_output(output, errno);
}

/* Some disks can't be waited for. */
static bool is_on_disk(FILE *stream) {
    return fflush(stream) == 0 && (fsync(fileno(stream)) == 0 || errno == EINVAL || errno == ENOTSUP);
}

void finish_output(Output *output) {
    if (output->stream != NULL) {
        if (output->way == TO_FILE && !is_on_disk(output->stream))
            fail_output(output, errno);
        if (fclose(output->stream) != 0)
            fail_output(output, errno);
        int error = output->way == TO_FILE ? place_temporary(output->target, output->is_there || output->force) : 0;
        if (error != 0)
            fail_output(output, error);
    }
    free(output->target);
}
