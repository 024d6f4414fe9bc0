#include "files.h"

#include "messages.h"

#include <errno.h>
#include <fcntl.h>
#include <stdio.h>
#include <stdlib.h>
#include <string.h>
#include <unistd.h>

/* Far more than any record or pyramid has; an endless input must not take all memory. */
static const size_t longest_input = (size_t)1 << 28;

void *memory_for(size_t count, size_t size) {
    void *memory = calloc(count > 0 ? count : 1, size);
    if (memory == NULL)
        fail("out of memory");
    return memory;
}

bool is_named(const char *path) {
    return path != NULL && strcmp(path, "-") != 0;
}

const char *name_of_input(const char *path) {
    return is_named(path) ? path : "standard input";
}

static const char *read_stream(FILE *in, Bytes *bytes) {
    size_t room = 0;
    do {
        if (bytes->length == room) {
            room = 2 * room + 65536;
            uint8_t *more = realloc(bytes->at, room);
            if (more == NULL)
                fail("out of memory");
            bytes->at = more;
        }
        bytes->length += fread(bytes->at + bytes->length, 1, room - bytes->length, in);
        if (ferror(in))
            return strerror(errno);
        if (bytes->length > longest_input)
            return "longer than any record or pyramid";
    } while (!feof(in));
    return NULL;
}

const char *read_input(const char *path, bool even_a_terminal, Bytes *bytes) {
    FILE *in = is_named(path) ? fopen(path, "rb") : stdin;
    if (in == NULL)
        return strerror(errno);
    *bytes = (Bytes){NULL, 0};
    const char *why = "is a terminal: name a file, or send one by '<' or a pipe";
    if (even_a_terminal || !isatty(fileno(in)))
        why = read_stream(in, bytes);
    if (is_named(path))
        fclose(in);
    if (why != NULL)
        free(bytes->at);
    return why;
}

void keep_standard_streams(void) {
    /* Opened the wrong way round, so that using it fails as on a closed one. */
    static const int modes[] = {[STDIN_FILENO] = O_WRONLY, [STDOUT_FILENO] = O_RDONLY, [STDERR_FILENO] = O_RDONLY};
    for (int i = STDIN_FILENO; i <= STDERR_FILENO; i++)
        if (fcntl(i, F_GETFD) == -1 && open("/dev/null", modes[i]) != i)
            exit(STATUS_FAILED);
}
