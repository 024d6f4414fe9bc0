/* Bytes, and where they come from. */
#ifndef AFS_FILES_H
#define AFS_FILES_H

#include <stdbool.h>
#include <stddef.h>
#include <stdint.h>

typedef struct {
    uint8_t *at;
    size_t length;
} Bytes;

/* Memory for so many things of a size, never NULL; the caller frees it. */
void *memory_for(size_t count, size_t size);

/* Whether a path isn't NULL or "-", which mean standard input or output. */
bool is_named(const char *path);

/* What an input is called in messages. */
const char *name_of_input(const char *path);

/* All of a file or of standard input. NULL, and the caller frees the bytes; or why it can't be read. */
const char *read_input(const char *path, bool even_a_terminal, Bytes *bytes);

/* Makes sure that no file that is opened takes the place of a standard stream that was closed, and so is printed to. */
void keep_standard_streams(void);

#endif
