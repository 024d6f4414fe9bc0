/* Characters in UTF-8. */
#ifndef AFS_UTF8_H
#define AFS_UTF8_H

#include <stddef.h>

/* How many bytes the character at the front of a text has, or 0 if it isn't one in UTF-8. */
size_t length_of_character(const unsigned char *text);

#endif
