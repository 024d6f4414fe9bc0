/* What stands in a page: texts, numbers and pictures. */
#ifndef AFS_HTML_H
#define AFS_HTML_H

#include "digest.h"
#include "files.h"

#include <stdio.h>

/* A text from outside, whatever bytes it has: none of them is taken for markup, and those that are no text become U+FFFD. */
void print_escaped(FILE *out, const char *text);

/* The same, in as many lines as it has. */
void print_escaped_lines(FILE *out, const char *text);

/* With a comma before each three digits. */
void print_grouped(FILE *out, uint64_t number);

/* In two lines, as eight groups that can be compared by eye. */
void print_grouped_digest(FILE *out, const Digest *digest);

/* A PNG file inside of the page. */
void print_data_uri(FILE *out, Bytes png);

#endif
