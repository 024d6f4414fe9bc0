/* Kinds of files, and what they are called. */
#ifndef AFS_KINDS_H
#define AFS_KINDS_H

#include "choices.h"

#include <stdbool.h>
#include <stddef.h>

typedef enum { AS_RECORD, AS_PYRAMID, AS_PGM, AS_PNG, AS_HTML, AS_PDF, AS_TEXT, AS_OTHER, KINDS } Kind;

/* By the end of its name, whatever its case; KINDS where that stands for nothing. */
Kind kind_named(const char *path);

/* What a file of this kind is called: '.record'. */
Sentence suffix_of(Kind kind);

/* Whether a command may write it. */
bool is_written_by(Command command, Kind kind);

/* What it writes, in words. */
const char *written_by(Command command);

/* The one that is asked for by a word, as 'pgm'; KINDS where the command writes none of that name. */
Kind kind_asked(Command command, const char *word);

/* The words that ask for one, of a command that writes several. */
const char *words_for_kinds(Command command);

/* How long a path is without the suffix that stands for what a command reads. */
size_t length_without_suffix(Command command, const char *path);

#endif
