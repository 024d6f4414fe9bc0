/* The command line, word by word. */
#ifndef AFS_WORDS_H
#define AFS_WORDS_H

#include "choices.h"

#include <stdbool.h>
#include <stddef.h>

/* The words that are no options, to the front of the command line, and which options there were. */
typedef struct {
    char **operands;
    size_t count, before_dashes; /* how many of them stand before -- */
    bool given[OPTIONS], as_word[OPTIONS];
    const char *arguments[OPTIONS]; /* the last one counts */
} Words;

/* A word that is no option though it looks like one ends the program. */
Words words_of(char **argv);

/* An option as it was typed, for messages: -r or --level. */
Sentence as_typed(const Words *words, Option option);

#endif
