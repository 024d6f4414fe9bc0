/* The commands and options that there are. */
#ifndef AFS_CHOICES_H
#define AFS_CHOICES_H

#include "sentence.h"

typedef enum { CODE, SERVE, JOIN, DECODE, PARTS, EXPLAIN, SEAL, VERIFY, CERTIFICATE, COMMANDS } Command;

enum { EVERY = (1 << COMMANDS) - 1 };

typedef enum {
    DECOMPOSITIONS,
    LEVEL,
    PLANE,
    GREY,
    HALVE,
    MOST,
    WHOLE,
    CHECK,
    JSON,
    SEALS,
    OF,
    TITLE,
    NOTE,
    DEVICE,
    SCALE,
    AS,
    OUTPUT,
    TO,
    JOBS,
    FORCE,
    QUIET,
    HELP,
    VERSION_OPTION,
    VERBOSE,
    OPTIONS
} Option;

typedef struct {
    char letter; /* or 0 */
    const char *word;
    const char *argument; /* what is to follow, or NULL */
    unsigned commands;    /* bits of those that it is for */
} Choice;

extern const char *const commands[COMMANDS];
extern const Choice options[OPTIONS];

/* The commands of these bits in words: 'code, serve and join'. */
Sentence commands_in_words(unsigned bits);

#endif
