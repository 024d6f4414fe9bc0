/* What was asked for on the command line. */
#ifndef AFS_OPTIONS_H
#define AFS_OPTIONS_H

#include "choices.h"
#include "kinds.h"
#include "scales.h"

#include <stdbool.h>
#include <stddef.h>
#include <stdint.h>

enum { MOST_JOBS = 256 };

typedef struct {
    Command command;
    bool is_picture;                        /* code: a grey file and no pyramid */
    uint64_t width, height, decompositions; /* of code; for a picture only the last: */
    bool has_decompositions;                /* with -n */
    uint64_t level, plane;
    bool asks;            /* -r or -p was given */
    bool has_level;       /* -r was given: a certificate draws this level */
    bool has_expectation; /* decode: it is known what was to be expected */
    bool grey;            /* decode: a picture is to be written */
    uint64_t halvings;    /* so many times halved */
    bool has_most;        /* serve, certificate: as much as keeps every pixel */
    uint64_t most;        /* within so many grey values */
    bool force, quiet, whole, check, json;
    const char *seals;  /* verify, certificate: their file, or NULL */
    const char *of;     /* of these: the name of the sealed record, NULL if it is to be found */
    const char *title, *note, *device; /* certificate: NULL if not given */
    const Scale *scale;
    Kind kind;          /* of what is written */
    const char *out;    /* NULL without -o */
    const char *to;     /* a folder for what each file gives, or NULL */
    uint64_t jobs;      /* processes that work on them at once */
    char *const *files; /* at least one, to be joined two; "-" is standard input */
    size_t count;
} Request;

/* A command line that can't be read ends the program, and so does one that asks for help. */
Request request_from(char **argv);

#endif
