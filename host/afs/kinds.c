#include "kinds.h"

#include <string.h>
#include <strings.h>

/* The first of a kind is the one that is written. */
static const char *const suffixes[KINDS] = {
    [AS_RECORD] = ".record",
    [AS_PYRAMID] = ".pyramid",
    [AS_PGM] = ".pgm .pnm",
    [AS_PNG] = ".png",
    [AS_HTML] = ".html .htm .xhtml",
    [AS_PDF] = ".pdf",
    [AS_TEXT] = ".txt .text .json .jsonl .md .csv .log .seals",
    [AS_OTHER] = ".pbm .ppm .pam .pfm .jpg .jpeg .jp2 .j2k .jxl .tif .tiff .bmp .gif .webp .avif .heic .svg .ico .ps .eps .doc .docx .odt .rtf .xls .xlsx "
                 ".npy .npz .zip .gz .xz .tar",
};

static const struct {
    unsigned kinds;
    const char *in_words, *words;
} writings[COMMANDS] = {
    [CODE] = {1 << AS_RECORD, "records, as NAME.record", NULL},
    [SERVE] = {1 << AS_RECORD, "records, as NAME.record", NULL},
    [JOIN] = {1 << AS_RECORD, "records, as NAME.record", NULL},
    [DECODE] = {1 << AS_PYRAMID | 1 << AS_PGM | 1 << AS_PNG, "pictures, as NAME.pgm or NAME.png, and pyramids, as NAME.pyramid", "pyramid, pgm or png"},
    [PARTS] = {1 << AS_TEXT, "text, as NAME.txt", NULL},
    [EXPLAIN] = {1 << AS_TEXT, "text, as NAME.txt", NULL},
    [SEAL] = {1 << AS_TEXT, "text, as NAME.seals", NULL},
    [VERIFY] = {1 << AS_TEXT, "text, as NAME.txt", NULL},
    [CERTIFICATE] = {1 << AS_HTML | 1 << AS_PDF | 1 << AS_PNG, "sheets, as NAME.html, NAME.pdf or NAME.png", "html, pdf or png"},
};

/* What a name ends in, from its last dot on, or NULL. */
static const char *end_of(const char *path) {
    const char *dot = path == NULL ? NULL : strrchr(path, '.');
    return dot == NULL || dot == path || dot[-1] == '/' || strchr(dot, '/') != NULL ? NULL : dot;
}

static bool is_among(const char *all, const char *suffix) {
    size_t length = strlen(suffix);
    for (; all[0] != '\0'; all += strcspn(all, " "), all += all[0] == ' ')
        if (strcspn(all, " ") == length && strncasecmp(all, suffix, length) == 0)
            return true;
    return false;
}

Kind kind_named(const char *path) {
    const char *suffix = end_of(path);
    Kind kind = suffix == NULL ? KINDS : 0;
    while (kind < KINDS && !is_among(suffixes[kind], suffix))
        kind++;
    return kind;
}

Sentence suffix_of(Kind kind) {
    return say("%.*s", (int)strcspn(suffixes[kind], " "), suffixes[kind]);
}

bool is_written_by(Command command, Kind kind) {
    return writings[command].kinds >> kind & 1;
}

const char *written_by(Command command) {
    return writings[command].in_words;
}

Kind kind_asked(Command command, const char *word) {
    for (Kind kind = 0; kind < KINDS; kind++)
        if (is_written_by(command, kind) && strcmp(suffix_of(kind).text + 1, word) == 0)
            return kind;
    return KINDS;
}

const char *words_for_kinds(Command command) {
    return writings[command].words;
}

size_t length_without_suffix(Command command, const char *path) {
    Kind kind = kind_named(path);
    bool is_read = command == CODE ? kind == AS_PGM || kind == AS_PNG : kind == AS_RECORD;
    return is_read ? (size_t)(end_of(path) - path) : strlen(path);
}
