#include "help.h"

#include "choices.h"

#include <stdbool.h>
#include <string.h>

enum { TEXT_COLUMN = 21, SUMMARY_COLUMN = 15 };

/* Lines of a command, or of several, with a word that stands before them. */
typedef struct {
    unsigned commands;
    const char *head, *lines;
} Entry;

static const Entry usages[] = {
    {1 << CODE, NULL, "afs code [-n N] [PICTURE]"},
    {1 << CODE, NULL, "afs code W H N [PYRAMID]"},
    {1 << CODE, NULL, "afs code [-n N] [-j JOBS] --to DIR PICTURE.."},
    {1 << SERVE, NULL, "afs serve [-r LEVEL] [-p PLANE] [FILE]"},
    {1 << SERVE, NULL, "afs serve -e E [FILE]"},
    {1 << SERVE, NULL, "afs serve [-r LEVEL] [-p PLANE] [-e E] [-j JOBS] --to DIR FILE.."},
    {1 << JOIN, NULL, "afs join FIRST SECOND"},
    {1 << DECODE, NULL, "afs decode [-g [-s S]] [-r LEVEL] [-p PLANE] [--whole] [--as KIND] [FILE]"},
    {1 << DECODE, NULL, "afs decode [-g [-s S]] [-r LEVEL] [-p PLANE] [--whole] [--as KIND]\n"
                        "    [-j JOBS] --to DIR FILE.."},
    {1 << DECODE, NULL, "afs decode --check [-r LEVEL] [-p PLANE] [--whole] [--json] [FILE..]"},
    {1 << PARTS, NULL, "afs parts [--json] [FILE..]"},
    {1 << EXPLAIN, NULL, "afs explain [--json] [FILE..]"},
    {1 << SEAL, NULL, "afs seal [--json] [FILE..]"},
    {1 << VERIFY, NULL, "afs verify [--of NAME] [--whole] [--json] SEALS [FILE..]"},
    {1 << CERTIFICATE, NULL, "afs certificate [--seals SEALS [--of NAME]] [-r LEVEL] [-p PLANE]\n"
                             "    [--scale SCALE] [--title TEXT] [--note TEXT] [--device TEXT]\n"
                             "    [--as KIND] [FILE]"},
    {1 << CERTIFICATE, NULL, "afs certificate -e E .. [FILE]"},
    {1 << CERTIFICATE, NULL, "afs certificate .. [-j JOBS] --to DIR FILE.."},
};

static const Entry summaries[] = {
    {1 << CODE, "code", "from a picture to a record; or from a pyramid of W x H\n"
                        "coefficients and N decompositions"},
    {1 << SERVE, "serve", "from a record to a smaller one: header and some parts, unaltered"},
    {1 << JOIN, "join", "from two records, as two downloads of one, to one that has all\n"
                        "parts of either"},
    {1 << DECODE, "decode", "from a record, or what is left of one, to a pyramid, or to a\n"
                            "picture; what lacks is noted on standard error"},
    {1 << PARTS, "parts", "lists a record's header, parts and tail"},
    {1 << EXPLAIN, "explain", "tells which parts there are, how far a decoded coefficient may be\n"
                              "from the recorded one, and a printed pixel, what is missing,\n"
                              "whether a tail was used"},
    {1 << SEAL, "seal", "writes the SHA-256 of each part, as a text that can be signed"},
    {1 << VERIFY, "verify", "holds records, or what is left of them, against seals, and names\n"
                            "each part that changed"},
    {1 << CERTIFICATE, "certificate", "writes the sheet that goes with a record: its picture, and what\n"
                                      "holds of it; HTML, or PDF or PNG"},
};

/* Where an option isn't the same for all commands, each way has an entry of its own, and the same head. */
static const Entry option_entries[] = {
    {1 << CODE, "  -n, --decompositions N", "of a picture (as many as its sides allow, up to 5)"},
    {1 << DECODE, "  -g, --grey", "decode to a picture; so does -o NAME.pgm or NAME.png"},
    {1 << DECODE, "  -s, --halve S", "the picture halved S times (0)"},
    {1 << SERVE, "  -r, --level LEVEL", "only this level and coarser ones (1, all levels)"},
    {1 << DECODE, "  -r, --level LEVEL", "what was to be expected: only what falls short of\nit is noted"},
    {1 << CERTIFICATE, "  -r, --level LEVEL", "what was asked for, and what it draws\n(the finest level that is there)"},
    {1 << SERVE, "  -p, --plane PLANE", "only this plane and higher ones (0, all planes)"},
    {1 << DECODE, "  -p, --plane PLANE", "what was to be expected, as with -r"},
    {1 << CERTIFICATE, "  -p, --plane PLANE", "what was asked for"},
    {1 << SERVE, "  -e, --error E", "as little as keeps every printed pixel within E\ngrey values of the recorded one"},
    {1 << CERTIFICATE, "  -e, --error E", "what was asked for, instead of -r and -p"},
    {1 << DECODE, "      --whole", "only if nothing lacks of what was to be expected"},
    {1 << VERIFY, "      --whole", "anything but the whole record gives status 3"},
    {1 << CERTIFICATE, "      --seals SEALS", "hold the record against its seal: what is found stands\non the sheet"},
    {1 << VERIFY, "      --of NAME", "the sealed record that each file is to be of"},
    {1 << CERTIFICATE, "      --of NAME", "the sealed record that it is to be of"},
    {1 << CERTIFICATE, "      --scale SCALE", "grey, viridis or magma (grey)"},
    {1 << CERTIFICATE, "      --title TEXT, --note TEXT, --device TEXT", "as given"},
    {1 << DECODE, "      --check", "decode, but write nothing"},
    {1 << DECODE | 1 << PARTS | 1 << EXPLAIN | 1 << SEAL | 1 << VERIFY, "      --json", "one object a line for each file"},
    {1 << DECODE, "      --as KIND", "pyramid, pgm or png, where no name tells it"},
    {1 << CERTIFICATE, "      --as KIND", "html, pdf or png, where no name tells it"},
    {EVERY, "  -o, --output OUT", "write to OUT instead of standard output"},
    {1 << CODE | 1 << SERVE | 1 << DECODE | 1 << CERTIFICATE, "      --to DIR", "many files, each to this folder under its own name"},
    {1 << CODE | 1 << SERVE | 1 << DECODE | 1 << CERTIFICATE, "  -j, --jobs JOBS", "so many of them at once (1)"},
    {EVERY, "  -f, --force", "replace OUT if it is there; use a terminal for records"},
    {EVERY, "  -q, --quiet", "no notes, and no progress line"},
    {EVERY, "  -h, --help", "print this and exit"},
};

static const Entry of_all_options[] = {
    {EVERY, "      --version", "print the version and exit; with --verbose also the SHA-256\nof the library, and the kit that it was proved with"},
};

static const Entry remarks[] = {
    {EVERY & ~(1 << JOIN), NULL, "Without FILE, or where it is -, standard input is read."},
    {1 << CODE | 1 << DECODE, NULL, "A picture is a binary grey file of Netpbm's, P5 with maxval 255, or a PNG of 8\n"
                                    "bit grey without alpha. A pyramid is a row of 32-bit numbers, lowest byte first."},
};

static const char of_changes[] = "\n"
                                 "Parts that are missing and an end that is cut off are told of. Bytes that were\n"
                                 "changed, or lost inside a part, are not: a record has no checksum. Keep a seal:\n"
                                 "'afs seal FILE >FILE.seals', and later 'afs verify FILE.seals FILE'.\n";

static const char of_statuses[] = "\n"
                                  "Exit status: 0 done; 1 refused: 'refused NUMBER NAME at PLACE: FILE: ..' is\n"
                                  "printed on standard error; 2 wrong usage, or a file that can't be read or\n"
                                  "written; 3 with --whole, something lacks, or -e E can't be kept to, or a\n"
                                  "picture's record was changed; from verify 4 where all is as it was sealed but a\n"
                                  "tail, which can't be checked, 5 where something isn't. Of many files the\n"
                                  "greatest counts.\n";

/* Line by line, all but the first behind so many blanks. */
static void print_indented(FILE *out, const char *lines, int column) {
    for (const char *end; (end = strchr(lines, '\n')) != NULL; lines = end + 1)
        fprintf(out, "%.*s\n%*s", (int)(end - lines), lines, column, "");
    fprintf(out, "%s\n", lines);
}

static void print_usages(FILE *out, unsigned commands) {
    const char *before = "Usage: ";
    for (size_t i = 0; i < sizeof usages / sizeof *usages; i++)
        if (usages[i].commands & commands) {
            fputs(before, out);
            print_indented(out, usages[i].lines, 7);
            before = "       ";
        }
}

static void print_summaries(FILE *out, unsigned commands) {
    for (size_t i = 0; i < sizeof summaries / sizeof *summaries; i++)
        if (summaries[i].commands & commands) {
            fprintf(out, "  %-*s", SUMMARY_COLUMN - 2, summaries[i].head);
            print_indented(out, summaries[i].lines, SUMMARY_COLUMN);
        }
}

static bool has_head_of(const Entry *entry, const Entry *other) {
    return strcmp(entry->head, other->head) == 0;
}

/* The command is named where there are several, and the option is another with each. */
static void print_option(FILE *out, const Entry *entry, bool is_first, bool is_one_of_several) {
    int room = (int)strlen(entry->head) < TEXT_COLUMN - 1 ? TEXT_COLUMN : (int)strlen(entry->head) + 2;
    fprintf(out, "%-*s", room, is_first ? entry->head : "");
    if (is_one_of_several)
        fprintf(out, "%s: ", commands_in_words(entry->commands).text);
    print_indented(out, entry->lines, TEXT_COLUMN);
}

static void print_options(FILE *out, const Entry *entries, size_t count, unsigned commands) {
    bool are_several = (commands & (commands - 1)) != 0;
    for (size_t i = 0; i < count; i++) {
        bool is_first = i == 0 || !has_head_of(&entries[i - 1], &entries[i]), is_last = i + 1 == count || !has_head_of(&entries[i], &entries[i + 1]);
        if (entries[i].commands & commands)
            print_option(out, &entries[i], is_first || !are_several, are_several && !(is_first && is_last));
    }
}

static void print_remarks(FILE *out, unsigned commands) {
    const char *before = "\n";
    for (size_t i = 0; i < sizeof remarks / sizeof *remarks; i++)
        if (remarks[i].commands & commands) {
            fprintf(out, "%s%s\n", before, remarks[i].lines);
            before = "";
        }
}

void print_help(FILE *out, unsigned commands) {
    print_usages(out, commands);
    if (commands == EVERY)
        fputs("       afs help COMMAND\nLayered records of grey pictures, or of any wavelet coefficients.\n", out);
    fputc('\n', out);
    print_summaries(out, commands);
    fputc('\n', out);
    print_options(out, option_entries, sizeof option_entries / sizeof *option_entries, commands);
    if (commands == EVERY)
        print_options(out, of_all_options, sizeof of_all_options / sizeof *of_all_options, commands);
    print_remarks(out, commands);
    if (commands == EVERY)
        fprintf(out, "%s%s", of_changes, of_statuses);
}
