#include "choices.h"

#include <stdio.h>
#include <string.h>

const char *const commands[COMMANDS] = {[CODE] = "code", [SERVE] = "serve", [JOIN] = "join", [DECODE] = "decode", [PARTS] = "parts",
                                        [EXPLAIN] = "explain", [SEAL] = "seal", [VERIFY] = "verify", [CERTIFICATE] = "certificate"};

const Choice options[OPTIONS] = {
    [DECOMPOSITIONS] = {'n', "decompositions", "a number", 1 << CODE},
    [LEVEL] = {'r', "level", "a level", 1 << SERVE | 1 << DECODE | 1 << CERTIFICATE},
    [PLANE] = {'p', "plane", "a plane", 1 << SERVE | 1 << DECODE | 1 << CERTIFICATE},
    [GREY] = {'g', "grey", NULL, 1 << DECODE},
    [HALVE] = {'s', "halve", "a number", 1 << DECODE},
    [MOST] = {'e', "error", "a number", 1 << SERVE | 1 << CERTIFICATE},
    [WHOLE] = {0, "whole", NULL, 1 << DECODE | 1 << VERIFY},
    [CHECK] = {0, "check", NULL, 1 << DECODE},
    [JSON] = {0, "json", NULL, 1 << DECODE | 1 << PARTS | 1 << EXPLAIN | 1 << SEAL | 1 << VERIFY},
    [SEALS] = {0, "seals", "a file", 1 << CERTIFICATE},
    [OF] = {0, "of", "a name", 1 << VERIFY | 1 << CERTIFICATE},
    [TITLE] = {0, "title", "a text", 1 << CERTIFICATE},
    [NOTE] = {0, "note", "a text", 1 << CERTIFICATE},
    [DEVICE] = {0, "device", "a text", 1 << CERTIFICATE},
    [SCALE] = {0, "scale", "a name", 1 << CERTIFICATE},
    [AS] = {0, "as", "a kind of file", 1 << DECODE | 1 << CERTIFICATE},
    [OUTPUT] = {'o', "output", "a file", EVERY},
    [TO] = {0, "to", "a folder", 1 << CODE | 1 << SERVE | 1 << DECODE | 1 << CERTIFICATE},
    [JOBS] = {'j', "jobs", "a number", 1 << CODE | 1 << SERVE | 1 << DECODE | 1 << CERTIFICATE},
    [FORCE] = {'f', "force", NULL, EVERY},
    [QUIET] = {'q', "quiet", NULL, EVERY},
    [HELP] = {'h', "help", NULL, EVERY},
    [VERSION_OPTION] = {0, "version", NULL, EVERY},
    [VERBOSE] = {0, "verbose", NULL, EVERY},
};

Sentence commands_in_words(unsigned bits) {
    Sentence all = say("%s", "");
    for (Command command = 0; command < COMMANDS; command++) {
        unsigned later = bits >> command >> 1;
        if (bits >> command & 1)
            all = say("%s%s%s", all.text, commands[command], later == 0 ? "" : (later & (later - 1)) == 0 ? " and " : ", ");
    }
    return all;
}
