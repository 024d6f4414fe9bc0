#include "html.h"

#include "text.h"
#include "utf8.h"

#include <inttypes.h>
#include <stdlib.h>
#include <string.h>

static const char no_text[] = "\xEF\xBF\xBD"; /* U+FFFD */

static const char *entity_for(unsigned char byte, const char *newline) {
    switch (byte) {
    case '&':
        return "&amp;";
    case '<':
        return "&lt;";
    case '>':
        return "&gt;";
    case '"':
        return "&quot;";
    case '\n':
        return newline;
    default:
        return byte < 0x20 || byte == 0x7F ? no_text : NULL;
    }
}

/* The two-byte characters C2 80 to C2 9F are control characters too. */
static bool is_control(const unsigned char *character) {
    return character[0] == 0xC2 && character[1] < 0xA0;
}

static void print_text(FILE *out, const char *text, const char *newline) {
    for (const unsigned char *at = (const unsigned char *)text; *at != '\0';) {
        size_t length = length_of_character(at);
        const char *instead = length == 0 || is_control(at) ? no_text : entity_for(*at, newline);
        if (instead != NULL)
            fputs(instead, out);
        else
            fwrite(at, 1, length, out);
        at += length == 0 ? 1 : length;
    }
}

void print_escaped(FILE *out, const char *text) {
    print_text(out, text, " ");
}

void print_escaped_lines(FILE *out, const char *text) {
    print_text(out, text, "<br>");
}

void print_grouped(FILE *out, uint64_t number) {
    if (number >= 1000) {
        print_grouped(out, number / 1000);
        fprintf(out, ",%03" PRIu64, number % 1000);
    } else {
        fprintf(out, "%" PRIu64, number);
    }
}

void print_grouped_digest(FILE *out, const Digest *digest) {
    enum { GROUP = 8 };
    Text text;
    begin_text(&text);
    print_digest(text.stream, digest);
    Bytes digits = end_text(&text);
    for (size_t i = 0; i < digits.length; i += GROUP) {
        fputs(i == 0 ? "" : i == digits.length / 2 ? "<br>" : " ", out);
        fwrite(digits.at + i, 1, GROUP, out);
    }
    free(digits.at);
}

static void print_base64(FILE *out, Bytes bytes) {
    static const char digits[] = "ABCDEFGHIJKLMNOPQRSTUVWXYZabcdefghijklmnopqrstuvwxyz0123456789+/";
    for (size_t i = 0; i < bytes.length; i += 3) {
        size_t left = bytes.length - i;
        uint32_t three = (uint32_t)bytes.at[i] << 16 | (left > 1 ? (uint32_t)bytes.at[i + 1] << 8 : 0) | (left > 2 ? bytes.at[i + 2] : 0);
        char four[] = {digits[three >> 18], digits[three >> 12 & 63], left > 1 ? digits[three >> 6 & 63] : '=', left > 2 ? digits[three & 63] : '='};
        fwrite(four, 1, sizeof four, out);
    }
}

void print_data_uri(FILE *out, Bytes png) {
    fputs("data:image/png;base64,", out);
    print_base64(out, png);
}
