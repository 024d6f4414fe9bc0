#include "grey_words.h"

#include "png_file.h"

#include <inttypes.h>
#include <stdlib.h>
#include <string.h>

enum { MAXVAL = 255, MAGIC = 2 };

static const struct {
    const char *front, *name;
} other_files[] = {
    {"P1", "a plain bitmap"}, {"P4", "a bitmap"},         {"P2", "a plain grey picture"}, {"P3", "a plain colour picture"},
    {"P6", "a colour picture"}, {"P7", "a PAM picture"}, {"\x89PNG", "a PNG picture"},   {"\xFF\xD8", "a JPEG picture"},
    {"BM", "a BMP picture"},  {"GIF8", "a GIF picture"}, {"II*", "a TIFF picture"},      {"MM", "a TIFF picture"},
};

static bool begins_with(Bytes file, const char *front) {
    size_t length = strlen(front);
    return file.length >= length && memcmp(file.at, front, length) == 0;
}

static const char how_to_make_one[] = "'convert IN -alpha off -colorspace Gray -depth 8 OUT.pgm' makes one of it";

static Sentence why_not_this_png(Bytes file) {
    PngFault fault;
    free(grey_file_of_png(file, &fault).at);
    if (!fault.is_readable)
        return say("it begins as a PNG picture does, and can't be read: %s", fault.text.text);
    return say("it is %s; legal is 8 bit grey without alpha: %s", fault.text.text, how_to_make_one);
}

static Sentence why_not_p5(Bytes file) {
    if (is_png(file))
        return why_not_this_png(file);
    for (size_t i = 0; i < sizeof other_files / sizeof *other_files; i++)
        if (begins_with(file, other_files[i].front))
            return say("it begins as %s does; legal is a binary grey picture of Netpbm's, which begins with P5: %s", other_files[i].name, how_to_make_one);
    if (file.length < MAGIC)
        return say("it has %zu bytes; legal is a binary grey picture of Netpbm's, which begins with P5", file.length);
    return say("it begins with the bytes %02X %02X; legal is a binary grey picture of Netpbm's, which begins with P5", file.at[0], file.at[1]);
}

static bool is_blank(uint8_t byte) {
    return byte == ' ' || byte == '\t' || byte == '\n' || byte == '\r';
}

static size_t past_comment(Bytes file, size_t at) {
    while (at < file.length && file.at[at] != '\n' && file.at[at] != '\r')
        at++;
    return at;
}

static size_t past_gap(Bytes file, size_t at) {
    while (at < file.length && (is_blank(file.at[at]) || file.at[at] == '#'))
        at = file.at[at] == '#' ? past_comment(file, at) : at + 1;
    return at;
}

/* A number's value, or the greatest there is, and what is behind it. */
static uint64_t read_digits(Bytes file, size_t *at) {
    uint64_t value = 0;
    for (; *at < file.length && file.at[*at] >= '0' && file.at[*at] <= '9'; (*at)++) {
        unsigned digit = file.at[*at] - '0';
        value = value > (UINT64_MAX - digit) / 10 ? UINT64_MAX : 10 * value + digit;
    }
    return value;
}

static Sentence why_pixels(Bytes file, size_t at, const uint64_t *numbers) {
    if (at < file.length && file.at[at] == '#')
        at = past_comment(file, at);
    if (at == file.length)
        return say("the end comes before the blank behind the maxval");
    if (!is_blank(file.at[at]))
        return say("behind the maxval, at byte %zu, stands %02X; legal is one blank", at, file.at[at]);
    return say("after its header it has %zu bytes; legal is one for each of %" PRIu64 " x %" PRIu64 " pixels", file.length - at - 1, numbers[0], numbers[1]);
}

Sentence why_not_grey(Bytes file) {
    static const char *const names[] = {"W, the width", "H, the height", "the maxval"};
    uint64_t numbers[3];
    size_t at = MAGIC;
    if (!begins_with(file, "P5"))
        return why_not_p5(file);
    for (int i = 0; i < 3; i++) {
        size_t begin = past_gap(file, at);
        if (begin == file.length)
            return say("the end comes before %s", names[i]);
        if (begin == at || file.at[begin] < '0' || file.at[begin] > '9')
            return say("at byte %zu stands %02X; legal is %s %s", begin, file.at[begin], begin == at ? "a blank before" : "a digit of", names[i]);
        at = begin;
        numbers[i] = read_digits(file, &at);
    }
    if (numbers[2] != MAXVAL)
        return say("its maxval is %" PRIu64 "; legal is %d, a byte for each pixel", numbers[2], MAXVAL);
    return why_pixels(file, at, numbers);
}
