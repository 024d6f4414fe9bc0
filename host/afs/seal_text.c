/* The form of seals as a text. */
#include "seals.h"

#include "calls.h"
#include "utf8.h"

#include <inttypes.h>
#include <stdlib.h>
#include <string.h>

static const char title[] = "afshtruni seals 1\n";

/* A byte that would end the line, hide in it or be no text is written as % and two digits. */
static void print_name(FILE *out, const char *name) {
    for (const unsigned char *at = (const unsigned char *)name; *at != '\0';) {
        size_t length = length_of_character(at);
        if (length == 0 || *at < 0x20 || *at == 0x7F || *at == '%')
            fprintf(out, "%%%02X", *at);
        else
            fwrite(at, 1, length, out);
        at += length == 0 ? 1 : length;
    }
}

static void print_sealed(FILE *out, const Seal *seal) {
    Header header = seal->header;
    fprintf(out, "record %" PRIu32 " %" PRIu32 " %" PRIu32 " %" PRIu32 "\n", header.width, header.height, header.decompositions, header.planes);
    for (size_t i = 0; i < seal->count; i++) {
        Part part = seal->parts[i].part;
        fprintf(out, "part %" PRIu32 " %" PRIu32 " %" PRIu32 " ", part.plane, part.level, part.bits);
        print_digest(out, &seal->parts[i].digest);
        fputc('\n', out);
    }
}

static void print_line(FILE *out, const char *word, Digest digest) {
    fputs(word, out);
    print_digest(out, &digest);
    fputc('\n', out);
}

Digest digest_of_seal(const Seal *seal) {
    Text text;
    begin_text(&text);
    print_sealed(text.stream, seal);
    Bytes sealed = end_text(&text);
    Digest digest = digest_of(sealed.at, sealed.length);
    free(sealed.at);
    return digest;
}

void write_seals(Text *text, const Seals *seals) {
    fputs(title, text->stream);
    for (size_t i = 0; i < seals->count; i++) {
        fputs("file ", text->stream);
        print_name(text->stream, seals->of[i].name);
        fputc('\n', text->stream);
        print_sealed(text->stream, &seals->of[i]);
        print_line(text->stream, "seal ", digest_of_seal(&seals->of[i]));
    }
    fflush(text->stream);
    print_line(text->stream, "sha256 ", digest_of(text->at, text->length));
}

/* What is taken stands at the front of what is left to be read. Whether it does. */
static bool take(const char **at, const char *word) {
    size_t length = strlen(word);
    if (strncmp(*at, word, length) != 0)
        return false;
    *at += length;
    return true;
}

static bool take_number(const char **at, uint32_t *number, char behind) {
    const char *begin = *at;
    *number = 0;
    while (**at >= '0' && **at <= '9' && *at - begin < 9)
        *number = 10 * *number + (uint32_t)(*(*at)++ - '0');
    return *at > begin && *(*at)++ == behind;
}

static bool take_digest(const char **at, Digest *digest) {
    if (!read_digest(*at, digest))
        return false;
    *at += DIGEST_DIGITS;
    return take(at, "\n");
}

static int value_of(char digit) {
    static const char digits[] = "0123456789ABCDEF";
    const char *found = digit == '\0' ? NULL : strchr(digits, digit);
    return found == NULL ? -1 : (int)(found - digits);
}

static bool take_name(const char **at, char **name) {
    char *to = *name = memory_for(strcspn(*at, "\n") + 1, 1);
    for (; **at != '\n' && **at != '\0'; (*at)++) {
        int high = **at == '%' ? value_of((*at)[1]) : 0, low = **at == '%' && high >= 0 ? value_of((*at)[2]) : 0;
        if (high < 0 || low < 0)
            return false;
        *to++ = **at == '%' ? (char)(16 * high + low) : **at;
        *at += **at == '%' ? 2 : 0;
    }
    return take(at, "\n");
}

static bool is_legal_part(const Seal *seal, Part part) {
    const Part *before = seal->count == 0 ? NULL : &seal->parts[seal->count - 1].part;
    bool is_later = before == NULL || part.plane < before->plane || (part.plane == before->plane && part.level < before->level);
    return is_later && part.plane < seal->header.planes && part.level >= 1 && part.level <= coarsest(seal->header) &&
           part.bits <= AFS_WORK(seal->header.width, seal->header.height);
}

static bool take_parts(const char **at, Seal *seal) {
    seal->parts = memory_for(most_parts(seal->header), sizeof *seal->parts);
    while (take(at, "part ")) {
        SealedPart sealed;
        if (!take_number(at, &sealed.part.plane, ' ') || !take_number(at, &sealed.part.level, ' ') || !take_number(at, &sealed.part.bits, ' ') ||
            !is_legal_part(seal, sealed.part) || !take_digest(at, &sealed.digest))
            return false;
        seal->parts[seal->count++] = sealed;
    }
    return true;
}

/* Names ascend; what is wrong with this one is wrong with its line. */
static bool take_next_name(const char **at, const Seals *seals, char **name) {
    const char *begin = *at;
    if (take_name(at, name) && (seals->count == 0 || strcmp(seals->of[seals->count - 1].name, *name) < 0))
        return true;
    *at = begin;
    return false;
}

static bool take_header(const char **at, Header *header) {
    const char *begin = *at;
    if (take(at, "record ") && take_number(at, &header->width, ' ') && take_number(at, &header->height, ' ') &&
        take_number(at, &header->decompositions, ' ') && take_number(at, &header->planes, '\n') && is_legal_header(*header))
        return true;
    *at = begin;
    return false;
}

static bool take_seal(const char **at, Seals *seals) {
    Seal seal = {.name = NULL};
    Digest digest;
    bool is_good = take_next_name(at, seals, &seal.name) && take_header(at, &seal.header) && take_parts(at, &seal) && take(at, "seal ") &&
                   take_digest(at, &digest);
    if (is_good)
        add_seal(seals, seal);
    else
        free_seal(&seal);
    return is_good;
}

static bool take_seals(const char **at, Seals *seals) {
    Digest digest;
    if (!take(at, title))
        return false;
    while (take(at, "file "))
        if (!take_seal(at, seals))
            return false;
    return take(at, "sha256 ") && take_digest(at, &digest);
}

static size_t line_of(const char *text, size_t offset) {
    size_t line = 1;
    for (size_t i = 0; i < offset; i++)
        line += text[i] == '\n';
    return line;
}

/* Where what is read differs from what would be written of it, the digests among it. */
static size_t first_other_line(Bytes text, const Seals *seals) {
    Text written;
    begin_text(&written);
    write_seals(&written, seals);
    Bytes wanted = end_text(&written);
    size_t same = 0;
    while (same < text.length && same < wanted.length && text.at[same] == wanted.at[same])
        same++;
    bool is_same = same == text.length && same == wanted.length;
    free(wanted.at);
    return is_same ? 0 : line_of((const char *)text.at, same);
}

size_t read_seals(Bytes text, Seals *seals) {
    char *copy = memory_for(text.length + 1, 1);
    if (text.length > 0)
        memcpy(copy, text.at, text.length);
    const char *at = copy;
    bool is_good = take_seals(&at, seals);
    size_t line = is_good ? first_other_line(text, seals) : line_of(copy, (size_t)(at - copy));
    free(copy);
    if (line > 0)
        free_seals(seals);
    return line;
}
