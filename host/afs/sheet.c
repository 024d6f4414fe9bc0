#include "sheet.h"

#include "html.h"
#include "png_file.h"

#include <inttypes.h>
#include <stdlib.h>

enum { VALUES = 256 };

static uint32_t width_of(const Sheet *sheet) {
    return sheet->holding.header.width >> sheet->halvings;
}

static uint32_t height_of(const Sheet *sheet) {
    return sheet->holding.header.height >> sheet->halvings;
}

Sentence how_often(uint32_t halvings) {
    return halvings == 1 ? say("once") : halvings == 2 ? say("twice") : say("%" PRIu32 " times", halvings);
}

/* As the page's title and heading. */
static void print_title(FILE *out, const Sheet *sheet) {
    print_escaped(out, sheet->title != NULL ? sheet->title : sheet->name);
}

static void write_head(FILE *out, const Sheet *sheet) {
    fputs("<!DOCTYPE html>\n<html lang=\"en\">\n<head>\n<meta charset=\"utf-8\">\n"
          "<meta name=\"viewport\" content=\"width=device-width, initial-scale=1\">\n"
          "<meta http-equiv=\"Content-Security-Policy\" content=\"default-src 'none'; img-src data:; style-src 'unsafe-inline'\">\n"
          "<meta name=\"generator\" content=\"afs " VERSION "\">\n<title>",
          out);
    print_title(out, sheet);
    fprintf(out, "</title>\n<style>\n%s</style>\n</head>\n", sheet_style);
}

static void write_heading(FILE *out, const Sheet *sheet) {
    fputs("<header>\n", out);
    write_alarm(out, sheet);
    fprintf(out, "<p class=\"kind\">%s of a layered record</p>\n<h1>", makes_claims(sheet) ? "Certificate" : "Sheet");
    print_title(out, sheet);
    fputs("</h1>\n", out);
    if (sheet->note != NULL) {
        fputs("<p class=\"note\">", out);
        print_escaped_lines(out, sheet->note);
        fputs("</p>\n", out);
    }
    write_held(out, sheet);
    fputs("</header>\n", out);
}

static void write_image(FILE *out, const char *attributes, const uint8_t *values, uint32_t width, uint32_t height, const Scale *scale) {
    Bytes png = png_of(values, width, height, scale);
    fprintf(out, "<img %s src=\"", attributes);
    print_data_uri(out, png);
    fputs("\">", out);
    free(png.at);
}

static void write_legend(FILE *out, const Sheet *sheet) {
    uint8_t values[VALUES];
    for (unsigned value = 0; value < VALUES; value++)
        values[value] = (uint8_t)value;
    write_image(out, "class=\"scale\" alt=\"The scale, from 0 to 255\"", values, VALUES, 1, sheet->scale);
    fputs("\n<div class=\"ticks\"><span class=\"first\" style=\"left: 0\">0</span><span style=\"left: 25%\">64</span><span style=\"left: 50%\">128</span>"
          "<span style=\"left: 75%\">192</span><span class=\"last\" style=\"left: 100%\">255</span></div>\n",
          out);
}

/* The longer side fills the frame. */
static void write_picture(FILE *out, const Sheet *sheet) {
    uint32_t width = width_of(sheet), height = height_of(sheet), longer = width > height ? width : height;
    Bytes file = sheet->printed->bytes;
    char attributes[160];
    snprintf(attributes, sizeof attributes, "class=\"picture\" alt=\"The picture of %" PRIu32 " by %" PRIu32 " pixels\" style=\"width: %.4g%%\"", width, height,
             100.0 * width / longer);
    fputs("<figure>\n<div class=\"frame\">", out);
    write_image(out, attributes, file.at + (file.length - (size_t)width * height), width, height, sheet->scale);
    fputs("</div>\n", out);
    write_legend(out, sheet);
    fprintf(out, "<figcaption>%" PRIu32 " &times; %" PRIu32 " pixels", width, height);
    if (sheet->halvings > 0)
        fprintf(out, ", the recorded %" PRIu32 " &times; %" PRIu32 " halved %s", sheet->holding.header.width, sheet->holding.header.height,
                how_often(sheet->halvings).text);
    if (sheet->scale->colours == NULL)
        fputs(". Grey values as they are.</figcaption>\n</figure>\n", out);
    else
        fprintf(out, ". Grey values in the colour scale %s.</figcaption>\n</figure>\n", sheet->scale->name);
}

static void write_text_fact(FILE *out, const char *what, const char *text) {
    fprintf(out, "<tr><th scope=\"row\">%s</th><td>", what);
    print_escaped(out, text);
    fputs("</td></tr>\n", out);
}

static void write_digest_fact(FILE *out, const char *what, const char *id, const Digest *digest) {
    fprintf(out, "<tr><th scope=\"row\">%s</th><td><code id=\"%s\">", what, id);
    print_grouped_digest(out, digest);
    fputs("</code></td></tr>\n", out);
}

static void write_seal_facts(FILE *out, const Held *held) {
    const Seal *seal = held->verdict->comparison.seal;
    if (seal != NULL) {
        Digest digest = digest_of_seal(seal);
        write_text_fact(out, "Sealed as", seal->name);
        write_digest_fact(out, "Its seal", "seal", &digest);
    }
    fputs("<tr><th scope=\"row\">Seals</th><td>", out);
    print_escaped(out, held->seals);
    if (held->signatures[0] != '\0') {
        fputs("; beside it ", out);
        print_escaped(out, held->signatures);
        fputs(", not judged here", out);
    }
    fputs("</td></tr>\n", out);
}

static void write_facts(FILE *out, const Sheet *sheet) {
    Header header = sheet->holding.header;
    fputs("<div class=\"facts\">\n<table>\n", out);
    write_text_fact(out, "File", sheet->name);
    if (sheet->date != NULL)
        write_text_fact(out, "Written", sheet->date);
    if (sheet->device != NULL)
        write_text_fact(out, "Device", sheet->device);
    fputs("<tr><th scope=\"row\">Length</th><td>", out);
    print_grouped(out, sheet->record.length);
    fprintf(out, " bytes</td></tr>\n<tr><th scope=\"row\">Recorded</th><td>%" PRIu32 " &times; %" PRIu32 " coefficients in %" PRIu32 " levels, %" PRIu32
                 " plane%s</td></tr>\n",
            header.width, header.height, coarsest(header), header.planes, header.planes == 1 ? "" : "s");
    if (sheet->held != NULL)
        write_seal_facts(out, sheet->held);
    write_digest_fact(out, "SHA-256 of the file", "sha256", &sheet->of_file);
    fputs("<tr><th scope=\"row\">Made by</th><td>afs " VERSION "</td></tr>\n</table>\n</div>\n", out);
}

static void write_foot(FILE *out, const Sheet *sheet) {
    fputs("<footer>\n<p>", out);
    if (sheet->held != NULL && sheet->held->verdict->comparison.seal != NULL)
        fputs("The seal is the digest on the line <code>seal</code> of the record that is named, in the seals that are: the SHA-256 of its\n"
              "header&rsquo;s numbers and of the digests of all its parts. Who signed them, and whether the signature is good, is to be seen with what made\n"
              "it (man afs).",
              out);
    else
        fputs("Whether a byte was changed, a seal shows: <code>afs seal</code> where a record is made, <code>afs certificate --seals</code> here.", out);
    fputs("</p>\n<p>", out);
    if (makes_claims(sheet))
        fputs("What is said of coefficients and pixels holds for a record that Afshtruni&rsquo;s coder wrote, whatever whole parts were left out or lost\n"
              "since, and wherever it was cut off; not where a byte was changed, or lost inside of a part, or where records of two jobs were joined. A record\n"
              "does not show who wrote it, or whether it was made of a picture. The theorems named here are proved of the calls that <code>afs</code> is made\n"
              "over (docs/PROMISES.md of Afshtruni). ",
              out);
    fputs("Trusted, not proved: the prover and back end of the Rattle kit, the C compiler, the linker, and the tool,\nwhich made this sheet.</p>\n", out);
    fputs("</footer>\n", out);
}

void write_sheet(FILE *out, const Sheet *sheet) {
    write_head(out, sheet);
    fputs("<body>\n<main>\n", out);
    write_heading(out, sheet);
    fputs("<section class=\"top\">\n", out);
    write_picture(out, sheet);
    write_facts(out, sheet);
    fputs("</section>\n", out);
    write_answers(out, sheet);
    write_grid(out, sheet);
    write_foot(out, sheet);
    fputs("</main>\n</body>\n</html>\n", out);
}
