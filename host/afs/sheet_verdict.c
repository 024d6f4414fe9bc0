/* What holding the record against its seal has shown, in words of the sheet. */
#include "sheet.h"

#include "html.h"

#include <string.h>

bool makes_claims(const Sheet *sheet) {
    return sheet->outside == 0 && (sheet->held == NULL || is_as_sealed(sheet->held->verdict));
}

/* The first fact, where it is short. */
static void print_first_line(FILE *out, const char *lines) {
    enum { LONGEST = 120 };
    size_t length = strcspn(lines, "\n");
    Sentence first = length > LONGEST ? say("what changed stands below") : say("%.*s", (int)length, lines);
    print_escaped(out, first.text);
}

static void tell_not_as_sealed(FILE *out, const Held *held) {
    const Verdict *verdict = held->verdict;
    if (verdict->comparison.seal == NULL) {
        fputs("Not of any record that is sealed in ", out);
        print_escaped(out, held->seals);
    } else if (verdict->comparison.is_changed) {
        fputs("Not as it was sealed: ", out);
        print_first_line(out, held->found);
    } else if (is_another(verdict)) {
        fputs("Not ", out);
        print_escaped(out, verdict->wanted->name);
        fputs(", but ", out);
        print_escaped(out, verdict->comparison.seal->name);
        fputs(": ", out);
        print_escaped(out, held->found);
    } else {
        fprintf(out, "By its name it may be any of %zu sealed records, and it is ", verdict->namesakes);
        print_escaped(out, verdict->comparison.seal->name);
        fputs(": ", out);
        print_escaped(out, held->found);
    }
}

void write_alarm(FILE *out, const Sheet *sheet) {
    bool is_sealed = sheet->held != NULL && is_as_sealed(sheet->held->verdict);
    if (makes_claims(sheet))
        return;
    fputs("<p class=\"alarm\">", out);
    if (sheet->held != NULL && !is_sealed)
        tell_not_as_sealed(out, sheet->held);
    else
        fputs(is_sealed ? "Made of no picture, or changed before it was sealed" : "Changed, or made of no picture", out);
    fputs(". Nothing is claimed of it.</p>\n", out);
}

void write_held(FILE *out, const Sheet *sheet) {
    const Held *held = sheet->held;
    if (held == NULL) {
        fputs("<p class=\"held\">Not held against a seal.</p>\n", out);
    } else if (is_as_sealed(held->verdict)) {
        fputs("<p class=\"held\">Of ", out);
        print_escaped(out, held->verdict->comparison.seal->name);
        fputs(": <span id=\"found\">", out);
        print_escaped(out, held->found);
        fputs("</span>. Every part is as sealed in ", out);
        print_escaped(out, held->seals);
        fputs(".</p>\n", out);
    }
}
