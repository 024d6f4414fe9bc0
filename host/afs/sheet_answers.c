#include "sheet.h"

#include "html.h"
#include "telling.h"

#include <inttypes.h>

static void begin_answer(FILE *out, const char *question) {
    fprintf(out, "<div class=\"answer\">\n<h2>%s</h2>\n<p>", question);
}

static void end_answer(FILE *out) {
    fputs("</p>\n</div>\n", out);
}

/* What its claims rest on beside the coder. */
static const char *condition_of(const Sheet *sheet) {
    if (sheet->held == NULL)
        return ", if no byte was changed since it was coded";
    return sheet->held->verdict->comparison.has_tail && is_tail_used(&sheet->holding) ? ", if no byte of its tail was changed" : "";
}

static void answer_whose(FILE *out, const Sheet *sheet) {
    begin_answer(out, "Could a line in this picture come from another client&rsquo;s job?");
    fprintf(out, "<strong>No%s.</strong> What is drawn follows from the ", condition_of(sheet));
    print_grouped(out, sheet->record.length);
    fputs(" bytes of this file alone, whatever was in memory before (<code>afsDecode-isolated</code>, <code>afsGreyOut-isolated</code>); and what is decoded\n"
          "of any parts of a record is that record&rsquo;s own coefficients, rounded (<code>from-memory-to-memory</code>).",
          out);
    if (sheet->held != NULL)
        fputs(" That they are of this one, its seal shows.", out);
    end_answer(out);
}

/* The picture that it is compared with. */
static void tell_compared(FILE *out, const Sheet *sheet) {
    if (sheet->halvings > 0)
        fprintf(out, " Compared is the whole record&rsquo;s picture, halved %s.", how_often(sheet->halvings).text);
}

static void tell_bound(FILE *out, const Sheet *sheet, uint64_t farthest) {
    if (farthest < 255)
        fprintf(out, "<strong>At most <span id=\"farthest\">%" PRIu64 "</span> of 255 grey values%s,</strong> %s the record was made of a picture:", farthest,
                condition_of(sheet), condition_of(sheet)[0] == '\0' ? "if" : "and if");
    else
        fprintf(out,
                "<strong>As far as can be, <span id=\"farthest\">%" PRIu64 "</span> grey values:</strong> too little is there for a nearer bound,\nwhich is",
                farthest);
    fputs(" 2<sup>m</sup>&nbsp;&minus;&nbsp;1 for the coarsest level and 3&nbsp;&times;&nbsp;2<sup>m</sup> for each finer one with m&nbsp;&gt;&nbsp;0,\n"
          "together, where m is the plane that the level reached (<code>pixel-near</code>). A coefficient of that level is less than 2<sup>m</sup> from the\n"
          "recorded one, and never of greater magnitude (<code>Decodes</code>, <code>near</code>).",
          out);
}

static void answer_how_far(FILE *out, const Sheet *sheet) {
    uint64_t farthest = farthest_pixel(&sheet->holding, sheet->halvings);
    begin_answer(out, "How far may a printed pixel be from the recorded one?");
    if (farthest == 0)
        fprintf(out,
                "<strong>Not at all%s: <span id=\"farthest\">0</span> grey values.</strong> All that this picture needs is there. If the record was made of a\n"
                "picture, every pixel is the recorded one (<code>pixel-near</code>, <code>from-picture-to-picture</code>).",
                condition_of(sheet));
    else
        tell_bound(out, sheet, farthest);
    tell_compared(out, sheet);
    if (sheet->printed->clipped > 0) {
        fputs(" Pixels that came out under 0 or over 255 and are drawn as the nearer end: <span id=\"clipped\">", out);
        print_grouped(out, sheet->printed->clipped);
        fputs("</span>.", out);
    }
    end_answer(out);
}

static void tell_skipped(FILE *out, const Holding *holding) {
    uint64_t skipped = 0;
    for (uint32_t level = 1; level <= holding->levels; level++)
        skipped += holding->skipped[level - 1];
    if (skipped > 0)
        fprintf(out,
                " Of those that are there <span id=\"skipped\">%" PRIu64 "</span> cannot be used, as a part that %s on is missing\n"
                "(<code>used-and-skipped</code>).",
                skipped, skipped == 1 ? "it builds" : "they build");
}

/* Which planes lack of what was asked for; levels that lack the same as one stretch. */
static void list_missing(FILE *out, const Sheet *sheet) {
    const Holding *holding = &sheet->holding;
    const char *level_word = " Level";
    for (uint32_t level = holding->levels; level > 0; level--) {
        uint32_t first = level, lacking = lacking_planes(holding, level, &sheet->asked);
        while (level > 1 && lacking_planes(holding, level - 1, &sheet->asked) == lacking)
            level--;
        if (lacking == 0)
            continue;
        if (first == level)
            fprintf(out, "%s %" PRIu32 " lacks plane ", level_word, level);
        else
            fprintf(out, "%ss %" PRIu32 " to %" PRIu32 " lack plane ", level_word, first, level);
        tell_missing_planes(out, holding, level, &sheet->asked);
        level_word = "; level";
    }
    fputc('.', out);
}

static const char *is_or_are(uint32_t count) {
    return count == 1 ? "is" : "are";
}

static void tell_unasked(FILE *out, const Sheet *sheet, uint32_t missing) {
    const Holding *holding = &sheet->holding;
    Asked served;
    if (missing == 0) {
        fprintf(out, "<strong>It would, and no part is missing:</strong> all %" PRIu32 " are there.", parts_of_whole(holding));
    } else if (is_as_served(holding, &served)) {
        fprintf(out, "<strong>It does: %" PRIu32 " of %" PRIu32 " parts %s not there.</strong> Those that are: %s; of these none is missing.\n", missing,
                parts_of_whole(holding), is_or_are(missing), in_words(&served, holding->header).text);
        fprintf(out,
                "Whether the others were left out or lost the record does not tell; with <code>-r %" PRIu64 " -p %" PRIu64
                "</code> it is said what was asked for.",
                served.level, served.plane);
    } else {
        fprintf(out, "<strong>It does: %" PRIu32 " of %" PRIu32 " parts %s missing.</strong>", missing, parts_of_whole(holding), is_or_are(missing));
        list_missing(out, sheet);
    }
}

static void tell_asked(FILE *out, const Sheet *sheet, uint32_t missing) {
    const Holding *holding = &sheet->holding;
    Sentence asked = in_words(&sheet->asked, holding->header);
    uint32_t left_out = count_left_out(&sheet->asked, holding);
    if (sheet->asked.is_within)
        asked = say("within %" PRIu64 " grey values, which is %s", sheet->asked.most, asked.text);
    if (missing == 0) {
        fprintf(out, "<strong>It would. As asked for: %s; none of these is missing.</strong>", asked.text);
    } else {
        fprintf(out, "<strong>It does: %" PRIu32 " of the %" PRIu32 " parts asked for %s missing.</strong> As asked for: %s.", missing,
                count_asked(&sheet->asked, holding), is_or_are(missing), asked.text);
        list_missing(out, sheet);
    }
    if (left_out > 0)
        fprintf(out, " Left out by request: <span id=\"left\">%" PRIu32 "</span> of the record&rsquo;s %" PRIu32 " parts.", left_out, parts_of_whole(holding));
}

static void tell_tail(FILE *out, const Holding *holding) {
    fputs(" Behind the last part the file has <span id=\"tail\">", out);
    print_grouped(out, holding->tail);
    fprintf(out, "</span> byte%s more, no whole part, ", holding->tail == 1 ? "" : "s");
    if (is_tail_used(holding))
        fprintf(out, "used as far as its bits go: coefficients of level %" PRIu32 " are rounded at plane %" PRIu32 " or %" PRIu32 ".", holding->cut.level,
                holding->cut.plane + 1, holding->cut.plane);
    else
        fputs("not used.", out);
}

static void answer_what_lacks(FILE *out, const Sheet *sheet) {
    const Holding *holding = &sheet->holding;
    uint32_t missing = count_lacking(&sheet->asked, holding);
    begin_answer(out, "If the link dropped a piece, would the picture say so?");
    if (sheet->asked.is_said)
        tell_asked(out, sheet, missing);
    else
        tell_unasked(out, sheet, missing);
    tell_skipped(out, holding);
    if (missing > 0 && farthest_pixel(holding, sheet->halvings) == 0)
        fputs(" None of what lacks is needed for this picture.", out);
    if (holding->tail > 0)
        tell_tail(out, holding);
    fputs(" A part that did not arrive whole makes the plane reported for its level, and for every finer one, greater than\n"
          "its own (<code>loss-shows</code>).",
          out);
    if (sheet->held == NULL)
        fputs(" Bytes that were changed inside of a part do not show here, but beside the seal.", out);
    end_answer(out);
}

static void tell_what_changed(FILE *out, const Held *held) {
    if (held->verdict->comparison.is_changed) {
        fputs("Held against the seal of ", out);
        print_escaped(out, held->verdict->comparison.seal->name);
        fputs(":<br>\n", out);
        print_escaped_lines(out, held->found);
    }
    if (held->verdict->namesakes > 0)
        fputs("Which sealed record it is to be, its name does not tell: <code>--of</code> does.<br>\n", out);
}

/* Instead of the answers, where nothing is claimed. */
static void tell_found(FILE *out, const Sheet *sheet) {
    begin_answer(out, "What was found");
    if (sheet->held != NULL)
        tell_what_changed(out, sheet->held);
    if (sheet->outside > 0) {
        fputs("All of the record is there, and <span id=\"outside\">", out);
        print_grouped(out, sheet->outside);
        fprintf(out, "</span> %s out under 0 or over 255. Of a picture&rsquo;s record none does\n", sheet->outside == 1 ? "pixel comes" : "pixels come");
        fputs("(<code>from-picture-to-picture</code>): it was changed, or made of no picture.<br>\n", out);
    }
    fputs("So of what is drawn here it is not said how far a pixel may be from a recorded one, whose job it shows, or what is missing.", out);
    end_answer(out);
}

void write_answers(FILE *out, const Sheet *sheet) {
    fputs("<section class=\"answers\">\n", out);
    if (makes_claims(sheet)) {
        answer_whose(out, sheet);
        answer_how_far(out, sheet);
        answer_what_lacks(out, sheet);
    } else {
        tell_found(out, sheet);
    }
    fputs("</section>\n", out);
}
