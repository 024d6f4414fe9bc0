#include "commands.h"

#include "asking.h"
#include "batch.h"
#include "calls.h"
#include "certificate.h"
#include "holding.h"
#include "joining.h"
#include "json.h"
#include "messages.h"
#include "nearness.h"
#include "notes.h"
#include "output.h"
#include "paths.h"
#include "pictures.h"
#include "png_file.h"
#include "progress.h"
#include "refusals.h"
#include "telling.h"
#include "text.h"
#include "verdicts.h"

#include <inttypes.h>
#include <stdlib.h>

/* One file's turn. */
typedef struct {
    const Request *request;
    Output *output;
    Seals *seals;     /* made by sealing, or read */
    Matcher *matcher; /* of those that were read */
    const char *path, *name;
    Bytes input;
} Turn;

static Outcome call(const Request *request, Bytes input) {
    switch (request->command) {
    case CODE:
        if (request->is_picture)
            return code_picture(input, request->has_decompositions ? &request->decompositions : NULL);
        return code(input, request->width, request->height, request->decompositions);
    case SERVE:
        return request->has_most ? serve_within(input, request->most) : serve(input, request->level, request->plane);
    case PARTS:
    case SEAL:
        return serve(input, 1, 0);
    case DECODE:
        return request->grey ? print_picture(input, request->halvings) : decode(input);
    case CERTIFICATE:
        return print_picture(input, halvings_to_draw(request, input));
    case EXPLAIN:
        return print_picture(input, 0);
    default:
        return decode(input);
    }
}

/* What decoding was to expect has to be something that can be asked for. */
static Outcome call_and_judge(const Request *request, Bytes input) {
    if ((request->command == DECODE || request->command == CERTIFICATE) && request->asks) {
        Outcome served = serve(input, request->level, request->plane);
        free(served.bytes.at);
        served.bytes = (Bytes){NULL, 0};
        if (served.number == AFS_ASK)
            return served;
    }
    return call(request, input);
}

/* With many files each block names its own. */
static void tell_in_words(FILE *out, const Turn *turn, const Outcome *outcome) {
    bool is_one_of_many = turn->request->count > 1;
    if (turn->request->command == PARTS) {
        if (is_one_of_many)
            fprintf(out, "file %s\n", turn->name);
        list_parts(out, turn->input, outcome);
    } else if (turn->request->command == EXPLAIN) {
        if (is_one_of_many)
            fprintf(out, "%s%s:\n", turn->output->stream == NULL ? "" : "\n", turn->name);
        explain(out, turn->input, outcome);
    }
}

static void put_text(Output *output, Text *text) {
    Bytes told = end_text(text);
    if (told.length > 0)
        put_out(output, told.at, told.length);
    free(told.at);
}

static void tell(const Turn *turn, const Outcome *outcome) {
    Text text;
    begin_text(&text);
    if (!turn->request->json)
        tell_in_words(text.stream, turn, outcome);
    else
        tell_accepted(text.stream, turn->request, turn->name, turn->input, outcome);
    put_text(turn->output, &text);
}

static int tell_refusal(const Turn *turn, const Outcome *outcome) {
    Sentence why = why_refused(turn->request, turn->input, outcome);
    if (turn->request->json) {
        Text text;
        begin_text(&text);
        tell_refused(text.stream, turn->request, turn->name, turn->input, outcome, why.text);
        put_text(turn->output, &text);
    } else {
        clear_progress();
        fprintf(stderr, "refused %" PRIu64 " %s at %" PRIu64 ": %s: %s\n", outcome->number, name_of(outcome->number), outcome->place, turn->name, why.text);
    }
    return STATUS_REFUSED;
}

/* A pyramid, or a picture, which is drawn as a grey file first. */
static void put_decoded(const Turn *turn, const Holding *holding, Bytes decoded) {
    if (turn->request->kind != AS_PNG) {
        put_out(turn->output, decoded.at, decoded.length);
        return;
    }
    uint32_t width = holding->header.width >> turn->request->halvings, height = holding->header.height >> turn->request->halvings;
    Bytes png = png_of(decoded.at + (decoded.length - (size_t)width * height), width, height, scale_named("grey"));
    put_out(turn->output, png.at, png.length);
    free(png.at);
}

static int finish_decoded(const Turn *turn, const Outcome *outcome) {
    const Request *request = turn->request;
    Holding holding = holding_of(turn->input, outcome);
    bool is_short = lacks(request, &holding), is_too_short = is_short && request->whole;
    bool is_wrong = request->grey && pixels_outside(turn->input, &holding, outcome, request->halvings) > 0;
    if (is_short)
        note_decoded(request, turn->name, &holding);
    if (outcome->clipped > 0)
        note_clipped(request, turn->name, outcome->clipped);
    if (is_wrong)
        note_no_picture(request, turn->name);
    if (request->json)
        tell(turn, outcome);
    else if (!request->check && !is_too_short)
        put_decoded(turn, &holding, outcome->bytes);
    return is_too_short || is_wrong ? STATUS_LACKS : STATUS_DONE;
}

/* A seal has no place for bytes that are no whole part. */
static int finish_sealed(const Turn *turn, const Outcome *outcome) {
    if (outcome->tail > 0 && !turn->request->json)
        complain("%s: has a tail of %" PRIu64 " bytes, which can't be sealed; 'afs serve' leaves it out", turn->name, outcome->tail);
    if (turn->request->json)
        tell(turn, outcome);
    else if (outcome->tail == 0)
        add_seal(turn->seals, seal_of(turn->name, outcome->bytes));
    return outcome->tail > 0 ? STATUS_LACKS : STATUS_DONE;
}

static int finish_certificate(const Turn *turn, const Outcome *outcome) {
    int status;
    Bytes sheet = certificate_of(turn->request, turn->matcher, turn->path, turn->input, outcome, &status);
    put_out(turn->output, sheet.at, sheet.length);
    free(sheet.at);
    return status;
}

static int finish_coded(const Turn *turn, const Outcome *outcome) {
    const uint8_t *at = outcome->bytes.at;
    if (turn->request->is_picture)
        note_coded(turn->request, turn->name, read_header(&at).decompositions);
    put_out(turn->output, outcome->bytes.at, outcome->bytes.length);
    return STATUS_DONE;
}

static int finish_served(const Turn *turn, const Outcome *outcome) {
    note_served(turn->request, turn->name, outcome);
    put_out(turn->output, outcome->bytes.at, outcome->bytes.length);
    return turn->request->has_most && outcome->farthest > turn->request->most ? STATUS_LACKS : STATUS_DONE;
}

static int finish_turn(const Turn *turn, const Outcome *outcome) {
    switch (turn->request->command) {
    case DECODE:
        return finish_decoded(turn, outcome);
    case PARTS:
    case EXPLAIN:
        tell(turn, outcome);
        return STATUS_DONE;
    case SEAL:
        return finish_sealed(turn, outcome);
    case CERTIFICATE:
        return finish_certificate(turn, outcome);
    case SERVE:
        return finish_served(turn, outcome);
    default:
        return finish_coded(turn, outcome);
    }
}

static int tell_unreadable(const Turn *turn, const char *why) {
    complain("%s: %s", turn->name, why);
    if (turn->request->json) {
        Text text;
        begin_text(&text);
        tell_unread(text.stream, turn->request, turn->name, why);
        put_text(turn->output, &text);
    }
    return STATUS_FAILED;
}

/* Refused or not, what can be read of it is compared. */
static int verify(const Turn *turn) {
    Reading reading = read_file(turn->name, turn->input);
    bool is_refused = reading.outcome.number != AFS_ACCEPTED;
    Sentence why = is_refused ? why_refused(turn->request, turn->input, &reading.outcome) : say("%s", "");
    Verdict verdict = verdict_on(turn->matcher, turn->request, &reading);
    Text text;
    begin_text(&text);
    if (turn->request->json)
        tell_verified(text.stream, turn->matcher, &verdict, is_refused ? why.text : NULL);
    else
        tell_verdict(text.stream, turn->matcher, &verdict, turn->request->quiet);
    put_text(turn->output, &text);
    if (is_refused && !turn->request->json)
        tell_refusal(turn, &reading.outcome);
    free_reading(&reading);
    return verdict.status;
}

static int call_and_finish(const Turn *turn) {
    Outcome outcome = call_and_judge(turn->request, turn->input);
    int status = outcome.number == AFS_ACCEPTED ? finish_turn(turn, &outcome) : tell_refusal(turn, &outcome);
    free(outcome.bytes.at);
    return status;
}

static int take_turn(Turn turn, const char *path) {
    turn.path = path;
    turn.name = name_of_input(path);
    const char *why = read_input(path, turn.request->force, &turn.input);
    if (why != NULL)
        return tell_unreadable(&turn, why);
    if (turn.request->is_picture)
        take_as_grey_file(&turn.input);
    int status = turn.request->command == VERIFY ? verify(&turn) : call_and_finish(&turn);
    free(turn.input.at);
    return status;
}

static void read_all_seals(const Request *request, Seals *seals) {
    Bytes text;
    const char *name = name_of_input(request->seals), *why = read_input(request->seals, request->force, &text);
    if (why != NULL)
        fail("%s: %s", name, why);
    size_t line = read_seals(text, seals);
    free(text.at);
    if (line > 0)
        fail("%s: line %zu isn't as 'afs seal' wrote it", name, line);
}

static Matcher match_seals(const Request *request, const Seals *seals) {
    Matcher matcher = matcher_of(seals);
    if (request->of == NULL)
        return matcher;
    char *path = plain_path(request->of);
    Namesakes namesakes = namesakes_of(&matcher, path);
    free(path);
    if (namesakes.count == 0)
        fail("%s: no record is sealed as %s", name_of_input(request->seals), request->of);
    if (namesakes.count > 1)
        fail("%s: %zu records are sealed as %s; the folder before it tells which", name_of_input(request->seals), namesakes.count, request->of);
    return matcher;
}

static void put_seals(Output *output, Seals *seals) {
    const char *twice = sort_seals(seals);
    if (twice != NULL)
        fail("%s: is to be sealed twice; of each name there is one seal", twice);
    Text text;
    begin_text(&text);
    write_seals(&text, seals);
    put_text(output, &text);
}

static int take_turns(Turn turn) {
    const Request *request = turn.request;
    int status = STATUS_DONE;
    for (size_t i = 0; i < request->count; i++) {
        if (request->count > 1 && !request->quiet)
            show_progress(i, request->count, false);
        int of_this = take_turn(turn, request->files[i]);
        status = of_this > status ? of_this : status;
        show_output(turn.output);
    }
    if (request->count > 1)
        clear_progress();
    return status;
}

static Output output_for(const Request *request) {
    return output_to(request->out, request->kind == AS_TEXT || request->kind == AS_HTML, request->force);
}

/* What all files are held against. */
typedef struct {
    Seals seals;
    Matcher matcher;
} Known;

static int run_one(const Request *request, void *with) {
    Known *known = with;
    Output output = output_for(request);
    int status = take_turns((Turn){.request = request, .output = &output, .seals = &known->seals, .matcher = &known->matcher});
    if (request->command == SEAL && known->seals.count > 0)
        put_seals(&output, &known->seals);
    finish_output(&output);
    return status;
}

int run(const Request *request) {
    if (request->command == JOIN)
        return run_join(request);
    Known known = {.seals = {NULL, 0, 0}};
    if (request->seals != NULL)
        read_all_seals(request, &known.seals);
    known.matcher = match_seals(request, &known.seals);
    int status = request->to != NULL ? run_batch(request, run_one, &known) : run_one(request, &known);
    free_matcher(&known.matcher);
    free_seals(&known.seals);
    return status;
}
