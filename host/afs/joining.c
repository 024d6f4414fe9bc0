#include "joining.h"

#include "calls.h"
#include "messages.h"
#include "output.h"
#include "refusals.h"

#include <inttypes.h>
#include <stdlib.h>

enum { RECORDS = 2 };

typedef struct {
    const char *name;
    Bytes bytes;
} Input;

/* Tells of each that can't be read. */
static bool read_both(const Request *request, Input *inputs) {
    bool are_read = true;
    for (size_t i = 0; i < RECORDS; i++) {
        inputs[i].name = name_of_input(request->files[i]);
        const char *why = read_input(request->files[i], request->force, &inputs[i].bytes);
        if (why == NULL)
            continue;
        complain("%s: %s", inputs[i].name, why);
        inputs[i].bytes = (Bytes){NULL, 0};
        are_read = false;
    }
    return are_read;
}

/* A refusal that reading gives is that of the first record, or else of the second; any other is of both together. */
static int tell_join_refused(const Request *request, const Input *inputs, const Outcome *outcome) {
    if (outcome->number == AFS_MIXED || outcome->number == AFS_CLASH || outcome->number == AFS_ROOM) {
        Sentence why = why_not_joined(inputs[0].bytes, inputs[1].bytes, outcome);
        fprintf(stderr, "refused %" PRIu64 " %s at %" PRIu64 ": %s and %s: %s\n", outcome->number, name_of(outcome->number), outcome->place,
                inputs[0].name, inputs[1].name, why.text);
        return STATUS_REFUSED;
    }
    const Input *of = is_record(inputs[0].bytes) ? &inputs[1] : &inputs[0];
    Sentence why = why_refused(request, of->bytes, outcome);
    fprintf(stderr, "refused %" PRIu64 " %s at %" PRIu64 ": %s: %s\n", outcome->number, name_of(outcome->number), outcome->place, of->name, why.text);
    complain("%s: this is its own fault, so it can't be joined with any record", of->name);
    return STATUS_REFUSED;
}

static int join_both(const Request *request, const Input *inputs, Output *output) {
    Outcome outcome = join(inputs[0].bytes, inputs[1].bytes);
    int status = STATUS_DONE;
    if (outcome.number == AFS_ACCEPTED)
        put_out(output, outcome.bytes.at, outcome.bytes.length);
    else
        status = tell_join_refused(request, inputs, &outcome);
    free(outcome.bytes.at);
    return status;
}

int run_join(const Request *request) {
    Output output = output_to(request->out, false, request->force);
    Input inputs[RECORDS];
    int status = read_both(request, inputs) ? join_both(request, inputs, &output) : STATUS_FAILED;
    for (size_t i = 0; i < RECORDS; i++)
        free(inputs[i].bytes.at);
    finish_output(&output);
    return status;
}
