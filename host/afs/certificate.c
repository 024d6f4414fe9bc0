#include "certificate.h"

#include "converting.h"
#include "messages.h"
#include "sheet.h"
#include "text.h"

#include <stdlib.h>
#include <string.h>
#include <sys/stat.h>
#include <time.h>
#include <unistd.h>

enum { ROOM_FOR_DATE = 64 };

/* When the file was written, or NULL where nobody can tell. */
static const char *date_of(const char *path, char room[ROOM_FOR_DATE]) {
    struct stat file;
    struct tm parts;
    if (!is_named(path) || stat(path, &file) != 0 || !S_ISREG(file.st_mode) || gmtime_r(&file.st_mtime, &parts) == NULL)
        return NULL;
    return strftime(room, ROOM_FOR_DATE, "%Y-%m-%d %H:%M:%S UTC", &parts) > 0 ? room : NULL;
}

static const char *last_name(const char *name) {
    const char *slash = strrchr(name, '/');
    return slash == NULL || slash[1] == '\0' ? name : slash + 1;
}

/* A text of its own, which the caller frees. */
static char *string_of(Text *text) {
    return (char *)end_text(text).at;
}

/* The names of files beside the seals that are called as signatures of them are. */
static char *signatures_beside(const char *seals) {
    static const char *const endings[] = {".asc", ".minisig", ".sig"};
    Text names;
    bool has_any = false;
    begin_text(&names);
    for (size_t i = 0; is_named(seals) && i < sizeof endings / sizeof *endings; i++) {
        char *path = memory_for(strlen(seals) + strlen(endings[i]) + 1, 1);
        strcat(strcpy(path, seals), endings[i]);
        if (access(path, F_OK) == 0) {
            fprintf(names.stream, "%s%s", has_any ? ", " : "", last_name(path));
            has_any = true;
        }
        free(path);
    }
    return string_of(&names);
}

static char *found_by(Matcher *matcher, const Verdict *verdict) {
    Text text;
    begin_text(&text);
    if (verdict->comparison.seal != NULL && verdict->comparison.is_changed)
        tell_changes(text.stream, matcher, verdict);
    else if (verdict->comparison.seal != NULL)
        tell_unchanged(text.stream, &verdict->comparison);
    return string_of(&text);
}

static Bytes html_of(const Request *request, const char *path, Bytes record, const Outcome *printed, const Held *held, int *status) {
    char date[ROOM_FOR_DATE];
    Sheet sheet = {
        .name = last_name(name_of_input(path)),
        .date = date_of(path, date),
        .title = request->title,
        .note = request->note,
        .device = request->device,
        .scale = request->scale,
        .record = record,
        .printed = printed,
        .halvings = (uint32_t)halvings_to_draw(request, record),
        .holding = holding_of(record, printed),
        .held = held,
        .of_file = digest_of(record.at, record.length),
    };
    sheet.asked = asked_for(request, sheet.holding.header);
    sheet.outside = pixels_outside(record, &sheet.holding, printed, sheet.halvings);
    *status = held != NULL ? held->verdict->status : STATUS_DONE;
    if (sheet.outside > 0 && *status < STATUS_LACKS)
        *status = STATUS_LACKS;
    Text text;
    begin_text(&text);
    write_sheet(text.stream, &sheet);
    return end_text(&text);
}

static Bytes html_of_held(const Request *request, Matcher *matcher, const char *path, Bytes record, const Outcome *printed, int *status) {
    Reading reading = read_file(name_of_input(path), record);
    Verdict verdict = verdict_on(matcher, request, &reading);
    char *signatures = signatures_beside(request->seals), *found = found_by(matcher, &verdict);
    Held held = {.seals = last_name(name_of_input(request->seals)), .signatures = signatures, .found = found, .verdict = &verdict};
    Bytes html = html_of(request, path, record, printed, &held, status);
    free(signatures);
    free(found);
    free_reading(&reading);
    return html;
}

Bytes certificate_of(const Request *request, Matcher *matcher, const char *path, Bytes record, const Outcome *printed, int *status) {
    Bytes converted, html = request->seals != NULL ? html_of_held(request, matcher, path, record, printed, status)
                                                   : html_of(request, path, record, printed, NULL, status);
    if (request->kind == AS_HTML)
        return html;
    const char *why = convert_sheet(html, request->kind, &converted);
    free(html.at);
    if (why != NULL)
        fail("%s: %s", request->out, why);
    return converted;
}
