#include "options.h"

#include "files.h"
#include "help.h"
#include "messages.h"
#include "output.h"
#include "text.h"
#include "words.h"

#include <errno.h>
#include <stdlib.h>
#include <string.h>

static uint64_t number_from(const char *name, unsigned least, unsigned most, const char *text) {
    char *end;
    errno = 0;
    uint64_t number = strtoull(text, &end, 10);
    if (text[0] < '0' || text[0] > '9' || *end != '\0' || errno != 0)
        misused("%s is a number from %u to %u, not '%s'", name, least, most, text);
    return number;
}

static uint64_t number_within(const char *name, unsigned least, unsigned most, const char *text) {
    uint64_t number = number_from(name, least, most, text);
    if (number < least || number > most)
        misused("%s is a number from %u to %u, not '%s'", name, least, most, text);
    return number;
}

static _Noreturn void print_and_exit(Text *text) {
    Bytes printed = end_text(text);
    Output output = output_to(NULL, true, false);
    put_out(&output, printed.at, printed.length);
    free(printed.at);
    finish_output(&output);
    exit(STATUS_DONE);
}

static const Scale *scale_from(const char *name) {
    const Scale *scale = scale_named(name != NULL ? name : "grey");
    if (scale == NULL)
        misused("SCALE is %s, not '%s'", scale_names, name);
    return scale;
}

/* Nothing is as if it weren't given. */
static const char *some(const char *text) {
    return text != NULL && text[0] != '\0' ? text : NULL;
}

static Command command_named(const char *name) {
    for (Command command = 0; command < COMMANDS; command++)
        if (strcmp(commands[command], name) == 0)
            return command;
    misused("no command '%s': %s are there", name, commands_in_words(EVERY).text);
}

/* Of the command that is named behind 'help', or before --help; of all where none is. */
static _Noreturn void print_help_and_exit(const Words *words) {
    bool has_word = words->count > 0 && strcmp(words->operands[0], "help") == 0;
    if (words->count > 1u + has_word && has_word)
        misused("too many arguments: '%s'", words->operands[2]);
    const char *name = words->count > has_word ? words->operands[has_word] : NULL;
    Text text;
    begin_text(&text);
    print_help(text.stream, name == NULL ? EVERY : 1u << command_named(name));
    print_and_exit(&text);
}

/* And what it stands on: the archive that it is linked with, and the kit that this was proved with. */
static _Noreturn void print_version_and_exit(bool is_verbose) {
    Text text;
    begin_text(&text);
    fputs("afs " VERSION "\n", text.stream);
    if (is_verbose)
        fputs("library sha256 " LIBRARY_SHA256 "\nproved with " KIT "\n", text.stream);
    print_and_exit(&text);
}

/* The kind that a command writes where its name tells none. */
static Kind kind_without_name(const Words *words, const Request *request) {
    switch (request->command) {
    case DECODE:
        return request->check ? AS_TEXT : words->given[GREY] ? AS_PGM : AS_PYRAMID;
    case CERTIFICATE:
        return AS_HTML;
    case CODE:
    case SERVE:
    case JOIN:
        return AS_RECORD;
    default:
        return AS_TEXT;
    }
}

static Kind kind_by_word(const Request *request, const char *word) {
    Kind kind = kind_asked(request->command, word);
    if (kind == KINDS)
        misused("KIND is %s, not '%s'", words_for_kinds(request->command), word);
    return kind;
}

/* A name that stands for another kind of file than is written is wrong. By force a pyramid stands where its record stood. */
static Kind choose_kind(const Words *words, const Request *request) {
    Kind kind = words->given[AS] ? kind_by_word(request, words->arguments[AS]) : kind_without_name(words, request), named = kind_named(request->out);
    if (named == KINDS || (named == AS_RECORD && request->command == DECODE && words->given[FORCE]))
        return kind;
    if (kind == AS_TEXT ? named != AS_TEXT : !is_written_by(request->command, named))
        misused("%s: %s writes %s", request->out, commands[request->command], request->check ? "text here, as NAME.txt" : written_by(request->command));
    if ((words->given[AS] && named != kind) || (words->given[GREY] && named == AS_PYRAMID))
        misused("%s: stands for another kind of file than %s does", request->out, as_typed(words, words->given[AS] ? AS : GREY).text);
    return named;
}

/* Many files have no place in one, nor have they all one name. */
static void judge_folder(const Words *words, const Request *request) {
    if (request->to == NULL && words->given[JOBS])
        misused("%s is for many files: --to stands beside it", as_typed(words, JOBS).text);
    if (request->to != NULL && request->out != NULL)
        misused("beside --to there is no place for %s: each file keeps its name", as_typed(words, OUTPUT).text);
    if (request->check && (request->to != NULL || words->given[AS]))
        misused("--check writes nothing, so there is no place for --%s", request->to != NULL ? "to" : "as");
}

static const char of_json[] = "parts, explain, seal, verify and decode --check";

static void judge_each_option(const Words *words, const Request *request) {
    for (Option option = 0; option < OPTIONS; option++)
        if (words->given[option] && !(options[option].commands >> request->command & 1))
            misused("%s is for %s", as_typed(words, option).text, option == JSON ? of_json : commands_in_words(options[option].commands).text);
}

static void judge_together(const Words *words, const Request *request) {
    if (request->json && request->command == DECODE && !request->check)
        misused("--json is for %s", of_json);
    if (words->given[HALVE] && !request->grey)
        misused("%s is for pictures: -g, or -o NAME.pgm or NAME.png, stands beside it", as_typed(words, HALVE).text);
    if (request->has_most && (words->given[LEVEL] || words->given[PLANE]))
        misused("beside %s there is no place for -r or -p", as_typed(words, MOST).text);
    if (request->command == CERTIFICATE && request->of != NULL && request->seals == NULL)
        misused("--of names a sealed record: --seals stands beside it");
    if (request->out != NULL && request->check && !request->json)
        misused("--check writes nothing, so there is no place for -o");
    judge_folder(words, request);
}

static bool takes_many(const Request *request) {
    return request->to != NULL || request->command == PARTS || request->command == EXPLAIN || request->command == SEAL || request->command == VERIFY ||
           request->check;
}

/* The seals stand before the files that are held against them. */
static size_t read_seals_name(const Words *words, Request *request) {
    if (words->count == 1)
        misused("verify needs the seals, and then the files that are to be held against them");
    request->seals = words->operands[1];
    return 2;
}

/* W, H and N of a pyramid stand before its file; where there is at most one operand, or many are written to a folder, each is a picture. */
static size_t read_numbers(const Words *words, Request *request) {
    static const char *const names[] = {"W", "H", "N"};
    uint64_t *const numbers[] = {&request->width, &request->height, &request->decompositions};
    request->is_picture = request->command == CODE && (words->count <= 2 || request->to != NULL);
    if (request->command != CODE || request->is_picture)
        return 1;
    if (words->count == 3)
        misused("before a pyramid stand W, H and N, and before a picture nothing");
    if (words->given[DECOMPOSITIONS])
        misused("%s is for pictures; of a pyramid N stands behind W and H", as_typed(words, DECOMPOSITIONS).text);
    for (size_t i = 0; i < 3; i++)
        *numbers[i] = number_from(names[i], i < 2 ? 4 : 1, i < 2 ? 512 : 5, words->operands[1 + i]);
    return 4;
}

static void judge_names(const Request *request) {
    if (request->count == 0)
        misused("--to needs files: each keeps its name");
    for (size_t i = 0; i < request->count; i++)
        if (!is_named(request->files[i]))
            misused("standard input has no name to be kept by --to");
}

static void judge_pair(const Request *request) {
    if (request->count < 2)
        misused("two records are joined: FIRST and SECOND");
    if (request->count > 2)
        misused("too many arguments: '%s'", request->files[2]);
    if (!is_named(request->files[0]) && !is_named(request->files[1]))
        misused("only one of the two records can be standard input");
}

/* Command, numbers, files. */
static void read_operands(const Words *words, Request *request) {
    static char *const standard_input[] = {"-"};
    size_t before_files = request->command == VERIFY ? read_seals_name(words, request) : read_numbers(words, request);
    for (size_t i = before_files; i < words->before_dashes; i++)
        if (words->operands[i][0] == '-' && words->operands[i][1] != '\0')
            misused("no option %s", words->operands[i]);
    request->files = words->operands + before_files;
    request->count = words->count - before_files;
    if (request->command == JOIN)
        judge_pair(request);
    else if (request->count > 1 && !takes_many(request))
        misused("too many arguments: '%s'", request->files[1]);
    if (request->to != NULL)
        judge_names(request);
    if (request->count == 0) {
        request->files = standard_input;
        request->count = 1;
    }
    if (request->command == CERTIFICATE && request->seals != NULL && !is_named(request->seals) && !is_named(request->files[0]))
        misused("only one of record and seals can be standard input");
}

/* The halved picture needs no finer levels than these. */
static void expect(const Words *words, Request *request) {
    request->asks = words->given[LEVEL] || words->given[PLANE];
    request->has_expectation = request->asks || request->halvings > 0;
    request->has_level = words->given[LEVEL];
    if (!request->has_level)
        request->level = request->halvings + 1;
}

static void take_numbers(const Words *words, Request *request) {
    const char *const *arguments = words->arguments;
    if (words->given[DECOMPOSITIONS])
        request->decompositions = number_from("N", 1, 5, arguments[DECOMPOSITIONS]);
    if (words->given[LEVEL])
        request->level = number_from("LEVEL", 1, 6, arguments[LEVEL]);
    if (words->given[PLANE])
        request->plane = number_from("PLANE", 0, 17, arguments[PLANE]);
    if (words->given[HALVE])
        request->halvings = number_from("S", 0, 4, arguments[HALVE]);
    if (words->given[MOST])
        request->most = number_within("E", 0, 255, arguments[MOST]);
    request->jobs = words->given[JOBS] ? number_within("JOBS", 1, MOST_JOBS, arguments[JOBS]) : 1;
}

static void take_texts(const Words *words, Request *request) {
    request->seals = words->arguments[SEALS];
    request->of = words->arguments[OF];
    request->title = some(words->arguments[TITLE]);
    request->note = some(words->arguments[NOTE]);
    request->device = some(words->arguments[DEVICE]);
    request->scale = scale_from(words->arguments[SCALE]);
    request->out = words->arguments[OUTPUT];
    request->to = words->arguments[TO];
}

static void take_switches(const Words *words, Request *request) {
    request->force = words->given[FORCE];
    request->quiet = words->given[QUIET];
    request->whole = words->given[WHOLE];
    request->check = words->given[CHECK];
    request->json = words->given[JSON];
    request->has_most = words->given[MOST];
    request->has_decompositions = words->given[DECOMPOSITIONS];
}

Request request_from(char **argv) {
    Words words = words_of(argv);
    if (words.given[HELP] || (words.count > 0 && strcmp(words.operands[0], "help") == 0))
        print_help_and_exit(&words);
    if (words.given[VERSION_OPTION])
        print_version_and_exit(words.given[VERBOSE]);
    if (words.given[VERBOSE])
        misused("--verbose is for --version");
    if (words.count == 0)
        misused("no command: %s are there", commands_in_words(EVERY).text);
    Request request = {.command = command_named(words.operands[0])};
    take_numbers(&words, &request);
    take_texts(&words, &request);
    take_switches(&words, &request);
    judge_each_option(&words, &request);
    request.kind = choose_kind(&words, &request);
    request.grey = words.given[GREY] || (request.command == DECODE && (request.kind == AS_PGM || request.kind == AS_PNG));
    expect(&words, &request);
    judge_together(&words, &request);
    read_operands(&words, &request);
    return request;
}
