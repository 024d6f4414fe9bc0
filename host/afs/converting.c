#include "converting.h"

#include <errno.h>
#include <fcntl.h>
#include <signal.h>
#include <spawn.h>
#include <stdio.h>
#include <stdlib.h>
#include <string.h>
#include <sys/wait.h>
#include <unistd.h>

extern char **environ;

/* A folder of its own, with the names that programs are told. */
typedef struct {
    char folder[256], html[300], pdf[300], page[300], first_page[300], second_page[300], profile[300], print[320];
} Workshop;

static bool begin_workshop(Workshop *shop) {
    const char *temporary = getenv("TMPDIR");
    int length = snprintf(shop->folder, sizeof shop->folder, "%s/afs-XXXXXX", temporary != NULL && temporary[0] == '/' ? temporary : "/tmp");
    if (length < 0 || (size_t)length >= sizeof shop->folder || mkdtemp(shop->folder) == NULL)
        return false;
    snprintf(shop->html, sizeof shop->html, "%s/sheet.html", shop->folder);
    snprintf(shop->pdf, sizeof shop->pdf, "%s/sheet.pdf", shop->folder);
    snprintf(shop->page, sizeof shop->page, "%s/page", shop->folder);
    snprintf(shop->first_page, sizeof shop->first_page, "%s/page-1.png", shop->folder);
    snprintf(shop->second_page, sizeof shop->second_page, "%s/page-2.png", shop->folder);
    snprintf(shop->profile, sizeof shop->profile, "--user-data-dir=%s/profile", shop->folder);
    snprintf(shop->print, sizeof shop->print, "--print-to-pdf=%s", shop->pdf);
    return true;
}

/* Whether it could be run and did what it was told, with nothing said. `before` are the signals that it is to be reached by. */
static bool run_program(const char *const *words, const sigset_t *before) {
    posix_spawn_file_actions_t actions;
    posix_spawnattr_t attributes;
    pid_t child;
    int status = -1;
    posix_spawn_file_actions_init(&actions);
    posix_spawnattr_init(&attributes);
    for (int stream = STDIN_FILENO; stream <= STDERR_FILENO; stream++)
        posix_spawn_file_actions_addopen(&actions, stream, "/dev/null", O_RDWR, 0);
    posix_spawnattr_setflags(&attributes, POSIX_SPAWN_SETSIGMASK);
    posix_spawnattr_setsigmask(&attributes, before);
    bool runs = posix_spawnp(&child, words[0], &actions, &attributes, (char *const *)words, environ) == 0;
    posix_spawnattr_destroy(&attributes);
    posix_spawn_file_actions_destroy(&actions);
    while (runs && waitpid(child, &status, 0) == -1 && errno == EINTR)
        continue;
    return runs && WIFEXITED(status) && WEXITSTATUS(status) == 0;
}

static bool write_html(const Workshop *shop, Bytes html) {
    FILE *out = fopen(shop->html, "wb");
    bool is_written = out != NULL && fwrite(html.at, 1, html.length, out) == html.length;
    return out != NULL && fclose(out) == 0 && is_written;
}

/* Chromium refuses to shut itself in where it is run by root. */
static bool make_pdf(const Workshop *shop, const sigset_t *before) {
    const char *const chromium[] = {"chromium", "--headless", "--disable-gpu", "--disable-dev-shm-usage", "--no-first-run", "--no-pdf-header-footer",
                                    geteuid() == 0 ? "--no-sandbox" : "--disable-extensions", shop->profile, shop->print, shop->html, NULL};
    const char *const weasyprint[] = {"weasyprint", shop->html, shop->pdf, NULL};
    return (run_program(chromium, before) && access(shop->pdf, R_OK) == 0) || (run_program(weasyprint, before) && access(shop->pdf, R_OK) == 0);
}

static bool make_pages(const Workshop *shop, const sigset_t *before) {
    const char *const pdftoppm[] = {"pdftoppm", "-png", "-r", "150", "-l", "2", shop->pdf, shop->page, NULL};
    return run_program(pdftoppm, before) && access(shop->first_page, R_OK) == 0;
}

static const char *make(const Workshop *shop, Bytes html, Kind kind, Bytes *made, const sigset_t *before) {
    if (!write_html(shop, html))
        return "the sheet could not be written to the folder for temporary files";
    if (!make_pdf(shop, before))
        return "neither chromium nor weasyprint made it; a name that ends in .html needs none of them";
    if (kind == AS_PDF)
        return read_input(shop->pdf, false, made);
    if (!make_pages(shop, before))
        return "pdftoppm, of the package poppler-utils, didn't make it; a name that ends in .html or .pdf doesn't need it";
    if (access(shop->second_page, R_OK) == 0)
        return "the sheet has more than one page, and a picture has room for one; a name that ends in .pdf has for all";
    return read_input(shop->first_page, false, made);
}

/* Signals are held back, so that whatever ends the program finds the folder removed; they reach the programs that are run. */
const char *convert_sheet(Bytes html, Kind kind, Bytes *made) {
    Workshop shop;
    sigset_t all, before;
    sigfillset(&all);
    sigprocmask(SIG_BLOCK, &all, &before);
    const char *why = "no folder for temporary files could be made";
    if (begin_workshop(&shop)) {
        const char *const remove[] = {"rm", "-rf", shop.folder, NULL};
        why = make(&shop, html, kind, made, &before);
        run_program(remove, &all);
    }
    sigprocmask(SIG_SETMASK, &before, NULL);
    return why;
}
