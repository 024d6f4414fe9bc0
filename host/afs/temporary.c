#include "temporary.h"

#include "files.h"

#include <errno.h>
#include <signal.h>
#include <stdio.h>
#include <stdlib.h>
#include <string.h>
#include <unistd.h>

/* Its path while it is there. Written only while signals are held back. */
static char *volatile temporary;

static void remove_temporary(void) {
    if (temporary != NULL)
        unlink(temporary);
}

static void remove_and_die(int signal_number) {
    remove_temporary();
    raise(signal_number); /* with its usual effect, which SA_RESETHAND brought back */
}

/* A signal that the caller has told to be ignored stays so. */
static void remove_at_end(void) {
    static const int signals[] = {SIGHUP, SIGINT, SIGQUIT, SIGILL, SIGTRAP, SIGABRT, SIGBUS, SIGFPE, SIGUSR1, SIGSEGV,
                                  SIGUSR2, SIGPIPE, SIGALRM, SIGTERM, SIGXCPU, SIGVTALRM, SIGPROF, SIGSYS};
    struct sigaction before, action = {.sa_handler = remove_and_die, .sa_flags = SA_RESETHAND};
    sigemptyset(&action.sa_mask);
    for (size_t i = 0; i < sizeof signals / sizeof *signals; i++)
        if (sigaction(signals[i], NULL, &before) == 0 && before.sa_handler != SIG_IGN)
            sigaction(signals[i], &action, NULL);
    signal(SIGXFSZ, SIG_IGN); /* so that a file over the limit is an error like others */
    atexit(remove_temporary);
}

static sigset_t hold_signals(void) {
    sigset_t all, before;
    sigfillset(&all);
    sigprocmask(SIG_BLOCK, &all, &before);
    return before;
}

static char *path_beside(const char *target) {
    static const char name[] = ".afs-XXXXXX";
    const char *slash = strrchr(target, '/');
    size_t folder = slash == NULL ? 0 : (size_t)(slash - target) + 1;
    char *path = memory_for(folder + sizeof name, 1);
    memcpy(path, target, folder);
    memcpy(path + folder, name, sizeof name);
    return path;
}

static mode_t mode_of_new_files(void) {
    mode_t mask = umask(0);
    umask(mask);
    return 0666 & ~mask;
}

int begin_temporary(const char *target, const struct stat *replaced) {
    char *path = path_beside(target);
    remove_at_end();
    sigset_t before = hold_signals();
    int file = mkstemp(path), error = errno;
    if (file != -1)
        temporary = path;
    sigprocmask(SIG_SETMASK, &before, NULL);
    if (file == -1) {
        free(path);
        errno = error;
        return -1;
    }
    /* Not everybody may give a file away, and not every disk knows modes. */
    if (replaced != NULL && fchown(file, replaced->st_uid, replaced->st_gid) != 0 && errno != EPERM)
        return -1;
    mode_t mode = replaced != NULL ? replaced->st_mode & 0777 : mode_of_new_files();
    return fchmod(file, mode) == 0 || errno == EPERM ? file : -1;
}

/* link() never replaces anything; not every disk has it. */
static int link_to(const char *target) {
    struct stat there;
    if (link(temporary, target) == 0)
        return unlink(temporary) == 0 ? 0 : errno;
    if (errno != EPERM && errno != EOPNOTSUPP && errno != ENOSYS)
        return errno;
    if (lstat(target, &there) == 0)
        return EEXIST;
    return rename(temporary, target) == 0 ? 0 : errno;
}

int place_temporary(const char *target, bool over) {
    sigset_t before = hold_signals();
    char *placed = temporary;
    int error = !over ? link_to(target) : rename(temporary, target) == 0 ? 0 : errno;
    if (error == 0)
        temporary = NULL;
    sigprocmask(SIG_SETMASK, &before, NULL);
    if (error == 0)
        free(placed);
    return error;
}
