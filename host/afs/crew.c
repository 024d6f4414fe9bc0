#include "crew.h"

#include "files.h"
#include "messages.h"
#include "progress.h"

#include <errno.h>
#include <signal.h>
#include <stdio.h>
#include <stdlib.h>
#include <string.h>
#include <sys/wait.h>
#include <unistd.h>

static const int ending_signals[] = {SIGHUP, SIGINT, SIGQUIT, SIGTERM, SIGUSR1, SIGUSR2, SIGALRM, SIGXCPU, SIGVTALRM, SIGPROF};

static volatile sig_atomic_t ended_by;

static void remember(int signal_number) {
    ended_by = signal_number;
}

/* A signal that the caller has told to be ignored stays so. Waiting isn't taken up again after a signal. */
static void handle_signals(void (*handler)(int)) {
    struct sigaction before, action = {.sa_handler = handler};
    sigemptyset(&action.sa_mask);
    for (size_t i = 0; i < sizeof ending_signals / sizeof *ending_signals; i++)
        if (sigaction(ending_signals[i], NULL, &before) == 0 && before.sa_handler != SIG_IGN)
            sigaction(ending_signals[i], &action, NULL);
}

Crew crew_of(size_t places) {
    signal(SIGCHLD, SIG_DFL); /* or else nobody would tell how they ended */
    setvbuf(stderr, NULL, _IOLBF, BUFSIZ); /* so that lines of several processes stay whole */
    handle_signals(remember);
    return (Crew){.workers = memory_for(places, sizeof(Worker)), .places = places};
}

bool has_place(const Crew *crew) {
    return crew->count < crew->places;
}

bool is_crew_ended(void) {
    return ended_by != 0;
}

static pid_t fork_or_wait(Crew *crew) {
    pid_t process = fork();
    while (process == -1 && errno == EAGAIN && crew->count > 0 && !is_crew_ended()) {
        wait_for_one(crew);
        process = fork();
    }
    return process;
}

static void meet_status(Crew *crew, int status) {
    crew->status = status > crew->status ? status : crew->status;
}

bool begin_in_crew(Crew *crew, const char *name) {
    pid_t process = fork_or_wait(crew);
    if (process == 0) {
        handle_signals(SIG_DFL);
        return true;
    }
    if (process != -1)
        crew->workers[crew->count++] = (Worker){process, name};
    else if (!is_crew_ended()) {
        complain("%s: no process can be begun for it: %s", name, strerror(errno));
        meet_status(crew, STATUS_FAILED);
    }
    return false;
}

static void dismiss(Crew *crew, pid_t process, int status) {
    size_t i = 0;
    while (i < crew->count && crew->workers[i].process != process)
        i++;
    if (i == crew->count)
        return;
    if (!WIFEXITED(status) && !is_crew_ended())
        complain("%s: its process was ended by signal %d", crew->workers[i].name, WTERMSIG(status));
    meet_status(crew, WIFEXITED(status) ? WEXITSTATUS(status) : STATUS_FAILED);
    crew->workers[i] = crew->workers[--crew->count];
    crew->done++;
}

static void hand_on_signal(const Crew *crew) {
    for (size_t i = 0; i < crew->count; i++)
        kill(crew->workers[i].process, ended_by);
}

void wait_for_one(Crew *crew) {
    int status;
    if (is_crew_ended())
        hand_on_signal(crew);
    pid_t process = waitpid(-1, &status, 0);
    if (process != -1)
        dismiss(crew, process, status);
    else if (errno != EINTR)
        crew->count = 0; /* somebody else has waited for them */
}

int end_crew(Crew *crew) {
    while (crew->count > 0)
        wait_for_one(crew);
    free(crew->workers);
    if (!is_crew_ended())
        return crew->status;
    clear_progress();
    handle_signals(SIG_DFL);
    raise(ended_by);
    return STATUS_FAILED;
}
