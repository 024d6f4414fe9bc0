/* Processes that work beside each other, one thing each. */
#ifndef AFS_CREW_H
#define AFS_CREW_H

#include <stdbool.h>
#include <stddef.h>
#include <sys/types.h>

/* One of them, and what it is about, for messages. */
typedef struct {
    pid_t process;
    const char *name;
} Worker;

typedef struct {
    Worker *workers;
    size_t places, count, done;
    int status; /* the greatest so far */
} Crew;

Crew crew_of(size_t places);

bool has_place(const Crew *crew);

/* Whether a signal came that ends it. */
bool is_crew_ended(void);

/* True in the new process, which is to do the work and exit with its status. There has to be a place. */
bool begin_in_crew(Crew *crew, const char *name);

/* Until one of them is done; or until a signal comes, which is then handed on to them all. */
void wait_for_one(Crew *crew);

/* When all are done, the greatest status. Where a signal came, it ends the program. */
int end_crew(Crew *crew);

#endif
