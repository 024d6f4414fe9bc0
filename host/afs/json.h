/* What is told of a file as one JSON object on a line. Each of a command has the same members; what isn't known is null. */
#ifndef AFS_JSON_H
#define AFS_JSON_H

#include "calls.h"
#include "options.h"
#include "verdicts.h"

#include <stdio.h>

/* Of a record that was accepted: by serve() if its parts are to be listed or sealed, else by decode(). */
void tell_accepted(FILE *out, const Request *request, const char *name, Bytes record, const Outcome *outcome);

/* Of one that was refused, and why. */
void tell_refused(FILE *out, const Request *request, const char *name, Bytes record, const Outcome *outcome, const char *why);

/* Of a file that can't be read. */
void tell_unread(FILE *out, const Request *request, const char *name, const char *why);

/* Of one that is held against seals; why is NULL where it can be read to its end. */
void tell_verified(FILE *out, Matcher *matcher, const Verdict *verdict, const char *why);

#endif
