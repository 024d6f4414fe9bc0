/* What is wrong where a call refused. */
#ifndef AFS_REFUSALS_H
#define AFS_REFUSALS_H

#include "calls.h"
#include "options.h"
#include "sentence.h"

/* The refusal's number and place are the call's; the bytes are looked at for the words alone. */
Sentence why_refused(const Request *request, Bytes input, const Outcome *outcome);

/* The same of two records that were refused together. */
Sentence why_not_joined(Bytes first, Bytes second, const Outcome *outcome);

#endif
