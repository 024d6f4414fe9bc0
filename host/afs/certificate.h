/* The sheet of a record, and its ways to paper. */
#ifndef AFS_CERTIFICATE_H
#define AFS_CERTIFICATE_H

#include "calls.h"
#include "matching.h"
#include "options.h"

/* The sheet of a record that print_picture() made a picture of, as HTML; of a PDF or PNG where that is asked for. The caller frees it. The status is that of
   holding it against seals, where there are any; 3 if that is less and the record was changed, or made of no picture. */
Bytes certificate_of(const Request *request, Matcher *matcher, const char *path, Bytes record, const Outcome *printed, int *status);

#endif
