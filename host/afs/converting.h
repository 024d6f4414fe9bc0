/* A sheet as PDF or PNG, by programs of Debian's. */
#ifndef AFS_CONVERTING_H
#define AFS_CONVERTING_H

#include "files.h"
#include "kinds.h"

/* NULL, and the caller frees what was made; or why it can't be made. */
const char *convert_sheet(Bytes html, Kind kind, Bytes *made);

#endif
