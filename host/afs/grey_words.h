/* What is wrong with a file that was refused as a grey picture. */
#ifndef AFS_GREY_WORDS_H
#define AFS_GREY_WORDS_H

#include "files.h"
#include "sentence.h"

/* That it is refused is the call's verdict; the bytes are looked at for the words alone. */
Sentence why_not_grey(Bytes file);

#endif
