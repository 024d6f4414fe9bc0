/* Lines on standard error. */
#ifndef AFS_MESSAGES_H
#define AFS_MESSAGES_H

enum {
    STATUS_DONE = 0,
    STATUS_REFUSED = 1,   /* by a call of the archive */
    STATUS_FAILED = 2,    /* wrong usage, or a file that can't be read or written */
    STATUS_LACKS = 3,     /* with --whole, something lacks; what is to be sealed has a tail; what is printed was changed, or made of no picture */
    STATUS_UNCHECKED = 4, /* from verifying: a tail, and all else as it was sealed */
    STATUS_CHANGED = 5    /* from verifying: something isn't as it was sealed */
};

/* Prints 'afs: ' and the message. */
void complain(const char *format, ...) __attribute__((format(printf, 1, 2)));

/* The same, and ends the program. */
_Noreturn void fail(const char *format, ...) __attribute__((format(printf, 1, 2)));

/* The same for a command line that can't be read. */
_Noreturn void misused(const char *format, ...) __attribute__((format(printf, 1, 2)));

#endif
