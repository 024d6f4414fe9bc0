/* A sentence, short enough to be handed about. */
#ifndef AFS_SENTENCE_H
#define AFS_SENTENCE_H

typedef struct {
    char text[320];
} Sentence;

Sentence say(const char *format, ...) __attribute__((format(printf, 1, 2)));

#endif
