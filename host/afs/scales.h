/* Scales in which grey values are drawn. */
#ifndef AFS_SCALES_H
#define AFS_SCALES_H

#include <stdint.h>

typedef struct {
    const char *name;
    const char *colours; /* of the values 0 to 255 six hexadecimal digits each; NULL if they are drawn as they are */
} Scale;

/* What they are called, in words. */
extern const char scale_names[];

/* NULL if there is none. */
const Scale *scale_named(const char *name);

/* Red, green and blue, of a scale that has colours. */
void put_colour(const Scale *scale, uint8_t value, uint8_t colour[3]);

#endif
