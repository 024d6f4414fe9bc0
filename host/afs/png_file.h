/* PNG files, by libpng. */
#ifndef AFS_PNG_FILE_H
#define AFS_PNG_FILE_H

#include "files.h"
#include "scales.h"
#include "sentence.h"

/* Of grey values row by row, drawn in a scale; a colour stands for each value, so none is lost. The caller frees it. */
Bytes png_of(const uint8_t *values, uint32_t width, uint32_t height, const Scale *scale);

bool is_png(Bytes file);

/* Why a PNG picture can't be taken: what it is, or, where it can't be read, what libpng says. */
typedef struct {
    bool is_readable;
    Sentence text;
} PngFault;

/* The grey file of Netpbm's that has the same pixels, for a file of 8 bit grey without alpha; the caller frees it. Of any other nothing, and why. */
Bytes grey_file_of_png(Bytes png, PngFault *fault);

#endif
