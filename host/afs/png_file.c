#include "png_file.h"

#include "messages.h"

#include <png.h>
#include <setjmp.h>
#include <stdio.h>
#include <stdlib.h>
#include <string.h>

enum { VALUES = 256, COLOURS = 3, SIGNATURE = 8, DEPTH = 8, ROOM_FOR_HEADER = 64 };

static const size_t most_pixels = (size_t)1 << 28; /* as in no input that is read */

Bytes png_of(const uint8_t *values, uint32_t width, uint32_t height, const Scale *scale) {
    png_image image = {.version = PNG_IMAGE_VERSION, .width = width, .height = height, .format = PNG_FORMAT_GRAY};
    uint8_t colours[VALUES * COLOURS];
    if (scale->colours != NULL) {
        image.format = PNG_FORMAT_RGB_COLORMAP;
        image.colormap_entries = VALUES;
        for (unsigned value = 0; value < VALUES; value++)
            put_colour(scale, (uint8_t)value, colours + COLOURS * value);
    }
    png_alloc_size_t length = PNG_IMAGE_PNG_SIZE_MAX(image);
    Bytes file = {memory_for(length, 1), 0};
    if (!png_image_write_to_memory(&image, file.at, &length, 0, values, 0, colours))
        fail("libpng: %s", image.message);
    file.length = length;
    return file;
}

bool is_png(Bytes file) {
    return file.length >= SIGNATURE && png_sig_cmp(file.at, 0, SIGNATURE) == 0;
}

/* A file while it is read. What libpng jumps over stands here, and not in a frame that it leaves. */
typedef struct {
    jmp_buf at_fault;
    Bytes file;
    size_t read;
    PngFault fault;
    png_structp png;
    png_infop info;
    Bytes grey;
} PngReading;

static void give_up(png_structp png, const char *message) {
    PngReading *reading = png_get_error_ptr(png);
    reading->fault = (PngFault){false, say("%.80s", message)};
    longjmp(reading->at_fault, 1);
}

static void let_be(png_structp png, const char *message) {
    (void)png;
    (void)message;
}

static void give_bytes(png_structp png, png_bytep to, png_size_t length) {
    PngReading *reading = png_get_io_ptr(png);
    if (length > reading->file.length - reading->read)
        png_error(png, "it ends early");
    memcpy(to, reading->file.at + reading->read, length);
    reading->read += length;
}

static Sentence what_png_is(int colour, int depth, bool has_alpha) {
    const char *in = colour == PNG_COLOR_TYPE_PALETTE ? "with a palette" : colour & PNG_COLOR_MASK_COLOR ? "in colour" : "in grey";
    return say("a PNG picture %s, %d bit%s", in, depth, has_alpha ? ", with alpha" : "");
}

/* Values are taken as they stand, whatever the file tells of light and colours. */
static void read_pixels(PngReading *reading, uint32_t width, uint32_t height) {
    size_t room = ROOM_FOR_HEADER + (size_t)width * height;
    reading->grey.at = memory_for(room, 1);
    size_t of_header = (size_t)snprintf((char *)reading->grey.at, ROOM_FOR_HEADER, "P5\n%lu %lu\n255\n", (unsigned long)width, (unsigned long)height);
    int passes = png_set_interlace_handling(reading->png);
    png_read_update_info(reading->png, reading->info);
    for (int pass = 0; pass < passes; pass++)
        for (size_t row = 0; row < height; row++)
            png_read_row(reading->png, reading->grey.at + of_header + row * width, NULL);
    png_read_end(reading->png, NULL);
    reading->grey.length = of_header + (size_t)width * height;
}

static void read_png(PngReading *reading) {
    png_uint_32 width, height;
    int depth, colour;
    png_set_read_fn(reading->png, reading, give_bytes);
    png_read_info(reading->png, reading->info);
    png_get_IHDR(reading->png, reading->info, &width, &height, &depth, &colour, NULL, NULL, NULL);
    bool has_alpha = (colour & PNG_COLOR_MASK_ALPHA) || png_get_valid(reading->png, reading->info, PNG_INFO_tRNS);
    reading->fault = (PngFault){true, what_png_is(colour, depth, has_alpha)};
    if ((size_t)width * height > most_pixels)
        reading->fault.text = say("a PNG picture of %lu x %lu pixels, more than any that is taken", (unsigned long)width, (unsigned long)height);
    else if (colour == PNG_COLOR_TYPE_GRAY && depth == DEPTH && !has_alpha)
        read_pixels(reading, width, height);
}

Bytes grey_file_of_png(Bytes png, PngFault *fault) {
    PngReading *reading = memory_for(1, sizeof *reading);
    reading->file = png;
    reading->png = png_create_read_struct(PNG_LIBPNG_VER_STRING, reading, give_up, let_be);
    reading->info = reading->png == NULL ? NULL : png_create_info_struct(reading->png);
    if (reading->info == NULL)
        fail("out of memory");
    if (setjmp(reading->at_fault) == 0)
        read_png(reading);
    png_destroy_read_struct(&reading->png, &reading->info, NULL);
    Bytes grey = reading->grey;
    if (grey.length == 0) {
        free(grey.at);
        grey = (Bytes){NULL, 0};
    }
    *fault = reading->fault;
    free(reading);
    return grey;
}
