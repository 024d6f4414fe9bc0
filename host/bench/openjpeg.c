/*
 * Lossless JPEG 2000 by OpenJPEG, from memory to memory, for the benchmark: one component of samples, the reversible 5/3 transform,
 * one tile, one layer, a bare codestream, one thread, and otherwise what OpenJPEG takes by itself. Each answers 0 if anything fails.
 */
#include <openjpeg.h>

#include <stddef.h>
#include <stdint.h>
#include <string.h>

/* A stream's bytes and where in them it is. */
typedef struct {
    uint8_t *bytes;
    size_t length, at;
} Memory;

static OPJ_SIZE_T read_memory(void *to, OPJ_SIZE_T count, void *user) {
    Memory *memory = user;
    size_t left = memory->length - memory->at, taken = count < left ? count : left;
    memcpy(to, memory->bytes + memory->at, taken);
    memory->at += taken;
    return taken > 0 ? taken : (OPJ_SIZE_T)-1;
}

static OPJ_SIZE_T write_memory(void *from, OPJ_SIZE_T count, void *user) {
    Memory *memory = user;
    if (count > memory->length - memory->at)
        return (OPJ_SIZE_T)-1;
    memcpy(memory->bytes + memory->at, from, count);
    memory->at += count;
    return count;
}

static OPJ_BOOL seek_memory(OPJ_OFF_T to, void *user) {
    Memory *memory = user;
    if (to < 0 || (size_t)to > memory->length)
        return OPJ_FALSE;
    memory->at = (size_t)to;
    return OPJ_TRUE;
}

static OPJ_OFF_T skip_memory(OPJ_OFF_T by, void *user) {
    Memory *memory = user;
    return seek_memory((OPJ_OFF_T)memory->at + by, user) ? by : -1;
}

static opj_stream_t *stream_over(Memory *memory, OPJ_BOOL input) {
    opj_stream_t *stream = opj_stream_default_create(input);
    if (stream == NULL)
        return NULL;
    opj_stream_set_user_data(stream, memory, NULL);
    opj_stream_set_user_data_length(stream, memory->length);
    opj_stream_set_read_function(stream, read_memory);
    opj_stream_set_write_function(stream, write_memory);
    opj_stream_set_seek_function(stream, seek_memory);
    opj_stream_set_skip_function(stream, skip_memory);
    return stream;
}

static opj_image_t *image_of(const int32_t *samples, uint32_t side, uint32_t precision, uint32_t is_signed) {
    opj_image_cmptparm_t component = {.dx = 1, .dy = 1, .w = side, .h = side, .prec = precision, .sgnd = is_signed};
    opj_image_t *image = opj_image_create(1, &component, OPJ_CLRSPC_GRAY);
    if (image == NULL)
        return NULL;
    image->x1 = side;
    image->y1 = side;
    memcpy(image->comps[0].data, samples, (size_t)side * side * sizeof *samples);
    return image;
}

/* The codestream's length. */
size_t openjpeg_encode(const int32_t *samples, uint32_t side, uint32_t precision, uint32_t is_signed, uint32_t decompositions, uint8_t *out,
                       size_t room) {
    Memory memory = {out, room, 0};
    opj_cparameters_t parameters;
    opj_set_default_encoder_parameters(&parameters);
    parameters.numresolution = (int)decompositions + 1;
    parameters.tcp_numlayers = 1;
    parameters.cp_disto_alloc = 1;
    parameters.irreversible = 0;
    opj_image_t *image = image_of(samples, side, precision, is_signed);
    opj_stream_t *stream = stream_over(&memory, OPJ_FALSE);
    opj_codec_t *codec = opj_create_compress(OPJ_CODEC_J2K);
    int whole = image != NULL && stream != NULL && codec != NULL && opj_setup_encoder(codec, &parameters, image) &&
                opj_start_compress(codec, image, stream) && opj_encode(codec, stream) && opj_end_compress(codec, stream);
    opj_destroy_codec(codec);
    opj_stream_destroy(stream);
    opj_image_destroy(image);
    return whole ? memory.at : 0;
}

/* How many samples there are, once the picture's side was halved as often as asked. */
size_t openjpeg_decode(const uint8_t *codestream, size_t length, uint32_t halvings, int32_t *out, size_t room) {
    Memory memory = {(uint8_t *)codestream, length, 0};
    opj_dparameters_t parameters;
    opj_set_default_decoder_parameters(&parameters);
    parameters.cp_reduce = halvings;
    opj_image_t *image = NULL;
    opj_stream_t *stream = stream_over(&memory, OPJ_TRUE);
    opj_codec_t *codec = opj_create_decompress(OPJ_CODEC_J2K);
    int whole = stream != NULL && codec != NULL && opj_setup_decoder(codec, &parameters) && opj_read_header(stream, codec, &image) &&
                opj_decode(codec, stream, image) && opj_end_decompress(codec, stream);
    size_t count = whole ? (size_t)image->comps[0].w * image->comps[0].h : 0;
    if (count > room)
        count = 0;
    if (count > 0)
        memcpy(out, image->comps[0].data, count * sizeof *out);
    opj_destroy_codec(codec);
    opj_stream_destroy(stream);
    opj_image_destroy(image);
    return count;
}
