#include "record.h"

enum { MOST_BYTES = 4, GROUP = 7, MORE = 0x80, VERSION_OF_FORMAT = 1 };

static uint32_t read_number(const uint8_t **at) {
    uint32_t value = 0;
    unsigned shift = 0;
    uint8_t byte;
    do {
        byte = *(*at)++;
        value |= (uint32_t)(byte & (MORE - 1)) << shift;
        shift += GROUP;
    } while (byte & MORE);
    return value;
}

Header read_header(const uint8_t **at) {
    Header header;
    read_number(at); /* the version */
    header.width = read_number(at);
    header.height = read_number(at);
    header.decompositions = read_number(at);
    header.planes = read_number(at);
    return header;
}

Part read_part(const uint8_t **at) {
    Part part;
    part.plane = read_number(at);
    part.level = read_number(at);
    part.bits = read_number(at);
    *at += length_of_body(part);
    return part;
}

size_t length_of_body(Part part) {
    return (part.bits + 7) / 8;
}

static uint8_t *put_number(uint8_t *at, uint32_t number) {
    for (; number >= MORE; number >>= GROUP)
        *at++ = (uint8_t)(number | MORE);
    *at++ = (uint8_t)number;
    return at;
}

size_t put_head(uint8_t *at, Part part) {
    return (size_t)(put_number(put_number(put_number(at, part.plane), part.level), part.bits) - at);
}

size_t put_header(uint8_t *at, Header header) {
    uint8_t *end = put_number(put_number(put_number(at, VERSION_OF_FORMAT), header.width), header.height);
    return (size_t)(put_number(put_number(end, header.decompositions), header.planes) - at);
}

uint32_t coarsest(Header header) {
    return header.decompositions + 1;
}

uint32_t most_parts(Header header) {
    return header.planes * coarsest(header);
}

Form try_number(Bytes record, size_t *offset, uint32_t *number) {
    *number = 0;
    for (unsigned i = 0; i < MOST_BYTES; i++) {
        if (*offset == record.length)
            return ENDS_EARLY;
        uint8_t byte = record.at[(*offset)++];
        *number |= (uint32_t)(byte & (MORE - 1)) << (GROUP * i);
        if (!(byte & MORE))
            return byte == 0 && i > 0 ? ENDS_IN_ZERO : WELL_FORMED;
    }
    return GOES_ON;
}
