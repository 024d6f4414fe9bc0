/* A record taken apart. */
#ifndef AFS_RECORD_H
#define AFS_RECORD_H

#include "files.h"

typedef struct {
    uint32_t width, height, decompositions, planes;
} Header;

typedef struct {
    uint32_t plane, level, bits;
} Part;

/* Both leave `at` behind what was read: the header, or a whole part with its body. Nothing is checked: only what a call of the archive has found good
   may be read by these. */
Header read_header(const uint8_t **at);
Part read_part(const uint8_t **at);

/* How many bytes the body has whose bits a part counts. */
size_t length_of_body(Part part);

enum { ROOM_FOR_HEAD = 15, ROOM_FOR_HEADER = 25 };

/* The bytes before a part's body, and those of a header, in the only form that is legal. How many they are. */
size_t put_head(uint8_t *at, Part part);
size_t put_header(uint8_t *at, Header header);

/* Levels run from 1, the finest, to this. */
uint32_t coarsest(Header header);

/* One for each plane and level. */
uint32_t most_parts(Header header);

typedef enum { WELL_FORMED, ENDS_EARLY, GOES_ON, ENDS_IN_ZERO } Form;

/* A number at an offset in any bytes whatever; behind it stands the next one. */
Form try_number(Bytes record, size_t *offset, uint32_t *number);

#endif
