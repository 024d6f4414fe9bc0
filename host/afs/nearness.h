/* How far a printed pixel may be from the recorded one, in grey values. All of it speaks of records that were made of a picture. */
#ifndef AFS_NEARNESS_H
#define AFS_NEARNESS_H

#include "holding.h"

/* What a level adds to it, by its reached plane. */
uint64_t added_by(const Holding *holding, uint32_t level);

/* For the picture halved so many times; never over 255. */
uint64_t farthest_pixel(const Holding *holding, uint32_t halvings);

/* How many pixels come out under 0 or over 255 though all of the record is there. Of a picture none do: where some do, the record was changed, or made of no
   picture. Halved pictures may have such pixels, so the picture itself is looked at. `printed` is what print_picture() made, halved so many times. */
uint64_t pixels_outside(Bytes record, const Holding *holding, const Outcome *printed, uint64_t halvings);

/* The highest plane for which what is served of a whole record keeps every pixel within so many grey values; 0 if there is none. */
uint64_t plane_within(Header header, uint64_t most);

/* Serves all levels for the highest plane for which no pixel is farther than asked for, by the reached planes of what is served; for plane 0 if there is
   none. */
Outcome serve_within(Bytes record, uint64_t most);

#endif
