/* What was asked for of a record, beside what is there, and what a certificate draws of it. */
#ifndef AFS_ASKING_H
#define AFS_ASKING_H

#include "holding.h"
#include "sentence.h"

/* Level and coarser, plane and higher; all of the record where nobody says. */
typedef struct {
    bool is_said;
    bool is_within; /* by -e: within so many grey values */
    uint64_t level, plane, most;
} Asked;

Asked asked_for(const Request *request, Header header);

bool was_asked_for(const Asked *asked, uint32_t plane, uint32_t level);

/* Of the parts that were asked for how many there are in a whole record, and how many lack; of the others how many aren't there. */
uint32_t count_asked(const Asked *asked, const Holding *holding);
uint32_t count_lacking(const Asked *asked, const Holding *holding);
uint32_t count_left_out(const Asked *asked, const Holding *holding);

/* In words: 'level 2 and coarser, planes 2 and higher'. */
Sentence in_words(const Asked *asked, Header header);

/* The request of which a whole record would have just the parts that are there; false where there is none. */
bool is_as_served(const Holding *holding, Asked *served);

/* How often the picture on a certificate is halved: it is that of the level asked for; or else of the finest level of which a part is there, or of a coarser
   one where its longer side would be over 1,024. The coarsest level alone is no picture, so it is drawn with the one below it. 0 where it is no record. */
uint64_t halvings_to_draw(const Request *request, Bytes record);

#endif
