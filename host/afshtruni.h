/*
 * afshtruni.h - layered coefficient records, for programs in C and C++.
 *
 * A pyramid of integer wavelet coefficients is coded once, at full detail, as a
 * record: a header, then parts. Each part has a plane (bit planes, counted down
 * to 0, the finest) and a level (1 is the finest, N + 1 the coarsest). A
 * smaller version of a record is some of its parts, so it is cut out of the
 * bytes without decoding them: that is serving. Two such versions are joined to
 * one that has the parts of both. A survey tells what a record holds, and so
 * how much to lend for decoding it. Decoding makes a pyramid of whatever parts
 * of a record are there, and tells how far each level got and how many of its
 * parts could not be used. The pyramid of a picture is made of a grey file, and
 * a grey file of a pyramid.
 *
 * Link with libafshtruni, static or shared: pkg-config afshtruni tells how. It
 * is for x86-64-v2, with SSE4.2 and POPCNT. It needs no library but C's own,
 * allocates nothing, keeps nothing between calls and may be called from any
 * number of threads at once, each with memory of its own. Every function in it
 * is proved to meet its contract, to end and never to go wrong, for any bytes
 * whatever. Trusted, not proved: the prover and back end of the Rattle kit, the
 * C compiler, the linker and the tool; and a caller must keep the slices that it
 * lends apart and aligned, and nobody may write to them while the call runs. A
 * record has no checksum: docs/FORMAT.md.
 */
#ifndef AFSHTRUNI_H
#define AFSHTRUNI_H

#include <stddef.h>
#include <stdint.h>

#ifdef __cplusplus
extern "C" {
#endif

/*
 * VERSION
 *
 * Of this header, and of the library that is installed with it. The shared
 * library is libafshtruni.so.AFS_INTERFACE, a number that goes up where a
 * program that was built before has to be built anew.
 *
 * 0.2.0, libafshtruni.so.1: the answer of afs_decode() has 15 numbers; it had 9,
 * which stand where they stood. A caller who lends 9 to 14 numbers now gets 5,
 * with answer, pyramid and workspace all 0.
 */
#define AFS_VERSION_MAJOR 0
#define AFS_VERSION_MINOR 2
#define AFS_VERSION_PATCH 0
#define AFS_INTERFACE 1

/*
 * NUMBERS
 *
 * What a call may come back with. 0 is accepted; everything else is a refusal,
 * and then a place is told with it. A place is an offset in the record, or an
 * index in the pyramid, where the list below says so, and otherwise 0. Where
 * several refusals would be due, the description of the call tells which is
 * given.
 *
 * The numbers are fixed: none will change its meaning. Before 0.1.0 there was
 * no 12, which has taken one cause from 6 and from 8.
 *
 * A number in a record is malformed in one of two ways. It goes on after four
 * bytes: that is 6 in the header and 8 in a part. Or it is in long form, of
 * several bytes and the last of them 0: that is 12 in both.
 */
enum {
    AFS_ACCEPTED = 0,
    AFS_SIZE = 1,      /* width, height, decompositions or planes not legal; place 0 */
    AFS_LENGTH = 2,    /* pyramid not exactly width x height; place 0; never from serving */
    AFS_WORK = 3,      /* workspace under 4 x width x height; place 0; never from serving */
    AFS_RANGE = 4,     /* a magnitude over 65535, from coding, or over 131071, from afs_grey_out(); first such index */
    AFS_ROOM = 5,      /* the output, or the answer, is too short; place 0 */
    AFS_HEAD = 6,      /* header ends early, or a number in it goes on after four bytes; offset of that number */
    AFS_VERSION = 7,   /* version not 1; place 0 */
    AFS_PART = 8,      /* head of a part not legal, or a number in it goes on after four bytes; offset of the part */
    AFS_PAD = 9,       /* a padding bit set; offset of the part */
    AFS_FIT = 10,      /* bits of a part run out or are left over; offset of the part; only from decoding */
    AFS_ASK = 11,      /* level or plane asked for not legal; place 0; only from serving */
    AFS_LONGFORM = 12, /* a number in long form; its offset if it is in the header, else that of its part */
    AFS_GREY = 13,     /* no grey file, or cut short; place 0; only from afs_grey_size() and afs_grey_in() */
    AFS_MIXED = 14,    /* the headers of two records differ; place 0; only from joining */
    AFS_CLASH = 15     /* a part that two records have differs; its offset in the first; only from joining */
};

/*
 * PYRAMIDS
 *
 * Width and height are 4 to 512, both multiples of 2^(N+1); N, the number of
 * decompositions, is 1 to 5. The coefficients stand row by row: row i, column
 * j has index i x width + j. The coarsest level, N + 1, is the top left block
 * of height / 2^N rows and width / 2^N columns; level k, 1 to N, is what lies
 * in the first height / 2^(k-1) rows and width / 2^(k-1) columns and not in
 * the first height / 2^k rows and width / 2^k columns.
 */

/*
 * MEMORY BEFORE A CALL
 *
 * Each length counts elements, not bytes. The caller keeps the slices that it
 * lends apart: no byte of one may belong to another, but for the two records of
 * afs_join(), which are both only read. Each is aligned as its type is. Nobody
 * writes to any of them while the call runs. A pointer may be NULL where its
 * length is 0.
 *
 * What the memory holds after a call depends on the inputs and on the lengths,
 * never on what it held before. Nothing outside of it is read or written.
 */

/*
 * SIZES TO LEND
 *
 * For a pyramid of w x h, as constants where w and h are:
 *
 *   AFS_CODE_BOUND(w, h)   bytes in which every record that afs_code() makes of
 *                          such a pyramid has room: 6 x w x h + 640
 *   AFS_WORK(w, h)         numbers of workspace that coding and decoding need,
 *                          and reading and writing grey files: 4 x w x h.
 *                          Without parentheses AFS_WORK is the refusal of a
 *                          workspace that is shorter.
 */
#ifdef __cplusplus
#define AFS_SIDE_(n) static_cast<size_t>(n)
#else
#define AFS_SIDE_(n) ((size_t)(n))
#endif
#define AFS_CODE_BOUND(w, h) (6 * AFS_SIDE_(w) * AFS_SIDE_(h) + 640)
#define AFS_WORK(w, h) (4 * AFS_SIDE_(w) * AFS_SIDE_(h))

/*
 * ANSWER OF CODING
 *
 * Where each number stands in the answer of afs_code(), and how many there
 * are. An answer may be longer; what is beyond is set to 0.
 */
enum {
    AFS_CODED_NUMBER = 0, /* one of the numbers above, the same as is returned */
    AFS_CODED_PLACE = 1,  /* place of a refusal, else 0 */
    AFS_CODED_LENGTH = 2, /* bytes written to the front of the output, 0 if refused */
    AFS_CODED_NUMBERS = 3 /* the least length of the answer */
};

/*
 * afs_code() - make the record of a pyramid.
 *
 * Writes to `out` the header and every part, planes downward and levels
 * downward in a plane: the pyramid at full detail. For the largest magnitude M
 * above 0 there are n + 1 planes, where n is log2 M rounded down: 5 has 3
 * planes, 65,535 has 16. A pyramid of nothing but 0 has no planes, and its
 * record is the header alone. Records from when n was rounded up, with a plane
 * more where M is no power of two, are served and decoded as ever.
 *
 *   pyramid, pyramid_len   the coefficients, exactly width x height of them;
 *                          only read
 *   width, height          4 to 512
 *   decompositions         N, 1 to 5
 *   out, out_len           where the record goes; AFS_CODE_BOUND(width, height)
 *                          bytes are always enough
 *   work, work_len         workspace, at least AFS_WORK(width, height) numbers
 *   answer, answer_len     where the answer goes, at least AFS_CODED_NUMBERS
 *
 * Returns the number, which is also answer[AFS_CODED_NUMBER] where the answer
 * is long enough.
 *
 * Numbers, in the order in which they are judged; the first that is due is
 * given:
 *
 *   5 ROOM     answer_len is under 3. This alone is judged before all else,
 *              and only returned: the answer itself is all 0.
 *   1 SIZE     decompositions not 1 to 5, or width or height not 4 to 512 or
 *              not a multiple of 2^(N+1). Place 0.
 *   2 LENGTH   pyramid_len is not exactly width x height. Place 0.
 *   3 WORK     work_len is under 4 x width x height. Place 0.
 *   4 RANGE    a magnitude is over 65535. Place: the index of the first one.
 *   5 ROOM     the whole record is longer than out_len. Place 0.
 *
 * Memory after the call.
 *
 *   outcome            out                          answer                   work
 *   accepted           the record, 0 after it       0, 0, length, 0 ...      all 0
 *   refused            all 0                        number, place, 0, 0 ...  all 0
 *   answer too short   all 0                        all 0                    all 0
 *
 * `width`, `height` and `decompositions` are never truncated: 2^32 + 4 is not
 * width 4, but SIZE.
 *
 * Example. With this pyramid of 4 x 4 coefficients and 1 decomposition,
 *
 *    4 -1  0  0
 *    2  0  0 -3
 *    0  0  1  0
 *    0  0  0  0
 *
 *   uint8_t out[AFS_CODE_BOUND(4, 4)];
 *   uint32_t work[AFS_WORK(4, 4)];
 *   uint64_t answer[AFS_CODED_NUMBERS];
 *   if (afs_code(pyramid, 16, 4, 4, 1, out, 736, work, 64, answer, 3) == AFS_ACCEPTED)
 *       store(out, answer[AFS_CODED_LENGTH]);
 *
 * answers 0, 0, 30, and `out` holds this record of 30 bytes, of six parts, and
 * then 706 bytes of 0:
 *
 *   01 04 04 01 03                  version 1, 4 x 4, N = 1, 3 planes
 *   02 02 05 80                     plane 2, level 2, 5 bits
 *   02 01 03 00                     plane 2, level 1, 3 bits
 *   01 02 05 40                     plane 1, level 2, 5 bits
 *   01 01 08 8C                     plane 1, level 1, 8 bits
 *   00 02 05 C0                     plane 0, level 2, 5 bits
 *   00 01 0B 0C 20                  plane 0, level 1, 11 bits
 *
 * An `out` of 30 bytes does as well. With one of 29 the answer is 5, 0, 0, and
 * those are all 0.
 */
uint64_t afs_code(const int32_t *pyramid, size_t pyramid_len,
                  uint64_t width, uint64_t height, uint64_t decompositions,
                  uint8_t *out, size_t out_len,
                  uint32_t *work, size_t work_len,
                  uint64_t *answer, size_t answer_len);

/*
 * ANSWER OF SERVING
 *
 * Where each number stands in the answer of afs_serve(), and how many there
 * are. An answer may be longer; what is beyond is set to 0.
 */
enum {
    AFS_SERVED_NUMBER = 0, /* one of the numbers above, the same as is returned */
    AFS_SERVED_PLACE = 1,  /* place of a refusal, else 0 */
    AFS_SERVED_LENGTH = 2, /* bytes written to the front of the output, 0 if refused */
    AFS_SERVED_TAIL = 3,   /* bytes of an incomplete part at the record's end, 0 if refused */
    AFS_SERVED_NUMBERS = 4 /* the least length of the answer */
};

/*
 * afs_serve() - cut a smaller version out of a record.
 *
 * Writes to `out` the header of the record and those of its parts that have
 * level >= `level` and plane >= `plane`, unaltered and in their order. The
 * result is a record too, and can be served again. Served for one request and
 * then for another it is the same bytes as served once for the larger level and
 * the larger plane of both; only the tail differs, as the result has none.
 *
 *   record, record_len   the record; only read
 *   level                the finest level kept, 1 to N + 1; 1 keeps all levels
 *   plane                the lowest plane kept, 0 to the number of planes that
 *                        the header tells; 0 keeps all planes, the number of
 *                        planes keeps the header alone
 *   out, out_len         where the result goes; record_len is always enough
 *   answer, answer_len   where the answer goes, at least AFS_SERVED_NUMBERS
 *
 * Returns the number, which is also answer[AFS_SERVED_NUMBER] where the answer
 * is long enough.
 *
 * A part that is cut off by the record's end, in its head or in its body, is
 * the tail. It is no fault: it is not served, and its length is told.
 *
 * Numbers, in the order in which they are judged; the first that is due is
 * given:
 *
 *   5 ROOM     answer_len is under 4. This alone is judged before the record,
 *              and only returned: the answer itself is all 0.
 *   6 HEAD     the version's number ends early or goes on after four bytes.
 *              Place 0. If it is in long form, 12 LONGFORM instead.
 *   7 VERSION  the version is not 1. Place 0.
 *   6 HEAD     one of the four others in the header (width, height,
 *              decompositions, planes) ends early or goes on after four
 *              bytes. Place: the offset where it begins, or would begin: the
 *              length of the record if that ends between two of them. If it is
 *              in long form, 12 LONGFORM instead, with the same place.
 *   1 SIZE     decompositions not 1 to 5, or width or height not 4 to 512 or
 *              not a multiple of 2^(N+1), or planes over 17. Place 0.
 *   11 ASK     `level` or `plane` is not legal for this record. Place 0.
 *   8 PART     in the first part at fault: a number of its head goes on after
 *              four bytes; or the head is there, and its plane is not under the
 *              number of planes, its level not 1 to N + 1, its place in the
 *              order not after the part before it, or its bit count over
 *              4 x width x height (even if the body is cut off). Place: the
 *              offset of the part. If the first of its three numbers that has
 *              no value is in long form, 12 LONGFORM instead, with the same
 *              place.
 *   9 PAD      in the first part at fault, if it isn't 8 or 12: the body is
 *              there, and a bit after its last one is set. Place: the offset of
 *              the part.
 *   5 ROOM     the whole result is longer than out_len. Place 0.
 *
 * Parts that are dropped are judged as those that are kept. Bodies are not
 * decoded, so whether the bits of a part fit (10 FIT) is not judged here.
 *
 * Memory after the call.
 *
 *   outcome            out                          answer
 *   accepted           the result, 0 after it       0, 0, length, tail, 0 ...
 *   refused            all 0                        number, place, 0, 0, 0 ...
 *   answer too short   all 0                        all 0
 *
 * `level` and `plane` are never truncated: 2^32 + 1 is not level 1, but ASK.
 *
 * Example. With the record of 30 bytes that stands at afs_code(),
 *
 *   uint8_t out[30];
 *   uint64_t answer[AFS_SERVED_NUMBERS];
 *   if (afs_serve(record, 30, 2, 0, out, 30, answer, 4) == AFS_ACCEPTED)
 *       send(out, answer[AFS_SERVED_LENGTH]);
 *
 * keeps the parts of level 2. It answers 0, 0, 17, 0, and `out` holds these 17
 * bytes and then 13 of 0:
 *
 *   01 04 04 01 03  02 02 05 80  01 02 05 40  00 02 05 C0
 *
 * With an `out` of 16 bytes it answers 5, 0, 0, 0, and those are all 0. Of the
 * record's first 29 bytes the last 4 are a tail: the answer is 0, 0, 17, 4.
 */
uint64_t afs_serve(const uint8_t *record, size_t record_len,
                   uint64_t level, uint64_t plane,
                   uint8_t *out, size_t out_len,
                   uint64_t *answer, size_t answer_len);

/*
 * ANSWER OF JOINING
 *
 * Where each number stands in the answer of afs_join(), and how many there
 * are. An answer may be longer; what is beyond is set to 0.
 */
enum {
    AFS_JOINED_NUMBER = 0, /* one of the numbers above, the same as is returned */
    AFS_JOINED_PLACE = 1,  /* place of a refusal, else 0 */
    AFS_JOINED_LENGTH = 2, /* bytes written to the front of the output, 0 if refused */
    AFS_JOINED_NUMBERS = 3 /* the least length of the answer */
};

/*
 * afs_join() - make one record of two.
 *
 * Writes to `out` the header that both records have and every part that is
 * there whole in either, unaltered and in order. A part that is there in both
 * must be the same in both, byte for byte. The result is a record without a
 * tail, and can be served, decoded and joined again. A part need not be usable
 * to be joined.
 *
 * Of two selections of one record that afs_code() wrote, by serving or by loss
 * and each perhaps cut off, the result is the parts of it that either has; with
 * room this is never refused. What decoding promises of a selection, it
 * promises of the result.
 *
 * It doesn't matter which record is the first: where the call is accepted, it
 * is in the other order too, with the same bytes. Three may be joined in either
 * grouping. A record joined with itself is itself, without its tail.
 *
 *   first, first_len     a record; only read
 *   second, second_len   another; only read. It may be the same memory as the
 *                        first, or share some with it.
 *   out, out_len         where the result goes; first_len + second_len is
 *                        always enough
 *   answer, answer_len   where the answer goes, at least AFS_JOINED_NUMBERS
 *
 * Returns the number, which is also answer[AFS_JOINED_NUMBER] where the answer
 * is long enough.
 *
 * A part that is cut off by a record's end is its tail. It is no fault: it is
 * neither compared nor written, and its length isn't told. If that part is
 * there whole in the other record, it is taken from there.
 *
 * Numbers, in the order in which they are judged; the first that is due is
 * given:
 *
 *   5 ROOM     answer_len is under 3. This alone is judged before the records,
 *              and only returned: the answer itself is all 0.
 *   6, 12, 7, 1; 8, 12, 9
 *              of the first record: its header, then its first part at fault,
 *              as afs_serve() judges them, in its order and with its places.
 *   6, 12, 7, 1; 8, 12, 9
 *              of the second record, likewise. Places are offsets in the
 *              second. The answer doesn't tell which record is at fault, but
 *              afs_survey() says the same of each.
 *   14 MIXED   the headers differ. Place 0.
 *   15 CLASH   a part that is there in both differs, in bit count or body.
 *              Place: the offset, in the first record, of the first such part.
 *   5 ROOM     the whole result is longer than out_len. Place 0.
 *
 * Bodies are not decoded, so whether the bits of a part fit (10 FIT) is not
 * judged here.
 *
 * Memory after the call.
 *
 *   outcome            out                          answer
 *   accepted           the result, 0 after it       0, 0, length, 0 ...
 *   refused            all 0                        number, place, 0, 0 ...
 *   answer too short   all 0                        all 0
 *
 * Example. Let `coarse` be the 17 bytes that the example of afs_serve() serves
 * for level 2 and plane 0, and `high` the 21 bytes that the same record gives
 * for level 1 and plane 1.
 *
 *   uint8_t out[38];
 *   uint64_t answer[AFS_JOINED_NUMBERS];
 *   if (afs_join(coarse, 17, high, 21, out, 38, answer, 3) == AFS_ACCEPTED)
 *       store(out, answer[AFS_JOINED_LENGTH]);
 *
 * answers 0, 0, 25, and `out` holds the record but for its last part, of plane
 * 0, level 1, and then 13 bytes of 0. With an `out` of 24 bytes the answer is
 * 5, 0, 0, and those are all 0. If the ninth byte of `coarse` is 40 and not 80,
 * the answer is 15, 5, 0: the part at byte 5 isn't the same in both.
 */
uint64_t afs_join(const uint8_t *first, size_t first_len,
                  const uint8_t *second, size_t second_len,
                  uint8_t *out, size_t out_len,
                  uint64_t *answer, size_t answer_len);

/*
 * ANSWER OF A SURVEY
 *
 * Where each number stands in the answer of afs_survey(), and how many there
 * are. An answer may be longer; what is beyond is set to 0.
 */
enum {
    AFS_SURVEYED_NUMBER = 0,         /* one of the numbers above, the same as is returned */
    AFS_SURVEYED_PLACE = 1,          /* place of a refusal, else 0 */
    AFS_SURVEYED_WIDTH = 2,          /* the header's width, 0 if refused, and so are all that follow */
    AFS_SURVEYED_HEIGHT = 3,         /* its height */
    AFS_SURVEYED_DECOMPOSITIONS = 4, /* its N */
    AFS_SURVEYED_PLANES = 5,         /* its number of planes */
    AFS_SURVEYED_PARTS = 6,          /* how many parts are there whole */
    AFS_SURVEYED_TAIL = 7,           /* bytes of an incomplete part at the record's end */
    AFS_SURVEYED_NUMBERS = 8         /* the least length of the answer */
};

/*
 * afs_survey() - tell what a record holds.
 *
 * Reads the header and the heads of all parts, and judges them and their
 * padding as afs_serve() does for level 1 and plane 0. A record of every part
 * has (N + 1) x planes of them; which are there, only decoding tells.
 *
 *   record, record_len   the record; only read
 *   answer, answer_len   where the answer goes, at least AFS_SURVEYED_NUMBERS
 *
 * Returns the number, which is also answer[AFS_SURVEYED_NUMBER] where the
 * answer is long enough.
 *
 * Numbers, in the order in which they are judged; the first that is due is
 * given:
 *
 *   5 ROOM     answer_len is under 8. This alone is judged before the record,
 *              and only returned: the answer itself is all 0.
 *   6, 12, 7, 1
 *              as afs_serve() judges the header, in its order and with its
 *              places.
 *   8 PART, 12 LONGFORM
 *              in the first part at fault, as in afs_serve(). Place: the
 *              offset of the part.
 *   9 PAD      in the first part at fault, if it isn't 8 or 12: as in
 *              afs_serve(). Place: the offset of the part.
 *
 * Bodies are not decoded: a record that is accepted here may still be refused
 * by decoding with 10 FIT.
 *
 * Memory after the call.
 *
 *   outcome            answer
 *   accepted           0, 0, width, height, N, planes, parts, tail, 0 ...
 *   refused            number, place, 0, 0, 0, 0, 0, 0, 0 ...
 *   answer too short   all 0
 *
 * Example. With the record of 30 bytes that stands at afs_code(),
 *
 *   uint64_t told[AFS_SURVEYED_NUMBERS];
 *   if (afs_survey(record, 30, told, 8) == AFS_ACCEPTED)
 *       lend(told[AFS_SURVEYED_WIDTH] * told[AFS_SURVEYED_HEIGHT],
 *            AFS_WORK(told[AFS_SURVEYED_WIDTH], told[AFS_SURVEYED_HEIGHT]));
 *
 * answers 0, 0, 4, 4, 1, 3, 6, 0: 4 x 4 coefficients in 1 decomposition, 3
 * planes, all 6 parts, no tail. Of the record's first 29 bytes the last 4 are a
 * tail: the answer is 0, 0, 4, 4, 1, 3, 5, 4. Of its first 4 it is 6, 4 and six
 * times 0, as the number of planes is missing.
 */
uint64_t afs_survey(const uint8_t *record, size_t record_len,
                    uint64_t *answer, size_t answer_len);

/*
 * ANSWER OF DECODING
 *
 * Where each number stands in the answer of afs_decode(), and how many there
 * are. An answer may be longer; what is beyond is set to 0.
 */
enum {
    AFS_DECODED_NUMBER = 0,   /* one of the numbers above, the same as is returned */
    AFS_DECODED_PLACE = 1,    /* place of a refusal, else 0 */
    AFS_DECODED_TAIL = 2,     /* bytes of an incomplete part at the record's end, 0 if refused */
    AFS_DECODED_REACHED = 3,  /* six reached planes, level 1 first; 0 beyond level N + 1, 0 if refused */
    AFS_DECODED_SKIPPED = 9,  /* six counts of parts that are there and not usable, likewise */
    AFS_DECODED_NUMBERS = 15, /* the least length of the answer */
    AFS_LEVEL_PLACES = 6      /* how many reached planes there are, and how many counts */
};

/*
 * HOW FAR A PIXEL MAY BE
 *
 * Where a record was made of a picture, by afs_grey_in() and afs_code(), and
 * parts of it were left out or lost and its end cut off since, a pixel that
 * afs_grey_out() prints of what afs_decode() made is at most E grey values from
 * the recorded one. With m_k the reached plane of level k,
 *
 *   E = 2^m_(N+1) - 1, and for each k of 1 to N with m_k > 0: + 3 x 2^m_k
 *
 * and never over 255. In the picture halved S times the sum begins at k = S + 1,
 * and the recorded pixel is that of the whole record's picture halved likewise.
 * Proved as pixel_near, in crates/pictures/proofs/Laws/PixelNear. For other
 * pyramids, and where a byte was changed or lost inside a part, there is no such
 * bound.
 *
 *   const uint64_t *reached = answer + AFS_DECODED_REACHED;
 *   uint64_t e = ((uint64_t)1 << reached[n]) - 1;
 *   for (uint64_t k = s + 1; k <= n; k++)
 *       e += reached[k - 1] > 0 ? (uint64_t)3 << reached[k - 1] : 0;
 *   e = e < 255 ? e : 255;
 */

/*
 * afs_decode() - make a pyramid of the parts of a record that are there.
 *
 * Any selection of a record's parts, in their order, is a record. A part is
 * usable if every part of its own or a higher plane and of its own or a
 * coarser level is there whole. The usable ones are decoded, the others are
 * walked over.
 *
 * The reached plane of level k stands in answer[AFS_DECODED_REACHED + k - 1]:
 * the lowest plane whose part of that level is usable, or the number of planes
 * if none is. Where the record is a selection of what afs_code() wrote, a
 * coefficient of a level with the reached plane m comes out less than 2^m from
 * the one that was coded, with no greater magnitude, and with the same sign
 * unless it is 0. With m = 0 it is exact.
 *
 * The number of skipped parts of level k stands in
 * answer[AFS_DECODED_SKIPPED + k - 1]: those that are there whole and are not
 * usable. Together with those that are used, which are as many as the planes
 * less the reached one, they are all parts of the level that are there. A tail
 * is not counted.
 *
 *   record, record_len   the record; only read
 *   out, out_len         where the pyramid goes: exactly width x height of the
 *                        record, row by row
 *   work, work_len       workspace, at least AFS_WORK(width, height) numbers
 *   answer, answer_len   where the answer goes, at least AFS_DECODED_NUMBERS
 *
 * Returns the number, which is also answer[AFS_DECODED_NUMBER] where the
 * answer is long enough.
 *
 * A part that is cut off by the record's end, in its head or in its body, is
 * the tail. It is no fault, and its length is told. Where its head is whole and
 * legal and all other parts that it needs are there, it is decoded as far as its
 * bits go, 8 for each byte of its body that is there: a significance bit whose
 * sign did not arrive leaves its coefficient 0, a refinement bit that did not
 * arrive leaves it as it was. Otherwise it is not used. Reached planes and counts
 * are those without it.
 *
 * Where the record is a selection of what afs_code() wrote, cut at any byte
 * behind the header, and the tail is of plane n and level k and is used, each
 * coefficient of level k is rounded at plane n or at plane n + 1, which is the
 * reached one; so what is said above holds of it. And with more bytes of the same
 * record no magnitude becomes smaller and no sign turns over. Of records that no
 * coder wrote nothing is promised: more bytes may bring a refusal.
 *
 * Numbers, in the order in which they are judged; the first that is due is
 * given:
 *
 *   5 ROOM     answer_len is under 15. This alone is judged before the record,
 *              and only returned: the answer itself is all 0.
 *   6, 12, 7, 1
 *              as afs_serve() judges the header, in its order and with its
 *              places.
 *   2 LENGTH   out_len is not exactly width x height. Place 0.
 *   3 WORK     work_len is under 4 x width x height. Place 0.
 *   8 PART, 12 LONGFORM
 *              in the first part at fault, as in afs_serve(). Place: the
 *              offset of the part.
 *   9 PAD      in the first part at fault, if it isn't 8 or 12: as in
 *              afs_serve(). Place: the offset of the part.
 *   10 FIT     in the first part at fault, if it isn't 8, 9 or 12: the part is
 *              usable, and its bits run out or are left over; or it is the
 *              tail, is used, and decoding it ends before the bits there do.
 *              Padding of a body that is cut is not looked at. Place: the
 *              offset of the part.
 *
 * The first part at fault decides, whichever of the four its fault is. Parts
 * that are not usable are judged for 8, 9 and 12, never for 10.
 *
 * Memory after the call.
 *
 *   outcome            out           answer                                             work
 *   accepted           the pyramid   0, 0, tail, six reached planes, six counts, 0 ...  all 0
 *   refused            all 0         number, place, 0 ...                               all 0
 *   answer too short   all 0         all 0                                              all 0
 *
 * A record that no coder wrote may decode to magnitudes over 65535, up to
 * 131071.
 *
 * Example. With the record of 30 bytes that stands at afs_code(),
 *
 *   int32_t out[16];
 *   uint32_t work[64];
 *   uint64_t answer[AFS_DECODED_NUMBERS];
 *   if (afs_decode(record, 30, out, 16, work, 64, answer, 15) == AFS_ACCEPTED)
 *       draw(out, answer + AFS_DECODED_REACHED);
 *
 * answers 15 times 0, and `out` holds the pyramid that stands there. Of the
 * record's first 29 bytes the last 4 are a tail: the answer is 0, 0, 4, then
 * 1, 0, 0, 0, 0, 0, so level 1 got down to plane 1 and level 2 to plane 0, then
 * six times 0, as no part is skipped, and `out` holds
 *
 *    4 -1  0  0
 *    2  0  0 -2
 *    0  0  1  0
 *    0  0  0  0
 *
 * where the 1 came with the tail, which is the beginning of the part of plane 0,
 * level 1.
 *
 * Where the part of plane 1, level 2 is lost, the 26 other bytes answer 0, 0, 0,
 * then 2, 2, 0, 0, 0, 0, then 2, 1, 0, 0, 0, 0: of level 1 two parts are there
 * and not usable, of level 2 one.
 *
 * With an `out` of 15 numbers the answer is 2 and 14 times 0, and those are all
 * 0.
 */
uint64_t afs_decode(const uint8_t *record, size_t record_len,
                    int32_t *out, size_t out_len,
                    uint32_t *work, size_t work_len,
                    uint64_t *answer, size_t answer_len);

/*
 * GREY FILES
 *
 * Pictures come in and go out as binary grey files of Netpbm's: P5, maxval 255.
 *
 *   file     'P' '5' gap width gap height gap maxval end pixels rest
 *   gap      one or more of: a blank; a comment
 *   blank    space, TAB, LF or CR
 *   comment  '#' and all bytes up to the next LF or CR, which is a blank then
 *   number   (width, height, maxval) digits; zeros in front don't matter
 *   end      one blank; or a comment and the LF or CR that ended it
 *   pixels   width x height bytes, row by row
 *   rest     anything; it isn't looked at
 *
 * maxval is 255. What is written has no comment, one space between width and
 * height, and else LF: 'P5', LF, width, space, height, LF, '255', LF, pixels.
 *
 * A picture becomes a pyramid, and a pyramid a picture, by the reversible 5/3
 * lifting of JPEG 2000, without a level shift, N times. Every pixel comes back
 * as it was; and afs_code() never refuses what afs_grey_in() made.
 */

/*
 * ANSWER OF READING A GREY FILE
 *
 * Where each number stands in the answers of afs_grey_size() and afs_grey_in(),
 * and how many there are. An answer may be longer; what is beyond is set to 0.
 */
enum {
    AFS_GREY_READ_NUMBER = 0, /* one of the numbers above, the same as is returned */
    AFS_GREY_READ_PLACE = 1,  /* 0 */
    AFS_GREY_READ_WIDTH = 2,  /* as the file tells it, 0 if refused */
    AFS_GREY_READ_HEIGHT = 3, /* so too */
    AFS_GREY_READ_NUMBERS = 4 /* the least length of the answer */
};

/*
 * afs_grey_size() - tell the width and height of a grey file.
 *
 * So that a caller knows how much to lend to afs_grey_in(). Both say 13 of the
 * same files. Whether the sizes are legal isn't judged here: a number is told
 * as the file has it, or as 2^64 - 1 where it is greater. width x height is
 * never more than file_len.
 *
 *   file, file_len       the file; only read
 *   answer, answer_len   where the answer goes, at least AFS_GREY_READ_NUMBERS
 *
 * Returns the number, which is also answer[AFS_GREY_READ_NUMBER] where the
 * answer is long enough.
 *
 *   5 ROOM     answer_len is under 4. This alone is judged before the file,
 *              and only returned: the answer itself is all 0.
 *   13 GREY    not a file as above: another beginning than P5, a number that is
 *              missing, another maxval than 255, header or pixels cut short.
 *              Place 0.
 *
 * Memory after the call.
 *
 *   outcome            answer
 *   accepted           0, 0, width, height, 0 ...
 *   refused            13, 0, 0, 0, 0 ...
 *   answer too short   all 0
 *
 * Example. Of these 27 bytes,
 *
 *   50 35 0A 34 20 34 0A 32 35 35 0A    'P5', '4 4', '255'
 *   00 0A 14 1E  28 32 3C 46  50 5A 64 6E  FF 00 FF 00
 *
 * the answer is 0, 0, 4, 4. Of the first 26 it is 13, 0, 0, 0.
 */
uint64_t afs_grey_size(const uint8_t *file, size_t file_len,
                       uint64_t *answer, size_t answer_len);

/*
 * afs_grey_in() - make the pyramid of a grey file.
 *
 *   file, file_len       the file; only read
 *   decompositions       N, 1 to 5
 *   out, out_len         where the pyramid goes: exactly width x height of the
 *                        file, row by row
 *   work, work_len       workspace, at least 4 x width x height numbers
 *   answer, answer_len   where the answer goes, at least AFS_GREY_READ_NUMBERS
 *
 * Returns the number, which is also answer[AFS_GREY_READ_NUMBER] where the
 * answer is long enough.
 *
 * Numbers, in the order in which they are judged; the first that is due is
 * given:
 *
 *   5 ROOM     answer_len is under 4. This alone is judged before all else,
 *              and only returned: the answer itself is all 0.
 *   13 GREY    as afs_grey_size(). Place 0.
 *   1 SIZE     decompositions not 1 to 5, or width or height not 4 to 512 or
 *              not a multiple of 2^(N+1). Place 0.
 *   2 LENGTH   out_len is not exactly width x height. Place 0.
 *   3 WORK     work_len is under 4 x width x height. Place 0.
 *
 * Memory after the call.
 *
 *   outcome            out           answer                          work
 *   accepted           the pyramid   0, 0, width, height, 0 ...      all 0
 *   refused            all 0         number, 0, 0, 0, 0 ...          all 0
 *   answer too short   all 0         all 0                           all 0
 *
 * `decompositions` is never truncated: 2^32 + 1 is not 1, but SIZE.
 *
 * Example. With the 27 bytes that stand at afs_grey_size(),
 *
 *   int32_t out[16];
 *   uint32_t work[64];
 *   uint64_t answer[AFS_GREY_READ_NUMBERS];
 *   if (afs_grey_in(file, 27, 1, out, 16, work, 64, answer, 4) == AFS_ACCEPTED)
 *       code(out, answer[AFS_GREY_READ_WIDTH], answer[AFS_GREY_READ_HEIGHT]);
 *
 * answers 0, 0, 4, 4, and `out` holds
 *
 *      0   23    0   10
 *     93  109  -63  -56
 *      0    0    0    0
 *     48   25 -255 -265
 *
 * With an `out` of 15 numbers it answers 2, 0, 0, 0, and those are all 0.
 */
uint64_t afs_grey_in(const uint8_t *file, size_t file_len, uint64_t decompositions,
                     int32_t *out, size_t out_len,
                     uint32_t *work, size_t work_len,
                     uint64_t *answer, size_t answer_len);

/*
 * ANSWER OF WRITING A GREY FILE
 *
 * Where each number stands in the answer of afs_grey_out(), and how many there
 * are. An answer may be longer; what is beyond is set to 0.
 */
enum {
    AFS_GREY_WRITTEN_NUMBER = 0,  /* one of the numbers above, the same as is returned */
    AFS_GREY_WRITTEN_PLACE = 1,   /* place of a refusal, else 0 */
    AFS_GREY_WRITTEN_LENGTH = 2,  /* bytes written to the front of the output, 0 if refused */
    AFS_GREY_WRITTEN_CLIPPED = 3, /* pixels that were under 0 or over 255, 0 if refused */
    AFS_GREY_WRITTEN_NUMBERS = 4  /* the least length of the answer */
};

/*
 * afs_grey_out() - make the grey file of a pyramid.
 *
 * A pyramid that was decoded from some of a record's parts, or that was made of
 * no picture, may give pixels under 0 or over 255. They are set to the nearer
 * end, and counted. The top left block of width / 2^S columns and height / 2^S
 * rows, S under N, is a pyramid of N - S decompositions: its picture is the one
 * halved S times.
 *
 *   pyramid, pyramid_len   the coefficients, exactly width x height of them;
 *                          only read
 *   width, height          4 to 512
 *   decompositions         N, 1 to 5
 *   out, out_len           where the file goes; width x height + 15 bytes are
 *                          always enough
 *   work, work_len         workspace, at least 4 x width x height numbers
 *   answer, answer_len     where the answer goes, at least
 *                          AFS_GREY_WRITTEN_NUMBERS
 *
 * Returns the number, which is also answer[AFS_GREY_WRITTEN_NUMBER] where the
 * answer is long enough.
 *
 * Numbers, in the order in which they are judged; the first that is due is
 * given:
 *
 *   5 ROOM     answer_len is under 4. This alone is judged before all else,
 *              and only returned: the answer itself is all 0.
 *   1 SIZE     decompositions not 1 to 5, or width or height not 4 to 512 or
 *              not a multiple of 2^(N+1). Place 0.
 *   2 LENGTH   pyramid_len is not exactly width x height. Place 0.
 *   3 WORK     work_len is under 4 x width x height. Place 0.
 *   4 RANGE    a magnitude is over 131071, as no decoded one is. Place: the
 *              index of the first one.
 *   5 ROOM     the whole file is longer than out_len. Place 0.
 *
 * Memory after the call.
 *
 *   outcome            out                     answer                           work
 *   accepted           the file, 0 after it    0, 0, length, clipped, 0 ...     all 0
 *   refused            all 0                   number, place, 0, 0, 0 ...       all 0
 *   answer too short   all 0                   all 0                            all 0
 *
 * `width`, `height` and `decompositions` are never truncated.
 *
 * Example. With the pyramid of 4 x 4 that stands at afs_grey_in(),
 *
 *   uint8_t out[31];
 *   uint32_t work[64];
 *   uint64_t answer[AFS_GREY_WRITTEN_NUMBERS];
 *   if (afs_grey_out(pyramid, 16, 4, 4, 1, out, 31, work, 64, answer, 4) == AFS_ACCEPTED)
 *       print(out, answer[AFS_GREY_WRITTEN_LENGTH]);
 *
 * answers 0, 0, 27, 0, and `out` holds the 27 bytes that stand at
 * afs_grey_size() and then 4 of 0. An `out` of 27 bytes does as well. With one
 * of 26 the answer is 5, 0, 0, 0, and those are all 0.
 *
 * With the pyramid that stands at afs_code(), which was made of no picture, the
 * answer is 0, 0, 27, 5: five of its pixels are under 0, and `out` holds
 *
 *   50 35 0A 34 20 34 0A 32 35 35 0A
 *   04 01 00 00  02 01 00 00  02 01 01 00  02 01 01 00
 */
uint64_t afs_grey_out(const int32_t *pyramid, size_t pyramid_len,
                      uint64_t width, uint64_t height, uint64_t decompositions,
                      uint8_t *out, size_t out_len,
                      uint32_t *work, size_t work_len,
                      uint64_t *answer, size_t answer_len);

#ifdef __cplusplus
}
#endif

#endif
