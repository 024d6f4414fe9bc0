#include "refusals.h"

#include "grey_words.h"
#include "pictures.h"
#include "record.h"

#include <inttypes.h>

enum { LEAST_SIDE = 4, GREATEST_SIDE = 512, MOST_DECOMPOSITIONS = 5, MOST_PLANES = 17, COEFFICIENT_BYTES = 4, BITS_PER_COEFFICIENT = 4 };

/* Sizes that a header or a command line tells. */
typedef struct {
    uint64_t width, height, decompositions, planes;
    const char *where;
} Sizes;

static Sentence why_side(const char *name, uint64_t side, Sizes sizes) {
    if (side < LEAST_SIDE || side > GREATEST_SIDE)
        return say("%s%s is %" PRIu64 "; legal is %d to %d", name, sizes.where, side, LEAST_SIDE, GREATEST_SIDE);
    return say("%s%s is %" PRIu64 "; legal with N = %" PRIu64 " is a multiple of %d", name, sizes.where, side, sizes.decompositions,
               2 << sizes.decompositions);
}

static bool is_side(uint64_t side, uint64_t decompositions) {
    return side >= LEAST_SIDE && side <= GREATEST_SIDE && side % (UINT64_C(2) << decompositions) == 0;
}

static bool is_number_of_decompositions(uint64_t number) {
    return number >= 1 && number <= MOST_DECOMPOSITIONS;
}

static bool is_legal(Sizes sizes) {
    return is_number_of_decompositions(sizes.decompositions) && is_side(sizes.width, sizes.decompositions) &&
           is_side(sizes.height, sizes.decompositions) && sizes.planes <= MOST_PLANES;
}

static Sentence why_size(Sizes sizes) {
    if (!is_number_of_decompositions(sizes.decompositions))
        return say("N, the number of decompositions,%s is %" PRIu64 "; legal is 1 to %d", sizes.where, sizes.decompositions, MOST_DECOMPOSITIONS);
    if (!is_side(sizes.width, sizes.decompositions))
        return why_side("W, the width,", sizes.width, sizes);
    if (!is_side(sizes.height, sizes.decompositions))
        return why_side("H, the height,", sizes.height, sizes);
    return say("the number of planes%s is %" PRIu64 "; legal is 0 to %d", sizes.where, sizes.planes, MOST_PLANES);
}

static Sentence why_range(const Request *request, Bytes pyramid, uint64_t index) {
    return say("coefficient %" PRIu64 " (row %" PRIu64 ", column %" PRIu64 ", counted from 0) is %" PRId32 "; legal is -65535 to 65535", index,
               index / request->width, index % request->width, coefficient_at(pyramid.at + COEFFICIENT_BYTES * index));
}

/* A picture is made legal elsewhere: cut, made smaller, or, where its sides are no multiples, larger. */
static Sentence why_sides(PictureSizes sizes, bool is_asked) {
    int multiple = 2 << sizes.decompositions;
    Sentence with_number = say("with N = %" PRIu64 " ", sizes.decompositions);
    Sentence legal = say("%" PRIu64 " x %" PRIu64 ": %ssides must be multiples of %d and at most %d", sizes.width, sizes.height,
                         is_asked ? with_number.text : "", multiple, GREATEST_SIDE);
    if (sizes.width > GREATEST_SIDE || sizes.height > GREATEST_SIDE)
        return say("%s; 'pamdice -width=%d -height=%d' cuts it into such pieces, and 'pamscale' makes it smaller", legal.text, GREATEST_SIDE, GREATEST_SIDE);
    return say("%s; 'pnmpad -mwidth=%d -mheight=%d' makes it so much larger, and 'pamcut' smaller", legal.text, multiple, multiple);
}

static Sentence why_not_taken(const Request *request, Bytes file, const Outcome *outcome) {
    PictureSizes sizes = sizes_of(file, request->has_decompositions ? &request->decompositions : NULL);
    switch (outcome->number) {
    case AFS_GREY:
        return why_not_grey(file);
    case AFS_SIZE:
        if (is_number_of_decompositions(sizes.decompositions) && sizes.width > 0 && sizes.height > 0)
            return why_sides(sizes, request->has_decompositions);
        return why_size((Sizes){sizes.width, sizes.height, sizes.decompositions, 0, " of the picture"});
    default:
        return say("memory that was lent is too short");
    }
}

static Sentence why_not_coded(const Request *request, Bytes pyramid, const Outcome *outcome) {
    uint64_t width = request->width, height = request->height;
    switch (outcome->number) {
    case AFS_SIZE:
        return why_size((Sizes){width, height, request->decompositions, 0, ""});
    case AFS_LENGTH:
        return say("%" PRIu64 " x %" PRIu64 " coefficients are %" PRIu64 " bytes; %zu are there", width, height, width * height * COEFFICIENT_BYTES,
                   pyramid.length);
    case AFS_RANGE:
        return why_range(request, pyramid, outcome->place);
    default:
        return say("memory that was lent is too short");
    }
}

static Sentence why_malformed(Form form, const char *number, size_t offset) {
    switch (form) {
    case ENDS_EARLY:
        return say("the end comes before the header has told %s", number);
    case GOES_ON:
        return say("%s, at byte %zu, goes on after four bytes, as no legal number does", number, offset);
    default:
        return say("%s, at byte %zu, ends in a byte of 0, as no legal number of several bytes does", number, offset);
    }
}

static const char *const header_names[] = {"its version", "W, the width", "H, the height", "N, the number of decompositions", "the number of planes"};

static Sentence why_head(Bytes record) {
    size_t offset = 0;
    if (record.length == 0)
        return say("nothing is there; the shortest record is a header of 5 bytes");
    for (size_t i = 0; i < sizeof header_names / sizeof *header_names; i++) {
        size_t begin = offset;
        uint32_t number;
        Form form = try_number(record, &offset, &number);
        if (form != WELL_FORMED)
            return why_malformed(form, header_names[i], begin);
    }
    return say("the header is malformed");
}

/* Whether the header's numbers are there and well formed: a refusal of a number's form is then of a part. */
static bool has_header(Bytes record) {
    size_t offset = 0;
    uint32_t number;
    for (size_t i = 0; i < sizeof header_names / sizeof *header_names; i++)
        if (try_number(record, &offset, &number) != WELL_FORMED)
            return false;
    return true;
}

static Sentence why_version(Bytes record) {
    size_t offset = 0;
    uint32_t version;
    try_number(record, &offset, &version);
    return say("it begins with version %" PRIu32 "; legal is 1: so this is no record, or a later one", version);
}

/* A part's head in any bytes, and how far it could be read. */
typedef struct {
    uint32_t numbers[3]; /* plane, level, bits */
    Form form;
    size_t read, offset; /* numbers that are well formed, and where the next one begins */
} Head;

static Head try_head(Bytes record, size_t offset) {
    Head head = {.offset = offset};
    for (head.form = WELL_FORMED; head.read < 3; head.read++) {
        size_t begin = head.offset;
        head.form = try_number(record, &head.offset, &head.numbers[head.read]);
        if (head.form != WELL_FORMED) {
            head.offset = begin;
            break;
        }
    }
    return head;
}

/* The part before the one at an offset, where there is one: all before it is good. */
static bool part_before(Bytes record, size_t offset, Part *before) {
    const uint8_t *at = record.at;
    bool is_one = false;
    for (read_header(&at); at < record.at + offset; is_one = true)
        *before = read_part(&at);
    return is_one;
}

static Sentence why_part(Bytes record, uint64_t place, Header header) {
    static const char *const names[] = {"the plane", "the level", "the bit count"};
    Head head = try_head(record, place);
    uint32_t plane = head.numbers[0], level = head.numbers[1], bits = head.numbers[2];
    if (head.form != WELL_FORMED && head.form != ENDS_EARLY)
        return why_malformed(head.form, names[head.read], head.offset);
    if (header.planes == 0)
        return say("a part begins at byte %" PRIu64 ", and by its header the record has no planes", place);
    if (plane >= header.planes)
        return say("the part at byte %" PRIu64 " has plane %" PRIu32 "; legal is 0 to %" PRIu32, place, plane, header.planes - 1);
    if (level < 1 || level > coarsest(header))
        return say("the part at byte %" PRIu64 " has level %" PRIu32 "; legal is 1 to %" PRIu32, place, level, coarsest(header));
    Part before;
    if (part_before(record, place, &before) && (plane > before.plane || (plane == before.plane && level >= before.level)))
        return say("the part at byte %" PRIu64 ", of plane %" PRIu32 ", level %" PRIu32 ", stands behind that of plane %" PRIu32 ", level %" PRIu32
                   "; planes go down, and levels in a plane",
                   place, plane, level, before.plane, before.level);
    return say("the part at byte %" PRIu64 " (plane %" PRIu32 ", level %" PRIu32 ") has %" PRIu32 " bits; legal is at most %" PRIu32, place, plane, level,
               bits, BITS_PER_COEFFICIENT * header.width * header.height);
}

static Sentence why_bits(Bytes record, const Outcome *outcome) {
    Head head = try_head(record, outcome->place);
    Part part = {head.numbers[0], head.numbers[1], head.numbers[2]};
    size_t end = head.offset + length_of_body(part);
    if (end > record.length)
        return say("the part at byte %" PRIu64 " (plane %" PRIu32 ", level %" PRIu32 ") is cut off with %zu bits there, and decoding it takes fewer",
                   outcome->place, part.plane, part.level, 8 * (record.length - head.offset));
    if (outcome->number == AFS_FIT)
        return say("the part at byte %" PRIu64 " (plane %" PRIu32 ", level %" PRIu32 ") has %" PRIu32 " bits, and decoding it takes more or fewer",
                   outcome->place, part.plane, part.level, part.bits);
    return say("the part at byte %" PRIu64 " (plane %" PRIu32 ", level %" PRIu32 ") has %" PRIu32 " bits; those after them in byte %zu aren't all 0",
               outcome->place, part.plane, part.level, part.bits, end - 1);
}

static Sentence why_ask(const Request *request, Header header) {
    if (request->level < 1 || request->level > coarsest(header))
        return say("level %" PRIu64 " was asked for; this record has levels 1 to %" PRIu32, request->level, coarsest(header));
    return say("plane %" PRIu64 " was asked for; of this record 0 to %" PRIu32 " can be", request->plane, header.planes);
}

static Sentence why_not_this_size(const Request *request, Header header) {
    Sizes sizes = {header.width, header.height, header.decompositions, header.planes, " in the header"};
    if (is_legal(sizes))
        return say("%" PRIu64 " halving%s asked for; of this picture 0 to %" PRIu32 " can be", request->halvings, request->halvings == 1 ? " was" : "s were",
                   header.decompositions - 1);
    return why_size(sizes);
}

static Sentence why_not_read(const Request *request, Bytes record, const Outcome *outcome) {
    if (outcome->number == AFS_HEAD || (outcome->number == AFS_LONGFORM && !has_header(record)))
        return why_head(record);
    if (outcome->number == AFS_VERSION)
        return why_version(record);
    const uint8_t *at = record.at;
    Header header = read_header(&at);
    switch (outcome->number) {
    case AFS_SIZE:
        return why_not_this_size(request, header);
    case AFS_PART:
    case AFS_LONGFORM:
        return why_part(record, outcome->place, header);
    case AFS_PAD:
    case AFS_FIT:
        return why_bits(record, outcome);
    case AFS_ASK:
        return why_ask(request, header);
    default:
        return say("memory that was lent is too short");
    }
}

Sentence why_refused(const Request *request, Bytes input, const Outcome *outcome) {
    if (request->command != CODE)
        return why_not_read(request, input, outcome);
    return request->is_picture ? why_not_taken(request, input, outcome) : why_not_coded(request, input, outcome);
}

static Sentence why_mixed(Bytes first, Bytes second) {
    const uint8_t *at = first.at, *at_second = second.at;
    Header one = read_header(&at), other = read_header(&at_second);
    return say("their headers differ: %" PRIu32 " x %" PRIu32 ", N = %" PRIu32 ", %" PRIu32 " planes; and %" PRIu32 " x %" PRIu32 ", N = %" PRIu32
               ", %" PRIu32 " planes",
               one.width, one.height, one.decompositions, one.planes, other.width, other.height, other.decompositions, other.planes);
}

Sentence why_not_joined(Bytes first, Bytes second, const Outcome *outcome) {
    if (outcome->number == AFS_MIXED)
        return why_mixed(first, second);
    if (outcome->number != AFS_CLASH)
        return say("memory that was lent is too short");
    const uint8_t *at = first.at + outcome->place;
    Part part = read_part(&at);
    return say("the part of plane %" PRIu32 ", level %" PRIu32 ", at byte %" PRIu64 " of the first, isn't the same in the second: they aren't of one record",
               part.plane, part.level, outcome->place);
}
