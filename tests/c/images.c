/* The image file: good, damaged, cut at every length, with every wrong count, as
 * long as can be, and with as many regions as can be. */
#include <stdlib.h>
#include <string.h>

#include "check.h"
#include "lent.h"
#include "make.h"
#include "tests.h"

#define ADDRESSES (UINT64_C(1) << 32)

static lent file;

static mop_image check_image(const uint8_t *bytes, size_t length, uint32_t size)
{
    calling(IMAGE_CHECK);
    const mop_image image = mop_image_check(bytes, length, size);
    called(image.refusal);
    if (image.refusal != MOP_ACCEPTED)
        demand(image.segments == 0 && image.transfer == 0 && image.regions == 0,
            "a refusal with fields");
    else
        demand(image.regions >= 1 && image.regions <= MOP_REGIONS_MOST &&
                   image.segments >= image.regions,
            "an image without regions or segments");
    return image;
}

static mop_segment find_segment(
    const uint8_t *bytes, size_t length, uint32_t size, uint64_t index)
{
    calling(IMAGE_SEGMENT);
    const mop_segment s = mop_image_segment(bytes, length, size, index);
    called(s.refusal);
    if (s.refusal != MOP_ACCEPTED)
        demand(s.at == 0 && s.length == 0 && s.address == 0 && s.last == 0,
            "a refusal with fields");
    else
        demand(s.at < length && s.length >= 1 && s.length <= size &&
                   s.length <= length - s.at && s.last <= 1,
            "a segment beyond the file");
    return s;
}

/* The header's refusal where it needs no directory; ANY where it does. */
enum { ANY = -1 };
static int early_refusal(size_t length, uint32_t size)
{
    if (size < 1 || size > MOP_SEGMENT_MOST)
        return MOP_REFUSED_RANGE;
    return length < 16 || length > MOP_FILE_MOST ? MOP_REFUSED_FILE : ANY;
}

/* What the trailer says of an image that is accepted. */
static void check_fields(const uint8_t *bytes, size_t length, mop_image image)
{
    if (image.refusal == MOP_ACCEPTED)
        demand(image.regions == get32(bytes + length - 12) &&
                   image.transfer == get32(bytes + length - 8),
            "not the trailer's fields");
}

/* A file at one segment size, on both sides. The refusal is the one expected,
 * unless the file's length or the size has another. */
static void check_both(
    const uint8_t *bytes, size_t length, uint32_t size, int expected)
{
    const int early = early_refusal(length, size);
    const int wanted = early == ANY ? expected : early;
    const uint64_t any = hostile();
    for (int side = BEHIND; side <= BEFORE; side++) {
        lent_place(&file, (enum side)side, bytes, length);
        const mop_image image = check_image(lent_in(&file), length, size);
        demand(wanted == ANY || image.refusal == wanted,
            "not the header's refusal");
        check_fields(bytes, length, image);
        const uint64_t n = image.segments;
        const uint64_t indices[] = {0, n - 1, n, n + 1, n / 2, any};
        for (size_t i = 0; i < sizeof indices / sizeof indices[0]; i++) {
            const mop_segment s =
                find_segment(lent_in(&file), length, size, indices[i]);
            const unsigned refusal =
                image.refusal != MOP_ACCEPTED
                    ? image.refusal
                    : (indices[i] < n ? MOP_ACCEPTED : MOP_REFUSED_RANGE);
            demand(s.refusal == refusal, "not the header's refusal");
            demand(s.last == (refusal == 0 && indices[i] == n - 1),
                "another last segment");
        }
    }
}

/* A good image's segments, end to end, are its regions. */
static void check_segments(const uint8_t *bytes, size_t length, uint32_t size)
{
    lent_place(&file, BEFORE, bytes, length);
    const uint64_t n = check_image(lent_in(&file), length, size).segments;
    const size_t directory = get32(bytes + length - 16);
    size_t at = 0;
    for (uint64_t i = 0; i < n; i++) {
        const mop_segment s = find_segment(lent_in(&file), length, size, i);
        demand(s.refusal == MOP_ACCEPTED && s.at == at, "a gap");
        at += s.length;
    }
    demand(at == directory, "segments that are not the regions");
}

static uint32_t any_size(void)
{
    return (uint32_t)(once_in(4) ? hostile() : 1 + below(MOP_SEGMENT_MOST));
}

/* Regions that share the bytes and have all addresses; the last has what is left. */
static void put_all(uint8_t *directory, size_t regions)
{
    const uint64_t length = (ADDRESSES + regions - 1) / regions;
    for (size_t i = 0; i < regions; i++) {
        const uint64_t address = length * i;
        put32(directory + 12 * i, address);
        put32(directory + 12 * i + 8,
            i + 1 < regions ? length : ADDRESSES - address);
    }
}

/* As many segments as there can be, and no more. */
static void check_last(const uint8_t *bytes)
{
    const mop_segment last =
        find_segment(bytes, MOP_FILE_MOST, 1, ADDRESSES - 1);
    demand(check_image(bytes, MOP_FILE_MOST, 1).segments == ADDRESSES,
        "another number of segments");
    demand(last.refusal == MOP_ACCEPTED && last.last == 1 &&
               last.address == UINT32_MAX,
        "another last segment");
    demand(find_segment(bytes, MOP_FILE_MOST, 1, ADDRESSES).refusal ==
               MOP_REFUSED_RANGE,
        "a segment behind the last");
}

/* A file of the greatest length, and one byte more. */
static void check_longest(size_t regions)
{
    static const uint32_t sizes[] = {0, 1, 2, 1489, 1490, 1491};
    const size_t directory = MOP_FILE_MOST - 16 - 12 * regions;
    uint8_t *bytes = calloc(MOP_FILE_MOST + 1, 1);
    if (bytes == NULL)
        exit(2);
    put_all(bytes + directory, regions);
    put32(bytes + MOP_FILE_MOST - 16, directory);
    put32(bytes + MOP_FILE_MOST - 12, regions);
    put32(bytes + MOP_FILE_MOST - 4, MOP_FILE_MOST);
    for (size_t i = 0; i < sizeof sizes / sizeof sizes[0]; i++) {
        check_both(bytes, MOP_FILE_MOST, sizes[i], MOP_ACCEPTED);
        check_both(bytes, MOP_FILE_MOST + 1, sizes[i], MOP_REFUSED_FILE);
    }
    check_last(bytes);
    free(bytes);
}

/* A good file with another count, which does not agree with its length. */
static void check_count(uint8_t *bytes, size_t length, uint64_t count)
{
    put32(bytes + length - 12, count);
    check_both(bytes, length, MOP_SEGMENT_MOST, MOP_REFUSED_DIRECTORY);
}

/* Each bit of the count turned over; and counts that agree with the length in 32
 * bits alone, which leave this of 12 times the count. */
static void check_counts(uint8_t bytes[IMAGE_MOST])
{
    static const struct {
        uint32_t count, left;
    } wide[] = {{357913942, 8}, {715827883, 4}, {1073741824, 0}};
    const size_t length = make_image(bytes);
    const uint32_t count = get32(bytes + length - 12);
    for (int bit = 0; bit < 32; bit++)
        check_count(bytes, length, count ^ UINT32_C(1) << bit);
    for (size_t i = 0; i < sizeof wide / sizeof wide[0]; i++) {
        put32(bytes + length - 16, length - 16 - wide[i].left);
        check_count(bytes, length, wide[i].count);
    }
}

/* A few segments of a file of many regions. */
static void check_few(size_t length, uint64_t n)
{
    const uint64_t indices[] = {0, 1, 255, 256, 65535, 65536, n - 1};
    for (size_t i = 0; i < sizeof indices / sizeof indices[0]; i++) {
        const mop_segment s =
            find_segment(lent_in(&file), length, 1, indices[i]);
        if (indices[i] < n)
            demand(s.at == indices[i] && s.length == 1 &&
                       s.address == 3 * indices[i],
                "another segment");
    }
}

/* A file of so many regions, and the same with the last one wrong. */
static void check_many(size_t regions)
{
    static uint8_t bytes[MANY_BYTES(MOP_REGIONS_MOST + 1)];
    const bool good = regions <= MOP_REGIONS_MOST;
    const size_t length = make_many(bytes, regions);
    uint8_t *last = bytes + length - 16 - 12;
    check_both(bytes, length, 1, good ? MOP_ACCEPTED : MOP_REFUSED_DIRECTORY);
    if (good)
        check_few(length, regions);
    put32(last, 0);
    check_both(
        bytes, length, 1, good ? MOP_REFUSED_OVERLAP : MOP_REFUSED_DIRECTORY);
    put32(last + 8, 0);
    check_both(
        bytes, length, 1, good ? MOP_REFUSED_ENTRY : MOP_REFUSED_DIRECTORY);
}

void test_images(void)
{
    static const size_t counts[] = {255, 256, 257, 65535, 65536, 65537,
        MOP_REGIONS_MOST - 1, MOP_REGIONS_MOST, MOP_REGIONS_MOST + 1};
    static uint8_t bytes[IMAGE_MOST];
    file = lent_make(MOP_FILE_MOST + 1);
    for (size_t cut = 0; cut < 1000; cut += stride()) {
        const size_t length = make_image(bytes);
        check_both(bytes, cut < length ? cut : length, any_size(), ANY);
        check_both(bytes + (cut < length ? cut : 0),
            cut < length ? length - cut : length, any_size(), ANY);
    }
    for (unsigned i = 0; i < cases(100000); i++)
        check_both(bytes, any_image(bytes), any_size(), ANY);
    for (unsigned i = 0; i < cases(2000); i++)
        check_segments(bytes, make_image(bytes),
            1 + (uint32_t)below(once_in(2) ? 20 : MOP_SEGMENT_MOST));
    for (unsigned i = 0; i < cases(1000); i++)
        check_counts(bytes);
    for (size_t i = 0; i < sizeof counts / sizeof counts[0]; i++)
        check_many(counts[i]);
    check_longest(257);
    check_longest(MOP_REGIONS_MOST);
}
