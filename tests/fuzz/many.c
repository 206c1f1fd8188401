/* Many pieces in any order: the image made of them has their regions, as many as there may be, and it is told what is wrong
 * with one that is damaged. */
#include <stdlib.h>

#include "fuzz.h"
#include "mop.h"
#include "pieces.h"

#define REGIONS_ROOM (MOP_REGIONS_MOST + 1)

/* A region of one or two bytes, and a piece of it. */
typedef struct range {
    uint32_t address;
    uint32_t length;
} range;

static range regions[REGIONS_ROOM], parts[2 * REGIONS_ROOM];

static uint8_t byte_at(uint32_t address)
{
    return (uint8_t)(address * 31 + (address >> 8));
}

/* Regions with gaps between. */
static void make_regions(size_t count)
{
    uint32_t address = any_number() / 2;
    for (size_t i = 0; i < count; i++) {
        regions[i] = (range){address, 1 + below(2)};
        address += regions[i].length + 1 + below(3);
    }
}

/* The regions, some of them cut in two, in any order: how many pieces. */
static size_t cut_and_mix(size_t count)
{
    size_t n = 0;
    for (size_t i = 0; i < count; i++) {
        uint32_t first = one_in(2) ? 1 : regions[i].length;
        parts[n++] = (range){regions[i].address, first};
        if (first < regions[i].length)
            parts[n++] = (range){regions[i].address + first, regions[i].length - first};
    }
    for (size_t i = n; i > 1; i--) {
        size_t other = below((uint32_t)i);
        range one = parts[i - 1];
        parts[i - 1] = parts[other];
        parts[other] = one;
    }
    return n;
}

static void add_parts(pieces *p, size_t n)
{
    for (size_t i = 0; i < n; i++) {
        const uint8_t bytes[] = {byte_at(parts[i].address), byte_at(parts[i].address + 1)};
        require(pieces_add(p, parts[i].address, bytes, parts[i].length) == 0, "a piece is taken");
    }
}

static uint32_t low_first(const uint8_t *at)
{
    return at[0] + 256U * at[1] + 65536U * at[2] + 16777216U * at[3];
}

/* The directory has every region, and the file its bytes. */
static void check_regions(const contents *image, size_t count)
{
    const uint8_t *entry = image->bytes + image->length - 16 - 12 * count;
    for (size_t i = 0; i < count; i++, entry += 12) {
        const uint8_t *bytes = image->bytes + low_first(entry + 4);
        require(low_first(entry) == regions[i].address && low_first(entry + 8) == regions[i].length,
            "the directory has the region");
        for (uint32_t k = 0; k < regions[i].length; k++)
            require(bytes[k] == byte_at(regions[i].address + k), "the file has the region's bytes");
    }
}

/* Another count, or an entry of no bytes. */
static void damage(const contents *image, size_t count)
{
    static const uint32_t wrong[] = {1, 0xFFFFFFFF, 1U << 16, 1U << 30};
    uint32_t number = (uint32_t)count + wrong[below(4)];
    if (one_in(2))
        for (size_t i = 0; i < 4; i++)
            image->bytes[image->length - 12 + i] = (uint8_t)(number >> 8 * i);
    else
        image->bytes[image->length - 16 - 12 * (1 + below((uint32_t)count)) + 8] = 0;
}

/* Mostly as many as there may be, or one more. */
static size_t any_count(void)
{
    if (!one_in(4))
        return MOP_REGIONS_MOST + one_in(2);
    return one_in(2) ? 65535 + below(3) : 1 + below(MOP_REGIONS_MOST);
}

bool fuzz_many(void)
{
    const size_t count = any_count();
    pieces p = {0};
    contents image = {NULL, 0};
    make_regions(count);
    add_parts(&p, cut_and_mix(count));
    bool makes = pieces_join(&p) == 0;
    require(makes == (count <= MOP_REGIONS_MOST), "an image is made unless regions are too many");
    if (makes) {
        require(pieces_image(&p, &image) == 0, "there is memory");
        check_regions(&image, count);
        require(image_check(&image), "the library takes the image");
        damage(&image, count);
        require(!image_check(&image), "the library refuses the damaged one");
    }
    free(image.bytes);
    pieces_free(&p);
    return makes;
}
