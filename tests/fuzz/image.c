/* Image files: the library's check and the listing against the slow reader. */
#include <stdio.h>
#include <stdlib.h>
#include <string.h>

#include "fuzz.h"
#include "listing.h"
#include "slow.h"
#include "svgscan.h"

/* Regions of up to 20 bytes with gaps between; their bytes may be shared. */
static void make_image(void)
{
    static const uint32_t wrong[] = {1, 1U << 16, 1U << 24, 1U << 30}; /* 12 times the last is 0 in 32 bits */
    uint32_t count = one_in(20) ? 250 + below(12) : 1 + below(5), stored = 20 + below(40);
    uint64_t address = any_number();
    for (uint32_t i = 0; i < stored; i++)
        put_byte((uint8_t)below(256));
    for (uint32_t i = 0; i < count; i++) {
        uint32_t length = one_in(60) ? 0 : 1 + below(20), offset = below(stored - (length == 0 ? 0 : length - 1));
        put_low_first((uint32_t)address, 4);
        put_low_first(offset, 4);
        put_low_first(length, 4);
        address += length + (one_in(3) ? 0 : below(40)) - one_in(60);
    }
    put_low_first(stored, 4);
    put_low_first(count + (one_in(40) ? wrong[below(4)] : 0), 4);
    put_low_first(any_number(), 4);
    put_low_first((uint32_t)input.length + 4, 4);
}

/* Another number in one of the fields. */
static void change_field(void)
{
    size_t at = input.length - 4 - 4 * (size_t)below(15);
    uint32_t number = any_number();
    for (size_t i = 0; i < 4 && at + i < input.length; i++)
        input.bytes[at + i] = (uint8_t)(number >> 8 * i);
}

/* The length field says what the file has. */
static void mend_length(void)
{
    for (size_t i = 0; input.length >= 16 && i < 4; i++)
        input.bytes[input.length - 4 + i] = (uint8_t)(input.length >> 8 * i);
}

static size_t lines(const char *text)
{
    size_t count = 0;
    for (; *text != '\0'; text++)
        count += *text == '\n';
    return count;
}

/* Whether the text has a line on this region, counted from 1. */
static bool tells_region(const char *text, size_t number)
{
    char first[32];
    snprintf(first, sizeof first, "region %zu: ", number);
    const char *at = strstr(text, first);
    return at != NULL && (at == text || at[-1] == '\n');
}

/* Every region, or the first and the last ones. */
static void check_list(const char *text, size_t regions, size_t most)
{
    require(lines(text) == (regions > most ? most + 1 : regions) + 2, "as many regions are listed as should be");
    require(most == 0 || (tells_region(text, 1) && tells_region(text, regions)), "the first and the last are listed");
}

/* Which rule it is that a directory breaks; the wrong entry behind the one before. */
static void check_explained(const char *text, const contents *file, uint8_t refusal, size_t wrong)
{
    bool entry = refusal == MOP_REFUSED_ENTRY || refusal == MOP_REFUSED_OVERLAP;
    require((strstr(text, "breaks a rule") != NULL) == entry, "an entry that is refused is told");
    require(!entry || (lines(text) == 4 + (wrong > 0) && tells_region(text, wrong + 1)), "it is the right one");
    if (refusal != MOP_REFUSED_DIRECTORY)
        return;
    uint64_t count = slow_count(file->bytes, file->length);
    bool elsewhere = count > 0 && !slow_placed(file->bytes, file->length);
    require((strstr(text, "holds at most") != NULL) == (count > MOP_REGIONS_MOST), "that regions are too many is told");
    require((strstr(text, "at least one") != NULL) == (count == 0), "that there are none is told");
    require((strstr(text, "with so many regions") != NULL) == elsewhere, "a directory that stands elsewhere is told");
}

/* What is printed of it. */
static void check_words(const contents *file, mop_image image, size_t wrong)
{
    char *text = NULL;
    size_t size = 0;
    uint32_t most = one_in(2) ? MOP_REGIONS_MOST : 2 * below(20);
    FILE *out = open_memstream(&text, &size);
    require(out != NULL, "there is memory");
    if (image.refusal == MOP_ACCEPTED)
        image_list(out, file, image, most);
    else
        image_explain(out, file, image.refusal);
    require(fclose(out) == 0 && text != NULL, "there is memory");
    if (image.refusal == MOP_ACCEPTED)
        check_list(text, image.regions, most);
    else
        check_explained(text, file, image.refusal, wrong);
    free(text);
}

/* The region that is told of a segment. */
static void check_region(const contents *file, mop_segment segment, mop_image image)
{
    require(image_region(file, image, segment.address) == slow_region(file->bytes, file->length, segment.address),
        "a segment's region is the one that has its address");
}

bool image_check(const contents *file)
{
    size_t entry = 0;
    uint32_t size = 1 + below(one_in(2) ? 8 : MOP_SEGMENT_MOST);
    mop_image image = mop_image_check(file->bytes, file->length, size);
    require(image.refusal == slow_image(file->bytes, file->length, &entry), "the refusal is the slow reader's");
    check_words(file, image, entry);
    if (image.refusal != MOP_ACCEPTED)
        return false;
    if (one_in(10))
        scan_map(file, image);
    uint64_t any = below((uint32_t)image.segments), last = image.segments - 1;
    check_region(file, mop_image_segment(file->bytes, file->length, size, any), image);
    check_region(file, mop_image_segment(file->bytes, file->length, size, last), image);
    return true;
}

bool fuzz_image(void)
{
    make_image();
    if (one_in(6))
        change_field();
    if (one_in(6))
        mutate(NULL);
    if (one_in(2))
        mend_length();
    contents file = exact();
    bool accepted = image_check(&file);
    free(file.bytes);
    return accepted;
}
