/* listing.h: what an image file holds, or why it is refused, in words. */
#ifndef LISTING_H
#define LISTING_H

#include <stdint.h>
#include <stdio.h>

#include "files.h"
#include "mop.h"

/* The regions and the transfer address of an image that the library takes. Of more
 * regions than most, an even number, the first half of so many and the last half. */
void image_list(FILE *out, const contents *file, mop_image image, uint32_t most);

/* A region of such an image, counted from 0: where it goes in memory, where its bytes stand in the file, how many. */
typedef struct image_entry {
    uint64_t address;
    uint64_t offset;
    uint64_t length;
} image_entry;
image_entry image_entry_at(const contents *file, mop_image image, uint32_t region);

/* The region of such an image that has this address, counted from 1 as in the list. */
unsigned image_region(const contents *file, mop_image image, uint32_t address);

/* What a file looks like that is no image, where mopimage makes one of it, and its option for that; else NULL. */
const char *image_unmade(const contents *file);

/* What the trailer says and what is wrong with it, or a wrong entry behind the one
 * before it. */
void image_explain(FILE *out, const contents *file, uint8_t refusal);

#endif
