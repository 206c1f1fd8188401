/* pieces.h: bytes with their addresses, collected in any order and laid down
 * as an image file. */
#ifndef PIECES_H
#define PIECES_H

#include <stdbool.h>
#include <stddef.h>
#include <stdint.h>

#include "files.h"

/* Bytes of an image file behind the regions: of each entry of the directory,
 * and of the trailer. */
#define IMAGE_ENTRY 12
#define IMAGE_TRAILER 16

typedef struct piece {
    uint64_t address;
    size_t at; /* in the store */
    size_t length;
} piece;

typedef struct pieces {
    piece *list;
    size_t count;
    size_t room;
    contents store;
    size_t store_room;
    uint32_t transfer;
    bool has_transfer;
} pieces;

/* All give 0, or an exit status with the reason said. */
int pieces_add(pieces *p, uint64_t address, const uint8_t *bytes, size_t length);

/* Sorts them, joins neighbours; two that overlap are an error. */
int pieces_join(pieces *p);

/* The image file of joined pieces. */
int pieces_image(const pieces *p, contents *image);

void pieces_free(pieces *p);

#endif
