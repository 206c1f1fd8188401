/* map.h: an image's regions as a map of memory. */
#ifndef MAP_H
#define MAP_H

#include <stdint.h>
#include <stdio.h>

#include "files.h"
#include "mop.h"

typedef struct map_settings {
    uint64_t memory; /* the machine's, in bytes; 0 if it is not known */
    uint32_t rows;   /* the most that are listed */
} map_settings;

/* Draws an image that the library takes: 0, or an exit status with the reason said. */
int map_draw(FILE *out, const contents *file, mop_image image, const map_settings *settings);

#endif
