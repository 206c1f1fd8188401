/* slow.h: S-records, Intel HEX, image files, addresses and times as their descriptions say, one sign at a time and without a
 * thought for speed. Nothing of the driver is used. */
#ifndef SLOW_H
#define SLOW_H

#include <stdbool.h>
#include <stddef.h>
#include <stdint.h>

#define CELLS_MOST 16384

typedef struct cell {
    uint64_t address;
    uint8_t byte;
} cell;

typedef struct slow {
    bool good;     /* every record is */
    size_t line;   /* else the first line that is not, or 0 if only the end record lacks */
    size_t length; /* of that line */
    cell cells[CELLS_MOST];
    size_t count;   /* of cells; sorted by address if it is good */
    bool overlap;   /* two have one address */
    size_t regions; /* runs of addresses without a gap */
    bool starts;    /* there is a start address */
    uint64_t start;
} slow;

void slow_text(slow *s, const uint8_t *text, size_t length, bool motorola);

/* Sorts the cells, and finds whether they overlap and how many regions they are. */
void slow_judge(slow *s);

/* How many regions the trailer of an image file says, and whether their directory ends where the trailer begins; in a file of
 * 16 bytes or more. */
uint64_t slow_count(const uint8_t *file, size_t length);
bool slow_placed(const uint8_t *file, size_t length);

/* The refusal of an image file: 0 for none, else 5 to 8, for 7 and 8 with the entry, counted from 0. */
int slow_image(const uint8_t *file, size_t length, size_t *entry);

/* The region of a good one that has this address, counted from 1; 0 for none. */
unsigned slow_region(const uint8_t *file, size_t length, uint64_t address);

/* The bytes of an address and of a time, as mopload's manual says; false if the text is none. */
bool slow_address(const char *text, uint8_t *bytes, size_t *count);
bool slow_time(const char *text, uint8_t *bytes, size_t *count);

/* What the entries of a code 20 say of a type: the bytes of its last value and zeros up to 16; the length. */
size_t slow_entry(const uint8_t *entries, size_t length, int type, uint8_t bytes[16]);

/* Whether a version has such an entry: 21 for 2.1, 30 for 3.0.0. */
bool slow_has(int version, int type, size_t length);

/* Lays what they say over a memory of version 2.1 with so many bytes; where that begins, for 14 bytes. */
size_t slow_block(uint8_t *memory, size_t memory_length, const uint8_t *entries, size_t length);

#endif
