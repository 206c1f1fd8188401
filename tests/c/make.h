/* Frames and image files for the test, good and bad, made without the
 * library. */
#ifndef MAKE_H
#define MAKE_H

#include <stdbool.h>
#include <stddef.h>
#include <stdint.h>

/* Beyond the longest frame, and the longest file of some hundred regions. */
enum { BEYOND = 1600, IMAGE_MOST = 8192 };

/* The bytes of a file that make_many makes. */
#define MANY_BYTES(regions) (13 * (size_t)(regions) + 16)

/* The listed codes, and the least length of a code's frame, 0 if not listed. */
enum { CODES = 12 };
extern const uint8_t codes[CODES];
size_t least_length(uint8_t code);
/* Whether the code's frame has its least length only. */
bool is_exact(uint8_t code);

/* How many bytes an id has that goes with this form. */
size_t id_bytes(uint8_t form);
bool is_form(uint8_t form);

/* Whether this is a version, and one that mostly is. */
bool is_version(uint8_t version);
uint8_t any_version(void);

/* Whether an entry of code 20 may have this type and length under a version,
 * and whether a byte of a time may stand behind those before it. */
bool good_entry(uint8_t version, uint8_t type, uint8_t length);
bool good_time_byte(const uint8_t time[10], int at);
/* Whether a string of entries keeps the rules. */
bool good_entries(uint8_t version, const uint8_t *entries, size_t length);
/* A string of at most so many bytes that keeps the rules of 3.0.0, often those
 * of 2.1 too: its length. */
size_t make_entries(uint8_t *to, size_t most);

/* A good frame of a listed code, and any frame, often a damaged one. */
size_t make_frame(uint8_t code, uint8_t to[BEYOND]);
size_t any_frame(uint8_t to[BEYOND]);

/* A good image file, any file, often a damaged one, and one of a single region
 * of so many bytes. */
size_t make_image(uint8_t to[IMAGE_MOST]);
size_t any_image(uint8_t to[IMAGE_MOST]);
size_t make_one_region(uint8_t to[IMAGE_MOST], size_t bytes);
/* One of so many regions of a byte each: region i is byte i of the file and has
 * the address 3 x i. */
size_t make_many(uint8_t *to, size_t regions);

/* Numbers low byte first. */
void put32(uint8_t *to, uint64_t number);
uint32_t get32(const uint8_t *from);

#endif
