/* system_id.h: what a machine tells of itself in the info of a request, of an
 * offer or of a system id (document 001, 5.3.3), in words. */
#ifndef SYSTEM_ID_H
#define SYSTEM_ID_H

#include <stddef.h>
#include <stdint.h>
#include <stdio.h>

/* The entries of any bytes, on one line without its end: those that document
 * 001 lists in words, all else as bytes. A comma stands between them, and first
 * before the first of them. Nothing is printed of no bytes. */
void info_words(FILE *out, const char *first, const uint8_t *info, size_t length);

/* Bytes as pairs of digits; of more than 17 how many more there are. */
void bytes_words(FILE *out, const uint8_t *bytes, size_t length);

#endif
