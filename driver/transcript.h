/* transcript.h: what the programs rehearsal and explain print (docs/PROTOCOL.md, section 8), read line by line. */
#ifndef TRANSCRIPT_H
#define TRANSCRIPT_H

#include <stdbool.h>
#include <stddef.h>
#include <stdint.h>

#include "files.h"

#define TRANSCRIPT_MOST 33554432 /* bytes of a transcript */

/* A line: a frame that was sent (H or T), or an event that sent none. */
typedef struct transcript_line {
    const uint8_t *frame;
    size_t length;
    const char *words; /* what stands behind it */
    size_t words_length;
    size_t number; /* of the line, counted from 1 */
    char letter;   /* H, T, or that of the event */
    char event;    /* of a frame that found its queue full: the event that sent it; of others 0 */
    bool repeat;   /* a frame that its end has sent just before, too */
    bool no_frame; /* an event of a queue that was empty */
    uint32_t kept; /* for replay.c */
} transcript_line;

typedef struct transcript {
    const char *path;
    transcript_line *lines;
    size_t count;
    bool explained; /* it is of explain: with events and words */
    bool over;      /* END has come; what it tells: */
    uint8_t verdict;
    uint64_t sent;
    bool started;
    uint32_t start;
    bool said; /* the sentence behind END has come */
} transcript;

/* Reads a transcript: 0, or an exit status with the line and the reason said. The bytes of the file are changed, and the
 * lines point into them. */
int transcript_read(transcript *t, const char *path, contents *file);
void transcript_free(transcript *t);

#endif
