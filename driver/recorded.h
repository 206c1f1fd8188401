/* recorded.h: a record that is read: what mopload and mopdump, also older ones,
 * have written of a load or a dump. Any bytes are read; of what is no whole
 * record it is said what is wrong with it. */
#ifndef RECORDED_H
#define RECORDED_H

#include <stdbool.h>
#include <stddef.h>
#include <stdint.h>
#include <stdio.h>

#include "sha256.h"

#define RECORDED_MOST 1048576 /* bytes of a record that is read */
#define RECORDED_FIRST 6      /* bytes that tell a record from other files */
#define RECORDED_NAME 4096    /* bytes of a name, with its end */
#define RECORDED_DATE 21      /* 2026-01-31T23:59:59Z and its end */
#define RECORDED_FILES 2      /* that a record tells of at most: those of --twice */

/* Some bytes of the record, which are not ended by 0; length 0 where it does not have them. */
typedef struct span {
    const uint8_t *at;
    size_t length;
} span;

/* A file that the record tells of. */
typedef struct recorded_file {
    char name[RECORDED_NAME]; /* as seen from the record's directory; empty where the record's own name tells it */
    uint64_t length;          /* its bytes */
    bool more;                /* or more: of a dump that was not over */
    bool uncounted;           /* and an older record does not tell the length */
    uint64_t most;            /* and at most so many: those of the range, or UINT64_MAX where it tells none */
    char sum[SHA256_TEXT];    /* empty if it has more */
} recorded_file;

typedef struct recorded {
    const char *damage; /* what is wrong with it, or NULL; then the rest holds */
    bool load;          /* else it is of a dump */
    bool open;          /* it was not over, or its file was about to get its name */
    span what;          /* how it stands or ended */
    span known;         /* the lines from the first known one on */
    span machine;
    span settings;
    span version;
    span resumed;             /* at which byte; of a dump of more than one run */
    span twice;               /* what --twice found */
    span written;             /* when; of an older one its date */
    char date[RECORDED_DATE]; /* when it began, or else when the record was written */
    recorded_file files[RECORDED_FILES];
    size_t count;
} recorded;

/* Whether a file that begins so is a record. */
bool recorded_begins(const uint8_t *bytes, size_t length);

/* Reads one; it lies in the bytes, which must stay. Whether it is whole. */
bool recorded_read(const uint8_t *bytes, size_t length, recorded *r);

/* Text of a record, without control characters and on one line. */
void recorded_words(FILE *out, span text);

/* A value on a line of its own, behind a heading, if the record has it. */
void recorded_value(FILE *out, const char *heading, span value);

/* What it says is known: each line behind an indent. */
void recorded_known(FILE *out, const recorded *r, const char *indent);

/* The name of the ith file of a record: the one it tells, or made from the record's own. False if it is too long. */
bool recorded_name(const recorded *r, size_t i, const char *record, char name[RECORDED_NAME]);

#endif
