/* filed.h: a file that was filed, against what its record tells of it: its bytes
 * are read again. */
#ifndef FILED_H
#define FILED_H

#include <stdbool.h>
#include <stdint.h>
#include <stdio.h>

#include "recorded.h"

/* FILED_OPEN: it is as long as it may be, and the record has no SHA-256 of it. */
typedef enum filed_result { FILED_SAME, FILED_OPEN, FILED_OTHER, FILED_ABSENT, FILED_UNREADABLE } filed_result;

/* What was found. */
typedef struct filed {
    filed_result result;
    char name[RECORDED_NAME]; /* under which it was looked for, or found */
    const char *kind;         /* what it is, where it is no regular file, else NULL */
    const char *reason;       /* why it cannot be read */
    uint64_t length;
    char sum[SHA256_TEXT]; /* empty if it was not needed */
} filed;

/* Opens a regular file to be read: its number; or -1, with errno set and, where it is none, its kind. */
int filed_open(int directory, const char *name, bool follow, const char **kind);

/* The file of a record, in a directory (AT_FDCWD for the working one), against
 * what the record tells of it. A link at the end of its name is followed or not. */
filed filed_check(int directory, const char *name, bool follow, const recorded_file *told);

/* The same for one that may have got another name since: NAME.part, or NAME without it. */
filed filed_check_open(int directory, const char *name, const recorded_file *told);

/* In a sentence, without its end. */
void filed_words(FILE *out, const filed *f, const recorded_file *told);

/* mopdump --verify: a file, or the FILE.part of one, against its record. An exit status. */
int filed_verify(const char *path);

#endif
