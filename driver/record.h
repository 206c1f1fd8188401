/* record.h: the record that tells of a load or a dump: a text of lines with
 * headings. It is there from the beginning; each new one takes the place of the
 * last at once. recorded.h reads it. */
#ifndef RECORD_H
#define RECORD_H

#include <stdbool.h>
#include <stddef.h>
#include <stdio.h>
#include <sys/types.h>
#include <time.h>

#include "line.h"

/* ---- The file -------------------------------------------------------- */

typedef struct record {
    char *name; /* its own; NULL where none is kept */
    mode_t mode;
    bool failed; /* the last could not be written, and that was said */
    bool placed; /* one was put there: which file that is */
    dev_t device;
    ino_t inode;
} record;

/* Puts a text there, by way of NAME.part. The first takes the place of nothing;
 * one of --resume takes that of the earlier run's, and of a draft of it that was
 * left over; each later one that of the last, and of no file that was put in its
 * place since. 0, or an exit status with the reason said, once until it succeeds
 * again; then the last one stays. A text of NULL is one that found no memory. */
int record_first(record *r, const char *text);
int record_again(record *r, const char *text);
int record_put(record *r, const char *text);

void record_remove(const record *r);

/* ---- Its text -------------------------------------------------------- */

/* What a writer writes, as text that the caller frees; NULL if there is no
 * memory. */
typedef void (*record_writer)(const void *what, FILE *out);
char *record_text(record_writer write, const void *what);

/* Each line of a text behind a heading. */
void record_lines(FILE *out, const char *heading, const char *text);

/* What a writer writes in sentences, each line behind "known: ". */
void record_known(FILE *out, record_writer write, const void *what);

/* A date behind a heading, without the line's end. */
void record_date(FILE *out, const char *heading, time_t when);

/* When it was written, when the session began (0: not yet), the program's version, and the line. */
void record_head(FILE *out, time_t begun, const line *l);

/* For the line of the settings: which frames are lost and doubled on purpose, if any. */
void record_rehearsed(FILE *out, const line_settings *settings);

/* The last line, which shows that the record is not cut short. */
#define RECORD_END "end of the record\n"

/* A file's name as seen from the record's directory: the base name where the file
 * stands in it, else the whole path. The caller frees it; NULL if there is no memory. */
char *record_seen(const char *record, const char *path);
const char *record_base(const char *path);

/* A name in quotes, for a line of text. */
void record_name(FILE *out, const char *name);

/* The line that sha256sum -c reads. */
void record_sum(FILE *out, const char *sum, const char *name);

/* What stands behind a heading such as "machine: ", up to the end of its line:
 * its length, and where it begins; NULL if no line begins so. */
const char *record_find(const char *text, const char *heading, size_t *length);

#endif
