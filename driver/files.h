/* files.h: whole files, and files that appear only when they are whole. */
#ifndef FILES_H
#define FILES_H

#include <stdbool.h>
#include <stddef.h>
#include <stdint.h>
#include <sys/types.h>

typedef struct contents {
    uint8_t *bytes;
    size_t length;
} contents;

/* A file of at most most bytes: 0, or an exit status with the reason said.
 * The caller frees bytes. The second refuses what is no regular file. */
int file_read(const char *path, size_t most, contents *file);
int file_read_regular(const char *path, size_t most, contents *file);

/* What is no regular file, in words ("a directory"); NULL for one that is. */
const char *kind_words(mode_t mode);

/* A file that is written aside, as PATH.part, and gets its name when it is
 * whole and on the disk. */
typedef struct aside {
    const char *path;
    char *part;
    int fd;
} aside;

/* Makes PATH.part, with room for length bytes. Refuses if PATH.part exists. */
int aside_open(aside *a, const char *path, uint64_t length);
int aside_write(aside *a, const uint8_t *bytes, uint64_t length);

/* Syncs and renames; a file that has the name already is replaced, or is
 * left alone and that is an error. */
int aside_finish(aside *a, bool replace);

/* Removes PATH.part. */
void aside_remove(aside *a);

/* A file to be made at once. What has its name already is replaced only if it
 * is a regular file, force is set, and it is none of the files that were read,
 * whatever name they have. */
typedef struct output {
    const char *path;
    bool force;
    const char *const *inputs; /* the names of the files that were read, NULL for none */
    size_t inputs_count;
} output;

/* Whether it may be made, to be asked before the work: 0, or an exit status
 * with the reason said. */
int output_check(const output *o);

/* Checks again, and makes it. */
int output_write(const output *o, const uint8_t *bytes, size_t length);

#endif
