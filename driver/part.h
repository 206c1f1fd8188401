/* part.h: the file of a dump while it grows. What comes up is written to
 * PATH.part at once, so that PATH.part is at every moment as long as what came;
 * it gets its name when it is whole and on the disk. Nothing is replaced. */
#ifndef PART_H
#define PART_H

#include <stdbool.h>
#include <stdint.h>
#include <sys/types.h>

typedef struct part {
    char *path;
    char *name; /* PATH.part */
    int fd;
    uint64_t written; /* bytes that are in it */
    uint64_t safe;    /* those that are known to be on the disk */
    int failed;       /* why the last write or the renaming failed, or 0 */
} part;

/* PATH with something behind it; the caller frees it. NULL, and that is said,
 * if there is no memory. */
char *name_with(const char *path, const char *ending);

/* Whether a name is free: 0, or an exit status with the reason said. */
int name_is_free(const char *path, const char *advice);

/* Renames, unless the new name is taken: 0, or -1 with errno set. */
int rename_free(const char *from, const char *to);

/* A name is on the disk once its directory is. */
void directory_sync(const char *path);

/* Makes PATH.part, empty, with room on the disk for length bytes. Refuses if
 * PATH.part is there. 0, or an exit status with the reason said. */
int part_open(part *p, const char *path, uint64_t length, mode_t mode);

/* Opens the one that is there, which has written bytes, and tells its mode. */
int part_again(part *p, const char *path, uint64_t length, uint64_t written, mode_t *mode);

/* Cuts off what lies behind the first written bytes; there is room for length again. */
int part_cut(part *p, uint64_t length, uint64_t written);

/* Of length bytes writes those that are not in it yet. What cannot be written
 * is tried again the next time. */
void part_grow(part *p, const uint8_t *bytes, uint64_t length);

/* Has what is written on the disk. A failure is none yet: what is safe stays. */
void part_sync(part *p);

/* Syncs; and names it PATH. 0, or an exit status with the reason said. */
int part_keep(part *p);
int part_name(part *p);

/* For one that is not needed. */
void part_remove(part *p);
void part_close(part *p);

#endif
