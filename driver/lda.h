/* lda.h: the PDP-11's absolute loader format (.LDA, .BIN). Every block from the
 * first one on is read, or the file is refused: between blocks there are zeros
 * alone, and behind the end block no other. What stands before the first block is
 * skipped, and told. */
#ifndef LDA_H
#define LDA_H

#include "pieces.h"

/* Adds a file's bytes to the pieces, a later block laid over an earlier one, and
 * its start address, if it is even, as the transfer address; an odd one is told.
 * 0, or an exit status with the byte and the reason said. */
int lda_read(pieces *p, const char *path);

/* The same of a file in memory, which is called path. */
int lda_bytes(pieces *p, const char *path, const contents *file);

/* Whether a file begins, behind zeros, with a good block. */
bool lda_likely(const contents *file);

#endif
