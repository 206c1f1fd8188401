/* hexfiles.h: Motorola S-records and Intel HEX. Every record is read, or the
 * file is refused. */
#ifndef HEXFILES_H
#define HEXFILES_H

#include "pieces.h"

/* Adds a file's bytes to the pieces, and its start address as the transfer
 * address: 0, or an exit status with the line, the column and the reason
 * said. */
int srec_read(pieces *p, const char *path);
int ihex_read(pieces *p, const char *path);

/* The same of a text in memory, which is called path. */
int srec_text(pieces *p, const char *path, const contents *text);
int ihex_text(pieces *p, const char *path, const contents *text);

#endif
