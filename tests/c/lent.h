/* Lent buffers: between two pages that may not be touched, so that one byte too
 * far is a fault. The part that is lent stands directly behind the first of
 * these pages or directly before the second; beside it, on the other side, is
 * a red zone. */
#ifndef LENT_H
#define LENT_H

#include <stdbool.h>
#include <stddef.h>
#include <stdint.h>

/* Where the part stands. */
enum side { BEHIND, BEFORE };

typedef struct lent {
    uint8_t *pages;      /* between the guards */
    const uint8_t *view; /* the same bytes; a write there is a fault */
    size_t room;         /* bytes between the guards */
    size_t at;           /* where the part begins */
    size_t length;       /* the part's bytes */
    uint8_t *kept;       /* what the part and its red zone were */
} lent;

/* Room for a part of at most so many bytes. */
lent lent_make(size_t most);

/* Places a part that holds these bytes, and keeps what it is. */
void lent_place(
    lent *buffer, enum side side, const uint8_t *bytes, size_t length);

/* The part, to be lent for writing or for reading. Every other time that it
 * is empty, a null pointer. */
uint8_t *lent_out(const lent *buffer);
const uint8_t *lent_in(const lent *buffer);

/* The part, never null. */
uint8_t *lent_bytes(const lent *buffer);

/* Whether the part from a byte on, and the red zone, are as they were. */
bool lent_same_from(const lent *buffer, size_t from);

/* Dies unless the guards and the read-only view are seen to fault. */
void lent_prove_guards(void);

#endif
