/* heard.h: a frame that was heard on the line, for whomever it is: of what kind
 * it is, and what it says, in words. */
#ifndef HEARD_H
#define HEARD_H

#include <stdbool.h>
#include <stddef.h>
#include <stdint.h>
#include <stdio.h>

#include "line.h"
#include "mop.h"

#define TYPE_LOAD 0x6001    /* dump and load, the protocol of the library */
#define TYPE_CONSOLE 0x6002 /* the remote console, to which system ids belong */

/* AB-00-00-02-00-00, to which a machine sends its system id */
extern const uint8_t CONSOLES[ADDRESS_LENGTH];

typedef enum heard_kind {
    HEARD_REQUEST,    /* code 8 */
    HEARD_OFFER,      /* code 12 */
    HEARD_ASSISTANCE, /* code 3 */
    HEARD_SYSTEM_ID,  /* code 7 of type 60-02 */
    HEARD_UNREADABLE,
    HEARD_OTHER, /* any other code */
    HEARD_KINDS
} heard_kind;

typedef struct heard {
    heard_kind kind;
    unsigned type;
    uint8_t to[ADDRESS_LENGTH];
    uint8_t from[ADDRESS_LENGTH];
    size_t says;            /* what the length field says */
    const uint8_t *message; /* within the frame */
    size_t length;          /* the message's bytes that are there */
    mop_fields fields;      /* of type 60-01 */
    uint8_t refusal;        /* MOP_REFUSED_.. of one that cannot be read */
} heard;

/* Reads any bytes as an Ethernet frame; false if they are none of the two types. */
bool heard_read(heard *h, const uint8_t *raw, size_t length);

/* What the sender does by it, on one line without its end: "asks all hosts for a
 * program: ..". */
void heard_words(FILE *out, const heard *h);

#endif
