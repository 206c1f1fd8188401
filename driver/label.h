/* label.h: a frame in a few words. */
#ifndef LABEL_H
#define LABEL_H

#include <stddef.h>
#include <stdint.h>

#define LABEL_TEXT 160

/* What a frame is, such as "memory load 1", and what it says, such as "512 bytes at 0x00000400"; that may be empty. */
typedef struct label {
    char name[LABEL_TEXT];
    char detail[LABEL_TEXT];
} label;

label label_of(const uint8_t *frame, size_t length);

#endif
