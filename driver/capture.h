/* capture.h: a capture of Ethernet frames in the form of pcap, and the MOP messages in it. */
#ifndef CAPTURE_H
#define CAPTURE_H

#include <stdbool.h>
#include <stddef.h>
#include <stdint.h>

#include "files.h"
#include "line.h"

#define CAPTURE_MOST 268435456 /* bytes of a capture */

/* A message; it points into the capture. */
typedef struct captured {
    int64_t time; /* microseconds */
    const uint8_t *to;
    const uint8_t *from;
    const uint8_t *message;
    size_t length;
} captured;

typedef struct capture {
    contents file;
    captured *list;
    size_t count;
    size_t others;  /* frames that are no whole messages of MOP */
    bool cut_short; /* it ends in the middle of a frame */
} capture;

/* Reads a file; reads bytes, which become the capture's. 0, or an exit status with the reason said. */
int capture_read(capture *c, const char *path);
int capture_take(capture *c, const char *path, contents file);
void capture_free(capture *c);

#endif
