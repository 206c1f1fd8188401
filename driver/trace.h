/* trace.h: what went over the line, kept in a file: messages in hexadecimal, or,
 * if the file's name ends in .pcap, a capture of the whole frames. */
#ifndef TRACE_H
#define TRACE_H

#include <stdbool.h>
#include <stddef.h>
#include <stdint.h>

typedef enum trace_kind { TRACE_NONE, TRACE_TEXT, TRACE_CAPTURE } trace_kind;

/* All zero: there is no trace. */
typedef struct trace {
    trace_kind kind;
    int fd;
    const char *made; /* its name if the file is new, else NULL */
    uint64_t whole;   /* where its last whole record or line ends */
    int error;        /* of the first write that failed */
} trace;

/* A frame as it was on the line, and the message in it. */
typedef struct trace_frame {
    const uint8_t *bytes;
    size_t length;
    size_t whole; /* the frame's own length: more than length if its end was not taken */
    const uint8_t *message;
    size_t message_length;
} trace_frame;

/* Path NULL: no trace. 0, or an exit status with the reason said. */
int trace_open(trace *t, const char *path);

/* Writes a frame down, with the time of now in a capture. It waits for no reader: a
 * trace ends with the first frame that cannot be written at once. */
void trace_note(trace *t, const trace_frame *frame);

/* Says it if something could not be written. A new capture without a frame is removed. */
void trace_close(trace *t);

/* Whether a file of so many bytes is a capture to which frames can be appended:
 * 0, or an exit status with the reason said. */
int capture_check(const char *path, int fd, uint64_t size);

#endif
