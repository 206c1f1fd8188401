/* progress.h: how far a session is, as a bar on a terminal and as a line for
 * each tenth elsewhere: what is done, the repeats, the rate, the time left. */
#ifndef PROGRESS_H
#define PROGRESS_H

#include <stdbool.h>
#include <stdint.h>

typedef struct progress {
    const char *unit; /* segments, frames, bytes */
    uint64_t total;
    bool terminal;
    uint64_t shown;   /* what was shown last: permille on a terminal, tenths elsewhere */
    uint64_t repeats; /* so many repeats */
    int width;        /* of the terminal's line, as far as it was written */
    int bar;          /* of the bar: it may become narrower, and never wider again */
    uint64_t last;    /* what was done at the last call */
    int64_t since;    /* since when the rate is counted; 0 before the first call */
    uint64_t first;   /* what was done then */
} progress;

void progress_start(progress *p, const char *unit, uint64_t total);

/* To be called after each step of a session that has begun; done may fall, where a
 * load begins again. */
void progress_show(progress *p, uint64_t done, uint64_t repeats);

#endif
