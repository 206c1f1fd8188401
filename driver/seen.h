/* seen.h: what a capture shows of a session, or those of both its ends, as a chart. */
#ifndef SEEN_H
#define SEEN_H

#include "capture.h"
#include "chart.h"

typedef struct seen_settings {
    const capture *capture;
    const capture *beside;  /* of the other end, or NULL */
    const uint8_t *machine; /* its address, or NULL for the first that is served */
} seen_settings;

/* 0, or an exit status with the reason said. The chart points into the captures. */
int seen_chart(const seen_settings *settings, chart *c);

#endif
