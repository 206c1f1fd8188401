/* replay.h: a rehearsal as a chart: which frame each event of a transcript moved. */
#ifndef REPLAY_H
#define REPLAY_H

#include "chart.h"
#include "transcript.h"

/* The chart of a transcript: 0, or an exit status with the reason said. It points into the transcript. */
int replay_chart(transcript *t, chart *c);

#endif
