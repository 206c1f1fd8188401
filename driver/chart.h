/* chart.h: a session as a picture: host and machine as two lines, time downwards, a row for each thing that happened at
 * one of them, and the frames as arrows between. */
#ifndef CHART_H
#define CHART_H

#include <stddef.h>
#include <stdint.h>
#include <stdio.h>

/* What a chart has at most of each. */
#define CHART_ROWS_MOST 100000

typedef enum chart_side { CHART_HOST, CHART_MACHINE } chart_side;

/* Marks of a row. */
enum chart_mark {
    CHART_AGAIN = 1,  /* its frame was sent before */
    CHART_TO_ALL = 2, /* its frame is for all hosts */
    CHART_TIMER = 4,  /* a timer ran out */
    CHART_AT_ONCE = 8 /* its frame stands right behind one like it */
};

/* A thing that happened. What is pointed to stays where it is as long as the chart. */
typedef struct chart_row {
    const uint8_t *frame; /* the frame that was sent, or NULL */
    size_t length;
    const char *words; /* what else is said of it, or NULL */
    size_t words_length;
    int64_t time; /* microseconds, or CHART_UNTIMED */
    chart_side side;
    uint8_t marks; /* CHART_.. */
} chart_row;
#define CHART_UNTIMED INT64_MIN

typedef enum chart_way {
    CHART_CAME,    /* to the other end */
    CHART_DOUBLE,  /* it came once more */
    CHART_LOST,    /* it did not come */
    CHART_UNKNOWN, /* it is not known whether it came */
    CHART_UNSENT   /* it came, and that it was sent is not known */
} chart_way;

/* A frame on its way. Where it began and ended is counted in quarters of a row, so that an arrow may lie within a row. */
typedef struct chart_arrow {
    int32_t from;
    int32_t to;
    chart_side sender;
    chart_way way;
} chart_arrow;

#define CHART_TEXT 400
#define CHART_NOTES 6

typedef struct chart {
    chart_row *rows;
    size_t rows_count;
    chart_arrow *arrows;
    size_t arrows_count;
    char title[CHART_TEXT];
    char ends[2][CHART_TEXT];            /* what stands over the two lines, by their side */
    char end[CHART_TEXT];                /* how it ended */
    char notes[CHART_NOTES][CHART_TEXT]; /* what else must be known; empty ones are not drawn */
    char again[CHART_TEXT];              /* what it means that a frame was sent again */
    char at_once[CHART_TEXT];            /* that it stands right behind one like it */
    char lost[CHART_TEXT];               /* that one was lost */
    char twice[CHART_TEXT];              /* that one came twice */
    char unknown[CHART_TEXT];            /* what is known of a frame of which it is not known whether it came */
} chart;

/* Room for so many rows and arrows, all empty: 0, or an exit status with the reason said. */
int chart_room(chart *c, size_t rows, size_t arrows);
void chart_free(chart *c);

/* The next row; the next arrow. There is room for it. */
chart_row *chart_add(chart *c, chart_side side);
void chart_send(chart *c, chart_side sender, int32_t from, int32_t to, chart_way way);

/* Draws it, of more than most rows the first and the last half: 0, or an exit status with the reason said. */
int chart_draw(FILE *out, const chart *c, size_t most);

#endif
