/* view.h: of a capture, the frames between one host and one machine, and what they show of how the session ended. */
#ifndef VIEW_H
#define VIEW_H

#include <stdbool.h>
#include <stddef.h>
#include <stdint.h>

#include "capture.h"
#include "chart.h"

/* The two ends of a session. Of a machine that asks and is not answered the host is not known. */
typedef struct view_ends {
    uint8_t host[ADDRESS_LENGTH];
    uint8_t machine[ADDRESS_LENGTH];
    bool has_host;
} view_ends;

/* A frame in a capture. */
typedef struct sighting {
    const captured *frame;
    size_t partner; /* for beside.c: the frame in the other capture, or NOWHERE */
    size_t row;     /* for beside.c */
    chart_side sender;
    bool alike;    /* its sender's frame before has the same bytes */
    bool next;     /* that frame stands right before it */
    bool repeated; /* its sender's frame behind has the same bytes */
} sighting;
#define NOWHERE SIZE_MAX

typedef struct view {
    const capture *capture;
    sighting *list;
    size_t count;
    const uint8_t *rival; /* the address of another host that loads or dumps the machine, or NULL */
} view;

/* The ends of the session: the named machine, or the first that a host loads or dumps, or else the first that one sends
 * something, or else the first that asks. False if there is none. */
bool view_find(const capture *c, const uint8_t *machine, view_ends *ends);

/* The frames between them: 0, or an exit status with the reason said. */
int view_make(view *v, const capture *c, const view_ends *ends);
void view_free(view *v);

/* Its marks in a chart. */
uint8_t view_marks(const sighting *s);

/* The same message to the same address. */
bool view_same(const captured *a, const captured *b);

/* How the frames end. */
typedef struct view_outcome {
    const sighting
        *asked; /* the host's last frame that wants an answer, where it first stands; NULL if there is none */
    bool answered;
    bool confirmed; /* it ends a load, is answered without an error, and the machine begins nothing new behind it */
    bool several;   /* it is not of the first session that they show */
} view_outcome;

/* What the frames show of the end; the text says it in sentences that claim no more. */
view_outcome view_end(const view *v, char text[CHART_TEXT]);

#endif
