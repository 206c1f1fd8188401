/* beside.h: the captures of both ends of a session, side by side. */
#ifndef BESIDE_H
#define BESIDE_H

#include "chart.h"
#include "view.h"

/* The chart of two views of one session: 0, or an exit status with the reason said. The views are changed. */
int beside_chart(view *one, view *two, chart *c);

#endif
