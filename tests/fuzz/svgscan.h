/* svgscan.h: pictures that the fuzzer looks at. */
#ifndef SVGSCAN_H
#define SVGSCAN_H

#include "chart.h"
#include "files.h"
#include "mop.h"

/* Requires that the text is well-formed XML of one svg. */
void svg_scan(const char *text);

/* Requires that no frame comes twice without being marked so, and that one that is had come before. */
void check_doubles(const chart *c);

/* Draws a chart, or an image that is accepted, and scans that; its size is bounded. */
void scan_chart(const chart *c);
void scan_map(const contents *file, mop_image image);

#endif
