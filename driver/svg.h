/* svg.h: a picture as plain SVG, 1000 pixels wide, black on white: text, lines, arrows and boxes. The same calls give the
 * same bytes. Any text may be given: what XML gives a meaning is escaped, and what is no printable ASCII is shown as
 * \xNN. */
#ifndef SVG_H
#define SVG_H

#include <stddef.h>
#include <stdio.h>

#define SVG_WIDTH 1000

typedef struct svg_point {
    int x;
    int y;
} svg_point;

/* How a text is set; SVG_OVER over lines, which it interrupts. */
typedef enum svg_font { SVG_TITLE, SVG_STRONG, SVG_PLAIN, SVG_SMALL, SVG_FIGURES, SVG_OVER } svg_font;

/* Which end of the text stands at its point. */
typedef enum svg_anchor { SVG_FROM, SVG_MIDDLE, SVG_UNTIL } svg_anchor;

/* How a line is drawn; an arrow has the colour of its sender too. */
typedef enum svg_stroke { SVG_SOLID, SVG_DASHED, SVG_DOTTED, SVG_AXIS, SVG_CROSS } svg_stroke;
typedef enum svg_colour { SVG_BLUE, SVG_BROWN, SVG_BLACK } svg_colour;

/* How a box is filled. */
typedef enum svg_fill { SVG_WHITE, SVG_PALE, SVG_FULL, SVG_HATCHED } svg_fill;

void svg_begin(FILE *out, int height, const char *title, const char *description);
void svg_end(FILE *out);

void svg_text(FILE *out, svg_point at, svg_font font, svg_anchor anchor, const char *text);

/* The pixels that so many bytes of a text take, at most. */
int svg_width(svg_font font, const char *text, size_t length);

/* Leaves as much of a text as fits into so many pixels, with two dots for the rest. */
void svg_shorten(char *text, svg_font font, int width);

/* A text in lines of at most so many pixels, broken between words; how many lines it has. With out NULL they are
 * counted alone. */
int svg_lines(FILE *out, svg_point at, svg_font font, svg_anchor anchor, int width, const char *text);
#define SVG_LINE_HEIGHT 17

void svg_line(FILE *out, svg_point from, svg_point to, svg_stroke stroke, svg_colour colour);
void svg_arrow(FILE *out, svg_point from, svg_point to, svg_stroke stroke, svg_colour colour);
void svg_cross(FILE *out, svg_point at);
void svg_clock(FILE *out, svg_point at);
void svg_box(FILE *out, svg_point at, int width, int height, svg_fill fill);

#endif
