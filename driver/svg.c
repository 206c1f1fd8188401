#include "svg.h"

#include <stdbool.h>
#include <stdint.h>
#include <string.h>

/* How wide ' ' to '~' are, in thousandths of the font's size: in DejaVu Sans, than which few fonts are wider, so that
 * what fits in it fits in the others. */
static const uint16_t regular[] = {318, 401, 460, 838, 636, 950, 780, 275, 390, 390, 500, 838, 318, 361, 318, 337, 636,
    636, 636, 636, 636, 636, 636, 636, 636, 636, 337, 337, 838, 838, 838, 531, 1000, 684, 686, 698, 770, 632, 575, 775,
    752, 295, 295, 656, 557, 863, 748, 787, 603, 787, 695, 635, 611, 732, 684, 989, 685, 611, 685, 390, 337, 390, 838,
    500, 500, 613, 635, 550, 635, 615, 352, 635, 634, 278, 278, 579, 278, 974, 634, 612, 635, 635, 411, 521, 392, 634,
    592, 818, 592, 592, 525, 636, 337, 636, 838};
static const uint16_t bold[] = {348, 456, 521, 838, 696, 1002, 872, 306, 457, 457, 523, 838, 380, 415, 380, 365, 696,
    696, 696, 696, 696, 696, 696, 696, 696, 696, 400, 400, 838, 838, 838, 580, 1000, 774, 762, 734, 830, 683, 683, 821,
    837, 372, 372, 775, 637, 995, 837, 850, 733, 850, 770, 720, 682, 812, 774, 1103, 771, 724, 725, 457, 365, 457, 838,
    500, 500, 675, 716, 593, 716, 678, 435, 716, 712, 343, 343, 665, 343, 1042, 712, 687, 716, 716, 493, 595, 478, 712,
    652, 924, 645, 652, 582, 712, 365, 712, 838};
#define MONOSPACE 602

static const struct {
    const char *name;
    int size;
    const uint16_t *widths; /* NULL if all are the same */
} fonts[] = {[SVG_TITLE] = {"title", 17, bold},
    [SVG_STRONG] = {"strong", 13, bold},
    [SVG_PLAIN] = {"plain", 13, regular},
    [SVG_SMALL] = {"small", 11, regular},
    [SVG_FIGURES] = {"figures", 11, NULL},
    [SVG_OVER] = {"over", 11, regular}};
static const char *const anchors[] = {[SVG_FROM] = "start", [SVG_MIDDLE] = "middle", [SVG_UNTIL] = "end"};
static const char *const strokes[] = {[SVG_SOLID] = "solid",
    [SVG_DASHED] = "dashed",
    [SVG_DOTTED] = "dotted",
    [SVG_AXIS] = "axis",
    [SVG_CROSS] = "cross"};
static const char *const colours[] = {[SVG_BLUE] = "blue", [SVG_BROWN] = "brown", [SVG_BLACK] = "black"};
static const char *const fills[] = {
    [SVG_WHITE] = "white", [SVG_PALE] = "pale", [SVG_FULL] = "full", [SVG_HATCHED] = "hatched"};

/* What stands in <style> and <defs>: colours that differ in darkness too, and heads and hatching to refer to. */
static const char style[] =
    "<style>\n"
    "text { font-family: sans-serif; fill: #111 }\n"
    ".title { font-size: 17px; font-weight: bold }\n"
    ".strong { font-size: 13px; font-weight: bold }\n"
    ".plain { font-size: 13px }\n"
    ".small { font-size: 11px; fill: #333 }\n"
    ".figures { font-size: 11px; font-family: monospace; fill: #333 }\n"
    ".over { font-size: 11px; paint-order: stroke; stroke: #fff; stroke-width: 5px }\n"
    "line, path { fill: none; stroke: #111 }\n"
    ".solid { stroke-width: 1.5 }\n"
    ".dashed { stroke-width: 1.5; stroke-dasharray: 8 4 }\n"
    ".dotted { stroke-width: 1.5; stroke-dasharray: 2 4 }\n"
    ".axis { stroke-width: 2.5; stroke: #555 }\n"
    ".cross { stroke-width: 3; stroke: #b00020 }\n"
    ".blue { stroke: #123f8c }\n"
    ".brown { stroke: #9a4a00 }\n"
    ".clock { fill: #fff; stroke: #111; stroke-width: 1.5 }\n"
    "rect { stroke: #555; stroke-width: 1 }\n"
    ".white { fill: #fff; stroke: none }\n"
    ".pale { fill: #f3f3f3; stroke: none }\n"
    ".full { fill: #7d9cc9 }\n"
    ".hatched { fill: url(#hatching) }\n"
    "</style>\n"
    "<defs>\n"
    "<marker id=\"head-blue\" viewBox=\"0 0 10 10\" refX=\"9\" refY=\"5\" markerWidth=\"7\" markerHeight=\"7\" "
    "orient=\"auto\"><path d=\"M0 0L10 5L0 10Z\" style=\"fill:#123f8c;stroke:none\"/></marker>\n"
    "<marker id=\"head-brown\" viewBox=\"0 0 10 10\" refX=\"9\" refY=\"5\" markerWidth=\"7\" markerHeight=\"7\" "
    "orient=\"auto\"><path d=\"M0 0L10 5L0 10Z\" style=\"fill:#9a4a00;stroke:none\"/></marker>\n"
    "<marker id=\"head-black\" viewBox=\"0 0 10 10\" refX=\"9\" refY=\"5\" markerWidth=\"7\" markerHeight=\"7\" "
    "orient=\"auto\"><path d=\"M0 0L10 5L0 10Z\" style=\"fill:#111;stroke:none\"/></marker>\n"
    "<pattern id=\"hatching\" width=\"6\" height=\"6\" patternUnits=\"userSpaceOnUse\"><rect width=\"6\" height=\"6\" "
    "style=\"fill:#fff;stroke:none\"/><path d=\"M0 6L6 0\" style=\"stroke:#999\"/></pattern>\n"
    "</defs>\n";

static void put_escaped(FILE *out, const char *text, size_t length)
{
    for (size_t i = 0; i < length; i++)
        if (text[i] == '&')
            fputs("&amp;", out);
        else if (text[i] == '<')
            fputs("&lt;", out);
        else if (text[i] == '>')
            fputs("&gt;", out);
        else if (text[i] < ' ' || text[i] > '~')
            fprintf(out, "\\x%02X", (unsigned)(unsigned char)text[i]);
        else
            fputc(text[i], out);
}

void svg_begin(FILE *out, int height, const char *title, const char *description)
{
    fprintf(out,
        "<?xml version=\"1.0\" encoding=\"UTF-8\"?>\n"
        "<svg xmlns=\"http://www.w3.org/2000/svg\" width=\"%d\" height=\"%d\" viewBox=\"0 0 %d %d\" role=\"img\">\n"
        "<title>",
        SVG_WIDTH, height, SVG_WIDTH, height);
    put_escaped(out, title, strlen(title));
    fputs("</title>\n<desc>", out);
    put_escaped(out, description, strlen(description));
    fputs("</desc>\n", out);
    fputs(style, out);
    svg_box(out, (svg_point){0, 0}, SVG_WIDTH, height, SVG_WHITE);
}

void svg_end(FILE *out)
{
    fputs("</svg>\n", out);
}

static void put_text(FILE *out, svg_point at, svg_font font, svg_anchor anchor, const char *text, size_t length)
{
    fprintf(
        out, "<text class=\"%s\" x=\"%d\" y=\"%d\" text-anchor=\"%s\">", fonts[font].name, at.x, at.y, anchors[anchor]);
    put_escaped(out, text, length);
    fputs("</text>\n", out);
}

void svg_text(FILE *out, svg_point at, svg_font font, svg_anchor anchor, const char *text)
{
    put_text(out, at, font, anchor, text, strlen(text));
}

/* In thousandths of the font's size. What is shown as \xNN is taken for four letters that are wider. */
static int letter_width(svg_font font, char letter)
{
    const uint16_t *widths = fonts[font].widths;
    const bool shown = letter >= ' ' && letter <= '~';
    const int width = widths == NULL ? MONOSPACE : widths[(shown ? letter : 'D') - ' '];
    return shown ? width : 4 * width;
}

int svg_width(svg_font font, const char *text, size_t length)
{
    int width = 0;
    for (size_t i = 0; i < length; i++)
        width += letter_width(font, text[i]);
    return (width * fonts[font].size + 999) / 1000;
}

void svg_shorten(char *text, svg_font font, int width)
{
    size_t length = strlen(text);
    if (length < 3 || svg_width(font, text, length) <= width)
        return;
    length -= 2;
    while (length > 1 && svg_width(font, text, length) + svg_width(font, "..", 2) > width)
        length--;
    memcpy(text + length, "..", 3);
}

/* How much of a text goes into one line: up to its last blank, or what fits of a word that is too long. */
static size_t line_length(const char *text, svg_font font, int width)
{
    size_t fits = 0, blank = 0;
    for (int taken = 0; text[fits] != '\0'; fits++) {
        taken += letter_width(font, text[fits]);
        if (taken * fonts[font].size > width * 1000)
            return blank > 0 ? blank : fits > 0 ? fits : 1;
        if (text[fits] == ' ')
            blank = fits + 1;
    }
    return fits;
}

int svg_lines(FILE *out, svg_point at, svg_font font, svg_anchor anchor, int width, const char *text)
{
    int lines = 0;
    for (; *text != '\0'; lines++) {
        size_t length = line_length(text, font, width);
        if (out != NULL)
            put_text(out, (svg_point){at.x, at.y + lines * SVG_LINE_HEIGHT}, font, anchor, text, length);
        text += length;
    }
    return lines;
}

static void put_line(FILE *out, svg_point from, svg_point to, svg_stroke stroke, svg_colour colour, const char *more)
{
    fprintf(out, "<line class=\"%s %s\" x1=\"%d\" y1=\"%d\" x2=\"%d\" y2=\"%d\"%s/>\n", strokes[stroke],
        colours[colour], from.x, from.y, to.x, to.y, more);
}

void svg_line(FILE *out, svg_point from, svg_point to, svg_stroke stroke, svg_colour colour)
{
    put_line(out, from, to, stroke, colour, "");
}

void svg_arrow(FILE *out, svg_point from, svg_point to, svg_stroke stroke, svg_colour colour)
{
    static const char *const heads[] = {[SVG_BLUE] = " marker-end=\"url(#head-blue)\"",
        [SVG_BROWN] = " marker-end=\"url(#head-brown)\"",
        [SVG_BLACK] = " marker-end=\"url(#head-black)\""};
    put_line(out, from, to, stroke, colour, heads[colour]);
}

void svg_cross(FILE *out, svg_point at)
{
    fprintf(out, "<path class=\"cross\" d=\"M%d %dl12 12m0 -12l-12 12\"/>\n", at.x - 6, at.y - 6);
}

void svg_clock(FILE *out, svg_point at)
{
    fprintf(out, "<circle class=\"clock\" cx=\"%d\" cy=\"%d\" r=\"7\"/><path d=\"M%d %dv-5m0 5h4\"/>\n", at.x, at.y,
        at.x, at.y);
}

void svg_box(FILE *out, svg_point at, int width, int height, svg_fill fill)
{
    fprintf(out, "<rect class=\"%s\" x=\"%d\" y=\"%d\" width=\"%d\" height=\"%d\"/>\n", fills[fill], at.x, at.y, width,
        height);
}
