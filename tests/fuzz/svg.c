/* Whether a picture is well formed: a small scanner of the XML that the driver writes; and whether its texts can be
 * read. */
#include <ctype.h>
#include <stdio.h>
#include <stdlib.h>
#include <string.h>

#include "fuzz.h"
#include "svg.h"
#include "svgscan.h"

#define DEPTH 8       /* tags within each other */
#define TEXTS 300     /* of a picture, that are compared with each other */
#define TEXT_HEIGHT 9 /* of small letters */

typedef struct scan {
    const char *at;
    const char *names[DEPTH];
    size_t lengths[DEPTH];
    size_t depth;
    bool whole; /* the outermost tag has ended */
} scan;

static bool begins(const scan *s, const char *text)
{
    return strncmp(s->at, text, strlen(text)) == 0;
}

/* Text up to one of the stops: printable ASCII, and & as the beginning of three names alone. */
static void skip_text(scan *s, const char *stops)
{
    for (; *s->at != '\0' && strchr(stops, *s->at) == NULL; s->at++) {
        require(*s->at == '\n' || (*s->at >= ' ' && *s->at <= '~'), "a picture is printable");
        require(*s->at != '<' && *s->at != '>', "what XML gives a meaning is escaped");
        require(*s->at != '&' || begins(s, "&amp;") || begins(s, "&lt;") || begins(s, "&gt;"), "an & is escaped");
    }
}

static size_t name_length(const scan *s)
{
    size_t length = 0;
    while (isalnum((unsigned char)s->at[length]) || s->at[length] == '-')
        length++;
    require(length > 0, "a tag and an attribute have names");
    return length;
}

/* name="value" */
static void skip_attribute(scan *s)
{
    s->at += name_length(s);
    require(begins(s, "=\""), "an attribute has a value");
    s->at += 2;
    skip_text(s, "\"");
    require(*s->at == '"', "a value has an end");
    s->at += 1;
}

static void skip_attributes(scan *s)
{
    while (*s->at == ' ') {
        s->at += 1;
        skip_attribute(s);
    }
}

static void open_tag(scan *s)
{
    const char *name = ++s->at;
    const size_t length = name_length(s);
    require(!s->whole && s->depth < DEPTH, "one tag has all others in it");
    s->names[s->depth] = name;
    s->lengths[s->depth++] = length;
    s->at += length;
    skip_attributes(s);
    if (begins(s, "/>")) {
        s->depth -= 1;
        s->at += 1;
    }
    require(*s->at == '>', "a tag has an end");
    s->at += 1;
}

static void close_tag(scan *s)
{
    s->at += 2;
    const size_t length = name_length(s);
    require(s->depth > 0 && s->lengths[s->depth - 1] == length && strncmp(s->names[s->depth - 1], s->at, length) == 0,
        "a tag ends that is open");
    s->at += length;
    require(*s->at == '>', "a tag has an end");
    s->at += 1;
    s->depth -= 1;
    s->whole = s->depth == 0;
}

/* ---- Texts ----------------------------------------------------------- */

/* Where a text stands. */
typedef struct extent {
    const char *text;
    int from;
    int to;
    int y;
} extent;

static int width_of(const char *font, const char *text)
{
    static const char *const fonts[] = {"title", "strong", "plain", "small", "figures", "over"};
    char shown[4096];
    size_t length = 0, at = 0;
    while (at < SVG_OVER && strncmp(fonts[at], font, strlen(fonts[at])) != 0)
        at++;
    for (; *text != '<'; text++) {
        require(length < sizeof shown, "a text is short");
        shown[length++] = (char)(*text != '&' ? *text : text[1] == 'l' ? '<' : text[1] == 'g' ? '>' : '&');
        if (*text == '&')
            text = strchr(text, ';');
    }
    return svg_width((svg_font)at, shown, length);
}

/* What stands behind an attribute's name in a tag. */
static const char *value_of(const char *tag, const char *name)
{
    const char *at = strstr(tag, name);
    require(at != NULL && at < strchr(tag, '>'), "a text has a font and a place");
    return at + strlen(name);
}

/* The text that begins here. */
static extent read_text(const char *tag)
{
    extent e = {.text = strchr(tag, '>') + 1, .y = (int)strtol(value_of(tag, " y=\""), NULL, 10)};
    const char *font = value_of(tag, " class=\""), *anchor = value_of(tag, " text-anchor=\"");
    const int x = (int)strtol(value_of(tag, " x=\""), NULL, 10), width = width_of(font, e.text);
    e.from = strncmp(anchor, "start", 5) == 0 ? x : strncmp(anchor, "end", 3) == 0 ? x - width : x - width / 2;
    e.to = e.from + width;
    return e;
}

/* Whether a text lies over another. */
static bool lies_over(const extent *a, const extent *b)
{
    return abs(a->y - b->y) < TEXT_HEIGHT && a->to >= b->from && b->to >= a->from;
}

/* No text leaves the picture, and none lies over another. */
static void scan_texts(const char *picture)
{
    static extent list[TEXTS];
    size_t count = 0;
    for (const char *at = picture; count < TEXTS && (at = strstr(at, "<text ")) != NULL; at++) {
        const extent e = read_text(at);
        require(e.from >= 0 && e.to <= SVG_WIDTH, "a text lies in the picture");
        for (size_t i = 0; i < count; i++)
            require(!lies_over(&list[i], &e), "no text lies over another");
        list[count++] = e;
    }
}

void svg_scan(const char *text)
{
    static const char declaration[] = "<?xml version=\"1.0\" encoding=\"UTF-8\"?>\n";
    scan s = {.at = text};
    require(begins(&s, declaration), "a picture is XML");
    s.at += sizeof declaration - 1;
    require(begins(&s, "<svg "), "a picture is SVG");
    while (*s.at != '\0') {
        if (begins(&s, "</"))
            close_tag(&s);
        else if (*s.at == '<')
            open_tag(&s);
        else
            skip_text(&s, "<");
    }
    require(s.whole, "a picture is whole");
    scan_texts(text);
}
