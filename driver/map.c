#include "map.h"

#include <inttypes.h>
#include <stdbool.h>
#include <stdlib.h>

#include "listing.h"
#include "svg.h"
#include "words.h"

#define MARGIN 14
#define TOP 92     /* where the map begins */
#define HEIGHT 320 /* the least of it */
#define MAP_X 256  /* its left and right side */
#define MAP_RIGHT 370
#define LIST_X 446
#define LIST_HEIGHT 24 /* of a line of the list */
#define LINE_WIDTH (SVG_WIDTH - 2 * MARGIN)
#define TEXT 400

/* A region, or a gap where nothing is loaded. */
typedef struct place {
    uint64_t address;
    uint64_t length;
    uint32_t region; /* counted from 1; 0 for a gap */
} place;

typedef struct map {
    FILE *out;
    const contents *file;
    mop_image image;
    uint64_t low; /* the addresses that are drawn */
    uint64_t high;
    size_t places; /* how many there are */
    size_t cut;    /* those from cut to resume are not listed */
    size_t resume;
    int height;
    size_t at; /* the place that is next */
} map;

static image_entry region(const map *m, uint32_t i)
{
    return image_entry_at(m->file, m->image, i);
}

/* Where an address is drawn. */
static int y_of(const map *m, uint64_t address)
{
    const uint64_t within = address < m->low ? 0 : address > m->high ? m->high - m->low : address - m->low;
    return TOP + (int)(within * (uint64_t)m->height / (m->high - m->low));
}

/* ---- The places ------------------------------------------------------ */

typedef void (*place_use)(map *m, place p);

/* Every place in the order of the addresses, from the lowest that is drawn to the highest; a region that lies beyond is
 * one too. */
static void each_place(map *m, place_use use)
{
    uint64_t end = m->low;
    for (uint32_t i = 0; i < m->image.regions; i++) {
        const image_entry e = region(m, i);
        const uint64_t until = e.address < m->high ? e.address : m->high; /* a gap ends with the memory */
        if (until > end)
            use(m, (place){end, until - end, 0});
        use(m, (place){e.address, e.length, i + 1});
        end = e.address + e.length;
    }
    if (end < m->high)
        use(m, (place){end, m->high - end, 0});
}

static void count_place(map *m, place p)
{
    (void)p;
    m->places += 1;
}

/* ---- The map --------------------------------------------------------- */

static void draw_block(const map *m, int from, int to)
{
    if (to > from)
        svg_box(m->out, (svg_point){MAP_X, from}, MAP_RIGHT - MAP_X, to - from, SVG_FULL);
}

/* All regions to scale, each at least one pixel high; those that share a pixel are one block. */
static void draw_blocks(const map *m)
{
    int from = 0, to = 0;
    for (uint32_t i = 0; i < m->image.regions && region(m, i).address < m->high; i++) {
        const image_entry e = region(m, i);
        const int y = y_of(m, e.address), end = y_of(m, e.address + e.length);
        if (y >= to) {
            draw_block(m, from, to);
            from = y;
        }
        to = end > y ? end : y + 1;
    }
    draw_block(m, from, to);
}

static void address_words(char text[TEXT], uint64_t address)
{
    snprintf(text, TEXT, "0x%08" PRIX64 " (0o%" PRIo64 ")", address, address);
}

static void draw_bounds(const map *m)
{
    char text[TEXT];
    const int middle = (MAP_X + MAP_RIGHT) / 2;
    address_words(text, m->low);
    svg_text(m->out, (svg_point){middle, TOP - 8}, SVG_FIGURES, SVG_MIDDLE, text);
    address_words(text, m->high - 1);
    svg_text(m->out, (svg_point){middle, TOP + m->height + 16}, SVG_FIGURES, SVG_MIDDLE, text);
}

/* Where the image says to start, if that is on the map. */
static void draw_transfer(const map *m)
{
    char text[TEXT];
    const uint64_t transfer = m->image.transfer;
    const int y = y_of(m, transfer);
    if (transfer < m->low || transfer >= m->high)
        return;
    svg_arrow(m->out, (svg_point){MAP_X - 50, y}, (svg_point){MAP_X - 2, y}, SVG_SOLID, SVG_BLACK);
    svg_text(m->out, (svg_point){MAP_X - 56, y - 2}, SVG_STRONG, SVG_UNTIL, "start at");
    address_words(text, transfer);
    svg_text(m->out, (svg_point){MAP_X - 56, y + 12}, SVG_FIGURES, SVG_UNTIL, text);
}

/* ---- The list -------------------------------------------------------- */

/* The line of the list that a place has. */
static int list_y(const map *m, size_t i)
{
    const size_t line = i < m->cut ? i : i - m->resume + m->cut + 1;
    return TOP + 12 + (int)line * LIST_HEIGHT;
}

static void draw_place(map *m, place p)
{
    char text[TEXT];
    const size_t i = m->at++;
    if (i >= m->cut && i < m->resume)
        return;
    const int y = list_y(m, i), middle = (y_of(m, p.address) + y_of(m, p.address + p.length)) / 2;
    const char *plural = p.length == 1 ? "" : "s";
    if (p.region != 0)
        snprintf(text, sizeof text, "region %" PRIu32 ": %" PRIu64 " byte%s at 0x%08" PRIX64 " (0o%" PRIo64 ")%s",
            p.region, p.length, plural, p.address, p.address, p.address + p.length > m->high ? ", beyond" : "");
    else
        snprintf(text, sizeof text, "gap: %" PRIu64 " byte%s", p.length, plural);
    svg_text(m->out, (svg_point){LIST_X, y + 4}, p.region != 0 ? SVG_PLAIN : SVG_SMALL, SVG_FROM, text);
    svg_line(m->out, (svg_point){MAP_RIGHT, middle}, (svg_point){LIST_X - 6, y}, p.region != 0 ? SVG_SOLID : SVG_DOTTED,
        SVG_BLACK);
}

static void draw_list(map *m)
{
    char text[TEXT];
    m->at = 0;
    each_place(m, draw_place);
    if (m->cut == m->resume)
        return;
    snprintf(text, sizeof text, ".. %zu more regions and gaps (--rows; mopimage --list) ..", m->resume - m->cut);
    svg_text(m->out, (svg_point){LIST_X, TOP + 16 + (int)m->cut * LIST_HEIGHT}, SVG_SMALL, SVG_FROM, text);
}

/* ---- The words ------------------------------------------------------- */

static uint64_t bytes_of(const map *m)
{
    uint64_t total = 0;
    for (uint32_t i = 0; i < m->image.regions; i++)
        total += region(m, i).length;
    return total;
}

static uint32_t regions_beyond(const map *m)
{
    uint32_t count = 0;
    for (uint32_t i = m->image.regions; i > 0 && region(m, i - 1).address + region(m, i - 1).length > m->high; i--)
        count += 1;
    return count;
}

/* The region that has the transfer address, counted from 1; 0 if none has. */
static unsigned region_of_transfer(const map *m)
{
    const unsigned at = image_region(m->file, m->image, m->image.transfer);
    if (at == 0)
        return 0;
    const image_entry e = region(m, at - 1);
    return m->image.transfer < e.address + e.length ? at : 0;
}

static void say(const map *m, bool has_memory, char text[TEXT])
{
    const unsigned at = region_of_transfer(m);
    const uint32_t beyond = regions_beyond(m);
    char where[60] = "in none of them", transfer[TEXT], more[200] = "";
    if (at != 0)
        snprintf(where, sizeof where, "in region %u", at);
    if (has_memory && beyond == 0)
        snprintf(more, sizeof more, " All of it lies in a memory of %" PRIu64 " bytes.", m->high);
    else if (has_memory)
        snprintf(more, sizeof more,
            " Regions that reach beyond a memory of %" PRIu64 " bytes, so that such a machine rejects them: %" PRIu32
            ".",
            m->high, beyond);
    address_words(transfer, m->image.transfer);
    snprintf(text, TEXT, "%" PRIu64 " bytes to load, regions: %" PRIu32 ". The image says to start at %.40s, %s.%s",
        bytes_of(m), m->image.regions, transfer, where, more);
}

/* ---- The whole ------------------------------------------------------- */

/* What is drawn and what is listed. */
static void plan(map *m, const map_settings *settings)
{
    const image_entry last = region(m, m->image.regions - 1);
    m->low = settings->memory != 0 ? 0 : region(m, 0).address;
    m->high = settings->memory != 0 ? settings->memory : last.address + last.length;
    each_place(m, count_place);
    m->cut = m->resume = m->places;
    if (m->places > settings->rows) {
        m->cut = settings->rows / 2;
        m->resume = m->places - settings->rows / 2;
    }
    const int list = list_y(m, m->places) - TOP;
    m->height = list > HEIGHT ? list : HEIGHT;
}

int map_draw(FILE *out, const contents *file, mop_image image, const map_settings *settings)
{
    map m = {.out = out, .file = file, .image = image};
    char text[TEXT];
    plan(&m, settings);
    say(&m, settings->memory != 0, text);
    const int lines = svg_lines(NULL, (svg_point){0, 0}, SVG_PLAIN, SVG_FROM, LINE_WIDTH, text),
              y = TOP + m.height + 52;
    svg_begin(out, y + lines * SVG_LINE_HEIGHT, "An image in memory", text);
    svg_text(out, (svg_point){MARGIN, 26}, SVG_TITLE, SVG_FROM, "An image in memory");
    svg_text(out, (svg_point){MARGIN, 48}, SVG_SMALL, SVG_FROM,
        "To scale; low addresses above. Hatched: nothing is loaded there.");
    svg_box(out, (svg_point){MAP_X, TOP}, MAP_RIGHT - MAP_X, m.height, SVG_HATCHED);
    draw_blocks(&m);
    draw_bounds(&m);
    draw_transfer(&m);
    draw_list(&m);
    svg_box(out, (svg_point){0, y - 20}, SVG_WIDTH, lines * SVG_LINE_HEIGHT + 14, SVG_PALE);
    svg_lines(out, (svg_point){MARGIN, y}, SVG_PLAIN, SVG_FROM, LINE_WIDTH, text);
    svg_end(out);
    return 0;
}
