#include "chart.h"

#include <inttypes.h>
#include <stdbool.h>
#include <stdlib.h>
#include <string.h>

#include "label.h"
#include "svg.h"
#include "words.h"

/* ---- Building -------------------------------------------------------- */

int chart_room(chart *c, size_t rows, size_t arrows)
{
    c->rows = calloc(rows + 1, sizeof *c->rows);
    c->arrows = calloc(arrows + 1, sizeof *c->arrows);
    if (c->rows != NULL && c->arrows != NULL)
        return 0;
    return complain(STATUS_OTHER, "no memory for the picture");
}

void chart_free(chart *c)
{
    free(c->rows);
    free(c->arrows);
    c->rows = NULL;
    c->arrows = NULL;
}

chart_row *chart_add(chart *c, chart_side side)
{
    chart_row *row = &c->rows[c->rows_count++];
    *row = (chart_row){.side = side, .time = CHART_UNTIMED};
    return row;
}

void chart_send(chart *c, chart_side sender, int32_t from, int32_t to, chart_way way)
{
    c->arrows[c->arrows_count++] = (chart_arrow){from, to, sender, way};
}

/* ---- Where things stand ---------------------------------------------- */

#define AXIS_TOP 76  /* where the two lines begin */
#define ROWS_TOP 106 /* the first row */
#define ROW_HEIGHT 40
#define GAP_HEIGHT 60 /* in the place of rows that are left out */
#define HOST_X 370
#define MACHINE_X 630
#define MARGIN 14
#define LEGEND_HEIGHT 19
#define LINE_WIDTH (SVG_WIDTH - 2 * MARGIN)   /* of a text over the whole width */
#define BESIDE 14                             /* from a line to what is written beside it */
#define SIDE_WIDTH (HOST_X - BESIDE - MARGIN) /* of a text beside one of the lines */

/* A chart on paper: of the rows from cut to resume none is drawn. */
typedef struct plan {
    const chart *chart;
    size_t cut;
    size_t resume;
    bool used[CHART_UNSENT + 1]; /* the ways of the frames that are drawn */
    uint8_t marks;               /* the marks of the rows that are drawn */
} plan;

static bool is_drawn(const plan *p, size_t row)
{
    return row < p->cut || row >= p->resume;
}

/* Where a quarter of a row is: one that is left out stands in the gap. */
static int y_of(const plan *p, int32_t quarter)
{
    const int64_t row = quarter < 0 ? 0 : quarter / 4;
    const int64_t cut = (int64_t)p->cut, resume = (int64_t)p->resume;
    int64_t y = ROWS_TOP + (int64_t)quarter * ROW_HEIGHT / 4;
    if (row >= resume && resume > cut)
        y = ROWS_TOP + cut * ROW_HEIGHT + GAP_HEIGHT + (quarter - 4 * resume) * (int64_t)ROW_HEIGHT / 4;
    else if (row >= cut)
        y = ROWS_TOP + cut * ROW_HEIGHT + GAP_HEIGHT / 2 - ROW_HEIGHT / 2;
    return (int)y;
}

static int gap_middle(const plan *p)
{
    return ROWS_TOP + (int)p->cut * ROW_HEIGHT + GAP_HEIGHT / 2 - ROW_HEIGHT / 2;
}

/* Where a text that would stand in the gap stands: behind it. */
static int beside_gap(const plan *p, int y)
{
    const int away = y - gap_middle(p);
    return p->resume > p->cut && away > -GAP_HEIGHT / 2 && away < GAP_HEIGHT / 2 + 6 ? y - away + GAP_HEIGHT / 2 + 6
                                                                                     : y;
}

static int rows_end(const plan *p)
{
    return y_of(p, (int32_t)(4 * p->chart->rows_count)) + 4;
}

static int x_of(chart_side side)
{
    return side == CHART_HOST ? HOST_X : MACHINE_X;
}

/* An arrow is drawn if one of its ends is in a row that is. */
static bool is_visible(const plan *p, const chart_arrow *a)
{
    const int32_t from = (a->from + 1) / 4, to = a->to / 4;
    return is_drawn(p, (size_t)(from < 0 ? 0 : from)) || is_drawn(p, (size_t)(to < 0 ? 0 : to));
}

static void plan_ways(plan *p)
{
    const chart *c = p->chart;
    for (size_t i = 0; i < c->arrows_count; i++)
        p->used[c->arrows[i].way] |= is_visible(p, &c->arrows[i]);
}

static void plan_marks(plan *p)
{
    for (size_t i = 0; i < p->chart->rows_count; i++)
        if (is_drawn(p, i))
            p->marks |= p->chart->rows[i].marks;
}

static plan plan_of(const chart *c, size_t most)
{
    plan p = {.chart = c, .cut = c->rows_count, .resume = c->rows_count};
    if (c->rows_count > most) {
        p.cut = most / 2;
        p.resume = c->rows_count - most / 2;
    }
    plan_ways(&p);
    plan_marks(&p);
    return p;
}

/* ---- Arrows ---------------------------------------------------------- */

#define WORD_HEIGHT 10
#define WORDS_NEAR 64 /* arrows before one whose words may meet its own */

/* Where it is said of a frame that it came twice: near the end of the arrow. */
static svg_point word_at(const plan *p, const chart_arrow *a)
{
    const svg_point from = {x_of(a->sender), y_of(p, a->from)};
    const svg_point to = {a->sender == CHART_HOST ? MACHINE_X : HOST_X, y_of(p, a->to)};
    return (svg_point){(from.x + 3 * to.x) / 4, beside_gap(p, (from.y + 3 * to.y) / 4 + 4)};
}

/* Whether it is said, and not at the same place of one of the arrows just before. */
static bool has_word(const plan *p, const chart_arrow *a)
{
    const chart_arrow *first = p->chart->arrows, *before = a - first > WORDS_NEAR ? a - WORDS_NEAR : first;
    for (; before < a; before++)
        if (before->way == CHART_DOUBLE && before->sender == a->sender && is_drawn(p, (size_t)before->to / 4) &&
            abs(word_at(p, before).y - word_at(p, a).y) < WORD_HEIGHT)
            return false;
    return is_drawn(p, (size_t)a->to / 4);
}

static void draw_arrow(FILE *out, const plan *p, const chart_arrow *a)
{
    const svg_colour colour = a->sender == CHART_HOST ? SVG_BLUE : SVG_BROWN;
    const svg_point from = {x_of(a->sender), y_of(p, a->from)};
    const svg_point to = {a->sender == CHART_HOST ? MACHINE_X : HOST_X, y_of(p, a->to)};
    const svg_point middle = {(from.x + to.x) / 2, to.y};
    switch (a->way) {
    case CHART_CAME:
        svg_arrow(out, from, to, SVG_SOLID, colour);
        break;
    case CHART_DOUBLE:
        svg_arrow(out, from, to, SVG_DASHED, colour);
        if (has_word(p, a))
            svg_text(out, word_at(p, a), SVG_OVER, SVG_MIDDLE, "came twice");
        break;
    case CHART_LOST:
        svg_line(out, from, middle, SVG_SOLID, colour);
        svg_cross(out, middle);
        break;
    case CHART_UNKNOWN:
        svg_line(out, from, middle, SVG_DOTTED, colour);
        break;
    default:
        svg_arrow(out, (svg_point){middle.x, from.y}, to, SVG_DOTTED, colour);
    }
}

static void draw_arrows(FILE *out, const plan *p)
{
    const chart *c = p->chart;
    for (size_t i = 0; i < c->arrows_count; i++)
        if (is_visible(p, &c->arrows[i]))
            draw_arrow(out, p, &c->arrows[i]);
}

/* ---- Rows ------------------------------------------------------------ */

#define TIME_TEXT 40

/* The row's time in seconds; nothing if it has none. One may be before the first. */
static void time_words(const chart_row *row, char text[TIME_TEXT])
{
    const int64_t time = row->time == CHART_UNTIMED ? 0 : llabs(row->time);
    text[0] = '\0';
    if (row->time != CHART_UNTIMED)
        snprintf(text, TIME_TEXT, "%s%" PRId64 ".%04" PRId64, row->time <= -100 ? "-" : "", time / 1000000,
            time % 1000000 / 100);
}

static int detail_lines(const char *text)
{
    return svg_lines(NULL, (svg_point){0, 0}, SVG_SMALL, SVG_FROM, SIDE_WIDTH, text);
}

/* The frame's name and its marks: a name that is too long is shortened, the marks are not. */
static void name_of(const chart_row *row, const char *name, int width, char text[LABEL_TEXT])
{
    char marks[60];
    snprintf(marks, sizeof marks, "%s%s", (row->marks & CHART_TO_ALL) != 0 ? " to all hosts" : "",
        (row->marks & CHART_AT_ONCE) != 0 ? ", again at once"
        : (row->marks & CHART_AGAIN) != 0 ? ", again"
                                          : "");
    snprintf(text, LABEL_TEXT, "%.80s", name);
    svg_shorten(text, SVG_STRONG, width - svg_width(SVG_STRONG, marks, strlen(marks)));
    const size_t length = strlen(text);
    snprintf(text + length, LABEL_TEXT - length, "%s", marks);
}

/* What stands beside a row: the frame's name, beside which the time stands, and what it says; or what happened, in two
 * lines. */
static label words_of(const chart_row *row, const char *when)
{
    label l = {"", ""}, frame = {"", ""};
    const int words = row->words_length < LABEL_TEXT ? (int)row->words_length : LABEL_TEXT - 1;
    if (row->frame != NULL)
        frame = label_of(row->frame, row->length);
    name_of(row, frame.name, SIDE_WIDTH - BESIDE - svg_width(SVG_FIGURES, when, strlen(when)), l.name);
    if (row->words != NULL)
        snprintf(l.detail, sizeof l.detail, "%.*s", words, row->words);
    else
        memcpy(l.detail, frame.detail, sizeof l.detail);
    for (int width = 2 * SIDE_WIDTH; detail_lines(l.detail) > (row->frame != NULL ? 1 : 2); width -= BESIDE)
        svg_shorten(l.detail, SVG_SMALL, width);
    return l;
}

static void draw_row(FILE *out, const plan *p, size_t i)
{
    const chart_row *row = &p->chart->rows[i];
    const bool host = row->side == CHART_HOST;
    const int y = y_of(p, (int32_t)(4 * i)), x = x_of(row->side), beside = host ? x - BESIDE : x + BESIDE;
    const svg_anchor anchor = host ? SVG_UNTIL : SVG_FROM;
    char when[TIME_TEXT];
    time_words(row, when);
    const label l = words_of(row, when);
    const int lines = detail_lines(l.detail);
    const bool named = l.name[0] != '\0';
    const int detail_y = named ? y + 13 : lines > 1 ? y - 4 : y + 4;
    if (named)
        svg_text(out, (svg_point){beside, lines > 0 ? y - 1 : y + 5}, SVG_STRONG, anchor, l.name);
    svg_lines(out, (svg_point){beside, detail_y}, SVG_SMALL, anchor, SIDE_WIDTH, l.detail);
    if (when[0] != '\0')
        svg_text(out, (svg_point){host ? MARGIN : SVG_WIDTH - MARGIN, named && lines > 0 ? y - 1 : y + 4}, SVG_FIGURES,
            host ? SVG_FROM : SVG_UNTIL, when);
    if ((row->marks & CHART_TIMER) != 0)
        svg_clock(out, (svg_point){x, y});
}

static void draw_rows(FILE *out, const plan *p)
{
    for (size_t i = 0; i < p->chart->rows_count; i++)
        if (is_drawn(p, i))
            draw_row(out, p, i);
}

/* What is left out with the rows. */
typedef struct gap {
    size_t frames;
    size_t ways[CHART_UNSENT + 1];
    size_t again;
    size_t at_once;
} gap;

static gap gap_of(const plan *p)
{
    gap g = {.frames = 0};
    for (size_t i = p->cut; i < p->resume; i++) {
        const chart_row *row = &p->chart->rows[i];
        g.frames += row->frame != NULL;
        g.again += (row->marks & CHART_AGAIN) != 0;
        g.at_once += (row->marks & CHART_AT_ONCE) != 0;
    }
    for (size_t i = 0; i < p->chart->arrows_count; i++)
        g.ways[p->chart->arrows[i].way] += !is_visible(p, &p->chart->arrows[i]);
    return g;
}

/* Of those left out, how many were lost, and so on; nothing if there are none. */
static void say_gap(const gap *g, char text[CHART_TEXT])
{
    const struct {
        const char *name;
        size_t count;
    } list[] = {{"lost", g->ways[CHART_LOST]}, {"came twice", g->ways[CHART_DOUBLE]},
        {"not known to have come", g->ways[CHART_UNKNOWN]}, {"not known to be sent", g->ways[CHART_UNSENT]},
        {"sent again", g->again}, {"again at once", g->at_once}};
    size_t length = 0;
    text[0] = '\0';
    for (size_t i = 0; i < sizeof list / sizeof list[0]; i++)
        if (list[i].count > 0)
            length += (size_t)snprintf(text + length, CHART_TEXT - length, "%s%s: %zu", length == 0 ? "of them " : ", ",
                list[i].name, list[i].count);
}

static void draw_gap(FILE *out, const plan *p)
{
    char text[CHART_TEXT], more[CHART_TEXT];
    const int middle = gap_middle(p);
    if (p->resume == p->cut)
        return;
    const gap g = gap_of(p);
    const size_t rows = p->resume - p->cut;
    if (rows == 1)
        snprintf(text, sizeof text, "1 %s is left out here (--rows)", g.frames == 1 ? "frame" : "row");
    else if (rows == g.frames)
        snprintf(text, sizeof text, "%zu frames are left out here (--rows)", g.frames);
    else
        snprintf(text, sizeof text, "%zu rows, of them %zu frames, are left out here (--rows)", rows, g.frames);
    say_gap(&g, more);
    const int half = more[0] == '\0' ? 16 : 22;
    svg_box(out, (svg_point){0, middle - half}, SVG_WIDTH, 2 * half, SVG_PALE);
    svg_text(out, (svg_point){SVG_WIDTH / 2, middle + 21 - half}, SVG_PLAIN, SVG_MIDDLE, text);
    if (more[0] != '\0')
        svg_text(out, (svg_point){SVG_WIDTH / 2, middle + 15}, SVG_SMALL, SVG_MIDDLE, more);
}

/* ---- Above and below ------------------------------------------------- */

static void draw_heads(FILE *out, const plan *p)
{
    const chart *c = p->chart;
    svg_text(out, (svg_point){MARGIN, 26}, SVG_TITLE, SVG_FROM, c->title);
    for (chart_side side = CHART_HOST; side <= CHART_MACHINE; side++) {
        const int x = x_of(side);
        svg_text(out, (svg_point){x, AXIS_TOP - 8}, SVG_STRONG, SVG_MIDDLE, side == CHART_HOST ? "host" : "machine");
        svg_text(out, (svg_point){side == CHART_HOST ? x - 40 : x + 40, AXIS_TOP - 8}, SVG_FIGURES,
            side == CHART_HOST ? SVG_UNTIL : SVG_FROM, c->ends[side]);
        svg_line(out, (svg_point){x, AXIS_TOP}, (svg_point){x, rows_end(p)}, SVG_AXIS, SVG_BLACK);
    }
}

/* A way for a frame and what it means; the next line's place. */
static int draw_way(FILE *out, int y, chart_way way, const char *text)
{
    const svg_point from = {MARGIN, y - 4}, to = {MARGIN + 70, y - 4}, middle = {MARGIN + 40, y - 4};
    if (way == CHART_LOST) {
        svg_line(out, from, middle, SVG_SOLID, SVG_BLACK);
        svg_cross(out, middle);
    } else if (way == CHART_UNKNOWN) {
        svg_line(out, from, to, SVG_DOTTED, SVG_BLACK);
    } else {
        svg_arrow(out, from, to, way == CHART_DOUBLE ? SVG_DASHED : SVG_DOTTED, SVG_BLACK);
    }
    svg_text(out, (svg_point){MARGIN + 86, y}, SVG_SMALL, SVG_FROM, text);
    return y + LEGEND_HEIGHT;
}

/* The signs that are used and what they mean: where it ends. */
static int draw_legend(FILE *out, const plan *p, int y)
{
    const svg_point words = {MARGIN + 86, 0};
    if (p->used[CHART_LOST])
        y = draw_way(out, y, CHART_LOST, p->chart->lost);
    if (p->used[CHART_DOUBLE])
        y = draw_way(out, y, CHART_DOUBLE, p->chart->twice);
    if (p->used[CHART_UNKNOWN])
        y = draw_way(out, y, CHART_UNKNOWN, p->chart->unknown);
    if (p->used[CHART_UNSENT])
        y = draw_way(out, y, CHART_UNSENT, "it came, and does not stand in its sender's capture");
    if ((p->marks & CHART_TIMER) != 0) {
        svg_clock(out, (svg_point){MARGIN + 40, y - 4});
        svg_text(out, (svg_point){words.x, y}, SVG_SMALL, SVG_FROM, "a timer ran out");
        y += LEGEND_HEIGHT;
    }
    if ((p->marks & CHART_AGAIN) != 0) {
        svg_text(out, (svg_point){MARGIN + 24, y}, SVG_STRONG, SVG_FROM, "again");
        svg_text(out, (svg_point){words.x, y}, SVG_SMALL, SVG_FROM, p->chart->again);
        y += LEGEND_HEIGHT;
    }
    if ((p->marks & CHART_AT_ONCE) != 0) {
        svg_text(out, (svg_point){MARGIN + 24, y}, SVG_STRONG, SVG_FROM, "at once");
        svg_text(out, (svg_point){words.x, y}, SVG_SMALL, SVG_FROM, p->chart->at_once);
        y += LEGEND_HEIGHT;
    }
    return y;
}

/* How it ended and what must be known: where it ends. */
static int draw_words(FILE *out, const chart *c, int y)
{
    const int lines = svg_lines(NULL, (svg_point){0, 0}, SVG_PLAIN, SVG_FROM, LINE_WIDTH, c->end);
    svg_box(out, (svg_point){0, y - 20}, SVG_WIDTH, lines * SVG_LINE_HEIGHT + 14, SVG_PALE);
    svg_lines(out, (svg_point){MARGIN, y}, SVG_PLAIN, SVG_FROM, LINE_WIDTH, c->end);
    y += lines * SVG_LINE_HEIGHT + 18;
    for (size_t i = 0; i < CHART_NOTES; i++)
        y += SVG_LINE_HEIGHT * svg_lines(out, (svg_point){MARGIN, y}, SVG_SMALL, SVG_FROM, LINE_WIDTH, c->notes[i]);
    return y;
}

/* All but the frame around it; its height. */
static int draw_all(FILE *out, const plan *p)
{
    draw_heads(out, p);
    draw_arrows(out, p);
    draw_rows(out, p);
    draw_gap(out, p);
    const int y = draw_words(out, p->chart, rows_end(p) + 38);
    return draw_legend(out, p, y + 4) + 2;
}

int chart_draw(FILE *out, const chart *c, size_t most)
{
    const plan p = plan_of(c, most);
    char *body = NULL;
    size_t size = 0;
    FILE *all = open_memstream(&body, &size);
    if (all == NULL)
        return complain(STATUS_OTHER, "no memory for the picture");
    const int height = draw_all(all, &p);
    bool whole = fclose(all) == 0;
    if (whole) {
        svg_begin(out, height, c->title, c->end);
        whole = fwrite(body, 1, size, out) == size;
        svg_end(out);
    }
    free(body);
    return whole ? 0 : complain(STATUS_OTHER, "no memory for the picture");
}
