#include "progress.h"

#include <inttypes.h>
#include <stdio.h>
#include <string.h>
#include <sys/ioctl.h>
#include <unistd.h>

#include "line.h"
#include "words.h"

#define COLUMNS 80 /* of a terminal that does not tell */
#define BAR_MOST 40
#define BAR_LEAST 5
#define TEXT_MOST 160
#define RATE_LEAST 500 /* milliseconds before there is a rate: of less it says nothing */

void progress_start(progress *p, const char *unit, uint64_t total)
{
    *p = (progress){.unit = unit, .total = total, .terminal = isatty(STDOUT_FILENO) != 0, .bar = BAR_MOST};
}

/* ---- The words ------------------------------------------------------- */

/* So many units in a second. */
static int rate_words(const progress *p, double rate, char *text, size_t room)
{
    if (strcmp(p->unit, "bytes") == 0)
        return snprintf(text, room, ", %.1f kB/s", rate / 1000);
    return snprintf(text, room, ", %.1f %s/s", rate, p->unit);
}

static int left_words(double seconds, char *text, size_t room)
{
    const uint64_t s = seconds < 1e9 ? (uint64_t)(seconds + 0.5) : 1000000000;
    if (s < 60)
        return snprintf(text, room, ", %" PRIu64 " s left", s);
    if (s < 3600)
        return snprintf(text, room, ", %" PRIu64 ":%02" PRIu64 " min left", s / 60, s % 60);
    return snprintf(text, room, ", %" PRIu64 ":%02" PRIu64 " h left", s / 3600, s / 60 % 60);
}

/* The rate is that of what was done since the count of it began; there is none at first. */
static int progress_words(const progress *p, uint64_t done, char text[TEXT_MOST])
{
    const int64_t elapsed = clock_now() - p->since;
    const size_t most = TEXT_MOST;
    int length = snprintf(text, most, "%" PRIu64 " of %" PRIu64 " %s", done, p->total, p->unit);
    if (p->repeats > 0)
        length += snprintf(
            text + length, most - (size_t)length, ", %" PRIu64 " repeat%s", p->repeats, p->repeats == 1 ? "" : "s");
    if (elapsed < RATE_LEAST || done <= p->first)
        return length;
    const double rate = (double)(done - p->first) * 1000 / (double)elapsed;
    length += rate_words(p, rate, text + length, most - (size_t)length);
    if (done < p->total)
        length += left_words((double)(p->total - done) / rate, text + length, most - (size_t)length);
    return length;
}

/* ---- The bar --------------------------------------------------------- */

static int columns(void)
{
    struct winsize size;
    return ioctl(STDOUT_FILENO, TIOCGWINSZ, &size) == 0 && size.ws_col > 0 ? size.ws_col : COLUMNS;
}

/* A bar as wide as there is room for: what it takes of the line, 0 for none. */
static int put_bar(progress *p, uint64_t done, int room)
{
    if (room < p->bar)
        p->bar = room > 0 ? room : 0;
    if (p->bar < BAR_LEAST)
        return 0;
    putchar('[');
    for (int i = 0; i < p->bar; i++)
        putchar((uint64_t)(i + 1) * p->total <= done * (uint64_t)p->bar ? '#' : '.');
    fputs("] ", stdout);
    return p->bar + 3;
}

static int least(int a, int b)
{
    return a < b ? a : b;
}

/* Over the line that stood there; blanks go over what is left of it. What is too long for the terminal, whose width may
 * change, is cut. */
static void show_line(progress *p, uint64_t done, const char *text, int length)
{
    char share[32];
    const int most = columns() - 1, before = snprintf(share, sizeof share, "%3" PRIu64 " %%  ", done * 100 / p->total);
    printf("\r%.*s", least(before, most), share);
    const int room = most - least(before, most), shown = least(length, room);
    const int width = shown + put_bar(p, done, room - shown - 3);
    const int stood = least(p->width, room);
    printf("%.*s%*s", shown, text, stood > width ? stood - width : 0, "");
    p->width = width;
    words_bar();
}

/* ---- What is shown --------------------------------------------------- */

/* The rate is counted from the first call on, and anew where less is done than before. */
static void count_from(progress *p, uint64_t done)
{
    if (p->since == 0 || done < p->last) {
        p->since = clock_now();
        p->first = done;
    }
    p->last = done;
}

void progress_show(progress *p, uint64_t done, uint64_t repeats)
{
    char text[TEXT_MOST];
    const uint64_t parts = p->terminal ? 1000 : 10;
    const uint64_t now = done * parts / p->total;
    const bool more = p->terminal && repeats != p->repeats;
    count_from(p, done);
    p->repeats = repeats;
    if (now == p->shown && !more)
        return;
    p->shown = now;
    const int length = progress_words(p, done, text);
    if (p->terminal)
        show_line(p, done, text, length);
    else
        puts(text);
    fflush(stdout);
}
