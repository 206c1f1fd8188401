#include "seen.h"

#include <stdio.h>
#include <stdlib.h>

#include "beside.h"
#include "mop.h"
#include "options.h"
#include "view.h"
#include "words.h"

#define AT_ONCE 10000 /* microseconds */

/* Whether a frame stands right behind one like it: sent again at once, or doubled on the way. */
static bool is_at_once(const sighting *s)
{
    return s->next && llabs(s->frame->time - s[-1].frame->time) <= AT_ONCE;
}

static void say_one(const view *v, chart *c)
{
    const bool several = view_end(v, c->end).several;
    snprintf(c->title, CHART_TEXT, "%s, from the capture of one end", several ? "Sessions" : "A session");
    snprintf(c->again, CHART_TEXT, "sent again: it or its answer was lost or late, or what it answers came again");
    snprintf(c->at_once, CHART_TEXT,
        "the same frame stands right before it, at most %d milliseconds earlier: sent again, or doubled on the way",
        AT_ONCE / 1000);
    snprintf(c->notes[0], CHART_TEXT,
        "Whether a frame reached the other end one capture does not tell, nor whether one was doubled on the way: "
        "each is drawn as one that came. The figures at the margins are seconds since the first frame.");
}

/* One capture: every frame in a row of its own. */
static int one_chart(const view *v, chart *c)
{
    int status = chart_room(c, v->count, v->count);
    for (size_t i = 0; i < v->count && status == 0; i++) {
        const sighting *s = &v->list[i];
        chart_row *row = chart_add(c, s->sender);
        row->frame = s->frame->message;
        row->length = s->frame->length;
        row->time = s->frame->time - v->list[0].frame->time;
        row->marks = view_marks(s);
        if (is_at_once(s))
            row->marks = (uint8_t)((row->marks & ~CHART_AGAIN) | CHART_AT_ONCE);
        chart_send(c, s->sender, (int32_t)(4 * i) - 1, (int32_t)(4 * i) + 1, CHART_CAME);
    }
    say_one(v, c);
    return status;
}

/* What is not drawn of a capture. */
static void note_rest(const view *v, const char *which, char text[CHART_TEXT])
{
    const size_t rest = v->capture->others + v->capture->count - v->count;
    const char *cut = v->capture->cut_short ? " It ends in the middle of a frame." : "";
    if (rest > 0 || v->capture->cut_short)
        snprintf(text, CHART_TEXT,
            "Frames of %s that are not between these two, or no messages, and are not drawn: %zu.%s", which, rest, cut);
}

static void say_ends(const view_ends *e, chart *c)
{
    if (e->has_host)
        address_text(e->host, c->ends[CHART_HOST]);
    address_text(e->machine, c->ends[CHART_MACHINE]);
}

/* Both views, which the caller frees. */
static int draw(const seen_settings *settings, const view_ends *ends, view views[2], chart *c)
{
    int status = view_make(&views[0], settings->capture, ends);
    if (status == 0 && settings->beside != NULL)
        status = view_make(&views[1], settings->beside, ends);
    if (status == 0)
        status = settings->beside != NULL ? beside_chart(&views[0], &views[1], c) : one_chart(&views[0], c);
    if (status != 0)
        return status;
    note_rest(&views[0], "the capture", c->notes[CHART_NOTES - 2]);
    if (settings->beside != NULL)
        note_rest(&views[1], "the other capture", c->notes[CHART_NOTES - 1]);
    say_ends(ends, c);
    return 0;
}

static bool has_loops(const capture *c)
{
    for (size_t i = 0; i < c->count; i++)
        if (c->list[i].message[0] == MOP_CODE_LOOP || c->list[i].message[0] == MOP_CODE_LOOPED)
            return true;
    return false;
}

static int nothing(const seen_settings *settings)
{
    if (settings->machine != NULL)
        return complain(STATUS_FILE, "the capture has no frame of that machine: nothing can be drawn");
    return complain(STATUS_FILE, "the capture has no frame of a machine that asks or is served%s: nothing can be drawn",
        has_loops(settings->capture) ? ", but loop messages (moploop), of which there are no pictures" : "");
}

int seen_chart(const seen_settings *settings, chart *c)
{
    view views[2] = {{.list = NULL}, {.list = NULL}};
    view_ends ends;
    if (!view_find(settings->capture, settings->machine, &ends))
        return nothing(settings);
    int status = draw(settings, &ends, views, c);
    view_free(&views[0]);
    view_free(&views[1]);
    return status;
}
