#include "beside.h"

#include <inttypes.h>
#include <stdio.h>
#include <stdlib.h>
#include <string.h>

#include "words.h"

#define FAR 10000000     /* microseconds that no frame is on its way */
#define EARLY 5000       /* microseconds that no frame comes before it is sent, by clocks that are compared */
#define NEAR 100000      /* microseconds: differences of the clocks that are farther from the middle one are left out */
#define EVENT 1000000    /* a loss or a double counts as much as so many microseconds on the way */
#define CHOICES 128      /* sent frames of which a received one is taken for one */
#define WINDOW 1024      /* rows among which one of the other end is looked for */
#define SILENCE 10000000 /* microseconds after which a capture may have stopped */

/* A frame of a view. */
typedef struct item {
    const captured *frame;
    size_t at; /* in the view */
} item;

/* One sender's frames in a view: equal ones behind each other, those in the order of the capture. */
typedef struct frames {
    item *list;
    size_t count;
} frames;

/* A received frame, and the sent frames that it may be. */
typedef struct step {
    size_t got;              /* in its group */
    size_t first;            /* of the choices, in its group */
    size_t count;            /* of the choices */
    uint8_t before[CHOICES]; /* of each choice, the best choice of the step before */
} step;

/* The views by the end that made the capture. */
typedef struct pair {
    view *views[2];
    frames frames[2][2]; /* by the end and the sender */
    int64_t ahead;       /* of the host's clock the machine's is ahead, in microseconds */
    step *steps;         /* room for one of each frame */
    int64_t *room;       /* too */
} pair;

/* A sighting's time by the host's clock. */
static int64_t time_at(const pair *p, chart_side end, const captured *m)
{
    return m->time - (end == CHART_MACHINE ? p->ahead : 0);
}

static chart_side other(chart_side side)
{
    return side == CHART_HOST ? CHART_MACHINE : CHART_HOST;
}

/* ---- Equal frames ---------------------------------------------------- */

static int compare_frames(const captured *a, const captured *b)
{
    if (a->length != b->length)
        return a->length < b->length ? -1 : 1;
    const int to = memcmp(a->to, b->to, ADDRESS_LENGTH);
    return to != 0 ? to : memcmp(a->message, b->message, a->length);
}

static int compare_items(const void *a, const void *b)
{
    const item *one = a, *two = b;
    const int order = compare_frames(one->frame, two->frame);
    return order != 0 ? order : (one->at > two->at) - (one->at < two->at);
}

static bool sort_frames(frames *f, const view *v, chart_side sender)
{
    f->list = calloc(v->count + 1, sizeof *f->list);
    if (f->list == NULL)
        return false;
    for (size_t i = 0; i < v->count; i++)
        if (v->list[i].sender == sender)
            f->list[f->count++] = (item){v->list[i].frame, i};
    qsort(f->list, f->count, sizeof *f->list, compare_items);
    return true;
}

/* Equal frames of one sender, as the sender's capture and the receiver's have them. */
typedef struct group {
    const item *sent;
    size_t sent_count;
    const item *got;
    size_t got_count;
} group;

static size_t run(const item *from, const item *end, const item *like)
{
    size_t count = 0;
    while (from + count < end && compare_frames(from[count].frame, like->frame) == 0)
        count++;
    return count;
}

/* Before the first group. */
static group no_group(const pair *p, chart_side sender)
{
    return (group){p->frames[sender][sender].list, 0, p->frames[other(sender)][sender].list, 0};
}

/* The group behind this one; false if there is none. */
static bool next_group(const pair *p, chart_side sender, group *g)
{
    const frames *sent = &p->frames[sender][sender], *got = &p->frames[other(sender)][sender];
    const item *sent_end = sent->list + sent->count, *got_end = got->list + got->count;
    g->sent += g->sent_count;
    g->got += g->got_count;
    if (g->sent == sent_end && g->got == got_end)
        return false;
    const bool by_sent = g->got == got_end || (g->sent < sent_end && compare_frames(g->sent->frame, g->got->frame) < 0);
    const item *like = by_sent ? g->sent : g->got;
    g->sent_count = run(g->sent, sent_end, like);
    g->got_count = run(g->got, got_end, like);
    return true;
}

/* ---- The clocks ------------------------------------------------------ */

/* How well it is known which received frame is which sent one: it stands once in both captures; as often in both; or it
 * is the nearest by the clocks as they are. */
enum trust { TRUST_ONCE, TRUST_ALIKE, TRUST_NEAREST, TRUST_NONE };

static int64_t way_of(const pair *p, chart_side sender, const item *sent, const item *got)
{
    return time_at(p, other(sender), got->frame) - time_at(p, sender, sent->frame);
}

/* The sent frame that is the nearest in time to a received one, from a place on. */
static size_t nearest(const pair *p, chart_side sender, const group *g, size_t got, size_t from)
{
    while (from + 1 < g->sent_count && llabs(way_of(p, sender, &g->sent[from + 1], &g->got[got])) <=
                                           llabs(way_of(p, sender, &g->sent[from], &g->got[got])))
        from++;
    return from;
}

/* Adds, of one group, what its frames show: the time in the machine's capture less that in the host's. */
static size_t add_differences(const pair *p, const group *g, chart_side sender, enum trust trust, int64_t *list)
{
    size_t count = 0, near = 0;
    if ((trust == TRUST_ONCE && g->sent_count != 1) || (trust != TRUST_NEAREST && g->sent_count != g->got_count))
        return 0;
    for (size_t i = 0; i < g->got_count && g->sent_count > 0; i++) {
        near = trust == TRUST_NEAREST ? nearest(p, sender, g, i, near) : i;
        const int64_t got = g->got[i].frame->time, sent = g->sent[near].frame->time;
        list[count++] = sender == CHART_HOST ? got - sent : sent - got;
    }
    return count;
}

static int compare_times(const void *a, const void *b)
{
    const int64_t one = *(const int64_t *)a, two = *(const int64_t *)b;
    return (one > two) - (one < two);
}

/* The differences that all frames of one sender show; how many. */
static size_t gather(const pair *p, chart_side sender, enum trust trust)
{
    size_t count = 0;
    group g = no_group(p, sender);
    while (next_group(p, sender, &g))
        count += add_differences(p, &g, sender, trust, p->room + count);
    return count;
}

/* Of the differences that are not far from one, that of the frame that was the least on its way; it stays if there is
 * none. */
static void find_least(const pair *p, chart_side sender, size_t count, int64_t middle, int64_t *ahead)
{
    bool found = false;
    for (size_t i = 0; i < count; i++) {
        const int64_t one = p->room[i];
        if (llabs(one - middle) > NEAR)
            continue;
        if (!found || (sender == CHART_HOST ? one < *ahead : one > *ahead))
            *ahead = one;
        found = true;
    }
}

/* By how much the machine's clock is ahead, as one sender's frames show, and how well. */
static enum trust measure(const pair *p, chart_side sender, int64_t *ahead)
{
    enum trust trust = TRUST_ONCE;
    size_t count = 0;
    while (trust < TRUST_NONE && (count = gather(p, sender, trust)) == 0)
        trust++;
    if (count == 0)
        return TRUST_NONE;
    qsort(p->room, count, sizeof *p->room, compare_times);
    find_least(p, sender, count, p->room[count / 2], ahead);
    return trust;
}

/* A frame is as long on its way to the one end as to the other, as far as is known. What one sender's frames show badly
 * they show better by what the other's show. */
static void compare_clocks(pair *p)
{
    int64_t by[2] = {0, 0};
    p->ahead = 0;
    const enum trust host = measure(p, CHART_HOST, &by[CHART_HOST]);
    const enum trust machine = measure(p, CHART_MACHINE, &by[CHART_MACHINE]);
    const chart_side best = host <= machine ? CHART_HOST : CHART_MACHINE, rest = other(best);
    p->ahead = by[best];
    if (host >= TRUST_NEAREST || machine >= TRUST_NEAREST) {
        by[rest] = by[best];
        find_least(p, rest, gather(p, rest, TRUST_NEAREST), by[best], &by[rest]);
    }
    if (llabs(by[rest] - by[best]) < EVENT)
        p->ahead = by[best] + (by[rest] - by[best]) / 2;
}

/* ---- Which is which -------------------------------------------------- */

/* Equal frames come in the order in which they were sent. Of all ways to say which received frame is which sent one,
 * that is taken in which the fewest were lost or came twice, and they were the least on their way: each loss and each
 * double counts as much as a second. */

/* What a frame's way counts. One that came before it was sent counts more than a loss and a double. */
static int64_t cost_of(int64_t way)
{
    return way < -EARLY ? 2 * EVENT - way : llabs(way);
}

/* The choices of each received frame of a group; how many have any. First, last and near go forwards alone. */
static size_t make_steps(const pair *p, chart_side sender, const group *g)
{
    size_t count = 0, first = 0, last = 0, near = 0;
    for (size_t i = 0; i < g->got_count && g->sent_count > 0; i++) {
        const int64_t time = time_at(p, other(sender), g->got[i].frame);
        while (first < g->sent_count && time_at(p, sender, g->sent[first].frame) < time - FAR)
            first++;
        while (last < g->sent_count && time_at(p, sender, g->sent[last].frame) <= time + FAR)
            last++;
        near = nearest(p, sender, g, i, near);
        const size_t from = near > first + CHOICES / 2 ? near - CHOICES / 2 : first;
        const size_t end = last > from + CHOICES ? from + CHOICES : last;
        p->steps[count] = (step){.got = i, .first = from, .count = end - from};
        count += from < end;
    }
    return count;
}

/* What the best way to each choice of a step counts. */
typedef struct costs {
    int64_t list[CHOICES];
} costs;

/* The best choice of the step before for a choice k: one before it, the best of which is known, or k itself. */
static void weigh(const step *before, const costs *old, step *s, costs *now)
{
    size_t next = 0, best = CHOICES;
    for (size_t i = 0; i < s->count; i++) {
        const size_t k = s->first + i;
        for (; next < before->count && before->first + next < k; next++)
            if (best == CHOICES || old->list[next] - EVENT * (int64_t)next < old->list[best] - EVENT * (int64_t)best)
                best = next;
        const bool again = next < before->count && before->first + next == k; /* it came twice */
        const int64_t lost =
            best == CHOICES ? INT64_MAX : old->list[best] + EVENT * (int64_t)(k - before->first - best - 1);
        const bool take = again && old->list[next] + EVENT < lost;
        now->list[i] = take ? old->list[next] + EVENT : lost;
        s->before[i] = (uint8_t)(take ? next : best);
    }
}

/* The best way through all steps: its choice of the last one. */
static size_t walk(const pair *p, chart_side sender, const group *g, size_t count)
{
    static costs all[2];
    size_t best = 0;
    for (size_t i = 0; i < count; i++) {
        step *s = &p->steps[i];
        costs *now = &all[i % 2];
        for (size_t k = 0; k < s->count && i == 0; k++)
            now->list[k] = EVENT * (int64_t)(s->first + k);
        if (i > 0)
            weigh(s - 1, &all[(i - 1) % 2], s, now);
        best = 0;
        for (size_t k = 0; k < s->count; k++) {
            now->list[k] += cost_of(way_of(p, sender, &g->sent[s->first + k], &g->got[s->got]));
            if (now->list[k] - EVENT * (int64_t)k < now->list[best] - EVENT * (int64_t)best)
                best = k;
        }
    }
    return best;
}

/* Finds the partners of one sender's frames. */
static void match(pair *p, chart_side sender)
{
    const view *from = p->views[sender], *to = p->views[other(sender)];
    group g = no_group(p, sender);
    while (next_group(p, sender, &g)) {
        const size_t count = make_steps(p, sender, &g);
        size_t choice = walk(p, sender, &g, count);
        for (size_t i = count; i > 0; i--) {
            const step *s = &p->steps[i - 1];
            const size_t sent = g.sent[s->first + choice].at, got = g.got[s->got].at;
            to->list[got].partner = sent;
            from->list[sent].partner = got; /* in the end, the first that came */
            choice = s->before[choice];
        }
    }
}

static void forget(view *v)
{
    for (size_t i = 0; i < v->count; i++)
        v->list[i].partner = NOWHERE;
}

/* Whether an end's capture was being taken at a time, as far as can be known. */
static bool is_taken(const pair *p, chart_side end, int64_t time)
{
    const view *v = p->views[end];
    size_t from = 0, to = v->count;
    while (from < to) {
        const size_t middle = (from + to) / 2;
        if (time_at(p, end, v->list[middle].frame) < time)
            from = middle + 1;
        else
            to = middle;
    }
    return from > 0 && from < v->count && time - time_at(p, end, v->list[from - 1].frame) <= SILENCE &&
           time_at(p, end, v->list[from].frame) - time <= SILENCE;
}

/* Whether a frame that came speaks against the two ends: the sender's capture lacks it, although it was being taken, or
 * has it much later alone. */
static bool is_stranger(const pair *p, chart_side end, const sighting *s)
{
    const int64_t time = time_at(p, end, s->frame);
    if (s->sender == end)
        return false;
    if (s->partner == NOWHERE)
        return is_taken(p, s->sender, time);
    return time_at(p, s->sender, p->views[s->sender]->list[s->partner].frame) - time > EARLY;
}

static size_t strangers(const pair *p, chart_side end)
{
    size_t count = 0;
    for (size_t i = 0; i < p->views[end]->count; i++)
        count += is_stranger(p, end, &p->views[end]->list[i]);
    return count;
}

static size_t match_both(pair *p)
{
    forget(p->views[CHART_HOST]);
    forget(p->views[CHART_MACHINE]);
    compare_clocks(p);
    match(p, CHART_HOST);
    match(p, CHART_MACHINE);
    return strangers(p, CHART_HOST) + strangers(p, CHART_MACHINE);
}

static void turn(pair *p)
{
    const pair old = *p;
    for (int end = 0; end < 2; end++) {
        p->views[end] = old.views[1 - end];
        memcpy(p->frames[end], old.frames[1 - end], sizeof p->frames[end]);
    }
}

/* Which capture is the host's: the first, unless fewer frames speak against the other. */
static void pair_views(pair *p)
{
    const size_t as_given = match_both(p);
    turn(p);
    if (as_given == 0 || match_both(p) >= as_given) {
        turn(p);
        match_both(p);
    }
}

static void pair_free(pair *p)
{
    for (int i = 0; i < 4; i++)
        free(p->frames[i / 2][i % 2].list);
    free(p->steps);
    free(p->room);
}

static int pair_make(pair *p, view *one, view *two)
{
    const size_t most = (one->count > two->count ? one->count : two->count) + 1;
    *p = (pair){.views = {one, two}, .steps = calloc(most, sizeof *p->steps), .room = calloc(most, sizeof *p->room)};
    bool good = p->steps != NULL && p->room != NULL;
    for (int i = 0; i < 4 && good; i++)
        good = sort_frames(&p->frames[i / 2][i % 2], p->views[i / 2], (chart_side)(i % 2));
    if (good)
        pair_views(p);
    return good ? 0 : complain(STATUS_OTHER, "no memory for the picture");
}

static bool have_common(const view *v)
{
    for (size_t i = 0; i < v->count; i++)
        if (v->list[i].partner != NOWHERE)
            return true;
    return false;
}

/* ---- Rows ------------------------------------------------------------ */

/* A frame that was sent stands in the row of the one that came right before it to the same end. */
static void add_sent(const pair *p, chart *c, chart_side end, sighting *s)
{
    chart_row *last = c->rows_count == 0 ? NULL : &c->rows[c->rows_count - 1];
    chart_row *row = last != NULL && last->side == end && last->frame == NULL ? last : chart_add(c, end);
    row->frame = s->frame->message;
    row->length = s->frame->length;
    row->words = NULL;
    row->words_length = 0;
    row->time = time_at(p, end, s->frame);
    row->marks = view_marks(s);
    s->row = c->rows_count - 1;
}

static void add_received(const pair *p, chart *c, chart_side end, sighting *s)
{
    static const char words[] = "received";
    chart_row *row = chart_add(c, end);
    row->time = time_at(p, end, s->frame);
    row->words = words;
    row->words_length = sizeof words - 1;
    s->row = c->rows_count - 1;
}

/* Whether a frame has come that is not in a row yet where it was sent. */
static bool waits(const sighting *s, chart_side end, size_t done)
{
    return s->sender != end && s->partner != NOWHERE && s->partner >= done;
}

/* Which end's next frame comes first: by time, but none comes before it is sent. */
static chart_side next_end(const pair *p, const size_t at[2])
{
    const view *h = p->views[CHART_HOST], *m = p->views[CHART_MACHINE];
    if (at[CHART_HOST] == h->count || at[CHART_MACHINE] == m->count)
        return at[CHART_HOST] == h->count ? CHART_MACHINE : CHART_HOST;
    const sighting *of_host = &h->list[at[CHART_HOST]], *of_machine = &m->list[at[CHART_MACHINE]];
    const bool host_waits = waits(of_host, CHART_HOST, at[CHART_MACHINE]);
    if (host_waits != waits(of_machine, CHART_MACHINE, at[CHART_HOST]))
        return host_waits ? CHART_MACHINE : CHART_HOST;
    return time_at(p, CHART_HOST, of_host->frame) <= time_at(p, CHART_MACHINE, of_machine->frame) ? CHART_HOST
                                                                                                  : CHART_MACHINE;
}

static void add_rows(const pair *p, chart *c)
{
    size_t at[2] = {0, 0};
    const size_t all = p->views[CHART_HOST]->count + p->views[CHART_MACHINE]->count;
    for (size_t i = 0; i < all; i++) {
        const chart_side end = next_end(p, at);
        sighting *s = &p->views[end]->list[at[end]++];
        if (s->sender == end)
            add_sent(p, c, end, s);
        else
            add_received(p, c, end, s);
    }
}

/* From the first row on. */
static void set_times(chart *c)
{
    const int64_t first = c->rows_count == 0 ? 0 : c->rows[0].time;
    for (size_t i = 0; i < c->rows_count; i++)
        c->rows[i].time -= first;
}

/* ---- Arrows ---------------------------------------------------------- */

/* Whether the other end's capture has a frame close to a row: step is 1 for one behind it, -1 for one before it. */
static bool is_close(const chart *c, size_t row, int step)
{
    const chart_row *at = &c->rows[row];
    size_t i = row;
    for (size_t tries = 0; tries < WINDOW && i < c->rows_count; tries++, i += (size_t)step)
        if (c->rows[i].side != at->side)
            return llabs(c->rows[i].time - at->time) <= SILENCE;
    return false;
}

/* Whether the other end's capture was being taken then, as far as can be known. */
static bool is_covered(const chart *c, size_t row)
{
    return is_close(c, row, -1) && is_close(c, row, 1);
}

static void add_arrow(const pair *p, chart *c, chart_side end, size_t i)
{
    const sighting *s = &p->views[end]->list[i];
    const int32_t row = (int32_t)(4 * s->row);
    if (s->sender != end && s->partner == NOWHERE) {
        chart_send(c, s->sender, row - 2, row, CHART_UNSENT);
    } else if (s->sender != end) {
        const sighting *sent = &p->views[s->sender]->list[s->partner];
        chart_send(c, s->sender, (int32_t)(4 * sent->row), row, sent->partner == i ? CHART_CAME : CHART_DOUBLE);
    } else if (s->partner == NOWHERE) {
        chart_send(c, end, row, row + 2, is_covered(c, s->row) ? CHART_LOST : CHART_UNKNOWN);
    }
}

static void add_arrows(const pair *p, chart *c, chart_side end)
{
    for (size_t i = 0; i < p->views[end]->count; i++)
        add_arrow(p, c, end, i);
}

/* ---- The whole ------------------------------------------------------- */

/* Whether the last load that came to the machine is the host's last, and not one like it of an earlier session. */
static bool is_of_last(const pair *p, const sighting *got, const sighting *last)
{
    return got != NULL && last != NULL && got->partner != NOWHERE && &p->views[CHART_HOST]->list[got->partner] >= last;
}

/* By the host's capture, and what the machine's shows beyond. Whether there were several sessions. */
static bool say_outcome(const pair *p, char end[CHART_TEXT])
{
    char text[CHART_TEXT];
    const view_outcome host = view_end(p->views[CHART_HOST], end);
    const view_outcome machine = view_end(p->views[CHART_MACHINE], text);
    const size_t length = strlen(end);
    const bool several = host.several || machine.several;
    if (!is_of_last(p, machine.asked, host.asked))
        return several;
    if (!host.answered && machine.confirmed)
        snprintf(end + length, CHART_TEXT - length,
            " The machine's capture has its answer, without an error, which did not come to the host.");
    else if (host.confirmed && machine.answered && !machine.confirmed)
        memcpy(end, text, CHART_TEXT); /* it has begun something new */
    return several;
}

/* As much as the figures show of it. */
static void say_clocks(const pair *p, char text[CHART_TEXT])
{
    const int64_t tenths = llabs(p->ahead) / 100;
    if (tenths > 0)
        snprintf(text, CHART_TEXT,
            "The clock of the machine's capture is %" PRId64 ".%" PRId64
            " milliseconds %s the host's, as the frames show that stand in both; its times are set to the host's here.",
            tenths / 10, tenths % 10, p->ahead > 0 ? "ahead of" : "behind");
}

static void say_end(const pair *p, chart *c)
{
    const bool several = say_outcome(p, c->end);
    snprintf(c->title, CHART_TEXT, "%s, from the captures of both ends", several ? "Sessions" : "A session");
    snprintf(c->again, CHART_TEXT, "sent again: it or its answer was lost or late, or what it answers came again");
    snprintf(c->lost, CHART_TEXT, "lost: it stands in its sender's capture alone");
    snprintf(c->twice, CHART_TEXT, "it stands once more in the receiver's capture than in the sender's");
    snprintf(c->unknown, CHART_TEXT,
        "the other capture does not have it, nor any frame in the %d s before it, or behind it: whether it came is not "
        "known",
        SILENCE / 1000000);
    snprintf(c->notes[0], CHART_TEXT, "The figures at the margins are seconds since the first frame.");
    say_clocks(p, c->notes[1]);
}

static int draw(const pair *p, chart *c)
{
    const size_t frames = p->views[CHART_HOST]->count + p->views[CHART_MACHINE]->count;
    if (!have_common(p->views[CHART_HOST]))
        return complain(STATUS_FILE, "no frame stands in both captures: they are not of one session");
    int status = chart_room(c, frames, frames);
    if (status != 0)
        return status;
    add_rows(p, c);
    set_times(c);
    add_arrows(p, c, CHART_HOST);
    add_arrows(p, c, CHART_MACHINE);
    say_end(p, c);
    return 0;
}

int beside_chart(view *one, view *two, chart *c)
{
    pair p;
    int status = pair_make(&p, one, two);
    if (status == 0)
        status = draw(&p, c);
    pair_free(&p);
    return status;
}
