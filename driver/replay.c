#include "replay.h"

#include <inttypes.h>
#include <stdlib.h>
#include <string.h>

#include "mop.h"
#include "words.h"

/* The line between the ends is two queues of 16 places. A transcript tells the letter of an event that sent nothing. Of
 * one that sent a frame the letter is not told, and so not whether the frame that was handed over left its queue (h, t) or
 * was kept (k, u). That shows in what comes later: an answer tells what it answers, and an event whether there was a
 * frame. So each queue is followed with all the fills that it can have; of those that agree with the whole transcript the
 * one is drawn in which the fewest frames were kept. */
#define PLACES 16
#define NEVER UINT32_MAX

/* What a line does to one queue. */
typedef enum move {
    MOVE_NOTHING,
    MOVE_SENT,   /* a frame goes in */
    MOVE_FULL,   /* a frame finds no place */
    MOVE_EMPTY,  /* there was no frame */
    MOVE_TAKEN,  /* the first frame is handed over */
    MOVE_KEPT,   /* the first frame is handed over and stays */
    MOVE_ANSWER, /* one of these two: what is sent answers the first frame */
    MOVE_DROPPED /* the first frame is dropped */
} move;

/* One direction of the line. */
typedef struct queue {
    transcript *transcript;
    size_t *sent; /* the lines of the frames that went in */
    size_t count;
    const transcript_line *asked; /* the host's last frame, or NULL */
    size_t first;                 /* of those, the first that is in it */
    bool has_come;                /* that one was handed over and kept */
    bool open;                    /* more than one reading agrees with the whole transcript */
    chart_side sender;
} queue;

/* ---- What a line does ------------------------------------------------ */

/* The move of an event's letter, for the sender's own three. */
static move move_of_letter(char letter, chart_side sender)
{
    static const char letters[2][4] = {[CHART_HOST] = "hkx", [CHART_MACHINE] = "tuy"};
    static const move moves[] = {MOVE_TAKEN, MOVE_KEPT, MOVE_DROPPED};
    const char *at = strchr(letters[sender], letter);
    return at == NULL || *at == '\0' ? MOVE_NOTHING : moves[at - letters[sender]];
}

/* Whether a timer sent the frame: the host's sends nothing new, and the machine's asks for a program. */
static bool by_timer(const transcript_line *l)
{
    return l->letter == 'H' ? l->repeat : l->frame[0] == MOP_CODE_REQUEST_PROGRAM;
}

static move move_of(const transcript_line *l, chart_side sender)
{
    const char own = sender == CHART_HOST ? 'H' : 'T';
    if (l->frame == NULL) {
        const move m = move_of_letter(l->letter, sender);
        return m != MOVE_NOTHING && l->no_frame ? MOVE_EMPTY : m;
    }
    if (l->letter == own)
        return l->event != 0 ? MOVE_FULL : MOVE_SENT;
    if (l->event != 0)
        return move_of_letter(l->event, sender);
    return by_timer(l) ? MOVE_NOTHING : MOVE_ANSWER;
}

/* Whether a frame is handed over or dropped. */
static bool is_moved(move m)
{
    return m == MOVE_TAKEN || m == MOVE_KEPT || m == MOVE_ANSWER || m == MOVE_DROPPED;
}

static bool is_load(const mop_fields *f)
{
    return f->code == MOP_CODE_LOAD || f->code == MOP_CODE_LOAD_TRANSFER;
}

/* Whether a frame is what an end answers to another. */
static bool answers(const transcript_line *reply, const transcript_line *to)
{
    const mop_fields f = mop_read(MOP_VERSION_3_0, reply->frame, reply->length);
    const mop_fields g = mop_read(MOP_VERSION_3_0, to->frame, to->length);
    if (is_load(&g))
        return f.code == MOP_CODE_REQUEST_LOAD && f.number == (uint8_t)(g.number + 1);
    if (g.code == MOP_CODE_REQUEST_PROGRAM)
        return is_load(&f) && f.number == 0;
    return g.code == MOP_CODE_REQUEST_LOAD && g.error == 0 && is_load(&f) && f.number == g.number;
}

/* ---- The fills of a queue -------------------------------------------- */

/* The fewest frames kept by which a queue can have each fill, or NEVER; and in how many ways: 1, or 2 for more. */
typedef struct fills {
    uint32_t kept[PLACES + 1];
    uint8_t ways[PLACES + 1];
} fills;

static void add_ways(uint8_t *ways, uint8_t more)
{
    *ways = *ways + more > 1 ? 2 : 1;
}

/* Whether the words of an event that sent nothing, if they tell of the frame, tell of this one. */
static bool is_told(const queue *q, const transcript_line *l, int fill)
{
    static const char finished[] = "the host has the last answer: finished",
                      rejected[] = "the host hears of the error: rejected";
    if (fill == 0 || l->frame != NULL || l->words_length < sizeof rejected - 1)
        return fill > 0;
    const transcript_line *to = &q->transcript->lines[q->sent[q->count - (size_t)fill]];
    if (l->words_length == sizeof finished - 1 && memcmp(l->words, finished, sizeof finished - 1) == 0)
        return q->asked != NULL && answers(to, q->asked);
    if (l->words_length == sizeof rejected - 1 && memcmp(l->words, rejected, sizeof rejected - 1) == 0)
        return mop_read(MOP_VERSION_3_0, to->frame, to->length).error != 0;
    return true;
}

/* What becomes of one fill: the next fill, or -1 if the line cannot be. Of an answer that one is meant in which the frame
 * leaves. */
static int next_fill(const queue *q, move m, const transcript_line *l, int fill)
{
    switch (m) {
    case MOVE_NOTHING:
        return fill;
    case MOVE_SENT:
        return fill < PLACES ? fill + 1 : -1;
    case MOVE_FULL:
        return fill == PLACES ? fill : -1;
    case MOVE_EMPTY:
        return fill == 0 ? 0 : -1;
    case MOVE_KEPT:
        return is_told(q, l, fill) ? fill : -1;
    case MOVE_TAKEN:
        return is_told(q, l, fill) ? fill - 1 : -1;
    case MOVE_ANSWER:
        return fill > 0 && answers(l, &q->transcript->lines[q->sent[q->count - (size_t)fill]]) ? fill - 1 : -1;
    default:
        return fill - 1;
    }
}

/* A line, for all fills. Into the line goes, of each fill behind it, whether it is reached by keeping the frame. */
static bool step(queue *q, fills *now, transcript_line *l)
{
    const move m = move_of(l, q->sender);
    fills next;
    bool some = false;
    memset(next.kept, 0xFF, sizeof next.kept);
    memset(next.ways, 0, sizeof next.ways);
    for (int fill = 0; fill <= PLACES; fill++) {
        const int to = now->kept[fill] == NEVER ? -1 : next_fill(q, m, l, fill);
        if (to < 0)
            continue;
        some = true;
        add_ways(&next.ways[to], now->ways[fill]);
        if (now->kept[fill] <= next.kept[to]) {
            next.kept[to] = now->kept[fill];
            l->kept &= ~(1U << to);
        }
        if (m == MOVE_ANSWER) {
            next.kept[fill] = now->kept[fill] + 1;
            add_ways(&next.ways[fill], now->ways[fill]);
            l->kept |= 1U << fill;
        }
    }
    *now = next;
    return some;
}

static int least(const fills *f)
{
    int fill = 0;
    for (int i = 1; i <= PLACES; i++)
        fill = f->kept[i] < f->kept[fill] ? i : fill;
    return fill;
}

/* A queue before the last line that moves a frame. */
typedef struct last_move {
    queue queue;
    fills fills;
    size_t line;
} last_move;

/* Whether the lines from there on can be, from one fill. */
static bool ends_well(last_move *at, int fill)
{
    transcript *t = at->queue.transcript;
    fills now = {.ways = {0}};
    bool good = true;
    memset(now.kept, 0xFF, sizeof now.kept);
    now.kept[fill] = 0;
    for (size_t i = at->line; i < t->count && good; i++) {
        transcript_line l = t->lines[i];
        good = step(&at->queue, &now, &l);
    }
    return good;
}

/* Whether there is more than one way to there. Whether that line kept the frame is not drawn. */
static bool is_open(last_move *at)
{
    uint8_t ways = 0;
    for (int fill = 0; fill <= PLACES; fill++)
        if (at->fills.ways[fill] > 0 && ends_well(at, fill))
            add_ways(&ways, at->fills.ways[fill]);
    return ways > 1;
}

/* Follows the queue over all lines: 0 and its last fill, or an exit status. */
static int follow(queue *q, int *fill)
{
    transcript *t = q->transcript;
    fills now = {.ways = {1}};
    last_move last = {.line = t->count};
    memset(now.kept, 0xFF, sizeof now.kept);
    now.kept[0] = 0;
    for (size_t i = 0; i < t->count; i++) {
        transcript_line *l = &t->lines[i];
        const move m = move_of(l, q->sender);
        l->kept = 0;
        if (is_moved(m))
            last = (last_move){*q, now, i};
        if (!step(q, &now, l))
            return complain(STATUS_FILE,
                "%s, line %zu: it does not follow from the lines before, by the frames that are on the line then",
                t->path, l->number);
        if (m == MOVE_SENT)
            q->sent[q->count++] = i;
        if (l->letter == 'H')
            q->asked = l;
    }
    *fill = least(&now);
    q->open = last.line < t->count && is_open(&last);
    return 0;
}

/* From the last fill back: of each answer, whether the frame was kept is all that stays in its line. */
static void decide(const queue *q, int fill)
{
    for (size_t i = q->transcript->count; i > 0; i--) {
        transcript_line *l = &q->transcript->lines[i - 1];
        const move m = move_of(l, q->sender);
        const bool kept = m == MOVE_KEPT || (m == MOVE_ANSWER && (l->kept >> fill & 1) != 0);
        l->kept = kept;
        if (m == MOVE_SENT)
            fill -= 1;
        else if ((m == MOVE_TAKEN || m == MOVE_DROPPED || m == MOVE_ANSWER) && !kept)
            fill += 1;
    }
}

/* ---- The chart ------------------------------------------------------- */

/* The first frame is handed over or dropped in this row. */
static void draw_move(queue *q, chart *c, size_t row, move m)
{
    const int32_t from = (int32_t)(4 * q->sent[q->first]), to = (int32_t)(4 * row);
    const bool kept = q->transcript->lines[row].kept != 0;
    if (m == MOVE_DROPPED)
        chart_send(c, q->sender, from, to, CHART_LOST);
    else
        chart_send(c, q->sender, from, to, q->has_come ? CHART_DOUBLE : CHART_CAME);
    q->has_come = kept;
    q->first += !kept;
}

static void draw_queue(queue *q, chart *c)
{
    for (size_t row = 0; row < q->transcript->count; row++) {
        const move m = move_of(&q->transcript->lines[row], q->sender);
        if (m == MOVE_FULL)
            chart_send(c, q->sender, (int32_t)(4 * row), (int32_t)(4 * row + 2), CHART_LOST);
        else if (is_moved(m))
            draw_move(q, c, row, m);
    }
}

/* What was on the line at the end. */
static void draw_rest(const queue *q, chart *c)
{
    for (size_t i = q->first + q->has_come; i < q->count; i++)
        chart_send(c, q->sender, (int32_t)(4 * q->sent[i]), (int32_t)(4 * q->transcript->count), CHART_UNKNOWN);
}

static int replay_queue(transcript *t, chart *c, chart_side sender)
{
    queue q = {.transcript = t, .sender = sender};
    int fill = 0;
    q.sent = calloc(t->count + 1, sizeof *q.sent);
    if (q.sent == NULL)
        return complain(STATUS_OTHER, "no memory for the picture");
    int status = follow(&q, &fill);
    if (status == 0) {
        decide(&q, fill);
        draw_queue(&q, c);
        draw_rest(&q, c);
    }
    if (status == 0 && q.open)
        snprintf(c->notes[0], CHART_TEXT,
            "The transcript does not tell which of some frames was kept on the line: "
            "one reading of several is drawn, with the fewest kept.");
    free(q.sent);
    return status;
}

/* Where an event happens; a frame that is dropped stands at its sender's. */
static chart_side side_of(char letter)
{
    return strchr("Tnhky", letter) != NULL ? CHART_MACHINE : CHART_HOST;
}

/* Behind a frame of the machine the words tell when it starts. */
static bool tells_start(const transcript_line *l)
{
    return l->letter == 'T' && memmem(l->words, l->words_length, " starts at ", 11) != NULL;
}

static void draw_row(const transcript *t, chart *c, size_t i)
{
    static const char full[] = "the line is full: this frame is lost";
    const transcript_line *l = &t->lines[i];
    chart_row *row = chart_add(c, side_of(l->letter));
    row->frame = l->frame;
    row->length = l->length;
    if (l->event != 0) {
        row->words = full;
        row->words_length = sizeof full - 1;
    } else if (l->frame == NULL || tells_start(l)) {
        row->words = l->words;
        row->words_length = l->words_length;
    }
    if (l->repeat)
        row->marks |= CHART_AGAIN;
    if (t->explained && (l->frame == NULL ? l->letter == 'm' || l->letter == 'n' : i > 0 && by_timer(l)))
        row->marks |= CHART_TIMER;
}

/* Without events: every frame is drawn as one that came. */
static void draw_plain(const transcript *t, chart *c)
{
    for (size_t i = 0; i < t->count; i++)
        chart_send(c, side_of(t->lines[i].letter), (int32_t)(4 * i), (int32_t)(4 * i + 3), CHART_CAME);
    snprintf(c->notes[0], CHART_TEXT,
        "Which frames were lost or came twice this transcript does not tell: each is drawn as one that came. The "
        "transcript of the program explain tells it.");
}

static void say_end(const transcript *t, chart *c)
{
    static const char *const verdicts[] = {
        [MOP_LOAD_RUNNING] = "Not over: the events ended before the load did.",
        [MOP_LOAD_FINISHED] = "Finished: the machine confirmed every segment.",
        [MOP_LOAD_REJECTED] = "Rejected: the machine answered a segment with an error.",
        [MOP_LOAD_GIVEN_UP] = "Given up: a segment, not the last, was sent as often as allowed and not answered.",
        [MOP_LOAD_UNCONFIRMED] = "Unconfirmed: the last segment was sent as often as allowed and not answered.",
    };
    char start[60] = "The machine was not started.";
    if (t->started)
        snprintf(start, sizeof start, "The machine was started at 0x%08" PRIX32 ".", t->start);
    snprintf(c->end, CHART_TEXT, "%s %s Frames sent by the host: %" PRIu64 ".", verdicts[t->verdict], start, t->sent);
    snprintf(c->title, CHART_TEXT, "A load, rehearsed");
    snprintf(c->again, CHART_TEXT, "sent again: a timer ran out, or what it answers came again");
    snprintf(c->lost, CHART_TEXT, "lost on the line");
    snprintf(c->twice, CHART_TEXT, "sent once and handed over twice");
    snprintf(c->unknown, CHART_TEXT, "still on the line when the events ended");
}

int replay_chart(transcript *t, chart *c)
{
    int status = chart_room(c, t->count, 2 * t->count);
    for (size_t i = 0; i < t->count && status == 0; i++)
        draw_row(t, c, i);
    if (status == 0 && !t->explained)
        draw_plain(t, c);
    else if (status == 0)
        status = replay_queue(t, c, CHART_HOST);
    if (status == 0 && t->explained)
        status = replay_queue(t, c, CHART_MACHINE);
    say_end(t, c);
    return status;
}
