/* The host's dump: any settings, records, buffers and frames. */
#include <string.h>

#include "check.h"
#include "lent.h"
#include "make.h"
#include "tests.h"

static lent record, frame, buffer, reply;

/* A call: what goes in, but for the buffers. */
typedef struct input {
    enum call call;
    mop_dump_settings settings;
    mop_dump session;
    uint8_t frame[BEYOND];
    size_t frame_length;
    size_t buffer_length;
    size_t room;
} input;

static bool is_timer(const input *in)
{
    return in->call == DUMP_TIMER || in->call == DUMP_UPDATE_TIMER;
}

static bool good_settings(const mop_dump_settings *s)
{
    const uint64_t addresses = UINT64_C(1) << 32;
    return s->request_bytes >= 1 && s->request_bytes <= MOP_DUMP_DATA_MOST &&
           s->repeats <= MOP_REPEATS_MOST && is_version(s->version) &&
           s->length >= 1 && s->length <= addresses &&
           s->address <= addresses - s->length;
}

/* Whether the record is bad, with settings that are good. */
static bool is_bad(const mop_dump *h, const mop_dump_settings *s)
{
    if (h->verdict > MOP_DUMP_GIVEN_UP || h->waiting > 1)
        return true;
    if (h->repeats > s->repeats || h->filled > s->length)
        return true;
    if (bad_counts(h->counts, h->waiting))
        return true;
    if (h->replies > h->filled)
        return true;
    if (h->sent > (h->replies + 1) * ((uint64_t)s->repeats + 1) + 1)
        return true;
    if ((h->verdict == MOP_DUMP_FINISHED) != (h->filled == s->length))
        return true;
    return h->waiting == 1 &&
           (h->filled != 0 || h->replies != 0 || h->sent != 0 ||
               h->repeats != 0 || h->verdict != 0);
}

/* The header's refusal, in its order. */
static unsigned wanted(const input *in)
{
    if (!good_settings(&in->settings))
        return MOP_REFUSED_RANGE;
    if (in->buffer_length != in->settings.length)
        return MOP_REFUSED_RANGE;
    if (is_bad(&in->session, &in->settings))
        return MOP_REFUSED_RANGE;
    if (in->room < MOP_FRAME_MOST)
        return MOP_REFUSED_ROOM;
    return is_timer(in)
               ? MOP_ACCEPTED
               : mop_read(in->settings.version, in->frame, in->frame_length)
                     .refusal;
}

/* The record stands between guards too. */
static mop_dump_step update(const input *in)
{
    mop_dump_step step;
    mop_dump *session = (mop_dump *)(void *)lent_bytes(&record);
    step.answer =
        is_timer(in)
            ? mop_dump_update_timer(in->settings, session, lent_in(&buffer),
                  in->buffer_length, lent_out(&reply), in->room)
            : mop_dump_update_frame(in->settings, session, lent_in(&frame),
                  in->frame_length, lent_out(&buffer), in->buffer_length,
                  lent_out(&reply), in->room);
    step.session = *session;
    demand(lent_same_from(&record, sizeof step.session),
        "a red zone of the record");
    return step;
}

static mop_dump_step make_call(const input *in)
{
    calling(in->call);
    if (in->call == DUMP_UPDATE_FRAME || in->call == DUMP_UPDATE_TIMER)
        return update(in);
    if (in->call == DUMP_TIMER)
        return mop_dump_timer(in->settings, in->session, lent_in(&buffer),
            in->buffer_length, lent_out(&reply), in->room);
    return mop_dump_frame(in->settings, in->session, lent_in(&frame),
        in->frame_length, lent_out(&buffer), in->buffer_length,
        lent_out(&reply), in->room);
}

static bool same_but_counts(mop_dump a, mop_dump b)
{
    return a.filled == b.filled && a.replies == b.replies && a.sent == b.sent &&
           a.repeats == b.repeats && a.waiting == b.waiting &&
           a.verdict == b.verdict;
}

static bool same(mop_dump a, mop_dump b)
{
    return same_but_counts(a, b) && same_counts(a.counts, b.counts);
}

/* A frame that can be read is counted while the dump runs, and nothing else.
 * None rejects a dump. */
static void check_counts(
    const input *in, unsigned refusal, const mop_dump *after)
{
    const mop_dump *h = &in->session;
    mop_counts counts = h->counts;
    if (!is_timer(in) && refusal == MOP_ACCEPTED &&
        h->verdict == MOP_DUMP_RUNNING)
        counts = count_frame(counts, h->waiting > after->waiting,
            after->filled > h->filled, false);
    demand(same_counts(after->counts, counts), "other counts");
}

/* The buffer: what was filled stays, what came stands behind it, and the rest
 * stays. */
static void check_buffer(const input *in, mop_dump after)
{
    const size_t before = (size_t)in->session.filled;
    if (after.filled == in->session.filled) {
        demand(lent_same_from(&buffer, 0), "the buffer changed");
        return;
    }
    const mop_fields f =
        mop_read(in->settings.version, in->frame, in->frame_length);
    demand(after.filled == before + f.data_length, "another number filled");
    demand(lent_same_from(&buffer, (size_t)after.filled),
        "the buffer behind what came changed");
    demand(memcmp(lent_bytes(&buffer) + before, in->frame + f.data_at,
               f.data_length) == 0,
        "other bytes than came");
    demand(memcmp(lent_bytes(&buffer), buffer.kept + buffer.at, before) == 0,
        "the buffer before what came changed");
}

static void check_answer(const input *in, unsigned refusal, mop_dump_step step)
{
    check_written(step.answer, refusal, &reply);
    if (refusal != MOP_ACCEPTED || in->session.verdict != MOP_DUMP_RUNNING) {
        demand(step.answer.length == 0, "a frame that should not go out");
        demand(same(step.session, in->session), "the record changed");
    }
    if (step.answer.length == 0 && step.session.verdict == in->session.verdict)
        demand(same_but_counts(step.session, in->session),
            "neither taken nor ignored");
    check_counts(in, refusal, &step.session);
    check_buffer(in, step.session);
    if (step.answer.length > 0) {
        const mop_fields f = mop_read(
            in->settings.version, lent_bytes(&reply), step.answer.length);
        demand(
            f.refusal == MOP_ACCEPTED && (f.code == MOP_CODE_REQUEST_DUMP ||
                                             f.code == MOP_CODE_DUMP_COMPLETE),
            "another frame");
        demand(step.session.sent == in->session.sent + 1, "another count");
    }
}

/* The call on both sides; what it gives. */
static mop_dump_step check_call(const input *in)
{
    static uint8_t clear[4 * BEYOND], filled[4 * BEYOND];
    mop_dump_step steps[2];
    const unsigned refusal = wanted(in);
    random_bytes(clear, in->room);
    random_bytes(filled, in->buffer_length);
    for (int s = BEHIND; s <= BEFORE; s++) {
        const enum side side = (enum side)s;
        lent_place(
            &record, side, (const uint8_t *)&in->session, sizeof in->session);
        lent_place(&frame, side, in->frame, in->frame_length);
        lent_place(&buffer, side, filled, in->buffer_length);
        lent_place(&reply, side, clear, in->room);
        steps[s] = make_call(in);
        called(steps[s].answer.refusal);
        check_answer(in, refusal, steps[s]);
    }
    demand(same(steps[0].session, steps[1].session) &&
               steps[0].answer.length == steps[1].answer.length,
        "two answers to one call");
    return steps[0];
}

/* The same input by value and in place: the same answer. */
static void check_calls(input *in)
{
    in->call = once_in(3) ? DUMP_TIMER : DUMP_FRAME;
    const mop_dump_step by_value = check_call(in);
    in->call = is_timer(in) ? DUMP_UPDATE_TIMER : DUMP_UPDATE_FRAME;
    const mop_dump_step in_place = check_call(in);
    demand(same(by_value.session, in_place.session) &&
               by_value.answer.length == in_place.answer.length,
        "in place is not as by value");
}

/* Settings for a buffer, mostly good; the padding is anything. */
static void any_settings(input *in)
{
    mop_dump_settings *s = &in->settings;
    random_bytes((uint8_t *)s, sizeof *s);
    s->length = once_in(16) ? hostile() : in->buffer_length;
    s->request_bytes =
        (uint32_t)(once_in(16) ? hostile() : 1 + below(once_in(2) ? 8 : 1495));
    s->repeats = (uint32_t)(once_in(16) ? hostile() : below(256));
    s->version = any_version();
    s->address = (uint32_t)(once_in(4) ? hostile() : below(100000));
    if (once_in(8)) /* the range ends where the address space does */
        s->address = (uint32_t)((UINT64_C(1) << 32) - in->buffer_length);
    in->room = any_room();
}

/* A record, mostly good; the padding is anything. */
static void any_record(input *in)
{
    mop_dump *h = &in->session;
    const uint64_t length = in->buffer_length;
    random_bytes((uint8_t *)h, sizeof *h);
    h->waiting = (uint8_t)(once_in(8) ? hostile() : 0);
    h->verdict = (uint8_t)(once_in(4) ? below(5) : 0);
    h->filled = h->verdict == 1 ? length : below(length + 1);
    h->replies = below(h->filled + 1);
    h->repeats = (uint32_t)below((uint64_t)in->settings.repeats + 1);
    h->sent = below((h->replies + 1) * (h->repeats + UINT64_C(1)) + 2);
    h->counts = any_counts(h->waiting == 1);
    if (once_in(16))
        h->filled = hostile();
    if (once_in(16))
        h->replies = hostile();
    if (once_in(16))
        h->repeats = (uint32_t)hostile();
    if (once_in(16))
        h->sent = hostile();
    if (once_in(4)) {
        calling(DUMP_START);
        *h = mop_dump_start();
        called(0);
        demand(same(*h, (mop_dump){.waiting = 1}), "another start");
        if (once_in(2))
            h->counts = any_counts(true);
    }
}

/* A frame, often one that the dump goes on with. */
static void any_dump_frame(input *in)
{
    in->frame_length = any_frame(in->frame);
    if (once_in(3))
        return;
    const bool waits = in->session.waiting == 1;
    in->frame_length = make_frame(waits ? 12 : 14, in->frame);
    if (waits)
        return;
    put32(
        in->frame + 1, in->settings.address + in->session.filled + once_in(8));
    if (in->settings.request_bytes < 1495 && once_in(2))
        in->frame_length =
            5 + in->settings.request_bytes - once_in(4) + once_in(4);
}

static void check_any(input *in)
{
    any_settings(in);
    any_record(in);
    any_dump_frame(in);
    check_calls(in);
}

/* A dump of eight bytes, four at a time. */
static void make_small(input *in)
{
    in->settings = (mop_dump_settings){.length = in->buffer_length = 8,
        .request_bytes = 4,
        .repeats = 1,
        .version = MOP_VERSION_3_0};
    in->frame_length = make_frame(MOP_CODE_DUMP_DATA, in->frame);
    in->room = MOP_FRAME_MOST;
}

/* Each of the four calls answers with this refusal. */
static void check_each(input *in, unsigned refusal)
{
    for (int call = DUMP_FRAME; call <= DUMP_UPDATE_TIMER; call++) {
        in->call = (enum call)call;
        demand(check_call(in).answer.refusal == refusal,
            "not the refusal that this test expects");
    }
}

/* One count at the edges. */
static void check_edges(input *in, int which)
{
    make_small(in);
    for (const edge *e = edges; e < edges + EDGES; e++) {
        in->session = (mop_dump){
            .sent = !e->waiting, .waiting = e->waiting, .verdict = e->verdict};
        *count_of(&in->session.counts, which) = e->count;
        in->room = e->room;
        check_each(in, edge_refusal(e, which));
    }
}

/* Frames and timers from the dump's start on. */
static void check_counted(input *in, const counted *rows, size_t length)
{
    make_small(in);
    in->session = mop_dump_start();
    for (size_t i = 0; i < length; i++) {
        in->call = rows[i].length > 0 ? DUMP_UPDATE_FRAME : DUMP_UPDATE_TIMER;
        in->frame_length = rows[i].length;
        memcpy(in->frame, rows[i].frame, rows[i].length);
        in->session = check_call(in).session;
        demand(same_counts(in->session.counts, rows[i].after),
            "not the counts that this test expects");
    }
}

static void test_counts(input *in)
{
    static const counted finished[] = {
        {{14, 0, 0, 0, 0, 1}, 6, {0, 0, 1, 0}}, /* before it begins */
        {{0}, 0, {0, 0, 1, 0}},
        {{12, 0, 1, 8, 0, 0, 0, 0}, 8, {1, 0, 1, 0}},
        {{12, 0, 1, 8, 0, 0, 0, 0}, 8, {1, 0, 2, 0}},
        {{0}, 0, {1, 0, 2, 0}},
        {{14, 0, 0}, 3, {1, 0, 2, 0}}, /* too short */
        {{14, 0, 0, 0, 0, 1, 2, 3}, 8, {1, 1, 2, 0}},
        {{14, 0, 0, 0, 0, 1, 2, 3}, 8, {1, 1, 3, 0}},
        {{10, 1, 1}, 3, {1, 1, 4, 0}}, /* what would reject a load */
        {{14, 3, 0, 0, 0, 4, 5, 6}, 8, {1, 2, 4, 0}},
        {{14, 6, 0, 0, 0, 7, 8}, 7, {1, 3, 4, 0}},
        {{14, 6, 0, 0, 0, 7, 8}, 7, {1, 3, 4, 0}}, /* after the verdict */
        {{0}, 0, {1, 3, 4, 0}},
    };
    for (int which = 0; which < COUNTS; which++)
        check_edges(in, which);
    check_counted(in, finished, sizeof finished / sizeof finished[0]);
    demand(in->session.verdict == MOP_DUMP_FINISHED, "not finished");
}

void test_dump(void)
{
    static input in;
    record = lent_make(sizeof(mop_dump));
    frame = lent_make(BEYOND);
    buffer = lent_make(4 * BEYOND);
    reply = lent_make(BEYOND);
    for (size_t length = 0; length < BEYOND; length += stride())
        for (int i = 0; i < 16; i++) {
            in.buffer_length = length;
            check_any(&in);
            any_settings(&in);
            any_record(&in);
            in.frame_length = length;
            random_bytes(in.frame, length);
            in.frame[0] = codes[below(CODES)];
            check_calls(&in);
        }
    for (unsigned i = 0; i < cases(200000); i++) {
        in.buffer_length = below(once_in(4) ? 4 * BEYOND : 60);
        check_any(&in);
    }
    test_counts(&in);
    for (int version = 0; version <= UINT8_MAX; version++) {
        in.settings = (mop_dump_settings){.length = in.buffer_length = 8,
            .request_bytes = 8,
            .version = (uint8_t)version};
        in.session = mop_dump_start();
        in.room = any_room();
        any_dump_frame(&in);
        check_calls(&in);
    }
}
