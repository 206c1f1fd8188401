/* The host's loop test: any settings, records, data and frames. */
#include <string.h>

#include "check.h"
#include "lent.h"
#include "make.h"
#include "tests.h"

static lent data, frame, reply;

/* A call: what goes in, but for the buffers. */
typedef struct input {
    enum call call;
    mop_loop_settings settings;
    mop_loop session;
    uint8_t data[BEYOND];
    size_t data_length;
    uint8_t frame[BEYOND];
    size_t frame_length;
    size_t room;
} input;

/* The header's refusal, in its order. */
static unsigned wanted(const input *in)
{
    const uint32_t repeats = in->settings.repeats;
    if (repeats > MOP_REPEATS_MOST || !is_version(in->settings.version) ||
        in->data_length > MOP_LOOP_DATA_MOST)
        return MOP_REFUSED_RANGE;
    if (in->session.verdict > MOP_LOOP_GIVEN_UP)
        return MOP_REFUSED_RANGE;
    if (in->session.repeats > repeats)
        return MOP_REFUSED_RANGE;
    if (in->session.sent > (uint64_t)repeats + 1)
        return MOP_REFUSED_RANGE;
    if (in->room < MOP_FRAME_MOST)
        return MOP_REFUSED_ROOM;
    return in->call == LOOP_FRAME
               ? mop_read(in->settings.version, in->frame, in->frame_length)
                     .refusal
               : MOP_ACCEPTED;
}

static mop_loop_step make_call(const input *in)
{
    const uint8_t *bytes = lent_in(&data);
    const size_t length = in->data_length, room = in->room;
    calling(in->call);
    if (in->call == LOOP_START)
        return mop_loop_start(
            in->settings, bytes, length, lent_out(&reply), room);
    if (in->call == LOOP_TIMER)
        return mop_loop_timer(
            in->settings, in->session, bytes, length, lent_out(&reply), room);
    return mop_loop_frame(in->settings, in->session, bytes, length,
        lent_in(&frame), in->frame_length, lent_in(&reply), room);
}

static bool same(mop_loop a, mop_loop b)
{
    return a.sent == b.sent && a.repeats == b.repeats && a.verdict == b.verdict;
}

static void check_answer(const input *in, unsigned refusal, mop_loop_step step)
{
    check_written(step.answer, refusal, &reply);
    if (refusal != MOP_ACCEPTED || in->session.verdict != MOP_LOOP_OPEN) {
        demand(step.answer.length == 0, "a frame that should not go out");
        demand(same(step.session, in->session), "the record changed");
    }
    if (step.answer.length == 0 && step.session.verdict == in->session.verdict)
        demand(same(step.session, in->session), "neither taken nor ignored");
    if (step.answer.length > 0) {
        const mop_fields f = mop_read(
            in->settings.version, lent_bytes(&reply), step.answer.length);
        demand(f.code == MOP_CODE_LOOP && f.receipt == in->settings.receipt &&
                   f.data_length == in->data_length,
            "another frame");
    }
}

static void check_call(input *in)
{
    static uint8_t clear[BEYOND];
    mop_loop_step steps[2];
    if (in->call == LOOP_START)
        in->session = (mop_loop){.sent = 1};
    const unsigned refusal = wanted(in);
    random_bytes(clear, in->room);
    for (int side = BEHIND; side <= BEFORE; side++) {
        lent_place(&data, (enum side)side, in->data, in->data_length);
        lent_place(&frame, (enum side)side, in->frame, in->frame_length);
        lent_place(&reply, (enum side)side, clear, in->room);
        steps[side] = make_call(in);
        called(steps[side].answer.refusal);
        check_answer(in, refusal, steps[side]);
    }
    demand(same(steps[0].session, steps[1].session) &&
               steps[0].answer.length == steps[1].answer.length,
        "two answers to one call");
}

/* Settings and a record, mostly good; the padding is anything. */
static void any_numbers(input *in)
{
    random_bytes((uint8_t *)&in->settings, sizeof in->settings);
    random_bytes((uint8_t *)&in->session, sizeof in->session);
    in->settings.repeats = (uint32_t)(once_in(8) ? hostile() : below(256));
    in->settings.version = any_version();
    const uint64_t most = (uint64_t)in->settings.repeats + 1;
    in->session.repeats = (uint32_t)(once_in(8) ? hostile() : below(most));
    in->session.sent = once_in(8) ? hostile() : below(most + 1);
    in->session.verdict = (uint8_t)(once_in(8)   ? hostile()
                                    : once_in(4) ? below(4)
                                                 : 0);
    in->room = any_room();
}

/* A frame, often one that ends the test or almost does. */
static void any_loop_frame(input *in)
{
    in->frame_length = any_frame(in->frame);
    if (once_in(2) || in->data_length + 3 > BEYOND)
        return;
    in->frame[0] = once_in(2) ? MOP_CODE_LOOP : MOP_CODE_LOOPED;
    in->frame[1] = (uint8_t)in->settings.receipt;
    in->frame[2] = (uint8_t)(in->settings.receipt >> 8);
    memcpy(in->frame + 3, in->data, in->data_length);
    in->frame_length = 3 + in->data_length;
    if (once_in(2))
        in->frame[1 + below(in->frame_length - 1)] ^= 1;
    if (once_in(8))
        in->frame_length -= 1;
}

static void check_any(enum call call, size_t length)
{
    input in = {.call = call, .data_length = length};
    random_bytes(in.data, length);
    any_numbers(&in);
    any_loop_frame(&in);
    check_call(&in);
}

void test_loop(void)
{
    static const enum call each[] = {LOOP_START, LOOP_TIMER, LOOP_FRAME};
    data = lent_make(BEYOND);
    frame = lent_make(BEYOND);
    reply = lent_make(BEYOND);
    for (size_t length = 0; length < BEYOND; length += stride())
        for (int i = 0; i < 30; i++)
            check_any(each[i % 3], length);
    for (unsigned i = 0; i < cases(120000); i++)
        check_any(once_in(2) ? LOOP_FRAME : each[below(3)],
            below(once_in(8) ? BEYOND : 40));
    for (int i = 0; i < 3 * (UINT8_MAX + 1); i++) {
        input in = {.call = each[i % 3], .room = any_room()};
        in.settings.version = (uint8_t)(i / 3);
        any_loop_frame(&in);
        check_call(&in);
    }
}
