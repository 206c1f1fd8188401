/* The host's load: any settings, records, files, parameters and frames. */
#include <string.h>

#include "check.h"
#include "lent.h"
#include "load.h"
#include "make.h"
#include "tests.h"

static lent record, file, parameters, frame, reply;
static uint8_t image_bytes[IMAGE_MOST];

static bool is_timer(const load_input *in)
{
    return in->call == LOAD_TIMER || in->call == LOAD_UPDATE_TIMER;
}

/* Whether a setting is bad, or the record, as far as needs no image. */
static bool is_bad(const load_input *in)
{
    const mop_load_settings *s = &in->settings;
    const mop_load *h = &in->session;
    if (s->segment_size < 1 || s->segment_size > MOP_SEGMENT_MOST ||
        s->repeats > MOP_REPEATS_MOST || s->with_parameters > 1 ||
        s->restart > 1 || !is_version(s->version))
        return true;
    if (h->verdict > MOP_LOAD_UNCONFIRMED || h->waiting > 1)
        return true;
    if (h->repeats > s->repeats || bad_counts(h->counts, h->waiting))
        return true;
    if (h->restarts > (s->restart == 1 ? MOP_RESTARTS_MOST : 0))
        return true;
    return h->waiting == 1 &&
           (h->position != 0 || h->sent != 0 || h->repeats != 0 ||
               h->restarts != 0 || h->verdict != 0);
}

mop_image load_image(const load_input *in)
{
    return mop_image_check(
        in->file, in->file_length, in->settings.segment_size);
}

/* The refusal of the string, if the load ends with it. */
static unsigned string_refusal(const load_input *in)
{
    if (in->settings.with_parameters == 0)
        return MOP_ACCEPTED;
    if (!good_entries(
            in->settings.version, in->parameters, in->parameters_length))
        return MOP_REFUSED_FIELD;
    return in->parameters_length > MOP_PARAMETERS_MOST ? MOP_REFUSED_LONG
                                                       : MOP_ACCEPTED;
}

/* What the record may not be with n frames. */
static bool is_beyond(const load_input *in, uint64_t n)
{
    const mop_load *h = &in->session;
    const uint64_t loads = (uint64_t)h->restarts + 1;
    return h->position > n ||
           h->sent > loads * n * (in->settings.repeats + 1) ||
           (h->verdict == MOP_LOAD_FINISHED) != (h->position == n);
}

unsigned load_refusal(const load_input *in)
{
    if (is_bad(in))
        return MOP_REFUSED_RANGE;
    if (in->room < MOP_FRAME_MOST)
        return MOP_REFUSED_ROOM;
    const mop_image image = load_image(in);
    const uint64_t n = image.segments + in->settings.with_parameters;
    if (image.refusal != MOP_ACCEPTED)
        return image.refusal;
    if (in->settings.restart == 1 && n > MOP_RESTARTING_MOST)
        return MOP_REFUSED_MANY;
    if (is_beyond(in, n))
        return MOP_REFUSED_RANGE;
    if (string_refusal(in) != MOP_ACCEPTED)
        return string_refusal(in);
    return is_timer(in)
               ? MOP_ACCEPTED
               : mop_read(in->settings.version, in->frame, in->frame_length)
                     .refusal;
}

/* The record stands between guards too. */
static mop_load_step update(const load_input *in)
{
    mop_load_step step;
    mop_load *session = (mop_load *)(void *)lent_bytes(&record);
    step.answer =
        is_timer(in)
            ? mop_load_update_timer(in->settings, session, lent_in(&file),
                  in->file_length, lent_in(&parameters), in->parameters_length,
                  lent_out(&reply), in->room)
            : mop_load_update_frame(in->settings, session, lent_in(&file),
                  in->file_length, lent_in(&parameters), in->parameters_length,
                  lent_in(&frame), in->frame_length, lent_out(&reply),
                  in->room);
    step.session = *session;
    demand(lent_same_from(&record, sizeof step.session),
        "a red zone of the record");
    return step;
}

static mop_load_step make_call(const load_input *in)
{
    calling(in->call);
    if (in->call == LOAD_UPDATE_FRAME || in->call == LOAD_UPDATE_TIMER)
        return update(in);
    if (in->call == LOAD_TIMER)
        return mop_load_timer(in->settings, in->session, lent_in(&file),
            in->file_length, lent_in(&parameters), in->parameters_length,
            lent_out(&reply), in->room);
    return mop_load_frame(in->settings, in->session, lent_in(&file),
        in->file_length, lent_in(&parameters), in->parameters_length,
        lent_in(&frame), in->frame_length, lent_out(&reply), in->room);
}

static bool same_but_counts(mop_load a, mop_load b)
{
    return a.position == b.position && a.sent == b.sent &&
           a.repeats == b.repeats && a.restarts == b.restarts &&
           a.waiting == b.waiting && a.verdict == b.verdict;
}

static bool same(mop_load a, mop_load b)
{
    return same_but_counts(a, b) && same_counts(a.counts, b.counts);
}

/* A frame that can be read is counted while the load runs, and nothing else. */
static void check_counts(
    const load_input *in, unsigned refusal, const mop_load *after)
{
    const mop_load *h = &in->session;
    mop_counts counts = h->counts;
    if (!is_timer(in) && refusal == MOP_ACCEPTED &&
        h->verdict == MOP_LOAD_RUNNING)
        counts = count_frame(counts,
            h->waiting > after->waiting || after->restarts > h->restarts,
            after->position > h->position, after->verdict == MOP_LOAD_REJECTED);
    demand(same_counts(after->counts, counts), "other counts");
}

/* Whether the frame begins the load again. */
static bool begins_again(const load_input *in)
{
    const mop_load *h = &in->session;
    const mop_fields f =
        mop_read(in->settings.version, in->frame, in->frame_length);
    return !is_timer(in) && in->settings.restart == 1 &&
           f.code == MOP_CODE_REQUEST_PROGRAM &&
           f.program == MOP_PROGRAM_SYSTEM && h->waiting == 0 &&
           h->verdict == MOP_LOAD_RUNNING && h->position > 0 &&
           h->restarts < MOP_RESTARTS_MOST;
}

/* What such a frame leaves, and that no other does. */
static void check_restart(
    const load_input *in, unsigned refusal, const mop_load_step *step)
{
    mop_load wanted = in->session;
    const bool again = refusal == MOP_ACCEPTED && begins_again(in);
    demand(step->session.restarts == in->session.restarts + again,
        "not the restarts");
    if (!again)
        return;
    wanted.position = wanted.repeats = 0;
    wanted.restarts += 1;
    wanted.sent += 1;
    demand(step->answer.length > 0 && same_but_counts(step->session, wanted),
        "not begun again");
}

/* The frame in reply has this segment of the image. */
static void check_segment(
    const load_input *in, uint64_t index, const mop_fields *f)
{
    const mop_segment s = mop_image_segment(
        in->file, in->file_length, in->settings.segment_size, index);
    demand(f->address == s.address && f->data_length == s.length &&
               memcmp(lent_bytes(&reply) + f->data_at, in->file + s.at,
                   s.length) == 0,
        "another segment");
}

/* The frame that stands in reply is the load's at this position. */
static void check_frame(const load_input *in, uint64_t position, size_t length)
{
    const mop_image image = load_image(in);
    const uint8_t *bytes = lent_bytes(&reply);
    const mop_fields f = mop_read(in->settings.version, bytes, length);
    const bool with = in->settings.with_parameters == 1;
    const uint64_t last = with ? image.segments : image.segments - 1;
    const unsigned code = position < last ? MOP_CODE_LOAD
                          : with          ? MOP_CODE_PARAMETERS
                                          : MOP_CODE_LOAD_TRANSFER;
    demand(f.refusal == MOP_ACCEPTED && f.code == code, "another code");
    demand(f.number == (uint8_t)position, "another number");
    demand(f.transfer == (position < last ? 0 : image.transfer),
        "another transfer address");
    if (code == MOP_CODE_PARAMETERS)
        demand(
            f.data_length == in->parameters_length &&
                memcmp(bytes + f.data_at, in->parameters, f.data_length) == 0,
            "another string");
    else
        check_segment(in, position, &f);
}

static void check_answer(
    const load_input *in, unsigned refusal, mop_load_step step)
{
    check_written(step.answer, refusal, &reply);
    if (refusal != MOP_ACCEPTED || in->session.verdict != MOP_LOAD_RUNNING) {
        demand(step.answer.length == 0, "a frame that should not go out");
        demand(same(step.session, in->session), "the record changed");
    }
    if (step.answer.length == 0 && step.session.verdict == in->session.verdict)
        demand(same_but_counts(step.session, in->session),
            "neither taken nor ignored");
    check_counts(in, refusal, &step.session);
    check_restart(in, refusal, &step);
    if (step.answer.length > 0) {
        check_frame(in, step.session.position, step.answer.length);
        demand(step.session.sent == in->session.sent + 1, "another count");
    }
}

mop_load_step load_check(const load_input *in)
{
    static uint8_t clear[BEYOND];
    mop_load_step steps[2];
    const unsigned refusal = load_refusal(in);
    random_bytes(clear, in->room);
    for (int s = BEHIND; s <= BEFORE; s++) {
        const enum side side = (enum side)s;
        lent_place(
            &record, side, (const uint8_t *)&in->session, sizeof in->session);
        lent_place(&file, side, in->file, in->file_length);
        lent_place(&parameters, side, in->parameters, in->parameters_length);
        lent_place(&frame, side, in->frame, in->frame_length);
        lent_place(&reply, side, clear, in->room);
        steps[s] = make_call(in);
        called(steps[s].answer.refusal);
        check_answer(in, refusal, steps[s]);
    }
    demand(same(steps[0].session, steps[1].session) &&
               steps[0].answer.length == steps[1].answer.length,
        "two answers to one call");
    return steps[0];
}

void load_each(load_input *in, unsigned refusal)
{
    for (int call = LOAD_FRAME; call <= LOAD_UPDATE_TIMER; call++) {
        in->call = (enum call)call;
        demand(load_check(in).answer.refusal == refusal,
            "not the refusal that this test expects");
    }
}

/* The same input by value and in place: the same answer. */
static void check_calls(load_input *in)
{
    in->call = once_in(3) ? LOAD_TIMER : LOAD_FRAME;
    const mop_load_step by_value = load_check(in);
    in->call = is_timer(in) ? LOAD_UPDATE_TIMER : LOAD_UPDATE_FRAME;
    const mop_load_step in_place = load_check(in);
    demand(same(by_value.session, in_place.session) &&
               by_value.answer.length == in_place.answer.length,
        "in place is not as by value");
}

/* A parameter string, mostly good; where the load has none it is not looked
 * at, whatever it is. */
static void any_string(load_input *in)
{
    in->parameters_length =
        make_entries(in->parameters, once_in(8) ? 2 * BEYOND : below(200));
    if (once_in(8)) {
        in->parameters_length = below(once_in(2) ? 4 : 2 * BEYOND);
        random_bytes(in->parameters, in->parameters_length);
    }
    if (once_in(8) && in->parameters_length > 0)
        in->parameters[below(in->parameters_length)] = (uint8_t)hostile();
    if (once_in(16))
        in->parameters_length = below(in->parameters_length + 1);
}

/* Settings, mostly good, and a string. The padding is anything. */
static void any_settings(load_input *in)
{
    random_bytes((uint8_t *)&in->settings, sizeof in->settings);
    in->settings.with_parameters = (uint8_t)(once_in(8) ? hostile() : below(2));
    in->settings.version = any_version();
    in->settings.restart = (uint8_t)(once_in(16) ? hostile() : below(2));
    any_string(in);
    in->settings.segment_size =
        (uint32_t)(once_in(8) ? hostile() : 1 + below(once_in(2) ? 8 : 1490));
    in->settings.repeats = (uint32_t)(once_in(8) ? hostile() : below(256));
    in->room = any_room();
}

/* A record for n frames, mostly good; the padding is anything. */
static void any_record(load_input *in, uint64_t n)
{
    mop_load *h = &in->session;
    const uint64_t r = (uint64_t)in->settings.repeats + 1;
    random_bytes((uint8_t *)h, sizeof *h);
    h->waiting = (uint8_t)(once_in(8) ? hostile() : 0);
    h->verdict = (uint8_t)(once_in(4) ? below(6) : 0);
    h->position = h->verdict == MOP_LOAD_FINISHED ? n : below(n + 1);
    h->repeats = (uint32_t)below(r);
    h->restarts = 0;
    if (in->settings.restart == 1 && !once_in(3))
        h->restarts = (uint32_t)(MOP_RESTARTS_MOST - below(3));
    if (once_in(16))
        h->restarts = (uint32_t)hostile();
    h->sent = n == 0 ? 0 : below(n * r + 1);
    h->counts = any_counts(h->waiting == 1);
    if (once_in(8))
        h->position = hostile();
    if (once_in(8))
        h->repeats = (uint32_t)hostile();
    if (once_in(8))
        h->sent = hostile();
    if (once_in(4)) {
        calling(LOAD_START);
        *h = mop_load_start();
        called(0);
        demand(same(*h, (mop_load){.waiting = 1}), "another start");
        if (once_in(2))
            h->counts = any_counts(true);
    }
}

/* A frame, often one that the load goes on with. */
static void any_load_frame(load_input *in)
{
    in->frame_length = any_frame(in->frame);
    if (once_in(3))
        return;
    const bool asks = in->session.waiting == 1 || once_in(6);
    in->frame_length = make_frame(asks ? 8 : 10, in->frame);
    if (asks && !once_in(4))
        in->frame[3] = MOP_PROGRAM_SYSTEM;
    if (!asks) {
        in->frame[1] = (uint8_t)(in->session.position + 1 - once_in(8));
        in->frame[2] = (uint8_t)(once_in(4) ? hostile() : 0);
    }
}

static void check_any(load_input *in)
{
    any_settings(in);
    any_record(
        in, load_image(in).segments + (in->settings.with_parameters == 1));
    any_load_frame(in);
    check_calls(in);
}

/* A load of two segments. */
static void make_small(load_input *in)
{
    in->file_length = make_one_region(in->file, 2);
    in->settings = (mop_load_settings){
        .segment_size = 1, .repeats = 1, .version = MOP_VERSION_3_0};
    in->frame_length = make_frame(MOP_CODE_REQUEST_LOAD, in->frame);
    in->room = MOP_FRAME_MOST;
}

/* One count at the edges. */
static void check_edges(load_input *in, int which)
{
    make_small(in);
    for (const edge *e = edges; e < edges + EDGES; e++) {
        in->session = (mop_load){
            .sent = !e->waiting, .waiting = e->waiting, .verdict = e->verdict};
        *count_of(&in->session.counts, which) = e->count;
        in->room = e->room;
        load_each(in, edge_refusal(e, which));
    }
}

/* Frames and timers from the load's start on. */
static void check_counted(load_input *in, const counted *rows, size_t length)
{
    make_small(in);
    in->session = mop_load_start();
    for (size_t i = 0; i < length; i++) {
        in->call = rows[i].length > 0 ? LOAD_UPDATE_FRAME : LOAD_UPDATE_TIMER;
        in->frame_length = rows[i].length;
        memcpy(in->frame, rows[i].frame, rows[i].length);
        in->session = load_check(in).session;
        demand(same_counts(in->session.counts, rows[i].after),
            "not the counts that this test expects");
    }
}

static void test_counts(load_input *in)
{
    static const counted finished[] = {
        {{10, 1, 0}, 3, {0, 0, 1, 0}},         /* before it begins */
        {{8, 0, 1, 1, 0, 0}, 6, {0, 0, 2, 0}}, /* another program type */
        {{0}, 0, {0, 0, 2, 0}},
        {{8, 0, 1, 2, 0, 0}, 6, {1, 0, 2, 0}},
        {{8, 0, 1, 2, 0, 0}, 6, {1, 0, 3, 0}},
        {{0}, 0, {1, 0, 3, 0}},
        {{10, 1}, 2, {1, 0, 3, 0}}, /* too short */
        {{10, 1, 0}, 3, {1, 1, 3, 0}},
        {{10, 1, 0}, 3, {1, 1, 4, 0}},
        {{10, 3, 1}, 3, {1, 1, 5, 0}},
        {{10, 2, 0}, 3, {1, 2, 5, 0}},
        {{10, 2, 0}, 3, {1, 2, 5, 0}}, /* after the verdict */
        {{0}, 0, {1, 2, 5, 0}},
    };
    static const counted rejected[] = {
        {{8, 0, 1, 2, 0, 0}, 6, {1, 0, 0, 0}},
        {{10, 1, 0}, 3, {1, 1, 0, 0}},
        {{10, 1, 1}, 3, {1, 1, 1, 0}},
        {{10, 2, 1}, 3, {1, 1, 1, 1}},
        {{10, 2, 1}, 3, {1, 1, 1, 1}},
    };
    for (int which = 0; which < COUNTS; which++)
        check_edges(in, which);
    check_counted(in, finished, sizeof finished / sizeof finished[0]);
    demand(in->session.verdict == MOP_LOAD_FINISHED, "not finished");
    check_counted(in, rejected, sizeof rejected / sizeof rejected[0]);
    demand(in->session.verdict == MOP_LOAD_REJECTED, "not rejected");
}

void test_load(void)
{
    static load_input in = {.file = image_bytes};
    record = lent_make(sizeof(mop_load));
    file = lent_make(MANY_BYTES(MOP_REGIONS_MOST + 1));
    parameters = lent_make(2 * BEYOND);
    frame = lent_make(BEYOND);
    reply = lent_make(BEYOND);
    for (size_t length = 0; length < BEYOND; length += stride())
        for (int i = 0; i < 16; i++) {
            in.file_length = make_image(in.file);
            any_settings(&in);
            any_record(&in, 1);
            in.frame_length = length;
            random_bytes(in.frame, length);
            in.frame[0] = codes[below(CODES)];
            check_calls(&in);
            in.file_length = length;
            check_any(&in);
        }
    for (unsigned i = 0; i < cases(150000); i++) {
        in.file_length = once_in(8) ? any_image(in.file) : make_image(in.file);
        check_any(&in);
    }
    test_counts(&in);
}
