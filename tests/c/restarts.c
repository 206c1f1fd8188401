/* Loads that may begin again: the settings and records that are refused and the
 * place of 12 among the refusals, a request at every position, and whole loads. */
#include "check.h"
#include "load.h"
#include "make.h"
#include "tests.h"

static uint8_t image[IMAGE_MOST];
static load_input in = {.file = image};

/* A load of n segments that may begin again, without repeats, at a position. */
static void give(size_t n, uint8_t with, uint64_t position)
{
    in.file_length = make_one_region(in.file, n);
    in.settings = (mop_load_settings){.segment_size = 1,
        .with_parameters = with,
        .version = once_in(2) ? MOP_VERSION_2_1 : MOP_VERSION_3_0,
        .restart = 1};
    in.session = (mop_load){.position = position, .sent = position + 1};
    in.parameters_length = 0;
    in.room = MOP_FRAME_MOST;
}

/* A request for a program of this type. */
static void ask(uint8_t program)
{
    in.frame_length = make_frame(MOP_CODE_REQUEST_PROGRAM, in.frame);
    in.frame[3] = program;
}

/* The machine's answer to the frame at a position. */
static void answer(uint64_t position)
{
    in.frame_length = make_frame(MOP_CODE_REQUEST_LOAD, in.frame);
    in.frame[1] = (uint8_t)(position + 1);
    in.frame[2] = 0;
}

/* Any other number than 0 and 1 as the setting is refused, before the reply
 * buffer is. */
static void check_settings(void)
{
    give(2, 0, 1);
    ask(MOP_PROGRAM_SYSTEM);
    in.room = MOP_FRAME_MOST - 1;
    for (int any = 0; any <= UINT8_MAX; any++) {
        in.settings.restart = (uint8_t)any;
        load_each(&in, any <= 1 ? MOP_REFUSED_ROOM : MOP_REFUSED_RANGE);
    }
}

/* Restarts about their bound, with the setting and without, before the reply
 * buffer and with every verdict; one that waits has none. */
static void check_bounds(void)
{
    static const uint32_t all[] = {0, 1, 2, MOP_RESTARTS_MOST - 1,
        MOP_RESTARTS_MOST, MOP_RESTARTS_MOST + 1, UINT32_MAX};
    for (size_t i = 0; i < sizeof all / sizeof all[0]; i++)
        for (unsigned setting = 0; setting <= 1; setting++)
            for (int verdict = 0; verdict <= MOP_LOAD_UNCONFIRMED; verdict++) {
                const uint32_t most = setting == 1 ? MOP_RESTARTS_MOST : 0;
                give(2, 0, verdict == MOP_LOAD_FINISHED ? 2 : 1);
                ask(MOP_PROGRAM_SYSTEM);
                in.settings.restart = (uint8_t)setting;
                in.session.verdict = (uint8_t)verdict;
                in.session.sent = 2;
                in.session.restarts = all[i];
                const bool good = all[i] <= most;
                load_each(&in, good ? MOP_ACCEPTED : MOP_REFUSED_RANGE);
                in.room = MOP_FRAME_MOST - 1;
                load_each(&in, good ? MOP_REFUSED_ROOM : MOP_REFUSED_RANGE);
                in.session = (mop_load){.waiting = 1, .restarts = all[i]};
                load_each(
                    &in, all[i] == 0 ? MOP_REFUSED_ROOM : MOP_REFUSED_RANGE);
            }
}

/* 12 and what comes before it and behind it, each put over the last. */
static void check_order(size_t n, uint8_t with)
{
    const unsigned many =
        n + with > MOP_RESTARTING_MOST ? MOP_REFUSED_MANY : MOP_ACCEPTED;
    give(n, with, 0);
    ask(MOP_PROGRAM_SYSTEM);
    load_each(&in, many);
    in.session = mop_load_start();
    load_each(&in, many);
    in.settings.restart = 0;
    load_each(&in, MOP_ACCEPTED);
    in.settings.restart = 1;
    in.session = (mop_load){.verdict = MOP_LOAD_GIVEN_UP};
    in.frame_length = 0;
    in.call = LOAD_FRAME;
    demand(load_check(&in).answer.refusal ==
               (many != MOP_ACCEPTED ? many : MOP_REFUSED_SHORT),
        "not before the frame");
    ask(MOP_PROGRAM_SYSTEM);
    in.parameters_length = 1;
    in.parameters[0] = 0;
    load_each(
        &in, many != MOP_ACCEPTED || with == 0 ? many : MOP_REFUSED_FIELD);
    in.session.position = n + with + 1;
    load_each(&in, many != MOP_ACCEPTED ? many : MOP_REFUSED_RANGE);
    in.file_length = 15;
    load_each(&in, MOP_REFUSED_FILE);
    in.room = MOP_FRAME_MOST - 1;
    load_each(&in, MOP_REFUSED_ROOM);
    in.session.restarts = MOP_RESTARTS_MOST + 1;
    load_each(&in, MOP_REFUSED_RANGE);
}

/* Frames sent at their bound and one above, after so many restarts. */
static void check_sent(size_t n, uint32_t repeats, uint32_t restarts)
{
    give(n, 0, n - 1);
    in.settings.repeats = repeats;
    in.session.restarts = restarts;
    in.session.sent = ((uint64_t)restarts + 1) * n * (repeats + 1);
    ask(MOP_PROGRAM_SYSTEM);
    load_each(&in, MOP_ACCEPTED);
    in.session.sent += 1;
    load_each(&in, MOP_REFUSED_RANGE);
}

/* A request at a position: load_check knows the rest of what it does. */
static void check_request(size_t n, uint8_t with, uint64_t c, int program)
{
    for (uint8_t setting = 0; setting <= 1; setting++) {
        give(n, with, c);
        ask((uint8_t)program);
        in.settings.restart = setting;
        in.call = once_in(2) ? LOAD_FRAME : LOAD_UPDATE_FRAME;
        const mop_load after = load_check(&in).session;
        const bool again =
            setting == 1 && c > 0 && program == MOP_PROGRAM_SYSTEM;
        demand(after.restarts == again && after.position == (again ? 0 : c),
            "begun again, or not");
    }
}

/* One of each type at every position. */
static void check_positions(size_t n, uint8_t with)
{
    for (uint64_t c = 0; c < n + with; c++)
        for (int program = 0; program <= MOP_PROGRAM_SYSTEM; program++)
            check_request(n, with, c, program);
}

/* A load whose machine is reset at each position in turn, and is then loaded to
 * its end. */
static void check_whole(size_t n, uint8_t with)
{
    const uint64_t all = n + with;
    uint64_t advances = 0;
    give(n, with, 0);
    in.session = mop_load_start();
    in.call = LOAD_UPDATE_FRAME;
    for (uint64_t reset = 1; reset <= all; reset++) {
        ask(MOP_PROGRAM_SYSTEM);
        in.session = load_check(&in).session;
        for (uint64_t c = 0; c < reset; c++) {
            answer(c);
            in.session = load_check(&in).session;
            advances += 1;
        }
    }
    demand(in.session.verdict == MOP_LOAD_FINISHED &&
               in.session.restarts == all - 1,
        "a load that is not finished");
    demand(same_counts(in.session.counts,
               (mop_counts){.starts = all, .advances = advances}),
        "a load that is not counted");
}

void test_restarts(void)
{
    static const size_t counts[] = {1, 2, 3, 254, 255, 256, 257, 258, 512};
    static const uint32_t restarts[] = {
        0, 1, 255, MOP_RESTARTS_MOST - 1, MOP_RESTARTS_MOST};
    check_settings();
    check_bounds();
    for (size_t i = 0; i < sizeof counts / sizeof counts[0]; i++)
        for (uint8_t with = 0; with <= 1; with++) {
            check_order(counts[i], with);
            if (counts[i] + with <= MOP_RESTARTING_MOST)
                check_positions(counts[i], with);
        }
    for (size_t i = 0; i < sizeof restarts / sizeof restarts[0]; i++)
        for (uint32_t repeats = 0; repeats <= MOP_REPEATS_MOST; repeats += 85) {
            check_sent(1, repeats, restarts[i]);
            check_sent(MOP_RESTARTING_MOST, repeats, restarts[i]);
        }
    for (uint8_t with = 0; with <= 1; with++)
        check_whole(20, with);
}
