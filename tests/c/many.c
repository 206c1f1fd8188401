/* Loads of images with many regions: steps where the number of regions or the
 * position needs another byte, and what is refused. */
#include "check.h"
#include "load.h"
#include "make.h"
#include "tests.h"

static uint8_t image[MANY_BYTES(MOP_REGIONS_MOST + 1)];
static load_input in = {.file = image};

/* A load of so many regions of a byte each, at a position; a machine's answer to
 * the frame there. */
static void give(size_t regions, uint64_t position)
{
    in.file_length = make_many(in.file, regions);
    in.settings = (mop_load_settings){
        .segment_size = 1, .repeats = 1, .version = MOP_VERSION_3_0};
    in.session = (mop_load){.position = position, .sent = position + 1};
    in.room = MOP_FRAME_MOST;
    in.frame_length = make_frame(MOP_CODE_REQUEST_LOAD, in.frame);
    in.frame[1] = (uint8_t)(position + 1);
    in.frame[2] = 0;
}

/* The frame at the position is sent again by a timer, and the next one, if there
 * is one, by the answer: load_check knows what is in them. */
static void check_position(size_t regions, uint64_t c)
{
    const bool more = c + 1 < regions;
    give(regions, c);
    in.call = once_in(2) ? LOAD_TIMER : LOAD_UPDATE_TIMER;
    const mop_load_step again = load_check(&in);
    demand(again.answer.length > 0 && again.session.position == c,
        "not sent again");
    in.call = once_in(2) ? LOAD_FRAME : LOAD_UPDATE_FRAME;
    const mop_load_step next = load_check(&in);
    demand((next.answer.length > 0) == more && next.session.position == c + 1,
        "another position");
    demand(
        next.session.verdict == (more ? MOP_LOAD_RUNNING : MOP_LOAD_FINISHED),
        "another verdict");
}

static void check_positions(size_t regions)
{
    const uint64_t positions[] = {
        0, 255, 256, 65534, 65535, 65536, regions - 2, regions - 1};
    for (size_t i = 0; i < sizeof positions / sizeof positions[0]; i++)
        if (positions[i] < regions)
            check_position(regions, positions[i]);
}

/* A position above the last, too many frames to begin again, one region more
 * than may be, and a count without its upper half. */
static void check_refused(void)
{
    give(MOP_REGIONS_MOST, MOP_REGIONS_MOST + 1);
    load_each(&in, MOP_REFUSED_RANGE);
    in.settings.restart = 1;
    load_each(&in, MOP_REFUSED_MANY);
    give(MOP_REGIONS_MOST + 1, 0);
    load_each(&in, MOP_REFUSED_DIRECTORY);
    give(MOP_REGIONS_MOST, 0);
    put32(in.file + in.file_length - 12, MOP_REGIONS_MOST % 65536);
    load_each(&in, MOP_REFUSED_DIRECTORY);
}

void test_many(void)
{
    static const size_t counts[] = {65535, 65536, 65537, MOP_REGIONS_MOST};
    for (size_t i = 0; i < sizeof counts / sizeof counts[0]; i++)
        check_positions(counts[i]);
    check_refused();
}
