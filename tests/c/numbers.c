/* Every number that mop.h names, by what the calls do with it. A header in
 * which one of them is another fails here: numbers.sh tries each. */
#include <stdio.h>
#include <stdlib.h>
#include <string.h>

#include "mop.h"

static uint8_t out[MOP_FRAME_MOST], large[MOP_FILE_MOST + 2];

/* The version where it plays no part. */
enum { VERSION = MOP_VERSION_3_0 };

static void demand(int holds, const char *what)
{
    if (holds)
        return;
    printf("numbers: FAILED: %s\n", what);
    exit(1);
}

/* ---- Codes. */

static void is_code(mop_written w, uint8_t code)
{
    const mop_fields f = mop_read(VERSION, out, w.length);
    demand(w.refusal == MOP_ACCEPTED && f.refusal == MOP_ACCEPTED &&
               f.code == code && out[0] == code,
        "a writer's code");
}

static void test_codes(void)
{
    const size_t n = sizeof out;
    is_code(mop_write_load_transfer(0, 0, NULL, 0, 0, out, n),
        MOP_CODE_LOAD_TRANSFER);
    is_code(mop_write_dump_complete(out, n), MOP_CODE_DUMP_COMPLETE);
    is_code(mop_write_load(0, 0, NULL, 0, out, n), MOP_CODE_LOAD);
    is_code(mop_write_volunteer(out, n), MOP_CODE_VOLUNTEER);
    is_code(mop_write_request_dump(0, 0, out, n), MOP_CODE_REQUEST_DUMP);
    is_code(mop_write_request_program(0, 0, 0, 0, NULL, 0, 0, NULL, 0, out, n),
        MOP_CODE_REQUEST_PROGRAM);
    is_code(mop_write_request_load(0, 0, out, n), MOP_CODE_REQUEST_LOAD);
    is_code(mop_write_request_dump_service(0, 0, 0, 0, NULL, 0, out, n),
        MOP_CODE_REQUEST_DUMP_SERVICE);
    is_code(mop_write_dump_data(0, NULL, 0, out, n), MOP_CODE_DUMP_DATA);
    is_code(mop_write_parameters(VERSION, 0, NULL, 0, 0, out, n),
        MOP_CODE_PARAMETERS);
    is_code(mop_write_loop(0, NULL, 0, out, n), MOP_CODE_LOOP);
    is_code(mop_write_looped(0, NULL, 0, out, n), MOP_CODE_LOOPED);
}

/* ---- Refusals and limits. */

static void put(uint8_t *at, uint64_t number)
{
    for (int i = 0; i < 4; i++)
        at[i] = (uint8_t)(number >> 8 * i);
}

/* An image of so many regions of a byte each, in a file of this length. */
static void make_image(size_t length, unsigned regions)
{
    const size_t directory = length - 16 - 12 * (size_t)regions;
    memset(large + directory, 0, length - directory);
    for (unsigned i = 0; i < regions; i++) {
        put(large + directory + 12 * (size_t)i, i);
        put(large + directory + 12 * (size_t)i + 8, 1);
    }
    put(large + length - 16, directory);
    put(large + length - 12, regions);
    put(large + length - 4, length);
}

static int refusal_of(size_t length)
{
    return mop_image_check(large, length, 1).refusal;
}

static void test_images(void)
{
    enum { MANY = 12 * (MOP_REGIONS_MOST + 1) + 100 };
    make_image(100, 2);
    demand(refusal_of(100) == MOP_ACCEPTED, "an image");
    demand(refusal_of(99) == MOP_REFUSED_FILE, "a file");
    put(large + 100 - 16 - 12, 0);
    demand(refusal_of(100) == MOP_REFUSED_OVERLAP, "an overlap");
    put(large + 100 - 16 - 4, 0);
    demand(refusal_of(100) == MOP_REFUSED_ENTRY, "an entry");
    put(large + 100 - 12, 1);
    demand(refusal_of(100) == MOP_REFUSED_DIRECTORY, "a directory");
    make_image(MANY, MOP_REGIONS_MOST);
    demand(refusal_of(MANY) == MOP_ACCEPTED, "the most regions");
    make_image(MANY, MOP_REGIONS_MOST + 1);
    demand(refusal_of(MANY) == MOP_REFUSED_DIRECTORY, "more regions");
    make_image(MOP_FILE_MOST, 1);
    demand(refusal_of(MOP_FILE_MOST) == MOP_ACCEPTED, "the longest file");
    make_image(MOP_FILE_MOST + 1, 1);
    demand(refusal_of(MOP_FILE_MOST + 1) == MOP_REFUSED_FILE, "a longer one");
    make_image(100, 1);
    demand(
        mop_image_check(large, 100, MOP_SEGMENT_MOST).refusal == MOP_ACCEPTED &&
            mop_image_check(large, 100, MOP_SEGMENT_MOST + 1).refusal ==
                MOP_REFUSED_RANGE,
        "the longest segment");
}

static void test_frames(void)
{
    const uint8_t unknown = 255, long_one[] = {1, 0};
    const size_t most = MOP_FRAME_MOST - 5;
    demand(mop_read(VERSION, NULL, 0).refusal == MOP_REFUSED_SHORT,
        "an empty frame");
    demand(mop_read(VERSION, long_one, 2).refusal == MOP_REFUSED_LONG,
        "a long frame");
    demand(
        mop_read(VERSION, &unknown, 1).refusal == MOP_REFUSED_CODE, "a code");
    demand(mop_read(VERSION, &unknown, 1).code == MOP_CODE_NONE, "no code");
    demand(
        mop_write_dump_complete(out, 0).refusal == MOP_REFUSED_ROOM, "no room");
    demand(
        mop_write_dump_data(0, large, most, out, sizeof out).length ==
                MOP_FRAME_MOST &&
            mop_write_dump_data(0, large, most + 1, out, sizeof out).refusal ==
                MOP_REFUSED_LONG,
        "the longest frame");
}

/* A parameter string of so many bytes, all names. */
static size_t make_string(size_t length)
{
    for (size_t at = 0; at < length;) {
        const size_t left = length - at;
        const size_t entry = left <= 18 ? left : left == 19 ? 17 : 18;
        memset(large + at, 0, entry);
        large[at] = MOP_ENTRY_TARGET_NAME;
        large[at + 1] = (uint8_t)(entry - 2);
        at += entry;
    }
    return length;
}

/* On Ethernet the longest of each fills what two bytes leave of 1,500. */
static void test_ethernet(void)
{
    const size_t n = sizeof out, left = MOP_FRAME_MOST - 2;
    const size_t load = mop_write_load_transfer(
        0, 0, large, MOP_ETHERNET_SEGMENT_MOST, 0, out, n)
                            .length;
    const size_t data =
        mop_write_dump_data(0, large, MOP_ETHERNET_DUMP_DATA_MOST, out, n)
            .length;
    const size_t loop =
        mop_write_loop(0, large, MOP_ETHERNET_LOOP_DATA_MOST, out, n).length;
    const size_t string = make_string(MOP_ETHERNET_PARAMETERS_MOST);
    const size_t parameters =
        mop_write_parameters(VERSION, 0, large, string, 0, out, n).length;
    demand(load == left && data == left && loop == left && parameters == left &&
               MOP_ETHERNET_FRAME_MOST == left,
        "a limit on Ethernet");
}

static int machine_refusal(uint32_t reply_bytes, size_t memory_length)
{
    const mop_machine_settings s = {
        .reply_bytes = reply_bytes, .version = VERSION};
    return mop_machine_start_dump(s, large, memory_length, out, sizeof out)
        .answer.refusal;
}

static int window_refusal(uint64_t start, uint64_t length)
{
    const mop_machine_settings s = {.reply_bytes = 1,
        .version = VERSION,
        .window = {.start = start, .length = length}};
    return mop_machine_start_load(s, large, 1, out, sizeof out).answer.refusal;
}

static int loop_refusal(uint32_t repeats, size_t data_length)
{
    const mop_loop_settings s = {.repeats = repeats, .version = VERSION};
    return mop_loop_start(s, large, data_length, out, sizeof out)
        .answer.refusal;
}

/* Of a load that ends with a string of so many bytes. */
static int load_refusal(size_t string_length)
{
    static uint8_t string[2 * MOP_FRAME_MOST];
    const mop_load_settings s = {
        .segment_size = 1, .with_parameters = 1, .version = VERSION};
    memcpy(string, large, make_string(string_length));
    make_image(100, 1);
    return mop_load_timer(
        s, mop_load_start(), large, 100, string, string_length, out, sizeof out)
        .answer.refusal;
}

/* Of a load of so many segments that may begin again, after so many restarts;
 * it ends with an empty string or not. */
static int restart_refusal(size_t segments, uint8_t with, uint32_t restarts)
{
    const size_t size = segments + 12 + 16;
    const mop_load_settings s = {.segment_size = 1,
        .with_parameters = with,
        .version = VERSION,
        .restart = 1};
    const mop_load h = {.sent = 1, .restarts = restarts};
    make_image(size, 1);
    put(large + size - 16 - 4, segments);
    return mop_load_timer(s, h, large, size, NULL, 0, out, sizeof out)
        .answer.refusal;
}

static void test_restarts(void)
{
    demand(restart_refusal(MOP_RESTARTING_MOST, 0, 0) == MOP_ACCEPTED &&
               restart_refusal(MOP_RESTARTING_MOST - 1, 1, 0) == MOP_ACCEPTED,
        "the most frames of a load that may begin again");
    demand(restart_refusal(MOP_RESTARTING_MOST + 1, 0, 0) == MOP_REFUSED_MANY &&
               restart_refusal(MOP_RESTARTING_MOST, 1, 0) == MOP_REFUSED_MANY,
        "more frames than those");
    demand(
        restart_refusal(2, 0, MOP_RESTARTS_MOST) == MOP_ACCEPTED &&
            restart_refusal(2, 0, MOP_RESTARTS_MOST + 1) == MOP_REFUSED_RANGE,
        "the most restarts");
}

static void test_settings(void)
{
    demand(load_refusal(MOP_PARAMETERS_MOST) == MOP_ACCEPTED &&
               load_refusal(MOP_PARAMETERS_MOST + 1) == MOP_REFUSED_LONG,
        "the longest string");
    demand(machine_refusal(MOP_DUMP_DATA_MOST, MOP_MEMORY_MOST) == MOP_ACCEPTED,
        "the machine's most");
    demand(machine_refusal(MOP_DUMP_DATA_MOST + 1, 0) == MOP_REFUSED_RANGE &&
               machine_refusal(1, MOP_MEMORY_MOST + 1) == MOP_REFUSED_RANGE,
        "more than the machine's most");
    demand(loop_refusal(MOP_REPEATS_MOST, MOP_LOOP_DATA_MOST) == MOP_ACCEPTED,
        "the loop test's most");
    demand(loop_refusal(MOP_REPEATS_MOST + 1, 0) == MOP_REFUSED_RANGE &&
               loop_refusal(0, MOP_LOOP_DATA_MOST + 1) == MOP_REFUSED_RANGE,
        "more than the loop test's most");
}

/* A window ends where the addresses end, or before; one of no bytes may begin
 * anywhere. */
static void test_windows(void)
{
    const uint64_t end = UINT64_C(1) << 32;
    demand(window_refusal(0, end) == MOP_ACCEPTED &&
               window_refusal(1, end - 1) == MOP_ACCEPTED &&
               window_refusal(end - 1, 1) == MOP_ACCEPTED,
        "a window up to the last address");
    demand(window_refusal(0, end + 1) == MOP_REFUSED_RANGE &&
               window_refusal(1, end) == MOP_REFUSED_RANGE &&
               window_refusal(end, 1) == MOP_REFUSED_RANGE,
        "a window past the last address");
    demand(window_refusal(UINT64_MAX, 1) == MOP_REFUSED_RANGE &&
               window_refusal(1, UINT64_MAX) == MOP_REFUSED_RANGE &&
               window_refusal(UINT64_MAX, end) == MOP_REFUSED_RANGE &&
               window_refusal(UINT64_MAX, UINT64_MAX) == MOP_REFUSED_RANGE,
        "a window whose end has more than 64 bits");
    demand(window_refusal(0, 0) == MOP_ACCEPTED &&
               window_refusal(end, 0) == MOP_ACCEPTED &&
               window_refusal(end + 1, 0) == MOP_ACCEPTED &&
               window_refusal(UINT64_MAX, 0) == MOP_ACCEPTED,
        "no window");
}

/* ---- Lists of a frame's fields. */

static int request(uint8_t program, unsigned form, size_t id_length)
{
    return mop_write_request_program(0, 1, program, (uint8_t)form, large,
        id_length, 0, NULL, 0, out, sizeof out)
        .refusal;
}

static void test_programs(void)
{
    demand(request(MOP_PROGRAM_SECONDARY, 0, 0) == MOP_ACCEPTED &&
               MOP_PROGRAM_SECONDARY + 1 == MOP_PROGRAM_TERTIARY &&
               MOP_PROGRAM_TERTIARY + 1 == MOP_PROGRAM_SYSTEM &&
               request(MOP_PROGRAM_SYSTEM + 1, 0, 0) == MOP_REFUSED_FIELD,
        "the program types");
    demand(request(0, MOP_FORM_NONE, 0) == MOP_ACCEPTED &&
               request(0, MOP_FORM_NONE + 1, 0) == MOP_REFUSED_FIELD &&
               request(0, MOP_FORM_NONE + 1, 1) == MOP_ACCEPTED,
        "the form of no id");
    demand(request(0, MOP_FORM_MAINTENANCE, 0) == MOP_ACCEPTED &&
               request(0, MOP_FORM_MAINTENANCE - 1, 0) == MOP_REFUSED_FIELD &&
               MOP_FORM_STANDARD == UINT8_MAX,
        "the forms of a system");
}

/* Whether an entry of this type may have so many bytes under a version. */
static int may_under(uint8_t version, uint8_t type, uint8_t length)
{
    const uint8_t entry[2 + 255] = {type, length, 20, 26, 11, 16};
    return mop_write_parameters(
               version, 0, entry, 2 + (size_t)length, 0, out, sizeof out)
               .refusal == MOP_ACCEPTED;
}

static int may(uint8_t type, uint8_t length)
{
    return may_under(VERSION, type, length);
}

static void test_entries(void)
{
    demand(may(MOP_ENTRY_TARGET_NAME, MOP_VALUE_MOST) &&
               may(MOP_ENTRY_HOST_NAME, MOP_VALUE_MOST) &&
               !may(MOP_ENTRY_TARGET_NAME, MOP_VALUE_MOST + 1) &&
               !may(MOP_ENTRY_HOST_NAME, MOP_VALUE_MOST + 1),
        "the names");
    demand(may(MOP_ENTRY_TARGET_ADDRESS, 6) && may(MOP_ENTRY_HOST_ADDRESS, 6) &&
               !may(MOP_ENTRY_TARGET_ADDRESS, 7) &&
               !may(MOP_ENTRY_HOST_ADDRESS, 7),
        "the addresses");
    demand(MOP_ENTRY_TARGET_NAME < MOP_ENTRY_HOST_NAME &&
               MOP_ENTRY_TARGET_ADDRESS < MOP_ENTRY_HOST_ADDRESS,
        "target and host");
    demand(may(MOP_ENTRY_HOST_TIME, 10) && !may(MOP_ENTRY_HOST_TIME, 9),
        "the time");
}

/* ---- Versions, and the parameter block of 2.1. */

/* A value of this type has at most so many bytes under 2.1. */
static int most_2_1(uint8_t type, uint8_t most)
{
    return may_under(MOP_VERSION_2_1, type, most) &&
           !may_under(MOP_VERSION_2_1, type, most + 1);
}

static void test_versions(void)
{
    const uint8_t time[] = {
        MOP_ENTRY_HOST_TIME, 10, 20, 26, 1, 1, 0, 0, 0, 0, 0, 0};
    const size_t n = sizeof time;
    demand(mop_write_parameters(MOP_VERSION_2_1, 0, time, n, 0, out, sizeof out)
                       .refusal == MOP_REFUSED_FIELD &&
               mop_write_parameters(
                   MOP_VERSION_3_0, 0, time, n, 0, out, sizeof out)
                       .refusal == MOP_ACCEPTED,
        "the versions");
    demand(most_2_1(MOP_ENTRY_TARGET_NAME, MOP_NAME_MOST_2_1) &&
               most_2_1(MOP_ENTRY_HOST_NAME, MOP_NAME_MOST_2_1),
        "the names of 2.1");
    demand(most_2_1(MOP_ENTRY_TARGET_ADDRESS, MOP_ADDRESS_MOST_2_1) &&
               most_2_1(MOP_ENTRY_HOST_ADDRESS, MOP_ADDRESS_MOST_2_1),
        "the addresses of 2.1");
}

/* A code 20 without entries to a machine with so many bytes of memory, whose
 * window is one byte: the error in its reply, or the refusal and 16. */
static int block_answer(uint8_t *memory, size_t length, uint64_t window)
{
    const mop_machine_settings s = {.reply_bytes = 1,
        .version = MOP_VERSION_2_1,
        .window = {.start = window, .length = 1}};
    const mop_machine m = {.state = MOP_MACHINE_REQUESTING};
    uint8_t frame[MOP_FRAME_MOST];
    const size_t n =
        mop_write_parameters(s.version, 0, NULL, 0, 0, frame, sizeof frame)
            .length;
    const mop_machine_step step =
        mop_machine_frame(s, m, frame, n, memory, length, out, sizeof out);
    return step.answer.refusal == MOP_ACCEPTED ? out[2]
                                               : 16 + step.answer.refusal;
}

static void test_block(void)
{
    enum { LENGTH = 200, FAR = 1000 };
    uint8_t memory[LENGTH];
    size_t at = 0;
    demand(block_answer(memory, MOP_BLOCK_MEMORY_LEAST, FAR) == 0 &&
               block_answer(memory, MOP_BLOCK_MEMORY_LEAST - 1, FAR) ==
                   16 + MOP_REFUSED_MEMORY,
        "the least memory of version 2.1");
    memset(memory, 1, sizeof memory);
    block_answer(memory, LENGTH, FAR);
    while (at < LENGTH && memory[at] == 1)
        at++;
    demand(at == LENGTH - MOP_BLOCK_BELOW_TOP, "where the block begins");
    demand(block_answer(memory, LENGTH, at - 1) == 0 &&
               block_answer(memory, LENGTH, at) == 1 &&
               block_answer(memory, LENGTH, at + MOP_BLOCK_BYTES - 1) == 1 &&
               block_answer(memory, LENGTH, at + MOP_BLOCK_BYTES) == 0,
        "the block's length");
}

/* ---- States and verdicts. */

static void test_states(void)
{
    const mop_machine_settings s = {.reply_bytes = 1, .version = VERSION};
    uint8_t frame[MOP_FRAME_MOST], memory[8] = {0};
    const size_t n = sizeof frame;
    mop_machine m =
        mop_machine_start_dump(s, memory, sizeof memory, out, sizeof out)
            .machine;
    demand(m.state == MOP_MACHINE_OFFERING, "Offering");
    size_t length = mop_write_dump_complete(frame, n).length;
    m = mop_machine_frame(
        s, m, frame, length, memory, sizeof memory, out, sizeof out)
            .machine;
    demand(m.state == MOP_MACHINE_IDLE, "Idle");
    m = mop_machine_start_load(s, memory, sizeof memory, out, sizeof out)
            .machine;
    demand(m.state == MOP_MACHINE_REQUESTING &&
               mop_read(VERSION, out, 6).program == MOP_PROGRAM_SYSTEM &&
               mop_read(VERSION, out, 6).form == MOP_FORM_STANDARD,
        "Requesting");
    length = mop_write_load(0, 0, large, 1, frame, n).length;
    m = mop_machine_frame(
        s, m, frame, length, memory, sizeof memory, out, sizeof out)
            .machine;
    demand(m.state == MOP_MACHINE_LOADING, "Loading");
    length = mop_write_load_transfer(1, 1, large, 1, 0, frame, n).length;
    m = mop_machine_frame(
        s, m, frame, length, memory, sizeof memory, out, sizeof out)
            .machine;
    demand(m.state == MOP_MACHINE_STARTED, "Started");
}

/* A load of two segments, without repeats: the verdict after so many good
 * answers and, if the error is not 0, one with that error, else a timer. */
static int loaded(int answers, uint8_t error)
{
    const mop_load_settings s = {.segment_size = 1, .version = VERSION};
    mop_load h = mop_load_start();
    uint8_t frame[MOP_FRAME_MOST];
    const size_t n = sizeof frame;
    size_t length = mop_write_request_program(
        0, 1, MOP_PROGRAM_SYSTEM, MOP_FORM_NONE, NULL, 0, 0, NULL, 0, frame, n)
                        .length;
    make_image(100, 2);
    demand(h.verdict == MOP_LOAD_RUNNING, "a load that begins");
    mop_load_update_frame(
        s, &h, large, 100, NULL, 0, frame, length, out, sizeof out);
    for (int i = 1; i <= answers; i++) {
        length = mop_write_request_load((uint8_t)i, 0, frame, n).length;
        mop_load_update_frame(
            s, &h, large, 100, NULL, 0, frame, length, out, sizeof out);
    }
    length =
        mop_write_request_load((uint8_t)(answers + 1), error, frame, n).length;
    if (error != 0)
        mop_load_update_frame(
            s, &h, large, 100, NULL, 0, frame, length, out, sizeof out);
    else
        mop_load_update_timer(s, &h, large, 100, NULL, 0, out, sizeof out);
    return h.verdict;
}

/* A dump of one byte: the verdict after its byte, or after a timer. */
static int dumped(int comes)
{
    const mop_dump_settings s = {
        .length = 1, .request_bytes = 1, .version = VERSION};
    mop_dump h = mop_dump_start();
    uint8_t frame[MOP_FRAME_MOST], buffer[1] = {0};
    const size_t n = sizeof frame;
    size_t length =
        mop_write_request_dump_service(0, 1, 8, 0, NULL, 0, frame, n).length;
    demand(h.verdict == MOP_DUMP_RUNNING, "a dump that begins");
    mop_dump_update_frame(s, &h, frame, length, buffer, 1, out, sizeof out);
    length = mop_write_dump_data(0, large, 1, frame, n).length;
    if (comes)
        mop_dump_update_frame(s, &h, frame, length, buffer, 1, out, sizeof out);
    else
        mop_dump_update_timer(s, &h, buffer, 1, out, sizeof out);
    return h.verdict;
}

/* A loop test: the verdict after this frame, or after a timer. */
static int looped(mop_written came, const uint8_t *frame)
{
    const mop_loop_settings s = {.receipt = 7, .version = VERSION};
    const mop_loop h = mop_loop_start(s, large, 1, out, sizeof out).session;
    demand(h.verdict == MOP_LOOP_OPEN, "a loop test that begins");
    if (came.length == 0)
        return mop_loop_timer(s, h, large, 1, out, sizeof out).session.verdict;
    return mop_loop_frame(s, h, large, 1, frame, came.length, out, sizeof out)
        .session.verdict;
}

static void test_verdicts(void)
{
    uint8_t frame[MOP_FRAME_MOST];
    const size_t n = sizeof frame;
    const mop_written none = {0};
    demand(loaded(2, 0) == MOP_LOAD_FINISHED, "finished");
    demand(loaded(1, 1) == MOP_LOAD_REJECTED, "rejected");
    demand(loaded(0, 0) == MOP_LOAD_GIVEN_UP, "a load given up");
    demand(loaded(1, 0) == MOP_LOAD_UNCONFIRMED, "unconfirmed");
    demand(dumped(1) == MOP_DUMP_FINISHED, "a dump finished");
    demand(dumped(0) == MOP_DUMP_GIVEN_UP, "a dump given up");
    demand(looped(mop_write_looped(7, large, 1, frame, n), frame) ==
               MOP_LOOP_LOOPED,
        "looped");
    demand(
        looped(mop_write_loop(7, large, 1, frame, n), frame) == MOP_LOOP_PLUG,
        "a plug");
    demand(looped(none, frame) == MOP_LOOP_GIVEN_UP, "a loop test given up");
}

int main(void)
{
    test_codes();
    test_entries(); /* before a machine's record, which has 16 bytes a value */
    test_images();
    test_frames();
    test_ethernet();
    test_settings();
    test_restarts();
    test_windows();
    test_programs();
    test_versions();
    test_block();
    test_states();
    test_verdicts();
    return 0;
}
