/* The parameter strings that a load may end with: their refusals, the place of
 * these among the others, and whole loads. */
#include <string.h>

#include "check.h"
#include "load.h"
#include "make.h"
#include "tests.h"

static uint8_t image[IMAGE_MOST];
static load_input in = {.file = image};
static uint8_t version; /* of the loads that follow */

/* A load that is under way, and ends with a string of these entries. */
static void give(const uint8_t *entries, size_t length)
{
    in.file_length = make_image(in.file);
    in.settings = (mop_load_settings){.segment_size = MOP_SEGMENT_MOST,
        .with_parameters = 1,
        .version = version};
    in.session = (mop_load){.sent = 1};
    if (length > 0)
        memcpy(in.parameters, entries, length);
    in.parameters_length = length;
    in.frame_length = make_frame(MOP_CODE_REQUEST_LOAD, in.frame);
    in.room = MOP_FRAME_MOST;
}

/* Each of the four calls answers with this refusal. */
static void check_each(unsigned refusal)
{
    load_each(&in, refusal);
}

/* The string's refusal comes before the frame's, with any good record; and
 * what comes before it, each put over the last. */
static void check_order(unsigned refusal)
{
    check_each(refusal);
    in.frame_length = 0;
    check_each(refusal);
    in.session = (mop_load){.waiting = 1};
    check_each(refusal);
    in.session = (mop_load){.verdict = MOP_LOAD_GIVEN_UP};
    check_each(refusal);
    in.session.position = load_image(&in).segments + 2;
    check_each(MOP_REFUSED_RANGE);
    in.file_length = 15;
    check_each(MOP_REFUSED_FILE);
    in.room = MOP_FRAME_MOST - 1;
    check_each(MOP_REFUSED_ROOM);
    in.settings.version = 0;
    check_each(MOP_REFUSED_RANGE);
    in.settings.version = version;
    in.settings.with_parameters = 2;
    check_each(MOP_REFUSED_RANGE);
}

/* A string that is refused, unless it is not looked at. */
static void check_bad(const uint8_t *entries, size_t length, unsigned refusal)
{
    give(entries, length);
    in.settings.with_parameters = 0;
    check_each(MOP_ACCEPTED);
    give(entries, length);
    check_order(refusal);
}

/* An entry that passes. It does not with one byte more or less, as another
 * type, or cut short; a time not with a field one step further. */
static void check_entry(const uint8_t *entry, size_t length, int step)
{
    const bool time = entry[0] == MOP_ENTRY_HOST_TIME;
    uint8_t wrong[32] = {0};
    give(entry, length);
    check_each(MOP_ACCEPTED);
    for (size_t i = 1; i < (time ? length : 2); i++) {
        memcpy(wrong, entry, length);
        wrong[i] = (uint8_t)(wrong[i] + step);
        check_bad(wrong, length, MOP_REFUSED_FIELD);
    }
    memcpy(wrong, entry, length);
    wrong[0] = 0; /* an end mark */
    check_bad(wrong, length, MOP_REFUSED_FIELD);
    wrong[0] = MOP_ENTRY_HOST_TIME + 1;
    check_bad(wrong, length, MOP_REFUSED_FIELD);
    for (size_t cut = 1; cut < length; cut++)
        check_bad(entry, cut, MOP_REFUSED_FIELD);
}

/* Every value at its bounds; version 2.1 has no time. */
static void check_entries(void)
{
    static const uint8_t least[12] = {
        MOP_ENTRY_HOST_TIME, 10, 0, 0, 1, 1, 0, 0, 0, 0, 0xF4, 0xC5};
    static const uint8_t most[12] = {
        MOP_ENTRY_HOST_TIME, 10, 127, 100, 12, 31, 23, 59, 59, 99, 13, 59};
    const bool old = version == MOP_VERSION_2_1;
    uint8_t signs[12];
    for (int type = 1; type < MOP_ENTRY_HOST_TIME; type++) {
        const uint8_t name = old ? 6 : 16, address = old ? 2 : 6;
        const uint8_t length = type % 2 == 1 ? name : address;
        const uint8_t entry[18] = {(uint8_t)type, length};
        check_entry(entry, 2 + (size_t)length, 1);
    }
    if (old) {
        check_bad(least, sizeof least, MOP_REFUSED_FIELD);
        check_bad(most, sizeof most, MOP_REFUSED_FIELD);
        return;
    }
    check_entry(least, sizeof least, -1);
    check_entry(most, sizeof most, 1);
    memcpy(signs, most, sizeof signs);
    signs[10] = 0xFF; /* -1 hours and 59 minutes */
    check_bad(signs, sizeof signs, MOP_REFUSED_FIELD);
}

/* A string of so many bytes, all names. */
static size_t make_names(uint8_t *to, size_t length)
{
    const size_t most = version == MOP_VERSION_2_1 ? 8 : 18;
    for (size_t at = 0; at < length;) {
        const size_t left = length - at;
        const size_t entry = left <= most       ? left
                             : left == most + 1 ? most - 1
                                                : most;
        random_bytes(to + at, entry);
        to[at] = MOP_ENTRY_TARGET_NAME;
        to[at + 1] = (uint8_t)(entry - 2);
        at += entry;
    }
    return length;
}

/* Lengths around the most and far above. A string that is cut short as well is
 * refused for that. */
static void check_lengths(void)
{
    static uint8_t names[2000];
    give(NULL, 0);
    check_each(MOP_ACCEPTED);
    for (size_t length = MOP_PARAMETERS_MOST - 3; length <= sizeof names;
         length += length < MOP_PARAMETERS_MOST + 3 ? 1 : 12) {
        make_names(names, length);
        give(names, length);
        if (length <= MOP_PARAMETERS_MOST)
            check_each(MOP_ACCEPTED);
        else
            check_bad(names, length, MOP_REFUSED_LONG);
        check_bad(names, length - 1, MOP_REFUSED_FIELD);
    }
}

/* A load of n segments from its first frame to its last, which is the longest
 * string or, where with is 0, the last segment. */
static void check_whole(size_t n, uint8_t with)
{
    static uint8_t names[MOP_PARAMETERS_MOST];
    give(names, make_names(names, sizeof names));
    in.file_length = make_one_region(in.file, n);
    in.settings.segment_size = 1;
    in.settings.with_parameters = with;
    in.session = (mop_load){.waiting = 1};
    in.frame_length = make_frame(MOP_CODE_REQUEST_PROGRAM, in.frame);
    in.frame[3] = MOP_PROGRAM_SYSTEM;
    for (size_t i = 0; i <= n + with; i++) {
        in.call = once_in(2) ? LOAD_FRAME : LOAD_UPDATE_FRAME;
        const mop_load_step step = load_check(&in);
        demand(step.session.position == i &&
                   (step.answer.length > 0) == (i < n + with),
            "a load that stops, or does not");
        in.session = step.session;
        in.frame_length = make_frame(MOP_CODE_REQUEST_LOAD, in.frame);
        in.frame[1] = (uint8_t)(i + 1);
        in.frame[2] = 0;
    }
    demand(
        in.session.verdict == MOP_LOAD_FINISHED && in.session.sent == n + with,
        "a load that is not finished");
    demand(same_counts(in.session.counts,
               (mop_counts){.starts = 1, .advances = n + with}),
        "a load that is not counted");
}

/* Silence at a position, without repeats: the load's verdict. */
static void check_silence(size_t n, size_t position, uint8_t with)
{
    give(NULL, 0);
    in.file_length = make_one_region(in.file, n);
    in.settings.segment_size = 1;
    in.settings.with_parameters = with;
    in.session = (mop_load){.position = position, .sent = position + 1};
    in.call = once_in(2) ? LOAD_TIMER : LOAD_UPDATE_TIMER;
    demand(load_check(&in).session.verdict == (position + 1 < n + with
                                                      ? MOP_LOAD_GIVEN_UP
                                                      : MOP_LOAD_UNCONFIRMED),
        "another verdict");
}

/* Any other version is refused before the reply buffer is. */
static void check_versions(void)
{
    give(NULL, 0);
    in.room = 0;
    for (int any = 0; any <= UINT8_MAX; any++) {
        in.settings.version = (uint8_t)any;
        check_each(
            is_version((uint8_t)any) ? MOP_REFUSED_ROOM : MOP_REFUSED_RANGE);
    }
}

static void check_version(uint8_t of)
{
    static const size_t counts[] = {1, 2, 255, 256, 257, 512};
    version = of;
    check_entries();
    check_lengths();
    for (size_t i = 0; i < sizeof counts / sizeof counts[0]; i++)
        for (uint8_t with = 0; with <= 1; with++) {
            check_whole(counts[i], with);
            for (size_t c = 0; c < counts[i] + with; c++)
                check_silence(counts[i], c, with);
        }
}

void test_strings(void)
{
    check_version(MOP_VERSION_2_1);
    check_version(MOP_VERSION_3_0);
    check_versions();
}
