/* The parameter block of version 2.1 in the machine's memory: where it lies,
 * what it holds, beside which windows it fits, and what is refused. */
#include "check.h"
#include "machine.h"
#include "make.h"
#include "tests.h"

enum { LEAST = 64, LONGEST = 70, BLOCK = 14 };

static machine_input in;
static uint8_t bytes[LONGEST];
static const mop_window none;

/* ---- Entries. */

static const entry full[] = {{MOP_ENTRY_TARGET_NAME, "ABCDEF"},
    {MOP_ENTRY_TARGET_ADDRESS, "ab"}, {MOP_ENTRY_HOST_NAME, "GHIJKL"},
    {MOP_ENTRY_HOST_ADDRESS, "cd"}, {0, NULL}};
static const entry less[] = {{MOP_ENTRY_HOST_NAME, "M"},
    {MOP_ENTRY_TARGET_NAME, "NOPQR"}, {MOP_ENTRY_TARGET_ADDRESS, "e"},
    {0, NULL}};

/* Of a type that comes twice the last counts; one that is empty is as absent. */
static const entry again[] = {{MOP_ENTRY_TARGET_ADDRESS, "fg"},
    {MOP_ENTRY_TARGET_NAME, "STUVWX"}, {MOP_ENTRY_HOST_NAME, ""},
    {MOP_ENTRY_TARGET_NAME, ""}, {MOP_ENTRY_HOST_NAME, "YZ"},
    {MOP_ENTRY_TARGET_ADDRESS, ""}, {0, NULL}};
static const entry nothing[] = {{0, NULL}};

/* What version 2.1 does not have. */
static const entry unlisted[][2] = {{{MOP_ENTRY_TARGET_NAME, "ABCDEFG"}},
    {{MOP_ENTRY_HOST_NAME, "GHIJKLM"}}, {{MOP_ENTRY_TARGET_ADDRESS, "abc"}},
    {{MOP_ENTRY_HOST_ADDRESS, "cde"}},
    {{MOP_ENTRY_HOST_TIME, "\x13\x55\x03\x1F\x17\x3B\x3B\x63\xFB\xE2"}}};

/* ---- The block. */

/* A code 20 with these entries to a machine of 2.1 that waits for it. */
static mop_machine_step give(
    const entry *entries, size_t memory_length, mop_window window)
{
    const mop_machine_settings settings = {
        .reply_bytes = 1, .version = MOP_VERSION_2_1, .window = window};
    in.machine = (mop_machine){.state = MOP_MACHINE_REQUESTING};
    in.memory = bytes;
    in.memory_length = memory_length;
    return kept(&in, settings, entries);
}

/* Whether the block holds these bytes; a point stands for one that stays. */
static void check_holds(
    const entry *entries, size_t memory_length, const char *wanted)
{
    const size_t at = block_at(memory_length);
    demand(
        give(entries, memory_length, none).machine.state == MOP_MACHINE_STARTED,
        "parameters that do not start the machine");
    for (size_t i = 0; i < BLOCK; i++)
        demand(machine_memory()[at + i] ==
                   (wanted[i] == '.' ? bytes[at + i] : (uint8_t)wanted[i]),
            "another byte in the block");
}

static void check_contents(size_t memory_length)
{
    check_holds(full, memory_length, "abABCDEFGHIJKL");
    check_holds(less, memory_length, "e\0NOPQR M     ");
    check_holds(again, memory_length, "\0\0\0\0....YZ    ");
    check_holds(nothing, memory_length, "\0\0\0\0....\0\0....");
}

/* Beside this window it fits or not, whatever of its 14 bytes is written. */
static void check_window(uint64_t start, uint64_t length, size_t memory_length)
{
    static const entry *const all[] = {full, less, again, nothing};
    const size_t at = block_at(memory_length);
    const bool touches =
        length > 0 && start < at + BLOCK && at < start + length;
    for (size_t i = 0; i < sizeof all / sizeof all[0]; i++) {
        const mop_machine_step step =
            give(all[i], memory_length, (mop_window){start, length});
        demand(step.machine.error == touches &&
                   step.machine.state ==
                       (touches ? MOP_MACHINE_LOADING : MOP_MACHINE_STARTED),
            "not what this window does");
    }
}

/* Every window in memory and a little beyond it. */
static void check_windows(size_t memory_length)
{
    const size_t most = memory_length + 2;
    for (size_t start = 0; start < most; start++)
        for (size_t length = 0; start + length <= most; length += stride())
            check_window(start, length, memory_length);
    check_window(0, UINT64_C(1) << 32, memory_length);
    check_window(UINT64_MAX, 0, memory_length);
}

/* ---- What is refused. */

/* Each of the four calls answers with this refusal. */
static void check_each(unsigned refusal)
{
    for (int call = MACHINE_START_LOAD; call <= MACHINE_TIMER; call++) {
        in.call = (enum call)call;
        demand(machine_check(&in).answer.refusal == refusal,
            "not the refusal that this test expects");
    }
}

/* A memory that is too short, and what is refused before and after. */
static void check_short(size_t memory_length)
{
    give(full, memory_length, none);
    check_each(MOP_REFUSED_MEMORY);
    in.frame_length = 0;
    in.room = 0;
    check_each(MOP_REFUSED_MEMORY);
    in.settings.window = (mop_window){UINT32_MAX, 2};
    check_each(MOP_REFUSED_RANGE);
    in.settings.window = none;
    in.settings.reply_bytes = 0;
    check_each(MOP_REFUSED_RANGE);
}

/* With a memory and a reply buffer that are too short, every version. */
static void check_versions(size_t memory_length)
{
    give(full, memory_length, none);
    in.room = 0;
    for (int version = 0; version <= UINT8_MAX; version++) {
        in.settings.version = (uint8_t)version;
        check_each(version == MOP_VERSION_2_1   ? MOP_REFUSED_MEMORY
                   : version == MOP_VERSION_3_0 ? MOP_REFUSED_ROOM
                                                : MOP_REFUSED_RANGE);
    }
}

/* The machine goes on as it was. */
static void check_unlisted(void)
{
    for (size_t i = 0; i < sizeof unlisted / sizeof unlisted[0]; i++)
        demand(
            give(unlisted[i], LEAST, none).answer.refusal == MOP_REFUSED_FIELD,
            "an entry that version 2.1 does not have");
}

void test_blocks(void)
{
    random_bytes(bytes, sizeof bytes);
    demand(block_at(64) == 0 && block_at(65) == 2 && block_at(66) == 2,
        "another place of the block");
    for (size_t length = LEAST; length <= LONGEST; length++)
        check_contents(length);
    for (size_t length = LEAST; length <= LEAST + 2; length++)
        check_windows(length);
    for (size_t length = 0; length < LEAST; length++)
        check_short(length);
    check_versions(0);
    check_versions(LEAST - 1);
    check_unlisted();
}
