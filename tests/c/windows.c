/* The machine's ROM window: which ones are refused, and every load near the
 * ends of those that are not. */
#include "check.h"
#include "machine.h"
#include "make.h"
#include "tests.h"

#define ADDRESSES (UINT64_C(1) << 32)

enum { SMALL = 6, LARGE = 100 };

static machine_input in;
static uint8_t bytes[LARGE];

/* Nothing but the window can be refused. */
static void give(mop_window window, size_t memory_length)
{
    in.settings = (mop_machine_settings){
        .reply_bytes = 8, .version = MOP_VERSION_3_0, .window = window};
    in.machine = (mop_machine){.state = MOP_MACHINE_REQUESTING};
    in.memory = bytes;
    in.memory_length = memory_length;
    in.room = MOP_FRAME_MOST;
}

/* A load of this code, which the machine takes. */
static void check_code(uint8_t code, uint64_t address, size_t length)
{
    in.call = MACHINE_FRAME;
    in.frame_length = least_length(code) + length;
    random_bytes(in.frame, in.frame_length);
    in.frame[0] = code;
    in.frame[1] = 0;
    put32(in.frame + 2, address);
    machine_check(&in);
}

static void check_load(uint64_t address, size_t length)
{
    check_code(MOP_CODE_LOAD, address, length);
    check_code(MOP_CODE_LOAD_TRANSFER, address, length);
}

/* Every window and every load in a small memory and a little beyond it. */
static void check_small(void)
{
    enum { MOST = SMALL + 3 };
    for (uint64_t i = 0; i < (uint64_t)MOST * MOST * MOST * MOST; i++) {
        give((mop_window){i % MOST, i / MOST % MOST}, SMALL);
        check_load(i / MOST / MOST % MOST, i / MOST / MOST / MOST);
    }
}

/* Loads on both sides of an address. */
static void check_near(uint64_t address)
{
    static const size_t lengths[] = {0, 1, 2, 3, 50, LARGE, 1400};
    for (int d = -3; d <= 3; d++)
        for (size_t i = 0; i < sizeof lengths / sizeof lengths[0]; i++)
            check_load(address + (uint64_t)d, lengths[i]);
}

/* A window and whether it is refused, in each of the four calls; loads near its
 * ends, and a dump that reads its beginning. */
static void check_window(uint64_t start, uint64_t length, bool refused)
{
    give((mop_window){start, length}, LARGE);
    demand((machine_refusal(&in) == MOP_REFUSED_RANGE) == refused,
        "not the refusal that this test expects");
    check_near(0);
    check_near(LARGE);
    check_near(start);
    check_near(start + length);
    in.machine.state = MOP_MACHINE_OFFERING;
    in.frame_length = make_frame(MOP_CODE_REQUEST_DUMP, in.frame);
    put32(in.frame + 1, start - 1);
    for (int call = MACHINE_START_LOAD; call <= MACHINE_TIMER; call++) {
        in.call = (enum call)call;
        machine_check(&in);
    }
}

/* Where a window may lie, and where not. */
static void check_places(void)
{
    check_window(0, 1, false);
    check_window(0, LARGE, false);
    check_window(50, 1, false);
    check_window(50, 20, false);
    check_window(LARGE - 1, 1, false);
    check_window(LARGE - 20, 20, false);
    check_window(LARGE - 20, 40, false);
    check_window(LARGE, 20, false);
    check_window(1000, 1, false);
    check_window(0, ADDRESSES, false);
    check_window(50, ADDRESSES - 50, false);
    check_window(ADDRESSES - 1, 1, false);
    check_window(0, 0, false);
    check_window(50, 0, false);
    check_window(ADDRESSES + 1, 0, false);
    check_window(UINT64_MAX, 0, false);
    check_window(0, ADDRESSES + 1, true);
    check_window(50, ADDRESSES - 49, true);
    check_window(ADDRESSES, 1, true);
    check_window(1, UINT64_MAX, true); /* in 64 bits it ends at 0 */
    check_window(UINT64_MAX, 1, true);
    check_window(UINT64_MAX - 49, 100, true); /* at 50 */
    check_window(UINT64_MAX, UINT64_MAX, true);
    check_window(UINT64_MAX / 2 + 1, UINT64_MAX / 2 + 1, true); /* at 0 */
}

void test_windows(void)
{
    random_bytes(bytes, sizeof bytes);
    check_small();
    check_places();
}
