#include "check.h"
#include "mop.h"

#include <signal.h>
#include <stdio.h>
#include <stdlib.h>
#include <string.h>
#include <unistd.h>

unsigned effort = 100;

/* A call: its name, and the refusals that the header gives for it. */
typedef struct listed {
    const char *name;
    unsigned refusals; /* bit n for refusal n */
} listed;

#define R(n) (1U << (n))
#define FRAME (R(1) | R(2) | R(3) | R(4))
#define IMAGE (R(5) | R(6) | R(7) | R(8))

static const listed list[CALLS] = {
    [READ] = {"mop_read", R(10) | FRAME},
    [WRITE_LOAD_TRANSFER] = {"mop_write_load_transfer", R(2) | R(9)},
    [WRITE_LOAD] = {"mop_write_load", R(2) | R(9)},
    [WRITE_REQUEST_PROGRAM] = {"mop_write_request_program", R(4) | R(2) | R(9)},
    [WRITE_REQUEST_LOAD] = {"mop_write_request_load", R(9)},
    [WRITE_REQUEST_DUMP] = {"mop_write_request_dump", R(9)},
    [WRITE_REQUEST_DUMP_SERVICE] = {"mop_write_request_dump_service",
        R(2) | R(9)},
    [WRITE_DUMP_DATA] = {"mop_write_dump_data", R(2) | R(9)},
    [WRITE_DUMP_COMPLETE] = {"mop_write_dump_complete", R(9)},
    [WRITE_VOLUNTEER] = {"mop_write_volunteer", R(9)},
    [WRITE_PARAMETERS] = {"mop_write_parameters", R(10) | R(4) | R(2) | R(9)},
    [WRITE_LOOP] = {"mop_write_loop", R(2) | R(9)},
    [WRITE_LOOPED] = {"mop_write_looped", R(2) | R(9)},
    [IMAGE_CHECK] = {"mop_image_check", R(10) | IMAGE},
    [IMAGE_SEGMENT] = {"mop_image_segment", R(10) | IMAGE},
    [MACHINE_START_LOAD] = {"mop_machine_start_load", R(10) | R(11) | R(9)},
    [MACHINE_START_DUMP] = {"mop_machine_start_dump", R(10) | R(11) | R(9)},
    [MACHINE_FRAME] = {"mop_machine_frame", R(10) | R(11) | R(9) | FRAME},
    [MACHINE_TIMER] = {"mop_machine_timer", R(10) | R(11) | R(9)},
    [LOAD_START] = {"mop_load_start", 0},
    [LOAD_FRAME] = {"mop_load_frame", R(10) | R(9) | IMAGE | R(12) | FRAME},
    [LOAD_TIMER] = {"mop_load_timer",
        R(10) | R(9) | IMAGE | R(12) | R(4) | R(2)},
    [LOAD_UPDATE_FRAME] = {"mop_load_update_frame",
        R(10) | R(9) | IMAGE | R(12) | FRAME},
    [LOAD_UPDATE_TIMER] = {"mop_load_update_timer",
        R(10) | R(9) | IMAGE | R(12) | R(4) | R(2)},
    [DUMP_START] = {"mop_dump_start", 0},
    [DUMP_FRAME] = {"mop_dump_frame", R(10) | R(9) | FRAME},
    [DUMP_TIMER] = {"mop_dump_timer", R(10) | R(9)},
    [DUMP_UPDATE_FRAME] = {"mop_dump_update_frame", R(10) | R(9) | FRAME},
    [DUMP_UPDATE_TIMER] = {"mop_dump_update_timer", R(10) | R(9)},
    [LOOP_START] = {"mop_loop_start", R(10) | R(9)},
    [LOOP_FRAME] = {"mop_loop_frame", R(10) | R(9) | FRAME},
    [LOOP_TIMER] = {"mop_loop_timer", R(10) | R(9)},
};

static unsigned long
    seen[CALLS][MOP_REFUSED_MANY + 1]; /* how often each answer came */
static unsigned long total;
static volatile sig_atomic_t current;
static uint64_t seed;

/* A fault is told with the call that it came from, and then has its way. */
static void faulted(int number)
{
    static const char text[] = "FAULT in ";
    const char *name = list[current].name;
    if (write(2, text, sizeof text - 1) > 0 && write(2, name, strlen(name)) > 0)
        (void)!write(2, "\n", 1);
    (void)signal(number, SIG_DFL);
}

void calling(enum call call)
{
    if (total == 0)
        (void)signal(SIGSEGV, faulted);
    total++;
    current = (sig_atomic_t)call;
}

void called(unsigned refusal)
{
    demand(refusal <= MOP_REFUSED_MANY, "a refusal above 12");
    demand(mop_refused_frame((uint8_t)refusal) == ((FRAME >> refusal & 1) != 0),
        "mop_refused_frame is wrong");
    seen[current][refusal]++;
}

void demand(bool holds, const char *what)
{
    if (holds)
        return;
    printf("FAILED: %s, call %lu (seed %llu): %s\n", list[current].name, total,
        (unsigned long long)seed, what);
    exit(1);
}

/* Whether the answers that came are those that the header gives: all of them,
 * unless the test is too short for that, and no other. */
static bool print_call(enum call call)
{
    const unsigned wanted = list[call].refusals | R(0);
    bool good = true;
    printf("  %-32s", list[call].name);
    for (unsigned n = 0; n <= MOP_REFUSED_MANY; n++) {
        const bool came = seen[call][n] > 0, may = (wanted >> n & 1) != 0;
        if (came)
            printf(" %u:%lu", n, seen[call][n]);
        good = good && (came ? may : !may || effort < 10);
    }
    printf(good ? "\n" : "  NOT as the header says\n");
    return good;
}

bool print_calls(void)
{
    bool good = true;
    for (int call = 0; call < CALLS; call++)
        good = print_call((enum call)call) && good;
    printf("guards: %lu calls, %s (seed %llu)\n", total,
        good ? "as they should be" : "FAILED", (unsigned long long)seed);
    return good;
}

unsigned cases(unsigned all)
{
    const unsigned some = (unsigned)((uint64_t)all * effort / 100);
    return some > 0 ? some : 1;
}

size_t stride(void)
{
    return effort >= 100 ? 1 : 1 + 100 / (effort > 0 ? effort : 1);
}

/* ---- Numbers at random: splitmix64. */

static uint64_t state;

void random_seed(uint64_t first)
{
    seed = first;
    state = first;
}

uint64_t random_any(void)
{
    uint64_t z = state += UINT64_C(0x9E3779B97F4A7C15);
    z = (z ^ z >> 30) * UINT64_C(0xBF58476D1CE4E5B9);
    z = (z ^ z >> 27) * UINT64_C(0x94D049BB133111EB);
    return z ^ z >> 31;
}

uint64_t below(uint64_t bound)
{
    return random_any() % bound;
}

bool once_in(unsigned times)
{
    return below(times) == 0;
}

uint64_t hostile(void)
{
    static const uint64_t edges[] = {0, 1, 2, 3, 4, 5, 127, 128, 255, 256, 1490,
        1491, 1493, 1494, 1495, 1496, 1497, 1498, 1500, 1501, 32768, 65535,
        65536, 100000, 100001, 16777216, 16777217, UINT32_MAX / 2,
        UINT32_MAX / 2 + 1, UINT32_MAX - 1, UINT32_MAX, UINT64_C(1) << 32,
        UINT64_MAX / 2, UINT64_MAX / 2 + 1, UINT64_MAX - 1, UINT64_MAX};
    const uint64_t edge = edges[below(sizeof edges / sizeof edges[0])];
    return once_in(4) ? random_any() : edge;
}

void random_bytes(uint8_t *to, size_t length)
{
    for (size_t i = 0; i < length; i += 8) {
        const uint64_t some = random_any();
        memcpy(to + i, &some, length - i < 8 ? length - i : 8);
    }
}
