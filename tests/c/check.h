/* Counting the calls, failing, and numbers at random. */
#ifndef CHECK_H
#define CHECK_H

#include <stdbool.h>
#include <stddef.h>
#include <stdint.h>

/* The calls of mop.h. */
enum call {
    READ,
    WRITE_LOAD_TRANSFER,
    WRITE_LOAD,
    WRITE_REQUEST_PROGRAM,
    WRITE_REQUEST_LOAD,
    WRITE_REQUEST_DUMP,
    WRITE_REQUEST_DUMP_SERVICE,
    WRITE_DUMP_DATA,
    WRITE_DUMP_COMPLETE,
    WRITE_VOLUNTEER,
    WRITE_PARAMETERS,
    WRITE_LOOP,
    WRITE_LOOPED,
    IMAGE_CHECK,
    IMAGE_SEGMENT,
    MACHINE_START_LOAD,
    MACHINE_START_DUMP,
    MACHINE_FRAME,
    MACHINE_TIMER,
    LOAD_START,
    LOAD_FRAME,
    LOAD_TIMER,
    LOAD_UPDATE_FRAME,
    LOAD_UPDATE_TIMER,
    DUMP_START,
    DUMP_FRAME,
    DUMP_TIMER,
    DUMP_UPDATE_FRAME,
    DUMP_UPDATE_TIMER,
    LOOP_START,
    LOOP_FRAME,
    LOOP_TIMER,
    CALLS
};

/* Before a call, and after it with the refusal that it gave. */
void calling(enum call call);
void called(unsigned refusal);

/* Ends the test, naming the last call, unless this holds. */
void demand(bool holds, const char *what);

/* Prints the calls. False if a refusal came that the header does not give for
 * the call, or one that it gives never came in a test that is long enough. */
bool print_calls(void);

/* How thorough the test is: 100 is everything, 10 is long enough for every
 * refusal to come. */
extern unsigned effort;
/* So many of a number of cases, at least 1. */
unsigned cases(unsigned all);
/* The step of a loop over lengths, 1 for all of them. */
size_t stride(void);

/* Numbers at random: below a bound; a bit; one near an edge of its type or of
 * the limits of mop.h; fills bytes. */
void random_seed(uint64_t first);
uint64_t random_any(void);
uint64_t below(uint64_t bound);
bool once_in(unsigned times);
uint64_t hostile(void);
void random_bytes(uint8_t *to, size_t length);

#endif
