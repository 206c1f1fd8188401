/* host.h: the host's side of the line, for a load and for a dump alike. It
 * waits for a machine's request, offers itself, hands frames and timers to
 * the library's step and sends what the step gives. */
#ifndef HOST_H
#define HOST_H

#include <stdbool.h>

#include "line.h"
#include "mop.h"
#include "options.h"

typedef enum host_stage { HOST_WAITING, HOST_FIRST, HOST_UNDER_WAY, HOST_OVER } host_stage;

/* The load or the dump. */
typedef struct host_job {
    /* Looks at a message of the machine before the library does; may change a
     * request. */
    void (*before)(void *job, line_frame *frame);
    /* One step of the library on the job's own record. */
    mop_written (*step)(
        void *job, bool timer, const uint8_t *frame, size_t frame_length, uint8_t *reply, size_t reply_length);
    /* Whether the library would begin with this message; the record stays. */
    bool (*begins)(const void *job, const line_frame *frame);
    /* Waiting; begun without an answer yet; under way; over. */
    host_stage (*stage)(const void *job);
    /* After each step: shows, and files. */
    void (*after)(void *job);
} host_job;

typedef struct host {
    common_settings settings;
    uint8_t machine[ADDRESS_LENGTH]; /* the one served */
    bool named;                      /* by the command line, or by its request */
    bool restart;                    /* the job begins again when the machine asks again */
    line line;
    int64_t due; /* when the timer runs out */
    uint64_t unreadable;
    const host_job *calls;
    void *job;
} host;

/* The options that a load and a dump both have, beside those of all programs;
 * OPTION_JOB is the first number for their own. */
enum { OPTION_MACHINE = OPTION_OWN, OPTION_JOB };

#define HOST_OPTIONS                                                                                                   \
    LINE_OPTIONS, {"repeats", required_argument, NULL, 'R'},                                                           \
    {                                                                                                                  \
        "machine", required_argument, NULL, OPTION_MACHINE                                                             \
    }

/* Takes an option that is not the job's own: 0 or an exit status. */
int host_option(host *h, int option, const char *value, uint32_t *repeats);

/* The stage of a record; taken counts what the machine has answered. */
host_stage host_stage_of(uint8_t waiting, uint8_t verdict, uint64_t taken);

/* Opens the line, and takes it for this program alone. 0 or an exit status. */
int host_open(host *h);

/* Says that it waits, and runs the job to its end: 0 once it is over, or an exit
 * status. */
int host_run(host *h);

/* Closes the line and tells what was lost, doubled or unreadable. */
void host_close(host *h);

#endif
