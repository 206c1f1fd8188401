/* line.h: MOP messages over Ethernet (type 60-01). Framing only: a message
 * goes out behind its 2-byte length, padded to 60 bytes, and one that comes
 * in is cut by that length. Nothing here reads a message. */
#ifndef LINE_H
#define LINE_H

#include <net/if.h>
#include <stdbool.h>
#include <stddef.h>
#include <stdint.h>

#include "mop.h"
#include "trace.h"

#define ADDRESS_LENGTH 6
#define ADDRESS_TEXT 18 /* 08-00-2B-AA-BB-CC and its end */
#define LENGTH_FIELD 2
#define LINE_HEADER 14 /* of an Ethernet frame */
#define LINE_LONGEST (LINE_HEADER + LENGTH_FIELD + MOP_FRAME_MOST)

/* AB-00-00-01-00-00, to which a machine sends its request */
extern const uint8_t ASSISTANCE[ADDRESS_LENGTH];

/* Every nth frame is hit; none if n is 0. */
typedef struct every {
    uint32_t n;
    uint32_t count;
} every;

typedef struct direction {
    every drop;
    every twice;
    uint64_t frames;
    uint64_t lost;
    uint64_t doubled;
} direction;

typedef struct line_frame {
    uint8_t bytes[MOP_FRAME_MOST];
    size_t length;
    uint8_t from[ADDRESS_LENGTH];
    bool multicast; /* to ASSISTANCE, else to this end alone */
} line_frame;

typedef struct line {
    int socket;
    int index;
    uint32_t longest; /* the longest message that the interface takes */
    uint8_t address[ADDRESS_LENGTH];
    char name[IFNAMSIZ];
    direction out;
    direction in;
    line_frame last; /* handed over once more if again is set */
    bool again;
    bool alone; /* no other program here may send from this address */
    trace trace;
} line;

/* What all programs on the line are told. */
typedef struct line_settings {
    const char *interface;
    const char *trace;
    uint32_t drop;
    uint32_t twice;
    bool at_once; /* the program sends at once, and does not wait for the other end */
} line_settings;

typedef enum line_event { LINE_FRAME, LINE_QUIET, LINE_SIGNAL, LINE_SHARED, LINE_BROKEN } line_event;

/* Both give 0, or an exit status once they have said what is wrong. Opening
 * drops the program's privileges: what it opens later, it opens as its user. */
int line_open(line *l, const line_settings *settings);
int line_join(line *l); /* also take frames to ASSISTANCE */

void line_close(line *l);

/* One message to an address: 0, or an exit status as above. A frame that the
 * interface has no room for counts as sent: the line may lose frames. */
int line_send(line *l, const uint8_t *to, const uint8_t *message, size_t length);

/* The next message for this end, until the clock shows the deadline. */
line_event line_receive(line *l, line_frame *frame, int64_t deadline);

/* Prints what was lost and doubled on purpose, where --drop or --double was given. */
void line_tell(const line *l);

/* Throws away what has come and was not received. */
void line_empty(line *l);

/* A frame as the socket hands it over, whomever it is for. */
typedef struct line_raw {
    uint8_t bytes[LINE_LONGEST + 1];
    size_t length;
    size_t whole;  /* the length that it had, if it was longer */
    uint8_t type;  /* PACKET_.. of the kernel */
    bool tagged;   /* it carried a VLAN tag, which the kernel has cut out */
    unsigned vlan; /* the number in that tag; 0 names no VLAN */
} line_raw;

/* For a program that only listens: waits until there is something to take, and
 * takes one frame: LINE_FRAME, LINE_QUIET if there is none, or LINE_BROKEN. */
line_event line_await(const line *l, int64_t deadline);
line_event line_take(const line *l, line_raw *raw);

/* The end that a program is. A call that gives not 0 ends the run with it. */
typedef struct line_end {
    bool (*over)(const void *end);
    int64_t (*due)(const void *end); /* when its timer runs out */
    int (*frame)(void *end, line_frame *frame);
    int (*timer)(void *end);
} line_end;

/* Hands frames and timers to an end until it is over: 0, or an exit status.
 * Frames, however many come, do not keep a timer from its end. */
int line_run(line *l, const line_end *calls, void *end);

/* Milliseconds of a clock that never goes back. */
int64_t clock_now(void);

/* To be called first. From now on interrupt, quit, hangup and termination end line_receive, and
 * nothing else: a file that is being written is written. Those that were
 * ignored stay ignored (nohup). A reader of the output who has gone, and a file
 * that grows too long, are errors of the writing. 0 or an exit status. */
int process_begin(void);

#endif
