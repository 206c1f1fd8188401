/* dumping.h: a dump as mopdump runs it, its files, and the record that tells of
 * it. */
#ifndef DUMPING_H
#define DUMPING_H

#include <stdbool.h>
#include <stdint.h>
#include <sys/types.h>

#include "host.h"
#include "mop.h"
#include "part.h"
#include "progress.h"
#include "record.h"

/* What one session brings up. */
typedef struct copy {
    mop_dump session;
    uint8_t *bytes; /* of the whole range */
    part part;
    uint64_t offers; /* after the machine's first answer, also to earlier runs */
} copy;

typedef struct dumping {
    mop_dump_settings range;    /* the whole, as the command line has it */
    mop_dump_settings settings; /* the session's: what is left of it */
    const char *path;
    mode_t mode;
    bool from;          /* --from was given */
    bool twice;         /* --twice */
    bool resume;        /* --resume */
    const char *verify; /* --verify, or NULL */
    uint64_t before;    /* bytes that earlier runs brought up */
    char *earlier;      /* their record, or NULL */
    copy copies[2];     /* the second for --twice */
    copy *now;
    char compared[128]; /* what --twice found */
    mop_fields offer;   /* the machine's, once it came */
    host *host;
    const copy *begun; /* the last whose beginning was said, or NULL */
    progress progress;
    record record;  /* FILE.record */
    time_t since;   /* when the first session began; 0 as long as it waits */
    uint64_t tenth; /* of the dump, when the record was last put */
    bool doubt;     /* whether it then told of such offers */
} dumping;

/* The bytes of the range that a copy has. */
uint64_t dumping_came(const dumping *d, const copy *c);

/* The repeats among the frames that a session sent. */
uint64_t dumping_repeats(const mop_dump *session);

/* What a copy's session sent and counted, in sentences. */
void dumping_counts(const copy *c, FILE *out);

/* The offers that may be of a machine that was restarted. */
uint64_t dumping_offers(const dumping *d);

/* What the verdict of the session under way, or of the last, means, in sentences; status is how it ended. */
void dumping_words(const dumping *d, int status, FILE *out);

/* What is to be told besides the verdict, in sentences. */
void dumping_doubts(const dumping *d, int status, FILE *out);

/* Everything that can fail, before the machine is asked: names, room, what is
 * there already, what --resume takes up. 0 or an exit status. */
int filing_prepare(dumping *d);

/* After each step, before its frame is sent: what came goes to the disk at once,
 * and the record is put anew where a session begins, at each tenth, and when the
 * machine offers again. */
void filing_step(dumping *d);

/* Tells what came, files it, and gives the exit status; status is how the
 * sessions ended. */
int filing_conclude(dumping *d, int status);

/* The record of a dump that is not over: true at every moment until the next
 * is there, whatever happens. The first refuses one that is there. 0 or an exit
 * status. */
int report_first(dumping *d);
int report_running(dumping *d);

/* The record of a dump that has ended, and how; file has the first copy's bytes. */
int report_end(dumping *d, int status, const char *how, const char *file);

/* The line that tells the range, up to its end. */
void report_range(const dumping *d, FILE *out);

#endif
