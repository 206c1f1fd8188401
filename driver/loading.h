/* loading.h: a load as mopload runs it, what is told of it, and the record that
 * tells of it too. */
#ifndef LOADING_H
#define LOADING_H

#include <stdbool.h>
#include <stdint.h>
#include <stdio.h>
#include <time.h>

#include "files.h"
#include "host.h"
#include "mop.h"
#include "parameters.h"
#include "progress.h"
#include "record.h"
#include "sha256.h"

#define LOADING_ID_MOST 16 /* bytes of a software id */

/* The last request that is served. */
typedef struct request {
    mop_fields fields;
    uint8_t id[LOADING_ID_MOST];
} request;

typedef struct loading {
    mop_load_settings settings;
    mop_load session;
    mop_image image;
    contents file;
    parameters parameters; /* what it ends with, if settings says that it does */
    const char *path;
    uint32_t accept;                   /* the type served like 2; 2 for none other */
    request asked;                     /* its type is that of the machine, 2 or the one that is accepted */
    bool unserved[MOP_PROGRAM_SYSTEM]; /* the types that were said not to be served */
    bool begun;
    uint64_t resets;   /* requests after the machine's first answer, since the load began again */
    bool early;        /* one of them came before the last frame was under way */
    uint32_t restarts; /* those that were told */
    const host *host;
    progress progress;
    record record;
    time_t since;          /* when the load began; 0 as long as it waits */
    uint64_t tenth;        /* of the load, when the record was last put */
    uint32_t again;        /* the restarts that the record tells of */
    bool doubt;            /* whether it tells of a reset */
    char sum[SHA256_TEXT]; /* of the image */
    char *seen;            /* the image's name as the record has it */
} loading;

/* One for each segment, and one for the parameters. */
uint64_t loading_frames(const loading *l);

/* Who asks for what: "08-00-2B-00-00-01, which asks for .." */
void loading_machine(const loading *l, FILE *out);

/* What the machine's memory holds when the load is over, in sentences; status is
 * how it ended. And the exit status of it. */
void loading_end(const loading *l, int status, FILE *out);
int loading_status(const loading *l, int status);

/* The frames of the session that were repeats. */
uint64_t loading_repeats(const loading *l);

/* The record of a load, if one is kept. Before a machine asks: it refuses one
 * that is there. After each step, before its frame is sent: put anew where the
 * load begins or begins again, at each tenth and at the last frame. At the end:
 * it is told where the record is. 0 or an exit status. */
int loading_record_first(loading *l);
void loading_record_step(loading *l);
int loading_record_end(loading *l, int status);

#endif
