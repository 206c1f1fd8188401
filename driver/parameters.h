/* parameters.h: the names, addresses and the time that a load may end with
 * (code 20): taken from the command line, laid behind each other as entries,
 * and told in words. */
#ifndef PARAMETERS_H
#define PARAMETERS_H

#include <getopt.h>
#include <stdbool.h>
#include <stddef.h>
#include <stdint.h>
#include <stdio.h>

#include "mop.h"

#define PARAMETERS_TYPES (MOP_ENTRY_HOST_TIME + 1) /* the entry types are 1 to 5 */
#define PARAMETERS_ROOM (MOP_ENTRY_HOST_TIME * (2 + MOP_VALUE_MOST))

_Static_assert(PARAMETERS_ROOM <= MOP_ETHERNET_PARAMETERS_MOST, "one entry of each type is no long string");

typedef struct parameters {
    bool given;                     /* the load ends with them, perhaps without an entry */
    bool now;                       /* the host time is the clock's */
    bool named[PARAMETERS_TYPES];   /* the types that have an entry */
    mop_parameters values;          /* theirs */
    uint8_t bytes[PARAMETERS_ROOM]; /* the entries, in the order of their types */
    size_t length;
} parameters;

/* The options; first is the number of --parameters, and each entry's has its
 * type more. */
#define PARAMETERS_OPTIONS(first)                                                                                      \
    {"parameters", no_argument, NULL, (first)},                                                                        \
        {"target-name", required_argument, NULL, (first) + MOP_ENTRY_TARGET_NAME},                                     \
        {"target-address", required_argument, NULL, (first) + MOP_ENTRY_TARGET_ADDRESS},                               \
        {"host-name", required_argument, NULL, (first) + MOP_ENTRY_HOST_NAME},                                         \
        {"host-address", required_argument, NULL, (first) + MOP_ENTRY_HOST_ADDRESS},                                   \
    {                                                                                                                  \
        "time", required_argument, NULL, (first) + MOP_ENTRY_HOST_TIME                                                 \
    }

/* Takes one of them, type being MOP_ENTRY_.. and 0 for --parameters: 0, or an
 * exit status with the reason said. */
int parameters_option(parameters *p, int type, const char *text);

/* What they are, for --help. */
extern const char parameters_manual[];

/* Where the time is now, takes it from the clock again. */
void parameters_now(parameters *p);

/* Whether the version has them, to be asked once both are known; and whether
 * the library writes them and the line takes them. 0, or an exit status with the
 * reason said. */
int parameters_check(const parameters *p, uint8_t version);
int parameters_try(const parameters *p, uint8_t version, uint32_t longest, const char *line);

/* Values in words, on one line without its end: of the types that are named
 * or, without a list of these, of those that are not empty. */
void parameters_words(FILE *out, mop_parameters values, const bool *named);

/* A time that the library takes, 10 bytes, in the form that --time has. */
void time_words(FILE *out, const mop_value *value);

/* Where the parameter block of version 2.1 begins in a memory of so many bytes,
 * at least 64. */
size_t parameters_block_at(size_t memory_length);

/* What stands in the block of a machine that keeps these values, on one line
 * without its end. */
void parameters_block_words(FILE *out, const uint8_t *block, const mop_parameters *kept);

#endif
