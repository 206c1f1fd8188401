/* options.h: what the command lines of the programs share. */
#ifndef OPTIONS_H
#define OPTIONS_H

#include <getopt.h>
#include <stdbool.h>
#include <stdint.h>
#include <sys/types.h>

#include "line.h"
#include "manual.h"

/* The numbers of the long options that all programs on the line have. */
enum { OPTION_TIMER = OPTION_MORE, OPTION_WAIT, OPTION_DROP, OPTION_DOUBLE, OPTION_TRACE, OPTION_OWN };

#define SENDING_OPTIONS                                                                                                \
    {"interface", required_argument, NULL, 'i'}, {"timer", required_argument, NULL, OPTION_TIMER},                     \
        {"drop", required_argument, NULL, OPTION_DROP}, {"double", required_argument, NULL, OPTION_DOUBLE},            \
        {"trace", required_argument, NULL, OPTION_TRACE}, MANUAL_OPTIONS

/* Of those that wait for the other end. */
#define LINE_OPTIONS                                                                                                   \
    SENDING_OPTIONS,                                                                                                   \
    {                                                                                                                  \
        "wait", required_argument, NULL, OPTION_WAIT                                                                   \
    }

typedef struct common_settings {
    line_settings line;
    uint32_t timer; /* milliseconds */
    uint32_t wait;  /* seconds */
    manual_of program;
} common_settings;

/* Takes an option that all have, or that none has: 0 or an exit status. */
int common_option(int option, const char *value, common_settings *settings);

/* What they are, for --help; the timer's default, and nothing for a program that has no --wait. */
void common_help(FILE *out, const char *waits_for);
void sending_help(FILE *out, uint32_t timer, const char *waits_for);

/* A number in decimal, hexadecimal (0x..) or octal (0o..), between two
 * bounds: 0, or an exit status with the reason said. */
int option_number(const char *name, const char *text, uint64_t least, uint64_t most, uint64_t *number);
int option_small(const char *name, const char *text, uint32_t least, uint32_t most, uint32_t *number);

/* The permissions of a file, in octal as for chmod. */
int option_mode(const char *name, const char *text, mode_t *mode);

/* The version of the protocol, 2.1 or 3.0: MOP_VERSION_.. */
int option_protocol(const char *text, uint8_t *version);

/* An Ethernet address, six pairs of digits with - or : between. */
int option_address(const char *name, const char *text, uint8_t *address);
const char *address_text(const uint8_t *address, char text[ADDRESS_TEXT]);

#endif
