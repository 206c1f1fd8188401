/* manual.h: what every program tells of itself: its manual, as text (--help) and
 * as a page for man (--man), and its version. */
#ifndef MANUAL_H
#define MANUAL_H

#include <getopt.h>
#include <stdint.h>
#include <stdio.h>

/* A program's manual. Headings stand at the margin, all else behind two blanks or
 * more; an option's line begins with two blanks and a minus. */
typedef void (*manual_writer)(FILE *out);

/* What is needed to tell of a program: its manual, and the words of its command line. */
typedef struct manual_of {
    manual_writer write;
    char **words;
} manual_of;

/* The numbers of the long options; other long options begin at OPTION_MORE. */
enum { OPTION_MAN = 256, OPTION_VERSION, OPTION_MORE };

#define MANUAL_OPTIONS                                                                                                 \
    {"help", no_argument, NULL, 'h'}, {"man", no_argument, NULL, OPTION_MAN},                                          \
    {                                                                                                                  \
        "version", optional_argument, NULL, OPTION_VERSION                                                             \
    }

/* Takes one of these and ends the program; any other is not known, and the exit status of that is given back. */
int manual_option(int option, const manual_of *program);

/* The lines that tell of them, for the manual's list of options. */
void manual_help(FILE *out);

/* The program's version: the commit that it was built from. */
extern const char program_version[];

/* --version of a program that has --protocol: with 2.1 or 3.0 behind it, it is the protocol's version, as it was before
 * there was --protocol. 0 or an exit status. */
int manual_version(const manual_of *program, uint8_t *version);

#endif
