/* words.h: what the library's numbers mean, in words, and the programs' exit
 * statuses. */
#ifndef WORDS_H
#define WORDS_H

#include <stdbool.h>
#include <stdint.h>
#include <stdio.h>

#include "mop.h"

typedef enum status {
    STATUS_FINISHED = 0,
    STATUS_OTHER = 1,
    STATUS_REJECTED = 2,
    STATUS_GIVEN_UP = 3,
    STATUS_UNCONFIRMED = 4,
    STATUS_SILENT = 5,
    STATUS_INTERRUPTED = 6,
    STATUS_SHARED = 7,
    STATUS_DIFFERENT = 8,
    STATUS_RESET = 9,
    STATUS_USAGE = 10,
    STATUS_INTERFACE = 11,
    STATUS_PERMISSION = 12,
    STATUS_IMAGE = 13,
    STATUS_FILE = 14,
    STATUS_IN_USE = 15,
    STATUS_MISMATCH = 16
} status;

/* The program's name, for complain. */
void words_program(const char *name);
const char *words_name(void);

/* A bar stands on the terminal's line; and the line's end, before anything
 * else is printed. */
void words_bar(void);
void words_bar_end(void);

/* Prints a text. A name in it may have control characters, which do not reach the terminal. */
void plain_words(FILE *out, const char *text);

/* Prints such a text as a line on standard output; and on standard error, behind the program's name, and gives the status
 * back. */
void inform(const char *format, ...) __attribute__((format(printf, 1, 2)));
int complain(int status, const char *format, ...) __attribute__((format(printf, 2, 3)));

/* Whether all that was printed is written: 0, or an exit status with the reason said. */
int words_written(void);

/* The table of exit statuses, for --help: those from first to last. */
void words_statuses(FILE *out, int first, int last);

/* Why the library refused: one of the numbers of mop.h. */
const char *refusal_words(uint8_t refusal);

/* A message's name (docs/PROTOCOL.md, section 2): MOP_CODE_.. */
const char *code_words(uint8_t code);

/* What a request program asks for: MOP_PROGRAM_.. */
const char *program_words(uint8_t type);

/* A machine's state: MOP_MACHINE_.. */
const char *state_words(uint8_t state);

/* A verdict's name, and the exit status of it: MOP_LOAD_.., MOP_DUMP_.. */
const char *verdict_words(uint8_t verdict);
int verdict_status(uint8_t verdict);

/* What a verdict means for the machine's memory, in whole sentences: no more than the link's theorem says. A dump has
 * left it as it was if the host was alone with the machine, and that was not restarted. */
void load_words(FILE *out, const mop_load *session, const mop_load_settings *settings, const mop_image *image);
void dump_words(FILE *out, const mop_dump *session, const mop_dump_settings *settings, bool alone);

/* How a session ended, in a few words: the verdict, or what came before it, by the exit status. */
const char *ending_words(int status, uint8_t verdict);

/* How a load stands that is not over, in a few words; the machine may have been heard to be reset. And what that means
 * later on, in whole sentences: with them it stays true whatever happens. */
void load_state_words(FILE *out, const mop_load *session, const mop_image *image, bool reset);
void load_later_words(FILE *out, const mop_load *session, const mop_load_settings *settings, const mop_image *image);

/* What casts doubt on a verdict, or takes its place; of a machine that was reset in the middle of a load the verdict
 * says only what it confirmed. */
void load_doubted_words(FILE *out, const mop_load *session, const mop_load_settings *settings, const mop_image *image);
void load_shared_words(FILE *out);
void load_reset_words(FILE *out, uint64_t resets, bool perhaps_started, bool restart);
void load_restarts_words(FILE *out, uint32_t restarts);
void dump_shared_words(FILE *out);
void dump_offers_words(FILE *out, uint64_t offers);

/* The frames that a session sent, the repeats among them, and what the frames
 * came to that it counted, in sentences. The job is load or dump. */
void counts_words(FILE *out, const char *job, uint64_t sent, uint64_t repeats, const mop_counts *counts);

/* What these tell of the line, for --help. */
void counts_help(FILE *out);

#endif
