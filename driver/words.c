#include "words.h"

#include <errno.h>
#include <inttypes.h>
#include <stdarg.h>
#include <stdbool.h>
#include <stdlib.h>
#include <string.h>

static const char *program = "mop";

void words_program(const char *name)
{
    program = name;
}

const char *words_name(void)
{
    return program;
}

static bool bar_stands;

void words_bar(void)
{
    bar_stands = true;
}

void words_bar_end(void)
{
    if (bar_stands)
        putchar('\n');
    bar_stands = false;
}

void plain_words(FILE *out, const char *text)
{
    for (; *text != '\0'; text++)
        if ((unsigned char)*text < ' ' || *text == 0x7F)
            fprintf(out, "\\x%02X", (unsigned)(unsigned char)*text);
        else
            fputc(*text, out);
}

/* A line with its end. */
static void put_line(FILE *out, const char *format, va_list values)
{
    char *text = NULL;
    if (vasprintf(&text, format, values) < 0)
        text = NULL;
    plain_words(out, text == NULL ? format : text);
    fputc('\n', out);
    free(text);
}

void inform(const char *format, ...)
{
    va_list values;
    va_start(values, format);
    put_line(stdout, format, values);
    va_end(values);
}

int complain(int status, const char *format, ...)
{
    va_list values;
    va_start(values, format);
    words_bar_end();
    fflush(stdout);
    fprintf(stderr, "%s: ", program);
    put_line(stderr, format, values);
    va_end(values);
    return status;
}

/* An earlier write may have failed that the last one does not know of. */
int words_written(void)
{
    errno = 0;
    if (fflush(stdout) == 0 && ferror(stdout) == 0)
        return 0;
    return complain(STATUS_FILE, "standard output cannot be written: %s", strerror(errno == 0 ? EIO : errno));
}

void words_statuses(FILE *out, int first, int last)
{
    static const struct {
        int status;
        const char *words;
    } table[] = {
        {STATUS_FINISHED, "finished"},
        {STATUS_OTHER, "out of memory, or a refusal that should not be"},
        {STATUS_REJECTED, "rejected: the machine answered with an error"},
        {STATUS_GIVEN_UP, "given up: the machine stopped answering"},
        {STATUS_UNCONFIRMED, "unconfirmed: all but the last frame of the load is confirmed"},
        {STATUS_SILENT, "silent: nothing was heard in the time of --wait"},
        {STATUS_INTERRUPTED, "interrupted by a signal"},
        {STATUS_SHARED, "another program on this computer sent MOP frames from the same address"},
        {STATUS_DIFFERENT, "the two dumps of --twice are not equal, and none is filed"},
        {STATUS_RESET, "confirmed, but the machine was reset in the middle of the load"},
        {STATUS_USAGE, "the command line is wrong"},
        {STATUS_INTERFACE, "no such interface, or it cannot be used"},
        {STATUS_PERMISSION, "no permission to use the interface"},
        {STATUS_IMAGE, "the image is refused"},
        {STATUS_FILE, "a file cannot be read or written"},
        {STATUS_IN_USE, "another mopload, mopdump or moploop uses the interface"},
        {STATUS_MISMATCH, "a file is not the one that its record tells of"},
    };
    if (first == STATUS_FINISHED)
        fputs("EXIT STATUS\n", out);
    for (size_t i = 0; i < sizeof table / sizeof table[0]; i++)
        if (table[i].status >= first && table[i].status <= last)
            fprintf(out, "  %2d  %s\n", table[i].status, table[i].words);
}

#define PICK(table, number, otherwise) ((number) < sizeof(table) / sizeof(table)[0] ? (table)[number] : (otherwise))

const char *refusal_words(uint8_t refusal)
{
    static const char *const words[] = {
        [MOP_ACCEPTED] = "nothing is refused",
        [MOP_REFUSED_SHORT] = "the frame is empty or ends too early",
        [MOP_REFUSED_LONG] = "bytes are left over in the frame, or it has more than 1500",
        [MOP_REFUSED_CODE] = "the frame's code is none of the protocol's",
        [MOP_REFUSED_FIELD] = "a field of the frame has a value outside its list",
        [MOP_REFUSED_FILE] = "the file is too short or too long (16 to 16777216 bytes), or its length field is wrong",
        [MOP_REFUSED_DIRECTORY] =
            "there are no regions or too many, or the directory does not stand where the trailer says",
        [MOP_REFUSED_ENTRY] =
            "a region is empty, or its bytes are not in the file, or it ends above address 0xFFFFFFFF",
        [MOP_REFUSED_OVERLAP] =
            "a region begins before the end of the region before: they stand in order and do not overlap",
        [MOP_REFUSED_ROOM] = "a buffer is too short",
        [MOP_REFUSED_RANGE] = "a setting, a version, a length or a range is outside its bounds",
        [MOP_REFUSED_MEMORY] = "version 2.1 needs a memory of at least 64 bytes, for its parameter block",
        [MOP_REFUSED_MANY] = "a load that may begin again has at most 256 frames, one for its parameters counted",
    };
    return PICK(words, refusal, "a refusal without a meaning");
}

const char *code_words(uint8_t code)
{
    static const char *const names[] = {
        [MOP_CODE_LOAD_TRANSFER] = "memory load with transfer",
        [MOP_CODE_DUMP_COMPLETE] = "dump complete",
        [MOP_CODE_LOAD] = "memory load",
        [MOP_CODE_VOLUNTEER] = "assistance volunteer",
        [MOP_CODE_REQUEST_DUMP] = "request memory dump",
        [MOP_CODE_REQUEST_PROGRAM] = "request program",
        [MOP_CODE_REQUEST_LOAD] = "request memory load",
        [MOP_CODE_REQUEST_DUMP_SERVICE] = "request dump service",
        [MOP_CODE_DUMP_DATA] = "memory dump data",
        [MOP_CODE_PARAMETERS] = "parameter load with transfer",
        [MOP_CODE_LOOP] = "loop data",
        [MOP_CODE_LOOPED] = "looped data",
    };
    return code < sizeof names / sizeof names[0] && names[code] != NULL ? names[code] : "not listed";
}

const char *program_words(uint8_t type)
{
    static const char *const words[] = {
        [MOP_PROGRAM_SECONDARY] = "secondary loader",
        [MOP_PROGRAM_TERTIARY] = "tertiary loader",
        [MOP_PROGRAM_SYSTEM] = "operating system",
    };
    return PICK(words, type, "program of an unknown type");
}

const char *state_words(uint8_t state)
{
    static const char *const words[] = {
        [MOP_MACHINE_IDLE] = "idle",
        [MOP_MACHINE_OFFERING] = "offering a dump",
        [MOP_MACHINE_REQUESTING] = "requesting a program",
        [MOP_MACHINE_LOADING] = "loading",
        [MOP_MACHINE_STARTED] = "started",
    };
    return PICK(words, state, "in an unknown state");
}

/* A verdict of a dump has the number and the meaning of a load's. */
_Static_assert((int)MOP_DUMP_RUNNING == (int)MOP_LOAD_RUNNING && (int)MOP_DUMP_FINISHED == (int)MOP_LOAD_FINISHED &&
                   (int)MOP_DUMP_GIVEN_UP == (int)MOP_LOAD_GIVEN_UP,
    "the verdicts of loads and dumps");

const char *verdict_words(uint8_t verdict)
{
    static const char *const words[] = {
        [MOP_LOAD_RUNNING] = "running",
        [MOP_LOAD_FINISHED] = "finished",
        [MOP_LOAD_REJECTED] = "rejected",
        [MOP_LOAD_GIVEN_UP] = "given up",
        [MOP_LOAD_UNCONFIRMED] = "unconfirmed",
    };
    return PICK(words, verdict, "unknown");
}

int verdict_status(uint8_t verdict)
{
    static const int statuses[] = {
        [MOP_LOAD_RUNNING] = STATUS_OTHER,
        [MOP_LOAD_FINISHED] = STATUS_FINISHED,
        [MOP_LOAD_REJECTED] = STATUS_REJECTED,
        [MOP_LOAD_GIVEN_UP] = STATUS_GIVEN_UP,
        [MOP_LOAD_UNCONFIRMED] = STATUS_UNCONFIRMED,
    };
    return PICK(statuses, verdict, STATUS_OTHER);
}

const char *ending_words(int status, uint8_t verdict)
{
    switch (status) {
    case STATUS_FINISHED:
        return verdict_words(verdict);
    case STATUS_SILENT:
        return "no machine asked for what is served";
    case STATUS_INTERRUPTED:
        return "interrupted by a signal";
    case STATUS_SHARED:
        return "broken off: another program on this computer sent from the same address";
    case STATUS_RESET:
        return "confirmed, but the machine was reset in the middle of the load";
    default:
        return "broken off by an error";
    }
}

void load_shared_words(FILE *out)
{
    fputs("Broken off: two programs on this computer spoke to the machine from one address. What its memory holds is "
          "not known; end the other program and load again.\n",
        out);
}

void load_reset_words(FILE *out, uint64_t resets, bool perhaps_started, bool restart)
{
    fprintf(out, "It asked for a program again %" PRIu64 " time%s after its first answer: ", resets,
        resets == 1 ? "" : "s");
    if (perhaps_started)
        fputs("it was started and the program asks for another, or it was reset. Look at the machine.\n", out);
    else
        fprintf(out,
            "it was reset in the middle of the load, and the segments before may be gone from its memory. Load it "
            "again.%s\n",
            restart ? "" : " With --restart a load begins again by itself when its machine was reset (see --help).");
}

void load_restarts_words(FILE *out, uint32_t restarts)
{
    fprintf(out,
        "The load began again %" PRIu32 " time%s, because the machine asked again. What is said of its memory counts "
        "from the last time on.\n",
        restarts, restarts == 1 ? "" : "s");
}

void dump_shared_words(FILE *out)
{
    fputs("Two programs on this computer spoke to the machine from one address: what came may not be its memory as it "
          "was. End the other program and dump again.\n",
        out);
}

void dump_offers_words(FILE *out, uint64_t offers)
{
    fprintf(out,
        "It offered again %" PRIu64 " time%s during the dump: if it was restarted, the file mixes two memories; dump "
        "again and compare (--twice).\n",
        offers, offers == 1 ? "" : "s");
}

/* ---- Loads ----------------------------------------------------------- */

/* Whether a machine of the version that --protocol says stores the parameters in its memory too. The machine's own
 * version cannot be seen from here. */
static bool has_block(const mop_load_settings *s)
{
    return s->with_parameters && s->version == MOP_VERSION_2_1;
}

static void block_words(FILE *out)
{
    fprintf(out,
        "The parameter block of version 2.1 is %d bytes of the machine's memory, from %d below its top on; the top is "
        "the first even address beyond memory.",
        MOP_BLOCK_BYTES, MOP_BLOCK_BELOW_TOP);
}

/* What the machine's memory holds when all segments are confirmed; the parameters are too, or else were sent. */
static void whole_words(FILE *out, bool confirmed)
{
    fprintf(out,
        "%s memory holds the whole image, with the parameter block laid over it if the machine %sis of version 2.1 "
        "(see --protocol). ",
        confirmed ? "Its" : "The machine's", confirmed ? "" : "took the parameters and ");
}

/* Parameters that were sent and not answered. */
static void unanswered_words(FILE *out, uint32_t transfer)
{
    whole_words(out, false);
    fprintf(out,
        "If it took them it keeps them and was started at 0x%08" PRIX32 "; if they were lost, or it rejected or did "
        "not understand them, it was not started.",
        transfer);
}

/* A session that ended before its verdict, by a signal say. */
static void load_open_words(FILE *out, const mop_load *session, const mop_load_settings *s, const mop_image *image)
{
    const uint64_t c = session->position, n = image->segments;
    if (session->waiting) {
        fputs("Not begun: no segment was sent, and the machine's memory is as it was.\n", out);
        return;
    }
    fprintf(out, "Broken off: %" PRIu64 " of %" PRIu64 " segments are confirmed. ", c < n ? c : n, n);
    if (!s->with_parameters)
        fputs("The machine's memory holds those and perhaps the next one; if the machine took the last one it was "
              "started.",
            out);
    else if (c < n)
        fputs("The machine's memory holds those and perhaps the next one, and it was not started: the parameters, "
              "which start it, were not sent.",
            out);
    else
        unanswered_words(out, image->transfer);
    fputs("\n", out);
}

static void load_finished_words(FILE *out, const mop_load_settings *s, const mop_image *image)
{
    fprintf(out, "Finished: the machine confirmed all %" PRIu64 " segments", image->segments);
    if (s->with_parameters) {
        fputs(" and the parameters. ", out);
        whole_words(out, true);
        fprintf(out, "It keeps the %s that it was sent and no others, ",
            has_block(s) ? "names and addresses" : "names, addresses and time");
    } else {
        fputs(". Its memory holds the whole image, ", out);
    }
    fprintf(out, "and it was started at 0x%08" PRIX32 ".\n", image->transfer);
    if (!has_block(s))
        return;
    block_words(out);
    fputs(" It holds the node number (the target address, with zeros for bytes that were not sent) and both names (of "
          "one that was empty or not sent two zeros, and four bytes as they were). Where the image has bytes there a "
          "dump may differ from the image file, and that is no error.\n",
        out);
}

/* At position n it was the parameters that it answered. */
static void load_rejected_words(FILE *out, const mop_load_settings *s, uint64_t c, uint64_t n)
{
    if (c < n) {
        fprintf(out, "Rejected: the machine answered segment %" PRIu64 " of %" PRIu64 " with an error. ", c + 1, n);
        if (c == 0)
            fputs("Its memory is as it was", out);
        else
            fprintf(out, "Its memory holds the %" PRIu64 " segment%s before", c, c == 1 ? "" : "s");
        fputs(", and it was not started. (A boot ROM that calls a repeated segment an error has taken that segment "
              "too: docs/FIELD-NOTES.md.)\n",
            out);
        return;
    }
    fprintf(out,
        "Rejected: the machine answered the parameters with an error. Its memory holds the whole image, all "
        "%" PRIu64 " segments, and it was not started.\n",
        n);
    if (!has_block(s))
        return;
    block_words(out);
    fputs(" A machine rejects parameters whose block touches addresses that it keeps for itself, such as a boot ROM.\n",
        out);
}

static void load_given_up_words(FILE *out, uint64_t c, uint64_t n, bool parameters)
{
    fprintf(out,
        "Given up: the machine confirmed %" PRIu64 " of %" PRIu64 " segments and then fell silent. Its memory holds "
        "those and perhaps the %s one, and it was not started%s.\n",
        c, n, c + 1 == n ? "last" : "next", parameters ? ": the parameters, which start it, were not sent" : "");
}

static void load_unconfirmed_words(FILE *out, const mop_load_settings *s, uint64_t c, const mop_image *image)
{
    if (s->with_parameters) {
        fprintf(out, "Unconfirmed: all %" PRIu64 " segments are confirmed, the parameters are not. ", image->segments);
        unanswered_words(out, image->transfer);
        fputs(" A boot ROM may start the program without an answer, and a machine of another version than --protocol "
              "says may leave the parameters unanswered: look at the machine.\n",
            out);
        return;
    }
    fprintf(out,
        "Unconfirmed: %" PRIu64 " of %" PRIu64 " segments are confirmed, all but the last. If the machine took the "
        "last one its memory holds the whole image and it was started at 0x%08" PRIX32 "; if that was lost or rejected "
        "its memory holds the others and it was not started. Many boot ROMs never answer the last segment: look at "
        "the machine.\n",
        c, image->segments, image->transfer);
}

/* What the link's theorem says of a load that ended without the machine's last word: of a reset that the host has not
 * heard of there is only a claim where it may begin again. */
static void unheard_words(FILE *out, bool restart)
{
    fputs(restart
              ? "If it was reset and this host did not hear of it, its memory is as the reset left it, and it was not "
                "started.\n"
              : "Of a machine that was reset in the meantime nothing is known.\n",
        out);
}

void load_doubted_words(FILE *out, const mop_load *session, const mop_load_settings *settings, const mop_image *image)
{
    static const char *const heads[] = {
        [MOP_LOAD_RUNNING] = "Broken off",
        [MOP_LOAD_FINISHED] = "Finished",
        [MOP_LOAD_REJECTED] = "Rejected",
        [MOP_LOAD_GIVEN_UP] = "Given up",
        [MOP_LOAD_UNCONFIRMED] = "Unconfirmed",
    };
    const uint64_t c = session->position, n = image->segments;
    fprintf(out,
        "%s, and what the machine's memory holds is not known. It confirmed %" PRIu64 " of %" PRIu64 " segments",
        PICK(heads, session->verdict, "Broken off"), c < n ? c : n, n);
    fputs(settings->with_parameters && c > n ? " and the parameters.\n" : ".\n", out);
}

void load_words(FILE *out, const mop_load *session, const mop_load_settings *settings, const mop_image *image)
{
    switch (session->verdict) {
    case MOP_LOAD_FINISHED:
        load_finished_words(out, settings, image);
        break;
    case MOP_LOAD_REJECTED:
        load_rejected_words(out, settings, session->position, image->segments);
        break;
    case MOP_LOAD_GIVEN_UP:
        load_given_up_words(out, session->position, image->segments, settings->with_parameters);
        break;
    case MOP_LOAD_UNCONFIRMED:
        load_unconfirmed_words(out, settings, session->position, image);
        break;
    default:
        load_open_words(out, session, settings, image);
    }
    if (session->verdict != MOP_LOAD_FINISHED && session->verdict != MOP_LOAD_REJECTED && !session->waiting)
        unheard_words(out, settings->restart);
}

/* ---- Loads that are not over ----------------------------------------- */

void load_state_words(FILE *out, const mop_load *session, const mop_image *image, bool reset)
{
    const uint64_t c = session->position, n = image->segments;
    if (session->waiting)
        fputs("waiting: no load has begun, no segment was sent", out);
    else if (c < n)
        fprintf(out, "running: the first %" PRIu64 " or %" PRIu64 " of %" PRIu64 " segments are in", c, c + 1, n);
    else
        fprintf(out, "running: all %" PRIu64 " segments are in, the parameters may be", n);
    if (reset)
        fputs(", unless the machine was reset: it asked again", out);
}

void load_later_words(FILE *out, const mop_load *session, const mop_load_settings *settings, const mop_image *image)
{
    if (session->waiting) {
        fputs("This was so when it was written; a load may have begun since.\n", out);
        return;
    }
    fputs("This was so when it was written; more may be in by now. Of a machine that was reset unheard, before or "
          "since, nothing is known.\n",
        out);
    if (settings->with_parameters)
        fprintf(out,
            "When the machine has all %" PRIu64 " segments and takes the parameters it is started at 0x%08" PRIX32
            ", and not before. One of version 2.1 then lays the parameter block over the image (see --protocol).\n",
            image->segments, image->transfer);
    else
        fprintf(out,
            "When the machine has all %" PRIu64 " segments it is started at 0x%08" PRIX32 ", and not before.\n",
            image->segments, image->transfer);
}

/* ---- Dumps ----------------------------------------------------------- */

void dump_words(FILE *out, const mop_dump *session, const mop_dump_settings *settings, bool alone)
{
    switch (session->verdict) {
    case MOP_DUMP_FINISHED:
        fprintf(out,
            "Finished: the machine sent all %" PRIu64 " bytes of its memory from 0x%08" PRIX32 " on; those beyond the "
            "end of its memory are 0.",
            settings->length, settings->address);
        break;
    case MOP_DUMP_GIVEN_UP:
        fprintf(out, "Given up: the machine sent %" PRIu64 " of %" PRIu64 " bytes and then fell silent.",
            session->filled, settings->length);
        break;
    default:
        fprintf(out, "%s: %" PRIu64 " of %" PRIu64 " bytes had come.", session->waiting ? "Not begun" : "Broken off",
            session->filled, settings->length);
    }
    fputs(alone ? " The machine's memory is as it was.\n" : "\n", out);
}

/* ---- Counts ---------------------------------------------------------- */

/* 0 if nothing was counted, and otherwise no less than any count. */
static uint64_t bound_of(const mop_counts *c)
{
    return c->starts | c->advances | c->ignored | c->rejections;
}

/* How many of the frames counted, one at least, moved nothing: in tenths of a percent, rounded. Counts so large that a
 * sum or a product might not fit go without their last 12 bits. */
static uint64_t share_of_ignored(const mop_counts *c)
{
    const int less = bound_of(c) >> 52 == 0 ? 0 : 12;
    const uint64_t ignored = c->ignored >> less;
    const uint64_t all = (c->starts >> less) + (c->advances >> less) + ignored + (c->rejections >> less);
    return (1000 * ignored + all / 2) / all;
}

void counts_words(FILE *out, const char *job, uint64_t sent, uint64_t repeats, const mop_counts *counts)
{
    fprintf(out, "Frames sent by the session: %" PRIu64 ", repeats among them: %" PRIu64 ".\n", sent, repeats);
    if (bound_of(counts) == 0) {
        fputs("Frames counted: none.\n", out);
        return;
    }
    const uint64_t share = share_of_ignored(counts);
    fprintf(out,
        "Frames counted: %" PRIu64 " started the %s, %" PRIu64 " moved it on, %" PRIu64 " moved nothing (%" PRIu64
        ".%" PRIu64 " %% of all), %" PRIu64 " rejected it.\n",
        counts->starts, job, counts->advances, counts->ignored, share / 10, share % 10, counts->rejections);
}

void counts_help(FILE *out)
{
    fputs("THE LINE\n"
          "  The end of the output tells how the line was: compare it with that of like\n"
          "  runs over other cables. A repeat was sent because no answer came in the time\n"
          "  of --timer: the frame or its answer was lost, or the answer was late. (When\n"
          "  a session ends in silence, R repeats are those of its last frame.) What was\n"
          "  lost shows in no other number.\n"
          "\n"
          "  Counted are the frames that could be read and came to this host alone from\n"
          "  the machine, from the one that began the session on until its end. One that\n"
          "  moved nothing (ignored, in a dump's record) was late, came twice, or was of\n"
          "  no use, such as a request or an offer made again. The answer to a repeat\n"
          "  that was not needed is one of them. A request that began a load again\n"
          "  (mopload --restart) counts as one that started it. So:\n"
          "\n"
          "    repeats  moved nothing\n"
          "    many     few            frames are lost: suspect the cable and its plugs\n"
          "    many     as many        answers are late: give a longer --timer\n"
          "    few      many           frames come twice, or the machine sends unasked\n"
          "\n"
          "  A boot ROM may call a repeated segment an error: then a load that is rejected\n"
          "  after a repeat has lost an answer too.\n"
          "\n",
        out);
}
