/* mopdump: brings up a machine's memory and files it. Every decision of the
 * protocol is the library's; this program carries frames and keeps files. */
#include <inttypes.h>
#include <stdlib.h>

#include "dumping.h"
#include "filed.h"
#include "words.h"

#define REPLY_REST (MOP_FRAME_MOST - MOP_DUMP_DATA_MOST) /* what code 14 has beside the data */

enum { OPTION_FROM = OPTION_JOB, OPTION_LENGTH, OPTION_MODE, OPTION_TWICE, OPTION_RESUME, OPTION_VERIFY };

/* ---- The dump as the host runs it ------------------------------------ */

/* 01's machine also offers at each of its timers while it is being dumped: an
 * offer alone does not show that it was restarted. */
static void before(void *job, line_frame *frame)
{
    dumping *d = job;
    mop_fields offer = mop_read(d->range.version, frame->bytes, frame->length);
    if (offer.refusal != MOP_ACCEPTED || offer.code != MOP_CODE_REQUEST_DUMP_SERVICE)
        return;
    if (d->now->session.waiting)
        d->offer = offer;
    if (d->now->session.filled > 0)
        d->now->offers += 1;
}

static void tell_begun(const dumping *d)
{
    char machine[ADDRESS_TEXT];
    printf("Dumping %s, which says it has %" PRIu32 " bytes of memory.\n", address_text(d->host->machine, machine),
        d->offer.memory_size);
    fflush(stdout);
}

static mop_written step(
    void *job, bool timer, const uint8_t *frame, size_t frame_length, uint8_t *reply, size_t reply_length)
{
    dumping *d = job;
    uint8_t *buffer = d->now->bytes + d->before;
    mop_written written =
        timer ? mop_dump_update_timer(d->settings, &d->now->session, buffer, d->settings.length, reply, reply_length)
              : mop_dump_update_frame(d->settings, &d->now->session, frame, frame_length, buffer, d->settings.length,
                    reply, reply_length);
    if (d->begun != d->now && !d->now->session.waiting)
        tell_begun(d);
    filing_step(d);
    return written;
}

/* A step that begins does not write to the buffer. */
static bool begins(const void *job, const line_frame *frame)
{
    const dumping *d = job;
    uint8_t reply[MOP_FRAME_MOST];
    mop_dump trial = mop_dump_start();
    mop_dump_update_frame(d->settings, &trial, frame->bytes, frame->length, d->now->bytes + d->before,
        d->settings.length, reply, sizeof reply);
    return trial.waiting == 0;
}

static host_stage stage(const void *job)
{
    const mop_dump *session = &((const dumping *)job)->now->session;
    return host_stage_of(session->waiting, session->verdict, session->filled);
}

static void after(void *job)
{
    dumping *d = job;
    if (d->now->session.waiting)
        return;
    filing_step(d); /* an offer to all hosts is no step, and is told too */
    progress_show(&d->progress, dumping_came(d, d->now), dumping_repeats(&d->now->session));
}

static const host_job calls = {before, step, begins, stage, after};

/* ---- The command line ------------------------------------------------ */

static const char manual[] = "NAME\n"
                             "  mopdump - file a machine's memory by MOP over Ethernet\n"
                             "\n"
                             "SYNOPSIS\n"
                             "  mopdump -i INTERFACE --from ADDRESS --length N -o FILE [--twice | --resume]\n"
                             "          [--mode MODE] [--machine ADDRESS] [-C N] [-R N] [--timer MS]\n"
                             "          [--wait S] [--trace FILE]\n"
                             "  mopdump --verify FILE\n"
                             "\n"
                             "DESCRIPTION\n"
                             "  Waits for a machine to offer a dump, asks for N bytes of its memory from\n"
                             "  ADDRESS on, and files them in FILE. An offer to all hosts is answered with\n"
                             "  an offer of assistance (code 3); the machine then turns to this host.\n"
                             "\n"
                             "  The bytes go to FILE.part as they come; it is named FILE only when the\n"
                             "  dump is finished and on the disk. If it is not finished there is no FILE,\n"
                             "  and what came stays in FILE.part, however the program ended. FILE.record\n"
                             "  tells in either case what happened: the verdict, the session's numbers and\n"
                             "  counts (THE LINE, below), the range, the dates, the SHA-256 of the file. It\n"
                             "  is there from the beginning, and is replaced as a whole when the dump\n"
                             "  begins, at each tenth, when the machine offers again in the middle, and at\n"
                             "  the end. Of a program that was killed it says how many bytes are in FILE.part\n"
                             "  at least. If nothing came no file is left.\n"
                             "\n"
                             "  sha256sum -c FILE.record, in its directory, checks the file; it warns of the\n"
                             "  record's other lines. mopreport reads the records of a directory.\n"
                             "\n"
                             "  FILE, FILE.part and FILE.record must not be there: a dump replaces no\n"
                             "  file. Room for the whole dump is taken before the machine is asked.\n"
                             "\n"
                             "  One host dumps a machine at a time. A second mopload, mopdump or moploop\n"
                             "  on the interface is refused. If any other program on this computer sends MOP\n"
                             "  frames from the same address the dump is broken off.\n"
                             "\n"
                             "OPTIONS\n"
                             "  --from ADDRESS, --length N\n"
                             "        The range; it ends at address 0xFFFFFFFF or before. Bytes beyond the\n"
                             "        end of the machine's memory come as 0.\n"
                             "  -o FILE, --output FILE\n"
                             "        Where the dump is filed.\n"
                             "  --twice\n"
                             "        Dump the range twice; the machine has to offer a second time. FILE is\n"
                             "        there only if both are equal. If not, FILE.part has the first dump\n"
                             "        and FILE.second.part the second, and it is said where they differ.\n"
                             "  --resume\n"
                             "        Go on from the FILE.part of an earlier run with the same range and\n"
                             "        machine. The record tells at which byte: what the machine changed in\n"
                             "        its memory between the two runs, the dump does not show. If the\n"
                             "        earlier run was killed, or the computer failed, only the bytes are\n"
                             "        kept that its record says are on the disk; what FILE.part has behind\n"
                             "        them, as a rule less than a tenth, is cut off and asked again.\n"
                             "  --verify FILE\n"
                             "        Read FILE, or FILE.part, again and compare its length and SHA-256 with\n"
                             "        what FILE.record tells. No line is opened and no machine asked. The\n"
                             "        record of a dump that is not over, or was killed, has no SHA-256 yet:\n"
                             "        then only the length is looked at, and the status is 16.\n"
                             "  --mode MODE\n"
                             "        The permissions of the files, in octal as for chmod. Default 600: a\n"
                             "        memory may hold what is not for everyone.\n"
                             "  --machine ADDRESS\n"
                             "        Serve this machine alone, for example 08-00-2B-AA-BB-CC.\n"
                             "  -C N, --count N\n"
                             "        Bytes asked for at a time, 1 to 1493. Default 1024.\n"
                             "  -R N, --repeats N\n"
                             "        Repeats allowed for each frame, 0 to 255. Default 16. Where the line\n"
                             "        loses and doubles the same frames, a larger R changes only a dump\n"
                             "        that would be given up: one that is finished is the same, frame for\n"
                             "        frame. It costs waiting: R + 1 times --timer for a machine that no\n"
                             "        longer answers.\n";

static void help(FILE *out)
{
    fputs(manual, out);
    common_help(out, "a machine's offer");
    counts_help(out);
    words_statuses(out, STATUS_FINISHED, STATUS_OTHER);
    words_statuses(out, STATUS_GIVEN_UP, STATUS_GIVEN_UP);
    words_statuses(out, STATUS_SILENT, STATUS_DIFFERENT);
    words_statuses(out, STATUS_USAGE, STATUS_PERMISSION);
    words_statuses(out, STATUS_FILE, STATUS_MISMATCH);
    fputs("      (also where --verify finds no SHA-256 to compare)\n"
          "\n"
          "EXAMPLES\n"
          "  mopdump -i eth0 --machine 08-00-2B-AA-BB-CC --from 0 --length 0x40000 \\\n"
          "          -o pdp11.dump\n"
          "  mopdump --verify pdp11.dump\n",
        out);
}

static int option(int c, const char *value, host *h, dumping *d)
{
    switch (c) {
    case 'o':
        d->path = value;
        return 0;
    case 'C':
        return option_small("-C", value, 1, MOP_ETHERNET_DUMP_DATA_MOST, &d->range.request_bytes);
    case OPTION_FROM:
        d->from = true;
        return option_small("--from", value, 0, UINT32_MAX, &d->range.address);
    case OPTION_LENGTH:
        return option_number("--length", value, 1, (uint64_t)UINT32_MAX + 1, &d->range.length);
    case OPTION_MODE:
        return option_mode("--mode", value, &d->mode);
    case OPTION_TWICE:
        d->twice = true;
        return 0;
    case OPTION_RESUME:
        d->resume = true;
        return 0;
    case OPTION_VERIFY:
        d->verify = value;
        return 0;
    default:
        return host_option(h, c, value, &d->range.repeats);
    }
}

static int check_options(const host *h, const dumping *d)
{
    if (d->verify != NULL && (d->path != NULL || d->from || h->settings.line.interface != NULL))
        return complain(STATUS_USAGE, "--verify FILE stands alone: no line is opened (see --help)");
    if (d->verify != NULL)
        return 0;
    if (!d->from || d->range.length == 0 || d->path == NULL || d->path[0] == '\0')
        return complain(STATUS_USAGE, "give --from ADDRESS, --length N and -o FILE (see --help)");
    if (d->twice && d->resume)
        return complain(STATUS_USAGE, "--twice begins anew: it does not go with --resume");
    if (d->range.address + d->range.length > (uint64_t)UINT32_MAX + 1)
        return complain(STATUS_USAGE, "the range ends above address 0xFFFFFFFF");
    return 0;
}

static int options(int count, char **words, host *h, dumping *d)
{
    static const struct option known[] = {HOST_OPTIONS, {"output", required_argument, NULL, 'o'},
        {"count", required_argument, NULL, 'C'}, {"from", required_argument, NULL, OPTION_FROM},
        {"length", required_argument, NULL, OPTION_LENGTH}, {"mode", required_argument, NULL, OPTION_MODE},
        {"twice", no_argument, NULL, OPTION_TWICE}, {"resume", no_argument, NULL, OPTION_RESUME},
        {"verify", required_argument, NULL, OPTION_VERIFY}, {NULL, 0, NULL, 0}};
    for (int c = 0; (c = getopt_long(count, words, "i:o:C:R:h", known, NULL)) != -1;) {
        int status = option(c, optarg, h, d);
        if (status != 0)
            return status;
    }
    if (optind != count)
        return complain(STATUS_USAGE, "'%s' is too much (see --help)", words[optind]);
    return check_options(h, d);
}

/* ---- The run --------------------------------------------------------- */

static int check_room(const host *h, const dumping *d)
{
    if (d->range.request_bytes + REPLY_REST <= h->line.longest)
        return 0;
    return complain(STATUS_INTERFACE, "%s takes messages of at most %" PRIu32 " bytes: -C is at most %" PRIu32,
        h->line.name, h->line.longest, h->line.longest - REPLY_REST);
}

/* One session, or two. */
static int sessions(host *h, dumping *d)
{
    if (d->settings.length == 0) {
        inform("%s is whole: the machine is not asked.", d->copies[0].part.name);
        return 0;
    }
    if (d->before > 0)
        printf("Going on at byte %" PRIu64 " of %" PRIu64 ".\n", d->before, d->range.length);
    int status = host_run(h);
    if (status != 0 || !d->twice || d->now->session.verdict != MOP_DUMP_FINISHED)
        return status;
    words_bar_end();
    dumping_counts(d->now, stdout);
    printf("Dumped once. Now have the machine offer its memory the second time.\n");
    d->now = &d->copies[1];
    progress_start(&d->progress, "bytes", d->range.length);
    return host_run(h);
}

static int run(host *h, dumping *d)
{
    int status = host_open(h);
    if (status != 0)
        return status;
    status = check_room(h, d);
    if (status == 0)
        status = filing_prepare(d);
    if (status == 0)
        status = filing_conclude(d, sessions(h, d));
    host_close(h);
    return status;
}

int main(int count, char **words)
{
    static host h = {.settings = {.timer = 2000, .wait = 600, .program = {.write = help}}, .calls = &calls};
    /* A dump is alike under both versions. */
    static dumping d = {.range = {.request_bytes = 1024, .repeats = 16, .version = MOP_VERSION_3_0}, .mode = 0600};
    h.settings.program.words = words;
    h.job = &d;
    d.host = &h;
    d.now = &d.copies[0];
    d.copies[0].part.fd = d.copies[1].part.fd = -1;
    words_program("mopdump");
    int status = options(count, words, &h, &d);
    if (status == 0 && d.verify != NULL)
        status = filed_verify(d.verify);
    else if (status == 0 && (status = process_begin()) == 0)
        status = run(&h, &d);
    for (size_t i = 0; i < 2; i++) {
        part_close(&d.copies[i].part);
        free(d.copies[i].bytes);
    }
    free(d.earlier);
    free(d.record.name);
    return status;
}
