/* mopload: loads a program into a machine that asks for one. Every decision
 * of the protocol is the library's; this program only carries frames. */
#include <inttypes.h>
#include <stdlib.h>
#include <string.h>

#include "listing.h"
#include "loading.h"
#include "words.h"

#define SEGMENT_REST (MOP_FRAME_MOST - MOP_SEGMENT_MOST) /* what code 0 has beside the data */

enum { OPTION_ACCEPT = OPTION_JOB, OPTION_PROTOCOL, OPTION_RESTART, OPTION_RECORD, OPTION_PARAMETERS };

/* ---- The load as the host runs it ------------------------------------ */

/* The same request for an operating system. */
static void rewrite(line_frame *frame, const mop_fields *request)
{
    line_frame old = *frame;
    mop_written written = mop_write_request_program(request->device, request->format, MOP_PROGRAM_SYSTEM, request->form,
        old.bytes + request->id_at, request->id_length, request->processor, old.bytes + request->data_at,
        request->data_length, frame->bytes, sizeof frame->bytes);
    frame->length = written.length;
}

static void tell_unserved(loading *l, const line_frame *frame, uint8_t type)
{
    char from[ADDRESS_TEXT];
    if (l->unserved[type])
        return;
    l->unserved[type] = true;
    words_bar_end();
    printf("%s asks for a %s (type %d), which is not served; --accept-type %d would serve it.\n",
        address_text(frame->from, from), program_words(type), type, type);
    fflush(stdout);
}

/* A machine that has answered and asks again was reset; at the last frame, it
 * may also be the program that asks. */
static void tell_reset(loading *l, const line_frame *frame)
{
    char from[ADDRESS_TEXT];
    bool early = l->session.position + 1 < loading_frames(l);
    bool said = early ? l->early : l->resets > 0;
    l->resets += 1;
    l->early |= early;
    if (said)
        return;
    words_bar_end();
    printf("%s asks for a program again: it was reset ", address_text(frame->from, from));
    if (early)
        puts("in the middle of the load.");
    else
        printf("before it answered the %s, or was started and asks for more.\n",
            l->parameters.given ? "parameters" : "last segment");
    fflush(stdout);
}

static void note_request(request *r, const line_frame *frame, const mop_fields *fields)
{
    r->fields = *fields;
    if (fields->id_length > 0)
        memcpy(r->id, frame->bytes + fields->id_at, fields->id_length);
}

/* A request of the accepted type becomes one of type 2; show says so when it is
 * served, also where it begins the load again. */
static void before(void *job, line_frame *frame)
{
    loading *l = job;
    mop_fields request = mop_read(l->settings.version, frame->bytes, frame->length);
    if (request.refusal != MOP_ACCEPTED || request.code != MOP_CODE_REQUEST_PROGRAM)
        return;
    const bool again = l->session.position > 0;
    if (again)
        tell_reset(l, frame);
    if (again && !l->settings.restart)
        return;
    if (request.program != MOP_PROGRAM_SYSTEM && request.program != l->accept) {
        tell_unserved(l, frame, request.program);
        return;
    }
    if (l->session.waiting || again)
        note_request(&l->asked, frame, &request);
    if (request.program != MOP_PROGRAM_SYSTEM)
        rewrite(frame, &request);
}

/* The first step is the one that begins the load: from then on the parameters
 * stay the same. From a restart on nothing is known of the machine's memory but
 * what is sent anew. The record tells of a frame before it is sent. */
static mop_written step(
    void *job, bool timer, const uint8_t *frame, size_t frame_length, uint8_t *reply, size_t reply_length)
{
    loading *l = job;
    const parameters *p = &l->parameters;
    const uint32_t restarts = l->session.restarts;
    if (l->session.waiting)
        parameters_now(&l->parameters);
    mop_written written = timer ? mop_load_update_timer(l->settings, &l->session, l->file.bytes, l->file.length,
                                      p->bytes, p->length, reply, reply_length)
                                : mop_load_update_frame(l->settings, &l->session, l->file.bytes, l->file.length,
                                      p->bytes, p->length, frame, frame_length, reply, reply_length);
    if (l->session.restarts != restarts) {
        l->resets = 0;
        l->early = false;
    }
    loading_record_step(l);
    return written;
}

static bool begins(const void *job, const line_frame *frame)
{
    const loading *l = job;
    uint8_t reply[MOP_FRAME_MOST];
    mop_load trial = mop_load_start();
    mop_load_update_frame(l->settings, &trial, l->file.bytes, l->file.length, l->parameters.bytes, l->parameters.length,
        frame->bytes, frame->length, reply, sizeof reply);
    return trial.waiting == 0;
}

static host_stage stage(const void *job)
{
    const mop_load *session = &((const loading *)job)->session;
    return host_stage_of(session->waiting, session->verdict, session->position);
}

static void tell_type(const loading *l)
{
    const uint8_t type = l->asked.fields.program;
    if (type == MOP_PROGRAM_SYSTEM)
        return;
    char from[ADDRESS_TEXT];
    printf("%s asks for a %s (type %d): its request goes to the library as type %d (--accept-type %d).\n",
        address_text(l->host->machine, from), program_words(type), type, MOP_PROGRAM_SYSTEM, type);
}

static void tell_begun(const loading *l)
{
    tell_type(l);
    fputs("Loading ", stdout);
    loading_machine(l, stdout);
    fputs(": ", stdout);
    plain_words(stdout, l->path);
    printf(", %" PRIu64 " segment%s of up to %" PRIu32 " byte%s.\n", l->image.segments,
        l->image.segments == 1 ? "" : "s", l->settings.segment_size, l->settings.segment_size == 1 ? "" : "s");
    if (l->parameters.given) {
        fputs(
            l->settings.version == MOP_VERSION_2_1 ? "Ends with parameters of version 2.1: " : "Ends with parameters: ",
            stdout);
        parameters_words(stdout, l->parameters.values, l->parameters.named);
        puts(".");
    }
    fflush(stdout);
}

static void tell_restart(loading *l)
{
    l->restarts = l->session.restarts;
    words_bar_end();
    tell_type(l);
    printf("The load begins again with its first segment (restart %" PRIu32 ").\n", l->restarts);
    fflush(stdout);
}

static void show(void *job)
{
    loading *l = job;
    if (!l->begun && !l->session.waiting) {
        tell_begun(l);
        l->begun = true;
    }
    if (l->restarts != l->session.restarts)
        tell_restart(l);
    if (!l->begun)
        return;
    loading_record_step(l); /* a request to all hosts is no step, and tells of a reset too */
    progress_show(&l->progress, l->session.position, loading_repeats(l));
}

static const host_job calls = {before, step, begins, stage, show};

/* ---- The command line ------------------------------------------------ */

static const char manual[] = "NAME\n"
                             "  mopload - load a program into a machine by MOP over Ethernet\n"
                             "\n"
                             "SYNOPSIS\n"
                             "  mopload -i INTERFACE [--machine ADDRESS] [-S N] [-R N] [--timer MS]\n"
                             "          [--restart] [--accept-type N] [--protocol 2.1|3.0]\n"
                             "          [--target-name TEXT] [--target-address ADDRESS]\n"
                             "          [--host-name TEXT] [--host-address ADDRESS] [--time TIME]\n"
                             "          [--parameters] [--record FILE] [--wait S] [--trace FILE] IMAGE\n"
                             "\n"
                             "DESCRIPTION\n"
                             "  Waits for a machine to ask for a program, loads the image file IMAGE into\n"
                             "  it and starts it. A request to all hosts is answered with an offer of\n"
                             "  assistance (code 3); the machine then asks this host. The first machine\n"
                             "  that does so is served, and then the program ends. mopimage makes images.\n"
                             "  The last lines tell what the machine's memory holds, and what it keeps of\n"
                             "  the parameters. A machine rejects a segment that ends beyond its memory or\n"
                             "  touches addresses that it keeps for itself, such as a boot ROM; then they\n"
                             "  tell the segment's addresses, and its region as mopimage --list counts them.\n"
                             "\n"
                             "  One host loads a machine at a time. A second mopload, mopdump or moploop\n"
                             "  on the interface is refused. If any other program on this computer sends MOP\n"
                             "  frames from the same address the load is broken off.\n"
                             "\n"
                             "OPTIONS\n"
                             "  --machine ADDRESS\n"
                             "        Serve this machine alone, for example 08-00-2B-AA-BB-CC.\n"
                             "  -S N, --segment N\n"
                             "        Bytes of a segment, 1 to 1488. Default 512.\n"
                             "  -R N, --repeats N\n"
                             "        Repeats allowed for each frame, 0 to 255. Default 4. Where the line\n"
                             "        loses and doubles the same frames, a larger R changes only a load\n"
                             "        that would be given up or end unconfirmed: one that is finished or\n"
                             "        rejected is the same, frame for frame. It costs waiting: R + 1 times\n"
                             "        --timer for a machine that no longer answers.\n"
                             "  --restart\n"
                             "        Begin the load again when the machine asks for a program half-way,\n"
                             "        because it was reset; without it such a load is given up or ends\n"
                             "        unconfirmed. It must ask within R + 1 times --timer: give a larger -R\n"
                             "        where its own tests take long. The load has then at most 256 frames,\n"
                             "        at least one for each region, and one for the parameters counted: give\n"
                             "        a larger -S where it has more. A time of now stays that of the first\n"
                             "        beginning. A program that asks for another before the host has heard\n"
                             "        that it was started begins the load again too: leave --restart out for\n"
                             "        a loader that does so on a machine that never answers the last frame.\n"
                             "  --record FILE\n"
                             "        Keep a record of the load in FILE, for the next shift and for the\n"
                             "        files: how it stands or ended and what is known of the machine's\n"
                             "        memory, the machine, the settings, the counts, and the image with its\n"
                             "        SHA-256. It is there before the machine is asked, and is replaced as a\n"
                             "        whole when the load begins, at each tenth, at its last frame, where it\n"
                             "        begins again, and at the end; of a program that was killed it tells\n"
                             "        what was known then.\n"
                             "        A record replaces no file. If it cannot be written the load goes on. A\n"
                             "        slow disk holds the load up.\n"
                             "        sha256sum -c FILE, in its directory, checks the image; it warns of the\n"
                             "        record's other lines. mopreport reads the records of a directory.\n"
                             "  --accept-type N\n"
                             "        Serve a machine that asks for a secondary (0) or tertiary (1) loader\n"
                             "        too. Many boot ROMs ask for type 1. The library serves type 2, an\n"
                             "        operating system: the request's type is changed before the library\n"
                             "        sees it, and the program says so.\n"
                             "  --protocol 2.1|3.0\n"
                             "        The version of the protocol that the machine follows; --version 2.1\n"
                             "        means the same. Default 3.0. It matters to the parameters alone:\n"
                             "        under 2.1 names and addresses are shorter, there is no time, and the\n"
                             "        machine stores its address and the names in its memory too, in the\n"
                             "        parameter block: 14 bytes from 64 below the first even address beyond\n"
                             "        memory on, over what the image laid there. A machine of 2.1 that is\n"
                             "        sent what only 3.0 has does not answer it: the load is unconfirmed.\n";

static void help(FILE *out)
{
    fputs(manual, out);
    fputs(parameters_manual, out);
    common_help(out, "a machine's request");
    counts_help(out);
    words_statuses(out, STATUS_FINISHED, STATUS_SHARED);
    words_statuses(out, STATUS_RESET, STATUS_IN_USE);
    fputs("\n"
          "EXAMPLES\n"
          "  mopload -i eth0 --machine 08-00-2B-AA-BB-CC program.img\n"
          "  mopload -i eth0 --machine 08-00-2B-AA-BB-CC --accept-type 1 -R 1 program.img\n"
          "  mopload -i eth0 --machine 08-00-2B-AA-BB-CC --restart -S 1488 \\\n"
          "          --record mill.record program.img\n"
          "  mopload -i eth0 --machine 08-00-2B-AA-BB-CC --protocol 2.1 \\\n"
          "          --target-name MILL --target-address 1.5 program.img\n",
        out);
}

static int option(int c, const char *value, host *h, loading *l)
{
    switch (c) {
    case 'S':
        return option_small("-S", value, 1, MOP_ETHERNET_SEGMENT_MOST, &l->settings.segment_size);
    case OPTION_PROTOCOL:
        return option_protocol(value, &l->settings.version);
    case OPTION_VERSION:
        return manual_version(&h->settings.program, &l->settings.version);
    case OPTION_RESTART:
        h->restart = true;
        l->settings.restart = 1;
        return 0;
    case OPTION_RECORD:
        if (value[0] == '\0')
            return complain(STATUS_USAGE, "--record: the name of the file is empty");
        free(l->record.name);
        l->record.name = strdup(value);
        return l->record.name == NULL ? complain(STATUS_OTHER, "no memory") : 0;
    case OPTION_ACCEPT:
        return option_small("--accept-type", value, MOP_PROGRAM_SECONDARY, MOP_PROGRAM_SYSTEM, &l->accept);
    default:
        if (c >= OPTION_PARAMETERS && c < OPTION_PARAMETERS + PARAMETERS_TYPES)
            return parameters_option(&l->parameters, c - OPTION_PARAMETERS, value);
        return host_option(h, c, value, &l->settings.repeats);
    }
}

static int options(int count, char **words, host *h, loading *l)
{
    static const struct option known[] = {HOST_OPTIONS, {"segment", required_argument, NULL, 'S'},
        {"restart", no_argument, NULL, OPTION_RESTART}, {"accept-type", required_argument, NULL, OPTION_ACCEPT},
        {"protocol", required_argument, NULL, OPTION_PROTOCOL}, {"record", required_argument, NULL, OPTION_RECORD},
        PARAMETERS_OPTIONS(OPTION_PARAMETERS), {NULL, 0, NULL, 0}};
    for (int c = 0; (c = getopt_long(count, words, "i:S:R:h", known, NULL)) != -1;) {
        int status = option(c, optarg, h, l);
        if (status != 0)
            return status;
    }
    if (optind + 1 != count)
        return complain(STATUS_USAGE, "give one image file (see --help)");
    l->path = words[optind];
    l->settings.with_parameters = l->parameters.given;
    return parameters_check(&l->parameters, l->settings.version);
}

/* ---- The run --------------------------------------------------------- */

/* The least segment size that makes few enough frames of the image, 0 if none does. */
static uint32_t restarting_size(const loading *l)
{
    for (uint32_t size = l->settings.segment_size; size <= MOP_ETHERNET_SEGMENT_MOST; size++)
        if (mop_image_check(l->file.bytes, l->file.length, size).segments + l->settings.with_parameters <=
            MOP_RESTARTING_MOST)
            return size;
    return 0;
}

/* What the library would refuse at every step. */
static int check_restart(const loading *l)
{
    if (!l->settings.restart || loading_frames(l) <= MOP_RESTARTING_MOST)
        return 0;
    const uint32_t size = restarting_size(l);
    char way[40] = "";
    if (size > 0)
        snprintf(way, sizeof way, "give -S %" PRIu32 " or more, or ", size);
    return complain(STATUS_USAGE, "--restart is refused (%d): %s, and %s makes %" PRIu64 "; %sleave --restart out",
        MOP_REFUSED_MANY, refusal_words(MOP_REFUSED_MANY), l->path, loading_frames(l), way);
}

static int read_image(loading *l)
{
    int status = file_read(l->path, (size_t)4 * MOP_FILE_MOST, &l->file);
    if (status != 0)
        return status;
    l->image = mop_image_check(l->file.bytes, l->file.length, l->settings.segment_size);
    const char *unmade = l->image.refusal == MOP_REFUSED_FILE ? image_unmade(&l->file) : NULL;
    if (l->image.refusal != 0)
        return complain(STATUS_IMAGE, "%s is refused (%d): %s; %s%s", l->path, l->image.refusal,
            refusal_words(l->image.refusal), unmade == NULL ? "mopimage --check tells more" : "it looks like ",
            unmade == NULL ? "" : unmade);
    progress_start(&l->progress, l->parameters.given ? "frames" : "segments", loading_frames(l));
    return check_restart(l);
}

/* Every frame of the load fits the interface; and the library refuses none of
 * the parameters, which it would otherwise do at every step. */
static int check_room(const host *h, const loading *l)
{
    if (l->settings.segment_size + SEGMENT_REST <= h->line.longest)
        return parameters_try(&l->parameters, l->settings.version, h->line.longest, h->line.name);
    return complain(STATUS_INTERFACE, "%s takes messages of at most %" PRIu32 " bytes: -S is at most %" PRIu32,
        h->line.name, h->line.longest, h->line.longest - SEGMENT_REST);
}

/* What the machine's memory holds, how the line was, and the status of it. A record that could not be written matters
 * where all else is good. */
static int conclude(loading *l, int status)
{
    words_bar_end();
    loading_end(l, status, stdout);
    counts_words(stdout, "load", l->session.sent, loading_repeats(l), &l->session.counts);
    const int recorded = loading_record_end(l, status), ended = loading_status(l, status);
    return ended == STATUS_FINISHED ? recorded : ended;
}

static int run(host *h, loading *l)
{
    int status = host_open(h);
    if (status != 0)
        return status;
    status = read_image(l);
    if (status == 0)
        status = check_room(h, l);
    if (status == 0)
        status = loading_record_first(l);
    if (status == 0)
        status = conclude(l, host_run(h));
    host_close(h);
    return status;
}

int main(int count, char **words)
{
    static host h = {.settings = {.timer = 2000, .wait = 600, .program = {.write = help}}, .calls = &calls};
    static loading l = {
        .settings = {.segment_size = 512, .repeats = 4, .version = MOP_VERSION_3_0}, .accept = MOP_PROGRAM_SYSTEM};
    h.settings.program.words = words;
    h.job = &l;
    l.host = &h;
    l.session = mop_load_start();
    words_program("mopload");
    int status = options(count, words, &h, &l);
    if (status == 0)
        status = process_begin();
    if (status == 0)
        status = run(&h, &l);
    free(l.file.bytes);
    free(l.seen);
    free(l.record.name);
    return status;
}
