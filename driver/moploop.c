/* moploop: has a machine send data back, to test the line and both its ends.
 * Every decision of the protocol is the library's; this program carries frames
 * and takes the time. */
#include <errno.h>
#include <inttypes.h>
#include <stdlib.h>
#include <string.h>
#include <time.h>

#include "line.h"
#include "lock.h"
#include "mop.h"
#include "options.h"
#include "words.h"

#define LOOP_REST (MOP_FRAME_MOST - MOP_LOOP_DATA_MOST) /* what code 24 has beside the data */
#define VERDICTS (MOP_LOOP_GIVEN_UP + 1)

enum { OPTION_MACHINE = OPTION_OWN, OPTION_LENGTH, OPTION_COUNT, OPTION_INTERVAL };

typedef struct looping {
    common_settings common;
    uint8_t machine[ADDRESS_LENGTH];
    bool named;
    mop_loop_settings settings;
    mop_loop session; /* the one under way, or the last */
    uint8_t data[MOP_ETHERNET_LOOP_DATA_MOST];
    uint32_t length;   /* bytes of it that are sent */
    uint32_t count;    /* sessions in all */
    uint32_t interval; /* milliseconds between two */
    uint16_t first;    /* the receipt number before the first session's */
    uint32_t begun;
    uint32_t ended[VERDICTS];
    int64_t *times; /* of the sessions that came back without a repeat, in nanoseconds */
    size_t timed;
    uint64_t sent;     /* frames; the first of each session is no repeat */
    uint64_t received; /* frames, from the machine alone; one for each session that came back */
    uint64_t asked;    /* not among them: its requests and offers to all hosts */
    int64_t sent_at;   /* when the last frame was, in nanoseconds */
    int64_t due;       /* when the timer runs out, or the next session begins */
    line line;
} looping;

/* A clock that never goes back. */
static int64_t nanoseconds(void)
{
    struct timespec t;
    clock_gettime(CLOCK_MONOTONIC, &t);
    return (int64_t)t.tv_sec * 1000000000 + t.tv_nsec;
}

/* Milliseconds with three decimals. */
static void put_milliseconds(int64_t time)
{
    const int64_t microseconds = (time + 500) / 1000;
    printf("%" PRId64 ".%03d ms", microseconds / 1000, (int)(microseconds % 1000));
}

/* ---- A session ------------------------------------------------------- */

/* The session's verdict, and the time that it took. After a repeat it is not known which frame was answered. */
static int tell_ended(const looping *l, int64_t time)
{
    static const char *const words[VERDICTS] = {
        [MOP_LOOP_LOOPED] = "looped",
        [MOP_LOOP_PLUG] = "looped by a plug (code 24 came back)",
        [MOP_LOOP_GIVEN_UP] = "given up",
    };
    const uint32_t repeats = l->session.repeats;
    const bool back = l->session.verdict != MOP_LOOP_GIVEN_UP;
    printf("%" PRIu32 ": %s", l->begun, words[l->session.verdict]);
    if (repeats > 0)
        printf(", after %" PRIu32 " repeat%s", repeats, repeats == 1 ? "" : "s");
    if (back) {
        fputs(repeats > 0 ? ": " : " in ", stdout);
        put_milliseconds(time);
    }
    puts(back && repeats > 0 ? " after the last of them, perhaps to an earlier frame" : "");
    return words_written();
}

static int count_ended(looping *l, int64_t time)
{
    l->ended[l->session.verdict] += 1;
    if (l->session.verdict != MOP_LOOP_GIVEN_UP && l->session.repeats == 0)
        l->times[l->timed++] = time;
    l->due = clock_now() + l->interval;
    return tell_ended(l, time);
}

/* Takes over the record of a step and sends its frame. If one came, it was so many nanoseconds after the last was
 * sent. */
static int carry(looping *l, mop_loop_step step, const uint8_t *reply, int64_t elapsed)
{
    if (mop_refused_frame(step.answer.refusal))
        return 0;
    if (step.answer.refusal != MOP_ACCEPTED)
        return complain(STATUS_OTHER, "the step is refused: %s", refusal_words(step.answer.refusal));
    l->session = step.session;
    const int status = l->session.verdict == MOP_LOOP_OPEN ? 0 : count_ended(l, elapsed);
    if (status != 0 || step.answer.length == 0)
        return status;
    l->sent += 1;
    l->due = clock_now() + l->common.timer;
    l->sent_at = nanoseconds();
    return line_send(&l->line, l->machine, reply, step.answer.length);
}

/* The session's number, and then bytes with no order to the eye that are others in each session. */
static void fill(looping *l)
{
    uint64_t state = l->begun;
    for (size_t i = 0; i < l->length; i++) {
        state = state * 6364136223846793005U + 1442695040888963407U;
        l->data[i] = (uint8_t)(i < sizeof l->begun ? l->begun >> 8 * i : state >> 56);
    }
}

static int begin(looping *l)
{
    uint8_t reply[MOP_FRAME_MOST];
    l->begun += 1;
    l->settings.receipt = (uint16_t)(l->first + l->begun);
    fill(l);
    return carry(l, mop_loop_start(l->settings, l->data, l->length, reply, sizeof reply), reply, 0);
}

/* ---- The tests as the line runs them --------------------------------- */

static bool over(const void *end)
{
    const looping *l = end;
    return l->begun == l->count && l->session.verdict != MOP_LOOP_OPEN;
}

static int64_t due(const void *end)
{
    return ((const looping *)end)->due;
}

/* Whether the machine asks all hosts, also by a form that is not served. */
static bool asks(const line_frame *frame)
{
    return frame->multicast && frame->length > 0 &&
           (frame->bytes[0] == MOP_CODE_REQUEST_PROGRAM || frame->bytes[0] == MOP_CODE_REQUEST_DUMP_SERVICE);
}

static int on_frame(void *end, line_frame *frame)
{
    looping *l = end;
    const int64_t elapsed = nanoseconds() - l->sent_at;
    uint8_t reply[MOP_FRAME_MOST];
    if (memcmp(frame->from, l->machine, ADDRESS_LENGTH) != 0)
        return 0;
    *(asks(frame) ? &l->asked : &l->received) += 1;
    if (frame->multicast || l->session.verdict != MOP_LOOP_OPEN)
        return 0; /* no answer, or between two sessions */
    return carry(l,
        mop_loop_frame(l->settings, l->session, l->data, l->length, frame->bytes, frame->length, reply, sizeof reply),
        reply, elapsed);
}

/* The session's timer, or the beginning of the next. */
static int on_timer(void *end)
{
    looping *l = end;
    uint8_t reply[MOP_FRAME_MOST];
    if (l->session.verdict != MOP_LOOP_OPEN)
        return begin(l);
    return carry(l, mop_loop_timer(l->settings, l->session, l->data, l->length, reply, sizeof reply), reply, 0);
}

/* ---- The summary ----------------------------------------------------- */

static int compare(const void *a, const void *b)
{
    const int64_t one = *(const int64_t *)a, other = *(const int64_t *)b;
    return one < other ? -1 : one > other;
}

/* Of an even number of times the median is the mean of the two in the middle. */
static void tell_times(looping *l)
{
    const size_t n = l->timed;
    if (n == 0)
        return;
    qsort(l->times, n, sizeof l->times[0], compare);
    printf("Of %zu test%s without a repeat, from the frame sent to the answer: least ", n, n == 1 ? "" : "s");
    put_milliseconds(l->times[0]);
    fputs(", median ", stdout);
    put_milliseconds((l->times[(n - 1) / 2] + l->times[n / 2]) / 2);
    fputs(", greatest ", stdout);
    put_milliseconds(l->times[n - 1]);
    puts(".");
}

/* Why nothing came back from the machine, as far as it is known. */
static void tell_silence(const looping *l)
{
    const uint32_t *ended = l->ended;
    if (ended[MOP_LOOP_PLUG] > 0 && ended[MOP_LOOP_LOOPED] == 0)
        puts("All that came back was turned round by a plug: the machine itself was not reached.");
    if (ended[MOP_LOOP_GIVEN_UP] > 0 && l->asked > 0)
        printf("The machine is heard: requests for a program and offers of a dump to all hosts: %" PRIu64
               ". It does not loop while it asks for a program or offers a dump.\n",
            l->asked);
    else if (ended[MOP_LOOP_GIVEN_UP] > 0 && l->received == 0)
        puts("The machine sent nothing: it is off, not on this line, or does not loop as it is now (see --help).");
}

static int conclude(looping *l, int status)
{
    const uint32_t *ended = l->ended;
    const uint32_t back = ended[MOP_LOOP_LOOPED] + ended[MOP_LOOP_PLUG], all = back + ended[MOP_LOOP_GIVEN_UP];
    printf("Loop tests over: %" PRIu32 " of %" PRIu32 ". Looped: %" PRIu32 ", looped by a plug: %" PRIu32
           ", given up: %" PRIu32 ".\n",
        all, l->count, ended[MOP_LOOP_LOOPED], ended[MOP_LOOP_PLUG], ended[MOP_LOOP_GIVEN_UP]);
    printf("Frames sent: %" PRIu64 ", repeats among them: %" PRIu64
           ". Frames from the machine that ended no test: %" PRIu64 ".\n",
        l->sent, l->sent - l->begun, l->received - back);
    tell_times(l);
    line_tell(&l->line);
    tell_silence(l);
    if (status == 0)
        status = words_written();
    return status == 0 && ended[MOP_LOOP_GIVEN_UP] > 0 ? STATUS_GIVEN_UP : status;
}

/* ---- The command line ------------------------------------------------ */

static const char manual[] = "NAME\n"
                             "  moploop - test the line to a machine by MOP loop data\n"
                             "\n"
                             "SYNOPSIS\n"
                             "  moploop -i INTERFACE --machine ADDRESS [--length N] [--count N] [-R N]\n"
                             "          [--timer MS] [--interval MS] [--trace FILE]\n"
                             "\n"
                             "DESCRIPTION\n"
                             "  Sends the machine data (type 60-01, code 24), waits until it sends the same\n"
                             "  data back (code 26), and does so a number of times, each time with a new\n"
                             "  receipt number and other data. For each test a line tells the verdict and the\n"
                             "  time from the frame that was sent last to the answer, as this program saw\n"
                             "  them: this computer's own delays are in it. After a repeat the answer may be\n"
                             "  that of an earlier frame: such tests are left out of the least, the median\n"
                             "  and the greatest time at the end. A verdict is one of:\n"
                             "\n"
                             "    looped            the data came back from the machine, every byte the same\n"
                             "    looped by a plug  the frame itself came back (code 24): something before\n"
                             "                      the machine turns frames round\n"
                             "    given up          the data did not come back\n"
                             "\n"
                             "  It tests the line in both directions and the machine's interface. A machine\n"
                             "  by the protocol loops while it is idle, and only then: not while it asks for\n"
                             "  a program, offers a dump, is loaded, or runs what was loaded. mopmachine\n"
                             "  --idle is such a machine, for rehearsals. DEC's version 3.0.0 keeps codes 24\n"
                             "  and 26 for lines between two machines, and has another test for Ethernet\n"
                             "  (type 90-00), which this is not: that is the one that the DEQNA's boot ROM\n"
                             "  answers. So a silent machine is no proof of a bad line. If it asked all\n"
                             "  hosts for a program or offered them a dump, the summary tells so: then the\n"
                             "  line from it to here works. mopwatch shows whether the machine is heard at\n"
                             "  all.\n"
                             "\n"
                             "  A plug is seen only if the frame comes back from the machine's address to\n"
                             "  this computer: with the two addresses exchanged, as some test equipment does.\n"
                             "\n"
                             "  One host program runs at a time on an interface, since moploop's frames\n"
                             "  would break off a load: a second one is refused.\n"
                             "\n"
                             "OPTIONS\n"
                             "  --machine ADDRESS\n"
                             "        The machine's address, for example 08-00-2B-AA-BB-CC.\n"
                             "  --length N\n"
                             "        Bytes of data, 0 to %d, and no more than the interface takes.\n"
                             "        Default 100. Long frames find more faults of a line, short ones tell\n"
                             "        more of its delay.\n"
                             "  --count N\n"
                             "        Tests, one after the other, 1 to 1000000. Default 10.\n"
                             "  -R N, --repeats N\n"
                             "        Repeats allowed in each test, 0 to 255. Default 4. With 0 each lost\n"
                             "        frame is a test that is given up.\n"
                             "  --interval MS\n"
                             "        Milliseconds between a test and the next, 0 to 3600000. Default 100.\n";

static void help(FILE *out)
{
    fprintf(out, manual, MOP_ETHERNET_LOOP_DATA_MOST);
    sending_help(out, 500, NULL);
    fputs("  The timer is shorter than that of a load, because a machine sends data back at\n"
          "  once. A machine that does not answer costs R + 1 times --timer for each test.\n"
          "\n"
          "EXIT STATUS\n"
          "   0  all data came back, from the machine or a plug: the summary tells which\n",
        out);
    words_statuses(out, STATUS_OTHER, STATUS_OTHER);
    fputs("   3  given up: data did not come back in one test at least\n", out);
    words_statuses(out, STATUS_INTERRUPTED, STATUS_SHARED);
    words_statuses(out, STATUS_USAGE, STATUS_PERMISSION);
    words_statuses(out, STATUS_FILE, STATUS_IN_USE);
    fputs("\n"
          "EXAMPLES\n"
          "  moploop -i eth0 --machine 08-00-2B-AA-BB-CC\n"
          "  moploop -i eth0 --machine 08-00-2B-AA-BB-CC --length 1495 -R 0\n",
        out);
}

static int machine_option(const char *value, looping *l)
{
    l->named = true;
    int status = option_address("--machine", value, l->machine);
    if (status == 0 && l->machine[0] % 2 == 1)
        status = complain(STATUS_USAGE, "--machine: %s is the address of a group, and not of one machine", value);
    return status;
}

static int option(int c, const char *value, looping *l)
{
    switch (c) {
    case OPTION_MACHINE:
        return machine_option(value, l);
    case OPTION_LENGTH:
        return option_small("--length", value, 0, MOP_ETHERNET_LOOP_DATA_MOST, &l->length);
    case OPTION_COUNT:
        return option_small("--count", value, 1, 1000000, &l->count);
    case OPTION_INTERVAL:
        return option_small("--interval", value, 0, 3600000, &l->interval);
    case 'R':
        return option_small("-R", value, 0, MOP_REPEATS_MOST, &l->settings.repeats);
    default:
        return common_option(c, value, &l->common);
    }
}

static int options(int count, char **words, looping *l)
{
    static const struct option known[] = {SENDING_OPTIONS, {"machine", required_argument, NULL, OPTION_MACHINE},
        {"length", required_argument, NULL, OPTION_LENGTH}, {"count", required_argument, NULL, OPTION_COUNT},
        {"interval", required_argument, NULL, OPTION_INTERVAL}, {"repeats", required_argument, NULL, 'R'},
        {NULL, 0, NULL, 0}};
    for (int c = 0; (c = getopt_long(count, words, "i:R:h", known, NULL)) != -1;) {
        int status = option(c, optarg, l);
        if (status != 0)
            return status;
    }
    if (optind != count)
        return complain(STATUS_USAGE, "'%s' is too much (see --help)", words[optind]);
    return l->named ? 0 : complain(STATUS_USAGE, "give --machine ADDRESS (mopwatch tells who is there; see --help)");
}

/* ---- The run --------------------------------------------------------- */

static int check_machine(const looping *l)
{
    if (memcmp(l->machine, l->line.address, ADDRESS_LENGTH) != 0)
        return 0;
    return complain(STATUS_USAGE, "--machine: this is the address of %s itself, and not of a machine", l->line.name);
}

static int check_room(const looping *l)
{
    if (l->length + LOOP_REST <= l->line.longest)
        return 0;
    if (l->line.longest < LOOP_REST)
        return complain(STATUS_INTERFACE, "%s takes messages of at most %" PRIu32 " bytes: no loop frame fits",
            l->line.name, l->line.longest);
    return complain(STATUS_INTERFACE, "%s takes messages of at most %" PRIu32 " bytes: --length is at most %" PRIu32,
        l->line.name, l->line.longest, l->line.longest - LOOP_REST);
}

static int loop(looping *l)
{
    static const line_end calls = {over, due, on_frame, on_timer};
    char own[ADDRESS_TEXT], other[ADDRESS_TEXT];
    printf("Looping %" PRIu32 " bytes from %s (%s) to %s and back.\n", l->length, l->line.name,
        address_text(l->line.address, own), address_text(l->machine, other));
    l->first = (uint16_t)nanoseconds(); /* hardly any late answer of an earlier run fits */
    int status = words_written();
    if (status == 0)
        status = begin(l);
    return status == 0 ? line_run(&l->line, &calls, l) : status;
}

static int run(looping *l)
{
    int status = line_open(&l->line, &l->common.line);
    if (status != 0)
        return status;
    l->line.alone = true;
    status = check_machine(l);
    if (status == 0)
        status = lock_take(l->line.index, l->line.name);
    if (status == 0)
        status = check_room(l);
    if (status == 0)
        status = line_join(&l->line); /* to hear whether the machine asks */
    if (status == 0)
        status = conclude(l, loop(l));
    line_close(&l->line);
    return status;
}

int main(int count, char **words)
{
    static looping l = {.common = {.line = {.at_once = true}, .timer = 500, .program = {.write = help}},
        .settings = {.repeats = 4, .version = MOP_VERSION_3_0},
        .length = 100,
        .count = 10,
        .interval = 100};
    l.common.program.words = words;
    words_program("moploop");
    int status = options(count, words, &l);
    if (status == 0)
        status = process_begin();
    l.times = calloc(l.count, sizeof *l.times);
    if (status == 0 && l.times == NULL)
        status = complain(STATUS_OTHER, "no memory");
    if (status == 0)
        status = run(&l);
    free(l.times);
    return status;
}
