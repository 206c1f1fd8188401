#include "host.h"

#include <inttypes.h>
#include <string.h>

#include "lock.h"
#include "words.h"

#define PROGRAM_AT 3 /* where code 8 has the type of program */

/* A group's address has an odd first byte. */
static int machine_option(const char *value, uint8_t *address)
{
    int status = option_address("--machine", value, address);
    if (status == 0 && address[0] % 2 != 0)
        status =
            complain(STATUS_USAGE, "--machine: %s is the address of a group, and no machine sends from one", value);
    return status;
}

/* What is sent from the interface itself is not received there. */
static int check_machine(const host *h)
{
    char own[ADDRESS_TEXT];
    if (!h->named || memcmp(h->machine, h->line.address, ADDRESS_LENGTH) != 0)
        return 0;
    return complain(STATUS_USAGE, "--machine: %s is the address of %s itself: give the machine's",
        address_text(h->machine, own), h->line.name);
}

int host_option(host *h, int option, const char *value, uint32_t *repeats)
{
    switch (option) {
    case 'R':
        return option_small("-R", value, 0, MOP_REPEATS_MOST, repeats);
    case OPTION_MACHINE:
        h->named = true;
        return machine_option(value, h->machine);
    default:
        return common_option(option, value, &h->settings);
    }
}

host_stage host_stage_of(uint8_t waiting, uint8_t verdict, uint64_t taken)
{
    if (waiting)
        return HOST_WAITING;
    if (verdict != 0)
        return HOST_OVER;
    return taken == 0 ? HOST_FIRST : HOST_UNDER_WAY;
}

int host_open(host *h)
{
    int status = line_open(&h->line, &h->settings.line);
    if (status != 0)
        return status;
    h->line.alone = true;
    status = check_machine(h);
    if (status == 0)
        status = lock_take(h->line.index, h->line.name);
    if (status == 0)
        status = line_join(&h->line);
    if (status != 0)
        line_close(&h->line);
    return status;
}

/* Hands a frame or the timer to the library and sends what it gives. */
static int step(host *h, const line_frame *frame)
{
    uint8_t reply[MOP_FRAME_MOST];
    mop_written answer = frame == NULL
                             ? h->calls->step(h->job, true, NULL, 0, reply, sizeof reply)
                             : h->calls->step(h->job, false, frame->bytes, frame->length, reply, sizeof reply);
    if (mop_refused_frame(answer.refusal)) {
        h->unreadable += 1;
        return 0;
    }
    if (answer.refusal != MOP_ACCEPTED)
        return complain(STATUS_OTHER, "the step is refused: %s", refusal_words(answer.refusal));
    if (answer.length == 0)
        return 0;
    h->due = clock_now() + h->settings.timer;
    return line_send(&h->line, h->machine, reply, answer.length);
}

/* A request to all hosts that would be served: code 3 to its sender, who then
 * asks this host alone. */
static int volunteer(host *h, const line_frame *frame)
{
    uint8_t offer[MOP_FRAME_MOST];
    if (!h->calls->begins(h->job, frame))
        return 0;
    mop_written written = mop_write_volunteer(offer, sizeof offer);
    return line_send(&h->line, frame->from, offer, written.length);
}

/* Another station asks for a program, of whatever type, or offers a dump, as the machine would that is waited for. It
 * is told once: the address that was given may be wrong. */
static void tell_other(const host *h, const line_frame *frame)
{
    static bool told;
    char other[ADDRESS_TEXT], machine[ADDRESS_TEXT];
    line_frame asked = *frame;
    if (told || h->calls->stage(h->job) != HOST_WAITING)
        return;
    if (asked.length > PROGRAM_AT && asked.bytes[0] == MOP_CODE_REQUEST_PROGRAM)
        asked.bytes[PROGRAM_AT] = MOP_PROGRAM_SYSTEM;
    if (!h->calls->begins(h->job, &asked))
        return;
    told = true;
    complain(0, "%s asks too, but the machine is %s (see --machine): not served", address_text(frame->from, other),
        address_text(h->machine, machine));
}

/* Once the machine has answered, its requests to all hosts go unheard, unless the
 * job may begin again. What comes before the session begins and does not begin it
 * is dropped: the library would count it, and the counts are to be of the machine
 * that is served. */
static int take(host *h, line_frame *frame)
{
    if (h->named && memcmp(frame->from, h->machine, ADDRESS_LENGTH) != 0) {
        tell_other(h, frame);
        return 0;
    }
    host_stage stage = h->calls->stage(h->job);
    h->calls->before(h->job, frame);
    if (frame->multicast)
        return stage == HOST_UNDER_WAY && !h->restart ? 0 : volunteer(h, frame);
    if (stage != HOST_WAITING)
        return step(h, frame);
    if (!h->calls->begins(h->job, frame))
        return 0;
    h->named = true;
    memcpy(h->machine, frame->from, ADDRESS_LENGTH);
    return step(h, frame);
}

static int silence(host *h)
{
    char machine[ADDRESS_TEXT];
    if (h->calls->stage(h->job) != HOST_WAITING)
        return step(h, NULL);
    return complain(STATUS_SILENT,
        "no machine asked within %" PRIu32 " second%s for what is served%s%s: is it on, on this line, and set to "
        "boot from the network? To see what comes, run mopwatch -i %s",
        h->settings.wait, h->settings.wait == 1 ? "" : "s", h->named ? ", and it was to be " : "",
        h->named ? address_text(h->machine, machine) : "", h->line.name);
}

/* ---- The host as the line runs it ------------------------------------ */

static bool over(const void *end)
{
    const host *h = end;
    return h->calls->stage(h->job) == HOST_OVER;
}

static int64_t due(const void *end)
{
    return ((const host *)end)->due;
}

static int on_frame(void *end, line_frame *frame)
{
    host *h = end;
    int status = take(h, frame);
    h->calls->after(h->job);
    return status;
}

static int on_timer(void *end)
{
    host *h = end;
    int status = silence(h);
    h->calls->after(h->job);
    return status;
}

int host_run(host *h)
{
    static const line_end calls = {over, due, on_frame, on_timer};
    char own[ADDRESS_TEXT], other[ADDRESS_TEXT];
    printf("Waiting on %s (%s) for a request from %s.\n", h->line.name, address_text(h->line.address, own),
        h->named ? address_text(h->machine, other) : "any machine");
    fflush(stdout);
    if (!h->named)
        complain(0, "without --machine the first machine that asks is served, whichever it is: give --machine ADDRESS");
    h->due = clock_now() + (int64_t)h->settings.wait * 1000;
    return line_run(&h->line, &calls, h);
}

void host_close(host *h)
{
    if (h->unreadable != 0)
        printf("%" PRIu64 " unreadable frame%s came and %s not counted.\n", h->unreadable,
            h->unreadable == 1 ? "" : "s", h->unreadable == 1 ? "was" : "were");
    line_tell(&h->line);
    line_close(&h->line);
}
