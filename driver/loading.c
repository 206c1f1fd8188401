#include "loading.h"

#include <inttypes.h>
#include <stdlib.h>
#include <sys/stat.h>

#include "identity.h"
#include "listing.h"
#include "words.h"

uint64_t loading_frames(const loading *l)
{
    return l->image.segments + l->settings.with_parameters;
}

void loading_machine(const loading *l, FILE *out)
{
    const mop_fields *f = &l->asked.fields;
    char address[ADDRESS_TEXT];
    fprintf(out, "%s, which asks for a%s %s, ", address_text(l->host->machine, address),
        f->program == MOP_PROGRAM_SYSTEM ? "n" : "", program_words(f->program));
    software_words(out, f->form, l->asked.id, f->id_length);
    fputs(" (device ", out);
    device_words(out, f->device);
    fputs(")", out);
}

/* ---- What is told at the end ----------------------------------------- */

/* The bytes that were rejected, and why a machine does so; of the parameters load_words tells it. */
static void tell_rejected(const loading *l, FILE *out)
{
    const uint64_t c = l->session.position;
    mop_segment segment = mop_image_segment(l->file.bytes, l->file.length, l->settings.segment_size, c);
    if (l->session.verdict != MOP_LOAD_REJECTED || segment.refusal != MOP_ACCEPTED)
        return;
    fprintf(out,
        "Segment %" PRIu64 " is %zu byte%s from 0x%08" PRIX32 " to 0x%08zX, in region %u of the image. A machine "
        "rejects what ends beyond its memory, or touches addresses that it keeps for itself, such as a boot ROM.\n",
        c + 1, segment.length, segment.length == 1 ? "" : "s", segment.address, segment.address + segment.length - 1,
        image_region(&l->file, l->image, segment.address));
}

/* A machine that asks again behind its last frame may have been started. */
static bool is_doubted(const loading *l)
{
    return l->resets > 0 && (l->session.verdict != MOP_LOAD_UNCONFIRMED || l->early);
}

void loading_end(const loading *l, int status, FILE *out)
{
    if (status == STATUS_SHARED)
        load_shared_words(out);
    else if (is_doubted(l))
        load_doubted_words(out, &l->session, &l->settings, &l->image);
    else
        load_words(out, &l->session, &l->settings, &l->image);
    tell_rejected(l, out);
    if (l->session.restarts > 0 && status != STATUS_SHARED)
        load_restarts_words(out, l->session.restarts);
    if (l->resets > 0)
        load_reset_words(out, l->resets, !is_doubted(l), l->settings.restart);
}

int loading_status(const loading *l, int status)
{
    if (status != 0)
        return status;
    return l->resets > 0 && l->session.verdict == MOP_LOAD_FINISHED ? STATUS_RESET : verdict_status(l->session.verdict);
}

/* The frames that a timer sent. All others followed a request that was served, or
 * an answer; the answer that finishes a load is followed by none. */
uint64_t loading_repeats(const loading *l)
{
    const mop_load *session = &l->session;
    const uint64_t finished = session->verdict == MOP_LOAD_FINISHED;
    return session->sent - session->counts.starts - (session->counts.advances - finished);
}

/* ---- The record ------------------------------------------------------ */

/* A load, and how it ended; NULL for one that is not over. */
typedef struct told {
    const loading *load;
    const int *status;
} told;

static void write_settings(const loading *l, FILE *out)
{
    fprintf(out, "settings: S %" PRIu32 ", R %" PRIu32 ", timer %" PRIu32 " ms, protocol %s%s",
        l->settings.segment_size, l->settings.repeats, l->host->settings.timer,
        l->settings.version == MOP_VERSION_2_1 ? "2.1" : "3.0", l->settings.restart ? ", restart" : "");
    if (l->accept != MOP_PROGRAM_SYSTEM)
        fprintf(out, ", accepts type %" PRIu32, l->accept);
    record_rehearsed(out, &l->host->settings.line);
    fputs("\n", out);
    if (!l->parameters.given)
        return;
    fputs("parameters: ", out);
    parameters_words(out, l->parameters.values, l->parameters.named);
    fputs("\n", out);
}

static void write_session(const loading *l, FILE *out)
{
    const mop_load *s = &l->session;
    const mop_counts *counts = &s->counts;
    fprintf(out,
        "session: verdict %d (%s), position %" PRIu64 ", sent %" PRIu64 ", repeats %" PRIu32 ", restarts %" PRIu32 "\n",
        s->verdict, s->waiting ? "waiting" : verdict_words(s->verdict), s->position, s->sent, s->repeats, s->restarts);
    fprintf(out, "counts: starts %" PRIu64 ", advances %" PRIu64 ", ignored %" PRIu64 ", rejections %" PRIu64 "\n",
        counts->starts, counts->advances, counts->ignored, counts->rejections);
    fprintf(out, "repeated: %" PRIu64 " of the frames sent\n", loading_repeats(l));
    fprintf(out, "requests: %" PRIu64 " after the first answer\n", l->resets);
}

static void write_image(const loading *l, FILE *out)
{
    fprintf(
        out, "segments: %" PRIu64 " of up to %" PRIu32 " bytes\nimage: ", l->image.segments, l->settings.segment_size);
    record_name(out, l->seen);
    fprintf(out, ", %zu bytes\n", l->file.length);
    record_sum(out, l->sum, l->seen);
}

static void write_known(const void *what, FILE *out)
{
    const told *t = what;
    const loading *l = t->load;
    if (t->status != NULL) {
        loading_end(l, *t->status, out);
        return;
    }
    load_later_words(out, &l->session, &l->settings, &l->image);
    if (l->resets > 0)
        load_reset_words(out, l->resets, !l->early, l->settings.restart);
}

static void write_state(const told *t, FILE *out)
{
    const loading *l = t->load;
    fputs("load: ", out);
    if (t->status == NULL)
        load_state_words(out, &l->session, &l->image, l->resets > 0);
    else if (loading_status(l, *t->status) == STATUS_RESET)
        fputs(ending_words(STATUS_RESET, l->session.verdict), out);
    else
        fputs(ending_words(*t->status, l->session.verdict), out);
    fputs("\n", out);
}

static void write_machine(const loading *l, FILE *out)
{
    if (!l->session.waiting) {
        fputs("machine: ", out);
        loading_machine(l, out);
        fputs("\n", out);
    } else if (l->host->named) {
        char address[ADDRESS_TEXT];
        fprintf(out, "machine: %s\n", address_text(l->host->machine, address));
    }
}

static void write_record(const void *what, FILE *out)
{
    const told *t = what;
    write_state(t, out);
    record_head(out, t->load->since, &t->load->host->line);
    write_machine(t->load, out);
    write_settings(t->load, out);
    write_session(t->load, out);
    write_image(t->load, out);
    record_known(out, write_known, what);
    fputs(RECORD_END, out);
}

static int put(loading *l, const int *status, int (*to)(record *, const char *))
{
    char *text = record_text(write_record, &(told){l, status});
    int failed = to(&l->record, text);
    free(text);
    return failed;
}

/* Whoever may read the user's other files may read it. */
static mode_t usual_mode(void)
{
    mode_t mask = umask(0);
    umask(mask);
    return 0666 & ~mask;
}

int loading_record_first(loading *l)
{
    if (l->record.name == NULL)
        return 0;
    l->record.mode = usual_mode();
    l->seen = record_seen(l->record.name, l->path);
    if (l->seen == NULL)
        return complain(STATUS_OTHER, "no memory");
    sha256_text(l->file.bytes, l->file.length, l->sum);
    return put(l, NULL, record_first);
}

/* With its last frame the machine may be started: that counts as the last tenth. */
void loading_record_step(loading *l)
{
    const uint64_t c = l->session.position, n = loading_frames(l), tenth = c + 1 == n ? 10 : 10 * c / n;
    const bool begins = l->since == 0 && !l->session.waiting, doubt = l->resets > 0;
    if (l->record.name == NULL || l->session.verdict != MOP_LOAD_RUNNING)
        return;
    if (!begins && l->again == l->session.restarts && l->tenth == tenth && l->doubt == doubt)
        return;
    if (begins)
        l->since = time(NULL);
    l->doubt = doubt;
    l->again = l->session.restarts;
    l->tenth = tenth;
    (void)put(l, NULL, record_put);
}

/* What is told of the record is also told of one that stays as it was. */
int loading_record_end(loading *l, int status)
{
    if (l->record.name == NULL)
        return 0;
    const int failed = put(l, &status, record_put);
    if (failed == 0)
        inform("The record is in %s.", l->record.name);
    else
        inform("%s could not be written at the end: it tells of an earlier moment.", l->record.name);
    return failed;
}
