#include "dumping.h"

#include <inttypes.h>
#include <stdlib.h>
#include <string.h>

#include "identity.h"
#include "sha256.h"
#include "words.h"

uint64_t dumping_came(const dumping *d, const copy *c)
{
    return d->before + c->session.filled;
}

/* The frames sent without those that went out for the first time: a request for
 * each reply, and the request on its way or the end of the dump, which one that
 * is given up has beside. */
uint64_t dumping_repeats(const mop_dump *session)
{
    const uint64_t end = session->verdict == MOP_DUMP_GIVEN_UP;
    return session->waiting ? 0 : session->sent - session->replies - 1 - end;
}

void dumping_counts(const copy *c, FILE *out)
{
    counts_words(out, "dump", c->session.sent, dumping_repeats(&c->session), &c->session.counts);
}

void report_range(const dumping *d, FILE *out)
{
    fprintf(out, "range: from 0x%08" PRIX32 ", length %" PRIu64, d->range.address, d->range.length);
}

/* ---- Its parts ------------------------------------------------------- */

static void write_machine(const dumping *d, FILE *out)
{
    char machine[ADDRESS_TEXT];
    if (d->begun == NULL && !d->host->named)
        return;
    fprintf(out, "machine: %s", address_text(d->host->machine, machine));
    if (d->begun != NULL) {
        fputs(", device ", out);
        device_words(out, d->offer.device);
        fprintf(out, ", memory size %" PRIu32, d->offer.memory_size);
    }
    fputs("\n", out);
}

static void write_head(const dumping *d, FILE *out)
{
    record_head(out, d->since, &d->host->line);
    write_machine(d, out);
    report_range(d, out);
    fprintf(out, "\nsettings: C %" PRIu32 ", R %" PRIu32 ", timer %" PRIu32 " ms", d->settings.request_bytes,
        d->settings.repeats, d->host->settings.timer);
    record_rehearsed(out, &d->host->settings.line);
    fputs("\n", out);
    if (d->resume)
        fprintf(out,
            "resumed: at byte %" PRIu64 "; the bytes before are of an earlier run, and the memory may have changed "
            "in between\n",
            d->before);
}

static void write_session(const copy *c, const char *which, FILE *out)
{
    const mop_counts *counts = &c->session.counts;
    fprintf(out,
        "%ssession: verdict %d (%s), filled %" PRIu64 ", replies %" PRIu64 ", sent %" PRIu64 ", repeats %" PRIu32 "\n",
        which, c->session.verdict, verdict_words(c->session.verdict), c->session.filled, c->session.replies,
        c->session.sent, c->session.repeats);
    fprintf(out, "%scounts: starts %" PRIu64 ", advances %" PRIu64 ", ignored %" PRIu64 ", rejections %" PRIu64 "\n",
        which, counts->starts, counts->advances, counts->ignored, counts->rejections);
    fprintf(out, "%srepeated: %" PRIu64 " of the frames sent\n", which, dumping_repeats(&c->session));
    fprintf(out, "%soffers: %" PRIu64 " after the first answer\n", which, c->offers);
}

static void write_file(const dumping *d, const copy *c, const char *which, const char *file, FILE *out)
{
    char sum[SHA256_TEXT];
    sha256_text(c->bytes, (size_t)c->part.written, sum);
    fprintf(out, "%sfile: ", which);
    record_name(out, record_base(file));
    fprintf(out, ", %" PRIu64 " bytes\n", c->part.written);
    record_sum(out, sum, record_base(file));
    if (c->part.written < dumping_came(d, c))
        fprintf(out, "%sunwritten: %" PRIu64 " bytes that came: %s\n", which, dumping_came(d, c) - c->part.written,
            strerror(c->part.failed));
}

static void write_part(const copy *c, const char *which, FILE *out)
{
    fprintf(out, "%sfile: ", which);
    record_name(out, record_base(c->part.name));
    fprintf(out, ", %" PRIu64 " bytes or more\n", c->part.safe);
}

uint64_t dumping_offers(const dumping *d)
{
    return d->copies[0].offers + d->copies[1].offers;
}

/* Whether no other program spoke to the machine, and it was not heard to be restarted. */
static bool is_alone(const dumping *d, int status)
{
    return status != STATUS_SHARED && dumping_offers(d) == 0;
}

void dumping_words(const dumping *d, int status, FILE *out)
{
    if (d->now == &d->copies[1])
        fputs("Second dump: ", out);
    dump_words(out, &d->now->session, &d->settings, is_alone(d, status));
}

/* Two that were compared need no word on offers. */
void dumping_doubts(const dumping *d, int status, FILE *out)
{
    if (status == STATUS_SHARED)
        dump_shared_words(out);
    if (dumping_offers(d) > 0 && d->compared[0] == '\0')
        dump_offers_words(out, dumping_offers(d));
}

/* ---- The record ------------------------------------------------------ */

/* A dump, and how it ended; how is NULL for one that is not over. */
typedef struct told {
    const dumping *d;
    int status;
    const char *how;
    const char *file;
} told;

/* Of one that is not over. */
static void write_state(const dumping *d, FILE *out)
{
    const part *first = &d->copies[0].part;
    if (d->begun == NULL)
        fputs("waiting: no machine has offered a dump", out);
    else
        fputs("running", out);
    fprintf(out, "%s the first %" PRIu64 " or more of %" PRIu64 " bytes are in ", d->begun == NULL ? ";" : ":",
        first->safe, d->range.length);
    record_name(out, record_base(first->name));
    if (d->begun != &d->copies[1])
        return;
    fprintf(out, ", and of the second dump the first %" PRIu64 " or more in ", d->copies[1].part.safe);
    record_name(out, record_base(d->copies[1].part.name));
}

/* Also of a file that got its name when the record could not be written any more. */
static void write_later(const dumping *d, FILE *out)
{
    const part *first = &d->copies[0].part;
    fprintf(
        out, "This was so when it was written; more may have come since. The first %" PRIu64 " bytes of ", first->safe);
    record_name(out, record_base(first->name));
    fputs(" are on the disk; those behind them, if any, are of the range too unless the computer failed, and --resume "
          "asks for them again. Where there is no ",
        out);
    record_name(out, record_base(first->name));
    fputs(" and ", out);
    record_name(out, record_base(d->path));
    fputs(" is there, that is whole.", out);
    fputs(is_alone(d, 0) ? " The machine's memory is as it was.\n" : "\n", out);
}

static void write_known(const void *what, FILE *out)
{
    const told *t = what;
    if (t->how == NULL)
        write_later(t->d, out);
    else if (t->d->settings.length != 0)
        dumping_words(t->d, t->status, out);
    else
        fputs("All bytes are of earlier runs: the machine was not asked again.\n", out);
    dumping_doubts(t->d, t->status, out);
}

/* The second file is kept where the first does not get its name. */
static void write_end(const told *t, FILE *out)
{
    const dumping *d = t->d;
    const copy *second = &d->copies[1];
    if (d->compared[0] != '\0')
        fprintf(out, "twice: %s\n", d->compared);
    write_file(d, &d->copies[0], "", t->file, out);
    if (t->file != d->path && second->session.filled > 0)
        write_file(d, second, "second ", second->part.name, out);
}

/* Of the runs before the earlier one, those that this is before the lines of are not kept. */
#define OLDEST "> > > "

static void write_earlier(const dumping *d, FILE *out)
{
    size_t left_out = 0;
    fputs("The record of the earlier run:\n", out);
    for (const char *line = d->earlier; *line != '\0';) {
        const size_t length = strcspn(line, "\n");
        if (strncmp(line, OLDEST, sizeof OLDEST - 1) == 0)
            left_out += 1;
        else
            fprintf(out, "> %.*s\n", (int)length, line);
        line += length + (line[length] == '\n');
    }
    if (left_out > 0)
        fprintf(out, "Left out of it, of still earlier runs: %zu lines.\n", left_out);
}

static void write_record(const void *what, FILE *out)
{
    const told *t = what;
    const dumping *d = t->d;
    fputs("dump: ", out);
    if (t->how == NULL)
        write_state(d, out);
    else
        fputs(t->how, out);
    fputs("\n", out);
    write_head(d, out);
    write_session(&d->copies[0], "", out);
    if (d->now == &d->copies[1])
        write_session(d->now, "second ", out);
    if (t->how != NULL)
        write_end(t, out);
    else
        write_part(&d->copies[0], "", out);
    if (t->how == NULL && d->twice)
        write_part(&d->copies[1], "second ", out);
    record_known(out, write_known, what);
    if (d->earlier != NULL)
        write_earlier(d, out);
    fputs(RECORD_END, out);
}

static int put(dumping *d, const told *t, int (*to)(record *, const char *))
{
    char *text = record_text(write_record, t);
    int status = to(&d->record, text);
    free(text);
    return status;
}

int report_first(dumping *d)
{
    return put(d, &(told){.d = d}, d->resume ? record_again : record_first);
}

int report_running(dumping *d)
{
    return put(d, &(told){.d = d}, record_put);
}

int report_end(dumping *d, int status, const char *how, const char *file)
{
    return put(d, &(told){d, status, how, file}, record_put);
}
