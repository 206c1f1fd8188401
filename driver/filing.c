#include "dumping.h"

#include <ctype.h>
#include <inttypes.h>
#include <stdlib.h>
#include <string.h>

#include "files.h"
#include "recorded.h"
#include "sha256.h"
#include "words.h"

/* ---- Before the machine is asked ------------------------------------- */

static int make_room(dumping *d, copy *c)
{
    c->session = mop_dump_start();
    c->bytes = malloc((size_t)d->range.length);
    if (c->bytes == NULL)
        return complain(STATUS_OTHER, "no memory for %" PRIu64 " bytes", d->range.length);
    memset(c->bytes, 0, (size_t)d->range.length);
    return 0;
}

/* The machine of the earlier run is the one that is served. */
static int take_machine(dumping *d)
{
    char text[ADDRESS_TEXT] = "";
    uint8_t address[ADDRESS_LENGTH];
    size_t length = 0;
    const char *said = record_find(d->earlier, "machine: ", &length);
    if (said == NULL || length < ADDRESS_TEXT - 1)
        return 0; /* none had asked */
    memcpy(text, said, ADDRESS_TEXT - 1);
    int status = option_address("the record's machine", text, address);
    if (status != 0)
        return status;
    if (d->host->named && memcmp(address, d->host->machine, ADDRESS_LENGTH) != 0)
        return complain(STATUS_FILE, "%s.record is of the machine %s: --resume does not fit", d->path, text);
    memcpy(d->host->machine, address, ADDRESS_LENGTH);
    d->host->named = true;
    return 0;
}

/* Whether the part is the one that the record tells of, and how many of its bytes are taken up. Of a dump that was not
 * over the record has no sum: what lies behind the bytes that it tells may never have got to the disk. */
static int check_part(dumping *d, const contents *came)
{
    static recorded r;
    char sum[SHA256_TEXT];
    const char *name = d->copies[0].part.name;
    const recorded_file *told = &r.files[0];
    if (!recorded_read((const uint8_t *)d->earlier, strlen(d->earlier), &r))
        return complain(STATUS_FILE, "%s is damaged: %s", d->record.name, r.damage);
    if (told->more && came->length < told->length)
        return complain(STATUS_FILE,
            "%s is not the one that its record tells of: it has %zu bytes, and the record says %" PRIu64 " or more",
            name, came->length, told->length);
    sha256_text(came->bytes, came->length, sum);
    if (!told->more && strcmp(told->sum, sum) != 0)
        return complain(STATUS_FILE, "%s is not the one that its record tells of", name);
    d->before = told->more && !told->uncounted ? told->length : came->length;
    return 0;
}

/* Whether the record of the earlier run is about the same dump. */
static int check_earlier(dumping *d, const contents *came)
{
    char range[64] = "";
    size_t length = 0;
    FILE *out = fmemopen(range, sizeof range, "w");
    if (out != NULL) {
        report_range(d, out);
        (void)fclose(out);
    }
    if (record_find(d->earlier, range, &length) == NULL || length != 0)
        return complain(STATUS_FILE, "%s.record is of another range: --resume does not fit", d->path);
    if (record_find(d->earlier, "twice: first differ", &length) != NULL)
        return complain(STATUS_FILE, "%s.part is one of two dumps that differ: dump again", d->path);
    int status = check_part(d, came);
    return status != 0 ? status : take_machine(d);
}

/* A machine that was restarted in an earlier run was so for the dump. */
static void take_offers(dumping *d)
{
    size_t length = 0;
    const char *said = record_find(d->earlier, "offers: ", &length);
    const unsigned long long offers = said == NULL || !isdigit((unsigned char)*said) ? 0 : strtoull(said, NULL, 10);
    d->copies[0].offers = offers < UINT32_MAX ? offers : UINT32_MAX;
    d->doubt = offers > 0;
}

/* The session asks for the rest. */
static int take_bytes(dumping *d, const contents *came)
{
    part *p = &d->copies[0].part;
    if (d->before < came->length) {
        inform("Of the %zu bytes in %s the first %" PRIu64 " are known to be on the disk: the others are asked again.",
            came->length, p->name, d->before);
        int status = part_cut(p, d->range.length, d->before);
        if (status != 0)
            return status;
    }
    part_sync(p);
    take_offers(d);
    memcpy(d->copies[0].bytes, came->bytes, (size_t)d->before);
    d->settings.address += (uint32_t)d->before;
    d->settings.length -= d->before;
    return 0;
}

/* Takes up what an earlier run brought. */
static int take_up(dumping *d)
{
    contents came = {NULL, 0}, text = {NULL, 0};
    char *name = name_with(d->path, ".part");
    int status = name != NULL ? 0 : STATUS_OTHER;
    if (status == 0)
        status = file_read_regular(name, (size_t)d->range.length, &came);
    if (status == 0)
        status = file_read_regular(d->record.name, RECORDED_MOST, &text);
    if (status == 0)
        status = part_again(&d->copies[0].part, d->path, d->range.length, came.length, &d->mode);
    d->earlier = strndup(text.bytes == NULL ? "" : (const char *)text.bytes, text.length);
    if (status == 0)
        status = d->earlier == NULL ? complain(STATUS_OTHER, "no memory") : check_earlier(d, &came);
    d->record.mode = d->mode;
    if (status == 0)
        status = take_bytes(d, &came);
    free(came.bytes);
    free(text.bytes);
    free(name);
    return status;
}

/* A part and a record that are not there, and no file. */
static int make_files(dumping *d)
{
    char *second = name_with(d->path, ".second");
    int status = second == NULL ? STATUS_OTHER : part_open(&d->copies[0].part, d->path, d->range.length, d->mode);
    if (status == 0 && d->twice)
        status = part_open(&d->copies[1].part, second, d->range.length, d->mode);
    free(second);
    return status;
}

/* Nothing came: what was made for it goes again. */
static void unmake_files(dumping *d)
{
    for (size_t i = 0; i < 2; i++)
        if (d->copies[i].part.name != NULL)
            part_remove(&d->copies[i].part);
}

/* All that can fail is tried before the machine is asked. */
int filing_prepare(dumping *d)
{
    d->settings = d->range;
    d->record = (record){.name = name_with(d->path, ".record"), .mode = d->mode};
    int status = d->record.name == NULL ? STATUS_OTHER : name_is_free(d->path, "");
    for (size_t i = 0; i < (d->twice ? 2 : 1) && status == 0; i++)
        status = make_room(d, &d->copies[i]);
    if (status == 0)
        status = d->resume ? take_up(d) : make_files(d);
    if (status == 0)
        status = report_first(d);
    if (status != 0 && !d->resume)
        unmake_files(d);
    progress_start(&d->progress, "bytes", d->range.length);
    return status;
}

/* ---- While it is under way ------------------------------------------- */

void filing_step(dumping *d)
{
    copy *now = d->now;
    const uint64_t came = dumping_came(d, now), tenth = 10 * came / d->range.length;
    const bool begins = !now->session.waiting && d->begun != now, doubt = dumping_offers(d) > 0;
    part_grow(&now->part, now->bytes, came);
    if (now->session.verdict != MOP_DUMP_RUNNING || (!begins && tenth == d->tenth && doubt == d->doubt))
        return;
    if (d->since == 0)
        d->since = time(NULL);
    if (begins)
        d->begun = now;
    d->tenth = tenth;
    d->doubt = doubt;
    part_sync(&d->copies[0].part);
    part_sync(&now->part);
    (void)report_running(d);
}

/* ---- When it is over ------------------------------------------------- */

/* How it ended: the verdict, or the signal or error that came before it. */
static const char *ending(const dumping *d, int status)
{
    if (status == STATUS_SILENT && d->now != d->copies)
        return "finished once; no machine asked the second time";
    if (status == STATUS_DIFFERENT)
        return "finished twice, and the two are not equal";
    return ending_words(status, d->now->session.verdict);
}

/* Nothing came: no file is left, or the earlier one and its record. */
static int file_nothing(dumping *d)
{
    if (d->resume) {
        inform("Nothing came: the first %" PRIu64 " bytes of %s and its record are as they were.", d->before,
            d->copies[0].part.name);
        return record_put(&d->record, d->earlier);
    }
    unmake_files(d);
    record_remove(&d->record);
    printf("Nothing came, and no file is left.\n");
    return 0;
}

/* What came stays beside, and is not called a dump. */
static int file_unfinished(dumping *d, int status)
{
    copy *first = &d->copies[0], *second = &d->copies[1];
    if (first->session.filled == 0)
        return file_nothing(d);
    int kept = part_keep(&first->part);
    if (d->twice && second->session.filled == 0)
        part_remove(&second->part);
    else if (d->twice && kept == 0)
        kept = part_keep(&second->part);
    int recorded = report_end(d, status, ending(d, status), first->part.name);
    inform("There is no %s; of the %" PRIu64 " bytes that came %" PRIu64 " are in %s.", d->path, dumping_came(d, first),
        first->part.written, first->part.name);
    if (second->session.filled > 0)
        inform("The %" PRIu64 " bytes of the second dump are in %s.", second->part.written, second->part.name);
    return kept != 0 ? kept : recorded;
}

/* A finished dump that cannot be filed stays whole where it is, as far as it
 * could be written. */
static int file_failed(dumping *d)
{
    const part *p = &d->copies[0].part;
    char how[256];
    if (p->written < d->range.length)
        snprintf(how, sizeof how, "finished, but only the first %" PRIu64 " bytes could be written: %s", p->written,
            strerror(p->failed));
    else
        snprintf(how, sizeof how, "finished and whole, but not under its name: %s", strerror(p->failed));
    report_end(d, STATUS_FILE, how, p->name);
    inform("There is no %s; %s of the dump is in %s.", d->path, p->written < d->range.length ? "the beginning" : "all",
        p->name);
    return STATUS_FILE;
}

/* The record has the sum before the file has its name. */
static void report_before_name(dumping *d)
{
    report_end(d, 0, "finished, being named: where there is no file of this name it has .part behind it", d->path);
}

static int file_finished(dumping *d)
{
    part *p = &d->copies[0].part;
    part_grow(p, d->copies[0].bytes, d->range.length);
    if (p->written < d->range.length || part_keep(p) != 0)
        return file_failed(d);
    report_before_name(d);
    if (part_name(p) != 0)
        return file_failed(d);
    if (d->twice)
        part_remove(&d->copies[1].part);
    int recorded = report_end(d, 0, "finished", d->path);
    inform("%s is on the disk%s.", d->path,
        recorded == 0 ? ", with its record" : "; its record could not be written, and tells of an earlier moment");
    return recorded;
}

/* Whether the two of --twice are equal. */
static bool equal(dumping *d)
{
    const uint8_t *one = d->copies[0].bytes, *other = d->copies[1].bytes;
    uint64_t first = d->range.length, count = 0;
    for (uint64_t i = d->range.length; i-- > 0;)
        if (one[i] != other[i]) {
            first = i;
            count += 1;
        }
    if (count == 0) {
        snprintf(d->compared, sizeof d->compared, "both are equal");
        printf("Byte for byte the second dump is equal to the first.\n");
        return true;
    }
    snprintf(d->compared, sizeof d->compared,
        "first differ at 0x%08" PRIX32 ", byte %" PRIu64 ": 0x%02X and then 0x%02X; %" PRIu64 " bytes differ",
        d->range.address + (uint32_t)first, first, one[first], other[first], count);
    printf("The two dumps %s.\n", d->compared);
    return false;
}

/* Tells what came, files it, and gives the status. */
int filing_conclude(dumping *d, int status)
{
    words_bar_end();
    if (d->settings.length != 0) {
        dumping_words(d, status, stdout);
        dumping_counts(d->now, stdout);
    }
    bool whole = status == 0 && (d->settings.length == 0 || d->now->session.verdict == MOP_DUMP_FINISHED);
    if (whole && d->twice && !equal(d))
        status = STATUS_DIFFERENT;
    dumping_doubts(d, status, stdout);
    int filed = whole && status == 0 ? file_finished(d) : file_unfinished(d, status);
    if (status == 0)
        status = filed == 0 && !whole ? verdict_status(d->now->session.verdict) : filed;
    return status;
}
