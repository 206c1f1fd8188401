#include "system_id.h"

#include <stdbool.h>
#include <string.h>

#include "identity.h"
#include "line.h"
#include "options.h"
#include "parameters.h"

#define ENTRY_REST 3  /* what an entry has beside its value: the type in 2 bytes, low byte first, and the length */
#define VALUE_MOST 17 /* bytes of a value, by document 001 */
#define TIME_BYTES 10

typedef struct entry {
    unsigned type;
    size_t length;
    const uint8_t *value;
} entry;

void bytes_words(FILE *out, const uint8_t *bytes, size_t length)
{
    for (size_t i = 0; i < length && i < VALUE_MOST; i++)
        fprintf(out, "%s%02X", i == 0 ? "" : "-", (unsigned)bytes[i]);
    if (length > VALUE_MOST)
        fprintf(out, " and %zu more", length - VALUE_MOST);
}

static unsigned low_first(const uint8_t *bytes)
{
    return bytes[0] + 256U * bytes[1];
}

/* ---- Values ---------------------------------------------------------- */

/* Each tells a value that has the length of its type. */

static void version(FILE *out, const entry *e)
{
    fprintf(out, "%d.%d.%d", e->value[0], e->value[1], e->value[2]);
}

static void functions(FILE *out, const entry *e)
{
    static const char *const names[] = {"loop", "dump", "primary loader", "multi-block loader", "boot",
        "console carrier", "data link counters", "console carrier reservation"};
    const unsigned all = low_first(e->value);
    const char *before = "";
    fputc('(', out);
    for (unsigned bit = 0; bit < 16; bit++) {
        if ((all >> bit & 1) == 0)
            continue;
        if (bit < sizeof names / sizeof names[0])
            fprintf(out, "%s%s", before, names[bit]);
        else
            fprintf(out, "%sbit %u", before, bit);
        before = ", ";
    }
    fputs(all == 0 ? "none)" : ")", out);
}

static void address(FILE *out, const entry *e)
{
    char text[ADDRESS_TEXT];
    fputs(address_text(e->value, text), out);
}

static void number(FILE *out, const entry *e)
{
    fprintf(out, "%u", low_first(e->value));
}

static void seconds(FILE *out, const entry *e)
{
    fprintf(out, "%u s", low_first(e->value));
}

static void system_time(FILE *out, const entry *e)
{
    mop_value time = {.length = TIME_BYTES};
    memcpy(time.bytes, e->value, TIME_BYTES);
    time_words(out, &time);
}

static void device(FILE *out, const entry *e)
{
    device_words(out, e->value[0]);
}

static void software(FILE *out, const entry *e)
{
    const uint8_t form = e->value[0];
    fputs(form == MOP_FORM_STANDARD || form == MOP_FORM_MAINTENANCE ? "software: " : "", out);
    software_words(out, form, e->value + 1, e->length - 1);
}

/* Document 001, A.3. */
static void processor(FILE *out, const entry *e)
{
    static const char *const names[] = {"", " (PDP-11, UNIBUS)", " (Communication Server)", " (Professional)"};
    const unsigned type = e->value[0];
    fprintf(out, "%u%s", type, type < sizeof names / sizeof names[0] ? names[type] : "");
}

/* Document 001, A.2. */
static void data_link(FILE *out, const entry *e)
{
    static const char *const names[] = {"", " (Ethernet)", " (DDCMP)", " (LAPB)"};
    const unsigned type = e->value[0];
    fprintf(out, "%u%s", type, type < sizeof names / sizeof names[0] ? names[type] : "");
}

/* ---- Entries --------------------------------------------------------- */

/* Those that document 001 lists; a software id has the length that its form says. */
static const struct known {
    unsigned type;
    size_t length;
    const char *words;
    void (*write)(FILE *out, const entry *e);
} kinds[] = {
    {1, 3, "maintenance version ", version},
    {2, 2, "functions ", functions},
    {3, ADDRESS_LENGTH, "console user ", address},
    {4, 2, "reservation timer ", seconds},
    {5, 2, "console command size ", number},
    {6, 2, "console response size ", number},
    {7, ADDRESS_LENGTH, "hardware address ", address},
    {8, TIME_BYTES, "system time ", system_time},
    {100, 1, "device ", device},
    {200, 0, "", software},
    {300, 1, "system processor type ", processor},
    {400, 1, "data link ", data_link},
    {401, 2, "buffer size ", number},
};

static bool is_software(const entry *e)
{
    if (e->length == 0)
        return false;
    const uint8_t form = e->value[0];
    if (form == MOP_FORM_NONE || form == MOP_FORM_STANDARD || form == MOP_FORM_MAINTENANCE)
        return e->length == 1;
    return form < VALUE_MOST && e->length == 1 + (size_t)form;
}

/* The library has the rules of a time: those of a load's parameters. */
static bool is_time(const entry *e)
{
    uint8_t parameter[2 + TIME_BYTES] = {MOP_ENTRY_HOST_TIME, TIME_BYTES};
    uint8_t frame[MOP_FRAME_MOST];
    if (e->length != TIME_BYTES)
        return false;
    memcpy(parameter + 2, e->value, TIME_BYTES);
    return mop_write_parameters(MOP_VERSION_3_0, 0, parameter, sizeof parameter, 0, frame, sizeof frame).refusal ==
           MOP_ACCEPTED;
}

static bool is_good(const entry *e, const struct known *kind)
{
    if (kind->write == software)
        return is_software(e);
    return kind->write == system_time ? is_time(e) : e->length == kind->length;
}

/* What the types between those that are listed are about. */
static const char *about(unsigned type)
{
    static const char *const words[] = {
        "", " (of the device)", " (of the software)", " (of the processor)", " (of the data link)"};
    return type >= 100 && type < 500 && type % 100 != 0 && type != 401 ? words[type / 100] : "";
}

static void entry_words(FILE *out, const entry *e)
{
    for (size_t i = 0; i < sizeof kinds / sizeof kinds[0]; i++)
        if (kinds[i].type == e->type && is_good(e, &kinds[i])) {
            fputs(kinds[i].words, out);
            kinds[i].write(out, e);
            return;
        }
    fprintf(out, "type %u%s of %zu byte%s%s", e->type, about(e->type), e->length, e->length == 1 ? "" : "s",
        e->length == 0 ? "" : ": ");
    bytes_words(out, e->value, e->length);
}

/* The bytes of the next entry, 0 if what is left is none. */
static size_t next_entry(entry *e, const uint8_t *info, size_t left)
{
    if (left < ENTRY_REST || info[2] > left - ENTRY_REST)
        return 0;
    *e = (entry){.type = low_first(info), .length = info[2], .value = info + ENTRY_REST};
    return ENTRY_REST + e->length;
}

void info_words(FILE *out, const char *first, const uint8_t *info, size_t length)
{
    entry e;
    size_t at = 0;
    for (size_t size = 0; at < length && (size = next_entry(&e, info + at, length - at)) > 0; at += size) {
        fputs(at == 0 ? first : ", ", out);
        entry_words(out, &e);
    }
    if (at == length)
        return;
    fprintf(out, "%s%zu %s no entry: ", at == 0 ? first : ", ", length - at,
        length - at == 1 ? "byte that is" : "bytes that are");
    bytes_words(out, info + at, length - at);
}
