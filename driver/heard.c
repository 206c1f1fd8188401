#include "heard.h"

#include <inttypes.h>
#include <string.h>

#include "identity.h"
#include "options.h"
#include "system_id.h"
#include "words.h"

#define CODE_SYSTEM_ID 7
#define SYSTEM_ID_LEAST 4 /* code, reserved, receipt number in 2 bytes */

const uint8_t CONSOLES[ADDRESS_LENGTH] = {0xAB, 0x00, 0x00, 0x02, 0x00, 0x00};

/* ---- Reading --------------------------------------------------------- */

static heard_kind kind_of_load(heard *h)
{
    h->fields = mop_read(MOP_VERSION_3_0, h->message, h->length);
    h->refusal = h->fields.refusal;
    switch (h->fields.code) {
    case MOP_CODE_REQUEST_PROGRAM:
        return HEARD_REQUEST;
    case MOP_CODE_REQUEST_DUMP_SERVICE:
        return HEARD_OFFER;
    case MOP_CODE_VOLUNTEER:
        return HEARD_ASSISTANCE;
    default:
        return h->refusal == MOP_ACCEPTED ? HEARD_OTHER : HEARD_UNREADABLE;
    }
}

static heard_kind kind_of_console(heard *h)
{
    const bool identity = h->length > 0 && h->message[0] == CODE_SYSTEM_ID;
    if (h->length < (identity ? SYSTEM_ID_LEAST : 1))
        return HEARD_UNREADABLE; /* it ends too early */
    h->refusal = MOP_ACCEPTED;
    return identity ? HEARD_SYSTEM_ID : HEARD_OTHER;
}

bool heard_read(heard *h, const uint8_t *raw, size_t length)
{
    memset(h, 0, sizeof *h);
    if (length < LINE_HEADER)
        return false;
    memcpy(h->to, raw, ADDRESS_LENGTH);
    memcpy(h->from, raw + ADDRESS_LENGTH, ADDRESS_LENGTH);
    h->type = raw[12] * 256U + raw[13];
    if (h->type != TYPE_LOAD && h->type != TYPE_CONSOLE)
        return false;
    h->message = raw + length; /* none, and too short, so far */
    h->kind = HEARD_UNREADABLE;
    h->refusal = MOP_REFUSED_SHORT;
    if (length < LINE_HEADER + LENGTH_FIELD)
        return true;
    const size_t there = length - LINE_HEADER - LENGTH_FIELD;
    h->says = raw[LINE_HEADER] + ((size_t)raw[LINE_HEADER + 1] << 8);
    h->message = raw + LINE_HEADER + LENGTH_FIELD;
    h->length = h->says < there ? h->says : there;
    if (h->says > MOP_FRAME_MOST)
        h->refusal = MOP_REFUSED_LONG;
    else if (h->says <= there)
        h->kind = h->type == TYPE_LOAD ? kind_of_load(h) : kind_of_console(h);
    return true;
}

/* ---- In words -------------------------------------------------------- */

/* The name of a code of the remote console. */
static const char *console_words(uint8_t code)
{
    static const char *const names[] = {
        [5] = "request id",
        [6] = "boot",
        [9] = "request counters",
        [11] = "counters",
        [13] = "reserve console",
        [15] = "release console",
        [17] = "console command and poll",
        [19] = "console response and acknowledge",
    };
    const char *name = code < sizeof names / sizeof names[0] ? names[code] : NULL;
    return name == NULL ? "not listed" : name;
}

static const char *to_words(const heard *h, char text[ADDRESS_TEXT])
{
    static const uint8_t everybody[ADDRESS_LENGTH] = {0xFF, 0xFF, 0xFF, 0xFF, 0xFF, 0xFF};
    if (memcmp(h->to, ASSISTANCE, ADDRESS_LENGTH) == 0)
        return "all hosts";
    if (memcmp(h->to, everybody, ADDRESS_LENGTH) == 0)
        return "everybody";
    return memcmp(h->to, CONSOLES, ADDRESS_LENGTH) == 0 ? "all consoles" : address_text(h->to, text);
}

static void format_words(FILE *out, uint8_t format)
{
    if (format != 1)
        fprintf(out, ", format %d", format);
}

static void request_words(FILE *out, const heard *h, const char *to)
{
    const mop_fields *f = &h->fields;
    fprintf(out, "asks %s for a program: type %d (%s), ", to, f->program, program_words(f->program));
    software_words(out, f->form, h->message + f->id_at, f->id_length);
    fputs(", device ", out);
    device_words(out, f->device);
    fputs(", processor ", out);
    processor_words(out, f->processor);
    format_words(out, f->format);
    info_words(out, ", ", h->message + f->data_at, f->data_length);
}

static void offer_words(FILE *out, const heard *h, const char *to)
{
    const mop_fields *f = &h->fields;
    fprintf(out, "offers %s a dump: memory size %" PRIu32 ", device ", to, f->memory_size);
    device_words(out, f->device);
    format_words(out, f->format);
    info_words(out, ", ", h->message + f->data_at, f->data_length);
}

static void system_id_words(FILE *out, const heard *h, const char *to)
{
    const unsigned receipt = h->message[2] + 256U * h->message[3];
    fprintf(out, "tells %s its system id", to);
    if (receipt != 0)
        fprintf(out, " (receipt %u)", receipt);
    info_words(out, ": ", h->message + SYSTEM_ID_LEAST, h->length - SYSTEM_ID_LEAST);
}

/* Whether it is a message of the protocol that is refused as a whole, such as the short form of a request. */
static bool is_refused(const heard *h)
{
    return h->type == TYPE_LOAD && h->length > 0 && h->length == h->says && h->says <= MOP_FRAME_MOST &&
           h->refusal != MOP_REFUSED_CODE;
}

static void refused_words(FILE *out, const heard *h, const char *to)
{
    const uint8_t code = h->message[0];
    const char *name = code_words(code);
    fprintf(out, "sends %s %s %s that is not taken (refused %d: %s): ", to, name[0] == 'a' ? "an" : "a", name,
        h->refusal, refusal_words(h->refusal));
    bytes_words(out, h->message, h->length);
    if (h->length > 1 && (code == MOP_CODE_REQUEST_PROGRAM || code == MOP_CODE_REQUEST_DUMP_SERVICE)) {
        fputs(", device ", out);
        device_words(out, h->message[1]);
    }
}

static void unreadable_words(FILE *out, const heard *h, const char *to)
{
    if (is_refused(h)) {
        refused_words(out, h, to);
        return;
    }
    fprintf(out, "sends %s a frame of type %02X-%02X that is refused (%d): %s", to, h->type >> 8, h->type & 0xFF,
        h->refusal, refusal_words(h->refusal));
    if (h->says > h->length)
        fprintf(out, " (its length field says %zu, and %s%zu came)", h->says,
            h->says > MOP_FRAME_MOST ? "at least " : "", h->length);
    fputs(h->length == 0 ? "" : ": ", out);
    bytes_words(out, h->message, h->length);
}

void heard_words(FILE *out, const heard *h)
{
    char text[ADDRESS_TEXT];
    const char *to = to_words(h, text);
    switch (h->kind) {
    case HEARD_REQUEST:
        request_words(out, h, to);
        break;
    case HEARD_OFFER:
        offer_words(out, h, to);
        break;
    case HEARD_ASSISTANCE:
        fprintf(out, "offers %s assistance", to);
        break;
    case HEARD_SYSTEM_ID:
        system_id_words(out, h, to);
        break;
    case HEARD_UNREADABLE:
        unreadable_words(out, h, to);
        break;
    default:
        fprintf(out, "sends %s code %d of type %02X-%02X (%s), %zu byte%s", to, h->message[0], h->type >> 8,
            h->type & 0xFF, h->type == TYPE_LOAD ? code_words(h->message[0]) : console_words(h->message[0]), h->length,
            h->length == 1 ? "" : "s");
    }
}
