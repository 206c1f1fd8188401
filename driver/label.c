#include "label.h"

#include <inttypes.h>
#include <stdarg.h>
#include <stdbool.h>
#include <stdio.h>
#include <string.h>

#include "identity.h"
#include "mop.h"
#include "words.h"

static void say(char text[LABEL_TEXT], const char *format, ...) __attribute__((format(printf, 2, 3)));

static void say(char text[LABEL_TEXT], const char *format, ...)
{
    va_list values;
    va_start(values, format);
    vsnprintf(text, LABEL_TEXT, format, values);
    va_end(values);
}

static void say_bytes(char text[LABEL_TEXT], size_t length, uint32_t address)
{
    say(text, "%zu byte%s at 0x%08" PRIX32, length, length == 1 ? "" : "s", address);
}

/* Which program is asked for, and the software id if there is one. */
static void say_program(char text[LABEL_TEXT], const uint8_t *frame, const mop_fields *f)
{
    FILE *out = fmemopen(text, LABEL_TEXT, "w");
    if (out == NULL)
        return;
    fprintf(out, "%s, device ", program_words(f->program));
    device_words(out, f->device);
    if (f->id_length > 0) {
        fputs(", ", out);
        software_words(out, f->form, frame + f->id_at, f->id_length);
    }
    (void)fclose(out);
    text[LABEL_TEXT - 1] = '\0';
}

static void say_offer(char text[LABEL_TEXT], const mop_fields *f)
{
    say(text, "memory of %" PRIu32 " bytes, device %d", f->memory_size, f->device);
}

/* What a frame says behind its name. */
static void say_detail(char text[LABEL_TEXT], const uint8_t *frame, const mop_fields *f)
{
    const char *plural = f->data_length == 1 ? "" : "s";
    switch (f->code) {
    case MOP_CODE_LOAD_TRANSFER:
        say(text, "%zu byte%s at 0x%08" PRIX32 ", start at 0x%08" PRIX32, f->data_length, plural, f->address,
            f->transfer);
        break;
    case MOP_CODE_LOAD:
    case MOP_CODE_DUMP_DATA:
        say_bytes(text, f->data_length, f->address);
        break;
    case MOP_CODE_REQUEST_DUMP:
        say_bytes(text, f->count, f->address);
        break;
    case MOP_CODE_REQUEST_PROGRAM:
        say_program(text, frame, f);
        break;
    case MOP_CODE_REQUEST_LOAD:
        if (f->error != 0)
            say(text, "error %d: the load before was not taken", f->error);
        break;
    case MOP_CODE_REQUEST_DUMP_SERVICE:
        say_offer(text, f);
        break;
    case MOP_CODE_PARAMETERS:
        say(text, "%zu byte%s of entries, start at 0x%08" PRIX32, f->data_length, plural, f->transfer);
        break;
    case MOP_CODE_LOOP:
    case MOP_CODE_LOOPED:
        say(text, "receipt %d, %zu byte%s", f->receipt, f->data_length, plural);
        break;
    default:
        break;
    }
}

/* The message's name, with its number where it has one. */
static void say_name(char text[LABEL_TEXT], const mop_fields *f)
{
    const bool numbered = f->code == MOP_CODE_LOAD_TRANSFER || f->code == MOP_CODE_LOAD ||
                          f->code == MOP_CODE_REQUEST_LOAD || f->code == MOP_CODE_PARAMETERS;
    if (numbered)
        say(text, "%s %d", code_words(f->code), f->number);
    else
        say(text, "%s", code_words(f->code));
}

label label_of(const uint8_t *frame, size_t length)
{
    label l = {"", ""};
    mop_fields f = mop_read(MOP_VERSION_3_0, frame, length);
    if (f.refusal == MOP_ACCEPTED) {
        say_name(l.name, &f);
        say_detail(l.detail, frame, &f);
    } else {
        say(l.name, "a frame that cannot be read");
        say(l.detail, "%s", refusal_words(f.refusal));
    }
    return l;
}
