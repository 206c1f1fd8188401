/* mop_read: every code at every length, damaged frames, and every version. */
#include <string.h>

#include "check.h"
#include "lent.h"
#include "make.h"
#include "tests.h"

static lent frame, out;

static mop_fields read_frame(
    uint8_t version, const uint8_t *bytes, size_t length)
{
    calling(READ);
    const mop_fields f = mop_read(version, bytes, length);
    called(f.refusal);
    return f;
}

/* The refusal that the header gives before the bytes are looked at in turn;
 * -1 if it is up to them. */
static int early_refusal(uint8_t version, const uint8_t *bytes, size_t length)
{
    if (!is_version(version))
        return MOP_REFUSED_RANGE;
    if (length == 0)
        return MOP_REFUSED_SHORT;
    const uint8_t code = bytes[0];
    if (least_length(code) == 0)
        return MOP_REFUSED_CODE;
    if (length < least_length(code))
        return MOP_REFUSED_SHORT;
    if (length > MOP_FRAME_MOST)
        return MOP_REFUSED_LONG;
    if (is_exact(code) && length > least_length(code))
        return MOP_REFUSED_LONG;
    return code == 8 || code == 20 ? -1 : MOP_ACCEPTED;
}

/* What code 8 is refused for, byte by byte. */
static int program_refusal(const uint8_t *bytes, size_t length)
{
    if (bytes[3] > 2 || !is_form(bytes[4]))
        return MOP_REFUSED_FIELD;
    if (length < 6 + id_bytes(bytes[4]))
        return MOP_REFUSED_SHORT;
    return MOP_ACCEPTED;
}

/* What code 20 is refused for, byte by byte. The frame's end is behind the byte
 * that is looked at. */
static int parameters_refusal(
    uint8_t version, const uint8_t *bytes, size_t length)
{
    size_t at = 2;
    while (at < length && bytes[at] != 0) {
        if (!good_entry(version, bytes[at], 10) &&
            !good_entry(version, bytes[at], 0))
            return MOP_REFUSED_FIELD;
        if (at + 1 >= length)
            return MOP_REFUSED_SHORT;
        const uint8_t count = bytes[at + 1];
        if (!good_entry(version, bytes[at], count))
            return MOP_REFUSED_FIELD;
        for (int i = 0; i < count && at + 2 + (size_t)i < length; i++)
            if (bytes[at] == 5 && !good_time_byte(bytes + at + 2, i))
                return MOP_REFUSED_FIELD;
        at += 2 + (size_t)count;
    }
    if (length < at + 5)
        return MOP_REFUSED_SHORT;
    return length > at + 5 ? MOP_REFUSED_LONG : MOP_ACCEPTED;
}

/* No code, and every field but the refusal is 0. */
static bool is_blank(const mop_fields *f)
{
    return f->data_at == 0 && f->data_length == 0 && f->id_at == 0 &&
           f->id_length == 0 && f->address == 0 && f->transfer == 0 &&
           f->memory_size == 0 && f->count == 0 && f->receipt == 0 &&
           f->code == MOP_CODE_NONE && f->number == 0 && f->error == 0 &&
           f->device == 0 && f->format == 0 && f->program == 0 &&
           f->form == 0 && f->processor == 0 && f->compatibility == 0;
}

/* An accepted frame is what its writer writes of its fields. */
static void check_back(
    uint8_t version, const mop_fields *f, const uint8_t *bytes, size_t length)
{
    static const uint8_t clear[MOP_FRAME_MOST];
    demand(f->data_at <= length && f->data_length <= length - f->data_at,
        "data beyond the frame");
    demand(f->id_at <= length && f->id_length <= length - f->id_at,
        "an id beyond the frame");
    lent_place(&out, BEFORE, clear, length);
    const mop_written back = write_frame(version, f, bytes + f->data_at,
        f->data_length, bytes + f->id_at, f->id_length, lent_out(&out), length);
    demand(back.refusal == MOP_ACCEPTED, "a frame that can't be written back");
    demand(
        back.length == length && memcmp(lent_bytes(&out), bytes, length) == 0,
        "another frame written back");
}

static void check_read(uint8_t version, const uint8_t *bytes, size_t length)
{
    mop_fields sides[2];
    for (int side = BEHIND; side <= BEFORE; side++) {
        lent_place(&frame, (enum side)side, bytes, length);
        sides[side] = read_frame(version, lent_in(&frame), length);
    }
    const mop_fields *f = &sides[0];
    int wanted = early_refusal(version, bytes, length);
    if (wanted < 0)
        wanted = bytes[0] == 8 ? program_refusal(bytes, length)
                               : parameters_refusal(version, bytes, length);
    demand(f->refusal == sides[1].refusal, "two answers to one frame");
    demand(f->refusal == wanted, "not the header's refusal");
    if (f->refusal != MOP_ACCEPTED) {
        demand(is_blank(f), "a refusal with fields");
        return;
    }
    demand(f->code == bytes[0], "another code");
    if (f->code == 20)
        demand(good_entries(version, bytes + f->data_at, f->data_length),
            "entries that break a rule");
    check_back(version, f, bytes, length);
    check_back(version, &sides[1], bytes, length);
}

void test_reading(void)
{
    uint8_t bytes[BEYOND];
    frame = lent_make(BEYOND);
    out = lent_make(BEYOND);
    for (size_t length = 0; length < BEYOND; length += stride())
        for (uint64_t code = 0; code < 32; code++) {
            random_bytes(bytes, length);
            bytes[0] = (uint8_t)(code < 30 ? code : hostile());
            check_read(any_version(), bytes, length);
        }
    for (unsigned i = 0; i < cases(300000); i++)
        check_read(any_version(), bytes, any_frame(bytes));
    for (int version = 0; version <= UINT8_MAX; version++) {
        check_read((uint8_t)version, bytes, make_frame(20, bytes));
        check_read((uint8_t)version, bytes, any_frame(bytes));
        check_read((uint8_t)version, bytes, 0);
    }
}
