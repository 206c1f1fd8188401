/* The writers: every length of data, and rooms on both sides of the frame's
 * length. */
#include <string.h>

#include "check.h"
#include "lent.h"
#include "make.h"
#include "tests.h"

static lent data, id, out;

static enum call writer(uint8_t code)
{
    static const uint8_t calls[27] = {[0] = WRITE_LOAD_TRANSFER,
        [1] = WRITE_DUMP_COMPLETE,
        [2] = WRITE_LOAD,
        [3] = WRITE_VOLUNTEER,
        [4] = WRITE_REQUEST_DUMP,
        [8] = WRITE_REQUEST_PROGRAM,
        [10] = WRITE_REQUEST_LOAD,
        [12] = WRITE_REQUEST_DUMP_SERVICE,
        [14] = WRITE_DUMP_DATA,
        [20] = WRITE_PARAMETERS,
        [24] = WRITE_LOOP,
        [26] = WRITE_LOOPED};
    return (enum call)calls[code];
}

/* The codes without an id. */
static mop_written write_plain(uint8_t version, const mop_fields *f,
    const uint8_t *bytes, size_t length, uint8_t *to, size_t room)
{
    switch (f->code) {
    case MOP_CODE_LOAD_TRANSFER:
        return mop_write_load_transfer(
            f->number, f->address, bytes, length, f->transfer, to, room);
    case MOP_CODE_LOAD:
        return mop_write_load(f->number, f->address, bytes, length, to, room);
    case MOP_CODE_REQUEST_LOAD:
        return mop_write_request_load(f->number, f->error, to, room);
    case MOP_CODE_REQUEST_DUMP:
        return mop_write_request_dump(f->address, f->count, to, room);
    case MOP_CODE_REQUEST_DUMP_SERVICE:
        return mop_write_request_dump_service(f->device, f->format,
            f->memory_size, f->compatibility, bytes, length, to, room);
    case MOP_CODE_DUMP_DATA:
        return mop_write_dump_data(f->address, bytes, length, to, room);
    case MOP_CODE_DUMP_COMPLETE:
        return mop_write_dump_complete(to, room);
    case MOP_CODE_VOLUNTEER:
        return mop_write_volunteer(to, room);
    case MOP_CODE_PARAMETERS:
        return mop_write_parameters(
            version, f->number, bytes, length, f->transfer, to, room);
    case MOP_CODE_LOOP:
        return mop_write_loop(f->receipt, bytes, length, to, room);
    default:
        return mop_write_looped(f->receipt, bytes, length, to, room);
    }
}

mop_written write_frame(uint8_t version, const mop_fields *f,
    const uint8_t *bytes, size_t length, const uint8_t *name,
    size_t name_length, uint8_t *to, size_t room)
{
    calling(writer(f->code));
    const mop_written answer =
        f->code == MOP_CODE_REQUEST_PROGRAM
            ? mop_write_request_program(f->device, f->format, f->program,
                  f->form, name, name_length, f->processor, bytes, length, to,
                  room)
            : write_plain(version, f, bytes, length, to, room);
    called(answer.refusal);
    return answer;
}

/* The header's refusal, in its order. */
static unsigned wanted(
    uint8_t version, const mop_fields *f, const uint8_t *bytes, size_t room)
{
    if (f->code == MOP_CODE_PARAMETERS && !is_version(version))
        return MOP_REFUSED_RANGE;
    if (f->code == MOP_CODE_REQUEST_PROGRAM &&
        (f->program > 2 || !is_form(f->form) ||
            f->id_length != id_bytes(f->form)))
        return MOP_REFUSED_FIELD;
    if (f->code == MOP_CODE_PARAMETERS &&
        !good_entries(version, bytes, f->data_length))
        return MOP_REFUSED_FIELD;
    const size_t length = least_length(f->code) + f->data_length + f->id_length;
    if (length > MOP_FRAME_MOST)
        return MOP_REFUSED_LONG;
    return length > room ? MOP_REFUSED_ROOM : MOP_ACCEPTED;
}

/* What was written reads as what was asked for. */
static void check_read_back(uint8_t version, const mop_fields *f, size_t length)
{
    const uint8_t *bytes = lent_bytes(&out);
    const mop_fields r = mop_read(version, bytes, length);
    demand(r.refusal == MOP_ACCEPTED, "a frame that can't be read");
    demand(r.code == f->code && r.number == f->number && r.error == f->error &&
               r.device == f->device && r.format == f->format &&
               r.program == f->program && r.form == f->form &&
               r.processor == f->processor &&
               r.compatibility == f->compatibility && r.address == f->address &&
               r.transfer == f->transfer && r.memory_size == f->memory_size &&
               r.count == f->count && r.receipt == f->receipt,
        "other fields");
    demand(r.data_length == f->data_length &&
               memcmp(bytes + r.data_at, lent_bytes(&data), r.data_length) == 0,
        "other data");
    demand(r.id_length == f->id_length &&
               memcmp(bytes + r.id_at, lent_bytes(&id), r.id_length) == 0,
        "another id");
}

/* The fields of f, with the data and the id that it says the lengths of. */
static void check_write(uint8_t version, const mop_fields *f,
    const uint8_t *bytes, const uint8_t *name, size_t room)
{
    uint8_t clear[BEYOND];
    random_bytes(clear, room);
    const unsigned refusal = wanted(version, f, bytes, room);
    for (int side = BEHIND; side <= BEFORE; side++) {
        lent_place(&data, (enum side)side, bytes, f->data_length);
        lent_place(&id, (enum side)side, name, f->id_length);
        lent_place(&out, (enum side)side, clear, room);
        const mop_written answer = write_frame(version, f, lent_in(&data),
            f->data_length, lent_in(&id), f->id_length, lent_out(&out), room);
        demand(answer.refusal == refusal, "not the header's refusal");
        demand(answer.length <= room, "longer than its room");
        demand(lent_same_from(&out, answer.length),
            "bytes behind the frame, or of a refused call, changed");
        if (refusal == MOP_ACCEPTED)
            check_read_back(
                f->code == MOP_CODE_PARAMETERS ? version : MOP_VERSION_3_0, f,
                answer.length);
        else
            demand(answer.length == 0, "a refusal with a length");
    }
}

/* Numbers for the fields that a code has. */
static mop_fields any_fields(uint8_t code)
{
    const bool load = code == 0 || code == 2, service = code == 12;
    const bool program = code == 8, from = code == 4 || code == 14;
    const bool loop = code == 24 || code == 26;
    mop_fields f = {.code = code};
    if (load || code == 10 || code == 20)
        f.number = (uint8_t)hostile();
    if (load || from)
        f.address = (uint32_t)hostile();
    if (code == 0 || code == 20)
        f.transfer = (uint32_t)hostile();
    f.error = (uint8_t)(code == 10 ? hostile() : 0);
    f.count = (uint16_t)(code == 4 ? hostile() : 0);
    f.receipt = (uint16_t)(loop ? hostile() : 0);
    f.memory_size = (uint32_t)(service ? hostile() : 0);
    f.compatibility = (uint8_t)(service ? hostile() : 0);
    f.device = (uint8_t)(service || program ? hostile() : 0);
    f.format = (uint8_t)(service || program ? hostile() : 0);
    f.processor = (uint8_t)(program ? hostile() : 0);
    f.program = (uint8_t)(program ? below(once_in(8) ? 256 : 3) : 0);
    f.form = (uint8_t)(program ? once_in(2) ? below(18) : hostile() : 0);
    if (program)
        f.id_length = once_in(4) ? below(40) : id_bytes(f.form);
    return f;
}

/* A code with so many bytes of data, in rooms around the frame's length. The
 * version is code 20's. */
static void check_rooms(uint8_t version, uint8_t code, size_t length)
{
    uint8_t bytes[2 * BEYOND], name[40];
    mop_fields f = any_fields(code);
    random_bytes(bytes, length);
    random_bytes(name, sizeof name);
    f.data_length = length;
    if (code == MOP_CODE_PARAMETERS && !once_in(4))
        f.data_length = make_entries(bytes, length);
    const size_t frame = least_length(code) + f.data_length + f.id_length;
    const size_t rooms[] = {
        0, frame - 1, frame, frame + 1, 1500, below(BEYOND)};
    for (size_t i = 0; i < sizeof rooms / sizeof rooms[0]; i++)
        if (rooms[i] < BEYOND)
            check_write(version, &f, bytes, name, rooms[i]);
}

void test_writing(void)
{
    data = lent_make(2 * BEYOND);
    id = lent_make(BEYOND);
    out = lent_make(BEYOND);
    for (size_t length = 0; length < BEYOND; length += stride())
        for (int i = 0; i < CODES; i++)
            if (!is_exact(codes[i]))
                check_rooms(any_version(), codes[i], length);
    for (unsigned i = 0; i < cases(2000); i++)
        for (int k = 0; k < CODES; k++)
            check_rooms(any_version(), codes[k],
                is_exact(codes[k]) ? 0 : below(BEYOND));
    for (int version = 0; version <= UINT8_MAX; version++)
        check_rooms((uint8_t)version, MOP_CODE_PARAMETERS, below(BEYOND));
}
