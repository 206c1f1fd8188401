/* The machine end: any settings, records, frames and lengths. */
#include <stdlib.h>
#include <string.h>

#include "check.h"
#include "lent.h"
#include "machine.h"
#include "make.h"
#include "tests.h"

static lent frame, memory, reply;

/* Whether there is no window, or it ends at the last address or before. */
static bool good_window(mop_window w)
{
    const uint64_t end = UINT64_C(1) << 32;
    return w.length == 0 || (w.start <= end && w.length <= end - w.start);
}

unsigned machine_refusal(const machine_input *in)
{
    const uint32_t d = in->settings.reply_bytes;
    const uint8_t version = in->settings.version;
    if (d < 1 || d > MOP_DUMP_DATA_MOST)
        return MOP_REFUSED_RANGE;
    if (in->memory_length > MOP_MEMORY_MOST)
        return MOP_REFUSED_RANGE;
    if (!good_window(in->settings.window))
        return MOP_REFUSED_RANGE;
    if (!is_version(version) || in->machine.state > MOP_MACHINE_STARTED)
        return MOP_REFUSED_RANGE;
    if (version == MOP_VERSION_2_1 && in->memory_length < 64)
        return MOP_REFUSED_MEMORY;
    if (in->room < MOP_FRAME_MOST)
        return MOP_REFUSED_ROOM;
    return in->call == MACHINE_FRAME
               ? mop_read(version, in->frame, in->frame_length).refusal
               : MOP_ACCEPTED;
}

static mop_machine_step make_call(const machine_input *in)
{
    const size_t size = in->memory_length, room = in->room;
    uint8_t *to = lent_out(&reply);
    calling(in->call);
    if (in->call == MACHINE_START_LOAD)
        return mop_machine_start_load(
            in->settings, lent_in(&memory), size, to, room);
    if (in->call == MACHINE_START_DUMP)
        return mop_machine_start_dump(
            in->settings, lent_in(&memory), size, to, room);
    if (in->call == MACHINE_TIMER)
        return mop_machine_timer(
            in->settings, in->machine, lent_in(&memory), size, to, room);
    return mop_machine_frame(in->settings, in->machine, lent_in(&frame),
        in->frame_length, lent_out(&memory), size, to, room);
}

static bool same_value(const mop_value *a, const mop_value *b)
{
    return a->length == b->length &&
           memcmp(a->bytes, b->bytes, MOP_VALUE_MOST) == 0;
}

static bool same_parameters(const mop_parameters *a, const mop_parameters *b)
{
    return same_value(&a->target_name, &b->target_name) &&
           same_value(&a->target_address, &b->target_address) &&
           same_value(&a->host_name, &b->host_name) &&
           same_value(&a->host_address, &b->host_address) &&
           same_value(&a->host_time, &b->host_time);
}

static bool same(mop_machine a, mop_machine b)
{
    return a.transfer == b.transfer && a.state == b.state &&
           a.expected == b.expected && a.error == b.error &&
           same_parameters(&a.parameters, &b.parameters);
}

/* What the entries of a code 20 say: of each type the last value. */
static mop_parameters said(const uint8_t *entries, size_t length)
{
    mop_parameters p = {0};
    mop_value *const values[] = {NULL, &p.target_name, &p.target_address,
        &p.host_name, &p.host_address, &p.host_time};
    for (size_t at = 0; at < length; at += 2 + (size_t)entries[at + 1]) {
        mop_value *value = values[entries[at]];
        *value = (mop_value){.length = entries[at + 1]};
        memcpy(value->bytes, entries + at + 2, value->length);
    }
    return p;
}

/* Whether the number rule lets the machine take this number. */
static bool takes(mop_machine m, uint8_t number)
{
    if (m.state == MOP_MACHINE_LOADING)
        return number == 0 || number == m.expected;
    return number == 0 &&
           (m.state == MOP_MACHINE_IDLE || m.state == MOP_MACHINE_REQUESTING);
}

/* Whether the reply is this code 10, or none. */
static bool replies(mop_written answer, bool any, uint8_t number, uint8_t error)
{
    const uint8_t wanted_bytes[] = {MOP_CODE_REQUEST_LOAD, number, error};
    if (!any)
        return answer.length == 0;
    return answer.length == sizeof wanted_bytes &&
           memcmp(lent_bytes(&reply), wanted_bytes, sizeof wanted_bytes) == 0;
}

/* A load or parameters: what is taken makes this record and gets this error.
 * A repeat gets the last reply again; all others are ignored. */
static void check_numbered(const machine_input *in, mop_fields f,
    mop_machine_step step, mop_machine next, uint8_t error)
{
    const mop_machine *m = &in->machine;
    const bool taken = takes(*m, f.number);
    const bool repeat = m->state == MOP_MACHINE_LOADING && f.number != 0 &&
                        (uint8_t)(f.number + 1) == m->expected;
    demand(same(step.machine, taken ? next : *m), "another record");
    demand(replies(step.answer, taken || repeat, (uint8_t)(f.number + 1),
               taken ? error : m->error),
        "another reply");
}

/* Whether so many bytes fit at an address: they are in memory and, address by
 * address, none is in the window. */
static bool fits(const machine_input *in, uint64_t first, size_t length)
{
    const mop_window w = in->settings.window;
    const uint64_t end = first + length;
    for (uint64_t address = first; address < end; address++)
        if (address >= w.start && address - w.start < w.length)
            return false;
    return end <= in->memory_length;
}

/* Whether memory is the old one with these bytes laid over it. */
static bool laid(
    const machine_input *in, size_t at, const uint8_t *bytes, size_t length)
{
    const uint8_t *now = lent_bytes(&memory);
    return memcmp(now, in->memory, at) == 0 &&
           memcmp(now + at, bytes, length) == 0 &&
           lent_same_from(&memory, at + length);
}

/* ---- The parameter block. */

size_t block_at(size_t memory_length)
{
    return (memory_length + 1) / 2 * 2 - 64;
}

/* A name in it. What is not written is as it was. */
static void block_name(uint8_t *to, const mop_value *name)
{
    for (size_t i = 0; i < (name->length > 0 ? 6 : 2); i++)
        to[i] = (uint8_t)(i < name->length   ? name->bytes[i]
                          : name->length > 0 ? ' '
                                             : 0);
}

/* Whether memory is the old one with the block of these values over it. */
static bool block_laid(const machine_input *in, const mop_parameters *p)
{
    const size_t at = block_at(in->memory_length);
    uint8_t block[14];
    memcpy(block, in->memory + at, sizeof block);
    block[0] = p->target_address.bytes[0];
    block[1] = p->target_address.bytes[1];
    block_name(block + 2, &p->target_name);
    block_name(block + 8, &p->host_name);
    return laid(in, at, block, sizeof block);
}

/* ---- Frames. */

/* What is taken and does not fit: the record then. */
static mop_machine rejects(const machine_input *in, mop_fields f)
{
    return (mop_machine){.parameters = in->machine.parameters,
        .state = MOP_MACHINE_LOADING,
        .expected = (uint8_t)(f.number + 1),
        .error = 1};
}

/* A code 20 that is taken and fits starts the machine and is kept, whatever
 * stood there; under 2.1 its block is in memory. Of any other nothing is. */
static void check_parameters_frame(
    const machine_input *in, mop_fields f, mop_machine_step step)
{
    const bool old = in->settings.version == MOP_VERSION_2_1;
    const bool good = !old || fits(in, block_at(in->memory_length), 14);
    const mop_machine started = {.transfer = f.transfer,
        .state = MOP_MACHINE_STARTED,
        .parameters = said(in->frame + f.data_at, f.data_length)};
    if (good && old && takes(in->machine, f.number))
        demand(block_laid(in, &started.parameters),
            "memory is not the old one with the block in it");
    else
        demand(lent_same_from(&memory, 0), "parameters changed memory");
    check_numbered(in, f, step, good ? started : rejects(in, f), !good);
}

/* A load that is taken and fits is in memory; of any other nothing is. */
static void check_load_frame(
    const machine_input *in, mop_fields f, mop_machine_step step)
{
    const bool good = fits(in, f.address, f.data_length);
    const bool starts = good && f.code == MOP_CODE_LOAD_TRANSFER;
    mop_machine next = rejects(in, f);
    next.error = !good;
    if (starts)
        next = (mop_machine){.parameters = in->machine.parameters,
            .state = MOP_MACHINE_STARTED,
            .transfer = f.transfer};
    if (good && takes(in->machine, f.number))
        demand(laid(in, f.address, in->frame + f.data_at, f.data_length),
            "memory is not the old one with the load in it");
    else
        demand(
            lent_same_from(&memory, 0), "memory changed, and no load is in it");
    check_numbered(in, f, step, next, !good);
}

/* A code 4 is answered with memory, the window like the rest, and zeros. */
static void check_read_frame(
    const machine_input *in, mop_fields f, mop_machine_step step)
{
    const bool answers = in->machine.state == MOP_MACHINE_IDLE ||
                         in->machine.state == MOP_MACHINE_OFFERING;
    const size_t d = in->settings.reply_bytes;
    const size_t length = f.count < d ? f.count : d;
    const uint8_t *bytes = lent_bytes(&reply);
    demand(same(step.machine, in->machine) && lent_same_from(&memory, 0),
        "a dump changed the machine");
    demand(step.answer.length == (answers ? 5 + length : 0), "another length");
    if (!answers)
        return;
    demand(bytes[0] == MOP_CODE_DUMP_DATA &&
               memcmp(bytes + 1, in->frame + 1, 4) == 0,
        "another code or address");
    for (size_t i = 0; i < length; i++) {
        const uint64_t at = (uint64_t)f.address + i;
        demand(bytes[5 + i] == (at < in->memory_length ? in->memory[at] : 0),
            "not what stands in memory");
    }
}

/* Nothing else changes what it keeps. */
static void check_frame(const machine_input *in, mop_machine_step step)
{
    const mop_fields f =
        mop_read(in->settings.version, in->frame, in->frame_length);
    if (f.code == MOP_CODE_PARAMETERS)
        check_parameters_frame(in, f, step);
    else
        demand(
            same_parameters(&step.machine.parameters, &in->machine.parameters),
            "what it keeps was changed");
    if (f.code == MOP_CODE_LOAD || f.code == MOP_CODE_LOAD_TRANSFER)
        check_load_frame(in, f, step);
    if (f.code == MOP_CODE_REQUEST_DUMP)
        check_read_frame(in, f, step);
}

static void check_answer(
    const machine_input *in, unsigned refusal, mop_machine_step step)
{
    check_written(step.answer, refusal, &reply);
    demand(lent_same_from(&memory, in->memory_length), "a red zone of memory");
    if (refusal != MOP_ACCEPTED) {
        demand(same(step.machine, in->machine), "a refusal changed the record");
        demand(lent_same_from(&memory, 0), "a refusal changed memory");
        return;
    }
    demand(step.machine.state <= MOP_MACHINE_STARTED, "a state that is none");
    if (in->call == MACHINE_FRAME)
        check_frame(in, step);
    else
        demand(lent_same_from(&memory, 0), "a timer changed memory");
    if (step.answer.length == 0 && step.machine.state == in->machine.state)
        demand(same(step.machine, in->machine) && lent_same_from(&memory, 0),
            "neither taken nor ignored");
    if (step.answer.length > 0)
        demand(mop_read(
                   in->settings.version, lent_bytes(&reply), step.answer.length)
                       .refusal == 0,
            "a reply that can't be read");
}

mop_machine_step machine_check(machine_input *in)
{
    static uint8_t clear[BEYOND];
    mop_machine_step steps[2];
    if (in->call == MACHINE_START_LOAD || in->call == MACHINE_START_DUMP) {
        const bool load = in->call == MACHINE_START_LOAD;
        in->machine = (mop_machine){.state = (uint8_t)(load ? 2 : 1)};
    }
    const unsigned refusal = machine_refusal(in);
    random_bytes(clear, in->room);
    for (int side = BEHIND; side <= BEFORE; side++) {
        lent_place(&frame, (enum side)side, in->frame, in->frame_length);
        lent_place(&memory, (enum side)side, in->memory, in->memory_length);
        lent_place(&reply, (enum side)side, clear, in->room);
        steps[side] = make_call(in);
        called(steps[side].answer.refusal);
        check_answer(in, refusal, steps[side]);
    }
    demand(same(steps[0].machine, steps[1].machine) &&
               steps[0].answer.length == steps[1].answer.length,
        "two answers to one call");
    return steps[0];
}

const uint8_t *machine_memory(void)
{
    return lent_bytes(&memory);
}

/* A window in memory or near its end, none, or any. */
static mop_window any_window(size_t memory_length)
{
    if (once_in(8))
        return (mop_window){hostile(), hostile()};
    if (once_in(3))
        return (mop_window){hostile(), 0};
    return (mop_window){below(memory_length + 4), below(memory_length / 2 + 4)};
}

/* Settings and a record, mostly good; the padding is anything. */
static void any_numbers(machine_input *in)
{
    random_bytes((uint8_t *)&in->settings, sizeof in->settings);
    random_bytes((uint8_t *)&in->machine, sizeof in->machine);
    in->settings.reply_bytes =
        (uint32_t)(once_in(8) ? hostile() : 1 + below(MOP_DUMP_DATA_MOST));
    in->settings.window = any_window(in->memory_length);
    in->settings.version = any_version();
    in->machine.state = (uint8_t)(once_in(16) ? hostile() : below(5));
    in->room = any_room();
}

/* A frame, often one that the machine takes. */
static void any_machine_frame(machine_input *in)
{
    static const uint8_t heeds[] = {0, 2, 4, 20, 24, 1};
    in->frame_length = any_frame(in->frame);
    if (once_in(3))
        return;
    const uint8_t code = heeds[below(sizeof heeds)];
    in->frame_length = make_frame(code, in->frame);
    if (code == 0 || code == 2 || code == 20)
        in->frame[1] =
            (uint8_t)(once_in(3) ? 0 : in->machine.expected - below(3));
    if (code == 0 || code == 2)
        put32(in->frame + 2, below(in->memory_length + 2));
    if (code == 4)
        put32(in->frame + 1, below(in->memory_length + 2));
}

static void check_any(const uint8_t *bytes, size_t length, enum call call)
{
    machine_input in = {.call = call, .memory = bytes, .memory_length = length};
    any_numbers(&in);
    any_machine_frame(&in);
    machine_check(&in);
}

/* ---- Parameters. */

mop_machine_step kept(
    machine_input *in, mop_machine_settings settings, const entry *entries)
{
    uint8_t *to = in->frame;
    in->call = MACHINE_FRAME;
    in->settings = settings;
    in->room = MOP_FRAME_MOST;
    *to++ = MOP_CODE_PARAMETERS;
    *to++ = 0;
    for (; entries->type != 0; entries++) {
        const size_t length = strlen(entries->letters);
        *to++ = entries->type;
        *to++ = (uint8_t)length;
        memcpy(to, entries->letters, length);
        to += length;
    }
    *to++ = 0;
    put32(to, 0x01020304);
    in->frame_length = (size_t)(to + 4 - in->frame);
    return machine_check(in);
}

static const entry all_entries[] = {{MOP_ENTRY_TARGET_NAME, "ABCDEFGHIJKLMNOP"},
    {MOP_ENTRY_TARGET_ADDRESS, "abcdef"},
    {MOP_ENTRY_HOST_NAME, "QRSTUVWXYZ012345"},
    {MOP_ENTRY_HOST_ADDRESS, "ghijkl"},
    {MOP_ENTRY_HOST_TIME, "\x13\x55\x03\x1F\x17\x3B\x3B\x63\xFB\xE2"},
    {0, NULL}};

static const entry no_entries[] = {{0, NULL}};

/* Types more than once and in any order, the shorter value last. */
static const entry entries_again[] = {{MOP_ENTRY_HOST_NAME, "QRSTUVWXYZ012345"},
    {MOP_ENTRY_TARGET_ADDRESS, "abcdef"}, {MOP_ENTRY_TARGET_ADDRESS, "m"},
    {MOP_ENTRY_HOST_NAME, ""}, {MOP_ENTRY_TARGET_NAME, "N"},
    {MOP_ENTRY_TARGET_NAME, "OP"}, {0, NULL}};

/* What is kept, over a record that keeps longer values. */
static void check_parameters(void)
{
    static const mop_machine_settings s = {
        .reply_bytes = 1, .version = MOP_VERSION_3_0};
    static machine_input in;
    const mop_parameters none = {0}, again = {.target_name = {2, {'O', 'P'}},
                                         .target_address = {1, {'m'}}};
    const mop_parameters all = kept(&in, s, all_entries).machine.parameters;
    demand(all.target_name.length == 16 && all.target_name.bytes[15] == 'P' &&
               all.target_address.length == 6 &&
               all.target_address.bytes[5] == 'f' &&
               all.host_name.length == 16 && all.host_name.bytes[0] == 'Q' &&
               all.host_address.length == 6 &&
               all.host_address.bytes[0] == 'g' && all.host_time.length == 10 &&
               all.host_time.bytes[9] == 0xE2,
        "not what was given");
    in.machine = (mop_machine){.parameters = all};
    const mop_parameters twice = kept(&in, s, entries_again).machine.parameters;
    demand(same_parameters(&twice, &again), "not the last values alone");
    const mop_parameters nothing = kept(&in, s, no_entries).machine.parameters;
    demand(same_parameters(&nothing, &none), "values that were not given");
}

static const enum call each[] = {
    MACHINE_START_LOAD, MACHINE_START_DUMP, MACHINE_TIMER, MACHINE_FRAME};

/* A memory of the greatest length, and one byte more. */
static void check_longest(void)
{
    uint8_t *bytes = calloc(MOP_MEMORY_MOST + 1, 1);
    if (bytes == NULL)
        exit(2);
    for (unsigned i = 0; i < cases(40); i++)
        check_any(bytes, MOP_MEMORY_MOST + i % 2, each[i / 2 % 4]);
    free(bytes);
}

/* Often on both sides of 64. */
static size_t any_memory(size_t most)
{
    return once_in(8) ? below(most) : once_in(2) ? below(100) : 60 + below(40);
}

void test_machine(void)
{
    uint8_t bytes[2 * BEYOND];
    frame = lent_make(BEYOND);
    memory = lent_make(MOP_MEMORY_MOST + 1);
    reply = lent_make(BEYOND);
    random_bytes(bytes, sizeof bytes);
    for (size_t length = 0; length < BEYOND; length += stride()) {
        machine_input in = {.memory = bytes, .memory_length = length};
        for (int i = 0; i < 32; i++) {
            in.call = i < 3 ? each[i] : MACHINE_FRAME;
            any_numbers(&in);
            in.frame_length = length;
            random_bytes(in.frame, length);
            in.frame[0] = (uint8_t)i;
            machine_check(&in);
        }
    }
    for (unsigned i = 0; i < cases(200000); i++)
        check_any(bytes, any_memory(sizeof bytes),
            once_in(8) ? each[below(4)] : MACHINE_FRAME);
    check_parameters();
    check_longest();
}
