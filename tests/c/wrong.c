/* Wrong calls, to see that the test finds them: WRONG says which. The linker
 * puts each in the place of the library's (--wrap); tests/c/wrong.sh has the
 * list. */
#include <string.h>

#include "make.h"
#include "mop.h"

#define WRAP(name) __wrap_##name
#define REAL(name) __real_##name

mop_fields REAL(mop_read)(uint8_t, const uint8_t *, size_t);
mop_fields WRAP(mop_read)(uint8_t, const uint8_t *, size_t);
mop_written REAL(mop_write_loop)(
    uint16_t, const uint8_t *, size_t, uint8_t *, size_t);
mop_written WRAP(mop_write_loop)(
    uint16_t, const uint8_t *, size_t, uint8_t *, size_t);
mop_image REAL(mop_image_check)(const uint8_t *, size_t, uint32_t);
mop_image WRAP(mop_image_check)(const uint8_t *, size_t, uint32_t);
mop_machine_step REAL(mop_machine_frame)(mop_machine_settings, mop_machine,
    const uint8_t *, size_t, uint8_t *, size_t, uint8_t *, size_t);
mop_machine_step WRAP(mop_machine_frame)(mop_machine_settings, mop_machine,
    const uint8_t *, size_t, uint8_t *, size_t, uint8_t *, size_t);
mop_machine_step REAL(mop_machine_timer)(mop_machine_settings, mop_machine,
    const uint8_t *, size_t, uint8_t *, size_t);
mop_machine_step WRAP(mop_machine_timer)(mop_machine_settings, mop_machine,
    const uint8_t *, size_t, uint8_t *, size_t);
mop_load_step REAL(mop_load_timer)(mop_load_settings, mop_load, const uint8_t *,
    size_t, const uint8_t *, size_t, uint8_t *, size_t);
mop_load_step WRAP(mop_load_timer)(mop_load_settings, mop_load, const uint8_t *,
    size_t, const uint8_t *, size_t, uint8_t *, size_t);
mop_dump_step REAL(mop_dump_frame)(mop_dump_settings, mop_dump, const uint8_t *,
    size_t, uint8_t *, size_t, uint8_t *, size_t);
mop_dump_step WRAP(mop_dump_frame)(mop_dump_settings, mop_dump, const uint8_t *,
    size_t, uint8_t *, size_t, uint8_t *, size_t);

mop_written REAL(mop_load_update_frame)(mop_load_settings, mop_load *,
    const uint8_t *, size_t, const uint8_t *, size_t, const uint8_t *, size_t,
    uint8_t *, size_t);
mop_written WRAP(mop_load_update_frame)(mop_load_settings, mop_load *,
    const uint8_t *, size_t, const uint8_t *, size_t, const uint8_t *, size_t,
    uint8_t *, size_t);
mop_written REAL(mop_dump_update_timer)(
    mop_dump_settings, mop_dump *, const uint8_t *, size_t, uint8_t *, size_t);
mop_written WRAP(mop_dump_update_timer)(
    mop_dump_settings, mop_dump *, const uint8_t *, size_t, uint8_t *, size_t);

/* The check of an image, and the library's own in its place. */
#define WRONG_IMAGE                                                            \
    mop_image WRAP(mop_image_check)(                                           \
        const uint8_t *file, size_t length, uint32_t segment_size)
#define REAL_IMAGE REAL(mop_image_check)(file, length, segment_size)

/* The same of the machine. */
#define WRONG_FRAME                                                            \
    mop_machine_step WRAP(mop_machine_frame)(mop_machine_settings settings,    \
        mop_machine machine, const uint8_t *frame, size_t length,              \
        uint8_t *memory, size_t size, uint8_t *reply, size_t room)
#define REAL_FRAME                                                             \
    REAL(mop_machine_frame)                                                    \
    (settings, machine, frame, length, memory, size, reply, room)
#define WRONG_TIMER                                                            \
    mop_machine_step WRAP(mop_machine_timer)(mop_machine_settings settings,    \
        mop_machine machine, const uint8_t *memory, size_t size,               \
        uint8_t *reply, size_t room)
#define REAL_TIMER                                                             \
    REAL(mop_machine_timer)(settings, machine, memory, size, reply, room)

/* The same of a load and of a dump. */
#define WRONG_LOAD_FRAME                                                       \
    mop_written WRAP(mop_load_update_frame)(mop_load_settings settings,        \
        mop_load *const session, const uint8_t *file, size_t size,             \
        const uint8_t *string, size_t string_length, const uint8_t *frame,     \
        size_t length, uint8_t *reply, size_t room)
#define REAL_LOAD_FRAME                                                        \
    REAL(mop_load_update_frame)                                                \
    (settings, session, file, size, string, string_length, frame, length,      \
        reply, room)
#define WRONG_LOAD_TIMER                                                       \
    mop_load_step WRAP(mop_load_timer)(mop_load_settings settings,             \
        mop_load session, const uint8_t *file, size_t size,                    \
        const uint8_t *string, size_t length, uint8_t *reply, size_t room)
#define REAL_LOAD_TIMER                                                        \
    REAL(mop_load_timer)                                                       \
    (settings, session, file, size, string, length, reply, room)
#define WRONG_DUMP_FRAME                                                       \
    mop_dump_step WRAP(mop_dump_frame)(mop_dump_settings settings,             \
        mop_dump session, const uint8_t *frame, size_t length,                 \
        uint8_t *buffer, size_t size, uint8_t *reply, size_t room)
#define REAL_DUMP_FRAME                                                        \
    REAL(mop_dump_frame)                                                       \
    (settings, session, frame, length, buffer, size, reply, room)
#define WRONG_DUMP_TIMER                                                       \
    mop_written WRAP(mop_dump_update_timer)(mop_dump_settings settings,        \
        mop_dump *const session, const uint8_t *buffer, size_t size,           \
        uint8_t *reply, size_t room)
#define REAL_DUMP_TIMER                                                        \
    REAL(mop_dump_update_timer)(settings, session, buffer, size, reply, room)

#if WRONG >= 22
#define ADDRESSES (UINT64_C(1) << 32)

/* A window that is not refused, one byte longer or shorter at an end. */
static inline mop_window with_end(mop_window w, int front, int back)
{
    const uint64_t end = w.start + w.length;
    if (w.length == 0 || w.length > ADDRESSES || w.start > ADDRESSES ||
        end > ADDRESSES || (front < 0 && w.start == 0) ||
        (back > 0 && end == ADDRESSES))
        return w;
    return (mop_window){
        w.start + (uint64_t)front, w.length - (uint64_t)front + (uint64_t)back};
}

static inline int inside(mop_window w, uint64_t address)
{
    return address >= w.start && address - w.start < w.length;
}

/* Whether the answer is that the load does not fit. */
static inline int rejected(mop_written answer, const uint8_t *reply)
{
    return answer.length == 3 && reply[0] == MOP_CODE_REQUEST_LOAD && reply[2];
}

/* Where the parameter block begins, in a memory that has one. */
static inline size_t block_at(size_t size)
{
    return size + size % 2 - MOP_BLOCK_BELOW_TOP;
}

static inline uint8_t *block_of(uint8_t *memory, size_t size)
{
    return size < MOP_BLOCK_MEMORY_LEAST ? memory : memory + block_at(size);
}

/* Whether a step of version 2.1 was started by parameters. */
static inline int lays_block(
    mop_machine_settings settings, const uint8_t *frame, mop_machine_step step)
{
    return settings.version == MOP_VERSION_2_1 && step.answer.length > 0 &&
           frame[0] == MOP_CODE_PARAMETERS &&
           step.machine.state == MOP_MACHINE_STARTED;
}
#endif

#if WRONG >= 64
/* Whether a machine asks a load that runs for an operating system. */
static inline int asked(const mop_load_settings *settings,
    const mop_load *session, const uint8_t *frame, size_t length)
{
    const mop_fields f = mop_read(settings->version, frame, length);
    return session->waiting == 0 && session->verdict == MOP_LOAD_RUNNING &&
           f.code == MOP_CODE_REQUEST_PROGRAM &&
           f.program == MOP_PROGRAM_SYSTEM;
}

/* n, 0 for an image that is refused. */
static inline uint64_t frames(
    const mop_load_settings *settings, const uint8_t *file, size_t size)
{
    const mop_image image = mop_image_check(file, size, settings->segment_size);
    return image.refusal == MOP_ACCEPTED
               ? image.segments + (settings->with_parameters == 1)
               : 0;
}
#endif

#if WRONG >= 81
/* The count of a file that has a trailer with its length; 0 for another. */
static inline uint32_t count_said(const uint8_t *file, size_t length)
{
    return length >= 16 && length <= MOP_FILE_MOST &&
                   get32(file + length - 4) == length
               ? get32(file + length - 12)
               : 0;
}

/* The file, but with the lower half alone of a count that has an upper. */
static inline const uint8_t *with_lower_half(const uint8_t *file, size_t length)
{
    static uint8_t copy[MOP_FILE_MOST];
    const uint32_t count = count_said(file, length);
    if (count <= UINT16_MAX)
        return file;
    memcpy(copy, file, length);
    put32(copy + length - 12, count & UINT16_MAX);
    return copy;
}
#endif

#if WRONG == 1 /* looks at the byte behind the frame */
mop_fields WRAP(mop_read)(uint8_t version, const uint8_t *frame, size_t length)
{
    (void)*(volatile const uint8_t *)(frame + length);
    return REAL(mop_read)(version, frame, length);
}
#elif WRONG == 2  /* looks at the byte before the frame */
mop_fields WRAP(mop_read)(uint8_t version, const uint8_t *frame, size_t length)
{
    (void)*(volatile const uint8_t *)(frame - 1);
    return REAL(mop_read)(version, frame, length);
}
#elif WRONG == 3  /* gives a refused frame's code */
mop_fields WRAP(mop_read)(uint8_t version, const uint8_t *frame, size_t length)
{
    mop_fields f = REAL(mop_read)(version, frame, length);
    f.code = length > 0 ? frame[0] : 0;
    return f;
}
#elif WRONG == 4  /* clears the byte behind what it wrote */
mop_written WRAP(mop_write_loop)(uint16_t receipt, const uint8_t *data,
    size_t length, uint8_t *out, size_t room)
{
    const mop_written w =
        REAL(mop_write_loop)(receipt, data, length, out, room);
    if (w.refusal == 0)
        out[w.length] = 0;
    return w;
}
#elif WRONG == 5  /* begins to write before it finds the room too short */
mop_written WRAP(mop_write_loop)(uint16_t receipt, const uint8_t *data,
    size_t length, uint8_t *out, size_t room)
{
    if (room > 0)
        out[0] = 24;
    return REAL(mop_write_loop)(receipt, data, length, out, room);
}
#elif WRONG == 6  /* changes the data that it is lent to read */
mop_written WRAP(mop_write_loop)(uint16_t receipt, const uint8_t *data,
    size_t length, uint8_t *out, size_t room)
{
    if (length > 0)
        ((uint8_t *)(uintptr_t)data)[0] = 0;
    return REAL(mop_write_loop)(receipt, data, length, out, room);
}
#elif WRONG == 7  /* looks at an empty file */
WRONG_IMAGE
{
    (void)*(volatile const uint8_t *)file;
    return REAL_IMAGE;
}
#elif WRONG == 8  /* changes memory and refuses */
WRONG_FRAME
{
    const mop_machine_step step = REAL_FRAME;
    if (step.answer.refusal != 0 && size > 0)
        memory[size - 1] ^= 1;
    return step;
}
#elif WRONG == 9  /* minds what a state does not use */
WRONG_FRAME
{
    mop_machine_step step = REAL_FRAME;
    if (room < MOP_FRAME_MOST && machine.expected != 0)
        step.answer.refusal = MOP_REFUSED_RANGE;
    return step;
}
#elif WRONG == 10 /* keeps a count between calls */
WRONG_LOAD_TIMER
{
    static unsigned calls;
    mop_load_step step = REAL_LOAD_TIMER;
    step.session.repeats += calls++ % 1000 == 999;
    return step;
}
#elif WRONG == 11 /* refuses in another order: 9 before 10 */
WRONG_LOAD_TIMER
{
    mop_load_step step = REAL_LOAD_TIMER;
    if (room < MOP_FRAME_MOST)
        step.answer.refusal = MOP_REFUSED_ROOM;
    return step;
}
#elif WRONG == 12 /* clears the rest of the dump buffer */
WRONG_DUMP_FRAME
{
    const mop_dump_step step = REAL_DUMP_FRAME;
    for (uint64_t i = step.session.filled; i < size; i++)
        if (step.session.filled > session.filled)
            buffer[i] = 0;
    return step;
}
#elif WRONG == 13 /* counts a frame that it refuses */
WRONG_LOAD_FRAME
{
    const mop_written answer = REAL_LOAD_FRAME;
    session->sent += answer.refusal != 0;
    return answer;
}
#elif WRONG == 14 /* looks at the byte behind the dump buffer */
WRONG_DUMP_TIMER
{
    (void)*(volatile const uint8_t *)(buffer + size);
    return REAL_DUMP_TIMER;
}
#elif WRONG == 15 /* leaves the record as it was */
WRONG_DUMP_TIMER
{
    const mop_dump before = *session;
    const mop_written answer = REAL_DUMP_TIMER;
    *session = before;
    return answer;
}
#elif WRONG == 16 /* changes the record on a frame that it ignores */
WRONG_FRAME
{
    mop_machine_step step = REAL_FRAME;
    if (step.answer.refusal == 0 && step.answer.length == 0)
        step.machine.error ^= 1;
    return step;
}
#elif WRONG == 17 /* looks at the byte behind the parameter string */
WRONG_LOAD_TIMER
{
    (void)*(volatile const uint8_t *)(string + length);
    return REAL_LOAD_TIMER;
}
#elif WRONG == 18 /* judges the frame before the parameter string */
WRONG_LOAD_FRAME
{
    mop_written answer = REAL_LOAD_FRAME;
    const uint8_t refusal = mop_read(settings.version, frame, length).refusal;
    if (mop_refused_frame(answer.refusal) && refusal != 0)
        answer.refusal = refusal;
    return answer;
}
#elif WRONG == 19 /* takes the string for one that the load has not */
WRONG_LOAD_TIMER
{
    settings.with_parameters &= (uint8_t)(length > 0 ? UINT8_MAX : 0);
    return REAL_LOAD_TIMER;
}
#elif WRONG == 20 /* leaves the end of a longer value behind a shorter one */
WRONG_FRAME
{
    mop_machine_step step = REAL_FRAME;
    mop_value *name = &step.machine.parameters.host_name;
    for (size_t i = name->length; i < MOP_VALUE_MOST; i++)
        name->bytes[i] = machine.parameters.host_name.bytes[i];
    return step;
}
#elif WRONG == 21 /* keeps what stood there for a type that is absent */
WRONG_FRAME
{
    mop_machine_step step = REAL_FRAME;
    if (step.machine.parameters.host_time.length == 0)
        step.machine.parameters.host_time = machine.parameters.host_time;
    return step;
}
#elif WRONG == 22 /* changes a byte of the window with a load that it rejects */
WRONG_FRAME
{
    const mop_machine_step step = REAL_FRAME;
    if (rejected(step.answer, reply) && settings.window.length > 0 &&
        settings.window.start < size)
        memory[settings.window.start] ^= 1;
    return step;
}
#elif WRONG == 23 /* lays what of a rejected load comes before the window */
WRONG_FRAME
{
    const mop_fields f = mop_read(settings.version, frame, length);
    const mop_machine_step step = REAL_FRAME;
    for (size_t i = 0; i < f.data_length; i++)
        if (rejected(step.answer, reply) && f.address + f.data_length <= size &&
            f.address + i < settings.window.start)
            memory[f.address + i] = frame[f.data_at + i];
    return step;
}
#elif WRONG == 24 /* takes a load into the window's first byte */
WRONG_FRAME
{
    settings.window = with_end(settings.window, 1, 0);
    return REAL_FRAME;
}
#elif WRONG == 25 /* takes a load into the window's last byte */
WRONG_FRAME
{
    settings.window = with_end(settings.window, 0, -1);
    return REAL_FRAME;
}
#elif WRONG == 26 /* rejects a load that ends where the window begins */
WRONG_FRAME
{
    settings.window = with_end(settings.window, -1, 0);
    return REAL_FRAME;
}
#elif WRONG == 27 /* rejects a load that begins where the window ends */
WRONG_FRAME
{
    settings.window = with_end(settings.window, 0, 1);
    return REAL_FRAME;
}
#elif WRONG == 28 /* rejects a load without bytes inside the window */
WRONG_FRAME
{
    const mop_fields f = mop_read(settings.version, frame, length);
    if (f.data_length == 0 && inside(settings.window, f.address) &&
        (f.code == MOP_CODE_LOAD || f.code == MOP_CODE_LOAD_TRANSFER))
        size = 0;
    return REAL_FRAME;
}
#elif WRONG == 29 /* looks at the first and the last byte of a load alone */
WRONG_FRAME
{
    const mop_fields f = mop_read(settings.version, frame, length);
    const mop_window w = settings.window;
    if (f.address < w.start && w.start < ADDRESSES && w.length < ADDRESSES &&
        w.start + w.length < f.address + f.data_length)
        settings.window.length = 0;
    return REAL_FRAME;
}
#elif WRONG == 30 /* gives zeros for the window in a dump */
WRONG_FRAME
{
    const mop_machine_step step = REAL_FRAME;
    const uint64_t address = mop_read(settings.version, frame, length).address;
    for (size_t i = 5; i < step.answer.length; i++)
        if (reply[0] == MOP_CODE_DUMP_DATA &&
            inside(settings.window, address + i - 5))
            reply[i] = 0;
    return step;
}
#elif WRONG == 31 /* refuses a window that ends at the last address */
WRONG_TIMER
{
    const mop_window w = settings.window;
    if (w.length > 0 && w.start + w.length == ADDRESSES)
        settings.reply_bytes = 0;
    return REAL_TIMER;
}
#elif WRONG == 32 /* takes a window that ends one address behind the last */
WRONG_TIMER
{
    if (settings.window.start + settings.window.length == ADDRESSES + 1)
        settings.window.length = 0;
    return REAL_TIMER;
}
#elif WRONG == 33 /* takes a window whose end has more than 64 bits */
WRONG_TIMER
{
    if (settings.window.start + settings.window.length < settings.window.start)
        settings.window.length = 0;
    return REAL_TIMER;
}
#elif WRONG == 34 /* minds where a window of no bytes begins */
WRONG_TIMER
{
    if (settings.window.length == 0 && settings.window.start > ADDRESSES)
        settings.reply_bytes = 0;
    return REAL_TIMER;
}
#elif WRONG == 35 /* lays no block */
WRONG_FRAME
{
    uint8_t old[MOP_BLOCK_BYTES] = {0};
    if (size >= MOP_BLOCK_MEMORY_LEAST)
        memcpy(old, block_of(memory, size), sizeof old);
    const mop_machine_step step = REAL_FRAME;
    if (lays_block(settings, frame, step))
        memcpy(block_of(memory, size), old, sizeof old);
    return step;
}
#elif WRONG == 36 /* lays a block under 3.0.0 too */
WRONG_FRAME
{
    const mop_machine_step step = REAL_FRAME;
    settings.version =
        settings.version == MOP_VERSION_3_0 ? MOP_VERSION_2_1 : 0;
    if (lays_block(settings, frame, step) && size >= MOP_BLOCK_MEMORY_LEAST)
        block_of(memory, size)[0] ^= 1;
    return step;
}
#elif WRONG == 37 /* takes an odd memory's length for its top */
WRONG_FRAME
{
    const mop_machine_step step = REAL_FRAME;
    if (size % 2 == 1 && lays_block(settings, frame, step))
        memmove(block_of(memory, size) - 1, block_of(memory, size), 14);
    return step;
}
#elif WRONG == 38 /* writes all of a name that is absent */
WRONG_FRAME
{
    const mop_machine_step step = REAL_FRAME;
    if (lays_block(settings, frame, step) &&
        step.machine.parameters.host_name.length == 0)
        block_of(memory, size)[13] = 0;
    return step;
}
#elif WRONG == 39 /* leaves a name that is absent as it was */
WRONG_FRAME
{
    uint8_t old = size < MOP_BLOCK_MEMORY_LEAST ? 0 : block_of(memory, size)[2];
    const mop_machine_step step = REAL_FRAME;
    if (lays_block(settings, frame, step) &&
        step.machine.parameters.target_name.length == 0)
        block_of(memory, size)[2] = old;
    return step;
}
#elif WRONG == 40 /* fills a name up with zeros */
WRONG_FRAME
{
    const mop_machine_step step = REAL_FRAME;
    const size_t name = step.machine.parameters.target_name.length;
    if (lays_block(settings, frame, step) && name > 0 && name < 6)
        block_of(memory, size)[2 + name] = 0;
    return step;
}
#elif WRONG == 41 /* writes a byte behind the block */
WRONG_FRAME
{
    const mop_machine_step step = REAL_FRAME;
    if (lays_block(settings, frame, step))
        block_of(memory, size)[14] ^= 1;
    return step;
}
#elif WRONG == 42 /* minds only those of the 14 bytes that it writes */
WRONG_FRAME
{
    const mop_fields f = mop_read(settings.version, frame, length);
    if (settings.version == MOP_VERSION_2_1 && size >= MOP_BLOCK_MEMORY_LEAST &&
        f.code == MOP_CODE_PARAMETERS && f.data_length == 0 &&
        settings.window.start >= block_at(size) + 10)
        settings.window.length = 0;
    return REAL_FRAME;
}
#elif WRONG == 43 /* rejects parameters whose block ends at the window */
WRONG_FRAME
{
    if (settings.version == MOP_VERSION_2_1 && size >= MOP_BLOCK_MEMORY_LEAST &&
        length > 0 && frame[0] == MOP_CODE_PARAMETERS &&
        settings.window.start == block_at(size) + MOP_BLOCK_BYTES)
        settings.window = with_end(settings.window, -1, 0);
    return REAL_FRAME;
}
#elif WRONG == 44 /* writes the block of parameters that it rejects */
WRONG_FRAME
{
    const mop_machine_step step = REAL_FRAME;
    if (rejected(step.answer, reply) && frame[0] == MOP_CODE_PARAMETERS)
        block_of(memory, size)[0] ^= 1;
    return step;
}
#elif WRONG == 45 /* keeps parameters that it rejects */
WRONG_FRAME
{
    mop_machine_step step = REAL_FRAME;
    if (rejected(step.answer, reply) && frame[0] == MOP_CODE_PARAMETERS)
        step.machine.parameters.host_name.length ^= 1;
    return step;
}
#elif WRONG == 46 /* looks at the byte below an odd memory's top */
WRONG_FRAME
{
    if (settings.version == MOP_VERSION_2_1 && size >= MOP_BLOCK_MEMORY_LEAST)
        (void)*(volatile uint8_t *)(memory + size - 1 + size % 2);
    return REAL_FRAME;
}
#elif WRONG == 47 /* takes any memory under version 2.1 for a dump */
WRONG_TIMER
{
    if (settings.version == MOP_VERSION_2_1 && size < MOP_BLOCK_MEMORY_LEAST &&
        machine.state == MOP_MACHINE_OFFERING)
        settings.version = MOP_VERSION_3_0;
    return REAL_TIMER;
}
#elif WRONG == 48 /* refuses in another order: 9 before 11 */
WRONG_TIMER
{
    mop_machine_step step = REAL_TIMER;
    if (step.answer.refusal == MOP_REFUSED_MEMORY && room < MOP_FRAME_MOST)
        step.answer.refusal = MOP_REFUSED_ROOM;
    return step;
}
#elif WRONG == 49 /* takes every other version for 3.0.0 */
WRONG_TIMER
{
    if (settings.version != MOP_VERSION_2_1)
        settings.version = MOP_VERSION_3_0;
    return REAL_TIMER;
}
#elif WRONG == 50 /* reads a frame under a version that is none */
mop_fields WRAP(mop_read)(uint8_t version, const uint8_t *frame, size_t length)
{
    return REAL(mop_read)(
        version == 0 ? MOP_VERSION_3_0 : version, frame, length);
}
#elif WRONG == 51 /* judges a load's string by version 3.0.0 */
WRONG_LOAD_TIMER
{
    if (settings.version == MOP_VERSION_2_1)
        settings.version = MOP_VERSION_3_0;
    return REAL_LOAD_TIMER;
}
#elif WRONG == 52 /* does not count a frame that it ignores */
WRONG_LOAD_FRAME
{
    const mop_load before = *session;
    const mop_written answer = REAL_LOAD_FRAME;
    if (answer.length == 0 && session->verdict == before.verdict)
        session->counts = before.counts;
    return answer;
}
#elif WRONG == 53 /* counts a frame after the verdict */
WRONG_LOAD_FRAME
{
    const uint8_t verdict = session->verdict;
    const mop_written answer = REAL_LOAD_FRAME;
    session->counts.ignored += answer.refusal == 0 && verdict != 0;
    return answer;
}
#elif WRONG == 54 /* counts a frame that can't be read */
WRONG_LOAD_FRAME
{
    const mop_written answer = REAL_LOAD_FRAME;
    session->counts.ignored += mop_refused_frame(answer.refusal) != 0;
    return answer;
}
#elif WRONG == 55 /* counts the frame that finishes as ignored */
WRONG_LOAD_FRAME
{
    const uint8_t verdict = session->verdict;
    const mop_written answer = REAL_LOAD_FRAME;
    if (session->verdict == MOP_LOAD_FINISHED && verdict == MOP_LOAD_RUNNING) {
        session->counts.advances -= 1;
        session->counts.ignored += 1;
    }
    return answer;
}
#elif WRONG == 56 /* counts a rejection as ignored too */
WRONG_LOAD_FRAME
{
    const uint64_t rejections = session->counts.rejections;
    const mop_written answer = REAL_LOAD_FRAME;
    session->counts.ignored += session->counts.rejections != rejections;
    return answer;
}
#elif WRONG == 57 /* counts a timer that gives a frame */
WRONG_LOAD_TIMER
{
    mop_load_step step = REAL_LOAD_TIMER;
    step.session.counts.advances += step.answer.length > 0;
    return step;
}
#elif WRONG == 58 /* takes a count at 2^64 - 1 once there is a verdict */
WRONG_LOAD_TIMER
{
    const mop_load before = session;
    if (session.verdict != 0 && session.counts.rejections == UINT64_MAX)
        session.counts.rejections = 0;
    mop_load_step step = REAL_LOAD_TIMER;
    step.session.counts.rejections = before.counts.rejections;
    return step;
}
#elif WRONG == 59 /* refuses a record that waits and has ignored a frame */
WRONG_DUMP_FRAME
{
    if (session.waiting == 1 && session.counts.ignored != 0)
        settings.version = 0;
    return REAL_DUMP_FRAME;
}
#elif WRONG == 60 /* counts each offer as a start */
WRONG_DUMP_FRAME
{
    mop_dump_step step = REAL_DUMP_FRAME;
    if (step.session.counts.ignored != session.counts.ignored &&
        frame[0] == MOP_CODE_REQUEST_DUMP_SERVICE) {
        step.session.counts = session.counts;
        step.session.counts.starts += 1;
    }
    return step;
}
#elif WRONG == 61 /* minds a count at 2^64 - 1 after the reply buffer */
WRONG_DUMP_TIMER
{
    mop_written answer = REAL_DUMP_TIMER;
    if (room < MOP_FRAME_MOST && session->counts.advances == UINT64_MAX)
        answer.refusal = MOP_REFUSED_ROOM;
    return answer;
}
#elif WRONG == 62 /* refuses a count at 2^64 - 2 */
WRONG_DUMP_TIMER
{
    mop_written answer = REAL_DUMP_TIMER;
    if (session->counts.starts == UINT64_MAX - 1)
        answer = (mop_written){.refusal = MOP_REFUSED_RANGE};
    return answer;
}
#elif WRONG == 63 /* takes a record that waits and has started */
WRONG_DUMP_TIMER
{
    const uint64_t starts = session->counts.starts;
    if (session->waiting == 1)
        session->counts.starts = 0;
    const mop_written answer = REAL_DUMP_TIMER;
    if (session->waiting == 1)
        session->counts.starts = starts;
    return answer;
}
#elif WRONG == 64 /* begins again at its first frame too */
WRONG_LOAD_FRAME
{
    if (asked(&settings, session, frame, length) && settings.restart == 1 &&
        session->position == 0 && frames(&settings, file, size) > 1)
        session->position = 1;
    return REAL_LOAD_FRAME;
}
#elif WRONG == 65 /* keeps the repeats when it begins again */
WRONG_LOAD_FRAME
{
    const mop_load before = *session;
    const mop_written answer = REAL_LOAD_FRAME;
    if (session->restarts > before.restarts)
        session->repeats = before.repeats;
    return answer;
}
#elif WRONG == 66 /* does not count a restart among the starts */
WRONG_LOAD_FRAME
{
    const mop_load before = *session;
    const mop_written answer = REAL_LOAD_FRAME;
    if (session->restarts > before.restarts) {
        session->counts.starts -= 1;
        session->counts.ignored += 1;
    }
    return answer;
}
#elif WRONG == 67 /* does not count the restarts */
WRONG_LOAD_FRAME
{
    const uint32_t restarts = session->restarts;
    const mop_written answer = REAL_LOAD_FRAME;
    session->restarts = restarts;
    return answer;
}
#elif WRONG == 68 /* begins again after 65,535 restarts */
WRONG_LOAD_FRAME
{
    if (asked(&settings, session, frame, length) &&
        session->restarts == MOP_RESTARTS_MOST &&
        session->sent < MOP_RESTARTS_MOST)
        session->restarts -= 1;
    return REAL_LOAD_FRAME;
}
#elif WRONG == 69 /* begins again without the setting */
WRONG_LOAD_FRAME
{
    if (asked(&settings, session, frame, length) && session->restarts == 0 &&
        settings.restart == 0 &&
        frames(&settings, file, size) <= MOP_RESTARTING_MOST)
        settings.restart = 1;
    return REAL_LOAD_FRAME;
}
#elif WRONG == 70 /* begins again for every program type */
WRONG_LOAD_FRAME
{
    uint8_t other[MOP_FRAME_MOST];
    const mop_fields f = mop_read(settings.version, frame, length);
    if (f.code == MOP_CODE_REQUEST_PROGRAM && session->waiting == 0) {
        memcpy(other, frame, length);
        other[3] = MOP_PROGRAM_SYSTEM;
        frame = other;
    }
    return REAL_LOAD_FRAME;
}
#elif WRONG == 71 /* begins again after a verdict */
WRONG_LOAD_FRAME
{
    const uint8_t verdict = session->verdict;
    if (verdict == MOP_LOAD_GIVEN_UP && settings.restart == 1)
        session->verdict = MOP_LOAD_RUNNING;
    const mop_written answer = REAL_LOAD_FRAME;
    if (answer.length == 0)
        session->verdict = verdict;
    return answer;
}
#elif WRONG == 72 /* refuses 256 frames */
WRONG_LOAD_TIMER
{
    mop_load_step step = REAL_LOAD_TIMER;
    if (step.answer.refusal == MOP_ACCEPTED && settings.restart == 1 &&
        frames(&settings, file, size) == MOP_RESTARTING_MOST)
        step.answer.refusal = MOP_REFUSED_MANY;
    return step;
}
#elif WRONG == 73 /* leaves the parameter frame out of the 256 */
WRONG_LOAD_TIMER
{
    if (settings.with_parameters == 1 && settings.restart == 1 &&
        session.restarts == 0 &&
        frames(&settings, file, size) == MOP_RESTARTING_MOST + 1)
        settings.restart = 0;
    return REAL_LOAD_TIMER;
}
#elif WRONG == 74 /* refuses in another order: a position above n before 12 */
WRONG_LOAD_TIMER
{
    mop_load_step step = REAL_LOAD_TIMER;
    if (step.answer.refusal == MOP_REFUSED_MANY &&
        session.position > frames(&settings, file, size))
        step.answer.refusal = MOP_REFUSED_RANGE;
    return step;
}
#elif WRONG == 75 /* refuses in another order: the string before 12 */
WRONG_LOAD_TIMER
{
    mop_load_step step = REAL_LOAD_TIMER;
    if (step.answer.refusal == MOP_REFUSED_MANY &&
        settings.with_parameters == 1 && length == 1)
        step.answer.refusal = MOP_REFUSED_FIELD;
    return step;
}
#elif WRONG == 76 /* refuses in another order: 12 before 9 */
WRONG_LOAD_TIMER
{
    mop_load_step step = REAL_LOAD_TIMER;
    if (step.answer.refusal == MOP_REFUSED_ROOM && settings.restart == 1 &&
        frames(&settings, file, size) > MOP_RESTARTING_MOST)
        step.answer.refusal = MOP_REFUSED_MANY;
    return step;
}
#elif WRONG == 77 /* takes 65,536 restarts */
WRONG_LOAD_TIMER
{
    const uint32_t restarts = session.restarts;
    if (restarts == MOP_RESTARTS_MOST + 1)
        session.restarts -= 1;
    mop_load_step step = REAL_LOAD_TIMER;
    step.session.restarts = restarts;
    return step;
}
#elif WRONG == 78 /* takes restarts without the setting */
WRONG_LOAD_TIMER
{
    const uint32_t restarts = session.restarts;
    if (settings.restart == 0)
        session.restarts = 0;
    mop_load_step step = REAL_LOAD_TIMER;
    step.session.restarts = restarts;
    return step;
}
#elif WRONG == 79 /* takes every number for the setting */
WRONG_LOAD_TIMER
{
    settings.restart = settings.restart != 0;
    return REAL_LOAD_TIMER;
}
#elif WRONG == 80 /* takes no more frames sent for a restart */
WRONG_LOAD_TIMER
{
    mop_load_step step = REAL_LOAD_TIMER;
    if (step.answer.refusal == MOP_ACCEPTED &&
        session.sent > frames(&settings, file, size) * (settings.repeats + 1))
        step = (mop_load_step){
            .session = session, .answer = {.refusal = MOP_REFUSED_RANGE}};
    return step;
}
#elif WRONG == 81 /* ignores the upper half of the count */
WRONG_IMAGE
{
    file = with_lower_half(file, length);
    return REAL_IMAGE;
}
#elif WRONG == 82 /* takes 100,001 regions */
WRONG_IMAGE
{
    const mop_image image = REAL_IMAGE;
    const uint32_t count = count_said(file, length);
    if (count != MOP_REGIONS_MOST + 1 || length < MANY_BYTES(count))
        return image;
    return (mop_image){.segments = count,
        .transfer = get32(file + length - 8),
        .regions = count};
}
#elif WRONG == 83 /* refuses 100,000 regions */
WRONG_IMAGE
{
    const mop_image image = REAL_IMAGE;
    return image.regions == MOP_REGIONS_MOST
               ? (mop_image){.refusal = MOP_REFUSED_DIRECTORY}
               : image;
}
#elif WRONG == 84 /* walks a directory whose place is right in 32 bits alone */
WRONG_IMAGE
{
    const uint32_t count = count_said(file, length);
    const uint32_t at = count > 0 ? get32(file + length - 16) : 0;
    for (size_t i = 0; at + 12 * count + 16 == length && i < count; i++)
        (void)*(volatile const uint8_t *)(file + at + 12 * i + 11);
    return REAL_IMAGE;
}
#elif WRONG == 85 /* answers the lower half of the number of regions */
WRONG_IMAGE
{
    mop_image image = REAL_IMAGE;
    image.regions &= UINT16_MAX;
    return image;
}
#elif WRONG == 86 /* ignores the upper half of the count in a step */
WRONG_LOAD_TIMER
{
    file = with_lower_half(file, size);
    return REAL_LOAD_TIMER;
}
#elif WRONG == 87 /* sends the segment of the position modulo 65,536 */
WRONG_LOAD_FRAME
{
    const mop_written answer = REAL_LOAD_FRAME;
    const uint64_t index = session->position & UINT16_MAX;
    if (answer.length > 0 && index < session->position)
        put32(reply + 2,
            mop_image_segment(file, size, settings.segment_size, index)
                .address);
    return answer;
}
#endif
