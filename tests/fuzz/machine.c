/* Sessions of a machine: raw frames of a host that mostly loads well, mutated ones, those of strangers, and timers. */
#define main mopmachine_main
#include "../../driver/mopmachine.c" // NOLINT(bugprone-suspicious-include)
#undef main

#include "fuzz.h"
#include "slow.h"

#define MEMORY_MOST 256
#define STRING_MOST 100

int mopmachine_main(int count, char **words);

/* The driver's own: a frame has come, the timer has run out. */
static int hand_over(machine_end *m, line_frame *frame)
{
    return take(m, frame);
}

/* ---- The host's side ------------------------------------------------- */

static mop_written host_message(const machine_end *m, uint8_t *message)
{
    static const uint8_t data[40] = {1, 2, 3, 4, 5};
    uint8_t string[STRING_MOST];
    uint8_t version = one_in(12) ? MOP_VERSION_3_0 : m->settings.version;
    uint32_t at = below((uint32_t)m->memory.length), length = below(sizeof data);
    uint8_t number = (uint8_t)(m->machine.state == MOP_MACHINE_LOADING ? m->machine.expected - one_in(12) : 0);
    if (memcmp(m->host, ASSISTANCE, ADDRESS_LENGTH) == 0 || one_in(12))
        return mop_write_volunteer(message, MOP_FRAME_MOST);
    switch (below(12)) {
    case 0:
        return mop_write_load_transfer(number, at, data, length, any_number(), message, MOP_FRAME_MOST);
    case 1:
        return mop_write_request_dump(any_number(), (uint16_t)below(2000), message, MOP_FRAME_MOST);
    case 2:
        return mop_write_loop(7, data, length, message, MOP_FRAME_MOST);
    case 3:
        return mop_write_dump_complete(message, MOP_FRAME_MOST);
    case 4:
        return mop_write_parameters(version, number, string, any_entries(version, string, sizeof string), any_number(),
            message, MOP_FRAME_MOST);
    default:
        return mop_write_load(number, at, data, length, message, MOP_FRAME_MOST);
    }
}

/* ---- What must hold -------------------------------------------------- */

static size_t check_sent(const machine_end *m)
{
    sent_frame sent;
    size_t count = 0;
    for (; sent_next(&sent); count++) {
        require(memcmp(sent.to, m->host, ADDRESS_LENGTH) == 0, "a frame goes to the host");
        require(sent.code == MOP_CODE_REQUEST_PROGRAM || sent.code == MOP_CODE_REQUEST_LOAD ||
                    sent.code == MOP_CODE_REQUEST_DUMP_SERVICE || sent.code == MOP_CODE_DUMP_DATA ||
                    sent.code == MOP_CODE_LOOPED,
            "a frame is one of a machine");
    }
    require(count <= 1, "one frame at most answers one");
    return count;
}

/* Whether one of so many bytes would go into the ROM window. */
static bool in_rom(const mop_window *rom, uint64_t at, uint64_t length)
{
    for (uint64_t i = 0; i < length; i++)
        if (at + i >= rom->start && at + i < rom->start + rom->length)
            return true;
    return false;
}

/* A reset turns each bit of memory over, but for the ROM, and the machine asks all hosts. */
static void check_reset(const machine_end *m, uint8_t *old)
{
    for (size_t i = 0; i < m->memory.length; i++)
        old[i] ^= (uint8_t)(in_rom(&m->settings.window, i, 1) ? 0 : 0xFF);
    require(memcmp(old, m->memory.bytes, m->memory.length) == 0, "no byte but the ROM's outlives a reset");
    require(m->machine.state == MOP_MACHINE_REQUESTING && memcmp(m->host, ASSISTANCE, ADDRESS_LENGTH) == 0,
        "a machine that was reset asks all hosts");
}

/* Memory is the old one, or the old one with the frame's data, or its parameter block, laid over it beside the ROM. */
static void check_memory(const machine_end *m, uint8_t *old, const line_frame *frame, bool foreign)
{
    const size_t length = m->memory.length;
    mop_fields fields = mop_read(m->settings.version, frame->bytes, frame->length);
    size_t at = fields.address, count = fields.data_length;
    bool load = fields.code == MOP_CODE_LOAD || fields.code == MOP_CODE_LOAD_TRANSFER;
    bool block = m->given && m->settings.version == MOP_VERSION_2_1;
    if (!block && memcmp(old, m->memory.bytes, length) == 0)
        return;
    require((load || block) && !foreign, "memory is changed by the host's loads alone");
    if (block) {
        at = slow_block(old, length, frame->bytes + fields.data_at, fields.data_length);
        count = 14;
        require(at == parameters_block_at(length), "the block is where it is said to be");
    }
    require(at + count <= length, "what is laid lies in memory");
    require(!in_rom(&m->settings.window, at, count), "no load touches the ROM");
    if (load)
        memcpy(old + at, frame->bytes + fields.data_at, count);
    require(memcmp(old, m->memory.bytes, length) == 0, "a load changes memory where it says");
}

static void check_value(const mop_value *value, const line_frame *frame, const mop_fields *fields, int type)
{
    uint8_t bytes[16];
    size_t length = slow_entry(frame->bytes + fields->data_at, fields->data_length, type, bytes);
    require(value->length == length && memcmp(value->bytes, bytes, sizeof bytes) == 0, "the last value is kept");
}

/* It keeps what the parameters that start it say; nothing else changes what it keeps. */
static void check_kept(const machine_end *m, const mop_machine *before, const line_frame *frame)
{
    const mop_parameters *p = &m->machine.parameters;
    mop_fields fields = mop_read(m->settings.version, frame->bytes, frame->length);
    bool starts = before->state != MOP_MACHINE_STARTED && m->machine.state == MOP_MACHINE_STARTED;
    require(m->given == (starts && fields.code == MOP_CODE_PARAMETERS), "parameters start it or not");
    if (!m->given) {
        require(memcmp(p, &before->parameters, sizeof *p) == 0, "what is kept stays");
        return;
    }
    check_value(&p->target_name, frame, &fields, MOP_ENTRY_TARGET_NAME);
    check_value(&p->target_address, frame, &fields, MOP_ENTRY_TARGET_ADDRESS);
    check_value(&p->host_name, frame, &fields, MOP_ENTRY_HOST_NAME);
    check_value(&p->host_address, frame, &fields, MOP_ENTRY_HOST_ADDRESS);
    check_value(&p->host_time, frame, &fields, MOP_ENTRY_HOST_TIME);
    tell_state(m);
}

/* The frames of a load are counted, if they come from the host that was asked. */
static void check_received(const machine_end *m, uint32_t before, const line_frame *frame, bool foreign)
{
    const uint8_t code = mop_read(m->settings.version, frame->bytes, frame->length).code;
    bool load = code == MOP_CODE_LOAD || code == MOP_CODE_LOAD_TRANSFER || code == MOP_CODE_PARAMETERS;
    require(m->received == before + (load && !foreign), "the frames of a load are counted");
}

static void hand_frame(machine_end *m)
{
    uint8_t message[MOP_FRAME_MOST], old[MEMORY_MOST];
    line_frame frame;
    mop_written written = host_message(m, message);
    require(written.refusal == MOP_ACCEPTED, "the fuzzer's own message is good");
    raw_frame(message, written.length);
    contents raw = exact();
    bool taken = line_cut(&m->line, &raw, &frame);
    free(raw.bytes);
    if (!taken)
        return;
    const mop_machine before = m->machine;
    const uint32_t received = m->received;
    bool chosen = memcmp(m->host, ASSISTANCE, ADDRESS_LENGTH) != 0;
    bool foreign = frame.multicast || memcmp(frame.from, m->host, ADDRESS_LENGTH) != 0;
    memcpy(old, m->memory.bytes, m->memory.length);
    require(hand_over(m, &frame) == 0, "no frame ends a machine by an error");
    size_t count = check_sent(m);
    check_received(m, received, &frame, foreign);
    if (m->received != received && m->received == m->reset_after) {
        check_reset(m, old);
        require(count == 1, "a machine that was reset asks at once");
        return;
    }
    check_memory(m, old, &frame, foreign);
    check_kept(m, &before, &frame);
    bool same = before.state == m->machine.state && before.expected == m->machine.expected &&
                before.error == m->machine.error && before.transfer == m->machine.transfer;
    require(!foreign || same, "a stranger's frame leaves the machine's record");
    require(!(foreign && chosen) || count == 0, "a stranger's frame is not answered");
}

/* ---- The session ----------------------------------------------------- */

/* A ROM, mostly in memory, sometimes up to the last address, by the driver's own option. */
static void any_rom(mop_window *rom)
{
    const uint64_t addresses = (uint64_t)UINT32_MAX + 1;
    uint64_t from = one_in(4) ? any_number() : below(MEMORY_MOST), length = one_in(4) ? any_number() : below(60);
    char words[2][24];
    if (one_in(8))
        from = 0;
    if (one_in(8))
        length = addresses - from + below(3) - 1;
    snprintf(words[0], sizeof words[0], "%" PRIu64, from);
    snprintf(words[1], sizeof words[1], "0x%" PRIX64, length);
    bool taken = rom_option(words[0], words[1], rom) == 0;
    require(taken == (length > 0 && from + length <= addresses), "a ROM ends at the last address or before");
    require(!taken || (rom->start == from && rom->length == length), "a ROM is where it is said to be");
    if (!taken)
        rom->length = 0;
}

/* Its memory is a block of just its length, so that the sanitizer sees a step beyond it. */
static void make_machine(machine_end *m)
{
    const size_t length = one_in(8) ? 1 + below(70) : 64 + below(one_in(2) ? 4 : MEMORY_MOST - 63);
    memset(m, 0, sizeof *m);
    m->common.timer = m->common.wait = 1000;
    m->memory = (contents){malloc(length), length};
    require(m->memory.bytes != NULL, "there is memory");
    for (size_t i = 0; i < length; i++)
        m->memory.bytes[i] = (uint8_t)below(256);
    m->settings.reply_bytes = 1 + below(MOP_ETHERNET_DUMP_DATA_MOST);
    m->settings.version = any_version();
    any_rom(&m->settings.window);
    m->offer = one_in(4);
    m->reset_after = m->offer || one_in(2) ? 0 : 1 + below(12);
    line_make(&m->line);
}

/* Whether it begins: it has a version, and memory enough for that. */
static bool begins(machine_end *m)
{
    bool good = is_version(m->settings.version) && (m->settings.version != 21 || m->memory.length >= 64);
    require((start(m) == 0) == good && check_sent(m) == good, "a machine begins with a frame, or does not begin");
    return good;
}

bool fuzz_machine(void)
{
    static machine_end m;
    make_machine(&m);
    const unsigned events = begins(&m) ? 80 : 0;
    for (unsigned event = 0; event < events && m.machine.state != MOP_MACHINE_STARTED; event++) {
        if (one_in(8)) {
            require(timer(&m) == 0, "a timer ends no machine by an error");
            check_sent(&m);
        } else {
            hand_frame(&m);
        }
    }
    free(m.memory.bytes);
    return m.machine.state == MOP_MACHINE_STARTED;
}
