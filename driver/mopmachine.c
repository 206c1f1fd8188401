/* mopmachine: the machine end as a process, for rehearsals and tests. The
 * library decides what it does; this program carries frames and keeps the
 * memory. */
#include <inttypes.h>
#include <stdlib.h>
#include <string.h>

#include "files.h"
#include "line.h"
#include "options.h"
#include "parameters.h"
#include "words.h"

#define DUMP_REST (MOP_FRAME_MOST - MOP_DUMP_DATA_MOST) /* what code 14 has beside the data */
#define ASKS 8 /* requests to one host without an answer, before all are asked again */

enum {
    OPTION_MEMORY = OPTION_OWN,
    OPTION_PROTOCOL,
    OPTION_OFFER,
    OPTION_IDLE,
    OPTION_FILL,
    OPTION_ROM,
    OPTION_ROM_FILE,
    OPTION_SAVE,
    OPTION_FORCE,
    OPTION_RESET,
    OPTION_DEVICE,
    OPTION_PROCESSOR
};

/* The files that are read before the start. */
enum { FILL, ROM, FILES };

typedef struct machine_end {
    common_settings common;
    mop_machine_settings settings;
    mop_machine machine;
    contents memory;
    const char *files[FILES]; /* NULL for none */
    output save;              /* no path for none */
    bool offer;
    bool idle;                    /* it neither asks nor offers at first */
    bool given;                   /* it was started by parameters */
    uint8_t host[ADDRESS_LENGTH]; /* whom it asks, ASSISTANCE for all */
    unsigned asked;               /* how often without an answer */
    uint32_t reset_after;         /* it is reset at this frame of the load; 0 for never */
    uint32_t received;            /* the load's frames that came */
    line line;
    int64_t due;   /* when the timer runs out */
    int64_t limit; /* when it is taken that nobody is there */
} machine_end;

/* ---- The run --------------------------------------------------------- */

static bool asks(const machine_end *m)
{
    return m->machine.state == MOP_MACHINE_REQUESTING || m->machine.state == MOP_MACHINE_OFFERING;
}

/* Takes over the state of a step and sends its frame. */
static int carry(machine_end *m, mop_machine_step step, const uint8_t *reply)
{
    if (mop_refused_frame(step.answer.refusal))
        return 0;
    if (step.answer.refusal != MOP_ACCEPTED)
        return complain(STATUS_OTHER, "the step is refused: %s", refusal_words(step.answer.refusal));
    m->machine = step.machine;
    if (step.answer.length == 0)
        return 0;
    return line_send(&m->line, m->host, reply, step.answer.length);
}

/* The first frame of a load or of a dump; the record of a machine that wants neither is all 0. */
static int start(machine_end *m)
{
    uint8_t reply[MOP_FRAME_MOST];
    memcpy(m->host, ASSISTANCE, ADDRESS_LENGTH);
    m->due = clock_now() + m->common.timer;
    if (m->idle)
        return 0;
    mop_machine_step step =
        m->offer ? mop_machine_start_dump(m->settings, m->memory.bytes, m->memory.length, reply, sizeof reply)
                 : mop_machine_start_load(m->settings, m->memory.bytes, m->memory.length, reply, sizeof reply);
    return carry(m, step, reply);
}

static int timer(machine_end *m)
{
    uint8_t reply[MOP_FRAME_MOST];
    m->due = clock_now() + m->common.timer;
    m->asked += 1;
    if (asks(m) && m->asked > ASKS)
        memcpy(m->host, ASSISTANCE, ADDRESS_LENGTH);
    mop_machine_step step =
        mop_machine_timer(m->settings, m->machine, m->memory.bytes, m->memory.length, reply, sizeof reply);
    return carry(m, step, reply);
}

/* A host has offered itself: it is asked from now on, and at once. */
static int volunteer(machine_end *m, const line_frame *frame)
{
    char host[ADDRESS_TEXT];
    memcpy(m->host, frame->from, ADDRESS_LENGTH);
    m->asked = 0;
    printf("%s offers assistance.\n", address_text(m->host, host));
    fflush(stdout);
    return timer(m);
}

/* So many bytes from an address on: the first address and the last. */
static void tell_range(const char *what, uint64_t start, uint64_t length)
{
    printf("%s0x%08" PRIX64 " to 0x%08" PRIX64, what, start, start + length - 1);
}

static void tell_block(const char *what, const machine_end *m)
{
    tell_range(what, parameters_block_at(m->memory.length), MOP_BLOCK_BYTES);
}

/* A load, or parameters, that do not fit. The library has two reasons, and inside memory, where the parameter block
 * always is, only one is left. */
static void tell_rejected(const machine_end *m, const mop_fields *load)
{
    const bool parameters = load->code == MOP_CODE_PARAMETERS;
    if (parameters)
        tell_block("Parameters were rejected: their block, ", m);
    else
        printf("A load of %zu byte%s at 0x%08" PRIX32 " was rejected: it", load->data_length,
            load->data_length == 1 ? "" : "s", load->address);
    if (!parameters && load->address + load->data_length > m->memory.length)
        printf(" would end beyond memory, which has %zu bytes", m->memory.length);
    else
        tell_range(parameters ? ", would touch the ROM window, " : " would touch the ROM window, ",
            m->settings.window.start, m->settings.window.length);
    puts(parameters ? ". Nothing of them was written or kept." : ". Nothing of it was written.");
    fflush(stdout);
}

/* What the library makes of a frame that it answers. A repeat is not looked at and leaves the record; number 0 is
 * never one. */
static void tell_answered(machine_end *m, const line_frame *frame, const mop_machine *next)
{
    mop_fields fields = mop_read(m->settings.version, frame->bytes, frame->length);
    bool repeat = fields.number != 0 && next->expected == m->machine.expected;
    if (next->state == MOP_MACHINE_STARTED)
        m->given = fields.code == MOP_CODE_PARAMETERS;
    if (next->state == MOP_MACHINE_LOADING && next->error != 0 && !repeat)
        tell_rejected(m, &fields);
}

/* ---- A reset --------------------------------------------------------- */

/* Whether this frame of a load is the one at which the machine is reset. */
static bool resets(machine_end *m, const line_frame *frame)
{
    const mop_fields f = mop_read(m->settings.version, frame->bytes, frame->length);
    if (f.code != MOP_CODE_LOAD_TRANSFER && f.code != MOP_CODE_LOAD && f.code != MOP_CODE_PARAMETERS)
        return false;
    m->received += m->received < UINT32_MAX;
    return m->received == m->reset_after;
}

/* As switched off and on: no byte of memory is as it was, but for the ROM. What has come is lost, and nothing is kept.
 * The machine asks all hosts. */
static int reset(machine_end *m)
{
    const mop_window *rom = &m->settings.window;
    for (size_t at = 0; at < m->memory.length; at++)
        if (at < rom->start || at - rom->start >= rom->length)
            m->memory.bytes[at] ^= 0xFF;
    printf("The machine is reset at frame %" PRIu32 " of the load.\n", m->reset_after);
    fflush(stdout);
    line_empty(&m->line);
    m->asked = 0;
    return start(m);
}

static int take(machine_end *m, const line_frame *frame)
{
    uint8_t reply[MOP_FRAME_MOST];
    bool free_to_choose = memcmp(m->host, ASSISTANCE, ADDRESS_LENGTH) == 0;
    if (frame->multicast)
        return 0;
    if (free_to_choose && asks(m) &&
        mop_read(m->settings.version, frame->bytes, frame->length).code == MOP_CODE_VOLUNTEER)
        return volunteer(m, frame);
    if (m->idle && m->machine.state == MOP_MACHINE_IDLE)
        memcpy(m->host, frame->from, ADDRESS_LENGTH); /* anyone is answered */
    if (memcmp(frame->from, m->host, ADDRESS_LENGTH) != 0)
        return 0;
    m->asked = 0;
    m->limit = clock_now() + (int64_t)m->common.wait * 1000;
    if (resets(m, frame))
        return reset(m);
    mop_machine_step step = mop_machine_frame(
        m->settings, m->machine, frame->bytes, frame->length, m->memory.bytes, m->memory.length, reply, sizeof reply);
    if (step.answer.length > 0)
        tell_answered(m, frame, &step.machine);
    return carry(m, step, reply);
}

/* ---- The machine as the line runs it --------------------------------- */

static bool over(const void *end)
{
    const machine_end *m = end;
    return m->machine.state == (m->offer ? MOP_MACHINE_IDLE : MOP_MACHINE_STARTED);
}

static int64_t due(const void *end)
{
    const machine_end *m = end;
    return m->due < m->limit ? m->due : m->limit;
}

static int on_frame(void *end, line_frame *frame)
{
    return take(end, frame);
}

/* The timer, or the end of the wait. */
static int on_timer(void *end)
{
    machine_end *m = end;
    if (clock_now() < m->limit)
        return timer(m);
    return complain(STATUS_SILENT, "no host was heard for %" PRIu32 " second%s; the machine is %s", m->common.wait,
        m->common.wait == 1 ? "" : "s", state_words(m->machine.state));
}

static void tell_rom(const machine_end *m)
{
    const mop_window *rom = &m->settings.window;
    if (rom->length == 0)
        return;
    tell_range("Memory is ", 0, m->memory.length);
    tell_range(", the ROM window ", rom->start, rom->length);
    puts(".");
    fflush(stdout);
}

static int run(machine_end *m)
{
    static const line_end calls = {over, due, on_frame, on_timer};
    tell_rom(m);
    m->limit = clock_now() + (int64_t)m->common.wait * 1000;
    int status = start(m);
    return status == 0 ? line_run(&m->line, &calls, m) : status;
}

/* ---- The command line ------------------------------------------------ */

static const char manual[] = "NAME\n"
                             "  mopmachine - be a machine that asks for a program, offers a dump or is idle\n"
                             "\n"
                             "SYNOPSIS\n"
                             "  mopmachine -i INTERFACE --memory N [--protocol 2.1|3.0] [--offer | --idle]\n"
                             "             [--fill FILE] [--rom START LENGTH [--rom-file FILE]]\n"
                             "             [--save FILE [--force]] [--reset-after N] [-D N] [--timer MS]\n"
                             "             [--wait S] [--trace FILE]\n"
                             "\n"
                             "DESCRIPTION\n"
                             "  The machine end as a process, to rehearse a shift without the machine. It\n"
                             "  asks all hosts for a program (or, with --offer, offers a dump), then the\n"
                             "  host that answers, and ends when it is started (or the dump is complete).\n"
                             "  If the load ended with parameters it prints those that it was given: names\n"
                             "  in quotes, with \\xNN for what is not printable ASCII, addresses as\n"
                             "  hexadecimal pairs, and the time in the form that mopload takes. Under\n"
                             "  version 2.1 it prints where they stand in memory too, and what stands there.\n"
                             "  A load that ends beyond memory or touches the ROM is rejected whole, and it\n"
                             "  says so; under version 2.1 so are parameters whose place touches the ROM.\n"
                             "\n"
                             "OPTIONS\n"
                             "  --memory N\n"
                             "        Bytes of memory, up to 16777216; under version 2.1 at least 64.\n"
                             "  --protocol 2.1|3.0\n"
                             "        The version of the protocol that the machine follows; --version 2.1\n"
                             "        means the same. Default 3.0. Under 2.1 it stores its address and the\n"
                             "        names of a load's parameters in memory too, in the parameter block: 14\n"
                             "        bytes from 64 below the first even address beyond memory on. It does\n"
                             "        not answer parameters with what 2.1 does not have: a name above 6\n"
                             "        bytes, an address above 2, or a time.\n"
                             "  --offer\n"
                             "        Offer a dump and not ask for a program.\n"
                             "  --idle\n"
                             "        Neither ask nor offer: answer any host's loop tests (moploop), loads\n"
                             "        and dumps, until it is started, or no host was heard in the time of\n"
                             "        --wait.\n"
                             "  --fill FILE\n"
                             "        What the memory holds at first, from address 0 on; the rest is 0.\n"
                             "  --rom START LENGTH\n"
                             "        A ROM window: LENGTH bytes from address START on, at least 1, that no\n"
                             "        load may touch. It ends at address 0xFFFFFFFF or before, and may lie\n"
                             "        beyond memory or across its end. A dump reads it like the rest.\n"
                             "  --rom-file FILE\n"
                             "        What the ROM holds, from START on. If FILE is shorter than the window\n"
                             "        the rest of it is as --fill has it, or 0. A FILE that is longer, or\n"
                             "        that ends beyond memory, is refused.\n"
                             "  --save FILE\n"
                             "        Write the memory to FILE at the end, the ROM too, however it ends. A\n"
                             "        file that is there is replaced only with --force; a device, a\n"
                             "        directory and the files of --fill and --rom-file never are.\n"
                             "  --force\n"
                             "        Replace the file of --save.\n"
                             "  --reset-after N\n"
                             "        Be reset once, when the Nth frame of the load has come from the host\n"
                             "        that was asked, repeats counted, and before that frame is looked at:\n"
                             "        it is not answered, nor is what has come behind it. Each bit of\n"
                             "        memory is turned over, but for the ROM. Then the machine asks all\n"
                             "        hosts for a program again.\n"
                             "  -D N, --dump-most N\n"
                             "        Bytes of a dump reply at most, 1 to 1493. Default 1024.\n"
                             "  --device N, --processor N\n"
                             "        What it says it is, 0 to 255. Default 0.\n";

static void help(FILE *out)
{
    fputs(manual, out);
    common_help(out, "a host to be heard");
    words_statuses(out, STATUS_FINISHED, STATUS_OTHER);
    words_statuses(out, STATUS_SILENT, STATUS_INTERRUPTED);
    words_statuses(out, STATUS_USAGE, STATUS_PERMISSION);
    words_statuses(out, STATUS_FILE, STATUS_FILE);
    fputs("\n"
          "EXAMPLES\n"
          "  mopmachine -i vmachine --memory 32768 --save memory.bin --drop 9\n"
          "  mopmachine -i vmachine --memory 32768 --fill memory.bin --offer\n",
        out);
}

static int small_byte(const char *name, const char *value, uint8_t *byte)
{
    uint32_t number = 0;
    int status = option_small(name, value, 0, 255, &number);
    *byte = (uint8_t)number;
    return status;
}

static int rom_option(const char *start, const char *length, mop_window *rom)
{
    const uint64_t most = (uint64_t)UINT32_MAX + 1;
    if (length == NULL)
        return complain(STATUS_USAGE, "--rom: give a start and a length");
    int status = option_number("--rom", start, 0, UINT32_MAX, &rom->start);
    if (status == 0)
        status = option_number("--rom", length, 1, most, &rom->length);
    if (status == 0 && rom->start + rom->length > most)
        status = complain(STATUS_USAGE, "--rom: the window ends above address 0xFFFFFFFF");
    return status;
}

static int memory_option(const char *value, size_t *length)
{
    uint32_t bytes = 0;
    int status = option_small("--memory", value, 1, MOP_MEMORY_MOST, &bytes);
    *length = bytes;
    return status;
}

static int option(int c, char **words, machine_end *m)
{
    const char *value = optarg;
    switch (c) {
    case OPTION_MEMORY:
        return memory_option(value, &m->memory.length);
    case OPTION_PROTOCOL:
        return option_protocol(value, &m->settings.version);
    case OPTION_VERSION:
        return manual_version(&m->common.program, &m->settings.version);
    case OPTION_OFFER:
        m->offer = true;
        return 0;
    case OPTION_IDLE:
        m->idle = true;
        return 0;
    case OPTION_FILL:
    case OPTION_ROM_FILE:
        m->files[c == OPTION_FILL ? FILL : ROM] = value;
        return 0;
    case OPTION_ROM:
        return rom_option(value, words[optind] == NULL ? NULL : words[optind++], &m->settings.window);
    case OPTION_SAVE:
        m->save.path = value;
        return 0;
    case OPTION_FORCE:
        m->save.force = true;
        return 0;
    case OPTION_RESET:
        return option_small("--reset-after", value, 1, 1000000000, &m->reset_after);
    case 'D':
        return option_small("-D", value, 1, MOP_ETHERNET_DUMP_DATA_MOST, &m->settings.reply_bytes);
    case OPTION_DEVICE:
        return small_byte("--device", value, &m->settings.device);
    case OPTION_PROCESSOR:
        return small_byte("--processor", value, &m->settings.processor);
    default:
        return common_option(c, value, &m->common);
    }
}

static int options(int count, char **words, machine_end *m)
{
    static const struct option known[] = {LINE_OPTIONS, {"memory", required_argument, NULL, OPTION_MEMORY},
        {"protocol", required_argument, NULL, OPTION_PROTOCOL}, {"offer", no_argument, NULL, OPTION_OFFER},
        {"idle", no_argument, NULL, OPTION_IDLE}, {"fill", required_argument, NULL, OPTION_FILL},
        {"rom", required_argument, NULL, OPTION_ROM}, {"rom-file", required_argument, NULL, OPTION_ROM_FILE},
        {"save", required_argument, NULL, OPTION_SAVE}, {"force", no_argument, NULL, OPTION_FORCE},
        {"reset-after", required_argument, NULL, OPTION_RESET}, {"dump-most", required_argument, NULL, 'D'},
        {"device", required_argument, NULL, OPTION_DEVICE}, {"processor", required_argument, NULL, OPTION_PROCESSOR},
        {NULL, 0, NULL, 0}};
    for (int c = 0; (c = getopt_long(count, words, "+i:D:h", known, NULL)) != -1;) {
        int status = option(c, words, m);
        if (status != 0)
            return status;
    }
    if (optind != count)
        return complain(STATUS_USAGE, "'%s' is too much (see --help)", words[optind]);
    if (m->memory.length == 0)
        return complain(STATUS_USAGE, "give --memory N (see --help)");
    if (m->settings.version == MOP_VERSION_2_1 && m->memory.length < MOP_BLOCK_MEMORY_LEAST)
        return complain(STATUS_USAGE, "--memory %zu is refused (%d): %s", m->memory.length, MOP_REFUSED_MEMORY,
            refusal_words(MOP_REFUSED_MEMORY));
    if (m->files[ROM] != NULL && m->settings.window.length == 0)
        return complain(STATUS_USAGE, "--rom-file: give --rom START LENGTH too");
    if (m->offer && m->reset_after != 0)
        return complain(STATUS_USAGE, "--reset-after is of a load: it does not go with --offer");
    if (m->idle && (m->offer || m->reset_after != 0))
        return complain(STATUS_USAGE, "--idle goes neither with --offer nor with --reset-after");
    return 0;
}

/* Lays a file, if there is one, into memory from an address on, into a place of so many bytes. */
static int lay(machine_end *m, const char *path, uint64_t at, uint64_t length, const char *place)
{
    contents file = {NULL, 0};
    int status = path == NULL ? 0 : file_read(path, MOP_MEMORY_MOST, &file);
    if (file.bytes == NULL)
        return status;
    if (file.length > length)
        status = complain(STATUS_FILE, "%s has %zu bytes, and %s has %" PRIu64, path, file.length, place, length);
    else if (file.length > 0 && at + file.length > m->memory.length)
        status = complain(STATUS_FILE, "%s ends beyond memory: %zu bytes from 0x%08" PRIX64 " on, and memory has %zu",
            path, file.length, at, m->memory.length);
    else if (file.length > 0)
        memcpy(m->memory.bytes + at, file.bytes, file.length);
    free(file.bytes);
    return status;
}

static int fill(machine_end *m)
{
    const mop_window *rom = &m->settings.window;
    m->memory.bytes = m->memory.length == 0 ? NULL : calloc(m->memory.length, 1);
    if (m->memory.bytes == NULL)
        return complain(STATUS_OTHER, "no room for the memory");
    int status = lay(m, m->files[FILL], 0, m->memory.length, "memory");
    return status == 0 ? lay(m, m->files[ROM], rom->start, rom->length, "the ROM window") : status;
}

static void tell_state(const machine_end *m)
{
    if (m->machine.state == MOP_MACHINE_STARTED)
        printf("Started at 0x%08" PRIX32 ".\n", m->machine.transfer);
    else
        printf("The machine is %s.\n", state_words(m->machine.state));
    if (!m->given)
        return;
    fputs("Given by the host: ", stdout);
    parameters_words(stdout, m->machine.parameters, NULL);
    puts(".");
    if (m->settings.version != MOP_VERSION_2_1)
        return;
    tell_block("The parameter block, ", m);
    fputs(" of memory, holds: ", stdout);
    parameters_block_words(stdout, m->memory.bytes + parameters_block_at(m->memory.length), &m->machine.parameters);
    puts(".");
}

static int conclude(machine_end *m, int status)
{
    tell_state(m);
    int saved = m->save.path == NULL ? 0 : output_write(&m->save, m->memory.bytes, m->memory.length);
    return status == 0 ? saved : status;
}

static int on_the_line(machine_end *m)
{
    int status = line_open(&m->line, &m->common.line);
    if (status != 0)
        return status;
    if (m->settings.reply_bytes + DUMP_REST > m->line.longest)
        m->settings.reply_bytes = m->line.longest - DUMP_REST;
    m->save.inputs = m->files;
    m->save.inputs_count = FILES;
    status = m->save.path == NULL ? 0 : output_check(&m->save);
    if (status == 0)
        status = fill(m);
    if (status == 0)
        status = conclude(m, run(m));
    line_tell(&m->line);
    line_close(&m->line);
    return status;
}

int main(int count, char **words)
{
    static machine_end m = {.common = {.timer = 2000, .wait = 600, .program = {.write = help}},
        .settings = {.reply_bytes = 1024, .version = MOP_VERSION_3_0}};
    m.common.program.words = words;
    words_program("mopmachine");
    int status = options(count, words, &m);
    if (status == 0)
        status = process_begin();
    if (status == 0)
        status = on_the_line(&m);
    free(m.memory.bytes);
    return status;
}
