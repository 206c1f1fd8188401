/* Loads a program into a machine and tells it its name, then dumps the
 * machine's memory and compares, over a line that loses every third frame. Both
 * ends run here. A driver's author replaces line_send and line_wait, and keeps
 * one of the two ends. */
#include <stdio.h>
#include <stdlib.h>
#include <string.h>

#include "mop.h"

/* ---- The line: at most one frame is on its way in each direction. */

typedef struct line {
    const char *sender;
    size_t length; /* 0: no frame is on its way */
    uint8_t frame[MOP_FRAME_MOST];
} line;

static line to_host = {.sender = "machine"}, to_machine = {.sender = "host"};
static uint8_t reply[MOP_FRAME_MOST]; /* where every step puts its frame */

static void print_frame(mop_fields f)
{
    const unsigned address = f.address, bytes = (unsigned)f.data_length;
    if (f.code == MOP_CODE_REQUEST_PROGRAM)
        printf("asks for a program");
    if (f.code == MOP_CODE_LOAD || f.code == MOP_CODE_LOAD_TRANSFER)
        printf("load %d: %u bytes for %04X", f.number, bytes, address);
    if (f.code == MOP_CODE_PARAMETERS)
        printf("load %d: %u bytes of parameters", f.number, bytes);
    if (f.code == MOP_CODE_LOAD_TRANSFER || f.code == MOP_CODE_PARAMETERS)
        printf(", then start at %04X", (unsigned)f.transfer);
    if (f.code == MOP_CODE_REQUEST_LOAD)
        printf("asks for load %d, error %d", f.number, f.error);
    if (f.code == MOP_CODE_REQUEST_DUMP_SERVICE)
        printf("offers %u bytes of memory", (unsigned)f.memory_size);
    if (f.code == MOP_CODE_REQUEST_DUMP)
        printf("asks for %d bytes from %04X", f.count, address);
    if (f.code == MOP_CODE_DUMP_DATA)
        printf("gives %u bytes from %04X", bytes, address);
    if (f.code == MOP_CODE_DUMP_COMPLETE)
        printf("says that the dump is complete");
}

/* Sends the frame that a step has left in reply, if any. A frame that a step
 * can't read is dropped; any other refusal is a fault of this program. */
static void line_send(line *way, mop_written answer)
{
    static int sent;
    if (mop_refused_frame(answer.refusal))
        return;
    if (answer.refusal != MOP_ACCEPTED) {
        printf("%s: refused with %d\n", way->sender, answer.refusal);
        exit(1);
    }
    if (answer.length == 0)
        return;
    const int lost = ++sent % 3 == 0;
    printf("%-8s", way->sender);
    print_frame(mop_read(MOP_VERSION_3_0, reply, answer.length));
    printf(lost ? " (lost)\n" : "\n");
    way->length = lost ? 0 : answer.length;
    memcpy(way->frame, reply, answer.length);
}

/* The length of the frame that has come, or 0 if the timer has run out. */
static size_t line_wait(line *way, uint8_t frame[MOP_FRAME_MOST])
{
    const size_t length = way->length;
    memcpy(frame, way->frame, length);
    way->length = 0;
    return length;
}

/* ---- The machine. */

static const mop_machine_settings ours = {
    .reply_bytes = 512, .version = MOP_VERSION_3_0};
static mop_machine machine;
static uint8_t memory[256];

static void machine_does(mop_machine_step step)
{
    machine = step.machine;
    line_send(&to_host, step.answer);
}

static void machine_step(void)
{
    uint8_t frame[MOP_FRAME_MOST];
    const size_t length = line_wait(&to_machine, frame);
    if (length > 0)
        machine_does(mop_machine_frame(ours, machine, frame, length, memory,
            sizeof memory, reply, sizeof reply));
    else
        machine_does(mop_machine_timer(
            ours, machine, memory, sizeof memory, reply, sizeof reply));
}

/* ---- The host. */

/* What the load ends with: type, length and value of each entry. A load without
 * parameters ends with its last segment. */
static const uint8_t parameters[] = {
    MOP_ENTRY_TARGET_NAME, 4, 'M', 'I', 'L', 'L'};

static void load_step(mop_load *session, const uint8_t *file, size_t size)
{
    const mop_load_settings settings = {.segment_size = 64,
        .repeats = 3,
        .with_parameters = 1,
        .version = MOP_VERSION_3_0};
    uint8_t frame[MOP_FRAME_MOST];
    const size_t length = line_wait(&to_host, frame);
    line_send(&to_machine,
        length > 0
            ? mop_load_update_frame(settings, session, file, size, parameters,
                  sizeof parameters, frame, length, reply, sizeof reply)
            : mop_load_update_timer(settings, session, file, size, parameters,
                  sizeof parameters, reply, sizeof reply));
}

static void dump_step(mop_dump *session, uint8_t *buffer, size_t size)
{
    const mop_dump_settings settings = {.length = size,
        .address = 0,
        .request_bytes = 100,
        .repeats = 3,
        .version = MOP_VERSION_3_0};
    uint8_t frame[MOP_FRAME_MOST];
    const size_t length = line_wait(&to_host, frame);
    line_send(&to_machine, length > 0
                               ? mop_dump_update_frame(settings, session, frame,
                                     length, buffer, size, reply, sizeof reply)
                               : mop_dump_update_timer(settings, session,
                                     buffer, size, reply, sizeof reply));
}

/* What the frames came to that the host was handed. One that was lost is not
 * among them: it shows in the frames sent. */
static void print_counts(mop_counts counts)
{
    printf("counts: %d started it, %d moved it on, %d were ignored, %d "
           "rejected it\n\n",
        (int)counts.starts, (int)counts.advances, (int)counts.ignored,
        (int)counts.rejections);
}

/* ---- An image file of one region: its bytes, the directory, the trailer. */

enum { BYTES = 180, ADDRESS = 0x20, FILE_LENGTH = BYTES + 12 + 16 };

static void make_image(uint8_t file[FILE_LENGTH])
{
    const uint32_t entry[] = {ADDRESS, 0, BYTES}; /* address, offset, length */
    const uint32_t trailer[] = {BYTES, 1, ADDRESS + 2, FILE_LENGTH};
    for (int i = 0; i < BYTES; i++)
        file[i] = (uint8_t)(i + 1);
    for (int i = 0; i < 12; i++) /* low byte first */
        file[BYTES + i] = (uint8_t)(entry[i / 4] >> 8 * (i % 4));
    for (int i = 0; i < 16; i++)
        file[BYTES + 12 + i] = (uint8_t)(trailer[i / 4] >> 8 * (i % 4));
}

int main(void)
{
    uint8_t file[FILE_LENGTH], buffer[sizeof memory] = {0};
    mop_load load = mop_load_start();
    mop_dump dump = mop_dump_start();

    /* A bad string would be refused in every step, like a frame. */
    if (mop_write_parameters(MOP_VERSION_3_0, 0, parameters, sizeof parameters,
            0, reply, sizeof reply)
            .refusal != MOP_ACCEPTED)
        return 1;
    make_image(file);
    machine_does(mop_machine_start_load(
        ours, memory, sizeof memory, reply, sizeof reply));
    while (load.verdict == MOP_LOAD_RUNNING) {
        load_step(&load, file, sizeof file);
        machine_step();
    }
    const mop_value name = machine.parameters.target_name;
    printf("load: verdict %d, %d frames sent, the machine's name is %.*s\n",
        load.verdict, (int)load.sent, name.length, (const char *)name.bytes);
    print_counts(load.counts);

    machine_does(mop_machine_start_dump(
        ours, memory, sizeof memory, reply, sizeof reply));
    while (dump.verdict == MOP_DUMP_RUNNING) {
        dump_step(&dump, buffer, sizeof buffer);
        machine_step();
    }
    printf("dump: verdict %d, %d frames sent\n", dump.verdict, (int)dump.sent);
    print_counts(dump.counts);

    const int same = memcmp(buffer, memory, sizeof memory) == 0 &&
                     memcmp(buffer + ADDRESS, file, BYTES) == 0;
    printf("the dump %s, and the program is %s it\n",
        same ? "is the memory" : "differs from memory", same ? "in" : "NOT in");
    return same ? 0 : 1;
}
