/* The code on the first page of mop.h, as it stands there (the Makefile cuts it
 * out into page.inc), run against a machine end over a line that now and then
 * loses a frame, or hands over one that can't be read. */
#include <stdio.h>
#include <string.h>

#include "mop.h"

#include "page.inc"

static const mop_machine_settings ours = {
    .reply_bytes = 100, .version = MOP_VERSION_3_0};
static uint8_t memory[5000];
static mop_machine machine;
static uint8_t coming[MOP_FRAME_MOST]; /* the frame on its way to the host */
static size_t coming_length;

static void machine_does(mop_machine_step step)
{
    machine = step.machine;
    coming_length = step.answer.length;
}

void line_send(const uint8_t *frame, size_t length)
{
    machine_does(mop_machine_frame(ours, machine, frame, length, memory,
        sizeof memory, coming, sizeof coming));
}

size_t line_wait(uint8_t *frame, size_t room)
{
    static int waits;
    if (++waits % 5 == 0) {
        frame[0] = 255;
        return 1;
    }
    const size_t length = waits % 4 == 0 ? 0 : coming_length;
    coming_length = 0;
    if (length > 0 && length <= room) {
        memcpy(frame, coming, length);
        return length;
    }
    machine_does(mop_machine_timer(
        ours, machine, memory, sizeof memory, coming, sizeof coming));
    return 0;
}

/* An image of one region of 4,000 bytes at 100. */
static size_t make_image(uint8_t *file)
{
    const uint32_t numbers[] = {100, 0, 4000, 4000, 1, 102, 4028};
    for (int i = 0; i < 4000; i++)
        file[i] = (uint8_t)(i * 7 + 1);
    for (int i = 0; i < 28; i++)
        file[4000 + i] = (uint8_t)(numbers[i / 4] >> 8 * (i % 4));
    return 4028;
}

int main(void)
{
    static uint8_t file[4028], buffer[6000];
    const size_t length = make_image(file);
    machine_does(mop_machine_start_load(
        ours, memory, sizeof memory, coming, sizeof coming));
    const int loaded = load(file, length);
    const int started = machine.state == MOP_MACHINE_STARTED;
    machine_does(mop_machine_start_dump(
        ours, memory, sizeof memory, coming, sizeof coming));
    const int dumped = dump(0, buffer, sizeof buffer);
    const int same = memcmp(memory + 100, file, 4000) == 0 &&
                     memcmp(buffer, memory, sizeof memory) == 0;
    const int refused = load(file, length - 1);
    printf("page: load %d, dump %d, %s, a bad file %d\n", loaded, dumped,
        same ? "the same bytes" : "OTHER bytes", refused);
    return loaded == MOP_LOAD_FINISHED && started &&
                   dumped == MOP_DUMP_FINISHED && same &&
                   refused == -MOP_REFUSED_FILE
               ? 0
               : 1;
}
