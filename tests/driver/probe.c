/* probe INTERFACE TRACE RAW: asks a booting machine what no good host would, and leaves the answers in the trace. RAW is
 * a program for address 0x4000. */
#include <stdlib.h>

#include "files.h"
#include "line.h"
#include "mop.h"
#include "words.h"

#define PROGRAM 0x4000
#define ELSEWHERE 0x6000

static line l;
static uint8_t machine[ADDRESS_LENGTH];
static uint8_t message[MOP_FRAME_MOST];

/* The next frame with a code, to this host alone or to all. */
static bool await(uint8_t code, bool multicast, int64_t milliseconds)
{
    line_frame frame;
    int64_t deadline = clock_now() + milliseconds;
    while (line_receive(&l, &frame, deadline) == LINE_FRAME) {
        for (size_t i = 0; i < ADDRESS_LENGTH; i++)
            machine[i] = frame.from[i];
        if (mop_read(MOP_VERSION_3_0, frame.bytes, frame.length).code == code && frame.multicast == multicast)
            return true;
    }
    return false;
}

static void say(mop_written written)
{
    line_send(&l, machine, message, written.length);
}

static bool load(uint8_t number, uint32_t address, const uint8_t *data, size_t length)
{
    say(mop_write_load(number, address, data, length, message, sizeof message));
    return await(MOP_CODE_REQUEST_LOAD, false, 5000);
}

static bool probe(const contents *raw)
{
    static const uint8_t filling[] = {1, 2, 3, 4};
    if (!await(MOP_CODE_REQUEST_PROGRAM, true, 10000))
        return false;
    say(mop_write_volunteer(message, sizeof message));
    bool good = await(MOP_CODE_REQUEST_PROGRAM, false, 5000);
    good = good && load(0, PROGRAM, raw->bytes, raw->length);
    good = good && load(0, PROGRAM, raw->bytes, raw->length); /* 0 once more */
    good = good && load(1, ELSEWHERE, filling, sizeof filling);
    good = good && load(1, ELSEWHERE, filling, sizeof filling); /* a repeat */
    good = good && load(7, ELSEWHERE, filling, sizeof filling); /* a wrong number */
    good = good && load(2, ELSEWHERE, filling, sizeof filling); /* the right one all the same */
    say(mop_write_load_transfer(3, PROGRAM, NULL, 0, PROGRAM, message, sizeof message)); /* no data */
    return good && !await(MOP_CODE_REQUEST_LOAD, false, 500);                            /* and no answer */
}

int main(int count, char **words)
{
    contents raw;
    words_program("probe");
    if (count != 4 || file_read(words[3], MOP_FRAME_MOST, &raw) != 0)
        return 1;
    line_settings settings = {.interface = words[1], .trace = words[2]};
    if (line_open(&l, &settings) != 0 || line_join(&l) != 0)
        return 1;
    puts("Waiting");
    fflush(stdout);
    bool good = probe(&raw);
    line_close(&l);
    free(raw.bytes);
    return good ? 0 : 1;
}
