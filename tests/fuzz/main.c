/* fuzz [COUNT [SEED]]: COUNT inputs of each kind, always the same ones for a seed. */
#include <inttypes.h>
#include <stdarg.h>
#include <stdio.h>
#include <stdlib.h>
#include <string.h>
#include <unistd.h>

#include "fuzz.h"

typedef struct kind {
    const char *name;
    const char *accepted;
    bool (*one)(void);
    uint64_t part; /* one input of so many is made: some take longer */
} kind;

static const kind kinds[] = {
    {"S-records", "became images", fuzz_srec, 1},
    {"Intel HEX", "became images", fuzz_ihex, 1},
    {"image files", "accepted", fuzz_image, 1},
    {"raw frames", "messages for this end", fuzz_raw, 1},
    {"sessions of a load", "finished", fuzz_load, 10},
    {"sessions of a dump", "finished", fuzz_dump, 10},
    {"sessions of a machine", "started", fuzz_machine, 10},
    {"names", "accepted", fuzz_name, 1},
    {"addresses", "accepted", fuzz_address, 1},
    {"times", "accepted", fuzz_time, 1},
    {"images of many regions", "accepted", fuzz_many, 4000},
    {"LDA files", "became images", fuzz_lda, 1},
    {"records", "whole", fuzz_record, 4},
    {"frames that are heard", "readable", fuzz_heard, 1},
    {"traces that are there already", "appended to", fuzz_trace, 1},
    {"answers on an interface", "warned of", fuzz_interface, 1},
    {"transcripts", "drawn", fuzz_transcript, 10},
    {"captures", "drawn", fuzz_capture, 10},
};

static const kind *now;
static uint64_t seed, number, state;
static FILE *report; /* the driver's own standard output goes nowhere */

char said[SAID_MOST];
sample input;

/* In place of the driver's own (--wrap): what is said is kept. */
int __wrap_complain(int status, const char *format, ...);
int __wrap_complain(int status, const char *format, ...)
{
    va_list values;
    va_start(values, format);
    vsnprintf(said, sizeof said, format, values);
    va_end(values);
    return status;
}

void failed(const char *what)
{
    fprintf(report, "FAILED: %s, seed %" PRIu64 ", input %" PRIu64 ": %s\nlast said: %s\nlast bytes: ", now->name, seed,
        number, what, said);
    for (size_t i = 0; i < input.length; i++)
        fprintf(report, "%02X", input.bytes[i]);
    fputs("\n", report);
    fflush(report);
    _Exit(EXIT_FAILURE);
}

/* ---- Random numbers -------------------------------------------------- */

/* splitmix64 */
static uint64_t next(void)
{
    uint64_t z = state += 0x9E3779B97F4A7C15U;
    z = (z ^ z >> 30) * 0xBF58476D1CE4E5B9U;
    z = (z ^ z >> 27) * 0x94D049BB133111EBU;
    return z ^ z >> 31;
}

uint32_t below(uint32_t n)
{
    return (uint32_t)(next() % n);
}

bool one_in(uint32_t n)
{
    return below(n) == 0;
}

uint32_t any_number(void)
{
    static const uint32_t bounds[] = {0, 16, 64, 256, 0x200, 0x10000, 100000, 0x100000, 0x1000000, 0x80000000};
    if (one_in(3))
        return (uint32_t)next();
    return bounds[below(sizeof bounds / sizeof bounds[0])] + below(9) - 4;
}

uint8_t any_version(void)
{
    static const uint8_t versions[] = {21, 30};
    return one_in(16) ? (uint8_t)(one_in(2) ? next() : 19 + below(13)) : versions[below(2)];
}

bool is_version(uint8_t version)
{
    return version == 21 || version == 30;
}

/* ---- The input ------------------------------------------------------- */

void put_byte(uint8_t byte)
{
    require(input.length < SAMPLE_MOST, "the fuzzer has room for its input");
    input.bytes[input.length++] = byte;
}

void put_bytes(const void *bytes, size_t length)
{
    for (size_t i = 0; i < length; i++)
        put_byte(((const uint8_t *)bytes)[i]);
}

void put_low_first(uint32_t value, size_t length)
{
    for (size_t i = 0; i < length; i++)
        put_byte((uint8_t)(value >> 8 * i));
}

static uint8_t any_byte(const char *letters)
{
    return letters == NULL ? (uint8_t)next() : (uint8_t)letters[below((uint32_t)strlen(letters))];
}

/* Opens a gap of bytes, which keep what stood there. */
static void widen(size_t at, size_t by)
{
    memmove(input.bytes + at + by, input.bytes + at, input.length - at);
    input.length += by;
}

static void narrow(size_t at, size_t by)
{
    memmove(input.bytes + at, input.bytes + at + by, input.length - at - by);
    input.length -= by;
}

void mutate(const char *letters)
{
    for (uint32_t times = 1 + below(3); times > 0 && input.length > 0; times--) {
        size_t at = below((uint32_t)input.length);
        size_t span = 1 + below((uint32_t)(input.length - at));
        span = span > 20 && !one_in(8) ? 20 : span;
        switch (below(6)) {
        case 0:
            input.bytes[at] = any_byte(letters);
            break;
        case 1:
            if (input.length + 1 <= SAMPLE_MOST)
                widen(at, 1);
            input.bytes[at] = any_byte(letters);
            break;
        case 2:
            narrow(at, one_in(2) ? 1 : span);
            break;
        case 3:
            if (input.length + span <= SAMPLE_MOST)
                widen(at, span);
            break;
        case 4:
            input.length = one_in(4) ? at : input.length;
            break;
        default:
            input.bytes[at] ^= (uint8_t)(1U << below(8));
        }
    }
}

contents exact(void)
{
    contents copy = {malloc(input.length), input.length};
    if (input.length == 0)
        return copy;
    require(copy.bytes != NULL, "there is memory");
    memcpy(copy.bytes, input.bytes, input.length);
    return copy;
}

/* ---- The run --------------------------------------------------------- */

static void run(uint64_t count)
{
    uint64_t accepted = 0, inputs = (count + now->part - 1) / now->part;
    for (number = 0; number < inputs; number++) {
        state =
            seed * 0x2545F4914F6CDD1DU + (uint64_t)(now - kinds) * 0x9E3779B97F4A7C15U + number * 0xD1342543DE82EF95U;
        input.length = 0;
        said[0] = '\0';
        accepted += now->one();
    }
    fprintf(report, "fuzz: %" PRIu64 " %s, %" PRIu64 " %s\n", inputs, now->name, accepted, now->accepted);
    fflush(report);
    require(
        inputs < 1000 || (accepted > inputs / 100 && accepted < inputs), "some inputs are accepted and some are not");
}

int main(int words_count, char **words)
{
    uint64_t count = words_count > 1 ? strtoull(words[1], NULL, 10) : 20000;
    seed = words_count > 2 ? strtoull(words[2], NULL, 10) : 1;
    report = fdopen(dup(STDOUT_FILENO), "w");
    if (report == NULL || freopen("/dev/null", "w", stdout) == NULL || count == 0)
        return 1;
    for (now = kinds; now < kinds + sizeof kinds / sizeof kinds[0]; now++)
        run(count);
    fprintf(report, "fuzz: seed %" PRIu64 ", nothing found\n", seed);
    return fclose(report) == 0 ? 0 : 1;
}
