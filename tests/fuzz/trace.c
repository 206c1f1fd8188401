/* Captures that are there already: one is appended to exactly if it is of the right kind and whole records alone stand in
 * it. How a capture is spoiled is known here, and with it what must be said; the rest is judged byte by byte. */
#include <stdio.h>
#include <stdlib.h>
#include <string.h>
#include <sys/mman.h>
#include <unistd.h>

#include "fuzz.h"
#include "trace.h"

#define HEADER 24
#define RECORD 16
#define RECORDS_MOST 6

/* The records that were made: where each begins, and, one behind the last, where they end. */
static size_t begins[RECORDS_MOST + 1];
static uint32_t records;

static void put_record(uint32_t kept)
{
    put_low_first(one_in(9) ? any_number() : 0x60000000 + below(0x10000000), 4);
    put_low_first(one_in(9) ? 999999 : below(1000000), 4);
    put_low_first(kept, 4);
    put_low_first(one_in(4) ? kept + below(9000) : kept, 4);
    while (kept-- > 0)
        put_byte((uint8_t)below(256));
}

/* A good one, of a few short records. */
static void make_capture(void)
{
    static const uint32_t longest[] = {65535, 262144, 1517};
    input.length = 0;
    put_low_first(0xA1B2C3D4, 4);
    put_low_first(0x00040002, 4);
    put_low_first(0, 4);
    put_low_first(0, 4);
    put_low_first(longest[one_in(4) ? below(3) : 0], 4);
    put_low_first(1, 4);
    records = below(RECORDS_MOST);
    for (uint32_t n = 0; n < records; n++) {
        begins[n] = input.length;
        put_record(one_in(9) ? 1500 + below(18) : 14 + below(40) * below(2));
    }
    begins[records] = input.length;
}

static uint32_t number_at(size_t at)
{
    const uint8_t *b = input.bytes + at;
    return b[0] | (uint32_t)b[1] << 8 | (uint32_t)b[2] << 16 | (uint32_t)b[3] << 24;
}

static void set_number(size_t at, uint32_t to)
{
    for (size_t i = 0; i < 4; i++)
        input.bytes[at + i] = (uint8_t)(to >> 8 * i);
}

/* ---- What must come of it -------------------------------------------- */

static bool checked(size_t length)
{
    static int fd = -1;
    if (fd < 0)
        fd = memfd_create("capture", MFD_CLOEXEC);
    require(ftruncate(fd, 0) == 0 && pwrite(fd, input.bytes, length, 0) == (ssize_t)length, "a file is made");
    said[0] = '\0';
    const bool good = capture_check("file", fd, length) == 0;
    require(good == (said[0] == '\0'), "what is refused is told");
    return good;
}

/* Refused, with these words, and the advice to cut there exactly if it is to be given. */
static bool refused(const char *words, size_t at, bool advised)
{
    char text[80];
    require(!checked(input.length), "a spoiled capture is refused");
    snprintf(text, sizeof text, "%s at byte %zu of %zu", words, at, input.length);
    require(strstr(said, text) != NULL, "the place is told");
    snprintf(text, sizeof text, "(truncate -s %zu FILE)", at);
    require((strstr(said, text) != NULL) == advised && (strstr(said, "truncate") != NULL) == advised,
        "cutting is advised where nothing is lost by it");
    return false;
}

static bool zeros_alone(size_t from)
{
    while (from < input.length && input.bytes[from] == 0)
        from += 1;
    return from == input.length;
}

/* ---- Ways to spoil one ------------------------------------------------ */

/* At any place: good if a record ends there. */
static bool cut_anywhere(void)
{
    input.length = HEADER + below((uint32_t)(input.length - HEADER) + 1);
    uint32_t n = 0;
    while (n < records && begins[n + 1] <= input.length)
        n += 1;
    if (begins[n] < input.length)
        return refused(zeros_alone(begins[n]) ? "damaged" : "record ends", begins[n], true);
    require(checked(input.length), "a capture cut between two records is good");
    return true;
}

/* What a computer that lost its power leaves. */
static bool zeros_behind(void)
{
    for (uint32_t n = 1 + below(one_in(9) ? 5000 : 100); n > 0; n--)
        put_byte(0);
    return refused("damaged", begins[records], true);
}

/* One number of one record's header is wrong; what follows is not lost. */
static bool wrong_number(void)
{
    if (records == 0)
        return checked(input.length);
    const size_t at = begins[below(records)];
    const uint32_t whole = number_at(at + 12), more = one_in(2) ? 1 + below(20) : 1 + below(0x7FFFFFFF);
    switch (below(5)) {
    case 0:
        set_number(at + 4, 999999 + more);
        break;
    case 1:
        set_number(at + 8, below(14));
        break;
    case 2:
        set_number(at + 8, whole + more);
        break;
    case 3:
        set_number(at + 12, below(number_at(at + 8)));
        break;
    default: /* more than the capture keeps of any frame */
        set_number(at + 8, number_at(16) + more);
        set_number(at + 12, number_at(16) + more);
    }
    return refused("damaged", at, false);
}

static bool wrong_kind(void)
{
    static const size_t numbers[] = {0, 4, 16, 20};
    const size_t at = numbers[below(4)];
    if (at == 16)
        set_number(at, one_in(2) ? 1516 : below(1516));
    else if (one_in(2))
        input.bytes[at + below(4)] ^= (uint8_t)(1U << below(8));
    else
        input.length = below(HEADER);
    require(!checked(input.length), "a capture of another kind is refused");
    require(strstr(said, "truncate") == NULL, "it is not to be cut");
    return false;
}

/* ---- Any bytes --------------------------------------------------------- */

static bool is_header(size_t at)
{
    const uint32_t kept = number_at(at + 8);
    return number_at(at + 4) / 1000000 == 0 && kept / 14 != 0 && kept <= number_at(16) && kept <= 262144 &&
           number_at(at + 12) >= kept;
}

/* Whether whole records alone stand behind the header, up to a length. */
static bool records_alone(size_t length)
{
    uint64_t at = HEADER;
    while (at + RECORD <= length && is_header((size_t)at))
        at += RECORD + number_at((size_t)at + 8);
    return at == length;
}

/* Whether what stands from there on is less than a record. */
static bool less_than_record(size_t from)
{
    const size_t there = input.length - from;
    return there < RECORD || (is_header(from) && there - RECORD < number_at(from + 8));
}

static bool mutated(void)
{
    mutate(NULL);
    if (input.length < HEADER || memcmp(input.bytes, "\xD4\xC3\xB2\xA1\x02\0\x04\0", 8) != 0 || number_at(20) != 1 ||
        number_at(16) < 1517) {
        require(!checked(input.length), "a capture of another kind is refused");
        return false;
    }
    if (records_alone(input.length)) {
        require(checked(input.length), "a good capture is appended to");
        return true;
    }
    require(!checked(input.length), "a spoiled capture is refused");
    const char *place = strstr(said, "at byte "), *advice = strstr(said, "truncate -s ");
    require(place != NULL, "the place is told");
    const size_t at = strtoul(place + strlen("at byte "), NULL, 10);
    require(at >= HEADER && at < input.length && records_alone(at), "whole records end there");
    if (advice != NULL) {
        require(strtoul(advice + strlen("truncate -s "), NULL, 10) == at, "the place to cut is this one");
        require(zeros_alone(at) || less_than_record(at), "nothing is lost by cutting there");
    }
    return false;
}

bool fuzz_trace(void)
{
    static bool (*const ways[])(void) = {cut_anywhere, zeros_behind, wrong_number, wrong_kind, mutated};
    make_capture();
    if (!one_in(3))
        return ways[below(5)]();
    require(checked(input.length), "a good capture is appended to");
    return true;
}
