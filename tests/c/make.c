#include "make.h"

#include <string.h>

#include "check.h"
#include "mop.h"

const uint8_t codes[CODES] = {0, 1, 2, 3, 4, 8, 10, 12, 14, 20, 24, 26};

size_t least_length(uint8_t code)
{
    static const uint8_t least[27] = {[0] = 10,
        [1] = 1,
        [2] = 6,
        [3] = 1,
        [4] = 7,
        [8] = 6,
        [10] = 3,
        [12] = 8,
        [14] = 5,
        [20] = 7,
        [24] = 3,
        [26] = 3};
    return code < sizeof least ? least[code] : 0;
}

bool is_exact(uint8_t code)
{
    return code == 1 || code == 3 || code == 4 || code == 10;
}

bool is_form(uint8_t form)
{
    return form <= 16 || form >= 254;
}

size_t id_bytes(uint8_t form)
{
    return form <= 16 ? form : 0;
}

void put32(uint8_t *to, uint64_t number)
{
    for (int i = 0; i < 4; i++)
        to[i] = (uint8_t)(number >> 8 * i);
}

uint32_t get32(const uint8_t *from)
{
    uint32_t number = 0;
    for (int i = 3; i >= 0; i--)
        number = number << 8 | from[i];
    return number;
}

/* ---- Versions. */

bool is_version(uint8_t version)
{
    return version == MOP_VERSION_2_1 || version == MOP_VERSION_3_0;
}

uint8_t any_version(void)
{
    if (once_in(16))
        return (uint8_t)(once_in(2) ? hostile() : 20 + below(12));
    return once_in(2) ? MOP_VERSION_2_1 : MOP_VERSION_3_0;
}

/* ---- Entries. */

static const uint8_t time_least[8] = {0, 0, 1, 1, 0, 0, 0, 0};
static const uint8_t time_most[8] = {127, 100, 12, 31, 23, 59, 59, 99};

static int twos_complement(uint8_t byte)
{
    return byte < 128 ? byte : byte - 256;
}

bool good_time_byte(const uint8_t time[10], int at)
{
    const int number = twos_complement(time[at]);
    if (at < 8)
        return time[at] >= time_least[at] && time[at] <= time_most[at];
    if (at == 8)
        return number >= -12 && number <= 13;
    const int hours = twos_complement(time[8]);
    return number >= -59 && number <= 59 && !(hours < 0 && number > 0) &&
           !(hours > 0 && number < 0);
}

static bool good_time(const uint8_t time[10])
{
    for (int i = 0; i < 10; i++)
        if (!good_time_byte(time, i))
            return false;
    return true;
}

bool good_entry(uint8_t version, uint8_t type, uint8_t length)
{
    const bool old = version == MOP_VERSION_2_1;
    if (type == 1 || type == 3)
        return length <= (old ? 6 : 16);
    if (type == 2 || type == 4)
        return length <= (old ? 2 : 6);
    return type == 5 && length == 10 && !old;
}

bool good_entries(uint8_t version, const uint8_t *entries, size_t length)
{
    size_t at = 0;
    while (at < length) {
        if (length - at < 2 ||
            !good_entry(version, entries[at], entries[at + 1]))
            return false;
        if (length - at - 2 < entries[at + 1])
            return false;
        if (entries[at] == 5 && !good_time(entries + at + 2))
            return false;
        at += 2 + (size_t)entries[at + 1];
    }
    return true;
}

static void make_time(uint8_t time[10])
{
    const int hours = (int)below(26) - 12, minutes = (int)below(60);
    for (int i = 0; i < 8; i++)
        time[i] = (uint8_t)(time_least[i] +
                            below((uint64_t)time_most[i] - time_least[i] + 1));
    time[8] = (uint8_t)hours;
    time[9] = (uint8_t)(hours < 0 ? -minutes : minutes);
}

size_t make_entries(uint8_t *to, size_t most)
{
    const bool full = once_in(3), old = once_in(2);
    size_t length = 0;
    while (most - length >= 18 && (full || !once_in(6))) {
        uint8_t *entry = to + length;
        entry[0] = (uint8_t)(1 + below(old ? 4 : 5));
        entry[1] = (uint8_t)(entry[0] == 5       ? 10
                             : entry[0] % 2 == 1 ? below(old ? 7 : 17)
                                                 : below(old ? 3 : 7));
        random_bytes(entry + 2, entry[1]);
        if (entry[0] == 5)
            make_time(entry + 2);
        length += 2 + (size_t)entry[1];
    }
    return length;
}

/* ---- Frames. */

static size_t make_request_program(uint8_t *to, size_t info)
{
    static const uint8_t forms[] = {0, 1, 2, 15, 16, 254, 255};
    const uint8_t form = forms[below(sizeof forms)];
    random_bytes(to, 6 + id_bytes(form) + info);
    to[3] = (uint8_t)below(3);
    to[4] = form;
    return 6 + id_bytes(form) + info;
}

size_t make_frame(uint8_t code, uint8_t to[BEYOND])
{
    const size_t more = once_in(8) ? below(1400) : below(40);
    size_t length = least_length(code) + (is_exact(code) ? 0 : more);
    random_bytes(to, length);
    if (code == 8)
        length = make_request_program(to, more);
    if (code == 20) {
        length = 7 + make_entries(to + 2, more);
        to[length - 5] = 0;
        random_bytes(to + length - 4, 4);
    }
    to[0] = code;
    return length;
}

size_t any_frame(uint8_t to[BEYOND])
{
    size_t length = make_frame(codes[below(CODES)], to);
    if (once_in(4))
        to[below(length)] = (uint8_t)hostile();
    if (once_in(8))
        length = below(length + 1);
    if (once_in(8)) {
        const size_t more = below(BEYOND - length);
        random_bytes(to + length, more);
        length += more;
    }
    return length;
}

/* ---- Image files: the regions' bytes, the directory, the trailer. */

enum { SOME_HUNDRED = 400 };

static void put_entry(
    uint8_t *to, uint64_t address, size_t offset, size_t length)
{
    put32(to, address);
    put32(to + 4, offset);
    put32(to + 8, length);
}

/* The trailer of a file with so many bytes of regions: the file's length. */
static size_t put_trailer(uint8_t *file, size_t bytes, size_t regions)
{
    const size_t at = bytes + 12 * regions;
    put32(file + at, bytes);
    put32(file + at + 4, regions);
    put32(file + at + 8, random_any());
    put32(file + at + 12, at + 16);
    return at + 16;
}

size_t make_image(uint8_t to[IMAGE_MOST])
{
    const size_t few = once_in(8) ? 64 : 3;
    const size_t regions = 1 + below(once_in(16) ? SOME_HUNDRED : few);
    const size_t most = 2048 / regions;
    uint8_t directory[SOME_HUNDRED * 12] = {0};
    size_t bytes = 0;
    uint64_t address = once_in(4) ? UINT32_MAX - 200000 : below(300);
    for (size_t i = 0; i < regions; i++) {
        const size_t length = 1 + below(once_in(4) ? most : 8);
        put_entry(directory + 12 * i, address, bytes, length);
        address += length + (once_in(2) ? below(100) : 0);
        bytes += length;
    }
    random_bytes(to, bytes);
    memcpy(to + bytes, directory, 12 * regions);
    return put_trailer(to, bytes, regions);
}

size_t make_one_region(uint8_t to[IMAGE_MOST], size_t bytes)
{
    random_bytes(to, bytes);
    put_entry(to + bytes, 64, 0, bytes);
    return put_trailer(to, bytes, 1);
}

size_t make_many(uint8_t *to, size_t regions)
{
    random_bytes(to, regions);
    for (size_t i = 0; i < regions; i++)
        put_entry(to + regions + 12 * i, 3 * i, i, 1);
    return put_trailer(to, regions, regions);
}

size_t any_image(uint8_t to[IMAGE_MOST])
{
    size_t length = make_image(to);
    if (once_in(2))
        return length;
    if (once_in(2)) { /* a number of the directory or the trailer */
        const size_t places = (length - get32(to + length - 16)) / 4;
        put32(to + length - 4 * (1 + below(places)), hostile());
    }
    if (once_in(4))
        to[below(length)] ^= (uint8_t)(1U << below(8));
    if (once_in(6))
        length = below(length + 1);
    if (once_in(6))
        length = below(IMAGE_MOST);
    return length;
}
