#include "slow.h"

#include <stdio.h>
#include <stdlib.h>
#include <string.h>

#define BLANKS " \t\v\f\r\n"
#define DIGITS "0123456789ABCDEFabcdef"
#define LINE_MOST 16384

/* What was read of the lines before. */
typedef struct before {
    uint64_t base;
    uint64_t data_records;
    bool over;
} before;

/* The number that some digits are. */
static uint64_t value(const char *digits, size_t at, size_t count)
{
    char part[17] = "";
    memcpy(part, digits + at, count);
    return strtoull(part, NULL, 16);
}

/* The sum of all bytes, or -1 if these are not pairs of digits. */
static int sum_of(const char *digits)
{
    uint64_t sum = 0;
    size_t length = strlen(digits);
    if (strspn(digits, DIGITS) != length || length % 2 != 0)
        return -1;
    for (size_t i = 0; i < length; i += 2)
        sum += value(digits, i, 2);
    return (int)(sum % 256);
}

static void add(slow *s, uint64_t address, const char *digits, size_t count)
{
    for (size_t i = 0; i < count; i++)
        s->cells[s->count++] = (cell){address + i, (uint8_t)value(digits, 2 * i, 2)};
}

static bool starts(slow *s, uint64_t start)
{
    if (s->starts && s->start != start)
        return false;
    s->starts = true;
    s->start = start;
    return true;
}

/* S, kind, then pairs: count of the bytes that follow, address, data, checksum. */
static bool srec_line(slow *s, before *b, const char *line)
{
    const char *places[] = {"0159", "268", "37"}; /* the kinds with addresses of 2, 3 and 4 bytes */
    size_t width = 0;
    if (strchr("Ss", line[0]) == NULL || line[1] < '0' || line[1] > '9' || sum_of(line + 2) != 0xFF)
        return false;
    for (size_t i = 0; i < 3; i++)
        width = strchr(places[i], line[1]) != NULL ? i + 2 : width;
    const char *pairs = line + 2;
    uint64_t count = value(pairs, 0, 2);
    if (width == 0 || strlen(pairs) != 2 + 2 * count || count < width + 1)
        return false;
    uint64_t address = value(pairs, 2, 2 * width), data = count - width - 1;
    if (line[1] >= '1' && line[1] <= '3') {
        b->data_records += 1;
        add(s, address, pairs + 2 + 2 * width, data);
        return address + data <= (width == 2 ? 0x10000 : width == 3 ? 0x1000000 : 0x100000000);
    }
    if (line[1] == '5' || line[1] == '6')
        return data == 0 && address == b->data_records;
    b->over = line[1] >= '7';
    return !b->over || (data == 0 && starts(s, address));
}

/* Colon, then pairs: count of the data, offset 2, type, data, checksum. */
static bool ihex_line(slow *s, before *b, const char *line)
{
    const char *pairs = line + 1;
    if (line[0] != ':' || sum_of(pairs) != 0 || strlen(pairs) < 10 || strlen(pairs) != 10 + 2 * value(pairs, 0, 2))
        return false;
    uint64_t count = value(pairs, 0, 2), offset = value(pairs, 2, 4), type = value(pairs, 6, 2);
    if (type == 0) {
        add(s, b->base + offset, pairs + 8, count);
        return offset + count <= 0x10000;
    }
    if (type == 1) {
        b->over = true;
        return count == 0 && (offset == 0 || starts(s, offset));
    }
    if (offset != 0 || type > 5 || count != (type % 2 == 0 ? 2 : 4))
        return false;
    uint64_t high = value(pairs, 8, 4), low = count == 4 ? value(pairs, 12, 4) : 0;
    if (type % 2 != 0)
        return starts(s, high * (type == 3 ? 16 : 65536) + low);
    b->base = high * (type == 2 ? 16 : 65536);
    return true;
}

/* One line without its end. */
static bool one_line(slow *s, before *b, const uint8_t *text, size_t length, bool motorola)
{
    static char line[LINE_MOST + 1];
    memcpy(line, text, length);
    line[length] = '\0';
    if (strlen(line) != length) /* a zero byte */
        return false;
    while (length > 0 && strchr(BLANKS, line[length - 1]) != NULL)
        line[--length] = '\0';
    const char *record = line + strspn(line, BLANKS);
    if (*record == '\0')
        return true;
    return !b->over && (motorola ? srec_line(s, b, record) : ihex_line(s, b, record));
}

static int by_address(const void *one, const void *other)
{
    uint64_t a = ((const cell *)one)->address, b = ((const cell *)other)->address;
    return a < b ? -1 : a > b;
}

void slow_judge(slow *s)
{
    qsort(s->cells, s->count, sizeof s->cells[0], by_address);
    s->regions = s->count > 0;
    for (size_t i = 1; i < s->count; i++) {
        uint64_t gap = s->cells[i].address - s->cells[i - 1].address;
        s->overlap = s->overlap || gap == 0;
        s->regions += gap > 1;
    }
}

void slow_text(slow *s, const uint8_t *text, size_t length, bool motorola)
{
    before b = {0};
    s->count = s->line = s->length = 0;
    s->good = true;
    s->overlap = s->starts = false;
    while (length > 0 && text[length - 1] != '\0' && strchr(BLANKS "\x1A", text[length - 1]) != NULL)
        length--;
    for (size_t at = 0; at < length && s->good;) {
        size_t end = at;
        while (end < length && text[end] != '\n')
            end++;
        s->line += 1;
        s->length = end - at;
        s->good = one_line(s, &b, text + at, end - at, motorola);
        at = end + 1;
    }
    if (s->good && !b.over) {
        s->good = false;
        s->line = 0;
    }
    if (s->good)
        slow_judge(s);
}

/* ---- The image file -------------------------------------------------- */

static uint64_t low_first(const uint8_t *at, int count)
{
    uint64_t number = 0, weight = 1;
    for (int i = 0; i < count; i++, weight *= 256)
        number += at[i] * weight;
    return number;
}

uint64_t slow_count(const uint8_t *file, size_t length)
{
    return low_first(file + length - 12, 4);
}

bool slow_placed(const uint8_t *file, size_t length)
{
    return low_first(file + length - 16, 4) + 12 * slow_count(file, length) + 16 == length;
}

int slow_image(const uint8_t *file, size_t length, size_t *entry)
{
    uint64_t end = 0;
    if (length < 16 || length > 16777216)
        return 5;
    const uint8_t *trailer = file + length - 16;
    if (low_first(trailer + 12, 4) != length)
        return 5;
    uint64_t directory = low_first(trailer, 4), count = slow_count(file, length);
    if (count < 1 || count > 100000 || !slow_placed(file, length))
        return 6;
    for (*entry = 0; *entry < count; *entry += 1) {
        const uint8_t *at = file + directory + 12 * *entry;
        uint64_t address = low_first(at, 4), offset = low_first(at + 4, 4), bytes = low_first(at + 8, 4);
        if (bytes == 0 || offset + bytes > directory || address + bytes > 0x100000000)
            return 7;
        if (address < end)
            return 8;
        end = address + bytes;
    }
    return 0;
}

unsigned slow_region(const uint8_t *file, size_t length, uint64_t address)
{
    const uint8_t *trailer = file + length - 16, *at = file + low_first(trailer, 4);
    for (unsigned region = 1; at < trailer; region++, at += 12)
        if (address >= low_first(at, 4) && address < low_first(at, 4) + low_first(at + 8, 4))
            return region;
    return 0;
}

/* ---- Parameters ------------------------------------------------------ */

/* The number that some digits are, or -1. */
static int decimal(const char *text, size_t at, size_t count)
{
    char part[8] = "";
    memcpy(part, text + at, count);
    return count > 0 && strspn(part, "0123456789") == count ? (int)strtol(part, NULL, 10) : -1;
}

/* Area and node, if these numbers are written as the text is. */
static bool node_address(const char *text, uint8_t *bytes)
{
    char back[32];
    size_t length = strlen(text), dot = strcspn(text, ".");
    if (dot > 4 || length < dot + 1 || length - dot - 1 > 4)
        return false;
    int area = decimal(text, 0, dot), node = decimal(text, dot + 1, length - dot - 1);
    snprintf(back, sizeof back, "%d.%d", area, node);
    if (strcmp(back, text) != 0 || area < 1 || area > 63 || node < 1 || node > 1023)
        return false;
    bytes[0] = (uint8_t)((area * 1024 + node) % 256);
    bytes[1] = (uint8_t)((area * 1024 + node) / 256);
    return true;
}

bool slow_address(const char *text, uint8_t *bytes, size_t *count)
{
    size_t length = strlen(text);
    *count = 2;
    if (strchr(text, '.') != NULL)
        return node_address(text, bytes);
    *count = (length + 1) / 3;
    for (size_t i = 0; i < length; i++)
        if (i % 3 == 2 ? text[i] != text[2] || strchr("-:", text[i]) == NULL : strchr(DIGITS, text[i]) == NULL)
            return false;
    if (length != 3 * *count - 1 || *count < 1 || *count > 6)
        return false;
    for (size_t i = 0; i < *count; i++)
        bytes[i] = (uint8_t)value(text, 3 * i, 2);
    return true;
}

/* The days of a month of a year. */
static int days(int year, int month)
{
    bool leap = year % 400 == 0 || (year % 4 == 0 && year % 100 != 0);
    return month == 2 ? 28 + leap : 30 + (month + month / 8) % 2;
}

bool slow_time(const char *text, uint8_t *bytes, size_t *count)
{
    char back[64];
    if (strlen(text) != 29 || (text[23] != '+' && text[23] != '-'))
        return false;
    int year = decimal(text, 0, 4), month = decimal(text, 5, 2), day = decimal(text, 8, 2), hour = decimal(text, 11, 2),
        minute = decimal(text, 14, 2), second = decimal(text, 17, 2), hundredths = decimal(text, 20, 2),
        hours = decimal(text, 24, 2), minutes = decimal(text, 27, 2), sign = text[23] == '-' ? -1 : 1;
    snprintf(back, sizeof back, "%04d-%02d-%02d %02d:%02d:%02d.%02d %c%02d:%02d", year, month, day, hour, minute,
        second, hundredths, text[23], hours, minutes);
    if (strcmp(back, text) != 0 || year < 0 || month < 1 || month > 12 || day < 1 || day > days(year, month) ||
        hour < 0 || hour > 23 || minute < 0 || minute > 59 || second < 0 || second > 59 || hundredths < 0 ||
        hours < 0 || hours > (sign < 0 ? 12 : 13) || minutes < 0 || minutes > 59)
        return false;
    const int all[] = {
        year / 100, year % 100, month, day, hour, minute, second, hundredths, sign * hours, sign * minutes};
    *count = sizeof all / sizeof all[0];
    for (size_t i = 0; i < *count; i++)
        bytes[i] = (uint8_t)((all[i] + 256) % 256);
    return true;
}

size_t slow_entry(const uint8_t *entries, size_t length, int type, uint8_t bytes[16])
{
    size_t found = 0;
    memset(bytes, 0, 16);
    for (size_t at = 0; at < length; at += 2 + (size_t)entries[at + 1]) {
        if (entries[at] != type)
            continue;
        found = entries[at + 1];
        for (size_t i = 0; i < 16; i++)
            bytes[i] = i < found ? entries[at + 2 + i] : 0;
    }
    return found;
}

bool slow_has(int version, int type, size_t length)
{
    static const size_t most[] = {0, 6, 2, 6, 2, 0};
    return version != 21 || (type != 5 && length <= most[type]);
}

/* Two bytes of the target address, six of each name; of one that is not there only the first two are written. */
size_t slow_block(uint8_t *memory, size_t memory_length, const uint8_t *entries, size_t length)
{
    static const struct {
        int type;
        size_t from, to;
        uint8_t behind;
    } parts[] = {{2, 0, 2, 0}, {1, 2, 8, ' '}, {3, 8, 14, ' '}};
    size_t top = memory_length;
    while (top % 2 != 0)
        top++;
    for (size_t k = 0; k < 3; k++) {
        uint8_t bytes[16];
        size_t count = slow_entry(entries, length, parts[k].type, bytes);
        size_t end = count > 0 ? parts[k].to : parts[k].from + 2;
        for (size_t i = parts[k].from; i < end; i++)
            memory[top - 64 + i] = count == 0                  ? 0
                                   : i - parts[k].from < count ? bytes[i - parts[k].from]
                                                               : parts[k].behind;
    }
    return top - 64;
}
