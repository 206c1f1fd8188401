#include "hexfiles.h"

#include <ctype.h>
#include <inttypes.h>
#include <stdlib.h>
#include <string.h>

#include "mop.h"
#include "words.h"

#define TEXT_MOST (8 * (size_t)MOP_FILE_MOST)
#define RECORD_MOST 262
#define CONTROL_Z 0x1A /* ends a text of CP/M */

/* The bytes of one record, where it stands, and what came before it. */
typedef struct record {
    const char *path;
    size_t line;
    size_t column;
    int kind; /* S-records: the digit behind the S */
    uint8_t bytes[RECORD_MOST];
    size_t count;
    uint64_t base; /* Intel HEX: added to the addresses */
    uint64_t data; /* S-records: how many with data have come */
    bool started;  /* the start address has come */
    bool over;     /* the end record has come */
} record;

typedef int (*taker)(pieces *p, record *r);

static int bad(const record *r, const char *why)
{
    return complain(STATUS_FILE, "%s, line %zu, column %zu: %s", r->path, r->line, r->column, why);
}

static uint8_t digit(char c)
{
    return (uint8_t)(isdigit((unsigned char)c) ? c - '0' : toupper((unsigned char)c) - 'A' + 10);
}

static uint64_t big_number(const uint8_t *bytes, size_t length)
{
    uint64_t number = 0;
    for (size_t i = 0; i < length; i++)
        number = number << 8 | bytes[i];
    return number;
}

static uint8_t sum(const record *r)
{
    uint8_t total = 0;
    for (size_t i = 0; i < r->count; i++)
        total = (uint8_t)(total + r->bytes[i]);
    return total;
}

static int set_transfer(pieces *p, record *r, uint64_t transfer)
{
    if (r->started && transfer != p->transfer)
        return bad(r, "a second start address");
    p->transfer = (uint32_t)transfer;
    p->has_transfer = true;
    r->started = true;
    return 0;
}

/* ---- Motorola -------------------------------------------------------- */

static int take_srec_data(pieces *p, record *r, uint64_t address, size_t width, size_t length)
{
    if (address + length > (uint64_t)1 << 8 * width)
        return bad(r, "the record runs over the end of its addresses");
    r->data += 1;
    return pieces_add(p, address, r->bytes + 1 + width, length);
}

static int take_srec_count(const record *r, uint64_t counted)
{
    if (counted == r->data)
        return 0;
    return complain(STATUS_FILE, "%s, line %zu, column %zu: it counts %" PRIu64 " data records, but %" PRIu64 " came",
        r->path, r->line, r->column, counted, r->data);
}

/* Bytes: count, address of 2 to 4 bytes, data, checksum. */
static int take_srec(pieces *p, record *r)
{
    static const size_t widths[] = {2, 2, 3, 4, 0, 2, 3, 4, 3, 2};
    size_t width = widths[r->kind - '0'];
    if (width == 0)
        return bad(r, "S4 is no known record");
    if (r->count < width + 2 || r->bytes[0] != r->count - 1)
        return bad(r, "the record's count does not agree with its length");
    if (sum(r) != 0xFF)
        return bad(r, "the checksum is wrong");
    uint64_t address = big_number(r->bytes + 1, width);
    size_t length = r->count - width - 2;
    if (r->kind >= '1' && r->kind <= '3')
        return take_srec_data(p, r, address, width, length);
    if (r->kind == '0')
        return 0;
    if (length != 0)
        return bad(r, "S5 to S9 have no data");
    if (r->kind <= '6')
        return take_srec_count(r, address);
    r->over = true;
    return set_transfer(p, r, address);
}

/* ---- Intel ----------------------------------------------------------- */

static int take_ihex_data(pieces *p, const record *r, uint64_t offset, size_t length)
{
    if (offset + length > 0x10000)
        return bad(r, "the record runs over the end of 64 KiB");
    return pieces_add(p, r->base + offset, r->bytes + 4, length);
}

/* Before there were types 3 and 5 the end record's offset was the start. */
static int take_ihex_end(pieces *p, record *r, uint64_t offset)
{
    r->over = true;
    return offset == 0 ? 0 : set_transfer(p, r, offset);
}

/* Addresses: 2 and 4 are the base of those that follow, 3 and 5 the start. */
static int take_ihex_address(pieces *p, record *r, uint8_t type)
{
    const uint8_t *value = r->bytes + 4;
    switch (type) {
    case 2:
        r->base = big_number(value, 2) << 4;
        return 0;
    case 3:
        return set_transfer(p, r, (big_number(value, 2) << 4) + big_number(value + 2, 2));
    case 4:
        r->base = big_number(value, 2) << 16;
        return 0;
    default:
        return set_transfer(p, r, big_number(value, 4));
    }
}

/* Bytes: length, offset 2, type, data, checksum. */
static int take_ihex(pieces *p, record *r)
{
    static const size_t lengths[] = {0, 0, 2, 4, 2, 4};
    if (r->count < 5 || r->bytes[0] != r->count - 5)
        return bad(r, "the record's count does not agree with its length");
    if (sum(r) != 0)
        return bad(r, "the checksum is wrong");
    size_t length = r->bytes[0];
    uint64_t offset = big_number(r->bytes + 1, 2);
    uint8_t type = r->bytes[3];
    if (type == 0)
        return take_ihex_data(p, r, offset, length);
    if (type > 5 || length != lengths[type])
        return bad(r, "the record's type is not 0 to 5, or its length not that of its type");
    if (type == 1)
        return take_ihex_end(p, r, offset);
    if (offset != 0)
        return bad(r, "types 2 to 5 have offset 0");
    return take_ihex_address(p, r, type);
}

/* ---- Lines ----------------------------------------------------------- */

/* What a sign is that should be one of the digits. */
static const char *stray(char c)
{
    if (isspace((unsigned char)c))
        return "text stands behind the record";
    if (c == ':' || c == 'S' || c == 's')
        return "another record begins on the line: was a line end lost?";
    return "no hexadecimal digit";
}

/* The digits of a record, from the place at on. */
static int read_digits(record *r, const char *text, size_t at, size_t length)
{
    const size_t first = r->column;
    bool low = false;
    r->count = 0;
    for (; at < length; at++, low = !low) {
        r->column = first + at;
        if (!isxdigit((unsigned char)text[at]))
            return bad(r, stray(text[at]));
        if (r->count == RECORD_MOST)
            return bad(r, "the record is too long");
        if (low)
            r->bytes[r->count++] |= digit(text[at]);
        else
            r->bytes[r->count] = (uint8_t)(digit(text[at]) << 4);
    }
    if (low)
        return bad(r, "a digit is missing");
    r->column = first;
    return 0;
}

/* A record as text, without blanks around it. */
static int take_text(pieces *p, record *r, const char *text, size_t length, taker take)
{
    bool motorola = take == take_srec;
    if (r->over)
        return bad(r, "a record stands behind the end record");
    if (motorola && (length < 2 || toupper((unsigned char)text[0]) != 'S' || !isdigit((unsigned char)text[1])))
        return bad(r, "the line does not begin with S and a digit");
    if (!motorola && text[0] != ':')
        return bad(r, "the line does not begin with a colon");
    r->kind = motorola ? text[1] : ':';
    int status = read_digits(r, text, motorola ? 2 : 1, length);
    return status == 0 ? take(p, r) : status;
}

static int take_line(pieces *p, record *r, const char *text, size_t length, taker take)
{
    size_t at = 0;
    while (length > 0 && isspace((unsigned char)text[length - 1]))
        length--;
    while (at < length && isspace((unsigned char)text[at]))
        at++;
    r->line += 1;
    r->column = at + 1;
    return at == length ? 0 : take_text(p, r, text + at, length - at, take);
}

/* The length of a file without what may stand behind its last record: line
 * ends, and control-Z to its end. */
static size_t last_end(const char *text, size_t length)
{
    while (length > 0 && (isspace((unsigned char)text[length - 1]) || text[length - 1] == CONTROL_Z))
        length--;
    return length;
}

static int take_lines(pieces *p, const char *path, const contents *file, taker take)
{
    record r = {.path = path};
    int status = 0;
    const char *text = (const char *)file->bytes;
    size_t length = last_end(text, file->length);
    for (size_t at = 0; status == 0 && at < length;) {
        const char *feed = memchr(text + at, '\n', length - at);
        size_t end = feed == NULL ? length : (size_t)(feed - text);
        status = take_line(p, &r, text + at, end - at, take);
        at = end + 1;
    }
    if (status == 0 && !r.over)
        status = complain(STATUS_FILE, "%s has no end record: it was cut short", path);
    return status;
}

static int take_file(pieces *p, const char *path, taker take)
{
    contents text;
    int status = file_read(path, TEXT_MOST, &text);
    if (status == 0)
        status = take_lines(p, path, &text, take);
    free(text.bytes);
    return status;
}

int srec_text(pieces *p, const char *path, const contents *text)
{
    return take_lines(p, path, text, take_srec);
}

int ihex_text(pieces *p, const char *path, const contents *text)
{
    return take_lines(p, path, text, take_ihex);
}

int srec_read(pieces *p, const char *path)
{
    return take_file(p, path, take_srec);
}

int ihex_read(pieces *p, const char *path)
{
    return take_file(p, path, take_ihex);
}
