/* S-records and Intel HEX: what the driver reads is what the slow reader reads, and the image made of it holds that. */
#include <ctype.h>
#include <stdio.h>
#include <stdlib.h>
#include <string.h>

#include "fuzz.h"
#include "hexfiles.h"
#include "mop.h"
#include "slow.h"

#define LETTERS "0123456789ABCDEFabcdefS:s \t\r\n\x1A#"

/* ---- Texts ----------------------------------------------------------- */

/* How the lines of this text are written. */
typedef struct style {
    bool small;
    const char *end;
} style;

static void put_text(style s, const char *text)
{
    for (; *text != '\0'; text++)
        put_byte((uint8_t)(s.small ? tolower((unsigned char)*text) : *text));
}

static void put_pairs(style s, const uint8_t *bytes, size_t length)
{
    char pair[3];
    for (size_t i = 0; i < length; i++) {
        snprintf(pair, sizeof pair, "%02X", bytes[i]);
        put_text(s, pair);
    }
}

/* A record: its first signs, its bytes, and the checksum that makes their sum. */
static void put_record(style s, const char *first, const uint8_t *bytes, size_t length, unsigned sum)
{
    for (size_t i = 0; i < length; i++)
        sum -= bytes[i];
    uint8_t last = (uint8_t)(one_in(200) ? sum + 1 : sum);
    put_text(s, one_in(40) ? " " : "");
    put_text(s, first);
    put_pairs(s, bytes, length);
    put_pairs(s, &last, 1);
    put_text(s, one_in(40) ? "\t " : "");
    put_text(s, one_in(200) ? "" : s.end);
}

static void put_data(uint8_t *bytes, size_t length)
{
    for (size_t i = 0; i < length; i++)
        bytes[i] = (uint8_t)below(256);
}

static void put_srec(style s, unsigned kind, uint64_t address, size_t length)
{
    static const size_t widths[] = {2, 2, 3, 4, 2, 2, 3, 4, 3, 2};
    size_t width = widths[kind];
    uint8_t bytes[256];
    char first[] = {'S', (char)('0' + kind), '\0'};
    bytes[0] = (uint8_t)(width + length + 1);
    for (size_t i = 0; i < width; i++)
        bytes[1 + i] = (uint8_t)(address >> 8 * (width - 1 - i));
    put_data(bytes + 1 + width, length);
    put_record(s, first, bytes, 1 + width + length, 0xFF);
}

static void put_ihex(style s, unsigned type, uint64_t offset, const uint8_t *data, size_t length)
{
    uint8_t bytes[260] = {(uint8_t)length, (uint8_t)(offset >> 8), (uint8_t)offset, (uint8_t)type};
    if (data == NULL)
        put_data(bytes + 4, length);
    else
        memcpy(bytes + 4, data, length);
    put_record(s, ":", bytes, 4 + length, 0);
}

static size_t any_length(void)
{
    return one_in(30) ? 200 + below(50) : below(9);
}

/* The next address: mostly the end of the last bytes, at times a gap or a step back. */
static uint64_t onward(uint64_t address, bool gaps)
{
    if (gaps)
        return address + 2;
    if (one_in(4))
        return address + below(4);
    return one_in(40) && address > 4 ? address - 1 - below(4) : address;
}

static void srec_input(style s)
{
    uint64_t address = any_number();
    bool gaps = one_in(100);
    unsigned records = gaps ? 250 + below(12) : below(9), width = 1 + below(3);
    if (one_in(2))
        put_srec(s, 0, 0, below(9));
    for (unsigned i = 0; i < records; i++) {
        size_t length = gaps ? 1 : any_length();
        put_srec(s, one_in(20) ? 1 + below(3) : width, address, length);
        address = onward(address + length, gaps);
    }
    if (one_in(3))
        put_srec(s, 5 + below(2), records + one_in(10), one_in(50));
    if (one_in(20))
        put_srec(s, below(10), any_number(), below(3));
    if (!one_in(20))
        put_srec(s, 7 + below(3), any_number(), one_in(50));
    if (one_in(50))
        put_srec(s, below(10), any_number(), below(3));
}

/* A base or a start. */
static void put_ihex_address(style s)
{
    uint32_t number = any_number();
    const uint8_t data[] = {(uint8_t)(number >> 24), (uint8_t)(number >> 16), (uint8_t)(number >> 8), (uint8_t)number};
    unsigned type = 2 + below(4);
    put_ihex(s, type, one_in(40), data, one_in(40) ? below(5) : type % 2 == 0 ? 2 : 4);
}

static void ihex_input(style s)
{
    uint64_t offset = any_number() & 0xFFFF;
    bool gaps = one_in(100);
    for (unsigned i = gaps ? 250 + below(12) : below(9); i > 0; i--) {
        size_t length = gaps ? 1 : any_length();
        put_ihex(s, 0, offset, NULL, length);
        offset = onward(offset + length, gaps) & 0xFFFF;
        if (one_in(8) && !gaps)
            put_ihex_address(s);
    }
    if (one_in(2))
        put_ihex_address(s);
    if (one_in(40))
        put_ihex(s, below(7), below(2), NULL, below(5));
    if (!one_in(20))
        put_ihex(s, 1, one_in(4) ? any_number() & 0xFFFF : 0, NULL, one_in(50));
    if (one_in(50))
        put_ihex(s, below(7), 0, NULL, below(3));
}

static void make_text(bool motorola)
{
    style s = {.small = one_in(4), .end = one_in(4) ? "\r\n" : "\n"};
    if (motorola)
        srec_input(s);
    else
        ihex_input(s);
    for (uint32_t i = one_in(4) ? below(4) : 0; i > 0; i--)
        put_byte(0x1A);
    if (one_in(2))
        mutate(one_in(4) ? NULL : LETTERS);
}

/* ---- What must hold -------------------------------------------------- */

/* The refusal names the line that the slow reader found, and a column of it. */
static void check_place(const slow *want)
{
    size_t line = 0, column = 0;
    int found = sscanf(said, "text, line %zu, column %zu: ", &line, &column); // NOLINT(cert-err34-c)
    if (want->line == 0)
        require(strstr(said, "has no end record") != NULL, "it is said that there is no end record");
    else
        require(found == 2 && line == want->line && column >= 1 && column <= want->length,
            "the line and the column of the fault are said");
}

/* The image's segments in turn are the cells in the order of their addresses. */
static void check_bytes(const contents *image, uint64_t segments, const slow *want)
{
    size_t n = 0;
    for (uint64_t i = 0; i < segments; i++) {
        mop_segment part = mop_image_segment(image->bytes, image->length, MOP_SEGMENT_MOST, i);
        require(part.refusal == MOP_ACCEPTED, "every segment is found");
        for (size_t k = 0; k < part.length; k++, n++)
            require(n < want->count && want->cells[n].address == (uint64_t)part.address + k &&
                        want->cells[n].byte == image->bytes[part.at + k],
                "the image has the byte of the file");
    }
    require(n == want->count, "the image has every byte of the file");
}

bool pieces_check(pieces *p, const slow *want)
{
    bool makes = want->count > 0 && !want->overlap && want->regions <= MOP_REGIONS_MOST;
    contents image = {NULL, 0};
    require(p->has_transfer == want->starts && (!want->starts || p->transfer == want->start), "the start address");
    require((pieces_join(p) == 0) == makes, "an image is made unless bytes lack or overlap or regions are too many");
    if (!makes)
        return false;
    require(pieces_image(p, &image) == 0, "there is memory");
    mop_image checked = mop_image_check(image.bytes, image.length, MOP_SEGMENT_MOST);
    require(checked.refusal == MOP_ACCEPTED, "the library takes the image");
    require(checked.regions == want->regions && checked.transfer == (want->starts ? want->start : 0),
        "the image's regions and transfer address");
    check_bytes(&image, checked.segments, want);
    free(image.bytes);
    return true;
}

static bool fuzz_text(bool motorola)
{
    static slow want;
    pieces p = {0};
    make_text(motorola);
    contents text = exact();
    int status = motorola ? srec_text(&p, "text", &text) : ihex_text(&p, "text", &text);
    slow_text(&want, text.bytes, text.length, motorola);
    require((status == 0) == want.good, "both readers take the text or neither does");
    bool made = false;
    if (want.good)
        made = pieces_check(&p, &want);
    else
        check_place(&want);
    pieces_free(&p);
    free(text.bytes);
    return made;
}

bool fuzz_srec(void)
{
    return fuzz_text(true);
}

bool fuzz_ihex(void)
{
    return fuzz_text(false);
}
