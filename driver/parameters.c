#include "parameters.h"

#include <ctype.h>
#include <inttypes.h>
#include <stdlib.h>
#include <string.h>
#include <time.h>

#include "identity.h"
#include "words.h"

#define ADDRESS_BYTES 6 /* of an entry at most */
#define TIME_BYTES 10
#define DIGITS "0123456789"

static mop_value *value_of(mop_parameters *p, int type)
{
    switch (type) {
    case MOP_ENTRY_TARGET_NAME:
        return &p->target_name;
    case MOP_ENTRY_TARGET_ADDRESS:
        return &p->target_address;
    case MOP_ENTRY_HOST_NAME:
        return &p->host_name;
    case MOP_ENTRY_HOST_ADDRESS:
        return &p->host_address;
    default:
        return &p->host_time;
    }
}

/* ---- Names and addresses --------------------------------------------- */

static int read_name(const char *option, const char *text, mop_value *value)
{
    size_t length = strlen(text);
    if (length > MOP_VALUE_MOST)
        return complain(STATUS_USAGE, "%s: '%s' has %zu bytes, and a name has at most %d (under --protocol 2.1 %d)",
            option, text, length, MOP_VALUE_MOST, MOP_NAME_MOST_2_1);
    value->length = (uint8_t)length;
    memcpy(value->bytes, text, length);
    return 0;
}

/* Pairs of digits with - or : between, the same throughout. */
static bool read_pairs(const char *text, mop_value *value)
{
    size_t length = strlen(text), pairs = (length + 1) / 3;
    if (length % 3 != 2 || pairs > ADDRESS_BYTES)
        return false;
    const char between = text[2]; /* the text's end, where there is one pair */
    if (strchr("-:", between) == NULL)
        return false;
    for (size_t i = 0; i < pairs; i++) {
        const char *pair = text + 3 * i;
        const char digits[] = {pair[0], pair[1], '\0'};
        if (!isxdigit((unsigned char)pair[0]) || !isxdigit((unsigned char)pair[1]) ||
            (i + 1 < pairs && pair[2] != between))
            return false;
        value->bytes[i] = (uint8_t)strtoul(digits, NULL, 16);
    }
    value->length = (uint8_t)pairs;
    return true;
}

/* AREA.NODE, as DECnet writes it. */
static bool read_node(const char *text, mop_value *value)
{
    size_t area_digits = strspn(text, DIGITS);
    const char *rest = text + area_digits + 1;
    if (area_digits < 1 || area_digits > 2 || text[area_digits] != '.' || text[0] == '0')
        return false;
    size_t node_digits = strspn(rest, DIGITS);
    if (node_digits < 1 || node_digits > 4 || rest[node_digits] != '\0' || rest[0] == '0')
        return false;
    unsigned long area = strtoul(text, NULL, 10), node = strtoul(rest, NULL, 10);
    if (area > 63 || node > 1023)
        return false;
    value->bytes[0] = (uint8_t)(node & 0xFF);
    value->bytes[1] = (uint8_t)(area << 2 | node >> 8);
    value->length = 2;
    return true;
}

static int read_address(const char *option, const char *text, mop_value *value)
{
    if (read_pairs(text, value) || read_node(text, value))
        return 0;
    return complain(STATUS_USAGE,
        "%s: '%s' is no address (write 1 to 6 pairs of hexadecimal digits, 08-00-2B-AA-BB-CC, or a DECnet node, 1.1 to "
        "63.1023)",
        option, text);
}

/* ---- The time -------------------------------------------------------- */

enum { YEAR, MONTH, DAY, HOUR, MINUTE, SECOND, HUNDREDTHS, OFFSET_HOURS, OFFSET_MINUTES, FIELDS };

static const char time_form[] = "YYYY-MM-DD hh:mm:ss.cc +hh:mm";

#define SIGN_AT 23

/* Where a field stands in that form, and its bounds; DAY's upper one is the
 * month's. */
static const struct {
    const char *words;
    size_t at;
    size_t digits;
    int least;
    int most;
} fields[FIELDS] = {
    [YEAR] = {"year", 0, 4, 0, 9999},
    [MONTH] = {"month", 5, 2, 1, 12},
    [DAY] = {"day", 8, 2, 1, 31},
    [HOUR] = {"hour", 11, 2, 0, 23},
    [MINUTE] = {"minute", 14, 2, 0, 59},
    [SECOND] = {"second", 17, 2, 0, 59},
    [HUNDREDTHS] = {"hundredths", 20, 2, 0, 99},
    [OFFSET_HOURS] = {"offset hours", 24, 2, -12, 13},
    [OFFSET_MINUTES] = {"offset minutes", 27, 2, -59, 59},
};

static int days_of(int year, int month)
{
    static const int days[] = {31, 28, 31, 30, 31, 30, 31, 31, 30, 31, 30, 31};
    bool leap = (year % 4 == 0 && year % 100 != 0) || year % 400 == 0;
    return days[month - 1] + (month == 2 && leap);
}

/* The upper bound of a field whose earlier ones are good. */
static int most_of(const int numbers[FIELDS], size_t field)
{
    return field == DAY ? days_of(numbers[YEAR], numbers[MONTH]) : fields[field].most;
}

/* The first field that cannot be, or FIELDS. */
static size_t wrong_field(const int numbers[FIELDS])
{
    for (size_t i = 0; i < FIELDS; i++)
        if (numbers[i] < fields[i].least || numbers[i] > most_of(numbers, i))
            return i;
    return FIELDS;
}

/* Letters stand for digits. */
static bool has_time_form(const char *text)
{
    if (strlen(text) != sizeof time_form - 1)
        return false;
    for (size_t i = 0; i < sizeof time_form - 1; i++) {
        bool sign = i == SIGN_AT && text[i] == '-';
        bool same =
            isalpha((unsigned char)time_form[i]) ? isdigit((unsigned char)text[i]) != 0 : text[i] == time_form[i];
        if (!same && !sign)
            return false;
    }
    return true;
}

static void read_fields(const char *text, int numbers[FIELDS])
{
    int sign = text[SIGN_AT] == '-' ? -1 : 1;
    for (size_t i = 0; i < FIELDS; i++) {
        char digits[5] = "";
        memcpy(digits, text + fields[i].at, fields[i].digits);
        numbers[i] = (int)strtol(digits, NULL, 10) * (i >= OFFSET_HOURS ? sign : 1);
    }
}

/* The clock's local time. A leap second counts as the one before. */
static bool read_clock(int numbers[FIELDS])
{
    struct timespec clock;
    struct tm local;
    tzset();
    if (clock_gettime(CLOCK_REALTIME, &clock) != 0 || localtime_r(&clock.tv_sec, &local) == NULL)
        return false;
    const int minutes = (int)(local.tm_gmtoff / 60);
    const int now[FIELDS] = {local.tm_year + 1900, local.tm_mon + 1, local.tm_mday, local.tm_hour, local.tm_min,
        local.tm_sec > 59 ? 59 : local.tm_sec, (int)(clock.tv_nsec / 10000000), minutes / 60, minutes % 60};
    memcpy(numbers, now, sizeof now);
    return true;
}

/* Offsets are in two's complement. */
static void store_time(const int numbers[FIELDS], mop_value *value)
{
    value->length = TIME_BYTES;
    value->bytes[0] = (uint8_t)(numbers[YEAR] / 100);
    value->bytes[1] = (uint8_t)(numbers[YEAR] % 100);
    for (size_t i = MONTH; i < FIELDS; i++)
        value->bytes[1 + i] = (uint8_t)numbers[i];
}

static int read_time(const char *option, const char *text, mop_value *value)
{
    int numbers[FIELDS];
    bool now = strcmp(text, "now") == 0;
    if (now ? !read_clock(numbers) : !has_time_form(text))
        return complain(STATUS_USAGE, "%s: '%s' is no time (write now, or '%s' with a digit for each letter)", option,
            text, time_form);
    if (!now)
        read_fields(text, numbers);
    size_t wrong = wrong_field(numbers);
    if (wrong < FIELDS)
        return complain(STATUS_USAGE, "%s: '%s': %s %d is not between %d and %d", option, text, fields[wrong].words,
            numbers[wrong], fields[wrong].least, most_of(numbers, wrong));
    store_time(numbers, value);
    return 0;
}

/* ---- Printed --------------------------------------------------------- */

static void name_words(FILE *out, const mop_value *value)
{
    quoted_words(out, value->bytes, value->length);
}

static void address_words(FILE *out, const mop_value *value)
{
    for (size_t i = 0; i < value->length; i++)
        fprintf(out, "%s%02X", i == 0 ? "" : "-", (unsigned)value->bytes[i]);
}

static int signed_byte(uint8_t byte)
{
    return byte < 128 ? byte : byte - 256;
}

void time_words(FILE *out, const mop_value *value)
{
    const uint8_t *b = value->bytes;
    int hours = signed_byte(b[8]), minutes = signed_byte(b[9]);
    fprintf(out, "%04d-%02d-%02d %02d:%02d:%02d.%02d %c%02d:%02d", b[0] * 100 + b[1], b[2], b[3], b[4], b[5], b[6],
        b[7], hours < 0 || minutes < 0 ? '-' : '+', abs(hours), abs(minutes));
}

/* ---- The types ------------------------------------------------------- */

/* Of each type its option, what it is called, and its most bytes under version 2.1, where it has no time. */
static const struct {
    const char *option;
    const char *words;
    const char *one;
    int most_2_1;
    int (*read)(const char *option, const char *text, mop_value *value);
    void (*print)(FILE *out, const mop_value *value);
} kinds[PARAMETERS_TYPES] = {
    [MOP_ENTRY_TARGET_NAME] = {"--target-name", "target name", "a name", MOP_NAME_MOST_2_1, read_name, name_words},
    [MOP_ENTRY_TARGET_ADDRESS] = {"--target-address", "target address", "an address", MOP_ADDRESS_MOST_2_1,
        read_address, address_words},
    [MOP_ENTRY_HOST_NAME] = {"--host-name", "host name", "a name", MOP_NAME_MOST_2_1, read_name, name_words},
    [MOP_ENTRY_HOST_ADDRESS] = {"--host-address", "host address", "an address", MOP_ADDRESS_MOST_2_1, read_address,
        address_words},
    [MOP_ENTRY_HOST_TIME] = {"--time", "host time", "a time", 0, read_time, time_words},
};

/* ---- The string ------------------------------------------------------ */

static void lay(parameters *p)
{
    p->length = 0;
    for (int type = MOP_ENTRY_TARGET_NAME; type <= MOP_ENTRY_HOST_TIME; type++) {
        const mop_value *value = value_of(&p->values, type);
        if (!p->named[type])
            continue;
        p->bytes[p->length] = (uint8_t)type;
        p->bytes[p->length + 1] = value->length;
        memcpy(p->bytes + p->length + 2, value->bytes, value->length);
        p->length += 2 + (size_t)value->length;
    }
}

int parameters_option(parameters *p, int type, const char *text)
{
    mop_value value = {0};
    p->given = true;
    if (type == 0)
        return 0;
    int status = kinds[type].read(kinds[type].option, text, &value);
    if (status != 0)
        return status;
    if (type == MOP_ENTRY_HOST_TIME)
        p->now = strcmp(text, "now") == 0;
    *value_of(&p->values, type) = value;
    p->named[type] = true;
    lay(p);
    return 0;
}

void parameters_now(parameters *p)
{
    int numbers[FIELDS];
    if (!p->now || !read_clock(numbers) || wrong_field(numbers) < FIELDS)
        return;
    store_time(numbers, &p->values.host_time);
    lay(p);
}

static int check_2_1(int type, int length)
{
    if (type == MOP_ENTRY_HOST_TIME)
        return complain(STATUS_USAGE, "--time: version 2.1 has no host time (leave it out, or give --protocol 3.0)");
    if (length > kinds[type].most_2_1)
        return complain(STATUS_USAGE, "%s has %d bytes, and under version 2.1 %s has at most %d", kinds[type].option,
            length, kinds[type].one, kinds[type].most_2_1);
    return 0;
}

int parameters_check(const parameters *p, uint8_t version)
{
    int status = 0;
    if (version != MOP_VERSION_2_1)
        return 0;
    for (size_t at = 0; at < p->length && status == 0; at += 2 + (size_t)p->bytes[at + 1])
        status = check_2_1(p->bytes[at], p->bytes[at + 1]);
    return status;
}

int parameters_try(const parameters *p, uint8_t version, uint32_t longest, const char *line)
{
    uint8_t frame[MOP_FRAME_MOST];
    if (!p->given)
        return 0;
    mop_written written = mop_write_parameters(version, 0, p->bytes, p->length, 0, frame, sizeof frame);
    if (written.refusal != MOP_ACCEPTED)
        return complain(
            STATUS_OTHER, "the parameters are refused (%d): %s", written.refusal, refusal_words(written.refusal));
    if (written.length > longest)
        return complain(STATUS_INTERFACE, "%s takes messages of at most %" PRIu32 " bytes, and the parameters make %zu",
            line, longest, written.length);
    return 0;
}

/* ---- In words -------------------------------------------------------- */

void parameters_words(FILE *out, mop_parameters values, const bool *named)
{
    const char *before = "";
    for (int type = MOP_ENTRY_TARGET_NAME; type <= MOP_ENTRY_HOST_TIME; type++) {
        const mop_value *value = value_of(&values, type);
        if (named == NULL ? value->length == 0 : !named[type])
            continue;
        fputs(before, out);
        fprintf(out, "%s ", kinds[type].words);
        kinds[type].print(out, value);
        before = ", ";
    }
    if (before[0] == '\0')
        fputs("no name, no address and no time", out);
}

/* ---- The block of version 2.1 ---------------------------------------- */

/* Where the names stand in it. */
enum { BLOCK_TARGET_NAME = 2, BLOCK_HOST_NAME = 8 };

size_t parameters_block_at(size_t memory_length)
{
    return memory_length + memory_length % 2 - MOP_BLOCK_BELOW_TOP;
}

static void block_name_words(FILE *out, int type, const uint8_t *bytes, const mop_value *kept)
{
    mop_value name = {.length = MOP_NAME_MOST_2_1};
    memcpy(name.bytes, bytes, MOP_NAME_MOST_2_1);
    if (kept->length == 0) {
        fprintf(out, ", no %s (two zeros, and four bytes as they were)", kinds[type].words);
        return;
    }
    fprintf(out, ", %s ", kinds[type].words);
    name_words(out, &name);
}

void parameters_block_words(FILE *out, const uint8_t *block, const mop_parameters *kept)
{
    const mop_value node = {.length = MOP_ADDRESS_MOST_2_1, .bytes = {block[0], block[1]}};
    fputs("node number ", out);
    address_words(out, &node);
    block_name_words(out, MOP_ENTRY_TARGET_NAME, block + BLOCK_TARGET_NAME, &kept->target_name);
    block_name_words(out, MOP_ENTRY_HOST_NAME, block + BLOCK_HOST_NAME, &kept->host_name);
}

const char parameters_manual[] = "  --target-name TEXT, --target-address ADDRESS, --host-name TEXT,\n"
                                 "  --host-address ADDRESS, --time now|'YYYY-MM-DD hh:mm:ss.cc +hh:mm'\n"
                                 "        With any of these the load ends with parameters (code 20): the\n"
                                 "        machine's own name and address, the host's, and the host's time.\n"
                                 "        The machine keeps them and starts. Where one is given twice the\n"
                                 "        last counts. A boot ROM that does not know code 20, as the DEQNA's,\n"
                                 "        takes the segments and is not started: leave the parameters out.\n"
                                 "        A name has up to 16 bytes, which are sent as they are; '' is a name\n"
                                 "        of no bytes. An address has 1 to 6 bytes, written as pairs of\n"
                                 "        hexadecimal digits in the order in which they are sent, with - or :\n"
                                 "        between (08-00-2B-AA-BB-CC, 05-04); or it is a DECnet node, written\n"
                                 "        AREA.NODE in decimal, 1.1 to 63.1023, and sent as area x 1024 + node\n"
                                 "        in two bytes, the low one first (1.5 is 05-04).\n"
                                 "        Under --protocol 2.1 a name has up to 6 bytes, an address 1 or 2, and\n"
                                 "        there is no time.\n"
                                 "        now is this computer's local time at the moment when the load begins.\n"
                                 "        Any other time has every digit: '1985-03-31 14:05:00.00 -05:00'. The\n"
                                 "        offset is local time less UTC, from -12 to +13 hours and up to 59\n"
                                 "        minutes: east of Greenwich it is +.\n"
                                 "  --parameters\n"
                                 "        End the load with parameters even if there are none: a code 20\n"
                                 "        without names, addresses and time, and not a code 0.\n";
