/* Names, addresses and times of the command line: what the driver makes of a text is what the slow reader makes of it, the
 * library writes it, and what is printed of it says the same. */
#include "parameters.h"

#include <stdlib.h>
#include <string.h>

#include "fuzz.h"
#include "slow.h"

#define TEXT_MOST 64

/* ---- Texts ----------------------------------------------------------- */

static void put_text(const char *text)
{
    put_bytes(text, strlen(text));
}

/* So many digits; a number that is mostly below most, and now and then just above. */
static void put_number(const char *form, uint32_t most)
{
    char digits[16];
    uint32_t bounds[] = {0, 1, most - 1, most, most + 1};
    snprintf(digits, sizeof digits, form, one_in(4) ? bounds[below(5)] : below(most));
    put_text(digits);
}

static void make_name(void)
{
    size_t length = below(one_in(4) ? 24 : 17);
    bool plain = one_in(2);
    for (size_t i = 0; i < length; i++)
        put_byte((uint8_t)(plain ? 'A' + below(26) : 1 + below(255)));
}

static void make_address(void)
{
    uint32_t pairs = one_in(20) ? below(9) : 1 + below(6);
    const char *between = one_in(4) ? ":" : "-";
    if (one_in(3)) {
        put_number("%u", 63);
        put_text(".");
        put_number("%u", 1023);
    } else {
        for (uint32_t i = 0; i < pairs; i++) {
            put_text(i == 0 ? "" : between);
            put_number(one_in(4) ? "%02x" : "%02X", 255);
        }
    }
    if (one_in(3))
        mutate(one_in(8) ? NULL : "0123456789ABCDEFabcdefG-:. ");
}

/* Any day, or one about the end of a February. */
static void put_day(void)
{
    if (one_in(4)) {
        char day[32];
        snprintf(day, sizeof day, "%04u-02-%02u", one_in(2) ? 100 * below(100) : below(10000), 28 + below(3));
        put_text(day);
        return;
    }
    put_number("%04u", 9999);
    put_number("-%02u", 12);
    put_number("-%02u", one_in(8) ? 31 : 28);
}

static void make_time(void)
{
    put_day();
    put_number(" %02u", 23);
    put_number(":%02u", 59);
    put_number(":%02u", 59);
    put_number(".%02u", 99);
    put_text(one_in(2) ? " +" : " -");
    put_number("%02u", 13);
    put_number(":%02u", 59);
    if (one_in(4))
        mutate(one_in(8) ? NULL : "0123456789-:. +");
}

/* ---- What must hold -------------------------------------------------- */

/* The bytes of a name that is printed in quotes. */
static size_t quoted(const char *words, uint8_t bytes[TEXT_MOST])
{
    size_t length = 0;
    require(*words == '"', "a name is printed in quotes");
    for (words++; *words != '"' && *words != '\0'; words++) {
        require(*words >= ' ' && *words <= '~' && length < TEXT_MOST, "a name is printed as it may be");
        if (*words == '\\' && words[1] == 'x') {
            const char digits[] = {words[2], words[3], '\0'};
            bytes[length++] = (uint8_t)strtoul(digits, NULL, 16);
            words += 3;
        } else {
            words += *words == '\\';
            bytes[length++] = (uint8_t)*words;
        }
    }
    require(strcmp(words, "\"") == 0, "a name ends with its quote");
    return length;
}

static bool read_slowly(int type, const char *text, uint8_t bytes[TEXT_MOST], size_t *length)
{
    *length = strlen(text);
    if (type == MOP_ENTRY_HOST_TIME)
        return slow_time(text, bytes, length);
    if (type == MOP_ENTRY_TARGET_ADDRESS || type == MOP_ENTRY_HOST_ADDRESS)
        return slow_address(text, bytes, length);
    memcpy(bytes, text, *length < 16 ? *length : 16);
    return *length <= 16;
}

/* What is printed of an entry means its bytes. */
static void check_words(const parameters *p, int type, const uint8_t *want, size_t length)
{
    static const char *const begins[] = {
        "", "target name ", "target address ", "host name ", "host address ", "host time "};
    uint8_t bytes[TEXT_MOST];
    char *text = NULL;
    size_t size = 0, count = 0;
    FILE *out = open_memstream(&text, &size);
    require(out != NULL, "there is memory");
    parameters_words(out, p->values, p->named);
    require(fclose(out) == 0 && text != NULL, "there is memory");
    size_t skip = strlen(begins[type]);
    require(strncmp(text, begins[type], skip) == 0, "it is said what it is");
    if (type == MOP_ENTRY_TARGET_NAME || type == MOP_ENTRY_HOST_NAME)
        count = quoted(text + skip, bytes);
    else
        require(read_slowly(type, text + skip, bytes, &count), "what is printed can be read");
    require(count == length && memcmp(bytes, want, length) == 0, "what is printed is what is sent");
    free(text);
}

/* The entry, and nothing else. */
static void check_entry(const parameters *p, int type, const uint8_t *want, size_t length)
{
    require(p->given && p->named[type], "the load ends with it");
    require(p->length == 2 + length && p->bytes[0] == type && p->bytes[1] == length &&
                memcmp(p->bytes + 2, want, length) == 0,
        "the string is the entry that the slow reader finds");
    check_words(p, type, want, length);
    uint8_t version = any_version();
    if (!is_version(version)) {
        require(parameters_try(p, version, MOP_ETHERNET_FRAME_MOST, "line") != 0, "a version that is none is seen");
        return;
    }
    bool has = slow_has(version, type, length);
    require((parameters_check(p, version) == 0) == has, "what the version does not have is seen");
    require((parameters_try(p, version, MOP_ETHERNET_FRAME_MOST, "line") == 0) == has, "the library says the same");
    require(parameters_try(p, version, (uint32_t)(6 + p->length), "line") != 0, "a line that is too short is seen");
}

static bool fuzz_option(int type)
{
    uint8_t want[TEXT_MOST];
    size_t length = 0;
    parameters p = {0};
    put_byte('\0');
    contents text = exact();
    text.bytes[text.length - 1] = '\0';
    bool good = read_slowly(type, (const char *)text.bytes, want, &length);
    int status = parameters_option(&p, type, (const char *)text.bytes);
    require((status == 0) == good, "both readers take the text or neither does");
    if (good)
        check_entry(&p, type, want, length);
    else
        require(p.length == 0 && !p.named[type] && said[0] != '\0', "what is refused leaves nothing, and is told");
    free(text.bytes);
    return good;
}

bool fuzz_name(void)
{
    make_name();
    return fuzz_option(one_in(2) ? MOP_ENTRY_TARGET_NAME : MOP_ENTRY_HOST_NAME);
}

bool fuzz_address(void)
{
    make_address();
    return fuzz_option(one_in(2) ? MOP_ENTRY_TARGET_ADDRESS : MOP_ENTRY_HOST_ADDRESS);
}

bool fuzz_time(void)
{
    make_time();
    return fuzz_option(MOP_ENTRY_HOST_TIME);
}

/* ---- Strings --------------------------------------------------------- */

size_t any_entries(uint8_t version, uint8_t *to, size_t most)
{
    const bool old = version == MOP_VERSION_2_1;
    static const uint8_t time[] = {19, 85, 3, 31, 14, 5, 59, 7, 0xFB, 0xE2};
    size_t length = 0;
    while (most - length >= 18 && !one_in(5)) {
        uint8_t type = (uint8_t)(1 + below(old ? 4 : 5));
        size_t count = type == MOP_ENTRY_HOST_TIME ? sizeof time
                       : type % 2 == 1             ? below(old ? 7 : 17)
                                                   : below(old ? 3 : 7);
        to[length++] = type;
        to[length++] = (uint8_t)count;
        for (size_t i = 0; i < count; i++)
            to[length++] = type == MOP_ENTRY_HOST_TIME ? time[i] : (uint8_t)below(256);
    }
    return length;
}
