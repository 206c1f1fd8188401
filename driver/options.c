#include "options.h"

#include <ctype.h>
#include <errno.h>
#include <inttypes.h>
#include <stdlib.h>
#include <string.h>

#include "mop.h"
#include "words.h"

/* The base of a number and its digits; 0 for what is no number. */
static int base_of(const char **text)
{
    const char *t = *text;
    int base = 10;
    if (t[0] == '0' && (t[1] == 'x' || t[1] == 'o')) {
        base = t[1] == 'x' ? 16 : 8;
        *text = t + 2;
    } else if (t[0] == '0' && t[1] != '\0') {
        return 0; /* 0777 is octal to some and decimal to others */
    }
    return isxdigit((unsigned char)**text) ? base : 0;
}

int option_number(const char *name, const char *text, uint64_t least, uint64_t most, uint64_t *number)
{
    const char *digits = text;
    char *end = NULL;
    int base = base_of(&digits);
    if (base == 0)
        return complain(
            STATUS_USAGE, "%s: '%s' is no number (write 512, 0x200 or 0o1000; no leading zero)", name, text);
    errno = 0;
    unsigned long long value = strtoull(digits, &end, base);
    if (*end != '\0' || strpbrk(digits, "xX") != NULL) /* strtoull takes a second 0x too */
        return complain(STATUS_USAGE, "%s: '%s' is no number (write 512, 0x200 or 0o1000)", name, text);
    if (errno != 0 || value < least || value > most)
        return complain(STATUS_USAGE, "%s: %s is not between %" PRIu64 " and %" PRIu64, name, text, least, most);
    *number = value;
    return 0;
}

int option_small(const char *name, const char *text, uint32_t least, uint32_t most, uint32_t *number)
{
    uint64_t value = 0;
    int status = option_number(name, text, least, most, &value);
    if (status == 0)
        *number = (uint32_t)value;
    return status;
}

int option_mode(const char *name, const char *text, mode_t *mode)
{
    char *end = NULL;
    unsigned long value = strtoul(text, &end, 8);
    size_t length = strlen(text);
    if (length < 3 || length > 4 || !isdigit((unsigned char)text[0]) || *end != '\0' || value > 0777)
        return complain(STATUS_USAGE, "%s: '%s' is no mode (write three octal digits, as for chmod: 640)", name, text);
    *mode = (mode_t)value;
    return 0;
}

int option_protocol(const char *text, uint8_t *version)
{
    bool old = strcmp(text, "2.1") == 0;
    if (!old && strcmp(text, "3.0") != 0)
        return complain(STATUS_USAGE, "--protocol: '%s' is no version of the protocol (write 2.1 or 3.0)", text);
    *version = old ? MOP_VERSION_2_1 : MOP_VERSION_3_0;
    return 0;
}

int option_address(const char *name, const char *text, uint8_t *address)
{
    bool good = strlen(text) == ADDRESS_TEXT - 1 && (text[2] == '-' || text[2] == ':');
    for (size_t i = 0; good && i < ADDRESS_LENGTH; i++) {
        const char *pair = text + 3 * i;
        const char digits[] = {pair[0], pair[1], '\0'};
        good = isxdigit((unsigned char)pair[0]) && isxdigit((unsigned char)pair[1]) &&
               (pair[2] == text[2] || i == ADDRESS_LENGTH - 1);
        address[i] = (uint8_t)strtoul(digits, NULL, 16);
    }
    if (good)
        return 0;
    return complain(STATUS_USAGE, "%s: '%s' is no Ethernet address (write 08-00-2B-AA-BB-CC)", name, text);
}

const char *address_text(const uint8_t *a, char text[ADDRESS_TEXT])
{
    snprintf(text, ADDRESS_TEXT, "%02X-%02X-%02X-%02X-%02X-%02X", a[0], a[1], a[2], a[3], a[4], a[5]);
    return text;
}

int common_option(int option, const char *value, common_settings *settings)
{
    switch (option) {
    case 'i':
        settings->line.interface = value;
        return 0;
    case OPTION_TIMER:
        return option_small("--timer", value, 1, 3600000, &settings->timer);
    case OPTION_WAIT:
        return option_small("--wait", value, 1, 31536000, &settings->wait);
    case OPTION_DROP:
        return option_small("--drop", value, 2, 1000000000, &settings->line.drop);
    case OPTION_DOUBLE:
        return option_small("--double", value, 1, 1000000000, &settings->line.twice);
    case OPTION_TRACE:
        settings->line.trace = value;
        return 0;
    default:
        return manual_option(option, &settings->program);
    }
}

void sending_help(FILE *out, uint32_t timer, const char *waits_for)
{
    fprintf(out,
        "  -i, --interface INTERFACE\n"
        "        The Ethernet interface, as ip link names it. It must be up, and\n"
        "        the program run as root or with the capability CAP_NET_RAW.\n"
        "  --timer MS\n"
        "        Milliseconds of silence before a frame is sent again. Default %" PRIu32 ".\n",
        timer);
    if (waits_for != NULL)
        fprintf(out,
            "  --wait S\n"
            "        Seconds to wait for %s. Default 600.\n",
            waits_for);
    fputs("  --trace FILE\n"
          "        Write every message that is sent or received to FILE, one to a line in\n"
          "        hexadecimal: what the program frames reads. It replaces no file. A\n"
          "        FILE whose name ends in .pcap is a capture that Wireshark and tcpdump\n"
          "        read: the whole frames with their times. A capture that is there\n"
          "        already is appended to, and a new one without a frame is not left.\n"
          "        A pipe must have its reader already, and a trace ends where that does\n"
          "        not keep up.\n"
          "  --drop N, --double N\n"
          "        For rehearsals: lose, or hand over twice, every Nth frame sent and\n"
          "        every Nth received, as if on the line: a trace has what this end sent,\n"
          "        and what it was handed.\n",
        out);
    manual_help(out);
    fputs("\n"
          "  Numbers are decimal, or hexadecimal (0x200), or octal (0o1000).\n"
          "\n",
        out);
}

void common_help(FILE *out, const char *waits_for)
{
    sending_help(out, 2000, waits_for);
}
