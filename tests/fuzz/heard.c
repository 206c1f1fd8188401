/* Frames that are heard: each is of the kind that its bytes say, and its words are those that a plain writer finds. */
#include <stdarg.h>
#include <stdio.h>
#include <stdlib.h>
#include <string.h>

#include "fuzz.h"
#include "heard.h"
#include "identity.h"
#include "words.h"

#define LINE_MOST 65536

/* ---- Frames ---------------------------------------------------------- */

/* An entry of the info, mostly of a type that is listed and with the length that it has. */
static void put_entry(void)
{
    static const uint16_t types[] = {1, 2, 3, 4, 5, 6, 7, 8, 100, 200, 300, 400, 401};
    static const uint8_t lengths[] = {3, 2, 6, 2, 2, 2, 6, 10, 1, 1, 1, 1, 2};
    static const uint8_t time[] = {127, 100, 12, 31, 23, 59, 59, 99, 0xF4, 0xC5};
    const uint32_t which = below(sizeof lengths);
    uint32_t type = one_in(6) ? below(520) : types[which];
    uint32_t length = one_in(6) ? below(one_in(2) ? 1 : 30) : lengths[which];
    if (types[which] == 200 && length == 1 && one_in(2)) {
        const uint32_t id = 1 + below(one_in(8) ? 18 : 16);
        put_low_first(type, 2);
        put_low_first(id + 1, 1);
        put_low_first(one_in(8) ? id + 1 : id, 1);
        length = id;
    } else {
        put_low_first(type, 2);
        put_low_first(length, 1);
    }
    for (uint32_t i = 0; i < length; i++)
        put_byte(type == 8 && i < sizeof time && !one_in(12) ? time[i]
                 : one_in(3)                                 ? (uint8_t)(254 * below(2) + below(3))
                                                             : (uint8_t)below(256));
}

static uint8_t any_code(bool console)
{
    static const uint8_t codes[] = {0, 1, 2, 3, 4, 8, 10, 12, 14, 20, 24, 26};
    if (console)
        return (uint8_t)(one_in(6) ? below(256) : 7);
    if (one_in(3))
        return codes[below(sizeof codes)];
    return one_in(2) ? MOP_CODE_REQUEST_PROGRAM : MOP_CODE_REQUEST_DUMP_SERVICE;
}

/* What stands before the info. */
static void put_fields(uint8_t code, bool console)
{
    const uint8_t request[] = {(uint8_t)below(50), !one_in(8), (uint8_t)below(one_in(20) ? 5 : 3),
        (uint8_t)(254 * one_in(2)), (uint8_t)below(3)};
    const uint32_t rest = console ? 3 : code == MOP_CODE_REQUEST_DUMP_SERVICE ? 7 : below(12);
    if (code == MOP_CODE_REQUEST_PROGRAM && !console) {
        put_bytes(request, sizeof request);
        return;
    }
    for (uint32_t i = 0; i < rest; i++)
        put_byte((uint8_t)below(one_in(2) ? 2 : 256));
}

static void put_message(bool console)
{
    const uint32_t entries = one_in(100) ? 300 : below(6);
    const uint8_t code = any_code(console);
    put_byte(code);
    put_fields(code, console);
    for (uint32_t i = 0; i < entries && input.length < LINE_LONGEST; i++)
        put_entry();
}

static void make_frame(void)
{
    static const uint8_t groups[][ADDRESS_LENGTH] = {
        {0xAB, 0, 0, 1, 0, 0}, {0xAB, 0, 0, 2, 0, 0}, {0xFF, 0xFF, 0xFF, 0xFF, 0xFF, 0xFF}};
    const bool console = one_in(2);
    put_bytes(one_in(3) ? OWN : groups[below(3)], ADDRESS_LENGTH);
    put_bytes(PEER, ADDRESS_LENGTH);
    put_byte(0x60);
    put_byte((uint8_t)(one_in(20) ? below(4) : 1U + console));
    put_low_first(0, LENGTH_FIELD);
    put_message(console);
    const uint32_t length = one_in(12) ? below(8) : (uint32_t)input.length - 16 + (one_in(12) ? below(3) : 0);
    input.bytes[14] = (uint8_t)length;
    input.bytes[15] = (uint8_t)(length >> 8);
    const size_t least = one_in(3) ? 0 : 60; /* no interface hands over a shorter one */
    while (input.length < least)
        put_byte(0xEE);
    if (one_in(4))
        mutate(NULL);
    input.length = input.length > LINE_LONGEST + 1 ? LINE_LONGEST + 1 : input.length;
}

/* ---- The plain writer ------------------------------------------------ */

static char want[LINE_MOST];
static size_t written;

__attribute__((format(printf, 1, 2))) static void say(const char *format, ...)
{
    va_list values;
    va_start(values, format);
    const int more = vsnprintf(want + written, LINE_MOST - written, format, values);
    va_end(values);
    require(more >= 0 && (size_t)more < LINE_MOST - written, "the fuzzer has room for its words");
    written += (size_t)more;
}

static void say_bytes(const uint8_t *b, size_t n)
{
    for (size_t i = 0; i < n && i < 17; i++)
        say(i == 0 ? "%02X" : "-%02X", b[i]);
    if (n > 17)
        say(" and %zu more", n - 17);
}

/* What a function of the driver prints: here the names are not checked, tests/driver/watch compares them. */
static void say_device(uint8_t device)
{
    char words[80];
    FILE *out = fmemopen(words, sizeof words, "w");
    require(out != NULL, "there is memory");
    device_words(out, device);
    require(fclose(out) == 0, "there is memory");
    say("%s", words);
}

static void say_software(const uint8_t *b)
{
    if (b[0] == 0 || b[0] >= 254)
        say(b[0] == 0 ? "no software id" : b[0] == 254 ? "the maintenance system" : "the standard system");
    else
        say("software id \"");
    for (size_t i = 1; b[0] < 254 && i <= b[0]; i++)
        if (b[i] < 32 || b[i] > 126)
            say("\\x%02X", b[i]);
        else
            say(b[i] == '"' || b[i] == '\\' ? "\\%c" : "%c", b[i]);
    say(b[0] > 0 && b[0] < 254 ? "\"" : "");
}

static int signed_byte(uint8_t byte)
{
    return byte > 127 ? byte - 256 : byte;
}

static bool good_time(const uint8_t *b)
{
    const int hours = signed_byte(b[8]), minutes = signed_byte(b[9]);
    return b[0] <= 127 && b[1] <= 100 && b[2] >= 1 && b[2] <= 12 && b[3] >= 1 && b[3] <= 31 && b[4] <= 23 &&
           b[5] <= 59 && b[6] <= 59 && b[7] <= 99 && hours >= -12 && hours <= 13 && abs(minutes) <= 59 &&
           hours * minutes >= 0;
}

static void say_time(const uint8_t *b)
{
    const int hours = signed_byte(b[8]), minutes = signed_byte(b[9]);
    say("system time %04d-%02d-%02d %02d:%02d:%02d.%02d %c%02d:%02d", b[0] * 100 + b[1], b[2], b[3], b[4], b[5], b[6],
        b[7], hours < 0 || minutes < 0 ? '-' : '+', abs(hours), abs(minutes));
}

static void say_functions(unsigned bits)
{
    static const char *const names[] = {"loop", "dump", "primary loader", "multi-block loader", "boot",
        "console carrier", "data link counters", "console carrier reservation", "bit 8", "bit 9", "bit 10", "bit 11",
        "bit 12", "bit 13", "bit 14", "bit 15"};
    say("functions (%s", bits == 0 ? "none" : "");
    for (unsigned rest = bits, bit = 0; rest != 0; rest &= ~(1U << bit++))
        if ((rest >> bit & 1) != 0)
            say("%s%s", names[bit], rest >> bit == 1 ? "" : ", ");
    say(")");
}

/* Whether the entry is one that is told in words; then they are said. */
static bool say_known(unsigned type, size_t n, const uint8_t *b)
{
    static const char *const processors[] = {"", " (PDP-11, UNIBUS)", " (Communication Server)", " (Professional)"};
    static const char *const links[] = {"", " (Ethernet)", " (DDCMP)", " (LAPB)"};
    const unsigned number = n < 2 ? 0 : b[0] + 256U * b[1];
    if (type == 1 && n == 3)
        say("maintenance version %d.%d.%d", b[0], b[1], b[2]);
    else if (type == 2 && n == 2)
        say_functions(number);
    else if ((type == 3 || type == 7) && n == 6)
        say("%s %02X-%02X-%02X-%02X-%02X-%02X", type == 3 ? "console user" : "hardware address", b[0], b[1], b[2], b[3],
            b[4], b[5]);
    else if (type == 4 && n == 2)
        say("reservation timer %u s", number);
    else if ((type == 5 || type == 6) && n == 2)
        say("console %s size %u", type == 5 ? "command" : "response", number);
    else if (type == 8 && n == 10 && good_time(b))
        say_time(b);
    else if (type == 200 && n >= 1 && n == 1U + (b[0] >= 254 ? 0 : b[0]) && (b[0] <= 16 || b[0] >= 254)) {
        say(b[0] >= 254 ? "software: " : "");
        say_software(b);
    } else if ((type == 300 || type == 400) && n == 1)
        say("%s %d%s", type == 300 ? "system processor type" : "data link", b[0],
            b[0] > 3 ? "" : (type == 300 ? processors : links)[b[0]]);
    else if (type == 401 && n == 2)
        say("buffer size %u", number);
    else
        return false;
    return true;
}

static void say_entry(unsigned type, size_t n, const uint8_t *b)
{
    const char *const of = type < 100 || type > 499 || type % 100 == 0 || type == 401 ? ""
                           : type < 200                                               ? " (of the device)"
                           : type < 300                                               ? " (of the software)"
                           : type < 400                                               ? " (of the processor)"
                                                                                      : " (of the data link)";
    if (type == 100 && n == 1) {
        say("device ");
        say_device(b[0]);
    } else if (!say_known(type, n, b)) {
        say("type %u%s of %zu %s%s", type, of, n, n == 1 ? "byte" : "bytes", n == 0 ? "" : ": ");
        say_bytes(b, n);
    }
}

static void say_info(const char *before, const uint8_t *b, size_t n)
{
    while (n >= 3 && n >= 3U + b[2]) {
        say("%s", before);
        say_entry(b[0] + 256U * b[1], b[2], b + 3);
        n -= 3U + b[2];
        b += 3 + b[2];
        before = ", ";
    }
    if (n == 0)
        return;
    say("%s%zu %s no entry: ", before, n, n == 1 ? "byte that is" : "bytes that are");
    say_bytes(b, n);
}

/* ---- What must hold -------------------------------------------------- */

/* The message that the frame has, by the places of its bytes. */
typedef struct plain {
    const uint8_t *message;
    size_t length;
    size_t says;
    uint8_t refusal;
} plain;

static plain cut_plainly(const contents *raw)
{
    plain p = {.message = raw->bytes + raw->length, .refusal = MOP_REFUSED_SHORT};
    if (raw->length < 16)
        return p;
    p.says = raw->bytes[14] + 256U * raw->bytes[15];
    p.message = raw->bytes + 16;
    const size_t there = raw->length - 16;
    p.length = p.says > there ? there : p.says;
    if (p.says > 1500)
        p.refusal = MOP_REFUSED_LONG;
    else if (p.says > there || p.says == 0)
        p.refusal = MOP_REFUSED_SHORT;
    else if (raw->bytes[13] == 1)
        p.refusal = mop_read(MOP_VERSION_3_0, p.message, p.length).refusal;
    else
        p.refusal = p.message[0] == 7 && p.length < 4 ? MOP_REFUSED_SHORT : MOP_ACCEPTED;
    return p;
}

static void say_load(const char *to, const uint8_t *m, size_t n)
{
    const size_t id = m[0] == 8 && m[4] <= 16 ? m[4] : 0;
    if (m[0] == 8) {
        say("asks %s for a program: type %d (%s), ", to, m[3], program_words(m[3]));
        say_software(m + 4);
        say(", device ");
    } else {
        say("offers %s a dump: memory size %lu, device ", to, m[3] + 256UL * m[4] + 65536UL * m[5] + 16777216UL * m[6]);
    }
    say_device(m[1]);
    if (m[0] == 8)
        say(", processor %d%s", m[5 + id],
            m[5 + id] == 0   ? " (the system processor)"
            : m[5 + id] == 1 ? " (the communication processor)"
                             : "");
    if (m[2] != 1)
        say(", format %d", m[2]);
    say_info(", ", m + (m[0] == 8 ? 6 + id : 8), n - (m[0] == 8 ? 6 + id : 8));
}

/* A message that is there and whose code is one of the protocol's has its name; all else is a frame. */
static void say_refused(const char *to, bool console, const plain *p)
{
    const uint8_t *m = p->message;
    const char *why = refusal_words(p->refusal);
    const bool named = !console && p->length > 0 && p->says == p->length && p->says < 1501 && p->refusal != 3;
    if (named)
        say("sends %s %s %s that is not taken (refused %d: %s)", to, m[0] == 3 ? "an" : "a", code_words(m[0]),
            p->refusal, why);
    else
        say("sends %s a frame of type 60-0%d that is refused (%d): %s", to, 1 + console, p->refusal, why);
    if (p->says > p->length)
        say(" (its length field says %zu, and %s%zu came)", p->says, p->says > 1500 ? "at least " : "", p->length);
    say(p->length == 0 ? "" : ": ");
    say_bytes(m, p->length);
    if (named && (m[0] == 8 || m[0] == 12) && p->length >= 2) {
        say(", device ");
        say_device(m[1]);
    }
}

/* The words, and the kind. */
static heard_kind say_all(const char *to, bool console, const plain *p)
{
    const uint8_t *m = p->message;
    if (p->refusal != MOP_ACCEPTED) {
        say_refused(to, console, p);
        return HEARD_UNREADABLE;
    }
    if (console && m[0] == 7) {
        say("tells %s its system id", to);
        if (m[2] != 0 || m[3] != 0)
            say(" (receipt %d)", m[2] + 256 * m[3]);
        say_info(": ", m + 4, p->length - 4);
        return HEARD_SYSTEM_ID;
    }
    if (!console && m[0] == 3) {
        say("offers %s assistance", to);
        return HEARD_ASSISTANCE;
    }
    if (console || (m[0] != 8 && m[0] != 12)) {
        say("sends %s code %d of type 60-0%d (", to, m[0], 1 + console);
        return HEARD_OTHER;
    }
    say_load(to, m, p->length);
    return m[0] == 8 ? HEARD_REQUEST : HEARD_OFFER;
}

static void check_words(const heard *h, const contents *raw)
{
    char *text = NULL, to[ADDRESS_TEXT];
    size_t size = 0;
    const uint8_t *b = raw->bytes;
    const plain p = cut_plainly(raw);
    snprintf(to, sizeof to, "%02X-%02X-%02X-%02X-%02X-%02X", b[0], b[1], b[2], b[3], b[4], b[5]);
    FILE *out = open_memstream(&text, &size);
    require(out != NULL, "there is memory");
    heard_words(out, h);
    require(fclose(out) == 0 && text != NULL, "there is memory");
    written = 0;
    const heard_kind kind = say_all(strcmp(to, "AB-00-00-01-00-00") == 0   ? "all hosts"
                                    : strcmp(to, "AB-00-00-02-00-00") == 0 ? "all consoles"
                                    : strcmp(to, "FF-FF-FF-FF-FF-FF") == 0 ? "everybody"
                                                                           : to,
        b[13] == 2, &p);
    require(h->kind == kind && h->refusal == p.refusal, "the kind is that of the bytes");
    require(memcmp(h->from, b + 6, ADDRESS_LENGTH) == 0, "the sender is the frame's");
    require(strncmp(text, want, written) == 0 && (kind == HEARD_OTHER || size == written),
        "the words are the plain writer's");
    for (size_t i = 0; i < size; i++)
        require(text[i] >= ' ' && text[i] <= '~', "nothing reaches the terminal but text");
    free(text);
}

bool fuzz_heard(void)
{
    heard h;
    make_frame();
    contents raw = exact();
    const bool type = raw.length >= 14 && raw.bytes[12] == 0x60 && (raw.bytes[13] == 1 || raw.bytes[13] == 2);
    require(heard_read(&h, raw.bytes, raw.length) == type, "exactly the frames of the two types are read");
    if (type)
        check_words(&h, &raw);
    free(raw.bytes);
    return type && h.kind != HEARD_UNREADABLE;
}
