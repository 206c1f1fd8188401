/* The kernel's answers on an interface, whole, cut short and odd: what is taken from them is what stands in them. */
#include <linux/rtnetlink.h>
#include <stdlib.h>
#include <string.h>

#include "fuzz.h"
#include "interface.h"

#define INDEX 7
#define FRONT 32 /* the message's header and what stands before the attributes */

static const char *const KINDS[] = {"bridge", "bond", "team", "bridgf", "bridge2", "vrf", ""};

static void put_attribute(uint16_t type, const void *value, uint32_t length)
{
    put_low_first(4 + length + (one_in(60) ? below(9) - 4 : 0), 2);
    put_low_first(type | (one_in(8) ? 0x8000U : 0), 2);
    put_bytes(value, length);
    while (input.length % 4 != 0)
        put_byte((uint8_t)below(2));
}

/* The attribute with the kinds of an interface has attributes in it. */
static void put_kinds(void)
{
    const char *kind = KINDS[one_in(2) ? 0 : below(7)];
    size_t at = input.length;
    put_attribute(IFLA_LINKINFO, "", 0);
    if (one_in(2))
        put_attribute(IFLA_INFO_KIND, "veth", 5);
    put_attribute(one_in(8) ? IFLA_INFO_KIND : IFLA_INFO_SLAVE_KIND, kind, (uint32_t)strlen(kind) + !one_in(10));
    input.bytes[at] = (uint8_t)(input.length - at - one_in(30));
}

static void put_any_attribute(void)
{
    uint8_t carrier = (uint8_t)below(3);
    uint32_t master = any_number();
    switch (below(4)) {
    case 0:
        put_attribute(IFLA_MASTER, &master, one_in(20) ? below(5) : 4);
        return;
    case 1:
        put_attribute(IFLA_CARRIER, &carrier, one_in(20) ? 0 : 1);
        return;
    case 2:
        put_kinds();
        return;
    default:
        put_attribute(IFLA_IFNAME, "eth0", 5);
    }
}

static void make_answer(void)
{
    input.length = 0;
    put_low_first(0, 4);
    put_low_first(one_in(20) ? NLMSG_ERROR : RTM_NEWLINK, 4);
    put_low_first(0, 4);
    put_low_first(0, 4);
    put_low_first(0, 4);
    put_low_first(one_in(20) ? any_number() : INDEX, 4);
    put_low_first(0, 4);
    put_low_first(0, 4);
    for (uint32_t n = below(8); n > 0; n--)
        put_any_attribute();
    uint32_t says = (uint32_t)input.length + (one_in(10) ? below(40) - 20 : 0);
    for (size_t i = 0; i < 4; i++)
        input.bytes[i] = (uint8_t)(says >> 8 * i);
    if (one_in(4))
        mutate(NULL);
    if (one_in(6))
        input.length = below((uint32_t)input.length + 1);
}

/* ---- The same, by the places of its bytes ---------------------------- */

static uint32_t number_at(const uint8_t *b, size_t length)
{
    uint32_t number = 0;
    while (length-- > 0)
        number = number << 8 | b[length];
    return number;
}

/* Where the value of the first attribute of a type begins, between two places, and its length; 0 if there is none. */
static size_t place(const uint8_t *b, size_t at, size_t end, uint32_t type, size_t *length)
{
    for (size_t says = 0; at + 4 <= end; at += (says + 3) / 4 * 4) {
        says = number_at(b + at, 2);
        *length = says - 4;
        if (says < 4 || at + says > end)
            return 0;
        if ((number_at(b + at + 2, 2) & 0x3FFF) == type)
            return at + 4;
    }
    return 0;
}

static interface_facts expected(const contents *answer)
{
    const uint8_t *b = answer->bytes;
    interface_facts facts = {NULL, 0, false};
    size_t end = answer->length < FRONT ? 0 : number_at(b, 4), length = 0;
    if (end < FRONT || end > answer->length || number_at(b + 4, 2) != RTM_NEWLINK || number_at(b + 20, 4) != INDEX)
        return facts;
    size_t at = place(b, FRONT, end, IFLA_CARRIER, &length);
    facts.no_carrier = at != 0 && length == 1 && b[at] == 0;
    at = place(b, FRONT, end, IFLA_MASTER, &length);
    if (at == 0 || length != 4)
        return facts;
    facts.master = number_at(b + at, 4);
    at = place(b, FRONT, end, IFLA_LINKINFO, &length);
    at = at == 0 ? 0 : place(b, at, at + length, IFLA_INFO_SLAVE_KIND, &length);
    for (size_t i = 0; at != 0 && i < 3; i++)
        if (length == strlen(KINDS[i]) + 1 && memcmp(b + at, KINDS[i], length) == 0)
            facts.kind = KINDS[i];
    return facts;
}

bool fuzz_interface(void)
{
    make_answer();
    contents answer = exact();
    interface_facts facts = interface_read(answer.bytes, answer.length, INDEX), want = expected(&answer);
    require(facts.no_carrier == want.no_carrier, "no carrier is told if the answer says so");
    require(facts.master == want.master, "the number of the other interface is the answer's");
    require((facts.kind == NULL) == (want.kind == NULL), "a port is told exactly if it is one of the three kinds");
    require(facts.kind == NULL || strcmp(facts.kind, want.kind) == 0, "the kind is the answer's");
    free(answer.bytes);
    return facts.kind != NULL || facts.no_carrier;
}
