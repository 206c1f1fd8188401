/* Raw frames: the message that is cut out lies within them, and is cut out exactly if it is for this end. */
#include "../../driver/line.c" // NOLINT(bugprone-suspicious-include)

#include <stdlib.h>

#include "fuzz.h"
#include "mop.h"

const uint8_t OWN[ADDRESS_LENGTH] = {0x08, 0x00, 0x2B, 0x11, 0x22, 0x33};
const uint8_t PEER[ADDRESS_LENGTH] = {0xAA, 0x00, 0x04, 0x00, 0x07, 0x04};
const uint8_t STRANGER[ADDRESS_LENGTH] = {0x08, 0x00, 0x2B, 0x11, 0x22, 0x34};

static int far_end = -1;

void line_make(line *l)
{
    int ends[2];
    static int near_end = -1;
    if (near_end < 0) {
        require(socketpair(AF_UNIX, SOCK_DGRAM | SOCK_CLOEXEC, 0, ends) == 0, "a pair of sockets can be had");
        near_end = ends[0];
        far_end = ends[1];
    }
    memset(l, 0, sizeof *l);
    l->socket = near_end;
    l->longest = MOP_FRAME_MOST;
    memcpy(l->address, OWN, ADDRESS_LENGTH);
    memcpy(l->name, "fuzz", sizeof "fuzz");
}

bool line_cut(const line *l, const contents *raw, line_frame *frame)
{
    return cut(l, raw->bytes, raw->length, frame);
}

/* ---- Raw frames ------------------------------------------------------ */

static void put_address(const uint8_t *usual)
{
    const uint8_t *others[] = {OWN, PEER, STRANGER, ASSISTANCE};
    put_bytes(one_in(12) ? others[below(4)] : usual, ADDRESS_LENGTH);
}

void raw_frame(const uint8_t *message, size_t length)
{
    input.length = 0;
    put_address(one_in(4) ? ASSISTANCE : OWN);
    put_address(PEER);
    put_byte(TYPE >> 8);
    put_byte(TYPE & 0xFF);
    put_low_first((uint32_t)length, LENGTH_FIELD);
    put_bytes(message, length);
    while (input.length < SHORTEST)
        put_byte(0);
    if (one_in(4))
        mutate(NULL);
}

/* Whether a frame is for this end, by the places of its bytes. */
static bool for_this_end(const contents *raw)
{
    const uint8_t *b = raw->bytes;
    if (raw->length < 16 || b[12] != 0x60 || b[13] != 0x01)
        return false;
    size_t says = b[14] + (size_t)256 * b[15];
    bool to = memcmp(b, OWN, 6) == 0 || memcmp(b, "\xAB\x00\x00\x01\x00\x00", 6) == 0;
    return to && memcmp(b + 6, OWN, 6) != 0 && says <= 1500 && says + 16 <= raw->length;
}

/* By the kernel's word on it: taken if it was sent to this computer, and told if another program here sent it. */
static void check_type(line *l, const contents *raw, bool good)
{
    static const uint8_t types[] = {
        PACKET_HOST, PACKET_BROADCAST, PACKET_MULTICAST, PACKET_OTHERHOST, PACKET_OUTGOING, PACKET_LOOPBACK};
    line_frame frame;
    uint8_t type = types[below(sizeof types)];
    line_event want = LINE_QUIET;
    if (raw->length < LINE_HEADER) /* no Ethernet frame */
        return;
    l->alone = one_in(2);
    if (type == PACKET_OUTGOING && l->alone && memcmp(raw->bytes + 6, OWN, 6) == 0)
        want = LINE_SHARED;
    if ((type == PACKET_HOST || type == PACKET_MULTICAST) && good)
        want = LINE_FRAME;
    require(
        judge(l, type, raw->bytes, raw->length, &frame) == want, "a frame is taken, told or passed over by its type");
}

bool fuzz_raw(void)
{
    uint8_t message[MOP_FRAME_MOST + 20];
    size_t length = one_in(10) ? MOP_FRAME_MOST - 10 + below(20) : below(100);
    line l;
    static line_frame frame;
    for (size_t i = 0; i < length; i++)
        message[i] = (uint8_t)below(256);
    raw_frame(message, length);
    contents raw = exact();
    line_make(&l);
    memset(&frame, 0xEE, sizeof frame);
    bool taken = line_cut(&l, &raw, &frame);
    require(taken == for_this_end(&raw), "exactly the messages for this end are taken");
    if (taken) {
        require(frame.length <= MOP_FRAME_MOST && frame.length + 16 <= raw.length, "a message lies within its frame");
        require(memcmp(frame.bytes, raw.bytes + 16, frame.length) == 0, "a message is the bytes behind its length");
        require(memcmp(frame.from, raw.bytes + 6, 6) == 0, "its sender is the frame's");
        require(frame.multicast == (raw.bytes[0] == 0xAB), "to all hosts, or to this one");
        for (size_t i = frame.length; i < sizeof frame.bytes; i++)
            require(frame.bytes[i] == 0xEE, "nothing behind a message is written");
    }
    check_type(&l, &raw, taken);
    free(raw.bytes);
    return taken;
}

/* ---- Frames that were sent ------------------------------------------- */

bool sent_next(sent_frame *sent)
{
    uint8_t raw[2048];
    ssize_t got = recv(far_end, raw, sizeof raw, MSG_DONTWAIT);
    if (got < 0)
        return false;
    require(got >= 60 && got <= 1516, "a frame has 60 to 1516 bytes");
    size_t says = raw[14] + (size_t)256 * raw[15];
    require(raw[12] == 0x60 && raw[13] == 0x01 && memcmp(raw + 6, OWN, 6) == 0, "a frame has our type and address");
    require(says + 16 == (size_t)got || (got == 60 && says < 44), "a frame ends with its message or is padded");
    mop_fields fields = mop_read(MOP_VERSION_3_0, raw + 16, says);
    require(fields.refusal == MOP_ACCEPTED, "a message that is sent can be read");
    memcpy(sent->to, raw, ADDRESS_LENGTH);
    sent->code = fields.code;
    return true;
}
