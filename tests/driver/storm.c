/* storm INTERFACE ADDRESS PEER COUNT SEED: frames that should do nothing, to the end at ADDRESS, which speaks with PEER:
 * of strangers, good messages and mutated ones; of PEER, such as cannot be read. */
#include <net/if.h>
#include <stdlib.h>
#include <string.h>
#include <sys/socket.h>
#include <unistd.h>

#include <arpa/inet.h>
#include <linux/if_packet.h>

#include "mop.h"
#include "options.h"
#include "words.h"

#define HEADER 16 /* with the message's length */
#define LONGEST 1514

static uint64_t state;
static uint8_t frame[2 * LONGEST];

/* splitmix64 */
static uint32_t below(uint32_t n)
{
    uint64_t z = state += 0x9E3779B97F4A7C15U;
    z = (z ^ z >> 30) * 0xBF58476D1CE4E5B9U;
    z = (z ^ z >> 27) * 0x94D049BB133111EBU;
    return (uint32_t)((z ^ z >> 31) % n);
}

/* A message of some code, any numbers in its fields. */
static size_t message(uint8_t *out)
{
    static const uint8_t codes[] = {0, 1, 2, 3, 4, 8, 10, 12, 14, 20, 24, 26, 5, 255};
    static const uint8_t name[] = {MOP_ENTRY_TARGET_NAME, 5, 'S', 'T', 'O', 'R', 'M'};
    uint8_t data[64];
    for (size_t i = 0; i < sizeof data; i++)
        data[i] = (uint8_t)below(256);
    switch (below(8)) {
    case 0:
        return mop_write_load(data[0], below(65536), data, below(64), out, MOP_FRAME_MOST).length;
    case 1:
        return mop_write_load_transfer(data[0], below(65536), data, below(64), 0, out, MOP_FRAME_MOST).length;
    case 2:
        return mop_write_request_load(data[0], (uint8_t)below(2), out, MOP_FRAME_MOST).length;
    case 3:
        return mop_write_volunteer(out, MOP_FRAME_MOST).length;
    case 4:
        return mop_write_dump_data(3 * below(20000), data, 1 + below(3), out, MOP_FRAME_MOST).length;
    case 5:
        return mop_write_parameters(MOP_VERSION_2_1, data[0] & 1, name, sizeof name, 0, out, MOP_FRAME_MOST).length;
    default:
        out[0] = codes[below(sizeof codes)];
        memcpy(out + 1, data, sizeof data - 1);
        return 1 + below(sizeof data - 1);
    }
}

static void mutate(size_t length)
{
    for (uint32_t times = below(4); times > 0; times--)
        frame[12 + below((uint32_t)length - 12)] = (uint8_t)below(256);
}

/* The next frame; its length. */
static size_t make(const uint8_t *to, const uint8_t *peer)
{
    const uint8_t stranger[] = {0x08, 0x00, 0x2B, 0x00, 0x00, (uint8_t)below(256)};
    size_t length = message(frame + HEADER), says = length;
    memcpy(frame, below(4) == 0 ? ASSISTANCE : to, ADDRESS_LENGTH);
    memcpy(frame + ADDRESS_LENGTH, stranger, ADDRESS_LENGTH);
    if (below(4) == 0) {
        memcpy(frame + ADDRESS_LENGTH, peer, ADDRESS_LENGTH);
        says = below(2) == 0 ? 0 : LONGEST - HEADER - below(10); /* too short, or more than there is */
    }
    frame[12] = 0x60;
    frame[13] = 0x01;
    frame[14] = (uint8_t)says;
    frame[15] = (uint8_t)(says >> 8);
    if (says == length)
        mutate(HEADER + length);
    return below(8) == 0 ? 14 + below((uint32_t)length + 2) : HEADER + length;
}

static int open_on(const char *interface)
{
    int fd = socket(AF_PACKET, SOCK_RAW | SOCK_CLOEXEC, 0);
    struct sockaddr_ll at = {.sll_family = AF_PACKET, .sll_ifindex = (int)if_nametoindex(interface)};
    if (fd >= 0 && at.sll_ifindex != 0 && bind(fd, (const struct sockaddr *)&at, sizeof at) == 0)
        return fd;
    return -1;
}

int main(int count, char **words)
{
    uint8_t to[ADDRESS_LENGTH], peer[ADDRESS_LENGTH];
    words_program("storm");
    if (count != 6 || option_address("ADDRESS", words[2], to) != 0 || option_address("PEER", words[3], peer) != 0)
        return 1;
    int fd = open_on(words[1]);
    state = strtoull(words[5], NULL, 10);
    for (uint64_t left = strtoull(words[4], NULL, 10); fd >= 0 && left > 0; left--) {
        send(fd, frame, make(to, peer), 0);
        if (left % 64 == 0)
            usleep(1000); /* the session's own frames get a place too */
    }
    return fd >= 0 ? close(fd) : 1;
}
