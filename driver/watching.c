#include "watching.h"

#include <errno.h>
#include <linux/filter.h>
#include <linux/if_packet.h>
#include <linux/sockios.h>
#include <string.h>
#include <sys/ioctl.h>
#include <sys/socket.h>

#include "heard.h"
#include "words.h"

/* In the place of the line's own filter, which takes 60-01 alone. */
static int filter(const line *l)
{
    struct sock_filter both[] = {
        BPF_STMT(BPF_LD | BPF_H | BPF_ABS, 2 * ADDRESS_LENGTH),
        BPF_JUMP(BPF_JMP | BPF_JEQ | BPF_K, TYPE_LOAD, 1, 0),
        BPF_JUMP(BPF_JMP | BPF_JEQ | BPF_K, TYPE_CONSOLE, 0, 1),
        BPF_STMT(BPF_RET | BPF_K, LINE_LONGEST + 1),
        BPF_STMT(BPF_RET | BPF_K, 0),
    };
    struct sock_fprog program = {.len = sizeof both / sizeof both[0], .filter = both};
    if (setsockopt(l->socket, SOL_SOCKET, SO_ATTACH_FILTER, &program, sizeof program) == 0)
        return 0;
    return complain(STATUS_INTERFACE, "%s cannot be used: %s", l->name, strerror(errno));
}

/* Has the interface hand over more: the frames to a group, or all (PACKET_MR_..). */
static int join(const line *l, unsigned short what, const uint8_t *group)
{
    struct packet_mreq more = {.mr_ifindex = l->index, .mr_type = what, .mr_alen = ADDRESS_LENGTH};
    memcpy(more.mr_address, group, ADDRESS_LENGTH);
    if (setsockopt(l->socket, SOL_PACKET, PACKET_ADD_MEMBERSHIP, &more, sizeof more) == 0)
        return 0;
    return complain(STATUS_INTERFACE, "%s takes no %s frames: %s", l->name,
        what == PACKET_MR_PROMISC ? "other machines'" : "multicast", strerror(errno));
}

int watching_open(line *l, const char *interface, bool promiscuous)
{
    const line_settings settings = {.interface = interface};
    int status = line_open(l, &settings);
    if (status != 0)
        return status;
    status = filter(l);
    if (status == 0)
        status = join(l, PACKET_MR_MULTICAST, ASSISTANCE);
    if (status == 0)
        status = join(l, PACKET_MR_MULTICAST, CONSOLES);
    if (status == 0 && promiscuous)
        status = join(l, PACKET_MR_PROMISC, l->address);
    if (status != 0)
        line_close(l);
    else
        (void)watching_came(l); /* from the first question on the kernel takes the time of each frame */
    return status;
}

struct timeval watching_came(const line *l)
{
    struct timeval came;
    if (ioctl(l->socket, SIOCGSTAMP, &came) != 0)
        gettimeofday(&came, NULL);
    return came;
}

uint64_t watching_lost(const line *l)
{
    struct tpacket_stats counts = {0};
    socklen_t size = sizeof counts;
    return getsockopt(l->socket, SOL_PACKET, PACKET_STATISTICS, &counts, &size) == 0 ? counts.tp_drops : 0;
}
