#include "interface.h"

#include <linux/netlink.h>
#include <linux/rtnetlink.h>
#include <net/if.h>
#include <string.h>
#include <sys/socket.h>
#include <unistd.h>

#include "words.h"

#define ANSWER_MOST 32768

/* Some bytes of the answer. */
typedef struct piece {
    const uint8_t *bytes;
    size_t length;
} piece;

static piece rest_of(piece p, size_t from)
{
    from = from < p.length ? from : p.length;
    return (piece){p.bytes + from, p.length - from};
}

/* The value of the first attribute of a type; without bytes if there is none. */
static piece attribute(piece among, unsigned type)
{
    struct rtattr head;
    for (; among.length >= sizeof head; among = rest_of(among, RTA_ALIGN(head.rta_len))) {
        memcpy(&head, among.bytes, sizeof head);
        if (head.rta_len < sizeof head || head.rta_len > among.length)
            break;
        if ((head.rta_type & NLA_TYPE_MASK) == type)
            return (piece){among.bytes + sizeof head, head.rta_len - sizeof head};
    }
    return (piece){NULL, 0};
}

/* Of the ports that there are, those that see a part of what another interface sees. */
static const char *kind_of(piece text)
{
    static const char *const kinds[] = {"bridge", "bond", "team"};
    for (size_t i = 0; i < sizeof kinds / sizeof kinds[0]; i++)
        if (text.length == strlen(kinds[i]) + 1 && memcmp(text.bytes, kinds[i], text.length) == 0)
            return kinds[i];
    return NULL;
}

/* The attributes of the interface, if the answer is whole and is on it. */
static piece attributes(piece answer, int index)
{
    struct nlmsghdr head;
    struct ifinfomsg link;
    if (answer.length < NLMSG_LENGTH(sizeof link))
        return (piece){NULL, 0};
    memcpy(&head, answer.bytes, sizeof head);
    memcpy(&link, answer.bytes + NLMSG_HDRLEN, sizeof link);
    if (head.nlmsg_type != RTM_NEWLINK || head.nlmsg_len > answer.length || link.ifi_index != index)
        return (piece){NULL, 0};
    answer.length = head.nlmsg_len;
    return rest_of(answer, NLMSG_SPACE(sizeof link));
}

interface_facts interface_read(const uint8_t *answer, size_t length, int index)
{
    interface_facts facts = {NULL, 0, false};
    piece all = attributes((piece){answer, length}, index);
    piece carrier = attribute(all, IFLA_CARRIER);
    piece master = attribute(all, IFLA_MASTER);
    facts.no_carrier = carrier.length == 1 && carrier.bytes[0] == 0;
    if (master.length != sizeof facts.master)
        return facts;
    memcpy(&facts.master, master.bytes, sizeof facts.master);
    facts.kind = kind_of(attribute(attribute(all, IFLA_LINKINFO), IFLA_INFO_SLAVE_KIND));
    return facts;
}

/* Asks the kernel: the bytes of its answer, 0 if it gives none. It answers before
 * the question's call is over. */
static size_t ask(int index, uint8_t answer[ANSWER_MOST])
{
    struct {
        struct nlmsghdr head;
        struct ifinfomsg link;
    } question = {{.nlmsg_len = sizeof question, .nlmsg_type = RTM_GETLINK, .nlmsg_flags = NLM_F_REQUEST},
        {.ifi_family = AF_UNSPEC, .ifi_index = index}};
    int fd = socket(AF_NETLINK, SOCK_RAW | SOCK_CLOEXEC, NETLINK_ROUTE);
    if (fd < 0)
        return 0;
    ssize_t got = send(fd, &question, sizeof question, 0);
    if (got >= 0)
        got = recv(fd, answer, ANSWER_MOST, MSG_DONTWAIT);
    close(fd);
    return got < 0 ? 0 : (size_t)got;
}

void interface_warn(const char *name, int index, bool waits)
{
    uint8_t answer[ANSWER_MOST];
    char master[IF_NAMESIZE];
    interface_facts facts = interface_read(answer, ask(index, answer), index);
    if (facts.kind != NULL && if_indextoname(facts.master, master) != NULL)
        complain(0,
            "%s is a port of the %s %s: only a machine behind this port is reached from here, and what others send is "
            "heard in part or not at all; for any other give -i %s",
            name, facts.kind, master, master);
    if (facts.no_carrier)
        complain(0, "%s has no carrier: look at the cable, and whether what is at its other end is switched on; %s",
            name,
            waits ? "this program waits on, for on a direct cable the carrier comes with the machine"
                  : "no answer can come before there is one: then start this program again");
}
