#include "line.h"

#include <arpa/inet.h>
#include <errno.h>
#include <fcntl.h>
#include <inttypes.h>
#include <linux/filter.h>
#include <linux/if_packet.h>
#include <net/if_arp.h>
#include <net/ethernet.h>
#include <poll.h>
#include <signal.h>
#include <string.h>
#include <sys/ioctl.h>
#include <sys/signalfd.h>
#include <sys/socket.h>
#include <time.h>
#include <unistd.h>

#include "interface.h"
#include "privileges.h"
#include "words.h"

#define TYPE 0x6001
#define SHORTEST 60
#define VLAN_NUMBER 0xFFF /* of a tag; above it stands a priority */

const uint8_t ASSISTANCE[ADDRESS_LENGTH] = {0xAB, 0x00, 0x00, 0x01, 0x00, 0x00};

/* Readable once a signal has come; -1 before process_begin. */
static int signal_fd = -1;

/* What is opened later must not get the number of the standard output. */
static void open_standard(void)
{
    int fd = open("/dev/null", O_RDWR);
    while (fd >= 0 && fd <= STDERR_FILENO)
        fd = dup(fd);
    if (fd >= 0)
        close(fd);
}

int process_begin(void)
{
    static const int ending[] = {SIGINT, SIGQUIT, SIGTERM, SIGHUP};
    sigset_t caught;
    open_standard();
    sigemptyset(&caught);
    for (size_t i = 0; i < sizeof ending / sizeof ending[0]; i++) {
        struct sigaction now;
        if (sigaction(ending[i], NULL, &now) == 0 && now.sa_handler != SIG_IGN)
            sigaddset(&caught, ending[i]);
    }
    (void)signal(SIGPIPE, SIG_IGN);
    (void)signal(SIGXFSZ, SIG_IGN);
    sigprocmask(SIG_BLOCK, &caught, NULL);
    signal_fd = signalfd(-1, &caught, SFD_CLOEXEC);
    return signal_fd >= 0 ? 0 : complain(STATUS_OTHER, "no way to wait for signals: %s", strerror(errno));
}

int64_t clock_now(void)
{
    struct timespec t;
    clock_gettime(CLOCK_MONOTONIC, &t);
    return (int64_t)t.tv_sec * 1000 + t.tv_nsec / 1000000;
}

/* ---- Opening --------------------------------------------------------- */

static int open_socket(line *l)
{
    /* No protocol yet: nothing is taken before the interface is known. */
    l->socket = socket(AF_PACKET, SOCK_RAW | SOCK_CLOEXEC, 0);
    if (l->socket >= 0)
        return 0;
    if (errno == EPERM || errno == EACCES)
        return complain(
            STATUS_PERMISSION, "no permission to use %s: run as root, or with the capability CAP_NET_RAW", l->name);
    return complain(STATUS_INTERFACE, "no socket for Ethernet frames: %s", strerror(errno));
}

/* Its number, its own address, its longest frame, and that it is up. */
static int ask_interface(line *l)
{
    struct ifreq ask;
    memset(&ask, 0, sizeof ask);
    memcpy(ask.ifr_name, l->name, IFNAMSIZ);
    if (ioctl(l->socket, SIOCGIFINDEX, &ask) < 0)
        return complain(STATUS_INTERFACE, "no interface is called %s (see: ip link)", l->name);
    l->index = ask.ifr_ifindex;
    if (ioctl(l->socket, SIOCGIFHWADDR, &ask) < 0 || ask.ifr_hwaddr.sa_family != ARPHRD_ETHER)
        return complain(STATUS_INTERFACE, "%s is not an Ethernet interface", l->name);
    memcpy(l->address, ask.ifr_hwaddr.sa_data, ADDRESS_LENGTH);
    if (ioctl(l->socket, SIOCGIFMTU, &ask) < 0)
        return complain(STATUS_INTERFACE, "%s: %s", l->name, strerror(errno));
    uint32_t most = ask.ifr_mtu < LENGTH_FIELD ? 0 : (uint32_t)ask.ifr_mtu - LENGTH_FIELD;
    l->longest = most < MOP_FRAME_MOST ? most : MOP_FRAME_MOST;
    if (ioctl(l->socket, SIOCGIFFLAGS, &ask) < 0 || (ask.ifr_flags & IFF_UP) == 0)
        return complain(STATUS_INTERFACE, "%s is down (ip link set %s up)", l->name, l->name);
    return 0;
}

/* Of all frames on the interface only those of MOP come to the socket, each
 * with a word on whether it carried a VLAN tag. */
static int filter(line *l)
{
    struct sock_filter only[] = {
        BPF_STMT(BPF_LD | BPF_H | BPF_ABS, 2 * ADDRESS_LENGTH),
        BPF_JUMP(BPF_JMP | BPF_JEQ | BPF_K, TYPE, 0, 1),
        BPF_STMT(BPF_RET | BPF_K, LINE_LONGEST + 1),
        BPF_STMT(BPF_RET | BPF_K, 0),
    };
    struct sock_fprog program = {.len = sizeof only / sizeof only[0], .filter = only};
    int on = 1;
    if (setsockopt(l->socket, SOL_SOCKET, SO_ATTACH_FILTER, &program, sizeof program) == 0 &&
        setsockopt(l->socket, SOL_PACKET, PACKET_AUXDATA, &on, sizeof on) == 0)
        return 0;
    return complain(STATUS_INTERFACE, "%s cannot be used: %s", l->name, strerror(errno));
}

/* All protocols: so the socket is also shown what other programs on this
 * computer send. */
static int bind_interface(line *l)
{
    struct sockaddr_ll at = {
        .sll_family = AF_PACKET,
        .sll_protocol = htons(ETH_P_ALL),
        .sll_ifindex = l->index,
    };
    if (bind(l->socket, (const struct sockaddr *)&at, sizeof at) == 0)
        return 0;
    return complain(STATUS_INTERFACE, "%s cannot be used: %s", l->name, strerror(errno));
}

int line_open(line *l, const line_settings *settings)
{
    memset(l, 0, sizeof *l);
    l->socket = -1;
    if (settings->interface == NULL)
        return complain(STATUS_USAGE, "no interface is named: give -i INTERFACE (see --help)");
    if (strlen(settings->interface) >= IFNAMSIZ)
        return complain(STATUS_INTERFACE, "no interface is called %s (see: ip link)", settings->interface);
    memcpy(l->name, settings->interface, strlen(settings->interface) + 1);
    l->out.drop.n = l->in.drop.n = settings->drop;
    l->out.twice.n = l->in.twice.n = settings->twice;
    int status = open_socket(l);
    if (status == 0)
        status = ask_interface(l);
    if (status == 0)
        status = filter(l);
    if (status == 0)
        status = bind_interface(l);
    if (status == 0)
        status = privileges_drop();
    if (status == 0)
        status = trace_open(&l->trace, settings->trace);
    if (status == 0)
        interface_warn(l->name, l->index, !settings->at_once);
    else
        line_close(l);
    return status;
}

int line_join(line *l)
{
    struct packet_mreq group = {
        .mr_ifindex = l->index,
        .mr_type = PACKET_MR_MULTICAST,
        .mr_alen = ADDRESS_LENGTH,
    };
    memcpy(group.mr_address, ASSISTANCE, ADDRESS_LENGTH);
    if (setsockopt(l->socket, SOL_PACKET, PACKET_ADD_MEMBERSHIP, &group, sizeof group) == 0)
        return 0;
    return complain(STATUS_INTERFACE, "%s takes no multicast frames: %s", l->name, strerror(errno));
}

void line_close(line *l)
{
    if (l->socket >= 0)
        close(l->socket);
    l->socket = -1;
    trace_close(&l->trace);
}

static void tell(const char *what, const direction *d)
{
    if (d->drop.n != 0 || d->twice.n != 0)
        printf("Of %" PRIu64 " frames %s, %" PRIu64 " were lost and %" PRIu64 " doubled on purpose.\n", d->frames, what,
            d->lost, d->doubled);
}

void line_tell(const line *l)
{
    tell("sent", &l->out);
    tell("received", &l->in);
}

/* ---- Sending --------------------------------------------------------- */

static bool hit(every *e)
{
    if (e->n == 0)
        return false;
    e->count = (e->count + 1) % e->n;
    return e->count == 0;
}

/* How often a frame goes on: 0, 1 or 2 times. */
static int times(direction *d)
{
    bool lost = hit(&d->drop);
    bool doubled = hit(&d->twice) && !lost;
    d->frames += 1;
    d->lost += lost;
    d->doubled += doubled;
    return lost ? 0 : doubled ? 2 : 1;
}

static int put(line *l, const uint8_t *frame, size_t length)
{
    if (send(l->socket, frame, length, MSG_DONTWAIT) >= 0 || errno == ENOBUFS || errno == EAGAIN)
        return 0;
    return complain(STATUS_INTERFACE, "%s does not send: %s", l->name, strerror(errno));
}

int line_send(line *l, const uint8_t *to, const uint8_t *message, size_t length)
{
    uint8_t frame[LINE_LONGEST] = {0};
    if (length > l->longest)
        return complain(STATUS_INTERFACE, "a message of %zu bytes is too long for %s, which takes %u", length, l->name,
            (unsigned)l->longest);
    memcpy(frame, to, ADDRESS_LENGTH);
    memcpy(frame + ADDRESS_LENGTH, l->address, ADDRESS_LENGTH);
    frame[12] = TYPE >> 8;
    frame[13] = TYPE & 0xFF;
    frame[LINE_HEADER] = (uint8_t)(length & 0xFF);
    frame[LINE_HEADER + 1] = (uint8_t)(length >> 8);
    memcpy(frame + LINE_HEADER + LENGTH_FIELD, message, length);
    size_t whole = LINE_HEADER + LENGTH_FIELD + length;
    whole = whole < SHORTEST ? SHORTEST : whole;
    trace_note(&l->trace, &(trace_frame){frame, whole, whole, message, length});
    int status = 0;
    for (int n = times(&l->out); n > 0 && status == 0; n--)
        status = put(l, frame, whole);
    return status;
}

/* ---- Receiving ------------------------------------------------------- */

/* Whether raw bytes are a message for this end; then they are cut out. */
static bool cut(const line *l, const uint8_t *raw, size_t length, line_frame *frame)
{
    if (length < LINE_HEADER + LENGTH_FIELD || raw[12] != TYPE >> 8 || raw[13] != (TYPE & 0xFF))
        return false;
    frame->multicast = memcmp(raw, ASSISTANCE, ADDRESS_LENGTH) == 0;
    if (!frame->multicast && memcmp(raw, l->address, ADDRESS_LENGTH) != 0)
        return false;
    memcpy(frame->from, raw + ADDRESS_LENGTH, ADDRESS_LENGTH);
    if (memcmp(frame->from, l->address, ADDRESS_LENGTH) == 0)
        return false;
    frame->length = raw[LINE_HEADER] + ((size_t)raw[LINE_HEADER + 1] << 8);
    if (frame->length > MOP_FRAME_MOST || frame->length > length - LINE_HEADER - LENGTH_FIELD)
        return false;
    memcpy(frame->bytes, raw + LINE_HEADER + LENGTH_FIELD, frame->length);
    return true;
}

/* What is said beside the frame: the length that it had, and whether it carried a VLAN tag, which the kernel has cut
 * out. Then it is not from this line, although its addresses may be. */
static void beside_frame(struct msghdr *message, line_raw *raw)
{
    struct tpacket_auxdata word;
    raw->tagged = true; /* if nothing is said */
    raw->vlan = 0;
    for (struct cmsghdr *c = CMSG_FIRSTHDR(message); c != NULL; c = CMSG_NXTHDR(message, c))
        if (c->cmsg_level == SOL_PACKET && c->cmsg_type == PACKET_AUXDATA) {
            memcpy(&word, CMSG_DATA(c), sizeof word);
            raw->whole = word.tp_len;
            raw->tagged = (word.tp_status & TP_STATUS_VLAN_VALID) != 0;
            raw->vlan = word.tp_vlan_tci & VLAN_NUMBER;
        }
}

/* What one frame from the socket is: LINE_FRAME for a message for this end,
 * LINE_QUIET for what does not matter. */
static line_event judge(const line *l, uint8_t type, const uint8_t *raw, size_t length, line_frame *frame)
{
    /* A socket is never shown the frames that it sent itself. */
    if (type == PACKET_OUTGOING)
        return l->alone && memcmp(raw + ADDRESS_LENGTH, l->address, ADDRESS_LENGTH) == 0 ? LINE_SHARED : LINE_QUIET;
    if (type != PACKET_HOST && type != PACKET_MULTICAST)
        return LINE_QUIET;
    return cut(l, raw, length, frame) ? LINE_FRAME : LINE_QUIET;
}

line_event line_take(const line *l, line_raw *raw)
{
    union {
        char bytes[CMSG_SPACE(sizeof(struct tpacket_auxdata))];
        struct cmsghdr aligned;
    } beside;
    struct sockaddr_ll from = {0};
    struct iovec room = {.iov_base = raw->bytes, .iov_len = sizeof raw->bytes};
    struct msghdr message = {.msg_name = &from,
        .msg_namelen = sizeof from,
        .msg_iov = &room,
        .msg_iovlen = 1,
        .msg_control = beside.bytes,
        .msg_controllen = sizeof beside.bytes};
    ssize_t got = recvmsg(l->socket, &message, MSG_DONTWAIT);
    if (got < 0 && (errno == EAGAIN || errno == EINTR))
        return LINE_QUIET;
    if (got < 0) {
        complain(STATUS_INTERFACE, "%s does not receive: %s", l->name, strerror(errno));
        return LINE_BROKEN;
    }
    raw->length = raw->whole = (size_t)got;
    raw->type = from.sll_pkttype;
    beside_frame(&message, raw);
    return LINE_FRAME;
}

/* A message has come: perhaps lost or doubled on purpose. It is noted as often as it is handed over. */
static line_event hand_over(line *l, const line_raw *raw, const line_frame *frame)
{
    const int n = times(&l->in);
    l->again = n == 2;
    if (l->again)
        l->last = *frame;
    for (int i = 0; i < n; i++)
        trace_note(&l->trace, &(trace_frame){raw->bytes, raw->length, raw->whole, frame->bytes, frame->length});
    return n == 0 ? LINE_QUIET : LINE_FRAME;
}

/* Takes one frame from the socket, if it is a message for this end. */
static line_event take(line *l, line_frame *frame)
{
    line_raw raw = {0};
    line_event event = line_take(l, &raw);
    if (event == LINE_FRAME)
        event = raw.tagged ? LINE_QUIET : judge(l, raw.type, raw.bytes, raw.length, frame);
    return event == LINE_FRAME ? hand_over(l, &raw, frame) : event;
}

line_event line_await(const line *l, int64_t deadline)
{
    int64_t left = deadline - clock_now();
    left = left < 0 ? 0 : left;
    struct timespec limit = {.tv_sec = left / 1000, .tv_nsec = left % 1000 * 1000000};
    struct pollfd ready[] = {{.fd = l->socket, .events = POLLIN}, {.fd = signal_fd, .events = POLLIN}};
    ppoll(ready, 2, &limit, NULL);
    if (ready[1].revents != 0)
        return LINE_SIGNAL;
    return ready[0].revents != 0 ? LINE_FRAME : LINE_QUIET;
}

line_event line_receive(line *l, line_frame *frame, int64_t deadline)
{
    if (l->again) {
        *frame = l->last;
        l->again = false;
        return LINE_FRAME;
    }
    for (;;) {
        line_event event = line_await(l, deadline);
        if (event == LINE_FRAME)
            event = take(l, frame);
        if (event != LINE_QUIET || clock_now() >= deadline)
            return event;
    }
}

void line_empty(line *l)
{
    uint8_t raw[1];
    l->again = false;
    while (recv(l->socket, raw, sizeof raw, MSG_DONTWAIT) >= 0)
        ;
}

/* The exit status of what ends a run, with the reason said. */
static int broken(const line *l, line_event event)
{
    if (event == LINE_SIGNAL)
        return complain(STATUS_INTERRUPTED, "interrupted by a signal");
    if (event == LINE_SHARED)
        return complain(STATUS_SHARED,
            "another program on this computer sends MOP frames from the address of %s: one host at a time; end that "
            "program",
            l->name);
    return STATUS_INTERFACE; /* take has said it */
}

int line_run(line *l, const line_end *calls, void *end)
{
    line_frame frame;
    int status = 0;
    while (status == 0 && !calls->over(end)) {
        line_event event = line_receive(l, &frame, calls->due(end));
        if (event == LINE_FRAME)
            status = calls->frame(end, &frame);
        else if (event != LINE_QUIET)
            status = broken(l, event);
        if (status == 0 && !calls->over(end) && clock_now() >= calls->due(end))
            status = calls->timer(end);
    }
    return status;
}
