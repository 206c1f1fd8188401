/* mopwatch: lists what machines and hosts say on the line, as it comes. It sends
 * nothing. */
#include <errno.h>
#include <inttypes.h>
#include <linux/if_packet.h>
#include <string.h>
#include <time.h>

#include "heard.h"
#include "options.h"
#include "watching.h"
#include "words.h"

#define SENDERS_MOST 64
#define WAIT_MOST 3600000 /* milliseconds of one wait */
#define REST_MOST 10000   /* frames that are taken at the end */

enum { OPTION_COUNT = OPTION_MORE, OPTION_SECONDS, OPTION_ALL, OPTION_MACHINE, OPTION_PROMISCUOUS };

typedef struct sender {
    uint8_t address[ADDRESS_LENGTH];
    uint64_t frames[HEARD_KINDS];
} sender;

/* Frames with a VLAN tag, and the last of them. */
typedef struct tagged {
    uint64_t frames;
    unsigned vlan;
    uint8_t from[ADDRESS_LENGTH];
} tagged;

typedef struct watch {
    const char *interface;
    uint32_t count;   /* lines, 0 for any number */
    uint32_t seconds; /* 0 for any number */
    bool all;
    bool promiscuous;
    bool named;
    uint8_t machine[ADDRESS_LENGTH]; /* the only sender or receiver, if named */
    sender senders[SENDERS_MOST];
    size_t known;    /* senders in the table */
    sender others;   /* the frames of all that it has no room for */
    uint64_t listed; /* lines */
    uint64_t passed; /* frames neither from nor to the machine */
    tagged vlans;    /* of other lines */
    tagged zeros;    /* with the number 0, which names no VLAN */
    bool stopped;    /* by a signal */
    int64_t began;
    line line;
} watch;

/* ---- Frames ---------------------------------------------------------- */

static bool same(const uint8_t *one, const uint8_t *other)
{
    return memcmp(one, other, ADDRESS_LENGTH) == 0;
}

/* The sender's place in the table. */
static sender *sender_of(watch *w, const uint8_t *address)
{
    for (size_t i = 0; i < w->known; i++)
        if (same(w->senders[i].address, address))
            return &w->senders[i];
    if (w->known == SENDERS_MOST)
        return &w->others;
    memcpy(w->senders[w->known].address, address, ADDRESS_LENGTH);
    return &w->senders[w->known++];
}

/* Local time, to the millisecond. */
static void put_time(struct timeval t)
{
    struct tm local = {0};
    localtime_r(&t.tv_sec, &local);
    printf("%02d:%02d:%02d.%03d ", local.tm_hour, local.tm_min, local.tm_sec, (int)(t.tv_usec / 1000));
}

/* Of what goes out here, a bridge's port passes on what other machines sent. */
static const char *mark(const watch *w, const heard *h, uint8_t type)
{
    if (type != PACKET_OUTGOING)
        return "";
    return same(h->from, w->line.address) ? "(from this computer) " : "(passed on by this computer) ";
}

static int list(watch *w, const heard *h, uint8_t type)
{
    char from[ADDRESS_TEXT];
    put_time(watching_came(&w->line));
    printf("%s %s", address_text(h->from, from), mark(w, h, type));
    heard_words(stdout, h);
    putchar('\n');
    w->listed += 1;
    return words_written();
}

static void count_tagged(tagged *t, unsigned vlan, const uint8_t *from)
{
    t->frames += 1;
    t->vlan = vlan;
    memcpy(t->from, from, ADDRESS_LENGTH);
}

static int hear(watch *w, const line_raw *raw)
{
    heard h;
    if (!heard_read(&h, raw->bytes, raw->length))
        return 0;
    if (raw->tagged) {
        count_tagged(raw->vlan == 0 ? &w->zeros : &w->vlans, raw->vlan, h.from);
        return 0;
    }
    if (w->named && !same(h.from, w->machine) && !same(h.to, w->machine)) {
        w->passed += 1;
        return 0;
    }
    sender_of(w, h.from)->frames[h.kind] += 1;
    return h.kind == HEARD_OTHER && !w->all ? 0 : list(w, &h, raw->type);
}

static bool enough(const watch *w)
{
    return w->count > 0 && w->listed >= w->count;
}

static bool over(const watch *w)
{
    return w->stopped || enough(w) || (w->seconds > 0 && clock_now() >= w->began + (int64_t)w->seconds * 1000);
}

/* What has come before the end and was not taken. */
static int hear_rest(watch *w)
{
    line_raw raw = {0};
    int status = 0;
    for (int n = 0; n < REST_MOST && status == 0 && !enough(w); n++) {
        const line_event event = line_take(&w->line, &raw);
        if (event != LINE_FRAME)
            return event == LINE_BROKEN ? STATUS_INTERFACE : 0;
        status = hear(w, &raw);
    }
    return status;
}

static int listen_on(watch *w)
{
    line_raw raw = {0};
    int status = 0;
    while (status == 0 && !over(w)) {
        int64_t wait = w->seconds > 0 ? (int64_t)w->seconds * 1000 : WAIT_MOST;
        line_event event = line_await(&w->line, w->seconds > 0 ? w->began + wait : clock_now() + wait);
        if (event == LINE_FRAME)
            event = line_take(&w->line, &raw);
        if (event == LINE_FRAME)
            status = hear(w, &raw);
        else if (event == LINE_BROKEN)
            status = STATUS_INTERFACE; /* line_take has said it */
        w->stopped = event == LINE_SIGNAL;
    }
    return status == 0 ? hear_rest(w) : status;
}

/* ---- The summary ----------------------------------------------------- */

static void tell_frames(const uint64_t frames[HEARD_KINDS])
{
    static const char *const words[HEARD_KINDS][2] = {
        [HEARD_REQUEST] = {"request for a program", "requests for a program"},
        [HEARD_OFFER] = {"offer of a dump", "offers of a dump"},
        [HEARD_ASSISTANCE] = {"offer of assistance", "offers of assistance"},
        [HEARD_SYSTEM_ID] = {"system id", "system ids"},
        [HEARD_UNREADABLE] = {"unreadable frame", "unreadable frames"},
        [HEARD_OTHER] = {"other frame", "other frames"},
    };
    const char *before = ": ";
    for (size_t i = 0; i < HEARD_KINDS; i++)
        if (frames[i] != 0) {
            printf("%s%" PRIu64 " %s", before, frames[i], words[i][frames[i] != 1]);
            before = ", ";
        }
    puts("");
}

static void tell_senders(const watch *w)
{
    static const uint64_t none[HEARD_KINDS];
    char from[ADDRESS_TEXT];
    for (size_t i = 0; i < w->known; i++) {
        const sender *s = &w->senders[i];
        const bool own = same(s->address, w->line.address);
        printf("  %s%s", address_text(s->address, from), own ? " (this computer)" : "");
        tell_frames(s->frames);
    }
    if (memcmp(w->others.frames, none, sizeof none) == 0)
        return;
    printf("  all other senders (the table holds %d)", SENDERS_MOST);
    tell_frames(w->others.frames);
}

/* The usual name of the VLAN's interface, or a shorter one where that is too long. */
static void name_vlan(const line *l, unsigned vlan, char name[2 * IFNAMSIZ])
{
    snprintf(name, 2 * IFNAMSIZ, "%s.%u", l->name, vlan);
    if (strlen(name) >= IFNAMSIZ)
        snprintf(name, 2 * IFNAMSIZ, "vlan%u", vlan);
}

static void tell_tagged(const watch *w)
{
    char from[ADDRESS_TEXT];
    const tagged *vlans = &w->vlans, *zeros = &w->zeros;
    if (vlans->frames > 0) {
        char name[2 * IFNAMSIZ];
        name_vlan(&w->line, vlans->vlan, name);
        printf("Frames with a VLAN tag, which are not of this line: %" PRIu64
               ". The last was from %s, of VLAN %u. If that is the machine, give -i %s, which"
               " ip link add link %s name %s type vlan id %u makes.\n",
            vlans->frames, address_text(vlans->from, from), vlans->vlan, name, w->line.name, name, vlans->vlan);
    }
    if (zeros->frames > 0)
        printf("Frames with a VLAN tag of number 0, which is a priority and names no VLAN: %" PRIu64
               ". The last was from %s. The programs do not take them: have the switch send them without a tag.\n",
            zeros->frames, address_text(zeros->from, from));
}

/* What came, and what came and is not of it. */
static int conclude(const watch *w, int status)
{
    const int64_t time = clock_now() - w->began;
    const uint64_t lost = watching_lost(&w->line);
    const bool others = w->passed > 0 || w->vlans.frames > 0 || w->zeros.frames > 0;
    printf("Heard on %s in %" PRId64 ".%" PRId64 " seconds%s\n", w->line.name, time / 1000, time % 1000 / 100,
        w->known > 0 ? ", by sender:"
        : others     ? ": nothing that is to be listed."
                     : ": nothing.");
    tell_senders(w);
    if (w->passed > 0)
        printf("Frames neither from nor to --machine, not listed: %" PRIu64 ".\n", w->passed);
    tell_tagged(w);
    if (lost > 0)
        printf("Frames that came too fast and are lost, neither listed nor counted: %" PRIu64 ".\n", lost);
    if (status == 0)
        status = words_written();
    if (status == 0 && w->listed == 0)
        return complain(STATUS_SILENT, "nothing was listed (--help tells what to look at)");
    return status;
}

/* ---- The command line ------------------------------------------------ */

static const char manual[] = "NAME\n"
                             "  mopwatch - list what machines and hosts say by MOP over Ethernet\n"
                             "\n"
                             "SYNOPSIS\n"
                             "  mopwatch -i INTERFACE [--machine ADDRESS] [--all] [--count N] [--seconds S]\n"
                             "           [--promiscuous]\n"
                             "\n"
                             "DESCRIPTION\n"
                             "  The first program to run when a machine says nothing. It lists the requests\n"
                             "  for a program, the offers of a dump, the hosts' offers of assistance (type\n"
                             "  60-01, codes 8, 12 and 3), the system ids (type 60-02, code 7), and every\n"
                             "  frame of MOP that cannot be read, or that the programs here do not take: one\n"
                             "  line each, with the local time at which it came, the sender's address, and\n"
                             "  what it says in words. Devices, processors and the rest have words where\n"
                             "  DEC's specification (version 3.0.0) lists them, and their number alone where\n"
                             "  it does not.\n"
                             "\n"
                             "  It runs until it is interrupted (control-C), and ends with how many frames of\n"
                             "  each kind came from each sender. It may run beside mopload and mopdump: it\n"
                             "  sends nothing and needs no interface to itself. What this computer sends is\n"
                             "  listed too, and marked: as from this computer if the sender's address is the\n"
                             "  interface's, else as passed on by it, as a bridge does.\n"
                             "\n"
                             "  Frames with a VLAN tag are of another line: they are counted and not\n"
                             "  listed. Without --promiscuous the interface hands over what is sent to all\n"
                             "  hosts, to all consoles, to everybody, and to or from this computer: so a\n"
                             "  machine's request to another host, once that has offered assistance, is not\n"
                             "  seen, nor is that offer.\n"
                             "\n"
                             "OPTIONS\n"
                             "  -i, --interface INTERFACE\n"
                             "        The Ethernet interface, as ip link names it. It must be up, and\n"
                             "        the program run as root or with the capability CAP_NET_RAW.\n"
                             "  --machine ADDRESS\n"
                             "        List what this machine sends and what is sent to it, for example\n"
                             "        08-00-2B-AA-BB-CC; all other frames are only counted.\n"
                             "  --all\n"
                             "        List every frame of the two types, those of a running load too.\n"
                             "        Without it they are only counted.\n"
                             "  --count N\n"
                             "        End after N lines.\n"
                             "  --seconds S\n"
                             "        End after S seconds.\n"
                             "  --promiscuous\n"
                             "        Have the interface hand over what is sent to others too. A switch\n"
                             "        sends such frames to few of its ports, or none but the right one.\n";

static const char advice[] = "WHAT TO LOOK AT\n"
                             "  Nothing comes, from any machine:\n"
                             "        The lights of the interface and of the switch; the cable, the\n"
                             "        transceiver; the name of the interface (ip link); a switch whose port\n"
                             "        is closed, on a VLAN, or in its first seconds after it was plugged in;\n"
                             "        10 Mbit/s half duplex, which some switches no longer have.\n"
                             "  Nothing comes from this machine, but from others:\n"
                             "        The machine's boot device and its switches: is it set to boot from the\n"
                             "        network, and has it been told to boot? Some machines test themselves\n"
                             "        for minutes before they ask.\n"
                             "  A system id, but no request:\n"
                             "        The machine works, and the line from it to here; of the other direction\n"
                             "        this shows nothing. It is not asking for a program: boot it from the\n"
                             "        network. (A boot ROM may send both, one after the other.)\n"
                             "  It asks for type 1 (or 0), and mopload says that this is not served:\n"
                             "        Give mopload --accept-type 1 (or 0).\n"
                             "  It asks for a program, and mopload says nothing of it:\n"
                             "        The ADDRESS of mopload --machine is not the one that is listed here;\n"
                             "        or mopload runs on another interface; or the request is to everybody\n"
                             "        (FF-FF-FF-FF-FF-FF), which mopload does not hear.\n"
                             "  A request that ends too early:\n"
                             "        The short form of a request program, or that of version 2.1, which has\n"
                             "        no processor. mopload does not serve them, and says nothing of them.\n"
                             "  It asks all hosts again and again, also after this computer's offer of\n"
                             "  assistance:\n"
                             "        It does not hear this computer: suspect the line in that direction.\n"
                             "  It asks all hosts a few times, and then nothing more comes from it:\n"
                             "        Perhaps another host has offered itself, and it asks that one alone.\n"
                             "        Then end that host's program. --promiscuous may show who it is.\n"
                             "  It offers a dump and is to be loaded, or the reverse:\n"
                             "        Run mopdump for an offer and mopload for a request.\n"
                             "  Frames that cannot be read:\n"
                             "        The number and the words tell why. The programs pass them over.\n"
                             "  Frames with a VLAN tag:\n"
                             "        Name the interface of that VLAN: the summary tells how. A tag of number\n"
                             "        0 names no VLAN: the switch has to take it off.\n"
                             "\n";

static void help(FILE *out)
{
    fputs(manual, out);
    manual_help(out);
    fputs("\n"
          "  Numbers are decimal, or hexadecimal (0x200), or octal (0o1000).\n"
          "\n",
        out);
    fputs(advice, out);
    fputs("EXIT STATUS\n"
          "   0  something was listed\n",
        out);
    words_statuses(out, STATUS_OTHER, STATUS_OTHER);
    fputs("   5  nothing was listed\n", out);
    words_statuses(out, STATUS_USAGE, STATUS_PERMISSION);
    words_statuses(out, STATUS_FILE, STATUS_FILE);
    fputs("\n"
          "EXAMPLES\n"
          "  mopwatch -i eth0\n"
          "  mopwatch -i eth0 --machine 08-00-2B-AA-BB-CC --count 1 --seconds 300\n",
        out);
}

static int machine_option(watch *w)
{
    w->named = true;
    int status = option_address("--machine", optarg, w->machine);
    if (status == 0 && w->machine[0] % 2 == 1)
        status = complain(STATUS_USAGE, "--machine: %s is the address of a group, and not of one machine", optarg);
    return status;
}

static int option(int c, char **words, watch *w)
{
    switch (c) {
    case 'i':
        w->interface = optarg;
        return 0;
    case OPTION_COUNT:
        return option_small("--count", optarg, 1, 1000000000, &w->count);
    case OPTION_SECONDS:
        return option_small("--seconds", optarg, 1, 31536000, &w->seconds);
    case OPTION_ALL:
        w->all = true;
        return 0;
    case OPTION_MACHINE:
        return machine_option(w);
    case OPTION_PROMISCUOUS:
        w->promiscuous = true;
        return 0;
    default:
        return manual_option(c, &(manual_of){help, words});
    }
}

static int options(int count, char **words, watch *w)
{
    static const struct option known[] = {{"interface", required_argument, NULL, 'i'},
        {"count", required_argument, NULL, OPTION_COUNT}, {"seconds", required_argument, NULL, OPTION_SECONDS},
        {"all", no_argument, NULL, OPTION_ALL}, {"machine", required_argument, NULL, OPTION_MACHINE},
        {"promiscuous", no_argument, NULL, OPTION_PROMISCUOUS}, MANUAL_OPTIONS, {NULL, 0, NULL, 0}};
    for (int c = 0; (c = getopt_long(count, words, "i:h", known, NULL)) != -1;) {
        int status = option(c, words, w);
        if (status != 0)
            return status;
    }
    if (optind == count)
        return 0;
    if (w->interface == NULL)
        return complain(
            STATUS_USAGE, "'%s' is too much: to name an interface, give -i %s", words[optind], words[optind]);
    return complain(STATUS_USAGE, "'%s' is too much (see --help)", words[optind]);
}

static int run(watch *w)
{
    char own[ADDRESS_TEXT];
    int status = watching_open(&w->line, w->interface, w->promiscuous);
    if (status != 0)
        return status;
    printf("Listening on %s (%s).\n", w->line.name, address_text(w->line.address, own));
    fflush(stdout);
    w->began = clock_now();
    status = conclude(w, listen_on(w));
    line_close(&w->line);
    return status;
}

int main(int count, char **words)
{
    static watch w;
    words_program("mopwatch");
    int status = options(count, words, &w);
    if (status == 0)
        status = process_begin();
    return status == 0 ? run(&w) : status;
}
