/* say INTERFACE FROM TO MESSAGE [COUNT [TAG]]: puts a MOP message on the line from any address, COUNT times as fast as it
 * goes, on a VLAN if a TAG is given. MESSAGE is in hexadecimal, as in a trace; own stands for the interface's address. */
#include <arpa/inet.h>
#include <linux/if_packet.h>
#include <net/ethernet.h>
#include <net/if.h>
#include <stdint.h>
#include <stdio.h>
#include <stdlib.h>
#include <string.h>
#include <sys/ioctl.h>
#include <sys/socket.h>

#define MOST 1600
#define LEAST 60

typedef struct frame {
    uint8_t bytes[MOST];
    size_t length;
} frame;

static void append(frame *f, unsigned byte)
{
    if (f->length < MOST)
        f->bytes[f->length++] = (uint8_t)byte;
}

static void append_hex(frame *f, const char *text)
{
    for (; text[0] != '\0' && text[1] != '\0'; text += text[2] == '-' ? 3 : 2) {
        const char pair[] = {text[0], text[1], '\0'};
        append(f, (unsigned)strtoul(pair, NULL, 16));
    }
}

static void append_address(frame *f, int socket, const char *interface, const char *text)
{
    struct ifreq ask;
    memset(&ask, 0, sizeof ask);
    snprintf(ask.ifr_name, sizeof ask.ifr_name, "%s", interface);
    if (strcmp(text, "own") != 0) {
        append_hex(f, text);
        return;
    }
    ioctl(socket, SIOCGIFHWADDR, &ask);
    for (size_t i = 0; i < ETH_ALEN; i++)
        append(f, (uint8_t)ask.ifr_hwaddr.sa_data[i]);
}

static void append_message(frame *f, const char *text)
{
    size_t length = strlen(text) / 2;
    append(f, 0x60);
    append(f, 0x01);
    append(f, length & 0xFF);
    append(f, (unsigned)(length >> 8));
    append_hex(f, text);
    while (f->length < LEAST)
        append(f, 0);
}

int main(int count, char **words)
{
    frame f = {.length = 0};
    int fd = socket(AF_PACKET, SOCK_RAW, 0);
    if (count < 5 || count > 7 || fd < 0)
        return 1;
    struct sockaddr_ll to = {.sll_family = AF_PACKET, .sll_ifindex = (int)if_nametoindex(words[1])};
    append_address(&f, fd, words[1], words[3]);
    append_address(&f, fd, words[1], words[2]);
    if (count == 7) {
        append(&f, 0x81);
        append(&f, 0x00);
        append(&f, 0);
        append(&f, (unsigned)strtoul(words[6], NULL, 10));
    }
    append_message(&f, words[4]);
    unsigned long times = count > 5 ? strtoul(words[5], NULL, 10) : 1;
    for (unsigned long i = 0; i < times; i++)
        if (sendto(fd, f.bytes, f.length, 0, (const struct sockaddr *)&to, sizeof to) < 0)
            return 1;
    return 0;
}
