#include "capture.h"

#include <ctype.h>
#include <stdlib.h>
#include <string.h>

#include "chart.h"
#include "mop.h"
#include "words.h"

/* The form of a capture: a header of 24 bytes; before each frame 16 bytes: seconds, parts of a second, the bytes that
 * follow, and the bytes that the frame had. The numbers have the order of the bytes of the magic number. */
#define FILE_HEADER 24
#define FRAME_HEADER 16
#define MICROSECONDS 0xA1B2C3D4
#define NANOSECONDS 0xA1B23C4D
#define ETHERNET 1
#define FRAME_MOST 262144 /* bytes of a frame, by the makers of the form */

#define TYPE 0x6001
#define HEADER 14

typedef struct reader {
    const char *path;
    capture *capture;
    size_t at;
    bool big;         /* the high byte first */
    bool nanoseconds; /* and not microseconds */
} reader;

static uint32_t number(const reader *r, size_t at)
{
    const uint8_t *b = r->capture->file.bytes + at;
    return r->big ? (uint32_t)b[0] << 24 | (uint32_t)b[1] << 16 | (uint32_t)b[2] << 8 | b[3]
                  : (uint32_t)b[3] << 24 | (uint32_t)b[2] << 16 | (uint32_t)b[1] << 8 | b[0];
}

/* The order of the bytes and the parts of a second, by the magic number; false if it is none. */
static bool read_magic(reader *r)
{
    r->big = r->capture->file.bytes[0] == MICROSECONDS >> 24;
    const uint32_t magic = number(r, 0);
    r->nanoseconds = magic == NANOSECONDS;
    return magic == MICROSECONDS || magic == NANOSECONDS;
}

/* Whether a file begins as a trace in lines does: pairs of hexadecimal digits. */
static bool is_text(const contents *file)
{
    for (size_t i = 0; i < 2; i++)
        if (i >= file->length || !isxdigit(file->bytes[i]))
            return false;
    return true;
}

static int read_header(reader *r)
{
    static const uint8_t next[] = {0x0A, 0x0D, 0x0D, 0x0A};
    const contents *file = &r->capture->file;
    if (file->length >= sizeof next && memcmp(file->bytes, next, sizeof next) == 0)
        return complain(
            STATUS_FILE, "%s is a capture in the form of pcapng: make it a pcap (tcpdump -r FILE -w NEW)", r->path);
    if (file->length < FILE_HEADER || !read_magic(r))
        return complain(STATUS_FILE, "%s is no capture in the form of pcap%s", r->path,
            is_text(file) ? " but lines of hexadecimal: --trace writes a capture if the name ends in .pcap" : "");
    if ((number(r, 20) & 0x0FFFFFFF) != ETHERNET)
        return complain(STATUS_FILE, "%s is a capture of another kind of line than Ethernet", r->path);
    r->at = FILE_HEADER;
    return 0;
}

/* Whether bytes are an Ethernet frame with a whole message of MOP in it; then it is cut out. */
static bool cut(const uint8_t *raw, size_t length, captured *m)
{
    if (length < HEADER + LENGTH_FIELD || raw[12] != TYPE >> 8 || raw[13] != (TYPE & 0xFF))
        return false;
    m->to = raw;
    m->from = raw + ADDRESS_LENGTH;
    m->message = raw + HEADER + LENGTH_FIELD;
    m->length = raw[HEADER] + ((size_t)raw[HEADER + 1] << 8);
    return m->length > 0 && m->length <= MOP_FRAME_MOST && m->length <= length - HEADER - LENGTH_FIELD;
}

static int add(capture *c, const char *path, const captured *m)
{
    if (c->count == CHART_ROWS_MOST)
        return complain(STATUS_FILE,
            "%s has more than %d messages, of all machines: cut it (tcpdump -r FILE -w NEW ether host ADDRESS)", path,
            CHART_ROWS_MOST);
    if ((c->count & (c->count - 1)) == 0) {
        captured *grown = realloc(c->list, (c->count == 0 ? 1 : 2 * c->count) * sizeof *grown);
        if (grown == NULL)
            return complain(STATUS_OTHER, "no memory for %s", path);
        c->list = grown;
    }
    c->list[c->count++] = *m;
    return 0;
}

/* The next frame, which has its header at least. */
static int read_frame(reader *r)
{
    capture *c = r->capture;
    const uint32_t parts = number(r, r->at + 4), length = number(r, r->at + 8);
    captured m = {.time = (int64_t)number(r, r->at) * 1000000 + (r->nanoseconds ? parts / 1000 : parts)};
    if (parts >= (r->nanoseconds ? 1000000000 : 1000000) || length > FRAME_MOST)
        return complain(STATUS_FILE, "%s is damaged: no frame stands at byte %zu", r->path, r->at);
    r->at += FRAME_HEADER;
    if (length > c->file.length - r->at) {
        c->cut_short = true;
        r->at = c->file.length;
        return 0;
    }
    int status = 0;
    if (cut(c->file.bytes + r->at, length, &m))
        status = add(c, r->path, &m);
    else
        c->others += 1;
    r->at += length;
    return status;
}

int capture_take(capture *c, const char *path, contents file)
{
    *c = (capture){.file = file};
    reader r = {.path = path, .capture = c};
    int status = read_header(&r);
    while (status == 0 && c->file.length - r.at >= FRAME_HEADER)
        status = read_frame(&r);
    c->cut_short |= status == 0 && r.at < c->file.length;
    return status;
}

int capture_read(capture *c, const char *path)
{
    contents file;
    int status = file_read(path, CAPTURE_MOST, &file);
    return status == 0 ? capture_take(c, path, file) : status;
}

void capture_free(capture *c)
{
    free(c->list);
    free(c->file.bytes);
    *c = (capture){.list = NULL};
}
