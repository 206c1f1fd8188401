#include "trace.h"

#include <errno.h>
#include <fcntl.h>
#include <inttypes.h>
#include <stdio.h>
#include <string.h>
#include <strings.h>
#include <sys/file.h>
#include <sys/stat.h>
#include <time.h>
#include <unistd.h>

#include "words.h"

/* A classic pcap capture: this header, then records, all numbers in the byte
 * order of the computer that writes. */
typedef struct capture_header {
    uint32_t magic;
    uint16_t major;
    uint16_t minor;
    uint32_t zone;
    uint32_t accuracy;
    uint32_t longest; /* bytes that are kept of a frame at most */
    uint32_t link;
} capture_header;

typedef struct record_header {
    uint32_t seconds;
    uint32_t microseconds;
    uint32_t kept;  /* bytes of the frame that follow */
    uint32_t whole; /* bytes that the frame had */
} record_header;

#define MAGIC 0xA1B2C3D4u /* times in microseconds */
#define ETHERNET 1u
#define FRAME_LEAST 14u    /* an Ethernet header */
#define FRAME_MOST 1517u   /* the most that the line hands over of a frame */
#define KEPT_MOST 262144u  /* the most that any program keeps of one */
#define SECOND 1000000u    /* in microseconds */
#define PIPE_ROOM 0x100000 /* bytes: what every user may have */

static const capture_header BEGINS = {.magic = MAGIC, .major = 2, .minor = 4, .longest = 65535, .link = ETHERNET};

/* ---- A capture that is there ----------------------------------------- */

static int other_kind(const char *path)
{
    return complain(STATUS_FILE,
        "%s is there already and is no pcap capture of this computer's kind (version 2.4, microseconds), to which a "
        "trace could be appended: give another name",
        path);
}

static int not_read(const char *path)
{
    return complain(STATUS_FILE, "%s cannot be read: %s", path, strerror(errno));
}

static bool read_at(int fd, uint64_t at, void *to, size_t length)
{
    return pread(fd, to, length, (off_t)at) == (ssize_t)length;
}

/* Whether a record can begin with so many bytes of its header; the others, which the file's end cuts off, are zero. */
static bool begins_record(const record_header *record, size_t there, uint32_t longest)
{
    if (record->microseconds >= SECOND || record->kept > longest)
        return false;
    if (there >= offsetof(record_header, whole) && record->kept < FRAME_LEAST)
        return false;
    return there < sizeof *record || record->kept <= record->whole;
}

/* Where the last whole record ends, and whether what follows there is the beginning of one. */
static uint64_t walk(int fd, uint64_t size, uint32_t longest, bool *begins)
{
    uint64_t at = sizeof(capture_header);
    for (;;) {
        record_header record = {0};
        const uint64_t left = size - at;
        const size_t there = left < sizeof record ? (size_t)left : sizeof record;
        *begins = read_at(fd, at, &record, there) && begins_record(&record, there, longest);
        if (!*begins || left < sizeof record || record.kept > left - sizeof record)
            return at;
        at += sizeof record + record.kept;
    }
}

/* Whether there are zero bytes alone from a place to the end. */
static bool all_zero(int fd, uint64_t at, uint64_t size)
{
    static const uint8_t zero[4096];
    uint8_t bytes[sizeof zero];
    bool so = true;
    while (so && at < size) {
        const size_t length = size - at < sizeof bytes ? (size_t)(size - at) : sizeof bytes;
        so = read_at(fd, at, bytes, length) && memcmp(bytes, zero, length) == 0;
        at += length;
    }
    return so;
}

/* Cutting the rest off is advised only where no record can be lost by it. */
static int refuse_rest(const char *path, uint64_t at, uint64_t size, bool zeros, bool begins)
{
    if (zeros)
        return complain(STATUS_FILE,
            "%s is a capture that is damaged at byte %" PRIu64 " of %" PRIu64
            ": zero bytes alone follow. Give another name, or cut them off first (truncate -s %" PRIu64 " FILE)",
            path, at, size, at);
    if (begins)
        return complain(STATUS_FILE,
            "%s is a capture that is cut short: its last whole record ends at byte %" PRIu64 " of %" PRIu64
            ". Give another name, or cut the rest off first (truncate -s %" PRIu64 " FILE)",
            path, at, size, at);
    return complain(STATUS_FILE,
        "%s is a capture that is damaged at byte %" PRIu64 " of %" PRIu64 ": give another name", path, at, size);
}

int capture_check(const char *path, int fd, uint64_t size)
{
    capture_header header;
    errno = 0; /* it stays so unless the disk does not give the bytes */
    if (size < sizeof header || !read_at(fd, 0, &header, sizeof header))
        return errno != 0 ? not_read(path) : other_kind(path);
    if (header.magic != MAGIC || header.major != BEGINS.major || header.minor != BEGINS.minor)
        return other_kind(path);
    if (header.link != ETHERNET)
        return complain(STATUS_FILE,
            "%s is a capture of link type %" PRIu32 " and not of Ethernet (%u): give another name", path, header.link,
            ETHERNET);
    if (header.longest < FRAME_MOST)
        return complain(STATUS_FILE,
            "%s is a capture that keeps %" PRIu32 " bytes of a frame at most, too few for a trace: give another name",
            path, header.longest);
    bool begins = false;
    const uint64_t at = walk(fd, size, header.longest < KEPT_MOST ? header.longest : KEPT_MOST, &begins);
    const bool zeros = errno == 0 && all_zero(fd, at, size);
    if (errno != 0)
        return not_read(path);
    return at == size ? 0 : refuse_rest(path, at, size, zeros, begins);
}

/* ---- Opening --------------------------------------------------------- */

static int not_written(const char *path, int error)
{
    return complain(STATUS_FILE, "%s cannot be written: %s", path, strerror(error));
}

static int not_opened(const char *path, const struct stat *there)
{
    if (errno == ENXIO && S_ISFIFO(there->st_mode))
        return complain(STATUS_FILE, "%s is a pipe that no program reads: start its reader first", path);
    return not_written(path, errno);
}

/* A trace has in it what a dump has. It replaces no file that holds anything; to
 * a terminal or a pipe it may go, but never waits for one: the session would wait
 * too. A capture that is there is read too, to see whether it is one. */
static int open_file(trace *t, const char *path, bool capture)
{
    const int flags = O_NONBLOCK | O_CLOEXEC;
    struct stat there = {0};
    t->fd = open(path, (capture ? O_RDWR | O_APPEND : O_WRONLY) | O_CREAT | O_EXCL | flags, 0600);
    t->made = t->fd >= 0 ? path : NULL;
    if (t->fd < 0 && errno == EEXIST) {
        if (stat(path, &there) != 0 || (!capture && S_ISREG(there.st_mode) && there.st_size > 0))
            return complain(STATUS_FILE, "%s is there already, and a trace replaces no file", path);
        t->fd = open(path, (capture && S_ISREG(there.st_mode) ? O_RDWR | O_APPEND : O_WRONLY) | flags);
    }
    if (t->fd < 0)
        return not_opened(path, &there);
    if (S_ISFIFO(there.st_mode)) /* its reader may pause for a moment; where there is no more room it stays as it is */
        (void)fcntl(t->fd, F_SETPIPE_SZ, PIPE_ROOM);
    return 0;
}

/* Writes at the trace's end, with one call unless that comes short. What there is
 * then of bytes that do not fit is taken back, if it is still the end. */
static bool append(trace *t, const void *bytes, size_t length)
{
    struct stat now;
    size_t done = 0;
    ssize_t written = 0;
    while (done < length && (written = write(t->fd, (const uint8_t *)bytes + done, length - done)) > 0)
        done += (size_t)written;
    if (done == length) {
        t->whole += length;
        return true;
    }
    t->error = written < 0 ? errno : EIO;
    if (done > 0 && fstat(t->fd, &now) == 0 && S_ISREG(now.st_mode) && (uint64_t)now.st_size == t->whole + done)
        (void)!ftruncate(t->fd, (off_t)t->whole);
    return false;
}

/* One program at a time; what is no file has no lock. */
static int lock(const trace *t, const char *path)
{
    if (flock(t->fd, LOCK_EX | LOCK_NB) == 0)
        return 0;
    if (errno == EWOULDBLOCK)
        return complain(
            STATUS_FILE, "another program writes its trace to %s: wait for its end, or give another name", path);
    return complain(STATUS_FILE, "%s cannot be locked: %s", path, strerror(errno));
}

/* An empty file, a device and a pipe get the header; a capture has it. */
static int begin_capture(trace *t, const char *path)
{
    struct stat there;
    if (fstat(t->fd, &there) != 0)
        return not_written(path, errno);
    if (S_ISREG(there.st_mode)) {
        int status = lock(t, path);
        if (status != 0)
            return status;
        if (fstat(t->fd, &there) != 0) /* the other program may have written until now */
            return not_written(path, errno);
        if (there.st_nlink == 0)
            return complain(STATUS_FILE, "%s was removed just now by the program that made it: start again", path);
        t->whole = (uint64_t)there.st_size;
    }
    if (t->whole > 0)
        return capture_check(path, t->fd, t->whole);
    return append(t, &BEGINS, sizeof BEGINS) ? 0 : not_written(path, t->error);
}

/* A name that looks like a capture's, and gives lines of text. */
static void warn_name(const char *path, const char *ending)
{
    if (strcasecmp(ending, ".pcap") == 0 || strcasecmp(ending, ".pcapng") == 0 || strcasecmp(ending, ".cap") == 0)
        complain(0, "%s gets lines of hexadecimal: only a name that ends in .pcap makes a capture", path);
}

int trace_open(trace *t, const char *path)
{
    memset(t, 0, sizeof *t);
    if (path == NULL)
        return 0;
    const char *ending = strrchr(path, '.');
    const bool capture = ending != NULL && strcmp(ending, ".pcap") == 0;
    int status = open_file(t, path, capture);
    if (status != 0)
        return status;
    if (capture)
        status = begin_capture(t, path);
    else if (ending != NULL)
        warn_name(path, ending);
    if (status != 0)
        close(t->fd);
    else
        t->kind = capture ? TRACE_CAPTURE : TRACE_TEXT;
    return status;
}

/* ---- Writing --------------------------------------------------------- */

/* A line of capital hexadecimal, as the program frames reads it. */
static void note_text(trace *t, const trace_frame *frame)
{
    static const char digits[] = "0123456789ABCDEF";
    char line[2 * FRAME_MOST + 1];
    size_t length = 0;
    for (size_t i = 0; i < frame->message_length && i < FRAME_MOST; i++) {
        line[length++] = digits[frame->message[i] >> 4];
        line[length++] = digits[frame->message[i] & 0xF];
    }
    line[length++] = '\n';
    append(t, line, length);
}

static void note_capture(trace *t, const trace_frame *frame)
{
    struct {
        record_header header;
        uint8_t bytes[FRAME_MOST];
    } record;
    struct timespec now;
    clock_gettime(CLOCK_REALTIME, &now);
    size_t kept = frame->length < FRAME_MOST ? frame->length : FRAME_MOST;
    record.header = (record_header){.seconds = (uint32_t)now.tv_sec,
        .microseconds = (uint32_t)(now.tv_nsec / 1000),
        .kept = (uint32_t)kept,
        .whole = (uint32_t)frame->whole};
    memcpy(record.bytes, frame->bytes, kept);
    append(t, &record, sizeof record.header + kept);
}

/* A record or a line in one piece: a program that is killed leaves whole ones. After
 * one that could not be written none is, so that a trace has no gap. */
void trace_note(trace *t, const trace_frame *frame)
{
    if (t->error != 0)
        return;
    if (t->kind == TRACE_TEXT)
        note_text(t, frame);
    if (t->kind == TRACE_CAPTURE)
        note_capture(t, frame);
}

/* A capture without a frame is not left behind, if it is new. */
static void remove_empty(const trace *t)
{
    struct stat opened, named;
    if (t->kind != TRACE_CAPTURE || t->made == NULL || t->whole != sizeof BEGINS)
        return;
    if (fstat(t->fd, &opened) == 0 && lstat(t->made, &named) == 0 && opened.st_dev == named.st_dev &&
        opened.st_ino == named.st_ino && opened.st_size == sizeof BEGINS)
        (void)unlink(t->made);
}

void trace_close(trace *t)
{
    remove_empty(t);
    if (t->kind != TRACE_NONE && close(t->fd) != 0 && t->error == 0)
        t->error = errno;
    if (t->kind != TRACE_NONE && t->error != 0)
        complain(STATUS_FILE, "the trace is not complete: %s",
            t->error == EAGAIN ? "what it is written to did not keep up" : strerror(t->error));
    memset(t, 0, sizeof *t);
}
