#define _GNU_SOURCE
#include "lent.h"

#include <signal.h>
#include <stdio.h>
#include <stdlib.h>
#include <string.h>
#include <sys/mman.h>
#include <sys/wait.h>
#include <unistd.h>

enum { RED = 64, RED_BYTE = 0xA5 };

static void need(bool done, const char *what)
{
    if (done)
        return;
    perror(what);
    exit(2);
}

/* The file's pages, between two that may not be touched. */
static uint8_t *between_guards(int file, size_t room, size_t page, int may)
{
    uint8_t *all = mmap(
        NULL, room + 2 * page, PROT_NONE, MAP_PRIVATE | MAP_ANONYMOUS, -1, 0);
    need(all != MAP_FAILED, "mmap");
    void *pages = mmap(all + page, room, may, MAP_SHARED | MAP_FIXED, file, 0);
    need(pages != MAP_FAILED, "mmap");
    return pages;
}

lent lent_make(size_t most)
{
    const size_t page = (size_t)sysconf(_SC_PAGESIZE);
    const size_t room = (most + RED + page - 1) / page * page;
    const int file = memfd_create("lent", 0);
    need(file >= 0 && ftruncate(file, (off_t)room) == 0, "memfd_create");
    lent buffer = {.room = room};
    buffer.pages = between_guards(file, room, page, PROT_READ | PROT_WRITE);
    buffer.view = between_guards(file, room, page, PROT_READ);
    buffer.kept = malloc(room);
    need(buffer.kept != NULL, "malloc");
    close(file);
    return buffer;
}

/* The part with its red zone: from, to. */
static void watched(const lent *buffer, size_t *from, size_t *to)
{
    const size_t end = buffer->at + buffer->length;
    *from = buffer->at > RED ? buffer->at - RED : 0;
    *to = buffer->room - end > RED ? end + RED : buffer->room;
}

void lent_place(
    lent *buffer, enum side side, const uint8_t *bytes, size_t length)
{
    size_t from, to;
    buffer->at = side == BEHIND ? 0 : buffer->room - length;
    buffer->length = length;
    watched(buffer, &from, &to);
    memset(buffer->pages + from, RED_BYTE, buffer->at - from);
    if (length > 0)
        memcpy(buffer->pages + buffer->at, bytes, length);
    memset(buffer->pages + buffer->at + length, RED_BYTE,
        to - buffer->at - length);
    memcpy(buffer->kept + from, buffer->pages + from, to - from);
}

static bool null_this_time(const lent *buffer)
{
    static bool null;
    if (buffer->length > 0)
        return false;
    null = !null;
    return null;
}

uint8_t *lent_bytes(const lent *buffer)
{
    return buffer->pages + buffer->at;
}

uint8_t *lent_out(const lent *buffer)
{
    return null_this_time(buffer) ? NULL : lent_bytes(buffer);
}

const uint8_t *lent_in(const lent *buffer)
{
    return null_this_time(buffer) ? NULL : buffer->view + buffer->at;
}

bool lent_same_from(const lent *buffer, size_t from)
{
    size_t first, to;
    watched(buffer, &first, &to);
    const size_t rest = buffer->at + from;
    const uint8_t *now = buffer->pages, *then = buffer->kept;
    return memcmp(now + first, then + first, buffer->at - first) == 0 &&
           memcmp(now + rest, then + rest, to - rest) == 0;
}

/* ---- The guards themselves. */

static void faulted(int signal)
{
    (void)signal;
    kill(getpid(), SIGKILL);
}

static void touch(volatile uint8_t *byte, bool write)
{
    if (write)
        *byte = 1;
    else
        (void)*byte;
}

/* Whether a child that touches this byte dies of it. */
static bool faults(const uint8_t *byte, bool write)
{
    int status = 0;
    const pid_t child = fork();
    need(child >= 0, "fork");
    if (child == 0) {
        (void)signal(SIGSEGV, faulted);
        touch((uint8_t *)byte, write);
        _exit(0);
    }
    need(waitpid(child, &status, 0) == child, "waitpid");
    return WIFSIGNALED(status) && WTERMSIG(status) == SIGKILL;
}

void lent_prove_guards(void)
{
    static const uint8_t bytes[8];
    lent buffer = lent_make(sizeof bytes);
    bool good = true;
    lent_place(&buffer, BEHIND, bytes, sizeof bytes);
    good = good && faults(lent_bytes(&buffer) - 1, false);
    good = good && faults(lent_in(&buffer) - 1, false);
    good = good && faults(lent_in(&buffer), true);
    good = good && !faults(lent_bytes(&buffer), true);
    lent_place(&buffer, BEFORE, bytes, sizeof bytes);
    good = good && faults(lent_bytes(&buffer) + sizeof bytes, false);
    good = good && faults(lent_in(&buffer) + sizeof bytes, false);
    good = good && !faults(lent_in(&buffer) + sizeof bytes - 1, false);
    lent_bytes(&buffer)[-1] ^= 1;
    good = good && !lent_same_from(&buffer, sizeof bytes);
    need(good, "guards that do not guard");
    free(buffer.kept);
}
