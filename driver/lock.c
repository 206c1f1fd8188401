#include "lock.h"

#include <errno.h>
#include <stdbool.h>
#include <stddef.h>
#include <stdio.h>
#include <string.h>
#include <sys/socket.h>
#include <sys/un.h>
#include <unistd.h>

#include "words.h"

#define NAME_MOST 32 /* the kernel's names of programs have at most 15 bytes */

/* The lock is a socket's name that begins with a zero byte: it is in no
 * directory, each network namespace has its own, and it ends with the process. */
static socklen_t name_of(int index, struct sockaddr_un *at)
{
    memset(at, 0, sizeof *at);
    at->sun_family = AF_UNIX;
    int length = snprintf(at->sun_path + 1, sizeof at->sun_path - 1, "kochipurn/%d", index);
    return (socklen_t)(offsetof(struct sockaddr_un, sun_path) + 1 + (size_t)length);
}

/* The process that listens there; 0 if it cannot be told. */
static pid_t holder(int index)
{
    struct sockaddr_un at;
    struct ucred peer = {0};
    socklen_t size = sizeof peer, length = name_of(index, &at);
    int fd = socket(AF_UNIX, SOCK_STREAM | SOCK_CLOEXEC | SOCK_NONBLOCK, 0);
    if (fd < 0)
        return 0;
    bool told = connect(fd, (const struct sockaddr *)&at, length) == 0 &&
                getsockopt(fd, SOL_SOCKET, SO_PEERCRED, &peer, &size) == 0;
    close(fd);
    return told ? peer.pid : 0;
}

static void program_of(pid_t process, char name[NAME_MOST])
{
    char path[64];
    snprintf(path, sizeof path, "/proc/%d/comm", (int)process);
    FILE *in = fopen(path, "re");
    if (in == NULL || fgets(name, NAME_MOST, in) == NULL)
        snprintf(name, NAME_MOST, "another program");
    name[strcspn(name, "\n")] = '\0';
    if (in != NULL)
        (void)fclose(in);
}

static int taken(int index, const char *interface)
{
    char name[NAME_MOST];
    pid_t process = holder(index);
    if (process == 0)
        return complain(STATUS_IN_USE,
            "%s is in use by another mopload, mopdump or moploop: one host program at a time", interface);
    program_of(process, name);
    return complain(STATUS_IN_USE,
        "%s is in use by %s, process %d: one host program at a time; wait for its end, or end it (kill %d)", interface,
        name, (int)process, (int)process);
}

int lock_take(int index, const char *interface)
{
    struct sockaddr_un at;
    socklen_t length = name_of(index, &at);
    int fd = socket(AF_UNIX, SOCK_STREAM | SOCK_CLOEXEC, 0); /* open until the process ends */
    if (fd >= 0 && bind(fd, (const struct sockaddr *)&at, length) == 0 && listen(fd, SOMAXCONN) == 0)
        return 0;
    int reason = errno;
    if (fd >= 0)
        close(fd);
    if (reason == EADDRINUSE)
        return taken(index, interface);
    return complain(STATUS_INTERFACE, "%s cannot be locked: %s", interface, strerror(reason));
}
