#include "part.h"

#include <errno.h>
#include <fcntl.h>
#include <inttypes.h>
#include <libgen.h>
#include <stdio.h>
#include <stdlib.h>
#include <string.h>
#include <sys/file.h>
#include <sys/resource.h>
#include <sys/stat.h>
#include <sys/statvfs.h>
#include <unistd.h>

#include "words.h"

char *name_with(const char *path, const char *ending)
{
    size_t size = strlen(path) + strlen(ending) + 1;
    char *name = malloc(size);
    if (name != NULL)
        snprintf(name, size, "%s%s", path, ending);
    else
        complain(STATUS_OTHER, "no memory");
    return name;
}

int name_is_free(const char *path, const char *advice)
{
    struct stat there;
    if (lstat(path, &there) == 0)
        return complain(STATUS_FILE, "%s is there already, and a dump replaces no file%s", path, advice);
    return errno == ENOENT ? 0 : complain(STATUS_FILE, "%s cannot be written: %s", path, strerror(errno));
}

/* ---- Opening --------------------------------------------------------- */

/* Room on the disk that nobody else can take, beyond the end of the file. Where
 * the file system has no such thing, that there is as much at present. */
static int reserve(const part *p, uint64_t length)
{
    struct rlimit limit;
    struct statvfs disk;
    if (getrlimit(RLIMIT_FSIZE, &limit) == 0 && limit.rlim_cur < length)
        return EFBIG;
    if (fallocate(p->fd, FALLOC_FL_KEEP_SIZE, 0, (off_t)length) == 0)
        return 0;
    if (errno != EOPNOTSUPP && errno != ENOSYS)
        return errno;
    bool short_of = fstatvfs(p->fd, &disk) == 0 && (uint64_t)disk.f_bavail * disk.f_frsize < length - p->written;
    return short_of ? ENOSPC : 0;
}

/* Opens it for this program alone, and reserves the room. */
static int open_with(part *p, uint64_t length, int how, mode_t mode)
{
    p->fd = open(p->name, O_WRONLY | O_CLOEXEC | O_NOFOLLOW | how, mode);
    if (p->fd < 0 && errno == EEXIST)
        return complain(STATUS_FILE,
            "%s is there from an earlier run: go on from it with --resume, or move it and its record away", p->name);
    if (p->fd < 0)
        return complain(STATUS_FILE, "%s cannot be written: %s", p->path, strerror(errno));
    if (flock(p->fd, LOCK_EX | LOCK_NB) != 0 && errno == EWOULDBLOCK)
        return complain(STATUS_FILE, "%s is being written by another program", p->name);
    int reason = reserve(p, length);
    if (reason == 0)
        return 0;
    return complain(
        STATUS_FILE, "%s cannot be written: no room for %" PRIu64 " bytes (%s)", p->path, length, strerror(reason));
}

static int names(part *p, const char *path)
{
    *p = (part){.fd = -1};
    p->path = name_with(path, "");
    p->name = name_with(path, ".part");
    return p->path != NULL && p->name != NULL ? 0 : STATUS_OTHER;
}

int part_open(part *p, const char *path, uint64_t length, mode_t mode)
{
    int status = names(p, path);
    if (status == 0)
        status = open_with(p, length, O_CREAT | O_EXCL, mode);
    if (status == 0 && fchmod(p->fd, mode) != 0)
        status = complain(STATUS_FILE, "%s cannot be written: %s", p->path, strerror(errno));
    if (status == 0)
        return 0;
    if (p->fd >= 0)
        part_remove(p);
    part_close(p);
    return status;
}

int part_again(part *p, const char *path, uint64_t length, uint64_t written, mode_t *mode)
{
    struct stat there;
    int status = names(p, path);
    p->written = written;
    if (status == 0)
        status = open_with(p, length, 0, 0);
    if (status == 0 && fstat(p->fd, &there) == 0)
        *mode = there.st_mode & 0777;
    if (status != 0)
        part_close(p);
    return status;
}

/* Cutting also gives up the room behind the end. */
int part_cut(part *p, uint64_t length, uint64_t written)
{
    p->written = written;
    int reason = ftruncate(p->fd, (off_t)written) == 0 ? reserve(p, length) : errno;
    return reason == 0 ? 0 : complain(STATUS_FILE, "%s cannot be written: %s", p->name, strerror(reason));
}

/* ---- Growing --------------------------------------------------------- */

void part_grow(part *p, const uint8_t *bytes, uint64_t length)
{
    while (p->written < length) {
        ssize_t n = pwrite(p->fd, bytes + p->written, length - p->written, (off_t)p->written);
        if (n < 0 && errno == EINTR)
            continue;
        if (n > 0) {
            p->written += (uint64_t)n;
            continue;
        }
        if (p->failed == 0)
            complain(STATUS_FILE, "%s cannot be written: %s; what comes stays in memory and is tried again", p->name,
                strerror(errno));
        p->failed = errno;
        return;
    }
    p->failed = 0;
}

void part_sync(part *p)
{
    if (p->safe < p->written && fdatasync(p->fd) == 0)
        p->safe = p->written;
}

/* ---- Ending ---------------------------------------------------------- */

int part_keep(part *p)
{
    /* What was reserved behind the end is given back. */
    if (ftruncate(p->fd, (off_t)p->written) == 0 && fsync(p->fd) == 0)
        return 0;
    p->failed = errno;
    return complain(STATUS_FILE, "%s is not safely on the disk: %s", p->name, strerror(errno));
}

void directory_sync(const char *path)
{
    char *copy = strdup(path);
    if (copy == NULL)
        return;
    int fd = open(dirname(copy), O_RDONLY | O_DIRECTORY | O_CLOEXEC);
    if (fd >= 0) {
        fsync(fd);
        close(fd);
    }
    free(copy);
}

int rename_free(const char *from, const char *to)
{
    struct stat there;
    int failed = renameat2(AT_FDCWD, from, AT_FDCWD, to, RENAME_NOREPLACE);
    if (failed == 0 || (errno != EINVAL && errno != ENOSYS))
        return failed;
    if (lstat(to, &there) == 0) { /* a file system without that call */
        errno = EEXIST;
        return -1;
    }
    return rename(from, to);
}

int part_name(part *p)
{
    if (rename_free(p->name, p->path) == 0) {
        directory_sync(p->path);
        return 0;
    }
    p->failed = errno;
    return complain(STATUS_FILE, "%s cannot be named %s: %s; it is whole and stays", p->name, p->path, strerror(errno));
}

void part_remove(part *p)
{
    unlink(p->name);
}

void part_close(part *p)
{
    if (p->fd >= 0)
        close(p->fd);
    free(p->name);
    free(p->path);
    *p = (part){.fd = -1};
}
