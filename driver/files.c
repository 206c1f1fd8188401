#include "files.h"

#include <errno.h>
#include <fcntl.h>
#include <stdio.h>
#include <stdlib.h>
#include <string.h>
#include <sys/stat.h>
#include <unistd.h>

#include "part.h"
#include "words.h"

static int cannot(const char *path, const char *what)
{
    return complain(STATUS_FILE, "%s cannot be %s: %s", path, what, strerror(errno));
}

/* Reads to the end of the file or of the room, whichever is first. */
static int read_to(FILE *in, const char *path, size_t most, contents *file)
{
    size_t room = 65536;
    for (;;) {
        room = room * 2 < most + 1 ? room * 2 : most + 1;
        uint8_t *grown = realloc(file->bytes, room);
        if (grown == NULL)
            return complain(STATUS_OTHER, "no memory for %s", path);
        file->bytes = grown;
        file->length += fread(file->bytes + file->length, 1, room - file->length, in);
        if (ferror(in))
            return cannot(path, "read");
        if (file->length < room)
            return 0;
        if (file->length > most)
            return complain(STATUS_FILE, "%s has more than %zu bytes", path, most);
    }
}

static int read_all(FILE *in, const char *path, size_t most, contents *file)
{
    int status = read_to(in, path, most, file);
    (void)fclose(in);
    if (status != 0) {
        free(file->bytes);
        *file = (contents){NULL, 0};
    }
    return status;
}

int file_read(const char *path, size_t most, contents *file)
{
    *file = (contents){NULL, 0};
    FILE *in = fopen(path, "rbe");
    return in == NULL ? cannot(path, "read") : read_all(in, path, most, file);
}

/* What else has the name is not opened: a pipe may wait. */
int file_read_regular(const char *path, size_t most, contents *file)
{
    struct stat is;
    *file = (contents){NULL, 0};
    if (stat(path, &is) != 0)
        return cannot(path, "read");
    const char *kind = kind_words(is.st_mode);
    if (kind != NULL)
        return complain(STATUS_FILE, "%s cannot be read: it is %s", path, kind);
    const int fd = open(path, O_RDONLY | O_CLOEXEC | O_NONBLOCK | O_NOCTTY);
    FILE *in = fd < 0 ? NULL : fdopen(fd, "rb");
    return in == NULL ? cannot(path, "read") : read_all(in, path, most, file);
}

static int name_part(aside *a)
{
    size_t size = strlen(a->path) + sizeof ".part";
    a->part = malloc(size);
    if (a->part == NULL)
        return complain(STATUS_OTHER, "no memory");
    snprintf(a->part, size, "%s.part", a->path);
    return 0;
}

int aside_open(aside *a, const char *path, uint64_t length)
{
    *a = (aside){.path = path, .fd = -1};
    int status = name_part(a);
    if (status != 0)
        return status;
    a->fd = open(a->part, O_WRONLY | O_CREAT | O_EXCL | O_CLOEXEC, 0666);
    if (a->fd < 0 && errno == EEXIST)
        status = complain(STATUS_FILE, "%s is there from an earlier run: move it away or remove it", a->part);
    else if (a->fd < 0)
        status = cannot(path, "written");
    if (status != 0) {
        free(a->part);
        a->part = NULL;
        return status;
    }
    errno = length == 0 ? 0 : posix_fallocate(a->fd, 0, (off_t)length);
    if (errno == 0 || errno == EOPNOTSUPP || errno == EINVAL)
        return 0;
    status = cannot(path, "written");
    aside_remove(a);
    return status;
}

int aside_write(aside *a, const uint8_t *bytes, uint64_t length)
{
    if (ftruncate(a->fd, (off_t)length) != 0)
        return cannot(a->part, "written");
    for (uint64_t done = 0; done < length;) {
        ssize_t n = write(a->fd, bytes + done, length - done);
        if (n < 0 && errno == EINTR)
            continue;
        if (n <= 0)
            return cannot(a->part, "written");
        done += (uint64_t)n;
    }
    return 0;
}

static int sync_and_close(aside *a)
{
    int failed = fsync(a->fd);
    failed |= close(a->fd);
    a->fd = -1;
    return failed == 0 ? 0 : cannot(a->part, "written");
}

int aside_finish(aside *a, bool replace)
{
    int status = sync_and_close(a);
    if (status == 0 && (replace ? rename(a->part, a->path) : rename_free(a->part, a->path)) != 0) {
        status = complain(
            STATUS_FILE, "%s cannot be named %s: %s; it is whole and stays", a->part, a->path, strerror(errno));
    } else if (status == 0) {
        directory_sync(a->path);
    }
    free(a->part);
    a->part = NULL;
    return status;
}

void aside_remove(aside *a)
{
    if (a->fd >= 0)
        close(a->fd);
    if (a->part != NULL)
        unlink(a->part);
    free(a->part);
    *a = (aside){.path = a->path, .fd = -1};
}

/* ---- A file that replaces nothing unasked ---------------------------- */

const char *kind_words(mode_t mode)
{
    switch (mode & S_IFMT) {
    case S_IFREG:
        return NULL;
    case S_IFDIR:
        return "a directory";
    case S_IFLNK:
        return "a symbolic link";
    case S_IFIFO:
        return "a pipe";
    case S_IFSOCK:
        return "a socket";
    default:
        return "a device";
    }
}

static bool is_input(const output *o, const struct stat *there)
{
    struct stat input;
    for (size_t i = 0; i < o->inputs_count; i++)
        if (o->inputs[i] != NULL && stat(o->inputs[i], &input) == 0 && input.st_dev == there->st_dev &&
            input.st_ino == there->st_ino)
            return true;
    return false;
}

int output_check(const output *o)
{
    struct stat there;
    if (o->path[0] == '\0')
        return complain(STATUS_FILE, "the name of the file to write is empty");
    if (lstat(o->path, &there) != 0)
        return errno == ENOENT ? 0 : cannot(o->path, "written");
    const char *kind = kind_words(there.st_mode);
    if (kind != NULL)
        return complain(STATUS_FILE, "%s is %s, which is never replaced", o->path, kind);
    if (is_input(o, &there))
        return complain(STATUS_FILE, "%s is one of the inputs, which are never replaced", o->path);
    if (!o->force)
        return complain(STATUS_FILE, "%s exists: give another name, or --force to replace it", o->path);
    return 0;
}

int output_write(const output *o, const uint8_t *bytes, size_t length)
{
    aside a;
    int status = output_check(o);
    if (status == 0)
        status = aside_open(&a, o->path, length);
    if (status != 0)
        return status;
    status = aside_write(&a, bytes, length);
    if (status == 0)
        return aside_finish(&a, o->force);
    aside_remove(&a);
    return status;
}
