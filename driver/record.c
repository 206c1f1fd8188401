#include "record.h"

#include <errno.h>
#include <fcntl.h>
#include <inttypes.h>
#include <libgen.h>
#include <stdlib.h>
#include <string.h>
#include <sys/stat.h>
#include <unistd.h>

#include "identity.h"
#include "manual.h"
#include "options.h"
#include "part.h"
#include "recorded.h"
#include "words.h"

/* ---- The file -------------------------------------------------------- */

static bool write_all(int fd, const char *text, size_t length)
{
    while (length > 0) {
        const ssize_t n = write(fd, text, length);
        if (n < 0 && errno == EINTR)
            continue;
        if (n == 0)
            errno = ENOSPC;
        if (n <= 0)
            return false;
        text += n;
        length -= (size_t)n;
    }
    return true;
}

/* The whole text into a file, on the disk; which file that is. */
static bool write_text(const char *name, const char *text, mode_t mode, struct stat *is)
{
    int fd = open(name, O_WRONLY | O_CREAT | O_CLOEXEC | O_NOFOLLOW | O_EXCL, mode);
    if (fd < 0)
        return false;
    bool good = fchmod(fd, mode) == 0 && write_all(fd, text, strlen(text)) && fsync(fd) == 0 && fstat(fd, is) == 0;
    int reason = errno;
    close(fd);
    if (!good)
        unlink(name);
    errno = reason;
    return good;
}

/* Whether another file than the one that was put last has the record's name. */
static bool is_taken(const record *r)
{
    struct stat there;
    const int reason = errno;
    const bool stands = r->placed && lstat(r->name, &there) == 0;
    errno = reason;
    return stands && (there.st_dev != r->device || there.st_ino != r->inode);
}

static int cannot(record *r, const char *name)
{
    const bool said = r->failed;
    r->failed = true;
    if (said)
        return STATUS_FILE;
    if (errno == EEXIST)
        return complain(STATUS_FILE, "%s is there already, and a record replaces no file: move it away", name);
    return complain(STATUS_FILE, "%s cannot be written: %s", name, strerror(errno));
}

/* Whether a file is a draft that a killed program may have left over: a record's beginning, or empty. */
static bool is_draft(const char *name)
{
    uint8_t first[sizeof "dump: "];
    struct stat there;
    int fd = open(name, O_RDONLY | O_CLOEXEC | O_NOFOLLOW | O_NONBLOCK);
    if (fd < 0)
        return false;
    ssize_t length = fstat(fd, &there) == 0 && S_ISREG(there.st_mode) ? read(fd, first, sizeof first) : -1;
    close(fd);
    return length == 0 || (length > 0 && recorded_begins(first, (size_t)length));
}

static bool name_draft(const record *r, const char *draft, int (*name_it)(const char *, const char *))
{
    errno = EEXIST;
    return !is_taken(r) && name_it(draft, r->name) == 0;
}

/* The draft is whole before it becomes the record. */
static int put(record *r, const char *text, int (*name_it)(const char *, const char *))
{
    struct stat is = {.st_ino = 0};
    if (text == NULL)
        return complain(STATUS_OTHER, "no memory");
    char *draft = name_with(r->name, ".part");
    if (draft == NULL)
        return STATUS_OTHER;
    int status = 0;
    if (!write_text(draft, text, r->mode, &is)) {
        status = cannot(r, draft);
    } else if (!name_draft(r, draft, name_it)) {
        status = cannot(r, r->name);
        unlink(draft);
    } else {
        *r = (record){r->name, r->mode, false, true, is.st_dev, is.st_ino};
        directory_sync(r->name);
    }
    free(draft);
    return status;
}

int record_first(record *r, const char *text)
{
    return put(r, text, rename_free);
}

int record_again(record *r, const char *text)
{
    char *draft = name_with(r->name, ".part");
    if (draft == NULL)
        return STATUS_OTHER;
    if (is_draft(draft))
        unlink(draft);
    free(draft);
    return put(r, text, rename);
}

int record_put(record *r, const char *text)
{
    return put(r, text, rename);
}

void record_remove(const record *r)
{
    if (!is_taken(r))
        unlink(r->name);
}

/* ---- Its text -------------------------------------------------------- */

char *record_text(record_writer write, const void *what)
{
    char *text = NULL;
    size_t size = 0;
    FILE *out = open_memstream(&text, &size);
    if (out == NULL)
        return NULL;
    write(what, out);
    if (fclose(out) == 0)
        return text;
    free(text);
    return NULL;
}

void record_lines(FILE *out, const char *heading, const char *text)
{
    for (const char *line = text; *line != '\0';) {
        size_t length = strcspn(line, "\n");
        fprintf(out, "%s%.*s\n", heading, (int)length, line);
        line += length + (line[length] == '\n');
    }
}

void record_known(FILE *out, record_writer write, const void *what)
{
    char *text = record_text(write, what);
    if (text != NULL)
        record_lines(out, "known: ", text);
    free(text);
}

void record_date(FILE *out, const char *heading, time_t when)
{
    char date[32];
    struct tm utc;
    if (gmtime_r(&when, &utc) == NULL || strftime(date, sizeof date, "%Y-%m-%dT%H:%M:%SZ", &utc) == 0)
        date[0] = '\0';
    fprintf(out, "%s%s", heading, date);
}

void record_head(FILE *out, time_t begun, const line *l)
{
    char own[ADDRESS_TEXT];
    record_date(out, "written: ", time(NULL));
    if (begun != 0)
        record_date(out, "\nbegun: ", begun);
    fprintf(out, "\nversion: %s of Kochipurn, commit %s\n", words_name(), program_version);
    fprintf(out, "host: %s, interface %s\n", address_text(l->address, own), l->name);
}

void record_rehearsed(FILE *out, const line_settings *settings)
{
    if (settings->drop != 0)
        fprintf(out, ", 1 frame of %" PRIu32 " lost on purpose", settings->drop);
    if (settings->twice != 0)
        fprintf(out, ", 1 frame of %" PRIu32 " doubled on purpose", settings->twice);
}

/* ---- Names ----------------------------------------------------------- */

const char *record_base(const char *path)
{
    const char *last = strrchr(path, '/');
    return last == NULL ? path : last + 1;
}

char *record_seen(const char *record, const char *path)
{
    char *copy = strdup(record), *directory = copy == NULL ? NULL : realpath(dirname(copy), NULL);
    char *real = realpath(path, NULL), *name = NULL;
    if (real == NULL) {
        name = strdup(path);
    } else {
        const size_t size = real == record_base(real) - 1 ? 1 : (size_t)(record_base(real) - 1 - real);
        const bool beside = directory != NULL && strlen(directory) == size && memcmp(directory, real, size) == 0;
        name = strdup(beside ? record_base(real) : real);
    }
    free(copy);
    free(directory);
    free(real);
    return name;
}

void record_name(FILE *out, const char *name)
{
    quoted_words(out, (const uint8_t *)name, strlen(name));
}

/* As sha256sum writes it: behind a backslash where the name has one, or what ends a line. To it - alone is no file. */
void record_sum(FILE *out, const char *sum, const char *name)
{
    fprintf(out, "%s%s  %s", strpbrk(name, "\\\n\r") == NULL ? "" : "\\", sum, strcmp(name, "-") == 0 ? "./" : "");
    for (; *name != '\0'; name++) {
        if (strchr("\\\n\r", *name) != NULL)
            fputc('\\', out);
        fputc(*name == '\n' ? 'n' : *name == '\r' ? 'r' : *name, out);
    }
    fputc('\n', out);
}

const char *record_find(const char *text, const char *heading, size_t *length)
{
    size_t size = strlen(heading);
    for (const char *line = text; *line != '\0'; line += strcspn(line, "\n"), line += *line == '\n')
        if (strncmp(line, heading, size) == 0) {
            *length = strcspn(line + size, "\n");
            return line + size;
        }
    return NULL;
}
