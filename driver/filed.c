#include "filed.h"

#include <errno.h>
#include <fcntl.h>
#include <inttypes.h>
#include <stdlib.h>
#include <string.h>
#include <sys/stat.h>
#include <unistd.h>

#include "files.h"
#include "part.h"
#include "record.h"
#include "words.h"

#define PIECE 65536

/* ---- A file ---------------------------------------------------------- */

/* What else has the name is not opened: opening a device may move it, and a pipe may wait. */
int filed_open(int directory, const char *name, bool follow, const char **kind)
{
    struct stat is;
    *kind = NULL;
    if (fstatat(directory, name, &is, follow ? 0 : AT_SYMLINK_NOFOLLOW) != 0)
        return -1;
    errno = EINVAL;
    *kind = kind_words(is.st_mode);
    if (*kind != NULL)
        return -1;
    return openat(directory, name, O_RDONLY | O_CLOEXEC | O_NONBLOCK | O_NOCTTY | (follow ? 0 : O_NOFOLLOW));
}

/* The sum of a file's bytes, of at most as many as there should be and one more. */
static bool read_sum(int fd, uint64_t most, filed *f)
{
    static uint8_t piece[PIECE];
    sha256 sum = sha256_start();
    while (sum.length <= most) {
        ssize_t n = read(fd, piece, sizeof piece);
        if (n < 0 && errno == EINTR)
            continue;
        if (n < 0)
            return false;
        if (n == 0)
            break;
        sha256_add(&sum, piece, (size_t)n);
    }
    f->length = sum.length;
    sha256_end(&sum, f->sum);
    return true;
}

/* A file of another length is not read. */
static void compare(int fd, const recorded_file *told, filed *f)
{
    struct stat is = {.st_size = 0};
    const bool known = fstat(fd, &is) == 0;
    f->length = (uint64_t)is.st_size;
    if (known && told->more) {
        f->result = f->length >= told->length && f->length <= told->most ? FILED_OPEN : FILED_OTHER;
    } else if (known && f->length != told->length) {
        f->result = FILED_OTHER;
    } else if (known && read_sum(fd, told->length, f)) {
        f->result = f->length == told->length && strcmp(f->sum, told->sum) == 0 ? FILED_SAME : FILED_OTHER;
    } else {
        f->result = FILED_UNREADABLE;
        f->reason = strerror(errno);
    }
}

filed filed_check(int directory, const char *name, bool follow, const recorded_file *told)
{
    filed f = {.result = FILED_UNREADABLE};
    snprintf(f.name, sizeof f.name, "%s", name);
    const int fd = filed_open(directory, name, follow, &f.kind);
    if (fd < 0) {
        f.reason = strerror(errno);
        f.result = errno == ENOENT || errno == ENOTDIR ? FILED_ABSENT : FILED_UNREADABLE;
        return f;
    }
    compare(fd, told, &f);
    close(fd);
    return f;
}

filed filed_check_open(int directory, const char *name, const recorded_file *told)
{
    static const char ending[] = ".part";
    char other[RECORDED_NAME];
    const size_t length = strlen(name), size = sizeof ending - 1;
    const bool ends = length > size && strcmp(name + length - size, ending) == 0;
    filed f = filed_check(directory, name, false, told);
    if (f.result != FILED_ABSENT || (!ends && length + size >= sizeof other))
        return f;
    snprintf(other, sizeof other, "%.*s%s", (int)(ends ? length - size : length), name, ends ? "" : ending);
    const filed second = filed_check(directory, other, false, told);
    return second.result == FILED_ABSENT ? f : second;
}

/* Of a record without a sum. */
static void open_words(FILE *out, const filed *f, const recorded_file *told)
{
    fprintf(out,
        " %s the file that the record tells of: it has %" PRIu64 " bytes, and the record says %" PRIu64 " or more",
        f->result == FILED_OPEN ? "may be" : "is NOT", f->length, told->length);
    if (told->most != UINT64_MAX)
        fprintf(out, " of %" PRIu64, told->most);
    fputs(f->result == FILED_OPEN ? "; it has no SHA-256 yet, and nothing was compared" : "", out);
}

void filed_words(FILE *out, const filed *f, const recorded_file *told)
{
    record_name(out, f->name);
    if (f->result == FILED_ABSENT)
        fputs(" is not there", out);
    else if (f->kind != NULL)
        fprintf(out, " is %s, which is not read", f->kind);
    else if (f->result == FILED_UNREADABLE)
        fprintf(out, " cannot be read: %s", f->reason);
    else if (told->more)
        open_words(out, f, told);
    else if (f->result == FILED_SAME)
        fprintf(out, " is the file that the record tells of: %" PRIu64 " bytes, SHA-256 %s", f->length, f->sum);
    else if (f->length != told->length)
        fprintf(out,
            " is NOT the file that the record tells of: it has %" PRIu64 " bytes, and the record says %" PRIu64,
            f->length, told->length);
    else
        fprintf(out, " is NOT the file that the record tells of: its SHA-256 is %s, and the record says %s", f->sum,
            told->sum);
}

/* ---- mopdump --verify ------------------------------------------------ */

/* The record of a file: of its own name, or of the name that it was to get. NULL if there is none, and that is said. */
static char *find_record(const char *path)
{
    static const char *const endings[] = {"", ".part", ".second.part"};
    struct stat is;
    for (size_t i = 0; i < sizeof endings / sizeof endings[0]; i++) {
        const size_t length = strlen(path), size = strlen(endings[i]);
        if (length < size || strcmp(path + length - size, endings[i]) != 0)
            continue;
        char *stem = strndup(path, length - size), *record = stem == NULL ? NULL : name_with(stem, ".record");
        free(stem);
        if (record != NULL && stat(record, &is) == 0)
            return record;
        free(record);
    }
    complain(STATUS_FILE, "there is no record of %s: %s.record cannot be read: %s", path, path, strerror(errno));
    return NULL;
}

/* The one of the record's files that has this name, or else the first; of that one the record's name is said. */
static const recorded_file *find_file(const recorded *r, const char *record, const char *path)
{
    char name[RECORDED_NAME];
    for (size_t i = 0; i < r->count; i++)
        if (recorded_name(r, i, record_base(record), name) && strcmp(record_base(name), record_base(path)) == 0)
            return &r->files[i];
    if (r->count > 0 && recorded_name(r, 0, record_base(record), name)) {
        fputs("The record calls the file ", stdout);
        record_name(stdout, name);
        puts(".");
    }
    return &r->files[0];
}

static int verify(const char *path, const char *record, const recorded *r)
{
    const recorded_file *told = find_file(r, record, path);
    const filed f = filed_check(AT_FDCWD, path, true, told);
    if (f.result == FILED_ABSENT || f.result == FILED_UNREADABLE)
        return complain(STATUS_FILE, "%s cannot be read: %s%s", path, f.kind == NULL ? "" : "it is ",
            f.kind == NULL ? f.reason : f.kind);
    record_name(stdout, record);
    printf(" is of a %s, %s: ", r->load ? "load" : "dump", r->date);
    recorded_words(stdout, r->what);
    puts(".");
    recorded_known(stdout, r, "");
    recorded_value(stdout, "Resumed: ", r->resumed);
    recorded_value(stdout, "Twice: ", r->twice);
    filed_words(stdout, &f, told);
    puts(".");
    if (words_written() != 0)
        return STATUS_FILE;
    return f.result == FILED_SAME ? 0 : STATUS_MISMATCH;
}

int filed_verify(const char *path)
{
    static recorded r;
    contents text = {NULL, 0};
    char *record = find_record(path);
    int status = record == NULL ? STATUS_FILE : file_read_regular(record, RECORDED_MOST, &text);
    if (status == 0 && !recorded_read(text.bytes, text.length, &r))
        status = complain(STATUS_MISMATCH, "%s is damaged: %s", record, r.damage);
    if (status == 0)
        status = verify(path, record, &r);
    free(text.bytes);
    free(record);
    return status;
}
