/* mopreport: the records of a directory in words, and the files that they tell of
 * read again. It changes nothing. */
#include <dirent.h>
#include <errno.h>
#include <fcntl.h>
#include <inttypes.h>
#include <stdlib.h>
#include <string.h>
#include <sys/stat.h>
#include <unistd.h>

#include "filed.h"
#include "files.h"
#include "manual.h"
#include "record.h"
#include "recorded.h"
#include "words.h"

/* A name in the directory: its record's date, where it is a record; whether one tells of it. */
typedef struct entry {
    char *name;
    bool record;
    bool dump; /* a whole record, and of a dump */
    bool told;
    int reason;               /* why it cannot be read, or 0 */
    char date[RECORDED_DATE]; /* empty for a damaged one */
} entry;

typedef struct listing {
    const char *path;
    int directory;
    entry *entries;
    size_t count;
    uint64_t loads, dumps, damaged;
    uint64_t found[FILED_UNREADABLE + 1]; /* the files that records tell of, by what they are */
    uint64_t unreadable;                  /* what may be a record, and cannot be read */
} listing;

/* ---- A record -------------------------------------------------------- */

/* Up to so many bytes, as many as there are: 0, or why they cannot be read. */
static int read_up_to(int fd, uint8_t *bytes, size_t most, size_t *length)
{
    while (*length < most) {
        const ssize_t n = read(fd, bytes + *length, most - *length);
        if (n < 0 && errno == EINTR)
            continue;
        if (n < 0)
            return errno;
        if (n == 0)
            break;
        *length += (size_t)n;
    }
    return 0;
}

/* The text of a record, for the time until the next is read; nothing for any other file. 0, or why it cannot be read. */
static int record_of(const listing *l, const char *name, span *record)
{
    static uint8_t text[RECORDED_MOST + 1];
    const char *kind = NULL;
    size_t length = 0;
    const int fd = filed_open(l->directory, name, false, &kind);
    *record = (span){NULL, 0};
    if (fd < 0)
        return kind == NULL ? errno : 0;
    int reason = read_up_to(fd, text, RECORDED_FIRST, &length);
    const bool begins = reason == 0 && recorded_begins(text, length);
    if (begins)
        reason = read_up_to(fd, text, sizeof text, &length);
    if (begins && reason == 0)
        *record = (span){text, length};
    close(fd);
    return reason;
}

/* ---- The directory --------------------------------------------------- */

static int add(listing *l, const char *name)
{
    static recorded r;
    entry *grown = realloc(l->entries, (l->count + 1) * sizeof *grown);
    char *copy = strdup(name);
    if (grown != NULL)
        l->entries = grown;
    if (grown == NULL || copy == NULL) {
        free(copy);
        return complain(STATUS_OTHER, "no memory");
    }
    span text;
    const int reason = record_of(l, name, &text);
    entry *e = &l->entries[l->count++];
    *e = (entry){.name = copy, .record = text.length > 0, .reason = reason};
    if (e->record && recorded_read(text.at, text.length, &r)) {
        memcpy(e->date, r.date, sizeof e->date);
        e->dump = !r.load;
    }
    return 0;
}

static int read_directory(listing *l)
{
    DIR *directory = opendir(l->path);
    int status = 0;
    if (directory == NULL)
        return complain(STATUS_FILE, "%s cannot be read: %s", l->path, strerror(errno));
    l->directory = dirfd(directory);
    errno = 0;
    for (const struct dirent *d = NULL; status == 0 && (d = readdir(directory)) != NULL; errno = 0)
        if (strcmp(d->d_name, ".") != 0 && strcmp(d->d_name, "..") != 0)
            status = add(l, d->d_name);
    if (status == 0 && errno != 0)
        status = complain(STATUS_FILE, "%s cannot be read: %s", l->path, strerror(errno));
    l->directory = dup(l->directory); /* it stays open */
    if (status == 0 && l->directory < 0)
        status = complain(STATUS_OTHER, "%s cannot be read: %s", l->path, strerror(errno));
    closedir(directory);
    return status;
}

static int by_name(const void *one, const void *other)
{
    return strcmp(((const entry *)one)->name, ((const entry *)other)->name);
}

static int by_date(const void *one, const void *other)
{
    const int dates = strcmp(((const entry *)one)->date, ((const entry *)other)->date);
    return dates != 0 ? dates : by_name(one, other);
}

static entry *find(const listing *l, char *name)
{
    return bsearch(&(entry){.name = name}, l->entries, l->count, sizeof *l->entries, by_name);
}

/* A dump's bytes are the machine's, and may begin as a record does: the files of NAME.record are none. */
static void pass_over_dumps(const listing *l)
{
    static const char *const endings[] = {"", ".part", ".second.part"};
    static const char ending[] = ".record";
    char name[RECORDED_NAME];
    for (size_t i = 0; i < l->count; i++) {
        const size_t length = strlen(l->entries[i].name), size = sizeof ending - 1;
        if (!l->entries[i].dump || length <= size || strcmp(l->entries[i].name + length - size, ending) != 0)
            continue;
        for (size_t j = 0; j < sizeof endings / sizeof endings[0]; j++) {
            snprintf(name, sizeof name, "%.*s%s", (int)(length - size), l->entries[i].name, endings[j]);
            entry *e = find(l, name);
            if (e != NULL)
                e->record = false;
        }
    }
}

/* The records in the order of their dates; the caller frees it. */
static entry *records_of(const listing *l, size_t *count)
{
    entry *records = malloc((l->count + 1) * sizeof(entry));
    *count = 0;
    for (size_t i = 0; records != NULL && i < l->count; i++)
        if (l->entries[i].record)
            records[(*count)++] = l->entries[i];
    if (records != NULL)
        qsort(records, *count, sizeof(entry), by_date);
    return records;
}

/* ---- What is told ---------------------------------------------------- */

/* A file that the record tells of, read again. */
static void tell_file(listing *l, const recorded *r, size_t i, const char *record)
{
    char name[RECORDED_NAME];
    filed f = {.result = FILED_ABSENT};
    const recorded_file *told = &r->files[i];
    if (recorded_name(r, i, record, name))
        f = r->open && !r->load ? filed_check_open(l->directory, name, told)
                                : filed_check(l->directory, name, false, told);
    entry *e = find(l, strncmp(f.name, "./", 2) == 0 ? f.name + 2 : f.name);
    if (e != NULL)
        e->told = true;
    l->found[f.result] += 1;
    fputs("  ", stdout);
    filed_words(stdout, &f, told);
    puts(".");
}

static void tell_unreadable(listing *l, int reason)
{
    printf(" cannot be read: %s\n", strerror(reason));
    l->unreadable += 1;
}

static void tell_record(listing *l, const entry *e)
{
    static recorded r;
    span text;
    const int reason = record_of(l, e->name, &text);
    record_name(stdout, e->name);
    if (reason != 0) { /* since it was read the first time */
        tell_unreadable(l, reason);
        putchar('\n');
        return;
    }
    if (!recorded_read(text.at, text.length, &r)) {
        printf(" is a damaged record: %s.\n\n", r.damage);
        l->damaged += 1;
        return;
    }
    printf(", %s, %s: ", r.load ? "load" : "dump", r.date);
    *(r.load ? &l->loads : &l->dumps) += 1;
    recorded_words(stdout, r.what);
    puts(".");
    recorded_known(stdout, &r, "  ");
    recorded_value(stdout, "  resumed: ", r.resumed);
    recorded_value(stdout, "  twice: ", r.twice);
    recorded_value(stdout, "  written: ", r.written);
    recorded_value(stdout, "  machine: ", r.machine);
    recorded_value(stdout, "  settings: ", r.settings);
    recorded_value(stdout, "  version: ", r.version);
    for (size_t i = 0; i < r.count; i++)
        tell_file(l, &r, i, e->name);
    putchar('\n');
}

/* A file that is no record, or cannot be read. */
static void tell_other(listing *l, const entry *e)
{
    struct stat is;
    const char *kind = NULL;
    const int fd = filed_open(l->directory, e->name, false, &kind);
    const bool regular = fd >= 0 && fstat(fd, &is) == 0;
    fputs("  ", stdout);
    record_name(stdout, e->name);
    if (kind != NULL)
        printf(" is %s\n", kind);
    else if (!regular || e->reason != 0)
        tell_unreadable(l, regular ? e->reason : errno);
    else
        printf(", %" PRIu64 " bytes\n", (uint64_t)is.st_size);
    if (fd >= 0)
        close(fd);
}

/* What is no record and no record tells of; or, of these, what cannot be read and so may be one. */
static uint64_t tell_others(listing *l, bool readable, const char *heading)
{
    uint64_t others = 0;
    for (size_t i = 0; i < l->count; i++) {
        const entry *e = &l->entries[i];
        if (e->record || e->told || (e->reason == 0) != readable)
            continue;
        if (others++ == 0)
            puts(heading);
        tell_other(l, e);
    }
    if (others > 0)
        putchar('\n');
    return others;
}

static void tell_rest(listing *l)
{
    const uint64_t unread = tell_others(l, false, "Cannot be read, and may be records:");
    const char *heading = unread > 0 ? "No record that could be read tells of:" : "No record tells of:";
    if (tell_others(l, true, heading) == 0 && unread == 0)
        puts("There is no file that no record tells of.\n");
}

static void tell_totals(const listing *l)
{
    printf("In all: loads %" PRIu64 ", dumps %" PRIu64 ", damaged records %" PRIu64 ". Of the files that they tell of: "
           "%" PRIu64 " agree, %" PRIu64 " have no SHA-256 yet, %" PRIu64 " do NOT agree, %" PRIu64
           " are not there, %" PRIu64 " cannot be read.\n",
        l->loads, l->dumps, l->damaged, l->found[FILED_SAME], l->found[FILED_OPEN], l->found[FILED_OTHER],
        l->found[FILED_ABSENT], l->found[FILED_UNREADABLE]);
    if (l->unreadable > 0)
        printf("Other files that cannot be read, and may be records: %" PRIu64 ".\n", l->unreadable);
}

static int status_of(const listing *l)
{
    if (l->damaged + l->found[FILED_OTHER] + l->found[FILED_ABSENT] + l->found[FILED_UNREADABLE] > 0)
        return STATUS_MISMATCH;
    return l->unreadable > 0 ? STATUS_FILE : 0;
}

static int tell(listing *l)
{
    size_t count = 0;
    if (l->count > 0)
        qsort(l->entries, l->count, sizeof *l->entries, by_name);
    pass_over_dumps(l);
    entry *records = records_of(l, &count);
    if (records == NULL)
        return complain(STATUS_OTHER, "no memory");
    fputs("The records of ", stdout);
    record_name(stdout, l->path);
    record_date(stdout, ", whose files were read again on ", time(NULL));
    printf(" by mopreport of Kochipurn, commit %s:\n\n", program_version);
    for (size_t i = 0; i < count; i++)
        tell_record(l, &records[i]);
    free(records);
    tell_rest(l);
    tell_totals(l);
    if (words_written() != 0)
        return STATUS_FILE;
    return status_of(l);
}

/* ---- The command line ------------------------------------------------ */

static const char manual[] = "NAME\n"
                             "  mopreport - list the records of loads and dumps, and check their files\n"
                             "\n"
                             "SYNOPSIS\n"
                             "  mopreport DIRECTORY\n"
                             "\n"
                             "DESCRIPTION\n"
                             "  Reads the records that mopload --record and mopdump left in DIRECTORY and\n"
                             "  prints a list of the loads and dumps in the order of their dates: how each\n"
                             "  stands or ended, what is known of the machine's memory, the machine, the\n"
                             "  settings, and the program's version. The image or the dump that a record\n"
                             "  tells of is read again now, and its length and SHA-256 are compared with the\n"
                             "  record's. At the end stand the files that no record tells of, and totals.\n"
                             "\n"
                             "  A record is known by how it begins, whatever its name; but the files that a\n"
                             "  dump's record, NAME.record, is of are none, as their bytes are the machine's.\n"
                             "  Records of older versions are read too. One that is cut short or altered\n"
                             "  beyond reading is listed as damaged, with the reason. Nothing protects a\n"
                             "  record from being altered on purpose: the SHA-256 shows that the file is the\n"
                             "  one of the record, and not that the record is the one that was written.\n"
                             "\n"
                             "  A record of a load or dump that is not over, or whose program was killed,\n"
                             "  says what was known when it was written. Such a dump has no SHA-256 yet: of\n"
                             "  its file is asked only that it has as many bytes as the record says, or more,\n"
                             "  and no more than the range.\n"
                             "\n"
                             "  Only regular files are read, and no subdirectories; symbolic links are named\n"
                             "  and not followed. Nothing is changed.\n"
                             "\n"
                             "OPTIONS\n";

static void help(FILE *out)
{
    fputs(manual, out);
    manual_help(out);
    fputs("\n", out);
    words_statuses(out, STATUS_FINISHED, STATUS_OTHER);
    words_statuses(out, STATUS_USAGE, STATUS_USAGE);
    words_statuses(out, STATUS_FILE, STATUS_FILE);
    words_statuses(out, STATUS_MISMATCH, STATUS_MISMATCH);
    fputs("      (also a file that is not there or cannot be read, or a damaged record)\n"
          "\n"
          "EXAMPLE\n"
          "  mopreport /srv/machines/mill\n",
        out);
}

static int options(int count, char **words, listing *l)
{
    static const struct option known[] = {MANUAL_OPTIONS, {NULL, 0, NULL, 0}};
    const int c = getopt_long(count, words, "h", known, NULL);
    if (c != -1)
        return manual_option(c, &(manual_of){help, words});
    if (optind + 1 != count)
        return complain(STATUS_USAGE, "give one directory (see --help)");
    l->path = words[optind];
    return 0;
}

int main(int count, char **words)
{
    static listing l = {.path = ".", .directory = -1};
    words_program("mopreport");
    int status = options(count, words, &l);
    if (status == 0)
        status = read_directory(&l);
    if (status == 0)
        status = tell(&l);
    for (size_t i = 0; i < l.count; i++)
        free(l.entries[i].name);
    free(l.entries);
    if (l.directory >= 0)
        close(l.directory);
    return status;
}
