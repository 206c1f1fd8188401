#include "recorded.h"

#include <ctype.h>
#include <string.h>

#include "record.h"

#define DIGITS (SHA256_TEXT - 1)

/* ---- Spans ----------------------------------------------------------- */

/* Whether it begins with the text, which is then cut off. */
static bool cut_front(span *s, const char *text)
{
    const size_t size = strlen(text);
    if (s->length < size || memcmp(s->at, text, size) != 0)
        return false;
    *s = (span){s->at + size, s->length - size};
    return true;
}

static bool cut_end(span *s, const char *text)
{
    const size_t size = strlen(text);
    if (s->length < size || memcmp(s->at + s->length - size, text, size) != 0)
        return false;
    s->length -= size;
    return true;
}

/* What stands behind the last of such texts, or all of it. */
static span behind(span s, const char *text)
{
    const size_t size = strlen(text);
    for (size_t at = s.length < size ? 0 : s.length - size + 1; at-- > 0;)
        if (memcmp(s.at + at, text, size) == 0)
            return (span){s.at + at + size, s.length - at - size};
    return s;
}

/* The first line, without its end, which is cut off. */
static span cut_line(span *s)
{
    const uint8_t *end = memchr(s->at, '\n', s->length);
    const span line = {s->at, end == NULL ? s->length : (size_t)(end - s->at)};
    const size_t whole = line.length + (end != NULL);
    *s = (span){s->at + whole, s->length - whole};
    return line;
}

/* Whether its last line is this one, which is then cut off. */
static bool cut_last(span *s, const char *line)
{
    span rest = *s;
    if (!cut_end(&rest, line) || (rest.length > 0 && rest.at[rest.length - 1] != '\n'))
        return false;
    *s = rest;
    return true;
}

/* ---- Its values ------------------------------------------------------ */

/* A date; nothing if it is none. */
static void take_date(span s, char date[RECORDED_DATE])
{
    static const char form[] = "0000-00-00T00:00:00Z";
    bool good = s.length == sizeof form - 1;
    for (size_t i = 0; good && i < s.length; i++)
        good = form[i] == '0' ? isdigit(s.at[i]) != 0 : s.at[i] == (uint8_t)form[i];
    if (!good)
        return;
    memcpy(date, s.at, s.length);
    date[s.length] = '\0';
}

/* The number at the end, which is cut off; false if there is none that fits. */
static bool cut_number(span *s, uint64_t *number)
{
    uint64_t value = 0, place = 1;
    size_t digits = 0;
    while (digits < s->length && isdigit(s->at[s->length - 1 - digits])) {
        if (digits == 18)
            return false;
        value += place * (uint64_t)(s->at[s->length - 1 - digits] - '0');
        place *= 10;
        digits += 1;
    }
    s->length -= digits;
    *number = value;
    return digits > 0;
}

static bool is_sum(span s)
{
    bool good = s.length >= DIGITS;
    for (size_t i = 0; good && i < DIGITS; i++)
        good = isdigit(s.at[i]) || (s.at[i] >= 'a' && s.at[i] <= 'f');
    return good;
}

static void take_sum(span s, recorded_file *file)
{
    memcpy(file->sum, s.at, DIGITS);
    file->sum[DIGITS] = '\0';
}

/* What a letter behind a backslash stands for; 0 if for nothing. */
static char unescaped(uint8_t letter)
{
    switch (letter) {
    case 'n':
        return '\n';
    case 'r':
        return '\r';
    case '\\':
        return '\\';
    default:
        return '\0';
    }
}

/* A name, which may be escaped as sha256sum does it. */
static bool take_name(span s, bool escaped, char name[RECORDED_NAME])
{
    size_t length = 0;
    for (size_t i = 0; i < s.length; i++) {
        const bool mark = escaped && s.at[i] == '\\';
        i += mark;
        if (length == RECORDED_NAME - 1 || i == s.length || (mark && unescaped(s.at[i]) == '\0'))
            return false;
        name[length++] = (char)(mark ? unescaped(s.at[i]) : s.at[i]);
    }
    name[length] = '\0';
    return length > 0;
}

/* ---- Its lines: each gives what is wrong with it, or NULL ------------ */

/* NAME, N bytes: the older form has the name as it is, with its directory; in the newer one it is quoted, and the next
 * line has it. Of a dump that is not over the older form has no number. */
static const char *take_file(recorded *r, span s)
{
    if (r->count == RECORDED_FILES)
        return "it tells of more files than a record does";
    recorded_file *f = &r->files[r->count++];
    f->more = f->uncounted = r->open && cut_end(&s, " is whole");
    if (f->more)
        return NULL;
    f->more = r->open && cut_end(&s, " or more");
    if (!cut_end(&s, " bytes") || !cut_number(&s, &f->length) || !cut_end(&s, ", "))
        return "a line that tells of a file cannot be read";
    if (f->more || (s.length > 0 && s.at[0] == '"'))
        return NULL;
    const span named = behind(s, ", to be named ");
    r->open |= named.length != s.length;
    return take_name(behind(named, "/"), false, f->name) ? NULL : "the name of a file cannot be read";
}

/* The sum of the last file. */
static const char *take_old_sum(recorded *r, span s)
{
    if (r->count == 0 || s.length != DIGITS || !is_sum(s) || r->files[r->count - 1].sum[0] != '\0')
        return "a SHA-256 of it cannot be read, or belongs to no file";
    take_sum(s, &r->files[r->count - 1]);
    return NULL;
}

/* Its sum and name, as sha256sum -c reads them. */
static const char *take_new_sum(recorded *r, span s)
{
    const bool escaped = cut_front(&s, "\\");
    const span sum = s;
    s = (span){s.at + DIGITS, s.length - DIGITS};
    if (r->count == 0 || !cut_front(&s, "  ") || r->files[r->count - 1].sum[0] != '\0')
        return "a SHA-256 of it cannot be read, or belongs to no file";
    take_sum(sum, &r->files[r->count - 1]);
    return take_name(s, escaped, r->files[r->count - 1].name) ? NULL : "the name of a file cannot be read";
}

static bool begins_sum(span s)
{
    (void)cut_front(&s, "\\");
    return is_sum(s);
}

/* What is told of more than once counts as it was told first. */
typedef struct reading {
    recorded *r;
    bool ended; /* its last line is there */
    span date;  /* of the older form */
    span written;
    span begun;
    span range;
} reading;

static bool take_value(reading *in, span line)
{
    const struct {
        const char *heading;
        span *value;
    } table[] = {{"date: ", &in->date}, {"written: ", &in->written}, {"begun: ", &in->begun},
        {"machine: ", &in->r->machine}, {"settings: ", &in->r->settings}, {"version: ", &in->r->version},
        {"resumed: ", &in->r->resumed}, {"twice: ", &in->r->twice}, {"range: ", &in->range}};
    for (size_t i = 0; i < sizeof table / sizeof table[0]; i++)
        if (cut_front(&line, table[i].heading)) {
            if (table[i].value->at == NULL)
                *table[i].value = line;
            return true;
        }
    return false;
}

static const char *take_line(reading *in, span line)
{
    if (take_value(in, line))
        return NULL;
    if (cut_front(&line, "file: ") || cut_front(&line, "second file: ") || cut_front(&line, "image: "))
        return take_file(in->r, line);
    if (cut_front(&line, "sha256: ") || cut_front(&line, "second sha256: "))
        return take_old_sum(in->r, line);
    return begins_sum(line) ? take_new_sum(in->r, line) : NULL;
}

/* ---- All of it ------------------------------------------------------- */

bool recorded_begins(const uint8_t *bytes, size_t length)
{
    span s = {bytes, length};
    return cut_front(&s, "load: ") || cut_front(&s, "dump: ");
}

static bool begins_known(span s)
{
    return cut_front(&s, "known: ") || cut_front(&s, "Finished: ") || cut_front(&s, "Given up: ") ||
           cut_front(&s, "Broken off: ") || cut_front(&s, "Not begun: ");
}

static bool is_open(span s)
{
    return cut_front(&s, "waiting: ") || cut_front(&s, "running: ") || cut_front(&s, "under way") ||
           cut_front(&s, "finished, being named");
}

/* The lines up to the record of an earlier run. */
static const char *take_lines(reading *in, span rest)
{
    const char *damage = NULL;
    while (rest.length > 0 && damage == NULL) {
        const span here = rest, line = cut_line(&rest);
        span earlier = line;
        if (cut_front(&earlier, "The record of the earlier run:"))
            break;
        if (in->r->known.at == NULL && begins_known(line))
            in->r->known = (span){here.at, 0};
        if (in->r->known.at != NULL)
            in->r->known.length = (size_t)(rest.at - in->r->known.at);
        else
            damage = take_line(in, line);
    }
    return damage;
}

/* No file is longer than the range that it is of. */
static void take_range(const reading *in)
{
    uint64_t most = 0;
    span s = in->range;
    if (!cut_number(&s, &most))
        most = UINT64_MAX;
    for (size_t i = 0; i < in->r->count; i++)
        in->r->files[i].most = most;
}

/* What a whole record has. */
static const char *check(const reading *in)
{
    const recorded *r = in->r;
    bool told = r->count > 0 && (!r->load || r->count == 1);
    for (size_t i = 0; i < r->count; i++)
        told = told && r->files[i].more != (r->files[i].sum[0] != '\0') && !(r->load && r->files[i].more);
    if (r->date[0] == '\0')
        return "it has no date";
    if (!told)
        return r->load ? "it does not tell the image with its length and SHA-256"
                       : "it does not tell the file with its length and SHA-256";
    return in->written.at != NULL && (r->known.at == NULL || !in->ended) ? "its end is missing" : NULL;
}

static const char *read_all(recorded *r, span all)
{
    reading in = {.r = r};
    if (all.length > RECORDED_MOST)
        return "it is too long";
    if (!recorded_begins(all.at, all.length))
        return "it does not begin as a record";
    if (memchr(all.at, '\0', all.length) != NULL)
        return "it has bytes that are no text";
    if (all.at[all.length - 1] != '\n')
        return "its last line is cut short";
    r->what = cut_line(&all);
    in.ended = cut_last(&all, RECORD_END);
    r->load = cut_front(&r->what, "load: ");
    (void)(r->load || cut_front(&r->what, "dump: "));
    r->open = is_open(r->what);
    const char *damage = take_lines(&in, all);
    if (damage != NULL)
        return damage;
    take_range(&in);
    r->written = in.written.at != NULL ? in.written : in.date;
    take_date(in.begun.at != NULL ? in.begun : r->written, r->date);
    return check(&in);
}

bool recorded_read(const uint8_t *bytes, size_t length, recorded *r)
{
    *r = (recorded){.damage = NULL};
    r->damage = read_all(r, (span){bytes, length});
    return r->damage == NULL;
}

/* ---- In words -------------------------------------------------------- */

void recorded_words(FILE *out, span text)
{
    for (size_t i = 0; i < text.length; i++)
        if (text.at[i] < ' ' || text.at[i] > '~')
            fprintf(out, "\\x%02X", (unsigned)text.at[i]);
        else
            fputc(text.at[i], out);
}

void recorded_value(FILE *out, const char *heading, span value)
{
    if (value.length == 0)
        return;
    fputs(heading, out);
    recorded_words(out, value);
    fputc('\n', out);
}

void recorded_known(FILE *out, const recorded *r, const char *indent)
{
    for (span rest = r->known; rest.length > 0;) {
        span line = cut_line(&rest);
        (void)cut_front(&line, "known: ");
        fputs(indent, out);
        recorded_words(out, line);
        fputc('\n', out);
    }
}

bool recorded_name(const recorded *r, size_t i, const char *record, char name[RECORDED_NAME])
{
    span stem = {(const uint8_t *)record, strlen(record)};
    (void)cut_end(&stem, ".record");
    const int length = r->files[i].name[0] != '\0' ? snprintf(name, RECORDED_NAME, "%s", r->files[i].name)
                                                   : snprintf(name, RECORDED_NAME, "%.*s%s", (int)stem.length,
                                                         (const char *)stem.at, i == 0 ? ".part" : ".second.part");
    return length > 0 && length < RECORDED_NAME;
}
