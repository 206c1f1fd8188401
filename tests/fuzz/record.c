/* Records of loads and dumps, of the newer and the older form, and what is made of them by mutation: what the driver reads
 * is what a slow reader finds with regular expressions, and what is printed of it has no control characters. */
#include "record.h"

#include <regex.h>
#include <stdlib.h>
#include <string.h>

#include "fuzz.h"
#include "recorded.h"

#define LETTERS "0123456789abcdef \\\n\r,:/\"-TZfileknown"

/* ---- Texts ----------------------------------------------------------- */

static void put_text(const char *text)
{
    put_bytes(text, strlen(text));
}

static const char *any_of(const char *const *texts, uint32_t count)
{
    return texts[below(count)];
}

static void put_date(const char *heading)
{
    char date[64];
    snprintf(date, sizeof date, "%s20%02u-%02u-%02uT%02u:%02u:%02uZ\n", heading, below(100), below(13), below(32),
        below(24), below(60), below(60));
    put_text(date);
}

/* Of all bytes but 0 and, mostly, the slash; or of letters alone, and now and then as long as it may be, or one more. */
static void any_name(char name[RECORDED_NAME + 1], bool is_long)
{
    const size_t length = is_long ? RECORDED_NAME - below(3) : 1 + below(12);
    const bool plain = is_long || one_in(2);
    for (size_t i = 0; i < length; i++) {
        const uint32_t byte = plain ? 'a' + below(26) : 1 + below(255);
        name[i] = (char)(byte == '/' && !one_in(4) ? '\\' : byte);
    }
    name[length] = '\0';
}

static void write_sum(const void *what, FILE *out)
{
    char digits[SHA256_TEXT];
    for (size_t i = 0; i < sizeof digits - 1; i++)
        digits[i] = "0123456789abcdef"[below(16)];
    digits[sizeof digits - 1] = '\0';
    record_sum(out, digits, what);
}

static void write_quoted(const void *what, FILE *out)
{
    record_name(out, what);
}

static void put_written(record_writer write, const void *what)
{
    char *text = record_text(write, what);
    require(text != NULL, "there is memory");
    put_text(text);
    free(text);
}

static void put_length(const char *behind)
{
    char text[64];
    if (one_in(50))
        snprintf(text, sizeof text, ", 123456789%0*u%s\n", 8 + (int)below(4), any_number() % 100000000, behind);
    else
        snprintf(text, sizeof text, ", %u%s\n", any_number(), behind);
    put_text(text);
}

/* The name stands in the line of the sum alone, as it is. */
static char wanted[RECORDED_FILES][RECORDED_NAME + 1];

static void put_new_file(size_t i, const char *heading, bool more)
{
    any_name(wanted[i], i == 0 && one_in(50));
    put_text(heading);
    put_written(write_quoted, wanted[i]);
    put_length(more ? " bytes or more" : " bytes");
    if (more)
        wanted[i][0] = '\0';
    else
        put_written(write_sum, wanted[i]);
    if (strcmp(wanted[i], "-") == 0)
        memcpy(wanted[i], "./-", sizeof "./-");
}

static void put_range(void)
{
    char text[64];
    snprintf(text, sizeof text, "range: from 0x00000000, length %u\n", any_number());
    put_text(text);
}

static void put_new(void)
{
    static const char *const states[] = {
        "waiting: no", "running: the", "finished", "given up", "finished, being named: it"};
    const uint32_t state = below(5);
    const bool load = one_in(2), more = !load && state < 2;
    put_text(load ? "load: " : "dump: ");
    put_text(states[state]);
    put_text("\n");
    put_date("written: ");
    if (one_in(2))
        put_date("begun: ");
    put_text("version: mopload of Kochipurn\n");
    if (one_in(2))
        put_range();
    if (one_in(2))
        put_text("machine: 08-00-2B-00-00-01, which asks for \"\\x1B\"\n");
    put_new_file(0, load ? "image: " : "file: ", more);
    if (!load && one_in(3))
        put_new_file(1, "second file: ", more);
    put_text(one_in(2) ? "known: So it is.\n" : "known: So it is.\nknown: And so.\n");
}

static void put_old(void)
{
    static const char *const names[] = {
        "file", "some/where/file", "a.part, to be named a", "file, 8 bytes", "x2", "some/"};
    const bool open = one_in(3), two = one_in(4);
    put_text(open ? "dump: under way, or ended\n" : "dump: finished\n");
    put_date("date: ");
    put_text("machine: 08-00-2B-00-00-01, device 1\n");
    put_range();
    put_text("file: ");
    put_text(any_of(names, 6));
    if (open) {
        put_text(" has the first bytes; where there is none and x2 is there, x2 is whole\n");
        return;
    }
    put_length(" bytes");
    put_text("sha256: 0123456789abcdef0123456789abcdef0123456789abcdef0123456789abcdef\n");
    if (two) {
        put_text("second file: b.part, 8 bytes\nsecond sha256: ");
        put_text("fedcba9876543210fedcba9876543210fedcba9876543210fedcba9876543210\n");
    }
    put_text("Finished: the machine sent all.\n");
}

/* ---- The slow reader ------------------------------------------------- */

typedef struct plain {
    bool whole, open, load, known, is_new, ended;
    char date[64], begun[64], range[SAMPLE_MOST], machine[SAMPLE_MOST], version[SAMPLE_MOST];
    recorded_file files[3];
    size_t count;
    size_t lines; /* that tell what is known */
} plain;

/* Each form is compiled once. */
static const regex_t *compiled(const char *form)
{
    static struct {
        const char *form;
        regex_t regex;
    } forms[32];
    for (size_t i = 0; i < sizeof forms / sizeof forms[0]; i++) {
        if (forms[i].form == NULL)
            require(regcomp(&forms[i].regex, forms[i].form = form, REG_EXTENDED) == 0, "the form is good");
        if (strcmp(forms[i].form, form) == 0)
            return &forms[i].regex;
    }
    failed("there is room for every form");
}

/* Whether the text is of the form; what its first bracket holds goes to the place. */
static bool matches(const char *text, const char *form, char *place, size_t room)
{
    regmatch_t found[2] = {{.rm_so = 0}};
    if (regexec(compiled(form), text, 2, found, 0) != 0)
        return false;
    const size_t length = (size_t)(found[1].rm_eo - found[1].rm_so);
    if (place == NULL)
        return true;
    require(length < room, "there is room for what is found");
    memcpy(place, text + found[1].rm_so, length);
    place[length] = '\0';
    return true;
}

/* What stands behind the last such text, or all. */
static const char *last_behind(const char *text, const char *what)
{
    for (const char *at = strstr(text, what); at != NULL; at = strstr(text, what))
        text = at + (what[1] == '\0' ? 1 : strlen(what));
    return text;
}

static bool slow_name(recorded_file *f, const char *name)
{
    const size_t length = strlen(name);
    if (length == 0 || length >= sizeof f->name)
        return false;
    memcpy(f->name, name, length + 1);
    return true;
}

/* name, N bytes */
static bool slow_file(plain *p, const char *text)
{
    static char rest[SAMPLE_MOST];
    char number[32];
    if (p->count == RECORDED_FILES)
        return false;
    recorded_file *f = &p->files[p->count++];
    f->more = p->open && matches(text, " is whole$", NULL, 0);
    if (f->more)
        return true;
    f->more = p->open && matches(text, " or more$", NULL, 0);
    if (!matches(text, f->more ? ", ([0-9]{1,18}) bytes or more$" : ", ([0-9]{1,18}) bytes$", number, sizeof number))
        return false;
    f->length = strtoull(number, NULL, 10);
    if (f->more || text[0] == '"')
        return true;
    require(matches(text, "^(.*), [0-9]+ bytes$", rest, sizeof rest), "what is told before the number");
    p->open |= strstr(rest, ", to be named ") != NULL;
    return slow_name(f, last_behind(last_behind(rest, ", to be named "), "/"));
}

static bool slow_unescape(const char *text, char name[RECORDED_NAME])
{
    size_t length = 0;
    for (; *text != '\0'; text++, length++) {
        if (length + 1 == RECORDED_NAME || (*text == '\\' && (text[1] == '\0' || strchr("\\nr", text[1]) == NULL)))
            return false;
        const bool mark = *text == '\\';
        text += mark;
        name[length] = *text;
        if (mark && *text == 'n')
            name[length] = '\n';
        if (mark && *text == 'r')
            name[length] = '\r';
    }
    name[length] = '\0';
    return length > 0;
}

/* The line of a sum, with or without a name. */
static bool slow_sum(plain *p, const char *text)
{
    recorded_file *f = p->count == 0 ? NULL : &p->files[p->count - 1];
    if (f == NULL || f->sum[0] != '\0')
        return false;
    if (matches(text, "^(second )?sha256: ", NULL, 0)) {
        const char *sum = strstr(text, ": ") + 2;
        return matches(sum, "^([0-9a-f]{64})$", f->sum, sizeof f->sum);
    }
    const bool escaped = text[0] == '\\';
    if (!matches(text + escaped, "^([0-9a-f]{64})  ", f->sum, sizeof f->sum))
        return false;
    const char *name = text + escaped + SHA256_TEXT + 1;
    return escaped ? slow_unescape(name, f->name) : slow_name(f, name);
}

static void keep_first(char *place, size_t room, const char *text)
{
    if (place[0] == '\0')
        snprintf(place, room, " %s", text); /* a blank before: an empty one is there too */
}

static bool slow_line(plain *p, const char *line)
{
    if (strncmp(line, "begun: ", 7) == 0)
        keep_first(p->begun, sizeof p->begun, line + 7);
    else if (strncmp(line, "written: ", 9) == 0 && p->is_new)
        keep_first(p->date, sizeof p->date, line + 9);
    else if (strncmp(line, "date: ", 6) == 0 && !p->is_new)
        keep_first(p->date, sizeof p->date, line + 6);
    else if (strncmp(line, "machine: ", 9) == 0)
        keep_first(p->machine, sizeof p->machine, line + 9);
    else if (strncmp(line, "version: ", 9) == 0)
        keep_first(p->version, sizeof p->version, line + 9);
    else if (strncmp(line, "range: ", 7) == 0)
        keep_first(p->range, sizeof p->range, line + 7);
    else if (matches(line, "^(file|second file|image): ", NULL, 0))
        return slow_file(p, strstr(line, ": ") + 2);
    else if (matches(line, "^((second )?sha256: |\\\\?[0-9a-f]{64})", NULL, 0))
        return slow_sum(p, line);
    return true;
}

/* The lines up to what is known. Whether a line "written: " stands among them makes it one of the newer form. */
static bool slow_lines(plain *p, char *text)
{
    char *end = NULL;
    for (char *line = text; *line != '\0'; line = end + 1) {
        end = strchr(line, '\n');
        *end = '\0';
        if (strncmp(line, "The record of the earlier run:", 30) == 0)
            return true;
        p->known |= matches(line, "^(known|Finished|Given up|Broken off|Not begun): ", NULL, 0);
        p->lines += p->known;
        if (!p->known && !slow_line(p, line))
            return false;
    }
    return true;
}

static bool slow_complete(const plain *p)
{
    bool told = p->count > 0 && (!p->load || p->count == 1);
    for (size_t i = 0; i < p->count; i++)
        told &= p->files[i].more ? !p->load && p->files[i].sum[0] == '\0' : p->files[i].sum[0] != '\0';
    const char *date = p->begun[0] != '\0' ? p->begun : p->date;
    return told && matches(date, "^ [0-9]{4}-[0-9]{2}-[0-9]{2}T[0-9]{2}:[0-9]{2}:[0-9]{2}Z$", NULL, 0) &&
           ((p->known && p->ended) || !p->is_new);
}

/* Where the newer heading stands among the lines that count. */
static bool has_written(const char *text)
{
    static char copy[SAMPLE_MOST + 2];
    snprintf(copy, sizeof copy, "\n%s", text);
    static const char *const ends[] = {"\nThe record of the earlier run:", "\nknown: ", "\nFinished: ", "\nGiven up: ",
        "\nBroken off: ", "\nNot begun: "};
    for (size_t i = 0; i < sizeof ends / sizeof ends[0]; i++) {
        char *at = strstr(copy, ends[i]);
        if (at != NULL)
            at[1] = '\0';
    }
    return strstr(copy, "\nwritten: ") != NULL;
}

/* Whether the last line, which is then taken away, is the end. */
static bool slow_end(char *text)
{
    static char last[SAMPLE_MOST + 1];
    require(matches(text, "([^\n]*\n)$", last, sizeof last), "there is a last line");
    if (strcmp(last, "end of the record\n") != 0)
        return false;
    text[strlen(text) - strlen(last)] = '\0';
    return true;
}

static void slow_read(plain *p)
{
    static char text[SAMPLE_MOST + 1];
    memcpy(text, input.bytes, input.length);
    text[input.length] = '\0';
    *p = (plain){.whole = false};
    if (strlen(text) != input.length || !matches(text, "^(load|dump): ", NULL, 0) || text[input.length - 1] != '\n')
        return;
    p->load = text[0] == 'l';
    p->open = matches(text + 6, "^(waiting: |running: |under way|finished, being named)", NULL, 0);
    p->ended = slow_end(text);
    p->is_new = has_written(strchr(text, '\n') + 1);
    p->whole = slow_lines(p, strchr(text, '\n') + 1) && slow_complete(p);
}

/* ---- What must hold -------------------------------------------------- */

static void write_all(const void *what, FILE *out)
{
    const recorded *r = what;
    recorded_known(out, r, "  ");
    recorded_words(out, r->what);
    recorded_words(out, r->machine);
}

static bool same_span(span s, const char *text)
{
    return text[0] == '\0' ? s.at == NULL : s.length == strlen(text + 1) && memcmp(s.at, text + 1, s.length) == 0;
}

/* The number at its end, of at most 18 digits. */
static uint64_t slow_most(const char *range)
{
    char number[32];
    return matches(range, "(^|[^0-9])[0-9]{1,18}$", NULL, 0) && matches(range, "([0-9]{1,18})$", number, sizeof number)
               ? strtoull(number, NULL, 10)
               : UINT64_MAX;
}

static void check_files(const recorded *r, const plain *p)
{
    char name[RECORDED_NAME];
    const uint64_t most = slow_most(p->range);
    require(r->count == p->count, "as many files are told of");
    for (size_t i = 0; i < r->count; i++) {
        const recorded_file *a = &r->files[i], *b = &p->files[i];
        require(a->length == b->length && a->more == b->more, "the length is the file's");
        require(a->most == most, "it is no longer than the range");
        require(strcmp(a->sum, b->sum) == 0 && strcmp(a->name, b->name) == 0, "the sum and the name are the file's");
        require(recorded_name(r, i, "record.record", name) && (a->name[0] == '\0' || strcmp(a->name, name) == 0),
            "the file has a name");
    }
}

static void check_record(const recorded *r, const plain *p)
{
    require(r->load == p->load && r->open == p->open, "it is of a load or a dump, and over or not");
    require(strcmp(r->date, (p->begun[0] != '\0' ? p->begun : p->date) + 1) == 0, "the date is the record's");
    require(same_span(r->machine, p->machine) && same_span(r->version, p->version), "its values are the record's");
    check_files(r, p);
    char *text = record_text(write_all, r);
    size_t lines = 0;
    require(text != NULL, "there is memory");
    for (const char *at = text; *at != '\0'; at++) {
        lines += *at == '\n';
        require(*at == '\n' || (*at >= ' ' && *at <= '~'), "what is printed has no control characters");
    }
    require(lines == p->lines, "all is told that is known");
    free(text);
}

/* What was made is read as it was made. */
static void check_wanted(const recorded *r)
{
    if (r->damage != NULL) { /* a length of too many digits, or a name that is too long */
        const char *damage = strlen(wanted[0]) == RECORDED_NAME ? "of a file" : "a line that tells of a file";
        require(strstr(r->damage, damage) != NULL, "a record is read");
        return;
    }
    for (size_t i = 0; i < r->count; i++)
        require(r->files[i].more || strcmp(r->files[i].name, wanted[i]) == 0, "a name is read as it was written");
}

bool fuzz_record(void)
{
    static recorded r;
    static plain p;
    const bool made_new = !one_in(4), changed = one_in(2);
    if (made_new)
        put_new();
    else
        put_old();
    if (one_in(8))
        put_text("The record of the earlier run:\n> dump: finished\n> date: x\n> " RECORD_END);
    if (made_new)
        put_text(RECORD_END);
    if (changed)
        mutate(one_in(4) ? NULL : LETTERS);
    contents copy = exact();
    const bool whole = recorded_read(copy.bytes, copy.length, &r);
    slow_read(&p);
    require(whole == p.whole && whole == (r.damage == NULL), "a record is whole or damaged");
    if (whole)
        check_record(&r, &p);
    if (made_new && !changed)
        check_wanted(&r);
    free(copy.bytes);
    return whole;
}
