#include "transcript.h"

#include <stdlib.h>
#include <string.h>

#include "chart.h"
#include "mop.h"
#include "words.h"

/* Text that is read: from at to end. */
typedef struct span {
    char *at;
    char *end;
} span;

static int wrong(const transcript *t, size_t line, const char *why)
{
    return complain(STATUS_FILE, "%s, line %zu: %s", t->path, line, why);
}

/* ---- Parts of a line ------------------------------------------------- */

static bool begins(span s, const char *text)
{
    const size_t length = strlen(text);
    return (size_t)(s.end - s.at) >= length && memcmp(s.at, text, length) == 0;
}

static bool is(span s, const char *text)
{
    return (size_t)(s.end - s.at) == strlen(text) && begins(s, text);
}

static int digit(char c)
{
    return c >= '0' && c <= '9' ? c - '0' : c >= 'A' && c <= 'F' ? c - 'A' + 10 : -1;
}

/* Takes pairs of capital hexadecimal digits off the text; their bytes take their place. */
static size_t take_bytes(span *s)
{
    uint8_t *bytes = (uint8_t *)s->at;
    size_t count = 0;
    for (; s->end - s->at >= 2 && digit(s->at[0]) >= 0 && digit(s->at[1]) >= 0; s->at += 2)
        bytes[count++] = (uint8_t)(digit(s->at[0]) << 4 | digit(s->at[1]));
    return count;
}

/* Takes a decimal number without a sign and the blank behind it. */
static bool take_number(span *s, uint64_t most, uint64_t *number)
{
    const char *first = s->at;
    for (*number = 0; s->at < s->end && *s->at >= '0' && *s->at <= '9'; s->at++) {
        *number = 10 * *number + (uint64_t)(*s->at - '0');
        if (*number > most)
            return false;
    }
    return s->at > first && s->at < s->end && *s->at++ == ' ';
}

static span without_blanks(span s)
{
    while (s.at < s.end && *s.at == ' ')
        s.at++;
    return s;
}

/* ---- Lines ----------------------------------------------------------- */

/* Whether the same end sent the same frame just before. */
static bool is_repeat(const transcript *t, const transcript_line *l)
{
    for (size_t i = t->count; i > 0; i--) {
        const transcript_line *before = &t->lines[i - 1];
        if (before->letter == l->letter)
            return before->length == l->length && memcmp(before->frame, l->frame, l->length) == 0;
    }
    return false;
}

static int read_frame(transcript *t, size_t line, span s)
{
    transcript_line *l = &t->lines[t->count];
    *l = (transcript_line){.letter = s.at[0], .number = line};
    s.at += 2;
    l->frame = (const uint8_t *)s.at;
    l->length = take_bytes(&s);
    if (l->length == 0 || l->length > MOP_FRAME_MOST || (s.at < s.end && *s.at != ' '))
        return wrong(t, line, "a frame is 1 to 1500 bytes in pairs of capital hexadecimal digits");
    s = without_blanks(s);
    l->words = s.at;
    l->words_length = (size_t)(s.end - s.at);
    l->repeat = is_repeat(t, l);
    t->explained |= l->words_length > 0;
    t->count += 1;
    return 0;
}

/* An event that sent nothing; or the word, behind a frame, that there was no place for it. */
static int read_event(transcript *t, size_t line, span s)
{
    const char letter = s.at[0];
    s.at += 1;
    s = without_blanks(s);
    t->explained = true;
    if (is(s, "the line is full: this frame is lost")) {
        if (t->count == 0 || t->lines[t->count - 1].frame == NULL || t->lines[t->count - 1].event != 0)
            return wrong(t, line, "no frame stands before it that could be lost");
        t->lines[t->count - 1].event = letter;
        return 0;
    }
    t->lines[t->count++] = (transcript_line){.letter = letter,
        .number = line,
        .words = s.at,
        .words_length = (size_t)(s.end - s.at),
        .no_frame = begins(s, "no frame of the ")};
    return 0;
}

/* END, the verdict, the host's frames, the address of the start or a minus, the memory. */
static int read_end(transcript *t, size_t line, span s)
{
    uint64_t verdict = 0;
    uint8_t *address = NULL;
    s.at += 4;
    bool good = take_number(&s, MOP_LOAD_UNCONFIRMED, &verdict) && take_number(&s, UINT32_MAX, &t->sent);
    t->verdict = (uint8_t)verdict;
    if (good && !begins(s, "- ")) {
        address = (uint8_t *)s.at;
        good = take_bytes(&s) == 4;
    } else {
        s.at += good;
    }
    good = good && s.at < s.end && *s.at++ == ' ' && take_bytes(&s) > 0 && s.at == s.end;
    if (!good)
        return wrong(t, line, "END is followed by the verdict, the frames sent, the start and the memory");
    t->over = true;
    t->started = address != NULL;
    if (t->started)
        t->start = (uint32_t)address[0] << 24 | (uint32_t)address[1] << 16 | (uint32_t)address[2] << 8 | address[3];
    return 0;
}

/* Behind END explain says a sentence; beyond that there may be empty lines. */
static int read_rest(transcript *t, size_t line, span s)
{
    if (s.at == s.end)
        return 0;
    if (!t->explained || t->said)
        return wrong(t, line, "something stands behind END");
    t->said = true;
    return 0;
}

/* Which of these a line is. */
static int read_line(transcript *t, size_t line, span s)
{
    if (t->over)
        return read_rest(t, line, s);
    if (begins(s, "BAD "))
        return wrong(t, line, "the rehearsal refused its input, and there is nothing to draw");
    if (begins(s, "END "))
        return read_end(t, line, s);
    if (t->count == CHART_ROWS_MOST)
        return wrong(t, line, "the transcript is too long");
    if (begins(s, "H ") || begins(s, "T "))
        return read_frame(t, line, s);
    if (s.at < s.end && strchr("hkxtuymn", *s.at) != NULL && *s.at != '\0' && (s.end - s.at == 1 || s.at[1] == ' '))
        return read_event(t, line, s);
    return wrong(t, line, "it is no frame (H or T), no event's letter and no END: no transcript of a rehearsal");
}

/* ---- The whole ------------------------------------------------------- */

static uint64_t frames_of_host(const transcript *t)
{
    uint64_t count = 0;
    for (size_t i = 0; i < t->count; i++)
        count += t->lines[i].letter == 'H';
    return count;
}

static size_t lines_of(const contents *file)
{
    size_t count = 1;
    for (size_t i = 0; i < file->length; i++)
        count += file->bytes[i] == '\n';
    return count;
}

static int read_lines(transcript *t, const contents *file)
{
    char *at = (char *)file->bytes, *end = at + file->length;
    int status = 0;
    for (size_t line = 1; at < end && status == 0; line++) {
        char *feed = memchr(at, '\n', (size_t)(end - at));
        if (feed == NULL)
            return wrong(t, line, "the line has no end: the transcript was cut short");
        status = read_line(t, line, (span){at, feed});
        at = feed + 1;
    }
    return status;
}

int transcript_read(transcript *t, const char *path, contents *file)
{
    const size_t lines = lines_of(file);
    *t = (transcript){.path = path};
    t->lines = calloc(lines < CHART_ROWS_MOST ? lines : CHART_ROWS_MOST, sizeof *t->lines);
    if (t->lines == NULL)
        return complain(STATUS_OTHER, "no memory for %s", path);
    int status = read_lines(t, file);
    if (status == 0 && !t->over)
        status = complain(STATUS_FILE, "%s has no line END: it is no whole transcript of a rehearsal", path);
    if (status == 0 && t->sent != frames_of_host(t))
        status = complain(STATUS_FILE, "%s: END tells of another number of frames than stand before it", path);
    return status;
}

void transcript_free(transcript *t)
{
    free(t->lines);
    t->lines = NULL;
}
