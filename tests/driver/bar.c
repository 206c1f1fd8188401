/* bar UNIT TOTAL COLUMNS STEP..: what progress.c shows, with a clock and a terminal of this program's own. A STEP is
 * DONE:REPEATS:MILLISECONDS, with the time since the step before, or wN: from now on the terminal has N columns.
 * 0 COLUMNS is no terminal. */
#include <inttypes.h>
#include <stdarg.h>
#include <stdio.h>
#include <stdlib.h>
#include <sys/ioctl.h>

#include "line.h"
#include "progress.h"
#include "words.h"

static int64_t now = 1;
static unsigned short wide;

int64_t clock_now(void)
{
    return now;
}

/* In place of the library's own (--wrap). */
int __wrap_isatty(int fd);
int __wrap_ioctl(int fd, unsigned long request, ...);

int __wrap_isatty(int fd)
{
    (void)fd;
    return wide != 0;
}

int __wrap_ioctl(int fd, unsigned long request, ...)
{
    va_list values;
    (void)fd;
    if (request != TIOCGWINSZ)
        return -1;
    va_start(values, request);
    va_arg(values, struct winsize *)->ws_col = wide;
    va_end(values);
    return 0;
}

static void step(progress *p, const char *text)
{
    char *end = NULL;
    if (text[0] == 'w') {
        wide = (unsigned short)strtoul(text + 1, NULL, 10);
        return;
    }
    const uint64_t done = strtoull(text, &end, 10), repeats = strtoull(end + 1, &end, 10);
    now += strtoll(end + 1, NULL, 10);
    progress_show(p, done, repeats);
}

int main(int count, char **words)
{
    progress p;
    if (count < 4)
        return 1;
    wide = (unsigned short)strtoul(words[3], NULL, 10);
    progress_start(&p, words[1], strtoull(words[2], NULL, 10));
    for (int i = 4; i < count; i++)
        step(&p, words[i]);
    words_bar_end();
    return 0;
}
