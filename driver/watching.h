/* watching.h: a line that is only listened to. */
#ifndef WATCHING_H
#define WATCHING_H

#include <stdbool.h>
#include <sys/time.h>

#include "line.h"

/* Opens the line for frames of types 60-01 and 60-02, whoever sends them: to this computer, to all hosts, to all
 * consoles, to everybody, from this computer, and, if promiscuous, to anybody. line_await and line_take give them.
 * Nothing is sent. 0, or an exit status with the reason said. */
int watching_open(line *l, const char *interface, bool promiscuous);

/* When the frame that was taken last came. */
struct timeval watching_came(const line *l);

/* How many frames were lost since the line was opened, because they came faster than they were taken. To be asked
 * once. */
uint64_t watching_lost(const line *l);

#endif
