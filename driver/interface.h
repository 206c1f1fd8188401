/* interface.h: what of an interface keeps frames from a program that listens on
 * it, as far as the kernel tells it. */
#ifndef INTERFACE_H
#define INTERFACE_H

#include <stdbool.h>
#include <stddef.h>
#include <stdint.h>

typedef struct interface_facts {
    const char *kind; /* bridge, bond or team, if it is a port of one; else NULL */
    unsigned master;  /* the number of that one */
    bool no_carrier;
} interface_facts;

/* Reads the kernel's answer on the interface with this number. Of an answer that
 * is cut short or is something else, nothing is known. */
interface_facts interface_read(const uint8_t *answer, size_t length, int index);

/* Says it on standard error, or nothing. A program waits, or ends without an answer. */
void interface_warn(const char *name, int index, bool waits);

#endif
