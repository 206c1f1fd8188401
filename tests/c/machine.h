/* A call of the machine, and what must hold of its answer. */
#ifndef MACHINE_H
#define MACHINE_H

#include "check.h"
#include "make.h"
#include "mop.h"

/* What goes in, but for the buffers. */
typedef struct machine_input {
    enum call call;
    mop_machine_settings settings;
    mop_machine machine;
    uint8_t frame[BEYOND];
    size_t frame_length;
    const uint8_t *memory;
    size_t memory_length;
    size_t room;
} machine_input;

/* Where the parameter block begins in a memory of so many bytes. */
size_t block_at(size_t memory_length);

/* An entry of code 20: its type and the letters of its value. Type 0 ends a
 * list of them. */
typedef struct entry {
    uint8_t type;
    const char *letters;
} entry;

/* A code 20 of number 0 with these entries, to the machine with these settings,
 * and all else good: its step. */
mop_machine_step kept(
    machine_input *in, mop_machine_settings settings, const entry *entries);

/* The header's refusal, in its order. */
unsigned machine_refusal(const machine_input *in);

/* The call, with every lent buffer on both sides of a guard; what it gives. */
mop_machine_step machine_check(machine_input *in);

/* The memory that the last call left. */
const uint8_t *machine_memory(void);

#endif
