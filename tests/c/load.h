/* A call of the host's load, and what must hold of its answer. */
#ifndef LOAD_H
#define LOAD_H

#include "check.h"
#include "make.h"
#include "mop.h"

/* What goes in, but for the buffers. */
typedef struct load_input {
    enum call call;
    mop_load_settings settings;
    mop_load session;
    uint8_t *file;
    size_t file_length;
    uint8_t parameters[2 * BEYOND];
    size_t parameters_length;
    uint8_t frame[BEYOND];
    size_t frame_length;
    size_t room;
} load_input;

/* Its image, as the library sees it. */
mop_image load_image(const load_input *in);

/* The header's refusal, in its order. */
unsigned load_refusal(const load_input *in);

/* The call, with every lent buffer on both sides of a guard; what it gives. */
mop_load_step load_check(const load_input *in);

/* Each of the four calls answers with this refusal. */
void load_each(load_input *in, unsigned refusal);

#endif
