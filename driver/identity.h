/* identity.h: what a machine says of itself and asks for, in words. */
#ifndef IDENTITY_H
#define IDENTITY_H

#include <stddef.h>
#include <stdint.h>
#include <stdio.h>

#include "mop.h"

/* A device, "5 (QNA)", or its number alone where document 001 (A.1) has none. */
void device_words(FILE *out, uint8_t device);

/* Which of the machine's processors is to be booted (001, 5.1.4), or its number alone. */
void processor_words(FILE *out, uint8_t processor);

/* The software that is asked for: MOP_FORM_.., or an id of so many bytes. */
void software_words(FILE *out, uint8_t form, const uint8_t *id, size_t id_length);

/* Bytes in quotes: \xNN for what is not printable ASCII, and a backslash before a quote or a backslash. */
void quoted_words(FILE *out, const uint8_t *bytes, size_t length);

#endif
