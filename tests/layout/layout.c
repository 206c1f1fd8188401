/* Prints the layout of every struct of mop.h as the C compiler lays it out: its
 * size, and each field's place and size. fields.inc has a line for each, made
 * from the header's text by tests/header. */
#include <stdio.h>

#include "mop.h"

#define SIZE(type) printf(#type " %zu\n", sizeof(type));
#define PLACE(type, field)                                                     \
    printf(#type "." #field " %zu %zu\n", offsetof(type, field),               \
        sizeof(((type *)0)->field));

int main(void)
{
#include "fields.inc"
    return 0;
}
