/* Calls every function of mop.h with buffers between guard pages.
 *
 *     guards [EFFORT [SEED]]
 *
 * EFFORT is 1 to 100, of a hundred; 100 if it is not given. */
#include <stdio.h>
#include <stdlib.h>

#include "check.h"
#include "lent.h"
#include "tests.h"

int main(int argc, char **argv)
{
    if (argc > 1)
        effort = (unsigned)strtoul(argv[1], NULL, 10);
    random_seed(argc > 2 ? strtoull(argv[2], NULL, 10) : 1977);
    lent_prove_guards();
    test_reading();
    test_writing();
    test_images();
    test_machine();
    test_windows();
    test_blocks();
    test_load();
    test_strings();
    test_restarts();
    test_many();
    test_dump();
    test_loop();
    return print_calls() ? 0 : 1;
}
