/* A program whose own functions have names of the kit's: the shared library calls none of them.
 *
 *     own_names SCENARIO
 *
 * It has to be linked so that the loader sees these names (-rdynamic). The status is 0 if a bus is opened. */
#include <stdio.h>
#include <stdlib.h>

#include "vmebus.h"

/* Each is called in place of the kit's if the library does not keep its names to itself. */
#define OWN(name)                                                                 \
    void name(void);                                                              \
    void name(void) {                                                             \
        fprintf(stderr, "own_names: the library calls the program's " #name "\n"); \
        exit(1);                                                                  \
    }

OWN(rattle_alloc)
OWN(rattle_realloc)
OWN(rattle_dealloc)

int main(int count, char **words) {
    static char scenario[4096];
    static struct vmebus bus;
    FILE *file = count > 1 ? fopen(words[1], "rb") : NULL;
    size_t bytes = file ? fread(scenario, 1, sizeof scenario, file) : 0;
    uint32_t fault = vmebus_open(&bus, 1, scenario, bytes);
    if (fault != 0) fprintf(stderr, "own_names: the bus is not opened: fault %u\n", (unsigned)fault);
    return fault != 0;
}
