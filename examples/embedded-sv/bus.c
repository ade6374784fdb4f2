/* A bus for a bench in SystemVerilog, which cannot hold a struct of C itself. All else it calls in the library. */
#include <stdio.h>
#include <stdlib.h>

#include "vmebus.h"

enum { SCENARIO_LIMIT = 1048576, NO_FILE = 100 };

/* A bus on the backplane of a scenario's file; none, and the number of the fault, where it is not opened: that of the
 * library, or 100 where the file is not read. */
void *bus_open(const char *scenario, unsigned version, unsigned *fault) {
    static uint8_t text[SCENARIO_LIMIT + 1];
    struct vmebus *bus = calloc(1, sizeof *bus);
    FILE *file = fopen(scenario, "rb");
    *fault = NO_FILE;
    if (file != NULL) {
        size_t bytes = fread(text, 1, sizeof text, file);
        if (bus != NULL && !ferror(file)) *fault = vmebus_open(bus, version, text, bytes);
        fclose(file);
    }
    if (*fault == 0) return bus;
    free(bus);
    return NULL;
}

void bus_close(void *bus) {
    free(bus);
}
