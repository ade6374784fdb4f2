/* Draws traces by the library: see acceptance/library.
 *
 *     drawn_traces SCENARIO VERSION SEED SEEDS EDGES
 *
 * For so many seeds from SEED on it prints the trace of at most so many edges that are drawn on all
 * wires, each of which is stepped. Then it draws as many with masks that change with each draw, and
 * looks at each answer: an edge has to be among the open edges of the wires in the masks, and
 * without one there has to be none. It ends with status 1 if that is not so, if a draw moves the bus,
 * or if a trace ends while an edge is open. */
#include <stdbool.h>
#include <stdio.h>
#include <stdlib.h>
#include <string.h>

#include "vmebus.h"

enum { DRIVERS = 22, MOST_OPEN = 36, MOST_BYTES = 65536 };

static char scenario[MOST_BYTES];
static size_t scenario_bytes;

static void fail(const char *what, unsigned long seed) {
    fprintf(stderr, "drawn_traces: %s, seed %lu\n", what, seed);
    exit(1);
}

static struct vmebus opened(uint32_t version) {
    struct vmebus bus;
    if (vmebus_open(&bus, version, scenario, scenario_bytes) != 0) fail("no bus is opened", 0);
    return bus;
}

static void step(struct vmebus *bus, uint32_t edge, unsigned long seed) {
    uint32_t told;
    uint32_t answer = vmebus_step(bus, VMEBUS_DRIVER(edge), VMEBUS_WIRE(edge), VMEBUS_FALL(edge),
                                  VMEBUS_VALUE(edge), &told);
    if (answer != VMEBUS_ACCEPTED) fail("a drawn edge is refused", seed);
}

/* How many edges of the wires in the masks are open, and whether this one is among them. */
static uint32_t open_within(const struct vmebus *bus, const uint32_t *wires, uint32_t edge,
                            bool *among) {
    uint32_t open[MOST_OPEN], all = 0;
    *among = false;
    for (uint32_t driver = 0; driver < DRIVERS; driver++) {
        uint32_t count = vmebus_open_edges(bus, driver, open, MOST_OPEN);
        for (uint32_t at = 0; at < count; at++) {
            if ((wires[driver] >> VMEBUS_WIRE(open[at]) & 1) == 0) continue;
            all++;
            if (open[at] == edge) *among = true;
        }
    }
    return all;
}

/* Prints the trace of a seed, drawn on all wires, up to where no edge is open. */
static void print_trace(uint32_t version, unsigned long seed, unsigned long edges) {
    struct vmebus bus = opened(version);
    struct vmebus_draws draws;
    uint32_t wires[DRIVERS], edge;
    for (int at = 0; at < DRIVERS; at++) wires[at] = 0xffff;
    vmebus_seed(&draws, seed);
    printf("vme %u\n", version);
    unsigned long made = 0;
    while (made < edges) {
        char line[16];
        if (vmebus_draw(&bus, &draws, wires, DRIVERS, &edge) != 0) break;
        uint32_t bytes = vmebus_spell(VMEBUS_DRIVER(edge), VMEBUS_WIRE(edge), VMEBUS_FALL(edge),
                                      VMEBUS_VALUE(edge), line, sizeof line);
        printf("%.*s\n", (int)bytes, line);
        step(&bus, edge, seed);
        made++;
    }
    bool among;
    if (made < edges && open_within(&bus, wires, edge, &among) > 0)
        fail("an open edge is not drawn", seed);
}

/* Draws with masks that change, and looks at each answer. */
static void look_at_masks(uint32_t version, unsigned long seed, unsigned long edges) {
    struct vmebus bus = opened(version), before;
    struct vmebus_draws draws, zeros;
    uint32_t wires[DRIVERS], edge, number = (uint32_t)seed * 2654435761u + 1;
    memset(&zeros, 0, sizeof zeros);
    vmebus_seed(&draws, seed);
    for (unsigned long made = 0; made < edges; made++) {
        bool among;
        for (int at = 0; at < DRIVERS; at++) {
            number = number * 1664525u + 1013904223u;
            wires[at] = number >> 16 & (made % 4 == 0 ? 0x1111u : 0xffffu);
        }
        before = bus;
        uint32_t answer = vmebus_draw(&bus, &draws, wires, DRIVERS, &edge);
        if (memcmp(&bus, &before, sizeof bus) != 0) fail("a draw moves the bus", seed);
        uint32_t all = open_within(&bus, wires, edge, &among);
        if (answer != (all == 0 ? VMEBUS_NONE_OPEN : 0u)) fail("a draw finds no open edge", seed);
        if (answer == VMEBUS_NONE_OPEN && edge != 0) fail("no edge has a number", seed);
        if (answer == VMEBUS_NONE_OPEN) continue;
        if (!among) fail("an edge is drawn that is not open, or outside the masks", seed);
        step(&bus, edge, seed);
    }
    if (vmebus_draw(&bus, &zeros, wires, DRIVERS, &edge) != VMEBUS_NO_BUS || edge != 0)
        fail("zeros draw", seed);
}

int main(int count, char **words) {
    if (count != 6) return 2;
    FILE *file = fopen(words[1], "rb");
    if (file == NULL) fail("the scenario cannot be read", 0);
    scenario_bytes = fread(scenario, 1, sizeof scenario, file);
    fclose(file);
    uint32_t version = (uint32_t)strtoul(words[2], NULL, 10);
    unsigned long seed = strtoul(words[3], NULL, 10), seeds = strtoul(words[4], NULL, 10);
    unsigned long edges = strtoul(words[5], NULL, 10);
    for (; seeds > 0; seeds--, seed++) {
        print_trace(version, seed, edges);
        look_at_masks(version, seed, edges);
    }
    return 0;
}
