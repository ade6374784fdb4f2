/* Opens a bus on a stack of so many KiB, with nothing below that may be touched: see
 * acceptance/library.
 *
 *     little_stack KIB KIB_OF_DRAW KIB_OF_OTHERS SCENARIO..
 *
 * Prints for each scenario the number of the fault, or 0, and how many bytes of the stack were
 * written. Then it draws edges on a stack of KIB_OF_DRAW, and makes all other calls on one of
 * KIB_OF_OTHERS, on the bus that was opened last, if any, and prints the same. If a call takes more stack than there is, SIGSEGV ends the
 * program. */
#include <stdio.h>
#include <stdlib.h>
#include <string.h>
#include <sys/mman.h>
#include <ucontext.h>
#include <unistd.h>

#include "vmebus.h"

enum { MOST_BYTES = 1048577, FILL = 0xa5 };

static ucontext_t outside, inside;
static uint8_t *stack;
static size_t stack_bytes;

static char text[MOST_BYTES];
static size_t text_bytes;
static struct vmebus bus;
static uint32_t fault;

static void fail(const char *what) {
    perror(what);
    exit(1);
}

/* Lays a stack out, with a page below it that nothing may touch. */
static void lay_out(size_t bytes) {
    size_t page = (size_t)sysconf(_SC_PAGESIZE);
    stack_bytes = (bytes + page - 1) / page * page;
    uint8_t *room =
        mmap(NULL, page + stack_bytes, PROT_READ | PROT_WRITE, MAP_PRIVATE | MAP_ANONYMOUS, -1, 0);
    if (room == MAP_FAILED) fail("mmap");
    if (mprotect(room, page, PROT_NONE) != 0) fail("mprotect");
    stack = room + page;
}

/* Does a work on that stack, and returns how many bytes of it were written. */
static size_t written_by(void (*work)(void)) {
    memset(stack, FILL, stack_bytes);
    if (getcontext(&inside) != 0) fail("getcontext");
    inside.uc_stack.ss_sp = stack;
    inside.uc_stack.ss_size = stack_bytes;
    inside.uc_link = &outside;
    makecontext(&inside, work, 0);
    if (swapcontext(&outside, &inside) != 0) fail("swapcontext");
    size_t free = 0;
    while (free < stack_bytes && stack[free] == FILL) free++;
    return stack_bytes - free;
}

static void open_bus(void) {
    struct vmebus before = bus;
    char line[VMEBUS_MOST_FAULT];
    fault = vmebus_open(&bus, 1, text, text_bytes);
    if (fault != 0) bus = before;
    vmebus_fault_text(1, text, text_bytes, line, sizeof line);
}

/* Asks of an edge and its driver all that there is to ask. */
static uint32_t ask(uint32_t driver, uint32_t wire, uint32_t fall, uint32_t value) {
    uint32_t numbers[36];
    char line[64];
    struct vmebus_draws draws;
    vmebus_seed(&draws, driver);
    return vmebus_verdict(driver, value, line, sizeof line) | vmebus_failing(&bus, driver, wire, fall, value, numbers, 36) |
           vmebus_why(&bus, driver, wire, fall, value, 0, line, sizeof line) |
           vmebus_spell(driver, wire, fall, value, line, sizeof line) |
           vmebus_open_edges(&bus, driver, numbers, 36) | vmebus_low(&bus, driver, wire) |
           vmebus_has(&bus, driver, wire) | vmebus_build(numbers, 36);
}

/* Draws edges on all wires, and makes them. */
static void draw_edges(void) {
    uint32_t wires[22], edge, told;
    struct vmebus_draws draws;
    for (int at = 0; at < 22; at++) wires[at] = 0xffff;
    vmebus_seed(&draws, 1);
    for (int left = 200; left > 0; left--)
        if (vmebus_draw(&bus, &draws, wires, 22, &edge) == 0)
            vmebus_step(&bus, VMEBUS_DRIVER(edge), VMEBUS_WIRE(edge), VMEBUS_FALL(edge),
                        VMEBUS_VALUE(edge), &told);
}

/* Makes each edge that some numbers name, each line that some bytes are, and looks at the bus. */
static void call_others(void) {
    uint32_t told, seen = 0;
    for (uint32_t number = 0; number < 22 * 16 * 2; number++) {
        seen |= ask(number / 32, number / 2 % 16, number % 2, number % 56);
        vmebus_step(&bus, number / 32, number / 2 % 16, number % 2, number % 56, &told);
        vmebus_line(&bus, text + number, number % 64, &told);
        seen |= vmebus_holder(&bus) | vmebus_grant_at(&bus) | vmebus_pins(&bus, number % 24);
    }
    fault = seen == UINT32_MAX;
}

static void read_scenario(const char *path) {
    FILE *file = fopen(path, "rb");
    if (file == NULL) fail(path);
    text_bytes = fread(text, 1, sizeof text, file);
    if (ferror(file)) fail(path);
    fclose(file);
}

int main(int count, char **words) {
    if (count < 5) return 1;
    lay_out(strtoul(words[1], NULL, 10) * 1024);
    for (int at = 4; at < count; at++) {
        read_scenario(words[at]);
        size_t written = written_by(open_bus);
        printf("%u %zu\n", fault, written);
        fflush(stdout);
    }
    lay_out(strtoul(words[2], NULL, 10) * 1024);
    printf("draws %zu\n", written_by(draw_edges));
    fflush(stdout);
    lay_out(strtoul(words[3], NULL, 10) * 1024);
    printf("others %zu\n", written_by(call_others));
    return 0;
}
