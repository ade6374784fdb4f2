/* Judges a trace edge by edge, as a testbench does while it makes them, and prints what `vmebus replay` prints.
 *
 *     bench SCENARIO TRACE
 *
 * Each edge goes to two buses: to one as the line of a trace, and to the other by its numbers. The status is 0, or 2 where
 * an edge was refused, or 1 at a fault. */
#include <stdbool.h>
#include <stdio.h>
#include <stdlib.h>
#include <string.h>

#include "vmebus.h"

static const char *const wires[] = {"bg0",   "bg1",  "bg2", "bg3", "bclr", "iack", "berr",    "br",
                                    "bgout", "bbsy", "addr", "as", "ds",   "irq",  "iackout", "dtack"};

struct edge {
    uint32_t driver, wire, fall, value;
};

static void fail(const char *what, unsigned long number) {
    fprintf(stderr, "bench: %s %lu\n", what, number);
    exit(1);
}

/* Reads a whole file. */
static char *read_file(const char *path, size_t *bytes) {
    FILE *file = fopen(path, "rb");
    size_t room = 4096;
    char *text = malloc(room);
    *bytes = 0;
    while (file && text) {
        size_t count = fread(text + *bytes, 1, room - *bytes, file);
        *bytes += count;
        if (count == 0 && feof(file)) {
            fclose(file);
            return text;
        }
        if (count == 0) break;
        if (*bytes == room) text = realloc(text, room *= 2);
    }
    perror(path);
    exit(1);
}

/* The numbers of the edge that a line spells, which vmebus_line has found to spell one. */
static struct edge numbers_of(const char *line, size_t bytes) {
    char text[65] = "", wire[8] = "", sign = 0, kind = 0;
    unsigned driver = 0, argument = 0;
    struct edge edge = {0, 0, 0, 0};
    memcpy(text, line, bytes);
    if (text[0] == 'c')
        sscanf(text, "c %7[a-z0-3]%c", wire, &sign);
    else
        sscanf(text, "%u %7[a-z]%c %c%u", &driver, wire, &sign, &kind, &argument);
    edge.driver = driver;
    while (strcmp(wires[edge.wire], wire) != 0) edge.wire++;
    edge.fall = sign == '-';
    if (kind != 0) edge.value = kind == 'i' ? VMEBUS_ACKNOWLEDGE(argument) : VMEBUS_ACCESS(argument);
    return edge;
}

/* Prints the verdict on the edge of a number. */
static void print_verdict(unsigned long number, uint32_t answer, uint32_t delivered) {
    char verdict[VMEBUS_MOST_VERDICT + 1];
    vmebus_verdict(answer, delivered, verdict, sizeof verdict);
    printf("%lu %s\n", number, verdict);
}

/* Judges the edge of a line on both buses, and answers the verdict. */
static uint32_t judge(struct vmebus *by_line, struct vmebus *by_numbers, unsigned long number, const char *line,
                      size_t bytes) {
    uint32_t told, told_too;
    uint32_t answer = vmebus_line(by_line, line, bytes, &told);
    if (answer == VMEBUS_NO_EDGE) {
        fflush(stdout);
        fail("no edge is", number);
    }
    struct edge edge = numbers_of(line, bytes);
    uint32_t answer_too = vmebus_step(by_numbers, edge.driver, edge.wire, edge.fall, edge.value, &told_too);
    if (answer != answer_too || told != told_too || memcmp(by_line, by_numbers, sizeof *by_line) != 0)
        fail("a line and its numbers are judged unlike: edge", number);
    print_verdict(number, answer, told);
    return answer;
}

/* The version of a trace's header, and where its first edge begins. */
static uint32_t version_of(const char *trace, size_t bytes) {
    if (bytes < 6 || memcmp(trace, "vme ", 4) != 0 || trace[5] != '\n') fail("no header of a trace: line", 1);
    return (uint32_t)(trace[4] - '0');
}

/* Opens a bus, or ends the program. A size is no fault of the scenario, so vmebus_fault_text writes no line for it. */
static void open_bus(struct vmebus *bus, uint32_t version, const char *scenario, size_t bytes) {
    uint32_t fault = vmebus_open(bus, version, scenario, bytes);
    if (fault == 0) return;
    char line[VMEBUS_MOST_FAULT + 1] = "header and library are of different sizes";
    if (fault != VMEBUS_FAULT_SIZE) vmebus_fault_text(version, scenario, bytes, line, sizeof line);
    fprintf(stderr, "bench: %s\n", line);
    exit(1);
}

int main(int count, char **words) {
    if (count != 3) {
        fprintf(stderr, "usage: bench SCENARIO TRACE\n");
        return 1;
    }
    size_t scenario_bytes, trace_bytes;
    char *scenario = read_file(words[1], &scenario_bytes), *trace = read_file(words[2], &trace_bytes);
    uint32_t version = version_of(trace, trace_bytes);
    struct vmebus by_line, by_numbers;
    memset(&by_line, 0, sizeof by_line);
    memset(&by_numbers, 0xff, sizeof by_numbers);
    open_bus(&by_line, version, scenario, scenario_bytes);
    open_bus(&by_numbers, version, scenario, scenario_bytes);

    unsigned long accepted = 0, refused = 0;
    const char *end = trace + trace_bytes, *line = trace + 6, *feed;
    for (; (feed = memchr(line, '\n', (size_t)(end - line))) != NULL; line = feed + 1) {
        if (judge(&by_line, &by_numbers, accepted + refused + 1, line, (size_t)(feed - line)) == VMEBUS_ACCEPTED)
            accepted++;
        else
            refused++;
    }
    if (line != end) {
        fflush(stdout);
        fail("the trace is cut off behind edge", accepted + refused);
    }
    printf("accepted %lu refused %lu\n", accepted, refused);
    free(scenario);
    free(trace);
    return refused != 0 ? 2 : 0;
}
