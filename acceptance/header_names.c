/* Prints all that vmebus.h lets a program see of a bus, by its names alone: see acceptance/library.
 *
 *     header_names NAME SCENARIO TRACE [NAME SCENARIO TRACE]..
 *
 * Each edge is made by its numbers on one bus, and as a line on another, which have to stay alike.
 * No number of the header stands here, so that a name with a wrong number makes, or prints,
 * something else. */
#include <stdbool.h>
#include <stdio.h>
#include <stdlib.h>
#include <string.h>

#include "vmebus.h"

enum { MOST_SLOTS = 21, MOST_BYTES = 64, BEHIND = 64 };

struct name {
    const char *name;
    uint32_t number;
};

static const struct name wires[] = {
    {"bg0", VMEBUS_BG0},         {"bg1", VMEBUS_BG1},     {"bg2", VMEBUS_BG2},
    {"bg3", VMEBUS_BG3},         {"bclr", VMEBUS_BCLR},   {"iack", VMEBUS_IACK},
    {"berr", VMEBUS_BERR},       {"br", VMEBUS_BR},       {"bgout", VMEBUS_BGOUT},
    {"bbsy", VMEBUS_BBSY},       {"addr", VMEBUS_ADDR},   {"as", VMEBUS_AS},
    {"ds", VMEBUS_DS},           {"irq", VMEBUS_IRQ},     {"iackout", VMEBUS_IACKOUT},
    {"dtack", VMEBUS_DTACK},
};

static const struct name pins[] = {
    {"BR0*", VMEBUS_PIN_BR(0)},   {"BR1*", VMEBUS_PIN_BR(1)},   {"BR2*", VMEBUS_PIN_BR(2)},
    {"BR3*", VMEBUS_PIN_BR(3)},   {"BBSY*", VMEBUS_PIN_BBSY},   {"BCLR*", VMEBUS_PIN_BCLR},
    {"AS*", VMEBUS_PIN_AS},       {"DS0*", VMEBUS_PIN_DS},      {"DTACK*", VMEBUS_PIN_DTACK},
    {"BERR*", VMEBUS_PIN_BERR},   {"BGIN*", VMEBUS_PIN_BGIN},   {"IACKIN*", VMEBUS_PIN_IACKIN},
    {"IRQ1*", VMEBUS_PIN_IRQ(1)}, {"IRQ2*", VMEBUS_PIN_IRQ(2)}, {"IRQ3*", VMEBUS_PIN_IRQ(3)},
    {"IRQ4*", VMEBUS_PIN_IRQ(4)}, {"IRQ5*", VMEBUS_PIN_IRQ(5)}, {"IRQ6*", VMEBUS_PIN_IRQ(6)},
    {"IRQ7*", VMEBUS_PIN_IRQ(7)},
};

/* The conditions by their texts, with N for a level. */
static const struct name conditions[] = {
    {"all four grants are high", VMEBUS_CONDITION_GRANTS_HIGH},
    {"the arbiter picks level N", VMEBUS_CONDITION_PICKED},
    {"the arbiter is PRI", VMEBUS_CONDITION_ARBITER_IS_PRI},
    {"a request above the level last granted is low", VMEBUS_CONDITION_HIGHER_ASKED},
    {"bus clear is not due", VMEBUS_CONDITION_CLEAR_NOT_DUE},
    {"BBSY* is high", VMEBUS_CONDITION_BUSY_HIGH},
    {"BBSY* is low", VMEBUS_CONDITION_BUSY_LOW},
    {"AS* is high", VMEBUS_CONDITION_ADDRESS_STROBE_HIGH},
    {"AS* is low", VMEBUS_CONDITION_ADDRESS_STROBE_LOW},
    {"DS0* is high", VMEBUS_CONDITION_DATA_STROBE_HIGH},
    {"DS0* is low", VMEBUS_CONDITION_DATA_STROBE_LOW},
    {"DTACK* is high", VMEBUS_CONDITION_DTACK_HIGH},
    {"BERR* is high", VMEBUS_CONDITION_BERR_HIGH},
    {"DTACK* or BERR* is low", VMEBUS_CONDITION_ANSWERED},
    {"an acknowledge is shown", VMEBUS_CONDITION_ACKNOWLEDGE_SHOWN},
    {"a cycle is shown", VMEBUS_CONDITION_CYCLE_SHOWN},
    {"the own slot is shown", VMEBUS_CONDITION_OWN_SLOT_SHOWN},
    {"own grant-in is high", VMEBUS_CONDITION_GRANT_IN_HIGH},
    {"own grant-in is low", VMEBUS_CONDITION_GRANT_IN_LOW},
    {"own iackin is low", VMEBUS_CONDITION_ACKNOWLEDGE_IN_LOW},
    {"own br is high", VMEBUS_CONDITION_OWN_REQUEST_HIGH},
    {"own br is low", VMEBUS_CONDITION_OWN_REQUEST_LOW},
    {"own bgout is high", VMEBUS_CONDITION_OWN_GRANT_OUT_HIGH},
    {"own bbsy is high", VMEBUS_CONDITION_OWN_BUSY_HIGH},
    {"own bbsy is low", VMEBUS_CONDITION_OWN_BUSY_LOW},
    {"own addr is on", VMEBUS_CONDITION_OWN_ADDRESS_ON},
    {"own addr is off", VMEBUS_CONDITION_OWN_ADDRESS_OFF},
    {"own addr is off or own as is low", VMEBUS_CONDITION_ADDRESS_FREE},
    {"own as is low", VMEBUS_CONDITION_OWN_ADDRESS_STROBE_LOW},
    {"own ds is high", VMEBUS_CONDITION_OWN_DATA_STROBE_HIGH},
    {"own iackout is high", VMEBUS_CONDITION_OWN_ACKNOWLEDGE_OUT_HIGH},
    {"own dtack is high", VMEBUS_CONDITION_OWN_DTACK_HIGH},
    {"some BR line is low", VMEBUS_CONDITION_ASKED},
    {"fewer cycles than the burst", VMEBUS_CONDITION_WITHIN_BURST},
    {"the board handles level N", VMEBUS_CONDITION_HANDLED},
    {"IRQN* is low", VMEBUS_CONDITION_INTERRUPT_LOW},
    {"an own ds- in this cycle", VMEBUS_CONDITION_STROBED},
    {"no own ds- in this cycle", VMEBUS_CONDITION_NOT_STROBED},
    {"the request was served", VMEBUS_CONDITION_SERVED},
    {"pending at level N", VMEBUS_CONDITION_PENDING},
    {"not pending at level N", VMEBUS_CONDITION_NOT_PENDING},
    {"iack and every iackout are high", VMEBUS_CONDITION_CHAIN_HIGH},
    {"nobody can answer", VMEBUS_CONDITION_NOBODY_CAN_ANSWER},
    {"the grant has passed the last board", VMEBUS_CONDITION_PASSED_THE_LAST_BOARD},
    {"every bgout is high", VMEBUS_CONDITION_GRANTS_THROUGH},
    {"there is the driver", VMEBUS_CONDITION_HAS_DRIVER},
    {"the other state", VMEBUS_CONDITION_OTHER_STATE},
};

static const struct name faults[] = {
    {"P1", VMEBUS_FAULT_P1},
    {"P2", VMEBUS_FAULT_P2},
    {"P3", VMEBUS_FAULT_P3},
    {"P4", VMEBUS_FAULT_P4},
    {"P5", VMEBUS_FAULT_P5},
    {"P6", VMEBUS_FAULT_P6},
    {"P7", VMEBUS_FAULT_P7},
    {"P8", VMEBUS_FAULT_P8},
    {"P9", VMEBUS_FAULT_P9},
    {"Q1", VMEBUS_FAULT_Q1},
    {"Q2", VMEBUS_FAULT_Q2},
    {"Q3", VMEBUS_FAULT_Q3},
    {"Q4", VMEBUS_FAULT_Q4},
    {"Q6", VMEBUS_FAULT_Q6},
    {"F2", VMEBUS_FAULT_F2},
    {"X1", VMEBUS_FAULT_X1},
    {"SIZE", VMEBUS_FAULT_SIZE},
};

/* The numbers of an edge. */
struct edge {
    uint32_t driver, wire, fall, value;
};

struct text {
    char *bytes;
    size_t length;
};

static void fail(const char *what) {
    perror(what);
    exit(1);
}

/* Reads a whole file. */
static struct text read_file(const char *path) {
    FILE *file = fopen(path, "rb");
    struct text text = {NULL, 0};
    size_t room = 4096, count = 0;
    if (file == NULL) fail(path);
    do {
        text.length += count;
        if (text.bytes == NULL || text.length == room) text.bytes = realloc(text.bytes, room *= 2);
        if (text.bytes == NULL) fail("memory");
        count = fread(text.bytes + text.length, 1, room - text.length, file);
    } while (count > 0);
    if (ferror(file)) fail(path);
    fclose(file);
    return text;
}

/* The number of the wire that a word names; one that no wire has for any other. */
static uint32_t wire_of(const char *word) {
    for (size_t at = 0; at < sizeof wires / sizeof *wires; at++)
        if (strcmp(wires[at].name, word) == 0) return wires[at].number;
    return UINT32_MAX;
}

/* The numbers of the edge that a line spells. */
static struct edge edge_of(const char *line, size_t bytes) {
    char text[MOST_BYTES + 1] = "", wire[8] = "", sign = 0, kind = 0;
    unsigned driver = VMEBUS_CONTROLLER, argument = 0;
    memcpy(text, line, bytes < MOST_BYTES ? bytes : MOST_BYTES);
    if (text[0] == 'c')
        sscanf(text, "c %7[a-z0-3]%c", wire, &sign);
    else
        sscanf(text, "%u %7[a-z]%c %c%u", &driver, wire, &sign, &kind, &argument);
    uint32_t value = 0;
    if (kind == 'i') value = VMEBUS_ACKNOWLEDGE(argument);
    if (kind == 'r') value = VMEBUS_ACCESS(argument);
    return (struct edge){driver, wire_of(wire), sign == '-', value};
}

/* Makes an edge by its numbers. */
static uint32_t step(struct vmebus *bus, struct edge it, uint32_t *delivered) {
    return vmebus_step(bus, it.driver, it.wire, it.fall, it.value, delivered);
}

/* The numbers of an edge in one word. */
static struct edge edge_in(uint32_t word) {
    return (struct edge){VMEBUS_DRIVER(word), VMEBUS_WIRE(word), VMEBUS_FALL(word),
                         VMEBUS_VALUE(word)};
}

/* Prints an edge as the library spells it. */
static void print_edge(struct edge it) {
    char line[VMEBUS_MOST_LINE + 1] = "";
    vmebus_spell(it.driver, it.wire, it.fall, it.value, line, sizeof line);
    printf("%s", line);
}

/* Prints the conditions that an edge fails: each by its name, and as the library writes it. */
static void print_failing(const struct vmebus *bus, struct edge it) {
    uint32_t numbers[8];
    uint32_t count = vmebus_failing(bus, it.driver, it.wire, it.fall, it.value, numbers, 8);
    for (uint32_t place = 0; place < count; place++) {
        char text[VMEBUS_MOST_WHY + 1] = "";
        vmebus_why(bus, it.driver, it.wire, it.fall, it.value, place, text, sizeof text);
        printf("fails");
        for (size_t at = 0; at < sizeof conditions / sizeof *conditions; at++)
            if (conditions[at].number == numbers[place]) printf(" %s", conditions[at].name);
        printf(": %s\n", text);
    }
}

/* Prints what a driver could make next, which of its wires are low, and which it has. */
static void print_driver(const struct vmebus *bus, uint32_t driver) {
    uint32_t edges[MOST_BYTES], count = vmebus_open_edges(bus, driver, edges, MOST_BYTES);
    printf("open");
    for (uint32_t at = 0; at < count; at++) {
        printf(at == 0 ? " " : ", ");
        print_edge(edge_in(edges[at]));
    }
    printf("\nlow");
    for (size_t at = 0; at < sizeof wires / sizeof *wires; at++)
        if (vmebus_low(bus, driver, wires[at].number)) printf(" %s", wires[at].name);
    printf("\nhas");
    for (size_t at = 0; at < sizeof wires / sizeof *wires; at++)
        if (vmebus_has(bus, driver, wires[at].number)) printf(" %s", wires[at].name);
    putchar('\n');
}

/* Prints this of all drivers, and of one that there is not. */
static void print_drivers(const struct vmebus *bus) {
    for (uint32_t driver = VMEBUS_CONTROLLER; driver <= MOST_SLOTS + 1; driver++)
        print_driver(bus, driver);
}

/* Prints the version of the header, whether the library is of another build, and the numbers of rooms and faults. */
static void print_build(void) {
    uint32_t numbers[4] = {0, 0, 0, 0}, version = VMEBUS_VERSION;
    printf("version %u.%u.%u\n", version >> 16, version >> 8 & 0xff, version & 0xff);
    if (vmebus_build(numbers, 4) != VMEBUS_MOST_BUILD || numbers[0] != version || numbers[1] != VMEBUS_WORDS ||
        numbers[2] != VMEBUS_DRAWS_WORDS)
        puts("the library is of another build");
    printf("most fault %u verdict %u failing %u why %u line %u open %u build %u masks %u\n", VMEBUS_MOST_FAULT,
           VMEBUS_MOST_VERDICT, VMEBUS_MOST_FAILING, VMEBUS_MOST_WHY, VMEBUS_MOST_LINE, VMEBUS_MOST_OPEN, VMEBUS_MOST_BUILD,
           VMEBUS_MASKS);
    printf("faults");
    for (size_t at = 0; at < sizeof faults / sizeof *faults; at++) printf(" %s %u", faults[at].name, faults[at].number);
    putchar('\n');
}

/* Prints an answer, with what is delivered. The library writes the same of an answer to an edge. */
static void print_answer(uint32_t answer, uint32_t delivered) {
    char verdict[VMEBUS_MOST_VERDICT + 1] = "";
    vmebus_verdict(answer, delivered, verdict, sizeof verdict);
    printf("%s: ", verdict);
    if (VMEBUS_IS_REFUSED(answer)) {
        uint32_t error = VMEBUS_ERROR(answer);
        printf("E%u", error);
        if (error > 2) printf(" %c%u", error == 3 ? 'G' : 'S', VMEBUS_RULE(answer));
    } else if (answer == VMEBUS_ACCEPTED)
        printf("ok");
    else if (answer == VMEBUS_NO_EDGE)
        printf("no edge");
    else
        printf(answer == VMEBUS_NO_BUS ? "no bus" : "an answer that has no name");
    if (delivered != 0)
        printf(" irq %u to %u from %u status %u", VMEBUS_LEVEL(delivered),
               VMEBUS_HANDLER(delivered), VMEBUS_ANSWERED_BY(delivered), VMEBUS_STATUS(delivered));
    putchar('\n');
}

/* Prints what is shown: an acknowledge, an access, or nothing. */
static void print_shown(uint32_t shown) {
    for (unsigned level = 1; level <= 7; level++)
        if (shown == VMEBUS_ACKNOWLEDGE(level)) printf(" i%u", level);
    for (unsigned slot = 1; slot <= MOST_SLOTS; slot++)
        if (shown == VMEBUS_ACCESS(slot)) printf(" r%u", slot);
}

/* Prints what a driver reads: its pins that are low, and what is shown. */
static void print_pins(const struct vmebus *bus, uint32_t driver) {
    uint32_t read = vmebus_pins(bus, driver);
    for (size_t at = 0; at < sizeof pins / sizeof *pins; at++)
        if (read & pins[at].number) printf(" %s", pins[at].name);
    print_shown(VMEBUS_SHOWN(read));
    putchar('\n');
}

/* Prints all that a bus shows: who holds it, where a grant travels, and what each driver reads,
 * and one that there is not. */
static void print_bus(const struct vmebus *bus) {
    printf("holder %u grant %u\nc", vmebus_holder(bus), vmebus_grant_at(bus));
    print_pins(bus, VMEBUS_CONTROLLER);
    for (uint32_t slot = 1; slot <= MOST_SLOTS + 1; slot++) {
        printf("%u", slot);
        print_pins(bus, slot);
    }
}

/* Prints the fault of a scenario, of the trace's version, or of a size, by its name. */
static void print_fault(uint32_t fault) {
    for (size_t at = 0; at < sizeof faults / sizeof *faults; at++)
        if (faults[at].number == fault) printf("%s", faults[at].name);
    putchar('\n');
}

/* Prints how a bus and draws of another size are answered. */
static void print_sizes(struct text scenario) {
    struct vmebus bus;
    struct vmebus_draws draws;
    print_fault(vmebus_open_sized(&bus, sizeof bus - 60, 1, scenario.bytes, scenario.length));
    print_fault(vmebus_seed_sized(&draws, sizeof draws + 4, 1));
}

/* Prints the line of the fault of a version and a scenario. */
static void print_line_of_fault(uint32_t version, struct text scenario) {
    char line[VMEBUS_MOST_FAULT + 1] = "";
    vmebus_fault_text(version, scenario.bytes, scenario.length, line, sizeof line);
    puts(line);
}

/* Opens a bus at the head of a room of some byte. A bus takes its own words, and no byte behind. */
static uint32_t open_within(struct vmebus *bus, int byte, uint32_t version, struct text text) {
    uint8_t *room = malloc(sizeof *bus + BEHIND);
    if (room == NULL) fail("memory");
    memset(room, byte, sizeof *bus + BEHIND);
    uint32_t fault = vmebus_open((struct vmebus *)room, version, text.bytes, text.length);
    for (size_t at = 0; at < BEHIND; at++)
        if (room[sizeof *bus + at] != (uint8_t)byte) puts("a bus is longer than its words");
    memcpy(bus, room, sizeof *bus);
    free(room);
    return fault;
}

/* Prints how no edge is answered: on words that are no bus, by a line that spells none, by a driver
 * that there is not, and by a draw on no wires. */
static void print_no_edge(struct vmebus *bus) {
    struct vmebus zeros;
    uint32_t delivered = 1;
    memset(&zeros, 0, sizeof zeros);
    uint32_t answer = vmebus_step(&zeros, VMEBUS_CONTROLLER, VMEBUS_BG3, 1, 0, &delivered);
    print_answer(answer, delivered);
    delivered = 1;
    answer = vmebus_line(bus, "", 0, &delivered);
    print_answer(answer, delivered);
    delivered = 1;
    answer = vmebus_step(bus, MOST_SLOTS + 1, VMEBUS_BR, 1, 0, &delivered);
    print_answer(answer, delivered);
    struct vmebus_draws draws;
    uint32_t wires[1] = {0}, edge;
    vmebus_seed(&draws, 0);
    answer = vmebus_draw(bus, &draws, wires, 1, &edge);
    puts(answer == VMEBUS_NONE_OPEN ? "none open" : "an edge is drawn");
}

/* Makes the edge of a line on both buses, and prints the answer and the bus behind it. Returns
 * whether the line spells an edge. */
static bool follow(struct vmebus *by_line, struct vmebus *by_numbers, struct text line) {
    uint32_t told = 1, told_too = 1;
    uint32_t answer = vmebus_line(by_line, line.bytes, line.length, &told);
    if (answer == VMEBUS_NO_EDGE) {
        print_answer(answer, told);
        return false;
    }
    struct edge edge = edge_of(line.bytes, line.length);
    print_edge(edge);
    putchar('\n');
    print_failing(by_numbers, edge);
    uint32_t answer_too = step(by_numbers, edge, &told_too);
    print_answer(answer_too, told_too);
    if (answer != answer_too || told != told_too) puts("a line is answered unlike its numbers");
    if (memcmp(by_line, by_numbers, sizeof *by_line) != 0) puts("a line makes another edge");
    print_bus(by_numbers);
    print_driver(by_numbers, edge.driver);
    return true;
}

/* The version of a trace's header, or 0 for one that is none. */
static uint32_t version_of(struct text trace) {
    if (trace.length < 6 || memcmp(trace.bytes, "vme ", 4) != 0 || trace.bytes[5] != '\n') return 0;
    return (uint32_t)(trace.bytes[4] - '0');
}

/* Prints what is seen of a trace on the bus of a scenario, up to the first line that spells no
 * edge. */
static void judge(struct text scenario, struct text trace) {
    struct vmebus by_line, by_numbers;
    uint32_t version = version_of(trace);
    uint32_t fault = open_within(&by_line, 0, version, scenario);
    open_within(&by_numbers, 0xff, version, scenario);
    if (fault != 0) {
        print_fault(fault);
        print_line_of_fault(version, scenario);
        return;
    }
    if (memcmp(&by_line, &by_numbers, sizeof by_line) != 0) puts("a bus is shorter than its words");
    print_build();
    print_sizes(scenario);
    print_no_edge(&by_numbers);
    print_bus(&by_numbers);
    print_drivers(&by_numbers);
    const char *line = trace.bytes + 6, *end = trace.bytes + trace.length, *feed;
    for (unsigned long number = 1; (feed = memchr(line, '\n', (size_t)(end - line))); number++) {
        printf("%lu ", number);
        struct text text = {(char *)line, (size_t)(feed - line)};
        if (!follow(&by_line, &by_numbers, text)) break;
        line = feed + 1;
    }
    print_drivers(&by_numbers);
}

int main(int count, char **words) {
    for (int at = 1; at + 2 < count; at += 3) {
        struct text scenario = read_file(words[at + 1]), trace = read_file(words[at + 2]);
        printf("= %s\n", words[at]);
        judge(scenario, trace);
        free(scenario.bytes);
        free(trace.bytes);
    }
    return 0;
}
