/* Calls the library with a million records, edges and lines, most of which no bus ever has: each is answered.
 *
 *     any_words SCENARIO TRACE [ROUNDS]
 *
 * The numbers are drawn from a fixed seed. The records are those of a bus on which the trace is
 * made, with few or all of their words drawn. All that a call is handed ends right before a page that
 * nothing may touch, or begins right behind one. In each round each function is called at least once. The scenarios are
 * mostly the first bytes of the given one, and now and then all of it.
 *
 * It ends with status 1 if a refusal changed a bus or delivered something, if words that are no bus show more than 0, if an
 * answer is none that the header names, if a verdict or a build is not the one that the header says, if the line of a fault
 * has another name than the fault, or if a bus or draws of another size are taken. */
#define _DEFAULT_SOURCE
#include <stdbool.h>
#include <stdio.h>
#include <stdlib.h>
#include <string.h>
#include <sys/mman.h>
#include <unistd.h>

#include "vmebus.h"

/* What is handed over, each in pages of its own. */
enum part { BUS, DRAWS, NUMBERS, TEXT, MASKS, DELIVERED, SCENARIO, PARTS };

/* What no text has; the most bytes by which a size is too large; and of a scenario, mostly. */
enum { FILL = 1, MORE = 64, FEW = 48 };

/* Pages between two that nothing may touch. */
struct pages {
    uint8_t *first, *end;
};

static struct pages parts[PARTS];

static uint64_t state = 0x9e3779b97f4a7c15u;

/* The next number of a xorshift generator. */
static uint32_t draw(void) {
    state ^= state << 13;
    state ^= state >> 7;
    state ^= state << 17;
    return (uint32_t)(state >> 32);
}

/* A number below a bound, or once in eight times any. */
static uint32_t draw_near(uint32_t bound) { return draw() % 8 == 0 ? draw() : draw() % bound; }

static void fail(const char *what, unsigned long round) {
    fprintf(stderr, "any_words: %s in round %lu\n", what, round);
    exit(1);
}

/* Lays out the pages of all parts, two for each. */
static void lay_out(void) {
    size_t page = (size_t)sysconf(_SC_PAGESIZE);
    for (int part = 0; part < PARTS; part++) {
        uint8_t *room = mmap(NULL, 4 * page, PROT_NONE, MAP_PRIVATE | MAP_ANONYMOUS, -1, 0);
        if (room == MAP_FAILED || mprotect(room + page, 2 * page, PROT_READ | PROT_WRITE) != 0) {
            perror("any_words: pages");
            exit(1);
        }
        parts[part] = (struct pages){room + page, room + 3 * page};
    }
}

/* So many bytes of a part, at one or the other end of its pages. */
static void *at_edge(enum part part, size_t bytes) {
    return draw() % 2 ? parts[part].first : parts[part].end - bytes;
}

/* Reads the first bytes of a file. */
static size_t read_some(const char *path, char *text, size_t room) {
    FILE *file = fopen(path, "rb");
    if (!file) {
        perror(path);
        exit(1);
    }
    size_t bytes = fread(text, 1, room, file);
    fclose(file);
    return bytes;
}

/* Draws a record: of a bus with many words drawn, of small bytes, or of a bus with up to four words or bytes changed. */
static void draw_bus(struct vmebus *bus, const struct vmebus *from) {
    uint8_t *bytes = (uint8_t *)bus->words;
    uint32_t kind = draw() % 4, drawn = 1 + draw() % 8;
    *bus = *from;
    for (size_t at = 0; kind == 0 && at < VMEBUS_WORDS; at++)
        if (draw() % 8 < drawn) bus->words[at] = draw();
    for (size_t at = 0; kind == 1 && at < sizeof *bus; at++) bytes[at] = (uint8_t)(draw() % 24);
    for (uint32_t left = draw() % 5; kind == 2 && left > 0; left--) bus->words[draw() % VMEBUS_WORDS] = draw();
    for (uint32_t left = draw() % 5; kind == 3 && left > 0; left--) bytes[draw() % sizeof *bus] = (uint8_t)draw();
}

/* Makes the next edge of the trace, or begins it again. */
static void go_on(struct vmebus *bus, const struct vmebus *opened, const char *trace, size_t bytes, size_t *at) {
    uint32_t delivered;
    const char *feed = memchr(trace + *at, '\n', bytes - *at);
    if (feed) {
        vmebus_line(bus, trace + *at, (size_t)(feed - trace) - *at, &delivered);
        *at = (size_t)(feed - trace) + 1;
    } else {
        *bus = *opened;
        *at = 6;
    }
}

/* Looks at an answer to an edge on a bus that was as `before`, and at what was delivered. */
static void look_at(uint32_t answer, uint32_t delivered, const struct vmebus *bus,
                    const struct vmebus *before, unsigned long round) {
    uint32_t error = VMEBUS_ERROR(answer);
    if (answer != VMEBUS_NO_BUS && error > 5) fail("an answer that is none", round);
    if (answer == VMEBUS_ACCEPTED) return;
    if (delivered != 0) fail("a refusal that delivered", round);
    if (memcmp(bus, before, sizeof *bus) != 0) fail("a refusal that changed a bus", round);
}

/* A room of so many numbers, filled with one. */
static uint32_t *filled(size_t words, uint32_t fill) {
    uint32_t *room = at_edge(NUMBERS, words * sizeof *room);
    for (size_t at = 0; at < words; at++) room[at] = fill;
    return room;
}

/* Whether a room still has behind a list of so many what it was filled with. */
static bool is_within(const uint32_t *room, size_t words, uint32_t count, uint32_t fill) {
    for (size_t at = count; at < words; at++)
        if (room[at] != fill) return false;
    return true;
}

/* Asks for lists in rooms of a drawn length: the failing conditions of an edge, and a driver's open edges. Returns how many these are. */
static uint32_t ask_lists(const struct vmebus *bus, unsigned long round) {
    uint32_t driver = draw_near(24), fill = draw() | 0x80000000u;
    size_t words = draw() % 40;
    uint32_t *room = filled(words, fill);
    uint32_t open = vmebus_open_edges(bus, driver, room, words);
    if (open > 36) fail("more open edges than there can be", round);
    if (!is_within(room, words, open, fill)) fail("open edges beyond their number", round);
    words = draw() % 8;
    room = filled(words, fill);
    uint32_t failing = vmebus_failing(bus, driver, draw_near(18), draw_near(2), draw_near(56), room, words);
    if (failing > 5) fail("more failing conditions than there can be", round);
    if (!is_within(room, words, failing, fill)) fail("conditions beyond their number", round);
    return open | failing;
}

/* Asks for the build in a room of a drawn length. */
static void ask_build(unsigned long round) {
    static const uint32_t wanted[] = {VMEBUS_VERSION, VMEBUS_WORDS, VMEBUS_DRAWS_WORDS};
    uint32_t fill = draw() | 0x80000000u;
    size_t words = draw() % 7;
    uint32_t *room = filled(words, fill);
    if (vmebus_build(room, words) != VMEBUS_MOST_BUILD) fail("a build of another number of numbers", round);
    for (size_t at = 0; at < words && at < 3; at++)
        if (room[at] != wanted[at]) fail("another build than the header's", round);
    if (words > 3 && room[3] > 1) fail("a build that is neither proved nor not", round);
    if (!is_within(room, words, VMEBUS_MOST_BUILD, fill)) fail("a build beyond its numbers", round);
}

/* A room of so many bytes, none of which is in a text. */
static char *filled_text(size_t bytes) {
    char *room = at_edge(TEXT, bytes);
    memset(room, FILL, bytes);
    return room;
}

/* Whether a room of bytes holds a text as a whole, with a zero byte behind it if there is room for one, or nothing if there
 * is less room. Where no text is asked for, an answer of 0 may leave all as it was. */
static bool is_text(const char *room, size_t bytes, uint32_t length) {
    bool is_there = length < bytes || length == bytes;
    for (size_t at = 0; at < bytes; at++) {
        bool is_filled = room[at] == FILL, is_end = room[at] == 0;
        if (is_there && at < length ? is_filled || is_end : is_there && at == length ? !is_end && (length > 0 || !is_filled) : !is_filled)
            return false;
    }
    return true;
}

/* The verdict on an edge as docs/COMMANDS.md has it, empty for a number that is no answer to an edge. */
static void write_verdict(char *text, size_t room, uint32_t answer, uint32_t delivered) {
    uint32_t error = VMEBUS_ERROR(answer), rule = VMEBUS_RULE(answer), last = error == 3 ? 26 : error == 4 ? 4 : 0;
    *text = 0;
    if (answer == VMEBUS_ACCEPTED && delivered == 0)
        snprintf(text, room, "ok");
    else if (answer == VMEBUS_ACCEPTED)
        snprintf(text, room, "ok irq %u to %u from %u status %u", VMEBUS_LEVEL(delivered), VMEBUS_HANDLER(delivered),
                 VMEBUS_ANSWERED_BY(delivered), VMEBUS_STATUS(delivered));
    else if (answer == 0x100 || answer == 0x200)
        snprintf(text, room, "E%u", error);
    else if (1 <= rule && rule <= last)
        snprintf(text, room, "E%u %c%u", error, error == 3 ? 'G' : 'S', rule);
}

/* Asks for the verdict on a drawn answer in a room of a drawn length. */
static void ask_verdict(unsigned long round) {
    char wanted[VMEBUS_MOST_VERDICT + 1];
    uint32_t answer = draw() % 4 ? draw_near(0x600) : VMEBUS_ACCEPTED, delivered = draw() % 4 ? draw() : 0;
    size_t bytes = draw() % 64;
    char *room = filled_text(bytes);
    uint32_t length = vmebus_verdict(answer, delivered, room, bytes);
    write_verdict(wanted, sizeof wanted, answer, delivered);
    if (length != strlen(wanted)) fail("a verdict of another length", round);
    if (!is_text(room, bytes, length)) fail("a verdict that is not in its room", round);
    if (length <= bytes && memcmp(room, wanted, length) != 0) fail("another verdict", round);
}

/* Asks for texts in rooms of a drawn length: why an edge is refused, and how it is spelled. Returns how long the first is. */
static uint32_t ask_texts(const struct vmebus *bus, unsigned long round) {
    uint32_t driver = draw_near(24), wire = draw_near(18), fall = draw_near(2), value = draw_near(56);
    size_t bytes = draw() % 64;
    char *room = filled_text(bytes);
    uint32_t why = vmebus_why(bus, driver, wire, fall, value, draw_near(5), room, bytes);
    if (why > VMEBUS_MOST_WHY || !is_text(room, bytes, why)) fail("a text that is not in its room", round);
    room = filled_text(bytes);
    uint32_t line = vmebus_spell(driver, wire, fall, value, room, bytes);
    if (line > VMEBUS_MOST_LINE || !is_text(room, bytes, line)) fail("a line that is not in its room", round);
    return why;
}

/* Draws by the draws of a seed, some or all of whose words are drawn, on masks that are drawn. */
static void draw_edge(const struct vmebus *bus, bool is_bus, unsigned long round) {
    struct vmebus_draws *draws = at_edge(DRAWS, sizeof *draws), before;
    size_t count = draw() % 25;
    uint32_t *masks = at_edge(MASKS, count * sizeof *masks), *edge = filled(1, 1);
    uint64_t seed = (uint64_t)draw() << 32 | draw();
    if (vmebus_seed(draws, seed) != 0 || vmebus_seed(&before, seed) != 0) fail("a seed that makes no draws", round);
    if (memcmp(draws, &before, sizeof before) != 0) fail("a seed that makes two kinds of draws", round);
    for (uint32_t left = draw() % 40; left > 0; left--) draws->words[draw() % VMEBUS_DRAWS_WORDS] = draw();
    if (draw() % 8 == 0) memset(draws, 0, sizeof *draws);
    for (size_t at = 0; at < count; at++) masks[at] = draw();
    before = *draws;
    uint32_t answer = vmebus_draw(bus, draws, masks, count, edge);
    if (answer != 0 && answer != VMEBUS_NONE_OPEN && answer != VMEBUS_NO_BUS) fail("a draw with an answer that is none", round);
    if (!is_bus && answer != VMEBUS_NO_BUS) fail("a draw on words that are no bus", round);
    if (answer != 0 && *edge != 0) fail("no edge that is drawn", round);
    if (answer == VMEBUS_NO_BUS && memcmp(draws, &before, sizeof before) != 0) fail("no draw that moves draws", round);
}

/* Looks at all that a bus shows. Words that are no bus, as an answer to an edge said, show 0. */
static void look_around(const struct vmebus *bus, bool is_bus, unsigned long round) {
    struct vmebus before = *bus;
    uint32_t seen = vmebus_holder(bus) | vmebus_grant_at(bus) | vmebus_pins(bus, draw_near(24));
    seen |= vmebus_low(bus, draw_near(24), draw_near(18)) | vmebus_has(bus, draw_near(24), draw_near(18));
    seen |= ask_lists(bus, round) | ask_texts(bus, round);
    ask_build(round);
    ask_verdict(round);
    draw_edge(bus, is_bus, round);
    if (memcmp(bus, &before, sizeof *bus) != 0) fail("a look that changed a bus", round);
    if (!is_bus && seen != 0) fail("words that are no bus and show more than 0", round);
}

/* A line of drawn bytes, or of the trace, perhaps with a byte drawn. Returns how many bytes it has. */
static size_t draw_line(char *line, size_t room, const char *trace, size_t trace_bytes) {
    size_t bytes = draw() % room, at = draw() % trace_bytes;
    for (size_t it = 0; it < bytes; it++) line[it] = (char)draw();
    if (draw() % 2) return bytes;
    const char *feed = memchr(trace + at, '\n', trace_bytes - at);
    const char *from = feed ? feed + 1 : trace + 6;
    const char *to = memchr(from, '\n', (size_t)(trace + trace_bytes - from));
    bytes = to && (size_t)(to - from) < room ? (size_t)(to - from) : 0;
    memcpy(line, from, bytes);
    if (bytes && draw() % 4 == 0) line[draw() % bytes] = (char)draw();
    return bytes;
}

/* Steps a drawn edge, and a line that is drawn or a line of the trace, and looks at all that a bus tells. */
static void step_round(struct vmebus *bus, const char *trace, size_t trace_bytes, unsigned long round) {
    struct vmebus before = *bus;
    uint32_t *delivered = at_edge(DELIVERED, sizeof *delivered);
    *delivered = draw();
    uint32_t driver = draw_near(24), wire = draw_near(18), fall = draw_near(2), value = draw_near(56);
    uint32_t answer = vmebus_step(bus, driver, wire, fall, value, delivered);
    look_at(answer, *delivered, bus, &before, round);

    char drawn[80];
    size_t bytes = draw_line(drawn, sizeof drawn, trace, trace_bytes);
    char *line = at_edge(TEXT, bytes);
    memcpy(line, drawn, bytes);
    before = *bus;
    *delivered = draw();
    answer = vmebus_line(bus, line, bytes, delivered);
    look_at(answer, *delivered, bus, &before, round);
    look_around(bus, answer != VMEBUS_NO_BUS, round);
}

/* The first bytes of a scenario, few of them unless all are asked for, some of which are drawn. */
static const char *drawn_scenario(const char *scenario, size_t *bytes, bool is_long) {
    size_t most = is_long || *bytes < FEW ? *bytes : FEW;
    *bytes = !is_long || draw() % 4 == 0 ? draw() % (most + 1) : most;
    char *text = at_edge(SCENARIO, *bytes);
    memcpy(text, scenario, *bytes);
    for (uint32_t left = draw() % 4; left > 0 && *bytes > 0; left--) text[draw() % *bytes] = (char)draw();
    return text;
}

/* Whether a line begins with the name of a fault and a blank, as far as it is there. */
static bool has_name(const char *line, size_t bytes, uint32_t fault) {
    static const char *const names[VMEBUS_FAULT_SIZE] = {
        [VMEBUS_FAULT_P1] = "P1 ", [VMEBUS_FAULT_P2] = "P2 ", [VMEBUS_FAULT_P3] = "P3 ", [VMEBUS_FAULT_P4] = "P4 ",
        [VMEBUS_FAULT_P5] = "P5 ", [VMEBUS_FAULT_P6] = "P6 ", [VMEBUS_FAULT_P7] = "P7 ", [VMEBUS_FAULT_P8] = "P8 ",
        [VMEBUS_FAULT_P9] = "P9 ", [VMEBUS_FAULT_Q1] = "Q1 ", [VMEBUS_FAULT_Q2] = "Q2 ", [VMEBUS_FAULT_Q3] = "Q3 ",
        [VMEBUS_FAULT_Q4] = "Q4 ", [VMEBUS_FAULT_Q6] = "Q6 ", [VMEBUS_FAULT_F2] = "F2 ", [VMEBUS_FAULT_X1] = "X1 "};
    return fault < VMEBUS_FAULT_SIZE && names[fault] && (bytes < 3 || memcmp(line, names[fault], 3) == 0);
}

/* Asks for the line of the fault that a version and a scenario have, in a room of a drawn length. */
static void ask_fault(uint32_t version, const char *text, size_t bytes, uint32_t fault, unsigned long round) {
    static const char no_text[] = "Q3 missing key slots";
    size_t room = draw() % 80;
    char *line = filled_text(room);
    uint32_t length = vmebus_fault_text(version, text, bytes, line, room);
    if ((length != 0) != (fault != 0)) fail("a fault without a line, or a line without a fault", round);
    if (length > VMEBUS_MOST_FAULT || !is_text(line, room, length)) fail("the line of a fault that is not in its room", round);
    if (fault != 0 && !has_name(line, length <= room ? length : 0, fault)) fail("the line of another fault", round);
    if (bytes > 0 || fault == VMEBUS_FAULT_X1) return;
    if (length != strlen(no_text)) fail("another fault of no text", round);
    if (length <= room && memcmp(line, no_text, length) != 0) fail("another line of no text", round);
}

/* Opens a bus by a drawn scenario, in a version that may be none. */
static void open_round(struct vmebus *bus, const char *scenario, size_t bytes, unsigned long round) {
    struct vmebus before = *bus;
    uint32_t version = draw_near(4);
    const char *text = drawn_scenario(scenario, &bytes, round % 512 == 0);
    uint32_t fault = vmebus_open(bus, version, text, bytes);
    if (fault != 0 && memcmp(bus, &before, sizeof *bus) != 0) fail("a fault that changed a bus", round);
    if ((fault == VMEBUS_FAULT_X1) != (version != 1 && version != 2)) fail("a version that is taken for another", round);
    ask_fault(version, text, bytes, fault, round);
}

/* Opens a bus by the scenario as it is, over words that are another's. */
static void open_again(const struct vmebus *opened, const char *scenario, size_t bytes, unsigned long round) {
    struct vmebus *bus = at_edge(BUS, sizeof *bus);
    char *text = at_edge(SCENARIO, bytes);
    memcpy(text, scenario, bytes);
    if (vmebus_open(bus, 1, text, bytes) != 0 || memcmp(bus, opened, sizeof *bus) != 0) fail("another bus of the scenario", round);
    ask_fault(1, text, bytes, 0, round);
}

/* Room for a record of another size than that, below or above it, and how many bytes it has. */
static void *of_another_size(enum part part, size_t right, size_t *size) {
    *size = draw() % (right + MORE);
    if (*size >= right) ++*size;
    return memset(at_edge(part, *size), FILL, *size);
}

/* Whether nothing was written into it. */
static bool is_untouched(const char *room, size_t size) {
    for (size_t at = 0; at < size; at++)
        if (room[at] != FILL) return false;
    return true;
}

/* Hands over a bus and draws of another size, which have to stay untouched: there may be no more of them. */
static void other_sizes(const char *scenario, size_t bytes, unsigned long round) {
    size_t size;
    void *room = of_another_size(BUS, sizeof(struct vmebus), &size);
    if (vmebus_open_sized(room, size, 1, scenario, bytes) != VMEBUS_FAULT_SIZE) fail("a bus of another size that is opened", round);
    if (!is_untouched(room, size)) fail("a bus of another size that is written", round);
    room = of_another_size(DRAWS, sizeof(struct vmebus_draws), &size);
    if (vmebus_seed_sized(room, size, draw()) != VMEBUS_FAULT_SIZE) fail("draws of another size", round);
    if (!is_untouched(room, size)) fail("draws of another size that are written", round);
}

int main(int count, char **words) {
    static char scenario[4096], trace[65536];
    if (count < 3) {
        fprintf(stderr, "usage: any_words SCENARIO TRACE [ROUNDS]\n");
        return 1;
    }
    size_t scenario_bytes = read_some(words[1], scenario, sizeof scenario);
    size_t trace_bytes = read_some(words[2], trace, sizeof trace);
    unsigned long rounds = count > 3 ? strtoul(words[3], NULL, 10) : 1000000;
    lay_out();
    struct vmebus opened, *bus = at_edge(BUS, sizeof *bus);
    memset(&opened, 0, sizeof opened);
    uint32_t delivered = 1;
    if (vmebus_line(&opened, trace, 0, &delivered) != VMEBUS_NO_BUS) fail("a bus of zeros that is one", 0);
    look_at(VMEBUS_NO_BUS, delivered, &opened, &opened, 0);
    look_around(&opened, false, 0);
    if (vmebus_open(&opened, 1, scenario, scenario_bytes) != 0) fail("a scenario that opens no bus", 0);

    struct vmebus running = opened;
    size_t at = 6;
    *bus = opened;
    for (unsigned long round = 1; round <= rounds; round++) {
        go_on(&running, &opened, trace, trace_bytes, &at);
        struct vmebus kept = *bus;
        other_sizes(scenario, scenario_bytes, round);
        if (round % 512 == 0) open_again(&opened, scenario, scenario_bytes, round);
        bus = at_edge(BUS, sizeof *bus);
        *bus = kept;
        if (round % 4 == 0) draw_bus(bus, &running);
        open_round(bus, scenario, scenario_bytes, round);
        step_round(bus, trace, trace_bytes, round);
    }
    printf("%lu records and edges were answered\n", rounds);
    return 0;
}
