/* vmebus: a VMEbus backplane that judges signal edges one at a time, for C, C++, and Verilog by DPI.
 *
 * A bus is a record of numbers that lies where its caller puts it. It can be copied and kept, as a snapshot or to try an
 * edge out, and it needs no freeing. The functions keep nothing between calls, take no lock, and start no thread: calls
 * on different buses may run at once, and on one bus those that only read it (const). Only vmebus_open asks for memory,
 * and gives it back before it returns.
 *
 * Every function returns an answer for any numbers. A pointer must not be null, not even delivered. It has to point to
 * what its type says, and no two pointers of one call may overlap. docs/EMBEDDING.md says how much stack a call takes. */
#ifndef VMEBUS_H
#define VMEBUS_H

#include <stddef.h>
#include <stdint.h>

#ifdef __cplusplus
extern "C" {
#endif

/* The version of this header, 2.0.0, a byte for each number. vmebus_build returns that of the library. */
#define VMEBUS_VERSION 0x20000u

#define VMEBUS_WORDS 165

/* A bus. Its words are the library's own, with no byte between them that is not written: two buses on which the same calls
 * were made are equal by memcmp. If the words are no bus, such as zeros, then vmebus_step, vmebus_line and vmebus_draw
 * return VMEBUS_NO_BUS, and the others return 0. */
struct vmebus {
    uint32_t words[VMEBUS_WORDS];
};

#define VMEBUS_DRAWS_WORDS 37

/* The draws of a seed. Its words are the library's own, too. */
struct vmebus_draws {
    uint32_t words[VMEBUS_DRAWS_WORDS];
};

/* The most numbers or bytes that a call writes into a buffer. A text has a zero byte behind it if the buffer has one byte
 * more. */
#define VMEBUS_MOST_FAULT 1024  /* vmebus_fault_text */
#define VMEBUS_MOST_VERDICT 37  /* vmebus_verdict */
#define VMEBUS_MOST_FAILING 5   /* vmebus_failing */
#define VMEBUS_MOST_WHY 58      /* vmebus_why */
#define VMEBUS_MOST_LINE 12     /* vmebus_spell */
#define VMEBUS_MOST_OPEN 36     /* vmebus_open_edges */
#define VMEBUS_MOST_BUILD 4     /* vmebus_build */

/* How many masks vmebus_draw takes: of the controller and of each slot. */
#define VMEBUS_MASKS 22

/* The driver that is the controller, in slot 1. Any other is the board of a slot, 1 to 21. */
#define VMEBUS_CONTROLLER 0u

/* The wires, by the words of a trace. The first seven are the controller's, the others a board's. */
enum vmebus_wire {
    VMEBUS_BG0,
    VMEBUS_BG1,
    VMEBUS_BG2,
    VMEBUS_BG3,
    VMEBUS_BCLR,
    VMEBUS_IACK,
    VMEBUS_BERR,
    VMEBUS_BR,
    VMEBUS_BGOUT,
    VMEBUS_BBSY,
    VMEBUS_ADDR,
    VMEBUS_AS,
    VMEBUS_DS,
    VMEBUS_IRQ,
    VMEBUS_IACKOUT,
    VMEBUS_DTACK
};

/* What the address lines show, at a fall of addr: an acknowledge of a level, 1 to 7, or an access to a slot, 1 to 21.
 * At any other edge the value is 0. */
#define VMEBUS_ACKNOWLEDGE(level) (level)
#define VMEBUS_ACCESS(slot) (32u + (slot))

/* Answers: accepted; the line spells no edge; the words are no bus, which is found before the edge is looked at. */
#define VMEBUS_ACCEPTED 0u
#define VMEBUS_NO_EDGE 0x500u
#define VMEBUS_NO_BUS 0xffffffffu

/* vmebus_draw found no open edge. */
#define VMEBUS_NONE_OPEN 1u

/* Each other answer is a refusal: VMEBUS_ERROR is 1 to 4 for E1 to E4, and VMEBUS_RULE the number of the rule, of G1 to G26
 * at E3 and of S1 to S4 at E4. */
#define VMEBUS_IS_REFUSED(answer) vmebus_is_refused(answer)
#define VMEBUS_ERROR(answer) ((answer) >> 8)
#define VMEBUS_RULE(answer) ((answer) & 0xffu)

static inline int vmebus_is_refused(uint32_t answer) {
    return answer != VMEBUS_ACCEPTED && answer < VMEBUS_NO_EDGE;
}

/* The conditions of the rules, as vmebus_failing writes them. vmebus_why writes their texts, and docs/COMMANDS.md lists
 * them. */
enum vmebus_condition {
    VMEBUS_CONDITION_GRANTS_HIGH,
    VMEBUS_CONDITION_PICKED,
    VMEBUS_CONDITION_ARBITER_IS_PRI,
    VMEBUS_CONDITION_HIGHER_ASKED,
    VMEBUS_CONDITION_CLEAR_NOT_DUE,
    VMEBUS_CONDITION_BUSY_HIGH,
    VMEBUS_CONDITION_BUSY_LOW,
    VMEBUS_CONDITION_ADDRESS_STROBE_HIGH,
    VMEBUS_CONDITION_ADDRESS_STROBE_LOW,
    VMEBUS_CONDITION_DATA_STROBE_HIGH,
    VMEBUS_CONDITION_DATA_STROBE_LOW,
    VMEBUS_CONDITION_DTACK_HIGH,
    VMEBUS_CONDITION_BERR_HIGH,
    VMEBUS_CONDITION_ANSWERED,
    VMEBUS_CONDITION_ACKNOWLEDGE_SHOWN,
    VMEBUS_CONDITION_CYCLE_SHOWN,
    VMEBUS_CONDITION_OWN_SLOT_SHOWN,
    VMEBUS_CONDITION_GRANT_IN_HIGH,
    VMEBUS_CONDITION_GRANT_IN_LOW,
    VMEBUS_CONDITION_ACKNOWLEDGE_IN_LOW,
    VMEBUS_CONDITION_OWN_REQUEST_HIGH,
    VMEBUS_CONDITION_OWN_REQUEST_LOW,
    VMEBUS_CONDITION_OWN_GRANT_OUT_HIGH,
    VMEBUS_CONDITION_OWN_BUSY_HIGH,
    VMEBUS_CONDITION_OWN_BUSY_LOW,
    VMEBUS_CONDITION_OWN_ADDRESS_ON,
    VMEBUS_CONDITION_OWN_ADDRESS_OFF,
    VMEBUS_CONDITION_ADDRESS_FREE,
    VMEBUS_CONDITION_OWN_ADDRESS_STROBE_LOW,
    VMEBUS_CONDITION_OWN_DATA_STROBE_HIGH,
    VMEBUS_CONDITION_OWN_ACKNOWLEDGE_OUT_HIGH,
    VMEBUS_CONDITION_OWN_DTACK_HIGH,
    VMEBUS_CONDITION_ASKED,
    VMEBUS_CONDITION_WITHIN_BURST,
    VMEBUS_CONDITION_HANDLED,
    VMEBUS_CONDITION_INTERRUPT_LOW,
    VMEBUS_CONDITION_STROBED,
    VMEBUS_CONDITION_NOT_STROBED,
    VMEBUS_CONDITION_SERVED,
    VMEBUS_CONDITION_PENDING,
    VMEBUS_CONDITION_NOT_PENDING,
    VMEBUS_CONDITION_CHAIN_HIGH,
    VMEBUS_CONDITION_NOBODY_CAN_ANSWER,
    VMEBUS_CONDITION_PASSED_THE_LAST_BOARD,
    VMEBUS_CONDITION_GRANTS_THROUGH,
    VMEBUS_CONDITION_HAS_DRIVER,
    VMEBUS_CONDITION_OTHER_STATE
};

/* An edge in one word, as vmebus_open_edges writes it, with the numbers of vmebus_step. */
#define VMEBUS_DRIVER(edge) ((edge) >> 24)
#define VMEBUS_WIRE(edge) ((edge) >> 16 & 0xffu)
#define VMEBUS_FALL(edge) ((edge) >> 8 & 0xffu)
#define VMEBUS_VALUE(edge) ((edge) & 0xffu)

/* A delivery, if it is not 0: the status byte that went from an interrupter to a handler. */
#define VMEBUS_LEVEL(delivered) ((delivered) >> 24 & 0x7fu)
#define VMEBUS_HANDLER(delivered) ((delivered) >> 16 & 0xffu)
#define VMEBUS_ANSWERED_BY(delivered) ((delivered) >> 8 & 0xffu)
#define VMEBUS_STATUS(delivered) ((delivered) & 0xffu)

/* What a driver reads on its pins; a bit is set while its line is low. */
#define VMEBUS_PIN_BR(level) (1u << (level))        /* BR0* to BR3* */
#define VMEBUS_PIN_BBSY (1u << 4)
#define VMEBUS_PIN_BCLR (1u << 5)
#define VMEBUS_PIN_AS (1u << 6)
#define VMEBUS_PIN_DS (1u << 7)
#define VMEBUS_PIN_DTACK (1u << 8)
#define VMEBUS_PIN_BERR (1u << 9)
#define VMEBUS_PIN_BGIN (1u << 10)                  /* the input of the board's own grant chain */
#define VMEBUS_PIN_IACKIN (1u << 11)                /* the input of the acknowledge chain */
#define VMEBUS_PIN_IRQ(level) (1u << (11 + (level))) /* IRQ1* to IRQ7* */
#define VMEBUS_SHOWN(pins) ((pins) >> 24)           /* what the address lines show, as a value above, or 0 */

/* Why no bus is opened: P1 to P9, Q1 to Q4, Q6 and F2 of the scenario, as docs/FAULTS.md lists them; X1 if there is no such
 * version of the rules; and a caller that was compiled with another size of the bus or of the draws. */
#define VMEBUS_FAULT_P1 1u
#define VMEBUS_FAULT_P2 2u
#define VMEBUS_FAULT_P3 3u
#define VMEBUS_FAULT_P4 4u
#define VMEBUS_FAULT_P5 5u
#define VMEBUS_FAULT_P6 6u
#define VMEBUS_FAULT_P7 7u
#define VMEBUS_FAULT_P8 8u
#define VMEBUS_FAULT_P9 9u
#define VMEBUS_FAULT_Q1 11u
#define VMEBUS_FAULT_Q2 12u
#define VMEBUS_FAULT_Q3 13u
#define VMEBUS_FAULT_Q4 14u
#define VMEBUS_FAULT_Q6 16u
#define VMEBUS_FAULT_F2 20u
#define VMEBUS_FAULT_X1 31u
#define VMEBUS_FAULT_SIZE 32u

/* Opens a bus on the backplane of a scenario, as it is at power-up, under the rules of version 1 or 2. Call vmebus_open,
 * which passes the size of the bus.
 *
 * Returns 0, or the first of the faults above, and then the bus is as it was. If there is no memory, it may be P9 or Q6 in
 * place of any fault of the scenario. If the size is another than the library's, nothing is read or written. */
uint32_t vmebus_open_sized(struct vmebus *bus, size_t size, uint32_t version, const char *scenario, size_t bytes);

static inline uint32_t vmebus_open(struct vmebus *bus, uint32_t version, const char *scenario, size_t bytes) {
    return vmebus_open_sized(bus, sizeof *bus, version, scenario, bytes);
}

/* Writes the line that the program prints of the first fault of a version and a scenario, such as
 * `Q3 missing key board.1.requester.release`: at most VMEBUS_MOST_FAULT bytes. Returns how many it has, however large the
 * buffer is, and 0 if there is no fault. The line is written as a whole or not at all, with a zero byte behind it if there is
 * room for that, too. */
uint32_t vmebus_fault_text(uint32_t version, const char *scenario, size_t bytes, char *text, size_t room);

/* Judges an edge, and makes it on the bus if it is accepted; fall is 1, or 0 for a rise.
 *
 * An edge that is not accepted leaves the bus as it was. Numbers that name no edge get E1: a driver above 21, a wire above
 * 15, a fall that is neither 0 nor 1, a value at a rise or at another wire than addr. *delivered is what the edge delivers.
 * It is 0 if the edge delivers nothing, and after each answer but VMEBUS_ACCEPTED. */
uint32_t vmebus_step(struct vmebus *bus, uint32_t driver, uint32_t wire, uint32_t fall, uint32_t value,
                     uint32_t *delivered);

/* The same for a line of a trace, without its line feed. Returns VMEBUS_NO_EDGE if the line spells no edge. */
uint32_t vmebus_line(struct vmebus *bus, const char *line, size_t bytes, uint32_t *delivered);

/* The slot of the board that holds BBSY* low, or 0. */
uint32_t vmebus_holder(const struct vmebus *bus);

/* The slot at which a grant travels, neither passed on nor taken there, or 0. */
uint32_t vmebus_grant_at(const struct vmebus *bus);

/* What a driver reads on its pins. A driver that the backplane does not have reads what the controller does. */
uint32_t vmebus_pins(const struct vmebus *bus, uint32_t driver);

/* The functions below look at an answer, an edge or a bus, and change no bus. Each list is written into a buffer of the
 * caller's, which holds room numbers or bytes. The answer is the length of the list, however large the buffer is. Of a list
 * of numbers, as many are written as there is room for, and nothing behind them. A text is written as a whole or not at all,
 * with a zero byte behind it if there is room for that, too. If the words are no bus, the answer is 0, and nothing is
 * written. */

/* The verdict on an edge, as `vmebus replay` prints it, by what a step returned and delivered: `ok`, `E3 G16`,
 * `ok irq 4 to 1 from 2 status 65`. It has at most VMEBUS_MOST_VERDICT bytes, and none for a number that is no answer to an
 * edge. */
uint32_t vmebus_verdict(uint32_t answer, uint32_t delivered, char *text, size_t room);

/* The conditions that an edge fails, of the first of E1 to E4 that applies, in the order of its rule: at most 5, and 0 if it
 * would be accepted. Numbers that name no edge fail VMEBUS_CONDITION_HAS_DRIVER. */
uint32_t vmebus_failing(const struct vmebus *bus, uint32_t driver, uint32_t wire, uint32_t fall, uint32_t value,
                        uint32_t *conditions, size_t room);

/* The text of the condition at a place of that list, from 0, as `vmebus explain` prints it: at most 58 bytes, and 0 if there
 * is no condition at that place, or if the numbers name no edge. */
uint32_t vmebus_why(const struct vmebus *bus, uint32_t driver, uint32_t wire, uint32_t fall, uint32_t value,
                    uint32_t place, char *text, size_t room);

/* The line of an edge, as in a trace, without its line feed: at most 12 bytes, and 0 if the numbers name no edge. */
uint32_t vmebus_spell(uint32_t driver, uint32_t wire, uint32_t fall, uint32_t value, char *line, size_t room);

/* All edges that a driver could make now, in the order in which `vmebus state` prints them: at most 36. */
uint32_t vmebus_open_edges(const struct vmebus *bus, uint32_t driver, uint32_t *edges, size_t room);

/* 1 if a driver holds a wire low, or has its address group on, and otherwise 0. */
uint32_t vmebus_low(const struct vmebus *bus, uint32_t driver, uint32_t wire);

/* 1 if the backplane has the driver with such a wire, and otherwise 0. */
uint32_t vmebus_has(const struct vmebus *bus, uint32_t driver, uint32_t wire);

/* Four numbers of the library: its version, how many words a bus and draws have in it, and 1 if it is proved, or 0. The first
 * three should be VMEBUS_VERSION, VMEBUS_WORDS and VMEBUS_DRAWS_WORDS. */
uint32_t vmebus_build(uint32_t *numbers, size_t room);

/* Makes the draws of a seed. `vmebus drive --seed` draws by the same numbers and weights. Each draw moves the draws, and no
 * draw moves the bus; each thread needs draws of its own. Call vmebus_seed, which passes the size of the draws.
 *
 * Returns 0, or VMEBUS_FAULT_SIZE if the size is another than the library's, and then nothing is written. */
uint32_t vmebus_seed_sized(struct vmebus_draws *draws, size_t size, uint64_t seed);

static inline uint32_t vmebus_seed(struct vmebus_draws *draws, uint64_t seed) {
    return vmebus_seed_sized(draws, sizeof *draws, seed);
}

/* Draws the next edge among all open edges of the wires that the library plays, writes it in one word, and counts it. The bus
 * is not stepped: make the edge in the design, and step it like any other.
 *
 * The masks are 22, of the controller and of each slot. The bit of a wire's number is set if the library plays it; a mask
 * that is missing plays none. Answers 0; VMEBUS_NONE_OPEN if none of these wires has an open edge; and VMEBUS_NO_BUS for words
 * that are no bus, or that are the draws of no seed, such as zeros. *edge is 0 after each answer but 0. Draws move with each
 * answer but the last. */
uint32_t vmebus_draw(const struct vmebus *bus, struct vmebus_draws *draws, const uint32_t *wires, size_t masks,
                     uint32_t *edge);

#ifdef __cplusplus
}
#endif

#endif
