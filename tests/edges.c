/* Each number by which an event is refused at its edges, and their order:
   document 01's list, and tickets 4, 7 and 8 of document 02. */
#include "edges.h"

#include "fields.h"

/* From power-up: divisor 1 with five bits and no parity, with eight bits, with
   eight bits and parity; loopback; loopback with eight bits and a character in
   the shift register; a controller after ICW2, and one that is ready. */
#define FIVE_BITS {{1, 0, 3, 0x80}, {1, 0, 0, 1}, {1, 0, 3, 0x00}}, 3
#define EIGHT_BITS {{1, 0, 3, 0x80}, {1, 0, 0, 1}, {1, 0, 3, 0x03}}, 3
#define PARITY {{1, 0, 3, 0x80}, {1, 0, 0, 1}, {1, 0, 3, 0x0B}}, 3
#define LOOPBACK {{1, 0, 4, 0x1F}}, 1
#define SENDS_TO_ITSELF {{1, 0, 3, 0x80}, {1, 0, 0, 1}, {1, 0, 3, 0x03}, {1, 0, 4, 0x10}, {1, 0, 0, 0x41}, {4, 0, 0, 0}}, 6
#define AWAITS_ICW4 {{7, 0, 0, 0x13}, {7, 0, 1, 0x40}}, 2
#define READY {{7, 0, 0, 0x13}, {7, 0, 1, 0x40}, {7, 0, 1, 0x01}}, 3
#define POWER_UP {{0}}, 0

const struct edge edge_list[] = {
    {"read: seat 7, 8", POWER_UP, {0, 7, 5, 0}, {0, 8, 5, 0}, 1, 0},
    {"read: seat 2, 258", POWER_UP, {0, 2, 5, 0}, {0, 258, 5, 0}, 1, 0},
    {"read: register 5, 261", POWER_UP, {0, 2, 5, 0}, {0, 2, 261, 0}, 2, 0},
    {"kind 5, 261", POWER_UP, {5, 0, 0, 0}, {261, 0, 0, 0}, 3, 0},
    {"arrival: marks 0, 256", FIVE_BITS, {2, 0, 0, 1}, {2, 0, 256, 1}, 6, 0},
    {"read controller: port 1, 257", READY, {6, 0, 1, 0}, {6, 0, 257, 0}, 2, 0},
    {"write: seat 7, 255", POWER_UP, {1, 7, 7, 1}, {1, 255, 7, 1}, 1, 0},
    {"modem inputs: seat 7, 8", POWER_UP, {3, 7, 0, 1}, {3, 8, 0, 1}, 1, 0},
    {"arrival: seat 0, 8", FIVE_BITS, {2, 0, 0, 1}, {2, 8, 0, 1}, 1, 0},
    {"character time: seat 0, 8", FIVE_BITS, {4, 0, 0, 0}, {4, 8, 0, 0}, 1, 0},
    {"read: register 7, 8", POWER_UP, {0, 0, 7, 0}, {0, 0, 8, 0}, 2, 0},
    {"write: register 7, 8", POWER_UP, {1, 0, 7, 0xFF}, {1, 0, 8, 0xFF}, 2, 0},
    {"read controller: port 1, 2", READY, {6, 0, 1, 0}, {6, 0, 2, 0}, 2, 0},
    {"write controller: port 1, 2", READY, {7, 0, 1, 0xFF}, {7, 0, 2, 0xFF}, 2, 0},
    {"kind 8, 9", READY, {8, 0, 0, 0}, {9, 0, 0, 0}, 3, 0},
    {"kind 5, 255", POWER_UP, {5, 255, 255, 255}, {255, 0, 0, 0}, 3, 0},
    {"arrival: divisor 1 and 0", FIVE_BITS, {2, 0, 0, 1}, {2, 1, 0, 1}, 5, 0},
    {"character time: divisor 1 and 0", FIVE_BITS, {4, 0, 0, 0}, {4, 1, 0, 0}, 5, 0},
    {"arrival: marks 7, 8", PARITY, {2, 0, 7, 0}, {2, 0, 8, 0}, 6, 0},
    {"arrival: 1F, 20 at five bits", FIVE_BITS, {2, 0, 0, 0x1F}, {2, 0, 0, 0x20}, 16, 0},
    {"arrival: framing mark, parity mark with parity off", EIGHT_BITS, {2, 0, 2, 0xFF}, {2, 0, 1, 0xFF}, 17, 0},
    {"arrival: break with data 0, 1", EIGHT_BITS, {2, 0, 4, 0}, {2, 0, 4, 1}, 18, 0},
    {"modem levels 15, 16", POWER_UP, {3, 0, 0, 15}, {3, 0, 0, 16}, 7, 0},
    {"ICW4 and a read, not ready", AWAITS_ICW4, {7, 0, 1, 0x01}, {6, 0, 0, 0}, 8, 0},
    {"ICW4 and an acknowledge, not ready", AWAITS_ICW4, {7, 0, 1, 0x01}, {8, 0, 0, 0}, 8, 0},
    {"port 0 write with, without bit 4, not ready", POWER_UP, {7, 0, 0, 0x13}, {7, 0, 0, 0x20}, 8, 0},
    {"ICW1, and a port 1 write before it", POWER_UP, {7, 0, 0, 0x13}, {7, 0, 1, 0x40}, 8, 0},
    {"ICW1 with bit 0, without", POWER_UP, {7, 0, 0, 0x13}, {7, 0, 0, 0x12}, 9, 0},
    {"ICW1 with bit 1, without", POWER_UP, {7, 0, 0, 0x13}, {7, 0, 0, 0x11}, 9, 0},
    {"ICW4 with bit 0, without", AWAITS_ICW4, {7, 0, 1, 0x03}, {7, 0, 1, 0x02}, 9, 0},
    {"OCW3 without bit 2, with", READY, {7, 0, 0, 0x0A}, {7, 0, 0, 0x0E}, 9, 0},
    {"modem levels 15, 16 in loopback", LOOPBACK, {3, 0, 0, 15}, {3, 0, 0, 16}, 7, 0},
    {"a write of MCR in loopback, an arrival without a divisor", LOOPBACK, {1, 0, 4, 0xFF}, {2, 0, 0, 1}, 5, 0},
    {"order: kind before seat and register", POWER_UP, {5, 8, 8, 0}, {9, 8, 8, 0}, 3, 0},
    {"order: seat before register", POWER_UP, {1, 7, 7, 0x10}, {1, 8, 8, 0x10}, 1, 0},
    {"order: divisor before marks", FIVE_BITS, {2, 0, 0, 0}, {2, 1, 8, 0xFF}, 5, 0},
    {"order: marks before data", FIVE_BITS, {2, 0, 0, 0x1F}, {2, 0, 13, 0x20}, 6, 0},
    {"order: data before parity and break", FIVE_BITS, {2, 0, 0, 0x1F}, {2, 0, 5, 0x20}, 16, 0},
    {"order: parity before break", FIVE_BITS, {2, 0, 4, 0}, {2, 0, 5, 1}, 17, 0},
    {"an arrival that no tally can hold", EIGHT_BITS, {0, 0, 0, 0}, {2, 0, 0, 1}, 19, UINT32_MAX},
    {"a loopback character that no tally can hold", SENDS_TO_ITSELF, {1, 0, 4, 0}, {4, 0, 0, 0}, 19, UINT32_MAX},
    {"the same, and an arrival in loopback", SENDS_TO_ITSELF, {2, 0, 0, 1}, {4, 0, 0, 0}, 19, UINT32_MAX},
    {"the same, and a master reset", SENDS_TO_ITSELF, {5, 0, 0, 0}, {4, 0, 0, 0}, 19, UINT32_MAX},
    {"order: divisor before tally", POWER_UP, {0, 0, 5, 0}, {2, 0, 0, 1}, 5, UINT32_MAX},
    {"order: marks before tally", EIGHT_BITS, {4, 0, 0, 0}, {2, 0, 8, 0}, 6, UINT32_MAX},
    {"order: data before tally", FIVE_BITS, {4, 0, 0, 0}, {2, 0, 0, 0x20}, 16, UINT32_MAX},
    {"order: parity before tally", EIGHT_BITS, {4, 0, 0, 0}, {2, 0, 1, 1}, 17, UINT32_MAX},
    {"order: break before tally", EIGHT_BITS, {4, 0, 0, 0}, {2, 0, 4, 1}, 18, UINT32_MAX},
    {"room for one more, and seat 8", EIGHT_BITS, {2, 0, 0, 1}, {2, 8, 0, 1}, 1, UINT32_MAX - 1},
};
const size_t edge_count = sizeof edge_list / sizeof edge_list[0];

static uint64_t play(struct hailstoat_bench *bench, struct step step)
{
    return hailstoat_event(bench, step.kind, step.seat, step.number, step.value);
}

int edge_holds(const struct edge *edge)
{
    struct hailstoat_bench bench = {0};
    for (size_t i = 0; i < edge->count; i += 1)
        if (hailstoat_word_refusal(play(&bench, edge->steps[i])) != 0)
            return 0;
    if (edge->arrived != 0)
        bench.seats[0].tallies = (struct hailstoat_four){.arrived = edge->arrived, .read = edge->arrived};
    struct hailstoat_bench before = bench;
    uint64_t word = play(&bench, edge->past);
    return hailstoat_word_refusal(word) == edge->refusal && hailstoat_word_answer(word) == HAILSTOAT_REFUSED
        && (uint8_t)hailstoat_word_answer(word) == 0xFF /* as on a bus where nobody answers */
        && same_fields(&before, &bench) && hailstoat_word_refusal(play(&bench, edge->within)) == 0;
}
