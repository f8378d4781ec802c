/* The header's names for the controller's ports and words. */
#include "controller_names.h"

#include "by_name.h"

#define BASE 0x40

static void command(unsigned byte)
{
    play(HAILSTOAT_WRITE_CONTROLLER, 0, HAILSTOAT_PORT_COMMAND, byte);
}

static void initialise(unsigned icw1, unsigned icw4)
{
    hailstoat_power_up(&worked);
    command(HAILSTOAT_ICW1 | HAILSTOAT_ICW1_SINGLE | HAILSTOAT_ICW1_ICW4 | icw1);
    play(HAILSTOAT_WRITE_CONTROLLER, 0, HAILSTOAT_PORT_MASK, BASE);
    play(HAILSTOAT_WRITE_CONTROLLER, 0, HAILSTOAT_PORT_MASK, HAILSTOAT_ICW4_8086 | icw4);
    command(HAILSTOAT_OCW3 | HAILSTOAT_OCW3_SELECTS | HAILSTOAT_OCW3_SERVICE);
}

/* A seat's line goes high. */
static void raise_line(uint32_t seat)
{
    set_up(seat);
    writes(seat, HAILSTOAT_MCR, HAILSTOAT_MCR_OUT2);
    writes(seat, HAILSTOAT_IER, HAILSTOAT_IER_DATA);
    play(HAILSTOAT_ARRIVAL, seat, 0, 1);
}

static void port_0_is(const char *what, unsigned wanted)
{
    is(what, play(HAILSTOAT_READ_CONTROLLER, 0, HAILSTOAT_PORT_COMMAND, 0), wanted);
}

static void acknowledge_is(unsigned wanted)
{
    is("the acknowledge", play(HAILSTOAT_ACKNOWLEDGE, 0, 0, 0), wanted);
}

static void place_is(const char *what, uint32_t line, unsigned wanted)
{
    is(what, hailstoat_word_answer(hailstoat_place(&worked, line)), wanted);
}

/* Line 3 is in service; then the command, what is in service, and the places of line 3 and line 5. */
static void ends(const char *what, unsigned ocw2, unsigned service, unsigned place_3, unsigned place_5)
{
    initialise(0, 0);
    raise_line(3);
    acknowledge_is(BASE + 3);
    port_0_is("in-service", 1U << 3);
    command(ocw2);
    port_0_is(what, service);
    place_is(what, 3, place_3);
    place_is(what, 5, place_5);
}

static void commands(void)
{
    ends("OCW2_END", HAILSTOAT_OCW2_END, 0, 3, 5);
    ends("OCW2_END_ROTATING", HAILSTOAT_OCW2_END_ROTATING, 0, 7, 1);
    ends("OCW2_END_LINE 3", HAILSTOAT_OCW2_END_LINE | 3, 0, 3, 5);
    ends("OCW2_END_LINE 5", HAILSTOAT_OCW2_END_LINE | 5, 1U << 3, 3, 5);
    ends("OCW2_END_LINE_ROTATING 3", HAILSTOAT_OCW2_END_LINE_ROTATING | 3, 0, 7, 1);
    ends("OCW2_MAKE_LAST 5", HAILSTOAT_OCW2_MAKE_LAST | 5, 1U << 3, 5, 7);
}

static void automatic_end(void)
{
    initialise(0, HAILSTOAT_ICW4_AUTOMATIC);
    command(HAILSTOAT_OCW2_ROTATION_ON);
    raise_line(3);
    acknowledge_is(BASE + 3);
    port_0_is("in-service with automatic end", 0);
    place_is("with OCW2_ROTATION_ON, line 3", 3, 7);
    command(HAILSTOAT_OCW2_ROTATION_OFF);
    raise_line(5);
    acknowledge_is(BASE + 5);
    place_is("with OCW2_ROTATION_OFF, line 5", 5, 1);
}

static void modes(void)
{
    initialise(0, 0);
    raise_line(3);
    command(HAILSTOAT_OCW3 | HAILSTOAT_OCW3_SELECTS);
    port_0_is("requests", 1U << 3);
    acknowledge_is(BASE + 3);
    command(HAILSTOAT_OCW2_END);
    is("the output in edge mode, the line still high", hailstoat_output(&worked), 0);
    acknowledge_is(0x100 + BASE + 7);
    initialise(HAILSTOAT_ICW1_LEVEL, 0);
    raise_line(3);
    acknowledge_is(BASE + 3);
    command(HAILSTOAT_OCW2_END);
    is("the output in level mode, the line still high", hailstoat_output(&worked), 1);
    is_refused("OCW3_POLL", HAILSTOAT_WRITE_CONTROLLER, HAILSTOAT_PORT_COMMAND, HAILSTOAT_OCW3 | HAILSTOAT_OCW3_POLL,
               HAILSTOAT_NOT_SERVED);
}

/* Line 3 is in service and masked, and line 5 stands. */
static void special_mask(void)
{
    initialise(0, 0);
    raise_line(3);
    acknowledge_is(BASE + 3);
    play(HAILSTOAT_WRITE_CONTROLLER, 0, HAILSTOAT_PORT_MASK, 1U << 3);
    raise_line(5);
    is("the output without special mask", hailstoat_output(&worked), 0);
    command(HAILSTOAT_OCW3 | HAILSTOAT_OCW3_SETS_SPECIAL | HAILSTOAT_OCW3_SPECIAL);
    is("the output with special mask", hailstoat_output(&worked), 1);
    command(HAILSTOAT_OCW3 | HAILSTOAT_OCW3_SETS_SPECIAL);
    is("the output with special mask off again", hailstoat_output(&worked), 0);
}

size_t controller_names_mean(void)
{
    static void (*const parts[])(void) = {commands, automatic_end, modes, special_mask};
    return each_from_power_up(parts, sizeof parts / sizeof parts[0]);
}
