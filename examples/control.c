/* Control software of the old kind, which pokes registers, with the bench in
   place of the chips: it initialises the controller, sets two seats up, takes
   interrupts, and files what each pupil uploads by the vector alone. A panel
   shows what waits at a third seat, and which characters of it are marked. */
#include <stdio.h>
#include <string.h>

#include "hailstoat.h"

#if HAILSTOAT_VERSION / 10000 != 3
#error "this software is for version 3 of the bench"
#endif

/* The words that this software writes. */
#define ICW1_EDGE (HAILSTOAT_ICW1 | HAILSTOAT_ICW1_SINGLE | HAILSTOAT_ICW1_ICW4)
#define ICW2_BASE 0x40
#define FIFO_OF_4 (HAILSTOAT_FCR_FIFO | HAILSTOAT_FCR_TRIGGER_4)
#define READY_TO_RECEIVE (HAILSTOAT_MCR_DTR | HAILSTOAT_MCR_RTS | HAILSTOAT_MCR_OUT2)

#define BAUD_9600 96000

#define LOOSE_SEAT 7

struct pupil {
    const char *name;
    uint32_t seat;
    const char *upload; /* what the pupil sends */
    size_t sent;
    char file[64]; /* what was filed under the pupil's name */
    size_t filed;
};

static struct hailstoat_bench bench;

static struct pupil pupils[] = {
    {.name = "Agnes", .seat = 2, .upload = "G01 X12 Y30 F80"},
    {.name = "Boris", .seat = 5, .upload = "G00 Z5 M30"},
};
#define PUPILS (sizeof pupils / sizeof pupils[0])

/* Nothing that this software does is refused; it says so if something is. */
static uint64_t event(uint32_t kind, uint32_t seat, uint32_t number, uint8_t value)
{
    uint64_t word = hailstoat_event(&bench, kind, seat, number, value);
    if (hailstoat_word_refusal(word) != HAILSTOAT_ACCEPTED)
        printf("refused: %s\n", hailstoat_refusal_words(hailstoat_word_refusal(word)));
    return word;
}

static uint8_t in(uint32_t seat, uint32_t number)
{
    return (uint8_t)hailstoat_word_answer(event(HAILSTOAT_READ_REGISTER, seat, number, 0));
}

static void out(uint32_t seat, uint32_t number, unsigned byte)
{
    event(HAILSTOAT_WRITE_REGISTER, seat, number, (uint8_t)byte);
}

static void controller_out(uint32_t port, uint8_t byte)
{
    event(HAILSTOAT_WRITE_CONTROLLER, 0, port, byte);
}

static void initialise_controller(void)
{
    controller_out(HAILSTOAT_PORT_COMMAND, ICW1_EDGE);
    controller_out(HAILSTOAT_PORT_MASK, ICW2_BASE);
    controller_out(HAILSTOAT_PORT_MASK, HAILSTOAT_ICW4_8086);
}

static void set_up(uint32_t seat)
{
    unsigned divisor = hailstoat_word_answer(hailstoat_divisor(BAUD_9600, HAILSTOAT_CLOCK_1_8432));
    out(seat, HAILSTOAT_LCR, HAILSTOAT_LCR_DIVISOR | HAILSTOAT_LCR_8_BITS);
    out(seat, HAILSTOAT_DLL, divisor % 256);
    out(seat, HAILSTOAT_DLM, divisor / 256);
    out(seat, HAILSTOAT_LCR, HAILSTOAT_LCR_8_BITS);
    out(seat, HAILSTOAT_FCR, FIFO_OF_4);
    out(seat, HAILSTOAT_MCR, READY_TO_RECEIVE);
    out(seat, HAILSTOAT_IER, HAILSTOAT_IER_DATA);
    printf("seat %u: 9600 baud, divisor %u\n", (unsigned)seat, divisor);
}

static struct pupil *pupil_of(unsigned vector)
{
    for (size_t i = 0; i < PUPILS; i += 1)
        if (vector == ICW2_BASE + pupils[i].seat)
            return &pupils[i];
    return NULL;
}

/* The interrupt routine: what the seat holds is filed under the pupil whose vector it is. */
static void take_interrupt(void)
{
    uint64_t word = event(HAILSTOAT_ACKNOWLEDGE, 0, 0, 0);
    unsigned vector = hailstoat_word_vector(word);
    struct pupil *pupil = pupil_of(vector);
    if (hailstoat_word_spurious(word) || pupil == NULL) {
        printf("vector %02X: nobody's\n", vector);
        return;
    }
    size_t before = pupil->filed;
    while ((in(pupil->seat, HAILSTOAT_LSR) & HAILSTOAT_LSR_DATA) != 0 && pupil->filed < sizeof pupil->file - 1)
        pupil->file[pupil->filed++] = (char)in(pupil->seat, HAILSTOAT_RBR);
    printf("vector %02X: %u bytes for %s: \"%s\"\n", vector, (unsigned)(pupil->filed - before),
           pupil->name, pupil->file + before);
    controller_out(HAILSTOAT_PORT_COMMAND, HAILSTOAT_OCW2_END);
}

static void serve(void)
{
    while (hailstoat_output(&bench) != 0)
        take_interrupt();
}

/* The outside: while the seat asks for it, the next character of an upload comes in; and time passes for the seat. */
static void upload_one(struct pupil *pupil)
{
    unsigned outputs = hailstoat_word_answer(hailstoat_modem_outputs(&bench, pupil->seat));
    if ((outputs & HAILSTOAT_MCR_RTS) != 0 && pupil->sent < strlen(pupil->upload))
        event(HAILSTOAT_ARRIVAL, pupil->seat, 0, (uint8_t)pupil->upload[pupil->sent++]);
    event(HAILSTOAT_CHARACTER_TIME, pupil->seat, 0, 0);
}

static void upload_all(void)
{
    for (int round = 0; round < 24; round += 1) {
        for (size_t i = 0; i < PUPILS; i += 1)
            upload_one(&pupils[i]);
        serve();
    }
}

/* The seat panel: what waits at a seat, and something does, is taken and shown, marked characters in brackets. It asks how
   many remain behind each and does not read LSR, which would clear the marks of the next. */
static void show_panel(uint32_t seat)
{
    uint64_t word;
    printf("panel of seat %u: ", (unsigned)seat);
    do {
        word = event(HAILSTOAT_READ_REGISTER, seat, HAILSTOAT_RBR, 0);
        printf(hailstoat_word_marks(word) != 0 ? "[%c]" : "%c", (char)hailstoat_word_answer(word));
    } while (hailstoat_word_behind(word) != 0);
    printf("\n");
}

/* The outside again: at a seat with a loose plug the middle one of three characters comes in without its stop bit. */
static void wiggle_the_plug(uint32_t seat)
{
    event(HAILSTOAT_ARRIVAL, seat, 0, 'G');
    event(HAILSTOAT_ARRIVAL, seat, HAILSTOAT_MARK_FRAMING, '7');
    event(HAILSTOAT_ARRIVAL, seat, 0, '2');
}

/* Not 0 if a pupil's file is not what that pupil sent. */
static int compare(void)
{
    int wrong = 0;
    for (size_t i = 0; i < PUPILS; i += 1) {
        const struct pupil *pupil = &pupils[i];
        int right = strcmp(pupil->upload, pupil->file) == 0;
        printf("filed under %s, seat %u: \"%s\", %s\n", pupil->name, (unsigned)pupil->seat, pupil->file,
               right ? "as it was sent" : "NOT as it was sent");
        wrong |= !right;
    }
    return wrong;
}

int main(void)
{
    if (hailstoat_version() != HAILSTOAT_VERSION || hailstoat_size() != sizeof bench) {
        printf("the header is of another version than the library\n");
        return 2;
    }
    hailstoat_power_up(&bench);
    initialise_controller();
    for (size_t i = 0; i < PUPILS; i += 1)
        set_up(pupils[i].seat);
    upload_all();
    set_up(LOOSE_SEAT);
    wiggle_the_plug(LOOSE_SEAT);
    show_panel(LOOSE_SEAT);
    return compare();
}
