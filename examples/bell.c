/* Control software that stops at the bell, in mid-upload, and goes on next week:
   it takes a seat's settings from a line of the control sheet, files what arrives,
   saves the bench into a file when the bell rings, and restores it over a bench
   that was powered up anew. */
#include <stdio.h>
#include <string.h>

#include "hailstoat.h"

#if HAILSTOAT_VERSION < 30100 || HAILSTOAT_VERSION >= 40000
#error "this software is for version 3 of the bench, from 3.1 on"
#endif

/* The words that this software writes. */
#define ICW1_EDGE (HAILSTOAT_ICW1 | HAILSTOAT_ICW1_SINGLE | HAILSTOAT_ICW1_ICW4)
#define ICW2_BASE 0x40
#define FIFO_OF_4 (HAILSTOAT_FCR_FIFO | HAILSTOAT_FCR_TRIGGER_4)
#define READY_TO_RECEIVE (HAILSTOAT_MCR_DTR | HAILSTOAT_MCR_RTS | HAILSTOAT_MCR_OUT2)

#define CLOCK HAILSTOAT_CLOCK_1_8432
#define SEAT 2
#define BELL 8 /* so many characters have arrived when it rings */

static const char sheet[] = "9600,N,8,1"; /* the line of the control sheet */
static const char upload[] = "G01 X12 Y30 F80";
static size_t sent;
static char file[64]; /* what was filed */
static size_t filed;

static struct hailstoat_bench bench;

/* Nothing that this software does to the bench is refused; it says so if something is. */
static uint64_t event(uint32_t kind, uint32_t number, unsigned value)
{
    uint64_t word = hailstoat_event(&bench, kind, SEAT, number, (uint8_t)value);
    if (hailstoat_word_refusal(word) != HAILSTOAT_ACCEPTED)
        printf("refused: %s\n", hailstoat_refusal_words(hailstoat_word_refusal(word)));
    return word;
}

static unsigned in(uint32_t number)
{
    return hailstoat_word_answer(event(HAILSTOAT_READ_REGISTER, number, 0));
}

static void out(uint32_t number, unsigned byte)
{
    event(HAILSTOAT_WRITE_REGISTER, number, byte);
}

static void initialise_controller(void)
{
    event(HAILSTOAT_WRITE_CONTROLLER, HAILSTOAT_PORT_COMMAND, ICW1_EDGE);
    event(HAILSTOAT_WRITE_CONTROLLER, HAILSTOAT_PORT_MASK, ICW2_BASE);
    event(HAILSTOAT_WRITE_CONTROLLER, HAILSTOAT_PORT_MASK, HAILSTOAT_ICW4_8086);
}

/* By the line of the control sheet; not 0 if it is none. */
static int set_up_by(const char *line)
{
    uint8_t lcr;
    uint64_t word = hailstoat_read_setting((const uint8_t *)line, strlen(line), CLOCK, &lcr);
    unsigned divisor = hailstoat_word_answer(word);
    if (hailstoat_word_refusal(word) != HAILSTOAT_ACCEPTED)
        return 1;
    out(HAILSTOAT_LCR, HAILSTOAT_LCR_DIVISOR | lcr);
    out(HAILSTOAT_DLL, divisor % 256);
    out(HAILSTOAT_DLM, divisor / 256);
    out(HAILSTOAT_LCR, lcr);
    out(HAILSTOAT_FCR, FIFO_OF_4);
    out(HAILSTOAT_MCR, READY_TO_RECEIVE);
    out(HAILSTOAT_IER, HAILSTOAT_IER_DATA);
    printf("%s: divisor %u, LCR %02X\n", line, divisor, lcr);
    return 0;
}

/* What the seat's registers say, as a line of the control sheet again. */
static void show_setting(void)
{
    uint8_t line[HAILSTOAT_LINE_BYTES];
    unsigned lcr = in(HAILSTOAT_LCR), divisor;
    out(HAILSTOAT_LCR, HAILSTOAT_LCR_DIVISOR | lcr);
    divisor = in(HAILSTOAT_DLL) + 256 * in(HAILSTOAT_DLM);
    out(HAILSTOAT_LCR, lcr);
    uint64_t word = hailstoat_write_setting(divisor, lcr, CLOCK, line, sizeof line);
    printf("seat %d is set to %.*s\n", SEAT, (int)hailstoat_word_answer(word), (const char *)line);
}

static unsigned waiting(void)
{
    struct hailstoat_five five;
    hailstoat_tallies(&bench, SEAT, &five);
    return five.queued;
}

/* The interrupt routine, as long as something calls for it. */
static void serve(void)
{
    while (hailstoat_output(&bench) != 0) {
        unsigned vector = hailstoat_word_vector(event(HAILSTOAT_ACKNOWLEDGE, 0, 0));
        size_t before = filed;
        while ((in(HAILSTOAT_LSR) & HAILSTOAT_LSR_DATA) != 0 && filed < sizeof file - 1)
            file[filed++] = (char)in(HAILSTOAT_RBR);
        printf("vector %02X: %u bytes: \"%s\"\n", vector, (unsigned)(filed - before), file + before);
        event(HAILSTOAT_WRITE_CONTROLLER, HAILSTOAT_PORT_COMMAND, HAILSTOAT_OCW2_END);
    }
}

/* A lesson: before each character comes, what calls is served. So the last one may call and not be served yet. */
static void upload_until(size_t end)
{
    while (sent < end) {
        serve();
        event(HAILSTOAT_ARRIVAL, 0, (uint8_t)upload[sent++]);
    }
}

/* The bell: the bench goes into the file as it stands. */
static int stop_at_the_bell(FILE *shelf)
{
    uint8_t image[HAILSTOAT_IMAGE_BYTES];
    uint64_t word = hailstoat_save(&bench, image, sizeof image, 0);
    if (hailstoat_word_refusal(word) != HAILSTOAT_ACCEPTED)
        return 1;
    printf("bell: %u sent, %u filed, %u waiting\n", (unsigned)sent, (unsigned)filed, waiting());
    return fwrite(image, 1, sizeof image, shelf) != sizeof image;
}

/* Next week: the bench that is in the bytes, if one is. The word tells too whether something calls for the interrupt routine. */
static int go_on(const char *what, const uint8_t *bytes, size_t length)
{
    uint64_t word = hailstoat_restore(&bench, bytes, length, 0);
    unsigned refusal = hailstoat_word_refusal(word);
    if (refusal != HAILSTOAT_ACCEPTED)
        printf("%s: %s; %u waiting\n", what, hailstoat_refusal_words(refusal), waiting());
    else
        printf("%s: %u waiting, %s\n", what, waiting(), hailstoat_word_output(word) ? "and an interrupt" : "no interrupt");
    return refusal != HAILSTOAT_ACCEPTED;
}

static int go_on_from(FILE *shelf)
{
    uint8_t image[HAILSTOAT_IMAGE_BYTES];
    rewind(shelf);
    return go_on("the file of last week", image, fread(image, 1, sizeof image, shelf));
}

/* A few characters short of the trigger wait until four character times have passed. */
static void end_of_upload(void)
{
    for (int time = 0; time < 4; time += 1)
        event(HAILSTOAT_CHARACTER_TIME, 0, 0);
    serve();
}

int main(void)
{
    FILE *shelf = tmpfile();
    if (shelf == NULL || hailstoat_version() != HAILSTOAT_VERSION || hailstoat_size() != sizeof bench)
        return 2;
    hailstoat_power_up(&bench);
    initialise_controller();
    if (set_up_by(sheet) != 0)
        return 1;
    upload_until(BELL);
    if (stop_at_the_bell(shelf) != 0)
        return 1;
    hailstoat_power_up(&bench);
    if (go_on("the control sheet", (const uint8_t *)sheet, strlen(sheet)) == 0 || go_on_from(shelf) != 0)
        return 1;
    show_setting();
    upload_until(strlen(upload));
    end_of_upload();
    printf("filed: \"%s\", %s\n", file, strcmp(upload, file) == 0 ? "as it was sent" : "NOT as it was sent");
    return strcmp(upload, file) != 0;
}
