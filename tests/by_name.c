/* What the tests of the header's names share: one bench, worked by the names alone. */
#include "by_name.h"

#include <stdio.h>

#include "compare.h"

struct hailstoat_bench worked;

void is(const char *what, unsigned got, unsigned wanted)
{
    if (got == wanted)
        return;
    fprintf(stderr, "%s is %03X, not %03X: ", what, got, wanted);
    fail("a name does not mean what it says");
}

unsigned play(uint32_t kind, uint32_t seat, uint32_t number, unsigned value)
{
    uint64_t word = hailstoat_event(&worked, kind, seat, number, (uint8_t)value);
    if (hailstoat_word_refusal(word) != HAILSTOAT_ACCEPTED)
        fail(hailstoat_refusal_words(hailstoat_word_refusal(word)));
    return hailstoat_word_answer(word);
}

void is_refused(const char *what, uint32_t kind, uint32_t number, unsigned value, unsigned refusal)
{
    is(what, hailstoat_word_refusal(hailstoat_event(&worked, kind, 0, number, (uint8_t)value)), refusal);
}

void writes(uint32_t seat, uint32_t number, unsigned byte)
{
    play(HAILSTOAT_WRITE_REGISTER, seat, number, byte);
}

void set_up(uint32_t seat)
{
    writes(seat, HAILSTOAT_LCR, HAILSTOAT_LCR_DIVISOR);
    writes(seat, HAILSTOAT_DLL, 12);
    writes(seat, HAILSTOAT_DLM, 0);
    writes(seat, HAILSTOAT_LCR, HAILSTOAT_LCR_8_BITS | HAILSTOAT_LCR_PARITY);
}

size_t each_from_power_up(void (*const parts[])(void), size_t count)
{
    for (size_t i = 0; i < count; i += 1) {
        hailstoat_power_up(&worked);
        parts[i]();
    }
    return count;
}
