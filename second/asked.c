#include "asked.h"

#include "numbers.h"

static const unsigned bases[ASKED_NUMBERS] = {10, 10, 16, 10};

void asked_take(struct asked *asked, int character)
{
    if (number_add(&asked->numbers[asked->at], bases[asked->at], character)) {
        asked->has_digit = true;
    } else if (character == ' ' && asked->has_digit && asked->at + 1 < ASKED_NUMBERS) {
        asked->at += 1;
        asked->has_digit = false;
    } else {
        asked->faulty = true;
    }
}

bool asked_question(const struct asked *asked, struct question *question)
{
    const uint64_t *numbers = asked->numbers;
    *question = (struct question){numbers[0], numbers[1], numbers[2], numbers[3]};
    return !asked->faulty && asked->has_digit && asked->at + 1 == ASKED_NUMBERS;
}
