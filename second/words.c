#include "words.h"

#include "channel.h"

const char *const lsr_words[LSR_WORDS] = {"data",  "overrun",       "parity", "framing",
                                          "break", "holding-empty", "empty",  "marked"};
const char *const msr_words[MSR_WORDS] = {"CTS-changed", "DSR-changed", "RI-ended", "DCD-changed",
                                          "CTS",         "DSR",         "RI",       "DCD"};
const char *const mark_words[MARK_WORDS] = {"parity", "framing", "break"};
const char *const level_words[LEVEL_WORDS] = {"CTS", "DSR", "RI", "DCD"};

const char *register_name(unsigned number, bool writes, bool divisor)
{
    static const char *const reads[REGISTERS] = {"RBR", "IER", "IIR", "LCR", "MCR", "LSR", "MSR", "SCRATCH"};
    if (divisor && number <= 1)
        return number == 0 ? "DLL" : "DLM";
    if (writes && number == 0)
        return "THR";
    if (writes && number == 2)
        return "FCR";
    return reads[number];
}

const char *cause_words(unsigned iir)
{
    switch (iir & 0x0FU) {
    case CAUSE_LINE_STATUS: return "line trouble";
    case CAUSE_DATA: return "data";
    case CAUSE_TIMEOUT: return "time-out";
    case CAUSE_HOLDING_EMPTY: return "transmit queue empty";
    case CAUSE_MODEM: return "modem input changed";
    default: return "no cause";
    }
}

const char *refusal_words(enum refusal refusal)
{
    switch (refusal) {
    case REFUSAL_SEAT_ABOVE: return "seat or line above 7";
    case REFUSAL_NUMBER_ABOVE: return "register above 7, port above 1";
    case REFUSAL_KIND_ABOVE: return "kind above 8";
    case REFUSAL_SHORT: return "record cut off at the end";
    case REFUSAL_NO_DIVISOR: return "arrival or character time while the divisor is 0";
    case REFUSAL_MARKS_ABOVE: return "marks above 7";
    case REFUSAL_LEVELS_ABOVE: return "modem levels above 15";
    case REFUSAL_NOT_READY: return "controller not ready";
    case REFUSAL_NOT_SERVED: return "not served (cascaded controllers, 8080 mode, poll)";
    case REFUSAL_DATA_BEYOND: return "data beyond the word length";
    case REFUSAL_PARITY_OFF: return "parity mark with parity off";
    case REFUSAL_BREAK_WITH_DATA: return "break with data not 0";
    case REFUSAL_ARRIVED_FULL: return "reception that no tally can hold";
    default: return "";
    }
}
