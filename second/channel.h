#ifndef CHANNEL_H
#define CHANNEL_H

#include <stdbool.h>

#include "ledger.h"
#include "outcome.h"
#include "queue.h"

#define MARK_PARITY 1U
#define MARK_BREAK 4U

/* "100 idle; 200 break" */
#define ANSWER_IDLE 0x100U
#define ANSWER_BREAK 0x200U

#define IER_DATA 0x01U
#define IER_HOLDING_EMPTY 0x02U
#define IER_LINE_STATUS 0x04U
#define IER_MODEM 0x08U

#define FCR_FIFO 0x01U
#define FCR_EMPTY_RECEIVE 0x02U
#define FCR_EMPTY_TRANSMIT 0x04U

#define LCR_PARITY 0x08U
#define LCR_BREAK 0x40U
#define LCR_DIVISOR 0x80U

/* Document 004, MCR: "Loop", "OUT2", "OUT1", "(RTS)", "(DTR)". OUT2 is also
   what lets the line rise. */
#define MCR_DTR 0x01U
#define MCR_RTS 0x02U
#define MCR_OUT1 0x04U
#define MCR_OUT2 0x08U
#define MCR_LINE MCR_OUT2
#define MCR_LOOP 0x10U

/* "levels (1 CTS, 2 DSR, 4 RI, 8 DCD; set = active)" */
#define LEVEL_CTS 1U
#define LEVEL_DSR 2U
#define LEVEL_RI 4U
#define LEVEL_DCD 8U

#define LSR_DATA 0x01U
#define LSR_OVERRUN 0x02U
#define LSR_MARKS 0x1CU
#define LSR_TRANSMIT_EMPTY 0x20U
#define LSR_ALL_EMPTY 0x40U
#define LSR_SOME_MARK 0x80U

#define CAUSE_LINE_STATUS 0x06U
#define CAUSE_DATA 0x04U
#define CAUSE_TIMEOUT 0x0CU
#define CAUSE_HOLDING_EMPTY 0x02U
#define CAUSE_MODEM 0x00U
#define CAUSE_NONE 0x01U

/* A channel of all 0 is the one at power-up: "all registers, divisor,
   scratch, modem inputs, flags, marks and counts 0, queues and shift
   register empty". */
struct channel {
    unsigned ier;
    unsigned fcr; /* bits 0, 3 and 7-6 */
    unsigned lcr;
    unsigned mcr;
    unsigned divisor_low;
    unsigned divisor_high;
    unsigned scratch;
    unsigned modem_levels; /* as last given; in loopback "only remembered" */
    unsigned modem_changes; /* MSR bits 0-3 */
    unsigned last_byte_read;
    unsigned kept_marks;
    bool overrun;
    bool holding_empty;
    unsigned timeout_count;
    bool shift_full;
    unsigned shift_register;
    struct queue receive;
    struct queue transmit;
    struct ledger ledger;
};

bool channel_in_fifo_mode(const struct channel *channel);
unsigned channel_places(const struct channel *channel);
unsigned channel_trigger(const struct channel *channel);
bool channel_trigger_reached(const struct channel *channel);
unsigned channel_lsr(const struct channel *channel);
unsigned channel_msr(const struct channel *channel);

/* Ticket 7: "Document 004 has it at MCR bit 4." */
bool channel_in_loopback(const struct channel *channel);

/* The modem inputs as the channel hears them: the levels given or, in loopback,
   what MCR feeds. */
unsigned channel_inputs(const struct channel *channel);

/* Sets the change bits for what the inputs were before and are now. */
void channel_note_changes(struct channel *channel, unsigned inputs_before);

unsigned channel_cause(const struct channel *channel);

/* "The seat's line is high exactly if a cause is named and MCR bit 3 is set." */
bool channel_line(const struct channel *channel);

struct outcome channel_read(struct channel *channel, unsigned number);
struct outcome channel_write(struct channel *channel, unsigned number, unsigned byte);
struct outcome channel_arrival(struct channel *channel, struct character character);
struct outcome channel_modem_inputs(struct channel *channel, unsigned levels);
struct outcome channel_character_time(struct channel *channel);
void channel_master_reset(struct channel *channel);

/* The five tallies in their order. */
void channel_figures(const struct channel *channel, uint32_t figures[FIGURES]);

/* "arrival or character time while the divisor is 0" */
bool channel_divisor_is_zero(const struct channel *channel);

/* The largest character of 5, 6, 7 or 8 bits, by LCR bits 1-0. */
unsigned channel_largest_character(const struct channel *channel);

#endif
