#ifndef CONTROLLER_H
#define CONTROLLER_H

#include <stdbool.h>

#include "outcome.h"

#define LINES 8U

/* "100 + vector if spurious" */
#define ANSWER_SPURIOUS 0x100U

/* "then ICW2 and ICW4 at port 1, then ready" */
enum stage { STAGE_BEFORE_ICW1, STAGE_ICW2_NEXT, STAGE_ICW4_NEXT, STAGE_READY };

/* Sets of lines hold line n as bit n. */
struct controller {
    enum stage stage;
    unsigned lines; /* as they were after the last event */
    unsigned latches;
    unsigned mask;
    unsigned in_service;
    unsigned base;
    unsigned last_ranked;
    bool level_mode;
    bool special_mask;
    bool automatic_end;
    bool automatic_rotation;
    bool reads_in_service;
};

/* "At power-up it is not ready; all is 0 and line 0 ranks first." */
struct controller controller_at_power_up(void);

bool controller_ready(const struct controller *controller);

/* "the number of lines ranked above it" */
unsigned controller_place(const struct controller *controller, unsigned line);

/* The requests that stand, masked or not. */
unsigned controller_standing(const struct controller *controller);

bool controller_output(const struct controller *controller);

/* The line an acknowledge would grant; LINES if none. */
unsigned controller_grantable(const struct controller *controller);

/* The line a plain end takes; LINES if none. */
unsigned controller_plain_end_line(const struct controller *controller);

/* "A rise between two events sets the latch, a fall or a grant clears it." */
void controller_watch(struct controller *controller, unsigned lines);

struct outcome controller_read(const struct controller *controller, unsigned port);
struct outcome controller_write(struct controller *controller, unsigned port, unsigned byte);
struct outcome controller_acknowledge(struct controller *controller);

#endif
