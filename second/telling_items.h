#ifndef TELLING_ITEMS_H
#define TELLING_ITEMS_H

/* Every piece of docs/TELLING.md as a pattern (pattern.h), and every word that a
   piece may have. Written from the page and not from what makes the pieces. */

/* Of a record. */
static const char *const account_items[] = {
    /* What was done */
    "seat %n reads RBR", "seat %n reads IER", "seat %n reads IIR", "seat %n reads LCR",
    "seat %n reads MCR", "seat %n reads LSR", "seat %n reads MSR", "seat %n reads SCRATCH",
    "seat %n reads DLL", "seat %n reads DLM", "seat %n reads register %n",
    "seat %n writes THR %c", "seat %n writes THR %d", "seat %n writes THR %h",
    "seat %n writes IER %b", "seat %n writes FCR %b", "seat %n writes LCR %b",
    "seat %n writes MCR %b", "seat %n writes LSR %b", "seat %n writes MSR %b",
    "seat %n writes SCRATCH %b", "seat %n writes DLL %b", "seat %n writes DLM %b",
    "seat %n writes register %n %b", "seat 255 *",
    "%c arrives at seat %n", "%d arrives at seat %n", "%h arrives at seat %n",
    "%l arrives at seat %n with parity", "%l arrives at seat %n with framing",
    "%l arrives at seat %n with break", "%l arrives at seat %n with parity framing break",
    "%l arrives at seat %n with marks %b", "20 arrives at seat %n", "21 '!' arrives at seat %n",
    "7E '~' arrives at seat %n", "7F arrives at seat %n", "27 ''' arrives at seat %n",
    "modem inputs of seat %n: none", "modem inputs of seat %n: CTS", "modem inputs of seat %n: DSR",
    "modem inputs of seat %n: RI", "modem inputs of seat %n: DCD",
    "modem inputs of seat %n: CTS DSR RI DCD", "modem inputs of seat %n: %b",
    "a character time at seat %n", "master reset of all eight seats",
    "controller reads requests", "controller reads in service", "controller reads mask",
    "controller reads port %n",
    "controller writes ICW1 %b", "controller writes ICW2 %b", "controller writes ICW4 %b",
    "controller writes OCW1 %b", "controller writes OCW2 %b", "controller writes OCW3 %b",
    "controller writes port 1 %b", "controller writes port 2 %b", "controller writes port 255 %b",
    "acknowledge", "a record of kind %n", "a record cut off",
    /* What came of it */
    "refused 1: seat or line above 7", "refused 2: register above 7, port above 1",
    "refused 3: kind above 8", "refused 4: record cut off at the end",
    "refused 5: arrival or character time while the divisor is 0", "refused 6: marks above 7",
    "refused 7: modem levels above 15", "refused 8: controller not ready",
    "refused 9: not served (cascaded controllers, 8080 mode, poll)",
    "refused 16: data beyond the word length", "refused 17: parity mark with parity off",
    "refused 18: break with data not 0", "refused 19: reception that no tally can hold",
    "RBR %c", "RBR %d", "RBR %h", "RBR %l with parity", "RBR %l with framing", "RBR %l with break",
    "RBR %l with parity framing break", "RBR %l, %n behind", "RBR %l with *, %n behind",
    "RBR %l, 15 behind", "RBR %l again: nothing waits",
    "IIR %b: line trouble", "IIR %b: data", "IIR %b: time-out", "IIR %b: transmit queue empty",
    "IIR %b: modem input changed", "IIR %b: no cause", "IIR 04: data", "IIR C4: data",
    "LSR %b: none", "LSR %b: data*", "LSR %b:* overrun*", "LSR %b:* parity*", "LSR %b:* framing*",
    "LSR %b:* break*", "LSR %b:* holding-empty*", "LSR %b:* empty*", "LSR %b:* marked",
    "LSR FF: data overrun parity framing break holding-empty empty marked",
    "MSR %b: none", "MSR %b: CTS-changed*", "MSR %b:* DSR-changed*", "MSR %b:* RI-ended*",
    "MSR %b:* DCD-changed*", "MSR %b:* CTS", "MSR %b:* CTS *", "MSR %b:* DSR*", "MSR %b:* RI*",
    "MSR %b:* DCD", "MSR FF: CTS-changed DSR-changed RI-ended DCD-changed CTS DSR RI DCD",
    "IER %b", "LCR %b", "MCR %b", "SCRATCH %b", "DLL %b", "DLM %b",
    "requests %b: no line", "requests %b: line %n", "requests %b: lines %n %n*",
    "in service %b: no line", "in service %b: line %n", "in service %b: lines %n %n*",
    "mask %b: no line", "mask %b: line %n", "mask FF: lines 0 1 2 3 4 5 6 7",
    "sent %c", "sent %d", "sent %h", "nothing is sent", "break is sent",
    "vector %b: line %n", "vector 00: line 0", "vector %b: spurious",
    /* What moved */
    "queued %n", "to send %n", "shift register loaded", "shift register empty",
    "overrun set", "overrun cleared", "parity set", "parity cleared", "framing set",
    "framing cleared", "break set", "break cleared", "time-out set", "time-out cleared",
    "holding-empty flag set", "holding-empty flag cleared",
    "CTS-changed set", "CTS-changed cleared", "DSR-changed set", "DSR-changed cleared",
    "RI-ended set", "RI-ended cleared", "DCD-changed set", "DCD-changed cleared",
    "loopback on", "loopback off", "controller ready", "controller not ready",
    "line 0 rises", "line 0 falls", "line 7 rises", "line 7 falls", "line %n rises", "line %n falls",
    "line 0 in service", "line 0 out of service", "line 7 in service", "line 7 out of service",
    "line %n in service", "line %n out of service", "line 0 ranks first", "line %n ranks first",
    "output rises", "output falls",
};

/* Of the state, a seat's and then the controller's. */
static const char *const state_items[] = {
    "LSR %b:*", "LSR FF:*", "IIR %b: *", "IIR C0: modem input changed", "IIR 02: transmit queue empty",
    "MSR %b:*", "MSR 00: none",
    "line high", "line low", "loopback", "received %n", "received 0", "received 16",
    "%c", "%d", "%h", "%l with parity", "%l with framing", "%l with break",
    "%l with parity framing break", "to send %n", "to send 0", "to send 16",
    "shift register %c", "shift register %d", "shift register %h",
    "time-out count 1", "time-out count 2", "time-out count 3", "time-out count 4",
    "holding-empty flag", "kept marks parity", "kept marks framing", "kept marks break",
    "kept marks parity framing break", "arrived %n", "arrived 4294967295", "read %n", "lost %n",
    "dropped %n", "queued %n", "queued 0", "queued 16",
    "ready", "not ready", "level mode", "edge mode", "base %b",
    "requests %b: no line", "requests %b: line %n", "requests %b: lines %n %n*",
    "mask %b: no line", "mask %b: line %n", "mask %b: lines %n %n*",
    "in service %b: no line", "in service %b: line %n", "in service %b: lines %n %n*",
    "rank 0 1 2 3 4 5 6 7", "rank 7 0 1 2 3 4 5 6", "rank %n %n %n %n %n %n %n %n",
    "special mask", "automatic end", "rotation", "port 0 reads in service",
    "output high", "output low",
};

#define ACCOUNT_ITEMS (sizeof account_items / sizeof account_items[0])
#define STATE_ITEMS (sizeof state_items / sizeof state_items[0])

/* What a page may look like, beside its pieces. */
#define TELLING_SHAPES(SHAPE) \
    SHAPE(FULL_LINE, "a line of 80 columns that is no comment") \
    SHAPE(FULL_COMMENT, "a line of 80 columns of a comment") \
    SHAPE(HEAD_ALONE, "a head whose first piece stands on a new line") \
    SHAPE(LONG_HEAD, "a head of more than 12 columns") \
    SHAPE(COMMENT, "a comment of one line") \
    SHAPE(LONG_COMMENT, "a comment of several lines") \
    SHAPE(TIGHT_COMMENT, "a comment without a blank behind its #") \
    SHAPE(BLANKS_IN_COMMENT, "two blanks in a comment") \
    SHAPE(FULL_PAGE, "a page of 4096 bytes")

#endif
