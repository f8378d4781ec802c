#ifndef IMAGE_LAYOUT_H
#define IMAGE_LAYOUT_H

/* Where the bytes of a saved bench stand: "the three letters `BEN`, a 16-bit
   version (.. low byte first), the controller, then eight seat records of one
   fixed length". Ticket 8: "the saved bench becomes version 2"; what is called
   older here is version 1. */

#define IMAGE_MARK "BEN"
#define IMAGE_MARK_BYTES 3U
#define IMAGE_VERSION 2U

enum image_at {
    IMAGE_AT_VERSION = 3,
    IMAGE_HEADER_BYTES = 5,
    IMAGE_AT_CONTROLLER = 5,
    IMAGE_AT_SEATS = 16,
    IMAGE_OLDER_SEAT_BYTES = 66,
    IMAGE_OLDER_BYTES = IMAGE_AT_SEATS + 8 * IMAGE_OLDER_SEAT_BYTES,
    IMAGE_SEAT_BYTES = 86,
    IMAGE_BYTES = IMAGE_AT_SEATS + 8 * IMAGE_SEAT_BYTES
};

/* The controller's bytes, from its first. */
enum controller_at {
    CONTROLLER_AT_STEP = 0,
    CONTROLLER_AT_LEVEL = 1,
    CONTROLLER_AT_BASE = 2,
    CONTROLLER_AT_FIRST = 3,
    CONTROLLER_AT_MASK = 4,
    CONTROLLER_AT_IN_SERVICE = 5,
    CONTROLLER_AT_SPECIAL = 6,
    CONTROLLER_AT_AUTOMATIC = 7,
    CONTROLLER_AT_ROTATION = 8,
    CONTROLLER_AT_SELECTION = 9,
    CONTROLLER_AT_LATCHES = 10
};

/* A seat's bytes, from the first of its record. */
enum seat_at {
    SEAT_AT_IER = 0,
    SEAT_AT_FCR = 1,
    SEAT_AT_LCR = 2,
    SEAT_AT_MCR = 3,
    SEAT_AT_CHANGES = 4,
    SEAT_AT_SCRATCH = 5,
    SEAT_AT_LEVELS = 6,
    SEAT_AT_DLL = 7,
    SEAT_AT_DLM = 8,
    SEAT_AT_LAST = 9,
    SEAT_AT_OVERRUN = 10,
    SEAT_AT_KEPT = 11,
    SEAT_AT_FLAG = 12,
    SEAT_AT_TIMEOUT = 13,
    SEAT_AT_SHIFT_FULL = 14,
    SEAT_AT_SHIFT = 15,
    SEAT_AT_SEND_COUNT = 16,
    SEAT_AT_SEND = 17,
    SEAT_AT_RECEIVE_COUNT = 33,
    SEAT_AT_RECEIVE = 34,
    SEAT_AT_MARKS = 50,
    SEAT_AT_FIGURES = 66 /* from version 2 on: five numbers of four bytes */
};

/* The fields that are one byte and one member each. The rest of a controller
   is its step and its first-ranked line, of a seat its two queues. */
#define CONTROLLER_FIELDS(FIELD) \
    FIELD(CONTROLLER_AT_LEVEL, level_mode) \
    FIELD(CONTROLLER_AT_BASE, base) \
    FIELD(CONTROLLER_AT_MASK, mask) \
    FIELD(CONTROLLER_AT_IN_SERVICE, in_service) \
    FIELD(CONTROLLER_AT_SPECIAL, special_mask) \
    FIELD(CONTROLLER_AT_AUTOMATIC, automatic_end) \
    FIELD(CONTROLLER_AT_ROTATION, automatic_rotation) \
    FIELD(CONTROLLER_AT_SELECTION, reads_in_service) \
    FIELD(CONTROLLER_AT_LATCHES, latches)

#define SEAT_FIELDS(FIELD) \
    FIELD(SEAT_AT_IER, ier) \
    FIELD(SEAT_AT_FCR, fcr) \
    FIELD(SEAT_AT_LCR, lcr) \
    FIELD(SEAT_AT_MCR, mcr) \
    FIELD(SEAT_AT_CHANGES, modem_changes) \
    FIELD(SEAT_AT_SCRATCH, scratch) \
    FIELD(SEAT_AT_LEVELS, modem_levels) \
    FIELD(SEAT_AT_DLL, divisor_low) \
    FIELD(SEAT_AT_DLM, divisor_high) \
    FIELD(SEAT_AT_LAST, last_byte_read) \
    FIELD(SEAT_AT_OVERRUN, overrun) \
    FIELD(SEAT_AT_KEPT, kept_marks) \
    FIELD(SEAT_AT_FLAG, holding_empty) \
    FIELD(SEAT_AT_TIMEOUT, timeout_count) \
    FIELD(SEAT_AT_SHIFT_FULL, shift_full) \
    FIELD(SEAT_AT_SHIFT, shift_register)

#endif
