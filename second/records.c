#include "records.h"

void records_begin(struct records *records, FILE *input)
{
    records->input = input;
    records->held = 0;
    records->used = 0;
}

/* One byte, or -1 at the end of input. */
static int next_byte(struct records *records)
{
    if (records->used == records->held) {
        records->held = fread(records->block, 1, BLOCK_BYTES, records->input);
        records->used = 0;
    }
    if (records->held == 0)
        return -1;
    records->used += 1;
    return records->block[records->used - 1];
}

size_t records_next(struct records *records, uint8_t record[RECORD_BYTES])
{
    size_t length = 0;
    while (length < RECORD_BYTES) {
        int byte = next_byte(records);
        if (byte < 0)
            break;
        record[length] = (uint8_t)byte;
        length += 1;
    }
    return length;
}

struct event record_event(const uint8_t record[RECORD_BYTES])
{
    return (struct event){record[0], record[1], record[2], record[3]};
}
