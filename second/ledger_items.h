#ifndef LEDGER_ITEMS_H
#define LEDGER_ITEMS_H

/* What the trial streams are to reach of ticket 8, each with the words it is
   printed by. Inside is with MCR bit 4 set; at most is with arrived at its largest
   value. Where two stand together, the first is of 16450 mode and the second of
   FIFO mode. */
#define LEDGER_ITEMS(ITEM) \
    ITEM(ARRIVED_16450, "arrival queued in 16450 mode") \
    ITEM(ARRIVED_FIFO, "arrival queued in FIFO mode") \
    ITEM(OVERRUN_16450, "arrival replaces in 16450 mode") \
    ITEM(OVERRUN_FIFO, "arrival lost in FIFO mode") \
    ITEM(CAME_BACK_16450, "reception inside queued in 16450 mode") \
    ITEM(CAME_BACK_FIFO, "reception inside queued in FIFO mode") \
    ITEM(OVERRUN_INSIDE_16450, "reception inside counts one replaced in 16450 mode") \
    ITEM(OVERRUN_INSIDE_FIFO, "reception inside counts itself lost in FIFO mode") \
    ITEM(OVERRUN_AGAIN, "character lost while overrun is set already") \
    ITEM(OUTER_UNCOUNTED, "arrival inside counts nothing") \
    ITEM(IDLE_UNCOUNTED, "idle inside counts nothing") \
    ITEM(SENT_UNCOUNTED, "byte sent outside counts nothing") \
    ITEM(READ_TAKEN_16450, "RBR read counts one in 16450 mode") \
    ITEM(READ_TAKEN_FIFO, "RBR read counts one in FIFO mode") \
    ITEM(READ_EMPTY_16450, "RBR read counts none of an empty queue in 16450 mode") \
    ITEM(READ_EMPTY_FIFO, "RBR read counts none of an empty queue in FIFO mode") \
    ITEM(READ_DLL, "DLL read counts none of a queue that holds something") \
    ITEM(DROPPED_BIT_1, "FCR bit 1 drops") \
    ITEM(DROPPED_INTO_FIFO, "FCR bit 0 turned on drops") \
    ITEM(DROPPED_OUT_OF_FIFO, "FCR bit 0 turned off drops") \
    ITEM(DROPPED_BOTH, "FCR bit 0 turned on together with bit 1 drops") \
    ITEM(DROPPED_NONE, "FCR empties a receive queue that is empty") \
    ITEM(DROPPED_INSIDE, "FCR drops inside") \
    ITEM(DROPPED_SIXTEEN, "sixteen dropped at once") \
    ITEM(UNDROPPED_16450, "FCR bit 1 without bit 0 drops nothing in 16450 mode") \
    ITEM(UNDROPPED_FIFO, "FCR without bit 1 drops nothing in FIFO mode") \
    ITEM(UNDROPPED_SENDING, "FCR bit 2 empties the transmit queue and drops nothing") \
    ITEM(RESET_DROPS_16450, "master reset drops in 16450 mode") \
    ITEM(RESET_DROPS_FIFO, "master reset drops in FIFO mode") \
    ITEM(RESET_DROPS_INSIDE, "master reset drops inside") \
    ITEM(ASKED_ABOVE, "tallies asked of a seat above 7") \
    ITEM(LAST_ARRIVAL, "arrival that brings arrived to its largest value") \
    ITEM(LAST_INSIDE, "reception inside that brings arrived to its largest value") \
    ITEM(REFUSED_19_16450, "refusal 19, arrival with room in 16450 mode") \
    ITEM(REFUSED_19_FIFO, "refusal 19, arrival with room in FIFO mode") \
    ITEM(REFUSED_19_FULL_16450, "refusal 19, arrival at a full queue in 16450 mode") \
    ITEM(REFUSED_19_FULL_FIFO, "refusal 19, arrival at a full queue in FIFO mode") \
    ITEM(REFUSED_19_MARKED, "refusal 19, arrival with a mark in 16450 mode") \
    ITEM(REFUSED_19_COUNTED, "refusal 19, arrival at a time-out count of 1 to 3") \
    ITEM(HELD_19_16450, "refusal 19, character time with room in 16450 mode") \
    ITEM(HELD_19_FIFO, "refusal 19, character time with room in FIFO mode") \
    ITEM(HELD_19_FULL_16450, "refusal 19, character time at a full queue in 16450 mode") \
    ITEM(HELD_19_FULL_FIFO, "refusal 19, character time at a full queue in FIFO mode") \
    ITEM(HELD_19_NEXT, "refusal 19, character time with another to move in") \
    ITEM(HELD_19_COUNTED, "refusal 19, character time at a time-out count below 4") \
    ITEM(HELD_19_BREAK, "refusal 19, character time with break set") \
    ITEM(MOST_5, "refusal 5 of an arrival at most") \
    ITEM(MOST_6, "refusal 6 at most") \
    ITEM(MOST_16, "refusal 16 at most") \
    ITEM(MOST_17, "refusal 17 at most") \
    ITEM(MOST_18, "refusal 18 at most") \
    ITEM(MOST_5_TIME, "refusal 5 of a character time at most that would receive") \
    ITEM(MOST_OUTER, "arrival inside at most") \
    ITEM(MOST_IDLE, "idle inside at most") \
    ITEM(MOST_IDLE_NEXT, "idle inside at most while the next one moves in") \
    ITEM(MOST_SENT, "byte sent outside at most") \
    ITEM(MOST_READ, "RBR read at most counts one") \
    ITEM(MOST_DROPPED, "FCR drops at most") \
    ITEM(MOST_RESET, "master reset drops at most") \
    ITEM(FREED_LEAVING, "MCR write leaves at most with a character that is to leave") \
    ITEM(FREED_RESET, "master reset at most takes a character that is to leave inside")

#endif
