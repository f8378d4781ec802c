#ifndef LOOPBACK_ITEMS_H
#define LOOPBACK_ITEMS_H

/* What the trial streams are to reach of ticket 7, each with the words it is
   printed by. Inside is with MCR bit 4 set. The four inputs stand in the order
   of the levels, CTS, DSR, RI, DCD. */
#define LOOPBACK_ITEMS(ITEM) \
    ITEM(ENTER_CTS, "entering sets the change bit of CTS") \
    ITEM(ENTER_DSR, "entering sets the change bit of DSR") \
    ITEM(ENTER_RI, "entering sets the change bit of RI") \
    ITEM(ENTER_DCD, "entering sets the change bit of DCD") \
    ITEM(ENTER_RI_RISE, "entering with RI becoming active sets none for it") \
    ITEM(ENTER_SAME, "entering changes no input") \
    ITEM(LEAVE_CTS, "leaving sets the change bit of CTS") \
    ITEM(LEAVE_DSR, "leaving sets the change bit of DSR") \
    ITEM(LEAVE_RI, "leaving sets the change bit of RI") \
    ITEM(LEAVE_DCD, "leaving sets the change bit of DCD") \
    ITEM(LEAVE_RI_RISE, "leaving with RI becoming active sets none for it") \
    ITEM(LEAVE_SAME, "leaving changes no input") \
    ITEM(LEAVE_GIVEN, "leaving shows levels that were given inside") \
    ITEM(FED_CTS_ON, "MCR write inside makes CTS active") \
    ITEM(FED_DSR_ON, "MCR write inside makes DSR active") \
    ITEM(FED_RI_ON, "MCR write inside makes RI active and sets none for it") \
    ITEM(FED_DCD_ON, "MCR write inside makes DCD active") \
    ITEM(FED_CTS_OFF, "MCR write inside makes CTS inactive") \
    ITEM(FED_DSR_OFF, "MCR write inside makes DSR inactive") \
    ITEM(FED_RI_OFF, "MCR write inside makes RI inactive") \
    ITEM(FED_DCD_OFF, "MCR write inside makes DCD inactive") \
    ITEM(FED_SAME, "MCR write inside changes no input") \
    ITEM(OUTSIDE_SAME, "MCR write outside changes its low four bits and no input") \
    ITEM(MCR_DROPPED, "MCR write that sets bit 4 and one of bits 5-7") \
    ITEM(FED_LINE_RISES, "MCR write inside raises the line by DCD and bit 3 at once") \
    ITEM(FED_LINE_HELD, "MCR write inside turns bit 3 off under a line that was high") \
    ITEM(LINE_INSIDE, "line high inside") \
    ITEM(LINE_HELD, "line held low inside by MCR bit 3 with a cause named") \
    ITEM(MODEM_CTS, "modem event inside would set the change bit of CTS outside") \
    ITEM(MODEM_DSR, "modem event inside would set the change bit of DSR outside") \
    ITEM(MODEM_RI, "modem event inside would set the change bit of RI outside") \
    ITEM(MODEM_DCD, "modem event inside would set the change bit of DCD outside") \
    ITEM(MODEM_REFUSED, "modem event inside refused by 7") \
    ITEM(MSR_OTHER, "MSR read inside with levels that are not the inputs") \
    ITEM(MSR_INSIDE, "MSR read inside with a change bit") \
    ITEM(IIR_INSIDE, "IIR read inside names the modem") \
    ITEM(OUTER_ROOM, "arrival inside with room") \
    ITEM(OUTER_16450, "arrival inside at a full queue in 16450 mode") \
    ITEM(OUTER_FIFO, "arrival inside at a full queue in FIFO mode") \
    ITEM(OUTER_MARKED, "arrival inside with a mark in 16450 mode") \
    ITEM(OUTER_AT_1, "arrival inside at time-out count 1") \
    ITEM(OUTER_AT_2, "arrival inside at time-out count 2") \
    ITEM(OUTER_AT_3, "arrival inside at time-out count 3") \
    ITEM(OUTER_AT_4, "arrival inside at time-out count 4") \
    ITEM(OUTER_REFUSED_5, "arrival inside refused by 5") \
    ITEM(OUTER_REFUSED_6, "arrival inside refused by 6") \
    ITEM(OUTER_REFUSED_16, "arrival inside refused by 16") \
    ITEM(OUTER_REFUSED_17, "arrival inside refused by 17") \
    ITEM(OUTER_REFUSED_18, "arrival inside refused by 18") \
    ITEM(LOOPED_16450, "reception inside with room in 16450 mode") \
    ITEM(LOOPED_REPLACES, "reception inside replaces in 16450 mode") \
    ITEM(LOOPED_FOR_MARKED, "reception inside replaces a marked one in 16450 mode") \
    ITEM(LOOPED_KEPT, "reception inside while a mark is kept in 16450 mode") \
    ITEM(LOOPED_AT_0, "reception inside with room in FIFO mode at time-out count 0") \
    ITEM(LOOPED_AT_1, "reception inside with room in FIFO mode at time-out count 1") \
    ITEM(LOOPED_AT_2, "reception inside with room in FIFO mode at time-out count 2") \
    ITEM(LOOPED_AT_3, "reception inside with room in FIFO mode at time-out count 3") \
    ITEM(LOOPED_AT_4, "reception inside with room in FIFO mode at time-out count 4") \
    ITEM(LOOPED_LOST_AT_0, "reception inside lost in FIFO mode at time-out count 0") \
    ITEM(LOOPED_LOST_AT_1, "reception inside lost in FIFO mode at time-out count 1") \
    ITEM(LOOPED_LOST_AT_2, "reception inside lost in FIFO mode at time-out count 2") \
    ITEM(LOOPED_LOST_AT_3, "reception inside lost in FIFO mode at time-out count 3") \
    ITEM(LOOPED_LOST_AT_4, "reception inside lost in FIFO mode at time-out count 4") \
    ITEM(LOOPED_EMPTY, "reception inside into an empty queue in FIFO mode") \
    ITEM(LOOPED_SIXTEENTH, "reception inside fills sixteen places") \
    ITEM(LOOPED_TRIGGER, "reception inside reaches the trigger") \
    ITEM(LOOPED_CUT_5, "reception inside cut at five bits") \
    ITEM(LOOPED_CUT_6, "reception inside cut at six bits") \
    ITEM(LOOPED_CUT_7, "reception inside cut at seven bits") \
    ITEM(LOOPED_WHOLE, "reception inside of 80 or more at eight bits") \
    ITEM(LOOPED_BREAK, "reception inside with break set") \
    ITEM(LOOPED_PARITY, "reception inside with parity on") \
    ITEM(LOOPED_DIVISOR, "reception inside with LCR bit 7 set") \
    ITEM(LOOPED_AND_NEXT, "reception inside while the next one moves in") \
    ITEM(LOOPED_AND_LAST, "reception inside while the last one moves in and sets the flag") \
    ITEM(LOOPED_LINE, "reception inside raises the line") \
    ITEM(LOOPED_CAME_IN, "reception inside of a character that moved in outside") \
    ITEM(SENT_WENT_OUT, "byte sent that moved in inside") \
    ITEM(IDLE_INSIDE, "idle inside") \
    ITEM(IDLE_BREAK, "idle inside with break set") \
    ITEM(IDLE_COUNT, "idle inside with the time-out count rising") \
    ITEM(IDLE_NEXT, "idle inside while the next one moves in") \
    ITEM(TIME_REFUSED, "character time inside refused by 5") \
    ITEM(TAKEN_INSIDE, "letter taken inside with another behind it") \
    ITEM(EMPTIED_INSIDE, "FCR write inside empties a receive queue") \
    ITEM(RESET_CTS, "master reset inside changes CTS") \
    ITEM(RESET_DSR, "master reset inside changes DSR") \
    ITEM(RESET_RI, "master reset inside makes RI inactive") \
    ITEM(RESET_DCD, "master reset inside changes DCD") \
    ITEM(RESET_RI_RISE, "master reset inside makes RI active")

#endif
