/* The hydrograph in print: the flows of one block under one ratio as text with
 * commas, a head and a line for each interval, for a table or a plot. */
#ifndef HYDROGRAPH_H
#define HYDROGRAPH_H

#include "engine.h"

enum {
    /* An interval has at most 3 digits, 300 times 1,440 minutes have 6, and no
     * flow passes 100,000 cfs or 6e12 units: 13 bytes each. */
    HYDROGRAPH_LINE = 3 + 6 + 13 + 13 + 4,
    HYDROGRAPH_ROOM = (ORDINATE_LIMIT + 1) * HYDROGRAPH_LINE
};

/* The minutes of an interval, from the IT of a deck that the engine has
 * accepted. */
uint32_t minutes_of(const uint8_t *deck, size_t length);

/* Puts the text of NQ ordinates of the engine into HYDROGRAPH_ROOM bytes and
 * returns how many it takes. */
size_t write_hydrograph(const uint64_t *ordinates, unsigned nq,
                        uint32_t minutes, char *text);

#endif
