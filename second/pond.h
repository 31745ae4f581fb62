/* Level-pool routing through a pond (document 02, CR 6): the table that a
 * block's SV and SQ make, and the hydrograph that leaves the pond. */
#ifndef POND_H
#define POND_H

#include <stdbool.h>
#include <stdint.h>

enum { ROW_LIMIT = 20 };    /* pairs of SV and SQ in a block */

/* Card values, hundredths of acre-feet and of cfs: so many of each. */
struct pond_cards {
    unsigned storages;
    unsigned outflows;
    const uint32_t *storage;
    const uint32_t *outflow;
};

/* A row of the table: the outflow, in flow units, at a height of the water,
 * which is what document 02 calls W. */
struct pond_row {
    uint64_t water;
    uint64_t outflow;
};

struct pond {
    unsigned rows;          /* two at least */
    uint64_t minutes;
    struct pond_row row[ROW_LIMIT];
};

/* Makes the table.  False: it has fewer than two pairs, more values of one
 * sort than of the other, or breaks a rule. */
bool make_pond(const struct pond_cards *cards, uint32_t minutes,
               struct pond *pond);

/* Turns inflow into outflow, in place.  False: the water rises above the last
 * row, and the flows are good for nothing. */
bool route_pond(const struct pond *pond, uint64_t *flow, unsigned nq);

#endif
