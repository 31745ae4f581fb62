/* Level-pool routing through a pond; see pond.h and document 02, CR 6.
 *
 * No number but the product in outflow_at passes 64 bits.  Storage and outflow
 * are at most 6e12 units, so a row has at most 1,452 * 6e12 + 1,440 * 6e12
 * units of water, and an interval adds at most 1,440 * 1.2e13 to that. */
#include "pond.h"

__extension__ typedef unsigned __int128 wide;

enum {
    UNITS_PER_HUNDREDTH = 600000,   /* of storage and of flow */
    WATER_PER_STORAGE = 1452
};

/* Rows start at 0, 0; storage rises and outflow does not fall; and the storage
 * of every row is worth its outflow at least, so that no interval can take out
 * more water than there is. */
bool make_pond(const struct pond_cards *cards, uint32_t minutes,
               struct pond *pond)
{
    const uint32_t *storage = cards->storage;
    const uint32_t *outflow = cards->outflow;

    if (cards->storages < 2 || cards->storages != cards->outflows)
        return false;
    if (storage[0] != 0 || outflow[0] != 0)
        return false;
    pond->rows = cards->storages;
    pond->minutes = minutes;
    for (unsigned k = 0; k < pond->rows; k++) {
        uint64_t stored = (uint64_t)storage[k] * UNITS_PER_HUNDREDTH
                        * WATER_PER_STORAGE;
        uint64_t flow = (uint64_t)outflow[k] * UNITS_PER_HUNDREDTH;

        if (k > 0 && (storage[k] <= storage[k - 1]
                      || outflow[k] < outflow[k - 1]))
            return false;
        if (stored < minutes * flow)
            return false;
        pond->row[k] = (struct pond_row){ stored + minutes * flow, flow };
    }
    return true;
}

/* The outflow between a row and the next, rounded down. */
static uint64_t outflow_at(const struct pond_row *row, uint64_t water)
{
    uint64_t rise = row[1].outflow - row[0].outflow;
    uint64_t span = row[1].water - row[0].water;
    wide share = (wide)rise * (water - row[0].water) / span;

    return row[0].outflow + (uint64_t)share;
}

/* The water seldom passes many rows in one interval, so each search starts
 * from the row that the last one found.  At a row's own height it does not
 * matter from which side that is reached. */
bool route_pond(const struct pond *pond, uint64_t *flow, unsigned nq)
{
    const struct pond_row *row = pond->row;
    uint64_t top = pond->row[pond->rows - 1].water;
    uint64_t minutes = pond->minutes;
    uint64_t water = 0;
    uint64_t inflow = flow[0];
    uint64_t outflow = 0;

    flow[0] = 0;
    for (unsigned i = 1; i < nq; i++) {
        uint64_t next = flow[i];

        water += minutes * (inflow + next);
        water -= 2 * minutes * outflow;
        if (water > top)
            return false;
        while (water > row[1].water)
            row++;
        while (water < row[0].water)
            row--;
        outflow = outflow_at(row, water);
        inflow = next;
        flow[i] = outflow;
    }
    return true;
}
