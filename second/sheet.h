/* The sheet for people (document 02, CR 5): a runoff block as a trainee works
 * it by hand.  Each interval with excess has a row that spreads it over the
 * unit ordinates, and the columns are added up.
 *
 * Nothing of the engine's water is used: the block's cards are read from the
 * deck once more, and rain, losses and shares are worked out from them here.
 * That the sums are the engine's ordinates then says something of both. */
#ifndef SHEET_H
#define SHEET_H

#include "cards.h"
#include "engine.h"

enum {
    UNIT_ORDINATE_LIMIT = 150,
    SHEET_KIND = 1,         /* the kind of block that has a sheet */
    /* A line has a name, or four cells of at most 10 bytes, and NQ cells, in
     * which no flow passes 6e12 units or 100,000 cfs: 13 bytes and a comma. */
    SHEET_LINE = 64 + 14 * ORDINATE_LIMIT,
    SHEET_ROOM = 2 * (ORDINATE_LIMIT + 3) * SHEET_LINE
};

/* Depths in depth units and sums in flow units, by interval; unit ordinates
 * in hundredths of a cfs, the ratio in hundredths. */
struct sheet {
    char name[NAME_LIMIT + 1];
    uint32_t ratio;
    unsigned nq;
    unsigned units;
    uint64_t unit[UNIT_ORDINATE_LIMIT];
    uint64_t rain[ORDINATE_LIMIT];
    uint64_t loss[ORDINATE_LIMIT];
    uint64_t excess[ORDINATE_LIMIT];
    uint64_t sum[ORDINATE_LIMIT];
};

/* Works the sheet of a runoff block, counted from 1, of a deck that the engine
 * has accepted. */
void make_sheet(const uint8_t *deck, size_t length, unsigned block,
                uint32_t ratio, struct sheet *sheet);

/* Whether the column sums are these ordinates, NQ of them. */
bool sums_are(const struct sheet *sheet, const uint64_t *ordinates);

/* Puts both tables of a sheet whose sums are the engine's ordinates into
 * SHEET_ROOM bytes and returns how many they take. */
size_t write_sheet(const struct sheet *sheet, char *text);

#endif
