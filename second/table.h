/* The runoff summary in print: peak, time, volume, depth and area of every
 * block, of one run as a plain table, of several side by side. */
#ifndef TABLE_H
#define TABLE_H

#include "cards.h"
#include "engine.h"
#include "page.h"

enum operation {
    HYDROGRAPH_AT,
    COMBINED_AT,
    ROUTED_TO
};

/* A block under a ratio, with its figures as they are printed. */
struct figures {
    enum operation operation;
    unsigned combined;      /* so many, by COMBINED_AT */
    uint8_t name[NAME_LIMIT];
    unsigned name_length;
    unsigned repeat;        /* the how-manieth with operation and name, from 1 */
    uint64_t peak;          /* hundredths of a cfs */
    uint32_t minutes;       /* up to the peak; 0: no flow at all */
    uint64_t acre_feet;     /* thousandths */
    uint64_t inches;        /* thousandths; 0 without an area */
    uint32_t area;          /* hundredths of a square mile; 0: none */
};

/* A deck of the table.  Of one that is refused only path and answer hold. */
struct table_deck {
    const char *path;
    struct answer answer;
    struct page texts;      /* of the ID lines, a line each */
    size_t rows;
    struct figures *row;    /* ratio by ratio, the blocks of each */
};

/* Works a deck.  The room is what the engine is lent; the path is kept. */
void work_table(const char *path, const uint8_t *deck, size_t length,
                const struct room *room, struct table_deck *worked);

/* Puts the table of one deck or more on the page. */
void write_table(const struct table_deck *decks, size_t count,
                 struct page *page);

void free_table(struct table_deck *worked);

#endif
