/* The hydrograph engine of document 01 and document 02, CR 1 to CR 4 and CR 6:
 * one deck in, the hydrographs of its blocks out, all in memory that the caller
 * lends. */
#ifndef ENGINE_H
#define ENGINE_H

#include <stdbool.h>
#include <stddef.h>
#include <stdint.h>

enum {
    DECK_LIMIT = 60000,     /* bytes */
    ORDINATE_LIMIT = 300,   /* per hydrograph */
    HELD_LIMIT = 20,        /* hydrographs held at one time */
    WORK_WORDS = HELD_LIMIT * ORDINATE_LIMIT,
    BLOCK_LIMIT = 200,
    RATIO_LIMIT = 9,        /* on JR */
    WHOLE_RATIO = 100,      /* the ratio 1.00, in hundredths */
    RECORD_BYTES = 40
};

/* Where the parts of a block's record begin.  Behind kind, interval and place
 * there is padding, which is zero. */
enum {
    RECORD_NAME = 0,
    RECORD_KIND = 6,
    RECORD_AREA = 8,
    RECORD_PEAK = 12,
    RECORD_INTERVAL = 20,
    RECORD_SUM = 24,
    RECORD_RATIO = 32,
    RECORD_PLACE = 34       /* of the ratio on JR, from 1 */
};

/* What the caller lends.  Each may be of any size; whatever the run does not
 * answer with is zero afterwards. */
struct room {
    uint64_t *work;
    size_t work_words;
    uint64_t *ordinates;
    size_t ordinate_words;
    uint8_t *records;
    size_t record_bytes;
};

/* The ratios that a deck is run under, in hundredths.  A deck without JR has
 * one, 1.00, that nobody gave; its records say so like any others. */
struct ratios {
    bool given;
    unsigned count;
    uint32_t value[RATIO_LIMIT];
};

/* refusal 0: accepted, nq, blocks and ratios hold; otherwise refusal and line
 * do. */
struct answer {
    unsigned refusal;
    unsigned line;
    unsigned nq;
    unsigned blocks;
    struct ratios ratios;
};

/* Whose ordinates are wanted: a block and a ratio, from 1; 0 is the last. */
struct named {
    uint64_t block;
    uint64_t ratio;
};

/* Runs one deck.  The records come ratio by ratio.  The bytes of a deck above
 * DECK_LIMIT are never looked at. */
struct answer run_deck(const uint8_t *deck, size_t length, struct named named,
                       const struct room *room);

/* A block as it was worked under one ratio.  Nothing of it outlasts the view. */
struct worked {
    const uint8_t *name;
    unsigned name_length;
    unsigned kind;
    unsigned line;          /* of its KK */
    unsigned taken;         /* so many hydrographs, the last held */
    unsigned place;         /* at which its own is held, from 0 */
    uint32_t area;
    uint32_t minutes;       /* of an interval */
    unsigned nq;
    const uint64_t *flow;
};

struct viewer {
    void (*view)(void *keeper, const struct worked *worked);
    void *keeper;
};

/* Runs one deck and shows every block as it is worked, ratio by ratio.  The
 * deck may still be refused when some have been shown. */
struct answer view_deck(const uint8_t *deck, size_t length,
                        const struct viewer *viewer, const struct room *room);

#endif
