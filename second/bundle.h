/* How the counters read their input: what hec1 --bundle, hec1 --mover, hec1
 * --sheet, hec1 --hydrograph or hec1 --reason reads, from standard input.  An
 * input that is cut short ends the program with status 2; program is its
 * name. */
#ifndef BUNDLE_H
#define BUNDLE_H

#include "engine.h"

#include <stdbool.h>
#include <stddef.h>
#include <stdint.h>

/* Reads a deck behind its length, into DECK_LIMIT bytes.  False at the end of
 * input.  Of a deck that is too long only the first bytes are kept: it is
 * refused unread. */
bool next_deck(const char *program, uint8_t *deck, size_t *length);

enum { FILE_LIMIT = 80000 };    /* bytes of a file to move, and of its room */

/* A case of the mover. */
struct move_case {
    bool to_old;
    size_t room;
    size_t length;
    uint8_t file[FILE_LIMIT];
};

/* False at the end of input.  A case that hec1 would not take ends the program
 * with status 2 as well. */
bool next_move(const char *program, struct move_case *move);

/* A case of the sheet or of the hydrograph; or one of the reasons, whose number
 * and form stand in the places of block and ratio. */
struct named_case {
    struct named named;
    size_t length;
    uint8_t deck[DECK_LIMIT];
};

/* False at the end of input. */
bool next_named(const char *program, struct named_case *one);

#endif
