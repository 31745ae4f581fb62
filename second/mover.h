/* The mover of document 02, CR 4: carries files of records from the old form,
 * which did not say its ratio, to the new one and back, in memory that the
 * caller lends. */
#ifndef MOVER_H
#define MOVER_H

#include <stddef.h>
#include <stdint.h>

enum { OLD_RECORD_BYTES = 32 };     /* a new one has RECORD_BYTES */

/* In the order in which they are looked for, each over the whole file before
 * the next. */
enum move_refusal {
    NOT_REFUSED = 0,
    BROKEN_LENGTH = 1,      /* not a whole number of records */
    BROKEN_PADDING = 2,     /* a byte that is to be zero is not */
    NO_OLD_FORM = 3,        /* a ratio or place that the old form cannot say */
    SHORT_ROOM = 4
};

/* bytes: how many were moved into the room, 0 where it was refused. */
struct moved {
    enum move_refusal refusal;
    size_t bytes;
};

/* Moves a file into a room that lies apart from it.  What was moved stands
 * first there and zeros stand behind it; on a refusal all of it is zero. */
struct moved move_to_new(const uint8_t *file, size_t length, uint8_t *room,
                         size_t room_bytes);
struct moved move_to_old(const uint8_t *file, size_t length, uint8_t *room,
                         size_t room_bytes);

#endif
