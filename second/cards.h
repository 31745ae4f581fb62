/* From bytes to fields: cuts a deck into lines, a line into fields and a
 * field into a whole number.  Follows document 01, 'From bytes to fields', and
 * document 02, CR 7.  Nothing here knows what any record means. */
#ifndef CARDS_H
#define CARDS_H

#include <stdbool.h>
#include <stddef.h>
#include <stdint.h>

enum {
    LINE_LIMIT = 80,
    FIELD_LIMIT = 10,
    NAME_LIMIT = 6,
    DIGIT_LIMIT = 9
};

/* Where a deck is being read, and the number of the line read last. */
struct reader {
    const uint8_t *at;
    const uint8_t *end;
    unsigned line;
};

/* A piece of the deck; it points into the deck, nothing is copied. */
struct text {
    const uint8_t *at;
    unsigned length;
};

enum line_state {
    LINE_READ,
    LINE_BAD,
    LINE_NONE
};

/* Steps to the next line.  The text comes without its trailing blanks, so a
 * line to be skipped has length 0. */
enum line_state next_line(struct reader *reader, struct text *line);

/* The fields of one line.  count is the place of the last one that is not
 * blank; only at[0] to at[count - 1] are set, and a blank one has length 0.
 * Where more than ten are left, beyond is the first one behind the tenth that
 * is not blank, past its place, and count is ten. */
struct fields {
    unsigned count;
    struct text at[FIELD_LIMIT];
    unsigned past;
    struct text beyond;
};

/* Cuts a line behind its identifier.  False: more than ten fields; past and
 * beyond are set only then. */
bool split_fields(struct text line, bool free_form, struct fields *fields);

/* The name on a KK line.  False: no name, too long, or a blank inside. */
bool read_name(struct text line, bool free_form, struct text *name);

/* The value of a field counted in units of its last allowed place.
 * False: malformed, which a number is too when more places than allowed are
 * left after the zeros at the end of its fraction are taken off.  The limit of
 * nine digits counts those zeros. */
bool read_number(struct text field, unsigned places, int64_t *value);

#endif
