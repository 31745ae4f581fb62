/* What the damages share: places in a deck, and lines and blocks put in. */
#ifndef DECKS_DAMAGE_H
#define DECKS_DAMAGE_H

#include "decks.h"

#define COUNT(a) ((int)(sizeof(a) / sizeof((a)[0])))

extern Line *touched;                              /* the line damaged last */

int find_tag(const Deck *d, int tag);              /* a random line of that record, or -1 */
int first_tag(const Deck *d, int tag);
int closing_line(const Deck *d, int at);           /* of the KK or ZZ that closes the block open at this line */
int last_line_of_deck(const Deck *d);              /* the ZZ, or the end */
int boundary(const Deck *d, int before_first);     /* a KK or ZZ line at random, or -1 */
int held_before(const Net *n, int pos);            /* hydrographs held before a block of the network */

Line *insert(Deck *d, int at, int tag);
void drop(Deck *d, int at, int count);
void put(Line *l, const Style *s, int nf, const char *a, const char *b, const char *c);
int set_field(Line *l, const Style *s, int k, const char *text);
void plain_record(Line *l, const Style *s, const Net *n);        /* a sound line of that record */

/* Blocks of their own, put in before a KK or ZZ; the lines they took. */
int block_in(Deck *d, int at, int tag, const Style *s, const char *a, const char *b, const char *c);
int reaches_in(Deck *d, int at, const Net *n, const Style *s, int blocks);
int storm_block(Deck *d, int at, const Net *n, const Style *s, const char *p1, const char *p2, const char *u1,
                const char *u2);
int gate(Deck *d, int at, const Net *n, const Style *s, int ratio);

/* ---- zeros at the end of numbers ---- */
int damage6_zeros(Deck *d, const Style *s);
int damage7_zeros(Deck *d, const Style *s);

/* ---- ponds ---- */
int first_pond(Deck *d, int at, const Net *n, const Style *s);
int damage6_pond(Deck *d, const Style *s);
int damage7_pond(Deck *d, const Style *s);
int damage9_pond(Deck *d, const Net *n, const Style *s);
int damage19(Deck *d, const Net *n, const Style *s);
int damage20(Deck *d, const Net *n, const Style *s);

#endif
