/* Shared types of the deck writer.  All limits and records follow document 01
   and document 02, CR 1 and CR 3 to CR 7. */
#ifndef DECKS_H
#define DECKS_H

#include <stddef.h>
#include <stdint.h>

enum {
    LIMIT_BYTES = 60000,      /* longest deck read */
    LIMIT_BLOCKS = 200,
    LIMIT_HELD = 20,
    LIMIT_NQ = 300,
    LIMIT_UNITS = 150,
    LIMIT_PI = 200000,        /* 20 inches, in ten-thousandths */
    LIMIT_PB = 1000000,       /* 100 inches */
    LIMIT_UI = 9999999,       /* 99,999.99 in hundredths */
    LIMIT_QI = 10000000,      /* 100,000 cfs in hundredths */
    LIMIT_BA = 999999,
    LIMIT_SV = 9999999,       /* 99,999.99 acre-feet in hundredths */
    LIMIT_SQ = 10000000,      /* 100,000 cfs in hundredths */
    LIMIT_ROWS = 20,          /* SV and SQ values in a block */
    LIMIT_RATIOS = 9,
    LIMIT_RATIO = 999,        /* 9.99 in hundredths */
    LIMIT_RECORDS = 72000,    /* record bytes of a case */
    LIMIT_MOVER = 80000       /* bytes of a file for the mover, and of its room */
};
#define LIMIT_FLOW INT64_C(6000000000000)
#define FLOW_HUNDREDTH INT64_C(600000)       /* flow units in a hundredth of a cfs */

/* ---- random numbers: splitmix64, the same on every machine ---- */
void rng_seed(uint64_t seed, uint64_t stream);
uint64_t rng_next(void);
int rnd(int n);               /* 0 .. n-1 */
int between(int lo, int hi);  /* lo .. hi */
int pct(int p);               /* true p times in a hundred */

/* ---- networks ---- */
typedef struct {
    unsigned char name[6];
    int nlen;
    int kind;                 /* 1 runoff, 2 inflow, 3 confluence, 4 routing, 5 pond */
    int has_ba, ba;
    int has_pb, pb;           /* a total: the values of PI are its pattern */
    int npi, nui, nqi;
    int lu1, lu2;
    int hc;
    int rn, rk, rx;
    int nsv, nsq;
    int nch, ch[5];           /* branches, in the order in which they are taken */
    int pi[LIMIT_NQ + 1], ui[LIMIT_UNITS + 1], qi[LIMIT_NQ + 1];
    int sv[LIMIT_ROWS + 1], sq[LIMIT_ROWS + 1];
} Block;

typedef struct {
    int m, nq, nb;
    int njr, jr[LIMIT_RATIOS];     /* no JR where njr is 0 */
    Block b[LIMIT_BLOCKS + 2];
    int order[LIMIT_BLOCKS + 2];   /* deck order of the blocks */
} Net;

enum { FLOW_SMALL, FLOW_SHARE, FLOW_WILD };
enum { RM_INSIDE, RM_LOW, RM_HIGH, RM_LAG, RM_UNDER, RM_OVER };

int pick_minutes(void);
int pick_nq(int top);
void pick_ratios(Net *n, int chance);
int top_ratio(const Net *n);       /* the greatest, 100 without JR */
void net_random(Net *n, int blocks, int hold, int maxlist, int flow, int routed);
void net_limit(Net *n, int leaves, int excess);
void net_ratio_limit(Net *n, int over);
void net_drip(Net *n);
void net_caterpillar(Net *n, int depth, int maxlist);
void net_names(Net *n, int distinct);
void net_order(Net *n);            /* deck order from the branches */
void net_shuffle(Net *n);          /* branches in another order */
void net_deepest_last(Net *n);
void net_deepest_first(Net *n);
int net_held(const Net *n);        /* most hydrographs held in deck order */
int rm_pick(int m, int how, int *rn, int *rk, int *rx);
void net_routing(Net *n, Block *b);
int net_any(const Net *n, int kind);         /* any block of a kind, or -1 */
int net_place(const Net *n, int block);      /* where it stands in the deck, from 1 */

/* ---- ponds ---- */
enum { PONDS_LIMITED, PONDS_FITTED, PONDS_ANY };
void net_ponds(Net *n, int how);             /* chooses the tables of all ponds */
int pond_even_row(int m, int64_t sum, int *v, int *q);   /* a row with W of so many hundredths times M */
int pond_most_out(int m, int v);             /* the greatest SQ beside such an SV */
void pond_break(int m, Block *b, int how);   /* a table that breaks a rule */
enum { BREAKS = 13 };                        /* the ways in which it does */

/* ---- lines and decks ---- */
enum {
    T_ID, T_IT, T_JR, T_KK, T_KM, T_BA, T_PB, T_PI, T_LU, T_UI, T_QI, T_HC, T_RM, T_RS, T_SV, T_SQ, T_ZZ,
    T_CONTROL, T_BLANK, T_OTHER
};
enum { FIXED, FREE };

typedef struct {
    int tag, form, blk;            /* blk: place of the block in the deck, -1 before the first */
    int nf;
    char f[12][16];                /* the fields as they are to be written */
    int len;
    unsigned char t[176];
} Line;

typedef struct {
    int form;                      /* 0 fixed, 1 free, 2 changing */
    int pswitch, pkm, pblank;      /* chance in a hundred before a line */
    int eol;                       /* 0 LF, 1 CR LF, 2 either */
    int sep;                       /* 0 comma, 1 blanks, 2 either */
    int vary;                      /* numbers written in an odd but lawful way, in a hundred */
    int zeros;                     /* numbers with zeros at the end of their fraction, in a hundred */
    int pack;                      /* 0 ten values a line, 1 any number, 2 one */
    int pwide;                     /* lines filled out with blanks, in a hundred */
    int pzero;                     /* zeros in lists left blank, in a hundred */
    int ptext;                     /* text behind names and ZZ, in a hundred */
    int pmix;                      /* records of a block written in among each other */
} Style;

enum { MAX_LINES = 16384, MAX_BYTES = 400000 };

typedef struct {
    Line *l;
    int nl;
    int padat, npad;               /* filling, written before line padat */
    int ntail;                     /* bytes after ZZ */
    int eol, cut;                  /* cut: the last line has no LF */
    unsigned char *pad, *tail;
} Deck;

void style_random(Style *s);
void deck_write(Deck *d, const Net *n, const Style *s);
int line_compose(Line *l, const Style *s);
void line_text(Line *l, const char *text);
void line_name(Line *l, const unsigned char *name, int n, int ptext);
int number_write(char *out, int v, int places, int width, int vary);
void number_zeros(char *text, int width);            /* zeros behind a number, or a bare point */
void number_past(char *text, int places, int more);  /* so many zeros past its places */
int text_random(unsigned char *out, int most);
const char *tag_ident(int tag);
int deck_bytes(const Deck *d, unsigned char *out);   /* length */
void deck_fill(Deck *d, int target, int how);        /* fill out to a length */
void deck_tail(Deck *d, int n, int how);

/* ---- damages ---- */
int damage(Deck *d, const Net *n, const Style *s, int number);
int damage_more(Deck *d, const Style *s);
int deck_mutate_lines(Deck *d);
int bytes_mutate(unsigned char *b, int n);
int degenerate(unsigned char *out);

/* ---- cases of the mover ---- */
typedef struct {
    int to_old;                    /* the direction */
    int room, length;
} Move;

void move_case(Move *m, unsigned char *file);        /* file: LIMIT_MOVER bytes */

/* ---- cases of the sheet and of the hydrograph ---- */
/* Networks return the place in the deck, from 1, of the block that is to be named. */
int sheet_net(Net *n);
int sheet_big_net(Net *n);
int hydrograph_net(Net *n);
void sheet_named(const Net *n, int aimed, uint32_t *block, uint32_t *ratio);
void hydrograph_named(const Net *n, int aimed, uint32_t *block, uint32_t *ratio);
uint32_t ratio_named(const Net *n);
uint32_t far_above(void);          /* a number far above every count */
void one_above(const Net *n, uint32_t *block, uint32_t *ratio);   /* both by one */

/* ---- cases of the reasons ---- */
int reason_case(int index, uint32_t *number, uint32_t *form, unsigned char *out);   /* length */

/* ---- decks for the table and the network in print ---- */
void table_net(Net *n, int many);  /* many: with as many blocks as there can be */
void table_texts(Deck *d);         /* the texts of its ID lines, made odd */

#endif
