/* Cases of the sheet (document 02, CR 5): networks with a runoff block that is
   aimed at one edge of the sheet, and which block and ratio a case names. */
#include <string.h>
#include "decks.h"

static int least(int a, int b)
{
    return a < b ? a : b;
}

/* ---- the network around the block ---- */

/* A few blocks with little flow, one of them runoff, whose place is returned. */
static int few_blocks(Net *n, int most)
{
    int block;
    do {
        net_random(n, pct(20) ? 1 : between(1, most), 0, 8, FLOW_SMALL, 25);
        block = net_any(n, 1);
    } while (block < 0);
    return block;
}

/* So many that the runoff block, the last one, has a number of 128 or more. */
static int many_blocks(Net *n)
{
    int block;
    do {
        net_random(n, between(150, LIMIT_BLOCKS), 0, 3, FLOW_SMALL, 25);
        for (block = n->nb - 1; block >= 0 && n->b[block].kind != 1; block--)
            ;
    } while (block < 0 || net_place(n, block) < 128);
    return block;
}

/* ---- the block itself ---- */

enum { MODERATE_RAIN = 30000, MODERATE_UNIT = 5000 };

/* the uniform loss, in ten-thousandths an hour, that takes so much in an interval */
static int uniform_of(const Net *n, int depth)
{
    return least(LIMIT_PI, depth * 60 / n->m);
}

static void rain_values(Block *b, int count, int most)
{
    int i;
    b->npi = count;
    for (i = 0; i < count; i++)
        b->pi[i] = pct(25) ? 0 : between(1, most);
}

static void unit_values(Block *b, int count, int most)
{
    int i;
    b->nui = count;
    for (i = 0; i < count; i++)
        b->ui[i] = between(1, most);
}

/* Moderate values: no more than eight shares meet in an ordinate, which stays far below
   the limit under 9.99 as well. */
static void moderate(Net *n, Block *b)
{
    rain_values(b, between(1, n->nq), MODERATE_RAIN);
    b->has_pb = pct(33);
    b->pb = between(1, 5 * MODERATE_RAIN);
    if (b->pi[0] == 0)
        b->pi[0] = 1;                              /* a total wants a pattern */
    unit_values(b, between(1, 8), MODERATE_UNIT);
    b->lu1 = pct(40) ? 0 : between(0, MODERATE_RAIN);
    b->lu2 = pct(40) ? 0 : uniform_of(n, between(0, MODERATE_RAIN / 4));
}

static void no_losses(Block *b)
{
    b->lu1 = b->lu2 = 0;
}

/* No excess at all, for one reason or another. */
static void dry(Net *n, Block *b)
{
    int i;
    switch (rnd(6)) {
    case 0: b->npi = b->has_pb = 0; break;
    case 1: b->has_pb = 1; b->pb = 0; break;
    case 2: b->lu1 = LIMIT_PI; rain_values(b, 1, 100); b->has_pb = 0; break;
    case 3: b->lu2 = LIMIT_PI; rain_values(b, n->nq, 100); b->has_pb = 0; break;
    case 4: b->has_pb = b->lu1 = 0; b->lu2 = uniform_of(n, 1000) + 1; rain_values(b, n->nq, 1000); break;
    default:
        b->has_pb = 0;
        for (i = 0; i < b->npi; i++)
            b->pi[i] = 0;
        break;
    }
    for (i = 0; i < n->njr; i++)
        if (n->jr[i] > 100 && pct(80)) n->jr[i] = between(1, 100);
}

/* Excess in the last interval, and perhaps in no other. */
static void at_the_end(Net *n, Block *b)
{
    int i, alone = pct(50);
    rain_values(b, n->nq, MODERATE_RAIN);
    for (i = 0; alone && i < b->npi; i++)
        b->pi[i] = 0;
    b->pi[n->nq - 1] = between(1, MODERATE_RAIN);
    no_losses(b);
}

static void zeros_among_units(Block *b)
{
    int i;
    unit_values(b, between(1, 8), MODERATE_UNIT);
    switch (rnd(5)) {
    case 0: b->ui[0] = 0; break;
    case 1: b->ui[b->nui - 1] = 0; break;
    case 2: b->ui[b->nui / 2] = 0; break;
    case 3:
        for (i = 0; i < b->nui; i++) b->ui[i] = 0;
        break;
    default:
        for (i = 0; i < b->nui; i++)
            if (pct(50)) b->ui[i] = 0;
        break;
    }
    no_losses(b);
}

static void comma_name(Block *b)
{
    static const char *const names[] = { ",", ",,", "A,B", "A,", ",B", "1,2", "A,B,C", ",,,,,,", "X,,Y", "sum,,," };
    const char *t = names[rnd(10)];
    b->nlen = (int)strlen(t);
    memcpy(b->name, t, (size_t)b->nlen);
}

static const int minutes_of_a_half[] = { 1, 1, 1, 2, 3, 5, 6, 10, 15, 30 };

/* Flows that are at a half of the sixth place, or a unit to either side.  The
   uniform loss leaves one unit above whole ten-thousandths, so that a share has
   the rest of its unit ordinate by 60; or it leaves half of one. */
static void at_a_half(Net *n, Block *b)
{
    int i, at, most, rest = pct(70) ? between(29, 31) : rnd(60);
    if (pct(70))
        n->njr = 0;
    b->has_pb = b->lu1 = 0;
    b->lu2 = n->m == 1 && pct(80) ? 59 : 30 / n->m;
    most = pct(50) ? 20 : MODERATE_RAIN;
    rain_values(b, between(1, n->nq), most);
    at = rnd(b->npi);
    b->pi[at] = between(1, 20);
    unit_values(b, between(1, 8), MODERATE_UNIT / 60);
    for (i = 0; i < b->nui; i++)
        b->ui[i] = 60 * (b->ui[i] - 1) + (pct(80) ? rest : between(29, 31));
}

/* An ordinate at the flow limit, a hundredth below it, or one above. */
static void at_the_limit(Net *n, Block *b)
{
    int i, at = rnd(n->nq);
    n->njr = 0;
    b->has_pb = 0;
    b->npi = at + 1;
    for (i = 0; i < at; i++)
        b->pi[i] = 0;
    b->pi[at] = 20000;
    b->nui = 1;
    b->ui[0] = pct(60) ? 5000000 : 5000000 + between(-1, 1);
    no_losses(b);
}

/* Rain that the uniform loss takes in some intervals and not in others, and
   intervals without any between them. */
static void with_gaps(Net *n, Block *b)
{
    int i;
    b->has_pb = 0;
    b->npi = n->nq;
    for (i = 0; i < b->npi; i++)
        b->pi[i] = pct(40) ? between(2001, MODERATE_RAIN) : pct(50) ? between(1, 1000) : 0;
    b->lu1 = pct(50) ? 0 : between(0, 2000);
    b->lu2 = uniform_of(n, 1000) + 1;
}

/* Depths of a few units, which the sixth place of an inch does not show whole. */
static void few_units(Net *n, Block *b)
{
    int i;
    b->npi = n->nq;
    for (i = 0; i < b->npi; i++)
        b->pi[i] = between(1, LIMIT_PI);
    b->has_pb = 1;
    b->pb = between(1, 4);
    no_losses(b);
    if (pct(50))                                   /* and so small that six places of a cfs show 0 */
        unit_values(b, between(1, 8), 20);
}

/* As much rain in one interval as there can be: 100 inches under 9.99. */
static void deep(Net *n, Block *b)
{
    int i, all = pct(50);
    if (n->njr == 0)
        n->njr = 1;
    for (i = 0; i < n->njr; i++)
        if (all || i == 0) n->jr[i] = LIMIT_RATIO;
    b->npi = 1;
    b->pi[0] = between(1, LIMIT_PI);
    b->has_pb = 1;
    b->pb = LIMIT_PB;
}

/* ---- networks ---- */

enum {
    USUAL, DRY, AT_THE_END, LONG_UNITS, ZERO_UNITS, NO_UNITS, ONE_ORDINATE, COMMA, AT_A_HALF, AT_THE_LIMIT, WITH_GAPS,
    FEW_UNITS, DEEP, AIMS
};

static void aim(Net *n, Block *b, int at)
{
    moderate(n, b);
    switch (at) {
    case DRY: dry(n, b); break;
    case AT_THE_END: at_the_end(n, b); break;
    case LONG_UNITS: unit_values(b, n->nq + between(1, 10), MODERATE_UNIT); break;
    case ZERO_UNITS: zeros_among_units(b); break;
    case NO_UNITS: b->nui = 0; no_losses(b); break;
    case COMMA: comma_name(b); break;
    case AT_A_HALF: at_a_half(n, b); break;
    case AT_THE_LIMIT: at_the_limit(n, b); break;
    case WITH_GAPS: with_gaps(n, b); break;
    case FEW_UNITS: few_units(n, b); break;
    case DEEP: deep(n, b); break;
    default: break;
    }
    if (pct(15))
        comma_name(b);
}

int sheet_net(Net *n)
{
    /* halves in one sixth of the networks, since each of their sorts is asked for */
    int at = pct(10) ? AT_A_HALF : rnd(AIMS), block;
    n->m = at == AT_A_HALF ? minutes_of_a_half[rnd(10)] : pick_minutes();
    n->nq = at == ONE_ORDINATE ? 1 : pct(90) ? between(1, 12) : between(13, 40);
    pick_ratios(n, 45);
    if (at == AT_THE_LIMIT)
        block = few_blocks(n, 1);
    else
        block = pct(2) ? many_blocks(n) : few_blocks(n, 6);
    aim(n, &n->b[block], at);
    net_ponds(n, PONDS_FITTED);                    /* ponds below it have other water now */
    return net_place(n, block);
}

/* The longest sheet: rain in each of 300 intervals and 150 unit ordinates. */
int sheet_big_net(Net *n)
{
    int i, block;
    n->m = pick_minutes();
    n->nq = LIMIT_NQ;
    pick_ratios(n, 50);
    block = few_blocks(n, 3);
    Block *b = &n->b[block];
    b->has_pb = pct(50);
    b->pb = LIMIT_PB;
    b->npi = LIMIT_NQ;
    for (i = 0; i < b->npi; i++)
        b->pi[i] = between(5000, 10000);
    unit_values(b, LIMIT_UNITS, MODERATE_UNIT);
    no_losses(b);
    net_ponds(n, PONDS_FITTED);
    return net_place(n, block);
}

/* ---- which block and ratio ---- */

/* far above every count; some are 0 in their low bytes */
uint32_t far_above(void)
{
    static const uint32_t far[] = { 0xFFFFFFFFu, 0x80000000u, 65536u, 256u, 201u, 1000u };
    return far[rnd(6)];
}

static int other_kind(const Net *n)
{
    int tries = 20, place;
    do {
        place = rnd(n->nb);
    } while (n->b[n->order[place]].kind == 1 && --tries > 0);
    return place + 1;
}

/* one of the ratios mostly, also as 0 or as the last, else one that is not there */
uint32_t ratio_named(const Net *n)
{
    int r = rnd(100), ratios = n->njr > 0 ? n->njr : 1;
    uint32_t ratio = (uint32_t)between(1, ratios);
    if (r >= 65) ratio = 0;
    if (r >= 86) ratio = (uint32_t)ratios;
    if (r >= 95) ratio = (uint32_t)ratios + 1;
    if (r >= 98) ratio = far_above();
    return ratio;
}

void one_above(const Net *n, uint32_t *block, uint32_t *ratio)
{
    *block = (uint32_t)n->nb + 1;
    *ratio = (uint32_t)(n->njr > 0 ? n->njr : 1) + 1;
}

/* The aimed block mostly, or any runoff block where none is aimed at (0). */
void sheet_named(const Net *n, int aimed, uint32_t *block, uint32_t *ratio)
{
    int r = rnd(100), both = pct(2);
    if (aimed == 0) {
        int any = net_any(n, 1);
        aimed = any < 0 ? between(1, n->nb) : net_place(n, any);
    }
    *block = (uint32_t)aimed;
    if (r >= 80) *block = (uint32_t)other_kind(n);
    if (r >= 86) *block = 0;
    if (r >= 93) *block = (uint32_t)n->nb;
    if (r >= 95) *block = (uint32_t)n->nb + 1;
    if (r >= 98) *block = far_above();
    *ratio = ratio_named(n);
    if (both)
        one_above(n, block, ratio);
}
