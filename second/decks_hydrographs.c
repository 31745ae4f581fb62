/* Cases of the hydrograph in print: networks with a block of any kind, some of
   them aimed at an edge of the text, and which block and ratio a case names. */
#include "decks.h"

/* ---- networks with a block of a kind ---- */

/* A few blocks, one of them of that kind, whose place is returned. */
static int few_blocks(Net *n, int kind, int flow)
{
    int block;
    do {
        net_random(n, between(1, 8), 0, 12, flow, 40);
        block = net_any(n, kind);
    } while (block < 0);
    return block;
}

/* So many that the block can have a number of 128 or more. */
static int many_blocks(Net *n)
{
    net_random(n, between(150, LIMIT_BLOCKS), 0, 3, FLOW_SMALL, 25);
    return n->order[between(127, n->nb - 1)];
}

/* ---- flows about the sixth place ---- */

#define FLOW_CFS (100 * FLOW_HUNDREDTH)

/* These share no factor with 60: so there is a uniform loss that takes 59 units
   above whole ten-thousandths of an inch, and leaves one. */
static const int minutes_of_a_unit[] = { 1, 1, 1, 7, 11, 13, 59, 61, 77, 1439 };

static int loss_of_59(int m)
{
    int v = 1;
    while (m * v % 60 != 59)
        v++;
    return v;
}

/* one interval of rain with an excess of 60 times so much and one unit */
static void one_shower(Net *n, Block *b, int depth)
{
    int i;
    b->has_pb = b->lu1 = 0;
    b->lu2 = loss_of_59(n->m);
    b->npi = between(1, n->nq);
    for (i = 0; i < b->npi; i++)
        b->pi[i] = 0;
    b->pi[rnd(b->npi)] = n->m * b->lu2 / 60 + 1 + depth;
}

/* Flows at half a millionth, a unit to either side, or of few units. */
static void at_a_half(Net *n, Block *b)
{
    int i, few = pct(30);
    one_shower(n, b, few ? 0 : between(0, 1000));
    b->nui = between(1, 8);
    for (i = 0; i < b->nui; i++) {
        b->ui[i] = few ? 0 : 60 * rnd(80);
        b->ui[i] += pct(70) ? between(29, 31) : rnd(60);
    }
}

/* A flow that is 1 to 31 units short of whole cfs: up to 30 it is rounded up to
   them.  The rest of the unit ordinate by 60 makes up for these. */
static void nearly_whole(Net *n, Block *b)
{
    int tries;
    at_a_half(n, b);
    for (tries = 0; tries < 5000; tries++) {
        int unit = 60 * rnd(pct(50) ? 5 : 50);
        unit += between(29, pct(50) ? 31 : 59);
        int64_t flow = FLOW_CFS * between(1, 60) - (60 - unit % 60);
        if (flow % unit != 0 || flow / unit % 60 != 1 || flow / unit > 60 * (LIMIT_PI - 2000))
            continue;
        one_shower(n, b, (int)(flow / unit / 60));
        b->nui = 1;
        b->ui[0] = unit;
        return;
    }
}

/* ---- networks ---- */

enum { MANY_BLOCKS, AT_A_HALF, NEARLY_WHOLE, AT_THE_LIMIT, LONG_INTERVALS, ANY_KIND };

static int pick_aim(void)
{
    int r = rnd(100);
    return r < 2 ? MANY_BLOCKS : r < 17 ? AT_A_HALF : r < 29 ? NEARLY_WHOLE : r < 39 ? AT_THE_LIMIT
         : r < 46 ? LONG_INTERVALS : ANY_KIND;
}

/* minutes, ordinates and ratios, which the blocks depend on */
static void it_values(Net *n, int aim)
{
    int units = aim == AT_A_HALF || aim == NEARLY_WHOLE;
    n->m = units ? minutes_of_a_unit[rnd(10)] : pick_minutes();
    n->nq = pct(8) ? 1 : pct(90) ? between(1, 12) : between(13, 60);
    if (aim == LONG_INTERVALS) {
        n->m = 1440;
        n->nq = pct(25) ? LIMIT_NQ : between(1, 20);
    }
    pick_ratios(n, units ? 20 : 60);
}

int hydrograph_net(Net *n)
{
    int aim = pick_aim(), block, drawn;
    it_values(n, aim);
    switch (aim) {
    case MANY_BLOCKS:
        block = many_blocks(n);
        break;
    case AT_A_HALF:
    case NEARLY_WHOLE:
        block = few_blocks(n, 1, FLOW_SMALL);
        if (aim == AT_A_HALF)
            at_a_half(n, &n->b[block]);
        else
            nearly_whole(n, &n->b[block]);
        net_ponds(n, PONDS_FITTED);                /* ponds below it have other water now */
        break;
    case AT_THE_LIMIT:
        drawn = between(1, 6);
        net_limit(n, drawn, pct(70) ? 0 : -1);
        block = n->order[n->nb - 1];
        break;
    default:
        drawn = between(1, 5);
        block = few_blocks(n, drawn, pct(50) ? FLOW_SMALL : FLOW_SHARE);
        break;
    }
    return net_place(n, block);
}

/* ---- which block and ratio ---- */

/* The aimed block mostly, else any, also as 0 or as the last, or one that is not there. */
void hydrograph_named(const Net *n, int aimed, uint32_t *block, uint32_t *ratio)
{
    int r = rnd(100), both = pct(2);
    *block = (uint32_t)(aimed > 0 && r < 60 ? aimed : between(1, n->nb));
    if (r >= 76) *block = 0;
    if (r >= 88) *block = (uint32_t)n->nb;
    if (r >= 94) *block = (uint32_t)n->nb + 1;
    if (r >= 97) *block = far_above();
    *ratio = ratio_named(n);
    if (both)
        one_above(n, block, ratio);
}
