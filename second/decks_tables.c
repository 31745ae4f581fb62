/* Decks for the table and the network in print: accepted ones, some of them
   aimed at figures that end at half a last place, others at times, names, texts
   and depths that the print has to bear. */
#include <string.h>
#include "decks.h"

/* ---- leaves with a figure at a half ---- */

/* In hundredths of a cfs, ten-thousandths of an inch and minutes: half a
   thousandth of an acre-foot, half a thousandth of an inch over a hundredth of a
   square mile, half a hundredth of a cfs in one interval; and half a thousandth
   of an inch over a quarter of a square mile, which inflows can have alone. */
enum { RAIN_HALF_FOOT = 363000, RAIN_HALF_INCH = 193600, RAIN_HALF_PEAK = 5000, FLOW_HALF_INCH = 484 };
enum { MOST_WATER = 1000000000 };                  /* far below the flow limit, under any ratio */

static int64_t common(int64_t a, int64_t b)        /* greatest common divisor */
{
    while (b != 0) {
        int64_t t = a % b;
        a = b;
        b = t;
    }
    return a;
}

/* Two factors whose product by m minutes is an odd multiple of a half; 0 where
   none was found. */
static int two_factors(int m, int64_t half, int *few, int *many)
{
    int64_t part = common(half, m), water;
    int tries;
    half /= part;
    if (m / part % 2 == 0)                         /* no odd multiple has as many twos */
        return 0;
    for (tries = 0; tries < 300; tries++) {
        water = half * (2 * rnd(40) + 1);
        *few = pct(40) ? 1 : between(1, 2000);
        if (water > MOST_WATER || water % *few != 0 || water / *few > LIMIT_UI)
            continue;
        *many = (int)(water / *few);
        return 1;
    }
    return 0;
}

/* A sum in parts, of which there are so many at most. */
static int in_parts(int sum, int most, int *part)
{
    int count = between(1, most), i;
    for (i = 0; i < count - 1; i++) {
        part[i] = rnd(sum + 1);
        sum -= part[i];
    }
    part[count - 1] = sum;
    return count;
}

/* Rain in one interval, and unit ordinates that all end before the last ordinate
   does; on top of a loss that it fills, where no greater ratio makes a flood of
   both. */
static void as_rain(const Net *n, Block *b, int depth, int units, int whole)
{
    int i, at = rnd(n->nq), loss = top_ratio(n) > 100 || pct(50) ? 0 : between(0, 20000);
    b->kind = 1;
    b->has_ba = 1;
    b->has_pb = b->lu2 = 0;
    b->lu1 = loss;
    b->npi = between(at + 1, n->nq);
    for (i = 0; i < b->npi; i++)
        b->pi[i] = 0;
    b->pi[at] = depth + loss;
    b->nui = in_parts(units, whole ? 1 : n->nq - at < 10 ? n->nq - at : 10, b->ui);
}

static void make_inflow(Block *b)
{
    b->kind = 2;
    b->has_pb = 0;
}

static void as_inflow(const Net *n, Block *b, int sum)
{
    make_inflow(b);
    b->has_ba = 1;
    b->nqi = in_parts(sum, n->nq < 10 ? n->nq : 10, b->qi);
}

enum { HALF_FOOT, HALF_INCH, HALF_PEAK };

/* under: one hundredth of a unit ordinate, or of a flow, below the half. */
static void at_a_half(Net *n, Block *b, int which)
{
    int area = pct(30) ? 1 : between(1, 300), under = pct(30), few, many;
    b->ba = area;
    if (which == HALF_INCH && pct(50)) {
        b->ba = 25 * area;
        if (two_factors(n->m, FLOW_HALF_INCH * (int64_t)area, &few, &many) && few == 1)
            as_inflow(n, b, many - under);
        return;
    }
    int64_t half = which == HALF_FOOT ? RAIN_HALF_FOOT : which == HALF_PEAK ? RAIN_HALF_PEAK : RAIN_HALF_INCH * (int64_t)area;
    if (two_factors(which == HALF_PEAK ? 1 : n->m, half, &few, &many))
        as_rain(n, b, few, many - under, which == HALF_PEAK);
}

/* ---- other leaves ---- */

static int any_leaf(const Net *n)
{
    int kind = between(1, 2), leaf = net_any(n, kind);
    return leaf >= 0 ? leaf : net_any(n, 3 - kind);
}

static void no_flow(Block *b)
{
    int i;
    b->pb = 0;
    for (i = 0; i < b->npi; i++)
        b->pi[i] = 0;
    for (i = 0; i < b->nqi; i++)
        b->qi[i] = 0;
}

/* Flows below a peak that is met twice or more. */
static void equal_peaks(const Net *n, Block *b)
{
    int i, top = between(1, 5000);
    make_inflow(b);
    b->nqi = n->nq;
    for (i = 0; i < b->nqi; i++)
        b->qi[i] = pct(30) ? top : rnd(top + 1);
}

/* The peak stands in the last interval. */
static void late_peak(const Net *n, Block *b)
{
    int i;
    make_inflow(b);
    b->nqi = n->nq;
    for (i = 0; i < b->nqi; i++)
        b->qi[i] = pct(90) ? 0 : rnd(100);
    b->qi[b->nqi - 1] = between(100, 5000);
}

/* ---- names and texts ---- */

/* The same names in many decks, and some of odd bytes. */
static void shared_names(Net *n)
{
    static const char *const usual[] = { "A", "B1", "OUT", "POND", "RIVER", "MILL01", "a", "-" };
    static const char odd[] = "\"'\\%&<>#$`*,!?;|()[]{}~^=+-.:/@_";
    int i, k;
    for (i = 0; i < n->nb; i++) {
        Block *b = &n->b[i];
        const char *name = usual[rnd(8)];
        b->nlen = (int)strlen(name);
        memcpy(b->name, name, (size_t)b->nlen);
        if (pct(25)) {
            b->nlen = between(1, 6);
            for (k = 0; k < b->nlen; k++)
                b->name[k] = (unsigned char)odd[rnd((int)sizeof odd - 1)];
        }
    }
}

static void blanks_before(Line *l)
{
    int more = l->len < 70 ? between(1, 8) : 80 - l->len;
    memmove(l->t + 2 + more, l->t + 2, (size_t)(l->len - 2));
    memset(l->t + 2, ' ', (size_t)more);
    l->len += more;
}

static void blanks_behind(Line *l)
{
    int to = between(l->len, 80);
    memset(l->t + l->len, ' ', (size_t)(to - l->len));
    l->len = to;
}

/* Texts of ID with blanks at either end, of blanks alone, or none. */
void table_texts(Deck *d)
{
    int i;
    for (i = 0; i < d->nl; i++) {
        Line *l = &d->l[i];
        if (l->tag != T_ID)
            continue;
        if (pct(15)) l->len = 2;
        if (pct(30)) blanks_before(l);
        if (pct(30)) blanks_behind(l);
    }
}

/* ---- networks ---- */

enum { ANY, AT_A_HALF, NO_FLOW, EQUAL_PEAKS, LATE_PEAK, DEEP, MANY_BLOCKS };

static int pick_aim(void)
{
    int r = rnd(100);
    return r < 35 ? AT_A_HALF : r < 42 ? NO_FLOW : r < 50 ? EQUAL_PEAKS : r < 57 ? LATE_PEAK : r < 62 ? DEEP : ANY;
}

static void it_values(Net *n, int aim)
{
    n->m = pick_minutes();
    n->nq = pct(8) ? 1 : pct(90) ? between(2, 12) : between(13, 60);
    pick_ratios(n, 40);
    if (aim == AT_A_HALF && n->njr > 0)            /* rain is what it is under this one */
        n->jr[rnd(n->njr)] = 100;
    if (aim == LATE_PEAK && pct(60)) {
        n->m = 1440;
        n->nq = pct(40) ? LIMIT_NQ : between(5, 40);
    }
}

static void aim_at(Net *n, int aim)
{
    int leaf = any_leaf(n), i;
    switch (aim) {
    case AT_A_HALF:
        at_a_half(n, &n->b[leaf], pct(45) ? HALF_FOOT : pct(75) ? HALF_INCH : HALF_PEAK);
        break;
    case NO_FLOW:
        no_flow(&n->b[leaf]);
        for (i = 0; i < n->nb && leaf % 2 == 0; i++)
            no_flow(&n->b[i]);
        break;
    case EQUAL_PEAKS:
        equal_peaks(n, &n->b[leaf]);
        break;
    case LATE_PEAK:
        late_peak(n, &n->b[leaf]);
        break;
    default:
        return;
    }
    net_ponds(n, PONDS_LIMITED);                   /* there is other water now */
}

void table_net(Net *n, int many)
{
    int aim = many ? MANY_BLOCKS : pick_aim();
    it_values(n, aim);
    if (aim == DEEP)
        net_random(n, between(25, 45), LIMIT_HELD, 4, FLOW_SHARE, 12);
    else if (aim == MANY_BLOCKS)
        net_random(n, LIMIT_BLOCKS, 0, 3, FLOW_SMALL, 25);
    else if (aim == ANY && pct(40))
        net_random(n, between(1, 10), 0, 10, FLOW_SHARE, 30);
    else
        net_random(n, between(1, 10), 0, 10, FLOW_SMALL, 30);
    aim_at(n, aim);
    if (pct(60))
        shared_names(n);
}
