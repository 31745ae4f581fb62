/* Random networks: blocks, their values and the order in which they stand.
   Every value keeps the limits of document 01 and of document 02, CR 1, CR 3
   and CR 6, unless flows are to be wild; losses are aimed at the rule of
   document 02, CR 2, under one of the ratios. */
#include <string.h>
#include "decks.h"

static uint64_t state;

static uint64_t mix(uint64_t z)
{
    z = (z ^ (z >> 30)) * UINT64_C(0xBF58476D1CE4E5B9);
    z = (z ^ (z >> 27)) * UINT64_C(0x94D049BB133111EB);
    return z ^ (z >> 31);
}

uint64_t rng_next(void)
{
    state += UINT64_C(0x9E3779B97F4A7C15);
    return mix(state);
}

void rng_seed(uint64_t seed, uint64_t stream)
{
    state = mix(seed + UINT64_C(0x632BE59BD9B4E019));
    state ^= mix(stream * UINT64_C(0xD1342543DE82EF95) + 1);
    rng_next();
}

int rnd(int n)
{
    return n <= 1 ? 0 : (int)((rng_next() >> 11) % (uint64_t)n);
}

int between(int lo, int hi)
{
    return lo + rnd(hi - lo + 1);
}

int pct(int p)
{
    return rnd(100) < p;
}

static int least(int a, int b)
{
    return a < b ? a : b;
}

int pick_minutes(void)
{
    static const int usual[] = { 1, 5, 6, 10, 15, 20, 30, 60, 60, 60, 120, 180, 360, 720, 1440 };
    if (pct(75))
        return usual[rnd((int)(sizeof usual / sizeof usual[0]))];
    return between(1, 1440);
}

int pick_nq(int top)
{
    switch (rnd(12)) {
    case 0: return 1;
    case 1: return top;
    case 2: return 300;
    default: return between(1, top);
    }
}

/* ---- ratios ---- */

static int any_ratio(void)
{
    static const int usual[] = { 1, 5, 20, 25, 33, 50, 67, 75, 99, 100, 100, 101, 125, 150, 200, 333, 500, 998, 999 };
    return pct(60) ? usual[rnd((int)(sizeof usual / sizeof usual[0]))] : between(1, LIMIT_RATIO);
}

static void sort_ratios(Net *n, int falling)
{
    int i, j;
    for (i = 1; i < n->njr; i++)
        for (j = i; j > 0 && (falling ? n->jr[j] > n->jr[j - 1] : n->jr[j] < n->jr[j - 1]); j--) {
            int t = n->jr[j];
            n->jr[j] = n->jr[j - 1];
            n->jr[j - 1] = t;
        }
}

/* A JR, so many times in a hundred: any ratios, equal, rising or falling ones,
   neighbours, small ones, both limits. */
void pick_ratios(Net *n, int chance)
{
    int i, how = rnd(9), one = any_ratio();
    n->njr = 0;
    if (!pct(chance))
        return;
    n->njr = pct(20) ? 1 : pct(20) ? LIMIT_RATIOS : between(2, LIMIT_RATIOS - 1);
    for (i = 0; i < n->njr; i++)
        switch (how) {
        case 0: n->jr[i] = one; break;
        case 1: n->jr[i] = least(LIMIT_RATIO, one + rnd(3)); break;
        case 2: n->jr[i] = between(1, 20); break;
        case 3: n->jr[i] = pct(50) ? 1 : LIMIT_RATIO; break;
        case 4: n->jr[i] = between(1, 100); break;
        default: n->jr[i] = any_ratio(); break;
        }
    if (pct(60))
        sort_ratios(n, pct(50));
}

int top_ratio(const Net *n)
{
    int i, top = n->njr > 0 ? n->jr[0] : 100;
    for (i = 1; i < n->njr; i++)
        if (n->jr[i] > top) top = n->jr[i];
    return top;
}

static int one_of_ratios(const Net *n)
{
    return n->njr > 0 ? n->jr[rnd(n->njr)] : 100;
}

/* ---- routing parameters ---- */

static int rm_inside(int m, int *rn, int *rk, int *rx)
{
    int top = least(50, 2880 / m);
    int n = pct(60) ? between(1, least(top, 4)) : between(1, top);
    if (pct(8))
        n = top;
    int x = between(0, 50);
    if (pct(10)) x = 0;
    if (pct(10)) x = 50;
    int a = 250 * n * m;
    int lo = (a + 3 * (100 - x) - 1) / (3 * (100 - x));
    int hi = x > 0 ? a / (3 * x) : 2400;
    if (lo < 1) lo = 1;
    if (hi > 2400) hi = 2400;
    if (lo > hi)
        return 0;
    *rn = n;
    *rx = x;
    *rk = between(lo, hi);
    if (pct(10)) *rk = lo;
    if (pct(10)) *rk = hi;
    return 1;
}

/* Parameters inside the two inequalities, at a border, or just outside one. */
int rm_pick(int m, int how, int *rn, int *rk, int *rx)
{
    int tries;
    if (how == RM_INSIDE) {
        for (tries = 0; tries < 200; tries++)
            if (rm_inside(m, rn, rk, rx))
                return 1;
        return 0;
    }
    for (tries = 0; tries < 400; tries++) {
        int n = between(1, 50);
        int x = how == RM_LAG ? 50 : between(0, 50);
        if (pct(50)) n = between(1, 5);
        int a = 250 * n * m, k;
        if (how == RM_LOW || how == RM_LAG || how == RM_UNDER) {
            int c = 3 * (100 - x);                 /* A = C, or A over C */
            k = a / c;
            if (how != RM_UNDER && a % c != 0)
                continue;
            if (how == RM_UNDER) {
                if (a % c == 0) k--;
                if (k > 2400) k = 2400;
                if (k > 1 && pct(30)) k = between(1, k);
            }
        } else {
            int b = 3 * x;                         /* B = A, or B over A */
            if (x == 0)
                continue;
            k = a / b;
            if (how == RM_HIGH && a % b != 0)
                continue;
            if (how == RM_OVER) {
                k++;
                if (k < 2400 && pct(30)) k = between(k, 2400);
            }
        }
        if (k < 1 || k > 2400)
            continue;
        *rn = n;
        *rk = k;
        *rx = x;
        return 1;
    }
    return 0;
}

/* ---- leaves ---- */

static int any_area(void)
{
    switch (rnd(12)) {
    case 0: return 1;
    case 1: return LIMIT_BA;
    case 2: return between(1, LIMIT_BA);
    case 3: return 100 * between(1, 9999);
    default: return between(1, 99999);
    }
}

static int64_t pattern_sum(const Block *b)
{
    int64_t sum = 0;
    int i;
    for (i = 0; i < b->npi; i++)
        sum += b->pi[i];
    return sum;
}

/* Depth units fallen after the first `count` intervals, under a ratio. */
static int64_t fallen(const Block *b, int count, int ratio)
{
    int64_t sum = 0;
    int i;
    for (i = 0; i < count; i++)
        sum += b->pi[i];
    if (!b->has_pb)
        sum *= 60;
    else
        sum = b->pb == 0 ? 0 : 60 * (int64_t)b->pb * sum / pattern_sum(b);
    return ratio * sum / 100;
}

/* A total that is hard to cut: at a limit, tiny, prime, a multiple of the
   pattern's sum, that sum itself. */
static int any_total(int64_t sum)
{
    static const int prime[] = {
        2, 3, 7, 13, 61, 97, 211, 997, 9973, 31337, 43691, 99991, 199999, 611953, 999983
    };
    switch (rnd(12)) {
    case 0: return 1;
    case 1: return LIMIT_PB;
    case 2: return LIMIT_PB - 1;
    case 3: case 4: return prime[rnd((int)(sizeof prime / sizeof prime[0]))];
    case 5: return sum <= LIMIT_PB ? (int)sum : LIMIT_PB;
    case 6: case 7: return sum <= LIMIT_PB ? (int)(sum * between(1, (int)(LIMIT_PB / sum))) : between(1, LIMIT_PB);
    case 8: return between(1, 300);
    case 9: return between(1, LIMIT_PB);
    default: return between(1, 100000);
    }
}

/* Puts a total on the block and makes of its rain a pattern. */
static void storm_total(Net *n, Block *b, int maxlist)
{
    int i, first, last;
    b->has_pb = 1;
    switch (rnd(14)) {
    case 0:                                        /* nothing falls, in any pattern */
        b->pb = 0;
        return;
    case 1:                                        /* nothing falls, and no pattern */
        for (i = 0; i < b->npi; i++)
            b->pi[i] = 0;
        if (pct(30)) b->npi = 0;
        b->pb = 0;
        return;
    case 2:                                        /* a single value */
        b->npi = 1;
        b->pi[0] = pct(30) ? 1 : pct(30) ? LIMIT_PI : between(1, LIMIT_PI);
        break;
    case 3:                                        /* one value among zeros */
        first = rnd(b->npi);
        for (i = 0; i < b->npi; i++)
            b->pi[i] = i == first ? between(1, LIMIT_PI) : 0;
        break;
    case 4: case 5:                                /* zeros before and behind */
        first = rnd(b->npi);
        last = b->npi > 0 ? between(first, b->npi - 1) : 0;
        for (i = 0; i < b->npi; i++)
            if (i < first || i > last) b->pi[i] = 0;
        break;
    case 6: case 7: {                              /* every interval alike: the greatest, the least or any */
        int v = pct(40) ? LIMIT_PI : pct(50) ? 1 : between(1, LIMIT_PI);
        if (maxlist >= 10 || n->nq <= 30) b->npi = n->nq;
        for (i = 0; i < b->npi; i++)
            b->pi[i] = v;
        if (b->npi > 0 && pct(50)) {               /* less than a unit for many */
            b->pb = pct(60) ? 1 : between(1, 3);
            return;
        }
        break;
    }
    default:
        break;
    }
    if (b->npi > 0 && pattern_sum(b) == 0 && pct(80)) {
        first = rnd(b->npi);
        b->pi[first] = between(1, LIMIT_PI);
    }
    int64_t sum = pattern_sum(b);
    b->pb = sum > 0 ? any_total(sum) : 0;
}

/* A loss as LU takes it. */
static int lawful_loss(int64_t v)
{
    return v < 0 ? 0 : v > LIMIT_PI ? LIMIT_PI : (int)v;
}

/* An interval with rain: the first, the last or any.  -1: there is none. */
static int wet_interval(const Block *b)
{
    int wet[LIMIT_NQ], n = 0, i;
    for (i = 0; i < b->npi; i++)
        if (b->pi[i] > 0)
            wet[n++] = i;
    if (n == 0)
        return -1;
    return pct(30) ? wet[0] : pct(40) ? wet[n - 1] : wet[rnd(n)];
}

/* Aims the initial loss at one interval: filled at its end, 0.0001 inch before
   or behind that, 0.0001 inch behind its beginning, or anywhere inside; and the
   uniform loss at what is left there: none of it, a part, nearly all, all. */
static void aim_losses(const Net *n, Block *b, int ratio)
{
    int i = wet_interval(b);
    if (i < 0)
        return;
    if (i > 1 && pct(30))
        b->pi[between(1, i - 1)] = 0;              /* a dry interval on the way */
    int64_t end = fallen(b, i + 1, ratio);
    int from = lawful_loss(fallen(b, i, ratio) / 60), to = lawful_loss(end / 60);
    switch (rnd(9)) {
    case 0: case 1: b->lu1 = to; break;
    case 2: b->lu1 = lawful_loss(to - 1); break;
    case 3: b->lu1 = lawful_loss(to + 1); break;
    case 4: b->lu1 = lawful_loss(from + 1); break;
    default: b->lu1 = between(from, to); break;
    }
    int64_t rest = end - 60 * (int64_t)b->lu1;
    if (rest < 0)
        return;
    switch (rnd(7)) {
    case 0: b->lu2 = 0; break;
    case 1: case 2: b->lu2 = lawful_loss(rest / n->m); break;
    case 3: b->lu2 = lawful_loss(rest / n->m + 1); break;
    case 4: b->lu2 = lawful_loss(rest / n->m - 1); break;
    case 5: b->lu2 = between(0, lawful_loss(rest / n->m)); break;
    default: break;
    }
}

static void runoff(Net *n, Block *b, int maxlist, int64_t budget, int wild)
{
    static const int tops[] = { 1, 7, 100, 2500, 10000, 10000, 30000, 200000 };
    int i, most = least(n->nq, maxlist);
    int pmax = tops[rnd(8)], top = top_ratio(n), ratio = one_of_ratios(n);
    b->kind = 1;
    b->has_ba = 1;
    b->ba = any_area();
    b->npi = pct(4) ? 0 : between(1, most);
    if (pct(10)) b->npi = most;
    for (i = 0; i < b->npi; i++) {
        int r = rnd(10);
        b->pi[i] = r < 3 ? 0 : r < 4 ? pmax : between(0, pmax);
    }
    if (pct(33))
        storm_total(n, b, maxlist);
    most = least(LIMIT_UNITS, maxlist);
    b->nui = pct(4) ? 0 : between(1, most);
    if (pct(5)) b->nui = most;
    /* the most that falls in an interval, a unit more where earlier ones were cut; with a total no
       ordinate passes the whole storm on the greatest unit ordinate */
    int64_t depth = !b->has_pb ? ((int64_t)60 * pmax * top + 99) / 100 + (top != 100) : (int64_t)60 * b->pb * top / 100;
    int64_t umax = depth == 0 ? LIMIT_UI : budget / (depth * (!b->has_pb && b->nui > 0 ? b->nui : 1));
    if (wild || umax > LIMIT_UI) umax = LIMIT_UI;
    for (i = 0; i < b->nui; i++) {
        int r = rnd(10);
        b->ui[i] = r < 2 ? 0 : r < 3 ? (int)umax : between(0, (int)umax);
    }
    if (pct(8)) {                                  /* floods that fall beyond the last ordinate */
        for (i = 0; i < b->npi && b->pi[i] == 0; i++)
            ;
        for (i = n->nq - i; i >= 0 && i < b->nui; i++)
            b->ui[i] = LIMIT_UI;
    }
    /* a cut total need not be a whole loss: then the loss below it is one too small */
    depth = fallen(b, rnd(b->npi + 1), ratio);
    int total = lawful_loss(depth / 60), all = lawful_loss(fallen(b, b->npi, ratio) / 60);
    switch (rnd(12)) {
    case 0: case 1: case 2: b->lu1 = 0; break;
    case 3: case 4: b->lu1 = total; break;
    case 5: b->lu1 = total - 1; break;
    case 6: b->lu1 = total + 1; break;
    case 7: b->lu1 = LIMIT_PI; break;
    case 8: b->lu1 = between(0, LIMIT_PI); break;
    default: b->lu1 = between(0, b->has_pb ? all : pmax); break;
    }
    if (b->lu1 < 0) b->lu1 = 0;
    if (b->lu1 > LIMIT_PI) b->lu1 = LIMIT_PI;
    i = rnd(b->npi);
    int64_t even = b->npi > 0 ? (fallen(b, i + 1, ratio) - fallen(b, i, ratio)) / n->m : 0;
    switch (rnd(12)) {
    case 0: case 1: case 2: b->lu2 = 0; break;
    case 3: b->lu2 = 1; break;
    case 4: b->lu2 = LIMIT_PI; break;
    case 5: b->lu2 = between(0, LIMIT_PI); break;
    case 6: case 7: b->lu2 = even > LIMIT_PI ? LIMIT_PI : (int)even; break;
    default: b->lu2 = even > 0 ? between(0, even > LIMIT_PI ? LIMIT_PI : (int)even) : 0; break;
    }
    if (pct(40))
        aim_losses(n, b, ratio);
}

static void inflow(Net *n, Block *b, int maxlist, int64_t budget, int wild)
{
    int i, most = least(n->nq, maxlist);
    int64_t qmax = budget / 600000;
    if (wild || qmax > LIMIT_QI) qmax = LIMIT_QI;
    b->kind = 2;
    b->has_ba = pct(35);
    b->ba = b->has_ba ? any_area() : 0;
    b->nqi = pct(4) ? 0 : between(1, most);
    if (pct(10)) b->nqi = most;
    int steady = pct(12);
    int v = between(0, (int)qmax);
    for (i = 0; i < b->nqi; i++) {
        int r = rnd(10);
        b->qi[i] = steady ? v : r < 2 ? 0 : r < 3 ? (int)qmax : between(0, (int)qmax);
    }
}

void net_routing(Net *n, Block *b)
{
    int how = RM_INSIDE, r = rnd(100);
    b->kind = 4;
    if (r < 12) how = RM_LOW;
    else if (r < 24) how = RM_HIGH;
    else if (r < 32) how = RM_LAG;
    if (rm_pick(n->m, how, &b->rn, &b->rk, &b->rx))
        return;
    if (rm_pick(n->m, RM_INSIDE, &b->rn, &b->rk, &b->rx))
        return;
    /* one step with X = 0 and the least lawful K is always inside */
    b->rn = 1;
    b->rx = 0;
    b->rk = (250 * n->m + 299) / 300;
}

/* ---- trees ---- */

static int closing(int held)
{
    return held <= 1 ? 0 : (held - 1 + 3) / 4;
}

/* The shape: blocks in deck order, worked on a stack.  hold > 0: heap up that
   many before combining.  routed: chance in a hundred of a routing. */
static void shape(Net *n, int blocks, int hold, int routed)
{
    int stack[LIMIT_HELD + 1], held = 0, left = blocks, reached = 0, i;
    int lean = between(25, 75);
    n->nb = 0;
    while (left > 0) {
        Block *b = &n->b[n->nb];
        int can_leaf = held < LIMIT_HELD && left - 1 >= closing(held + 1);
        int can_rm = held >= 1 && left - 1 >= closing(held);
        int most = least(5, held), take = 0, op;
        while (most >= 2 && left - 1 < closing(held - most + 1))
            most--;                                /* never: more taken closes sooner */
        int fewest = 2;
        while (fewest <= most && left - 1 < closing(held - fewest + 1))
            fewest++;
        int can_hc = most >= 2 && fewest <= most;
        if (held >= hold) reached = 1;
        if (!reached && can_leaf && (held == 0 || !pct(5)))
            op = 0;
        else if (can_rm && pct(routed))
            op = 1;
        else if (can_leaf && (!can_hc || pct(lean)))
            op = 0;
        else if (can_hc)
            op = 2;
        else if (can_rm)
            op = 1;
        else
            op = 0;
        memset(b, 0, offsetof(Block, pi));
        if (op == 0) {
            b->kind = 2;
            stack[held++] = n->nb;
        } else if (op == 1) {
            b->kind = 4;
            b->nch = 1;
            b->ch[0] = stack[held - 1];
            stack[held - 1] = n->nb;
        } else {
            take = between(fewest, most);
            b->kind = 3;
            b->hc = take;
            b->nch = take;
            for (i = 0; i < take; i++)
                b->ch[i] = stack[held - take + i];
            held -= take;
            stack[held++] = n->nb;
        }
        n->order[n->nb] = n->nb;
        n->nb++;
        left--;
    }
}

static int leaf_count(const Net *n)
{
    int i, c = 0;
    for (i = 0; i < n->nb; i++)
        c += n->b[i].nch == 0;
    return c;
}

/* In more than half of the networks some or all routings are ponds. */
static void fill(Net *n, int maxlist, int flow)
{
    int i, leaves = leaf_count(n), ponds = pct(60) ? between(30, 100) : 0;
    for (i = 0; i < n->nb; i++) {
        Block *b = &n->b[i];
        int64_t share = LIMIT_FLOW / (leaves > 0 ? leaves : 1);
        if (flow == FLOW_SMALL) {
            static const int parts[] = { 10, 100, 1000, 10000 };
            share /= parts[rnd(4)];
        }
        int wild = flow == FLOW_WILD && pct(50);
        if (b->nch == 0) {
            if (pct(50))
                runoff(n, b, maxlist, share, wild);
            else
                inflow(n, b, maxlist, share, wild);
        } else if (b->kind == 4) {
            net_routing(n, b);
            if (pct(ponds)) b->kind = 5;
        }
    }
    net_ponds(n, flow != FLOW_WILD ? PONDS_LIMITED : pct(50) ? PONDS_FITTED : PONDS_ANY);
}

void net_random(Net *n, int blocks, int hold, int maxlist, int flow, int routed)
{
    shape(n, blocks, hold, routed);
    fill(n, maxlist, flow);
    net_names(n, 0);
}

/* Puts an initial loss on a block without any loss, and as much more rain in
   its first wet interval, so that the excess stays.  A total that is shared by
   several intervals is left alone. */
static void add_initial_loss(Block *b, int first, int wet)
{
    if (b->has_pb && wet > 1)
        return;
    int most = b->has_pb ? LIMIT_PB - b->pb : LIMIT_PI - b->pi[first];
    b->lu1 = between(0, least(most, LIMIT_PI));
    if (b->has_pb)
        b->pb += b->lu1;
    else
        b->pi[first] += b->lu1;
}

/* Makes 1.00 the greatest ratio. */
static void ratios_to_one(Net *n)
{
    int i;
    for (i = 0; i < n->njr; i++)
        if (n->jr[i] > 100) n->jr[i] = pct(50) ? 100 : between(1, 100);
    if (n->njr > 0 && top_ratio(n) < 100)
        n->jr[rnd(n->njr)] = 100;
}

/* A network whose outlet stands at the flow limit under the ratio 1.00, the
   greatest: excess 0 at it, below 0 hundredths under it, above 0 over it (1000
   means one flow unit over). */
void net_limit(Net *n, int leaves, int excess)
{
    int i, k, nl = 0, at, steady, total = LIMIT_QI, unit = 0;
    ratios_to_one(n);
    int blocks = leaves + closing(leaves);
    int routed = pct(50) ? 25 : 0;
    if (excess == 1000) {
        unit = 1;
        excess = 0;
    }
    total += excess;
    if (unit) {
        n->m = 1;                                  /* makes losses of single depth units */
        if (leaves < 2) leaves = 2;
        blocks = leaves + closing(leaves);
    }
    shape(n, blocks + (routed ? rnd(4) : 0), leaves, routed);
    for (i = 0; i < n->nb; i++)
        nl += n->b[i].nch == 0;
    steady = routed != 0 || pct(30);
    at = rnd(n->nq);
    if (unit && nl < 2)
        unit = 0;
    for (i = 0; i < n->nb; i++) {
        Block *b = &n->b[i];
        if (b->kind == 4) {
            net_routing(n, b);
            continue;
        }
        if (b->nch != 0)
            continue;
        nl--;
        if (unit && nl == 0) {                     /* the last leaf yields one flow unit */
            b->kind = 1;
            b->has_ba = 1;
            b->ba = any_area();
            b->npi = n->nq;
            for (k = 0; k < b->npi; k++) b->pi[k] = 1;
            if (pct(40)) {                         /* the same rain, cut from a total */
                int v = between(1, LIMIT_PI);
                for (k = 0; k < b->npi; k++) b->pi[k] = v;
                b->has_pb = 1;
                b->pb = b->npi;
            }
            b->lu2 = 59;
            b->nui = 1;
            b->ui[0] = 1;
            continue;
        }
        int last = nl == 0 || (unit && nl == 1);
        int q = last ? total : between(0, total);
        if (!last && total > LIMIT_QI / 2 && pct(40)) q = total / 2;
        if (q > LIMIT_QI) q = LIMIT_QI;
        total -= q;
        int count = steady ? n->nq : between(at + 1, n->nq);
        if (q <= LIMIT_UI && pct(40)) {
            b->kind = 1;
            b->has_ba = 1;
            b->ba = any_area();
            b->npi = count;
            for (k = 0; k < count; k++)
                b->pi[k] = steady || k == at ? 10000 : 0;
            int wet = steady ? count : 1;          /* intervals with rain */
            if (q % 20 == 0 && pct(40)) {          /* twenty inches on a twentieth of the graph */
                for (k = 0; k < count; k++) b->pi[k] *= 20;
                q /= 20;
            } else if (wet <= 100 && pct(50)) {    /* an inch to each, or all of a hundred to one, from a total */
                int v = between(1, LIMIT_PI);
                for (k = 0; k < count; k++)
                    if (b->pi[k] > 0) b->pi[k] = v;
                b->has_pb = 1;
                b->pb = 10000 * wet;
                if (wet == 1 && q % 100 == 0 && pct(60)) {
                    b->pb = LIMIT_PB;
                    q /= 100;
                }
            }
            if (pct(40))
                add_initial_loss(b, steady ? 0 : at, wet);
            b->nui = 1;
            b->ui[0] = q;
        } else {
            b->kind = 2;
            b->has_ba = pct(30);
            b->ba = b->has_ba ? any_area() : 0;
            b->nqi = count;
            for (k = 0; k < count; k++)
                b->qi[k] = steady || k == at ? q : rnd(q + 1);
        }
    }
    net_names(n, 0);
}

static Block *new_leaf(Net *n, int kind)
{
    Block *b = &n->b[n->nb];
    memset(b, 0, offsetof(Block, pi));
    b->kind = kind;
    n->order[n->nb] = n->nb;
    n->nb++;
    if (kind == 1 || pct(30)) {
        b->has_ba = 1;
        b->ba = any_area();
    }
    return b;
}

/* All blocks so far meet in one. */
static void close_net(Net *n)
{
    Block *b = &n->b[n->nb];
    int i;
    memset(b, 0, offsetof(Block, pi));
    b->kind = 3;
    b->hc = b->nch = n->nb;
    for (i = 0; i < n->nb; i++)
        b->ch[i] = i;
    n->order[n->nb] = n->nb;
    n->nb++;
    net_names(n, 0);
}

/* Rain in one interval alone, from a total or not. */
static void one_shower(Net *n, Block *b, int at, int depth)
{
    int i, total = depth > LIMIT_PI || pct(40);
    b->npi = between(at + 1, n->nq);
    for (i = 0; i < b->npi; i++)
        b->pi[i] = 0;
    b->pi[at] = total ? between(1, LIMIT_PI) : depth;
    b->has_pb = total;
    b->pb = total ? depth : 0;
    b->nui = 1;
}

static int64_t common(int64_t a, int64_t b)        /* greatest common divisor */
{
    while (b != 0) {
        int64_t t = a % b;
        a = b;
        b = t;
    }
    return a;
}

/* Unit ordinates that make whole hundredths of such an excess, within the
   limit; 0 when there are none. */
static int even_unit(int64_t excess)
{
    int64_t step = 600000 / common(excess, 600000);
    int64_t most = LIMIT_FLOW / excess < LIMIT_UI ? LIMIT_FLOW / excess : LIMIT_UI;
    most /= step;
    return most < 1 ? 0 : (int)(step * (pct(50) ? most : between(1, (int)most)));
}

/* An outlet that stands at the flow limit under the greatest ratio alone; over:
   one flow unit above it. */
void net_ratio_limit(Net *n, int over)
{
    int top = top_ratio(n), at = rnd(n->nq), k, tries;
    int64_t depth, excess = 0;
    Block *b;
    if (over) n->m = 1;                            /* makes losses of single depth units */
    n->nb = 0;
    b = new_leaf(n, 1);
    for (tries = 0; tries < 60; tries++) {
        one_shower(n, b, at, pct(50) ? 100 * between(1, LIMIT_PB / 100) : between(1, LIMIT_PB));
        depth = fallen(b, b->npi, top);
        b->lu1 = pct(40) && tries < 50 ? between(0, lawful_loss(depth / 60)) : 0;
        b->lu2 = pct(40) && tries < 50 ? between(0, lawful_loss((depth - 60 * b->lu1) / n->m)) : 0;
        excess = depth - 60 * b->lu1 - (int64_t)n->m * b->lu2;
        b->ui[0] = excess > 0 ? even_unit(excess) : 0;
        if (b->ui[0] > 0)
            break;
    }
    int q = (int)((LIMIT_FLOW - b->ui[0] * excess) / 600000);
    b = new_leaf(n, 2);
    b->nqi = between(at + 1, n->nq);
    for (k = 0; k < b->nqi; k++)
        b->qi[k] = k == at ? q : rnd(q + 1);
    if (over) {                                    /* a leaf that yields one unit */
        b = new_leaf(n, 1);
        do {
            one_shower(n, b, at, between(1, 300000 / top));
            depth = fallen(b, b->npi, top);
        } while (depth < 1);
        b->lu1 = pct(50) ? between(0, lawful_loss((depth - 1) / 60)) : 0;
        b->lu2 = (int)(depth - 1 - 60 * b->lu1);
        b->ui[0] = 1;
    }
    close_net(n);
}

/* An inflow at the limit in one interval, and a rain so fine that it depends on
   the rounding whether that interval gets a unit of it: a smaller ratio may
   pass the limit where a greater one does not. */
void net_drip(Net *n)
{
    if (n->nq < 4) n->nq = between(4, 40);
    int at = rnd(n->nq), k, v = between(1, LIMIT_PI);
    for (k = 0; k < n->njr; k++)
        if (pct(80)) n->jr[k] = between(1, 30);
    n->nb = 0;
    Block *b = new_leaf(n, 1);
    b->has_pb = 1;
    b->pb = between(1, 3);
    b->npi = n->nq;
    for (k = 0; k < b->npi; k++)
        b->pi[k] = pct(85) ? v : rnd(LIMIT_PI + 1);
    b->pi[rnd(b->npi)] = v;
    b->nui = 1;
    b->ui[0] = between(1, 3);
    b = new_leaf(n, 2);
    b->nqi = at + 1;
    for (k = 0; k < at; k++)
        b->qi[k] = 0;
    b->qi[at] = LIMIT_QI;
    close_net(n);
}

/* A chain of confluences of two, each taking one leaf and the chain above it:
   cheap when the chain comes first, deep when the leaf comes first. */
void net_caterpillar(Net *n, int depth, int maxlist)
{
    int i, spine = 0;
    n->nb = 0;
    memset(&n->b[0], 0, offsetof(Block, pi));
    n->b[0].kind = 2;
    n->nb = 1;
    for (i = 0; i < depth; i++) {
        Block *leaf = &n->b[n->nb], *hc = &n->b[n->nb + 1];
        memset(leaf, 0, offsetof(Block, pi));
        memset(hc, 0, offsetof(Block, pi));
        leaf->kind = 2;
        hc->kind = 3;
        hc->hc = 2;
        hc->nch = 2;
        hc->ch[0] = spine;
        hc->ch[1] = n->nb;
        spine = n->nb + 1;
        n->nb += 2;
        if (pct(10) && n->nb < LIMIT_BLOCKS - 3) {
            Block *rm = &n->b[n->nb];
            memset(rm, 0, offsetof(Block, pi));
            rm->kind = 4;
            rm->nch = 1;
            rm->ch[0] = spine;
            spine = n->nb++;
        }
    }
    fill(n, maxlist, FLOW_SHARE);
    net_names(n, 0);
    net_order(n);
}

/* ---- names ---- */

static void one_name(Block *b)
{
    static const char plain[] = "ABCDEFGHIJKLMNOPQRSTUVWXYZ0123456789";
    int i, odd = pct(25);
    b->nlen = between(1, 6);
    for (i = 0; i < b->nlen; i++)
        b->name[i] = odd ? (unsigned char)between(0x21, 0x7E) : (unsigned char)plain[rnd(36)];
    if (pct(2)) {
        static const char *const tricky[] = { "END", "ZZ", "KK", "--", "*FIX", ",", ",,", "0", "REFUSE", "*FREE", "RATIO", "JR" };
        const char *t = tricky[rnd(12)];
        b->nlen = (int)strlen(t);
        memcpy(b->name, t, (size_t)b->nlen);
    }
}

void net_names(Net *n, int distinct)
{
    int i, j;
    for (i = 0; i < n->nb; i++) {
        for (;;) {
            one_name(&n->b[i]);
            if (!distinct)
                break;
            for (j = 0; j < i; j++)
                if (n->b[j].nlen == n->b[i].nlen && !memcmp(n->b[j].name, n->b[i].name, (size_t)n->b[i].nlen))
                    break;
            if (j == i)
                break;
        }
        if (!distinct && i > 0 && pct(15)) {
            Block *o = &n->b[rnd(i)];
            n->b[i].nlen = o->nlen;
            memcpy(n->b[i].name, o->name, 6);
        }
    }
}

/* ---- orders ---- */

static int root_of(const Net *n)
{
    unsigned char taken[LIMIT_BLOCKS + 2] = { 0 };
    int i, k;
    for (i = 0; i < n->nb; i++)
        for (k = 0; k < n->b[i].nch; k++)
            taken[n->b[i].ch[k]] = 1;
    for (i = n->nb - 1; i > 0; i--)
        if (!taken[i])
            return i;
    return 0;
}

static void visit(Net *n, int at, int *pos)
{
    int k;
    for (k = 0; k < n->b[at].nch; k++)
        visit(n, n->b[at].ch[k], pos);
    n->order[(*pos)++] = at;
}

void net_order(Net *n)
{
    int pos = 0;
    visit(n, root_of(n), &pos);
}

void net_shuffle(Net *n)
{
    int i, k;
    for (i = 0; i < n->nb; i++) {
        Block *b = &n->b[i];
        for (k = b->nch - 1; k > 0; k--) {
            int o = rnd(k + 1), t = b->ch[k];
            b->ch[k] = b->ch[o];
            b->ch[o] = t;
        }
    }
    net_order(n);
}

/* Most held while the branch is worked, with its branches in their order. */
static int need(const Net *n, int at)
{
    int k, most = 1;
    for (k = 0; k < n->b[at].nch; k++) {
        int w = k + need(n, n->b[at].ch[k]);
        if (w > most) most = w;
    }
    return most;
}

static int by_need(Net *n, int at, int first)
{
    int k, j, w[5], most = 1;
    Block *b = &n->b[at];
    for (k = 0; k < b->nch; k++)
        w[k] = by_need(n, b->ch[k], first);
    for (k = 1; k < b->nch; k++)
        for (j = k; j > 0 && (first ? w[j] > w[j - 1] : w[j] < w[j - 1]); j--) {
            int t = w[j], c = b->ch[j];
            w[j] = w[j - 1]; w[j - 1] = t;
            b->ch[j] = b->ch[j - 1]; b->ch[j - 1] = c;
        }
    for (k = 0; k < b->nch; k++)
        if (k + w[k] > most) most = k + w[k];
    return most;
}

void net_deepest_first(Net *n)
{
    by_need(n, root_of(n), 1);
    net_order(n);
}

void net_deepest_last(Net *n)
{
    by_need(n, root_of(n), 0);
    net_order(n);
}

int net_held(const Net *n)
{
    return need(n, root_of(n));
}

/* ---- blocks to be named ---- */

/* Any block of a kind: the place among the blocks, or -1 where there is none. */
int net_any(const Net *n, int kind)
{
    int i, found[LIMIT_BLOCKS + 2], count = 0;
    for (i = 0; i < n->nb; i++)
        if (n->b[i].kind == kind)
            found[count++] = i;
    return count > 0 ? found[rnd(count)] : -1;
}

/* where a block stands in the deck, from 1 */
int net_place(const Net *n, int block)
{
    int i = 0;
    while (n->order[i] != block)
        i++;
    return i + 1;
}
