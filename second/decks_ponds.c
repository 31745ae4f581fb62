/* Ponds (document 02, CR 6): the water of a network, worked out here by itself,
   and tables that suit it, at the edges of their rules too. */
#include <string.h>
#include "decks.h"

static int64_t lesser(int64_t a, int64_t b)
{
    return a < b ? a : b;
}

static int64_t greater(int64_t a, int64_t b)
{
    return a > b ? a : b;
}

/* ---- the water of a network ---- */

/* Flow units of each block under each ratio.  A flow over the limit counts as
   one at it: the deck is refused before it reaches another block. */
static uint64_t flows[LIMIT_RATIOS][LIMIT_BLOCKS + 2][LIMIT_NQ];
static int passed_limit;                           /* there was such a flow */

static int ratio_count(const Net *n)
{
    return n->njr > 0 ? n->njr : 1;
}

static int ratio_at(const Net *n, int place)
{
    return n->njr > 0 ? n->jr[place] : 100;
}

static void run_off(const Net *n, const Block *b, int ratio, uint64_t *flow)
{
    int64_t sum = 0, all = 0, before = 0, unfilled = 60 * (int64_t)b->lu1;
    int64_t uniform = (int64_t)n->m * b->lu2;
    int i, j;
    for (i = 0; i < b->npi; i++)
        all += b->pi[i];
    for (i = 0; i < b->npi && i < n->nq; i++) {
        sum += b->pi[i];
        int64_t fallen = 60 * (b->has_pb ? all > 0 ? (int64_t)b->pb * sum : 0 : sum);
        if (b->has_pb && all > 0)
            fallen /= all;
        fallen = ratio * fallen / 100;
        int64_t rain = fallen - before, filling = lesser(rain, unfilled);
        before = fallen;
        unfilled -= filling;
        rain -= filling;
        rain -= lesser(rain, uniform);
        for (j = 0; j < b->nui && i + j < n->nq; j++)
            flow[i + j] += (uint64_t)b->ui[j] * (uint64_t)rain;
    }
}

static void add_branch(const Net *n, const uint64_t *branch, uint64_t *flow)
{
    int i;
    for (i = 0; i < n->nq; i++)
        flow[i] += branch[i];
}

static void route(const Net *n, const Block *b, uint64_t *flow)
{
    uint64_t a = (uint64_t)250 * (uint64_t)b->rn * (uint64_t)n->m;
    uint64_t low = (uint64_t)3 * (uint64_t)b->rk * (uint64_t)b->rx;
    uint64_t high = (uint64_t)3 * (uint64_t)b->rk * (uint64_t)(100 - b->rx);
    int step, i;
    if (low > a || a > high)
        return;
    for (step = 0; step < b->rn; step++) {
        uint64_t in = flow[0], out = in, rest = 0;
        for (i = 1; i < n->nq; i++) {
            uint64_t top = (a + low) * in + (a - low) * flow[i] + (high - a) * out + rest;
            in = flow[i];
            out = flow[i] = top / (a + high);
            rest = top % (a + high);
        }
    }
}

/* floor(rise * above / span), bit by bit, since the product may pass 64 bits */
static uint64_t share(uint64_t rise, uint64_t above, uint64_t span)
{
    uint64_t whole = 0, rest = 0;
    int bit;
    for (bit = 43; bit >= 0; bit--) {
        rest = 2 * rest + ((rise >> bit & 1) ? above : 0);
        whole = 2 * whole + rest / span;
        rest %= span;
    }
    return whole;
}

static uint64_t water_at(const Net *n, const Block *b, int row)
{
    return (uint64_t)FLOW_HUNDREDTH * ((uint64_t)1452 * (uint64_t)b->sv[row] + (uint64_t)n->m * (uint64_t)b->sq[row]);
}

/* The pond's outflow in place of its inflow; 0 when the water rises above the
   last row, which then counts as its height. */
static int pool(const Net *n, const Block *b, uint64_t *flow)
{
    uint64_t top = water_at(n, b, b->nsv - 1), w = 0, out = 0, in = flow[0], m = (uint64_t)n->m;
    int i, row, held = 1;
    flow[0] = 0;
    for (i = 1; i < n->nq; i++) {
        w += m * (in + flow[i]) - 2 * m * out;
        if (w > top) {
            held = 0;
            w = top;
        }
        for (row = b->nsv - 2; row > 0 && water_at(n, b, row) > w; row--)
            ;
        uint64_t from = water_at(n, b, row), q = (uint64_t)FLOW_HUNDREDTH * (uint64_t)b->sq[row];
        out = q + share((uint64_t)FLOW_HUNDREDTH * (uint64_t)b->sq[row + 1] - q, w - from, water_at(n, b, row + 1) - from);
        in = flow[i];
        flow[i] = out;
    }
    return held;
}

/* Works a block whose branches are worked; 0 when a pond's table is passed. */
static int work(const Net *n, int at)
{
    const Block *b = &n->b[at];
    int r, i, held = 1;
    for (r = 0; r < ratio_count(n); r++) {
        uint64_t *flow = flows[r][at];
        memset(flow, 0, sizeof flows[r][at]);
        for (i = 0; i < b->nqi && i < n->nq; i++)
            flow[i] = (uint64_t)FLOW_HUNDREDTH * (uint64_t)b->qi[i];
        for (i = 0; i < b->nch; i++)
            add_branch(n, flows[r][b->ch[i]], flow);
        if (b->kind == 1)
            run_off(n, b, ratio_at(n, r), flow);
        else if (b->kind == 4)
            route(n, b, flow);
        else if (b->kind == 5 && !pool(n, b, flow))
            held = 0;
        for (i = 0; i < n->nq; i++)
            if (flow[i] > (uint64_t)LIMIT_FLOW) {
                flow[i] = (uint64_t)LIMIT_FLOW;
                passed_limit = 1;
            }
    }
    return held;
}

/* ---- rows ---- */

static int common(int a, int b)                    /* greatest common divisor */
{
    while (b != 0) {
        int t = a % b;
        a = b;
        b = t;
    }
    return a;
}

int pond_most_out(int m, int v)
{
    return (int)lesser(LIMIT_SQ, (int64_t)1452 * v / m);
}

/* W is reached to the unit when hundredths of cfs that add up to `sum` over the
   ends of the intervals have come in and none has left: 1,452 v + M q is M
   times the sum.  0 when there is no such row. */
int pond_even_row(int m, int64_t sum, int *v, int *q)
{
    int part = common(1452, m), step = 1452 / part;
    int64_t low = greater((sum + 2 * step - 1) / (2 * step), (sum - LIMIT_SQ + step - 1) / step);
    int64_t high = lesser(sum / step, LIMIT_SV / (m / part));
    if (low < 1) low = 1;
    if (low > high)
        return 0;
    int64_t k = pct(30) ? low : pct(40) ? high : low + (int64_t)rnd((int)lesser(high - low + 1, 1000000));
    *v = (int)(k * (m / part));
    *q = (int)(sum - k * step);
    return 1;
}

/* SV of so many rows, the last about `top`. */
static void rising_storage(Block *b, int rows, int top)
{
    int k, how = rnd(4), steps = rows - 1, at = 0;
    b->nsv = b->nsq = rows;
    for (k = 0; k < rows; k++) {
        switch (how) {
        case 0: at = (int)((int64_t)top * k / steps); break;
        case 1: at = (int)((int64_t)top * k * k / (steps * steps)); break;
        case 2: at += k > 0 ? 1 + rnd((int)lesser(2 * (int64_t)top / steps, LIMIT_SV)) : 0; break;
        default: at = k == steps ? top : at + (k > 0 ? between(1, 3) : 0); break;
        }
        b->sv[k] = at;
        if (k > 0 && b->sv[k] <= b->sv[k - 1])
            b->sv[k] = b->sv[k - 1] + 1;
        at = b->sv[k];
    }
    for (k = 0; k < rows; k++)
        if (b->sv[k] > LIMIT_SV - (rows - 1 - k)) b->sv[k] = LIMIT_SV - (rows - 1 - k);
}

/* Puts the rows where 1,452 V can be M Q exactly, as far as they stay apart. */
static void even_storage(int m, Block *b)
{
    int k, unit = m / common(1452, m);
    for (k = 1; k < b->nsv; k++) {
        int v = b->sv[k] - b->sv[k] % unit;
        if (v > b->sv[k - 1]) b->sv[k] = v;
    }
}

/* SQ up to about `top`: at the edge of the rule or near it, curved, in steps,
   or none below some row. */
static void outlets(int m, Block *b, int top)
{
    int how = rnd(7), dead = between(1, b->nsv - 1), k;
    int64_t high = b->sv[b->nsv - 1];
    if (how <= 1 && pct(60))
        even_storage(m, b);
    b->sq[0] = 0;
    for (k = 1; k < b->nsv; k++) {
        int most = pond_most_out(m, b->sv[k]);
        int64_t q = 0, v = b->sv[k];
        switch (how) {
        case 0: q = most; break;
        case 1: q = most - rnd(2); break;
        case 2: q = top * v / high; break;
        case 3: q = (int64_t)(top * v / high) * v / high; break;
        case 4: q = k < dead ? 0 : top * v / high; break;
        case 5: q = pct(50) ? b->sq[k - 1] : between(b->sq[k - 1], (int)lesser(most, greater(top, b->sq[k - 1]))); break;
        default: q = b->sq[k - 1] + (pct(30) ? 0 : rnd(top / 4 + 1)); break;
        }
        if (q > most) q = most;
        if (q < b->sq[k - 1]) q = b->sq[k - 1];
        b->sq[k] = (int)q;
    }
}

/* ---- tables ---- */

static int any_rows(void)
{
    return pct(20) ? 2 : pct(20) ? LIMIT_ROWS : between(3, LIMIT_ROWS - 1);
}

/* Any table, of a size that has to do with such an inflow. */
static void any_table(const Net *n, Block *b, const uint64_t *in)
{
    uint64_t sum = 0, peak = 0;
    int i, rows = any_rows(), part = between(1, 60);
    for (i = 0; i < n->nq; i++) {
        sum += in[i];
        if (in[i] > peak) peak = in[i];
    }
    /* all of it at once would be a height of 2 M times the sum */
    uint64_t top = 2 * (uint64_t)n->m * (sum / 100) * (uint64_t)part / (uint64_t)(1452 * FLOW_HUNDREDTH);
    if (sum == 0)
        top = (uint64_t)between(1, LIMIT_SV);
    if (top < (uint64_t)rows) top = (uint64_t)rows;
    if (top > LIMIT_SV) top = LIMIT_SV;
    part = between(5, 150);
    int most = sum == 0 ? rnd(LIMIT_SQ + 1) : (int)lesser((int64_t)(peak / (uint64_t)FLOW_HUNDREDTH) * part / 100, LIMIT_SQ);
    rising_storage(b, rows, (int)top);
    outlets(n->m, b, most);
}

static void largest_table(const Net *n, Block *b)
{
    rising_storage(b, any_rows(), LIMIT_SV);
    outlets(n->m, b, LIMIT_SQ);
    b->sv[b->nsv - 1] = LIMIT_SV;
    b->sq[b->nsv - 1] = LIMIT_SQ;
}

static void one_row_more(int m, Block *b)
{
    int k = b->nsv, v = b->sv[k - 1] + (pct(50) ? between(1, 3) : between(1, 5000));
    if (k >= LIMIT_ROWS || v > LIMIT_SV)
        return;
    b->sv[k] = v;
    b->sq[k] = pct(30) ? b->sq[k - 1] : between(b->sq[k - 1], pond_most_out(m, v));
    b->nsv = b->nsq = k + 1;
}

/* A table with a row that the water reaches to the unit: nothing leaves before
   that, and the inflow is of whole hundredths.  The row is the last one, or
   not.  0 when it cannot be had. */
static int even_table(const Net *n, Block *b, const uint64_t *in)
{
    int64_t sum = 0, before = 0;
    int i, k, t = n->nq < 2 ? 0 : pct(40) ? n->nq - 1 : between(1, n->nq - 1), v, q, more = pct(50) ? 0 : between(1, 17);
    if (t == 0)
        return 0;
    for (i = 0; i <= t; i++)
        if (in[i] % (uint64_t)FLOW_HUNDREDTH != 0) return 0;
    for (i = 1; i <= t; i++) {
        before = sum;
        sum += (int64_t)((in[i - 1] + in[i]) / (uint64_t)FLOW_HUNDREDTH);
    }
    if (sum == before || !pond_even_row(n->m, sum, &v, &q))
        return 0;
    int64_t dead = (n->m * before + 1451) / 1452;  /* as high as the water was, with no outflow */
    if (dead >= v)
        return 0;
    b->sv[0] = b->sq[0] = 0;
    k = 1;
    if (dead > 0) {
        b->sv[k] = pct(50) ? (int)dead : between((int)dead, v - 1);
        b->sq[k++] = 0;
    }
    b->sv[k] = v;
    b->sq[k++] = q;
    b->nsv = b->nsq = k;
    while (more-- > 0)
        one_row_more(n->m, b);
    return 1;
}

/* Twice the storage in each row; the rules hold as before.  0: over the limit. */
static int grow(Block *b)
{
    int k;
    if (b->sv[b->nsv - 1] > LIMIT_SV / 2)
        return 0;
    for (k = 0; k < b->nsv; k++)
        b->sv[k] *= 2;
    return 1;
}

/* A table for the pond that its water never passes, under no ratio.  Where
   there is none the block becomes a routing. */
static void fit(Net *n, int at)
{
    Block *b = &n->b[at];
    int r = rnd(ratio_count(n)), tries, how;
    const uint64_t *in = flows[r][b->ch[0]];
    for (tries = 0; tries < 8; tries++) {
        how = rnd(100);
        if (how < 40 && even_table(n, b, in)) {
            if (work(n, at)) return;
            continue;
        }
        if (how >= 92)
            largest_table(n, b);
        else
            any_table(n, b, in);
        do {
            if (work(n, at)) return;
        } while (grow(b));
    }
    b->nsv = b->nsq = 2;
    b->sv[1] = LIMIT_SV;
    b->sq[1] = LIMIT_SQ;
    if (work(n, at))
        return;
    b->kind = 4;
    net_routing(n, b);
    work(n, at);
}

/* Works all blocks; the branches of a block have smaller numbers than it. */
static void work_all(Net *n, int fitted)
{
    int i;
    passed_limit = 0;
    for (i = 0; i < n->nb; i++) {
        Block *b = &n->b[i];
        if (b->kind == 5 && fitted) {
            fit(n, i);
            continue;
        }
        if (b->kind == 5)
            any_table(n, b, flows[0][b->ch[0]]);
        work(n, i);
    }
}

/* A pond that suddenly lets out more may have a higher peak than came in: so
   where flows are to keep their limit all of them are looked at, and in the end
   there are no ponds. */
void net_ponds(Net *n, int how)
{
    int i, ponds = 0, tries;
    for (i = 0; i < n->nb; i++)
        ponds += n->b[i].kind == 5;
    if (ponds == 0)
        return;
    for (tries = 0; tries < 6; tries++) {
        work_all(n, how != PONDS_ANY);
        if (how != PONDS_LIMITED || !passed_limit)
            return;
    }
    for (i = 0; i < n->nb; i++)
        if (n->b[i].kind == 5) {
            n->b[i].kind = 4;
            net_routing(n, &n->b[i]);
        }
}

/* ---- broken rules ---- */

/* The next row that lacks as little as can be: M q is 1,452 v and the common
   divisor of both. */
static void least_under(int m, Block *b)
{
    int k = b->nsv < LIMIT_ROWS ? b->nsv : b->nsv - 1, part = common(1452, m), tries, top = LIMIT_SV - m;
    top = (int)lesser(top, (int64_t)(LIMIT_SQ - 1453) * m / 1452);   /* so far its outflow keeps the limit */
    while (k > 1 && b->sv[k - 1] >= top)
        k--;
    int v = b->sv[k - 1] + 1 + (pct(50) ? 0 : rnd((int)lesser(1000, top - b->sv[k - 1])));
    for (tries = 0; tries < m && (int64_t)1452 * (v + tries) % m != (m - part) % m; tries++)
        ;
    v += tries;
    b->sv[k] = v;
    b->sq[k] = (int)((int64_t)1452 * v / m + 1);
    b->nsv = b->nsq = k + 1;
}

void pond_break(int m, Block *b, int how)
{
    int last = b->nsv - 1, k = between(1, last);
    switch (how) {
    case 0: b->nsv = b->nsq = 1; break;            /* too few */
    case 1: b->nsv = b->nsq = 0; break;
    case 2: b->nsv = 1; b->nsq = rnd(2); break;
    case 3: b->nsq -= pct(50) ? 1 : k; break;      /* unequal */
    case 4: b->nsv -= pct(50) ? 1 : k; break;
    case 5:                                        /* one value too many of one sort */
        if (pct(50) && b->nsv < LIMIT_ROWS) b->sv[b->nsv++] = (int)lesser(LIMIT_SV, (int64_t)b->sv[last] + 1);
        else if (b->nsq < LIMIT_ROWS) { b->sq[b->nsq] = b->sq[last]; b->nsq++; }
        else b->nsv--;
        break;
    case 6: b->sv[0] = b->sv[1] > 1 && pct(50) ? between(1, b->sv[1] - 1) : 1; break;
    case 7:                                        /* a first outflow */
        b->sq[0] = 1;
        for (k = 1; k <= last; k++)
            if (b->sq[k] < 1) b->sq[k] = 1;
        break;
    case 8: b->sv[k] = b->sv[k - 1]; break;        /* equal */
    case 9:                                        /* falling */
        if (k > 1) b->sv[k] = pct(50) ? b->sv[k - 1] - 1 : rnd(b->sv[k - 1]);
        else if (last > 1) { int t = b->sv[1]; b->sv[1] = b->sv[2]; b->sv[2] = t; }
        else b->sv[1] = 0;
        break;
    case 10:
        while (k > 1 && b->sq[k - 1] == 0) k--;
        if (b->sq[k - 1] > 0) {
            b->sq[k] = pct(50) ? b->sq[k - 1] - 1 : rnd(b->sq[k - 1]);
        } else if (last + 1 < LIMIT_ROWS) {        /* nothing flows out: one row more, and none again */
            if (b->sq[last] == 0) b->sq[last] = pond_most_out(m, b->sv[last]);
            b->sv[last + 1] = (int)lesser(LIMIT_SV, (int64_t)b->sv[last] + between(1, 50));
            b->sq[last + 1] = b->sq[last] > 0 ? b->sq[last] - 1 : 0;
            b->nsv = b->nsq = last + 2;
        } else {
            b->sq[last - 1] = 1;
            b->sq[last] = 0;
        }
        break;
    case 11: least_under(m, b); break;
    default:                                       /* under by one hundredth, in any row */
        b->sq[k] = (int)lesser(LIMIT_SQ, (int64_t)1452 * b->sv[k] / m + 1);
        for (; k < last; k++)
            if (b->sq[k + 1] < b->sq[k]) b->sq[k + 1] = b->sq[k];
        break;
    }
}
