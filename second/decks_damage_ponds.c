/* Damages of ponds (document 02, CR 6): of the fields of RS, of the set of
   records, and those aimed at 19 and 20. */
#include <string.h>
#include "decks_damage.h"

static int lesser(int a, int b)
{
    return a < b ? a : b;
}

/* ---- blocks put in ---- */

/* A list over as many lines as it takes, the values of a line at random; where
   a value does not fit its field in fixed form, that line is in free form.  The
   lines it took. */
static int list_in(Deck *d, int at, int tag, const Style *s, const int *v, int n)
{
    int done = 0, start = at, k;
    do {
        Line *l = insert(d, at, tag);
        int c = lesser(n - done, pct(50) ? 10 : between(1, 10)), ok = 1, form = l->form;
        for (k = 0; k < c && ok; k++) {
            if (v[done + k] == 0 && k + 1 < c && pct(s->pzero))
                l->f[k][0] = 0;
            else
                ok = number_write(l->f[k], v[done + k], 2, form == FREE ? 13 : k == 0 ? 6 : 8, 0);
        }
        l->nf = c;
        if (!ok || !line_compose(l, s)) {
            c = lesser(c, 5);                      /* ten long values pass 80 bytes */
            for (k = 0; k < c; k++)
                number_write(l->f[k], v[done + k], 2, 13, 0);
            l->nf = c;
            l->form = FREE;
            line_compose(l, s);
            if (form == FIXED) {
                line_text(insert(d, at, T_CONTROL), "*FREE");
                line_text(insert(d, at + 2, T_CONTROL), "*FIX");
                at += 2;
            }
        }
        at++;
        done += c;
    } while (done < n);
    return at - start;
}

/* The records of a pond in any order; the lines they took. */
static int pond_records_in(Deck *d, int at, const Net *n, const Style *s, const Block *b)
{
    int left[3] = { T_RS, T_SV, T_SQ }, c, start = at;
    for (c = 3; c > 0; c--) {
        int k = rnd(c), tag = left[k];
        left[k] = left[c - 1];
        if (tag == T_RS)
            plain_record(insert(d, at++, T_RS), s, n);
        else if (tag == T_SV)
            at += list_in(d, at, T_SV, s, b->sv, b->nsv);
        else
            at += list_in(d, at, T_SQ, s, b->sq, b->nsq);
    }
    return at - start;
}

static int pond_in(Deck *d, int at, const Net *n, const Style *s, const Block *b)
{
    int lines;
    line_name(insert(d, at, T_KK), (const unsigned char *)"LAKE", between(1, 4), 5);
    lines = 1 + pond_records_in(d, at + 1, n, s, b);
    touched = &d->l[at];
    return lines;
}

/* A table of two to six rows that keeps the rules, and far from the limits. */
static void some_table(const Net *n, Block *b)
{
    int k, rows = between(2, 6), most = n->m * 1000;   /* an outflow of 14,520 cfs at most */
    b->nsv = b->nsq = rows;
    b->sv[0] = b->sq[0] = 0;
    for (k = 1; k < rows; k++) {
        b->sv[k] = b->sv[k - 1] + (pct(30) ? 1 : between(1, lesser(most, 200000)));
        b->sq[k] = between(b->sq[k - 1], pond_most_out(n->m, b->sv[k]));
    }
}

static void broken_table(const Net *n, Block *b)
{
    some_table(n, b);
    pond_break(n->m, b, rnd(BREAKS));
}

/* A pond with nothing held, its table broken or not. */
int first_pond(Deck *d, int at, const Net *n, const Style *s)
{
    Block b;
    if (pct(50))
        some_table(n, &b);
    else
        broken_table(n, &b);
    return pond_in(d, at, n, s, &b);
}

/* An inflow of whole hundredths in one interval alone. */
static int wave_in(Deck *d, int at, const Style *s, int interval, int q)
{
    int v[LIMIT_NQ] = { 0 };
    v[interval] = q;
    line_name(insert(d, at, T_KK), (const unsigned char *)"WAVE", 4, 5);
    return 1 + list_in(d, at + 1, T_QI, s, v, interval + 1);
}

/* Joins what was put in to what is held before it. */
static int join_in(Deck *d, int at, const Style *s)
{
    return block_in(d, at, T_HC, s, "2", "", "");
}

static int blocks_of(const Deck *d)
{
    int i, kk = 0, zz = last_line_of_deck(d);
    for (i = 0; i < zz; i++)
        kk += d->l[i].tag == T_KK;
    return kk;
}

/* ---- 6 and 7: the fields of RS ---- */

int damage6_pond(Deck *d, const Style *s)
{
    static const char *const bad[] = { "1.5", "0.5", "X", "1-", "STOR", ".", "1.2", "0000000001", "--1", "1E0", "0.10" };
    int at = find_tag(d, T_RS);
    if (at < 0)
        return 0;
    if (pct(25) && !damage7_pond(d, s))            /* and what would be 7 */
        return 0;
    Line *l = &d->l[at];
    const char *unnamed;
    switch (rnd(3)) {
    case 0: return set_field(l, s, 0, bad[rnd(COUNT(bad))]);
    case 1: return set_field(l, s, 2, bad[rnd(COUNT(bad))]);
    default:
        unnamed = pct(50) ? "0" : pct(50) ? "1" : "X";
        return set_field(l, s, between(3, pct(70) ? 3 : 9), unnamed);
    }
}

int damage7_pond(Deck *d, const Style *s)
{
    static const char *const steps[] = { "0", "2", "-1", "+10", "50", "-0", "999999", "0.0", "2.000", "10.0" };
    static const char *const start[] = { "1", "-1", "+2.", "100", "-100", "1.0", "-1.00", "10.00" };
    static const char *const words[] = { "STO", "STORE", "STOR1", "STORAGE", "FLOW", "ELEV", "1", "0", "STOR.", "-STOR", "ROTS", "'STOR'", "STORSTOR" };
    static const char *const small[] = { "stor", "Stor", "STOr", "sTOR" };
    static const char *const split[] = { "ST OR", "S TOR", "STOR 0", "STOR  R" };
    static const char *const large[] = { "RESERVOIR", "STORAGEVOLUME", "STORSTORS" };
    static const char *const storage[] = { "100000", "-.01", "-1", "999999", "-.0100" };
    static const char *const outflow[] = { "100001", "-.01", "-5", "999999", "-5.000" };
    int at = find_tag(d, T_RS), list = find_tag(d, T_SV), other = find_tag(d, T_SQ), k;
    if (at < 0 || list < 0 || other < 0)
        return 0;
    Line *l = &d->l[at];
    switch (rnd(12)) {
    case 0: return set_field(l, s, 0, steps[rnd(COUNT(steps))]);
    case 1: return set_field(l, s, 2, start[rnd(COUNT(start))]);
    case 2: return set_field(l, s, 0, "");
    case 3: return set_field(l, s, 1, "");
    case 4: return set_field(l, s, 1, small[rnd(COUNT(small))]);
    case 5: case 6: case 7:                        /* what one form alone can hold */
        return set_field(l, s, 1, l->form == FIXED ? split[rnd(COUNT(split))] : large[rnd(COUNT(large))]);
    case 8: k = rnd(d->l[list].nf); return set_field(&d->l[list], s, k, storage[rnd(COUNT(storage))]);
    case 9: k = rnd(d->l[other].nf); return set_field(&d->l[other], s, k, outflow[rnd(COUNT(outflow))]);
    default: return set_field(l, s, 1, words[rnd(COUNT(words))]);
    }
}

/* ---- 9 ---- */

/* A block with some of a pond's records, or all of them and another one. */
int damage9_pond(Deck *d, const Net *n, const Style *s)
{
    static const int records[] = { T_RS, T_SV, T_SQ }, others[] = { T_BA, T_PB, T_PI, T_LU, T_UI, T_QI, T_HC, T_RM };
    int at = boundary(d, 1), part = pct(50) ? 7 : between(1, 6), k;
    if (at < 0)
        return 0;
    plain_record(insert(d, at++, T_KK), s, n);
    if (part == 7)
        plain_record(insert(d, at++, others[rnd(COUNT(others))]), s, n);
    for (k = 0; k < 3; k++)
        if (part >> k & 1)
            plain_record(insert(d, at++ - (part == 7 ? rnd(2) : 0), records[k]), s, n);
    return 1;
}

/* ---- 19 ---- */

/* The pond of the network whose records these lines are, or NULL. */
static const Block *pond_at(const Deck *d, const Net *n, int at)
{
    int blk = at < 0 ? -1 : d->l[at].blk;
    if (blk < 0 || blk >= n->nb || n->b[n->order[blk]].kind != 5)
        return NULL;
    return &n->b[n->order[blk]];
}

/* Gives a pond that is there another table. */
static void retable(Deck *d, int at, const Style *s, const Block *b)
{
    int kk, end = closing_line(d, at), i;
    for (kk = at; kk > 0 && d->l[kk].tag != T_KK; kk--)
        ;
    for (i = end - 1; i > kk; i--)
        if (d->l[i].tag == T_SV || d->l[i].tag == T_SQ) {
            drop(d, i, 1);
            end--;
        }
    at = between(kk + 1, end);
    i = list_in(d, at, T_SV, s, b->sv, b->nsv);
    list_in(d, pct(50) ? at : at + i, T_SQ, s, b->sq, b->nsq);
    touched = &d->l[at];
}

static int break_pond(Deck *d, const Net *n, const Style *s)
{
    int at = find_tag(d, T_RS);
    const Block *pond = pond_at(d, n, at);
    if (pond == NULL)
        return 0;
    Block b = *pond;
    pond_break(n->m, &b, rnd(BREAKS));
    retable(d, at, s, &b);
    return 1;
}

/* The last row lacks nothing, or as little as can be. */
static void at_the_edge(const Net *n, Block *b)
{
    some_table(n, b);
    pond_break(n->m, b, 11);
    if (pct(50))
        b->sq[b->nsq - 1]--;
}

int damage19(Deck *d, const Net *n, const Style *s)
{
    int zz = last_line_of_deck(d), kk = blocks_of(d), at = boundary(d, 0), i;
    Block b;
    if (kk >= 150 && kk < LIMIT_BLOCKS && pct(80)) {   /* the 200th block, closed by the 201st KK */
        zz += reaches_in(d, zz, n, s, LIMIT_BLOCKS - 1 - kk);
        broken_table(n, &b);
        zz += pond_in(d, zz, n, s, &b);
        plain_record(insert(d, zz, T_KK), s, n);
        return 1;
    }
    switch (rnd(16)) {
    case 0: case 1: case 2: case 3: case 4: case 5: case 6: case 7:
        return break_pond(d, n, s);
    case 8:                                        /* where something is held */
        if (at < 0) return 0;
        broken_table(n, &b);
        pond_in(d, at, n, s, &b);
        return 1;
    case 9:                                        /* the last, where 15 is met too */
        zz += block_in(d, zz, T_QI, s, "1", "", "");
        broken_table(n, &b);
        pond_in(d, zz, n, s, &b);
        return 1;
    case 10:                                       /* nothing held: 10 */
        at = first_tag(d, T_KK);
        if (at < 0) return 0;
        broken_table(n, &b);
        pond_in(d, at, n, s, &b);
        return 1;
    case 11:                                       /* a flow over the limit that would come in: 13, at an earlier line */
        if (at < 0) return 0;
        at += storm_block(d, at, n, s, "20", "", "5001", "");
        broken_table(n, &b);
        pond_in(d, at, n, s, &b);
        return 1;
    case 12:                                       /* the set is wrong as well: 9 */
        if (at < 0) return 0;
        broken_table(n, &b);
        i = pond_in(d, at, n, s, &b);
        plain_record(insert(d, at + i, pct(50) ? T_BA : pct(50) ? T_RM : T_QI), s, n);
        return 1;
    case 13:                                       /* too low as well: 19 comes before 20 */
        if (at < 0) return 0;
        at += wave_in(d, at, s, n->nq - 1, 9000000);
        b.nsv = b.nsq = 2;
        b.sv[0] = b.sq[0] = 0;
        b.sv[1] = 1;
        b.sq[1] = pond_most_out(n->m, 1) + 1;
        pond_in(d, at, n, s, &b);
        return 1;
    default:
        if (at < 0) return 0;
        at_the_edge(n, &b);
        pond_in(d, at, n, s, &b);
        return 1;
    }
}

/* ---- 20 ---- */

enum { TO_THE_LAST, BY_A_UNIT, BY_LEAST_ROW, BY_A_HUNDREDTH, BY_MUCH, SPILLS };

/* Runoff of one flow unit in an interval, of a storm whose second share is lost
   with all but a unit of the first, and a confluence with what stands before. */
static int unit_in(Deck *d, int at, const Net *n, const Style *s, int interval)
{
    int loss = n->m >= 30 ? 1 : (30 + n->m - 1) / n->m;   /* ten-thousandths an hour: 30 units and more */
    int first = n->m * loss + 1, total = (first + 59) / 60, start = at, i;
    int rest = 60 * total - first, v[LIMIT_NQ + 1] = { 0 };
    char a[16];
    Line *l;
    if (rest > 0 && interval + 1 >= n->nq)
        interval--;
    line_name(insert(d, at++, T_KK), (const unsigned char *)"DROP", 4, 5);
    plain_record(insert(d, at++, T_BA), s, n);
    number_write(a, total, 4, 6, 0);
    put(insert(d, at++, T_PB), s, 1, a, "", "");
    number_write(a, loss, 4, 8, 0);
    put(insert(d, at++, T_LU), s, 2, "", a, "");
    put(insert(d, at++, T_UI), s, 1, ".01", "", "");
    v[interval] = first;
    v[interval + 1] = rest;
    for (i = 0; i < interval + 1 + (rest > 0); i += l->nf) {
        int k, c = lesser(10, interval + 1 + (rest > 0) - i);
        l = insert(d, at++, T_PI);
        for (k = 0; k < c; k++)
            number_write(l->f[k], v[i + k], 4, 6, 0);
        l->nf = c;
        line_compose(l, s);
    }
    return at - start + join_in(d, at, s);
}

/* A row a little lower than the even one: by the common divisor of 1,452 and M. */
static void least_lower(const Net *n, int64_t sum, int *v, int *q)
{
    int j, part = n->m, rest = 1452;
    while (rest != 0) {
        int t = part % rest;
        part = rest;
        rest = t;
    }
    for (j = 0; j < n->m && *v - j > 0; j++) {
        int64_t left = n->m * sum - part - (int64_t)1452 * (*v - j);
        if (left >= 0 && left % n->m == 0 && left / n->m <= pond_most_out(n->m, *v - j)) {
            *v -= j;
            *q = (int)(left / n->m);
            return;
        }
    }
}

/* A wave into a pond that it fills to its last row, or above it by one amount
   or another.  The lines it took; 0 where there is no such pond. */
static int spill_in(Deck *d, int at, const Net *n, const Style *s, int how)
{
    int t = pct(40) ? n->nq - 1 : between(1, n->nq - 1), sum = between(2904, pct(50) ? 20000 : LIMIT_QI), start = at;
    Block b;
    b.nsv = b.nsq = 2;
    b.sv[0] = b.sq[0] = 0;
    if (n->nq < 2 || !pond_even_row(n->m, sum, &b.sv[1], &b.sq[1]))
        return 0;
    if (how == BY_LEAST_ROW) least_lower(n, sum, &b.sv[1], &b.sq[1]);
    if (how == BY_A_HUNDREDTH && b.sq[1] > 0) b.sq[1]--;
    if (how == BY_MUCH) {
        b.sv[1] = between(1, b.sv[1]);
        b.sq[1] = lesser(b.sq[1], pond_most_out(n->m, b.sv[1]));
    }
    at += wave_in(d, at, s, t, sum);
    if (how == BY_A_UNIT)
        at += unit_in(d, at, n, s, t);
    at += pond_in(d, at, n, s, &b);
    return at - start;
}

/* A pond that ratios above this one pass, and this one fills to its last row:
   a hundred inches on one unit ordinate, which makes whole hundredths. */
static int pond_gate(Deck *d, int at, const Net *n, const Style *s, int ratio)
{
    int low = 2904 / ratio + 1, high = lesser(LIMIT_QI / top_ratio(n), 99999), start = at;   /* six bytes, as field 1 has */
    char unit[16];
    Block b;
    if (n->nq < 2 || low > high)
        return 0;
    low = pct(50) ? between(low, lesser(high, 4 * low)) : between(low, high);
    b.nsv = b.nsq = 2;
    b.sv[0] = b.sq[0] = 0;
    if (!pond_even_row(n->m, (int64_t)low * ratio, &b.sv[1], &b.sq[1]))
        return 0;
    number_write(unit, low, 2, 6, 0);
    at += storm_block(d, at, n, s, "1", "", unit, "");
    put(insert(d, at++, T_PB), s, 1, "100", "", "");
    at += pond_in(d, at, n, s, &b);
    return at - start;
}

/* any ratio but the greatest; 0 when they are all alike */
static int lower_ratio(const Net *n)
{
    int tries, top = top_ratio(n);
    for (tries = 0; tries < 20 && n->njr > 1; tries++) {
        int r = n->jr[rnd(n->njr)];
        if (r < top) return r;
    }
    return 0;
}

/* 20 under some ratios alone, or 20 and 13 at different lines. */
static int damage20_ratios(Deck *d, const Net *n, const Style *s)
{
    int ratio = lower_ratio(n), zz = last_line_of_deck(d), kk = blocks_of(d), at = boundary(d, 0), lines;
    if (ratio == 0 || first_tag(d, T_JR) < 0 || at < 0 || n->nq < 2)
        return 0;
    if (kk >= 150) {                               /* closed by a 201st KK: 14 under the others */
        if (kk > LIMIT_BLOCKS - 2) return 0;
        zz += reaches_in(d, zz, n, s, LIMIT_BLOCKS - 2 - kk);
        lines = pond_gate(d, zz, n, s, ratio);
        if (lines > 0) plain_record(insert(d, zz + lines, T_KK), s, n);
        return lines > 0;
    }
    switch (rnd(7)) {
    case 0:                                        /* closed by ZZ: 15 under the others */
        return pond_gate(d, zz, n, s, ratio) > 0;
    case 1: case 2:                                /* 13 under the greatest at an earlier line, or under this one at a later */
        lines = ratio > 1 ? pond_gate(d, at, n, s, ratio) : 0;
        if (lines == 0) return 0;
        if (pct(40)) gate(d, at, n, s, top_ratio(n));
        else gate(d, at + lines, n, s, ratio);
        return 1;
    case 3:                                        /* refused by another fault behind it, which the others come to */
        lines = pond_gate(d, at, n, s, ratio);
        if (lines == 0) return 0;
        line_text(insert(d, at + lines + 1, T_OTHER), pct(50) ? "XX" : "RS 2,STOR");
        return 1;
    default:                                       /* joined to the rest: accepted under the others */
        lines = pond_gate(d, at, n, s, ratio);
        if (lines == 0) return 0;
        join_in(d, at + lines, s);
        return 1;
    }
}

int damage20(Deck *d, const Net *n, const Style *s)
{
    int zz = last_line_of_deck(d), kk = blocks_of(d), at = boundary(d, 0), rs = find_tag(d, T_RS), lines;
    const Block *pond = pond_at(d, n, rs);
    Block b;
    if (n->njr > 1 && pct(60))
        return damage20_ratios(d, n, s);
    if (kk >= 150 && pct(80)) {                    /* closed by the 201st KK */
        if (kk > LIMIT_BLOCKS - 3) return 0;
        zz += reaches_in(d, zz, n, s, LIMIT_BLOCKS - 2 - kk);
        lines = spill_in(d, zz, n, s, BY_LEAST_ROW);
        if (lines > 0) plain_record(insert(d, zz + lines, T_KK), s, n);
        return lines > 0;
    }
    switch (rnd(10)) {
    case 0: case 1:                                /* fewer rows in a pond that is there */
        if (pond == NULL || pond->nsv < 3) return 0;
        b = *pond;
        b.nsv = b.nsq = between(2, pond->nsv - 1);
        retable(d, rs, s, &b);
        return 1;
    case 2: case 3:                                /* hardly any room in it */
        if (pond == NULL) return 0;
        b = *pond;
        b.nsv = b.nsq = 2;
        b.sv[1] = between(1, 50);
        b.sq[1] = rnd(pond_most_out(n->m, b.sv[1]) + 1);
        retable(d, rs, s, &b);
        return 1;
    case 4:                                        /* closed by ZZ, where 15 is met too */
        return spill_in(d, zz, n, s, between(BY_A_UNIT, SPILLS - 1)) > 0;
    default:
        if (at < 0) return 0;
        lines = spill_in(d, at, n, s, rnd(SPILLS));
        if (lines > 0 && pct(80))
            join_in(d, at + lines, s);
        return lines > 0;
    }
}
