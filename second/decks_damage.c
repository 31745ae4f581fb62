/* Damages aimed at one refusal each (document 01, the table of refusals, and
   document 02, CR 1, CR 3, CR 6 and CR 7; 19 and 20 have a file of their own,
   and so have zeros at the end of numbers), blind mutations, and decks that
   hardly are decks. */
#include <stdio.h>
#include <string.h>
#include "decks_damage.h"

/* ---- places in a deck ---- */

Line *touched;

int find_tag(const Deck *d, int tag)
{
    int i, c = 0;
    for (i = 0; i < d->nl; i++)
        c += d->l[i].tag == tag;
    if (c == 0)
        return -1;
    c = rnd(c);
    for (i = 0; i < d->nl; i++)
        if (d->l[i].tag == tag && c-- == 0)
            return i;
    return -1;
}

int first_tag(const Deck *d, int tag)
{
    int i;
    for (i = 0; i < d->nl; i++)
        if (d->l[i].tag == tag)
            return i;
    return -1;
}

Line *insert(Deck *d, int at, int tag)
{
    Line *l = &d->l[at];
    int form = at < d->nl ? l->form : d->nl > 0 ? d->l[d->nl - 1].form : FIXED;
    int blk = at > 0 ? d->l[at - 1].blk : -1;
    if (d->nl >= MAX_LINES - 2)
        d->nl--;
    memmove(l + 1, l, (size_t)(d->nl - at) * sizeof *l);
    touched = l;
    d->nl++;
    l->tag = tag;
    l->form = form;
    l->blk = blk;
    l->nf = 0;
    l->len = 0;
    return l;
}

void drop(Deck *d, int at, int count)
{
    memmove(&d->l[at], &d->l[at + count], (size_t)(d->nl - at - count) * sizeof d->l[0]);
    d->nl -= count;
}

int closing_line(const Deck *d, int at)
{
    int i;
    for (i = at; i < d->nl; i++)
        if (d->l[i].tag == T_KK || d->l[i].tag == T_ZZ)
            return i;
    return d->nl;
}

int last_line_of_deck(const Deck *d)
{
    int z = first_tag(d, T_ZZ);
    return z < 0 ? d->nl : z;
}

void put(Line *l, const Style *s, int nf, const char *a, const char *b, const char *c)
{
    l->nf = nf;
    strcpy(l->f[0], a);
    strcpy(l->f[1], b);
    strcpy(l->f[2], c);
    line_compose(l, s);
}

void plain_record(Line *l, const Style *s, const Net *n)
{
    int rn, rk, rx;
    switch (l->tag) {
    case T_BA: put(l, s, 1, "1.5", "", ""); break;
    case T_PB: put(l, s, 1, "4.37", "", ""); break;
    case T_LU: put(l, s, 2, "0.5", "0.1", ""); break;
    case T_HC: put(l, s, 1, "2", "", ""); break;
    case T_RM:
        if (!rm_pick(n->m, RM_INSIDE, &rn, &rk, &rx))
            rn = rk = rx = 1;
        l->nf = 3;
        number_write(l->f[0], rn, 0, 6, 0);
        number_write(l->f[1], rk, 2, 8, 0);
        number_write(l->f[2], rx, 2, 8, 0);
        line_compose(l, s);
        break;
    case T_IT: {
        l->nf = 4;
        number_write(l->f[0], n->m, 0, 6, 0);
        l->f[1][0] = l->f[2][0] = 0;
        number_write(l->f[3], n->nq, 0, 6, 0);
        line_compose(l, s);
        break;
    }
    case T_KK: line_name(l, (const unsigned char *)"EXTRA", 5, 10); break;
    case T_JR: put(l, s, 2, "PREC", pct(50) ? "1.00" : "1.5", ""); break;
    case T_ID: line_text(l, "ID LATE"); break;
    case T_ZZ: line_text(l, "ZZ"); break;
    case T_KM: line_text(l, "KM NOTE"); break;
    case T_RS: put(l, s, pct(50) ? 2 : 3, "1", "STOR", "0"); break;
    case T_SV: put(l, s, 2, "", "100", ""); break;
    case T_SQ: put(l, s, 2, "0", "1", ""); break;
    default: put(l, s, 1, "1", "", ""); break;     /* PI, UI, QI */
    }
}

int block_in(Deck *d, int at, int tag, const Style *s, const char *a, const char *b, const char *c)
{
    Line *l = insert(d, at, T_KK);
    unsigned char name[4];
    int i, k = between(1, 4);
    for (i = 0; i < k; i++)
        name[i] = (unsigned char)between('A', 'Z');
    line_name(l, name, k, 5);
    l = insert(d, at + 1, tag);
    put(l, s, c[0] ? 3 : b[0] ? 2 : 1, a, b, c);
    return 2;
}

/* so many routings, one below another */
int reaches_in(Deck *d, int at, const Net *n, const Style *s, int blocks)
{
    int rn = 1, rk = 1, rx = 0, lines = 0;
    char a[16], b[16], c[16];
    rm_pick(n->m, RM_INSIDE, &rn, &rk, &rx);
    number_write(a, rn, 0, 6, 0);
    number_write(b, rk, 2, 6, 0);
    number_write(c, rx, 2, 6, 0);
    for (; blocks > 0; blocks--)
        lines += block_in(d, at + lines, T_RM, s, a, b, c);
    return lines;
}

int boundary(const Deck *d, int before_first)
{
    int i, c = 0, skip = before_first ? 0 : 1;
    for (i = 0; i < d->nl; i++)
        c += d->l[i].tag == T_KK || d->l[i].tag == T_ZZ;
    if (c <= skip)
        return -1;
    c = between(skip, c - 1);
    for (i = 0; i < d->nl; i++)
        if ((d->l[i].tag == T_KK || d->l[i].tag == T_ZZ) && c-- == 0)
            return i;
    return -1;
}

/* ---- 3: bytes ---- */

static int damage3(Deck *d)
{
    static const int foreign[] = { 9, 0x7F, 0x80, 0xA0, 0xFF, 0, 0x1F, 0x0B, 0x0C, 0x1A, 0xC3, 13 };
    int top = last_line_of_deck(d), at = rnd(top < d->nl ? top + 1 : d->nl), i;
    if (d->nl == 0)
        return 0;
    Line *l = &d->l[at];
    switch (rnd(8)) {
    case 0: {                                      /* 81 bytes and more */
        int to = pct(70) ? 81 : between(81, 170);
        int fill = l->tag <= T_KK || l->tag == T_ZZ || l->tag == T_KM ? 'X' : ' ';
        if (pct(50)) fill = ' ';
        for (i = l->len; i < to; i++) l->t[i] = (unsigned char)fill;
        if (l->len < to) l->len = to;
        return 1;
    }
    case 1: {                                      /* a line of blanks, 81 long */
        l = insert(d, at, T_BLANK);
        memset(l->t, ' ', 81);
        l->len = 81;
        return 1;
    }
    case 2: {                                      /* a foreign byte on a line of its own */
        l = insert(d, at, T_OTHER);
        l->len = pct(50) ? 1 : 3;
        memset(l->t, ' ', 3);
        i = rnd(l->len);
        l->t[i] = (unsigned char)foreign[rnd(COUNT(foreign) - 1)];
        return 1;
    }
    case 3:                                        /* CR CR LF, or CR at the end */
        if (l->len > 170) return 0;
        l->t[l->len++] = 13;
        if (d->eol != 1) l->t[l->len++] = 13;
        return 1;
    case 4:                                        /* a lone CR for a line's end */
        if (l->len > 100 || at + 1 >= d->nl || d->l[at + 1].len > 60) return 0;
        l->t[l->len] = 13;
        memcpy(l->t + l->len + 1, d->l[at + 1].t, (size_t)d->l[at + 1].len);
        l->len += 1 + d->l[at + 1].len;
        drop(d, at + 1, 1);
        return 1;
    case 5:
    case 6:                                        /* a byte put in */
        if (l->len > 150) return 0;
        i = rnd(l->len + 1);
        memmove(l->t + i + 1, l->t + i, (size_t)(l->len - i));
        l->t[i] = (unsigned char)foreign[rnd(COUNT(foreign))];
        l->len++;
        return 1;
    default:                                       /* a byte replaced */
        if (l->len == 0) return 0;
        i = rnd(l->len);
        l->t[i] = (unsigned char)(pct(30) ? between(0x7F, 0xFF) : foreign[rnd(COUNT(foreign))]);
        return 1;
    }
}

/* ---- 4: identifiers and controls ---- */

static int damage4(Deck *d)
{
    static const char *const odd[] = {
        "XX 1", "KO 5", "IO 1 2", "JD 1", "BF 1 2", "MA 1", "kk UP", "it 60", "zz", "K", "Z", "*", "**",
        "*FREE X", "*FREEX", "*FIXED", "*FREE,", "*free", "*Fix", "*FI", "*FR", "* FREE", "*F REE", "*LIST",
        "*DIAGRAM", "*FREE *FIX", " KK UP", " ZZ", "  ZZ", " *FIX", "K K", ",", "1", ".", "KL", "ZK", "Kk",
        "IN", "RL 0", "QO 1", "QP 1", "US 1", "UC 1", "PR 1", "PT 1", "PC .5", "rs 1,STOR", "SE 1", "SS 1", "sv 1", "S", "SL", "ST", "pb 1", "jr PREC,1", "JP 1", "J", "P", "DR", "-", "X", "KN NOTE", "/*"
    };
    int top = last_line_of_deck(d), at;
    if (d->nl == 0)
        return 0;
    at = rnd(top < d->nl ? top + 1 : d->nl);
    if (pct(50)) {
        const char *t = odd[rnd(COUNT(odd))];
        line_text(insert(d, at, T_OTHER), t);
        return 1;
    }
    Line *l = &d->l[at];
    switch (rnd(4)) {
    case 0:                                        /* small letters */
        if (l->len < 2 || l->tag == T_BLANK) return 0;
        l->t[0] = (unsigned char)(l->t[0] | 0x20);
        if (pct(50)) l->t[1] = (unsigned char)(l->t[1] | 0x20);
        return l->t[0] != '*';
    case 1:                                        /* moved one column to the right */
        if (l->len > 79 || l->tag == T_BLANK || l->len < 1) return 0;
        memmove(l->t + 1, l->t, (size_t)l->len);
        l->t[0] = ' ';
        l->len++;
        return 1;
    case 2:                                        /* another letter */
        if (l->len < 2 || l->tag == T_BLANK) return 0;
        at = rnd(2);
        l->t[at] = (unsigned char)between('A', 'Z');
        return 1;
    default: {                                     /* text after a control */
        int c = find_tag(d, T_CONTROL);
        if (c < 0) return 0;
        l = &d->l[c];
        if (l->len > 70) l->len = 70;
        l->t[l->len++] = (unsigned char)between(0x21, 0x7E);
        return 1;
    }
    }
}

/* ---- JR ---- */

/* The line of the JR.  Where there is none, one is put in behind IT: it says
   what holds without it, or another ratio.  -1: no place for it. */
static int ratio_line_of(Deck *d, const Style *s)
{
    int at = first_tag(d, T_JR), it = first_tag(d, T_IT), kk = first_tag(d, T_KK);
    if (at >= 0 || it < 0)
        return at;
    at = kk > it ? between(it + 1, kk) : it + 1;
    Line *l = insert(d, at, T_JR);
    put(l, s, pct(50) ? 2 : 3, "PREC", "1.00", "0.5");
    return at;
}

/* A JR whose fields are sound or not. */
static void any_ratio_line(Line *l, const Style *s)
{
    static const char *const bad[] = { "JR", "JR FLOW,1", "JR PREC", "JR PREC,X", "JR PREC,0", "JR PREC,10.00", "JR 1.00", "JR prec,1" };
    if (pct(60))
        put(l, s, pct(50) ? 2 : 3, "PREC", "1.00", "0.5");
    else
        line_text(l, bad[rnd(COUNT(bad))]);
}

/* 5: before IT, after the first KK, twice. */
static int misplaced_ratios(Deck *d, const Style *s)
{
    int it = first_tag(d, T_IT), kk = first_tag(d, T_KK), zz = last_line_of_deck(d), at;
    switch (rnd(4)) {
    case 0:                                        /* before IT, its own or one more */
        any_ratio_line(insert(d, rnd(it + 1), T_JR), s);
        return 1;
    case 1:                                        /* after the first KK */
        if (kk < 0 || zz <= kk) return 0;
        at = first_tag(d, T_JR);
        any_ratio_line(insert(d, between(kk + 1, zz), T_JR), s);
        if (at >= 0 && pct(50)) drop(d, at, 1);
        return 1;
    default:                                       /* twice */
        at = ratio_line_of(d, s);
        kk = first_tag(d, T_KK);
        if (at < 0 || kk < at) return 0;
        any_ratio_line(insert(d, between(at + 1, kk), T_JR), s);
        return 1;
    }
}

/* ---- 5: records out of place ---- */

/* A second RS, sound or not. */
static int second_pond(Deck *d, const Style *s, const Net *n)
{
    static const char *const bad[] = { "RS", "RS 2,STOR", "RS 1,FLOW", "RS 1.2.3", "RS 1,STOR,1", "RS 1,STOR,0,0", "RS -1", "RS X,Y,Z" };
    int at = find_tag(d, T_RS);
    if (at < 0)
        return 0;
    Line *l = insert(d, between(at + 1, closing_line(d, at)), T_RS);
    if (pct(50))
        plain_record(l, s, n);
    else
        line_text(l, bad[rnd(COUNT(bad))]);
    return 1;
}

static int damage5(Deck *d, const Net *n, const Style *s)
{
    static const int data[] = { T_BA, T_PB, T_PI, T_LU, T_UI, T_QI, T_HC, T_RM, T_RS, T_SV, T_SQ };
    static const int once[] = { T_BA, T_PB, T_PB, T_LU, T_HC, T_RM, T_RS, T_RS };
    int it = first_tag(d, T_IT), kk = first_tag(d, T_KK), zz = last_line_of_deck(d), at, i;
    if (it < 0)
        return 0;
    Line *l;
    if (pct(25))
        return misplaced_ratios(d, s);
    if (pct(15))
        return second_pond(d, s, n);
    switch (rnd(10)) {
    case 0:                                        /* ID after IT */
        l = insert(d, between(it + 1, zz), T_ID);
        line_text(l, pct(50) ? "ID" : "ID TOO LATE");
        return 1;
    case 1:                                        /* a second IT */
        l = insert(d, between(it + 1, zz), T_IT);
        plain_record(l, s, n);
        return 1;
    case 2:                                        /* KK before IT */
        plain_record(insert(d, rnd(it + 1), T_KK), s, n);
        return 1;
    case 3:                                        /* data before IT */
        at = rnd(it + 1);
        plain_record(insert(d, at, data[rnd(COUNT(data))]), s, n);
        return 1;
    case 4:                                        /* data between IT and the first KK */
        if (kk < it) return 0;
        at = between(it + 1, kk);
        plain_record(insert(d, at, data[rnd(COUNT(data))]), s, n);
        return 1;
    case 5:                                        /* ZZ before IT */
        plain_record(insert(d, rnd(it + 1), T_ZZ), s, n);
        return 1;
    case 6:                                        /* no IT */
        drop(d, it, 1);
        return 1;
    default:                                       /* a second BA, PB, LU, HC, RM or RS */
        at = find_tag(d, once[rnd(COUNT(once))]);
        if (at < 0) return 0;
        i = closing_line(d, at);
        {
            int tag = d->l[at].tag;
            Line copy = d->l[at];
            l = insert(d, between(at + 1, i), tag);
            if (pct(50) && l->form == copy.form) {
                l->len = copy.len;
                memcpy(l->t, copy.t, sizeof copy.t);
            } else {
                plain_record(l, s, n);
                if (pct(30)) {                     /* 5 comes before what its fields would meet */
                    char t[16];
                    snprintf(t, sizeof t, "%s %s", tag_ident(tag), pct(50) ? "1.2.3" : "-1");
                    line_text(l, t);
                }
            }
        }
        return 1;
    }
}

/* ---- 6: fields and names ---- */

/* More places than the field has, and not by zeros at the end */
static const struct { int tag, field; const char *text; } too_fine[] = {
    { T_IT, 0, "60.5" }, { T_IT, 0, "60.50" }, { T_IT, 0, "1.01" }, { T_IT, 3, "4.5" }, { T_IT, 3, "12.050" }, { T_IT, 3, "0.5" },
    { T_JR, -1, "1.501" }, { T_JR, -1, "0.005" }, { T_JR, -1, "9.995" }, { T_JR, -1, "1.0010" },
    { T_BA, 0, "1.501" }, { T_BA, 0, ".001" }, { T_BA, 0, "1.001" }, { T_BA, 0, "1.0010" },
    { T_PB, 0, ".00001" }, { T_PB, 0, "4.37001" }, { T_PB, 0, ".10001" }, { T_PB, 0, ".00005" }, { T_PB, 0, "1.000010" },
    { T_PI, -1, "0.50001" }, { T_PI, -1, ".00001" }, { T_PI, -1, ".000010" }, { T_PI, -1, "1.000050" },
    { T_LU, 0, ".10001" }, { T_LU, 0, ".00001" }, { T_LU, 1, "0.10001" }, { T_LU, 1, "0.000010" }, { T_LU, 2, "0.001" }, { T_LU, 2, ".0010" },
    { T_UI, -1, "1.001" }, { T_UI, -1, "0.001" }, { T_UI, -1, "1.0050" }, { T_QI, -1, "1.001" }, { T_QI, -1, ".125" }, { T_QI, -1, "0.0010" },
    { T_HC, 0, "2.5" }, { T_HC, 0, "2.01" }, { T_HC, 0, "2.50" }, { T_RM, 0, "1.5" }, { T_RM, 0, "1.50" }, { T_RM, 0, "1.010" }, { T_RM, 1, "1.001" },
    { T_RM, 1, "1.0010" }, { T_RM, 2, ".201" }, { T_RM, 2, "0.2001" }, { T_RM, 2, ".0010" },
    { T_RS, 0, "1.5" }, { T_RS, 0, "1.01" }, { T_RS, 0, "1.50" }, { T_RS, 2, "0.5" }, { T_RS, 2, ".01" }, { T_RS, 2, ".50" },
    { T_SV, -1, "1.001" }, { T_SV, -1, ".001" }, { T_SV, -1, "0.0010" }, { T_SQ, -1, "1.001" }, { T_SQ, -1, ".005" }, { T_SQ, -1, "1.0050" }
};

static const char *const misshapen[] = {
    "1.2.3", "1-", "+-1", "--1", "1E3", "1e0", ".", "+", "-", "+.", "-.", "1O", "0X1", "1'", "1/2", "$1",
    "1_0", "1.0.", "..1", "#", "A", "1+", "NAN", "INF", "1.-", "1+1", "*", "(1)", "1;", "one", "1:", "\"1\"",
    "++1", "1.+", "-1-", "0000000001", "1234567890", "0.000000000", "0000000000", "000000000.1", "+0000000000"
};

static const char *const misshapen_fixed[] = { "1 2", "1,2", "- 1", ". 5", "1,", ",", ",1", "1 .", "+ 1", "1 0" };

/* the first field that is not named, counted from 0 */
static int named_fields(int tag)
{
    switch (tag) {
    case T_IT: return 4;
    case T_BA: case T_PB: case T_HC: return 1;
    case T_LU: case T_RM: case T_RS: return 3;
    default: return 10;
    }
}

int set_field(Line *l, const Style *s, int k, const char *text)
{
    Line old = *l;
    while (l->nf <= k)
        l->f[l->nf++][0] = 0;
    strcpy(l->f[k], text);
    touched = l;
    if (line_compose(l, s))
        return 1;
    *l = old;
    return 0;
}

/* 6 on JR: the word, or a ratio that is no number of two places. */
static int bad_ratios(Deck *d, const Style *s)
{
    static const char *const words[] = {
        "", "prec", "Prec", "FLOW", "PRECX", "PREC1", "PRE", "1", "1.00", "0", "PREC.", "RAIN", "CERP", "-PREC", "'PREC'"
    };
    static const char *const numbers[] = {
        "1.501", "9.995", "9.999", "0.005", ".0010", "1.500000000", "X", "1X", "PREC", "1.5.0", "1,5", "0000000001", "1234567890", "0.000000001", "1-"
    };
    int at = ratio_line_of(d, s), i, k;
    if (at < 0)
        return 0;
    Line *l = &d->l[at];
    k = between(1, l->nf > 1 ? l->nf - 1 : 1);
    switch (rnd(7)) {
    case 0: case 1:
        return set_field(l, s, 0, words[rnd(COUNT(words))]);
    case 2:                                        /* the word behind a ratio */
        if (!set_field(l, s, 0, pct(50) ? "" : l->f[1])) return 0;
        return set_field(l, s, 1, "PREC");
    case 3: case 4: {
        const char *t = numbers[rnd(COUNT(numbers))];
        if (l->form == FREE && strchr(t, ',')) return 0;
        return set_field(l, s, k, t);
    }
    case 5: {                                      /* a tenth ratio */
        Line old = *l;
        if (l->form != FREE) return 0;
        for (i = 1; i < 11; i++)
            strcpy(l->f[i], i < 10 && pct(10) ? "" : pct(50) ? "1" : ".5");
        l->nf = 11;
        touched = l;
        if (line_compose(l, s)) return 1;
        *l = old;
        return 0;
    }
    default:                                       /* the word and a ratio */
        if (!set_field(l, s, k, pct(50) ? "10" : "0")) return 0;
        return set_field(l, s, 0, words[rnd(COUNT(words))]);
    }
}

/* 7 on JR: no ratio, or one over its limits. */
static int ratios_outside(Deck *d, const Style *s)
{
    static const char *const numbers[] = {
        "0", "0.00", "0.000", "-0", "-0.000", "", "10", "10.00", "10.0000", "-1", "-.01", "-9.99", "99.99", "+10.", "999", "9999999.99", "999999999"
    };
    int at = ratio_line_of(d, s), k;
    if (at < 0)
        return 0;
    Line *l = &d->l[at];
    if (pct(25)) {                                 /* the word alone */
        l->nf = 1;
        touched = l;
        return line_compose(l, s);
    }
    if (pct(30)) {                                 /* a blank between ratios */
        k = between(1, 8);
        return set_field(l, s, k + 1, "1.25") && set_field(l, s, k, "");
    }
    k = pct(80) && l->nf > 1 ? between(1, l->nf - 1) : between(1, 9);
    return set_field(l, s, k, numbers[rnd(COUNT(numbers))]);
}

static int too_many_places(Deck *d, const Style *s)
{
    int w = rnd(COUNT(too_fine)), at = find_tag(d, too_fine[w].tag), k = too_fine[w].field;
    if (at < 0)
        return 0;
    Line *l = &d->l[at];
    if (k < 0) k = l->nf > 0 ? rnd(l->nf) : rnd(10);
    if (k == 0 && l->tag == T_JR) k = 1;
    return set_field(l, s, k, too_fine[w].text);
}

static int damage6(Deck *d, const Style *s)
{
    static const int data[] = { T_IT, T_BA, T_PB, T_PI, T_LU, T_UI, T_QI, T_HC, T_RM, T_RS, T_SV, T_SQ };
    static const int scant[] = { T_IT, T_BA, T_PB, T_PB, T_LU, T_HC, T_RM, T_RS, T_RS };
    int at, k, i;
    Line *l;
    if (pct(45))
        return pct(30) ? damage6_zeros(d, s) : too_many_places(d, s);
    if (pct(22))
        return bad_ratios(d, s);
    if (pct(15))
        return damage6_pond(d, s);
    switch (rnd(6)) {
    case 0:
    case 1:                                        /* a misshapen number */
        at = find_tag(d, data[rnd(COUNT(data))]);
        if (at < 0) return 0;
        l = &d->l[at];
        k = rnd(named_fields(l->tag));
        if (l->tag == T_IT) k = pct(50) ? 0 : 3;
        if (l->tag == T_RS && pct(80)) k = pct(50) ? 0 : 2;    /* any word of its field 2 is 7 */
        if (named_fields(l->tag) == 10 && l->nf > 0 && pct(80)) k = rnd(l->nf);
        if (l->form == FIXED && pct(40))
            return set_field(l, s, k, misshapen_fixed[rnd(COUNT(misshapen_fixed))]);
        return set_field(l, s, k, misshapen[rnd(COUNT(misshapen))]);
    case 2:                                        /* a field that is not named */
        at = find_tag(d, scant[rnd(COUNT(scant))]);
        if (at < 0) return 0;
        l = &d->l[at];
        k = between(named_fields(l->tag), 9);
        if (pct(40)) k = named_fields(l->tag);
        if (l->tag == T_PB && pct(30))             /* as if a storm had a name */
            return set_field(l, s, 1, pct(50) ? "TYPE2" : "STORM.10");
        return set_field(l, s, k, pct(40) ? "0" : pct(50) ? "1" : pct(50) ? "X" : ".");
    case 3:                                        /* eleven fields */
        at = find_tag(d, data[rnd(COUNT(data))]);
        if (at < 0) return 0;
        l = &d->l[at];
        if (l->form != FREE) return 0;
        if (named_fields(l->tag) == 10 && pct(70)) {
            Line old = *l;
            for (i = 0; i < 11; i++)
                strcpy(l->f[i], pct(70) || i == 10 ? (pct(50) ? "0" : "1") : "");
            l->nf = 11;
            if (line_compose(l, s)) return 1;
            *l = old;
            return 0;
        }
        return set_field(l, s, 10, pct(50) ? "0" : "1");
    default:                                       /* bad names */
        at = find_tag(d, T_KK);
        if (at < 0) return 0;
        l = &d->l[at];
        if (l->form == FREE) {
            static const char *const bad[] = {
                "KK", "KK     ", "KK,UP", "KK ,", "KK , UP", "KK SEVENCH", "KKSEVENCH", "KK ABCDEFG,", "KK,", "KK ABCDEFGHIJKL TEXT",
                "KK   ,A"
            };
            line_text(l, bad[rnd(COUNT(bad))]);
        } else {
            static const char *const bad[] = {
                "KK", "KK   ", "KK A B", "KKA B", "KK UP RIVER", "KK      UP", "KKA    B", "KK A B  TEXT", "KKABCD E", "KK , ,", "KK       NAME"
            };
            line_text(l, bad[rnd(COUNT(bad))]);
        }
        return 1;
    }
}

/* ---- 7: limits ---- */

static const struct { int tag, field; const char *text; } outside[] = {
    { T_IT, 0, "0" }, { T_IT, 0, "1441" }, { T_IT, 0, "-1" }, { T_IT, 0, "" }, { T_IT, 0, "999999" }, { T_IT, 0, "-60" },
    { T_IT, 3, "0" }, { T_IT, 3, "301" }, { T_IT, 3, "" }, { T_IT, 3, "-4" }, { T_IT, 3, "+301." }, { T_IT, 3, "999999" },
    { T_IT, 0, "999999999" }, { T_IT, 3, "999999999" },
    { T_BA, 0, "0" }, { T_BA, 0, "0.00" }, { T_BA, 0, "" }, { T_BA, 0, "10000" }, { T_BA, 0, "-.01" }, { T_BA, 0, "-1" },
    { T_BA, 0, "999999" }, { T_BA, 0, "9999999.99" }, { T_BA, 0, "10000.00" },
    { T_PB, 0, "100.0001" }, { T_PB, 0, "100.01" }, { T_PB, 0, "101" }, { T_PB, 0, "-.0001" }, { T_PB, 0, "-1" },
    { T_PB, 0, "99999.9999" }, { T_PB, 0, "999999" },
    { T_PI, -1, "20.0001" }, { T_PI, -1, "-.0001" }, { T_PI, -1, "21" }, { T_PI, -1, "-20" }, { T_PI, -1, "99999.9999" },
    { T_LU, 0, "20.0001" }, { T_LU, 0, "20.1" }, { T_LU, 0, "-.0001" }, { T_LU, 0, "999999999" },
    { T_LU, 1, "20.0001" }, { T_LU, 1, "-1" }, { T_LU, 1, "100" }, { T_LU, 1, "-.0001" },
    { T_LU, 2, ".01" }, { T_LU, 2, "1" }, { T_LU, 2, "100" }, { T_LU, 2, "-.01" }, { T_LU, 2, "-1" },
    { T_UI, -1, "100000" }, { T_UI, -1, "-.01" }, { T_UI, -1, "100000.00" }, { T_UI, -1, "-5" }, { T_UI, -1, "999999999" },
    { T_QI, -1, "100000.01" }, { T_QI, -1, "100001" }, { T_QI, -1, "-.01" }, { T_QI, -1, "-1" }, { T_QI, -1, "9999999.99" },
    { T_HC, 0, "1" }, { T_HC, 0, "6" }, { T_HC, 0, "0" }, { T_HC, 0, "" }, { T_HC, 0, "-2" }, { T_HC, 0, "999999999" },
    { T_RM, 0, "0" }, { T_RM, 0, "51" }, { T_RM, 0, "" }, { T_RM, 0, "-1" }, { T_RM, 0, "999999" },
    { T_RM, 1, "0" }, { T_RM, 1, "24.01" }, { T_RM, 1, "" }, { T_RM, 1, "-1.00" }, { T_RM, 1, "25" },
    { T_RM, 2, ".51" }, { T_RM, 2, "1" }, { T_RM, 2, "-.01" }, { T_RM, 2, "50" }, { T_RM, 2, "0.60" },
    { T_RS, 0, "0" }, { T_RS, 0, "2" }, { T_RS, 0, "" }, { T_RS, 0, "-1" }, { T_RS, 0, "+10" }, { T_RS, 0, "999999" },
    { T_RS, 2, "1" }, { T_RS, 2, "-1" }, { T_RS, 2, "+2." }, { T_RS, 2, "999999" },
    { T_SV, -1, "100000" }, { T_SV, -1, "-.01" }, { T_SV, -1, "-1" }, { T_SV, -1, "100000.0" }, { T_SV, -1, "999999999" },
    { T_SQ, -1, "100000.01" }, { T_SQ, -1, "100001" }, { T_SQ, -1, "-.01" }, { T_SQ, -1, "-5" }, { T_SQ, -1, "9999999.99" }
};

static int damage7(Deck *d, const Style *s)
{
    int w = rnd(COUNT(outside));
    int at = find_tag(d, outside[w].tag);
    if (pct(45))
        return damage7_zeros(d, s);
    if (pct(20))
        return ratios_outside(d, s);
    if (pct(35))
        return damage7_pond(d, s);
    if (at < 0)
        return 0;
    Line *l = &d->l[at];
    int k = outside[w].field;
    if (k < 0)
        k = l->nf > 0 && pct(90) ? rnd(l->nf) : rnd(10);
    return set_field(l, s, k, outside[w].text);
}

/* ---- 8: too many values ---- */

static int damage8(Deck *d, const Net *n, const Style *s)
{
    static const int lists[] = { T_PI, T_UI, T_QI, T_SV, T_SQ };
    int tag = lists[rnd(5)], at = find_tag(d, tag), have = 0, i, k;
    int top = tag == T_UI ? LIMIT_UNITS : tag >= T_SV ? LIMIT_ROWS : n->nq;
    if (at < 0 && pct(50))
        at = find_tag(d, T_HC);                    /* even in a block that holds no list */
    if (at < 0)
        return 0;
    if (top > 60 && !pct(tag == T_UI ? 60 : 25))
        return 0;
    int end = closing_line(d, at);
    for (i = at; i > 0 && d->l[i].tag != T_KK; i--)
        ;
    for (i = i + 1; i < end; i++)
        if (d->l[i].tag == tag)
            have += d->l[i].nf;
    at = between(at + 1, end);
    int goal = top + 1 + (pct(30) ? rnd(25) : 0);
    int single = tag >= T_SV && pct(30);           /* one value a line */
    while (have < goal) {
        Line *l = insert(d, at, tag);
        int c = goal - have < 10 ? goal - have : between(1, 10);
        if (pct(60)) c = goal - have < 10 ? goal - have : 10;
        if (single) c = 1;
        for (k = 0; k < c; k++)
            strcpy(l->f[k], k + 1 < c && pct(30) ? "" : pct(50) ? "0" : "1");
        l->nf = c;
        line_compose(l, s);
        have += c;
        at++;
    }
    return 1;
}

/* ---- 9: sets ---- */

enum { POND_SET = 0x380 };                         /* RS, SV and SQ among the records below */

static int damage9(Deck *d, const Net *n, const Style *s)
{
    static const int data[] = { T_BA, T_PI, T_LU, T_UI, T_QI, T_HC, T_RM, T_RS, T_SV, T_SQ, T_PB };
    int kk = find_tag(d, T_KK), end, i, has[T_ZZ + 1] = { 0 }, tag;
    if (kk < 0)
        return 0;
    if (pct(20))
        return damage9_pond(d, n, s);
    end = closing_line(d, kk + 1);
    for (i = kk + 1; i < end; i++)
        if (d->l[i].tag <= T_ZZ)
            has[d->l[i].tag] = 1;
    switch (rnd(4)) {
    case 0:                                        /* nothing but KK */
        for (i = end - 1; i > kk; i--)
            if (d->l[i].tag >= T_BA && d->l[i].tag <= T_SQ)
                drop(d, i, 1);
        return 1;
    case 1:                                        /* one of the set taken away */
        if (has[T_PI] && !has[T_PB] && pct(30)) return 0;   /* sooner from a block with a total */
        tag = data[rnd(10)];                       /* the total itself may be lacking */
        if (!has[tag] || (tag == T_BA && has[T_QI])) return 0;
        for (i = end - 1; i > kk; i--)
            if (d->l[i].tag == tag)
                drop(d, i, 1);
        return 1;
    case 2:                                        /* a foreign one put in */
        tag = pct(25) ? T_PB : data[rnd(10)];      /* a total belongs to runoff alone */
        if (has[tag] || (tag == T_BA && has[T_QI]) || (tag == T_PB && has[T_PI])) return 0;
        plain_record(insert(d, between(kk + 1, end), tag), s, n);
        return 1;
    default:                                       /* a new block with part of a set */
        i = boundary(d, 1);
        if (i < 0) return 0;
        plain_record(insert(d, i++, T_KK), s, n);
        tag = rnd(1 << COUNT(data));
        if (pct(70)) tag &= ~POND_SET;
        for (kk = 0; kk < COUNT(data); kk++)
            if (tag >> kk & 1)
                plain_record(insert(d, i++, data[kk]), s, n);
        return (tag & ~0x400) != 0x0F && tag != 0x10 && tag != 0x11 && tag != 0x20 && tag != 0x40 && tag != POND_SET;
    }
}

/* ---- 10 to 15: held hydrographs, water, blocks ---- */

int held_before(const Net *n, int pos)
{
    int i, h = 0;
    for (i = 0; i < pos && i < n->nb; i++) {
        const Block *b = &n->b[n->order[i]];
        h += b->kind <= 2 ? 1 : b->kind == 3 ? 1 - b->hc : 0;
    }
    return h;
}

static int damage10(Deck *d, const Net *n, const Style *s)
{
    static const char *const count[] = { "2", "3", "4", "5" };
    int at, h, rn = 1, rk = 1, rx = 0;
    char a[16], b[16], c[16];
    switch (rnd(4)) {
    case 0:                                        /* the first block takes */
        at = first_tag(d, T_KK);
        if (at < 0) return 0;
        if (pct(40)) {
            block_in(d, at, T_HC, s, count[rnd(4)], "", "");
        } else if (pct(50)) {
            first_pond(d, at, n, s);
        } else {
            rm_pick(n->m, pct(50) ? RM_INSIDE : RM_UNDER, &rn, &rk, &rx);
            number_write(a, rn, 0, 6, 0);
            number_write(b, rk, 2, 8, 0);
            number_write(c, rx, 2, 8, 0);
            block_in(d, at, T_RM, s, a, b, c);
        }
        return 1;
    case 1:                                        /* a confluence asks for more */
        at = find_tag(d, T_HC);
        if (at < 0) return 0;
        h = held_before(n, d->l[at].blk);
        if (h >= 5) return 0;
        return set_field(&d->l[at], s, 0, count[between(h < 1 ? 2 : h + 1, 5) - 2]);
    case 2: {                                      /* a block is missing */
        at = find_tag(d, T_KK);
        if (at < 0) return 0;
        h = closing_line(d, at + 1);
        drop(d, at, h - at);
        return 1;
    }
    default:                                       /* a confluence put in where one is held */
        at = boundary(d, 0);
        if (at < 0) return 0;
        block_in(d, at, T_HC, s, count[rnd(4)], "", "");
        return 1;
    }
}

int storm_block(Deck *d, int at, const Net *n, const Style *s, const char *p1, const char *p2,
                       const char *u1, const char *u2)
{
    Line *l = insert(d, at, T_KK);
    line_name(l, (const unsigned char *)"STORM", 5, 5);
    plain_record(insert(d, at + 1, T_BA), s, n);
    line_text(insert(d, at + 2, T_LU), "LU");
    put(insert(d, at + 3, T_PI), s, p2[0] ? 2 : 1, p1, p2, "");
    put(insert(d, at + 4, T_UI), s, u2[0] ? 2 : 1, u1, u2, "");
    return 5;
}

/* ---- 18: a total without a pattern ---- */

enum { LACKS_BA = 1, LACKS_LU = 2, LACKS_UI = 4, HAS_QI = 8, HAS_HC = 16, HAS_RM = 32, LAST_DROP = 64 };

/* A line of a pattern without rain, or with the least of it at the end. */
static void dry_line(Line *l, const Style *s, int most, int drop_at_end)
{
    static const char *const nothing[] = { "0", "0.0", "0.0000", ".0", "-0", "+0.", "00", ".00000", "-0.0" };
    int k, c = most < 1 ? 0 : between(0, most < 10 ? most : 10);
    if (drop_at_end && c == 0) c = 1;
    l->nf = c;
    for (k = 0; k < c; k++)
        strcpy(l->f[k], k + 1 < c && pct(30) ? "" : nothing[rnd(COUNT(nothing))]);
    if (drop_at_end)
        strcpy(l->f[c - 1], ".0001");
    line_compose(l, s);
}

/* A block whose total has nothing to be cut by; its records in any order, some
   lacking or foreign ones added where that is asked for.  The lines it took. */
static int dry_block(Deck *d, int at, const Net *n, const Style *s, int how)
{
    static const char *const totals[] = { ".0001", "100", "4.37", "1", "0.5", "99.99", "7", "+2." };
    static const int more[] = { T_QI, T_HC, T_RM };
    int tags[8], c = 0, i, start = at;
    line_name(insert(d, at++, T_KK), (const unsigned char *)"DRY", 3, 5);
    if (!(how & LACKS_BA)) tags[c++] = T_BA;
    if (!(how & LACKS_LU)) tags[c++] = T_LU;
    if (!(how & LACKS_UI)) tags[c++] = T_UI;
    tags[c++] = T_PB;
    tags[c++] = T_PI;
    for (i = 0; i < 3; i++)
        if (how & (HAS_QI << i)) tags[c++] = more[i];
    for (i = c - 1; i > 0; i--) {
        int o = rnd(i + 1), t = tags[i];
        tags[i] = tags[o];
        tags[o] = t;
    }
    for (i = 0; i < c; i++) {
        Line *l = insert(d, at++, tags[i]);
        if (tags[i] == T_PB)
            put(l, s, 1, totals[rnd(COUNT(totals))], "", "");
        else if (tags[i] == T_PI)
            dry_line(l, s, n->nq, how & LAST_DROP);
        else if (tags[i] == T_UI && pct(20))
            line_text(l, "UI");
        else
            plain_record(l, s, n);
    }
    touched = &d->l[start];
    return at - start;
}

/* Takes the rain off a block that the deck has, and gives it a total. */
static int dry_out(Deck *d, const Style *s)
{
    int at = find_tag(d, pct(60) && first_tag(d, T_PB) >= 0 ? T_PB : T_PI), kk, end, i, left, pb = -1, pi = 0;
    if (at < 0)
        return 0;
    for (kk = at; kk > 0 && d->l[kk].tag != T_KK; kk--)
        ;
    end = closing_line(d, at);
    int empty = pct(30);
    for (i = end - 1; i > kk; i--) {
        if (d->l[i].tag == T_PB) pb = i;
        if (d->l[i].tag != T_PI) continue;
        left = d->l[i].nf;
        if (empty && pi++ > 0) {                   /* one PI, without values */
            drop(d, i, 1);
            if (pb > i) pb--;
            continue;
        }
        dry_line(&d->l[i], s, empty ? 0 : left, 0);
        if (empty) line_text(&d->l[i], "PI");
    }
    if (pb < 0) {
        end = closing_line(d, kk + 1);
        pb = between(kk + 1, end);
        insert(d, pb, T_PB);
        put(&d->l[pb], s, 1, pct(50) ? ".0001" : "2", "", "");
        return 1;
    }
    return pct(40) || set_field(&d->l[pb], s, 0, pct(50) ? ".0001" : "100");
}

static int damage18(Deck *d, const Net *n, const Style *s)
{
    static const char *const count[] = { "2", "3", "4", "5" };
    int zz = last_line_of_deck(d), at, h, kk = 0, i;
    for (i = 0; i < zz; i++)
        kk += d->l[i].tag == T_KK;
    if (kk >= 150 && pct(70)) {                    /* the 200th block, closed by the 201st KK */
        if (kk >= LIMIT_BLOCKS) {                  /* make room for it */
            for (i = zz - 1; i > 0 && d->l[i].tag != T_KK; i--)
                ;
            drop(d, i, zz - i);
            zz = i;
            kk--;
        }
        zz += reaches_in(d, zz, n, s, LIMIT_BLOCKS - 1 - kk);
        zz += dry_block(d, zz, n, s, 0);
        plain_record(insert(d, zz, T_KK), s, n);
        return 1;
    }
    switch (rnd(14)) {
    case 0: case 1: case 2: case 3: case 4:        /* a block that is there */
        return dry_out(d, s);
    case 5: case 6:                                /* anywhere */
        at = boundary(d, 1);
        if (at < 0) return 0;
        dry_block(d, at, n, s, 0);
        return 1;
    case 7:                                        /* the last, where 15 is met too */
        dry_block(d, zz, n, s, 0);
        return 1;
    case 8: case 9:                                /* the 21st held */
        at = boundary(d, 1);
        if (at < 0) return 0;
        h = d->l[at].tag == T_KK ? held_before(n, d->l[at].blk) : 1;
        for (; h < LIMIT_HELD; h++)
            at += block_in(d, at, T_QI, s, "1", "", "");
        if (pct(15))                               /* one too early for it: 11 */
            at += block_in(d, at, T_QI, s, "1", "", "");
        dry_block(d, at, n, s, 0);
        return 1;
    case 10:                                       /* the set is wrong as well: 9 */
        at = boundary(d, 1);
        if (at < 0) return 0;
        dry_block(d, at, n, s, 1 << rnd(6));
        return 1;
    case 11:                                       /* too few held in the next block, or in the one before */
        at = first_tag(d, T_KK);
        if (at < 0) return 0;
        if (pct(50)) {
            at += block_in(d, at, T_HC, s, count[rnd(4)], "", "");
            dry_block(d, at, n, s, 0);
        } else {
            at += dry_block(d, at, n, s, 0);
            block_in(d, at, T_HC, s, count[rnd(4)], "", "");
        }
        return 1;
    case 12:                                       /* the least pattern there is: no 18 */
        dry_block(d, zz, n, s, LAST_DROP);
        return 1;
    default:                                       /* the total of a dry block is no longer 0 */
        at = find_tag(d, T_PB);
        if (at < 0 || d->l[at].blk < 0 || d->l[at].blk >= n->nb) return 0;
        for (i = 0; i < n->b[n->order[d->l[at].blk]].npi; i++)
            if (n->b[n->order[d->l[at].blk]].pi[i] != 0 && pct(95)) return 0;
        return set_field(&d->l[at], s, 0, pct(50) ? ".0001" : "12.5");
    }
}

static int damage11(Deck *d, const Net *n, const Style *s)
{
    int at = boundary(d, 1), h, more;
    if (at < 0)
        return 0;
    h = d->l[at].tag == T_KK ? held_before(n, d->l[at].blk) : 1;
    more = pct(70) ? LIMIT_HELD + 1 - h : LIMIT_HELD + 1;
    if (h < 0 || more < 1)
        return 0;
    if (pct(10)) more = LIMIT_HELD - h;            /* just not enough: then 15 */
    while (more-- > 0)
        at += more == 0 && pct(15) ? storm_block(d, at, n, s, "20", "", "99999", "")   /* over the limit too */
            : block_in(d, at, T_QI, s, "1", pct(30) ? "2" : "", "");
    return 1;
}

static int damage12(Deck *d, const Net *n, const Style *s)
{
    int rn, rk, rx, at;
    char a[16], b[16], c[16];
    if (!rm_pick(n->m, pct(50) ? RM_UNDER : RM_OVER, &rn, &rk, &rx))
        return 0;
    number_write(a, rn, 0, 6, 0);
    number_write(b, rk, 2, 6, 0);
    number_write(c, rx, 2, 6, 0);
    at = find_tag(d, T_RM);
    if (at >= 0 && pct(60)) {
        Line *l = &d->l[at];
        Line old = *l;
        l->nf = 3;
        strcpy(l->f[0], a);
        strcpy(l->f[1], b);
        strcpy(l->f[2], c);
        if (line_compose(l, s)) return 1;
        *l = old;
        return 0;
    }
    at = boundary(d, 0);
    if (at < 0)
        return 0;
    block_in(d, at, T_RM, s, a, b, c);
    return 1;
}

/* A block that passes the flow limit under a ratio and all above it, and stays
   under it below that: a hundred inches on the least unit ordinate that does.
   The lines it took; under 0.01 no block can pass. */
int gate(Deck *d, int at, const Net *n, const Style *s, int ratio)
{
    char unit[16];
    number_write(unit, LIMIT_QI / ratio + 1, 2, 8, 0);
    storm_block(d, at, n, s, "1", "", unit, "");
    put(insert(d, between(at + 1, at + 5), T_PB), s, 1, "100", "", "");
    touched = &d->l[at];
    return 6;
}

static int open_to(const Net *n, int floor)        /* the least ratio above a number, 0 if none is */
{
    int i, r = 0;
    for (i = 0; i < n->njr; i++)
        if (n->jr[i] > floor && (r == 0 || n->jr[i] < r)) r = n->jr[i];
    return r;
}

/* 13 under some ratios alone, or under the ratios at different lines. */
static int damage13_ratios(Deck *d, const Net *n, const Style *s)
{
    int low = open_to(n, 1), at = boundary(d, 1), later, zz, kk = 0, i;
    if (low == 0 || first_tag(d, T_JR) < 0)
        return 0;
    int high = open_to(n, low);
    if (high == 0) high = low;
    while (pct(50) && open_to(n, high) > 0)
        high = open_to(n, high);
    zz = last_line_of_deck(d);
    for (i = 0; i < zz; i++)
        kk += d->l[i].tag == T_KK;
    switch (kk >= 150 ? 0 : between(1, 5)) {
    case 0:                                        /* closed by a 201st KK: 14 under the others */
        if (kk > LIMIT_BLOCKS - 1) return 0;
        zz += reaches_in(d, zz, n, s, LIMIT_BLOCKS - 1 - kk);
        zz += gate(d, zz, n, s, high);
        plain_record(insert(d, zz, T_KK), s, n);
        return 1;
    case 1:                                        /* closed by ZZ: 15 under the others */
        gate(d, zz, n, s, high);
        return 1;
    case 2:                                        /* refused at that line under every ratio that comes so far */
        if (at < 0) return 0;
        later = at + gate(d, at, n, s, high);
        i = between(later, last_line_of_deck(d));
        line_text(insert(d, i, T_OTHER), pct(50) ? "XX" : pct(50) ? "ID" : "HC 9");
        return 1;
    default:                                       /* the greater ones at an earlier line */
        if (at < 0) return 0;
        later = at + gate(d, at, n, s, high);
        for (i = later; i < d->nl && (pct(60) || (d->l[i].tag != T_KK && d->l[i].tag != T_ZZ)); i++)
            ;
        i = closing_line(d, i);
        if (i >= d->nl) i = last_line_of_deck(d);
        gate(d, i, n, s, low);
        return 1;
    }
}

static int damage13(Deck *d, const Net *n, const Style *s)
{
    int at = boundary(d, 1), i;
    if (at < 0)
        return 0;
    if (n->njr > 0 && pct(55))
        return damage13_ratios(d, n, s);
    if (pct(50)) {                                 /* confluence */
        static const char *const parts[][3] = {
            { "50000", "50000.01", "" }, { "100000", "0.01", "" }, { "99999.99", ".02", "" }, { "60000", "70000", "" },
            { "100000", "100000", "100000" }, { "33333.33", "33333.34", "33333.34" }, { "0", "100000", ".01" }
        };
        int w = rnd(7), c = parts[w][2][0] ? 3 : 2;
        for (i = 0; i < c; i++) {
            Line *l = insert(d, at++, T_KK);
            line_name(l, (const unsigned char *)"BIG", 3, 5);
            l = insert(d, at++, T_QI);
            if (n->nq > 1)
                put(l, s, 2, "", parts[w][i], "");
            else
                put(l, s, 1, i == 0 ? "100000" : "1", "", "");
        }
        block_in(d, at, T_HC, s, c == 2 ? "2" : "3", "", "");
        return 1;
    }
    if (pct(30)) {                                 /* all of a total in one interval */
        static const char *const totals[][2] = {   /* over the limit, the last two at it and under it */
            { "100", "1000.01" }, { "100", "99999.99" }, { "50", "2000.01" }, { "99.99", "1000.11" }, { "20", "5000.01" },
            { "100", "1000" }, { "99.99", "1000.1" }
        };
        int w = rnd(COUNT(totals)), start = at;
        if (n->nq == 1)
            at += storm_block(d, at, n, s, "1", "", w < 5 ? "99999" : "1000", "");
        else if (n->nq == 2 || pct(50))
            at += storm_block(d, at, n, s, "1", "", "", totals[w][1]);
        else
            at += storm_block(d, at, n, s, "", "20", "", totals[w][1]);
        if (pct(40)) {                             /* as large a sum as a total can make */
            for (i = 0; i < 14; i++) {
                Line *l = insert(d, at++, T_UI);
                for (l->nf = 0; l->nf < 10; l->nf++)
                    strcpy(l->f[l->nf], "99999");
                line_compose(l, s);
            }
        }
        put(insert(d, between(start + 1, at), T_PB), s, 1, totals[w][0], "", "");
        return 1;
    }
    if (n->nq == 1) {
        storm_block(d, at, n, s, "20", "", pct(50) ? "5001" : "99999", "");
        return 1;
    }
    switch (rnd(5)) {                              /* runoff, in one product or added up */
    case 0: storm_block(d, at, n, s, "20", "", "", "5000.01"); break;
    case 1: storm_block(d, at, n, s, "15", "", "", "6666.67"); break;
    case 2: storm_block(d, at, n, s, "1", "1", "50000", "50000.01"); break;
    case 3: storm_block(d, at, n, s, "1", "0.0001", "99999", "99999.99"); break;
    default: storm_block(d, at, n, s, "20", "20", "99999", "99999.99"); break;
    }
    return 1;
}

static int damage14(Deck *d, const Net *n, const Style *s)
{
    int kk = 0, i, at = last_line_of_deck(d);
    for (i = 0; i < d->nl; i++)
        kk += d->l[i].tag == T_KK;
    if (kk < 150)
        return 0;
    at += reaches_in(d, at, n, s, LIMIT_BLOCKS + 1 - kk);
    if (pct(20)) line_text(&d->l[at - 1], "RM 99");
    if (pct(15) && at >= 4 && d->l[at - 4].tag == T_KK)   /* the block before is at fault as well */
        line_text(&d->l[at - 3], pct(50) ? "HC 5" : "KM");
    if (pct(10)) line_text(&d->l[at - 2], d->l[at - 2].form == FREE ? "KK ,A" : "KK A B");
    return 1;
}

static int damage15(Deck *d, const Net *n, const Style *s)
{
    int at = last_line_of_deck(d), kk = -1, i;
    (void)n;
    switch (rnd(4)) {
    case 0:                                        /* one more at the end */
        i = between(1, 3);
        while (i-- > 0)
            at += block_in(d, at, T_QI, s, "1", "", "");
        return 1;
    case 1:                                        /* the last block taken away */
        for (i = 0; i < at; i++)
            if (d->l[i].tag == T_KK)
                kk = i;
        if (kk < 0) return 0;
        drop(d, kk, at - kk);
        return 1;
    case 2:                                        /* no block at all */
        kk = first_tag(d, T_KK);
        if (kk < 0 || !pct(30)) return 0;
        drop(d, kk, at - kk);
        return 1;
    default:                                       /* a hydrograph nobody takes */
        at = boundary(d, 1);
        if (at < 0) return 0;
        block_in(d, at, T_QI, s, "2", "", "");
        return 1;
    }
}

static int damage16(Deck *d)
{
    int at = first_tag(d, T_ZZ);
    if (at < 0)
        return 0;
    d->ntail = 0;
    switch (rnd(4)) {
    case 0:
        drop(d, at, 1);
        return d->nl > 0;
    case 1:
        line_text(&d->l[at], pct(50) ? "KM ZZ" : "");
        d->l[at].tag = T_KM;
        return 1;
    case 2:                                        /* cut off anywhere */
        d->nl = between(1, at);
        return 1;
    default: {
        int i = first_tag(d, T_IT);
        if (i < 0 || at <= i) return 0;
        d->nl = between(i + 1, at);
        return 1;
    }
    }
}

static int damage2(Deck *d)
{
    int over = pct(50) ? 1 : pct(80) ? between(1, 100) : between(1, 3000);
    deck_fill(d, LIMIT_BYTES + over, rnd(4));
    return 1;
}

/* Tries causes of that refusal until one can be brought about. */
int damage(Deck *d, const Net *n, const Style *s, int number)
{
    int tries, done = 0;
    touched = NULL;
    for (tries = 0; tries < 40 && !done; tries++) {
        switch (number) {
        case 2: done = damage2(d); break;
        case 3: done = damage3(d); break;
        case 4: done = damage4(d); break;
        case 5: done = damage5(d, n, s); break;
        case 6: done = damage6(d, s); break;
        case 7: done = damage7(d, s); break;
        case 8: done = damage8(d, n, s); break;
        case 9: done = damage9(d, n, s); break;
        case 10: done = damage10(d, n, s); break;
        case 11: done = damage11(d, n, s); break;
        case 12: done = damage12(d, n, s); break;
        case 13: done = damage13(d, n, s); break;
        case 14: done = damage14(d, n, s); break;
        case 15: done = damage15(d, n, s); break;
        case 16: done = damage16(d); break;
        case 18: done = damage18(d, n, s); break;
        case 19: done = damage19(d, n, s); break;
        case 20: done = damage20(d, n, s); break;
        default: return 0;
        }
    }
    return done;
}

/* A second fault on the line damaged last, or on the line that closes its
   block: which of two refusals on one line is answered. */
int damage_more(Deck *d, const Style *s)
{
    Line *l = touched;
    int at, i, k;
    if (l == NULL || l < d->l || l >= d->l + d->nl)
        return 0;
    at = (int)(l - d->l);
    if (pct(40)) {
        at = closing_line(d, at + 1);
        if (at >= d->nl)
            return 0;
        l = &d->l[at];
    }
    switch (rnd(5)) {
    case 0:                                        /* 3 */
        if (l->len > 150) return 0;
        i = rnd(l->len + 1);
        memmove(l->t + i + 1, l->t + i, (size_t)(l->len - i));
        l->t[i] = pct(50) ? 9 : 0x80;
        l->len++;
        return 1;
    case 1:
        while (l->len < 81)
            l->t[l->len++] = ' ';
        return 1;
    case 2:                                        /* 4 */
        if (l->len < 2) return 0;
        l->t[rnd(2)] = 'x';
        return 1;
    case 3:                                        /* 6 */
        if (l->tag == T_KK) {
            line_text(l, l->form == FREE ? "KK ,A" : "KK A B");
            return 1;
        }
        if (l->tag < T_IT || l->tag > T_SQ || l->tag == T_KM) return 0;
        if (l->form == FREE && pct(30))
            return set_field(l, s, 10, "1");
        k = pct(50) ? rnd(10) : rnd(named_fields(l->tag));
        return set_field(l, s, k, misshapen[rnd(COUNT(misshapen))]);
    default:                                       /* 7 */
        i = rnd(COUNT(outside));
        if (outside[i].tag != l->tag) return 0;
        k = outside[i].field;
        return set_field(l, s, k < 0 ? rnd(10) : k, outside[i].text);
    }
}

/* ---- blind mutations ---- */

int deck_mutate_lines(Deck *d)
{
    int at, o;
    if (d->nl < 2)
        return 0;
    at = rnd(d->nl);
    switch (rnd(6)) {
    case 0:
        drop(d, at, 1);
        return 1;
    case 1: {
        Line copy = d->l[at];
        Line *l = insert(d, pct(50) ? at : rnd(d->nl + 1), copy.tag);
        int blk = l->blk;
        *l = copy;
        l->blk = blk;
        return 1;
    }
    case 2:
    case 3:
        o = pct(60) ? (at + 1) % d->nl : rnd(d->nl);
        {
            Line t = d->l[at];
            d->l[at] = d->l[o];
            d->l[o] = t;
        }
        return 1;
    case 4:                                        /* the other form */
        o = find_tag(d, T_CONTROL);
        if (o >= 0 && pct(50))
            drop(d, o, 1);
        else
        {
            int free_form = d->l[at].form == FREE;
            line_text(insert(d, at, T_CONTROL), free_form ? "*FIX" : "*FREE");
        }
        return 1;
    default: {                                     /* two lines run together */
        if (at + 1 >= d->nl || d->l[at].len + d->l[at + 1].len > 170) return 0;
        Line *l = &d->l[at];
        memcpy(l->t + l->len, d->l[at + 1].t, (size_t)d->l[at + 1].len);
        l->len += d->l[at + 1].len;
        drop(d, at + 1, 1);
        return 1;
    }
    }
}

int bytes_mutate(unsigned char *b, int n)
{
    static const char likely[] = "0123456789.,,, +-KZIQPUBHRMLJCSV*FX\n\n\r";
    int at;
    if (n == 0)
        return 0;
    at = rnd(n);
    switch (rnd(7)) {
    case 0:
        b[at] = (unsigned char)(b[at] ^ (1 << rnd(8)));
        return n;
    case 1:
        b[at] = (unsigned char)rnd(256);
        return n;
    case 2:
    case 3:
        b[at] = (unsigned char)likely[rnd((int)sizeof likely - 1)];
        return n;
    case 4:
        memmove(b + at, b + at + 1, (size_t)(n - at - 1));
        return n - 1;
    case 5:
        memmove(b + at + 1, b + at, (size_t)(n - at));
        b[at] = (unsigned char)likely[rnd((int)sizeof likely - 1)];
        return n + 1;
    default:
        return pct(20) ? at : n - 1;               /* cut off */
    }
}

/* ---- decks that hardly are decks ---- */

static const struct { const char *text; int n; } scraps[] = {
#define S(x) { x, (int)sizeof(x) - 1 }
    S(""), S("\n"), S("\r\n"), S("\r"), S(" "), S("   \n\n  \r\n"), S("ZZ"), S("ZZ\n"), S("ID\nZZ\n"), S("Z"), S("\n\n\nZZ"),
    S("*FREE"), S("*FIX\n"), S("*FREE\n*FIX\n*FREE\n"), S("KM\n"), S("KM\nKM\nKM"), S("ID\n"), S("ID"), S("ID X\nIT"), S("IT"),
    S("*FREE\nIT 60,,,4"), S("*FREE\nIT 60,,,4\n"), S("*FREE\nIT 60,,,4\nZZ"), S("ID\n*FREE\nIT 60,,,4\nZZ\n"),
    S("*FREE\nIT 60,,,4\nKK A"), S("*FREE\nIT 60,,,4\nKK A\nZZ"), S("*FREE\nIT 60,,,4\nKK A\nQI"), S("*FREE\nIT 60,,,4\nKK A\nQI\nZZ"),
    S("*FREE\nIT1,,,1\nKKA\nQI\nZZ"), S("IT     1                       1\nKK     A\nQI     1\nZZ"), S("\0"), S("ZZ\0"), S("ZZ\n\0\xFF"),
    S("*FREE\nIT 60,,,4\nKK A\nHC 2\nZZ"), S("*FREE\nIT 60,,,4\nKK A\nRM 1,1.00,0.20\nZZ"), S("*FREE\nIT 60 0 0 4\nKK A\nQI 1 2 3 4 5\nZZ"),
    S("*FREE\nIT 60 4\nKK A\nQI 1\nZZ"), S("*FREE\nIT60,,,4\nKKA\nBA1\nPI\nLU\nUI\nZZ"), S("*FREE \nIT ,,,4\nKK A\nQI 1\nZZ"),
    S("*FREE\nIT 60.,,,4.\nKK A\nQI 1\nZZ"), S("*FREE\nIT 60.0,,,4\nKK A\nQI 1\nZZ"), S("*FREE\nIT 60.5,,,4\nKK A\nQI 1\nZZ"),
    S("*FREE\nIT 60.000,,,4.0\nKK A\nQI 1.500,.0,-0.0,0.000\nZZ"), S("*FREE\nIT 60,,,4\nKK A\nQI 1.50000000\nZZ"), S("*FREE\nIT 60,,,4\nKK A\nQI 1.500000000\nZZ"),
    S("*FREE\nIT 60,,,4\nKK A\nBA 1.001\nQI 1\nZZ"), S("*FREE\nIT 60,,,4\nKK A\nBA 10.0\nQI 100.000,00.50\nZZ"), S("*FREE\nIT 60,,,4,,,,,,,,,,\nKK A\nQI ,,,1\nZZ"),
    S("*FREE\nIT 60,,,4\nKK A\nQI ,,,,1\nZZ"), S("*FREE\nIT 60,,,4\nKK A\nQI ,,,,\nZZ"), S("*FREE\nIT 60,,,4\nKK A\nQI , , ,1\nZZ"),
    S("*FREE\nIT 60,,,4\nKK A\nQI 1 , , 2\nZZ"), S("*FREE\nIT 60,,,4\nKK A\nQI 1 ,, 2\nZZ"), S("*FREE\nIT 60,,,3\nKK A\nQI 1 , 2 , 3\nZZ"),
    S("*FREE\nIT 60,,,4\nKK A\nRM 1,1,.2\nKK B\nQI 1\nZZ"), S("IT    60               4\nKK A\nQI 1\nZZ"), S("ID\nKK A\nIT 60,,,4\n"),
    S("*FREE\r\nIT 60,,,4\r\nKK A\r\nQI 1\r\nZZ\r"), S("*FREE\r\nIT 60,,,4\r\nKK A\r\nQI 1\r\nZZ\r\n"), S("ZZ\r"), S("ID\r\r\nZZ"),
    S("*FREE\nIT 60,,,4\nKK A\nQI 1\nZZ\nZZ\nZZ"), S("*FREE\nIT 60,,,4\nIT 60,,,4\nKK A\nQI 1\nZZ"), S("*FREE\nIT 60,,,4\nID\nKK A\nQI 1\nZZ"),
    S("*FREE\nIT 60,,,4\nKK A\nQI 1,2\nQI\nQI 3\nZZ"), S("*FREE\nIT 60,,,4\nKK A\nQI 1,2\nQI 3,4,5\nZZ"), S("*FREE\nIT 60,,,4\nZZ A\nKK"),
    S("*FREE\nIT 60,,,4\nKK A\nBA 1\nQI 1\nZZ"), S("*FREE\nIT 60,,,4\nKK A\nBA 1\nZZ"), S("*FREE\nIT 60,,,4\nKK A\nBA 1\nBA 1\nZZ"),
    S("*FREE\nIT 60,,,4\nKK A\nBA 1,,,,\nPI 1\nLU ,,0\nUI 1\nZZ"), S("*FREE\nIT 60,,,4\nKK A\nBA 1\nPI 1,,2\nLU\nUI 1\nZZ"),
    S("*FREE\nIT 60,,,4\nKK A\nQI 100000\nZZ"), S("*FREE\nIT 60,,,4\nKK A\nQI 100000.01\nZZ"), S("*FREE\nIT 60,,,4\nKK A\nQI -0\nZZ"),
    S("*FREE\nIT 60,,,4\nKK A\nQI 7,7,7,7\nKK B\nRM 1,1.00,0.20\nZZ"), S("*FREE\nIT 60,,,4\nKK A\nQI 1,2,3\nKK B\nRM 1,1.00,0.50\nZZ"),
    S("*FREE\nIT 60,,,4\nKK A\nQI 1,2,3\nKK B\nRM 1,0.50,0.20\nZZ"),
    S("PB 1"), S("*FREE\nIT 60,,,4\nPB 1\n"), S("*FREE\nIT 60,,,4\nKK A\nPB 1\nZZ"), S("*FREE\nIT 60,,,4\nKK A\nPB 1\nPB 1\nZZ"),
    S("*FREE\nIT 60,,,4\nKK A\nPB 1\nQI 1\nZZ"), S("*FREE\nIT 60,,,4\nKK A\nBA 1\nPB 1,0\nPI 1\nLU\nUI 1\nZZ"),
    S("*FREE\nIT 60,,,4\nKK A\nBA 1\nPB\nPI\nLU\nUI 1\nZZ"), S("*FREE\nIT 60,,,4\nKK A\nBA 1\nPB\nPI 1,2\nLU\nUI 1\nZZ"),
    S("*FREE\nIT 60,,,4\nKK A\nBA 1\nPB .0001\nPI\nLU\nUI 1\nZZ"), S("*FREE\nIT 60,,,4\nKK A\nBA 1\nPB 100\nPI 0,0\nLU\nUI\nZZ"),
    S("*FREE\nIT 60,,,4\nKK A\nPI 1,2,4\nBA 1\nPB .0001\nLU\nUI 1\nZZ"), S("*FREE\nIT 60,,,4\nKK A\nBA 1\nPB 100,,,\nPI 20\nLU\nUI 1000\nZZ"),
    S("*FREE\nIT 60,,,4\nKK A\nBA 1\nPB 100\nPI 20\nLU\nUI 1000.01\nZZ"), S("IT    60                       4\nKK A\nBA     1\nPB  4.37\nPI     1       3\nLU\nUI     1\nZZ"),
    S("JR PREC,1"), S("*FREE\nIT 60,,,4\nJR PREC,1"), S("*FREE\nIT 60,,,4\nJR PREC,1\nZZ"), S("*FREE\nIT 60,,,4\nJR\nZZ"),
    S("*FREE\nIT 60,,,4\nJR PREC\nZZ"), S("*FREE\nIT 60,,,4\nJR PREC,,\nZZ"), S("*FREE\nIT 60,,,4\nJR PREC,1\nJR PREC,1\nZZ"),
    S("*FREE\nIT 60,,,4\nJR ,PREC,1\nZZ"), S("*FREE\nIT 60,,,4\nJR PREC,1,,2\nZZ"), S("*FREE\nJR PREC,1\nIT 60,,,4\nZZ"),
    S("*FREE\nIT 60,,,4\nKK A\nQI 1\nJR PREC,1\nZZ"), S("*FREE\nIT60,,,4\nJRPREC 1 2,9.99,,\nKKA\nQI1\nZZ"),
    S("*FREE\nIT 60,,,4\nJR PREC .01 .02 .03 .04 .05 .06 .07 .08 .09\nKK A\nBA 1\nPI .0001,.0001,.0001,.0001\nLU\nUI 1\nZZ"),
    S("IT    60                       4\n\nKM\nJR  PREC     .33      3.    +0.5\nKK A\nBA     1\nPI    .1     .07     .03\nLU\nUI     1\nZZ"),
    S("*FREE\nIT 60,,,4\nJR PREC,2,3\nKK A\nBA 1\nPB 100\nPI 20\nLU\nUI 400\nKK B\nQI 1\nZZ"),
    S("*FREE\nIT 60,,,4\nJR PREC,1,1.01\nKK A\nBA 1\nPB 100\nPI 20\nLU\nUI 1000\nKK B\nHC 2\nZZ"),
    S("ID POND\n*FREE\nIT 60,,,4\nJR PREC,1.00\nKK UP\nBA 1.50\nPI 0.50,0.30,0.10\nLU 0.50,0.10\nUI 10,4\nKK RIV\nRM 1,1.00,0.20\nKK SIDE\nQI 1,2,2,1\nKK OUT\nHC 2\nZZ\n"),
    S("ID POND\n*FREE\nIT 60,,,4\nKK UP\nBA 1.50\nPI 0.50,0.30,0.10\nLU 0.50,0.10\nUI 10,4\nKK RIV\nRM 1,1.00,0.20\nKK SIDE\nQI 1,2,2,1\nKK OUT\nHC 2\nZZ\n")
#undef S
};

int degenerate(unsigned char *out)
{
    int w = rnd(COUNT(scraps) + 2), n, i;
    if (pct(3)) {                                  /* one long line, or nothing but line ends */
        static const int sizes[] = { 81, 82, 59999, 60000, 60001 };
        n = sizes[rnd(5)];
        memset(out, pct(50) ? ' ' : pct(50) ? 'K' : '\n', (size_t)n);
        return n;
    }
    if (w < COUNT(scraps)) {
        memcpy(out, scraps[w].text, (size_t)scraps[w].n);
        return scraps[w].n;
    }
    n = between(0, 200);                           /* noise */
    int printable = pct(50);
    for (i = 0; i < n; i++)
        out[i] = (unsigned char)(printable ? pct(10) ? '\n' : between(0x20, 0x7E) : rnd(256));
    return n;
}
