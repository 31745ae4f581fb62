/* From a network to lines, and from lines to bytes: the same network in
   fixed or free form, in whatever lawful manner the style asks for. */
#include <stdio.h>
#include <string.h>
#include "decks.h"

static const char *const idents[] = {
    "ID", "IT", "JR", "KK", "KM", "BA", "PB", "PI", "LU", "UI", "QI", "HC", "RM", "RS", "SV", "SQ", "ZZ"
};

const char *tag_ident(int tag)
{
    return tag <= T_ZZ ? idents[tag] : "";
}

void style_random(Style *s)
{
    s->form = rnd(3);
    s->pswitch = s->form == 2 ? between(3, 30) : pct(10) ? 5 : 0;
    s->pkm = pct(60) ? rnd(4) : rnd(25);
    s->pblank = pct(60) ? rnd(4) : rnd(25);
    s->eol = pct(60) ? 0 : pct(60) ? 1 : 2;
    s->sep = rnd(3);
    s->vary = pct(50) ? 5 : 35;
    s->pack = pct(50) ? 0 : pct(80) ? 1 : 2;
    s->pwide = pct(70) ? 0 : 25;
    s->pzero = pct(50) ? 20 : 80;
    s->ptext = pct(50) ? 5 : 50;
    s->pmix = pct(60) ? 0 : 40;
    s->zeros = pct(50) ? 0 : pct(50) ? 10 : 60;
}

/* ---- numbers ---- */

/* v counted in the last place; as written: not over `places` places, not over
   nine digits, not over `width` bytes.  0 when it does not fit.  Zeros past its
   places, which are lawful too, number_zeros puts behind it. */
int number_write(char *out, int v, int places, int width, int vary)
{
    int pass;
    for (pass = 0; pass < 2; pass++) {
        int odd = pass == 0 && pct(vary);
        int scale = 1, i, w, keep;
        for (i = 0; i < places; i++) scale *= 10;
        int whole = v / scale, part = v % scale;
        char frac[8], head[16], buf[40];
        for (i = places - 1, w = part; i >= 0; i--) {
            frac[i] = (char)('0' + w % 10);
            w /= 10;
        }
        for (keep = places; keep > 0 && frac[keep - 1] == '0'; )
            keep--;
        if (pass == 0 && pct(odd ? 50 : 25))
            keep = between(keep, places);
        int digits = snprintf(head, sizeof head, "%d", whole);
        int lead = 0, dot = keep > 0, sign = 0;
        if (whole == 0 && keep > 0 && (pass == 1 || pct(40))) {
            head[0] = 0;
            digits = 0;
        }
        if (odd) {
            if (pct(35)) lead = between(0, 9 - digits - keep);
            if (lead > 4 && !pct(10)) lead = 1;
            if (keep == 0 && pct(40)) dot = 1;
            if (pct(40)) sign = '+';
            if (v == 0 && pct(40)) sign = '-';
            if (width <= 8 && pct(20)) {             /* leading zeros fill the field */
                lead = width - digits - keep - dot - (sign != 0);
                if (lead > 9 - digits - keep) lead = 9 - digits - keep;
                if (lead < 0) lead = 0;
            }
        }
        int n = 0;
        if (sign) buf[n++] = (char)sign;
        for (i = 0; i < lead; i++) buf[n++] = '0';
        for (i = 0; i < digits; i++) buf[n++] = head[i];
        if (dot) buf[n++] = '.';
        for (i = 0; i < keep; i++) buf[n++] = frac[i];
        buf[n] = 0;
        if (n <= width && n < 16) {
            strcpy(out, buf);
            return 1;
        }
    }
    return 0;
}

/* ---- single lines ---- */

int text_random(unsigned char *out, int most)
{
    static const char *const likeness[] = {
        "KK", "ZZ", "IT 60,,,4", "*FREE", "END", "REFUSED 3 1", "BA 1.50", "END OF DATA", ",,,", "POND", "JR PREC,1.00",
        "RATIO 1.00"
    };
    int n, i;
    if (most <= 0)
        return 0;
    if (pct(25)) {
        const char *t = likeness[rnd(12)];
        n = (int)strlen(t);
        if (n > most) n = most;
        memcpy(out, t, (size_t)n);
        return n;
    }
    n = pct(70) ? between(0, most < 20 ? most : 20) : between(0, most);
    if (pct(6)) n = most;
    int any = pct(40);
    for (i = 0; i < n; i++)
        out[i] = any ? (unsigned char)between(0x20, 0x7E)
                     : pct(15) ? ' ' : (unsigned char)between('A', 'Z');
    return n;
}

void line_text(Line *l, const char *text)
{
    l->len = (int)strlen(text);
    memcpy(l->t, text, (size_t)l->len);
}

static void widen(Line *l, int p)
{
    if (pct(p) && l->len < 80) {
        int to = pct(40) ? 80 : between(l->len, 80);
        memset(l->t + l->len, ' ', (size_t)(to - l->len));
        l->len = to;
    }
}

void line_name(Line *l, const unsigned char *name, int n, int ptext)
{
    memcpy(l->t, "KK", 2);
    if (l->form == FIXED) {
        int off = pct(50) ? 0 : rnd(6 - n + 1);
        if (n < 6 && pct(40)) off = 1;
        memset(l->t + 2, ' ', 6);
        memcpy(l->t + 2 + off, name, (size_t)n);
        l->len = 2 + off + n;
        if (pct(ptext)) {
            l->len = 8;
            l->len += text_random(l->t + 8, 72);
        }
    } else {
        int p = pct(15) ? 0 : pct(80) ? 1 : between(2, 30);
        memset(l->t + 2, ' ', (size_t)p);
        p += 2;
        memcpy(l->t + p, name, (size_t)n);
        p += n;
        if (pct(ptext)) {
            l->t[p++] = pct(50) ? ' ' : ',';
            p += text_random(l->t + p, 80 - p);
        }
        l->len = p;
    }
}

static int compose_fixed(Line *l, const Style *s)
{
    int k, end = 2, just = rnd(3);
    if (l->nf > 10)
        return 0;
    memset(l->t, ' ', 80);
    memcpy(l->t, tag_ident(l->tag), 2);
    for (k = 0; k < l->nf; k++) {
        int w = k == 0 ? 6 : 8, start = k == 0 ? 2 : 8 * k, n = (int)strlen(l->f[k]);
        if (n > w)
            return 0;
        if (n == 0)
            continue;
        int off = just == 0 ? w - n : just == 1 ? 0 : rnd(w - n + 1);
        memcpy(l->t + start + off, l->f[k], (size_t)n);
        end = start + off + n;
    }
    l->len = end;
    widen(l, s->pwide);
    return 1;
}

static int blanks(unsigned char *t, int n, int tight)
{
    int k = tight ? 0 : pct(70) ? 0 : between(1, 3);
    memset(t + n, ' ', (size_t)k);
    return n + k;
}

static int compose_free(Line *l, const Style *s, int tight)
{
    int k, n = 2, last = l->nf;
    memcpy(l->t, tag_ident(l->tag), 2);
    while (last > 0 && l->f[last - 1][0] == 0)
        last--;
    if (last > 0 && (tight || pct(85)))
        l->t[n++] = ' ';
    n = blanks(l->t, n, tight);
    for (k = 0; k < last; k++) {
        int w = (int)strlen(l->f[k]);
        if (n + w > 80)
            return 0;
        memcpy(l->t + n, l->f[k], (size_t)w);
        n += w;
        if (k + 1 == last)
            break;
        int comma = s->sep == 0 || (s->sep == 2 && pct(50));
        if (w == 0 || l->f[k + 1][0] == 0)
            comma = 1;
        if (comma) {
            n = blanks(l->t, n, tight);
            l->t[n++] = ',';
            n = blanks(l->t, n, tight);
        } else {
            l->t[n++] = ' ';
            n = blanks(l->t, n, tight);
        }
        if (n > 80)
            return 0;
    }
    if (!tight && pct(5)) {                        /* blank fields at the end are dropped */
        int c = pct(60) ? 1 : between(1, 12);
        while (c-- > 0 && n < 76) {
            l->t[n++] = ',';
            n = blanks(l->t, n, 0);
        }
    }
    l->len = n;
    if (n > 80)
        return 0;
    if (!tight)
        widen(l, s->pwide);
    return 1;
}

/* Writes the fields in the form of the line; 0 when they do not fit. */
int line_compose(Line *l, const Style *s)
{
    if (l->form == FIXED)
        return compose_fixed(l, s);
    return compose_free(l, s, 0) || compose_free(l, s, 1);
}

/* ---- whole decks ---- */

typedef struct {
    Deck *d;
    const Style *s;
    int form, blk;
} Writer;

static Line *add(Writer *w, int tag)
{
    Line *l = &w->d->l[w->d->nl];
    if (w->d->nl < MAX_LINES - 1)
        w->d->nl++;
    l->tag = tag;
    l->form = w->form;
    l->blk = w->blk;
    l->nf = 0;
    l->len = 0;
    return l;
}

static void control(Writer *w, int form)
{
    Line *l = add(w, T_CONTROL);
    line_text(l, form == FREE ? "*FREE" : "*FIX");
    widen(l, 12);
    w->form = form;
}

static void sprinkle(Writer *w)
{
    while (pct(w->s->pkm)) {
        Line *l = add(w, T_KM);
        memcpy(l->t, "KM", 2);
        l->len = 2 + text_random(l->t + 2, 78);
    }
    while (pct(w->s->pblank)) {
        Line *l = add(w, T_BLANK);
        widen(l, 40);
    }
    if (pct(w->s->pswitch))
        control(w, pct(80) ? !w->form : w->form);
    else if (w->s->form == 0 && w->form == FREE && pct(50))
        control(w, FIXED);
    else if (w->s->form == 1 && w->form == FIXED && pct(70))
        control(w, FREE);
}

static int field_width(const Line *l, int k)
{
    return l->form == FREE ? 13 : k == 0 ? 6 : 8;
}

/* A number in a field of a line; 0 when it does not fit. */
static int field_write(Line *l, int k, int v, int places, int vary, int zeros)
{
    int width = field_width(l, k);
    if (!number_write(l->f[k], v, places, width, vary))
        return 0;
    if (pct(zeros))
        number_zeros(l->f[k], width);
    return 1;
}

/* One record of up to four fields; a value of -1 leaves the field blank, -2
   has its text already. */
static void record(Writer *w, int tag, int nf, const int *v, const int *places, char given[][16])
{
    for (;;) {
        Line *l = add(w, tag);
        int k, ok = 1;
        l->nf = nf;
        for (k = 0; k < nf; k++) {
            if (v[k] == -1)
                l->f[k][0] = 0;
            else if (v[k] == -2)
                strcpy(l->f[k], given[k]);
            else
                ok = ok && field_write(l, k, v[k], places[k], w->s->vary, w->s->zeros);
        }
        if (ok && line_compose(l, w->s))
            return;
        w->d->nl--;
        control(w, FREE);
    }
}

/* The ratios, all on one line: where they do not fit, in a plainer manner. */
static void ratio_line(Writer *w, const Net *n)
{
    int vary = w->s->vary, zeros = w->s->zeros, k;
    for (;;) {
        Line *l = add(w, T_JR);
        int ok = 1;
        strcpy(l->f[0], "PREC");
        for (k = 0; k < n->njr; k++)
            ok = ok && field_write(l, k + 1, n->jr[k], 2, vary, zeros);
        l->nf = n->njr + 1;
        if (ok && line_compose(l, w->s))
            return;
        w->d->nl--;
        vary = zeros = 0;
    }
}

static void list_line(Writer *w, int tag, const int *v, int n, int *pos, int places)
{
    int left = n - *pos, want;
    want = w->s->pack == 0 ? 10 : w->s->pack == 2 ? 1 : between(1, 10);
    if (pct(1)) want = 0;
    if (want > left) want = left;
    int c = want;
    for (;;) {
        Line *l = add(w, tag);
        int k, ok = 1;
        l->nf = c;
        for (k = 0; k < c && ok; k++) {
            int x = v[*pos + k];
            if (x == 0 && k + 1 < c && pct(w->s->pzero))
                l->f[k][0] = 0;
            else
                ok = field_write(l, k, x, places, w->s->vary, w->s->zeros);
        }
        if (ok && line_compose(l, w->s)) {
            *pos += c;
            return;
        }
        w->d->nl--;
        if (c > 1) {
            c--;
        } else {
            control(w, FREE);
            c = want;
        }
    }
}

static void block_write(Writer *w, const Block *b)
{
    static const int four[] = { 4 }, two[] = { 2 }, none[] = { 0, 0, 0 }, lup[] = { 4, 4, 2 }, rmp[] = { 0, 2, 2 };
    int open[11] = { 0 }, pos[5] = { 0, 0, 0, 0, 0 }, last = -1, k, i;
    int comma = memchr(b->name, ',', (size_t)b->nlen) != NULL;
    if (comma && w->form == FREE)
        control(w, FIXED);
    line_name(add(w, T_KK), b->name, b->nlen, w->s->ptext);
    /* 0 BA, 1 PB, 2 PI, 3 LU, 4 UI, 5 QI, 6 HC, 7 RM, 8 RS, 9 SV, 10 SQ */
    open[0] = b->has_ba;
    open[1] = b->has_pb;
    open[2] = open[3] = open[4] = b->kind == 1;
    open[5] = b->kind == 2;
    open[6] = b->kind == 3;
    open[7] = b->kind == 4;
    open[8] = open[9] = open[10] = b->kind == 5;
    int plain = pct(50);
    for (;;) {
        int left[11], n = 0;
        for (i = 0; i < 11; i++)
            if (open[i])
                left[n++] = i;
        if (n == 0)
            return;
        if (last >= 0 && open[last] && !pct(w->s->pmix))
            k = last;
        else
            k = plain ? left[0] : left[rnd(n)];
        last = k;
        sprinkle(w);
        switch (k) {
        case 0: {
            int v[] = { b->ba };
            record(w, T_BA, 1, v, two, NULL);
            open[0] = 0;
            break;
        }
        case 1: {
            int v[] = { b->pb };
            if (v[0] == 0 && pct(40)) v[0] = -1;
            record(w, T_PB, 1, v, four, NULL);
            open[1] = 0;
            break;
        }
        case 2:
            list_line(w, T_PI, b->pi, b->npi, &pos[0], 4);
            open[2] = pos[0] < b->npi || pct(1);
            break;
        case 3: {
            int v[] = { b->lu1, b->lu2, pct(70) ? -1 : 0 };
            if (v[0] == 0 && pct(20)) v[0] = -1;
            if (v[1] == 0 && pct(20)) v[1] = -1;
            record(w, T_LU, 3, v, lup, NULL);
            open[3] = 0;
            break;
        }
        case 4:
            list_line(w, T_UI, b->ui, b->nui, &pos[1], 2);
            open[4] = pos[1] < b->nui || pct(1);
            break;
        case 5:
            list_line(w, T_QI, b->qi, b->nqi, &pos[2], 2);
            open[5] = pos[2] < b->nqi || pct(1);
            break;
        case 6: {
            int v[] = { b->hc };
            record(w, T_HC, 1, v, none, NULL);
            open[6] = 0;
            break;
        }
        case 7: {
            int v[] = { b->rn, b->rk, b->rx };
            if (v[2] == 0 && pct(20)) v[2] = -1;
            record(w, T_RM, 3, v, rmp, NULL);
            open[7] = 0;
            break;
        }
        case 8: {
            int v[] = { 1, -2, pct(50) ? -1 : 0 };
            char given[3][16] = { "", "STOR", "" };
            record(w, T_RS, 3, v, none, given);
            open[8] = 0;
            break;
        }
        case 9:
            list_line(w, T_SV, b->sv, b->nsv, &pos[3], 2);
            open[9] = pos[3] < b->nsv || pct(1);
            break;
        default:
            list_line(w, T_SQ, b->sq, b->nsq, &pos[4], 2);
            open[10] = pos[4] < b->nsq || pct(1);
            break;
        }
    }
}

static void unread(char *f, int form)
{
    static const char *const seen[] = { "0", "600000", "01JAN70", "1200", "X1.2.3", "1-", "DATE", "-5" };
    f[0] = 0;
    if (pct(40))
        return;
    strcpy(f, seen[rnd(8)]);
    if (form == FIXED && pct(20))
        strcpy(f, "1, ,2 3");
}

void deck_write(Deck *d, const Net *n, const Style *s)
{
    static const int itp[] = { 0, 0, 0, 0 };
    Writer w = { d, s, FIXED, -1 };
    char given[4][16];
    int v[4], i, ids = pct(60) ? 1 : rnd(4);
    d->nl = 0;
    d->npad = d->ntail = d->padat = 0;
    d->eol = s->eol;
    d->cut = pct(15);
    for (i = 0; i < ids; i++) {
        sprinkle(&w);
        Line *l = add(&w, T_ID);
        memcpy(l->t, "ID", 2);
        l->len = 2 + text_random(l->t + 2, 78);
    }
    if (s->form == 1 && w.form == FIXED)
        control(&w, FREE);
    sprinkle(&w);
    unread(given[1], w.form);
    unread(given[2], w.form);
    v[0] = n->m;
    v[1] = given[1][0] ? -2 : -1;
    v[2] = given[2][0] ? -2 : -1;
    v[3] = n->nq;
    record(&w, T_IT, 4, v, itp, given);
    if (n->njr > 0) {
        for (i = pct(30) ? between(1, 6) : 1; i > 0; i--)
            sprinkle(&w);
        ratio_line(&w, n);
    }
    for (i = 0; i < n->nb; i++) {
        sprinkle(&w);
        w.blk = i;
        block_write(&w, &n->b[n->order[i]]);
    }
    sprinkle(&w);
    Line *l = add(&w, T_ZZ);
    line_text(l, "ZZ");
    if (pct(s->ptext))
        l->len += text_random(l->t + 2, 78);
    i = between(1, 300);
    if (pct(6))
        deck_tail(d, i, rnd(4));
}

/* Bytes after ZZ are not read: anything may stand there. */
void deck_tail(Deck *d, int n, int how)
{
    static const char more[] = "KK MORE\nQI 1\nZZ\n*FREE\nIT 0\nID LATE\n\n\tTAB\n";
    int i;
    for (i = 0; i < n; i++) {
        switch (how) {
        case 0: d->tail[i] = (unsigned char)rnd(256); break;
        case 1: d->tail[i] = (unsigned char)more[i % (int)(sizeof more - 1)]; break;
        case 2: d->tail[i] = '\n'; break;
        default: d->tail[i] = (unsigned char)between(0x20, 0x7E); break;
        }
    }
    d->ntail = n;
}

int deck_bytes(const Deck *d, unsigned char *out)
{
    int i, n = 0;
    for (i = 0; i < d->nl; i++) {
        const Line *l = &d->l[i];
        if (i == d->padat && d->npad > 0) {
            memcpy(out + n, d->pad, (size_t)d->npad);
            n += d->npad;
        }
        memcpy(out + n, l->t, (size_t)l->len);
        n += l->len;
        if (i + 1 == d->nl && d->ntail == 0 && d->cut)
            break;
        /* no random choice here, so that lengths can be asked for twice */
        if (d->eol == 1 || (d->eol == 2 && (i * 7 + l->len) % 3 == 0))
            out[n++] = '\r';
        out[n++] = '\n';
    }
    memcpy(out + n, d->tail, (size_t)d->ntail);
    return n + d->ntail;
}

/* how: 0 bytes after ZZ, 1 KM lines, 2 KM and blank lines, 3 empty lines. */
void deck_fill(Deck *d, int target, int how)
{
    static unsigned char scratch[MAX_BYTES];
    int r, n = 0;
    d->npad = 0;
    if (d->nl == 0)
        return;
    if (how == 0) {
        d->cut = 0;
        d->ntail = 0;
        r = target - deck_bytes(d, scratch);
        if (r > 0)
            deck_tail(d, r, rnd(4));
        return;
    }
    d->padat = rnd(d->nl);
    r = target - deck_bytes(d, scratch);
    while (r > 0) {
        int c = how == 3 ? 1 : between(1, 81), i;
        if (how == 1 && pct(90)) c = 81;
        if (c > r) c = r;
        int len = c - 1;
        if (len >= 2 && (how == 1 || pct(50))) {
            memcpy(d->pad + n, "KM", 2);
            for (i = 2; i < len; i++)
                d->pad[n + i] = (unsigned char)('A' + (i + n) % 26);
        } else {
            memset(d->pad + n, ' ', (size_t)len);
        }
        d->pad[n + len] = '\n';
        n += c;
        r -= c;
    }
    d->npad = n;
}
