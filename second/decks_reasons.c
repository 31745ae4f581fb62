/* Cases of the reasons: single lines, sound and refused, the number and the form
   that a case names, and bytes behind the line. */
#include <stdio.h>
#include <string.h>
#include "decks.h"

#define COUNT(a) ((int)(sizeof(a) / sizeof((a)[0])))

enum { FIELDS = 10, FREE_WIDTH = 13 };

/* ---- what a field may hold ---- */

enum { NUMBER, WORD, UNREAD, UNNAMED };

typedef struct {
    int sort, places, low, high;
} Field;

static const struct {
    int tag, fields;               /* the last one goes on where it is a list */
    int list;
    Field f[4];
} records[] = {
    { T_IT, 4, 0, { { NUMBER, 0, 1, 1440 }, { UNREAD, 0, 0, 0 }, { UNREAD, 0, 0, 0 }, { NUMBER, 0, 1, LIMIT_NQ } } },
    { T_JR, 2, 1, { { WORD, 0, 0, 0 }, { NUMBER, 2, 1, LIMIT_RATIO } } },
    { T_BA, 1, 0, { { NUMBER, 2, 1, LIMIT_BA } } },
    { T_PB, 1, 0, { { NUMBER, 4, 0, LIMIT_PB } } },
    { T_LU, 3, 0, { { NUMBER, 4, 0, LIMIT_PI }, { NUMBER, 4, 0, LIMIT_PI }, { NUMBER, 2, 0, 0 } } },
    { T_HC, 1, 0, { { NUMBER, 0, 2, 5 } } },
    { T_RM, 3, 0, { { NUMBER, 0, 1, 50 }, { NUMBER, 2, 1, 2400 }, { NUMBER, 2, 0, 50 } } },
    { T_RS, 3, 0, { { NUMBER, 0, 1, 1 }, { WORD, 0, 0, 0 }, { NUMBER, 0, 0, 0 } } },
    { T_PI, 1, 1, { { NUMBER, 4, 0, LIMIT_PI } } },
    { T_UI, 1, 1, { { NUMBER, 2, 0, LIMIT_UI } } },
    { T_QI, 1, 1, { { NUMBER, 2, 0, LIMIT_QI } } },
    { T_SV, 1, 1, { { NUMBER, 2, 0, LIMIT_SV } } },
    { T_SQ, 1, 1, { { NUMBER, 2, 0, LIMIT_SQ } } }
};

static Field field_of(int record, int k)
{
    static const Field unnamed = { UNNAMED, 0, 0, 0 };
    int last = records[record].fields - 1;
    if (k <= last) return records[record].f[k];
    return records[record].list && k < FIELDS ? records[record].f[last] : unnamed;
}

static int width_of(int form, int k)
{
    return form == FREE ? FREE_WIDTH : k == 0 ? 6 : 8;
}

/* ---- values ---- */

/* v counted in the last place, also below 0; nothing where it does not fit */
static void value(char *out, int v, int places, int width, int vary)
{
    int below = v < 0;
    if (below) out[0] = '-';
    if (!number_write(out + below, below ? -v : v, places, width - below, vary))
        out[0] = 0;
    else if (pct(25))
        number_zeros(out, width);
}

static void sound_number(char *out, const Field *f, int width)
{
    int v = pct(25) ? f->low : pct(35) ? f->high : between(f->low, pct(50) ? f->high : f->low + (f->high - f->low) / 100);
    value(out, v, f->places, width, 30);
}

static void outside(char *out, const Field *f, int width)
{
    static const int far[] = { 999999999, -999999999, 99999999, 12345678, -100 };
    int v = f->high + 1;
    switch (rnd(6)) {
    case 0: v = f->low - 1; break;
    case 1: v = -between(1, 100000); break;
    case 2: v = far[rnd(COUNT(far))]; break;
    case 3: v = f->high + between(1, 1000); break;
    default: break;
    }
    value(out, v, f->places, width, 0);
}

/* one place or more too many, and perhaps zeros behind them */
static void too_fine(char *out, const Field *f, int width)
{
    int places = f->places + (pct(60) ? 1 : between(1, 9 - f->places)), i;
    const char *sign = pct(10) ? "-" : pct(10) ? "+" : "";
    const char *whole = pct(50) || places > 8 ? "" : pct(50) ? "0" : "7";
    char digits[16] = "";
    for (i = 0; i < places; i++)
        digits[i] = (char)('0' + (i == places - 1 ? between(1, 9) : pct(40) ? 0 : rnd(10)));
    if (snprintf(out, 16, "%s%s.%s", sign, whole, digits) > width)
        snprintf(out, 16, ".%.*s5", f->places, "0000");
    if (pct(40))
        number_zeros(out, width);
}

static const char *const misshapen[] = {
    "X", "1X", "1-", "--1", "+", "-", ".", "1.2.3", "1E3", "0x1", "'1'", "1,000", "1 2", "ABCDEF", "$5", "1/2", "+-1", "..", "5.5.", "-."
};
static const char *const ten_digits[] = {
    "0000000001", "1234567890", "1.000000000", "0.000000000", "0.123456789", "1.560000000", "00000000.00"
};
static const char *const words[] = {
    "PREC", "STOR", "prec", "stor", "Prec", "PRE", "STO", "PRECX", "STORE", "PREC1", "CERP", "ROTS", "FLOW", "ELEV", "1", "0", "1.00", "P", "PREC.",
    "-STOR", "'PREC", "PR EC", "ST OR", "PREC,1", "STOR R", "PRECIPITATION", "RESERVOIR", "A", "~~~~", "!"
};

enum { BLANK_FIELD = 0, SOUND_FIELD = 1, SPOILT_6 = 6, SPOILT_7 = 7 };

/* Unnamed fields and the words have one manner of being spoilt. */
static void fill(char *out, int form, int record, int k, int how)
{
    Field f = field_of(record, k);
    int width = width_of(form, k), r = rnd(100);
    const char *text = "";
    out[0] = 0;
    if (how == BLANK_FIELD)
        return;
    if (f.sort == NUMBER && how == SOUND_FIELD) {
        sound_number(out, &f, width);
        return;
    }
    if (f.sort == NUMBER && how == SPOILT_7) {
        outside(out, &f, width);
        return;
    }
    if (f.sort == NUMBER && r < 40) {
        too_fine(out, &f, width);
        return;
    }
    if (f.sort == WORD)
        text = how != SOUND_FIELD ? words[rnd(COUNT(words))] : records[record].tag == T_JR ? "PREC" : "STOR";
    else if (f.sort == UNREAD)
        text = misshapen[rnd(COUNT(misshapen))];
    else if (f.sort == UNNAMED)
        text = how == SOUND_FIELD ? "" : pct(40) ? "0" : pct(50) ? "1" : misshapen[rnd(COUNT(misshapen))];
    else
        text = r < 90 ? misshapen[rnd(COUNT(misshapen))] : ten_digits[rnd(COUNT(ten_digits))];
    if (form == FREE && strpbrk(text, " ,") != NULL && pct(80))
        text = "Y";
    if ((int)strlen(text) <= width)
        strcpy(out, text);
}

/* ---- lines of a record ---- */

static void commas(Line *l)
{
    int c = pct(50) ? between(1, 3) : between(1, 12);
    while (c-- > 0 && l->len < 79) {
        l->t[l->len++] = ',';
        if (pct(20)) l->t[l->len++] = ' ';
    }
}

static int record_of(int tag)
{
    int k = 0;
    while (records[k].tag != tag)
        k++;
    return k;
}

/* records with several fields of their own come twice as often */
static int any_record(void)
{
    static const int several[] = { T_JR, T_LU, T_RM, T_RS };
    int r = rnd(COUNT(records) + COUNT(several));
    return r < COUNT(records) ? r : record_of(several[r - COUNT(records)]);
}

static int how_spoilt(int number)
{
    return pct(75) ? number : SPOILT_6 + SPOILT_7 - number;
}

/* How many fields: those of the record mostly, fewer, or more. */
static int count_of(int record)
{
    int count = records[record].fields;
    if (records[record].list)
        count = between(count - 1, FIELDS);
    if (pct(15)) return rnd(count + 1);
    return pct(15) ? between(count, FIELDS) : count;
}

/* A line of any record: sound but for some fields, which may be none, one, or
   several, mostly refused by that number. */
static void record_line(Line *l, int number)
{
    Style style;
    int record = any_record(), spoilt, k, chance = pct(25) ? 40 : 0, sound = pct(15);
    do {
        style_random(&style);
        l->tag = records[record].tag;
        l->form = rnd(2);
        l->nf = count_of(record);
        spoilt = sound || l->nf == 0 ? -1 : rnd(l->nf);
        for (k = 0; k < l->nf; k++) {
            int how = k == spoilt || pct(chance) ? how_spoilt(number) : pct(8) ? BLANK_FIELD : SOUND_FIELD;
            fill(l->f[k], l->form, record, k, how);
        }
    } while (!line_compose(l, &style));
    if (l->form == FREE && pct(l->tag == T_JR ? 50 : 20))
        commas(l);
}

/* Where a refused field can stand: each named one, any of a list, and one behind
   the named ones; in turn, not by chance, so that a few hundred cases have all. */
static int find_place(int place, int *record, int *k)
{
    int all = 0, i;
    for (i = 0; i < COUNT(records); i++) {
        int here = records[i].fields + !records[i].list;
        if (place >= all && place < all + here) {
            *record = i;
            *k = place - all;
        }
        all += here;
    }
    return all;
}

/* One field that is refused by that number, and sound ones before it. */
static int placed_line(Line *l, int turn)
{
    Style style;
    int record = 0, at = 0, places = find_place(0, &record, &at), number, k;
    number = turn / places % 2 == 0 ? SPOILT_6 : SPOILT_7;
    find_place(turn % places, &record, &at);
    if (records[record].list && at == records[record].fields - 1 && pct(65))
        at = between(at, FIELDS - 1);
    do {
        style_random(&style);
        l->tag = records[record].tag;
        l->form = turn / (2 * places) % 2;
        l->nf = at + 1;
        for (k = 0; k < at; k++)
            fill(l->f[k], l->form, record, k, SOUND_FIELD);
        do {
            fill(l->f[at], l->form, record, at, number);
        } while (l->f[at][0] == 0 && !pct(20));
    } while (!line_compose(l, &style));
    return number;
}

/* Sound ratios, and blank fields behind them, which are none. */
static void blank_ratios(Line *l)
{
    Style style;
    int record = record_of(T_JR), k;
    do {
        style_random(&style);
        l->tag = T_JR;
        l->form = FREE;
        l->nf = between(2, 6);
        for (k = 0; k < l->nf; k++)
            fill(l->f[k], FREE, record, k, SOUND_FIELD);
    } while (!line_compose(l, &style));
    commas(l);
}

/* Eleven fields or twelve, short ones, and what no record names at the end. */
static void eleven_fields(Line *l, int number)
{
    Style style;
    int record = pct(60) ? between(record_of(T_PI), COUNT(records) - 1) : pct(40) ? record_of(T_JR) : any_record(), k;
    do {
        style_random(&style);
        l->tag = records[record].tag;
        l->form = FREE;
        l->nf = between(FIELDS + 1, 12);
        for (k = 0; k < l->nf; k++)
            strcpy(l->f[k], k >= FIELDS && pct(70) ? "0" : pct(85) ? "1" : "");
        if (l->tag == T_JR)
            strcpy(l->f[0], "PREC");
        if (pct(30)) {
            k = rnd(FIELDS);
            fill(l->f[k], FREE, record, k, how_spoilt(number));
        }
    } while (!line_compose(l, &style));
}

/* One value far behind, and nothing before it but perhaps a word. */
static void far_field(Line *l)
{
    int tag = records[rnd(COUNT(records))].tag, c = between(1, 40);
    const char *first = tag == T_JR && pct(70) ? "PREC,1" : "", *last = misshapen[rnd(COUNT(misshapen))];
    l->form = FREE;
    l->len = sprintf((char *)l->t, "%s %s", tag_ident(tag), first);
    while (c-- > 0)
        l->t[l->len++] = ',';
    l->len += sprintf((char *)l->t + l->len, "%s", last);
}

/* ---- other lines ---- */

static void name_line(Line *l)
{
    static const char *const odd[] = {
        "KK", "KK     ", "KK,UP", "KK ,", "KK , UP", "KK SEVENCH", "KKSEVENCH", "KK ABCDEFG,", "KK,", "KK RESERVOIR TWO", "KK   ,A", "KK A B", "KKA B",
        "KK UP RIVER", "KK      UP", "KKA    B", "KK A B  TEXT", "KKABCD E", "KK , ,", "KK       NAME", "KKABCDEF", "KKABCDEFGH", "KK A,B"
    };
    unsigned char name[6];
    int i, n = between(1, 6);
    l->form = rnd(2);
    if (pct(50)) {
        line_text(l, odd[rnd(COUNT(odd))]);
    } else if (pct(60)) {
        for (i = 0; i < n; i++)
            name[i] = (unsigned char)(pct(85) ? between('A', 'Z') : between(0x21, 0x7E));
        line_name(l, name, n, 40);
    } else {
        memcpy(l->t, "KK", 2);
        l->len = 2 + text_random(l->t + 2, 78);
    }
}

static void text_line(Line *l)
{
    static const char *const idents[] = { "ID", "KM", "ZZ", "ID", "KM", "ZZ", "  ", "*F" };
    static const char *const whole[] = { "*FREE", "*FIX", "*FREE   ", "*FIX  ", "", "    ", "KM BA X", "ID,,,,,,,,,,,,X", "ZZ 1" };
    l->form = rnd(2);
    if (pct(50)) {
        line_text(l, whole[rnd(COUNT(whole))]);
        return;
    }
    memcpy(l->t, idents[rnd(COUNT(idents))], 2);
    l->len = 2 + text_random(l->t + 2, 78);
}

/* Meets 4: the identifier of a record or name line becomes another. */
static void unknown_line(Line *l, int number)
{
    static const char *const unknown[] = { "XX", "ba", "It", "K ", "LS", "IN", "B", " B", "*F", "**", "*f", "QQ", "J1", "IU", "S" };
    const char *ident = unknown[rnd(COUNT(unknown))];
    if (pct(30)) name_line(l);
    else record_line(l, number);
    memcpy(l->t, ident, strlen(ident));
    if (strlen(ident) == 1)
        l->len = 1;
    if (pct(10))
        line_text(l, pct(50) ? "*FREEX" : "*FREE 1");
}

/* Meets 3: a foreign byte, or more than 80; or has 80 just. */
static void wrong_line(Line *l, int number)
{
    static const unsigned char foreign[] = { 0, 1, 9, 11, 13, 0x1B, 0x1F, 0x7F, 0x80, 0xA0, 0xC3, 0xFF };
    int to = pct(50) ? 81 : pct(40) ? 80 : between(82, 150), r = rnd(100), at;
    if (pct(20)) name_line(l);
    else record_line(l, number);
    at = r < 50 ? rnd(l->len) : l->len;
    if (r < 60) {
        l->t[at] = foreign[rnd(COUNT(foreign))];
        if (at == l->len) l->len++;
    } else {
        while (l->len < to)
            l->t[l->len++] = r < 80 ? ' ' : (unsigned char)(pct(20) ? ' ' : pct(50) ? ',' : '1');
    }
}

/* ---- the case ---- */

static int put(unsigned char *out, int n, const char *text)
{
    memcpy(out + n, text, strlen(text));
    return n + (int)strlen(text);
}

/* What stands behind the line is not looked at. */
static int bytes_behind(unsigned char *out, int n, int many)
{
    static const char *const lines[] = { "BA X\n", "KK NAME\n", "IT 0,,,0\n", "*FREE\n", "*FIX\n", "ZZ\n", "\n\n", "JR FLOW\n", "\t\x01\xFF", "QI 1,2x" };
    int r = rnd(100), c;
    if (r < 25 && !many)
        return n;
    n = put(out, n, r < 60 ? "\n" : r < 95 ? "\r\n" : r < 97 ? "\r" : r < 98 ? "\r\r\n" : "\n");
    if (pct(50) && !many)
        return n;
    for (c = between(1, 3); c > 0; c--)
        n = put(out, n, lines[rnd(COUNT(lines))]);
    if (many) {                                    /* as a deck may not have */
        c = pct(50) ? LIMIT_BYTES + between(1, 2) : between(LIMIT_BYTES + 1, 150000);
        memset(out + n, pct(50) ? ' ' : 'X', (size_t)(c - n));
        n = c;
    }
    return n;
}

static uint32_t number_named(void)
{
    static const uint32_t others[] = { 0, 1, 3, 5, 8, 13, 262, 1542, 0x06000000u, 0xFFFFFFFFu, 0x60000u };
    int r = rnd(100);
    return r < 46 ? 6u : r < 92 ? 7u : others[rnd(COUNT(others))];
}

static uint32_t form_named(int form)
{
    static const uint32_t others[] = { 2, 256, 65536, 0x01000000u, 0x80000000u, 0xFFFFFFFFu };
    if (pct(8)) form = !form;
    if (form == FIXED) return 0;
    return pct(85) ? 1u : others[rnd(COUNT(others))];
}

/* Two of five have a refused field in its turn.  Returns the length of the bytes. */
int reason_case(int index, uint32_t *number, uint32_t *form, unsigned char *out)
{
    static Line l;
    int r = rnd(100), wanted, placed = index % 5 < 2;
    memset(&l, 0, sizeof l);
    *number = number_named();
    wanted = *number == 6 ? SPOILT_6 : SPOILT_7;
    if (placed) *number = (uint32_t)placed_line(&l, index / 5 * 2 + index % 5);
    else if (r < 50) record_line(&l, wanted);
    else if (r < 56) eleven_fields(&l, wanted);
    else if (r < 62) far_field(&l);
    else if (r < 65) blank_ratios(&l);
    else if (r < 77) name_line(&l);
    else if (r < 84) text_line(&l);
    else if (r < 90) unknown_line(&l, wanted);
    else if (r < 97) wrong_line(&l, wanted);
    *form = placed ? (uint32_t)l.form : form_named(l.form);
    if (r >= 97 && !placed)                        /* any bytes, or none */
        return pct(30) ? 0 : degenerate(out) % 500;
    memcpy(out, l.t, (size_t)l.len);
    return bytes_behind(out, l.len, index % 500 == 250);
}
